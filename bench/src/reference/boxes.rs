use super::PARTS;
use super::element::Element;
use super::log::{Answer, LogRecord};
use super::queue::Queues;
use super::record::{Command, decode};
use super::refusal::Refusal;
use super::set::InstructionSet;
use super::show::RECORD;
use super::work::{Making, Scratch, Turns};

/// A box of one part's own.
#[derive(Clone, Debug)]
struct Own<E> {
    cells: Vec<E>,
    open: bool,
}

/// Separate boxes, one a part, that have nothing in common but the ports.
#[derive(Clone, Debug)]
pub struct Boxes<S: InstructionSet> {
    making: Making<S>,
    boxes: [Own<S::Element>; PARTS],
    queues: Queues<S::Element>,
}

impl<S: InstructionSet> Boxes<S> {
    /// As many cells as the sheet says.
    pub fn new(making: Making<S>, mut cells: Vec<S::Element>) -> Self {
        for cell in making.sheet.swaps() {
            cells[usize::from(*cell)] = S::Element::NULL;
        }
        let boxes = std::array::from_fn(|_| Own { cells: cells.clone(), open: false });
        Boxes { making, boxes, queues: Queues::new() }
    }

    /// Answers a request as the part's box does.
    pub fn command(&mut self, place: u32, bytes: &[u8], scratch: &mut Scratch<S::Element>) -> LogRecord {
        match <&[u8; RECORD]>::try_from(bytes) {
            Ok(record) => LogRecord::new(place, record[2], record[3], self.answer(record, scratch)),
            Err(_) => LogRecord::new(place, 0, 0, Err(Refusal::Length)),
        }
    }

    fn answer(&mut self, record: &[u8; RECORD], scratch: &mut Scratch<S::Element>) -> Result<Answer, Refusal> {
        if !scratch.is_enough() {
            return Err(Refusal::Scratch);
        }
        let part = record[2];
        let command = decode(record)?;
        let turns = Turns {
            any: self.boxes.iter().any(|own| own.open),
            own: self.boxes.get(usize::from(part)).is_some_and(|own| own.open),
        };
        self.making.check(part, &command, turns)?;
        let own = &mut self.boxes[usize::from(part)];
        match command {
            Command::Restore => own.open = true,
            Command::Save => own.open = false,
            _ => return self.making.work(&command, &mut own.cells, &mut self.queues, scratch),
        }
        Ok(Answer::NOTHING)
    }
}
