use super::element::Element;
use super::log::{Answer, LogRecord};
use super::queue::Queues;
use super::record::{Command, decode};
use super::refusal::Refusal;
use super::set::InstructionSet;
use super::sheet::MOST_SWAPS;
use super::show::{RECORD, Show};
use super::work::{Making, Scratch, Turns};
use super::{MOST_ARGS, MOST_RESULTS, PARTS};

/// Why a run is not begun.
#[derive(Clone, Copy, Debug, PartialEq, Eq)]
pub enum RunFault {
    Scratch,
    Log,
}

impl RunFault {
    pub fn number(self) -> u32 {
        match self {
            RunFault::Scratch => 6,
            RunFault::Log => 5,
        }
    }
}

/// One host that all parts share.
#[derive(Clone, Debug)]
pub struct Machine<S: InstructionSet> {
    making: Making<S>,
    cells: Vec<S::Element>,
    rows: [[S::Element; MOST_SWAPS]; PARTS],
    turn: Option<u8>,
    queues: Queues<S::Element>,
}

impl<S: InstructionSet> Machine<S> {
    /// Where the number of cells is not the sheet's, a host is still given, and refuses every command.
    pub fn new(making: Making<S>, cells: Vec<S::Element>) -> Self {
        Machine { making, cells, rows: [[S::Element::NULL; MOST_SWAPS]; PARTS], turn: None, queues: Queues::new() }
    }

    /// Whether there are as many cells as the sheet says; refusal 19 where not.
    pub fn fits(&self) -> bool {
        self.cells.len() == self.making.sheet.size()
    }

    pub fn making(&self) -> &Making<S> {
        &self.making
    }

    pub fn cells(&self) -> &[S::Element] {
        &self.cells
    }

    /// Puts other cells in place of these, and gives these back.
    pub fn replace_cells(&mut self, cells: Vec<S::Element>) -> Vec<S::Element> {
        std::mem::replace(&mut self.cells, cells)
    }

    pub fn turn(&self) -> Option<u8> {
        self.turn
    }

    /// Does one command, of any bytes, and leaves the scratch null where it is long enough.
    pub fn command(&mut self, place: u32, bytes: &[u8], scratch: &mut Scratch<S::Element>) -> LogRecord {
        let record = match bytes.try_into() {
            Ok(record) => self.step(place, record, scratch),
            Err(_) => LogRecord::new(place, 0, 0, Err(Refusal::Length)),
        };
        if scratch.is_enough() {
            scratch.clear();
        }
        record
    }

    /// Does all commands of the show, one log record each, and tells how many.
    pub fn run(
        &mut self,
        show: &Show,
        log: &mut [LogRecord],
        scratch: &mut Scratch<S::Element>,
    ) -> Result<usize, RunFault> {
        if !scratch.is_enough() {
            return Err(RunFault::Scratch);
        }
        let log = log.get_mut(..show.commands()).ok_or(RunFault::Log)?;
        for (entry, (place, record)) in log.iter_mut().zip(show.chain()) {
            *entry = self.step(place, record, scratch);
        }
        if !log.is_empty() {
            scratch.clear();
        }
        Ok(log.len())
    }

    /// The same with scratch of its own.
    pub fn run_alone(&mut self, show: &Show, log: &mut [LogRecord]) -> Result<usize, RunFault> {
        let mut args = [S::Element::NULL; MOST_ARGS];
        let mut results = [S::Element::NULL; MOST_RESULTS];
        self.run(show, log, &mut Scratch { args: &mut args, results: &mut results })
    }

    fn step(&mut self, place: u32, record: &[u8; RECORD], scratch: &mut Scratch<S::Element>) -> LogRecord {
        let (part, kind) = (record[2], record[3]);
        LogRecord::new(place, part, kind, self.answer(part, record, scratch))
    }

    fn answer(
        &mut self,
        part: u8,
        record: &[u8; RECORD],
        scratch: &mut Scratch<S::Element>,
    ) -> Result<Answer, Refusal> {
        if !scratch.is_enough() {
            return Err(Refusal::Scratch);
        }
        if !self.fits() {
            return Err(Refusal::Misfit);
        }
        let command = decode(record)?;
        let turns = Turns { any: self.turn.is_some(), own: self.turn == Some(part) };
        self.making.check(part, &command, turns)?;
        match command {
            Command::Restore => self.restore(part),
            Command::Save => self.save(part),
            _ => return self.making.work(&command, &mut self.cells, &mut self.queues, scratch),
        }
        Ok(Answer::NOTHING)
    }

    fn restore(&mut self, part: u8) {
        let row = &self.rows[usize::from(part)];
        for (cell, saved) in self.making.sheet.swaps().iter().zip(row) {
            self.cells[usize::from(*cell)] = *saved;
        }
        self.turn = Some(part);
    }

    fn save(&mut self, part: u8) {
        let row = &mut self.rows[usize::from(part)];
        for (cell, saved) in self.making.sheet.swaps().iter().zip(row) {
            *saved = self.cells[usize::from(*cell)];
        }
        self.turn = None;
    }
}
