//! What the machine and the separate boxes have in common: the checks, and what work does to cells and ports.

use super::element::Element;
use super::log::Answer;
use super::ports::Ports;
use super::queue::Queues;
use super::record::Command;
use super::refusal::Refusal;
use super::set::InstructionSet;
use super::sheet::{Sheet, Use};
use super::{MOST_ARGS, MOST_RESULTS, PARTS};

/// What a host is made of, but for its cells.
#[derive(Clone, Debug)]
pub struct Making<S> {
    pub set: S,
    pub sheet: Sheet,
    pub ports: Ports,
}

/// The two lists that a command is lent.
#[derive(Debug)]
pub struct Scratch<'a, E> {
    pub args: &'a mut [E],
    pub results: &'a mut [E],
}

impl<E: Element> Scratch<'_, E> {
    pub fn is_enough(&self) -> bool {
        self.args.len() >= MOST_ARGS && self.results.len() >= MOST_RESULTS
    }

    pub fn clear(&mut self) {
        self.args.fill(E::NULL);
        self.results.fill(E::NULL);
    }
}

/// Which turns are open, as far as a check may know.
#[derive(Clone, Copy, Debug)]
pub struct Turns {
    pub any: bool,
    pub own: bool,
}

impl<S: InstructionSet> Making<S> {
    /// Refusals 9 to 12, in this order.
    pub fn check(&self, part: u8, command: &Command, turns: Turns) -> Result<(), Refusal> {
        if usize::from(part) >= PARTS {
            return Err(Refusal::Part);
        }
        let has_turn = match command {
            Command::Restore => !turns.any,
            _ => turns.own,
        };
        if !has_turn {
            return Err(Refusal::Turn);
        }
        match command {
            Command::Restore | Command::Save => Ok(()),
            Command::Instruct { args, results, .. } => {
                self.check_cells(part, args.as_slice(), Use::Read)?;
                self.check_cells(part, results.as_slice(), Use::Write)
            }
            Command::Send { port, args } => {
                if !self.ports.may_send(*port, part) {
                    return Err(Refusal::Port);
                }
                self.check_cells(part, args.as_slice(), Use::Read)
            }
            Command::Receive { port, results } => {
                if !self.ports.may_receive(*port, part) {
                    return Err(Refusal::Port);
                }
                self.check_cells(part, results.as_slice(), Use::Write)
            }
        }
    }

    fn check_cells(&self, part: u8, cells: &[u16], usage: Use) -> Result<(), Refusal> {
        let first = match usage {
            Use::Read => 0,
            Use::Write => MOST_ARGS,
        };
        match cells.iter().position(|cell| !self.sheet.may_touch(*cell, part, usage)) {
            Some(n) => Err(Refusal::Right((first + n) as u8)),
            None => Ok(()),
        }
    }

    /// Does a checked instruct, send or receive. Refusal 13 is the only one left, and alters nothing.
    pub fn work(
        &self,
        command: &Command,
        cells: &mut [S::Element],
        queues: &mut Queues<S::Element>,
        scratch: &mut Scratch<S::Element>,
    ) -> Result<Answer, Refusal> {
        match command {
            Command::Restore | Command::Save => Ok(Answer::NOTHING),
            Command::Instruct { code, args, results } => {
                let args = gather(cells, args.as_slice(), scratch.args);
                let count = self.set.call(*code, args, scratch.results).map_err(Refusal::Set)?;
                let values = &scratch.results[..count];
                scatter(cells, results.as_slice(), values);
                Ok(Answer::new(0, values))
            }
            Command::Send { port, args } => {
                let values = gather(cells, args.as_slice(), scratch.args);
                queues.send(*port, values);
                Ok(Answer::new(0, values))
            }
            Command::Receive { port, results } => {
                let (count, missed) = queues.receive(*port, scratch.results);
                let values = &scratch.results[..count];
                scatter(cells, results.as_slice(), values);
                Ok(Answer::new(missed, values))
            }
        }
    }
}

/// Reads the named cells into the first places and gives these places.
fn gather<'a, E: Element>(cells: &[E], named: &[u16], places: &'a mut [E]) -> &'a [E] {
    let places = &mut places[..named.len()];
    for (place, cell) in places.iter_mut().zip(named) {
        *place = cells[usize::from(*cell)];
    }
    places
}

/// Named cell i takes value i, or null where the values run short. From last to first, so that of a
/// cell named twice the earlier place counts.
fn scatter<E: Element>(cells: &mut [E], named: &[u16], values: &[E]) {
    for (n, cell) in named.iter().enumerate().rev() {
        cells[usize::from(*cell)] = values.get(n).copied().unwrap_or(E::NULL);
    }
}
