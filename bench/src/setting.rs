//! A rig and a full show for measuring.

use crate::kind::Kind;
use crate::product::{self, Host, Rig};
use crate::random::Random;
use crate::records::{self, Record, instruct, receive, restore, save, send};
use crate::reference::element::{Element, unpack_all};
use crate::reference::machine::Machine;
use crate::reference::ports::Ports;
use crate::reference::sheet::Sheet;
use crate::reference::work::Making;

/// How many commands the largest show has.
pub const MOST_COMMANDS: usize = 2047;
/// Commands of a turn, its restore and save counted in.
const TURN: usize = 16;

/// Cell n is swapped for n below `swaps`; the others go round the parts.
#[derive(Clone, Copy, Debug)]
pub struct Setting {
    pub layers: u32,
    pub cells: usize,
    pub parts: u8,
    pub swaps: usize,
}

impl Setting {
    pub const USUAL: Setting = Setting { layers: 0, cells: 64, parts: 4, swaps: 4 };

    fn owner(&self, cell: usize) -> u8 {
        ((cell - self.swaps) % usize::from(self.parts)) as u8
    }

    /// Part p sends to port p; the next part receives from it.
    fn receiver(&self, part: u8) -> u8 {
        (part + 1) % self.parts
    }

    pub fn machine<S: Kind>(&self) -> Machine<S> {
        let mut sheet = Sheet::new(self.cells).expect("1 to 512 cells");
        let mut ports = Ports::default();
        for cell in 0..self.cells {
            if cell < self.swaps {
                sheet.swap(cell).expect("at most 16 swapped cells");
            } else {
                sheet.grant(cell, self.owner(cell), 3).expect("nobody has it");
            }
        }
        for part in 0..self.parts {
            ports.set(part, 1 << part, 1 << self.receiver(part)).expect("a port below 16");
        }
        Machine::new(Making { set: S::default(), sheet, ports }, unpack_all(&self.words::<S>()))
    }

    pub fn host<S: Kind>(&self) -> Host {
        let (mut rig, refusal) = Rig::new(S::NUMBER, self.layers, self.cells);
        assert_eq!(refusal, 0);
        for cell in 0..self.cells {
            let refusal = if cell < self.swaps { rig.swap(cell) } else { rig.grant(cell, self.owner(cell), 3) };
            assert_eq!(refusal, 0);
        }
        for part in 0..self.parts {
            assert_eq!(rig.port(part, 1 << part, 1 << self.receiver(part)), 0);
        }
        let (host, refusal) = Host::make(&rig, &self.words::<S>());
        assert_eq!(refusal, 0);
        host
    }

    /// The cells at first, packed.
    pub fn words<S: Kind>(&self) -> Vec<u32> {
        let mut random = Random::new(3);
        (0..self.cells).flat_map(|_| S::Element::unpack([random.word(), random.word()]).pack()).collect()
    }

    /// A full show: turns of the parts one after the other, each with a receive, instructs and a send, and here and
    /// there a command that is refused.
    pub fn show<S: Kind>(&self) -> Vec<u8> {
        let mut random = Random::new(7);
        let mut commands = Vec::with_capacity(MOST_COMMANDS);
        for turn in 0.. {
            let room = MOST_COMMANDS - commands.len();
            if room == 0 {
                break;
            }
            let part = (turn % usize::from(self.parts)) as u8;
            // The last turn takes what is left, so that no turn stays open.
            let length = if room < 2 * TURN { room } else { TURN };
            commands.push(restore(part));
            commands.extend((2..length).map(|n| self.work::<S>(&mut random, part, n)));
            commands.push(save(part));
        }
        records::show(&commands)
    }

    fn work<S: Kind>(&self, random: &mut Random, part: u8, n: usize) -> Record {
        let sender = (part + self.parts - 1) % self.parts;
        match n {
            2 => receive(part, sender, &self.some(random, part, 3)),
            9 | 15 => send(part, part, &self.some(random, part, 3)),
            12 => self.refused(random, part),
            _ => {
                let choice = random.below(S::CODES.len());
                let (code, least, most) = S::CODES[choice];
                let count = random.within(least.max(1), most);
                let results = random.within(1, 2);
                instruct(part, code, &self.some(random, part, count), &self.some(random, part, results))
            }
        }
    }

    /// Refusals 8, 10, 12 and 13.
    fn refused(&self, random: &mut Random, part: u8) -> Record {
        match random.below(4) {
            0 => instruct(part, 1, &self.some(random, part, 2), &[self.cells as u16]),
            1 => instruct(part, 4, &self.some(random, part, 3), &[]),
            2 => restore(part),
            _ => {
                let mut record = save(part);
                record[31] = 1;
                record
            }
        }
    }

    /// Some cells that the part has a right to.
    fn some(&self, random: &mut Random, part: u8, count: usize) -> Vec<u16> {
        let own: Vec<u16> = (0..self.cells)
            .filter(|cell| *cell < self.swaps || self.owner(*cell) == part)
            .map(|cell| cell as u16)
            .collect();
        (0..count).filter_map(|_| random.pick(&own)).collect()
    }
}

/// A log that is long enough for every show.
pub fn full_log() -> Vec<product::Record> {
    vec![product::Record::default(); MOST_COMMANDS]
}
