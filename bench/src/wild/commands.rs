use crate::kind::Kind;
use crate::random::Random;
use crate::records::{Record, instruct, receive, restore, save, send};
use crate::reference::record::{Command, decode};
use crate::reference::sheet::Use;
use crate::reference::work::Making;
use crate::reference::{PARTS, PORTS};

/// What a part has a right to.
#[derive(Clone, Debug, Default)]
struct Rights {
    readable: Vec<u16>,
    writable: Vec<u16>,
    sends: Vec<u8>,
    receives: Vec<u8>,
}

/// Makes random commands for a rig. It follows the turn, so that most of them are sensible.
#[derive(Clone, Debug)]
pub struct Writer {
    rights: Vec<Rights>,
    /// The parts that have a right to something; all where none has.
    cast: Vec<u8>,
    codes: &'static [(u8, usize, usize)],
    size: usize,
    turn: Option<u8>,
    /// A command that is to come so many times more.
    again: Option<(Record, usize)>,
}

impl Writer {
    pub fn new<S: Kind>(making: &Making<S>) -> Self {
        let size = making.sheet.size();
        let cells = |part, usage| (0..size as u16).filter(|cell| making.sheet.may_touch(*cell, part, usage)).collect();
        let rights: Vec<Rights> = (0..PARTS as u8)
            .map(|part| Rights {
                readable: cells(part, Use::Read),
                writable: cells(part, Use::Write),
                sends: (0..PORTS as u8).filter(|port| making.ports.may_send(*port, part)).collect(),
                receives: (0..PORTS as u8).filter(|port| making.ports.may_receive(*port, part)).collect(),
            })
            .collect();
        let swaps = making.sheet.swaps().len();
        let mut cast: Vec<u8> = (0..PARTS as u8)
            .filter(|part| {
                let own = &rights[usize::from(*part)];
                own.readable.len() > swaps || own.writable.len() > swaps || !own.sends.is_empty()
            })
            .collect();
        if cast.is_empty() {
            cast = (0..PARTS as u8).collect();
        }
        Writer { rights, cast, codes: S::CODES, size, turn: None, again: None }
    }

    /// Tells whose turn it really is.
    pub fn set_turn(&mut self, turn: Option<u8>) {
        self.turn = turn;
    }

    pub fn command(&mut self, random: &mut Random) -> Record {
        if let Some((record, more)) = self.again {
            self.again = (more > 1).then(|| (record, more - 1));
            return record;
        }
        let mut record = self.sensible(random);
        if random.rarely(50) {
            damage(random, &mut record);
        }
        match decode(&record) {
            Ok(Command::Restore) if self.turn.is_none() && record[2] < 8 => self.turn = Some(record[2]),
            Ok(Command::Save) if self.turn == Some(record[2]) => self.turn = None,
            Ok(Command::Send { .. }) if random.rarely(2) => self.again = Some((record, random.within(200, 300))),
            _ => {}
        }
        record
    }

    fn sensible(&self, random: &mut Random) -> Record {
        let anybody = random.pick(&self.cast).unwrap_or(0);
        match self.turn {
            None => match random.below(20) {
                0 => save(anybody),
                1 => self.work(random, anybody),
                2 => restore(random.below(10) as u8),
                _ => restore(anybody),
            },
            Some(part) => match random.below(100) {
                0 => restore(anybody),
                1 => save(anybody),
                2 | 3 => self.work(random, anybody),
                4..=12 => save(part),
                _ => self.work(random, part),
            },
        }
    }

    fn work(&self, random: &mut Random, part: u8) -> Record {
        let Some(own) = self.rights.get(usize::from(part)) else {
            return restore(part);
        };
        let port = |random: &mut Random, ports: &[u8]| match random.below(30) {
            0 => random.below(PORTS + 2) as u8,
            _ => random.pick(ports).unwrap_or(0),
        };
        match random.below(10) {
            0 | 1 if !own.sends.is_empty() || random.rarely(100) => {
                send(part, port(random, &own.sends), &self.cells(random, &own.readable, 0, 4))
            }
            2 | 3 if !own.receives.is_empty() || random.rarely(100) => {
                receive(part, port(random, &own.receives), &self.cells(random, &own.writable, 0, 4))
            }
            _ => {
                let (code, least, most) = self.code(random);
                let args = self.cells(random, &own.readable, least, most);
                instruct(part, code, &args, &self.cells(random, &own.writable, 0, 4))
            }
        }
    }

    /// A code and how many elements to give it.
    fn code(&self, random: &mut Random) -> (u8, usize, usize) {
        match random.below(50) {
            0 => (random.byte(), 0, 8),
            1 => (random.below(9) as u8, 0, 8),
            _ => random.pick(self.codes).unwrap_or((1, 0, 4)),
        }
    }

    fn cells(&self, random: &mut Random, own: &[u16], least: usize, most: usize) -> Vec<u16> {
        let count = if own.is_empty() && least == 0 && random.rarely(900) { 0 } else { random.within(least, most) };
        let near = random.below(own.len());
        (0..count)
            .map(|_| match random.below(300) {
                0 => random.below(self.size + 2) as u16,
                1 => random.word() as u16,
                // The same few cells again and again, so that cells are named twice.
                2..100 => own.get((near + random.below(2)) % own.len().max(1)).copied().unwrap_or(0),
                _ => random.pick(own).unwrap_or(0),
            })
            .collect()
    }
}

fn damage(random: &mut Random, record: &mut Record) {
    match random.below(9) {
        0 => record[3] = random.byte(),
        1 => record[3] = random.below(7) as u8,
        2 => record[2] = random.byte(),
        3 => record[2] = 8,
        4 => record[6] = random.below(12) as u8,
        5 => record[7] = random.below(12) as u8,
        6 => record.iter_mut().for_each(|byte| *byte = random.byte()),
        _ => record[random.within(4, 31)] = 1 + random.below(255) as u8,
    }
}
