use crate::random::Random;
use crate::records::{Record, link};
use crate::reference::show::{MOST_RECORDS, RECORD};

/// A show file whose chain has these commands; they may stand in any order, with other records between them.
pub fn file(random: &mut Random, commands: &[Record]) -> Vec<u8> {
    let least = commands.len() + 1;
    let count = (least + if random.rarely(500) { random.below(6) } else { 0 }).min(MOST_RECORDS);
    let mut places: Vec<usize> = (1..count).collect();
    if random.rarely(600) {
        random.shuffle(&mut places);
    }
    let mut records: Vec<Record> = vec![[0; RECORD]];
    records.resize_with(count, || std::array::from_fn(|_| random.byte()));
    let mut before = 0;
    for (command, place) in commands.iter().zip(places) {
        records[place] = *command;
        link(&mut records[before], place as u16);
        before = place;
    }
    link(&mut records[before], 0);
    records.concat()
}

/// A file that is broken in one way, or at least may be.
pub fn broken(random: &mut Random, commands: &[Record]) -> Vec<u8> {
    let mut bytes = file(random, commands);
    let count = bytes.len() / RECORD;
    match random.below(8) {
        0 => bytes.clear(),
        1 => bytes.truncate(random.below(bytes.len())),
        2 => bytes.resize(bytes.len() + random.within(1, 31), 0),
        3 => bytes.resize(RECORD * (MOST_RECORDS + random.within(1, 3)), 0),
        4 => bytes[random.within(2, RECORD - 1)] = 1 + random.below(255) as u8,
        5 => {
            let next = if random.rarely(500) { count as u16 } else { random.word() as u16 };
            set_next(&mut bytes, random.below(count), next);
        }
        6 => {
            let next = random.below(count) as u16;
            set_next(&mut bytes, random.below(count), next);
        }
        _ => {
            let at = random.below(bytes.len());
            bytes[at] = random.byte();
        }
    }
    bytes
}

fn set_next(bytes: &mut [u8], record: usize, next: u16) {
    bytes[record * RECORD..][..2].copy_from_slice(&next.to_le_bytes());
}
