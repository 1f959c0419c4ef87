use crate::product;
use crate::random::Random;
use crate::reference::sheet::MOST_CELLS;
use crate::reference::{PARTS, PORTS};

/// One call that changes a rig.
#[derive(Clone, Copy, Debug)]
pub enum Call {
    Grant { cell: usize, part: u8, mode: u8 },
    Swap { cell: usize },
    Port { port: u8, senders: u8, receivers: u8 },
}

/// A rig as it is to be made.
#[derive(Clone, Debug)]
pub struct Plan {
    pub kind: u32,
    pub layers: u32,
    pub cells: usize,
    pub calls: Vec<Call>,
}

impl Plan {
    pub fn random(random: &mut Random) -> Self {
        let kind = match random.below(50) {
            0 => random.word(),
            n if n % 2 == 0 => product::LEVELS,
            _ => product::HEADS,
        };
        let layers = match random.below(60) {
            0 => random.word(),
            n => n as u32 % 3,
        };
        let cells = match random.below(100) {
            0 => 0,
            1 => MOST_CELLS + 1,
            2 => random.draw() as usize,
            3..=7 => MOST_CELLS,
            8..=27 => random.within(1, 8),
            28..=69 => random.within(9, 40),
            _ => random.within(41, MOST_CELLS - 1),
        };
        let mut calls = Vec::new();
        let room = cells.clamp(1, MOST_CELLS);
        let cast: Vec<u8> = (0..PARTS as u8).filter(|_| random.rarely(600)).collect();
        let share = random.within(20, 120);
        for _ in 0..room.min(300) * share / 100 {
            calls.push(grant(random, room, &cast));
        }
        let swaps = if random.rarely(100) { random.within(16, 24) } else { random.below(17) };
        for _ in 0..swaps {
            calls.push(Call::Swap { cell: cell(random, room) });
        }
        if random.rarely(500) {
            random.shuffle(&mut calls);
        } else {
            calls.reverse();
        }
        for _ in 0..random.below(9) {
            calls.push(port(random, &cast));
        }
        Plan { kind, layers, cells, calls }
    }
}

fn cell(random: &mut Random, room: usize) -> usize {
    match random.below(100) {
        0 => room + random.below(3),
        1 => random.draw() as usize,
        2 => 65536 + random.below(room),
        _ => random.below(room),
    }
}

fn part(random: &mut Random, cast: &[u8]) -> u8 {
    match random.below(100) {
        0 => 8,
        1 => random.byte(),
        2 => 8 + random.below(8) as u8,
        _ => random.pick(cast).unwrap_or(0),
    }
}

fn grant(random: &mut Random, room: usize, cast: &[u8]) -> Call {
    let mode = match random.below(50) {
        0 => 4,
        1 => random.byte(),
        n => n as u8 % 4,
    };
    Call::Grant { cell: cell(random, room), part: part(random, cast), mode }
}

/// Few senders and receivers, so that parts are upstream of some and not of all.
fn port(random: &mut Random, cast: &[u8]) -> Call {
    let port = match random.below(20) {
        0 => 16,
        1 => random.byte(),
        _ => random.below(PORTS) as u8,
    };
    let most = random.within(1, 3);
    let mut set = || match random.below(12) {
        0 => 0,
        1 => random.byte(),
        _ => (0..most).filter_map(|_| random.pick(cast)).fold(0, |set, part| set | 1 << part),
    };
    Call::Port { port, senders: set(), receivers: set() }
}
