use super::refusal::Refusal;
use super::show::RECORD;
use super::{MOST_ARGS, MOST_RESULTS};

pub const RESTORE: u8 = 1;
pub const SAVE: u8 = 2;
pub const INSTRUCT: u8 = 3;
pub const SEND: u8 = 4;
pub const RECEIVE: u8 = 5;

/// How many cells a send may name.
const MOST_SENT: usize = 4;
const ARGS_AT: usize = 8;
const RESULTS_AT: usize = 24;

/// The cells that a record names.
#[derive(Clone, Copy, Debug, PartialEq, Eq)]
pub struct CellList<const N: usize> {
    cells: [u16; N],
    count: usize,
}

impl<const N: usize> CellList<N> {
    fn read(bytes: &[u8], count: u8) -> Self {
        let mut cells = [0; N];
        for (cell, pair) in cells.iter_mut().zip(bytes.as_chunks().0) {
            *cell = u16::from_le_bytes(*pair);
        }
        CellList { cells, count: usize::from(count) }
    }

    pub fn as_slice(&self) -> &[u16] {
        &self.cells[..self.count]
    }
}

#[derive(Clone, Copy, Debug, PartialEq, Eq)]
pub enum Command {
    Restore,
    Save,
    Instruct { code: u8, args: CellList<MOST_ARGS>, results: CellList<MOST_RESULTS> },
    Send { port: u8, args: CellList<MOST_SENT> },
    Receive { port: u8, results: CellList<MOST_RESULTS> },
}

/// What a record asks. The part is not looked at.
pub fn decode(record: &[u8; RECORD]) -> Result<Command, Refusal> {
    let kind = record[3];
    let [code, port, arg_count, result_count] = [record[4], record[5], record[6], record[7]];
    let uses = match kind {
        RESTORE | SAVE => Uses { code: false, port: false, args: 0, results: 0 },
        INSTRUCT => Uses { code: true, port: false, args: MOST_ARGS, results: MOST_RESULTS },
        SEND => Uses { code: false, port: true, args: MOST_SENT, results: 0 },
        RECEIVE => Uses { code: false, port: true, args: 0, results: MOST_RESULTS },
        _ => return Err(Refusal::Kind),
    };
    if let Some(byte) = uses.fault(record) {
        return Err(Refusal::Shape(byte as u8));
    }
    let arg_bytes = &record[ARGS_AT..RESULTS_AT];
    let result_bytes = &record[RESULTS_AT..];
    Ok(match kind {
        RESTORE => Command::Restore,
        SAVE => Command::Save,
        INSTRUCT => Command::Instruct {
            code,
            args: CellList::read(arg_bytes, arg_count),
            results: CellList::read(result_bytes, result_count),
        },
        SEND => Command::Send { port, args: CellList::read(arg_bytes, arg_count) },
        _ => Command::Receive { port, results: CellList::read(result_bytes, result_count) },
    })
}

/// What a kind uses of the bytes from 4 on, and how many cells it may name.
struct Uses {
    code: bool,
    port: bool,
    args: usize,
    results: usize,
}

impl Uses {
    /// The lowest byte that breaks the shape.
    fn fault(&self, record: &[u8; RECORD]) -> Option<usize> {
        let args = usize::from(record[6]);
        let results = usize::from(record[7]);
        if !self.code && record[4] != 0 {
            return Some(4);
        }
        if !self.port && record[5] != 0 {
            return Some(5);
        }
        if args > self.args {
            return Some(6);
        }
        if results > self.results {
            return Some(7);
        }
        not_zero(record, ARGS_AT + 2 * args, RESULTS_AT).or_else(|| not_zero(record, RESULTS_AT + 2 * results, RECORD))
    }
}

/// The first byte of these that is not zero.
fn not_zero(record: &[u8; RECORD], from: usize, to: usize) -> Option<usize> {
    record[from..to].iter().position(|byte| *byte != 0).map(|n| from + n)
}
