//! Writes the records of a show file.

use crate::reference::record::{INSTRUCT, RECEIVE, RESTORE, SAVE, SEND};

pub type Record = [u8; 32];

fn record(part: u8, kind: u8) -> Record {
    let mut bytes = [0; 32];
    bytes[2] = part;
    bytes[3] = kind;
    bytes
}

/// At most as many cells as there is room for.
fn put_cells(bytes: &mut [u8], cells: &[u16]) {
    for (pair, cell) in bytes.as_chunks_mut().0.iter_mut().zip(cells) {
        *pair = cell.to_le_bytes();
    }
}

pub fn restore(part: u8) -> Record {
    record(part, RESTORE)
}

pub fn save(part: u8) -> Record {
    record(part, SAVE)
}

pub fn instruct(part: u8, code: u8, args: &[u16], results: &[u16]) -> Record {
    let mut bytes = record(part, INSTRUCT);
    bytes[4] = code;
    bytes[6] = args.len() as u8;
    bytes[7] = results.len() as u8;
    put_cells(&mut bytes[8..24], args);
    put_cells(&mut bytes[24..], results);
    bytes
}

pub fn send(part: u8, port: u8, args: &[u16]) -> Record {
    let mut bytes = record(part, SEND);
    bytes[5] = port;
    bytes[6] = args.len() as u8;
    put_cells(&mut bytes[8..24], args);
    bytes
}

pub fn receive(part: u8, port: u8, results: &[u16]) -> Record {
    let mut bytes = record(part, RECEIVE);
    bytes[5] = port;
    bytes[7] = results.len() as u8;
    put_cells(&mut bytes[24..], results);
    bytes
}

/// Sets a record's next index.
pub fn link(record: &mut Record, next: u16) {
    record[..2].copy_from_slice(&next.to_le_bytes());
}

/// A show file of these commands, one after the other. At most 2,047 fit.
pub fn show(commands: &[Record]) -> Vec<u8> {
    let mut records = vec![[0; 32]];
    records.extend_from_slice(commands);
    let last = records.len() - 1;
    for (n, record) in records.iter_mut().enumerate() {
        link(record, if n < last { n as u16 + 1 } else { 0 });
    }
    records.concat()
}
