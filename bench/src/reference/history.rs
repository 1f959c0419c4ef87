use super::log::LogRecord;
use super::record::{INSTRUCT, RECEIVE, RESTORE, SAVE, SEND};
use super::show::RECORD;
use super::{Mask, single};

/// A request that a host was given, and what it answered.
#[derive(Clone, Debug)]
pub struct Entry {
    pub place: u32,
    pub bytes: Vec<u8>,
    pub args_len: usize,
    pub results_len: usize,
    pub answer: LogRecord,
}

impl Entry {
    /// Whether the request is left for somebody with these parts upstream: a granted restore or save,
    /// or a work command, of one of them.
    pub fn is_left(&self, upstream: Mask) -> bool {
        let bytes = &self.bytes;
        bytes.len() == RECORD
            && upstream & single(bytes[2]) != 0
            && match bytes[3] {
                RESTORE | SAVE => self.answer.is_granted(),
                INSTRUCT | SEND | RECEIVE => true,
                _ => false,
            }
    }
}
