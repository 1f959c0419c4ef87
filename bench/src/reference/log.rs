use super::MOST_RESULTS;
use super::element::Element;
use super::refusal::Refusal;

/// What a command that was done gives back.
#[derive(Clone, Copy, Debug, PartialEq, Eq)]
pub struct Answer {
    missed: u8,
    count: u8,
    words: [u32; 2 * MOST_RESULTS],
}

impl Answer {
    /// The answer of a restore or a save.
    pub const NOTHING: Answer = Answer { missed: 0, count: 0, words: [0; 2 * MOST_RESULTS] };

    /// At most four values.
    pub fn new<E: Element>(missed: u8, values: &[E]) -> Self {
        let mut answer = Answer { missed, count: values.len() as u8, ..Answer::NOTHING };
        for (pair, value) in answer.words.as_chunks_mut().0.iter_mut().zip(values) {
            *pair = value.pack();
        }
        answer
    }
}

/// The record of one command, 44 bytes.
#[repr(C)]
#[derive(Clone, Copy, Debug, Default, PartialEq, Eq)]
pub struct LogRecord {
    pub place: u32,
    pub part: u8,
    pub kind: u8,
    pub refusal: u8,
    pub detail: u8,
    pub missed: u8,
    pub count: u8,
    pub unused: [u8; 2],
    pub words: [u32; 2 * MOST_RESULTS],
}

impl LogRecord {
    pub fn new(place: u32, part: u8, kind: u8, result: Result<Answer, Refusal>) -> Self {
        let (refusal, detail, answer) = match result {
            Ok(answer) => (0, 0, answer),
            Err(refusal) => (refusal.number(), refusal.detail(), Answer::NOTHING),
        };
        let Answer { missed, count, words } = answer;
        LogRecord { place, part, kind, refusal, detail, missed, count, unused: [0; 2], words }
    }

    pub fn is_granted(&self) -> bool {
        self.refusal == 0
    }
}
