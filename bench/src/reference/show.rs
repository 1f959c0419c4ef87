pub const RECORD: usize = 32;
pub const MOST_RECORDS: usize = 2048;

#[derive(Clone, Copy, Debug, PartialEq, Eq)]
pub enum ShowFault {
    Length,
    Head,
    /// The record whose next index is outside the file.
    Leaves(u16),
    Endless,
}

impl ShowFault {
    pub fn number(self) -> u32 {
        match self {
            ShowFault::Length => 1,
            ShowFault::Head => 2,
            ShowFault::Leaves(_) => 3,
            ShowFault::Endless => 4,
        }
    }
}

/// A show file whose chain of commands reaches its end.
#[derive(Clone, Copy, Debug)]
pub struct Show<'a> {
    records: &'a [[u8; RECORD]],
    commands: usize,
}

impl<'a> Show<'a> {
    pub fn open(bytes: &'a [u8]) -> Result<Self, ShowFault> {
        let (records, rest) = bytes.as_chunks::<RECORD>();
        if records.is_empty() || records.len() > MOST_RECORDS || !rest.is_empty() {
            return Err(ShowFault::Length);
        }
        if records[0][2..].iter().any(|byte| *byte != 0) {
            return Err(ShowFault::Head);
        }
        let mut at = 0;
        let mut commands = 0;
        loop {
            let next = next_index(&records[at]);
            if next == 0 {
                return Ok(Show { records, commands });
            }
            if next >= records.len() {
                return Err(ShowFault::Leaves(at as u16));
            }
            commands += 1;
            if commands == records.len() {
                return Err(ShowFault::Endless);
            }
            at = next;
        }
    }

    /// How many commands the chain has.
    pub fn commands(&self) -> usize {
        self.commands
    }

    /// The commands in chain order, each with its record's index.
    pub fn chain(&self) -> impl Iterator<Item = (u32, &'a [u8; RECORD])> {
        let records = self.records;
        let mut at = 0;
        std::iter::from_fn(move || {
            at = next_index(&records[at]);
            (at != 0).then(|| (at as u32, &records[at]))
        })
    }
}

fn next_index(record: &[u8; RECORD]) -> usize {
    usize::from(u16::from_le_bytes([record[0], record[1]]))
}
