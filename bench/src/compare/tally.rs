use crate::reference::log::LogRecord;
use std::collections::BTreeMap;
use std::fmt;

/// What was compared, and how often what came.
#[derive(Clone, Debug, Default)]
pub struct Tally {
    pub hosts: u64,
    /// Hosts by their kind and their number of layers.
    pub makings: BTreeMap<(&'static str, u32), u64>,
    pub runs: u64,
    pub commands: u64,
    /// Requests that were left for some part and answered again by a second reference host.
    pub left: u64,
    /// The same by a second host of the product.
    pub left_product: u64,
    refusals: BTreeMap<u32, u64>,
    details: BTreeMap<(u8, u8), u64>,
    done: BTreeMap<u8, u64>,
    /// Codes that were done, by kind.
    codes: BTreeMap<(&'static str, u8), u64>,
    with_values: u64,
    with_missed: u64,
}

const KINDS: [&str; 6] = ["", "restore", "save", "instruct", "send", "receive"];

impl Tally {
    /// Counts what a call on a rig, a making, an opening or a run gave.
    pub fn refused(&mut self, number: u32) {
        if number != 0 {
            *self.refusals.entry(number).or_default() += 1;
        }
    }

    pub fn instructed(&mut self, kind: &'static str, code: u8) {
        *self.codes.entry((kind, code)).or_default() += 1;
    }

    pub fn answered(&mut self, record: &LogRecord) {
        self.commands += 1;
        self.refused(u32::from(record.refusal));
        if record.is_granted() {
            *self.done.entry(record.kind).or_default() += 1;
            self.with_values += u64::from(record.count > 0);
            self.with_missed += u64::from(record.missed > 0);
        } else {
            *self.details.entry((record.refusal, record.detail)).or_default() += 1;
        }
    }
}

impl fmt::Display for Tally {
    fn fmt(&self, f: &mut fmt::Formatter) -> fmt::Result {
        writeln!(f, "{} commands on {} hosts, {} runs", self.commands, self.hosts, self.runs)?;
        write!(f, "hosts by layers:")?;
        for ((kind, layers), count) in &self.makings {
            write!(f, "  {kind} {layers}: {count}")?;
        }
        writeln!(f)?;
        writeln!(
            f,
            "left for a part and answered again: {} by the reference, {} by the product",
            self.left, self.left_product
        )?;
        write!(f, "done:")?;
        for (kind, count) in &self.done {
            write!(f, "  {} {count}", KINDS.get(usize::from(*kind)).unwrap_or(&"?"))?;
        }
        writeln!(f, "  (with values {}, with missed {})", self.with_values, self.with_missed)?;
        write!(f, "codes done:")?;
        for ((kind, code), count) in &self.codes {
            write!(f, "  {kind} {code}: {count}")?;
        }
        writeln!(f)?;
        write!(f, "refused:")?;
        for (number, count) in &self.refusals {
            write!(f, "  {number}: {count}")?;
        }
        writeln!(f)?;
        write!(f, "details seen:")?;
        for number in [8, 12, 13] {
            let seen: Vec<u8> = self.details.keys().filter(|key| key.0 == number).map(|key| key.1).collect();
            write!(f, "  {number}: {seen:?}")?;
        }
        writeln!(f)?;
        let never: Vec<u32> = (1..=19).chain(101..=103).filter(|number| !self.refusals.contains_key(number)).collect();
        if !never.is_empty() {
            writeln!(f, "refusals that never came: {never:?}")?;
        }
        Ok(())
    }
}
