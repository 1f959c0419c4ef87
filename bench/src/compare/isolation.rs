use super::trial::{Trial, lend};
use super::{Compared, hex, same, same_record};
use crate::kind::Kind;
use crate::product;
use crate::reference::PARTS;
use crate::reference::element::unpack_all;
use crate::reference::machine::Machine;

impl<S: Kind> Trial<'_, S> {
    /// What is left of the history for a part is answered as before by a second host of the same making.
    pub(super) fn check_parts_alone(&mut self) -> Compared {
        for part in 0..PARTS as u8 {
            let upstream = self.machine.making().ports.upstream(part);
            let mut alone = Machine::new(self.machine.making().clone(), unpack_all(&self.first));
            for entry in self.history.iter().filter(|entry| entry.is_left(upstream)) {
                let answer = lend(entry.args_len, entry.results_len, |scratch| {
                    alone.command(entry.place, &entry.bytes, scratch)
                });
                self.tally.left += 1;
                if answer != entry.answer {
                    return Err(format!(
                        "left for part {part}: {}\n  alone     {answer:?}\n  shared    {:?}",
                        hex(&entry.bytes),
                        entry.answer
                    ));
                }
            }
        }
        if self.random.rarely(300) { self.check_product_alone() } else { Ok(()) }
    }

    /// The same for one part, with the product as the second host.
    fn check_product_alone(&mut self) -> Compared {
        let Some(rig) = self.rig else {
            return Ok(());
        };
        let part = self.random.below(PARTS) as u8;
        let upstream = self.machine.making().ports.upstream(part);
        let mut words = self.first.clone();
        let (mut host, refusal) = product::Host::make(rig, &words);
        same("make", &words.len(), refusal, 0)?;
        for entry in self.history.iter().filter(|entry| entry.is_left(upstream) && entry.answer.refusal != 6) {
            let theirs = host.command(&mut words, entry.place, &entry.bytes);
            self.tally.left_product += 1;
            if !same_record(&theirs, &entry.answer) {
                return Err(format!(
                    "left for part {part}: {}\n  product alone {theirs:?}\n  reference     {:?}",
                    hex(&entry.bytes),
                    entry.answer
                ));
            }
        }
        Ok(())
    }
}
