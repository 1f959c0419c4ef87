//! Compares the product with the reference, and the reference with the separate boxes, on random input.

mod isolation;
pub mod tally;
mod trial;

use crate::kind::Kind;
use crate::product::{self, Outcome, Record};
use crate::random::Random;
use crate::reference::log::LogRecord;
use crate::reference::ports::Ports;
use crate::reference::set::{HeadSet, LevelSet};
use crate::reference::sheet::Sheet;
use crate::reference::show::{Show, ShowFault};
use crate::wild::rigs::{Call, Plan};
use tally::Tally;
use trial::Trial;

/// What was found to differ, in words.
pub type Compared = Result<(), String>;

/// Makes one random host and plays on it.
pub fn compare_host(seed: u64, number: u64, with_product: bool, tally: &mut Tally) -> Compared {
    let mut random = Random::new(Random::new(seed).draw() ^ Random::new(!number).draw());
    let plan = Plan::random(&mut random);

    let refusal = if plan.kind > product::HEADS {
        product::BAD_KIND
    } else if plan.layers > 2 {
        product::BAD_LAYERS
    } else {
        Sheet::new(plan.cells).map_or_else(|fault| fault.number(), |_| 0)
    };
    let (kind, layers, size) =
        if refusal == 0 { (plan.kind, plan.layers, plan.cells) } else { (product::LEVELS, 0, 1) };
    let mut sheet = Sheet::new(size).expect("the size was looked at");
    let mut ports = Ports::default();
    let mut rig = None;
    if with_product {
        let (new, theirs) = product::Rig::new(plan.kind, plan.layers, plan.cells);
        rig = Some(new);
        same("rig_new", &(plan.kind, plan.layers, plan.cells), theirs, refusal)?;
    }
    tally.refused(refusal);

    for call in &plan.calls {
        let ours = match *call {
            Call::Grant { cell, part, mode } => {
                sheet.grant(cell, part, mode).map_or_else(|fault| fault.number(), |_| 0)
            }
            Call::Swap { cell } => sheet.swap(cell).map_or_else(|fault| fault.number(), |_| 0),
            Call::Port { port, senders, receivers } => {
                ports.set(port, senders, receivers).map_or_else(|fault| fault.number(), |_| 0)
            }
        };
        tally.refused(ours);
        if let Some(rig) = &mut rig {
            let theirs = match *call {
                Call::Grant { cell, part, mode } => rig.grant(cell, part, mode),
                Call::Swap { cell } => rig.swap(cell),
                Call::Port { port, senders, receivers } => rig.port(port, senders, receivers),
            };
            same("a call on the rig", call, theirs, ours)?;
        }
    }
    if let Some(rig) = &rig {
        for part in (0..10).chain([64, 255]) {
            same("upstream", &part, rig.upstream(part), ports.upstream(part))?;
        }
    }
    tally.hosts += 1;
    let name = if kind == product::LEVELS { LevelSet::NAME } else { HeadSet::NAME };
    *tally.makings.entry((name, layers)).or_default() += 1;
    if kind == product::LEVELS {
        Trial::<LevelSet>::new(&mut random, tally, rig.as_ref(), sheet, ports)?.play()
    } else {
        Trial::<HeadSet>::new(&mut random, tally, rig.as_ref(), sheet, ports)?.play()
    }
}

fn same<T: PartialEq + std::fmt::Debug>(what: &str, given: &dyn std::fmt::Debug, product: T, reference: T) -> Compared {
    if product == reference {
        return Ok(());
    }
    Err(format!("{what}, given {given:?}\n  product   {product:?}\n  reference {reference:?}"))
}

/// What opening says in the words of the library.
fn opened(show: &Result<Show, ShowFault>) -> Outcome {
    match show {
        Ok(show) => Outcome { refusal: 0, at: 0, commands: show.commands() as u32 },
        Err(ShowFault::Leaves(record)) => Outcome { refusal: 3, at: u32::from(*record), commands: 0 },
        Err(fault) => Outcome { refusal: fault.number(), at: 0, commands: 0 },
    }
}

/// All fields but the unused bytes.
fn same_record(product: &Record, reference: &LogRecord) -> bool {
    let (a, b) = (product, reference);
    (a.place, a.part, a.kind, a.refusal, a.detail, a.missed, a.count, a.words)
        == (b.place, b.part, b.kind, b.refusal, b.detail, b.missed, b.count, b.words)
}

fn hex(bytes: &[u8]) -> String {
    bytes.iter().map(|byte| format!("{byte:02x} ")).collect()
}
