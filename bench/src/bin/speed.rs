//! Measures the product and the reference side by side: `speed`, or `speed --count N [--heads] [--reference]` to do N
//! runs of one of them and nothing else.

#![forbid(unsafe_code)]

use bench::kind::Kind;
use bench::product::{self, Host};
use bench::reference::element::Level;
use bench::reference::log::LogRecord;
use bench::reference::machine::Machine;
use bench::reference::set::{HeadSet, LevelSet};
use bench::reference::show::Show;
use bench::reference::work::Scratch;
use bench::setting::{MOST_COMMANDS, Setting, full_log};
use std::hint::black_box;
use std::process::ExitCode;
use std::time::Instant;

const PASSES: usize = 5;
const ROUNDS: usize = 200;
/// One hundredth of a frame of 25 ms, in nanoseconds.
const SHARE: f64 = 250_000.0;

/// A host of each, their cells, logs and lent scratch, and the show that they play.
struct Pair<S: Kind> {
    host: Host,
    words: Vec<u32>,
    log: Vec<product::Record>,
    machine: Machine<S>,
    reference_log: Vec<LogRecord>,
    show: Vec<u8>,
}

/// The best time of a command, in nanoseconds.
#[derive(Clone, Copy)]
struct Times {
    product: f64,
    reference: f64,
}

impl Times {
    const NONE: Times = Times { product: f64::MAX, reference: f64::MAX };

    fn min(self, other: Times) -> Times {
        Times { product: self.product.min(other.product), reference: self.reference.min(other.reference) }
    }
}

impl<S: Kind> Pair<S> {
    fn new(setting: Setting) -> Self {
        Pair {
            host: setting.host::<S>(),
            words: setting.words::<S>(),
            log: full_log(),
            machine: setting.machine(),
            reference_log: vec![LogRecord::default(); MOST_COMMANDS],
            show: setting.show::<S>(),
        }
    }

    fn run_product(&mut self) {
        let outcome = self.host.run(&mut self.words, black_box(&self.show), &mut self.log);
        assert_eq!(outcome.commands as usize, MOST_COMMANDS);
    }

    fn run_reference(&mut self) {
        let show = Show::open(black_box(&self.show)).expect("a good file");
        assert_eq!(self.machine.run_alone(&show, &mut self.reference_log), Ok(MOST_COMMANDS));
    }

    /// Runs both in turns. The first rounds warm the buffers.
    fn time(&mut self, product: impl Fn(&mut Self), reference: impl Fn(&mut Self)) -> Times {
        let mut best = Times::NONE;
        for _ in 0..ROUNDS {
            best = best.min(Times { product: timed(|| product(self)), reference: timed(|| reference(self)) });
            black_box((&self.log, &self.reference_log));
        }
        self.check_logs();
        best
    }

    fn time_runs(&mut self) -> Times {
        self.time(Self::run_product, Self::run_reference)
    }

    /// What is measured is the same work: after all rounds the last logs are equal.
    fn check_logs(&self) {
        let equal = self.log.iter().zip(&self.reference_log).all(|(a, b)| {
            (a.place, a.part, a.kind, a.refusal, a.detail, a.missed, a.count, a.words)
                == (b.place, b.part, b.kind, b.refusal, b.detail, b.missed, b.count, b.words)
        });
        assert!(equal, "product and reference answer otherwise: run compare");
    }
}

impl Pair<LevelSet> {
    fn time_with_scratch(&mut self, args_len: usize, results_len: usize) -> Times {
        let lent = std::cell::RefCell::new((vec![0; args_len], vec![0; results_len]));
        let lent_levels = std::cell::RefCell::new((vec![Level(0); args_len], vec![Level(0); results_len]));
        self.time(
            |pair| {
                let (args, results) = &mut *lent.borrow_mut();
                let show = black_box(&pair.show);
                let outcome = pair.host.run_levels(&mut pair.words, show, &mut pair.log, args, results);
                assert_eq!(outcome.commands as usize, MOST_COMMANDS);
            },
            |pair| {
                let (args, results) = &mut *lent_levels.borrow_mut();
                let show = Show::open(black_box(&pair.show)).expect("a good file");
                let done = pair.machine.run(&show, &mut pair.reference_log, &mut Scratch { args, results });
                assert_eq!(done, Ok(MOST_COMMANDS));
            },
        )
    }
}

fn timed(act: impl FnOnce()) -> f64 {
    let start = Instant::now();
    act();
    start.elapsed().as_nanos() as f64 / MOST_COMMANDS as f64
}

/// One line of the table, measured again in each pass.
struct Row {
    name: String,
    measure: Box<dyn FnMut() -> Times>,
    best: Times,
}

impl Row {
    fn new(name: String, measure: impl FnMut() -> Times + 'static) -> Self {
        Row { name, measure: Box::new(measure), best: Times::NONE }
    }

    fn run<S: Kind + 'static>(name: &str, setting: Setting) -> Self {
        let mut pair = Pair::<S>::new(setting);
        Row::new(format!("{}, {name}", S::NAME), move || pair.time_runs())
    }

    fn run_levels(args_len: usize, results_len: usize) -> Self {
        let mut pair = Pair::<LevelSet>::new(Setting::USUAL);
        Row::new(format!("levels, {args_len} / {results_len}"), move || pair.time_with_scratch(args_len, results_len))
    }

    fn print(&self) {
        let Times { product, reference } = self.best;
        let show = product * MOST_COMMANDS as f64;
        println!(
            "{:<26}{product:>8.1} ns{reference:>10.1} ns{:>8.2}{:>9.1} us{:>7.0} %",
            self.name,
            product / reference,
            show / 1000.0,
            show / SHARE * 100.0
        );
    }
}

/// A setting of both kinds.
fn both(name: usize, setting: Setting) -> [Row; 2] {
    let name = name.to_string();
    [Row::run::<LevelSet>(&name, setting), Row::run::<HeadSet>(&name, setting)]
}

fn sections() -> Vec<(&'static str, Vec<Row>)> {
    let usual = Setting::USUAL;
    vec![
        (
            "calls",
            vec![
                Row::run::<LevelSet>("run", usual),
                Row { name: "levels, run_levels".to_string(), ..Row::run_levels(8, 4) },
                Row::run::<HeadSet>("run", usual),
            ],
        ),
        ("cells", [16, 64, 256, 512].into_iter().flat_map(|cells| both(cells, Setting { cells, ..usual })).collect()),
        (
            "parts",
            [1, 2, 4, 8].into_iter().flat_map(|parts| both(usize::from(parts), Setting { parts, ..usual })).collect(),
        ),
        (
            "layers (the reference has none)",
            [0, 1, 2].into_iter().flat_map(|layers| both(layers as usize, Setting { layers, ..usual })).collect(),
        ),
        ("swapped cells", [0, 4, 16].into_iter().flat_map(|swaps| both(swaps, Setting { swaps, ..usual })).collect()),
        (
            "lent scratch, arguments / results (cleared once a run)",
            vec![Row::run_levels(8, 4), Row::run_levels(1_000, 1_000), Row::run_levels(100_000, 100_000)],
        ),
    ]
}

fn heading(text: &str) {
    println!("\n{text}");
    println!("{:<26}{:>11}{:>13}{:>8}{:>12}{:>9}", "", "product", "reference", "ratio", "full show", "of 250");
}

fn mix<S: Kind>() -> String {
    let mut pair = Pair::<S>::new(Setting::USUAL);
    pair.run_product();
    let count = |test: &dyn Fn(&product::Record) -> bool| pair.log.iter().filter(|record| test(record)).count();
    let done = |kind| count(&|record| record.kind == kind && record.refusal == 0);
    format!(
        "{}: {} restores and saves, {} instructs, {} sends, {} receives, {} refused",
        S::NAME,
        done(1) + done(2),
        done(3),
        done(4),
        done(5),
        count(&|record| record.refusal != 0)
    )
}

fn table() {
    let usual = Setting::USUAL;
    println!("A show of 65,536 bytes, {MOST_COMMANDS} commands. {}. {}.", mix::<LevelSet>(), mix::<HeadSet>());
    println!(
        "Opening the file counts in. Product and reference run in turns, {PASSES} times {ROUNDS} runs of each; the"
    );
    println!(
        "best is told. Buffers are warmed. Time of a command, and of a full show as a share of 250 us, which is 1 %"
    );
    println!(
        "of a frame of 25 ms. Where nothing else is said: {} cells, {} swapped, {} parts, no layers.",
        usual.cells, usual.swaps, usual.parts
    );
    let mut sections = sections();
    for _ in 0..PASSES {
        for row in sections.iter_mut().flat_map(|(_, rows)| rows) {
            row.best = row.best.min((row.measure)());
        }
    }
    for (name, rows) in &sections {
        heading(name);
        rows.iter().for_each(Row::print);
    }
}

fn count<S: Kind>(runs: usize, reference: bool) {
    let mut pair = Pair::<S>::new(Setting::USUAL);
    for _ in 0..runs {
        if reference {
            pair.run_reference();
        } else {
            pair.run_product();
        }
    }
    println!("{runs} runs of {MOST_COMMANDS} commands, {}", S::NAME);
}

fn main() -> ExitCode {
    let words: Vec<String> = std::env::args().skip(1).collect();
    let has = |name: &str| words.iter().any(|word| word == name);
    match words.first().map(String::as_str) {
        None => table(),
        Some("--count") => {
            let Some(runs) = words.get(1).and_then(|word| word.parse().ok()) else {
                eprintln!("speed: --count wants a number");
                return ExitCode::from(2);
            };
            if has("--heads") {
                count::<HeadSet>(runs, has("--reference"));
            } else {
                count::<LevelSet>(runs, has("--reference"));
            }
        }
        Some(word) => {
            eprintln!("speed: {word}: usage: speed, or speed --count N [--heads] [--reference]");
            return ExitCode::from(2);
        }
    }
    ExitCode::SUCCESS
}
