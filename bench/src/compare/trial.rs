use super::tally::Tally;
use super::{Compared, hex, opened, same, same_record};
use crate::kind::Kind;
use crate::product::{self, Outcome};
use crate::random::Random;
use crate::records::Record;
use crate::reference::boxes::Boxes;
use crate::reference::element::{Element, unpack_all};
use crate::reference::history::Entry;
use crate::reference::log::LogRecord;
use crate::reference::machine::{Machine, RunFault};
use crate::reference::ports::Ports;
use crate::reference::record::{Command, decode};
use crate::reference::sheet::Sheet;
use crate::reference::show::Show;
use crate::reference::work::{Making, Scratch};
use crate::reference::{MOST_ARGS, MOST_RESULTS};
use crate::wild::commands::Writer;
use crate::wild::files;

/// A host of the product and one of the reference, of the same making, and all that happened to them.
pub struct Trial<'a, S: Kind> {
    pub(super) random: &'a mut Random,
    pub(super) tally: &'a mut Tally,
    pub(super) rig: Option<&'a product::Rig>,
    host: Option<product::Host>,
    pub(super) machine: Machine<S>,
    boxes: Boxes<S>,
    writer: Writer,
    /// The cells at making, packed.
    pub(super) first: Vec<u32>,
    /// The product's cells.
    words: Vec<u32>,
    /// What they have to be: a cell that was written is packed, any other has its first words.
    expected: Vec<u32>,
    pub(super) history: Vec<Entry>,
}

impl<'a, S: Kind> Trial<'a, S> {
    pub fn new(
        random: &'a mut Random,
        tally: &'a mut Tally,
        rig: Option<&'a product::Rig>,
        sheet: Sheet,
        ports: Ports,
    ) -> Result<Self, String> {
        let size = sheet.size();
        let making = Making { set: S::default(), sheet, ports };
        let odd = usize::from(random.rarely(100));
        let first = random_words(random, 2 * size + odd);
        // A host that was made over other cells is still a host.
        let made_over = if random.rarely(30) { other_words(random, size) } else { first.clone() };
        let misfit = if made_over.len() / 2 == size { 0 } else { 19 };
        tally.refused(misfit);
        let mut host = None;
        if let Some(rig) = rig {
            let given = made_over.clone();
            let (made, refusal) = product::Host::make(rig, &given);
            same("make", &(size, made_over.len()), refusal, misfit)?;
            same("the cells after make", &size, given, made_over)?;
            host = Some(made);
        }
        let cells = unpack_all(&first);
        Ok(Trial {
            random,
            tally,
            rig,
            host,
            boxes: Boxes::new(making.clone(), cells.clone()),
            writer: Writer::new(&making),
            machine: Machine::new(making, cells),
            words: first.clone(),
            expected: first.clone(),
            first,
            history: Vec::new(),
        })
    }

    /// Plays shows and single commands on both hosts, then looks at the isolation of the parts.
    pub fn play(mut self) -> Compared {
        for call in 0..self.random.within(2, 14) {
            self.step().map_err(|text| format!("call {call} on {}: {text}", S::NAME))?;
        }
        self.check_parts_alone()
    }

    fn step(&mut self) -> Compared {
        self.writer.set_turn(self.machine.turn());
        match self.random.below(20) {
            0..=8 => {
                let show = self.show();
                self.run(&show)
            }
            9..=11 => {
                let commands = self.commands();
                let show = files::broken(self.random, &commands);
                self.run(&show)
            }
            12..=15 => {
                for _ in 0..self.random.within(1, 40) {
                    self.writer.set_turn(self.machine.turn());
                    self.single()?;
                }
                Ok(())
            }
            16 => self.over_other_cells(|trial| {
                let show = trial.show();
                trial.run(&show)
            }),
            17 => self.over_other_cells(Self::single),
            18 => self.short_of_scratch(),
            _ => {
                let commands = self.commands();
                let show = files::broken(self.random, &commands);
                self.open(&show)
            }
        }
    }

    fn commands(&mut self) -> Vec<Record> {
        let count = match self.random.below(60) {
            0 => 2047,
            1..=6 => self.random.within(100, 600),
            7..=9 => 0,
            _ => self.random.within(1, 60),
        };
        (0..count).map(|_| self.writer.command(self.random)).collect()
    }

    fn show(&mut self) -> Vec<u8> {
        let commands = self.commands();
        files::file(self.random, &commands)
    }

    fn open(&mut self, bytes: &[u8]) -> Compared {
        let ours = opened(&Show::open(bytes));
        self.tally.refused(ours.refusal);
        match self.host {
            Some(_) => same("open", &bytes.len(), product::open(bytes), ours),
            None => Ok(()),
        }
    }

    fn run(&mut self, bytes: &[u8]) -> Compared {
        self.open(bytes)?;
        let show = Show::open(bytes);
        let commands = show.as_ref().map_or(0, Show::commands);
        let log_len =
            if self.random.rarely(60) { self.random.below(commands + 1) } else { commands + self.random.below(4) };
        let mut log: Vec<LogRecord> = (0..log_len).map(|_| random_record(self.random)).collect();
        let mut product_log: Vec<product::Record> = log.iter().map(as_product).collect();
        let untouched = log.clone();
        let lent = self.random.rarely(if S::NUMBER == product::LEVELS { 500 } else { 50 });
        let (mut args, mut results) = if lent { self.lent() } else { (vec![0; MOST_ARGS], vec![0; MOST_RESULTS]) };
        let (args_len, results_len) = (args.len(), results.len());

        let (mut product_args, mut product_results) = (args.clone(), results.clone());
        let theirs = self.host.as_mut().map(|host| {
            if lent {
                host.run_levels(&mut self.words, bytes, &mut product_log, &mut product_args, &mut product_results)
            } else {
                host.run(&mut self.words, bytes, &mut product_log)
            }
        });

        let ours = match &show {
            Err(_) => opened(&show),
            Ok(_) if lent && S::NUMBER != product::LEVELS => refused(product::WRONG_KIND),
            Ok(show) => {
                let outcome = if lent {
                    self.run_with(show, &mut log, &mut args, &mut results)
                } else {
                    self.machine.run_alone(show, &mut log)
                };
                match outcome {
                    Ok(commands) => Outcome { refusal: 0, at: 0, commands: commands as u32 },
                    Err(fault) => refused(fault.number()),
                }
            }
        };
        self.tally.runs += 1;
        self.tally.refused(ours.refusal);
        let logged = if ours.refusal == 0 { commands } else { 0 };
        if let Some(theirs) = theirs {
            same("run", &(bytes.len(), log_len, lent, args_len, results_len), theirs, ours)?;
            for (n, (product, reference)) in product_log.iter().zip(&log).enumerate() {
                let agree = if n < logged {
                    same_record(product, reference)
                } else {
                    same_record(product, &untouched[n]) && product.unused == untouched[n].unused
                };
                if !agree {
                    return Err(self.differing(n, bytes, product, reference));
                }
            }
            same("argument scratch", &args_len, product_args, args)?;
            same("result scratch", &results_len, product_results, results)?;
        }
        if let Ok(show) = &show {
            for ((place, record), answer) in show.chain().zip(&log[..logged]) {
                let bytes = record.to_vec();
                self.note(Entry { place, bytes, args_len, results_len, answer: *answer })?;
            }
        }
        self.compare_cells()
    }

    fn run_with(
        &mut self,
        show: &Show,
        log: &mut [LogRecord],
        args: &mut [u8],
        results: &mut [u8],
    ) -> Result<usize, RunFault> {
        let (mut lent_args, mut lent_results) = (from_bytes::<S::Element>(args), from_bytes::<S::Element>(results));
        let outcome = self.machine.run(show, log, &mut Scratch { args: &mut lent_args, results: &mut lent_results });
        to_bytes(&lent_args, args);
        to_bytes(&lent_results, results);
        outcome
    }

    /// Random scratch, sometimes too short.
    fn lent(&mut self) -> (Vec<u8>, Vec<u8>) {
        let mut list = |enough: usize| {
            let length = match self.random.below(20) {
                0 => self.random.below(enough),
                1..=8 => enough,
                9 => enough + self.random.below(2000),
                _ => enough + self.random.below(20),
            };
            (0..length).map(|_| self.random.byte()).collect()
        };
        (list(MOST_ARGS), list(MOST_RESULTS))
    }

    fn single(&mut self) -> Compared {
        let mut bytes = self.writer.command(self.random).to_vec();
        match self.random.below(60) {
            0 => bytes.truncate(self.random.below(33)),
            1 => bytes.resize(32 + self.random.below(70), 0),
            _ => {}
        }
        let place = self.random.word();
        let answer = self.reference_command(place, &bytes, MOST_ARGS, MOST_RESULTS);
        if let Some(host) = &mut self.host {
            let theirs = host.command(&mut self.words, place, &bytes);
            if !same_record(&theirs, &answer) {
                return Err(format!("single command {}\n  product   {theirs:?}\n  reference {answer:?}", hex(&bytes)));
            }
        }
        self.note(Entry { place, bytes, args_len: MOST_ARGS, results_len: MOST_RESULTS, answer })?;
        self.compare_cells()
    }

    /// A command with too little scratch. The library has no such call, so the product is left out.
    fn short_of_scratch(&mut self) -> Compared {
        let bytes = self.writer.command(self.random).to_vec();
        let (args_len, results_len) = (self.random.within(0, MOST_ARGS), self.random.within(0, MOST_RESULTS - 1));
        let place = self.random.word();
        let answer = self.reference_command(place, &bytes, args_len, results_len);
        self.note(Entry { place, bytes, args_len, results_len, answer })
    }

    fn reference_command(&mut self, place: u32, bytes: &[u8], args_len: usize, results_len: usize) -> LogRecord {
        lend(args_len, results_len, |scratch| self.machine.command(place, bytes, scratch))
    }

    /// Gives both hosts other cells, of a number that is not the sheet's, for one call.
    fn over_other_cells(&mut self, act: impl FnOnce(&mut Self) -> Compared) -> Compared {
        let other = other_words(self.random, self.machine.making().sheet.size());
        let cells = self.machine.replace_cells(unpack_all(&other));
        let words = std::mem::replace(&mut self.words, other.clone());
        let expected = std::mem::replace(&mut self.expected, other);
        let compared = act(self);
        self.machine.replace_cells(cells);
        self.words = words;
        self.expected = expected;
        compared
    }

    /// Counts an answer, holds it against the boxes' answer, and keeps what it wrote in mind.
    fn note(&mut self, entry: Entry) -> Compared {
        self.tally.answered(&entry.answer);
        if !self.machine.fits() {
            return Ok(());
        }
        let boxed =
            lend(entry.args_len, entry.results_len, |scratch| self.boxes.command(entry.place, &entry.bytes, scratch));
        if boxed != entry.answer {
            return Err(format!(
                "the separate boxes answer {} otherwise\n  boxes     {boxed:?}\n  reference {:?}",
                hex(&entry.bytes),
                entry.answer
            ));
        }
        if entry.answer.is_granted() {
            let record = entry.bytes.as_slice().try_into().expect("a granted command has 32 bytes");
            match decode(record) {
                Ok(Command::Restore) => {
                    for cell in self.machine.making().sheet.swaps().to_vec() {
                        self.wrote(cell);
                    }
                }
                Ok(Command::Instruct { code, results, .. }) => {
                    self.tally.instructed(S::NAME, code);
                    results.as_slice().iter().for_each(|cell| self.wrote(*cell));
                }
                Ok(Command::Receive { results, .. }) => {
                    results.as_slice().iter().for_each(|cell| self.wrote(*cell));
                }
                _ => {}
            }
        }
        self.history.push(entry);
        Ok(())
    }

    fn wrote(&mut self, cell: u16) {
        let cell = usize::from(cell);
        let packed = self.machine.cells()[cell].pack();
        self.expected[2 * cell..][..2].copy_from_slice(&packed);
    }

    fn compare_cells(&self) -> Compared {
        if self.host.is_none() || self.words == self.expected {
            return Ok(());
        }
        let n = self.words.iter().zip(&self.expected).position(|(a, b)| a != b).unwrap_or(0);
        let means = unpack_all::<S::Element>(&self.words) == self.machine.cells();
        Err(format!(
            "word {n} of the cells: product {:#x}, expected {:#x}; the cells {} the same elements",
            self.words[n],
            self.expected[n],
            if means { "mean" } else { "do not mean" }
        ))
    }

    fn differing(&self, n: usize, show: &[u8], product: &product::Record, reference: &LogRecord) -> String {
        let record = Show::open(show).ok().and_then(|show| show.chain().nth(n).map(|(_, record)| hex(record)));
        format!(
            "log record {n}, command {}\n  product   {product:?}\n  reference {reference:?}",
            record.unwrap_or_default()
        )
    }
}

fn refused(refusal: u32) -> Outcome {
    Outcome { refusal, at: 0, commands: 0 }
}

/// Lends so many null elements, at most as many as a command needs.
pub(super) fn lend<E: Element, T>(args_len: usize, results_len: usize, act: impl FnOnce(&mut Scratch<E>) -> T) -> T {
    let (mut args, mut results) = ([E::NULL; MOST_ARGS], [E::NULL; MOST_RESULTS]);
    act(&mut Scratch {
        args: &mut args[..args_len.min(MOST_ARGS)],
        results: &mut results[..results_len.min(MOST_RESULTS)],
    })
}

fn from_bytes<E: Element>(bytes: &[u8]) -> Vec<E> {
    bytes.iter().map(|byte| E::unpack([u32::from(*byte), 0])).collect()
}

fn to_bytes<E: Element>(elements: &[E], bytes: &mut [u8]) {
    for (byte, element) in bytes.iter_mut().zip(elements) {
        *byte = element.pack()[0] as u8;
    }
}

fn random_words(random: &mut Random, count: usize) -> Vec<u32> {
    (0..count)
        .map(|_| match random.below(6) {
            0 => 0,
            1 => random.below(256) as u32,
            2 | 3 => random.within(1, 2) as u32 * 0x0100_0000 + (random.word() & 0x00ff_ffff),
            _ => random.word(),
        })
        .collect()
}

/// Words of cells whose number is not this one.
fn other_words(random: &mut Random, size: usize) -> Vec<u32> {
    let other = match random.below(4) {
        0 => size - 1,
        1 => size + 1,
        2 => 0,
        _ => size + random.within(1, 600),
    };
    let odd = random.below(2);
    random_words(random, 2 * other + odd)
}

fn random_record(random: &mut Random) -> LogRecord {
    LogRecord {
        place: random.word(),
        part: random.byte(),
        kind: random.byte(),
        refusal: random.byte(),
        detail: random.byte(),
        missed: random.byte(),
        count: random.byte(),
        unused: [random.byte(), random.byte()],
        words: std::array::from_fn(|_| random.word()),
    }
}

fn as_product(record: &LogRecord) -> product::Record {
    let LogRecord { place, part, kind, refusal, detail, missed, count, unused, words } = *record;
    product::Record { place, part, kind, refusal, detail, missed, count, unused, words }
}
