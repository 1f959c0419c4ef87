//! Plays show files on a host of eight dimmer levels and prints the log: `play SHOW..`. An example of how the library
//! is used; the rig is that of the example show `crates/playback/data/level.show`.

#![forbid(unsafe_code)]

use bench::product::{self, Host, Record, Rig};
use std::process::ExitCode;

const CELLS: usize = 8;

/// Who may do what: 0, or the number of the first refusal.
fn rig() -> Result<Rig, u32> {
    let (mut rig, refusal) = Rig::new(product::LEVELS, 1, CELLS);
    let mut refusals = vec![refusal];
    // Cell, part, mode: 1 reads, 2 writes, 0 and 3 do both.
    for (cell, part, mode) in [(0, 0, 3), (1, 0, 1), (2, 0, 0), (4, 1, 3), (5, 1, 2), (5, 1, 1), (6, 1, 1), (7, 1, 1)] {
        refusals.push(rig.grant(cell, part, mode));
    }
    refusals.push(rig.swap(3));
    // Part 0 sends to port 2, part 1 receives from it.
    refusals.push(rig.port(2, 0x01, 0x02));
    refusals.into_iter().find(|refusal| *refusal != 0).map_or(Ok(rig), Err)
}

fn play(paths: &[String]) -> Result<(), String> {
    let rig = rig().map_err(|refusal| format!("the rig: refusal {refusal}"))?;
    let mut cells = [0; 2 * CELLS];
    for (cell, level) in [(0, 128), (1, 128), (2, 255), (6, 0), (7, 255)] {
        cells[2 * cell] = level;
    }
    let (mut host, refusal) = Host::make(&rig, &cells);
    if refusal != 0 {
        return Err(format!("the host: refusal {refusal}"));
    }
    for path in paths {
        let show = std::fs::read(path).map_err(|error| format!("{path}: {error}"))?;
        let opened = product::open(&show);
        if opened.refusal != 0 {
            return Err(format!("{path}: refusal {}, record {}", opened.refusal, opened.at));
        }
        let mut log = vec![Record::default(); opened.commands as usize];
        let ran = host.run(&mut cells, &show, &mut log);
        if ran.refusal != 0 {
            return Err(format!("{path}: refusal {}", ran.refusal));
        }
        log.iter().for_each(|record| println!("{}", line(record)));
    }
    for (cell, words) in cells.chunks(2).enumerate() {
        println!("cell {cell}: {}", words[0]);
    }
    Ok(())
}

fn line(record: &Record) -> String {
    let kinds = ["?", "restore", "save", "instruct", "send", "receive"];
    let kind = kinds.get(usize::from(record.kind)).unwrap_or(&"?");
    let mut answer = match (record.refusal, record.missed) {
        (0, 0) => "done".to_string(),
        (0, missed) => format!("done, missed {missed}"),
        (refusal, _) => format!("refusal {refusal}, detail {}", record.detail),
    };
    for (n, value) in record.words.chunks(2).take(usize::from(record.count)).enumerate() {
        answer += if n == 0 { ": " } else { ", " };
        answer += &value[0].to_string();
    }
    format!("{:>5}  part {}  {kind:<8}  {answer}", record.place, record.part)
}

fn main() -> ExitCode {
    let paths: Vec<String> = std::env::args().skip(1).collect();
    if paths.is_empty() {
        eprintln!("play: usage: play SHOW..");
        return ExitCode::from(2);
    }
    match play(&paths) {
        Ok(()) => ExitCode::SUCCESS,
        Err(text) => {
            eprintln!("play: {text}");
            ExitCode::FAILURE
        }
    }
}
