//! Compares the product with the reference on random input: `compare [--seed N] [--commands N] [--host N]
//! [--reference-only]`.

#![forbid(unsafe_code)]

use bench::compare::compare_host;
use bench::compare::tally::Tally;
use std::process::ExitCode;

struct Options {
    seed: u64,
    commands: u64,
    /// Only this host.
    host: Option<u64>,
    with_product: bool,
}

fn options() -> Result<Options, String> {
    let mut options = Options { seed: 1, commands: 1_000_000, host: None, with_product: true };
    let mut words = std::env::args().skip(1);
    while let Some(word) = words.next() {
        let mut number = || {
            let text = words.next().ok_or(format!("{word} wants a number"))?;
            text.parse().map_err(|_| format!("{word} wants a number, not {text}"))
        };
        match word.as_str() {
            "--seed" => options.seed = number()?,
            "--commands" => options.commands = number()?,
            "--host" => options.host = Some(number()?),
            "--reference-only" => options.with_product = false,
            _ => {
                return Err(format!("{word}: usage: compare [--seed N] [--commands N] [--host N] [--reference-only]"));
            }
        }
    }
    Ok(options)
}

fn main() -> ExitCode {
    let options = match options() {
        Ok(options) => options,
        Err(text) => {
            eprintln!("compare: {text}");
            return ExitCode::from(2);
        }
    };
    let mut tally = Tally::default();
    let mut host = options.host.unwrap_or(0);
    loop {
        if let Err(text) = compare_host(options.seed, host, options.with_product, &mut tally) {
            print!("{tally}");
            println!("seed {}, host {host}, after {} commands: DIFFERENCE", options.seed, tally.commands);
            println!("{text}");
            return ExitCode::FAILURE;
        }
        host += 1;
        if options.host.is_some() || tally.commands >= options.commands {
            break;
        }
    }
    print!("{tally}");
    let who = if options.with_product { "product and reference" } else { "reference, boxes and parts alone" };
    println!("seed {}: {who} agree", options.seed);
    ExitCode::SUCCESS
}
