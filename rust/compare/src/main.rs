//! The comparison as a program: one seeded script through both hosts in this process.

#![forbid(unsafe_code)]

use std::env;
use std::error::Error;
use std::process::ExitCode;

use compare::{Beside, Driver, Proved};

const USAGE: &str = "usage: compare direct --seed N --entries M
  plays at least M entries, with all that comes between them, through the second host and through
  the proved one, whose archive is linked when this program is built; ends at the first difference";

fn main() -> ExitCode {
    let words: Vec<String> = env::args().skip(1).collect();
    let words: Vec<&str> = words.iter().map(String::as_str).collect();
    let outcome = match words.as_slice() {
        ["direct", "--seed", seed, "--entries", entries] => direct(seed, entries),
        _ => Err(USAGE.into()),
    };
    match outcome {
        Ok(()) => ExitCode::SUCCESS,
        Err(why) => {
            eprintln!("{why}");
            ExitCode::FAILURE
        }
    }
}

fn direct(seed: &str, entries: &str) -> Result<(), Box<dyn Error>> {
    let (seed, entries) = (seed.parse()?, entries.parse()?);
    let beside = Beside::new(Proved::linked()?);
    let tally = Driver::drive(seed, entries, beside)?;
    println!("both hosts alike, seed {seed}: {tally}");
    Ok(())
}
