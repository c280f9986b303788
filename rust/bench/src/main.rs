//! The benchmark: the proved functions beside plain Rust, as ratios of one run, over several runs.

#![deny(unsafe_code)]

mod counts;
#[cfg(any(weighed, test))]
mod find;
mod list;
mod next;
mod plain;
mod race;
mod report;
mod ring;
mod rows;
#[cfg(weighed)]
mod scales;
mod scene;
#[cfg(any(weighed, test))]
mod search;

use std::env;
use std::process::ExitCode;

use report::Line;
use rows::Row;

/// Used records of the tables that are stepped on.
const USED: [usize; 3] = [1, 100, 800];
/// Records of the tables whose status is asked for.
const TOLD: [usize; 3] = [8, 100, 800];
/// How many runs there are where no number is given.
const RUNS: usize = 9;

fn main() -> ExitCode {
    if let Some(why) = pilaqsevi::absent() {
        eprintln!("nothing to measure: {why}");
        return ExitCode::FAILURE;
    }
    let Ok(runs) = env::args().nth(1).map_or(Ok(RUNS), |word| word.parse()) else {
        eprintln!("usage: bench [RUNS]");
        return ExitCode::FAILURE;
    };
    if !cfg!(weighed) {
        eprintln!(
            "no libscales.a beside the archive: sound, the searches, put and the list alone are left out"
        );
    }
    println!("| what | proved | beside | its time | ratio | over {runs} runs | claim |");
    println!("|---|---|---|---|---|---|---|");
    for line in Line::all((0..runs).map(|_| run()).collect()) {
        println!("{line}");
    }
    ExitCode::SUCCESS
}

/// All rows, once.
fn run() -> Vec<Row> {
    let mut rows: Vec<Row> = USED.into_iter().flat_map(rows::steps).collect();
    rows.push(rows::step_over_a_long_list());
    rows.extend(USED.into_iter().flat_map(rows::cancels));
    // A table of one order needs no search.
    rows.extend(USED.into_iter().skip(1).map(rows::purge));
    rows.extend(USED.last().copied().into_iter().flat_map(rows::purges));
    rows.extend(TOLD.into_iter().flat_map(rows::statuses));
    rows.extend(TOLD.last().copied().map(rows::conversion));
    #[cfg(weighed)]
    rows.extend(rows::weighed(&USED));
    rows.extend(rows::release_alone());
    let messages = scene::messages();
    rows.extend(
        messages
            .iter()
            .map(|(inbound, message)| rows::codec(*inbound, message)),
    );
    let requests = scene::requests();
    rows.extend(
        requests
            .iter()
            .map(|(purge, message)| rows::making(*purge, message)),
    );
    rows
}
