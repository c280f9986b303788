//! Races: runners that take turns, and the best time of each.

use std::time::{Duration, Instant};

/// How often each runner has its turn; the best turn counts, since only noise makes one longer.
const ROUNDS: u32 = 500;
/// Calls a turn: so few that most turns aren't disturbed, and so even that to and fro end alike.
pub const CALLS: u32 = 128;
/// Calls that a runner makes in all.
pub const CALLS_A_RACE: u32 = ROUNDS * CALLS;

/// Has one turn: prepares what it needs, and then tells how long its calls took.
pub type Runner<'a> = &'a mut dyn FnMut() -> Duration;

/// The best nanoseconds a call. Runners take turns within a round, so that what slows the machine
/// for a while slows them all.
pub fn race<const N: usize>(mut runners: [Runner; N]) -> [f64; N] {
    let mut best = [Duration::MAX; N];
    for _ in 0..ROUNDS {
        for (run, best) in runners.iter_mut().zip(&mut best) {
            *best = run().min(*best);
        }
    }
    best.map(|turn| turn.as_nanos() as f64 / f64::from(CALLS))
}

/// How long a turn's calls take.
pub fn timed(mut call: impl FnMut()) -> Duration {
    let began = Instant::now();
    for _ in 0..CALLS {
        call();
    }
    began.elapsed()
}
