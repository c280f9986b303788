//! A driver with the shortest ring and a slow reader: plays the tape on standard input, and writes
//! what the host sends to standard output.
//!
//! An entry that is blocked waits until the reader has made room, so what is sent is what a roomy
//! ring would send; the driver plays the tape beside one to show it.

use std::io::{self, Read, Write};
use std::process::ExitCode;

use pilaqsevi::{Answer, Desk, MOST_RECORDS, SHORTEST_RING, Settings, Status, entry_length};

/// The most that the reader takes at a time.
const SLOW: usize = 12;
/// A ring with room for many messages.
const ROOMY: usize = 4_096;
/// The only stock that is listed, and it trades.
const STOCKS: &[u8] = b"ABC     T";

fn main() -> ExitCode {
    if let Some(why) = pilaqsevi::absent() {
        eprintln!("{why}");
        return ExitCode::FAILURE;
    }
    match play() {
        Ok(()) => ExitCode::SUCCESS,
        Err(why) => {
            eprintln!("{why}");
            ExitCode::FAILURE
        }
    }
}

fn play() -> io::Result<()> {
    let mut tape = Vec::new();
    io::stdin().read_to_end(&mut tape)?;
    let (small, desk) = send(&tape, SHORTEST_RING, &mut io::stderr())?;
    let (roomy, other) = send(&tape, ROOMY, &mut io::sink())?;
    io::stdout().write_all(&small)?;
    // The list belongs to what is left at the end, since halts change it.
    let alike = desk.table() == other.table() && desk.stocks() == other.stocks();
    if small != roomy || !alike {
        return Err(io::Error::other(
            "through a roomy ring something else is sent or left",
        ));
    }
    let Status { live, open } = desk.status();
    eprintln!("{live} live, {open} shares open");
    eprintln!(
        "{} bytes sent; through a ring of {ROOMY} the stream is the same",
        small.len()
    );
    Ok(())
}

/// All that a host with a ring of so many bytes sends for a tape, and the host's desk at its end.
fn send(mut tape: &[u8], ring: usize, told: &mut impl Write) -> io::Result<(Vec<u8>, Desk)> {
    let settings = Settings {
        threshold: 1_000_000,
        firms: &[*b"ABCD"],
    };
    let refused = |answer| io::Error::other(format!("no desk, {answer}"));
    let mut desk = Desk::new(settings, MOST_RECORDS, ring, STOCKS).map_err(refused)?;
    let mut sent = Vec::new();
    let mut answer = Answer::Done;
    while let (true, Some(&kind)) = (answer != Answer::Malformed, tape.first()) {
        // What has no kind or is cut is handed on as it is, and the host says what it is.
        let length = entry_length(kind).unwrap_or(1).min(tape.len());
        let (entry, rest) = tape.split_at(length);
        answer = offer_until_taken(&mut desk, entry, &mut sent, told)?;
        tape = rest;
    }
    while take(&mut desk, &mut sent) > 0 {}
    Ok((sent, desk))
}

/// Offers an entry, and where it is blocked lets the reader make room and offers it again: it is
/// never lost, and never half sent.
fn offer_until_taken(
    desk: &mut Desk,
    entry: &[u8],
    sent: &mut Vec<u8>,
    told: &mut impl Write,
) -> io::Result<Answer> {
    let (kind, ring) = (char::from(entry[0]), desk.ring().len());
    loop {
        let answer = desk.offer(entry);
        write!(told, "{kind} {answer}, {} of {ring} held", desk.held())?;
        if answer != Answer::Blocked {
            writeln!(told)?;
            return Ok(answer);
        }
        let taken = take(desk, sent);
        writeln!(told, "; {taken} bytes read and released")?;
    }
}

/// The slow reader takes a piece of what is held, and gives it up.
fn take(desk: &mut Desk, sent: &mut Vec<u8>) -> usize {
    let run = desk.read();
    let piece = &run[..run.len().min(SLOW)];
    sent.extend(piece);
    let taken = piece.len();
    assert_eq!(desk.release(taken), Answer::Done);
    taken
}
