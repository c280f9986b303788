//! The listing of the paper's tape, and how a list ends early.

use super::kit::*;
use crate::listing;

/// A good Enter in the only stock that the program's list has.
fn enter(name: &'static str, stamp: u64) -> Vec<u8> {
    let stock = *b"ABC     ";
    let order = O::good(name);
    O { stock, ..order }.entry(stamp)
}

#[test]
fn the_papers_tape_prints_the_papers_lines() {
    let tape = [
        system(1, b'S'),
        enter("A", 2),
        cancel(3, "A", 0),
        cancel(3, "A", 0),
    ]
    .concat();
    let lines =
        "entry kind answer sent\n1 73 0 S\n2 4f 0 A\n3 58 0 C\n4 58 1 -\ntaken 3 bytes 104\n";
    assert_eq!(listing(&tape).as_deref(), Some(lines));
}

#[test]
fn an_empty_tape_prints_the_two_fixed_lines() {
    assert_eq!(
        listing(b"").as_deref(),
        Some("entry kind answer sent\ntaken 0 bytes 0\n")
    );
}

#[test]
fn a_cut_entry_and_an_unknown_kind_end_the_list() {
    let start = system(1, b'S');
    let cut = [start.as_slice(), &enter("A", 2)[..55]].concat();
    let lines = "entry kind answer sent\n1 73 0 S\n2 4f 2 -\ntaken 1 bytes 10\n";
    assert_eq!(listing(&cut).as_deref(), Some(lines));

    let unknown = [start.as_slice(), b"\x07", &enter("A", 2)].concat();
    let lines = "entry kind answer sent\n1 73 0 S\n2 07 2 -\ntaken 1 bytes 10\n";
    assert_eq!(listing(&unknown).as_deref(), Some(lines));
}

#[test]
fn an_entry_that_is_refused_for_another_reason_does_not_end_the_list() {
    let tape = [
        system(1, b'X'),
        system(1, b'E'),
        system(5, b'S'),
        system(4, b'E'),
    ]
    .concat();
    let lines =
        "entry kind answer sent\n1 73 3 -\n2 73 7 -\n3 73 0 S\n4 73 4 -\ntaken 1 bytes 10\n";
    assert_eq!(listing(&tape).as_deref(), Some(lines));
}

/// The ring wraps many times over such a tape, and the letters still show.
#[test]
fn a_long_tape_shows_every_letter() {
    let names = ["A", "B", "C", "D", "E", "F", "G", "H", "I", "J"];
    let mut tape = system(1, b'S');
    for round in 0..20_u64 {
        for name in names {
            tape.extend(enter(name, 2 + round));
            tape.extend(execution(2 + round, name, 1));
        }
    }
    let lines = listing(&tape).unwrap_or_default();
    assert_eq!(lines.matches(" 0 A\n").count(), 10);
    assert_eq!(lines.matches(" 1 -\n").count(), 190);
    assert_eq!(lines.matches(" 0 E\n").count(), 200);
    assert!(lines.ends_with("taken 211 bytes 8670\n"), "{lines}");
}
