//! Random tapes: nothing panics, nothing refused changes anything, and everything is reached.

use std::collections::BTreeSet;
use std::ops::Range;

use super::judge::sound_by_bytes;
use super::kit::{Desk, O, cancel, first_bad, listed, number, system, told_at};
use crate::tapes::counts::{old_form, recount, table_len};
use crate::tapes::judged::{ENTRIES, of_entry, of_message, places};
use crate::tapes::{Chance, Tapes, damage, good_list, message, settings, sound_table, worn_out};
use crate::{Host, Outbox, Stocks, Told, echo, fresh, listing, read, release, step};

/// A table, a ring and marks and a list of stocks, and what was seen of answers and messages.
struct Run {
    chance: Chance,
    table: Vec<u8>,
    ring: Vec<u8>,
    at: usize,
    held: usize,
    stocks: Vec<u8>,
    seen: BTreeSet<String>,
}

impl Run {
    fn new(seed: u64) -> Run {
        let mut chance = Chance::new(seed);
        let records = 1 + chance.place(40);
        let table = if chance.one_in(3) {
            let mut table = vec![0; table_len(records)];
            let threshold = chance.pick(&[1_000_000, 1_000_000, 600, 2]);
            assert_eq!(fresh(&mut table, threshold, &[*b"ABCD", *b"EF  "]), 0);
            table
        } else {
            sound_table(&mut chance, records)
        };
        let ring = vec![0x5a; damage::right_ring_length(&mut chance)];
        let at = chance.place(ring.len());
        let stocks = good_list(&mut chance, &table);
        Run {
            chance,
            table,
            ring,
            at,
            held: 0,
            stocks,
            seen: BTreeSet::new(),
        }
    }

    /// One step, compared with the kept host and held to what every step promises.
    fn step(&mut self, entry: &[u8]) -> u8 {
        let before = (self.table.clone(), self.ring.clone(), self.at, self.held);
        let list = self.stocks.clone();
        let kept = self.kept_host(entry);
        let told = step(
            &mut self.table,
            &mut self.ring,
            &mut self.at,
            &mut self.held,
            &mut self.stocks,
            entry,
        );
        let answer = told.answer;
        assert_eq!(self.at, before.2);
        self.check_place(entry, told);
        if answer != 0 {
            let after = (self.table.clone(), self.ring.clone(), self.at, self.held);
            assert_eq!(after, before, "refused with {answer}");
        } else {
            self.check_done(entry, &before.0, &before.1, before.3);
        }
        assert_eq!(self.stocks, list_after(&list, entry, answer));
        let bytes = [&self.table, &self.ring, &self.stocks].map(Vec::clone);
        let after = (told, bytes, self.held);
        assert!(
            kept.is_none_or(|kept| kept == after),
            "the kept host differs"
        );
        self.seen.insert(format!("answer {answer}"));
        if let ([b'X', ..], 0 | 1) = (entry, answer) {
            self.note_cancel(entry, &before.0);
        }
        answer
    }

    /// Notes where the size of a Cancel stood among the shares of a live order that has self-matched
    /// ones and no cancel pending.
    fn note_cancel(&mut self, entry: &[u8], table: &[u8]) {
        let used = number(&table[4..8]) as usize;
        let mut rows = table[64..].chunks(80).take(used);
        let Some(row) = rows.find(|row| row[1..15] == entry[9..23]) else {
            return;
        };
        let [liable, executed, self_matched] = [16, 20, 24].map(|at| number(&row[at..at + 4]));
        let (size, late, pending) = (number(&entry[23..27]), row[64] & 1, row[64] & 2);
        if row[0] != b'L' || self_matched == 0 || pending != 0 {
            return;
        }
        for (turn, sizes) in turns(executed, liable - self_matched, liable) {
            if sizes.contains(&size) {
                self.seen.insert(format!("X {turn}, late {late}"));
            }
        }
    }

    /// The same step by a host of its own and an outbox of its own.
    fn kept_host(&self, entry: &[u8]) -> Option<(Told, [Vec<u8>; 3], usize)> {
        let mut host = Host::load(&self.table)?;
        let mut outbox = Outbox::over(self.ring.clone(), self.at, self.held)?;
        let mut list = self.stocks.clone();
        let mut stocks = Stocks::over(&mut list)?;
        let told = host.offer(&mut outbox, &mut stocks, entry);
        let bytes = [host.image(), outbox.ring().to_vec(), list];
        Some((told, bytes, outbox.held()))
    }

    /// The place is the first bad byte's, and 0 with every answer but 3.
    fn check_place(&mut self, entry: &[u8], told: Told) {
        if told.answer != 3 {
            assert_eq!(told.place, 0, "{told:?}");
            return;
        }
        assert_eq!(told, told_at(first_bad(entry, of_entry(entry[0]))));
        let kind = char::from(entry[0]);
        self.seen.insert(format!("{kind} bad at {}", told.place));
    }

    fn check_done(&mut self, entry: &[u8], table: &[u8], ring: &[u8], held: usize) {
        assert!(
            Host::load(&self.table).is_some(),
            "a done step leaves a sound table"
        );
        assert_eq!(self.table[8..16], entry[1..9]);
        assert_eq!(self.table[24..60], table[24..60], "settings never change");
        let mut counted = self.table.clone();
        recount(&mut counted);
        assert_eq!(self.table, counted, "bits and sum are true");
        assert_eq!(self.table[3], blocks_after(table, entry));
        let (used, used_before) = (number(&self.table[4..8]), number(&table[4..8]));
        assert!(used == used_before || used == used_before + 1);
        let unused = 64 + 80 * used as usize..old_form(table).len();
        assert_eq!(
            self.table[unused.clone()],
            table[unused],
            "unused records stay"
        );
        let len = self.ring.len();
        let place = |k: usize| (self.at + held + k) % len;
        let sent: Vec<u8> = (0..self.held - held).map(|k| self.ring[place(k)]).collect();
        for k in sent.len()..len {
            assert_eq!(
                self.ring[place(k)],
                ring[place(k)],
                "only the message's bytes change"
            );
        }
        self.note(entry[0], &sent);
    }

    /// Notes the message and its reason; its stamp must be the entry's.
    fn note(&mut self, kind: u8, sent: &[u8]) {
        let letter = sent.first().map_or('-', |&letter| char::from(letter));
        let reason = match letter {
            'J' => char::from(sent[23]),
            'C' => char::from(sent[27]),
            _ => ' ',
        };
        self.seen
            .insert(format!("{} {letter} {reason}", char::from(kind)));
        if !sent.is_empty() {
            assert_eq!(
                sent[1..9],
                self.table[8..16],
                "stamped with the entry's stamp"
            );
        }
    }

    /// Sometimes reads and releases part of what is held.
    fn drain(&mut self) {
        if self.chance.one_in(3) {
            return;
        }
        let run = read(&self.ring, self.at, self.held);
        assert_eq!(run.len(), self.held.min(self.ring.len() - self.at));
        let k = if self.chance.one_in(4) {
            self.chance.place(self.held + 2)
        } else {
            run.len()
        };
        let (at, held) = (self.at, self.held);
        let answer = release(self.ring.len(), &mut self.at, &mut self.held, k);
        if k > held {
            assert_eq!((answer, self.at, self.held), (12, at, held));
        } else {
            assert_eq!(
                (answer, self.at, self.held),
                (0, (at + k) % self.ring.len(), held - k)
            );
        }
    }
}

/// Where a Cancel turns, or would if self-matched shares counted, and what lies between: `all` is
/// the size that would leave open what is open.
fn turns(executed: u64, all: u64, liable: u64) -> [(&'static str, Range<u64>); 13] {
    let one = |size: u64| size..size + 1;
    [
        ("0", one(0)),
        ("below executed", 1..executed),
        ("executed", one(executed)),
        ("executed + 1", one(executed + 1)),
        ("executed to all", executed + 2..all - 1),
        ("all - 1", one(all - 1)),
        ("all", one(all)),
        ("all + 1", one(all + 1)),
        ("all to liable", all + 2..liable - 1),
        ("liable - 1", one(liable - 1)),
        ("liable", one(liable)),
        ("liable + 1", one(liable + 1)),
        ("most", one(u64::from(u32::MAX))),
    ]
}

/// What a list must be after a step: only a done h changes it, at the state of its symbol.
fn list_after(list: &[u8], entry: &[u8], answer: u8) -> Vec<u8> {
    let mut list = list.to_vec();
    if answer == 0 && entry[0] == b'h' {
        let mut places = list.chunks_exact_mut(9);
        let place = places.find(|place| place[..8] == entry[9..17]);
        place.expect("done, so it is listed")[8] = entry[17];
    }
    list
}

/// What the blocks must be after a done entry: only d and n change them, at their firm's first place.
fn blocks_after(table: &[u8], entry: &[u8]) -> u8 {
    let mut firms = table[28..60].chunks_exact(4);
    let place = firms.position(|firm| entry.get(9..13) == Some(firm));
    match (entry[0], place) {
        (b'd', Some(place)) => table[3] | 1 << place,
        (b'n', Some(place)) => table[3] & !(1 << place),
        _ => table[3],
    }
}

/// Runs tapes and gives all that was seen.
fn run_tapes(seeds: std::ops::Range<u64>, entries: usize) -> BTreeSet<String> {
    let mut seen = BTreeSet::new();
    for seed in seeds {
        let mut run = Run::new(seed);
        let mut tapes = Tapes::new(seed ^ 0xdead_beef);
        for _ in 0..entries {
            let entry = tapes.entry(&run.table, &run.stocks);
            run.step(&entry);
            run.drain();
        }
        seen.append(&mut run.seen);
    }
    seen
}

#[test]
fn tapes_reach_every_answer_message_and_reason() {
    let seen = run_tapes(0..150, 120);
    let mut missing = Vec::new();
    let mut want = |what: String| {
        if !seen.contains(&what) {
            missing.push(what);
        }
    };
    let answers = (0..=9).chain([15]);
    answers.for_each(|answer| want(format!("answer {answer}")));
    "CLaSHRDXZN"
        .chars()
        .for_each(|reason| want(format!("O J {reason}")));
    "ITSDZE"
        .chars()
        .for_each(|reason| want(format!("c C {reason}")));
    for what in [
        "O A  ", "U J C", "U J R", "U J H", "U C U", "U U  ", "X C U", "X P  ", "X I  ", "M M  ",
        "e E  ", "q D  ", "p T  ", "l -  ", "f -  ", "f C U", "s S  ", "h -  ", "w C U", "d -  ",
        "n -  ",
    ] {
        want(what.to_string());
    }
    assert!(missing.is_empty(), "never seen: {missing:?}");
}

#[test]
fn tapes_cancel_self_matched_orders_wherever_the_rule_turns() {
    let seen = run_tapes(0..300, 120);
    for late in [0, 1] {
        for (turn, _) in turns(1, 2, 3) {
            let cancel = format!("X {turn}, late {late}");
            assert!(seen.contains(&cancel), "never seen: {cancel}");
        }
    }
}

/// Every place that a bad byte can be told at, of every kind.
#[test]
fn tapes_reach_every_place() {
    let seen = run_tapes(1_000..3_000, 100);
    for &kind in ENTRIES {
        for place in places(of_entry(kind)) {
            let bad = format!("{} bad at {place}", char::from(kind));
            assert!(seen.contains(&bad), "never seen: {bad}");
        }
    }
}

#[test]
fn a_seed_repeats_its_tape() {
    let table = sound_table(&mut Chance::new(5), 20);
    let list = good_list(&mut Chance::new(5), &table);
    let tape = |seed| {
        let mut tapes = Tapes::new(seed);
        let entries = (0..50).map(|_| tapes.entry(&table, &list));
        entries.collect::<Vec<_>>()
    };
    assert_eq!(tape(1), tape(1));
    assert_ne!(tape(1), tape(2));
}

#[test]
fn images_of_sound_tables_are_the_tables() {
    let mut chance = Chance::new(11);
    for records in (1..60).chain([800]) {
        for _ in 0..5 {
            let table = sound_table(&mut chance, records);
            let image = Host::load(&table).map(|host| host.image());
            assert_eq!(image, Some(table));
        }
    }
}

#[test]
fn damaged_tables_are_judged_alike_by_two_judges_and_never_changed() {
    let mut chance = Chance::new(21);
    let (mut sound, mut unsound) = (0, 0);
    for seed in 0..6_000 {
        let records = 1 + chance.place(12);
        let mut table = sound_table(&mut chance, records);
        damage::table(&mut chance, &mut table);
        let entry = Tapes::new(seed).entry(&table, &[]);
        let before = table.clone();
        let mut ring = [0x5a; 80];
        let (mut at, mut held) = (3, 4);
        let told = step(&mut table, &mut ring, &mut at, &mut held, &mut [], &entry);
        let answer = told.answer;
        assert_eq!(answer != 10, sound_by_bytes(&before, false));
        if answer == 10 {
            unsound += 1;
            assert_eq!((table, ring, at, held), (before, [0x5a; 80], 3, 4));
        } else {
            sound += 1;
        }
    }
    assert!(
        sound > 1_000 && unsound > 1_000,
        "sound {sound}, unsound {unsound}"
    );
}

#[test]
fn damaged_marks_rings_and_entries_are_refused_or_done_but_never_fatal() {
    let mut seen = BTreeSet::new();
    for seed in 0..300 {
        let mut run = Run::new(seed);
        let mut tapes = Tapes::new(seed);
        for _ in 0..30 {
            let entry = tapes.entry(&run.table, &run.stocks);
            let entry = damage::entry(&mut run.chance, entry);
            run.step(&entry);
        }
        if seed % 2 == 0 {
            run.ring.resize(damage::ring_length(&mut run.chance), 1);
        }
        damage::marks(&mut run.chance, run.ring.len(), &mut run.at, &mut run.held);
        let (len, at, held) = (run.ring.len(), run.at, run.held);
        let right = (80..=65_536).contains(&len) && at < len && held <= len;
        let entry = tapes.entry(&run.table, &run.stocks);
        assert_eq!(run.step(&entry) == 11, !right);
        let part = if right { held.min(len - at) } else { 0 };
        assert_eq!(read(&run.ring, at, held).len(), part);
        assert_eq!(
            release(len, &mut run.at, &mut run.held, 0),
            if right { 0 } else { 11 }
        );
        seen.append(&mut run.seen);
    }
    for answer in [0, 1, 2, 3, 11] {
        assert!(
            seen.contains(&format!("answer {answer}")),
            "never seen: {answer}"
        );
    }
}

/// Entries are made for any bytes, since damaged tables are looked at too.
#[test]
fn a_tape_can_be_made_for_any_bytes() {
    let mut chance = Chance::new(31);
    let mut tapes = Tapes::new(31);
    let mut lengths = BTreeSet::new();
    for _ in 0..2_000 {
        let table: Vec<u8> = (0..chance.place(400)).map(|_| chance.byte()).collect();
        let list: Vec<u8> = (0..chance.place(40)).map(|_| chance.byte()).collect();
        lengths.insert(tapes.entry(&table, &list).len());
    }
    for len in [10, 13, 18, 21, 23, 27, 28, 36, 40, 55, 56] {
        assert!(lengths.contains(&len), "never made: {len}");
    }
}

/// The listing's host is the step's host.
#[test]
fn a_listing_counts_what_steps_do() {
    let mut table = vec![0; 64_164];
    assert_eq!(fresh(&mut table, 1_000_000, &[*b"ABCD"]), 0);
    let (mut ring, mut stocks) = (vec![0; 4_096], listed(&[(b"ABC     ", b'T')]));
    let (mut at, mut held, mut tapes) = (0, 0, Tapes::new(77));
    let (mut tape, mut lines, mut taken, mut bytes) = (Vec::new(), Vec::new(), 0, 0);
    while lines.len() < 300 {
        let entry = tapes.entry(&table, &stocks);
        let (marks, stocks) = ((&mut at, &mut held), &mut stocks);
        let answer = step(&mut table, &mut ring, marks.0, marks.1, stocks, &entry).answer;
        if answer == 2 {
            continue;
        }
        let sent = read(&ring, at, held)
            .first()
            .map_or('-', |&letter| char::from(letter));
        lines.push(format!(
            "{} {:02x} {answer} {sent}",
            lines.len() + 1,
            entry[0]
        ));
        taken += u64::from(answer == 0);
        bytes += held;
        tape.extend(entry);
        let all = held;
        assert_eq!(release(ring.len(), &mut at, &mut held, all), 0);
    }
    let expected = format!(
        "entry kind answer sent\n{}\ntaken {taken} bytes {bytes}\n",
        lines.join("\n")
    );
    assert_eq!(listing(&tape), Some(expected));
}

#[test]
fn messages_and_settings_are_good_and_bad_in_turn() {
    let mut chance = Chance::new(41);
    let mut echoed = [0; 14];
    let mut freshened = [0; 14];
    for _ in 0..4_000 {
        let (inbound, message) = message(&mut chance);
        let mut out = [0x55; 80];
        let told = echo(inbound, &message, &mut out);
        let answer = told.answer;
        if answer == 3 {
            let fields = of_message(inbound, message[0]);
            assert_eq!(told, told_at(first_bad(&message, fields)));
        } else {
            assert_eq!(told.place, 0, "{told:?}");
        }
        let written = if answer == 0 { message.len() } else { 0 };
        assert_eq!(out[..written], message[..written]);
        assert!(out[written..].iter().all(|&byte| byte == 0x55));
        echoed[usize::from(answer)] += 1;

        let (threshold, firms) = settings(&mut chance);
        let mut table = [0x55; 145];
        let answer = fresh(&mut table, threshold, &firms);
        let sound = sound_by_bytes(&table, false);
        assert_eq!(answer == 0, sound, "{threshold} {firms:?}");
        freshened[usize::from(answer)] += 1;
    }
    assert!(
        echoed[0] > 1_000 && echoed[2] > 50 && echoed[3] > 200,
        "{echoed:?}"
    );
    assert!(
        freshened[0] > 1_000 && freshened[3] > 1_000,
        "{freshened:?}"
    );
}

#[test]
fn a_table_wears_out_when_nothing_is_live_or_can_be() {
    let mut desk = Desk::open(1);
    assert!(!worn_out(&desk.table));
    desk.sent(&O::good("A").entry(2));
    assert!(!worn_out(&desk.table), "full, but something is live");
    desk.sent(&cancel(2, "A", 0));
    assert!(worn_out(&desk.table));
    let mut closed = Desk::open(2);
    closed.sent(&system(2, b'E'));
    assert!(worn_out(&closed.table));
}
