//! Scripts: a seed repeats one, and it reaches everything.

use std::collections::BTreeSet;
use std::sync::LazyLock;

use compare::{Command, Desk, Difference, Driver, Second, Sink, Tally};
use pilaqsevi::Marks;
use second::tapes::counts::{room, table_len};
use second::tapes::judged::{self, Field, places};

/// All commands of a script.
#[derive(Default)]
struct Kept(Vec<Command>);

impl Sink for &mut Kept {
    fn take(&mut self, command: &Command, _: &[u8]) -> Result<(), Box<Difference>> {
        self.0.push(command.clone());
        Ok(())
    }
}

fn script(seed: u64, entries: u64) -> Vec<Command> {
    let mut kept = Kept::default();
    let tally = Driver::drive(seed, entries, &mut kept).unwrap();
    assert!(tally.entries() >= entries);
    kept.0
}

#[test]
fn a_seed_repeats_its_script() {
    assert!(script(5, 500) == script(5, 500));
    assert!(script(5, 500) != script(6, 500));
}

/// What a script reached: calls with their answers, and messages with their reasons.
#[derive(Default)]
struct Seen {
    before: Desk,
    desk: Desk,
    what: BTreeSet<String>,
}

impl Sink for &mut Seen {
    fn take(&mut self, command: &Command, expected: &[u8]) -> Result<(), Box<Difference>> {
        self.before.clone_from(&self.desk);
        self.desk.obey(&Second, command, &mut Vec::new());
        let answer = expected.first().copied().unwrap_or(0);
        match command {
            Command::Step(entry) => self.note_step(entry, answer),
            Command::Echo(echo) => {
                let kind = char::from(echo.message.first().copied().unwrap_or(b'?'));
                let inbound = echo.inbound;
                self.what.insert(format!("E {inbound} {kind} {answer}"));
            }
            Command::Make(making) => {
                let kind = char::from(making.message.first().copied().unwrap_or(b'?'));
                let purge = making.purge;
                self.what.insert(format!("M {purge} {kind} {answer}"));
            }
            Command::Fresh(_) => _ = self.what.insert(format!("F {answer}")),
            Command::Release(_) => _ = self.what.insert(format!("L {answer}")),
            Command::Status => _ = self.what.insert(format!("T {answer}")),
            Command::Convert(_) => _ = self.what.insert(format!("C {answer}")),
            Command::Read | Command::Table(_) | Command::Ring { .. } | Command::Stocks(_) => {}
        }
        Ok(())
    }
}

impl Seen {
    /// Answers by kind, sizes, wraps, and the letters of what was sent.
    fn note_step(&mut self, entry: &[u8], answer: u8) {
        let kind = char::from(entry.first().copied().unwrap_or(b'?'));
        self.what.insert(format!("S {kind} {answer}"));
        if answer == 10 || answer == 11 {
            return;
        }
        self.what
            .insert(format!("records {}", room(self.desk.table.len())));
        let Marks { at, held } = self.before.marks;
        let len = self.desk.ring.len();
        let sent = self.desk.sent_since(held);
        let letter = sent.first().map_or('-', |&letter| char::from(letter));
        let reason = match letter {
            'J' => char::from(sent[23]),
            'C' => char::from(sent[27]),
            _ => ' ',
        };
        if answer == 0 {
            self.what.insert(format!("{kind} {letter}{reason}"));
            self.note_stock(entry, &format!("{kind} {letter}{reason}"));
            let start = (at + held) % len;
            if start + sent.len() > len {
                self.what.insert(format!("{letter} wraps"));
            }
            if self.desk.marks.held == len {
                self.what.insert("ring full".into());
                self.what.insert(format!("ring full, {kind} done"));
            }
        }
    }

    /// How the stock of a done O or U stood in the list, and what a done h found there.
    fn note_stock(&mut self, entry: &[u8], done: &str) {
        let Desk { table, stocks, .. } = &self.before;
        let (places, day) = (stocks.len() / 9, table[0]);
        let state = |symbol: &[u8]| {
            let mut places = stocks.chunks_exact(9);
            let place = places.find(|place| place[..8] == *symbol);
            place.map_or('-', |place| char::from(place[8]))
        };
        let stands = match entry[0] {
            b'O' => state(&entry[28..36]),
            b'U' => {
                let mut records = table[64..].chunks_exact(80);
                let old = records.find(|record| record[1..15] == entry[9..23]);
                state(&old.expect("done, so it is there")[28..36])
            }
            b'h' => {
                let set = char::from(entry[17]);
                self.what
                    .insert(format!("h from {} to {set}", state(&entry[9..17])));
                _ = self.what.insert(format!("h on day {day}"));
                '-'
            }
            _ => return,
        };
        self.what.insert(format!("{done} in {stands}"));
        self.what.insert(format!("{places} listed"));
    }
}

fn seen(seed: u64, entries: u64) -> BTreeSet<String> {
    let mut seen = Seen::default();
    Driver::drive(seed, entries, &mut seen).unwrap();
    seen.what
}

/// Everything that a step can answer to each kind.
fn answers_by_kind() -> Vec<String> {
    let mut wanted = Vec::new();
    for (kind, answers) in [
        ('O', [1, 8, 9].as_slice()),
        ('U', &[1, 8, 9]),
        ('X', &[1, 9]),
        ('M', &[1, 9]),
        ('e', &[5, 6, 7, 9]),
        ('c', &[5, 6, 9]),
        ('q', &[5, 6, 7, 9]),
        ('p', &[5, 7, 8, 9]),
        ('l', &[5, 7]),
        ('f', &[5, 7, 9]),
        ('s', &[7, 9]),
        ('h', &[5]),
        ('w', &[15, 1, 9]),
        ('d', &[15]),
        ('n', &[15]),
    ] {
        let always = [0, 2, 3, 4, 10, 11, 14];
        let all = always.iter().chain(answers);
        wanted.extend(all.map(|answer| format!("S {kind} {answer}")));
    }
    wanted
}

/// Every message that an entry can send, by its reason where it has one.
fn messages_by_kind() -> Vec<String> {
    let sends = "O A /U JC/U JR/U JH/U CU/U U /X CU/X P /X I /M M /e E /q D /p T /l - /f - /f CU/\
                 s S /h - /w CU/d - /n - ";
    let rejects = "CLaSHRDXZN".chars().map(|reason| format!("O J{reason}"));
    let cancels = "ITSDZE".chars().map(|reason| format!("c C{reason}"));
    let sends = sends.split('/').map(String::from);
    sends.chain(rejects).chain(cancels).collect()
}

/// All that the list has to do with an O, a U or an h: a stock that trades, is halted or isn't
/// listed, with each message that this decides, and those that come before it is asked for.
fn stocks() -> Vec<String> {
    let mut wanted: Vec<String> = [
        "O A  in T",
        "O JS in -",
        "O JS in T",
        "O JS in H",
        "O JH in H",
        "O JC in H",
        "O JL in H",
        "U U  in T",
        "U U  in -",
        "U JH in H",
        "U JR in H",
        "U JC in H",
        "U CU in T",
        "U CU in -",
        "h from T to H",
        "h from H to T",
        "h from T to T",
        "h from H to H",
        "h on day 0",
        "h on day 1",
        "h on day 2",
        "ring full, h done",
    ]
    .map(String::from)
    .to_vec();
    wanted.extend([0, 1, 2, 3, 6, 1_999, 2_000].map(|places| format!("{places} listed")));
    wanted
}

/// Both directions of all messages, with each answer that an echo has.
fn echoes() -> Vec<String> {
    let inbound = "OUXM".chars().map(|kind| (true, kind));
    let outbound = "SAUCDEBJPITM".chars().map(|kind| (false, kind));
    let kinds = inbound.chain(outbound);
    kinds
        .flat_map(|(inbound, kind)| {
            [0, 2, 3, 13].map(|answer| format!("E {inbound} {kind} {answer}"))
        })
        .collect()
}

/// All messages of which entries are made, with each answer that this has.
fn makings() -> Vec<String> {
    let client = "OUXM".chars().map(|kind| (false, kind));
    let port = "MDE".chars().map(|kind| (true, kind));
    let kinds = client.chain(port);
    kinds
        .flat_map(|(purge, kind)| [0, 2, 3, 13].map(|answer| format!("M {purge} {kind} {answer}")))
        .collect()
}

#[test]
fn a_script_reaches_every_answer_message_and_reason() {
    let seen = seen(1, 100_000);
    let mut wanted = [
        answers_by_kind(),
        messages_by_kind(),
        stocks(),
        echoes(),
        makings(),
    ]
    .concat();
    wanted.extend("AUCDEJPITM".chars().map(|letter| format!("{letter} wraps")));
    let records = (1..=9).chain([15, 16, 17, 24, 25, 800]);
    wanted.extend(records.map(|records| format!("records {records}")));
    wanted.push("ring full".into());
    wanted.extend([0, 3, 10].map(|answer| format!("F {answer}")));
    wanted.extend([0, 11, 12].map(|answer| format!("L {answer}")));
    wanted.extend([0, 10].map(|answer| format!("T {answer}")));
    wanted.extend([0, 10, 13].map(|answer| format!("C {answer}")));
    wanted.retain(|what| !seen.contains(what));
    assert!(wanted.is_empty(), "never seen: {wanted:?}");
}

/// Takes every command and says nothing.
struct Unheard;

impl Sink for Unheard {
    fn take(&mut self, _: &Command, _: &[u8]) -> Result<(), Box<Difference>> {
        Ok(())
    }
}

/// The tally of one script, for all tests that ask how often it does something.
static TALLY: LazyLock<Tally> = LazyLock::new(|| Driver::drive(4, 100_000, Unheard).unwrap());

/// Every byte of every kind, of every message and of every message made into an entry that can be
/// told as bad: each character of a token, and the first byte of what is bad as a whole.
#[test]
fn a_script_reaches_every_place() {
    let tally = Driver::drive(1, 200_000, Unheard).unwrap();
    let told = tally.to_string();
    let of_entry = |&kind: &u8| (kind, judged::of_entry(kind));
    let entries = all_places(judged::ENTRIES.iter().map(of_entry));
    let inbound = |&letter: &u8| ((true, letter), judged::of_message(true, letter));
    let outbound = |&letter: &u8| ((false, letter), judged::of_message(false, letter));
    let request = |&letter: &u8| ((true, letter), judged::of_request(letter));
    let client = |&letter: &u8| ((false, letter), judged::of_message(true, letter));
    let messages = judged::INBOUND.iter().map(inbound);
    let messages = all_places(messages.chain(judged::OUTBOUND.iter().map(outbound)));
    let makings = judged::PORT.iter().map(request);
    let makings = all_places(makings.chain(judged::INBOUND.iter().map(client)));
    let seen = tally.entry_places.iter().copied();
    assert!(entries.into_iter().eq(seen), "{told}");
    let flat = |&(way, letter, place): &(bool, u8, u64)| ((way, letter), place);
    assert!(
        messages
            .into_iter()
            .eq(tally.message_places.iter().map(flat)),
        "{told}"
    );
    assert!(
        makings.into_iter().eq(tally.making_places.iter().map(flat)),
        "{told}"
    );
    for places in [" at 179 places", " at 254 places", " at 78 places"] {
        assert!(told.contains(places), "{told}");
    }
}

/// Every place at which each of these can be bad, in order.
fn all_places<K: Copy + Ord>(
    kinds: impl Iterator<Item = (K, &'static [Field])>,
) -> BTreeSet<(K, u64)> {
    kinds
        .flat_map(|(kind, fields)| places(fields).into_iter().map(move |at| (kind, at as u64)))
        .collect()
}

/// Orders are mostly accepted as before, and yet often rejected for their stocks.
#[test]
fn a_script_rejects_often_and_does_more() {
    let tally = &*TALLY;
    let rejected: u64 = tally.rejects.values().sum();
    let done = tally.done["O"] + tally.done["U"];
    assert!(rejected < 2 * (done - rejected), "{tally}");
    for (what, often) in [("O S", 500), ("O H", 500), ("U H", 50), ("U R", 50)] {
        assert!(tally.rejects[what] > often, "{tally}");
    }
    assert!(
        tally.done["h"] > 2_000 && tally.steps[14] > 1_000,
        "{tally}"
    );
}

/// Tokens are told apart that share their first nine characters, their last nine, or all but one,
/// wherever that stands.
#[test]
fn a_script_often_names_tokens_that_are_nearly_alike() {
    let tally = &*TALLY;
    assert!(tally.alike_in_front > 5_000, "{tally}");
    assert!(tally.alike_at_the_end > 5_000, "{tally}");
    assert!(tally.alike_but_for_one > 5_000, "{tally}");
    assert!(tally.apart_at.iter().copied().eq(0..14), "{tally}");
}

/// Orders with self-matched shares are cancelled to every size at which the rule turns, or would
/// turn if those shares counted, late ones among them.
#[test]
fn a_script_often_cancels_orders_with_self_matched_shares() {
    let tally = &*TALLY;
    assert!(tally.cancels.0.iter().all(|&count| count > 100), "{tally}");
    assert!(
        tally.late_cancels.0.iter().all(|&count| count > 20),
        "{tally}"
    );
    let told = tally.to_string();
    let cancels = format!(
        "cancels after self matches (in all: {},",
        tally.cancels.0[0]
    );
    assert!(told.contains(&cancels), "{told}");
}

/// A w finds its order behind each kind of order that it passes over, or finds none left behind them;
/// d and n find their bit set and clear; and the bits are asked for by name, as the default's and at
/// the right place of a firm listed twice.
#[test]
fn a_script_often_purges_and_blocks() {
    let tally = &*TALLY;
    assert!(tally.purges.0.iter().all(|&count| count > 20), "{tally}");
    // Where nothing is found, no token is equal to its own.
    let vain = tally.vain_purges.0;
    assert_eq!(
        vain.iter().filter(|&&count| count > 20).count(),
        9,
        "{tally}"
    );
    assert!(tally.blocks.0.iter().all(|&count| count > 50), "{tally}");
    assert!(
        tally.rejects["O a"] > 500 && tally.steps[15] > 500,
        "{tally}"
    );
    assert_eq!(tally.purges.0[0], tally.done["w"], "{tally}");
    assert_eq!(tally.vain_purges.0[0], tally.ignored["w"], "{tally}");
}

/// Bits are set and cleared by every kind that can, also past their first byte, and the sum is lowered
/// by every kind that leaves its order live.
#[test]
fn a_script_often_moves_bits_and_sums() {
    let tally = &*TALLY;
    let sets = "OU".chars().map(|kind| format!("set by {kind}"));
    let clears = "UXceqfw".chars().map(|kind| format!("cleared by {kind}"));
    let lowers = "XMceq"
        .chars()
        .map(|kind| format!("only lowered by {kind}"));
    let later = ["set", "cleared"].map(|what| format!("{what} past the first byte"));
    let moves: Vec<String> = sets.chain(clears).chain(lowers).chain(later).collect();
    let counted = &tally.bits.0;
    assert!(counted.keys().all(|what| moves.contains(what)), "{tally}");
    let often = |what: &String| counted.get(what).is_some_and(|&count| count > 100);
    assert!(moves.iter().all(often), "{tally}");
}

/// Statuses find every kind of damage, and there is every kind of table to convert.
#[test]
fn a_script_often_asks_for_the_status_and_converts() {
    let tally = &*TALLY;
    assert!(tally.statuses[0] > 50_000, "{tally}");
    assert!(tally.found.0.iter().all(|&count| count > 100), "{tally}");
    let [done, unsound, no_room] = [0, 10, 13].map(|answer| tally.conversions[answer]);
    assert!(done.min(unsound).min(no_room) > 1_000, "{tally}");
    let converted = tally.converted.0;
    assert!(converted.iter().all(|&count| count > 100), "{tally}");
    let told = tally.to_string();
    assert!(told.contains(&format!("conversions (0: {done}, 10: {unsound}")));
}

/// Lengths above the paper's are tried too.
#[test]
fn a_script_goes_beyond_the_longest_table_ring_and_list() {
    let script = script(2, 40_000);
    let longest = |length: fn(&Command) -> usize| script.iter().map(length).max();
    let table = longest(|command| match command {
        Command::Table(table) => table.len(),
        _ => 0,
    });
    let ring = longest(|command| match command {
        Command::Ring { ring, .. } => ring.len(),
        _ => 0,
    });
    assert!(table >= Some(table_len(801)) && ring == Some(65_537));
    let too_long = |command: &Command| match command {
        Command::Stocks(stocks) => stocks.len() == 9 * 2_001,
        _ => false,
    };
    assert!(script.iter().any(too_long));
}
