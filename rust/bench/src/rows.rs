//! The rows of the benchmark: each measures a proved function beside plain Rust in one race.

mod counted;

pub use counted::{conversion, statuses};

use std::collections::VecDeque;
use std::hint::black_box;
use std::time::Duration;

use pilaqsevi::{Answer, LONGEST_ENTRY, Marks, echo, entry, release, step};
use second::{Host, Outbox, Stocks};

use crate::plain;
use crate::race::{CALLS, race, timed};
use crate::ring;
use crate::scene::{Passed, Scene, long_list};
#[cfg(weighed)]
use crate::{find, list, scales, scene::Alike, search};

/// The stamp of entries that are made.
const STAMP: u64 = 34_200_000_000_000;
/// A ring that has room for what a turn of steps sends.
const RING_LEN: usize = 4_096;
/// The length of a Modified and of a Canceled, which the scenes' entries send.
const SENT: usize = 28;
const _: () = assert!(SENT * CALLS as usize <= RING_LEN);

/// What a race measured. The claim is the ratio that we say it has at most, where we say one.
pub struct Row {
    pub what: String,
    pub beside: &'static str,
    pub proved: f64,
    pub other: f64,
    pub claim: Option<f64>,
}

impl Row {
    fn new(what: &str, proved: f64, beside: &'static str, other: f64, claim: Option<f64>) -> Row {
        Row {
            what: what.into(),
            beside,
            proved,
            other,
            claim,
        }
    }
}

/// A proved step beside plain Rust by hand: judging and searching the same table, which is a part
/// of the job, and all of it; and beside the second host that judged once and keeps an index.
pub fn steps(used: usize) -> Vec<Row> {
    let scene = Scene::new(used);
    let (mut proved, mut by_hand) = (Over::new(&scene), Over::new(&scene));
    let mut host = Kept::new(&scene);
    let [step, part, whole, kept] = race([
        &mut || proved.proved_steps(),
        &mut || {
            timed(|| {
                let table = black_box(scene.table.as_slice());
                let found = plain::judge(table) && plain::find(table, &scene.token).is_some();
                assert!(black_box(found));
            })
        },
        &mut || by_hand.plain_steps(),
        &mut || host.steps(),
    ]);
    let what = format!("step, {used} used");
    let claim = claim_for(used);
    vec![
        Row::new(&what, step, "plain: judge and find alone", part, claim),
        Row::new(&what, step, "plain, the same job", whole, claim),
        Row::new(&what, step, "second host, kept", kept, None),
    ]
}

/// A Cancel that is done, as a step is a Modify, beside all of the job by hand and beside the second
/// host.
pub fn cancels(used: usize) -> Vec<Row> {
    let scene = Scene::to_cancel(used);
    let (mut proved, mut by_hand) = (Over::new(&scene), Over::new(&scene));
    let mut host = Kept::new(&scene);
    let [cancel, whole, kept] = race([
        &mut || proved.proved_steps(),
        &mut || by_hand.plain_steps(),
        &mut || host.steps(),
    ]);
    let what = format!("cancel, {used} used");
    let claim = claim_for(used);
    vec![
        Row::new(&what, cancel, "plain, the same job", whole, claim),
        Row::new(&what, cancel, "second host, kept", kept, None),
    ]
}

/// A w whose order is the last of so many. By hand the records are walked over.
pub fn purge(used: usize) -> Row {
    let scene = Scene::to_purge(used, &Passed::FOR_ALL_REASONS);
    beside_the_same_job(&format!("purge, {used} used"), &scene, claim_for(used))
}

/// The same among so many orders of which all the others are dead or all are live, and one that finds
/// none left and is ignored.
pub fn purges(used: usize) -> [Row; 3] {
    let scenes = [
        ("all others dead", Scene::to_purge(used, &Passed::AS_DEAD)),
        ("all live", Scene::to_purge(used, &Passed::THOUGH_LIVE)),
        ("none left", Scene::purged(used)),
    ];
    scenes.map(|(which, scene)| {
        let what = format!("purge, {used} used, {which}");
        beside_the_same_job(&what, &scene, claim_for(used))
    })
}

/// What is claimed of a table that is judged; with one record there is next to nothing to judge and
/// to find.
fn claim_for(used: usize) -> Option<f64> {
    (used > 1).then_some(0.6)
}

/// A step over the shortest table in use and the longest list, which is judged too.
pub fn step_over_a_long_list() -> Row {
    let mut scene = Scene::new(1);
    scene.stocks = long_list();
    beside_the_same_job("step, 1 used, list of 2000", &scene, None)
}

/// A proved step beside all of the job by hand.
fn beside_the_same_job(what: &str, scene: &Scene, claim: Option<f64>) -> Row {
    let (mut proved, mut by_hand) = (Over::new(scene), Over::new(scene));
    let [step, whole] = race([&mut || proved.proved_steps(), &mut || by_hand.plain_steps()]);
    Row::new(what, step, "plain, the same job", whole, claim)
}

/// What a step calls, by itself: judging and searching tables with so many used records, judging
/// and searching a list, and a put.
#[cfg(weighed)]
pub fn weighed(used: &[usize]) -> Vec<Row> {
    let sounds = used.iter().map(|&used| sound_alone(used));
    // In a table of one record every token is found at once.
    let searched = used.iter().copied().filter(|&used| used > 1);
    let searches = searched.flat_map(searches_alone);
    let nexts = used
        .last()
        .copied()
        .into_iter()
        .flat_map(counted::next_orders);
    let lists = [judge_alone(), find_alone()];
    let rows = sounds.chain(searches).chain(nexts).chain(lists);
    rows.chain(put_alone()).collect()
}

#[cfg(weighed)]
fn sound_alone(used: usize) -> Row {
    let table = Scene::new(used).table;
    let [proved, other] = race([
        &mut || timed(|| assert!(scales::sound(black_box(&table)))),
        &mut || timed(|| assert!(black_box(plain::judge(black_box(&table))))),
    ]);
    let what = format!("sound, {used} used");
    let claim = (used > 1).then_some(0.5);
    Row::new(&what, proved, "plain, judged alike", other, claim)
}

/// The last token of a table looked for, where all are alike in front and where all are at the end.
/// Which of the two is found sooner shows from which end tokens are compared.
#[cfg(weighed)]
fn searches_alone(used: usize) -> Vec<Row> {
    let front = Scene::of(used, Alike::InFront);
    let end = Scene::of(used, Alike::AtTheEnd);
    let what = format!("find, {used} used, alike in front");
    let mut rows = search_alone(&what, &front, Some(0.5));
    let other = format!("find, {used} used, alike at the end");
    rows.extend(search_alone(&other, &end, None));
    let mut in_front = || searched(&front, scales::find);
    let mut at_the_end = || searched(&end, scales::find);
    let [sooner, later] = race([&mut in_front, &mut at_the_end]);
    let beside = "the same, alike at the end";
    rows.push(Row::new(&what, sooner, beside, later, Some(1.0)));
    rows
}

/// Beside plain Rust in both directions, by its own comparison of arrays, and in words.
#[cfg(weighed)]
fn search_alone(what: &str, scene: &Scene, of_forwards: Option<f64>) -> Vec<Row> {
    let [proved, forwards, backwards, equality, words] = race([
        &mut || searched(scene, scales::find),
        &mut || searched(scene, search::forwards),
        &mut || searched(scene, search::backwards),
        &mut || searched(scene, search::by_equality),
        &mut || searched(scene, search::in_words),
    ]);
    vec![
        Row::new(what, proved, "plain, forwards", forwards, of_forwards),
        Row::new(what, proved, "plain, backwards", backwards, Some(1.0)),
        Row::new(what, proved, "plain: ==", equality, Some(1.0)),
        Row::new(what, proved, "plain, in words", words, Some(1.0)),
    ]
}

/// A turn of searches for the scene's token, which its last used record has.
#[cfg(weighed)]
fn searched(scene: &Scene, find: fn(&[u8], &[u8; 14]) -> usize) -> Duration {
    let last = plain::used(&scene.table).len() - 1;
    timed(|| assert_eq!(find(black_box(&scene.table), black_box(&scene.token)), last))
}

/// The longest list judged. A good one is judged to its end.
#[cfg(weighed)]
fn judge_alone() -> Row {
    let stocks = long_list();
    let [proved, other] = race([
        &mut || timed(|| assert!(scales::stocks_good(black_box(&stocks)))),
        &mut || timed(|| assert!(black_box(list::judge(black_box(&stocks))))),
    ]);
    let what = "judge a list, 2000 places";
    Row::new(what, proved, "plain: one pass of u64", other, Some(1.0))
}

/// Symbols looked for in the longest list. Each turn goes on where the last one ended, so that both
/// come upon the same symbols and no turn is like another.
#[cfg(weighed)]
fn find_alone() -> Row {
    let stocks = long_list();
    let symbols = find::wanted(&stocks);
    let alike = |symbol| scales::standing(&stocks, symbol) == find::standing(&stocks, symbol);
    assert!(symbols.iter().all(alike));
    let (mut one, mut other) = (symbols.iter().cycle(), symbols.iter().cycle());
    let [proved, plain] = race([
        &mut || {
            timed(|| {
                let symbol = black_box(one.next().expect("a cycle has no end"));
                black_box(scales::standing(black_box(&stocks), symbol));
            })
        },
        &mut || {
            timed(|| {
                let symbol = black_box(other.next().expect("a cycle has no end"));
                black_box(find::standing(black_box(&stocks), symbol));
            })
        },
    ]);
    let what = "find in a list, 2000 places";
    Row::new(what, proved, "plain: binary_search_by", plain, Some(1.0))
}

/// A put beside a deque, which judges nothing, and beside a ring by hand that judges alike.
#[cfg(weighed)]
fn put_alone() -> Vec<Row> {
    // A slice, since none is to know the length beforehand.
    let message = [0x5a; SENT].as_slice();
    let (mut lent, mut by_hand) = ([0; RING_LEN], [0; RING_LEN]);
    let mut deque = VecDeque::<u8>::with_capacity(RING_LEN);
    let [proved, plain, alike] = race([
        &mut || puts(|marks| scales::put(black_box(&mut lent), marks, black_box(message))),
        &mut || {
            deque.clear();
            timed(|| black_box(&mut deque).extend(black_box(message)))
        },
        &mut || puts(|marks| ring::put(black_box(&mut by_hand), marks, black_box(message))),
    ]);
    let what = format!("put of {SENT} bytes");
    vec![
        Row::new(&what, proved, "plain: VecDeque", plain, None),
        Row::new(&what, proved, "plain, judged alike", alike, Some(1.0)),
    ]
}

/// A turn of puts into a ring that holds nothing at first.
#[cfg(weighed)]
fn puts(mut put: impl FnMut(Marks) -> u8) -> Duration {
    let mut marks = Marks::default();
    timed(|| {
        assert_eq!(put(marks), 0);
        marks.held += SENT;
    })
}

/// A release beside a deque, which judges nothing, and beside a ring by hand that judges alike.
pub fn release_alone() -> Vec<Row> {
    let held = [0x5a; RING_LEN];
    let mut deque = VecDeque::<u8>::with_capacity(RING_LEN);
    let [proved, plain, alike] = race([
        &mut || {
            let mut marks = full();
            timed(|| {
                let answer = release(black_box(RING_LEN), &mut marks, black_box(SENT));
                assert_eq!(answer, Answer::Done);
            })
        },
        &mut || {
            deque.clear();
            deque.extend(&held);
            timed(|| drop(black_box(&mut deque).drain(..black_box(SENT))))
        },
        &mut || {
            let mut marks = full();
            timed(|| {
                let answer = ring::release(black_box(RING_LEN), &mut marks, black_box(SENT));
                assert_eq!(answer, 0);
            })
        },
    ]);
    let what = format!("release of {SENT} bytes");
    vec![
        Row::new(&what, proved, "plain: VecDeque", plain, None),
        Row::new(&what, proved, "plain, judged alike", alike, Some(1.0)),
    ]
}

/// A message read and written back; the second host judges alike.
pub fn codec(inbound: bool, message: &[u8]) -> Row {
    let (mut out, mut other_out) = ([0; 80], [0; 80]);
    let [proved, other] = race([
        &mut || {
            timed(|| {
                let answer = echo(inbound, black_box(message), black_box(&mut out));
                assert_eq!(answer, Answer::Done);
            })
        },
        &mut || {
            timed(|| {
                let out = black_box(&mut other_out);
                assert_eq!(second::echo(inbound, black_box(message), out).answer, 0);
            })
        },
    ]);
    let direction = if inbound { "in" } else { "out" };
    let (letter, len) = (char::from(message[0]), message.len());
    let what = format!("read and write {letter} ({direction}, {len} bytes)");
    Row::new(&what, proved, "second host", other, Some(1.0))
}

/// An entry made of a message; the second host judges alike, and what it makes is the same.
pub fn making(purge: bool, message: &[u8]) -> Row {
    let (mut made, mut other_made) = ([0; LONGEST_ENTRY], [0; LONGEST_ENTRY]);
    let [proved, other] = race([
        &mut || {
            timed(|| {
                let made = black_box(&mut made);
                let answer = entry(purge, black_box(STAMP), black_box(message), made);
                assert_eq!(answer, Answer::Done);
            })
        },
        &mut || {
            timed(|| {
                let made = black_box(&mut other_made);
                let told = second::entry(purge, black_box(STAMP), black_box(message), made);
                assert_eq!(told.answer, 0);
            })
        },
    ]);
    assert_eq!(made, other_made);
    let sender = if purge { "purge port" } else { "client" };
    let (letter, len) = (char::from(message[0]), message.len());
    let what = format!("make an entry of {letter} ({sender}, {len} bytes)");
    Row::new(&what, proved, "second host", other, Some(1.0))
}

/// Marks of a ring that is full.
fn full() -> Marks {
    Marks {
        at: 0,
        held: RING_LEN,
    }
}

/// A scene of a runner's own, and a ring.
struct Over {
    scene: Scene,
    ring: [u8; RING_LEN],
}

impl Over {
    fn new(scene: &Scene) -> Over {
        Over {
            scene: scene.clone(),
            ring: [0; RING_LEN],
        }
    }

    /// A turn of proved steps.
    fn proved_steps(&mut self) -> Duration {
        self.steps(|table, ring, marks, stocks, entry| {
            step(table, ring, marks, stocks, entry).number()
        })
    }

    /// A turn of the same steps by hand.
    fn plain_steps(&mut self) -> Duration {
        self.steps(|table, ring, marks, stocks, entry| {
            plain::step(table, ring, marks, stocks, entry).answer
        })
    }

    /// A turn of steps.
    fn steps(
        &mut self,
        mut step: impl FnMut(&mut [u8], &mut [u8], &mut Marks, &mut [u8], &[u8]) -> u8,
    ) -> Duration {
        let Over { scene, ring } = self;
        let (table, stocks) = (&mut scene.table, &mut scene.stocks);
        let mut marks = Marks::default();
        timed(|| {
            let answer = step(table, ring, &mut marks, stocks, &scene.entry);
            assert_eq!(answer, scene.answer);
            (scene.next)(table, &mut scene.entry);
        })
    }
}

/// The second host, which judged a scene's table once and keeps an index, and an outbox.
struct Kept {
    scene: Scene,
    host: Host,
    outbox: Outbox<Vec<u8>>,
}

impl Kept {
    fn new(scene: &Scene) -> Kept {
        Kept {
            scene: scene.clone(),
            host: Host::load(&scene.table).expect("the scene's table is sound"),
            outbox: Outbox::empty(RING_LEN).expect("the ring's length is right"),
        }
    }

    /// A turn of steps. The host has the table, so what is next may change the entry only.
    fn steps(&mut self) -> Duration {
        let Kept {
            scene,
            host,
            outbox,
        } = self;
        let mut stocks = Stocks::over(&mut scene.stocks).expect("the scene's list is good");
        outbox.release(outbox.held());
        timed(|| {
            let told = host.offer(outbox, &mut stocks, &scene.entry);
            assert_eq!(told.answer, scene.answer);
            (scene.next)(&mut scene.table, &mut scene.entry);
        })
    }
}
