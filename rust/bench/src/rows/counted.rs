//! The rows of what a table counts: the two numbers of a status, a table rebuilt that had none, and
//! where the bits lead a w to its next order.

use std::hint::black_box;

#[cfg(weighed)]
use std::time::Duration;

use pilaqsevi::{Answer, convert, status};

use super::Row;
use crate::counts;
use crate::race::{race, timed};
use crate::scene::{full_table, old_form};
#[cfg(weighed)]
use crate::{
    next, plain, scales,
    scene::{Passed, Scene, wanted},
};

/// The status of a table in which so many records are all live, beside the walk over them that it
/// spares, and beside the same job by hand. Eight records are walked over in no time.
pub fn statuses(records: usize) -> [Row; 2] {
    let table = full_table(records);
    let right = counts::walking(&table);
    let [proved, walking, alike] = race([
        &mut || timed(|| assert_eq!(status(black_box(&table)), Ok(right))),
        &mut || timed(|| assert_eq!(counts::walking(black_box(&table)), right)),
        &mut || timed(|| assert_eq!(counts::status(black_box(&table)), Some(right))),
    ]);
    let what = format!("status, {records} records");
    let claim = (records > 8).then_some(0.5);
    [
        Row::new(&what, proved, "plain, walking", walking, claim),
        Row::new(&what, proved, "plain, the same job", alike, None),
    ]
}

/// A table of the old form rebuilt in which so many records are all live. Nothing is claimed of it,
/// since a table is rebuilt once.
pub fn conversion(records: usize) -> Row {
    let table = full_table(records);
    let old = old_form(&table);
    let (mut rebuilt, mut by_hand) = (vec![0; table.len()], vec![0; table.len()]);
    let [proved, other] = race([
        &mut || {
            timed(|| {
                let answer = convert(black_box(&old), black_box(&mut rebuilt));
                assert_eq!(answer, Answer::Done);
            })
        },
        &mut || {
            timed(|| {
                let answer = counts::convert(black_box(&old), black_box(&mut by_hand));
                assert_eq!(answer, 0);
            })
        },
    ]);
    assert!(rebuilt == table && by_hand == table);
    let what = format!("convert, {records} records");
    Row::new(&what, proved, "plain, the same job", other, None)
}

/// The search of a w whose order is the last of so many: where all the others are dead, so that the
/// bits lead straight to it, and where all are live, so that they tell nothing.
#[cfg(weighed)]
pub fn next_orders(used: usize) -> [Row; 4] {
    let dead = Scene::to_purge(used, &Passed::AS_DEAD);
    let live = Scene::to_purge(used, &Passed::THOUGH_LIVE);
    let [what, other] =
        ["all others dead", "all live"].map(|which| format!("next to purge, {used} used, {which}"));
    let [walking, by_the_bits] = next_order(&what, &dead, Some(0.5));
    let [other_walking, other_by_the_bits] = next_order(&other, &live, None);
    [walking, by_the_bits, other_walking, other_by_the_bits]
}

/// Beside a walk over the records by hand, and beside the bits by hand.
#[cfg(weighed)]
fn next_order(what: &str, scene: &Scene, of_walking: Option<f64>) -> [Row; 2] {
    let [proved, walking, by_the_bits] = race([
        &mut || {
            searched(scene, |table, firm, symbol| {
                Some(scales::find_wanted(table, firm, symbol))
            })
        },
        &mut || searched(scene, next::walking),
        &mut || searched(scene, next::by_the_bits),
    ]);
    [
        Row::new(what, proved, "plain, walking", walking, of_walking),
        Row::new(what, proved, "plain, by the bits", by_the_bits, None),
    ]
}

/// A turn of searches for the scene's last order.
#[cfg(weighed)]
fn searched(
    scene: &Scene,
    find: impl Fn(&[u8], &plain::Firm, &plain::Symbol) -> Option<usize>,
) -> Duration {
    let (firm, symbol) = wanted();
    let last = plain::used(&scene.table).len() - 1;
    timed(|| {
        let found = find(
            black_box(&scene.table),
            black_box(&firm),
            black_box(&symbol),
        );
        assert_eq!(found, Some(last));
    })
}
