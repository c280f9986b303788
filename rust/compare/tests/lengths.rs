//! Every length that a table may have, and every other up to beyond the longest, through the archive:
//! fresh, status and a step, beside the second host.

use compare::{Host, Proved, Second};
use pilaqsevi::Marks;
use second::tapes::counts::table_len;

/// The answers to a length.
const DONE: u8 = 0;
const MALFORMED: u8 = 2;
const NOT_SOUND: u8 = 10;

#[test]
#[cfg_attr(not(archive), ignore = "no archive of the proved functions is linked")]
fn a_table_has_800_lengths() {
    let proved = Proved::linked().unwrap();
    let firms = [*b"ABCD"];
    let mut tables = 0;
    let (mut ours, mut theirs) = (vec![0xee; table_len(802)], vec![0xee; table_len(802)]);
    for length in 0..=ours.len() {
        let (ours, theirs) = (&mut ours[..length], &mut theirs[..length]);
        let answer = proved.fresh(ours, 1_000_000, &firms);
        assert_eq!(answer, Second.fresh(theirs, 1_000_000, &firms), "{length}");
        assert_eq!(proved.status(ours), Second.status(theirs), "{length}");
        // An empty entry at a right ring and list: what isn't sound is told before it.
        let mut marks = Marks::default();
        let told = proved.step(ours, &mut [0; 80], &mut marks, &mut [], b"");
        let right = if answer == DONE { MALFORMED } else { NOT_SOUND };
        assert_eq!(told.answer, right, "{length}");
        if answer == DONE {
            tables += 1;
            assert_eq!(length, table_len(tables));
            assert!(ours == theirs, "{length}");
            // Otherwise each next length would be fresh already.
            ours.fill(0xee);
            theirs.fill(0xee);
        }
    }
    assert_eq!(tables, 800);
    assert!(ours == theirs && ours.iter().all(|&byte| byte == 0xee));
}
