//! Grounds 1 to 7, each by itself and each pair of them together: the lower wins. Grounds 8 and 9
//! are in `events.rs`.

mod common;

use common::loads;
use reference::sheet::{self, Row};

/// A sheet of `lines` lines, 11 of them at least, with these faults, which do not touch each
/// other's rows. `late` puts faults 2 and 3 below all others.
fn text_with(faults: &[i32], late: bool, lines: usize) -> Vec<u8> {
    let has = |fault| faults.contains(&fault);
    let base = lines as i32 - 11;
    let mut rows = vec![Row::new(3, 0, 0, 0); lines - 11];
    rows.extend([
        Row::new(3, 0, 0, 0),
        Row::new(2, 0, 0, 0),
        Row::new(4, base, base, 0),
        Row::new(4, base + 2, base + 2, 0),
        Row::new(4, base + 3, base + 3, 0),
        // 6: a type of 9 leaves, which nothing names.
        Row::new(4, base + if has(6) { 4 } else { 0 }, base, 0),
        // 4: a cell of pairs.
        Row::new(10, base + if has(4) { 2 } else { 0 }, 0, 0),
        // 7: a binder that is not there.
        Row::new(if has(7) { 23 } else { 22 }, 5, 0, 0),
        Row::new(40, base + 7, 0, 0),
        Row::new(45, base, 0, 0),
        // 5: one row named twice, the other never.
        Row::new(48, base + 8, base + if has(5) { 8 } else { 9 }, 0),
    ]);
    let place = if late { lines - 1 } else { 0 };
    if has(3) {
        // An unused operand.
        rows[place].operands[2] = 1;
    }
    let mut text = sheet::write(&rows);
    if has(2) {
        text[place * sheet::LINE + sheet::LINE - 1] = b' ';
    }
    if has(1) {
        text.push(b' ');
    }
    text
}

/// Each fault alone gives its ground, so of each two together both hold.
#[test]
fn each_ground_and_each_pair_of_1_to_7() {
    for lines in [11, 256] {
        assert_eq!(loads(&text_with(&[], false, lines)), 0);
        for lower in 1..=7 {
            for late in [false, true] {
                assert_eq!(loads(&text_with(&[lower], late, lines)), lower);
                for higher in lower + 1..=7 {
                    assert_eq!(loads(&text_with(&[lower, higher], late, lines)), lower, "{lower} and {higher}");
                }
                assert_eq!(loads(&text_with(&(lower..=7).collect::<Vec<_>>(), late, lines)), lower);
            }
        }
    }
}

/// Ground 1 by too many lines: the other faults stand in whole lines.
#[test]
fn ground_1_by_257_lines_with_each_other() {
    assert_eq!(loads(&text_with(&[], false, 257)), 1);
    for other in 2..=7 {
        assert_eq!(loads(&text_with(&[other], false, 257)), 1, "1 and {other}");
    }
}
