//! Grounds 8 and 9: events that cannot be read, and events that nothing takes. Blanks are in
//! `blank_events.rs`, grounds 30 and 31 in `roles.rs`.

mod common;

use common::*;
use reference::event::{self, EVENT};
use reference::limits::LEAVES;

/// Events on an empty editor of a number: 8 by their form, 9 where no rule derives a step.
#[test]
fn grounds_8_and_9() {
    let mut sheet = numbers();
    sheet.empty();
    let answer = |event: Vec<u8>| last_screen(&sheet, &[event]).answer;
    assert_eq!(answer(value("", 5)), 0);
    for path in ["3", "01", "10", "00", "1 2", "1x", "-1", "+1", "0 ", "1 ", "\t", "\0", "            0   "] {
        assert_eq!(answer(value(path, 5)), 8, "{path:?}");
    }
    for action in [-1, 0, 5, 9] {
        assert_eq!(answer(event::write("", action, [0; LEAVES])), 8);
    }
    for (at, byte) in [
        (0, b'0'),
        (0, b'1'),
        (1, b' '),
        (1, b'9'),
        (17, b'\t'),
        (18, b'0'),
        (18, b'+'),
        (19, b' '),
        (31, b'x'),
        (EVENT - 1, b' '),
        (EVENT - 1, b'\r'),
        (30, b'0'),
        (30, b'+'),
        (30, b'5'),
    ] {
        let mut event = value("", 5);
        event[at] = byte;
        let readable = at == 30 && byte == b'5';
        assert_eq!(answer(event), if readable { 0 } else { 8 }, "byte {byte} at {at}");
    }
    for action in 2..=4 {
        for leaf in 0..LEAVES {
            let mut leaves = [0; LEAVES];
            assert_eq!(answer(event::write("", action, leaves)), 9);
            leaves[leaf] = 1;
            assert_eq!(answer(event::write("", action, leaves)), 8);
        }
    }
    // 9: a path that leads nowhere, an unused leaf not 0.
    assert_eq!(answer(value("1", 5)), 9);
    assert_eq!(answer(value("1212121212121212", 5)), 9);
    assert_eq!(answer(event::write("", 1, padded(&[5, 0, 0, 1]))), 9);
    // Both: 8 wins.
    let mut both = go_on("21");
    both[EVENT - 1] = b' ';
    assert_eq!(answer(both), 8);
    assert_eq!(answer(event::write("2", 2, padded(&[0, 0, 0, 1]))), 8);
    assert_eq!(answer(value("2", 5)[..EVENT - 1].to_vec()), 8);
}

/// Truths and units in events: 9, not 8.
#[test]
fn ground_9_leaves_that_do_not_fit() {
    let sheet = sheet_of(&[[1, 0, 0, 0], [2, 0, 0, 0], [3, 0, 0, 0], [4, 1, 2, 0], [4, 0, 3, 0], [41, 4, 0, 0]]);
    let answer = |leaves: [i32; 4]| last_screen(&sheet, &[event::write("", 1, padded(&leaves))]).answer;
    assert_eq!(last_screen(&sheet, &[]).entries, ["0 1 1 2 3 0 0 0 0 0"]);
    assert_eq!(answer([0, 1, -7, 0]), 0);
    assert_eq!(answer([0, 0, i32::MIN, 0]), 0);
    assert_eq!(answer([1, 0, 0, 0]), 9);
    assert_eq!(answer([0, 2, 0, 0]), 9);
    assert_eq!(answer([0, -1, 0, 0]), 9);
    assert_eq!(answer([0, 0, 0, 1]), 9);
}
