//! Roles and touches (CR 6) in lent memory: the words of a row of kind 50, the order of the grounds, and what refusals keep.

mod common;

use common::*;
use reference::calls::{self, Looked, ROW};
use reference::event::{without_role, ENTRY};
use reference::limits::LEAVES;
use reference::roles::Role;
use reference::words::STATE_ROW;

/// The words of these rows, and the state that they start in.
fn started(sheet: &Sheet) -> (Vec<i32>, Vec<i32>) {
    let rows = calls::words_of_rows(&sheet.0);
    let mut state = vec![7; rows.len() / ROW * STATE_ROW];
    assert_eq!(calls::start(&rows, &mut state), (0, 1));
    (rows, state)
}

/// `3 0 0 0; 41 0 0 0; 50 ROLE 1 TOUCHES`.
fn editor(role: i32, touches: i32) -> (Vec<i32>, Vec<i32>) {
    let mut sheet = numbers();
    let empty = sheet.empty();
    sheet.gate(role, empty, touches);
    started(&sheet)
}

/// Where the row of kind 50 of [`editor`] stands in its state.
const GATE: usize = 2 * STATE_ROW;

fn look(rows: &[i32], state: &[i32], role: Role, list: usize) -> (Looked, Vec<i32>) {
    let (mut value, mut list) = (vec![9; LEAVES], vec![b'#'; list]);
    let looked = calls::look(rows, state, role, &mut value, &mut list);
    let refused = Looked { number: looked.number, ..Looked::default() };
    assert!(looked.number == 0 || (looked == refused && value == [9; LEAVES] && list.iter().all(|&byte| byte == b'#')));
    (looked, value)
}

/// The number and the strides; a refusal keeps every word.
fn handle(rows: &[i32], state: &mut [i32], event: &[u8]) -> (u32, u32) {
    let before = state.to_vec();
    let answer = calls::handle(rows, state, event);
    assert!(answer.0 == 0 || (answer.1 == 0 && state == before));
    answer
}

/// Tag 1, shape 3, leaf 0 the touches left: the words of an editor's content.
#[test]
fn the_words_of_a_row() {
    for touches in [0, 1, 2, 99] {
        let (rows, mut state) = editor(4, touches);
        let mut expected = vec![0; 3 * STATE_ROW];
        expected[STATE_ROW] = 1;
        expected[GATE..GATE + 3].copy_from_slice(&[1, 3, touches]);
        assert_eq!(state, expected);
        for used in 1..=touches {
            assert_eq!(handle(&rows, &mut state, &by(4, value("", 12))), (0, 1));
            expected[STATE_ROW..STATE_ROW + 3].copy_from_slice(&[2, 3, 12]);
            expected[GATE + 2] = touches - used;
            assert_eq!(state, expected);
        }
        assert_eq!(handle(&rows, &mut state, &by(4, value("", 13))), (31, 0));
        assert_eq!(handle(&rows, &mut state, &by(5, value("", 13))), (30, 0));
        assert_eq!(state, expected);
    }
}

/// Every other number from 0 to C is a state; above C, negative and of another form are 22.
#[test]
fn touches_left_that_are_a_state() {
    for touches in [0, 1, 3, 99] {
        let (rows, state) = editor(4, touches);
        for left in (-2..=101).chain([i32::MIN, i32::MAX, 256, 1 << 16]) {
            let mut changed = state.clone();
            changed[GATE + 2] = left;
            let is_state = (0..=touches).contains(&left);
            let (looked, _) = look(&rows, &changed, 4, ENTRY);
            assert_eq!(looked.number, if is_state { 0 } else { 22 }, "{left} of {touches}");
            assert_eq!(looked.bytes, if is_state && left > 0 { ENTRY } else { 0 }, "{left} of {touches}");
            let answer = handle(&rows, &mut changed, &by(4, value("", 1))).0;
            assert_eq!(answer, [22, 31, 0][usize::from(is_state) + usize::from(is_state && left > 0)]);
        }
        for place in (0..STATE_ROW).filter(|&place| place != 2) {
            for word in [0, 1, 2, 3, 4, 60, -1].into_iter().filter(|&word| word != state[GATE + place]) {
                let mut changed = state.clone();
                changed[GATE + place] = word;
                assert_eq!(look(&rows, &changed, 4, ENTRY).0.number, 22, "{word} at {place}");
            }
        }
    }
}

/// Touches left are no matter of rest: 23 is asked of the task.
#[test]
fn rests_with_any_touches_left() {
    let mut sheet = numbers();
    let (one, two) = (sheet.empty(), sheet.empty());
    let (first, second) = (sheet.gate(1, one, 3), sheet.gate(2, two, 3));
    sheet.row(47, first, second, 0);
    let (rows, state) = started(&sheet);
    for (first, second) in [(0, 0), (0, 3), (2, 1), (3, 0)] {
        let mut other = state.clone();
        other[3 * STATE_ROW + 2] = first;
        other[4 * STATE_ROW + 2] = second;
        assert_eq!(look(&rows, &other, 1, 2 * ENTRY).0.number, 0);
        // Filled, and not chosen.
        other[STATE_ROW..STATE_ROW + 3].copy_from_slice(&[2, 3, 5]);
        assert_eq!(look(&rows, &other, 1, 2 * ENTRY).0.number, 23);
        assert_eq!(handle(&rows, &mut other, &by(1, value("1", 1))).0, 23);
    }
}

/// Look: 20, 21, 22, 23, then 8 for a role that there is not, then 24 by the entries of the role alone.
#[test]
fn the_order_of_look() {
    let (rows, state) = editor(3, 1);
    let mut no_state = state.clone();
    no_state[GATE + 2] = 2;
    let mut bad_rows = rows.clone();
    bad_rows[9] = 0;
    for role in [0, 9, 10, 255, 256, 257, 259, 1 << 16, 1 << 31, Role::MAX] {
        for list in [0, ENTRY - 1, ENTRY] {
            assert_eq!(look(&rows, &state, role, list).0.number, 8, "role {role}");
            assert_eq!(look(&rows, &no_state, role, list).0.number, 22, "role {role}");
            assert_eq!(look(&rows, &state[1..], role, list).0.number, 21, "role {role}");
            assert_eq!(look(&bad_rows, &state, role, list).0.number, 20, "role {role}");
            assert_eq!(calls::look(&rows, &state, role, &mut [9; LEAVES - 1], &mut vec![b'#'; list]).number, 21);
        }
    }
    // Role 3 has an entry; the others need no list memory.
    for role in 1..=8 {
        let expected = if role == 3 { 24 } else { 0 };
        assert_eq!(look(&rows, &state, role, ENTRY - 1).0.number, expected, "role {role}");
        let bytes = if role == 3 { ENTRY } else { 0 };
        let looked = Looked { number: 0, valued: false, fails: false, bytes };
        assert_eq!(look(&rows, &state, role, ENTRY), (looked, vec![0; LEAVES]));
    }
}

/// Handle: 20 to 23, 8, 9, 30, 31, each with all that come after it.
#[test]
fn the_order_of_handle() {
    let (rows, spent) = editor(3, 0);
    let mut no_state = spent.clone();
    no_state[GATE] = 2;
    let mut bad_rows = rows.clone();
    bad_rows[11] = 100;
    let number = |rows: &[i32], state: &[i32], event: &[u8]| handle(rows, &mut state.to_vec(), event).0;
    let (taken, other) = (by(3, value("", 1)), by(4, value("", 1)));
    assert_eq!((number(&rows, &spent, &taken), number(&rows, &spent, &other)), (31, 30));
    for role in [3, 4] {
        assert_eq!(number(&rows, &spent, &by(role, go_on(""))), 9);
        assert_eq!(number(&rows, &spent, &by(role, value("3", 1))), 8);
        assert_eq!(number(&rows, &spent, &without_role(&by(role, value("", 1)))), 8);
    }
    assert_eq!(number(&rows, &spent, &by(9, value("", 1))), 8);
    for event in [&taken[..], &other, &by(9, value("", 1)), &by(3, go_on("")), b""] {
        assert_eq!(number(&rows, &no_state, event), 22);
        assert_eq!(number(&rows, &spent[..47], event), 21);
        assert_eq!(number(&bad_rows, &spent, event), 20);
    }
}

/// A flow whose start left the range is a fail for every role: 9, and an empty list.
#[test]
fn a_failed_start_behind_a_row_of_kind_50() {
    let mut sheet = sheet_of(&[[22, i32::MAX, 0, 0], [22, 1, 0, 0], [24, 1, 0, 1], [40, 2, 0, 0]]);
    sheet.gate(2, 3, 0);
    let (rows, mut state) = started(&sheet);
    assert_eq!((state[4 * STATE_ROW], state.iter().filter(|&&word| word != 0).count()), (4, 1));
    for role in 1..=8 {
        assert!(look(&rows, &state, role, 0).0.fails);
        assert_eq!(handle(&rows, &mut state, &by(role, value("", 1))), (9, 0));
    }
}
