//! Each rule of evaluation, failing and striding that a screen can show.

mod common;

use common::*;

/// A plain `value` of type number after a write of `number` into `cell`.
fn plain_writing(sheet: &mut Sheet, cell: i32, number: i32, kind: i32, value: i32) -> i32 {
    let write = sheet.write(cell, number);
    let value = sheet.row(kind, value, 0, 0);
    sheet.row(31, write, value, 0)
}

/// The type number at row 0 and a cell of numbers at row 1.
fn with_cell(first: i32) -> Sheet {
    let mut sheet = numbers();
    sheet.row(10, 0, first, 0);
    sheet
}

const CELL: i32 = 1;

/// The cell's content, in a step of its own so that it is read last: `left` beside a shared
/// editor.
fn beside_cell(sheet: &mut Sheet, left: i32) {
    let shared = sheet.row(42, CELL, 0, 0);
    sheet.row(46, left, shared, 0);
}

#[test]
fn operators_evaluate_left_to_right_and_both_sides() {
    for (operator, left, expected) in [(7, 0, [0, 2]), (8, 1, [1, 2])] {
        let mut sheet = with_cell(0);
        let left = plain_writing(&mut sheet, CELL, 1, 21, left);
        let right = plain_writing(&mut sheet, CELL, 2, 21, 0);
        let both = sheet.row(24, operator, left, right);
        let filled = sheet.row(40, both, 0, 0);
        beside_cell(&mut sheet, filled);
        assert_eq!(last_screen(&sheet, &[]).value, Some(padded(&expected)));
    }
}

/// Numbers beyond the range are in `overflow.rs`.
#[test]
fn numbers_are_reckoned_and_compared_signed() {
    let result = |operator, left, right| {
        let mut sheet = Sheet::default();
        let (left, right) = (sheet.row(22, left, 0, 0), sheet.row(22, right, 0, 0));
        let result = sheet.row(24, operator, left, right);
        sheet.row(40, result, 0, 0);
        last_screen(&sheet, &[]).leaf().expect("a filled editor")
    };
    assert_eq!(result(1, -1, i32::MAX), i32::MAX - 1);
    assert_eq!(result(2, 3, 5), -2);
    assert_eq!(result(3, -7, 6), -42);
    for (left, right) in [(-1, 1), (1, -1), (2, 2), (i32::MIN, i32::MAX)] {
        assert_eq!(result(4, left, right), i32::from(left < right));
        assert_eq!(result(5, left, right), i32::from(left <= right));
        assert_eq!(result(6, left, right), i32::from(left == right));
    }
}

/// Pairs of 4 leaves: shown first to last, taken apart, compared with events.
#[test]
fn pairs_and_their_parts() {
    let mut sheet = numbers();
    let pair = sheet.row(4, 0, 0, 0);
    let four = sheet.row(4, pair, pair, 0);
    let empty = sheet.row(41, four, 0, 0);
    let mut part = |kind, of: i32| {
        let of = if of < 0 { sheet.row(23, 0, 0, 0) } else { of };
        sheet.row(kind, of, 0, 0)
    };
    let first = part(27, -1);
    let second_of_first = part(28, first);
    let second = part(28, -1);
    let swapped = sheet.row(26, second, second_of_first, 0);
    let filled = sheet.row(40, swapped, 0, 0);
    sheet.row(43, empty, filled, 0);
    let screens = screens(&sheet, &[reference::event::write("", 1, padded(&[1, 2, 3, 4]))]);
    assert_eq!(screens[0].entries, ["0 1 3 3 3 3 0 0 0 0"]);
    assert_eq!(screens[1].value, Some(padded(&[3, 4, 2])));
    assert_eq!(screens[1].entries, ["0 1 3 3 3 0 0 0 0 0"]);
}

/// Only the side of a condition that holds is evaluated; a binding's value stands in its B.
#[test]
fn conditions_and_bindings() {
    let mut sheet = with_cell(0);
    let truth = sheet.row(21, 0, 0, 0);
    let then = plain_writing(&mut sheet, CELL, 1, 22, 5);
    let otherwise = sheet.row(22, 6, 0, 0);
    let six = sheet.row(25, truth, then, otherwise);
    let (one, two) = (sheet.row(23, 0, 0, 0), sheet.row(23, 1, 0, 0));
    let difference = sheet.row(24, 2, one, two);
    let nine = sheet.row(22, 9, 0, 0);
    let inner = sheet.row(31, nine, difference, 0);
    let three = sheet.row(31, six, inner, 0);
    let filled = sheet.row(40, three, 0, 0);
    beside_cell(&mut sheet, filled);
    assert_eq!(last_screen(&sheet, &[]).value, Some(padded(&[3])));
}

/// S-ThenStay, S-ThenFail, S-ThenCont.
#[test]
fn step_waits_without_a_value_waits_while_b_fails_and_goes_on() {
    let mut sheet = numbers();
    let empty = sheet.empty();
    let with = sheet.row(23, 0, 0, 0);
    let guarded = sheet.filled_if(with, 4, 40);
    sheet.row(43, empty, guarded, 0);
    let screens = screens(&sheet, &[value("", 3), value("", 4)]);
    let shown: Vec<_> = screens.iter().map(|screen| (screen.strides, screen.leaf())).collect();
    assert_eq!(shown, [(1, None), (1, None), (2, Some(40))]);
}

/// Slip: keeping the writes of a step that failed.
#[test]
fn writes_of_a_failed_step_are_dropped_at_each_stride() {
    let mut sheet = with_cell(7);
    let filled = sheet.filled(1);
    let fails = sheet.writing(CELL, 3, Sheet::fail);
    let waiting = sheet.row(43, filled, fails, 0);
    beside_cell(&mut sheet, waiting);
    let mut shown = sheet.clone();
    // The same behind a choice: the step has no value, so the shared editor is chosen.
    shown.0.pop();
    let shared = shown.0.len() as i32 - 1;
    shown.row(47, waiting, shared, 0);
    assert_eq!(last_screen(&sheet, &[]).strides, 1);
    assert_eq!(last_screen(&shown, &[]).leaf(), Some(7));
}

/// A 43 whose A moves in a stride tries B in the same stride; what replaces it is not strided in
/// that stride.
#[test]
fn steps_in_steps_count_strides() {
    let step_of = |sheet: &mut Sheet, left: i32| {
        let right = sheet.filled(2);
        sheet.row(43, left, right, 0)
    };
    // Nested in A: inner and outer are taken in one stride, but the outer's A has no value before.
    let mut in_a = numbers();
    let one = in_a.filled(1);
    let inner = step_of(&mut in_a, one);
    step_of(&mut in_a, inner);
    assert_eq!(last_screen(&in_a, &[]).strides, 2);
    // Nested in B: one stride each, and the last.
    let mut in_b = numbers();
    let one = in_b.filled(1);
    let inner = step_of(&mut in_b, one);
    let two = in_b.filled(1);
    in_b.row(43, two, inner, 0);
    assert_eq!(last_screen(&in_b, &[]).strides, 3);
}

/// Whether B fails is asked in the store after evaluating B.
#[test]
fn right_side_is_asked_in_its_own_store() {
    let mut sheet = with_cell(0);
    let filled = sheet.filled(1);
    let picked = sheet.writing(CELL, 1, |sheet| {
        let read = sheet.row(29, CELL, 0, 0);
        let left = sheet.filled_if(read, 1, 5);
        let right = sheet.fail();
        sheet.row(48, left, right, 0)
    });
    sheet.row(43, filled, picked, 0);
    let screen = last_screen(&sheet, &[]);
    assert_eq!((screen.strides, screen.entries), (2, vec!["0 3 0 0 0 0 0 0 0 0".to_string()]));
}

/// Slip: one stride in place of striding to rest. The left waits for a cell that the right sets.
#[test]
fn parts_race_for_a_cell() {
    let part = |sheet: &mut Sheet, waits_for: i32, writes: i32| {
        let shared = sheet.row(42, CELL, 0, 0);
        let with = sheet.row(23, 0, 0, 0);
        let number = sheet.row(22, waits_for, 0, 0);
        let equal = sheet.row(24, 6, with, number);
        let done = sheet.writing(CELL, writes, |sheet| sheet.filled(writes));
        let fail = sheet.fail();
        let guarded = sheet.row(25, equal, done, fail);
        sheet.row(43, shared, guarded, 0)
    };
    // Left waits for 2 and right for 1: the right is taken first, then the left.
    let mut crossed = with_cell(1);
    let (left, right) = (part(&mut crossed, 2, 3), part(&mut crossed, 1, 2));
    crossed.row(46, left, right, 0);
    let screen = last_screen(&crossed, &[]);
    assert_eq!((screen.strides, screen.value), (3, Some(padded(&[3, 2]))));
    // Left waits for 1 and right for 2: the right strides from the left's store, in one stride.
    let mut threaded = with_cell(1);
    let (left, right) = (part(&mut threaded, 1, 2), part(&mut threaded, 2, 3));
    threaded.row(46, left, right, 0);
    let screen = last_screen(&threaded, &[]);
    assert_eq!((screen.strides, screen.value), (2, Some(padded(&[2, 3]))));
}

/// 44 strides A, keeps its store, and is not taken by itself.
#[test]
fn external_step_strides_its_left() {
    let mut sheet = with_cell(0);
    let filled = sheet.filled(1);
    let writing = sheet.writing(CELL, 5, |sheet| sheet.filled(2));
    let inner = sheet.row(43, filled, writing, 0);
    let read = sheet.row(29, CELL, 0, 0);
    let right = sheet.row(40, read, 0, 0);
    sheet.row(44, inner, right, 0);
    let screens = screens(&sheet, &[go_on("")]);
    assert_eq!((screens[0].strides, screens[0].value, screens[0].entries.len()), (2, None, 2));
    assert_eq!((screens[1].strides, screens[1].leaf()), (1, Some(5)));
}

/// S-OrLeft: where the left, strided, has a value, the right is not strided.
#[test]
fn right_of_a_choice_is_not_strided_where_the_left_has_a_value() {
    let writer = |sheet: &mut Sheet, number| {
        let filled = sheet.filled(1);
        let writing = sheet.writing(CELL, number, |sheet| sheet.filled(number));
        sheet.row(43, filled, writing, 0)
    };
    let mut sheet = with_cell(0);
    let (left, right) = (sheet.filled(1), writer(&mut sheet, 9));
    let choice = sheet.row(47, left, right, 0);
    beside_cell(&mut sheet, choice);
    assert_eq!(last_screen(&sheet, &[]).value, Some(padded(&[1])));
    // S-OrLeft with a left that moves first.
    let mut sheet = with_cell(0);
    let (left, right) = (writer(&mut sheet, 8), writer(&mut sheet, 9));
    let choice = sheet.row(47, left, right, 0);
    beside_cell(&mut sheet, choice);
    let screen = last_screen(&sheet, &[]);
    assert_eq!((screen.value, screen.strides), (Some(padded(&[8, 8])), 2));
    // S-OrRight: the left's store is kept.
    let mut sheet = with_cell(0);
    let filled = sheet.filled(1);
    let moved = sheet.writing(CELL, 4, Sheet::empty);
    let (left, right) = (sheet.row(43, filled, moved, 0), sheet.filled(2));
    let choice = sheet.row(47, left, right, 0);
    beside_cell(&mut sheet, choice);
    assert_eq!(last_screen(&sheet, &[]).value, Some(padded(&[2, 4])));
}

/// S-OrNone: both parts stay, with their marks.
#[test]
fn choice_without_a_value_stays() {
    let mut sheet = numbers();
    let (left, right) = (sheet.empty(), sheet.empty());
    sheet.row(47, left, right, 0);
    assert_eq!(last_screen(&sheet, &[]).entries, ["1 1 3 0 0 0 0 0 0 0", "2 1 3 0 0 0 0 0 0 0"]);
}

#[test]
fn failing_of_each_kind() {
    let fails = |build: &dyn Fn(&mut Sheet) -> i32| {
        let mut sheet = with_cell(0);
        build(&mut sheet);
        let screen = last_screen(&sheet, &[]);
        // Without a 49, what is quiet fails (`view.rs` has the others).
        assert_eq!(screen.failing, screen.entries.is_empty());
        screen.failing
    };
    let two = |sheet: &mut Sheet, kind: i32, left: bool, right: bool| {
        let mut part = |failing| if failing { sheet.fail() } else { sheet.empty() };
        let (left, right) = (part(left), part(right));
        sheet.row(kind, left, right, 0)
    };
    assert!(fails(&|sheet| sheet.fail()));
    assert!(!fails(&|sheet| sheet.empty()));
    assert!(!fails(&|sheet| sheet.filled(1)));
    assert!(!fails(&|sheet| sheet.row(42, CELL, 0, 0)));
    for kind in 43..=44 {
        assert!(fails(&|sheet| two(sheet, kind, true, false)));
        assert!(!fails(&|sheet| two(sheet, kind, false, true)));
    }
    for kind in 46..=48 {
        for (left, right) in [(false, false), (false, true), (true, false), (true, true)] {
            assert_eq!(fails(&|sheet| two(sheet, kind, left, right)), left && right);
        }
    }
}

/// Each branch of a 48 is normalised from the present store, and asked in the store that this
/// gives.
#[test]
fn branches_are_normalised_from_the_present_store() {
    // Left writes 1 and fails; right fails unless the cell is 1. Both fail.
    let mut apart = with_cell(0);
    let left = apart.writing(CELL, 1, Sheet::fail);
    let read = apart.row(29, CELL, 0, 0);
    let right = apart.filled_if(read, 1, 5);
    apart.row(48, left, right, 0);
    assert!(last_screen(&apart, &[]).failing);
    // Left writes 1 and then is a 48 that fails unless the cell is 1.
    let mut within = with_cell(0);
    let left = within.writing(CELL, 1, |sheet| {
        let read = sheet.row(29, CELL, 0, 0);
        let (left, right) = (sheet.filled_if(read, 1, 5), sheet.fail());
        sheet.row(48, left, right, 0)
    });
    let right = within.fail();
    within.row(48, left, right, 0);
    assert_eq!(last_screen(&within, &[]).entries, ["0 3 0 0 0 0 0 0 0 0"]);
}
