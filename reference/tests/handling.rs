//! Each rule of handling, and the list beside it.

mod common;

use common::*;

const CELL: i32 = 1;

/// The type number at row 0 and a cell of numbers at row 1.
fn with_cell(first: i32) -> Sheet {
    let mut sheet = numbers();
    sheet.row(10, 0, first, 0);
    sheet
}

fn answers(screens: &[Screen]) -> Vec<i32> {
    screens.iter().map(|screen| screen.answer).collect()
}

/// H-Change, H-Fill, H-Update.
#[test]
fn editors_take_values() {
    let mut sheet = with_cell(3);
    let (filled, empty) = (sheet.filled(1), sheet.empty());
    let (one, other) = (sheet.row(42, CELL, 0, 0), sheet.row(42, CELL, 0, 0));
    let own = sheet.row(46, filled, empty, 0);
    let shared = sheet.row(46, one, other, 0);
    sheet.row(46, own, shared, 0);
    let screens = screens(&sheet, &[value("11", 4), value("12", 5), value("12", 6), value("21", 7), value("22", 8)]);
    let values: Vec<_> = screens.iter().map(|screen| screen.value).collect();
    assert_eq!(answers(&screens), [0; 6]);
    assert_eq!(values[..2], [None, None]);
    assert_eq!(
        values[2..],
        [
            Some(padded(&[4, 5, 3, 3])),
            Some(padded(&[4, 6, 3, 3])),
            Some(padded(&[4, 6, 7, 7])),
            Some(padded(&[4, 6, 8, 8]))
        ]
    );
    let shown = ["11 1 3 0 0 0 0 0 0 0", "12 1 3 0 0 0 0 0 0 0", "21 1 3 0 0 0 0 0 0 0", "22 1 3 0 0 0 0 0 0 0"];
    assert_eq!(screens[0].entries, shown);
}

/// H-PassThen and H-PassNext, and what is normalised after it.
#[test]
fn steps_pass_events_to_their_left() {
    let mut sheet = numbers();
    let empty = sheet.empty();
    let filled = sheet.filled(5);
    let inner = sheet.row(43, empty, filled, 0);
    let right = sheet.row(23, 0, 0, 0);
    let right = sheet.row(40, right, 0, 0);
    sheet.row(44, inner, right, 0);
    let screens = screens(&sheet, &[value("", 1), go_on("")]);
    assert_eq!(answers(&screens), [0; 3]);
    assert_eq!(screens[0].entries, ["0 1 3 0 0 0 0 0 0 0"]);
    assert_eq!(
        (screens[1].strides, &screens[1].entries[..]),
        (2, &["0 1 3 0 0 0 0 0 0 0".to_string(), "0 2 0 0 0 0 0 0 0 0".to_string()][..])
    );
    assert_eq!(screens[2].leaf(), Some(5));
}

/// A 44 passes Continue to its A: the inner step takes it, as the outer's A has no value.
#[test]
fn continue_is_passed_by_a_44() {
    let mut sheet = numbers();
    let one = sheet.filled(1);
    let two = sheet.filled(2);
    let inner = sheet.row(44, one, two, 0);
    let three = sheet.filled(3);
    sheet.row(44, inner, three, 0);
    let screens = screens(&sheet, &[go_on(""), go_on(""), go_on("")]);
    assert_eq!(answers(&screens), [0, 0, 0, 9]);
    assert_eq!(screens[0].entries, ["0 1 3 0 0 0 0 0 0 0", "0 2 0 0 0 0 0 0 0 0"]);
    assert_eq!(screens[2].leaf(), Some(3));
}

/// Slip: offering Continue because a value stands, without trying the right side.
#[test]
fn continue_is_tried() {
    let mut sheet = numbers();
    let empty = sheet.empty();
    let with = sheet.row(23, 0, 0, 0);
    let guarded = sheet.filled_if(with, 4, 40);
    sheet.row(44, empty, guarded, 0);
    let screens = screens(&sheet, &[go_on(""), value("", 3), go_on(""), value("", 4), go_on("")]);
    assert_eq!(answers(&screens), [0, 9, 0, 9, 0, 0]);
    let offered: Vec<usize> = screens.iter().map(|screen| screen.entries.len()).collect();
    assert_eq!(offered, [1, 1, 1, 1, 2, 1]);
    assert_eq!(screens[5].leaf(), Some(40));
}

/// Continue evaluates B and keeps its store; B's strides are those counted.
#[test]
fn continue_evaluates_and_does_not_normalise() {
    let mut sheet = with_cell(0);
    let one = sheet.filled(1);
    let b = sheet.writing(CELL, 6, |sheet| {
        let two = sheet.filled(2);
        let read = sheet.row(29, CELL, 0, 0);
        let last = sheet.row(40, read, 0, 0);
        sheet.row(43, two, last, 0)
    });
    sheet.row(44, one, b, 0);
    let screen = last_screen(&sheet, &[go_on("")]);
    assert_eq!((screen.strides, screen.leaf()), (2, Some(6)));
}

/// H-PickLeft and H-PickRight give the normalised branch and its store; its strides are not
/// counted.
#[test]
fn picking_normalises_and_keeps_the_store() {
    let mut sheet = with_cell(0);
    let mut branch = |number| {
        let one = sheet.filled(1);
        let writing = sheet.writing(CELL, number, |sheet| {
            let read = sheet.row(29, CELL, 0, 0);
            sheet.row(40, read, 0, 0)
        });
        sheet.row(43, one, writing, 0)
    };
    let (to_left, to_right) = (branch(5), branch(6));
    let pick = sheet.row(48, to_left, to_right, 0);
    let shared = sheet.row(42, CELL, 0, 0);
    sheet.row(46, pick, shared, 0);
    let start = last_screen(&sheet, &[]);
    assert_eq!(start.entries, ["1 3 0 0 0 0 0 0 0 0", "1 4 0 0 0 0 0 0 0 0", "2 1 3 0 0 0 0 0 0 0"]);
    assert_eq!((start.value, start.strides), (None, 1));
    for (event, number) in [(left("1"), 5), (right("1"), 6)] {
        let screen = last_screen(&sheet, &[event]);
        assert_eq!((screen.answer, screen.strides, screen.value), (0, 1, Some(padded(&[number, number]))));
        assert_eq!(screen.entries, ["1 1 3 0 0 0 0 0 0 0", "2 1 3 0 0 0 0 0 0 0"]);
    }
}

/// A branch that fails is not taken; both may be picked where both do not fail.
#[test]
fn picking_a_failing_branch_gets_9() {
    let mut sheet = numbers();
    let (fail, filled) = (sheet.fail(), sheet.filled(2));
    sheet.row(48, fail, filled, 0);
    let screens = screens(&sheet, &[left(""), go_on(""), value("", 1), right(""), right("")]);
    assert_eq!(answers(&screens), [0, 9, 9, 9, 0, 9]);
    assert_eq!(screens[0].entries, ["0 4 0 0 0 0 0 0 0 0"]);
    assert_eq!(screens[4].leaf(), Some(2));
}

/// H-FirstAnd, H-SecondAnd, H-FirstOr, H-SecondOr: marks lead, and nothing else does.
#[test]
fn marks_lead_into_both_and_choices() {
    let mut sheet = numbers();
    let (one, two, three) = (sheet.empty(), sheet.empty(), sheet.empty());
    let choice = sheet.row(47, one, two, 0);
    sheet.row(46, choice, three, 0);
    let entries = last_screen(&sheet, &[]).entries;
    assert_eq!(entries, ["11 1 3 0 0 0 0 0 0 0", "12 1 3 0 0 0 0 0 0 0", "2 1 3 0 0 0 0 0 0 0"]);
    let refused = [value("", 1), value("1", 1), value("21", 1), value("111", 1), go_on("2"), left("11")];
    let screens_refused = screens(&sheet, &refused);
    assert!(screens_refused[1..].iter().all(|screen| screen.answer == 9 && screen.entries == entries));
    // A chosen 47 has no mark of its own.
    let chosen = screens(&sheet, &[value("12", 7), value("12", 8), value("1", 9), value("2", 3)]);
    assert_eq!(answers(&chosen), [0, 0, 9, 0, 0]);
    assert_eq!(chosen[1].entries, ["1 1 3 0 0 0 0 0 0 0", "2 1 3 0 0 0 0 0 0 0"]);
    assert_eq!((chosen[1].strides, chosen[4].value), (2, Some(padded(&[9, 3]))));
}

/// An event that is handled may let a waiting part go on elsewhere.
#[test]
fn a_touch_frees_a_waiting_step() {
    let mut sheet = with_cell(0);
    let shared = sheet.row(42, CELL, 0, 0);
    let with = sheet.row(23, 0, 0, 0);
    let guarded = sheet.filled_if(with, 2, 20);
    let waiting = sheet.row(43, shared, guarded, 0);
    let other = sheet.row(42, CELL, 0, 0);
    sheet.row(46, waiting, other, 0);
    let screens = screens(&sheet, &[value("2", 1), value("1", 3), value("2", 2), value("1", 21)]);
    assert_eq!(answers(&screens), [0; 5]);
    let strides: Vec<i32> = screens.iter().map(|screen| screen.strides).collect();
    assert_eq!(strides, [1, 1, 1, 2, 1]);
    assert_eq!(screens[4].value, Some(padded(&[21, 2])));
}

/// A refused event leaves the screen of the unchanged state, with strides 0.
#[test]
fn a_refusal_changes_nothing() {
    let mut sheet = numbers();
    let one = sheet.filled(1);
    let two = sheet.filled(2);
    sheet.row(44, one, two, 0);
    let screens = screens(&sheet, &[left(""), value("x", 1)]);
    for (screen, answer) in screens[1..].iter().zip([9, 8]) {
        let expected = Screen { answer, strides: 0, ..screens[0].clone() };
        assert_eq!(screen, &expected);
    }
}
