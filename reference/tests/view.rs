//! Kind 49, the shown value, and screens that are quiet and do not fail (CR 1).

mod common;

use common::*;
use reference::event;

const CELL: i32 = 1;
const BINDER: i32 = 23;

/// The type number at row 0 and a cell of numbers at row 1.
fn with_cell(first: i32) -> Sheet {
    let mut sheet = numbers();
    sheet.row(10, 0, first, 0);
    sheet
}

/// A shown value of this plain row, which stands alone.
fn shown_of(sheet: &mut Sheet, kind: i32, operand: i32) -> i32 {
    let plain = sheet.row(kind, operand, 0, 0);
    sheet.row(49, plain, 0, 0)
}

/// Failing flag, value's first leaf, entries.
fn seen(screen: &Screen) -> (bool, Option<i32>, Vec<&str>) {
    (screen.failing, screen.leaf(), screen.entries.iter().map(String::as_str).collect())
}

fn answers(screens: &[Screen]) -> Vec<i32> {
    screens.iter().map(|screen| screen.answer).collect()
}

/// Every action at the empty path and behind marks.
fn touches() -> Vec<Vec<u8>> {
    ["", "1", "2", "11", "21"].iter().flat_map(|path| [value(path, 1), go_on(path), left(path), right(path)]).collect()
}

/// The flow has this value, no entry and does not fail, and each touch gets 9 and changes nothing.
fn is_quiet(sheet: &Sheet, value: Option<i32>) {
    let screens = screens(sheet, &touches());
    assert_eq!(screens[0].answer, 0);
    for screen in &screens {
        assert_eq!(seen(screen), (false, value, vec![]));
    }
    assert!(screens[1..].iter().all(|screen| (screen.answer, screen.strides) == (9, 0)));
}

/// It has its value, never fails, takes no event and stays under a stride.
#[test]
fn alone() {
    let mut sheet = Sheet::default();
    sheet.shown(5);
    is_quiet(&sheet, Some(5));
    assert_eq!(last_screen(&sheet, &[]).strides, 1);
}

/// A shown pair, as the last row: all its leaves, and none can be sent.
#[test]
fn of_a_pair() {
    let mut sheet = Sheet::default();
    let (number, truth) = (sheet.row(22, -7, 0, 0), sheet.row(21, 1, 0, 0));
    let pair = sheet.row(26, number, truth, 0);
    sheet.row(49, pair, 0, 0);
    let screens = screens(&sheet, &[event::write("", 1, padded(&[-7, 1]))]);
    assert_eq!(answers(&screens), [0, 9]);
    assert!(screens.iter().all(|screen| screen.value == Some(padded(&[-7, 1])) && screen.entries.is_empty()));
}

/// Ground 3: B or C not 0. Ground 4: A no plain row.
#[test]
fn operands() {
    let answer = |a, b, c| {
        let mut sheet = with_cell(0);
        let (number, task) = (sheet.row(22, 5, 0, 0), sheet.empty());
        assert_eq!((number, task), (2, 3));
        let shown = sheet.row(49, a, b, c);
        sheet.row(46, shown, task, 0);
        loads(&sheet.text())
    };
    assert_eq!(answer(2, 0, 0), 0);
    for other in [-1, 1, 2] {
        assert_eq!((answer(2, other, 0), answer(2, 0, other), answer(3, 0, other)), (3, 3, 3));
    }
    // A type, a cell, a task, itself, a row above, none.
    for a in [0, 1, 3, 4, 5, -1] {
        assert_eq!(answer(a, 0, 0), 4, "A {a}");
    }
}

/// A 43 over a shown value goes on at once, and waits, without a value, while its right side fails.
#[test]
fn internal_step() {
    let mut sheet = Sheet::default();
    let shown = sheet.shown(4);
    let with = sheet.row(BINDER, 0, 0, 0);
    let right = sheet.row(40, with, 0, 0);
    sheet.row(43, shown, right, 0);
    let screen = last_screen(&sheet, &[]);
    assert_eq!((screen.strides, seen(&screen)), (2, (false, Some(4), vec!["0 1 3 0 0 0 0 0 0 0"])));
    let mut waiting = numbers();
    let (shown, fail) = (waiting.shown(4), waiting.fail());
    waiting.row(43, shown, fail, 0);
    is_quiet(&waiting, None);
}

/// A 44 over a shown value: Continue alone is lit, where the right side takes it.
#[test]
fn external_step() {
    let mut sheet = Sheet::default();
    let shown = sheet.shown(4);
    let right = shown_of(&mut sheet, BINDER, 0);
    sheet.row(44, shown, right, 0);
    let screens = screens(&sheet, &[value("", 1), go_on(""), go_on("")]);
    assert_eq!(answers(&screens), [0, 9, 0, 9]);
    for before in &screens[..2] {
        assert_eq!(seen(before), (false, None, vec!["0 2 0 0 0 0 0 0 0 0"]));
    }
    for after in &screens[2..] {
        assert_eq!(seen(after), (false, Some(4), vec![]));
    }
}

/// A 44 of a shown 1 and a fail: no entry, and it does not fail.
#[test]
fn external_step_to_a_fail() {
    let mut sheet = numbers();
    let (shown, fail) = (sheet.shown(1), sheet.fail());
    sheet.row(44, shown, fail, 0);
    is_quiet(&sheet, None);
}

/// A 46 of a shown 5 and a fail: no value, no entry, and it does not fail. Of two fails it does.
#[test]
fn beside_a_fail() {
    let mut sheet = numbers();
    let (shown, fail) = (sheet.shown(5), sheet.fail());
    sheet.row(46, shown, fail, 0);
    is_quiet(&sheet, None);
    let mut failing = numbers();
    let (one, two) = (failing.fail(), failing.fail());
    failing.row(46, one, two, 0);
    assert_eq!(seen(&last_screen(&failing, &[])), (true, None, vec![]));
}

/// A 46 of a shown value and an editor: the editor's entry alone, with its mark.
#[test]
fn beside_an_editor() {
    let mut sheet = Sheet::default();
    let (shown, filled) = (sheet.shown(5), sheet.filled(6));
    sheet.row(46, shown, filled, 0);
    let screens = screens(&sheet, &[value("1", 7), value("2", 8)]);
    assert_eq!(answers(&screens), [0, 9, 0]);
    assert!(screens.iter().all(|screen| screen.entries == ["2 1 3 0 0 0 0 0 0 0"]));
    assert_eq!(screens[2].value, Some(padded(&[5, 8])));
}

/// A 47 picks a shown value, on either side of an empty editor.
#[test]
fn internal_choice() {
    for right in [false, true] {
        let mut sheet = numbers();
        let (empty, shown) = (sheet.empty(), sheet.shown(3));
        let (a, b) = if right { (empty, shown) } else { (shown, empty) };
        sheet.row(47, a, b, 0);
        assert_eq!(last_screen(&sheet, &[]).strides, 2);
        is_quiet(&sheet, Some(3));
    }
}

/// A 47 of quiet parts without a value, neither of them picked.
#[test]
fn internal_choice_of_quiet_parts() {
    let mut sheet = numbers();
    let (shown, fail, other) = (sheet.shown(3), sheet.fail(), sheet.fail());
    let step = sheet.row(44, shown, fail, 0);
    sheet.row(47, other, step, 0);
    assert_eq!(last_screen(&sheet, &[]).strides, 1);
    is_quiet(&sheet, None);
}

/// A 48 of a shown value and a fail: Left only, and then the value stands alone.
#[test]
fn external_choice() {
    let mut sheet = numbers();
    let (shown, fail) = (sheet.shown(3), sheet.fail());
    sheet.row(48, shown, fail, 0);
    let screens = screens(&sheet, &[right(""), left(""), left(""), value("", 1)]);
    assert_eq!(answers(&screens), [0, 9, 0, 9, 9]);
    assert_eq!(seen(&screens[1]), (false, None, vec!["0 3 0 0 0 0 0 0 0 0"]));
    assert_eq!(seen(&screens[4]), (false, Some(3), vec![]));
}

/// A branch that is quiet and does not fail is lit; the other, which fails, is not.
#[test]
fn external_choice_of_a_quiet_branch() {
    let mut sheet = numbers();
    let (other, shown, fail) = (sheet.fail(), sheet.shown(3), sheet.fail());
    let step = sheet.row(44, shown, fail, 0);
    sheet.row(48, other, step, 0);
    let screens = screens(&sheet, &[left(""), right(""), go_on("")]);
    assert_eq!(answers(&screens), [0, 9, 0, 9]);
    assert_eq!(seen(&screens[0]), (false, None, vec!["0 4 0 0 0 0 0 0 0 0"]));
    assert_eq!(seen(&screens[2]), (false, None, vec![]));
}

/// Under 25 and 31: a side that holds, with the value bound around it.
#[test]
fn under_conditions_and_bindings() {
    let mut sheet = numbers();
    let bound = sheet.row(22, 6, 0, 0);
    let (truth, fail) = (sheet.row(21, 0, 0, 0), sheet.fail());
    let shown = shown_of(&mut sheet, BINDER, 0);
    let side = sheet.row(25, truth, fail, shown);
    sheet.row(31, bound, side, 0);
    is_quiet(&sheet, Some(6));
}

/// Evaluated once: what was read from a cell stays when the cell is written.
#[test]
fn does_not_follow_its_cell() {
    let mut sheet = with_cell(2);
    let shown = shown_of(&mut sheet, 29, CELL);
    let shared = sheet.row(42, CELL, 0, 0);
    sheet.row(46, shown, shared, 0);
    let screens = screens(&sheet, &[value("2", 9)]);
    assert_eq!((screens[0].value, screens[1].value), (Some(padded(&[2, 2])), Some(padded(&[2, 9]))));
    // Evaluated after the write in front of it, by the rule of evaluation.
    let mut after = with_cell(2);
    after.writing(CELL, 9, |sheet| shown_of(sheet, 29, CELL));
    is_quiet(&after, Some(9));
}

/// A write in A is done when the row is evaluated, from left to right, and once.
#[test]
fn writes_where_it_is_evaluated() {
    let mut sheet = with_cell(0);
    let write = sheet.write(CELL, 7);
    let written = sheet.row(49, write, 0, 0);
    let read = shown_of(&mut sheet, 29, CELL);
    let both = sheet.row(46, written, read, 0);
    let shared = sheet.row(42, CELL, 0, 0);
    sheet.row(46, both, shared, 0);
    let screens = screens(&sheet, &[value("2", 8)]);
    assert_eq!((screens[0].value, screens[1].value), (Some(padded(&[0, 7, 7])), Some(padded(&[0, 7, 8]))));
}
