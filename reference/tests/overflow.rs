//! Sums, differences and products beyond the range (CR 3): the ends, each place where an expression is evaluated as a
//! whole, what counts and what does not, and the state of a flow whose start fails so.

mod common;

use common::*;
use reference::calls::{self, Looked, ROW};
use reference::event::{ENTRY, EVENT};
use reference::flow::Flow;
use reference::limits::LEAVES;
use reference::overflow_edges::{self, Form, Place, Rows, BEYOND, IDLE, PLACES, PLAINS, TASKS};
use reference::roles::FIRST;
use reference::rules::Rules;
use reference::state::{LastRow, State};
use reference::value::{Leaves, Value};
use reference::words::STATE_ROW;

/// The place of this name.
fn place(name: &str) -> Place {
    *PLACES.iter().find(|place| place.0 == name).expect("a place")
}

/// Adds the task of these forms around a number.
fn build(rows: &mut Rows, number: [i32; 3], plain: Form, task: Form) -> i32 {
    let number = rows.reckoned(number);
    let number = plain.1(rows, number);
    task.1(rows, number)
}

/// The screens of a place that has the task of these forms, alone or beside the cell, which starts with 7.
fn screens_of(place: Place, number: [i32; 3], forms: (Form, Form), beside: bool, events: &[Vec<u8>]) -> Vec<Screen> {
    let rows = overflow_edges::sheet(place, &|rows| build(rows, number, forms.0, forms.1), beside);
    screens(&Sheet(rows), events)
}

/// Each form of a plain number in each form of a task, with each of the three operators.
fn each_beyond(mut check: impl FnMut([i32; 3], (Form, Form), &str)) {
    for number in BEYOND {
        for plain in PLAINS {
            for task in TASKS {
                check(number, (plain, task), &format!("{number:?} as {} under {}", plain.0, task.0));
            }
        }
    }
}

/// A screen without a value at the first stride.
fn shown(failing: bool, entries: &[&str]) -> Screen {
    let entries = entries.iter().map(ToString::to_string).collect();
    Screen { answer: 0, strides: 1, failing, value: None, entries }
}

/// The same after an event that is refused with 9.
fn refused(screen: &Screen) -> Screen {
    Screen { answer: 9, strides: 0, ..screen.clone() }
}

/// Beside the cell: its editor, and the Continue that is lit while it holds 7.
const CELL_IS_7: [&str; 2] = ["2 1 3 0 0 0 0 0 0 0", "2 2 0 0 0 0 0 0 0 0"];

fn beside(own: &[&'static str]) -> Vec<&'static str> {
    [own, &CELL_IS_7].concat()
}

#[test]
fn the_ends() {
    let (most, least) = (i32::MAX, i32::MIN);
    let exact = [
        ([1, most, 0], Some(most)),
        ([1, most, 1], None),
        ([1, 1, most], None),
        ([1, most, -1], Some(most - 1)),
        ([1, most, most], None),
        ([1, least, 0], Some(least)),
        ([1, least, -1], None),
        ([1, least, most], Some(-1)),
        ([1, least, least], None),
        ([2, least, 0], Some(least)),
        ([2, least, 1], None),
        ([2, most, -1], None),
        ([2, -1, least], Some(most)),
        ([2, 0, least], None),
        ([2, least, least], Some(0)),
        ([2, least, most], None),
        ([3, 46_341, 46_340], Some(2_147_441_940)),
        ([3, 46_341, 46_341], None),
        ([3, -46_341, 46_340], Some(-2_147_441_940)),
        ([3, -46_341, 46_341], None),
        ([3, -65_536, 32_768], Some(least)),
        ([3, 32_768, -65_536], Some(least)),
        ([3, 65_536, 32_768], None),
        ([3, -65_536, -32_768], None),
        // These would be 0 and 1 modulo 2^32.
        ([3, 65_536, 65_536], None),
        ([3, most, most], None),
        ([3, least, 1], Some(least)),
        ([3, least, -1], None),
        ([3, -1, least], None),
        ([3, most, -1], Some(-most)),
        ([3, least, 0], Some(0)),
        ([3, least, least], None),
    ];
    for (number, result) in exact {
        let screen = &screens_of(PLACES[0], number, (PLAINS[0], TASKS[0]), false, &[])[0];
        assert_eq!((screen.answer, screen.strides, screen.leaf()), (0, 1, result), "{number:?}");
        assert_eq!(screen.failing, result.is_none(), "{number:?}");
    }
}

/// Every comparison is of words, and none leaves the range.
#[test]
fn comparisons_never_leave_the_range() {
    for operator in 4..=6 {
        for (left, right) in [(i32::MIN, i32::MAX), (i32::MAX, i32::MIN), (i32::MIN, i32::MIN), (i32::MAX, i32::MAX)] {
            let screen = &screens_of(PLACES[0], [operator, left, right], (PLAINS[0], TASKS[0]), false, &[])[0];
            assert!(!screen.failing && screen.leaf().is_some());
        }
    }
}

/// The last row at start: it fails as a whole in one stride, nothing is shown, and no event is taken.
#[test]
fn at_start() {
    let events = overflow_edges::touches();
    each_beyond(|number, forms, told| {
        for beside in [false, true] {
            let screens = screens_of(place("start"), number, forms, beside, &events);
            let failed = shown(true, &[]);
            assert_eq!(screens[0], failed, "{told}");
            assert_eq!(screens[1..], vec![refused(&failed); events.len()], "{told}");
        }
    });
}

/// A right side of 43: the step waits, with its writes dropped.
#[test]
fn right_side_of_43() {
    each_beyond(|number, forms, told| {
        let screens = screens_of(place("43"), number, forms, false, &[go_on("")]);
        assert_eq!(screens[0], shown(false, &["0 1 3 0 0 0 0 0 0 0"]), "{told}");
        assert_eq!(screens[1], refused(&screens[0]), "{told}");
        let screens = screens_of(place("43"), number, forms, true, &[value("1", 2), go_on("1")]);
        let waits = shown(false, &beside(&["1 1 3 0 0 0 0 0 0 0"]));
        assert_eq!(screens, [waits.clone(), waits.clone(), refused(&waits)], "{told}");
    });
}

/// A right side of 44: Continue is not lit, and refused with 9.
#[test]
fn right_side_of_44() {
    each_beyond(|number, forms, told| {
        let screens = screens_of(place("44"), number, forms, true, &[go_on("1"), value("1", 2), go_on("1")]);
        let dark = shown(false, &beside(&["1 1 3 0 0 0 0 0 0 0"]));
        assert_eq!(screens, [dark.clone(), refused(&dark), dark.clone(), refused(&dark)], "{told}");
    });
}

/// A branch of 48: it is not lit, refused with 9, and the choice fails where both are such.
#[test]
fn branches() {
    each_beyond(|number, forms, told| {
        for (name, lit, dark, other) in [
            ("Left", "1 4 0 0 0 0 0 0 0 0", left("1"), right("1")),
            ("Right", "1 3 0 0 0 0 0 0 0 0", right("1"), left("1")),
        ] {
            let screens = screens_of(place(name), number, forms, true, &[dark, other]);
            let one = shown(false, &beside(&[lit]));
            assert_eq!(screens[..2], [one.clone(), refused(&one)], "{told}");
            // The other is taken, and the cell beside still holds 7.
            assert_eq!((screens[2].answer, screens[2].value), (0, None), "{told}");
            assert_eq!(screens[2].entries, beside(&["1 1 3 0 0 0 0 0 0 0"]), "{told}");
        }
        let screens = screens_of(place("Left and Right"), number, forms, false, &[left(""), right("")]);
        let fails = shown(true, &[]);
        assert_eq!(screens, [fails.clone(), refused(&fails), refused(&fails)], "{told}");
        let screens = screens_of(place("Left and Right"), number, forms, true, &[left("1"), right("1")]);
        let quiet = shown(false, &CELL_IS_7);
        assert_eq!(screens, [quiet.clone(), refused(&quiet), refused(&quiet)], "{told}");
    });
}

/// One place in another: what fails is the innermost expression that is evaluated, and nothing outside of it.
#[test]
fn places_in_each_other() {
    each_beyond(|number, forms, told| {
        // The step waits in the branch, which does not fail for it.
        for name in ["43 in a branch", "44 in a branch"] {
            let screens = screens_of(place(name), number, forms, true, &[right("1"), left("1"), go_on("1")]);
            let lit = shown(false, &beside(&["1 3 0 0 0 0 0 0 0 0"]));
            let waits = shown(false, &beside(&["1 1 3 0 0 0 0 0 0 0"]));
            assert_eq!(screens, [lit.clone(), refused(&lit), waits.clone(), refused(&waits)], "{told}");
        }
        // The inner choice fails, so its branch does.
        let screens = screens_of(place("a branch in a branch"), number, forms, true, &[left("1")]);
        let other = shown(false, &beside(&["1 4 0 0 0 0 0 0 0 0"]));
        assert_eq!(screens, [other.clone(), refused(&other)], "{told}");
        // The choice fails, so the step to it waits.
        let screens = screens_of(place("a branch in 43"), number, forms, true, &[]);
        assert_eq!(screens, [shown(false, &beside(&["1 1 3 0 0 0 0 0 0 0"]))], "{told}");
        // The outer step is taken, and the inner one waits.
        let screens = screens_of(place("43 in 43"), number, forms, true, &[]);
        assert_eq!(screens, [Screen { strides: 2, ..shown(false, &beside(&["1 1 3 0 0 0 0 0 0 0"])) }], "{told}");
    });
}

/// What is not evaluated does not count: the side of 25 that is not taken, a right side, a branch.
#[test]
fn what_is_not_evaluated() {
    for number in BEYOND {
        for task in IDLE {
            let told = format!("{number:?} under {}", task.0);
            let at = |name| screens_of(place(name), number, (PLAINS[0], task), false, &[]).remove(0);
            assert!(!at("start").failing, "{told}");
            // A taken 43, and a branch that is lit.
            assert!(at("43").strides >= 2, "{told}");
            assert_eq!(at("44").entries, ["0 1 3 0 0 0 0 0 0 0", "0 2 0 0 0 0 0 0 0 0"], "{told}");
            assert_eq!(at("Left and Right").entries, ["0 3 0 0 0 0 0 0 0 0", "0 4 0 0 0 0 0 0 0 0"], "{told}");
        }
    }
}

/// 43 of an empty editor, to the product of what is entered and 46341.
#[test]
fn a_step_goes_on_once_a_smaller_number_is_entered() {
    let mut sheet = numbers();
    let empty = sheet.empty();
    let (entered, factor) = (sheet.row(23, 0, 0, 0), sheet.row(22, 46_341, 0, 0));
    let product = sheet.row(24, 3, entered, factor);
    let filled = sheet.row(40, product, 0, 0);
    sheet.row(43, empty, filled, 0);
    let screens = screens(&sheet, &[value("", 46_341), value("", -46_341), value("", 46_340), value("", 46_341)]);
    let waits = shown(false, &["0 1 3 0 0 0 0 0 0 0"]);
    assert_eq!(screens[..3], [waits.clone(), waits.clone(), waits.clone()]);
    assert_eq!((screens[3].answer, screens[3].strides, screens[3].leaf()), (0, 2, Some(2_147_441_940)));
    // The product stands in an editor now, which takes any number.
    assert_eq!((screens[4].strides, screens[4].leaf()), (1, Some(46_341)));
}

/// The same by a shop: copies times price, with Continue.
#[test]
fn continue_is_lit_again_by_a_smaller_number() {
    let mut sheet = numbers();
    let empty = sheet.empty();
    let (copies, price) = (sheet.row(23, 0, 0, 0), sheet.row(22, 79, 0, 0));
    let total = sheet.row(24, 3, copies, price);
    let shown_total = sheet.row(49, total, 0, 0);
    sheet.row(44, empty, shown_total, 0);
    let most = i32::MAX / 79;
    let screens = screens(&sheet, &[value("", most + 1), go_on(""), value("", most), go_on("")]);
    let answers: Vec<i32> = screens.iter().map(|screen| screen.answer).collect();
    let offered: Vec<usize> = screens.iter().map(|screen| screen.entries.len()).collect();
    assert_eq!((answers, offered), (vec![0, 0, 9, 0, 0], vec![1, 1, 1, 2, 0]));
    assert_eq!(screens[4].leaf(), Some(most * 79));
}

/// The state that a sheet starts in: whether its last row failed as a whole, and the cell.
fn started(sheet: &Sheet) -> (bool, Value, usize) {
    let flow = Flow::load(&sheet.text(), Rules::default()).expect("accepted");
    let (state, strides) = State::start(&flow);
    (state.last_row == LastRow::FailedWhole, state.store.read(0).clone(), strides)
}

/// P10's cell, with a sum beyond the range in place of the fail; and the same at start and in a branch.
#[test]
fn writes_are_dropped() {
    for number in BEYOND {
        let mut rows = Rows::new();
        build(&mut rows, number, PLAINS[0], TASKS[14]);
        let written = rows.0.len() as i32 - 1;
        let at_start = Sheet(rows.0);
        assert_eq!(started(&at_start), (true, Value::Number(7), 1));
        for kind in [43, 48] {
            let mut sheet = at_start.clone();
            let filled = sheet.filled(1);
            let (a, b) = if kind == 43 { (filled, written) } else { (written, filled) };
            sheet.row(kind, a, b, 0);
            assert_eq!(started(&sheet), (false, Value::Number(7), 1));
        }
    }
}

/// A last row of 48 evaluates neither branch, so it does not fail as a whole, but as 48: another state.
#[test]
fn a_choice_of_two_such_branches_is_a_task() {
    let build = |rows: &mut Rows| build(rows, BEYOND[0], PLAINS[0], TASKS[0]);
    let sheet = Sheet(overflow_edges::sheet(place("Left and Right"), &build, false));
    assert!(last_screen(&sheet, &[]).failing);
    assert_eq!(started(&sheet), (false, Value::Number(7), 1));
}

/// P12 beside a cell: rows, and the words that start leaves.
fn failed_start() -> (Vec<i32>, Vec<i32>) {
    let sheet = sheet_of(&[
        [3, 0, 0, 0],
        [10, 0, 7, 0],
        [22, i32::MAX, 0, 0],
        [22, 1, 0, 0],
        [24, 1, 2, 3],
        [40, 4, 0, 0],
        [42, 1, 0, 0],
        [46, 5, 6, 0],
    ]);
    let rows = calls::words_of_rows(&sheet.0);
    let mut state = vec![-1; rows.len() / ROW * STATE_ROW];
    assert_eq!(calls::start(&rows, &mut state), (0, 1));
    (rows, state)
}

fn look(rows: &[i32], state: &[i32], list: usize) -> (Looked, Leaves) {
    let mut value = [9; LEAVES];
    (calls::look(rows, state, FIRST, &mut value, &mut vec![b'#'; list]), value)
}

/// Number and strides; a refusal keeps the state.
fn handle(rows: &[i32], state: &[i32], event: &[u8]) -> (u32, u32) {
    let mut after = state.to_vec();
    let answer = calls::handle(rows, &mut after, event);
    assert!(answer.0 == 0 || after == state);
    answer
}

/// Tag 4 in the last row, the cell's first content, and nothing else. Looked at without list memory, and touched.
#[test]
fn a_failed_start_by_the_calls() {
    let (rows, state) = failed_start();
    let mut expected = vec![0; 8 * STATE_ROW];
    expected[STATE_ROW..STATE_ROW + 3].copy_from_slice(&[1, 3, 7]);
    expected[7 * STATE_ROW] = 4;
    assert_eq!(state, expected);
    for list in [0, ENTRY - 1, ENTRY, 500] {
        let failed = Looked { number: 0, valued: false, fails: true, bytes: 0 };
        assert_eq!(look(&rows, &state, list), (failed, [0; LEAVES]));
    }
    for event in overflow_edges::touches() {
        assert_eq!(handle(&rows, &state, &event), (9, 0));
    }
    for event in [&b""[..], &value("", 1)[1..], &value("3", 1), &[b' '; EVENT]] {
        assert_eq!(handle(&rows, &state, event), (8, 0));
    }
}

/// 20 and 21 come first, then 22; a failed start is a rest, so 23 never.
#[test]
fn the_order_of_grounds_at_a_failed_start() {
    let (rows, state) = failed_start();
    let mut bad_rows = rows.clone();
    bad_rows[0] = 5;
    let mut no_state = state.clone();
    no_state[STATE_ROW + 2] = 8;
    let longer = [&state[..], &[0]].concat();
    for event in [&value("", 1)[..], b""] {
        assert_eq!(handle(&bad_rows, &state, event).0, 20);
        assert_eq!(handle(&bad_rows, &longer, event).0, 20);
        assert_eq!(handle(&rows, &longer, event).0, 21);
        assert_eq!(handle(&rows, &state[1..], event).0, 21);
        assert_eq!(handle(&rows, &no_state, event).0, 22);
    }
    assert_eq!(look(&bad_rows, &longer, 0).0.number, 20);
    assert_eq!(look(&rows, &longer, 0).0.number, 21);
    assert_eq!(calls::look(&rows, &no_state, FIRST, &mut [9; 3], &mut []).number, 21);
    assert_eq!(look(&rows, &no_state, 0).0.number, 22);
}

/// Each word of it changed to each of some others: 22, also where the cell's content is another of its type.
#[test]
fn a_failed_start_with_a_word_changed() {
    let (rows, state) = failed_start();
    for place in 0..state.len() {
        for other in [0, 1, 2, 3, 4, 5, 6, 8, 60, -1, i32::MIN, i32::MAX] {
            let mut changed = state.clone();
            changed[place] = other;
            let number = if changed == state { 0 } else { 22 };
            assert_eq!(look(&rows, &changed, 500).0.number, number, "{other} at {place}");
            let number = if changed == state { 9 } else { 22 };
            assert_eq!(handle(&rows, &changed, &value("1", 1)).0, number, "{other} at {place}");
        }
    }
}

/// Tag 4 is no tag of a row that is not the last, nor of the last row of a flow that starts well.
#[test]
fn tag_4_elsewhere() {
    let (rows, state) = failed_start();
    for row in 0..7 {
        let mut moved = state.clone();
        moved[7 * STATE_ROW] = 0;
        moved[row * STATE_ROW] = 4;
        assert_eq!(look(&rows, &moved, 500).0.number, 22, "row {row}");
        moved[7 * STATE_ROW] = 4;
        assert_eq!(look(&rows, &moved, 500).0.number, 22, "rows {row} and 7");
    }
    // 2147483647 + 0 starts well.
    let mut well = rows.clone();
    well[3 * ROW + 1] = 0;
    assert_eq!(look(&well, &state, 500).0.number, 22);
    assert_eq!(handle(&well, &state, &value("1", 1)).0, 22);
    // The same words under another sum beyond the range are a state, under another first content they are none.
    let mut other = rows.clone();
    other[3 * ROW + 1] = 2;
    assert_eq!(look(&other, &state, 500).0.number, 0);
    other[ROW + 2] = 8;
    assert_eq!(look(&other, &state, 500).0.number, 22);
}

/// Each kind of last row can fail so; the words below it are 0.
#[test]
fn each_last_row_by_the_calls() {
    each_beyond(|number, forms, told| {
        let rows = overflow_edges::sheet(place("start"), &|rows| build(rows, number, forms.0, forms.1), false);
        let words = calls::words_of_rows(&rows);
        let mut state = vec![-1; rows.len() * STATE_ROW];
        assert_eq!(calls::start(&words, &mut state), (0, 1), "{told}");
        let mut expected = vec![0; rows.len() * STATE_ROW];
        expected[STATE_ROW..STATE_ROW + 3].copy_from_slice(&[1, 3, 7]);
        expected[(rows.len() - 1) * STATE_ROW] = 4;
        assert_eq!(state, expected, "{told}");
        assert!(look(&words, &state, 0).0.fails, "{told}");
    });
}

/// A state need not be reached (01): the tasks of the last row are states of such a flow too, with any cells.
#[test]
fn other_states_of_a_flow_whose_start_fails() {
    let (rows, failed) = failed_start();
    let mut task = vec![0; failed.len()];
    task[STATE_ROW..STATE_ROW + 3].copy_from_slice(&[1, 3, -5]);
    task[5 * STATE_ROW..5 * STATE_ROW + 3].copy_from_slice(&[1, 3, 12]);
    task[6 * STATE_ROW] = 1;
    task[7 * STATE_ROW] = 1;
    let both = Looked { number: 0, valued: true, fails: false, bytes: 2 * ENTRY };
    assert_eq!(look(&rows, &task, 2 * ENTRY), (both, padded(&[12, -5])));
    assert_eq!(look(&rows, &task, 2 * ENTRY - 1).0.number, 24);
    assert_eq!(handle(&rows, &task, &value("1", i32::MAX)), (0, 1));
    // Both at once are none.
    task[7 * STATE_ROW] = 4;
    assert_eq!(look(&rows, &task, 2 * ENTRY).0.number, 22);
}

/// The same with a task that is no rest: 43 over the sum, with the sum's editor filled.
#[test]
fn a_state_of_such_a_flow_that_is_no_rest() {
    let mut sheet = sheet_of(&[[22, i32::MAX, 0, 0], [22, 1, 0, 0], [24, 1, 0, 1], [40, 2, 0, 0]]);
    let right = sheet.filled(5);
    sheet.row(43, 3, right, 0);
    let rows = calls::words_of_rows(&sheet.0);
    let mut state = vec![9; sheet.0.len() * STATE_ROW];
    assert_eq!(calls::start(&rows, &mut state), (0, 1));
    assert!(look(&rows, &state, 0).0.fails);
    state.fill(0);
    state[3 * STATE_ROW..3 * STATE_ROW + 3].copy_from_slice(&[1, 3, 12]);
    state[6 * STATE_ROW] = 1;
    assert_eq!(look(&rows, &state, ENTRY).0.number, 23);
}
