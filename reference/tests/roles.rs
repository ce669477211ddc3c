//! Kind 50 (CR 6): a task for a role, with so many touches. Which events pass which rows, what they use, and what the others
//! get. Events as bytes and the session's role are in `role_events.rs`, lent memory in `role_memory.rs`.

mod common;

use common::*;
use reference::event::EVENT;
use reference::flow::Flow;
use reference::roles::{Passed, Role, Who};
use reference::rules::Rules;
use reference::session;
use reference::sheet::Row;
use reference::slips::Slip;
use reference::state::State;
use std::fs;

fn flow(sheet: &Sheet) -> Flow {
    Flow::load(&sheet.text(), Rules::default()).expect("accepted")
}

/// What a role may touch: path and action.
fn list(state: &State, role: Role) -> Vec<String> {
    let told = |path: &[u8]| if path.is_empty() { "0".into() } else { String::from_utf8_lossy(path).into_owned() };
    let entries = state.look(role).entries;
    entries.iter().map(|entry| format!("{} {}", told(&entry.path), entry.action.number())).collect()
}

/// The answer.
fn handle(state: &mut State, event: Vec<u8>) -> i32 {
    let before = state.clone();
    let answer = state.handle(&event).map_or_else(|ground| ground.number(), |_| 0);
    assert!(answer == 0 || *state == before, "a refusal leaves the state");
    answer
}

/// The touches left in the rows of kind 50 that are live, in order.
fn left_in(state: &State) -> Vec<i32> {
    state.last_row.task().gates().iter().map(|gate| gate.left).collect()
}

/// `3 0 0 0; 41 0 0 0; 50 2 1 1`.
fn editor(role: i32, touches: i32) -> Sheet {
    let mut sheet = numbers();
    let empty = sheet.empty();
    sheet.gate(role, empty, touches);
    sheet
}

/// The sheet that the request is read by: one touch of role 2.
#[test]
fn one_touch_of_role_2() {
    let flow = flow(&editor(2, 1));
    let (mut state, strides) = State::start(&flow);
    assert_eq!((strides, left_in(&state)), (1, vec![1]));
    assert_eq!([1, 2, 3].map(|role| list(&state, role).len()), [0, 1, 0]);
    assert_eq!(handle(&mut state, by(1, value("", 12))), 30);
    assert_eq!(handle(&mut state, by(2, value("", 12))), 0);
    assert_eq!(left_in(&state), [0]);
    assert_eq!(handle(&mut state, by(2, value("", 13))), 31);
    assert_eq!(handle(&mut state, by(1, value("", 13))), 30);
    // Spent: a value, no entry for anyone, and it does not fail.
    for role in 1..=8 {
        let look = state.look(role);
        assert_eq!((look.entries.len(), look.value.is_some(), look.failing), (0, true, false));
    }
    assert_eq!(state.entries(Who::Anyone).len(), 1);
}

#[test]
fn roles_and_touches_that_are_listed() {
    for role in [-1, 0, 1, 8, 9, i32::MIN, i32::MAX] {
        assert_eq!(loads(&editor(role, 1).text()), if (1..=8).contains(&role) { 0 } else { 3 }, "role {role}");
    }
    for touches in [-1, 0, 1, 99, 100, i32::MIN, i32::MAX] {
        let expected = if (0..=99).contains(&touches) { 0 } else { 3 };
        assert_eq!(loads(&editor(1, touches).text()), expected, "{touches} touches");
    }
    // 3 comes before 4, and B is a lower task row that is named once.
    for (rows, number) in [
        ([[3, 0, 0, 0], [22, 1, 0, 0], [50, 0, 1, 1]], 3),
        ([[3, 0, 0, 0], [22, 1, 0, 0], [50, 1, 1, 1]], 4),
        ([[3, 0, 0, 0], [41, 0, 0, 0], [50, 1, 0, 1]], 4),
        ([[3, 0, 0, 0], [41, 0, 0, 0], [50, 1, 2, 1]], 4),
        ([[41, 1, 0, 0], [3, 0, 0, 0], [50, 1, 0, 1]], 4),
        ([[3, 0, 0, 0], [41, 0, 0, 0], [46, 1, 1, 0]], 5),
    ] {
        assert_eq!(loads(&sheet_of(&rows).text()), number, "{rows:?}");
    }
    // It is no plain row, and of the type of its task.
    assert_eq!(loads(&sheet_of(&[[3, 0, 0, 0], [41, 0, 0, 0], [50, 1, 1, 1], [49, 2, 0, 0]]).text()), 4);
    let choice = |of: i32| {
        let rows = [[3, 0, 0, 0], [2, 0, 0, 0], [41, 0, 0, 0], [50, 1, 2, 1], [41, of, 0, 0], [48, 3, 4, 0]];
        loads(&sheet_of(&rows).text())
    };
    assert_eq!((choice(0), choice(1)), (0, 7));
}

/// 99 touches are 99 touches.
#[test]
fn touches_are_counted_down() {
    for touches in [0, 1, 2, 3, 99] {
        let flow = flow(&editor(3, touches));
        let (mut state, _) = State::start(&flow);
        for used in 0..touches {
            assert_eq!((left_in(&state), list(&state, 3).len()), (vec![touches - used], 1));
            assert_eq!(handle(&mut state, by(3, value("", used))), 0);
        }
        assert_eq!((left_in(&state), list(&state, 3).len()), (vec![0], 0));
        assert_eq!((handle(&mut state, by(3, value("", 7))), handle(&mut state, by(4, value("", 7)))), (31, 30));
    }
}

/// "Demand 3 .. refused by 9 as before, or by 30 or 31": in this order.
#[test]
fn nine_before_30_before_31() {
    let flow = flow(&editor(2, 0));
    let (mut state, _) = State::start(&flow);
    for role in [1, 2] {
        // No rule derives a step, whoever touches: another action, a path, a leaf that is not used.
        for event in [go_on(""), left(""), right(""), value("1", 5), reference::event::write("", 1, padded(&[5, 1]))] {
            assert_eq!(handle(&mut state, by(role, event)), 9);
        }
    }
    assert_eq!((handle(&mut state, by(1, value("", 5))), handle(&mut state, by(2, value("", 5)))), (30, 31));
}

/// A row of role 1 around one of role 2 is legal, and nobody can touch it; with the same role both are used.
#[test]
fn one_in_another() {
    for (outer, inner) in [(1, 2), (2, 1)] {
        let mut sheet = editor(inner, 5);
        sheet.gate(outer, 2, 0);
        let flow = flow(&sheet);
        let (mut state, _) = State::start(&flow);
        for role in 1..=8 {
            assert_eq!((handle(&mut state, by(role, value("", 1))), list(&state, role).len()), (30, 0));
        }
        assert_eq!(state.entries(Who::Anyone).len(), 1);
    }
    let mut sheet = editor(6, 1);
    sheet.gate(6, 2, 3);
    let flow = flow(&sheet);
    let (mut state, _) = State::start(&flow);
    assert_eq!((list(&state, 6).len(), left_in(&state)), (1, vec![3, 1]));
    assert_eq!((handle(&mut state, by(6, value("", 1))), left_in(&state)), (0, vec![2, 0]));
    // The inner one is spent: nothing is listed, and the outer one uses no touch.
    assert_eq!((handle(&mut state, by(6, value("", 2))), left_in(&state), list(&state, 6).len()), (31, vec![2, 0], 0));
    assert_eq!(handle(&mut state, by(1, value("", 2))), 30);
}

/// A 44 in a row of role 1, with a row of role 2 around the editor in its A: Continue passes the outer one alone.
#[test]
fn continue_passes_the_rows_around_its_44() {
    let mut sheet = numbers();
    let empty = sheet.empty();
    let inner = sheet.gate(2, empty, 1);
    let bound = sheet.row(23, 0, 0, 0);
    let right = sheet.row(40, bound, 0, 0);
    let step = sheet.row(44, inner, right, 0);
    sheet.gate(1, step, 3);
    let flow = flow(&sheet);
    let (mut state, _) = State::start(&flow);
    // The editor stands behind both.
    assert_eq!([1, 2, 3].map(|role| handle(&mut state, by(role, value("", 4)))), [30, 30, 30]);
    let mut open = sheet.clone();
    open.0[2].operands[0] = 1;
    let flow = self::flow(&open);
    let (mut state, _) = State::start(&flow);
    assert_eq!((handle(&mut state, value("", 4)), left_in(&state)), (0, vec![2, 0]));
    // The inner one is spent, and Continue is lit.
    assert_eq!((list(&state, 1), list(&state, 2)), (vec!["0 2".to_string()], vec![]));
    assert_eq!((handle(&mut state, by(2, go_on(""))), handle(&mut state, value("", 5))), (30, 31));
    assert_eq!((handle(&mut state, go_on("")), left_in(&state)), (0, vec![1]));
    assert_eq!((handle(&mut state, value("", 6)), left_in(&state), handle(&mut state, value("", 6))), (0, vec![0], 31));
}

/// Left and Right pass the rows around the 48, and not those that a branch begins with; a branch has all its touches.
#[test]
fn picking_passes_the_rows_around_its_48() {
    let mut sheet = numbers();
    let (one, two) = (sheet.filled(1), sheet.empty());
    let (first, second) = (sheet.gate(2, one, 2), sheet.gate(3, two, 0));
    let pick = sheet.row(48, first, second, 0);
    sheet.gate(1, pick, 1);
    let flow = flow(&sheet);
    for (press, left_after) in [(left(""), vec![0, 2]), (right(""), vec![0, 0])] {
        let (mut state, _) = State::start(&flow);
        assert_eq!((list(&state, 1), list(&state, 2)), (vec!["0 3".to_string(), "0 4".to_string()], vec![]));
        assert_eq!(handle(&mut state, by(2, press.clone())), 30);
        assert_eq!((handle(&mut state, press), left_in(&state)), (0, left_after));
        // The outer row is spent and of another role: 30 comes first.
        assert_eq!((handle(&mut state, by(2, value("", 5))), handle(&mut state, value("", 5))), (30, 30));
    }
}

/// A right side that is tried and waits begins with C when it is taken at last.
#[test]
fn a_right_side_begins_with_all_its_touches() {
    for kind in [43, 44] {
        let mut sheet = numbers();
        let empty = sheet.empty();
        let (bound, then) = (sheet.row(23, 0, 0, 0), sheet.row(22, 4, 0, 0));
        let (equal, filled, fail) = (sheet.row(24, 6, bound, then), sheet.filled(40), sheet.fail());
        let gate = sheet.gate(2, filled, 2);
        let right = sheet.row(25, equal, gate, fail);
        sheet.row(kind, empty, right, 0);
        let flow = flow(&sheet);
        let (mut state, _) = State::start(&flow);
        for number in [1, 2, 3] {
            assert_eq!((handle(&mut state, value("", number)), left_in(&state)), (0, vec![]));
        }
        assert_eq!(handle(&mut state, by(5, value("", 4))), 0);
        if kind == 44 {
            assert_eq!((left_in(&state), handle(&mut state, by(7, go_on("")))), (vec![], 0));
        }
        assert_eq!(left_in(&state), [2]);
        assert_eq!([2, 2, 2].map(|role| handle(&mut state, by(role, value("", 9)))), [0, 0, 31]);
    }
}

/// Spent rows in both parts of a 47: nobody can touch it, and it is neither quiet nor failing.
#[test]
fn spent_in_both_parts_of_a_choice() {
    let mut sheet = numbers();
    let (one, two) = (sheet.empty(), sheet.empty());
    let (first, second) = (sheet.gate(1, one, 0), sheet.gate(2, two, 0));
    sheet.row(47, first, second, 0);
    let flow = flow(&sheet);
    let (mut state, _) = State::start(&flow);
    assert_eq!(["1", "2"].map(|path| handle(&mut state, by(1, value(path, 1)))), [31, 30]);
    assert_eq!(["1", "2"].map(|path| handle(&mut state, by(2, value(path, 1)))), [30, 31]);
    for role in 1..=8 {
        let look = state.look(role);
        assert_eq!((look.entries.len(), look.value, look.failing), (0, None, false));
    }
}

/// Two people side by side: each has its own half of the list and its own touches.
#[test]
fn two_roles_side_by_side() {
    let mut sheet = numbers();
    let (one, two) = (sheet.empty(), sheet.empty());
    let (first, second) = (sheet.gate(1, one, 1), sheet.gate(2, two, 2));
    sheet.row(46, first, second, 0);
    let flow = flow(&sheet);
    let (mut state, _) = State::start(&flow);
    assert_eq!([1, 2, 3].map(|role| list(&state, role)), [vec!["1 1".to_string()], vec!["2 1".to_string()], vec![]]);
    assert_eq!((handle(&mut state, by(2, value("2", 5))), left_in(&state)), (0, vec![1, 1]));
    assert_eq!((handle(&mut state, by(1, value("1", 6))), left_in(&state)), (0, vec![0, 1]));
    assert_eq!((list(&state, 1), list(&state, 2)), (vec![], vec!["2 1".to_string()]));
    assert_eq!((handle(&mut state, by(1, value("1", 7))), handle(&mut state, by(2, value("1", 7)))), (31, 30));
    assert_eq!(state.look(1).value.map(|value| value.leaves(Slip::None)), Some(padded(&[6, 5])));
    assert_eq!(state.last_row.task().gates(), [Passed { role: 1, left: 0 }, Passed { role: 2, left: 1 }]);
}

/// The example prints its screens, and its page tells the answers and the touches left; a row that is gone has none.
#[test]
fn the_example() {
    let read = |name: &str| fs::read(format!("../examples/counter-and-customer.{name}")).expect("an example");
    let (input, page) = (read("session"), String::from_utf8(read("md")).expect("text"));
    assert_eq!(session::screens(&input, Rules::default()), read("screens"));
    let mut events = &input[..];
    let flow = session::load(&mut events, Rules::default()).expect("memory").expect("accepted");
    let (mut state, _) = State::start(&flow);
    let mut told = vec![(0, left_in(&state))];
    for event in events.chunks(EVENT) {
        told.push((handle(&mut state, event.to_vec()), left_in(&state)));
    }
    let cells = |line: &str| line.split(" | ").map(str::to_string).collect::<Vec<_>>();
    let lines = page.lines().skip_while(|line| !line.starts_with("| start ")).map(cells);
    let numbers = |cell: &str| {
        let words = cell.split(' ').filter(|word| *word != "-");
        words.map(|word| word.parse().expect("a number")).collect::<Vec<i32>>()
    };
    let page: Vec<(i32, Vec<i32>)> = lines.map(|cells| (numbers(&cells[2])[0], numbers(&cells[5]))).collect();
    assert_eq!(page, told);
}

/// Why the example is drawn so: with one limit of 4 touches around the customer's half, 12, 6 and 7 copies and Order use it up,
/// and Pay is 31 for ever. As it is drawn, a fourth number is 31, Order and Pay go through, and no order uses up the 99.
#[test]
fn the_example_locks_nobody_out() {
    let example = fs::read("../examples/counter-and-customer.session").expect("an example");
    let drawn = session::load(&mut &example[..], Rules::default()).expect("memory").expect("accepted").rows;
    let (copies, half) = (5, 21);
    assert_eq!((drawn[copies], drawn[half]), (Row::new(50, 1, 4, 3), Row::new(50, 1, 20, 99)));
    let mut limited = drawn.clone();
    limited[copies].operands[2] = 99;
    limited[half].operands[2] = 4;
    let copies_of = |number| value("1", number);
    let order = [
        by(2, value("22", 1)),
        copies_of(12),
        copies_of(6),
        copies_of(7),
        copies_of(8),
        go_on("1"),
        go_on("1"),
        go_on("1"),
    ];
    let answers = |rows: Vec<Row>, events: &[Vec<u8>]| answers_after_start(&Sheet(rows).text(), events);
    assert_eq!(answers(drawn.clone(), &order), [0, 0, 0, 0, 31, 0, 0, 9]);
    assert_eq!(last_screen(&Sheet(drawn), &order).value, Some(padded(&[553, 0, 1])));
    let ordered = [&order[..4], &order[5..]].concat();
    assert_eq!(answers(limited, &ordered), [0, 0, 0, 0, 0, 31, 31]);
}
