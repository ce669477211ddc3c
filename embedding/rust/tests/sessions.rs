//! `Flow` and `Rest` in whole sessions (01, "A session in full"), byte for byte against the second implementation.

#[path = "common/screens.rs"]
mod screens;

use nannyjiffy::{Flow, Ground, Rest, Role, EVENT_BYTES, MAX_LEAVES, VALUE_WORDS};
use reference::event::{with_four_leaves, with_role, without_role};
use reference::rules::Rules;
use reference::{compare, leaf_edges, role_edges, session};
use screens::screens;

const SEED: u64 = 2;
const COUNT: u64 = 1000;

#[test]
fn sessions_print_what_the_reference_prints() {
    let (mut sessions, mut events) = (0, 0);
    for (at, case) in compare::cases(SEED, COUNT).iter().enumerate() {
        // Any other row count is the session program's matter.
        if let Some(screens) = screens(&case.input) {
            assert!(screens == case.screens, "seed {SEED}, case {at}");
            (sessions, events) = (sessions + 1, events + case.input.len() / EVENT_BYTES);
        }
    }
    println!("{sessions} sessions");
    assert!(sessions >= COUNT * 9 / 10 && events > 1000);
}

#[test]
fn edges() {
    let line = |row: usize, kind: i32, a: i32| format!("{row:4}{kind:4}{a:12}{:12}{:12}\n", 0, 0);
    // Types in front of an empty editor of the first.
    let sheet =
        |rows: usize| (0..rows).map(|row| line(row, if row + 1 < rows { 3 } else { 41 }, 0)).collect::<String>();
    assert_eq!(Flow::load(sheet(256).as_bytes()).map(|flow| flow.count()), Ok(256));
    assert_eq!(Flow::load(sheet(257).as_bytes()).map(drop), Err(Ground::Length));
    assert_eq!(Flow::load(b"").map(drop), Err(Ground::Length));
    assert_eq!(Flow::load(&[b' '; 44]).map(drop), Err(Ground::Length));
    assert_eq!(Flow::load(&[b' '; 46]).map(drop), Err(Ground::Length));
    let large = format!("{}{}", line(0, 3, 0), line(1, 41, 0).replacen("           0", "  2147483648", 1));
    assert_eq!(Flow::load(large.as_bytes()).map(drop), Err(Ground::Unreadable));
}

/// Unused operands, paths and leaves may be left blank (CR 2).
#[test]
fn blanks() {
    let [number, editor] =
        ["   0   3                                    \n", "   1  41           0                        \n"];
    let flow = Flow::load([number, editor].concat().as_bytes()).expect("accepted");
    assert_eq!(flow.rows(), [3, 0, 0, 0, 41, 0, 0, 0]);
    let missing = [number, &editor.replacen("41           0", "41            ", 1)].concat();
    assert_eq!(Flow::load(missing.as_bytes()).map(drop), Err(Ground::Unreadable));
    let mut rest = Rest::start(&flow);
    let unused = " ".repeat(12 * (MAX_LEAVES - 1));
    let event = |action: &str, leaf: &str| format!("{:2}{:16}{action:>2}{leaf:>12}{unused}\n", 1, "");
    assert_eq!(rest.handle(event("", "12").as_bytes()), Err(Ground::Event));
    assert_eq!(rest.handle(event("1", "").as_bytes()), Err(Ground::Handling));
    assert_eq!(rest.look(Role::FIRST).value, None);
    assert_eq!(rest.handle(event("1", "12").as_bytes()), Ok(()));
    assert_eq!(rest.look(Role::FIRST).value, first_leaf(12));
}

/// A value whose first leaf is this one, and whose others are 0.
fn first_leaf(leaf: i32) -> Option<[i32; VALUE_WORDS]> {
    let mut value = [0; VALUE_WORDS];
    value[0] = leaf;
    Some(value)
}

/// The flow of these rows: kind, A, B, C.
fn flow_of(rows: &[[i32; 4]]) -> Flow {
    let line = |(at, [kind, a, b, c]): (usize, &[i32; 4])| format!("{at:4}{kind:4}{a:12}{b:12}{c:12}\n");
    Flow::load(rows.iter().enumerate().map(line).collect::<String>().as_bytes()).expect("accepted")
}

/// An event of role 1 at the empty path.
fn event(action: u32, leaf: i32) -> Vec<u8> {
    format!("{:2}{:16}{action:2}{leaf:12}{}\n", 1, 0, format!("{:12}", 0).repeat(MAX_LEAVES - 1)).into_bytes()
}

/// A start whose sum leaves the range is accepted, and the flow fails as a whole and stays so (CR 3).
#[test]
fn a_failed_start() {
    let flow = flow_of(&[[22, i32::MAX, 0, 0], [22, 1, 0, 0], [24, 1, 0, 1], [40, 2, 0, 0]]);
    let mut rest = Rest::start(&flow);
    assert_eq!(rest.strides(), 1);
    let is_failed = |rest: &Rest| {
        let (screen, state) = (rest.look(Role::FIRST), rest.state());
        assert_eq!((screen.failing, screen.value, screen.count()), (true, None, 0));
        // Tag 4 in the last row, and nothing else.
        assert_eq!((state[48], state.iter().filter(|&&word| word != 0).count()), (4, 1));
    };
    is_failed(&rest);
    assert_eq!(rest.handle(&event(1, 5)), Err(Ground::Handling));
    is_failed(&rest);
    assert_eq!(rest.handle(b""), Err(Ground::Event));
    is_failed(&rest);
}

/// Twice what is entered, after Continue, which is lit only where that is within the range.
#[test]
fn a_right_side_beyond_the_range() {
    let right = [[23, 0, 0, 0], [22, 2, 0, 0], [24, 3, 2, 3], [49, 4, 0, 0]];
    let flow = flow_of(&[&[[3, 0, 0, 0], [41, 0, 0, 0]], &right[..], &[[44, 1, 5, 0]]].concat());
    let mut rest = Rest::start(&flow);
    assert_eq!(rest.handle(&event(1, 1 << 30)), Ok(()));
    assert_eq!((rest.look(Role::FIRST).count(), rest.handle(&event(2, 0))), (1, Err(Ground::Handling)));
    assert_eq!(rest.handle(&event(1, -(1 << 30))), Ok(()));
    assert_eq!((rest.look(Role::FIRST).count(), rest.handle(&event(2, 0))), (2, Ok(())));
    assert_eq!(rest.look(Role::FIRST).value, first_leaf(i32::MIN));
}

/// Types of eight leaves, of nine, values taken apart and bound, and events of four leaves (CR 4).
#[test]
fn eight_leaves() {
    let mut sessions = 0;
    for (name, input) in leaf_edges::inputs() {
        let printed = screens(&input).expect("a row count that is met");
        assert!(printed == session::screens(&input, Rules::default()), "{name}");
        sessions += 1;
    }
    assert!(sessions > 150, "{sessions}");
    let flow = flow_of(&[[3, 0, 0, 0], [4, 0, 0, 0], [4, 1, 1, 0], [4, 2, 2, 0], [41, 3, 0, 0]]);
    let mut rest = Rest::start(&flow);
    let leaves = [1, -2, 3, -4, 5, -6, 7, i32::MIN];
    let given = reference::event::write("", 1, leaves);
    assert_eq!(rest.handle(&with_four_leaves(&given)), Err(Ground::Event));
    assert_eq!((rest.handle(&given), rest.look(Role::FIRST).value), (Ok(()), Some(leaves)));
    assert_eq!(rest.look(Role::FIRST).entries(), b"               0 1 3 3 3 3 3 3 3 3\n");
    let row = &rest.state()[rest.state().len() - 16..];
    assert_eq!((row[0], &row[2..10], &row[10..]), (2, &leaves[..], &[0; 6][..]));
}

/// Rows of kind 50 in every place, and in which role the session looks (CR 6).
#[test]
fn roles_and_touches() {
    let mut sessions = 0;
    for (name, input) in role_edges::inputs() {
        let printed = screens(&input).expect("a row count that is met");
        assert!(printed == session::screens(&input, Rules::default()), "{name}");
        sessions += 1;
    }
    assert!(sessions > 500, "{sessions}");
    let roles: Vec<u32> = (0..300).filter_map(Role::new).map(Role::number).collect();
    assert_eq!(roles, [1, 2, 3, 4, 5, 6, 7, 8]);
    let flow = flow_of(&[[3, 0, 0, 0], [41, 0, 0, 0], [50, 2, 1, 1]]);
    let mut rest = Rest::start(&flow);
    let by = |role: u32| with_role(&role.to_string(), event(1, 12));
    let count = |rest: &Rest, role: u32| rest.look(Role::new(role).expect("a role")).count();
    assert_eq!((count(&rest, 1), count(&rest, 2)), (0, 1));
    assert_eq!(rest.handle(&by(1)), Err(Ground::Role));
    assert_eq!(rest.handle(&by(2)), Ok(()));
    assert_eq!(rest.handle(&by(2)), Err(Ground::Touches));
    assert_eq!(rest.handle(&by(1)), Err(Ground::Role));
    assert_eq!((rest.handle(&by(9)), rest.handle(&without_role(&by(2)))), (Err(Ground::Event), Err(Ground::Event)));
    let screen = rest.look(Role::FIRST);
    assert_eq!((screen.count(), screen.value, screen.failing), (0, first_leaf(12), false));
    // Tag 1, shape 3, and no touch left.
    assert_eq!(rest.state()[32..36], [1, 3, 0, 0]);
    // A blank, and digits that are no role, are none.
    let said = [" 1", " 8", " 0", " 9", "01", "1 ", "  ", "", "1"].map(|role| Role::of_event(role.as_bytes()));
    assert_eq!(said.map(|role| role.map(Role::number)), [Some(1), Some(8), None, None, None, None, None, None, None]);
}

#[test]
fn grounds_have_their_numbers() {
    let numbers: Vec<u32> = (0..100).filter_map(Ground::of).map(Ground::number).collect();
    assert_eq!(numbers, [1, 2, 3, 4, 5, 6, 7, 8, 9, 20, 21, 22, 23, 24, 30, 31, 32, 33, 34]);
    assert_eq!(Ground::Handling.to_string(), "9: no handling rule derives a step");
}
