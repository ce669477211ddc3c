//! The four calls on lent memory: grounds in 01's order, refusals that change nothing, and the
//! screens of the session.

mod common;

use common::*;
use reference::calls::{self, Looked, ROW};
use reference::event::{self, ENTRY, EVENT, LEAF};
use reference::generate::{self, states};
use reference::limits::LEAVES;
use reference::random::Random;
use reference::roles::{Role, Who, FIRST};
use reference::rules::Rules;
use reference::session;
use reference::sheet::{Row, LINE};
use reference::slips::Slip;
use reference::words::{self, STATE_ROW};

const SEED: u64 = 1;

/// Each call, on copies of what is lent; a refusal must leave the copies as they were. Gives what the
/// call answers and what it leaves.
fn load(text: &[u8], rows: &[i32]) -> (u32, Vec<i32>) {
    let mut after = rows.to_vec();
    let number = calls::load(text, &mut after);
    assert!(number == 0 || after == rows);
    (number, after)
}

fn start(rows: &[i32], state: &[i32]) -> (u32, u32, Vec<i32>) {
    let mut after = state.to_vec();
    let (number, strides) = calls::start(rows, &mut after);
    assert!(number == 0 || (strides == 0 && after == state));
    (number, strides, after)
}

fn look(rows: &[i32], state: &[i32], role: Role, value: &[i32], list: &[u8]) -> (Looked, Vec<i32>, Vec<u8>) {
    let (mut value_after, mut list_after) = (value.to_vec(), list.to_vec());
    let looked = calls::look(rows, state, role, &mut value_after, &mut list_after);
    let refused = Looked { number: looked.number, ..Looked::default() };
    assert!(looked.number == 0 || (looked == refused && value_after == value && list_after == list));
    // Bytes after the filled part keep their content.
    assert_eq!(list_after[looked.bytes..], list[looked.bytes..]);
    (looked, value_after, list_after)
}

fn handle(rows: &[i32], state: &[i32], event: &[u8]) -> (u32, u32, Vec<i32>) {
    let mut after = state.to_vec();
    let (number, strides) = calls::handle(rows, &mut after, event);
    assert!(number == 0 || (strides == 0 && after == state));
    (number, strides, after)
}

/// The screen of a state in a role, as the session prints it. A list of 35 bytes a row is long enough.
fn screen(rows: &[i32], state: &[i32], role: Role, number: u32, strides: u32) -> Vec<u8> {
    let (looked, value, list) = look(rows, state, role, &[9; LEAVES], &vec![b'#'; rows.len() / ROW * ENTRY]);
    assert_eq!(looked.number, 0);
    assert!(looked.valued || value == [0; LEAVES]);
    let leaves: String = value.iter().map(|leaf| format!("{leaf:>LEAF$}")).collect();
    let flags = format!("{:>2}{:>2}", u32::from(looked.fails), u32::from(looked.valued));
    let count = looked.bytes / ENTRY;
    let mut screen = format!("{number:>4}{strides:>4}{flags}{leaves}{count:>4}\n").into_bytes();
    screen.extend_from_slice(&list[..looked.bytes]);
    screen
}

/// A session made of the four calls. Row counts are the session's own matter.
fn screens_by_calls(sheet: &[u8], events: &[u8]) -> Vec<u8> {
    let (number, rows) = load(sheet, &vec![-1; sheet.len() / LINE * ROW]);
    if number != 0 {
        let leaves = format!("{:>LEAF$}", 0).repeat(LEAVES);
        return format!("{number:>4}{:>4}{:>2}{:>2}{leaves}{:>4}\n", 0, 0, 0, 0).into_bytes();
    }
    let (number, strides, mut state) = start(&rows, &vec![-1; rows.len() / ROW * STATE_ROW]);
    assert_eq!(number, 0);
    let mut screens = screen(&rows, &state, FIRST, number, strides);
    for event in events.chunks(EVENT) {
        let (number, strides, after) = handle(&rows, &state, event);
        state = after;
        screens.extend(screen(&rows, &state, session::role_after(event, Slip::None), number, strides));
    }
    screens
}

#[test]
fn calls_print_what_the_session_prints() {
    let mut met = 0;
    for input in generate::cases(SEED, 3000) {
        let count = std::str::from_utf8(&input[..input.len().min(4)]).ok().and_then(|count| count.trim().parse().ok());
        let Some(lines @ 1..=256) = count else { continue };
        let Some((sheet, events)) = input.get(5..).and_then(|rest| rest.split_at_checked(LINE * lines)) else {
            continue;
        };
        if input[..5] != *format!("{lines:>4}\n").as_bytes() {
            continue;
        }
        met += 1;
        let expected = session::screens(&input, Rules::default());
        assert_eq!(String::from_utf8_lossy(&screens_by_calls(sheet, events)), String::from_utf8_lossy(&expected));
    }
    assert!(met > 2800, "{met}");
}

/// A step over an empty editor of a number: rows 0 to 4.
fn waiting() -> Sheet {
    let mut sheet = numbers();
    let empty = sheet.empty();
    let bound = sheet.row(23, 0, 0, 0);
    let filled = sheet.row(40, bound, 0, 0);
    sheet.row(43, empty, filled, 0);
    sheet
}

/// Its rows and the state that it starts in.
fn started() -> (Vec<i32>, Vec<i32>) {
    let rows = calls::words_of_rows(&waiting().0);
    let (number, strides, state) = start(&rows, &[7; 80]);
    assert_eq!((number, strides), (0, 1));
    (rows, state)
}

/// A state of it that is no rest: the editor is filled, and the step has not been taken.
fn unrested() -> Vec<i32> {
    let mut state = started().1;
    state[16..19].copy_from_slice(&[2, 3, 5]);
    state
}

#[test]
fn load_1_then_21_then_2_to_7() {
    let text = waiting().text();
    assert_eq!(load(&text, &[9; 20]), (0, calls::words_of_rows(&waiting().0)));
    for room in [0, 16, 19, 21, 24] {
        assert_eq!(load(&text, &vec![9; room]).0, 21, "{room} words");
        assert_eq!(load(&text[..224], &vec![9; room]).0, 1, "{room} words");
        assert_eq!(load(&[], &vec![9; room]).0, 1, "{room} words");
    }
    // A fault for each of 2 to 7, each in a line of its own or alone.
    let with = |at: usize, row: [i32; 4]| {
        let mut sheet = waiting();
        let [kind, a, b, c] = row;
        sheet.0[at] = Row::new(kind, a, b, c);
        sheet.text()
    };
    let mut unreadable = text.clone();
    unreadable[44] = b' ';
    let deep = {
        let mut sheet = numbers();
        // Types that double up to 16 leaves.
        for at in 0..=LEAVES.ilog2() as i32 {
            sheet.row(4, at, at, 0);
        }
        sheet.empty();
        sheet.text()
    };
    let faults = [
        (2, unreadable),
        (3, with(4, [42, 1, 3, 0])),
        (4, with(4, [43, 1, 2, 0])),
        (5, with(4, [43, 1, 1, 0])),
        (6, deep),
        (7, with(2, [23, 1, 0, 0])),
    ];
    for (number, text) in faults {
        assert_eq!(load(&text, &vec![9; text.len() / LINE * ROW]).0, number);
        assert_eq!(load(&text, &[9; 3]).0, 21, "21 before {number}");
    }
}

/// Rows that no sheet loads to: by length, by a kind, by an operand.
fn bad_rows() -> Vec<Vec<i32>> {
    let (rows, _) = started();
    let mut bad =
        vec![vec![], rows[..3].to_vec(), rows[..19].to_vec(), rows[..16].to_vec(), [&rows[..], &[0]].concat()];
    for (at, word) in
        [(0, 0), (0, 19), (0, -3), (0, i32::MIN), (1, 1), (8, 22 + 10_000), (9, 1), (9, -1), (17, 4), (18, 2)]
    {
        let mut changed = rows.clone();
        changed[at] = word;
        bad.push(changed);
    }
    let types = |lines: usize| [[3, 0, 0, 0].repeat(lines - 1), vec![41, 0, 0, 0]].concat();
    assert_eq!(start(&types(256), &vec![7; 4096]).0, 0);
    bad.push(types(257));
    bad
}

#[test]
fn start_20_then_21() {
    let (rows, state) = started();
    for length in [0, 1, 64, 79, 81, 96] {
        assert_eq!(start(&rows, &vec![7; length]).0, 21);
    }
    for bad in bad_rows() {
        for length in [0, 80, bad.len() * 4] {
            assert_eq!(start(&bad, &vec![7; length]).0, 20, "{bad:?}");
        }
    }
    // What stood in the state memory does not matter.
    assert_eq!(start(&rows, &unrested()), (0, 1, state));
}

/// 20 to 23, then 8 for a role that there is not, then 24.
#[test]
fn look_20_to_23_then_8_24() {
    let (rows, state) = started();
    let in_role = |rows: &[i32], state: &[i32], role: Role, value: usize, list: usize| {
        look(rows, state, role, &vec![7; value], &vec![b'#'; list]).0.number
    };
    let number = |rows: &[i32], state: &[i32], value: usize, list: usize| {
        let number = in_role(rows, state, FIRST, value, list);
        for bad in [0, 9, 10, 256, 257, 1 << 31, Role::MAX] {
            let expected = if matches!(number, 0 | 24) { 8 } else { number };
            assert_eq!(in_role(rows, state, bad, value, list), expected, "role {bad}");
        }
        for other in 2..=8 {
            assert_eq!(in_role(rows, state, other, value, list), number, "role {other}");
        }
        number
    };
    let mut no_state = state.clone();
    no_state[79] = 1;
    let no_rest = unrested();
    let entry = b"               0 1 3 0 0 0 0 0 0 0\n";
    let (looked, value, list) = look(&rows, &state, 8, &[7; LEAVES], &[b'#'; ENTRY + 3]);
    assert_eq!(looked, Looked { number: 0, valued: false, fails: false, bytes: ENTRY });
    assert_eq!((&value[..], &list[..]), (&[0; LEAVES][..], &[&entry[..], b"###"].concat()[..]));
    assert_eq!(number(&rows, &state, LEAVES, ENTRY), 0);
    assert_eq!((number(&rows, &state, LEAVES, ENTRY - 1), number(&rows, &state, LEAVES, 0)), (24, 24));
    // Each of 20 to 24 with those after it.
    for list in [0, ENTRY - 1, ENTRY, 100] {
        assert_eq!(number(&rows, &no_rest, LEAVES, list), 23);
        assert_eq!(number(&rows, &no_state, LEAVES, list), 22);
        for words in [&state, &no_state, &no_rest] {
            for value in [0, LEAVES - 1, LEAVES + 1] {
                assert_eq!(number(&rows, words, value, list), 21);
            }
            assert_eq!(number(&rows, &words[..79], LEAVES, list), 21);
            assert_eq!(number(&rows, &[&words[..], &[0]].concat(), LEAVES, list), 21);
            for bad in bad_rows() {
                for value in [LEAVES - 1, LEAVES] {
                    assert_eq!(number(&bad, words, value, list), 20);
                    assert_eq!(number(&bad, &words[..79], value, list), 20);
                }
            }
        }
    }
}

/// A quiet flow needs no list memory, whether it fails or not.
#[test]
fn look_at_a_quiet_flow() {
    let quiet = |rows: [i32; 8]| {
        let (_, _, state) = start(&rows, &[7; 32]);
        let (looked, value, _) = look(&rows, &state, FIRST, &[7; LEAVES], &[]);
        (looked, value[0])
    };
    let fail = Looked { number: 0, valued: false, fails: true, bytes: 0 };
    let shown = Looked { number: 0, valued: true, fails: false, bytes: 0 };
    assert_eq!(quiet([3, 0, 0, 0, 45, 0, 0, 0]), (fail, 0));
    assert_eq!(quiet([22, 5, 0, 0, 49, 0, 0, 0]), (shown, 5));
}

#[test]
fn handle_20_to_23_then_8_9() {
    let (rows, state) = started();
    let mut no_state = state.clone();
    no_state[0] = 1;
    let (good, refused, unreadable) = (value("", 5), go_on(""), vec![b' '; EVENT]);
    let mut taken = unrested();
    taken[16..19].fill(0);
    taken[48..51].copy_from_slice(&[1, 3, 5]);
    taken[64..67].copy_from_slice(&[2, 3, 5]);
    assert_eq!(handle(&rows, &state, &good), (0, 2, taken));
    assert_eq!(handle(&rows, &state, &refused).0, 9);
    assert_eq!(handle(&rows, &state, &unreadable).0, 8);
    for event in [&good[..], &refused, &unreadable, &good[1..], b""] {
        assert_eq!(handle(&rows, &unrested(), event).0, 23);
        assert_eq!(handle(&rows, &no_state, event).0, 22);
        for words in [&state, &no_state, &unrested()] {
            assert_eq!(handle(&rows, &words[..64], event).0, 21);
            assert_eq!(handle(&rows, &[&words[..], &[0]].concat(), event).0, 21);
            for bad in bad_rows() {
                assert_eq!(handle(&bad, words, event).0, 20);
            }
        }
    }
    assert_eq!(handle(&rows, &state, &[&good[..], b"\n"].concat()).0, 8);
}

/// States that no event need lead to: 23 exactly where normalising changes them; a rest is looked at
/// and handled like any other.
#[test]
fn ground_23_at_any_state() {
    let mut counts = [0; 2];
    for at in 0..1000 {
        let random = &mut Random::of_case(SEED + 2, at);
        let rows = calls::words_of_rows(&generate::accepted(random));
        let flow = calls::flow_of(&rows).expect("accepted");
        let state = states::state(random, &flow);
        let mut after = state.clone();
        let strides = after.normalise();
        let changed = after != state;
        assert_eq!(changed, strides > 1);
        let number = if changed { 23 } else { 0 };
        counts[usize::from(changed)] += 1;
        let list = vec![b'#'; rows.len() / ROW * ENTRY];
        assert_eq!(look(&rows, &words::write(&flow, &state), FIRST, &[7; LEAVES], &list).0.number, number);
        let rest = words::write(&flow, &after);
        assert_eq!(look(&rows, &rest, FIRST, &[7; LEAVES], &list).0.number, 0);
        for entry in &after.entries(Who::Is(FIRST)) {
            let path = String::from_utf8_lossy(&entry.path);
            let event = event::write(&path, entry.action.number(), [0; LEAVES]);
            let (number, strides, moved) = handle(&rows, &rest, &event);
            assert_eq!(number, 0);
            let mut expected = after.clone();
            assert_eq!(expected.handle(&event), Ok(strides as usize));
            assert_eq!(words::write(&flow, &expected), moved);
        }
    }
    assert!(counts.iter().all(|&count| count > 100), "{counts:?}");
}
