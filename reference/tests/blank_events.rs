//! Events with fields left blank (CR 2): a blank path is the empty one; a blank leaf is readable, as 0 where
//! no leaf of a value is meant, and meets only leaf kind 0. Sheets are in `blank_sheets.rs`.

mod common;

use common::*;
use reference::blank_edges::{all_blank, each_set_blank, each_width};
use reference::event::{self, leaf_columns, Event, ACTION_COLUMNS, EVENT, PATH_COLUMNS, ROLE_COLUMNS};
use reference::flow::Flow;
use reference::generate::{self, touches};
use reference::limits::LEAVES;
use reference::random::Random;
use reference::roles::Who;
use reference::rules::Rules;
use reference::session;
use reference::sheet::{self, Row};
use reference::slips::Slip;
use reference::state::State;
use std::ops::Range;

const SEED: u64 = 1;

fn with_blank(event: &[u8], columns: Range<usize>) -> Vec<u8> {
    let mut event = event.to_vec();
    event[columns].fill(b' ');
    event
}

/// P1 to P4 with every unused operand, every empty path and every unused leaf blank: 01's screens.
#[test]
fn the_session_of_01_with_blanks() {
    let input = concat!(
        "  12\n",
        "   0   3                                    \n",
        "   1  41           0                        \n",
        "   2  23           0                        \n",
        "   3  22           9                        \n",
        "   4  24           5           2           3\n",
        "   5  23           0                        \n",
        "   6  22          30                        \n",
        "   7  24           3           5           6\n",
        "   8  40           7                        \n",
        "   9  45           0                        \n",
        "  10  25           4           8           9\n",
        "  11  43           1          10            \n",
        " 1                 1          12                                                                                    \n",
        " 1                 1           4                                                                                    \n",
        " 1                 2                                                                                                \n",
    );
    assert!(input.as_bytes()[5..].starts_with(&all_blank(&printed().0)));
    let output = session::screens(input.as_bytes(), Rules::default());
    assert_eq!(String::from_utf8_lossy(&output), PRINTED);
}

/// Blank and 0 are two leaves of an event, and one path.
#[test]
fn events_as_they_are_read() {
    let event = event::write("", 1, [0; LEAVES]);
    let read = |bytes: &[u8]| Event::read(bytes, Slip::None).map(|event| (event.path.to_vec(), event.leaves));
    assert_eq!(read(&event), Some((vec![], [Some(0); LEAVES])));
    assert_eq!(read(&with_blank(&event, PATH_COLUMNS)), Some((vec![], [Some(0); LEAVES])));
    assert_eq!(read(&with_blank(&event, ROLE_COLUMNS)), None);
    for leaf in 0..LEAVES {
        let mut leaves = [Some(0); LEAVES];
        leaves[leaf] = None;
        assert_eq!(read(&with_blank(&event, leaf_columns(leaf))), Some((vec![], leaves)));
    }
}

/// Editors of each leaf kind and each number of leaves, with each set of leaves blank: taken exactly where
/// no leaf of the value is blank; the path may be.
#[test]
fn each_leaf_at_each_editor() {
    let (types, fitting): (Vec<Row>, Vec<Vec<i32>>) = each_width().into_iter().unzip();
    for (of, fitting) in fitting.iter().enumerate() {
        let own = fitting.len();
        let sheet = sheet::write(&[&types[..], &[Row::new(41, of as i32, 0, 0)]].concat());
        for event in each_set_blank(&event::write("", 1, [0; LEAVES])) {
            let is_blank = |leaf: usize| event[leaf_columns(leaf)].iter().all(|&byte| byte == b' ');
            let expected = if (0..own).any(is_blank) { 9 } else { 0 };
            assert_eq!(answers_after_start(&sheet, std::slice::from_ref(&event)), [expected], "{event:?}");
            // A last leaf of -1 fits a number alone; a bad byte 10 is 8.
            let mut unfit = event.clone();
            unfit[leaf_columns(LEAVES - 1)].copy_from_slice(format!("{:>12}", -1).as_bytes());
            let fits = own == LEAVES && !(0..own - 1).any(is_blank);
            assert_eq!(answers_after_start(&sheet, &[unfit]), [if fits { 0 } else { 9 }]);
            let mut unreadable = event.clone();
            unreadable[EVENT - 1] = b' ';
            assert_eq!(answers_after_start(&sheet, &[unreadable]), [8]);
        }
    }
}

/// Unit is met only by 0.
#[test]
fn a_blank_is_no_unit() {
    let sheet = sheet_of(&[[1, 0, 0, 0], [41, 0, 0, 0]]);
    let zero = event::write("", 1, [0; LEAVES]);
    let screens = screens(&sheet, &[with_blank(&zero, leaf_columns(0)), zero]);
    assert_eq!(screens.iter().map(|screen| screen.answer).collect::<Vec<_>>(), [0, 9, 0]);
    assert_eq!((screens[1].value, screens[2].value), (None, Some([0; LEAVES])));
    assert!(screens.iter().all(|screen| screen.entries == ["0 1 1 0 0 0 0 0 0 0"]));
}

/// Continue, Left and Right: a blank leaf is as 0, taken or not; a leaf not 0 beside it is 8.
#[test]
fn each_leaf_at_each_button() {
    for action in 2..=4 {
        let kind = if action == 2 { 44 } else { 48 };
        let taking = sheet_of(&[[22, 1, 0, 0], [40, 0, 0, 0], [22, 2, 0, 0], [40, 2, 0, 0], [kind, 1, 3, 0]]).text();
        let refusing = sheet_of(&[[22, 1, 0, 0], [49, 0, 0, 0]]).text();
        for event in each_set_blank(&event::write("", action, [0; LEAVES])) {
            assert_eq!(answers_after_start(&taking, std::slice::from_ref(&event)), [0]);
            assert_eq!(answers_after_start(&refusing, std::slice::from_ref(&event)), [9]);
            for leaf in 0..LEAVES {
                let mut given = event.clone();
                given[leaf_columns(leaf)].copy_from_slice(format!("{:>12}", 1).as_bytes());
                assert_eq!(answers_after_start(&taking, &[given]), [8]);
            }
        }
    }
}

/// A blank role and a blank action are 8; a blank path is the empty one, and leads nowhere else.
#[test]
fn blank_roles_actions_and_paths() {
    let alone = sheet_of(&[[3, 0, 0, 0], [41, 0, 0, 0]]).text();
    let both = sheet_of(&[[3, 0, 0, 0], [41, 0, 0, 0], [41, 0, 0, 0], [46, 1, 2, 0]]).text();
    let event = value("", 5);
    let without_path = with_blank(&event, PATH_COLUMNS);
    let without_action = with_blank(&event, ACTION_COLUMNS);
    let without_role = with_blank(&event, ROLE_COLUMNS);
    let blank = with_blank(&event, 0..EVENT - 1);
    assert_eq!(
        answers_after_start(&alone, &[event.clone(), without_path.clone(), without_action, without_role, blank]),
        [0, 0, 8, 8, 8]
    );
    assert_eq!(
        answers_after_start(&both, &[event, without_path, with_blank(&value("2", 5), PATH_COLUMNS), value("2", 5)]),
        [9, 9, 9, 0]
    );
}

/// Two events that differ in 0 or blank in the path, or at leaves that no leaf of a value is for, are
/// answered alike, and lead to the same state.
#[test]
fn blank_events_are_handled_as_0() {
    let (mut taken, mut refused) = (0, 0);
    for at in 0..3000 {
        let random = &mut Random::of_case(SEED, at);
        let flow = Flow::of_rows(generate::accepted(random), Rules::default()).expect("accepted");
        let (mut state, _) = State::start(&flow);
        for _ in 0..6 {
            let event = touches::event(random, &state);
            let Some(read) = Event::read(&event, Slip::None) else { continue };
            let entries = state.entries(Who::Anyone);
            let editor = entries.iter().find(|entry| entry.path == read.path && entry.action == read.action);
            let kinds = editor.map_or([0; LEAVES], |entry| entry.kinds);
            let mut other = event.clone();
            if read.path.is_empty() {
                exchange(&mut other[PATH_COLUMNS]);
            }
            (0..LEAVES).filter(|&leaf| kinds[leaf] == 0).for_each(|leaf| exchange(&mut other[leaf_columns(leaf)]));
            let mut after = state.clone();
            let answer = after.handle(&other);
            assert_eq!(answer, state.handle(&event));
            assert_eq!(after, state);
            *(if answer.is_ok() { &mut taken } else { &mut refused }) += 1;
        }
    }
    assert!(taken > 5000 && refused > 3000, "{taken} {refused}");
}

/// Puts 0 where the columns are blank, and a blank where they are 0.
fn exchange(columns: &mut [u8]) {
    let zero = format!("{:>1$}", 0, columns.len()).into_bytes();
    if columns == zero {
        columns.fill(b' ');
    } else if columns.iter().all(|&byte| byte == b' ') {
        columns.copy_from_slice(&zero);
    }
}
