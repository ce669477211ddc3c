//! What 01 itself shows: the printed session, P1 to P12, the Edges.

mod common;

use common::*;
use reference::flow::Flow;
use reference::rules::Rules;
use reference::session;
use reference::sheet;
use reference::state::State;
use reference::value::Value;

/// P1 to P4 are its four answers.
#[test]
fn session_in_full() {
    let input = input(&printed().text(), &[value("", 12), value("", 4), go_on("")]);
    let output = session::screens(&input, Rules::default());
    assert_eq!(String::from_utf8_lossy(&output), PRINTED);
}

#[test]
fn p5_choice_of_two_filled_is_the_left_alone() {
    let mut sheet = numbers();
    let (one, two) = (sheet.filled(1), sheet.filled(2));
    sheet.row(47, one, two, 0);
    let screen = last_screen(&sheet, &[]);
    assert_eq!((screen.leaf(), screen.entries), (Some(1), vec!["0 1 3 0 0 0 0 0 0 0".to_string()]));
}

#[test]
fn p6_choice_of_empty_and_filled_is_the_right_alone() {
    let mut sheet = numbers();
    let (empty, two) = (sheet.empty(), sheet.filled(2));
    sheet.row(47, empty, two, 0);
    let screen = last_screen(&sheet, &[]);
    assert_eq!((screen.leaf(), screen.entries), (Some(2), vec!["0 1 3 0 0 0 0 0 0 0".to_string()]));
}

#[test]
fn p7_both_of_two_fails_is_failing() {
    let mut sheet = numbers();
    let (one, two) = (sheet.fail(), sheet.fail());
    sheet.row(46, one, two, 0);
    let screen = last_screen(&sheet, &[]);
    assert!(screen.failing && screen.entries.is_empty() && screen.value.is_none());
}

#[test]
fn p8_pick_of_filled_and_fail_offers_left_only() {
    let mut sheet = numbers();
    let (filled, fail) = (sheet.filled(1), sheet.fail());
    sheet.row(48, filled, fail, 0);
    assert_eq!(last_screen(&sheet, &[]).entries, ["0 3 0 0 0 0 0 0 0 0"]);
}

#[test]
fn p9_continue_to_fail_is_not_offered() {
    let mut sheet = numbers();
    let (filled, fail) = (sheet.filled(1), sheet.fail());
    sheet.row(44, filled, fail, 0);
    assert_eq!(last_screen(&sheet, &[]).entries, ["0 1 3 0 0 0 0 0 0 0"]);
}

#[test]
fn p10_writes_of_a_step_that_fails_are_dropped() {
    let mut sheet = numbers();
    let cell = sheet.row(10, 0, 7, 0);
    let filled = sheet.filled(1);
    let right = sheet.writing(cell, 3, Sheet::fail);
    sheet.row(43, filled, right, 0);
    let flow = Flow::load(&sheet.text(), Rules::default()).expect("accepted");
    let (state, strides) = State::start(&flow);
    assert_eq!((state.store.read(0), strides), (&Value::Number(7), 1));
}

#[test]
fn p11_strides_to_rest() {
    let mut sheet = numbers();
    let cell = sheet.row(10, 0, 0, 0);
    let shared = sheet.row(42, cell, 0, 0);
    let with = sheet.row(23, 0, 0, 0);
    let guarded = sheet.filled_if(with, 1, 1);
    let waiting = sheet.row(43, shared, guarded, 0);
    let filled = sheet.filled(1);
    let writing = sheet.writing(cell, 1, |sheet| sheet.filled(0));
    let writer = sheet.row(43, filled, writing, 0);
    sheet.row(46, waiting, writer, 0);
    let screen = last_screen(&sheet, &[]);
    assert_eq!((screen.value, screen.strides), (Some(padded(&[1])), 3));
}

/// CR 3: "P12 becomes a filled editor of that sum, which fails".
#[test]
fn p12_a_sum_beyond_the_range_fails() {
    let mut sheet = Sheet::default();
    let (most, one) = (sheet.row(22, i32::MAX, 0, 0), sheet.row(22, 1, 0, 0));
    let sum = sheet.row(24, 1, most, one);
    sheet.row(40, sum, 0, 0);
    let failed = Screen { answer: 0, strides: 1, failing: true, value: None, entries: vec![] };
    assert_eq!(screens(&sheet, &[]), [failed]);
}

/// A filled editor under unused types, `lines` rows in all.
fn long(lines: usize) -> Sheet {
    let mut sheet = Sheet::default();
    for _ in 0..lines - 2 {
        sheet.row(3, 0, 0, 0);
    }
    sheet.filled(5);
    sheet
}

#[test]
fn edge_256_lines_are_read_and_257_get_1() {
    assert_eq!(last_screen(&long(256), &[]).leaf(), Some(5));
    assert_eq!(screens(&long(257), &[]).iter().map(|screen| screen.answer).collect::<Vec<_>>(), [1]);
    assert_eq!(Flow::load(&long(257).text(), Rules::default()).unwrap_err().number(), 1);
}

/// A filled editor under `binders` steps and bindings, of the outermost binder's value.
fn bound(binders: i32) -> Sheet {
    let mut sheet = numbers();
    let outermost = sheet.row(23, binders - 1, 0, 0);
    let mut task = sheet.row(40, outermost, 0, 0);
    for level in 0..binders {
        task = match level % 3 {
            0 => {
                let plain = sheet.row(22, level, 0, 0);
                sheet.row(31, plain, task, 0)
            }
            1 => {
                let filled = sheet.filled(level);
                sheet.row(43, filled, task, 0)
            }
            _ => {
                let filled = sheet.filled(level);
                sheet.row(44, filled, task, 0)
            }
        };
    }
    sheet
}

#[test]
fn edge_16_binders_are_read_and_17_get_6() {
    let touches: Vec<Vec<u8>> = (0..5).map(|_| go_on("")).collect();
    let screens = screens(&bound(16), &touches);
    assert!(screens.iter().all(|screen| screen.answer == 0));
    assert_eq!(screens.last().and_then(Screen::leaf), Some(15));
    assert_eq!(last_screen(&bound(17), &[]).answer, 6);
}

/// An empty editor under `marks` choices and boths.
fn marked(marks: usize) -> Sheet {
    let mut sheet = numbers();
    let mut task = sheet.empty();
    for level in 0..marks {
        let other = sheet.empty();
        let kind = if level % 6 == 5 { 46 } else { 47 };
        task = if level % 2 == 0 { sheet.row(kind, task, other, 0) } else { sheet.row(kind, other, task, 0) };
        if kind == 46 {
            // Back to a number, so that the pair type does not grow.
            let number = sheet.empty();
            task = sheet.row(44, task, number, 0);
        }
    }
    sheet
}

#[test]
fn sixteen_marks_are_read_and_17_get_6() {
    let screen = last_screen(&marked(16), &[]);
    assert_eq!(screen.entries.len(), 17);
    let deepest = screen.entries.iter().map(|entry| entry.split(' ').next().map_or(0, str::len)).max();
    assert_eq!(deepest, Some(16));
    assert_eq!(last_screen(&marked(17), &[]).answer, 6);
}

#[test]
fn edge_a_field_of_2147483648_gets_2() {
    let mut sheet = Sheet::default();
    sheet.filled(i32::MAX);
    assert_eq!(last_screen(&sheet, &[]).leaf(), Some(i32::MAX));
    let text = String::from_utf8(sheet.text()).unwrap().replace("2147483647", "2147483648");
    let output = session::screens(&input(text.as_bytes(), &[]), Rules::default());
    assert_eq!(read_screens(&output)[0].answer, 2);
    let text = text.replace(" 2147483648", "-2147483648");
    let output = session::screens(&input(text.as_bytes(), &[]), Rules::default());
    assert_eq!(read_screens(&output)[0].leaf(), Some(i32::MIN));
}

#[test]
fn edge_empty_text_gets_1() {
    let one = concat!(
        "   1   0 0 0           0           0           0           0",
        "           0           0           0           0   0\n"
    );
    assert_eq!(session::screens(b"", Rules::default()), one.as_bytes());
    assert_eq!(session::screens(b"   0\n", Rules::default()), one.as_bytes());
    assert_eq!(Flow::load(b"", Rules::default()).unwrap_err().number(), 1);
}

/// A row count unreadable, negative, 0, over 256 or not met prints the one line with 1.
#[test]
fn row_counts_that_get_1() {
    let sheet = long(3).text();
    for count in [
        "", "   3", "   3 ", "  3\n\n", "0003\n", "  +3\n", "  3 \n", "  -3\n", "  -0\n", "   0\n", " 257\n", "9999\n",
        "   4\n", "    \n",
    ] {
        let mut input = count.as_bytes().to_vec();
        input.extend_from_slice(&sheet);
        let screens = read_screens(&session::screens(&input, Rules::default()));
        assert_eq!(screens.iter().map(|screen| screen.answer).collect::<Vec<_>>(), [1], "{count:?}");
    }
}

/// Bytes after the counted lines are events, cut every 117 bytes; a short last one answers 8.
#[test]
fn events_are_cut_by_length() {
    let sheet = long(3).text();
    let event = value("", 6);
    let answers = |events: &[u8]| -> Vec<i32> {
        let output = session::screens(&input(&sheet, &[events.to_vec()]), Rules::default());
        read_screens(&output).iter().map(|screen| screen.answer).collect()
    };
    assert_eq!(answers(&event), [0, 0]);
    for short in 1..event.len() {
        assert_eq!(answers(&event[..short]), [0, 8], "{short} bytes");
    }
    assert_eq!(answers(&[&event[..], b"\n"].concat()), [0, 0, 8]);
    assert_eq!(answers(&[b"\n", &event[..]].concat()), [0, 8, 8]);
    // A line of the sheet not counted is read as a short event.
    assert_eq!(answers(&sheet[..sheet::LINE]), [0, 8]);
}
