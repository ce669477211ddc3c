//! Fields and operands left blank (CR 2): 0 where the operand is unused, unreadable elsewhere. Events are in
//! `blank_events.rs`.

mod common;

use common::*;
use reference::blank_edges::{self, all_blank, blanked, EVERY_KIND};
use reference::calls::{self, ROW};
use reference::field::{self, Field};
use reference::flow::Flow;
use reference::generate::{self, blanks};
use reference::grounds::Ground;
use reference::kinds::{self, Operand};
use reference::limits::LEAVES;
use reference::random::Random;
use reference::rules::Rules;
use reference::session;
use reference::sheet::{self, Row, COLUMNS, LINE};
use reference::slips::Slip;

const SEED: u64 = 1;

fn loaded(text: &[u8]) -> Result<Vec<Row>, Ground> {
    Flow::load(text, Rules::default()).map(|flow| flow.rows)
}

/// Three answers, and each text has one.
#[test]
fn a_field_tells_blank_from_0() {
    let read = |text: &str| field::read(text.as_bytes(), Slip::None);
    for width in [2, 4, 8, 12] {
        assert_eq!(read(&" ".repeat(width)), Field::Blank);
        assert_eq!(read(&format!("{:>width$}", 0)), Field::Number(0));
        // One byte that is no space, in each column.
        for at in 0..width {
            for byte in ["\t", "\0", "\n", "\u{b}", "\r", "-", "+", "x"] {
                let mut text = " ".repeat(width);
                text.replace_range(at..=at, byte);
                assert_eq!(read(&text), Field::Unreadable, "{text:?}");
            }
        }
    }
    for text in ["12 ", "0 ", " 0 ", "0  ", "- ", "\u{a0}\u{a0}"] {
        assert_eq!(read(text), Field::Unreadable, "{text:?}");
    }
}

/// What is written is a number and reads as it: nothing that is written is blank.
#[test]
fn what_is_written_is_not_blank() {
    for number in [0, 1, -1, 9, 10, i32::MAX, i32::MIN] {
        let mut text = Vec::new();
        field::write(&mut text, number, 12).expect("memory is written");
        assert_eq!(field::read(&text, Slip::None), Field::Number(number));
    }
    // Entries and head lines of sessions with blanks: `read_screens` reads a number in each field.
    for (_, input) in blank_edges::inputs() {
        read_screens(&session::screens(&input, Rules::default()));
    }
}

/// Each operand of each kind: 0's rows where it is unused, 2 where it is used, also where 0 is right.
#[test]
fn each_operand_of_each_kind() {
    let text = sheet::write(&EVERY_KIND);
    let rows = loaded(&text).expect("accepted");
    let mut counts = [0; 2];
    for (kind, used) in USED {
        let at = EVERY_KIND.iter().position(|row| row.kind == kind).expect("every kind");
        let asked = kinds::operands(kind).expect("a kind");
        for place in 1..=3 {
            let is_used = used.contains(&place);
            assert_eq!(asked[place - 1] == Operand::Unused, !is_used, "kind {kind} place {place}");
            let expected = if is_used { Err(Ground::Unreadable) } else { Ok(rows.clone()) };
            assert_eq!(loaded(&blanked(&text, at, &COLUMNS[1 + place])), expected, "kind {kind} place {place}");
            counts[usize::from(is_used)] += 1;
        }
    }
    assert_eq!(counts, [44, 40]);
    // A of 41 names row 0.
    let empty = sheet_of(&[[3, 0, 0, 0], [41, 0, 0, 0]]).text();
    assert_eq!((loads(&empty), loads(&blanked(&empty, 1, &COLUMNS[2]))), (0, 2));
    assert_eq!(loads(&blanked(&empty, 0, &COLUMNS[2])), 0);
}

/// Any set of unused operands blank: the same rows, or the same ground.
#[test]
fn blank_operands_load_as_0() {
    let mut grounds = [0; 8];
    for at in 0..3000 {
        let random = &mut Random::of_case(SEED, at);
        let mut rows = generate::accepted(random);
        if random.chance(50) {
            // Another kind or operand in some row.
            let place = random.below(rows.len());
            match random.below(3) {
                0 => rows[place].kind = random.between(40, 50),
                1 => rows[place].operands[0] = random.between(-1, place as i32),
                _ => rows[place].operands[random.below(3)] = random.word(),
            }
        }
        let text = sheet::write(&rows);
        let mut blank = text.clone();
        for (row, place) in blanks::unused(&rows) {
            if random.chance(50) {
                blank = blanked(&blank, row, &COLUMNS[2 + place]);
            }
        }
        assert_eq!(loaded(&blank), loaded(&text), "{at}");
        assert_eq!(loaded(&all_blank(&rows)), loaded(&text), "{at}");
        grounds[loads(&text) as usize] += 1;
    }
    assert_eq!((grounds[1], grounds[2]), (0, 0));
    assert!(
        grounds[0] > 1500 && grounds[3] > 200 && grounds[4] > 200 && grounds[5] > 30 && grounds[7] > 30,
        "{grounds:?}"
    );
}

/// Row number and kind, in each line; and the line's own kind alone decides.
#[test]
fn blank_row_numbers_and_kinds_are_unreadable() {
    for text in [sheet::write(&EVERY_KIND), all_blank(&EVERY_KIND)] {
        assert_eq!(loads(&text), 0);
        for at in 0..EVERY_KIND.len() {
            assert_eq!(loads(&blanked(&text, at, &COLUMNS[0])), 2, "row number {at}");
            assert_eq!(loads(&blanked(&text, at, &COLUMNS[1])), 2, "kind of row {at}");
            assert_eq!(loads(&blanked(&text, at, &(0..LINE - 1))), 2, "line {at}");
            let mut ended = text.clone();
            ended[LINE * at + LINE - 1] = b' ';
            assert_eq!(loads(&ended), 2, "byte 10 of row {at}");
        }
    }
}

/// A kind not listed: 3, and 2 with an operand blank. A kind that cannot be read: 2.
#[test]
fn operands_of_kinds_not_listed() {
    for kind in (-2..=60).chain([99, 999, -99]) {
        let listed = USED.iter().any(|(of, _)| *of == kind);
        for at in [0, 1] {
            let mut sheet = sheet_of(&[[3, 0, 0, 0], [41, 0, 0, 0]]);
            sheet.0[at].kind = kind;
            let text = sheet.text();
            for columns in &COLUMNS[2..] {
                if !listed {
                    assert_eq!((loads(&text), loads(&blanked(&text, at, columns))), (3, 2), "kind {kind}");
                }
                // The kind of one line says nothing of another.
                assert_eq!(loads(&blanked(&text, 1 - at, &COLUMNS[4])), loads(&text), "kind {kind}");
            }
        }
    }
    for kind in ["x", "03", "+3", "3 ", "-0", "", "\t"] {
        for columns in &COLUMNS[2..] {
            let mut text = sheet_of(&[[3, 0, 0, 0], [41, 0, 0, 0]]).text();
            text[COLUMNS[1].clone()].copy_from_slice(format!("{kind:>4}").as_bytes());
            assert_eq!((loads(&text), loads(&blanked(&text, 0, columns))), (2, 2), "{kind:?}");
        }
    }
}

/// Ground 2 by a blank comes before 3 to 7 of every line, and after 1 and 21.
#[test]
fn a_blank_among_other_grounds() {
    let faults = [
        (3, [[60, 0, 0, 0], [3, 0, 0, 0], [41, 1, 0, 0]]),
        (3, [[3, 0, 0, 1], [3, 0, 0, 0], [41, 1, 0, 0]]),
        (4, [[3, 0, 0, 0], [40, 0, 0, 0], [41, 0, 0, 0]]),
        (5, [[3, 0, 0, 0], [41, 0, 0, 0], [41, 0, 0, 0]]),
        (7, [[3, 0, 0, 0], [23, 0, 0, 0], [40, 1, 0, 0]]),
    ];
    for (number, rows) in faults {
        let text = sheet_of(&rows).text();
        let blank = blanked(&text, 2, &COLUMNS[4]);
        let used = blanked(&text, 2, &COLUMNS[2]);
        assert_eq!((loads(&text), loads(&blank), loads(&used)), (number, number, 2));
        let load = |text: &[u8], room: usize| calls::load(text, &mut vec![7; room]);
        assert_eq!((load(&used, 3 * ROW), load(&used, 3), load(&used[1..], 3 * ROW)), (2, 21, 1));
    }
    // What is loaded has 0 for a blank.
    let mut rows = [7; 2 * ROW];
    let blank = all_blank(&sheet_of(&[[3, 0, 0, 0], [41, 0, 0, 0]]).0);
    assert_eq!((calls::load(&blank, &mut rows), rows), (0, [3, 0, 0, 0, 41, 0, 0, 0]));
}

/// A blank row count is unreadable: 1, with lines behind it and without.
#[test]
fn a_blank_row_count_gets_1() {
    let one = format!("   1   0 0 0{}   0\n", "           0".repeat(LEAVES));
    for lines in [&b""[..], &printed().text()] {
        let input = [b"    \n", lines].concat();
        assert_eq!(String::from_utf8_lossy(&session::screens(&input, Rules::default())), one);
    }
}

/// The edges have blanks: their names are told apart, and the slips on blanks are caught by them alone.
#[test]
fn edges_with_blanks() {
    let inputs = blank_edges::inputs();
    assert_among_edges(&inputs);
    // Where each is taken, every set of blank leaves is.
    for (name, input) in inputs.iter().filter(|(name, _)| name.starts_with("blank leaves taken")) {
        let screens = read_screens(&session::screens(input, Rules::default()));
        assert!(screens.len() > 1 && screens.iter().all(|screen| screen.answer == 0), "{name}");
    }
    let differs = |slip: Slip| {
        inputs.iter().any(|(_, input)| {
            session::screens(input, Rules::slipping(slip)) != session::screens(input, Rules::default())
        })
    };
    let of_blanks = Slip::ALL.iter().filter(|(slip, _)| format!("{slip:?}").starts_with("Blank"));
    let missed: Vec<_> = of_blanks.filter(|(slip, _)| !differs(*slip)).collect();
    assert!(missed.is_empty(), "{missed:?}");
}
