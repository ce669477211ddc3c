//! Sessions with blanks (CR 2) in each place: each operand of each kind, kinds not listed, row numbers and
//! kinds, role, path, action and each leaf of events; and fields that are nearly blank.

use crate::event::{self, leaf_columns, ACTION_COLUMNS, LEAF, PATH_COLUMNS, ROLE_COLUMNS};
use crate::generate::blanks::unused;
use crate::generate::with_count;
use crate::limits::LEAVES;
use crate::sheet::{self, Row, COLUMNS, LINE};
use crate::value::padded;
use std::ops::Range;

/// The rows of an accepted sheet that has each of the 28 kinds.
pub const EVERY_KIND: [Row; 33] = [
    Row::new(1, 0, 0, 0),
    Row::new(2, 0, 0, 0),
    Row::new(3, 0, 0, 0),
    Row::new(4, 2, 1, 0),
    Row::new(10, 2, 5, 0),
    // Writes 7 more into the cell; then, if the truth holds, 2, else 3.
    Row::new(22, 7, 0, 0),
    Row::new(29, 4, 0, 0),
    Row::new(24, 1, 5, 6),
    Row::new(30, 4, 7, 0),
    Row::new(22, 1, 0, 0),
    Row::new(21, 1, 0, 0),
    Row::new(26, 9, 10, 0),
    Row::new(28, 11, 0, 0),
    Row::new(22, 2, 0, 0),
    Row::new(20, 0, 0, 0),
    Row::new(26, 13, 14, 0),
    Row::new(27, 15, 0, 0),
    Row::new(22, 3, 0, 0),
    Row::new(25, 12, 16, 17),
    Row::new(31, 8, 18, 0),
    Row::new(40, 19, 0, 0),
    // The first that has a value: a step at Continue to a shown value, or one that goes on by itself.
    Row::new(23, 0, 0, 0),
    Row::new(49, 21, 0, 0),
    Row::new(44, 20, 22, 0),
    Row::new(41, 2, 0, 0),
    Row::new(42, 4, 0, 0),
    Row::new(43, 24, 25, 0),
    Row::new(47, 23, 26, 0),
    // An editor of a pair, or nothing.
    Row::new(41, 3, 0, 0),
    Row::new(45, 3, 0, 0),
    Row::new(48, 28, 29, 0),
    Row::new(46, 27, 30, 0),
    Row::new(50, 1, 31, 99),
];

/// The inputs, each with its name.
pub fn inputs() -> Vec<(String, Vec<u8>)> {
    let mut inputs = operands();
    inputs.extend(unlisted());
    inputs.extend(other_fields());
    inputs.extend(nearly());
    inputs.extend(editors());
    inputs.extend(buttons());
    inputs
}

/// A text with these columns of line `at` blank.
pub fn blanked(text: &[u8], at: usize, columns: &Range<usize>) -> Vec<u8> {
    placed(text, at, columns, &" ".repeat(columns.len()))
}

/// A text with these columns of line `at` replaced.
fn placed(text: &[u8], at: usize, columns: &Range<usize>, with: &str) -> Vec<u8> {
    let mut text = text.to_vec();
    let width = columns.len();
    text[LINE * at..][columns.clone()].copy_from_slice(format!("{with:>width$}").as_bytes());
    text
}

/// A text with every unused operand blank.
pub fn all_blank(rows: &[Row]) -> Vec<u8> {
    unused(rows).fold(sheet::write(rows), |text, (at, place)| blanked(&text, at, &COLUMNS[2 + place]))
}

/// The event with each set of its leaves blank, each with its path as it is and with a blank one.
pub fn each_set_blank(event: &[u8]) -> Vec<Vec<u8>> {
    let mut events = Vec::new();
    for set in 0..1_u32 << LEAVES {
        let mut with = event.to_vec();
        for leaf in (0..LEAVES).filter(|leaf| set >> leaf & 1 == 1) {
            with[leaf_columns(leaf)].fill(b' ');
        }
        events.push(with.clone());
        with[PATH_COLUMNS].fill(b' ');
        events.push(with);
    }
    events
}

/// A session of a sheet of every kind, touched in each of its parts.
fn touched(text: Vec<u8>) -> Vec<u8> {
    let touches = [("11", 1), ("11", 2), ("1", 1), ("2", 3), ("2", 1), ("2", 4), ("", 1)];
    let events = touches.map(|(path, action)| event::write(path, action, padded(&[i32::from(action == 1)])));
    [with_count(text), events.concat()].concat()
}

/// Each operand of each kind blank, and all unused ones.
fn operands() -> Vec<(String, Vec<u8>)> {
    let text = sheet::write(&EVERY_KIND);
    let mut inputs = vec![("every unused operand blank".into(), touched(all_blank(&EVERY_KIND)))];
    for (at, row) in EVERY_KIND.iter().enumerate() {
        for (name, columns) in ["A", "B", "C"].iter().zip(&COLUMNS[2..]) {
            inputs.push((format!("blank {name} of {} in row {at}", row.kind), touched(blanked(&text, at, columns))));
        }
    }
    inputs
}

/// Kinds not listed, or unreadable, in the first and the last line, with each operand blank and with none.
fn unlisted() -> Vec<(String, Vec<u8>)> {
    let mut inputs = Vec::new();
    for kind in ["0", "5", "9", "11", "19", "32", "39", "51", "999", "-1", "x", "03", "", "3 "] {
        for at in [0, EVERY_KIND.len() - 1] {
            let text = placed(&sheet::write(&EVERY_KIND), at, &COLUMNS[1], kind);
            inputs.push((format!("kind {kind:?} in row {at}"), touched(text.clone())));
            for (name, columns) in ["A", "B", "C"].iter().zip(&COLUMNS[2..]) {
                inputs.push((
                    format!("kind {kind:?} with a blank {name} in row {at}"),
                    touched(blanked(&text, at, columns)),
                ));
            }
        }
    }
    inputs
}

/// Row numbers and kinds blank, alone and beside unused operands that are blank; whole lines blank.
fn other_fields() -> Vec<(String, Vec<u8>)> {
    let mut inputs = Vec::new();
    for (beside, text) in [("", sheet::write(&EVERY_KIND)), (" beside blanks", all_blank(&EVERY_KIND))] {
        for at in [0, 1, 20, EVERY_KIND.len() - 1] {
            inputs.push((format!("blank row number {at}{beside}"), touched(blanked(&text, at, &COLUMNS[0]))));
            inputs.push((format!("blank kind in row {at}{beside}"), touched(blanked(&text, at, &COLUMNS[1]))));
            inputs.push((format!("blank line {at}{beside}"), touched(blanked(&text, at, &(0..LINE - 1)))));
        }
    }
    inputs
}

/// An unused operand, and the leaves of an event, with a text that is no blank.
fn nearly() -> Vec<(String, Vec<u8>)> {
    let text = sheet::write(&[Row::new(3, 0, 0, 0), Row::new(41, 0, 0, 0)]);
    let mut texts: Vec<String> = ["\t", "\0", "\n", "0 ", "12 ", "-", "+", "00", "-0"].map(String::from).into();
    // Something in the first column alone.
    texts.extend(["\t", "0", "x"].map(|first| format!("{first:<LEAF$}")));
    let mut inputs = Vec::new();
    for nearly in texts {
        let in_sheet = placed(&text, 1, &COLUMNS[4], &nearly);
        inputs.push((format!("C {nearly:?}"), with_count(in_sheet)));
        let events: Vec<Vec<u8>> = (0..LEAVES)
            .map(|leaf| {
                let mut event = event::write("", 1, padded(&[5]));
                event[leaf_columns(leaf)].copy_from_slice(format!("{nearly:>LEAF$}").as_bytes());
                event
            })
            .collect();
        inputs.push((format!("leaves {nearly:?}"), [with_count(text.clone()), events.concat()].concat()));
    }
    inputs
}

/// The types unit, truth and number, and one of each further number of leaves, each with leaves that fit it.
pub fn each_width() -> Vec<(Row, Vec<i32>)> {
    let fitting = [0, 1, 7];
    let mut types: Vec<(Row, Vec<i32>)> =
        (1..).zip(fitting).map(|(kind, leaf)| (Row::new(kind, 0, 0, 0), vec![leaf])).collect();
    // A basic type by turns, and by turns first and second; before it stood unit.
    let mut before = 0;
    for leaves in 2..=LEAVES {
        let basic = leaves % 3;
        let (inner, leaf) = (&types[before].1[..], &[fitting[basic]][..]);
        types.push(match leaves % 2 {
            0 => (Row::new(4, before as i32, basic as i32, 0), [inner, leaf].concat()),
            _ => (Row::new(4, basic as i32, before as i32, 0), [leaf, inner].concat()),
        });
        before = types.len() - 1;
    }
    types
}

/// Editors of each number of leaves, and of each kind of leaf, with each set of leaves blank, at 0 and at
/// leaves that fit; and with the role blank, and the action.
fn editors() -> Vec<(String, Vec<u8>)> {
    let (types, fitting): (Vec<Row>, Vec<Vec<i32>>) = each_width().into_iter().unzip();
    let mut inputs = Vec::new();
    for (of, fitting) in fitting.iter().enumerate() {
        let mut rows = types.clone();
        rows.push(Row::new(41, of as i32, 0, 0));
        let leaves = padded(fitting);
        let mut events = each_set_blank(&event::write("", 1, [0; LEAVES]));
        events.extend(each_set_blank(&event::write("", 1, leaves)));
        for columns in [ROLE_COLUMNS, ACTION_COLUMNS] {
            let mut blank = event::write("", 1, leaves);
            blank[columns].fill(b' ');
            events.push(blank);
        }
        inputs.push((format!("blank leaves at {fitting:?}"), [with_count(all_blank(&rows)), events.concat()].concat()));
    }
    inputs
}

/// Continue, Left and Right with each set of leaves blank, where each is taken, and at a 46, where none is.
fn buttons() -> Vec<(String, Vec<u8>)> {
    let mut inputs = Vec::new();
    for action in 2..=4 {
        for (part, events) in each_set_blank(&event::write("", action, [0; LEAVES])).chunks(64).enumerate() {
            let taken = with_count(all_blank(&chain(action, events.len())));
            inputs.push((
                format!("blank leaves taken at action {action}, part {part}"),
                [taken, events.concat()].concat(),
            ));
            let refused = with_count(all_blank(&EVERY_KIND));
            inputs.push((
                format!("blank leaves refused at action {action}, part {part}"),
                [refused, events.concat()].concat(),
            ));
        }
    }
    inputs
}

/// Tasks one in another, which take an action as often as there are levels.
fn chain(action: i32, levels: usize) -> Vec<Row> {
    let mut rows = vec![Row::new(22, 4, 0, 0), Row::new(40, 0, 0, 0)];
    for _ in 0..levels {
        let inner = rows.len() as i32 - 1;
        rows.extend([Row::new(22, 6, 0, 0), Row::new(40, inner + 1, 0, 0)]);
        rows.push(match action {
            2 => Row::new(44, inner, inner + 2, 0),
            3 => Row::new(48, inner, inner + 2, 0),
            _ => Row::new(48, inner + 2, inner, 0),
        });
    }
    rows
}
