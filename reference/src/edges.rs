//! Sessions at the edges: 01's own (lines, binders, a field too large, an empty text), and those of
//! row counts, events cut short, marks, depth, shown values, [blanks](crate::blank_edges), [numbers beyond the
//! range](crate::overflow_edges), [leaves](crate::leaf_edges), [roles](crate::role_edges) and [what encloses a
//! row](crate::nesting_edges).

use crate::blank_edges;
use crate::event;
use crate::generate::counted;
use crate::leaf_edges;
use crate::nesting_edges;
use crate::overflow_edges;
use crate::role_edges;
use crate::sheet::{Row, LINES};
use crate::value::padded;

/// Rows being added. Row 0 is the type number.
struct Rows(Vec<Row>);

impl Rows {
    fn new() -> Self {
        Rows(vec![Row::new(3, 0, 0, 0)])
    }

    fn row(&mut self, kind: i32, a: i32, b: i32) -> i32 {
        self.0.push(Row::new(kind, a, b, 0));
        self.0.len() as i32 - 1
    }

    fn filled(&mut self, number: i32) -> i32 {
        let number = self.row(22, number, 0);
        self.row(40, number, 0)
    }

    /// A shown 5, or an empty editor or a fail of type number.
    fn leaf(&mut self, kind: i32) -> i32 {
        let operand = if kind == 49 { self.row(22, 5, 0) } else { 0 };
        self.row(kind, operand, 0)
    }
}

/// The inputs, each with its name.
pub fn inputs() -> Vec<(String, Vec<u8>)> {
    let mut inputs = Vec::new();
    for count in [1, LINES, LINES + 1] {
        inputs.push((format!("{count} lines"), with(&long(count.max(3)), &[value(6)])));
    }
    for count in [16, 17] {
        inputs.push((format!("{count} binders"), with(&bound(count), &vec![press(2); 6])));
        inputs.push((format!("{count} marks"), with(&marked(count), &[value(1)])));
    }
    inputs.extend(fields());
    inputs.extend(counts());
    inputs.extend(short_events());
    inputs.extend(shown());
    inputs.extend(blank_edges::inputs());
    inputs.extend(overflow_edges::inputs());
    inputs.extend(leaf_edges::inputs());
    inputs.extend(role_edges::inputs());
    inputs.extend(nesting_edges::inputs());
    for levels in [1, 2, 16, 64, 126] {
        inputs.push((format!("{levels} choices deep"), with(&picks(levels), &vec![press(3); levels])));
    }
    for levels in [1, 8, 16] {
        inputs.push((format!("{levels} choices under steps"), with(&steps(levels), &vec![press(3); levels])));
    }
    inputs
}

fn with(rows: &[Row], events: &[Vec<u8>]) -> Vec<u8> {
    [counted(rows), events.concat()].concat()
}

fn value(number: i32) -> Vec<u8> {
    event::write("", 1, padded(&[number]))
}

fn press(action: i32) -> Vec<u8> {
    event::write("", action, padded(&[]))
}

/// A filled editor after types that nothing names.
fn long(lines: usize) -> Vec<Row> {
    let mut rows = Rows(vec![Row::new(3, 0, 0, 0); lines - 2]);
    rows.filled(5);
    rows.0
}

/// The outermost of so many binders, each kind of them in turn.
fn bound(binders: i32) -> Vec<Row> {
    let mut rows = Rows::new();
    let outermost = rows.row(23, binders - 1, 0);
    let mut task = rows.row(40, outermost, 0);
    for level in 0..binders {
        let (kind, bound) = match level % 3 {
            0 => (31, rows.row(22, level, 0)),
            1 => (43, rows.filled(level)),
            _ => (44, rows.filled(level)),
        };
        task = rows.row(kind, bound, task);
    }
    rows.0
}

/// An empty editor under so many marks of kind 47.
fn marked(marks: i32) -> Vec<Row> {
    let mut rows = Rows::new();
    let mut task = rows.row(41, 0, 0);
    for level in 0..marks {
        let other = rows.row(41, 0, 0);
        task = if level % 2 == 0 { rows.row(47, task, other) } else { rows.row(47, other, task) };
    }
    rows.0
}

/// External choices one in another, to the left, each beside a fail.
fn picks(levels: usize) -> Vec<Row> {
    let mut rows = Rows::new();
    let mut task = rows.row(41, 0, 0);
    for _ in 0..levels {
        let fail = rows.row(45, 0, 0);
        task = rows.row(48, task, fail);
    }
    rows.0
}

/// External choices one in another, each the right side of an internal step; so many binders.
fn steps(levels: usize) -> Vec<Row> {
    let mut rows = Rows::new();
    let mut task = rows.row(41, 0, 0);
    for level in 0..levels {
        let fail = rows.row(45, 0, 0);
        let pick = rows.row(48, task, fail);
        let filled = rows.filled(level as i32);
        task = rows.row(43, filled, pick);
    }
    rows.0
}

/// Kind 49, the shown value (CR 1): under each kind of task beside an editor, a fail and another, and
/// in every other place, right and wrong. All are touched alike.
fn shown() -> Vec<(String, Vec<u8>)> {
    let touches = [("", 1), ("1", 1), ("2", 1), ("", 2), ("", 3), ("", 4), ("", 2), ("", 1), ("1", 1), ("2", 1)];
    let touches = touches.map(|(path, action)| event::write(path, action, padded(&[i32::from(action == 1)])));
    let mut sheets = Vec::new();
    for kind in [43, 44, 46, 47, 48] {
        for (left, right) in [(41, 49), (49, 41), (45, 49), (49, 45), (49, 49)] {
            let mut rows = Rows::new();
            let (a, b) = (rows.leaf(left), rows.leaf(right));
            rows.row(kind, a, b);
            sheets.push((format!("{kind} of {left} and {right}"), rows.0));
        }
    }
    sheets.extend(SHOWN.iter().map(|(name, rows)| {
        let rows = rows.iter().map(|&[kind, a, b, c]| Row::new(kind, a, b, c)).collect();
        (name.to_string(), rows)
    }));
    sheets.into_iter().map(|(name, rows)| (name, with(&rows, &touches))).collect()
}

const NUMBER: [i32; 4] = [3, 0, 0, 0];
const FIVE: [i32; 4] = [22, 5, 0, 0];
const FAIL: [i32; 4] = [45, 0, 0, 0];

/// Further sheets with a 49, each with its name.
const SHOWN: [(&str, &[[i32; 4]]); 11] = [
    ("49 alone", &[FIVE, [49, 0, 0, 0]]),
    ("49 of a pair", &[FIVE, [21, 1, 0, 0], [26, 0, 1, 0], [49, 2, 0, 0]]),
    ("49 of a binder under 43", &[FIVE, [49, 0, 0, 0], [23, 0, 0, 0], [49, 2, 0, 0], [43, 1, 3, 0]]),
    ("49 under 31", &[FIVE, [23, 0, 0, 0], [49, 1, 0, 0], [31, 0, 2, 0]]),
    ("49 under 25", &[NUMBER, [21, 1, 0, 0], FIVE, [49, 2, 0, 0], FAIL, [25, 1, 3, 4]]),
    ("49 of a read cell", &[NUMBER, [10, 0, 5, 0], [29, 1, 0, 0], [49, 2, 0, 0], [42, 1, 0, 0], [46, 3, 4, 0]]),
    ("48 of a quiet branch", &[NUMBER, FIVE, [49, 1, 0, 0], FAIL, [44, 2, 3, 0], FAIL, [48, 4, 5, 0]]),
    ("49 with a B", &[FIVE, [49, 0, 1, 0]]),
    ("49 with a C", &[FIVE, [49, 0, 0, 1]]),
    ("49 of a task", &[FIVE, [40, 0, 0, 0], [49, 1, 0, 0]]),
    ("kind 51", &[FIVE, [51, 0, 0, 0]]),
];

/// The largest and the least number, and one past each.
fn fields() -> Vec<(String, Vec<u8>)> {
    let text = String::from_utf8(with(&long(3), &[value(1)])).expect("text");
    let placed = |number: &str| text.replacen(&format!("{:>12}", 5), &format!("{number:>12}"), 1).into_bytes();
    let numbers = ["2147483647", "2147483648", "-2147483648", "-2147483649", "-0", "+1", "01", "", "1 "];
    numbers.into_iter().map(|number| (format!("field {number:?}"), placed(number))).collect()
}

/// Row counts, most of them refused, in front of three lines.
fn counts() -> Vec<(String, Vec<u8>)> {
    let lines = &with(&long(3), &[value(1)])[5..];
    let counts = [
        "", " ", "   0\n", "   3", "   3 ", "  3\n\n", "0003\n", "  +3\n", "  3 \n", "  -3\n", "  -0\n", " 257\n",
        "9999\n", "   2\n", "   3\n", "   4\n", " 256\n", "    \n",
    ];
    let joined = counts.into_iter().map(|count| (format!("row count {count:?}"), [count.as_bytes(), lines].concat()));
    let alone = counts.into_iter().map(|count| (format!("row count {count:?} alone"), count.as_bytes().to_vec()));
    joined.chain(alone).collect()
}

/// Each length of a last event and of a sheet, and events out of step.
fn short_events() -> Vec<(String, Vec<u8>)> {
    let sheet = counted(&long(3));
    let event = value(6);
    let mut inputs = Vec::new();
    for length in 0..=event.len() {
        inputs.push((format!("{length} bytes of an event"), [&sheet[..], &event[..length]].concat()));
    }
    for length in 0..sheet.len() {
        inputs.push((format!("{length} bytes of a sheet"), sheet[..length].to_vec()));
    }
    inputs.push(("a byte before an event".into(), [&sheet[..], b"\n", &event].concat()));
    inputs.push(("a byte after an event".into(), [&sheet[..], &event, b"\n"].concat()));
    inputs
}
