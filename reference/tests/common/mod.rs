//! Sheets, touches and screens for the tests.
#![allow(dead_code)]

pub mod pairs;
pub mod tables;

use reference::edges;
use reference::event::{self, ENTRY, LEAF};
use reference::flow::Flow;
use reference::limits::LEAVES;
use reference::rules::Rules;
use reference::session::{self, HEAD, HEAD_COUNT, HEAD_LEAVES};
use reference::sheet::{self, Row};
pub use reference::value::padded;
use reference::value::Leaves;
use std::array;
use std::collections::BTreeSet;

/// The operands that each kind uses, as places: A 1, B 2, C 3.
pub const USED: [(i32, &[usize]); 28] = [
    (1, &[]),
    (2, &[]),
    (3, &[]),
    (4, &[1, 2]),
    (10, &[1, 2]),
    (20, &[]),
    (21, &[1]),
    (22, &[1]),
    (23, &[1]),
    (24, &[1, 2, 3]),
    (25, &[1, 2, 3]),
    (26, &[1, 2]),
    (27, &[1]),
    (28, &[1]),
    (29, &[1]),
    (30, &[1, 2]),
    (31, &[1, 2]),
    (40, &[1]),
    (41, &[1]),
    (42, &[1]),
    (43, &[1, 2]),
    (44, &[1, 2]),
    (45, &[1]),
    (46, &[1, 2]),
    (47, &[1, 2]),
    (48, &[1, 2]),
    (49, &[1]),
    (50, &[1, 2, 3]),
];

/// A sheet being written, row by row.
#[derive(Clone, Default)]
pub struct Sheet(pub Vec<Row>);

impl Sheet {
    /// Adds a row and gives its number.
    pub fn row(&mut self, kind: i32, a: i32, b: i32, c: i32) -> i32 {
        self.0.push(Row::new(kind, a, b, c));
        self.0.len() as i32 - 1
    }

    /// A filled editor of a number.
    pub fn filled(&mut self, number: i32) -> i32 {
        let number = self.row(22, number, 0, 0);
        self.row(40, number, 0, 0)
    }

    /// A shown value, a number (CR 1).
    pub fn shown(&mut self, number: i32) -> i32 {
        let number = self.row(22, number, 0, 0);
        self.row(49, number, 0, 0)
    }

    /// An empty editor of a number. Row 0 must be the type number.
    pub fn empty(&mut self) -> i32 {
        self.row(41, 0, 0, 0)
    }

    /// The fail of type number. Row 0 must be the type number.
    pub fn fail(&mut self) -> i32 {
        self.row(45, 0, 0, 0)
    }

    /// A task for a role, with so many touches (CR 6).
    pub fn gate(&mut self, role: i32, task: i32, touches: i32) -> i32 {
        self.row(50, role, task, touches)
    }

    /// A plain write of a number into `cell`.
    pub fn write(&mut self, cell: i32, number: i32) -> i32 {
        let number = self.row(22, number, 0, 0);
        self.row(30, cell, number, 0)
    }

    /// A task that first writes a number into `cell`; `then` is added after the write's rows.
    pub fn writing(&mut self, cell: i32, number: i32, then: impl FnOnce(&mut Self) -> i32) -> i32 {
        let write = self.write(cell, number);
        let then = then(self);
        self.row(31, write, then, 0)
    }

    /// A filled editor if `left` (a plain row) equals `number`, else fail.
    pub fn filled_if(&mut self, left: i32, number: i32, content: i32) -> i32 {
        let right = self.row(22, number, 0, 0);
        let equal = self.row(24, 6, left, right);
        let filled = self.filled(content);
        let fail = self.fail();
        self.row(25, equal, filled, fail)
    }

    pub fn text(&self) -> Vec<u8> {
        sheet::write(&self.0)
    }
}

/// A sheet that starts with the type number at row 0.
pub fn numbers() -> Sheet {
    let mut sheet = Sheet::default();
    sheet.row(3, 0, 0, 0);
    sheet
}

/// A sheet of these rows: kind, A, B, C.
pub fn sheet_of(rows: &[[i32; 4]]) -> Sheet {
    Sheet(rows.iter().map(|&[kind, a, b, c]| Row::new(kind, a, b, c)).collect())
}

/// The sheet printed in 01.
pub fn printed() -> Sheet {
    sheet_of(&[
        [3, 0, 0, 0],
        [41, 0, 0, 0],
        [23, 0, 0, 0],
        [22, 9, 0, 0],
        [24, 5, 2, 3],
        [23, 0, 0, 0],
        [22, 30, 0, 0],
        [24, 3, 5, 6],
        [40, 7, 0, 0],
        [45, 0, 0, 0],
        [25, 4, 8, 9],
        [43, 1, 10, 0],
    ])
}

/// The screens printed in 01, after start and its three events, in the columns of CR 4: each number stands where it
/// stood, with four leaves and four leaf kinds more.
pub const PRINTED: &str = concat!(
    "   0   1 0 0           0           0           0           0           0           0           0           0   1\n",
    "               0 1 3 0 0 0 0 0 0 0\n",
    "   0   1 0 0           0           0           0           0           0           0           0           0   1\n",
    "               0 1 3 0 0 0 0 0 0 0\n",
    "   0   2 0 1         120           0           0           0           0           0           0           0   1\n",
    "               0 1 3 0 0 0 0 0 0 0\n",
    "   9   0 0 1         120           0           0           0           0           0           0           0   1\n",
    "               0 1 3 0 0 0 0 0 0 0\n",
);

/// What load answers.
pub fn loads(text: &[u8]) -> i32 {
    Flow::load(text, Rules::default()).map_or_else(|ground| ground.number(), |_| 0)
}

pub fn value(path: &str, number: i32) -> Vec<u8> {
    event::write(path, 1, padded(&[number]))
}

pub fn go_on(path: &str) -> Vec<u8> {
    event::write(path, 2, [0; LEAVES])
}

pub fn left(path: &str) -> Vec<u8> {
    event::write(path, 3, [0; LEAVES])
}

pub fn right(path: &str) -> Vec<u8> {
    event::write(path, 4, [0; LEAVES])
}

/// The same event by another role than 1 (CR 6).
pub fn by(role: u32, event: Vec<u8>) -> Vec<u8> {
    event::with_role(&role.to_string(), event)
}

/// A session's input.
pub fn input(sheet: &[u8], events: &[Vec<u8>]) -> Vec<u8> {
    let count = sheet.len() / sheet::LINE;
    let mut input = format!("{count:>4}\n").into_bytes();
    input.extend_from_slice(sheet);
    input.extend(events.iter().flatten());
    input
}

/// These edges are told apart by their names, and are among those that programs are compared on.
pub fn assert_among_edges(inputs: &[(String, Vec<u8>)]) {
    let names: BTreeSet<&String> = inputs.iter().map(|(name, _)| name).collect();
    assert_eq!(names.len(), inputs.len());
    let all = edges::inputs();
    assert!(inputs.iter().all(|input| all.contains(input)));
}

/// A screen, read back from what the session printed.
#[derive(Clone, Debug, PartialEq, Eq)]
pub struct Screen {
    pub answer: i32,
    pub strides: i32,
    pub failing: bool,
    pub value: Option<Leaves>,
    /// Path, action and leaf kinds, one space between.
    pub entries: Vec<String>,
}

impl Screen {
    pub fn leaf(&self) -> Option<i32> {
        self.value.map(|leaves| leaves[0])
    }
}

/// The screens of a session with this sheet and these events.
pub fn screens(sheet: &Sheet, events: &[Vec<u8>]) -> Vec<Screen> {
    read_screens(&session::screens(&input(&sheet.text(), events), Rules::default()))
}

/// The answers of a session after start.
pub fn answers_after_start(sheet: &[u8], events: &[Vec<u8>]) -> Vec<i32> {
    let output = session::screens(&input(sheet, events), Rules::default());
    read_screens(&output).iter().skip(1).map(|screen| screen.answer).collect()
}

/// The last of the screens.
pub fn last_screen(sheet: &Sheet, events: &[Vec<u8>]) -> Screen {
    screens(sheet, events).pop().expect("a session prints a screen")
}

pub fn read_screens(output: &[u8]) -> Vec<Screen> {
    let text = std::str::from_utf8(output).expect("screens are text");
    let mut lines = text.lines();
    let mut screens = Vec::new();
    while let Some(head) = lines.next() {
        assert_eq!(head.len(), HEAD - 1);
        let number = |from: usize, to: usize| head[from..to].trim().parse::<i32>().expect("a number");
        let leaves = array::from_fn(|leaf| number(HEAD_LEAVES + LEAF * leaf, HEAD_LEAVES + LEAF * (leaf + 1)));
        let entries = lines.by_ref().take(number(HEAD_COUNT.start, HEAD_COUNT.end) as usize).map(words).collect();
        let value = (number(10, 12) == 1).then_some(leaves);
        assert!(value.is_some() || leaves == [0; LEAVES]);
        screens.push(Screen {
            answer: number(0, 4),
            strides: number(4, 8),
            failing: number(8, 10) == 1,
            value,
            entries,
        });
    }
    screens
}

fn words(entry: &str) -> String {
    assert_eq!(entry.len(), ENTRY - 1);
    entry.split_whitespace().collect::<Vec<_>>().join(" ")
}
