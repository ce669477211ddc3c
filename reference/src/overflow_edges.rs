//! Sessions with a sum, difference or product at the ends of the range and beyond them (CR 3): in each place where an
//! expression is evaluated as a whole, and in each form in which evaluation comes to the number there.

use crate::event;
use crate::generate::counted;
use crate::sheet::Row;
use crate::value::padded;

/// Rows being added: the type number, and a cell of numbers that starts with 7.
#[derive(Clone, Debug)]
pub struct Rows(pub Vec<Row>);

pub const CELL: i32 = 1;

/// Adds an expression around the row of a number, or around rows that are added in turn, and gives its row.
pub type Form = (&'static str, fn(&mut Rows, i32) -> i32);
pub type Place = (&'static str, fn(&mut Rows, &dyn Fn(&mut Rows) -> i32) -> i32);

/// Operator and operands, within the range and beyond it.
pub const NUMBERS: [[i32; 3]; 30] = [
    [1, i32::MAX, 0],
    [1, i32::MAX, 1],
    [1, 1, i32::MAX],
    [1, i32::MAX, i32::MAX],
    [1, i32::MIN, 0],
    [1, i32::MIN, -1],
    [1, i32::MIN, i32::MAX],
    [1, i32::MIN, i32::MIN],
    [2, i32::MIN, 0],
    [2, i32::MIN, 1],
    [2, i32::MAX, -1],
    [2, -1, i32::MIN],
    [2, 0, i32::MIN],
    [2, i32::MIN, i32::MAX],
    [2, i32::MIN, i32::MIN],
    [3, 46_341, 46_340],
    [3, 46_341, 46_341],
    [3, -46_341, 46_340],
    [3, -46_341, 46_341],
    [3, -65_536, 32_768],
    [3, 65_536, 32_768],
    [3, -65_536, -32_768],
    [3, 65_536, 65_536],
    [3, i32::MIN, 1],
    [3, i32::MIN, -1],
    [3, -1, i32::MIN],
    [3, i32::MIN, 0],
    [3, i32::MAX, -1],
    [3, i32::MIN, i32::MIN],
    [3, i32::MAX, i32::MAX],
];

/// One beyond the range for each of the three operators.
pub const BEYOND: [[i32; 3]; 3] = [[1, i32::MAX, 1], [2, i32::MIN, 1], [3, 46_341, 46_341]];

/// Plain numbers that are not evaluated without the number.
pub const PLAINS: [Form; 18] = [
    ("itself", |_, number| number),
    ("the left of a sum", |rows, number| rows.with(22, 0, |rows, zero| rows.add(24, 1, number, zero))),
    ("the right of a sum", |rows, number| rows.with(22, 0, |rows, zero| rows.add(24, 1, zero, number))),
    ("the left of less", |rows, number| {
        let less = rows.with(22, 0, |rows, zero| rows.add(24, 4, number, zero));
        rows.either(less)
    }),
    ("the right of equal", |rows, number| {
        let equal = rows.with(22, 0, |rows, zero| rows.add(24, 6, zero, number));
        rows.either(equal)
    }),
    ("the second side of and", |rows, number| rows.second_side(7, 0, number)),
    ("the second side of or", |rows, number| rows.second_side(8, 1, number)),
    ("the then of a 25", |rows, number| rows.side(1, number, true)),
    ("the else of a 25", |rows, number| rows.side(0, number, false)),
    ("the first of a pair", |rows, number| rows.part(27, number, true)),
    ("the second of a pair", |rows, number| rows.part(28, number, false)),
    ("the part that is not asked for", |rows, number| rows.part(27, number, false)),
    ("a bound value", |rows, number| rows.with(23, 0, |rows, bound| rows.add(31, number, bound, 0))),
    ("a bound value that is never used", |rows, number| rows.with(22, 5, |rows, five| rows.add(31, number, five, 0))),
    ("the B of a 31", |rows, number| rows.with(22, 5, |rows, five| rows.add(31, five, number, 0))),
    ("a content", |rows, number| {
        let write = rows.add(30, CELL, number, 0);
        rows.with(22, 5, |rows, five| rows.add(31, write, five, 0))
    }),
    ("a content that is overwritten", |rows, number| {
        let (first, second, five) = (rows.add(30, CELL, number, 0), rows.write(6), rows.add(22, 5, 0, 0));
        let then = rows.add(31, second, five, 0);
        rows.add(31, first, then, 0)
    }),
    ("what follows a write", |rows, number| {
        let write = rows.write(3);
        rows.add(31, write, number, 0)
    }),
];

/// Tasks of a number that are not evaluated without the number.
pub const TASKS: [Form; 15] = [
    ("40", |rows, number| rows.add(40, number, 0, 0)),
    ("49", |rows, number| rows.add(49, number, 0, 0)),
    ("A of 43", |rows, number| rows.step(43, number)),
    ("A of 44", |rows, number| rows.step(44, number)),
    ("A of 46", |rows, number| {
        let (filled, empty) = (rows.add(40, number, 0, 0), rows.empty());
        rows.both(filled, empty)
    }),
    ("B of 46", |rows, number| {
        let (filled, empty) = (rows.add(40, number, 0, 0), rows.empty());
        rows.both(empty, filled)
    }),
    ("A of 47", |rows, number| {
        let (filled, empty) = (rows.add(40, number, 0, 0), rows.empty());
        rows.add(47, filled, empty, 0)
    }),
    ("B of 47", |rows, number| {
        let (filled, empty) = (rows.add(40, number, 0, 0), rows.empty());
        rows.add(47, empty, filled, 0)
    }),
    ("the condition of 25", |rows, number| {
        let less = rows.with(22, 0, |rows, zero| rows.add(24, 4, number, zero));
        let (then, otherwise) = (rows.filled(4), rows.filled(5));
        rows.add(25, less, then, otherwise)
    }),
    ("B of 25", |rows, number| {
        let (truth, filled, fail) = (rows.add(21, 1, 0, 0), rows.add(40, number, 0, 0), rows.fail());
        rows.add(25, truth, filled, fail)
    }),
    ("C of 25", |rows, number| {
        let (truth, filled, fail) = (rows.add(21, 0, 0, 0), rows.add(40, number, 0, 0), rows.fail());
        rows.add(25, truth, fail, filled)
    }),
    ("A of 31", |rows, number| {
        let filled = rows.with(23, 0, |rows, bound| rows.add(40, bound, 0, 0));
        rows.add(31, number, filled, 0)
    }),
    ("A of 31 that is never used", |rows, number| {
        let filled = rows.filled(5);
        rows.add(31, number, filled, 0)
    }),
    ("B of 31", |rows, number| {
        let filled = rows.add(40, number, 0, 0);
        rows.with(22, 5, |rows, five| rows.add(31, five, filled, 0))
    }),
    ("B of 31 after a write", |rows, number| {
        let (write, filled) = (rows.write(3), rows.add(40, number, 0, 0));
        rows.add(31, write, filled, 0)
    }),
];

/// Tasks of a number that are evaluated without the number.
pub const IDLE: [Form; 7] = [
    ("the plain side that is not taken", |rows, number| {
        let side = rows.side(0, number, true);
        rows.add(40, side, 0, 0)
    }),
    ("B of 25, not taken", |rows, number| {
        let (truth, filled, other) = (rows.add(21, 0, 0, 0), rows.add(40, number, 0, 0), rows.filled(5));
        rows.add(25, truth, filled, other)
    }),
    ("C of 25, not taken", |rows, number| {
        let (truth, filled, other) = (rows.add(21, 1, 0, 0), rows.add(40, number, 0, 0), rows.filled(5));
        rows.add(25, truth, other, filled)
    }),
    ("B of 43", |rows, number| {
        let (right, five) = (rows.add(40, number, 0, 0), rows.filled(5));
        rows.add(43, five, right, 0)
    }),
    ("B of 44", |rows, number| {
        let (right, five) = (rows.add(40, number, 0, 0), rows.filled(5));
        rows.add(44, five, right, 0)
    }),
    ("A of 48", |rows, number| {
        let (branch, five) = (rows.add(40, number, 0, 0), rows.filled(5));
        rows.add(48, branch, five, 0)
    }),
    ("B of 48", |rows, number| {
        let (branch, five) = (rows.add(40, number, 0, 0), rows.filled(5));
        rows.add(48, five, branch, 0)
    }),
];

/// The places where a task is evaluated as a whole, and some of these in each other.
pub const PLACES: [Place; 11] = [
    ("start", |rows, task| task(rows)),
    ("43", |rows, task| rows.stepping(43, task)),
    ("44", |rows, task| rows.stepping(44, task)),
    ("Left", |rows, task| {
        let (branch, five) = (task(rows), rows.filled(5));
        rows.add(48, branch, five, 0)
    }),
    ("Right", |rows, task| {
        let (branch, five) = (task(rows), rows.filled(5));
        rows.add(48, five, branch, 0)
    }),
    ("Left and Right", |rows, task| {
        let (left, right) = (task(rows), task(rows));
        rows.add(48, left, right, 0)
    }),
    ("43 in a branch", |rows, task| {
        let (branch, fail) = (rows.stepping(43, task), rows.fail());
        rows.add(48, branch, fail, 0)
    }),
    ("44 in a branch", |rows, task| {
        let (branch, fail) = (rows.stepping(44, task), rows.fail());
        rows.add(48, branch, fail, 0)
    }),
    ("a branch in a branch", |rows, task| {
        let (branch, fail, five) = (task(rows), rows.fail(), rows.filled(5));
        let inner = rows.add(48, branch, fail, 0);
        rows.add(48, inner, five, 0)
    }),
    ("a branch in 43", |rows, task| {
        rows.stepping(43, &|rows| {
            let (branch, fail) = (task(rows), rows.fail());
            rows.add(48, branch, fail, 0)
        })
    }),
    ("43 in 43", |rows, task| rows.stepping(43, &|rows| rows.stepping(43, task))),
];

impl Rows {
    pub fn new() -> Self {
        Rows(vec![Row::new(3, 0, 0, 0), Row::new(10, 0, 7, 0)])
    }

    pub fn add(&mut self, kind: i32, a: i32, b: i32, c: i32) -> i32 {
        self.0.push(Row::new(kind, a, b, c));
        self.0.len() as i32 - 1
    }

    /// The operator on two numbers.
    pub fn reckoned(&mut self, [operator, left, right]: [i32; 3]) -> i32 {
        let (left, right) = (self.add(22, left, 0, 0), self.add(22, right, 0, 0));
        self.add(24, operator, left, right)
    }

    /// The task beside the cell's editor, with a Continue that is lit where the cell holds 7.
    pub fn beside_the_cell(&mut self, task: i32) -> i32 {
        let (held, seven) = (self.add(23, 0, 0, 0), self.add(22, 7, 0, 0));
        let (equal, then, otherwise) = (self.add(24, 6, held, seven), self.filled(1), self.fail());
        let (shared, right) = (self.add(42, CELL, 0, 0), self.add(25, equal, then, otherwise));
        let gauge = self.add(44, shared, right, 0);
        self.add(46, task, gauge, 0)
    }

    /// A row of one operand, and what stands around it.
    pub fn with(&mut self, kind: i32, operand: i32, around: impl FnOnce(&mut Self, i32) -> i32) -> i32 {
        let row = self.add(kind, operand, 0, 0);
        around(self, row)
    }

    pub fn filled(&mut self, number: i32) -> i32 {
        self.with(22, number, |rows, number| rows.add(40, number, 0, 0))
    }

    pub fn empty(&mut self) -> i32 {
        self.add(41, 0, 0, 0)
    }

    pub fn fail(&mut self) -> i32 {
        self.add(45, 0, 0, 0)
    }

    /// A write of a number into the cell.
    fn write(&mut self, number: i32) -> i32 {
        self.with(22, number, |rows, number| rows.add(30, CELL, number, 0))
    }

    /// 4 or 5, by a truth.
    fn either(&mut self, truth: i32) -> i32 {
        let (four, five) = (self.add(22, 4, 0, 0), self.add(22, 5, 0, 0));
        self.add(25, truth, four, five)
    }

    /// 4 or 5, by and or or, whose first side decides.
    fn second_side(&mut self, operator: i32, first: i32, number: i32) -> i32 {
        let zero = self.add(22, 0, 0, 0);
        let (first, second) = (self.add(21, first, 0, 0), self.add(24, 5, number, zero));
        let truth = self.add(24, operator, first, second);
        self.either(truth)
    }

    /// A 25 of the number and 5, by this truth.
    fn side(&mut self, truth: i32, number: i32, then: bool) -> i32 {
        let (truth, five) = (self.add(21, truth, 0, 0), self.add(22, 5, 0, 0));
        let (b, c) = if then { (number, five) } else { (five, number) };
        self.add(25, truth, b, c)
    }

    /// A part of the pair of the number and 5.
    fn part(&mut self, kind: i32, number: i32, first: bool) -> i32 {
        let five = self.add(22, 5, 0, 0);
        let (a, b) = if first { (number, five) } else { (five, number) };
        let pair = self.add(26, a, b, 0);
        self.add(kind, pair, 0, 0)
    }

    /// A step from a filled editor of the number to one of the same.
    fn step(&mut self, kind: i32, number: i32) -> i32 {
        let (left, bound) = (self.add(40, number, 0, 0), self.add(23, 0, 0, 0));
        let right = self.add(40, bound, 0, 0);
        self.add(kind, left, right, 0)
    }

    /// A step from 1 to the task.
    fn stepping(&mut self, kind: i32, task: &dyn Fn(&mut Self) -> i32) -> i32 {
        let (right, one) = (task(self), self.filled(1));
        self.add(kind, one, right, 0)
    }

    /// A step from both to a number.
    fn both(&mut self, left: i32, right: i32) -> i32 {
        let (both, five) = (self.add(46, left, right, 0), self.filled(5));
        self.add(44, both, five, 0)
    }
}

impl Default for Rows {
    fn default() -> Self {
        Rows::new()
    }
}

/// The rows of a place with this task in it.
pub fn sheet(place: Place, task: &dyn Fn(&mut Rows) -> i32, beside: bool) -> Vec<Row> {
    let mut rows = Rows::new();
    let whole = place.1(&mut rows, task);
    if beside {
        rows.beside_the_cell(whole);
    }
    rows.0
}

/// Every action at the empty path and behind a mark; the numbers that are sent are small.
pub fn touches() -> Vec<Vec<u8>> {
    let touch = |(path, action)| event::write(path, action, padded(&[i32::from(action == 1)]));
    let paths = ["", "1", "2"];
    paths.into_iter().flat_map(|path| [(path, 2), (path, 3), (path, 4), (path, 1), (path, 2)]).map(touch).collect()
}

/// The inputs, each with its name.
pub fn inputs() -> Vec<(String, Vec<u8>)> {
    let mut inputs = Vec::new();
    let mut add = |name: String, rows: &[Row]| inputs.push((name, [counted(rows), touches().concat()].concat()));
    for place in PLACES {
        for number in NUMBERS {
            let task = |rows: &mut Rows| {
                let number = rows.reckoned(number);
                rows.add(40, number, 0, 0)
            };
            add(format!("{number:?} in {}", place.0), &sheet(place, &task, false));
        }
        for number in BEYOND {
            let forms = PLAINS.map(|plain| (plain, TASKS[0])).into_iter().chain(TASKS.map(|task| (PLAINS[0], task)));
            for (plain, task) in forms.chain(IDLE.map(|task| (PLAINS[0], task))) {
                let build = |rows: &mut Rows| {
                    let number = rows.reckoned(number);
                    let number = plain.1(rows, number);
                    task.1(rows, number)
                };
                add(format!("{number:?} as {} under {} in {}", plain.0, task.0, place.0), &sheet(place, &build, true));
            }
        }
    }
    inputs.push(("43 that waits for a smaller number".into(), waiting()));
    inputs
}

/// 46341 times the number that is entered: 46341 is too large, 46340 is not.
fn waiting() -> Vec<u8> {
    let mut rows = Rows::new();
    let (entered, factor) = (rows.add(23, 0, 0, 0), rows.add(22, 46_341, 0, 0));
    let product = rows.add(24, 3, entered, factor);
    let (shown, empty) = (rows.add(49, product, 0, 0), rows.empty());
    rows.add(43, empty, shown, 0);
    let entered = [46_341, -46_341, i32::MIN, 46_340].map(|number| event::write("", 1, padded(&[number])));
    [counted(&rows.0), entered.concat()].concat()
}
