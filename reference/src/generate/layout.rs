//! Trees to rows: operands lower than the row that names them, in an order that varies.

use super::draft::Drafted;
use crate::random::Random;
use crate::sheet::{Row, LINES};
use crate::syntax::{Code, Going, Plain, Type};

/// The rows of a drafted flow; none if they are too many.
pub fn rows(random: &mut Random, drafted: &Drafted) -> Option<Vec<Row>> {
    let mut layout =
        Layout { repeat: random.chance(30), random, rows: Vec::new(), types: Vec::new(), cells: Vec::new() };
    layout.cells = vec![None; drafted.cells.len()];
    // Cells stand first or where they are first named; what nothing names may stand anywhere.
    if layout.random.chance(50) {
        (0..drafted.cells.len()).for_each(|cell| {
            layout.cell(drafted, cell);
        });
    }
    layout.idle();
    let at = layout.code(drafted, &drafted.code);
    debug_assert_eq!(at as usize + 1, layout.rows.len());
    if layout.random.chance(12) {
        layout.fill();
    }
    (layout.rows.len() <= LINES).then_some(layout.rows)
}

struct Layout<'r> {
    random: &'r mut Random,
    rows: Vec<Row>,
    /// The type rows so far.
    types: Vec<(Type, i32)>,
    /// The row of each cell that has one.
    cells: Vec<Option<i32>>,
    /// Whether types are written again and again.
    repeat: bool,
}

impl Layout<'_> {
    fn row(&mut self, kind: i32, a: i32, b: i32, c: i32) -> i32 {
        self.rows.push(Row::new(kind, a, b, c));
        self.rows.len() as i32 - 1
    }

    /// Types and cells that nothing names.
    fn idle(&mut self) {
        for _ in 0..self.random.below(4) {
            let kind = self.random.between(1, 3);
            let of = self.row(kind, 0, 0, 0);
            match self.random.below(3) {
                0 => drop(self.row(4, of, of, 0)),
                1 if kind > 1 => drop(self.row(10, of, kind - 2, 0)),
                _ => {}
            }
        }
    }

    /// Fills the sheet up to its last line with types that nothing names, in front of all rows.
    fn fill(&mut self) {
        let more = LINES.saturating_sub(self.rows.len());
        for row in &mut self.rows {
            raise(row, more as i32);
        }
        self.rows.splice(0..0, vec![Row::new(self.random.between(1, 3), 0, 0, 0); more]);
    }

    fn type_row(&mut self, of: &Type) -> i32 {
        if !(self.repeat && self.random.chance(50)) {
            if let Some((_, at)) = self.types.iter().find(|(known, _)| known == of) {
                return *at;
            }
        }
        let at = match of {
            Type::Unit => self.row(1, 0, 0, 0),
            Type::Truth => self.row(2, 0, 0, 0),
            Type::Number => self.row(3, 0, 0, 0),
            Type::Pair(parts) => {
                let first = self.type_row(&parts.0);
                let second = self.type_row(&parts.1);
                self.row(4, first, second, 0)
            }
        };
        self.types.push((of.clone(), at));
        at
    }

    fn cell(&mut self, drafted: &Drafted, cell: usize) -> i32 {
        if let Some(at) = self.cells[cell] {
            return at;
        }
        let (of, content) = &drafted.cells[cell];
        let of = self.type_row(of);
        let at = self.row(10, of, *content, 0);
        self.cells[cell] = Some(at);
        at
    }

    /// Two parts, either first.
    fn two(&mut self, first: impl FnOnce(&mut Self) -> i32, second: impl FnOnce(&mut Self) -> i32) -> (i32, i32) {
        if self.random.chance(70) {
            let first = first(self);
            (first, second(self))
        } else {
            let second = second(self);
            (first(self), second)
        }
    }

    fn plain(&mut self, drafted: &Drafted, expression: &Plain) -> i32 {
        match expression {
            Plain::Unit => self.row(20, 0, 0, 0),
            Plain::Truth(truth) => self.row(21, (*truth).into(), 0, 0),
            Plain::Number(number) => self.row(22, *number, 0, 0),
            Plain::Binder(outward) => self.row(23, *outward, 0, 0),
            Plain::Operation(operator, left, right) => {
                let (left, right) = self.two(|rows| rows.plain(drafted, left), |rows| rows.plain(drafted, right));
                self.row(24, operator.number(), left, right)
            }
            Plain::Condition(condition, then, otherwise) => {
                let condition = self.plain(drafted, condition);
                let (then, otherwise) =
                    self.two(|rows| rows.plain(drafted, then), |rows| rows.plain(drafted, otherwise));
                self.row(25, condition, then, otherwise)
            }
            Plain::Pair(first, second) => {
                let (first, second) = self.two(|rows| rows.plain(drafted, first), |rows| rows.plain(drafted, second));
                self.row(26, first, second, 0)
            }
            Plain::First(pair) => {
                let pair = self.plain(drafted, pair);
                self.row(27, pair, 0, 0)
            }
            Plain::Second(pair) => {
                let pair = self.plain(drafted, pair);
                self.row(28, pair, 0, 0)
            }
            Plain::Read(cell) => {
                let cell = self.cell(drafted, *cell);
                self.row(29, cell, 0, 0)
            }
            Plain::Write(cell, content) => {
                let (cell, content) = self.two(|rows| rows.cell(drafted, *cell), |rows| rows.plain(drafted, content));
                self.row(30, cell, content, 0)
            }
            Plain::Bind(bound, body) => {
                let (bound, body) = self.two(|rows| rows.plain(drafted, bound), |rows| rows.plain(drafted, body));
                self.row(31, bound, body, 0)
            }
        }
    }

    fn code(&mut self, drafted: &Drafted, code: &Code) -> i32 {
        match code {
            Code::Filled(content) => {
                let content = self.plain(drafted, content);
                self.row(40, content, 0, 0)
            }
            Code::Empty(of) => {
                let of = self.type_row(of);
                self.row(41, of, 0, 0)
            }
            Code::Shared(cell) => {
                let cell = self.cell(drafted, *cell);
                self.row(42, cell, 0, 0)
            }
            Code::Step(Going::ByItself, left, right) => self.tasks(drafted, 43, left, right),
            Code::Step(Going::AtContinue, left, right) => self.tasks(drafted, 44, left, right),
            Code::Fail(of) => {
                let of = self.type_row(of);
                self.row(45, of, 0, 0)
            }
            Code::Both(left, right) => self.tasks(drafted, 46, left, right),
            Code::Choice(left, right) => self.tasks(drafted, 47, left, right),
            Code::Pick(left, right) => self.tasks(drafted, 48, left, right),
            Code::View(content) => {
                let content = self.plain(drafted, content);
                self.row(49, content, 0, 0)
            }
            Code::Gate(gate, task) => {
                let task = self.code(drafted, task);
                self.row(50, gate.role as i32, task, gate.touches)
            }
            Code::Condition(condition, then, otherwise) => {
                let condition = self.plain(drafted, condition);
                let (then, otherwise) = self.two(|rows| rows.code(drafted, then), |rows| rows.code(drafted, otherwise));
                self.row(25, condition, then, otherwise)
            }
            Code::Bind(bound, body) => {
                let (bound, body) = self.two(|rows| rows.plain(drafted, bound), |rows| rows.code(drafted, body));
                self.row(31, bound, body, 0)
            }
        }
    }

    fn tasks(&mut self, drafted: &Drafted, kind: i32, left: &Code, right: &Code) -> i32 {
        let (left, right) = self.two(|rows| rows.code(drafted, left), |rows| rows.code(drafted, right));
        self.row(kind, left, right, 0)
    }
}

/// Moves the row operands of a row up by `more` rows.
pub fn raise(row: &mut Row, more: i32) {
    let asked: Vec<bool> = row.places().map(|(asked, _)| asked.names_row()).collect();
    for (operand, names) in row.operands.iter_mut().zip(asked) {
        if names {
            *operand += more;
        }
    }
}
