//! Rows to trees. To be asked where grounds 1 to 6 do not hold: operands name lower rows of the
//! sort asked, so each row below the last stands once in the tree.

use crate::operators::Operator;
use crate::roles::{Gate, Role};
use crate::sheet::Row;
use crate::syntax::{Cell, Code, Going, Plain, Type};

/// The types and cells of a sheet, and the reading of its other rows.
pub struct Trees<'r> {
    rows: &'r [Row],
    /// The type of each type row.
    types: Vec<Option<Type>>,
    /// The place among the cells of each cell row.
    cells: Vec<Option<Cell>>,
}

impl<'r> Trees<'r> {
    pub fn new(rows: &'r [Row]) -> Self {
        let mut trees = Trees { rows, types: Vec::with_capacity(rows.len()), cells: Vec::with_capacity(rows.len()) };
        let mut cells = 0..;
        for row in rows {
            let [a, b, _] = row.operands;
            trees.types.push(match row.kind {
                1 => Some(Type::Unit),
                2 => Some(Type::Truth),
                3 => Some(Type::Number),
                4 => Some(Type::pair(trees.type_at(a), trees.type_at(b))),
                _ => None,
            });
            trees.cells.push(if row.kind == 10 { cells.next() } else { None });
        }
        trees
    }

    /// The cells in their rows' order: type and first content.
    pub fn cells(&self) -> impl Iterator<Item = (Type, i32)> + '_ {
        let rows = self.rows.iter().filter(|row| row.kind == 10);
        rows.map(|row| (self.type_at(row.operands[0]), row.operands[1]))
    }

    fn type_at(&self, at: i32) -> Type {
        self.types[at as usize].clone().expect("a type row, by ground 4")
    }

    fn cell_at(&self, at: i32) -> Cell {
        self.cells[at as usize].expect("a cell row, by ground 4")
    }

    /// The plain expression at row `at`.
    pub fn plain(&self, at: i32) -> Plain {
        let row = &self.rows[at as usize];
        let [a, b, c] = row.operands;
        let part = |at: i32| Box::new(self.plain(at));
        match row.kind {
            20 => Plain::Unit,
            21 => Plain::Truth(a == 1),
            22 => Plain::Number(a),
            23 => Plain::Binder(a),
            24 => Plain::Operation(Operator::of_number(a).expect("listed, by ground 3"), part(b), part(c)),
            25 => Plain::Condition(part(a), part(b), part(c)),
            26 => Plain::Pair(part(a), part(b)),
            27 => Plain::First(part(a)),
            28 => Plain::Second(part(a)),
            29 => Plain::Read(self.cell_at(a)),
            30 => Plain::Write(self.cell_at(a), part(b)),
            31 => Plain::Bind(part(a), part(b)),
            kind => unreachable!("kind {kind} is no plain row, by ground 4"),
        }
    }

    /// The task expression at row `at`.
    pub fn code(&self, at: i32) -> Code {
        let row = &self.rows[at as usize];
        let [a, b, c] = row.operands;
        let part = |at: i32| Box::new(self.code(at));
        match row.kind {
            25 => Code::Condition(self.plain(a), part(b), part(c)),
            31 => Code::Bind(self.plain(a), part(b)),
            40 => Code::Filled(self.plain(a)),
            41 => Code::Empty(self.type_at(a)),
            42 => Code::Shared(self.cell_at(a)),
            43 => Code::Step(Going::ByItself, part(a), part(b)),
            44 => Code::Step(Going::AtContinue, part(a), part(b)),
            45 => Code::Fail(self.type_at(a)),
            46 => Code::Both(part(a), part(b)),
            47 => Code::Choice(part(a), part(b)),
            48 => Code::Pick(part(a), part(b)),
            49 => Code::View(self.plain(a)),
            50 => Code::Gate(Gate { role: a as Role, touches: c }, part(b)),
            kind => unreachable!("kind {kind} is no task row, by ground 4"),
        }
    }
}
