//! The trees of a flow with its cells in other places, without its writes, or without its rows of kind 50.

use super::draft::Drafted;
use crate::random::Random;
use crate::syntax::{Cell, Code, Plain};

/// The flow without a write: what would be written is reckoned and dropped, and there is a unit as before.
pub fn without_writes(drafted: &Drafted) -> Drafted {
    let cells: Vec<Cell> = (0..drafted.cells.len()).collect();
    let rewrite = Rewrite { cells: &cells, writes: false, gates: true };
    Drafted { cells: drafted.cells.clone(), code: rewrite.code(&drafted.code) }
}

/// The task, which has so many cells, with the task of each row of kind 50 in its place.
pub fn without_gates(cells: usize, code: &Code) -> Code {
    let cells: Vec<Cell> = (0..cells).collect();
    Rewrite { cells: &cells, writes: true, gates: false }.code(code)
}

/// The flow with its cells in a drawn order.
pub fn with_cells_moved(random: &mut Random, drafted: &Drafted) -> Drafted {
    let mut order: Vec<Cell> = (0..drafted.cells.len()).collect();
    for at in (1..order.len()).rev() {
        order.swap(at, random.below(at + 1));
    }
    let mut cells = drafted.cells.clone();
    for (cell, &place) in order.iter().enumerate() {
        cells[place] = drafted.cells[cell].clone();
    }
    let rewrite = Rewrite { cells: &order, writes: true, gates: true };
    Drafted { cells, code: rewrite.code(&drafted.code) }
}

struct Rewrite<'r> {
    /// The place of each cell.
    cells: &'r [Cell],
    /// Whether writes stay, and rows of kind 50.
    writes: bool,
    gates: bool,
}

impl Rewrite<'_> {
    fn plain(&self, expression: &Plain) -> Plain {
        let part = |part: &Plain| Box::new(self.plain(part));
        match expression {
            Plain::Unit | Plain::Truth(_) | Plain::Number(_) | Plain::Binder(_) => expression.clone(),
            Plain::Operation(operator, a, b) => Plain::Operation(*operator, part(a), part(b)),
            Plain::Condition(a, b, c) => Plain::Condition(part(a), part(b), part(c)),
            Plain::Pair(a, b) => Plain::Pair(part(a), part(b)),
            Plain::First(a) => Plain::First(part(a)),
            Plain::Second(a) => Plain::Second(part(a)),
            Plain::Read(cell) => Plain::Read(self.cells[*cell]),
            Plain::Write(cell, a) if self.writes => Plain::Write(self.cells[*cell], part(a)),
            Plain::Write(_, a) => Plain::Second(Box::new(Plain::Pair(part(a), Box::new(Plain::Unit)))),
            Plain::Bind(a, b) => Plain::Bind(part(a), part(b)),
        }
    }

    fn code(&self, code: &Code) -> Code {
        let part = |part: &Code| Box::new(self.code(part));
        match code {
            Code::Empty(_) | Code::Fail(_) => code.clone(),
            Code::Filled(a) => Code::Filled(self.plain(a)),
            Code::View(a) => Code::View(self.plain(a)),
            Code::Shared(cell) => Code::Shared(self.cells[*cell]),
            Code::Step(going, a, b) => Code::Step(*going, part(a), part(b)),
            Code::Both(a, b) => Code::Both(part(a), part(b)),
            Code::Choice(a, b) => Code::Choice(part(a), part(b)),
            Code::Pick(a, b) => Code::Pick(part(a), part(b)),
            Code::Gate(gate, a) if self.gates => Code::Gate(*gate, part(a)),
            Code::Gate(_, a) => self.code(a),
            Code::Condition(a, b, c) => Code::Condition(self.plain(a), part(b), part(c)),
            Code::Bind(a, b) => Code::Bind(self.plain(a), part(b)),
        }
    }
}
