//! Two sheets of one flow (CR 5): with the halves of a last row 46 exchanged, and with three choices under a last row 47
//! regrouped.

use super::draft::{Draft, Drafted, Limits};
use super::{blanks, events, layout, rewrite};
use crate::counterparts::mirrored_sheet;
use crate::event::{EVENT, PATH_COLUMNS};
use crate::flow::Flow;
use crate::limits::{ENCLOSING, LEAVES};
use crate::random::Random;
use crate::rules::Rules;
use crate::syntax::{Cell, Code, Going, Plain, Type};
use std::array;

/// The texts of two sheets, and events for the first.
#[derive(Clone, Debug)]
pub struct Sheets {
    pub first: Vec<u8>,
    pub second: Vec<u8>,
    pub events: Vec<u8>,
}

/// A sheet whose last row is 46, and the mirrored one. The first is accepted.
pub fn mirrored(random: &mut Random, writes: bool) -> Sheets {
    loop {
        let drafted = halves(random);
        let drafted = if writes { drafted } else { rewrite::without_writes(&drafted) };
        let Some((first, flow)) = sheet(random, &drafted) else { continue };
        let events = touches(random, &flow);
        return Sheets { second: mirrored_sheet(&first), first, events };
    }
}

/// Two tasks under a 46, of at most 8 leaves together in most drafts; some are about one cell.
fn halves(random: &mut Random) -> Drafted {
    let limits = Limits { marks: ENCLOSING - 1, ..Limits::default() };
    let mut draft = Draft::new(random, limits);
    let cell = if draft.random.chance(75) { Some(draft.number_cell()) } else { None };
    let leaves = 1 + draft.random.below(LEAVES - 1);
    let gating = draft.gating(50);
    let [left, right] = [leaves, LEAVES - leaves].map(|leaves| {
        let half = draft.half(leaves, cell);
        draft.gated(gating, half)
    });
    draft.drafted(Code::Both(Box::new(left), Box::new(right)))
}

/// What stands in the place of b in the second sheet.
#[derive(Clone, Copy, Debug, PartialEq, Eq)]
pub enum Order {
    /// a, (b, c): regrouped.
    Kept,
    /// b, (a, c): not the same choice.
    Exchanged,
}

/// A sheet whose last row is 47 over (a, b), c, and one over a, (b, c) with its rows in another order and its cells in other
/// places. Both are accepted.
pub fn regrouped(random: &mut Random, writes: bool, order: Order) -> Sheets {
    loop {
        let [a, b, c] = three(random).map(|drafted| if writes { drafted } else { rewrite::without_writes(&drafted) });
        let cells = a.cells;
        let [a, b, c] = [a.code, b.code, c.code].map(Box::new);
        let [d, e] = match order {
            Order::Kept => [a.clone(), b.clone()],
            Order::Exchanged => [b.clone(), a.clone()],
        };
        let second = Code::Choice(d, Box::new(Code::Choice(e, c.clone())));
        let first = Code::Choice(Box::new(Code::Choice(a, b)), c);
        let Some((first, flow)) = sheet(random, &Drafted { cells: cells.clone(), code: first }) else { continue };
        let second = rewrite::with_cells_moved(random, &Drafted { cells, code: second });
        let Some((second, _)) = sheet(random, &second) else { continue };
        return Sheets { first, second, events: touches(random, &flow) };
    }
}

/// Three tasks of one type over the same cells.
fn three(random: &mut Random) -> [Drafted; 3] {
    let limits = Limits { marks: ENCLOSING - 2, ..Limits::default() };
    let mut draft = Draft::new(random, limits);
    let of = if draft.random.chance(50) { Type::Number } else { draft.even_type() };
    let gating = draft.gating(50);
    let codes: [Code; 3] = array::from_fn(|_| {
        let code = draft.alternative(&of);
        draft.gated(gating, code)
    });
    let cells = draft.cells;
    codes.map(|code| Drafted { cells: cells.clone(), code })
}

/// The text of a flow with its rows in a drawn order, and what it loads to; none where it is refused.
fn sheet(random: &mut Random, drafted: &Drafted) -> Option<(Vec<u8>, Flow)> {
    let rows = layout::rows(random, drafted)?;
    let text = blanks::sheet(random, &rows);
    let flow = Flow::load(&text, Rules::default()).ok()?;
    Some((text, flow))
}

/// Events as sessions have them; in one of five sessions, one of them has a path of 16 marks instead of its own.
fn touches(random: &mut Random, flow: &Flow) -> Vec<u8> {
    let mut events = events(random, flow);
    let whole = events.len() / EVENT;
    if whole > 0 && random.chance(20) {
        let at = random.below(whole) * EVENT;
        events[at..][PATH_COLUMNS].fill_with(|| if random.chance(40) { b'1' } else { b'2' });
    }
    events
}

impl Draft<'_> {
    /// A half of so many leaves at most, or about the cell.
    fn half(&mut self, leaves: usize, cell: Option<Cell>) -> Code {
        // Some shapes need two leaves; what is too wide is drafted again.
        self.limits.leaves = leaves.max(2);
        match cell {
            Some(cell) if self.random.chance(85) => self.about(cell),
            _ if self.random.chance(70) => self.whole(),
            _ => {
                let of = self.even_type();
                let content = self.plain(&of, 6);
                self.holding(content)
            }
        }
    }

    /// A task that changes the cell, one that shows it, or both side by side.
    fn about(&mut self, cell: Cell) -> Code {
        match self.random.below(10) {
            0..=1 => self.changing(cell),
            2..=3 => self.showing(cell),
            _ => self.marked(|draft| {
                let left = draft.changing(cell);
                Code::Both(Box::new(left), Box::new(draft.showing(cell)))
            }),
        }
    }

    /// A task of a number that writes the cell: when it is evaluated, or when it strides.
    fn changing(&mut self, cell: Cell) -> Code {
        match self.random.below(9) {
            0 => self.watcher(cell),
            1..=2 => self.racer(cell),
            3..=4 => self.writer(cell),
            5..=6 => {
                let content = Plain::Number(self.random.between(0, 2));
                self.after_write(cell, content, |draft| draft.constant())
            }
            _ => {
                let content = self.effect(cell, &Type::Number);
                self.holding(content)
            }
        }
    }

    /// A task of a number that tells what the cell holds, or held.
    fn showing(&mut self, cell: Cell) -> Code {
        match self.random.below(8) {
            0..=1 => Code::Shared(cell),
            2..=3 => self.gauge(cell),
            4 => self.holding(Plain::Read(cell)),
            5..=6 => {
                let left = self.asked(cell, &Type::Number);
                Code::Pick(Box::new(left), Box::new(self.asked(cell, &Type::Number)))
            }
            _ => {
                let left = self.editor(&Type::Number);
                let right = self.under(Type::Number, |draft| draft.asked(cell, &Type::Number));
                Code::Step(Going::AtContinue, Box::new(left), Box::new(right))
            }
        }
    }

    /// One of three tasks to choose from. Most have no value at start, so that touches make the choice.
    fn alternative(&mut self, of: &Type) -> Code {
        let fuel = 3 + self.random.below(30);
        match self.random.below(24) {
            0..=1 => self.task(of, fuel),
            2 => self.at_the_end(of, fuel),
            3..=4 => self.deep_marks(of),
            5 => self.deep_binders(of),
            6 => self.deep_left(of),
            7..=9 => Code::Empty(of.clone()),
            10..=12 => {
                let left = self.right_side(of, fuel / 2);
                Code::Pick(Box::new(left), Box::new(self.right_side(of, fuel / 2)))
            }
            13..=14 => Code::Fail(of.clone()),
            15..=17 if *of == Type::Number => {
                let cell = self.number_cell();
                if self.random.chance(50) {
                    self.changing(cell)
                } else {
                    self.showing(cell)
                }
            }
            form => {
                let bound = self.some_type(2);
                let (going, left) = match form {
                    18..=20 => (Going::ByItself, Code::Empty(bound.clone())),
                    _ => (Going::AtContinue, self.task(&bound, fuel / 3)),
                };
                let right = self.under(bound, |draft| draft.right_side(of, fuel / 2));
                Code::Step(going, Box::new(left), Box::new(right))
            }
        }
    }
}
