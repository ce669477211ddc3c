//! What a flow is drafted from: cells, binders in scope, marks above.

use crate::limits::{ENCLOSING, LEAVES};
use crate::random::Random;
use crate::syntax::{Cell, Code, Type};

/// How far a draft goes. Past 01's own limits, its sheets are near grounds 6 and 7.
#[derive(Clone, Copy, Debug)]
pub struct Limits {
    pub binders: usize,
    pub marks: usize,
    pub leaves: usize,
}

impl Default for Limits {
    fn default() -> Self {
        Limits { binders: ENCLOSING, marks: ENCLOSING, leaves: LEAVES }
    }
}

/// A flow as trees, not yet as rows.
#[derive(Clone, Debug)]
pub struct Drafted {
    /// Type and first content of each cell.
    pub cells: Vec<(Type, i32)>,
    pub code: Code,
}

/// A flow being drafted.
pub struct Draft<'r> {
    pub random: &'r mut Random,
    pub limits: Limits,
    pub cells: Vec<(Type, i32)>,
    /// The types of the binders in scope, the nearest last.
    pub scope: Vec<Type>,
    /// The marks above.
    pub marks: usize,
}

impl<'r> Draft<'r> {
    pub fn new(random: &'r mut Random, limits: Limits) -> Self {
        let mut cells = Vec::new();
        for _ in 0..random.below(5) {
            let truth = random.chance(30);
            let content = if truth { random.between(0, 1) } else { random.word() };
            cells.push((if truth { Type::Truth } else { Type::Number }, content));
        }
        Draft { random, limits, cells, scope: Vec::new(), marks: 0 }
    }

    /// A whole flow.
    pub fn flow(mut self) -> Drafted {
        let code = self.whole();
        let gating = self.gating(40);
        let code = self.gated(gating, code);
        self.drafted(code)
    }

    /// The task of a whole flow, free or in one of the shapes.
    pub fn whole(&mut self) -> Code {
        let of = self.even_type();
        let code = match self.random.below(100) {
            0..=9 => {
                let fuel = self.fuel();
                self.task(&of, fuel)
            }
            10..=15 => {
                let fuel = self.fuel();
                self.at_the_end(&of, fuel)
            }
            16..=26 => self.trying(),
            27..=34 => self.racing(),
            35..=39 => self.deep_binders(&of),
            40..=45 => self.deep_marks(&of),
            46..=49 => self.deep_picks(&of),
            50..=53 => self.deep_left(&of),
            54..=66 => self.ordered(),
            _ => self.wide(),
        };
        if self.random.chance(5) {
            self.behind_an_end(code)
        } else {
            code
        }
    }

    /// A flow past one of the limits that this draft goes past, or near it.
    pub fn flow_past(mut self) -> Drafted {
        let own = Limits::default();
        let code = if self.limits.binders > own.binders {
            let of = self.some_type(own.leaves);
            self.deep_binders(&of)
        } else if self.limits.marks > own.marks {
            let of = self.some_type(own.leaves);
            self.deep_marks(&of)
        } else {
            // Pairs of as many leaves as go, as a value or as parts.
            let of = (1..self.limits.leaves).fold(Type::Number, |of, _| Type::pair(of, Type::Truth));
            match self.random.chance(50) {
                true => {
                    let content = self.plain(&of, 12);
                    self.holding(content)
                }
                false => self.nested_marks(&of, self.limits.leaves),
            }
        };
        let gating = self.gating(40);
        let code = self.gated(gating, code);
        self.drafted(code)
    }

    /// The flow of this task.
    pub fn drafted(self, code: Code) -> Drafted {
        Drafted { cells: self.cells, code }
    }

    /// About how many rows a flow shall have.
    fn fuel(&mut self) -> usize {
        match self.random.below(10) {
            0..=1 => 2 + self.random.below(5),
            2..=6 => 6 + self.random.below(40),
            7..=8 => 50 + self.random.below(100),
            _ => 150 + self.random.below(150),
        }
    }

    /// A type of at most `most` leaves, more often of one.
    pub fn some_type(&mut self, most: usize) -> Type {
        let leaves = if self.random.chance(30) { 1 } else { 1 + self.random.below(most) };
        self.type_of(leaves)
    }

    /// A type of one leaf up to as many as go, each number alike.
    pub fn even_type(&mut self) -> Type {
        let leaves = 1 + self.random.below(self.limits.leaves);
        self.type_of(leaves)
    }

    /// The same, half of the time the larger of two: types of few leaves come up as parts of others, too.
    pub fn wide_type(&mut self) -> Type {
        let (one, other) = (self.even_type(), self.even_type());
        if other.leaves() > one.leaves() && self.random.chance(50) {
            other
        } else {
            one
        }
    }

    /// A type of so many leaves.
    fn type_of(&mut self, leaves: usize) -> Type {
        if leaves > 1 {
            let first = 1 + self.random.below(leaves - 1);
            return Type::pair(self.type_of(first), self.type_of(leaves - first));
        }
        match self.random.below(10) {
            0 => Type::Unit,
            1..=3 => Type::Truth,
            _ => Type::Number,
        }
    }

    /// A cell of this type.
    pub fn some_cell(&mut self, of: &Type) -> Option<Cell> {
        let fitting: Vec<Cell> = (0..self.cells.len()).filter(|&cell| self.cells[cell].0 == *of).collect();
        self.random.pick(&fitting).copied()
    }

    /// A binder of this type, counted outward.
    pub fn some_binder(&mut self, of: &Type) -> Option<i32> {
        let outward = self.scope.iter().rev().enumerate().filter(|(_, bound)| *bound == of);
        let fitting: Vec<usize> = outward.map(|(count, _)| count).collect();
        // The nearest more often than others.
        let found = if self.random.chance(40) { fitting.first() } else { self.random.pick(&fitting) };
        found.map(|&count| count as i32)
    }

    pub fn may_bind(&self) -> bool {
        self.scope.len() < self.limits.binders
    }

    pub fn may_mark(&self) -> bool {
        self.marks < self.limits.marks
    }

    /// Drafts under one binder more.
    pub fn under<T>(&mut self, bound: Type, draft: impl FnOnce(&mut Self) -> T) -> T {
        self.scope.push(bound);
        let drafted = draft(self);
        self.scope.pop();
        drafted
    }

    /// Drafts under one mark more.
    pub fn marked<T>(&mut self, draft: impl FnOnce(&mut Self) -> T) -> T {
        self.marks += 1;
        let drafted = draft(self);
        self.marks -= 1;
        drafted
    }

    /// Splits fuel in two, leaving out the row that asks.
    pub fn split(&mut self, fuel: usize) -> (usize, usize) {
        let left = self.random.below(fuel.max(1));
        (left, fuel.saturating_sub(left + 1))
    }
}
