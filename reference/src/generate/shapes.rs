//! Flows in the shapes that slips hide in: races for a cell, deep nestings.

use super::draft::Draft;
use crate::operators::Operator;
use crate::syntax::{Cell, Code, Going, Plain, Type};

impl Draft<'_> {
    /// Parts that race for a cell: they wait for a content and write another.
    pub fn racing(&mut self) -> Code {
        let cell = self.number_cell();
        let parts = 2 + self.random.below(self.limits.leaves - 1);
        self.racers(cell, parts)
    }

    /// A 46 over this many racers.
    fn racers(&mut self, cell: Cell, parts: usize) -> Code {
        if parts == 1 {
            return self.racer(cell);
        }
        let first = 1 + self.random.below(parts - 1);
        self.marked(|draft| {
            let left = draft.racers(cell, first);
            Code::Both(Box::new(left), Box::new(draft.racers(cell, parts - first)))
        })
    }

    /// A part of a race, of type number.
    pub fn racer(&mut self, cell: Cell) -> Code {
        match self.random.below(10) {
            0..=3 => self.watcher(cell),
            4..=6 => self.writer(cell),
            7 => self.marked(|draft| {
                let left = draft.racer(cell);
                Code::Choice(Box::new(left), Box::new(draft.racer(cell)))
            }),
            8 => {
                let left = self.racer(cell);
                let right = self.under(Type::Number, |draft| draft.right_side(&Type::Number, 6));
                Code::Step(Going::AtContinue, Box::new(left), Box::new(right))
            }
            _ => {
                let left = self.watcher(cell);
                Code::Pick(Box::new(left), Box::new(self.writer(cell)))
            }
        }
    }

    /// A step that waits until the cell has some content, and then writes it.
    pub fn watcher(&mut self, cell: Cell) -> Code {
        let operator = *self.random.pick(&Operator::ALL[3..6]).expect("comparisons");
        let waits_for = Plain::Number(self.random.between(-1, 4));
        let right = self.under(Type::Number, |draft| {
            let guard = Plain::Operation(operator, Box::new(Plain::Binder(0)), Box::new(waits_for));
            let next = draft.next_content();
            let done = draft.after_write(cell, next, |draft| draft.task(&Type::Number, 3));
            Code::Condition(guard, Box::new(done), Box::new(Code::Fail(Type::Number)))
        });
        Code::Step(Going::ByItself, Box::new(Code::Shared(cell)), Box::new(right))
    }

    /// A step that writes the cell at once, or a chain of them.
    pub fn writer(&mut self, cell: Cell) -> Code {
        let left = self.constant();
        let right = self.under(Type::Number, |draft| {
            let next = draft.next_content();
            draft.after_write(cell, next, |draft| match draft.random.below(4) {
                0 if draft.scope.len() + 2 < draft.limits.binders => draft.writer(cell),
                1 => Code::Empty(Type::Number),
                2 => Code::Fail(Type::Number),
                _ => draft.constant(),
            })
        });
        Code::Step(Going::ByItself, Box::new(left), Box::new(right))
    }

    /// A small constant, or one more than the nearest number.
    fn next_content(&mut self) -> Plain {
        let constant = Plain::Number(self.random.between(0, 4));
        match self.some_binder(&Type::Number) {
            Some(outward) if self.random.chance(50) => {
                Plain::Operation(Operator::Sum, Box::new(Plain::Binder(outward)), Box::new(Plain::Number(1)))
            }
            _ => constant,
        }
    }

    /// A write into `cell` and then a task.
    pub fn after_write(&mut self, cell: Cell, content: Plain, then: impl FnOnce(&mut Self) -> Code) -> Code {
        let write = Plain::Write(cell, Box::new(content));
        Code::Bind(write, Box::new(self.under(Type::Unit, then)))
    }

    /// A cell of numbers that starts small, made if there is none.
    pub fn number_cell(&mut self) -> Cell {
        let cell = self.some_cell(&Type::Number).unwrap_or_else(|| {
            self.cells.push((Type::Number, 0));
            self.cells.len() - 1
        });
        self.cells[cell].1 = self.random.between(0, 2);
        cell
    }

    /// Binders up to the limit, or near it.
    pub fn deep_binders(&mut self, of: &Type) -> Code {
        let short = if self.random.chance(70) { 0 } else { self.random.below(6) };
        let steps_only = self.random.chance(25);
        self.nested_binders(of, self.limits.binders.saturating_sub(short), steps_only)
    }

    /// Bindings and steps over each other, or a chain of internal steps only.
    fn nested_binders(&mut self, of: &Type, levels: usize, steps_only: bool) -> Code {
        if levels == 0 {
            let content = self.plain(of, 5);
            return self.holding(content);
        }
        let form = if steps_only { 5 } else { self.random.below(10) };
        if form < 4 {
            let (bound, bound_type) = self.bound(2);
            return Code::Bind(
                bound,
                Box::new(self.under(bound_type, |draft| draft.nested_binders(of, levels - 1, steps_only))),
            );
        }
        let bound = self.some_type(1);
        let going = if form < 8 { Going::ByItself } else { Going::AtContinue };
        let content = self.plain(&bound, 2);
        let left = self.holding(content);
        let right = self.under(bound, |draft| draft.nested_binders(of, levels - 1, steps_only));
        let step = Code::Step(going, Box::new(left), Box::new(right));
        if form == 7 {
            let other = self.editor(of);
            return Code::Pick(Box::new(step), Box::new(other));
        }
        step
    }

    /// Marks up to the limit, or near it, over tasks without a value.
    pub fn deep_marks(&mut self, of: &Type) -> Code {
        let short = if self.random.chance(60) { 0 } else { self.random.below(7) };
        self.nested_marks(of, self.limits.marks.saturating_sub(short))
    }

    pub fn nested_marks(&mut self, of: &Type, levels: usize) -> Code {
        if levels == 0 {
            return Code::Empty(of.clone());
        }
        if self.random.chance(15) && self.may_bind() {
            // A step to another type, so that pairs can stand below.
            let bound = self.some_type(self.limits.leaves);
            let left = self.nested_marks(&bound, levels);
            let right = self.under(bound, |draft| draft.right_side(of, 2));
            return Code::Step(Going::AtContinue, Box::new(left), Box::new(right));
        }
        self.marked(|draft| {
            let (first, second) = match of {
                Type::Pair(parts) => (parts.0.clone(), parts.1.clone()),
                _ => (of.clone(), of.clone()),
            };
            let (left, right) = if draft.random.chance(50) {
                let other = Code::Empty(second);
                (draft.nested_marks(&first, levels - 1), other)
            } else {
                (Code::Empty(first), draft.nested_marks(&second, levels - 1))
            };
            match of {
                Type::Pair(_) => Code::Both(Box::new(left), Box::new(right)),
                _ => Code::Choice(Box::new(left), Box::new(right)),
            }
        })
    }

    /// External choices in each other, some over steps.
    pub fn deep_picks(&mut self, of: &Type) -> Code {
        let levels = 5 + self.random.below(30);
        let steps = self.random.below(9);
        self.nested_picks(of, levels, steps)
    }

    fn nested_picks(&mut self, of: &Type, levels: usize, steps: usize) -> Code {
        if levels == 0 {
            return self.editor(of);
        }
        if steps > 0 && self.may_bind() && self.random.chance(40) {
            let left = self.constant();
            let right = self.under(Type::Number, |draft| draft.nested_picks(of, levels - 1, steps - 1));
            return Code::Step(Going::ByItself, Box::new(left), Box::new(right));
        }
        let other = if self.random.chance(40) { Code::Fail(of.clone()) } else { self.editor(of) };
        let deeper = self.nested_picks(of, levels - 1, steps);
        if self.random.chance(50) {
            Code::Pick(Box::new(other), Box::new(deeper))
        } else {
            Code::Pick(Box::new(deeper), Box::new(other))
        }
    }

    /// Steps nested in their left sides, more than binders may nest; right sides that are chains
    /// of steps make for many strides.
    pub fn deep_left(&mut self, of: &Type) -> Code {
        let most_steps = self.random.below(5);
        let mut bound = self.some_type(2);
        let mut task = self.editor(&bound);
        for level in (0..10 + self.random.below(25)).rev() {
            let next = if level == 0 { of.clone() } else { self.some_type(2) };
            let by_itself = most_steps > 0 || self.random.chance(50);
            let steps = self.random.below(most_steps + 1);
            let right = self.under(bound, |draft| draft.nested_binders(&next, steps, true));
            let going = if by_itself { Going::ByItself } else { Going::AtContinue };
            task = Code::Step(going, Box::new(task), Box::new(right));
            bound = next;
        }
        task
    }
}
