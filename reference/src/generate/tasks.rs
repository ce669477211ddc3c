//! Tasks of a type, without a shape in mind.

use super::draft::Draft;
use crate::syntax::{Code, Going, Plain, Type};

/// The forms that a task of any type may have.
#[derive(Clone, Copy)]
enum Form {
    Filled,
    Editor,
    Step(Going),
    Fail,
    Both,
    Choice,
    Pick,
    Condition,
    Bind,
}

impl Draft<'_> {
    /// A task of type `of`, of about `fuel` rows.
    pub fn task(&mut self, of: &Type, fuel: usize) -> Code {
        if fuel < 3 {
            return self.editor(of);
        }
        let when = |holds: bool, weight: usize| if holds { weight } else { 0 };
        let (binds, marks, small) = (self.may_bind(), self.may_mark(), fuel < 12);
        let form = self.random.weighed(&[
            (1, Form::Filled),
            (when(small, 1), Form::Editor),
            (when(binds, 6), Form::Step(Going::ByItself)),
            (when(binds, 5), Form::Step(Going::AtContinue)),
            (when(small, 1), Form::Fail),
            (when(marks && matches!(of, Type::Pair(_)), 10), Form::Both),
            (when(marks, 3), Form::Choice),
            (3, Form::Pick),
            (2, Form::Condition),
            (when(binds, 3), Form::Bind),
        ]);
        let (some, rest) = self.split(fuel);
        match (form, of) {
            (Form::Filled, _) => {
                let content = self.plain(of, fuel - 1);
                self.holding(content)
            }
            (Form::Editor, _) => self.editor(of),
            (Form::Step(going), _) => {
                let leaves = if self.random.chance(80) { 1 } else { self.limits.leaves };
                let bound = self.some_type(leaves);
                let left = self.task(&bound, some);
                let right = self.under(bound, |draft| draft.right_side(of, rest));
                Code::Step(going, Box::new(left), Box::new(right))
            }
            (Form::Fail, _) => Code::Fail(of.clone()),
            (Form::Both, Type::Pair(parts)) => self.marked(|draft| {
                let left = draft.task(&parts.0, some);
                Code::Both(Box::new(left), Box::new(draft.task(&parts.1, rest)))
            }),
            (Form::Choice | Form::Both, _) => self.marked(|draft| {
                let left = draft.task(of, some);
                Code::Choice(Box::new(left), Box::new(draft.task(of, rest)))
            }),
            (Form::Pick, _) => {
                let left = self.right_side(of, some);
                Code::Pick(Box::new(left), Box::new(self.right_side(of, rest)))
            }
            (Form::Condition, _) => {
                let condition = if self.random.chance(50) { self.guard() } else { self.plain(&Type::Truth, some / 2) };
                let left = self.task(of, some / 2);
                Code::Condition(condition, Box::new(left), Box::new(self.task(of, rest)))
            }
            (Form::Bind, _) => {
                let (bound, bound_type) = self.bound(some.min(8));
                let body = self.under(bound_type, |draft| draft.task(of, rest));
                Code::Bind(bound, Box::new(body))
            }
        }
    }

    /// A task for a right side or a branch: often guarded, so that it fails now and not later,
    /// or with a write in front.
    pub fn right_side(&mut self, of: &Type, fuel: usize) -> Code {
        match self.random.below(12) {
            0..=3 => {
                let task = self.task(of, fuel.saturating_sub(5));
                self.guarded(task, of)
            }
            10..=11 => self.at_the_end(of, fuel.saturating_sub(5)),
            4..=5 => self.writing(fuel / 3, |draft| draft.task(of, fuel / 2)),
            6 => self.writing(fuel / 3, |draft| {
                let task = draft.task(of, fuel / 2);
                draft.guarded(task, of)
            }),
            _ => self.task(of, fuel),
        }
    }

    /// The task where a guard holds, else fail, or the other way round.
    pub fn guarded(&mut self, task: Code, of: &Type) -> Code {
        let (task, fail) = (Box::new(task), Box::new(Code::Fail(of.clone())));
        if self.random.chance(80) {
            Code::Condition(self.guard(), task, fail)
        } else {
            Code::Condition(self.guard(), fail, task)
        }
    }

    /// A write into some cell and then a task; the task alone where nothing can be written.
    pub fn writing(&mut self, fuel: usize, then: impl FnOnce(&mut Self) -> Code) -> Code {
        match self.write(fuel.min(6)).filter(|_| self.may_bind()) {
            Some(write) => Code::Bind(write, Box::new(self.under(Type::Unit, then))),
            None => then(self),
        }
    }

    /// An editor or a shown value, seldom a fail.
    pub fn editor(&mut self, of: &Type) -> Code {
        let cell = self.some_cell(of);
        match (self.random.below(12), cell) {
            (0, _) => Code::Fail(of.clone()),
            (1..=4, Some(cell)) => Code::Shared(cell),
            (5..=8, _) => Code::Empty(of.clone()),
            _ => {
                let content = self.plain(of, 1);
                self.holding(content)
            }
        }
    }

    /// A constant number, filled or shown.
    pub fn constant(&mut self) -> Code {
        let content = Plain::Number(self.random.between(-1, 3));
        self.holding(content)
    }

    /// A task that holds this content: a filled editor, or a shown value (CR 1), so often that of the
    /// leaves of drafts, 40 to 42, 45 and 49, about one of six is shown.
    pub fn holding(&mut self, content: Plain) -> Code {
        if self.random.chance(40) {
            Code::View(content)
        } else {
            Code::Filled(content)
        }
    }
}
