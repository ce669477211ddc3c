//! Flows whose effects show in what order things happen, and whether they happen.

use super::draft::Draft;
use crate::operators::Operator;
use crate::syntax::{Cell, Code, Going, Plain, Type};

impl Draft<'_> {
    /// Effects whose order, or whether they happen, the cell beside shows.
    pub fn ordered(&mut self) -> Code {
        let cell = self.number_cell();
        let of = &self.some_type(self.limits.leaves - 1);
        let task = match self.random.below(20) {
            0..=1 => {
                let among = if self.random.chance(50) { &Operator::ALL[6..] } else { &Operator::ALL[..] };
                let operator = *self.random.pick(among).expect("operators");
                let operands = if operator.number() >= 7 { Type::Truth } else { Type::Number };
                let (left, right) = (self.effect(cell, &operands), self.effect(cell, &operands));
                self.holding(Plain::Operation(operator, Box::new(left), Box::new(right)))
            }
            2 => {
                let (first, second) = (self.effect(cell, &Type::Number), self.effect(cell, &Type::Number));
                self.holding(Plain::Pair(Box::new(first), Box::new(second)))
            }
            3 => self.marked(|draft| {
                let (left, right) = (draft.effect(cell, &Type::Number), draft.effect(cell, &Type::Number));
                Code::Both(Box::new(draft.holding(left)), Box::new(draft.holding(right)))
            }),
            4 => {
                let then = self.effect(cell, &Type::Number);
                let otherwise = self.effect(cell, &Type::Number);
                let guard = self.guard();
                self.holding(Plain::Condition(Box::new(guard), Box::new(then), Box::new(otherwise)))
            }
            // A choice whose branches write before they ask, or a step to it.
            5 => self.picking(cell, of),
            6..=7 => {
                let right = self.under(Type::Number, |draft| draft.picking(cell, of));
                Code::Step(Going::ByItself, Box::new(self.constant()), Box::new(right))
            }
            // A step whose right side writes before it asks.
            8..=10 => {
                let left = self.constant();
                let right = self.under(Type::Number, |draft| draft.asking(cell, of));
                let going = if self.random.chance(50) { Going::ByItself } else { Going::AtContinue };
                Code::Step(going, Box::new(left), Box::new(right))
            }
            // A choice whose right would write.
            11 => self.marked(|draft| {
                let left = if draft.random.chance(50) { draft.constant() } else { draft.writer(cell) };
                Code::Choice(Box::new(left), Box::new(draft.writer(cell)))
            }),
            12 => {
                let step = self.watcher(cell);
                let right = self.under(Type::Number, |draft| draft.right_side(of, 6));
                Code::Step(Going::AtContinue, Box::new(step), Box::new(right))
            }
            // A Continue that writes before it is refused, for some values.
            _ => {
                let right = self.under(Type::Number, |draft| {
                    let content = Plain::Number(draft.random.between(0, 2));
                    draft.after_write(cell, content, |draft| {
                        let task = draft.editor(of);
                        draft.guarded(task, of)
                    })
                });
                let step = Code::Step(Going::AtContinue, Box::new(self.constant()), Box::new(right));
                return Code::Both(Box::new(step), Box::new(self.gauge(cell)));
            }
        };
        self.beside(task, cell)
    }

    /// The task, with something beside it that shows the cell: its editor, or a choice or a
    /// Continue that holds for some contents only.
    pub fn beside(&mut self, task: Code, cell: Cell) -> Code {
        let shown = match self.random.below(10) {
            0..=2 => Code::Shared(cell),
            3..=4 => {
                let left = self.asked(cell, &Type::Number);
                Code::Pick(Box::new(left), Box::new(self.asked(cell, &Type::Number)))
            }
            5..=7 => self.gauge(cell),
            _ => return task,
        };
        Code::Both(Box::new(task), Box::new(shown))
    }

    /// The cell's editor with a Continue that is offered for some contents only.
    pub fn gauge(&mut self, cell: Cell) -> Code {
        let right = self.under(Type::Number, |draft| draft.asked(cell, &Type::Number));
        Code::Step(Going::AtContinue, Box::new(Code::Shared(cell)), Box::new(right))
    }

    /// A plain expression that writes the cell and then gives a value, often what it wrote.
    pub fn effect(&mut self, cell: Cell, of: &Type) -> Plain {
        let before = Plain::Read(cell);
        let content = if self.random.chance(50) {
            Plain::Operation(Operator::Sum, Box::new(before), Box::new(Plain::Number(1)))
        } else {
            Plain::Number(self.random.between(0, 4))
        };
        let value = self.under(Type::Unit, |draft| draft.plain(of, 1));
        Plain::Bind(Box::new(Plain::Write(cell, Box::new(content))), Box::new(value))
    }

    /// An editor where the cell has some content, else fail.
    pub fn asked(&mut self, cell: Cell, of: &Type) -> Code {
        let task = self.editor(of);
        let content = Plain::Number(self.random.between(0, 2));
        let guard = Plain::Operation(Operator::Equal, Box::new(Plain::Read(cell)), Box::new(content));
        Code::Condition(guard, Box::new(task), Box::new(Code::Fail(of.clone())))
    }

    /// A 48 of two that ask; often the left writes and fails while the right asks.
    fn picking(&mut self, cell: Cell, of: &Type) -> Code {
        let (left, right) = if self.random.chance(50) {
            let content = Plain::Number(self.random.between(0, 2));
            (self.after_write(cell, content, |_| Code::Fail(of.clone())), self.asked(cell, of))
        } else {
            (self.asking(cell, of), self.asking(cell, of))
        };
        Code::Pick(Box::new(left), Box::new(right))
    }

    /// A task that holds for some contents only, a 48 of such after a write, or a write and fail.
    fn asking(&mut self, cell: Cell, of: &Type) -> Code {
        let form = self.random.below(7);
        if form < 2 {
            return self.asked(cell, of);
        }
        let content = Plain::Number(self.random.between(0, 2));
        self.after_write(cell, content, |draft| {
            let fail = Code::Fail(of.clone());
            if form < 4 {
                return fail;
            }
            let left = draft.asked(cell, of);
            let right = if form == 4 { fail } else { draft.asked(cell, of) };
            Code::Pick(Box::new(left), Box::new(right))
        })
    }
}
