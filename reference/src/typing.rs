//! Typing (01, "The sheet"; the paper's rules T-). It is syntax-directed.

use crate::binders::Binders;
use crate::limits::{LEAVES, LEAVES_BEFORE};
use crate::operators::Operator;
use crate::slips::Slip;
use crate::syntax::{Code, Plain, Type};

type Context<'s> = Binders<'s, Type>;

/// Typing under the types of the cells.
pub struct Typing<'t> {
    pub cells: &'t [Type],
    pub slip: Slip,
}

impl Typing<'_> {
    /// The type of a plain expression, if it has one.
    pub fn plain(&self, context: &Context, expression: &Plain) -> Option<Type> {
        match expression {
            Plain::Unit => Some(Type::Unit),
            Plain::Truth(_) => Some(Type::Truth),
            Plain::Number(_) => Some(Type::Number),
            Plain::Binder(outward) => context.get(usize::try_from(*outward).ok()?).cloned(),
            Plain::Operation(operator, left, right) => {
                let (operands, result) = signature(*operator);
                let fit = self.plain(context, left)? == operands && self.plain(context, right)? == operands;
                fit.then_some(result)
            }
            Plain::Condition(condition, then, otherwise) => {
                let fits = self.plain(context, condition)? == Type::Truth;
                let then = self.plain(context, then)?;
                (fits && self.plain(context, otherwise)? == then).then_some(then)
            }
            Plain::Pair(first, second) => self.pair(self.plain(context, first)?, self.plain(context, second)?),
            Plain::First(pair) => match self.plain(context, pair)? {
                Type::Pair(parts) => Some(parts.0.clone()),
                _ => None,
            },
            Plain::Second(pair) => match self.plain(context, pair)? {
                Type::Pair(parts) => Some(parts.1.clone()),
                _ => None,
            },
            Plain::Read(cell) => Some(self.cells[*cell].clone()),
            Plain::Write(cell, content) => (self.plain(context, content)? == self.cells[*cell]).then_some(Type::Unit),
            Plain::Bind(bound, body) => {
                let bound = self.plain(context, bound)?;
                self.plain(&context.with(&bound), body)
            }
        }
    }

    /// The type of a task's value, if the task has a typing.
    pub fn task(&self, context: &Context, code: &Code) -> Option<Type> {
        match code {
            Code::Filled(content) | Code::View(content) => self.plain(context, content),
            Code::Empty(of) | Code::Fail(of) => Some(of.clone()),
            Code::Shared(cell) => Some(self.cells[*cell].clone()),
            Code::Step(_, left, right) => {
                let bound = self.task(context, left)?;
                self.task(&context.with(&bound), right)
            }
            Code::Both(left, right) => self.pair(self.task(context, left)?, self.task(context, right)?),
            Code::Choice(left, right) | Code::Pick(left, right) => self.same(context, left, right),
            Code::Gate(_, task) => self.task(context, task),
            Code::Condition(condition, then, otherwise) => {
                let fits = self.plain(context, condition)? == Type::Truth;
                self.same(context, then, otherwise).filter(|_| fits)
            }
            Code::Bind(bound, body) => {
                let bound = self.plain(context, bound)?;
                self.task(&context.with(&bound), body)
            }
        }
    }

    /// The one type of two tasks.
    fn same(&self, context: &Context, left: &Code, right: &Code) -> Option<Type> {
        let of = self.task(context, left)?;
        (self.task(context, right)? == of).then_some(of)
    }

    /// The pair type, if it has no more leaves than a type may have.
    fn pair(&self, first: Type, second: Type) -> Option<Type> {
        let most = match self.slip {
            Slip::ExpressionOfNine => LEAVES + 1,
            Slip::ExpressionOverFour => LEAVES_BEFORE,
            _ => LEAVES,
        };
        (first.leaves() + second.leaves() <= most).then(|| Type::pair(first, second))
    }
}

/// The type of both operands, and of the result.
fn signature(operator: Operator) -> (Type, Type) {
    match operator {
        Operator::Sum | Operator::Difference | Operator::Product => (Type::Number, Type::Number),
        Operator::Less | Operator::LessOrEqual | Operator::Equal => (Type::Number, Type::Truth),
        Operator::And | Operator::Or => (Type::Truth, Type::Truth),
    }
}
