//! Plain expressions of a type.

use super::draft::Draft;
use crate::operators::Operator;
use crate::syntax::{Plain, Type};

/// The forms that a plain expression of any type may have.
#[derive(Clone, Copy)]
enum Form {
    Leaf,
    Operation,
    Condition,
    Pair,
    Part,
    Bind,
    Write,
}

impl Draft<'_> {
    /// A plain expression of type `of`, of about `fuel` rows.
    pub fn plain(&mut self, of: &Type, fuel: usize) -> Plain {
        if fuel < 3 {
            return self.leaf(of);
        }
        let when = |holds: bool, weight: usize| if holds { weight } else { 0 };
        let basic = matches!(of, Type::Truth | Type::Number);
        let form = self.random.weighed(&[
            (when(fuel < 12, 2), Form::Leaf),
            (when(basic, 7), Form::Operation),
            (2, Form::Condition),
            (when(matches!(of, Type::Pair(_)), 6), Form::Pair),
            (when(of.leaves() < self.limits.leaves, 2), Form::Part),
            (when(self.may_bind(), 3), Form::Bind),
            (when(*of == Type::Unit && !self.cells.is_empty(), 6), Form::Write),
        ]);
        let (some, rest) = self.split(fuel);
        match (form, of) {
            (Form::Leaf, _) => self.leaf(of),
            (Form::Operation, _) => {
                let (operator, operands) = self.operator(of);
                Plain::Operation(operator, self.boxed(&operands, some), self.boxed(&operands, rest))
            }
            (Form::Condition, _) => {
                let (then, otherwise) = self.split(rest);
                let condition = self.boxed(&Type::Truth, some);
                Plain::Condition(condition, self.boxed(of, then), self.boxed(of, otherwise))
            }
            (Form::Pair, Type::Pair(parts)) => Plain::Pair(self.boxed(&parts.0, some), self.boxed(&parts.1, rest)),
            (Form::Part, _) => {
                let other = self.some_type(self.limits.leaves - of.leaves());
                if self.random.chance(50) {
                    Plain::First(self.boxed(&Type::pair(of.clone(), other), fuel - 1))
                } else {
                    Plain::Second(self.boxed(&Type::pair(other, of.clone()), fuel - 1))
                }
            }
            (Form::Write, _) => self.write(fuel - 1).unwrap_or(Plain::Unit),
            (Form::Bind | Form::Pair, _) => {
                let (bound, bound_type) = self.bound(some);
                Plain::Bind(Box::new(bound), self.under(bound_type, |draft| draft.boxed(of, rest)))
            }
        }
    }

    /// A plain expression to bind, often a write, and its type.
    pub fn bound(&mut self, fuel: usize) -> (Plain, Type) {
        if self.random.chance(60) {
            if let Some(write) = self.write(fuel) {
                return (write, Type::Unit);
            }
        }
        let of = self.some_type(2);
        (self.plain(&of, fuel), of)
    }

    /// A write into some cell, if there is one.
    pub fn write(&mut self, fuel: usize) -> Option<Plain> {
        let cells: Vec<usize> = (0..self.cells.len()).collect();
        let cell = *self.random.pick(&cells)?;
        let of = self.cells[cell].0.clone();
        Some(Plain::Write(cell, self.boxed(&of, fuel)))
    }

    /// A truth that depends on a binder or a cell where there is one: what right sides are
    /// guarded by.
    pub fn guard(&mut self) -> Plain {
        let seen = self.seen(&Type::Number);
        if let Some(seen) = seen.filter(|_| self.random.chance(80)) {
            let operator = *self.random.pick(&Operator::ALL[3..6]).expect("comparisons");
            let constant = Plain::Number(self.random.between(-1, 3));
            let (left, right) = if self.random.chance(70) { (seen, constant) } else { (constant, seen) };
            return Plain::Operation(operator, Box::new(left), Box::new(right));
        }
        self.seen(&Type::Truth).unwrap_or_else(|| Plain::Truth(self.random.chance(50)))
    }

    /// A binder or a cell of this type.
    pub fn seen(&mut self, of: &Type) -> Option<Plain> {
        let binder = self.some_binder(of).map(Plain::Binder);
        let cell = self.some_cell(of).map(Plain::Read);
        if self.random.chance(50) {
            binder.or(cell)
        } else {
            cell.or(binder)
        }
    }

    fn boxed(&mut self, of: &Type, fuel: usize) -> Box<Plain> {
        Box::new(self.plain(of, fuel))
    }

    /// A binder, a cell or a constant.
    fn leaf(&mut self, of: &Type) -> Plain {
        if self.random.chance(60) {
            if let Some(seen) = self.seen(of) {
                return seen;
            }
        }
        match of {
            Type::Unit => Plain::Unit,
            Type::Truth => Plain::Truth(self.random.chance(50)),
            Type::Number => Plain::Number(self.random.word()),
            Type::Pair(parts) => Plain::Pair(Box::new(self.leaf(&parts.0)), Box::new(self.leaf(&parts.1))),
        }
    }

    /// An operator whose result is of type `of`, and the type of its operands.
    fn operator(&mut self, of: &Type) -> (Operator, Type) {
        let (among, operands) = match of {
            Type::Number => (&Operator::ALL[..3], Type::Number),
            _ if self.random.chance(30) => (&Operator::ALL[3..6], Type::Number),
            _ => (&Operator::ALL[6..], Type::Truth),
        };
        (*self.random.pick(among).expect("operators"), operands)
    }
}
