//! Numbers at the ends of the range, and past them for some contents (CR 3): sums, differences and products that leave
//! it, in each place where evaluation comes to them, and in some where it does not.

use super::draft::Draft;
use crate::binders::Binders;
use crate::operators::Operator;
use crate::slips::Slip;
use crate::syntax::{Cell, Code, Going, Plain, Type};
use crate::typing::Typing;

/// Factors whose product with a small number is within the range or not.
const LARGE: [i32; 6] = [1 << 30, -(1 << 30), 715_827_882, 715_827_883, i32::MAX, i32::MIN];
/// Factors whose product with each other is.
const MIDDLE: [i32; 6] = [46_340, 46_341, 65_536, -65_536, 32_768, -32_768];

impl Draft<'_> {
    /// A number at an end of the range, or past it: about half of the time, by the small number that it is reckoned from.
    pub fn reaching(&mut self) -> Plain {
        let near = self.small();
        let from_end = self.random.weighed(&[(4, 0), (2, 1), (1, 2)]);
        let (most, least) = (Plain::Number(i32::MAX - from_end), Plain::Number(i32::MIN + from_end));
        let (operator, left, right) = match self.random.below(13) {
            0..=1 => (Operator::Sum, near, most),
            2..=3 => (Operator::Sum, most, near),
            4 => (Operator::Sum, near, least),
            5..=6 => (Operator::Difference, least, near),
            7..=8 => (Operator::Difference, near, least),
            9..=10 => (Operator::Product, near, self.one_of(&LARGE)),
            11 => (Operator::Product, self.one_of(&LARGE), near),
            _ => (Operator::Product, self.one_of(&MIDDLE), self.one_of(&MIDDLE)),
        };
        Plain::Operation(operator, Box::new(left), Box::new(right))
    }

    /// A binder or a cell, seldom where only first contents are to be seen, or a small constant.
    fn small(&mut self) -> Plain {
        let percent = if self.scope.is_empty() { 20 } else { 60 };
        let seen = self.seen(&Type::Number).filter(|_| self.random.chance(percent));
        seen.unwrap_or_else(|| Plain::Number(self.random.between(-1, 6)))
    }

    fn one_of(&mut self, factors: &[i32]) -> Plain {
        Plain::Number(*self.random.pick(factors).expect("factors"))
    }

    /// A plain expression in which a number is reckoned to an end, as its value or beside it, and its type.
    fn reckoned(&mut self) -> (Plain, Type) {
        let number = Box::new(self.reaching());
        let other = Box::new(Plain::Number(self.random.between(0, 2)));
        match self.random.below(8) {
            0..=2 => (*number, Type::Number),
            // The part that is not asked for.
            3 => (Plain::First(Box::new(Plain::Pair(other, number))), Type::Number),
            4 => (Plain::Second(Box::new(Plain::Pair(number, other))), Type::Number),
            5 => (Plain::Operation(Operator::Less, number, other), Type::Truth),
            // The second side, which does not decide.
            6 => {
                let second = Plain::Operation(Operator::LessOrEqual, other, number);
                let (operator, first) =
                    *self.random.pick(&[(Operator::And, false), (Operator::Or, true)]).expect("two");
                (Plain::Operation(operator, Box::new(Plain::Truth(first)), Box::new(second)), Type::Truth)
            }
            // The side that is not taken, where it does not count.
            _ => {
                let taken = self.random.chance(30);
                (Plain::Condition(Box::new(Plain::Truth(taken)), number, other), Type::Number)
            }
        }
    }

    /// The task, of whatever shape, behind a condition that comes to an end; there is no binder and no mark more.
    pub fn behind_an_end(&mut self, task: Code) -> Code {
        let number = Box::new(self.reaching());
        let condition = Plain::Operation(Operator::LessOrEqual, number, Box::new(Plain::Number(i32::MAX)));
        let cells: Vec<Type> = self.cells.iter().map(|(of, _)| of.clone()).collect();
        let typing = Typing { cells: &cells, slip: Slip::None };
        let of = typing.task(&Binders::NONE, &task).expect("typed");
        Code::Condition(condition, Box::new(task), Box::new(Code::Fail(of)))
    }

    /// Right sides and branches that come to a number at an end, two or three of them, beside a cell that shows what
    /// they wrote.
    pub fn trying(&mut self) -> Code {
        let cell = self.number_cell();
        let first = self.random.below(3);
        let mut task = self.tried(first, cell);
        for turn in first + 1..first + 2 + self.random.below(2) {
            task = Code::Both(Box::new(task), Box::new(self.tried(turn, cell)));
        }
        self.beside(task, cell)
    }

    /// A 43, a 44 or a 48, by turns.
    fn tried(&mut self, turn: usize, cell: Cell) -> Code {
        match turn % 3 {
            0 => self.step_to_the_end(Going::ByItself, cell),
            1 => self.step_to_the_end(Going::AtContinue, cell),
            _ => self.pick_of_ends(cell),
        }
    }

    /// A step from an editor of a number, or a constant, whose right side comes to an end; now and then a choice of
    /// such.
    fn step_to_the_end(&mut self, going: Going, cell: Cell) -> Code {
        let left = match self.random.below(4) {
            0 => Code::Empty(Type::Number),
            1 => Code::Shared(cell),
            _ => self.constant(),
        };
        let right = self.under(Type::Number, |draft| match draft.random.chance(20) {
            true => draft.pick_of_ends(cell),
            false => draft.after_small_write(cell),
        });
        Code::Step(going, Box::new(left), Box::new(right))
    }

    /// A 48 of which one branch or both come to an end; now and then it is a step that does, which then waits.
    fn pick_of_ends(&mut self, cell: Cell) -> Code {
        let branch = match self.random.chance(20) {
            true => self.step_to_the_end(Going::ByItself, cell),
            false => self.after_small_write(cell),
        };
        let other = match self.random.below(4) {
            0 => Code::Fail(Type::Number),
            1..=2 => self.after_small_write(cell),
            _ => self.editor(&Type::Number),
        };
        match self.random.chance(50) {
            true => Code::Pick(Box::new(branch), Box::new(other)),
            false => Code::Pick(Box::new(other), Box::new(branch)),
        }
    }

    /// A task of a number that comes to an end, often after a write into the cell.
    fn after_small_write(&mut self, cell: Cell) -> Code {
        if self.random.chance(50) && self.may_bind() {
            let content = Plain::Number(self.random.between(0, 2));
            return self.after_write(cell, content, |draft| draft.ending(&Type::Number, 4));
        }
        self.ending(&Type::Number, 4)
    }

    /// A task of type `of`, of about `fuel` rows more, whose evaluation comes to a number at an end, often after a
    /// write.
    pub fn at_the_end(&mut self, of: &Type, fuel: usize) -> Code {
        if self.random.chance(40) {
            return self.writing(1, |draft| draft.ending(of, fuel));
        }
        self.ending(of, fuel)
    }

    fn ending(&mut self, of: &Type, fuel: usize) -> Code {
        let forms = if self.may_bind() { 10 } else { 3 };
        match self.random.below(forms) {
            0 => {
                let number = Box::new(self.reaching());
                let constant = Box::new(Plain::Number(self.random.word()));
                let condition = Plain::Operation(Operator::LessOrEqual, number, constant);
                let (then, otherwise) = (self.task(of, fuel / 2), self.editor(of));
                Code::Condition(condition, Box::new(then), Box::new(otherwise))
            }
            1 if self.may_mark() => self.marked(|draft| {
                let (left, right) = (draft.ending_leaf(of), draft.editor(of));
                match draft.random.chance(50) {
                    true => Code::Choice(Box::new(left), Box::new(right)),
                    false => Code::Choice(Box::new(right), Box::new(left)),
                }
            }),
            1..=2 => self.ending_leaf(of),
            // A of a step.
            3 => {
                let number = self.reaching();
                let left = self.holding(number);
                let right = self.under(Type::Number, |draft| draft.task(of, fuel / 2));
                let going = if self.random.chance(50) { Going::ByItself } else { Going::AtContinue };
                Code::Step(going, Box::new(left), Box::new(right))
            }
            // A content, often one that is overwritten.
            4..=5 => {
                let cell = self.number_cell();
                let number = self.reaching();
                self.after_write(cell, number, |draft| match draft.random.chance(50) && draft.may_bind() {
                    true => draft.after_write(cell, Plain::Number(1), |draft| draft.task(of, fuel / 2)),
                    false => draft.task(of, fuel / 2),
                })
            }
            // A bound value, often one that is never used.
            _ => {
                let (bound, bound_type) = self.reckoned();
                Code::Bind(bound, Box::new(self.under(bound_type, |draft| draft.task(of, fuel / 2))))
            }
        }
    }

    /// An editor or a shown value of this type, in which each number is reckoned to an end.
    fn ending_leaf(&mut self, of: &Type) -> Code {
        let content = self.ending_plain(of);
        self.holding(content)
    }

    fn ending_plain(&mut self, of: &Type) -> Plain {
        match of {
            Type::Number => self.reaching(),
            Type::Pair(parts) => {
                let first = self.ending_plain(&parts.0);
                Plain::Pair(Box::new(first), Box::new(self.ending_plain(&parts.1)))
            }
            _ => self.plain(of, 1),
        }
    }
}
