//! Flows over wide values (CR 4): an editor of one to eight leaves, and a step that passes its value on, takes it apart,
//! puts it together anew, or asks some of its leaves.

use super::draft::Draft;
use crate::operators::Operator;
use crate::syntax::{Code, Going, Plain, Type};

impl Draft<'_> {
    /// A wide editor, or a step from one to something made of its value.
    pub fn wide(&mut self) -> Code {
        let of = self.wide_type();
        let left = self.wide_editor(&of);
        if self.random.chance(25) {
            return left;
        }
        let right = self.under(of.clone(), |draft| draft.made_of(&of));
        let going = if self.random.chance(60) { Going::ByItself } else { Going::AtContinue };
        Code::Step(going, Box::new(left), Box::new(right))
    }

    /// An editor of the whole, empty or filled, or editors of its two parts side by side.
    fn wide_editor(&mut self, of: &Type) -> Code {
        match of {
            Type::Pair(parts) if self.may_mark() && self.random.chance(20) => self.marked(|draft| {
                let left = draft.wide_editor(&parts.0);
                Code::Both(Box::new(left), Box::new(draft.wide_editor(&parts.1)))
            }),
            _ if self.random.chance(45) => Code::Filled(self.plain(of, 1)),
            _ => Code::Empty(of.clone()),
        }
    }

    /// A task made of the nearest binder's value, which is of this type: the value, the value put together from its
    /// leaves, the same bound once more, or one leaf, the last more often; some only where a leaf has some content.
    fn made_of(&mut self, of: &Type) -> Code {
        let (made, made_type) = match self.random.below(8) {
            0..=1 => (Plain::Binder(0), of.clone()),
            2..=4 => (together(&Plain::Binder(0), of), of.clone()),
            5..=6 => {
                let bound = together(&Plain::Binder(0), of);
                (Plain::Bind(Box::new(bound), Box::new(together(&Plain::Binder(0), of))), of.clone())
            }
            _ => self.one_leaf(of),
        };
        let task = self.holding(made);
        match self.random.chance(30) {
            true => {
                let guard = self.asks_leaves(of);
                Code::Condition(guard, Box::new(task), Box::new(Code::Fail(made_type)))
            }
            false => task,
        }
    }

    /// A leaf of the nearest binder's value, and its type.
    fn one_leaf(&mut self, of: &Type) -> (Plain, Type) {
        let mut leaves = leaves(&Plain::Binder(0), of);
        let last = leaves.len() - 1;
        let at = if self.random.chance(40) { last } else { self.random.below(leaves.len()) };
        leaves.swap_remove(at)
    }

    /// A truth that one leaf decides, or two.
    fn asks_leaves(&mut self, of: &Type) -> Plain {
        let asked = self.asks_a_leaf(of);
        if self.random.chance(50) {
            return asked;
        }
        let operator = *self.random.pick(&Operator::ALL[6..]).expect("and, or");
        Plain::Operation(operator, Box::new(asked), Box::new(self.asks_a_leaf(of)))
    }

    fn asks_a_leaf(&mut self, of: &Type) -> Plain {
        match self.one_leaf(of) {
            (leaf, Type::Truth) => leaf,
            (leaf, Type::Number) => {
                let operator = *self.random.pick(&Operator::ALL[3..6]).expect("comparisons");
                Plain::Operation(operator, Box::new(leaf), Box::new(Plain::Number(self.random.between(-1, 3))))
            }
            _ => Plain::Truth(true),
        }
    }
}

/// The leaves of a value, each by first and second, with their types.
pub fn leaves(value: &Plain, of: &Type) -> Vec<(Plain, Type)> {
    match of {
        Type::Pair(parts) => {
            let mut first = leaves(&Plain::First(Box::new(value.clone())), &parts.0);
            first.extend(leaves(&Plain::Second(Box::new(value.clone())), &parts.1));
            first
        }
        _ => vec![(value.clone(), of.clone())],
    }
}

/// A value taken apart down to its leaves and put together again.
fn together(value: &Plain, of: &Type) -> Plain {
    match of {
        Type::Pair(parts) => {
            let first = together(&Plain::First(Box::new(value.clone())), &parts.0);
            Plain::Pair(Box::new(first), Box::new(together(&Plain::Second(Box::new(value.clone())), &parts.1)))
        }
        _ => value.clone(),
    }
}
