//! Values, and their leaves in lists, events and screens.

use crate::limits::LEAVES;
use crate::slips::Slip;
use crate::syntax::Type;
use std::rc::Rc;

#[derive(Clone, Debug, PartialEq, Eq)]
pub enum Value {
    Unit,
    Truth(bool),
    Number(i32),
    Pair(Rc<(Value, Value)>),
}

/// The leaves of a value, unused ones 0.
pub type Leaves = [i32; LEAVES];
/// The leaves of an event, each a number or left blank (CR 2).
pub type Given = [Option<i32>; LEAVES];

/// Leaves of which the first are these, and the others 0.
pub fn padded(first: &[i32]) -> Leaves {
    let mut leaves = [0; LEAVES];
    leaves[..first.len()].copy_from_slice(first);
    leaves
}

impl Value {
    pub fn pair(first: Value, second: Value) -> Self {
        Value::Pair(Rc::new((first, second)))
    }

    /// The truth that this is, by typing.
    pub fn truth(&self) -> bool {
        match self {
            Value::Truth(truth) => *truth,
            _ => unreachable!("typed as a truth"),
        }
    }

    /// The number that this is, by typing.
    pub fn number(&self) -> i32 {
        match self {
            Value::Number(number) => *number,
            _ => unreachable!("typed as a number"),
        }
    }

    /// The two parts that this has, by typing.
    pub fn parts(&self) -> &(Value, Value) {
        match self {
            Value::Pair(parts) => parts,
            _ => unreachable!("typed as a pair"),
        }
    }

    /// The type that this is of.
    pub fn type_of(&self) -> Type {
        match self {
            Value::Unit => Type::Unit,
            Value::Truth(_) => Type::Truth,
            Value::Number(_) => Type::Number,
            Value::Pair(parts) => Type::pair(parts.0.type_of(), parts.1.type_of()),
        }
    }

    /// A pair's leaves are the first's and then the second's; unit is 0, truth 0 or 1.
    pub fn leaves(&self, slip: Slip) -> Leaves {
        let mut leaves = [0; LEAVES];
        self.write_leaves(&mut leaves.iter_mut(), slip);
        if slip == Slip::LastLeafNotShown {
            leaves[LEAVES - 1] = 0;
        }
        leaves
    }

    /// The same value with 0 in leaf 8, where it has one: what a slip makes of it.
    pub fn without_last_leaf(&self) -> Value {
        let mut leaves = self.leaves(Slip::None);
        leaves[LEAVES - 1] = 0;
        Self::of_leaves(&self.type_of(), &leaves.map(Some), Slip::None).expect("0 fits every leaf")
    }

    fn write_leaves<'l>(&self, rest: &mut impl Iterator<Item = &'l mut i32>, slip: Slip) {
        let leaf = match self {
            Value::Pair(parts) => {
                let (first, second) = match slip {
                    Slip::LeavesSwapped => (&parts.1, &parts.0),
                    _ => (&parts.0, &parts.1),
                };
                first.write_leaves(rest, slip);
                return second.write_leaves(rest, slip);
            }
            Value::Unit => 0,
            Value::Truth(truth) => i32::from(*truth),
            Value::Number(number) => *number,
        };
        if let Some(place) = rest.next() {
            *place = leaf;
        }
    }

    /// The value of type `of` that has these leaves: a unit is 0, a truth 0 or 1, and none of them
    /// blank; leaves after them are 0 or blank.
    pub fn of_leaves(of: &Type, leaves: &Given, slip: Slip) -> Option<Value> {
        let mut rest = leaves.iter().copied();
        let value = Self::take_leaves(of, &mut rest, slip)?;
        let unused = |leaf: Option<i32>| match leaf {
            Some(number) => number == 0 || slip == Slip::UnusedLeafIgnored,
            None => slip != Slip::BlankUnusedLeafRefused,
        };
        rest.all(unused).then_some(value)
    }

    fn take_leaves(of: &Type, rest: &mut impl Iterator<Item = Option<i32>>, slip: Slip) -> Option<Value> {
        if let Type::Pair(parts) = of {
            let first = Self::take_leaves(&parts.0, rest, slip)?;
            let second = Self::take_leaves(&parts.1, rest, slip)?;
            if slip == Slip::LeavesTakenSwapped && parts.0 == parts.1 {
                return Some(Value::pair(second, first));
            }
            return Some(Value::pair(first, second));
        }
        let leaf = match rest.next()? {
            None if slip == Slip::BlankLeafIsZero => Some(0),
            leaf => leaf,
        };
        match (of, leaf) {
            (Type::Number, Some(number)) => Some(Value::Number(number)),
            (Type::Truth, Some(truth @ (0 | 1))) => Some(Value::Truth(truth == 1)),
            (Type::Truth, Some(_)) if slip == Slip::AnyTruth => Some(Value::Truth(true)),
            (Type::Unit, Some(0)) => Some(Value::Unit),
            (Type::Unit, Some(_)) if slip == Slip::AnyUnit => Some(Value::Unit),
            (Type::Unit, None) if slip == Slip::BlankMeetsUnit => Some(Value::Unit),
            _ => None,
        }
    }
}

/// The leaf kinds of a type in a list entry: 1 unit, 2 truth, 3 number, 0 unused.
pub fn leaf_kinds(of: &Type) -> Leaves {
    let mut kinds = [0; LEAVES];
    write_kinds(of, &mut kinds.iter_mut());
    kinds
}

fn write_kinds<'l>(of: &Type, rest: &mut impl Iterator<Item = &'l mut i32>) {
    let kind = match of {
        Type::Pair(parts) => {
            write_kinds(&parts.0, rest);
            return write_kinds(&parts.1, rest);
        }
        Type::Unit => 1,
        Type::Truth => 2,
        Type::Number => 3,
    };
    if let Some(place) = rest.next() {
        *place = kind;
    }
}
