//! Operators 1 to 8 (01, "The sheet").

use crate::slips::Slip;
use crate::value::Value;

#[derive(Clone, Copy, Debug, PartialEq, Eq)]
pub enum Operator {
    Sum = 1,
    Difference = 2,
    Product = 3,
    Less = 4,
    LessOrEqual = 5,
    Equal = 6,
    And = 7,
    Or = 8,
}

impl Operator {
    pub const ALL: [Operator; 8] = [
        Operator::Sum,
        Operator::Difference,
        Operator::Product,
        Operator::Less,
        Operator::LessOrEqual,
        Operator::Equal,
        Operator::And,
        Operator::Or,
    ];

    pub fn of_number(number: i32) -> Option<Self> {
        Self::ALL.into_iter().find(|operator| operator.number() == number)
    }

    pub const fn number(self) -> i32 {
        self as i32
    }

    /// The result on two values; none where a sum, difference or product is beyond the range (CR 3).
    pub fn apply(self, left: &Value, right: &Value, slip: Slip) -> Option<Value> {
        Some(match self {
            Operator::Sum | Operator::Difference | Operator::Product => {
                Value::Number(self.reckon(left.number(), right.number(), slip)?)
            }
            Operator::Less | Operator::LessOrEqual | Operator::Equal => {
                Value::Truth(self.compare(left.number(), right.number(), slip))
            }
            Operator::And => Value::Truth(left.truth() && right.truth()),
            Operator::Or => Value::Truth(left.truth() || right.truth()),
        })
    }

    /// The exact sum, difference or product, where it is within the signed 32 bits.
    fn reckon(self, left: i32, right: i32, slip: Slip) -> Option<i32> {
        let (left, right) = (i64::from(left), i64::from(right));
        let exact = match self {
            Operator::Sum => left + right,
            Operator::Difference if slip == Slip::DifferenceReversed => right - left,
            Operator::Difference => left - right,
            _ => left * right,
        };
        match slip {
            Slip::Wraps => Some(exact as i32),
            Slip::Saturates => Some(exact.clamp(i32::MIN.into(), i32::MAX.into()) as i32),
            Slip::EndsAreBeyond => i32::try_from(exact).ok().filter(|word| !matches!(*word, i32::MIN | i32::MAX)),
            _ => i32::try_from(exact).ok(),
        }
    }

    fn compare(self, left: i32, right: i32, slip: Slip) -> bool {
        match self {
            Operator::Less if slip == Slip::ComparisonUnsigned => (left as u32) < right as u32,
            Operator::Less => left < right,
            Operator::LessOrEqual if slip == Slip::LessOrEqualStrict => left < right,
            Operator::LessOrEqual => left <= right,
            _ => left == right,
        }
    }
}
