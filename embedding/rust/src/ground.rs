//! The grounds on which a call is refused (01, "Grounds in the input" and "Grounds in the state"; CR 6; CR 7).

use core::error::Error;
use core::fmt::{Display, Formatter, Result as Written};

/// A ground, with its number in 01, CR 6 and CR 7. `docs/NUMBERS.md` says what to do about each.
#[derive(Clone, Copy, Debug, PartialEq, Eq, PartialOrd, Ord, Hash)]
pub enum Ground {
    Length = 1,
    /// A blank, a field of spaces alone, is readable in an operand that its kind does not use, and nowhere else in a sheet.
    Unreadable = 2,
    /// In kind 50 a role is 1 to 8, and touches are 0 to 99.
    NotListed = 3,
    Sort = 4,
    Naming = 5,
    Limit = 6,
    Typing = 7,
    /// The path and the leaves may be blank, the role and the action may not. Also a look's role that is not 1 to 8.
    Event = 8,
    /// A blank leaf meets leaf kind 0 alone. A Continue, Left or Right whose sums leave the range is not taken.
    Handling = 9,
    Rows = 20,
    Memory = 21,
    /// A last row that failed as a whole is a state where start fails so and the cells have their first contents. The touches
    /// left of a row of kind 50 are 0 to its C.
    NoState = 22,
    NoRest = 23,
    List = 24,
    /// The rows passed are those from the last row, itself included, to the row that takes the event.
    Role = 30,
    Touches = 31,
    /// No field of a price line may be blank. Asked of the whole price list, before the order.
    Prices = 32,
    /// A value of an order is a code, copies from 0 to 9999, and six words 0.
    Order = 33,
    /// Also a value of 0 copies has a code with a price.
    NoPrice = 34,
}

/// All of them, with the words of 01, of CR 6 and of CR 7.
const GROUNDS: [(Ground, &str); 19] = [
    (Ground::Length, "sheet length not 45 times 1 to 256"),
    (Ground::Unreadable, "a field or byte 10 unreadable, or a wrong row number"),
    (Ground::NotListed, "a kind, operator, truth, role, number of touches or unused operand not as listed"),
    (Ground::Sort, "an operand not a lower row, or not of the sort asked"),
    (Ground::Naming, "the naming rule broken, or a last row that is no task by its kind"),
    (Ground::Limit, "a type row over 8 leaves, or over 16 binders or marks"),
    (Ground::Typing, "no typing for the last row as a task"),
    (Ground::Event, "event length, byte 10, field, role, path digit or action bad, or a leaf not 0 at actions 2 to 4"),
    (Ground::Handling, "no handling rule derives a step"),
    (Ground::Rows, "rows that no accepted sheet loads to"),
    (Ground::Memory, "rows memory at load, state or value memory not of its exact length"),
    (Ground::NoState, "not the writing of a state"),
    (Ground::NoRest, "normalising would change the state"),
    (Ground::List, "list memory under 35 bytes an entry"),
    (Ground::Role, "a rule derives a step, but a row passed has another role"),
    (Ground::Touches, "a rule derives a step, but a row passed has no touch left"),
    (Ground::Prices, "a price line unreadable, out of range, of a repeated code, or too many"),
    (Ground::Order, "an order too long, or a value not of two numbers, code and copies"),
    (Ground::NoPrice, "a code without a price"),
];

impl Ground {
    pub const fn number(self) -> u32 {
        self as u32
    }

    /// The ground of a number, if it has one.
    pub fn of(number: u32) -> Option<Self> {
        GROUNDS.iter().map(|&(ground, _)| ground).find(|ground| ground.number() == number)
    }
}

/// What a call's number says: 0 is accepted.
pub(crate) fn answer(number: u32) -> Result<(), Ground> {
    match number {
        0 => Ok(()),
        _ => Err(Ground::of(number).expect("a call answers 0 or a ground")),
    }
}

impl Display for Ground {
    fn fmt(&self, to: &mut Formatter<'_>) -> Written {
        let words = GROUNDS.iter().find(|(ground, _)| ground == self).map_or("", |(_, words)| words);
        write!(to, "{}: {words}", self.number())
    }
}

impl Error for Ground {}
