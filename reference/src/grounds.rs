//! The grounds on which a call is refused (01, "Grounds in the input" and "Grounds in the state").

/// A ground, with its number in 01, CR 6 and CR 7. Grounds 20 to 24 speak of lent memory ([`crate::calls`]).
#[derive(Clone, Copy, Debug, PartialEq, Eq, PartialOrd, Ord)]
pub enum Ground {
    /// 1: sheet length not 45 times 1 to 256, or a row count unreadable or not met.
    Length = 1,
    /// 2: a field or byte 10 unreadable, or a wrong row number.
    Unreadable = 2,
    /// 3: a kind, operator, truth, role, number of touches or unused operand not as listed.
    NotListed = 3,
    /// 4: an operand not a lower row, or not of the sort asked.
    Sort = 4,
    /// 5: the naming rule broken, or a last row that is no task by its kind.
    Naming = 5,
    /// 6: a type row over 8 leaves, or over 16 binders or marks.
    Limit = 6,
    /// 7: no typing for the last row as a task.
    Typing = 7,
    /// 8: an event that cannot be read, or a look in no role.
    Event = 8,
    /// 9: no handling rule derives a step.
    Handling = 9,
    /// 20: rows that no accepted sheet loads to.
    Rows = 20,
    /// 21: rows memory at load, state or value memory not of its exact length.
    Memory = 21,
    /// 22: not the writing of a state.
    NoState = 22,
    /// 23: normalising would change the state.
    NoRest = 23,
    /// 24: list memory under 35 bytes an entry.
    List = 24,
    /// 30: a rule derives a step, but a row of kind 50 that the event passes is another role's.
    Role = 30,
    /// 31: the same, and all of them are this role's, but one has no touch left.
    Touches = 31,
    /// 32: a price line unreadable, out of range or of a repeated code, or too many of them.
    Prices = 32,
    /// 33: an order of too many values, or a value that is not a code and copies.
    Order = 33,
    /// 34: a code without a price.
    NoPrice = 34,
}

impl Ground {
    pub const fn number(self) -> i32 {
        self as i32
    }
}
