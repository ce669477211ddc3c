//! The kinds of rows and what each operand of theirs is (01, "The sheet").

/// What a row is, once sorts are known.
#[derive(Clone, Copy, Debug, PartialEq, Eq)]
pub enum Sort {
    Type,
    Cell,
    Plain,
    Task,
}

/// What an operand must be.
#[derive(Clone, Copy, Debug, PartialEq, Eq)]
pub enum Operand {
    /// Nothing is meant: 0, which a text may leave blank (CR 2).
    Unused,
    Truth,
    Number,
    /// The first content of a cell, 0 or 1 where the cell is of truths.
    Content,
    Operator,
    /// A number of binders, counted outward: no row.
    Outward,
    /// A type row of kind 2 or 3.
    BasicType,
    /// A row of this sort.
    Row(Sort),
    /// A plain row or a task row.
    Expression,
    /// A role and a number of touches (CR 6): no rows.
    Role,
    Touches,
}

impl Operand {
    /// Whether the operand names a row.
    pub fn names_row(self) -> bool {
        matches!(self, Operand::BasicType | Operand::Row(_) | Operand::Expression)
    }
}

use Operand::{BasicType, Content, Expression, Number, Operator, Outward, Role, Touches, Truth, Unused};

const TYPE: Operand = Operand::Row(Sort::Type);
const CELL: Operand = Operand::Row(Sort::Cell);
const PLAIN: Operand = Operand::Row(Sort::Plain);
const TASK: Operand = Operand::Row(Sort::Task);

/// The operands A, B, C of a kind; none for a number that is no kind.
pub fn operands(kind: i32) -> Option<[Operand; 3]> {
    Some(match kind {
        1..=3 => [Unused; 3],
        4 => [TYPE, TYPE, Unused],
        10 => [BasicType, Content, Unused],
        20 => [Unused; 3],
        21 => [Truth, Unused, Unused],
        22 => [Number, Unused, Unused],
        23 => [Outward, Unused, Unused],
        24 => [Operator, PLAIN, PLAIN],
        25 => [PLAIN, Expression, Expression],
        26 => [PLAIN, PLAIN, Unused],
        27 | 28 => [PLAIN, Unused, Unused],
        29 => [CELL, Unused, Unused],
        30 => [CELL, PLAIN, Unused],
        31 => [PLAIN, Expression, Unused],
        // 49, the shown value, is CR 1's.
        40 | 49 => [PLAIN, Unused, Unused],
        41 | 45 => [TYPE, Unused, Unused],
        42 => [CELL, Unused, Unused],
        43 | 44 | 46..=48 => [TASK, TASK, Unused],
        // 50, a task for a role, is CR 6's.
        50 => [Role, TASK, Touches],
        _ => return None,
    })
}

/// The sort of a row of this kind; none for 25 and 31, which are of the sort of their B.
pub fn own_sort(kind: i32) -> Option<Sort> {
    match kind {
        1..=4 => Some(Sort::Type),
        10 => Some(Sort::Cell),
        25 | 31 => None,
        20..=30 => Some(Sort::Plain),
        _ => Some(Sort::Task),
    }
}

/// Whether the B of this kind has one binder more.
pub fn binds(kind: i32) -> bool {
    matches!(kind, 31 | 43 | 44)
}

/// Whether the kind takes mark 1 or 2 of a path.
pub fn is_mark(kind: i32) -> bool {
    matches!(kind, 46 | 47)
}
