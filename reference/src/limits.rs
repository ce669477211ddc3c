//! Ground 6: leaves of a type row, binders and marks that enclose a row.

use crate::grounds::Ground;
use crate::kinds;
use crate::sheet::Row;
use crate::slips::Slip;

/// Leaves of a type at most (CR 4). Every width that follows from it is reckoned from it.
pub const LEAVES: usize = 8;
/// The same before CR 4: events, entries and values of that width are refused now.
pub const LEAVES_BEFORE: usize = 4;
/// Binders, and marks, that enclose a row at most.
pub const ENCLOSING: usize = 16;

/// What encloses a row.
#[derive(Clone, Copy, Debug, Default, PartialEq, Eq)]
pub struct Enclosing {
    pub binders: usize,
    pub marks: usize,
}

/// Ground 6. To be asked where grounds 1 to 5 do not hold.
pub fn check(rows: &[Row], slip: Slip) -> Result<(), Ground> {
    let most_leaves = match slip {
        Slip::TypeOfNine => LEAVES + 1,
        Slip::TypeOverFour => LEAVES_BEFORE,
        _ => LEAVES,
    };
    let most_binders = most(slip, Slip::Binders17, Slip::Binders15);
    let most_marks = most(slip, Slip::Marks17, Slip::Marks15);
    let asked = |at| slip != Slip::UnusedTypeIgnored || rows.iter().any(|row| row.named().any(|name| name == at));
    let small = leaves_of_types(rows).iter().enumerate().all(|(at, &leaves)| leaves <= most_leaves || !asked(at));
    let flat = enclosing(rows, slip).iter().all(|of| of.binders <= most_binders && of.marks <= most_marks);
    (small && flat).then_some(()).ok_or(Ground::Limit)
}

/// 16, or a slip of it.
fn most(slip: Slip, one_more: Slip, one_less: Slip) -> usize {
    ENCLOSING + usize::from(slip == one_more) - usize::from(slip == one_less)
}

/// The leaves of each type row, 0 for other rows.
fn leaves_of_types(rows: &[Row]) -> Vec<usize> {
    let mut leaves: Vec<usize> = Vec::with_capacity(rows.len());
    for row in rows {
        leaves.push(match row.kind {
            1..=3 => 1,
            4 => row.named().fold(0, |sum, at| sum.saturating_add(leaves[at])),
            _ => 0,
        });
    }
    leaves
}

/// The binders and marks that enclose each row: a binder encloses its B only, a mark both parts.
/// A row is named by a higher one, so the rows are gone through from the last.
pub fn enclosing(rows: &[Row], slip: Slip) -> Vec<Enclosing> {
    let mut enclosing = vec![Enclosing::default(); rows.len()];
    for (at, row) in rows.iter().enumerate().rev().filter(|(_, row)| row.kind >= 20) {
        let outer = enclosing[at];
        let is_mark =
            kinds::is_mark(row.kind) || matches!((slip, row.kind), (Slip::PickIsMark, 48) | (Slip::GateIsMark, 50));
        for (place, (_, operand)) in row.places().enumerate().filter(|(_, (asked, _))| asked.names_row()) {
            let bound = kinds::binds(row.kind) && (place == 1 || slip == Slip::BinderEnclosesA);
            if let Some(inner) = usize::try_from(operand).ok().and_then(|name| enclosing.get_mut(name)) {
                inner.binders = outer.binders + usize::from(bound);
                inner.marks = outer.marks + usize::from(is_mark);
            }
        }
    }
    enclosing
}
