//! The sheet's text to rows, and grounds 1 to 5, each over all lines before the next.

use crate::field::{self, Field};
use crate::grounds::Ground;
use crate::kinds::{self, Operand, Sort};
use crate::roles::{ROLES, TOUCHES};
use crate::slips::Slip;
use std::ops::Range;

/// Bytes a line, its byte 10 included.
pub const LINE: usize = 45;
/// Lines a sheet at most.
pub const LINES: usize = 256;
/// The columns of a line: row number, kind, A, B, C.
pub const COLUMNS: [Range<usize>; 5] = [0..4, 4..8, 8..20, 20..32, 32..44];

/// A row of the sheet: kind and operands A, B, C.
#[derive(Clone, Copy, Debug, PartialEq, Eq)]
pub struct Row {
    pub kind: i32,
    pub operands: [i32; 3],
}

impl Row {
    pub const fn new(kind: i32, a: i32, b: i32, c: i32) -> Self {
        Row { kind, operands: [a, b, c] }
    }

    /// The operands, each with what it must be. A row of no kind has none.
    pub fn places(&self) -> impl Iterator<Item = (Operand, i32)> {
        let asked = kinds::operands(self.kind);
        asked.into_iter().flatten().zip(self.operands)
    }

    /// The rows that the operands name. To be asked where grounds 3 and 4 do not hold.
    pub fn named(&self) -> impl Iterator<Item = usize> {
        self.places().filter(|(asked, _)| asked.names_row()).filter_map(|(_, at)| usize::try_from(at).ok())
    }
}

/// Ground 1: the lines that the text holds, by its length.
pub fn count_lines(text: &[u8], slip: Slip) -> Result<usize, Ground> {
    let most = match slip {
        Slip::Lines257 => LINES + 1,
        Slip::Lines255 => LINES - 1,
        _ => LINES,
    };
    if text.is_empty() || !text.len().is_multiple_of(LINE) || text.len() / LINE > most {
        return Err(Ground::Length);
    }
    Ok(text.len() / LINE)
}

/// Grounds 1 and 2: the rows that the text holds.
pub fn read(text: &[u8], slip: Slip) -> Result<Vec<Row>, Ground> {
    let mut rows = Vec::with_capacity(count_lines(text, slip)?);
    for (at, line) in text.chunks_exact(LINE).enumerate() {
        let before = rows.last().map_or(0, |row: &Row| row.kind);
        let row = read_line(at, line, before, slip).ok_or(Ground::Unreadable)?;
        if slip == Slip::LineByLine && !listed(&rows, &row, slip) {
            return Err(Ground::NotListed);
        }
        rows.push(row);
    }
    Ok(rows)
}

/// Row number in columns 1-4, kind 5-8, A 9-20, B 21-32, C 33-44, then byte 10. `before` is the
/// kind of the line before, 0 in front of the first.
fn read_line(at: usize, line: &[u8], before: i32, slip: Slip) -> Option<Row> {
    let [numbered, kind, a, b, c] = COLUMNS.map(|columns| field::read(&line[columns], slip));
    let in_place = match numbered {
        Field::Number(number) => usize::try_from(number) == Ok(at) || slip == Slip::RowNumberUnread,
        Field::Blank => slip == Slip::BlankRowNumber,
        Field::Unreadable => false,
    };
    let kind = match kind {
        Field::Blank if slip == Slip::BlankKindNotListed => 0,
        kind => kind.number()?,
    };
    let mut row = Row::new(kind, 0, 0, 0);
    for (place, field) in [a, b, c].into_iter().enumerate() {
        match field {
            Field::Number(number) => row.operands[place] = number,
            // The operand is 0.
            Field::Blank if may_be_blank(kind, place, before, slip) => {}
            // A row of kind 0 gets 3.
            Field::Blank if slip == Slip::BlankNotListed => row.kind = 0,
            Field::Blank | Field::Unreadable => return None,
        }
    }
    let ended = line[LINE - 1] == b'\n' || slip == Slip::ByteTenUnread;
    (in_place && ended).then_some(row)
}

/// Whether operand `place` may be left blank (CR 2): the line's own kind does not use it. A kind not
/// listed has no operand that may.
fn may_be_blank(kind: i32, place: usize, before: i32, slip: Slip) -> bool {
    let kind = if slip == Slip::BlankByLineBefore { before } else { kind };
    match kinds::operands(kind) {
        Some(asked) => asked[place] == Operand::Unused || slip == Slip::BlankUsedOperand,
        None => slip == Slip::BlankOfUnknownKind,
    }
}

/// The text of rows: what [`read`] reads.
pub fn write(rows: &[Row]) -> Vec<u8> {
    let mut text = Vec::with_capacity(rows.len() * LINE);
    for (at, row) in rows.iter().enumerate() {
        let [a, b, c] = row.operands;
        text.extend_from_slice(format!("{at:>4}{:>4}{a:>12}{b:>12}{c:>12}\n", row.kind).as_bytes());
    }
    text
}

/// Ground 3: kinds, operators, truths, roles, touches and unused operands.
pub fn check_listed(rows: &[Row], slip: Slip) -> Result<(), Ground> {
    let all = rows.iter().enumerate().all(|(at, row)| listed(&rows[..at], row, slip));
    all.then_some(()).ok_or(Ground::NotListed)
}

/// Whether `row` is as listed, standing after the rows `lower`.
fn listed(lower: &[Row], row: &Row, slip: Slip) -> bool {
    kinds::operands(row.kind).is_some()
        && row.places().all(|(asked, operand)| match asked {
            Operand::Unused => operand == 0 || slip == Slip::UnusedOperandIgnored,
            Operand::Truth => matches!(operand, 0 | 1),
            Operand::Operator => matches!(operand, 1..=8),
            Operand::Content => {
                let cell_type = usize::try_from(row.operands[0]).ok().and_then(|at| lower.get(at));
                let of_truths = cell_type.is_some_and(|of| of.kind == 2);
                !of_truths || matches!(operand, 0 | 1) || slip == Slip::CellTruthIgnored
            }
            Operand::Role => ROLES.contains(&operand) || slip_of_role(slip, operand),
            Operand::Touches => TOUCHES.contains(&operand) || (slip == Slip::Touches100 && operand == 100),
            _ => true,
        })
}

/// Whether a slip takes this number for a role.
fn slip_of_role(slip: Slip, number: i32) -> bool {
    matches!((slip, number), (Slip::RoleZero, 0) | (Slip::RoleNine, 9))
}

/// Ground 4: operands are lower rows of the sort asked. Gives the rows' sorts.
pub fn check_sorts(rows: &[Row]) -> Result<Vec<Sort>, Ground> {
    let mut sorts = Vec::with_capacity(rows.len());
    for row in rows {
        sorts.push(sort_after(rows, &sorts, row).ok_or(Ground::Sort)?);
    }
    Ok(sorts)
}

/// The sort of `row`, standing after the rows that `sorts` tells, if its operands are as asked.
fn sort_after(rows: &[Row], sorts: &[Sort], row: &Row) -> Option<Sort> {
    let named = |operand: i32| usize::try_from(operand).ok().filter(|&at| at < sorts.len());
    for (asked, operand) in row.places().filter(|(asked, _)| asked.names_row()) {
        let at = named(operand)?;
        let fits = match asked {
            Operand::BasicType => matches!(rows[at].kind, 2 | 3),
            Operand::Row(sort) => sorts[at] == sort,
            _ => matches!(sorts[at], Sort::Plain | Sort::Task),
        };
        if !fits {
            return None;
        }
    }
    let [_, b, c] = row.operands;
    match row.kind {
        25 if sorts[named(b)?] != sorts[named(c)?] => None,
        25 | 31 => Some(sorts[named(b)?]),
        kind => kinds::own_sort(kind),
    }
}

/// Ground 5: every row of kind 20 or more but the last is named exactly once, and the last row
/// is of kind 25, 31 or 40 and more.
pub fn check_naming(rows: &[Row], slip: Slip) -> Result<(), Ground> {
    let mut names = vec![0_usize; rows.len()];
    for row in rows.iter().filter(|row| row.kind >= 20) {
        for at in row.named() {
            if let Some(count) = names.get_mut(at) {
                *count += 1;
            }
        }
    }
    let Some((last, others)) = rows.split_last() else { return Err(Ground::Naming) };
    let once = others.iter().zip(names).filter(|(row, _)| row.kind >= 20).all(|(_, count)| match slip {
        Slip::NamedTwice => count >= 1,
        Slip::NeverNamed => count <= 1,
        _ => count == 1,
    });
    let last_fits = match last.kind {
        25 | 31 => true,
        kind => kind >= 40,
    };
    (once && last_fits).then_some(()).ok_or(Ground::Naming)
}
