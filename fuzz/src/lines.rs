//! Changes of rows. Some keep an accepted sheet accepted, most do not.

use reference::generate::layout;
use reference::random::Random;
use reference::sheet::{Row, LINES};

/// Kinds and operators that stand in for one another with the same operands.
const ALIKE: [&[i32]; 5] = [&[43, 44], &[46, 47, 48], &[27, 28], &[40, 49, 45, 41, 42], &[1, 2, 3]];
const OPERATORS: [&[i32]; 3] = [&[1, 2, 3], &[4, 5, 6], &[7, 8]];

/// Changes the rows in one way; `other` are those of another sheet.
pub fn change(random: &mut Random, rows: &mut Vec<Row>, other: &[Row]) {
    if rows.is_empty() {
        return rows.extend_from_slice(other);
    }
    let at = random.below(rows.len());
    match random.below(14) {
        0..=2 => stand_in(random, &mut rows[at]),
        3..=4 => constant(random, rows),
        5 => rows[at].operands.swap(0, 1),
        6 => operand(random, rows, at),
        7 => insert_type(random, rows, at),
        8 => drop(rows.remove(at)),
        9 => {
            let with = random.below(rows.len());
            rows.swap(at, with);
        }
        10 => rows.truncate(at + 1),
        11..=12 => join(random, rows, other),
        _ => wrap(random, rows),
    }
}

/// Another kind or operator with the same operands.
fn stand_in(random: &mut Random, row: &mut Row) {
    if row.kind == 24 {
        let own = OPERATORS.iter().find(|alike| alike.contains(&row.operands[0]));
        row.operands[0] = own.and_then(|alike| random.pick(alike)).copied().unwrap_or(9);
    } else if let Some(alike) = ALIKE.iter().find(|alike| alike.contains(&row.kind)) {
        row.kind = *random.pick(alike).expect("kinds");
    } else {
        row.kind = random.between(0, 51);
    }
}

/// Another number, truth, content, binder, role or touches.
fn constant(random: &mut Random, rows: &mut [Row]) {
    let places: Vec<usize> = (0..rows.len()).filter(|&at| [10, 21, 22, 23, 50].contains(&rows[at].kind)).collect();
    let Some(&at) = random.pick(&places) else { return };
    match rows[at].kind {
        10 => rows[at].operands[1] = random.word(),
        21 => rows[at].operands[0] = random.between(0, 1),
        22 => rows[at].operands[0] = random.word(),
        50 if random.chance(50) => rows[at].operands[0] = random.between(0, 9),
        50 => rows[at].operands[2] = random.weighed(&[(3, 0), (3, 1), (3, 2), (2, 99), (1, 100), (1, -1)]),
        _ => rows[at].operands[0] = random.between(-1, 16),
    }
}

/// Another operand: one off, any row, or any word.
fn operand(random: &mut Random, rows: &mut [Row], at: usize) {
    let place = random.below(3);
    let operand = &mut rows[at].operands[place];
    *operand = match random.below(3) {
        0 => operand.wrapping_add(random.between(-1, 1)),
        1 => random.between(0, at as i32),
        _ => random.word(),
    };
}

/// A type that nothing names: often a pair of types below it, of any number of leaves.
fn insert_type(random: &mut Random, rows: &mut Vec<Row>, at: usize) {
    let types: Vec<i32> = (0..at as i32).filter(|&row| (1..=4).contains(&rows[row as usize].kind)).collect();
    let parts = [(); 2].map(|()| random.pick(&types).copied());
    let row = match parts {
        [Some(a), Some(b)] if random.chance(70) => Row::new(4, a, b, 0),
        _ => Row::new(random.between(1, 3), 0, 0, 0),
    };
    insert(rows, at, row);
}

/// A row at a place, what names rows from there on raised.
fn insert(rows: &mut Vec<Row>, at: usize, row: Row) {
    rows.insert(at, row);
    for row in &mut rows[at + 1..] {
        let named: Vec<bool> = row.places().map(|(asked, _)| asked.names_row()).collect();
        for (operand, names) in row.operands.iter_mut().zip(named) {
            *operand = operand.wrapping_add(i32::from(names && *operand >= at as i32));
        }
    }
}

/// The last rows of two sheets under 46, 47, 48, or a step from one to the other.
fn join(random: &mut Random, rows: &mut Vec<Row>, other: &[Row]) {
    if other.is_empty() || rows.len() + other.len() + 1 > LINES + 1 {
        return;
    }
    let (one, more) = (rows.len() as i32 - 1, rows.len() as i32);
    rows.extend(other.iter().map(|&row| {
        let mut row = row;
        layout::raise(&mut row, more);
        row
    }));
    let last = rows.len() as i32 - 1;
    rows.push(Row::new(random.weighed(&[(3, 46), (2, 47), (3, 48), (2, 43), (2, 44)]), one, last, 0));
}

/// The last row under a choice beside a fail, as the right side of a step from a filled or an empty editor, or for a role.
fn wrap(random: &mut Random, rows: &mut Vec<Row>) {
    let inner = rows.len() as i32 - 1;
    let of = (0..rows.len()).find(|&at| (1..=4).contains(&rows[at].kind)).unwrap_or(0) as i32;
    match random.below(5) {
        3..=4 => rows.push(Row::new(50, random.between(1, 3), inner, random.between(0, 3))),
        0 => rows.extend([Row::new(45, of, 0, 0), Row::new(48, inner, inner + 1, 0)]),
        1 => rows.extend([Row::new(41, of, 0, 0), Row::new(random.between(43, 44), inner + 1, inner, 0)]),
        _ => rows.extend([
            Row::new(22, random.word(), 0, 0),
            Row::new(40, inner + 1, 0, 0),
            Row::new(random.between(43, 44), inner + 2, inner, 0),
        ]),
    }
}
