//! Sheets that are broken near each ground. Some stay accepted by chance.

use super::draft::{Draft, Limits};
use super::touches::{put, NO_FIELDS};
use super::{accepted, blanks, counted, layout, with_count};
use crate::kinds::{self, Operand};
use crate::limits::LEAVES;
use crate::random::Random;
use crate::session::COUNT;
use crate::sheet::{Row, COLUMNS, LINE, LINES};
use std::cmp::Ordering;

/// A row count and a sheet with a fault or two.
pub fn sheet(random: &mut Random) -> Vec<u8> {
    let whole = random.chance(20);
    let mut rows = if whole { past_limits(random) } else { accepted(random) };
    if whole && random.chance(25) {
        break_binder(random, &mut rows);
    }
    let faults = if whole { [0, 0, 0, 1] } else { [0, 1, 1, 2] };
    for _ in 0..faults[random.below(4)] {
        break_rows(random, &mut rows);
    }
    let text = blanks::sheet(random, &rows);
    let mut input = with_count(text);
    if random.chance(if whole { 5 } else { 30 }) {
        break_text(random, &rows, &mut input);
    }
    if random.chance(10) {
        break_count(random, &mut input);
    }
    input
}

/// Rows of a flow drafted past one of the limits, or of a plain last row.
fn past_limits(random: &mut Random) -> Vec<Row> {
    let mut limits = Limits::default();
    match random.below(4) {
        0 => limits.binders += 1,
        1 => limits.marks += 1,
        2 => limits.leaves += 1,
        _ => return plain_last(random),
    }
    loop {
        let draft = Draft::new(random, limits).flow_past();
        if let Some(rows) = layout::rows(random, &draft) {
            return rows;
        }
    }
}

/// A plain 25 or 31, or another plain row, as the last row.
fn plain_last(random: &mut Random) -> Vec<Row> {
    let mut rows = vec![Row::new(21, 1, 0, 0), Row::new(22, 1, 0, 0), Row::new(22, 2, 0, 0)];
    rows.extend(match random.below(4) {
        0 => vec![Row::new(25, 0, 1, 2)],
        1 => vec![Row::new(26, 1, 2, 0), Row::new(31, 0, 3, 0)],
        2 => vec![Row::new(24, 1, 1, 2), Row::new(26, 0, 3, 0)],
        _ => vec![Row::new(25, 0, 1, 2), Row::new(40, 3, 0, 0)],
    });
    rows
}

/// Breaks a row near grounds 3 to 7.
fn break_rows(random: &mut Random, rows: &mut Vec<Row>) {
    let at = random.below(rows.len());
    let place = random.below(3);
    match random.below(18) {
        0 => rows[at].kind = *random.pick(&[0, 5, 9, 11, 19, 32, 39, 51, 60, 99, -1]).expect("kinds"),
        1 => break_unused(random, &mut rows[at]),
        2 | 13 => break_listed(random, rows),
        3 => rows[at].operands[place] = random.between(-1, rows.len() as i32),
        4 => break_named(random, rows, |at, random| at + random.between(0, 2)),
        5 | 6 => break_named(random, rows, |at, random| random.between(0, (at - 1).max(0))),
        7 => {
            // A row that nothing names.
            let kind = random.between(20, 21);
            rows.insert(0, Row::new(kind, 0, 0, 0));
            rows[1..].iter_mut().for_each(|row| layout::raise(row, 1));
        }
        8 => rows.truncate(rows.len().max(2) - 1),
        9 => {
            let types = too_wide(random);
            rows.iter_mut().for_each(|row| layout::raise(row, types.len() as i32));
            rows.splice(0..0, types);
        }
        10 => break_binder(random, rows),
        11 | 12 | 14 => share_leaf(random, rows),
        15 | 16 => break_gate(random, rows),
        _ => rows[at].kind = random.between(20, 50),
    }
    rows.truncate(LINES + 1);
}

/// Types that double up to as many leaves as a type may have, and one of more, which nothing names.
fn too_wide(random: &mut Random) -> Vec<Row> {
    let doubled = LEAVES.ilog2() as i32;
    let mut types = vec![Row::new(3, 0, 0, 0)];
    types.extend((0..doubled).map(|at| Row::new(4, at, at, 0)));
    types.push(Row::new(4, doubled, random.between(0, doubled), 0));
    types
}

/// Puts a number into an unused operand, if the row has one.
fn break_unused(random: &mut Random, row: &mut Row) {
    let unused: Vec<bool> = row.places().map(|(asked, _)| asked == Operand::Unused).collect();
    for (operand, _) in row.operands.iter_mut().zip(unused).filter(|(_, unused)| *unused).take(1) {
        *operand = random.between(-1, 2);
    }
}

/// Breaks an operator, a truth or a cell's content.
fn break_listed(random: &mut Random, rows: &mut [Row]) {
    let kind = *random.pick(&[10, 10, 21, 24]).expect("kinds");
    let listed: Vec<usize> = (0..rows.len()).filter(|&at| rows[at].kind == kind).collect();
    if let Some(&at) = random.pick(&listed) {
        rows[at].operands[usize::from(kind == 10)] = *random.pick(&[-1, 0, 2, 9]).expect("numbers");
    }
}

/// Breaks the role or the touches of a row of kind 50; where there is none, a new last row is one.
fn break_gate(random: &mut Random, rows: &mut Vec<Row>) {
    let gates: Vec<usize> = (0..rows.len()).filter(|&at| rows[at].kind == 50).collect();
    let at = random.pick(&gates).copied().unwrap_or(rows.len());
    if at == rows.len() {
        rows.push(Row::new(50, 1, at as i32 - 1, 1));
    }
    let (place, numbers) = if random.chance(50) { (0, [-1, 0, 8, 9]) } else { (2, [-1, 0, 99, 100]) };
    rows[at].operands[place] = *random.pick(&numbers).expect("numbers");
}

/// Names another row at some place that names one.
fn break_named(random: &mut Random, rows: &mut [Row], other: impl Fn(i32, &mut Random) -> i32) {
    let places: Vec<(usize, usize)> = (0..rows.len())
        .flat_map(|at| (0..3).map(move |place| (at, place)))
        .filter(|&(at, place)| kinds::operands(rows[at].kind).is_some_and(|asked| asked[place].names_row()))
        .collect();
    if let Some(&(at, place)) = random.pick(&places) {
        rows[at].operands[place] = other(at as i32, random);
    }
}

/// Takes a leaf away and names another of its kind in its place, which is then named twice.
fn share_leaf(random: &mut Random, rows: &mut Vec<Row>) {
    let leaves: Vec<usize> = (0..rows.len()).filter(|&at| matches!(rows[at].kind, 20..=23)).collect();
    let Some(&gone) = random.pick(&leaves) else { return };
    let alike: Vec<usize> = leaves.into_iter().filter(|&at| at < gone && rows[at].kind == rows[gone].kind).collect();
    let Some(&kept) = random.pick(&alike) else { return };
    rows.remove(gone);
    for row in &mut rows[gone..] {
        for (place, asked) in kinds::operands(row.kind).into_iter().flatten().enumerate() {
            let operand = &mut row.operands[place];
            match (*operand).cmp(&(gone as i32)) {
                Ordering::Equal if asked.names_row() => *operand = kept as i32,
                Ordering::Greater if asked.names_row() => *operand -= 1,
                _ => {}
            }
        }
    }
}

/// Counts another number of binders outward.
fn break_binder(random: &mut Random, rows: &mut [Row]) {
    let binders: Vec<usize> = (0..rows.len()).filter(|&at| matches!(rows[at].kind, 22 | 23)).collect();
    if let Some(&at) = random.pick(&binders) {
        rows[at] = Row::new(23, *random.pick(&[-1, 0, 1, 2, 16, i32::MAX]).expect("numbers"), 0, 0);
    }
}

/// Breaks a line near ground 2.
fn break_text(random: &mut Random, rows: &[Row], input: &mut [u8]) {
    let at = random.below(rows.len());
    let line = &mut input[COUNT + LINE * at..][..LINE];
    match random.below(6) {
        0 => line[LINE - 1] = *random.pick(b" \r0").expect("bytes"),
        1 => put(&mut line[COLUMNS[0].clone()], &random.between(-1, 257).to_string()),
        2 => {
            let field = random.pick(&COLUMNS).expect("columns").clone();
            put(&mut line[field], random.pick(&NO_FIELDS).expect("fields"));
        }
        3..=4 => blanks::meant(random, &rows[at], line),
        _ => {
            // The same number written in a way that is none.
            let columns = &mut line[random.pick(&COLUMNS).expect("columns").clone()];
            let text = String::from_utf8_lossy(columns).trim().to_string();
            let other = match random.below(4) {
                0 => format!("0{text}"),
                1 => format!("+{text}"),
                2 => format!("{text} "),
                _ => format!("-{text}"),
            };
            put(columns, &other);
        }
    }
}

/// Breaks the row count, or the number of lines behind it.
fn break_count(random: &mut Random, input: &mut Vec<u8>) {
    let lines = (input.len() - COUNT) / LINE;
    match random.below(5) {
        0 => put(&mut input[..COUNT - 1], random.pick(&["", "0", "-1", "01", "+2", "9999", "x"]).expect("counts")),
        1 => input[COUNT - 1] = b' ',
        2 => input.truncate(random.below(input.len())),
        3 => put(&mut input[..COUNT - 1], &(lines + 1).to_string()),
        _ => {
            // One line too many, all in their places.
            let Some(rows) = read_back(input) else { return };
            let more = LINES + 1 - rows.len();
            let mut long = vec![Row::new(3, 0, 0, 0); more];
            long.extend(rows.into_iter().map(|mut row| {
                layout::raise(&mut row, more as i32);
                row
            }));
            *input = counted(&long);
        }
    }
}

/// The rows of a sheet of at most 256 lines that can be read.
fn read_back(input: &[u8]) -> Option<Vec<Row>> {
    crate::sheet::read(input.get(COUNT..)?, crate::slips::Slip::None).ok()
}
