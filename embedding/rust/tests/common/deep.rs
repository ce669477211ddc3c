//! Sheets on which the calls nest deepest: each 48, and each right side that a 43 tries, is settled on a copy of the state.
#![allow(dead_code)] // Each user takes some of it.

use nannyjiffy::{MAX_LEAVES, MAX_ROWS};
use reference::sheet::Row;

/// A number's type and an empty editor.
pub fn editor() -> Vec<Row> {
    vec![Row::new(3, 0, 0, 0), Row::new(41, 0, 0, 0)]
}

/// The same with a cell between, in row 1.
fn with_cell() -> Vec<Row> {
    vec![Row::new(3, 0, 0, 0), Row::new(10, 0, 0, 0), Row::new(41, 0, 0, 0)]
}

/// 48 around the last row and a fail; `left` says that the last row is its A.
fn choice(rows: &mut Vec<Row>, left: bool) {
    let inner = rows.len() as i32 - 1;
    let (a, b) = if left { (inner, inner + 1) } else { (inner + 1, inner) };
    rows.extend([Row::new(45, 0, 0, 0), Row::new(48, a, b, 0)]);
}

/// 48 in 48, up to `most` rows.
fn choices(mut rows: Vec<Row>, most: usize, left: bool) -> Vec<Row> {
    while rows.len() + 2 <= most {
        choice(&mut rows, left);
    }
    rows
}

/// 48 in 48, each in a 50, up to 256 rows.
fn gated_choices() -> Vec<Row> {
    let mut rows = editor();
    while rows.len() + 3 <= MAX_ROWS {
        choice(&mut rows, true);
        let inner = rows.len() as i32 - 1;
        rows.push(Row::new(50, 1, inner, 99));
    }
    rows
}

/// 43 around the last row, from an editor of the cell.
fn step(rows: &mut Vec<Row>) {
    let inner = rows.len() as i32 - 1;
    rows.extend([Row::new(42, 1, 0, 0), Row::new(43, inner + 1, inner, 0)]);
}

/// 48 (43 (42, INNER), 45) in so many levels, at most 16, around rows with a cell.
fn around(mut rows: Vec<Row>, levels: usize) -> Vec<Row> {
    for _ in 0..levels {
        step(&mut rows);
        choice(&mut rows, true);
    }
    rows
}

/// The same around an empty editor.
pub fn levels(count: usize) -> Vec<Row> {
    around(with_cell(), count)
}

/// 50 in 50 around the last row, up to 256 rows: each hands on to the next.
fn gates(mut rows: Vec<Row>) -> Vec<Row> {
    while rows.len() < MAX_ROWS {
        let inner = rows.len() as i32 - 1;
        rows.push(Row::new(50, 1, inner, 99));
    }
    rows
}

/// The deepest of 256 rows, with an action that is taken at the empty path.
pub fn deepest() -> [(&'static str, Vec<Row>, u32); 6] {
    let mut stepped = choices(with_cell(), MAX_ROWS - 2, true);
    step(&mut stepped);
    [
        ("48 in the left of 48, Left", choices(editor(), MAX_ROWS, true), 3),
        ("48 in the right of 48, Right", choices(editor(), MAX_ROWS, false), 4),
        ("43 around 48 in 48, Left", stepped, 3),
        ("16 of 48 over 43, around 48 in 48, Left", around(choices(with_cell(), MAX_ROWS - 16 * 4, true), 16), 3),
        ("50 in 50, value", gates(editor()), 1),
        ("48 in 48 with 50 around each, Left", gated_choices(), 3),
    ]
}

/// An event of role 1 at the empty path, with leaves 0.
pub fn event(action: u32) -> Vec<u8> {
    format!("{:2}{:16}{action:2}{}\n", 1, 0, format!("{:12}", 0).repeat(MAX_LEAVES)).into_bytes()
}
