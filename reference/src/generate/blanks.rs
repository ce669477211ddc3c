//! Fields left blank (CR 2): where nothing is meant, so that a sheet or an event says what it said; and
//! where something is, which refuses it.

use super::touches::put;
use crate::event::{leaf_columns, PATH_COLUMNS};
use crate::field;
use crate::kinds::Operand;
use crate::limits::LEAVES;
use crate::random::Random;
use crate::sheet::{self, Row, COLUMNS, LINE};
use crate::value::Leaves;
use std::ops::Range;

/// Of 100 sheets, and of 100 events, so many have blanks.
const PERCENT: usize = 25;

/// The text of rows; in one of four, unused operands are blank by chance.
pub fn sheet(random: &mut Random, rows: &[Row]) -> Vec<u8> {
    let mut text = sheet::write(rows);
    if random.chance(PERCENT) {
        let percent = [20, 60, 100][random.below(3)];
        for (at, place) in unused(rows) {
            if random.chance(percent) {
                blank(&mut text[at * LINE..][..LINE], &COLUMNS[2 + place]);
            }
        }
    }
    text
}

/// The unused operands that are 0: row and place.
pub fn unused(rows: &[Row]) -> impl Iterator<Item = (usize, usize)> + '_ {
    rows.iter().enumerate().flat_map(|(at, row)| {
        let places = row.places().enumerate();
        places
            .filter(|(_, (asked, operand))| (*asked, *operand) == (Operand::Unused, 0))
            .map(move |(place, _)| (at, place))
    })
}

/// Blanks a field of this row's line that is meant: row number, kind, a used operand, or an operand of a
/// kind not listed.
pub fn meant(random: &mut Random, row: &Row, line: &mut [u8]) {
    match random.below(10) {
        0..=1 => blank(line, &COLUMNS[0]),
        2..=3 => blank(line, &COLUMNS[1]),
        4..=6 => {
            let kind: i32 = *random.pick(&[0, 5, 9, 11, 19, 32, 39, 51, 99, -1]).expect("kinds");
            put(&mut line[COLUMNS[1].clone()], &kind.to_string());
            blank(line, random.pick(&COLUMNS[2..]).expect("columns"));
        }
        _ => {
            let asked: Vec<Operand> = row.places().map(|(asked, _)| asked).collect();
            let used: Vec<usize> = (0..asked.len()).filter(|&place| asked[place] != Operand::Unused).collect();
            if let Some(&place) = random.pick(&used) {
                blank(line, &COLUMNS[2 + place]);
            }
        }
    }
}

/// In one event of four the empty path, and leaves that are 0 and have kind 0, are blank by chance; now
/// and then a leaf of another kind is, which no editor takes.
pub fn event(random: &mut Random, kinds: Leaves, event: &mut [u8]) {
    if !random.chance(PERCENT) {
        return;
    }
    let percent = [40, 100][random.below(2)];
    let is_zero = |columns: &[u8]| field::after_spaces(columns) == b"0";
    if is_zero(&event[PATH_COLUMNS]) && random.chance(percent) {
        blank(event, &PATH_COLUMNS);
    }
    let taken = if random.chance(25) { random.below(LEAVES) } else { LEAVES };
    for (at, kind) in kinds.into_iter().enumerate() {
        let columns = leaf_columns(at);
        let unused = kind == 0 && is_zero(&event[columns.clone()]) && random.chance(percent);
        if unused || (kind != 0 && at == taken) {
            blank(event, &columns);
        }
    }
}

fn blank(line: &mut [u8], columns: &Range<usize>) {
    line[columns.clone()].fill(b' ');
}
