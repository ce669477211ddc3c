//! Fields left blank (CR 2), whether they are meant or not: some of a line, or of an event.

use reference::event::{leaf_columns, ACTION_COLUMNS, EVENT, PATH_COLUMNS, ROLE_COLUMNS};
use reference::limits::LEAVES;
use reference::random::Random;
use reference::sheet::{COLUMNS, LINE};
use std::ops::Range;

/// In a sheet's text, fields of some line: more often operands than row number or kind.
pub fn line(random: &mut Random, text: &mut [u8]) {
    let percent = [5, 5, 40, 40, 40];
    blank(random, text, LINE, COLUMNS.into_iter().zip(percent));
}

/// In events, fields of some event: more often path and leaves than the role and the action.
pub fn event(random: &mut Random, events: &mut [u8]) {
    let head = [(ROLE_COLUMNS, 5), (PATH_COLUMNS, 40), (ACTION_COLUMNS, 5)];
    blank(random, events, EVENT, head.into_iter().chain((0..LEAVES).map(|leaf| (leaf_columns(leaf), 40))));
}

/// Blanks each field by so many of 100 chances, in some whole part of so many bytes.
fn blank(random: &mut Random, bytes: &mut [u8], size: usize, fields: impl Iterator<Item = (Range<usize>, usize)>) {
    let count = bytes.len() / size;
    if count > 0 {
        let part = &mut bytes[size * random.below(count)..][..size];
        for (columns, percent) in fields {
            if random.chance(percent) {
                part[columns].fill(b' ');
            }
        }
    }
}
