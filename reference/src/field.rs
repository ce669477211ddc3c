//! Fields: decimal numbers, right-justified after spaces (01, "The sheet"), and blanks (CR 2).

use crate::slips::Slip;
use std::io::{self, Write};

/// What a field says.
#[derive(Clone, Copy, Debug, PartialEq, Eq)]
pub enum Field {
    Number(i32),
    /// Every column is a space. What that means, the place decides.
    Blank,
    Unreadable,
}

impl Field {
    /// What it says where a number is meant: a blank is none.
    pub fn number(self) -> Option<i32> {
        match self {
            Field::Number(number) => Some(number),
            Field::Blank | Field::Unreadable => None,
        }
    }
}

/// What a field says.
pub fn read(field: &[u8], slip: Slip) -> Field {
    if is_blank(field, slip) {
        return match slip {
            Slip::BlankIsZero => Field::Number(0),
            Slip::BlankUnreadable => Field::Unreadable,
            _ => Field::Blank,
        };
    }
    read_number(field, slip).map_or(Field::Unreadable, Field::Number)
}

/// Whether every column is a space: byte 32, and no other.
pub fn is_blank(field: &[u8], slip: Slip) -> bool {
    match slip {
        Slip::BlankByTabs => field.iter().all(|byte| matches!(byte, b' ' | b'\t' | 0)),
        Slip::BlankByLastColumn => field.last() == Some(&b' '),
        _ => field.iter().all(|&byte| byte == b' '),
    }
}

/// The number in a field: `0`, or an optional minus, a digit 1 to 9 and digits, after nothing
/// but spaces, within signed 32 bits.
fn read_number(field: &[u8], slip: Slip) -> Option<i32> {
    let mut text = after_spaces(field);
    if slip == Slip::SpacesBehind {
        text = text.trim_ascii_end();
    }
    if slip == Slip::PlusSign {
        text = text.strip_prefix(b"+").unwrap_or(text);
    }
    let (negative, digits) = match text {
        [b'-', digits @ ..] => (true, digits),
        digits => (false, digits),
    };
    let readable = match digits {
        [b'0'] => !negative || slip == Slip::MinusZero,
        [b'0', ..] => slip == Slip::LeadingZeros && all_digits(digits),
        [] => false,
        _ => all_digits(digits),
    };
    if !readable {
        return None;
    }
    // At most 12 columns, so the magnitude fits 64 bits.
    let magnitude = digits.iter().fold(0_i64, |number, digit| number * 10 + i64::from(digit - b'0'));
    let number = if negative { -magnitude } else { magnitude };
    if slip == Slip::RangeOffByOne && number == i64::from(i32::MAX) + 1 {
        return Some(i32::MIN);
    }
    i32::try_from(number).ok()
}

/// Writes `number` right-justified in `width` columns.
pub fn write(out: &mut impl Write, number: i32, width: usize) -> io::Result<()> {
    write!(out, "{number:>width$}")
}

fn all_digits(text: &[u8]) -> bool {
    text.iter().all(u8::is_ascii_digit)
}

/// What stands after the padding: only byte 32 pads, only in front.
pub fn after_spaces(field: &[u8]) -> &[u8] {
    let spaces = field.iter().take_while(|&&byte| byte == b' ').count();
    &field[spaces..]
}
