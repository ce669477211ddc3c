//! The five calls on memory that the caller lends, of any length and content. A refused call changes none of it.
//!
//! Each is safe for every input: the exports ask nothing beyond what Rust's references hold (not null, aligned, as long
//! as they say, those that are written not shared), and keep nothing after they return.

use crate::exports;
use crate::ground::{answer, Ground};

/// What a look shows to a role. The value's leaves are in the value memory that was lent.
#[derive(Clone, Copy, Debug, PartialEq, Eq)]
pub struct Looked<'l> {
    pub has_value: bool,
    /// Whether the flow fails. Then it has no entries, for any role; one without entries need not fail. A flow whose
    /// start left the range fails as a whole: it has no value, and every event that can be read is refused with ground 9.
    pub failing: bool,
    /// The part of the list memory that holds entries, 35 bytes each: what the role may do now.
    pub entries: &'l [u8],
}

/// Loads a sheet into 4 words a line. Grounds 1, 21, 2 to 7.
pub fn load(sheet: &[u8], rows: &mut [i32]) -> Result<(), Ground> {
    // SAFETY: both slices live through the call, and `rows` is borrowed by it alone.
    answer(unsafe { exports::nannyjiffy_load(sheet.as_ptr(), sheet.len(), rows.as_mut_ptr(), rows.len()) })
}

/// Writes the rest that the flow of these rows starts in, 16 words a row, and gives the strides. A start whose sums leave
/// the range is accepted, with 1 stride: the flow then fails as a whole (see [`Looked::failing`]). Grounds 20, 21.
pub fn start(rows: &[i32], state: &mut [i32]) -> Result<u32, Ground> {
    let mut strides = 0;
    // SAFETY: as in `load`; `strides` is a local.
    let number =
        unsafe { exports::nannyjiffy_start(rows.as_ptr(), rows.len(), state.as_mut_ptr(), state.len(), &mut strides) };
    answer(number).map(|()| strides)
}

/// Shows a rest to a role, 1 to 8: its value in `value`, of 8 words, and what the role may do in the front of `list`. Where
/// that is nothing, no list memory is needed. Grounds 20 to 23, 8, 24.
pub fn look<'l>(
    rows: &[i32],
    state: &[i32],
    role: u32,
    value: &mut [i32],
    list: &'l mut [u8],
) -> Result<Looked<'l>, Ground> {
    let (mut valued, mut fails, mut bytes) = (0, 0, 0);
    // SAFETY: as in `load`; the single numbers are locals.
    let number = unsafe {
        exports::nannyjiffy_look(
            rows.as_ptr(),
            rows.len(),
            state.as_ptr(),
            state.len(),
            role,
            value.as_mut_ptr(),
            value.len(),
            list.as_mut_ptr(),
            list.len(),
            &mut valued,
            &mut fails,
            &mut bytes,
        )
    };
    answer(number).map(|()| Looked { has_value: valued != 0, failing: fails != 0, entries: &list[..bytes] })
}

/// Handles an event, writes the rest that it leads to over `state`, and gives the strides. Grounds 20 to 23, 8, 9, 30, 31.
pub fn handle(rows: &[i32], state: &mut [i32], event: &[u8]) -> Result<u32, Ground> {
    let mut strides = 0;
    // SAFETY: as in `load`; `strides` is a local.
    let number = unsafe {
        exports::nannyjiffy_handle(
            rows.as_ptr(),
            rows.len(),
            state.as_mut_ptr(),
            state.len(),
            event.as_ptr(),
            event.len(),
            &mut strides,
        )
    };
    answer(number).map(|()| strides)
}

/// Prices an order of 8 words a value by a price list of 25 bytes a line, and gives its total in cents. Grounds 32, 33, 34.
pub fn receipt(prices: &[u8], order: &[i32]) -> Result<u64, Ground> {
    let mut cents = 0;
    // SAFETY: both slices live through the call; `cents` is a local.
    let number =
        unsafe { exports::nannyjiffy_receipt(prices.as_ptr(), prices.len(), order.as_ptr(), order.len(), &mut cents) };
    answer(number).map(|()| cents)
}
