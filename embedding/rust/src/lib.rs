//! Kiosk order flows (document 01) by the proved engine, which is linked as a static archive.
//!
//! [`Flow`] and [`Rest`] own fixed memory and refuse only what a sheet or an event can break; [`receipt`] prices the values
//! that they show. [`calls`] has the five calls as they are, on memory that the caller lends. Nothing allocates. What the
//! exports promise is proved (`crates/flow_c`); that the declarations here fit them is tested (`tests/`).
//!
//! ```
//! use nannyjiffy::{Flow, Ground, Rest, Role, MAX_LEAVES};
//!
//! // An empty editor for a number, which role 2 may touch once.
//! let sheet = [
//!     "   0   3           0           0           0\n",
//!     "   1  41           0           0           0\n",
//!     "   2  50           2           1           1\n",
//! ];
//! let flow = Flow::load(sheet.concat().as_bytes())?;
//! let mut rest = Rest::start(&flow);
//! let [customer, counter] = [1, 2].map(|role| Role::new(role).expect("1 to 8"));
//! assert_eq!(rest.look(counter).entries(), b"               0 1 3 0 0 0 0 0 0 0\n");
//! assert_eq!(rest.look(customer).entries(), b"");
//!
//! // Role 2 gives the number 12 at the empty path; the leaves after it are not used.
//! let unused = "           0".repeat(MAX_LEAVES - 1);
//! let event = |role: Role| format!("{:2}               0 1          12{unused}\n", role.number());
//! assert_eq!(rest.handle(event(customer).as_bytes()), Err(Ground::Role));
//! rest.handle(event(counter).as_bytes())?;
//! assert_eq!(rest.look(customer).value, Some([12, 0, 0, 0, 0, 0, 0, 0]));
//! assert_eq!(rest.handle(event(counter).as_bytes()), Err(Ground::Touches));
//! # Ok::<(), Ground>(())
//! ```
#![no_std]

pub mod calls;
pub mod exports;
mod flow;
mod ground;
mod role;

pub use flow::{Flow, Rest, Screen};
pub use ground::Ground;
pub use role::Role;

/// Lines of a sheet, at most.
pub const MAX_ROWS: usize = 256;
/// Bytes of a sheet's line.
pub const LINE_BYTES: usize = 45;
/// Leaves of a type, at most.
pub const MAX_LEAVES: usize = 8;
/// Bytes of an event, 117: role, path, action, leaves of 12 columns, byte 10.
pub const EVENT_BYTES: usize = 2 + 16 + 2 + 12 * MAX_LEAVES + 1;
/// Bytes of a list entry, 35: path, action, leaf kinds of 2 columns, byte 10.
pub const ENTRY_BYTES: usize = 16 + 2 + 2 * MAX_LEAVES + 1;
/// Words of rows memory for each row: kind, A, B, C.
pub const ROW_WORDS: usize = 4;
/// Words of a state for each row.
pub const STATE_WORDS: usize = 16;
/// Words of a value.
pub const VALUE_WORDS: usize = MAX_LEAVES;

/// Roles are 1 to this one.
pub const MAX_ROLE: u32 = 8;
/// Touches of a row of kind 50, at most.
pub const MAX_TOUCHES: i32 = 99;

/// Bytes of a price line, 25: code and hundredths of a cent per copy, of 12 columns each, byte 10.
pub const PRICE_LINE_BYTES: usize = 12 + 12 + 1;
/// Lines of a price list, at most.
pub const MAX_PRICE_LINES: usize = 256;
/// Hundredths of a cent per copy, at most.
pub const MAX_PRICE: i32 = 9_999_999;
/// Values of an order, at most.
pub const MAX_VALUES: usize = 64;
/// Copies of a value of an order, at most.
pub const MAX_COPIES: i32 = 9999;

/// Stack that suffices for each call on every sheet that was measured, the deepest of 256 rows among them. A thread that Rust
/// starts has less, unless it is told otherwise; too little ends the program, at the stack's guard page.
pub const STACK_BYTES: usize = 5 << 19;

/// List memory that suffices at every rest of a flow of so many rows: it never shows more entries than it has rows.
pub const fn list_bytes(rows: usize) -> usize {
    ENTRY_BYTES * rows
}

/// What an order comes to by a price list, in cents, rounded half up once. Its values are those that finished flows of two
/// numbers show, code and copies. Grounds 32, 33, 34.
///
/// ```
/// use nannyjiffy::{receipt, Ground};
///
/// // Code, hundredths of a cent per copy.
/// let prices = b"        1015        2949\n        1318        7901\n";
/// let print = |code, copies| [code, copies, 0, 0, 0, 0, 0, 0];
/// // 2949 and 7901 hundredths are 108 cents and a half.
/// assert_eq!(receipt(prices, &[print(1015, 1), print(1318, 1)]), Ok(109));
/// assert_eq!(receipt(prices, &[print(1015, 10_000)]), Err(Ground::Order));
/// assert_eq!(receipt(prices, &[print(2030, 0)]), Err(Ground::NoPrice));
/// ```
pub fn receipt(prices: &[u8], order: &[[i32; VALUE_WORDS]]) -> Result<u64, Ground> {
    calls::receipt(prices, order.as_flattened())
}
