//! The archive as an engine: by its exports, on fenced memories, so that what it does beside its answers shows; and by the
//! safe calls.
#![allow(dead_code)] // Each user takes some of it.

pub mod any_memory;
pub mod fence;

use fence::{Fence, Lent, Place};
use nannyjiffy::{calls, exports, Ground};
use reference::calls::Looked;
use reference::engine::Engine;
use reference::receipt::Receipt;
use reference::roles::Role;
use std::cell::Cell;
use std::env;

/// What the single answers hold before a call: no answer is this, so it shows where one is not written.
const UNWRITTEN: usize = 0x5aa5_5aa5;
/// And the total of a receipt: no order comes to this.
const NO_TOTAL: u64 = 0x5aa5_5aa5_5aa5_5aa5;

/// What the environment sets a number to.
pub fn set(name: &str, or: u64) -> u64 {
    env::var(name).map_or(or, |text| text.parse().expect("a number"))
}

/// The exports, called on copies of what is lent. Each call asserts that the memory around each copy, and each copy that
/// the call only reads, is as it was, and that every single answer is written.
pub struct Archive {
    fences: [Fence; 4],
    calls: Cell<usize>,
}

impl Archive {
    pub fn new() -> Self {
        Archive { fences: [(); 4].map(|()| Fence::new()), calls: Cell::new(0) }
    }

    /// Lends a copy of the content in fence `at`. The places change from call to call.
    fn lend<'a, T: Copy + PartialEq>(&'a self, at: usize, content: &'a [T]) -> Lent<'a, T> {
        let place = [Place::Middle, Place::First, Place::Last][(self.calls.get() + at) % 3];
        self.fences[at].lend(content, place)
    }

    fn count_call(&self) {
        self.calls.set(self.calls.get() + 1);
    }

    /// Prices an order. The total is lent in a fence, too.
    pub fn receipt(&self, prices: &[u8], order: &[i32]) -> Receipt {
        self.count_call();
        let (lines, values, total) = (self.lend(0, prices), self.lend(1, order), self.lend(2, &[NO_TOTAL]));
        // SAFETY: as in `load`.
        let number = unsafe {
            exports::nannyjiffy_receipt(lines.start(), lines.len(), values.start(), values.len(), total.start())
        };
        lines.assert_same();
        values.assert_same();
        let total = total.content()[0];
        assert_ne!(total, NO_TOTAL, "an answer is not written");
        Receipt { number, total }
    }
}

/// A single answer, that has been written.
fn written(answer: u32) -> u32 {
    assert_ne!(answer as usize, UNWRITTEN, "an answer is not written");
    answer
}

impl Engine for Archive {
    fn load(&self, text: &[u8], rows: &mut [i32]) -> u32 {
        self.count_call();
        let (sheet, room) = (self.lend(0, text), self.lend(1, rows));
        // SAFETY: four fences are four memories; `lend` gives each its length.
        let number = unsafe { exports::nannyjiffy_load(sheet.start(), sheet.len(), room.start(), room.len()) };
        sheet.assert_same();
        let room = room.content();
        rows.copy_from_slice(&room);
        number
    }

    fn start(&self, rows: &[i32], state: &mut [i32]) -> (u32, u32) {
        self.count_call();
        let (own, words) = (self.lend(0, rows), self.lend(1, state));
        let mut strides = UNWRITTEN as u32;
        // SAFETY: as in `load`.
        let number =
            unsafe { exports::nannyjiffy_start(own.start(), own.len(), words.start(), words.len(), &mut strides) };
        own.assert_same();
        let words = words.content();
        state.copy_from_slice(&words);
        (number, written(strides))
    }

    fn look(&self, rows: &[i32], state: &[i32], role: Role, value: &mut [i32], list: &mut [u8]) -> Looked {
        self.count_call();
        let (own, words) = (self.lend(0, rows), self.lend(1, state));
        let (leaves, entries) = (self.lend(2, value), self.lend(3, list));
        let (mut valued, mut fails, mut bytes) = (UNWRITTEN as u32, UNWRITTEN as u32, UNWRITTEN);
        // SAFETY: as in `load`.
        let number = unsafe {
            exports::nannyjiffy_look(
                own.start(),
                own.len(),
                words.start(),
                words.len(),
                role,
                leaves.start(),
                leaves.len(),
                entries.start(),
                entries.len(),
                &mut valued,
                &mut fails,
                &mut bytes,
            )
        };
        own.assert_same();
        words.assert_same();
        let (leaves, entries) = (leaves.content(), entries.content());
        value.copy_from_slice(&leaves);
        list.copy_from_slice(&entries);
        let flag = |flag: u32| [false, true][written(flag) as usize];
        assert_ne!(bytes, UNWRITTEN, "an answer is not written");
        Looked { number, valued: flag(valued), fails: flag(fails), bytes }
    }

    fn handle(&self, rows: &[i32], state: &mut [i32], event: &[u8]) -> (u32, u32) {
        self.count_call();
        let (own, words, touch) = (self.lend(0, rows), self.lend(1, state), self.lend(2, event));
        let mut strides = UNWRITTEN as u32;
        // SAFETY: as in `load`.
        let number = unsafe {
            exports::nannyjiffy_handle(
                own.start(),
                own.len(),
                words.start(),
                words.len(),
                touch.start(),
                touch.len(),
                &mut strides,
            )
        };
        own.assert_same();
        touch.assert_same();
        let words = words.content();
        state.copy_from_slice(&words);
        (number, written(strides))
    }
}

/// The safe calls.
pub struct Calls;

impl Calls {
    pub fn receipt(&self, prices: &[u8], order: &[i32]) -> Receipt {
        let total = calls::receipt(prices, order);
        // Whole values go by the call on values, too.
        if let (values, []) = order.as_chunks() {
            assert_eq!(nannyjiffy::receipt(prices, values), total);
        }
        total.map_or_else(|ground| Receipt { number: ground.number(), total: 0 }, |total| Receipt { number: 0, total })
    }
}

fn numbered(strides: Result<u32, Ground>) -> (u32, u32) {
    strides.map_or_else(|ground| (ground.number(), 0), |strides| (0, strides))
}

impl Engine for Calls {
    fn load(&self, text: &[u8], rows: &mut [i32]) -> u32 {
        calls::load(text, rows).map_or_else(Ground::number, |()| 0)
    }

    fn start(&self, rows: &[i32], state: &mut [i32]) -> (u32, u32) {
        numbered(calls::start(rows, state))
    }

    fn look(&self, rows: &[i32], state: &[i32], role: Role, value: &mut [i32], list: &mut [u8]) -> Looked {
        match calls::look(rows, state, role, value, list) {
            Ok(looked) => {
                Looked { number: 0, valued: looked.has_value, fails: looked.failing, bytes: looked.entries.len() }
            }
            Err(ground) => Looked { number: ground.number(), ..Looked::default() },
        }
    }

    fn handle(&self, rows: &[i32], state: &mut [i32], event: &[u8]) -> (u32, u32) {
        numbered(calls::handle(rows, state, event))
    }
}
