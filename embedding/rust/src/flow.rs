//! Flows and their rests in fixed memory of their own, so that grounds 20 to 24 cannot hold.

use crate::calls;
use crate::{list_bytes, Ground, Role, ENTRY_BYTES, LINE_BYTES, MAX_ROWS, ROW_WORDS, STATE_WORDS, VALUE_WORDS};

const OWN: &str = "memory that the engine wrote, of its length";

/// An accepted flow: the rows that a sheet loads to, in 4 KiB.
#[derive(Clone, Debug)]
pub struct Flow {
    rows: [i32; MAX_ROWS * ROW_WORDS],
    count: usize,
}

impl Flow {
    /// Loads a sheet. Grounds 1 to 7.
    pub fn load(sheet: &[u8]) -> Result<Self, Ground> {
        let count = (sheet.len() / LINE_BYTES).min(MAX_ROWS);
        let mut rows = [0; MAX_ROWS * ROW_WORDS];
        calls::load(sheet, &mut rows[..count * ROW_WORDS])?;
        Ok(Flow { rows, count })
    }

    /// How many rows it has.
    pub fn count(&self) -> usize {
        self.count
    }

    /// Kind, A, B and C of each row.
    pub fn rows(&self) -> &[i32] {
        &self.rows[..self.count * ROW_WORDS]
    }
}

/// A rest of a flow, in 16 KiB.
#[derive(Clone, Debug)]
pub struct Rest<'f> {
    flow: &'f Flow,
    state: [i32; MAX_ROWS * STATE_WORDS],
    strides: u32,
}

impl<'f> Rest<'f> {
    /// Where the flow starts. Where a sum, difference or product leaves the range there, it fails as a whole: the screen
    /// is failing, without value and entries, and stays so.
    pub fn start(flow: &'f Flow) -> Self {
        let mut state = [0; MAX_ROWS * STATE_WORDS];
        let strides = calls::start(flow.rows(), &mut state[..flow.count * STATE_WORDS]).expect(OWN);
        Rest { flow, state, strides }
    }

    /// Handles an event. Grounds 8, 9, 30 and 31; a refused event leaves the rest as it is, with strides 0.
    pub fn handle(&mut self, event: &[u8]) -> Result<(), Ground> {
        let state = &mut self.state[..self.flow.count * STATE_WORDS];
        let answer = calls::handle(self.flow.rows(), state, event);
        self.strides = answer.unwrap_or(0);
        answer.map(drop)
    }

    /// The strides of the last start or event.
    pub fn strides(&self) -> u32 {
        self.strides
    }

    /// The words of the state (`docs/STATE.md`), 16 a row.
    pub fn state(&self) -> &[i32] {
        &self.state[..self.flow.count * STATE_WORDS]
    }

    /// What the rest shows to a role. The list is of what the role may do now; all else is the same for every role.
    pub fn look(&self, role: Role) -> Screen {
        let (mut value, mut list) = ([0; VALUE_WORDS], [0; list_bytes(MAX_ROWS)]);
        let looked = calls::look(self.flow.rows(), self.state(), role.number(), &mut value, &mut list).expect(OWN);
        let (has_value, failing, bytes) = (looked.has_value, looked.failing, looked.entries.len());
        Screen { value: has_value.then_some(value), failing, list, bytes }
    }
}

/// What a rest shows to a role, in 9 KiB.
#[derive(Clone, Debug)]
pub struct Screen {
    /// The leaves of its value, unused ones 0, if it has one.
    pub value: Option<[i32; VALUE_WORDS]>,
    /// Whether the flow fails. A screen without entries need not, and another role may have some.
    pub failing: bool,
    list: [u8; list_bytes(MAX_ROWS)],
    bytes: usize,
}

impl Screen {
    /// How many entries it has.
    pub fn count(&self) -> usize {
        self.bytes / ENTRY_BYTES
    }

    /// The entries, 35 bytes each: path, action, leaf kinds, byte 10.
    pub fn entries(&self) -> &[u8] {
        &self.list[..self.bytes]
    }
}
