//! The four calls on lent memory (01, "Grounds in the state"): rows, states and values are words,
//! 4 and 16 a row and 8; lists and events are bytes, a look's role is a number. A refusal leaves all lent memory as it was.

use crate::event::{Entry, ENTRY};
use crate::flow::Flow;
use crate::grounds::Ground;
use crate::limits::LEAVES;
use crate::roles::{self, Role};
use crate::rules::Rules;
use crate::sheet::{self, Row, LINES};
use crate::slips::Slip;
use crate::state::State;
use crate::words::{self, STATE_ROW};

/// Words a row of the rows memory: kind, A, B, C.
pub const ROW: usize = 4;

/// What a look answers; the value's leaves and the entries are in lent memory.
#[derive(Clone, Copy, Debug, Default, PartialEq, Eq)]
pub struct Looked {
    /// 0, or the ground's number.
    pub number: u32,
    /// The value flag.
    pub valued: bool,
    /// The failing flag.
    pub fails: bool,
    /// The bytes of the list that hold entries, from its front.
    pub bytes: usize,
}

/// Loads a sheet into 4 words a row. Grounds 1, 21, 2 to 7.
pub fn load(text: &[u8], rows: &mut [i32]) -> u32 {
    let loaded = rows_of_text(text, rows.len());
    loaded.map_or_else(number, |loaded| {
        rows.copy_from_slice(&loaded);
        0
    })
}

/// The words that a text loads to, where `room` words are lent for them.
fn rows_of_text(text: &[u8], room: usize) -> Result<Vec<i32>, Ground> {
    let lines = sheet::count_lines(text, Slip::None)?;
    exact(room, ROW * lines)?;
    Flow::load(text, Rules::default()).map(|flow| words_of_rows(&flow.rows))
}

/// Rows as words.
pub fn words_of_rows(rows: &[Row]) -> Vec<i32> {
    rows.iter().flat_map(|row| [row.kind, row.operands[0], row.operands[1], row.operands[2]]).collect()
}

/// The flow of these rows. Ground 20: no length that a sheet loads to, or rows on which load has a
/// ground. Every row of words that grounds 3 to 7 let pass has a line that reads as it.
pub fn flow_of(rows: &[i32]) -> Result<Flow, Ground> {
    let (rows, []) = rows.as_chunks::<ROW>() else { return Err(Ground::Rows) };
    if rows.is_empty() || rows.len() > LINES {
        return Err(Ground::Rows);
    }
    let rows = rows.iter().map(|&[kind, a, b, c]| Row::new(kind, a, b, c)).collect();
    Flow::of_rows(rows, Rules::default()).map_err(|_| Ground::Rows)
}

/// Writes the state that the flow starts in. Grounds 20, 21. Gives the number and the strides.
pub fn start(rows: &[i32], state: &mut [i32]) -> (u32, u32) {
    let started = flow_of(rows).and_then(|flow| {
        exact(state.len(), STATE_ROW * flow.rows.len())?;
        let (first, strides) = State::start(&flow);
        Ok((words::write(&flow, &first), strides))
    });
    moved(started, state)
}

/// Shows value, flags and list of a rest to a role. Grounds 20 to 23, 8, 24. An accepted look writes all 8 words of the
/// value memory, and the list memory up to the bytes that it answers.
pub fn look(rows: &[i32], state: &[i32], role: Role, value: &mut [i32], list: &mut [u8]) -> Looked {
    let looked = flow_of(rows).and_then(|flow| {
        exact(state.len(), STATE_ROW * flow.rows.len())?;
        exact(value.len(), LEAVES)?;
        let rest = rest(&flow, state)?;
        if !roles::is_role(role) {
            return Err(Ground::Event);
        }
        let look = rest.look(role);
        let bytes = bytes_of(&look.entries);
        if list.len() < bytes.len() {
            return Err(Ground::List);
        }
        Ok((look, bytes))
    });
    match looked {
        Ok((look, bytes)) => {
            value.copy_from_slice(&look.value.as_ref().map_or([0; LEAVES], |value| value.leaves(Slip::None)));
            list[..bytes.len()].copy_from_slice(&bytes);
            Looked { number: 0, valued: look.value.is_some(), fails: look.failing, bytes: bytes.len() }
        }
        Err(ground) => Looked { number: number(ground), ..Looked::default() },
    }
}

/// Handles an event and normalises. Grounds 20 to 23, 8, 9, 30, 31. Gives the number and the strides.
pub fn handle(rows: &[i32], state: &mut [i32], event: &[u8]) -> (u32, u32) {
    let handled = flow_of(rows).and_then(|flow| {
        exact(state.len(), STATE_ROW * flow.rows.len())?;
        let mut rest = rest(&flow, state)?;
        let strides = rest.handle(event)?;
        Ok((words::write(&flow, &rest), strides))
    });
    moved(handled, state)
}

/// Grounds 22 and 23: the rest that these words are the writing of.
fn rest<'f>(flow: &'f Flow, words: &[i32]) -> Result<State<'f>, Ground> {
    let state = words::read(flow, words).ok_or(Ground::NoState)?;
    if state.rests() {
        Ok(state)
    } else {
        Err(Ground::NoRest)
    }
}

/// Puts the words that a call leaves, if it accepts.
fn moved(answer: Result<(Vec<i32>, usize), Ground>, state: &mut [i32]) -> (u32, u32) {
    match answer {
        Ok((words, strides)) => {
            state.copy_from_slice(&words);
            (0, strides as u32)
        }
        Err(ground) => (number(ground), 0),
    }
}

/// Entries one after another.
fn bytes_of(entries: &[Entry]) -> Vec<u8> {
    let mut bytes = Vec::with_capacity(ENTRY * entries.len());
    entries.iter().try_for_each(|entry| entry.write(&mut bytes, Slip::None)).expect("memory is written");
    bytes
}

/// Ground 21: a length that is not the asked one.
fn exact(length: usize, asked: usize) -> Result<(), Ground> {
    (length == asked).then_some(()).ok_or(Ground::Memory)
}

fn number(ground: Ground) -> u32 {
    ground as u32
}
