//! Rests and events to measure the calls on.
#![allow(dead_code)] // Each user takes some of it.

use crate::deep;
use reference::calls;
use reference::flow::Flow;
use reference::generate::{self, touches};
use reference::random::Random;
use reference::roles::{Role, FIRST};
use reference::rules::Rules;
use reference::session;
use reference::sheet::Row;
use reference::slips::Slip;
use reference::state::State;
use reference::words;
use std::ops::RangeInclusive;

const SEED: u64 = 1;
/// Sheets of each size, and events of each.
pub const SHEETS: usize = 40;
pub const EVENTS: usize = 10;

/// Sizes, with the rows that sheets of that size have.
pub const SIZES: [(usize, RangeInclusive<usize>); 3] = [(16, 14..=18), (64, 58..=70), (250, 240..=256)];

/// Levels of 48 (43 (42, INNER), 45) at most.
pub const LEVELS: usize = 16;

/// A rest, a role to look at it in, and an event of that role for it.
pub struct Touch {
    pub rows: Vec<i32>,
    pub state: Vec<i32>,
    pub role: Role,
    pub event: Vec<u8>,
}

/// Touches of generated sheets with so many rows, as sessions make them.
pub fn of_size(rows: &RangeInclusive<usize>) -> Vec<Touch> {
    let flows = (0u64..).map(|at| {
        let mut random = Random::of_case(SEED, at);
        let rows = generate::accepted(&mut random);
        (random, rows)
    });
    let flows = flows.filter(|(_, own)| rows.contains(&own.len())).take(SHEETS);
    flows.flat_map(|(mut random, rows)| of_sheet(&mut random, rows)).collect()
}

fn of_sheet(random: &mut Random, rows: Vec<Row>) -> Vec<Touch> {
    let flow = Flow::of_rows(rows, Rules::default()).expect("accepted");
    let (mut state, _) = State::start(&flow);
    let mut touch = || {
        let event = touches::event(random, &state);
        let touch = Touch {
            rows: calls::words_of_rows(&flow.rows),
            state: words::write(&flow, &state),
            role: session::role_after(&event, Slip::None),
            event: event.clone(),
        };
        // A refused event leaves the state as it is.
        let _ = state.handle(&event);
        touch
    };
    (0..EVENTS).map(|_| touch()).collect()
}

/// Left at the start of so many levels.
pub fn of_levels(count: usize) -> Touch {
    let flow = Flow::of_rows(deep::levels(count), Rules::default()).expect("accepted");
    let (rows, state) = (calls::words_of_rows(&flow.rows), words::write(&flow, &State::start(&flow).0));
    Touch { rows, state, role: FIRST, event: deep::event(3) }
}
