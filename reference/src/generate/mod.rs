//! Cases from a seed: inputs of sessions.
//!
//! [`draft`] makes well-typed flows out of [`plain`] expressions and [`tasks`], some of them in
//! the [`shapes`] and with the [`effects`] that slips hide in, some with numbers at the [`ends`] of the
//! range, some over [`wide`] values, some with [`gates`], rows of kind 50, around their parts; [`layout`] writes them as
//! rows; [`faults`] breaks sheets near each ground; [`touches`] makes events, most of them from the list shown; [`blanks`] leaves fields of both blank. [`states`] makes
//! states of a flow that no session need reach. [`arrangements`] makes two sheets of one flow (CR 5), with what
//! [`rewrite`] makes of its trees.

pub mod arrangements;
pub mod blanks;
pub mod draft;
pub mod effects;
pub mod ends;
pub mod faults;
pub mod gates;
pub mod layout;
pub mod plain;
pub mod rewrite;
pub mod shapes;
pub mod states;
pub mod tasks;
pub mod touches;
pub mod wide;

use crate::event::{Action, Entry};
use crate::flow::Flow;
use crate::random::Random;
use crate::roles::Who;
use crate::rules::Rules;
use crate::session;
use crate::sheet::{self, Row, LINE};
use crate::state::State;

/// The inputs of cases 0 to `count` - 1 under a seed.
pub fn cases(seed: u64, count: u64) -> impl Iterator<Item = Vec<u8>> {
    (0..count).map(move |at| case(&mut Random::of_case(seed, at)))
}

/// One session's input.
fn case(random: &mut Random) -> Vec<u8> {
    let mut input = if random.chance(30) { faults::sheet(random) } else { sheet(random) };
    if let Ok(Ok(flow)) = session::load(&mut &input[..], Rules::default()) {
        input.extend(events(random, &flow));
    }
    input
}

/// A row count and an accepted sheet.
fn sheet(random: &mut Random) -> Vec<u8> {
    let rows = accepted(random);
    let text = blanks::sheet(random, &rows);
    with_count(text)
}

/// The rows of an accepted sheet.
pub fn accepted(random: &mut Random) -> Vec<Row> {
    loop {
        let draft = draft::Draft::new(random, draft::Limits::default()).flow();
        if let Some(rows) = layout::rows(random, &draft) {
            return rows;
        }
    }
}

/// A row count and the sheet of these rows.
pub fn counted(rows: &[Row]) -> Vec<u8> {
    with_count(sheet::write(rows))
}

/// A row count in front of a sheet's text.
pub fn with_count(text: Vec<u8>) -> Vec<u8> {
    let mut input = format!("{:>4}\n", text.len() / LINE).into_bytes();
    input.extend(text);
    input
}

/// Events for a flow, made while it runs.
fn events(random: &mut Random, flow: &Flow) -> Vec<u8> {
    let (mut state, _) = State::start(flow);
    let mut events = Vec::new();
    let count = if random.chance(5) { 100 } else { random.below(34) };
    for _ in 0..count {
        if random.chance(weariness(&state)) {
            break;
        }
        let event = touches::event(random, &state);
        // A refused event leaves the state as it is.
        let _ = state.handle(&event);
        events.extend(event);
    }
    if random.chance(10) {
        events.extend(touches::short(random, &state));
    }
    events
}

/// How soon a session ends: little happens any more where nothing, or nothing but editors, is shown to any role.
fn weariness(state: &State) -> usize {
    let entries: Vec<Entry> = gates::ROLES.into_iter().flat_map(|role| state.entries(Who::Is(role))).collect();
    match &entries[..] {
        [] => 25,
        _ if entries.iter().all(|entry| entry.action == Action::Value) => 8,
        _ => 0,
    }
}
