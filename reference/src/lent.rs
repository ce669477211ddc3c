//! Inputs of the four calls from a seed: what is lent to them, whole or broken.
//!
//! Good rows and states come from accepted flows, at rests that a session reaches, at others, and at
//! states that are no rests. Then words are changed, lengths are made wrong, and contents are drawn;
//! in most inputs nothing or one thing, in some several, so that the order of the grounds shows.

use crate::calls::{self, ROW};
use crate::event::{entry_bytes, with_four_leaves, without_role, Event, ENTRY, EVENT};
use crate::flow::Flow;
use crate::generate::{self, blanks, faults, gates, layout, states, touches};
use crate::limits::{LEAVES, LEAVES_BEFORE};
use crate::random::Random;
use crate::roles::Role;
use crate::rules::Rules;
use crate::session::COUNT;
use crate::sheet::{Row, LINE, LINES};
use crate::slips::Slip;
use crate::state::State;
use crate::words::{self, STATE_ROW};

/// What is lent: `text` and `room`, the rows memory, to load; `rows` and `state` to start; these,
/// `role`, `value` and `list` to look; `rows`, `state` and `event` to handle.
#[derive(Clone, Debug, PartialEq, Eq)]
pub struct Lent {
    pub text: Vec<u8>,
    pub room: Vec<i32>,
    pub rows: Vec<i32>,
    pub state: Vec<i32>,
    pub role: Role,
    pub value: Vec<i32>,
    pub list: Vec<u8>,
    pub event: Vec<u8>,
}

/// Inputs 0 to `count` - 1 under a seed. Each follows from the seed and its own number.
pub fn inputs(seed: u64, count: u64) -> impl Iterator<Item = Lent> {
    (0..count).map(move |at| input(&mut Random::of_case(seed, at)))
}

fn input(random: &mut Random) -> Lent {
    let flow = Flow::of_rows(generate::accepted(random), Rules::default()).expect("accepted");
    let state = some_state(random, &flow);
    let role = some_role(random);
    let entries = state.look(role).entries;
    let text = if random.chance(60) { blanks::sheet(random, &flow.rows) } else { faulty_text(random) };
    let mut lent = Lent {
        room: drawn(random, text.len() / LINE * ROW),
        text,
        rows: calls::words_of_rows(&flow.rows),
        state: words::write(&flow, &state),
        role,
        value: drawn(random, LEAVES),
        list: list(random, flow.rows.len(), entries.len()),
        event: touches::event(random, &state),
    };
    // How many of 100 memories are broken; a state, which has the most ways to be, more often.
    let (percent, of_states) = random.weighed(&[(8, (0, 0)), (8, (12, 40)), (4, (50, 60))]);
    let broken = [percent, percent, percent, of_states, percent, percent].map(|percent| random.chance(percent));
    if broken[0] {
        break_text(random, &mut lent.text);
    }
    if broken[1] {
        break_length(random, &mut lent.room, ROW);
    }
    if broken[2] {
        break_rows(random, &mut lent.rows);
    }
    if broken[3] {
        for _ in 0..1 + random.below(2) {
            break_state(random, &flow, &mut lent.state);
        }
    }
    if broken[4] {
        break_value(random, &mut lent.value);
    }
    if broken[5] {
        break_event(random, &mut lent.event);
    }
    lent
}

/// Any words.
fn drawn(random: &mut Random, length: usize) -> Vec<i32> {
    (0..length).map(|_| random.word()).collect()
}

/// The text of a sheet with a fault or two, its row count left out.
fn faulty_text(random: &mut Random) -> Vec<u8> {
    let mut input = faults::sheet(random);
    input.drain(..COUNT.min(input.len()));
    input
}

/// A role to look in, mostly one that rows of kind 50 are for; now and then none.
pub fn some_role(random: &mut Random) -> Role {
    match random.below(20) {
        0 => *random.pick(&[0, 9, 10, 257, 1 << 31, Role::MAX]).expect("numbers"),
        1..=2 => random.between(1, 8) as Role,
        _ => *random.pick(&gates::ROLES).expect("roles"),
    }
}

/// A list memory for so many entries: exactly fitting, too short, now and then as it fitted before CR 4, or with bytes
/// left.
fn list(random: &mut Random, rows: usize, entries: usize) -> Vec<u8> {
    let fitting = ENTRY * entries;
    let length = match random.below(20) {
        0..=6 => fitting,
        7 => entry_bytes(LEAVES_BEFORE) * entries,
        8..=9 => fitting.saturating_sub(1),
        10 => random.below(fitting + 1),
        11 => 0,
        12..=15 => fitting + random.below(2 * ENTRY),
        16..=17 => ENTRY * rows,
        _ => random.below(ENTRY * rows + 1),
    };
    (0..length).map(|_| random.draw() as u8).collect()
}

/// A state of the flow.
fn some_state<'f>(random: &mut Random, flow: &'f Flow) -> State<'f> {
    match random.below(20) {
        0..=8 => reached(random, flow),
        9..=11 => states::rest(random, flow),
        12..=14 => states::state(random, flow),
        _ => {
            let mut drawn = (0..6).map(|_| unrested(random, flow));
            drawn.find(|state| !state.rests()).unwrap_or_else(|| State::start(flow).0)
        }
    }
}

/// A rest that start and events lead to.
fn reached<'f>(random: &mut Random, flow: &'f Flow) -> State<'f> {
    let (mut state, _) = State::start(flow);
    for _ in 0..random.below(12) {
        // A refused event leaves the state as it is.
        let _ = state.handle(&touches::event(random, &state));
    }
    state
}

/// What stands before normalising has come to its end: the last row evaluated, or an event handled,
/// and a stride or two. Some are rests.
fn unrested<'f>(random: &mut Random, flow: &'f Flow) -> State<'f> {
    let mut state = if random.chance(50) { State::evaluated(flow) } else { reached(random, flow) };
    for _ in 0..random.below(8) {
        let event = touches::event(random, &state);
        if let Some(event) = Event::read(&event, Slip::None) {
            state.take(event);
        }
    }
    for _ in 0..random.below(3) {
        state.stride();
    }
    state
}

/// Another length: a word or a row too few or too many, or any.
fn break_length(random: &mut Random, words: &mut Vec<i32>, row: usize) {
    let by = if random.chance(50) { row } else { 1 + random.below(row) };
    let length = match random.below(6) {
        0..=1 => words.len().saturating_sub(by),
        2..=3 => words.len() + by,
        4 => 0,
        _ => random.below(2 * words.len() + 2),
    };
    words.resize_with(length, || random.word());
}

/// Another length, now and then that of before CR 4.
fn break_value(random: &mut Random, value: &mut Vec<i32>) {
    if random.chance(20) {
        value.truncate(LEAVES_BEFORE);
    } else {
        break_length(random, value, 1);
    }
}

fn break_text(random: &mut Random, text: &mut Vec<u8>) {
    match random.below(5) {
        0 => text.truncate(random.below(text.len() + 1)),
        1 => text.extend((0..1 + random.below(2 * LINE)).map(|_| b' ')),
        2 => text.extend(b"   0   3           0           0           0\n".repeat(LINES)),
        3 => text.clear(),
        _ => {
            if let Some(at) = some_place(random, text.len()) {
                text[at] = *random.pick(b" 0123459-+\n\rx").expect("bytes");
            }
        }
    }
}

fn break_rows(random: &mut Random, rows: &mut Vec<i32>) {
    match random.below(10) {
        0..=2 => break_length(random, rows, ROW),
        3 => {
            // A row over 256, in front of rows that stay what they are.
            let (chunks, _) = rows.as_chunks::<ROW>();
            let more = LINES + 1 - chunks.len().min(LINES);
            let mut raised: Vec<Row> = chunks.iter().map(|&[kind, a, b, c]| Row::new(kind, a, b, c)).collect();
            raised.iter_mut().for_each(|row| layout::raise(row, more as i32));
            raised.splice(0..0, vec![Row::new(3, 0, 0, 0); more]);
            *rows = calls::words_of_rows(&raised);
        }
        4 => *rows = drawn(random, rows.len()),
        5 => {
            let (one, other) = (random.below(rows.len() / ROW), random.below(rows.len() / ROW));
            (0..ROW).for_each(|place| rows.swap(ROW * one + place, ROW * other + place));
        }
        _ => {
            // Numbers, contents and binders may change without a ground.
            let at = random.below(rows.len());
            rows[at] = match random.below(4) {
                0 => rows[at].wrapping_add(random.between(-1, 1)),
                1 if at.is_multiple_of(ROW) => random.between(0, 51),
                2 => random.between(-1, rows.len() as i32 / ROW as i32),
                _ => random.word(),
            };
        }
    }
}

fn break_state(random: &mut Random, flow: &Flow, state: &mut Vec<i32>) {
    let rows = state.len() / STATE_ROW;
    if rows == 0 {
        return break_length(random, state, STATE_ROW);
    }
    let row = random.below(rows) * STATE_ROW;
    if state[(rows - 1) * STATE_ROW] == words::WHOLE && random.chance(50) {
        return fail_whole(random, flow, state);
    }
    match random.below(24) {
        0..=3 => break_length(random, state, STATE_ROW),
        4..=10 => break_word(random, state),
        22..=23 => break_touches(random, flow, state),
        11 => state[row..row + STATE_ROW].fill(0),
        12 => {
            let other = random.below(rows) * STATE_ROW;
            state.copy_within(row..row + STATE_ROW, other);
        }
        13 => {
            let other = random.below(rows) * STATE_ROW;
            (0..STATE_ROW).for_each(|place| state.swap(row + place, other + place));
        }
        14..=16 => {
            // Rows of another state of the flow.
            let other = words::write(flow, &states::state(random, flow));
            let percent = [5, 30, 70][random.below(3)];
            for (row, other) in state.chunks_mut(STATE_ROW).zip(other.chunks(STATE_ROW)) {
                if row.len() == other.len() && random.chance(percent) {
                    row.copy_from_slice(other);
                }
            }
        }
        17 => state.fill(0),
        18 => *state = drawn(random, state.len()),
        19..=20 => fail_whole(random, flow, state),
        _ => {
            let at = random.below(state.len());
            state[at] = random.word();
        }
    }
}

/// Other touches left in a row of kind 50, if one is live: as many as it may have, one more, none, or fewer.
fn break_touches(random: &mut Random, flow: &Flow, state: &mut [i32]) {
    let whole = flow.rows.len().min(state.len() / STATE_ROW);
    let is_live = |row: &usize| flow.rows[*row].kind == 50 && state[row * STATE_ROW] == 1;
    let live: Vec<usize> = (0..whole).filter(is_live).collect();
    if let Some(&row) = random.pick(&live) {
        let most = flow.rows[row].operands[2];
        let words = [most, most + 1, 0, -1, random.between(0, most)];
        state[row * STATE_ROW + words::LEAF] = *random.pick(&words).expect("words");
    }
}

/// The words of a last row that failed as a whole (CR 3), whether start fails so or not, with the cells of start or of
/// any state; now and then the tag stands in another row.
pub fn fail_whole(random: &mut Random, flow: &Flow, state: &mut Vec<i32>) {
    let of_cells = if random.chance(40) { State::start(flow).0 } else { states::state(random, flow) };
    *state = words::write(flow, &of_cells);
    let rows = state.chunks_exact_mut(STATE_ROW).zip(&flow.rows);
    rows.filter(|(_, row)| row.kind != 10).for_each(|(words, _)| words.fill(0));
    let at = if random.chance(80) { flow.rows.len() - 1 } else { random.below(flow.rows.len()) };
    state[at * STATE_ROW] = words::WHOLE;
}

/// Changes a word, most often of a live row: tag, shape, leaf or what is always 0.
fn break_word(random: &mut Random, state: &mut [i32]) {
    let rows = 0..state.len() / STATE_ROW;
    let live: Vec<usize> = rows.filter(|row| state[row * STATE_ROW] != 0).collect();
    let row = random.pick(&live).copied().unwrap_or(0) * STATE_ROW;
    let leaf = words::LEAF + random.below(LEAVES);
    let ends = [words::LEAF, words::REST - 1, words::REST, STATE_ROW - 1];
    let end = *random.pick(&ends).expect("four");
    let place = random.weighed(&[(5, words::TAG), (3, words::SHAPE), (5, leaf), (5, end)]);
    let word = &mut state[row + place];
    *word = match random.below(4) {
        0 => word.wrapping_add(random.between(-1, 1)),
        1 if place == words::SHAPE => *random.pick(&[1, 2, 3, 44, 60, 56]).expect("shapes"),
        1 | 2 => random.between(0, 4),
        _ => random.word(),
    };
}

fn break_event(random: &mut Random, event: &mut Vec<u8>) {
    match random.below(6) {
        0 => event.truncate(random.below(EVENT)),
        1 => event.extend_from_slice(b"\n"),
        2 => event.extend_from_within(..),
        3 => *event = (0..EVENT).map(|_| random.draw() as u8).collect(),
        4 if random.chance(50) => *event = without_role(event),
        4 => *event = with_four_leaves(event),
        _ => {
            if let Some(at) = some_place(random, event.len()) {
                event[at] = *random.pick(b" 01234-+\nx").expect("bytes");
            }
        }
    }
}

fn some_place(random: &mut Random, length: usize) -> Option<usize> {
    (length > 0).then(|| random.below(length))
}
