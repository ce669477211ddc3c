//! Sessions: bytes to count, rows and events and back, and changes of them.

use crate::{blanks, lines};
use reference::event::{with_four_leaves, without_role, ACTION, ENTRY, EVENT, PATH, ROLE_COLUMNS};
use reference::generate::{self, touches};
use reference::random::Random;
use reference::rules::Rules;
use reference::session::{self, COUNT, HEAD, HEAD_COUNT};
use reference::sheet::{self, Row, LINE};
use reference::slips::Slip;
use reference::state::State;

/// Bytes that fields are made of, and some that they are not.
const BYTES: &[u8] = b"    0123456789-+\n\r\t\0\xffx";
/// Bytes of a session at most.
const MOST: usize = 20_000;

/// A session of those in the pool, changed in one or some ways; now and then one of the second implementation's cases.
pub fn make(random: &mut Random, pool: &[Vec<u8>]) -> Vec<u8> {
    if random.chance(4) {
        return generate::cases(random.draw(), 1).next().expect("one");
    }
    let mut input = random.pick(pool).expect("a pool").clone();
    let other = random.pick(pool).expect("a pool");
    for _ in 0..1 + random.below(3) {
        match random.below(12) {
            0..=1 => change_bytes(random, &mut input, BYTES),
            2..=3 => blank(random, &mut input),
            4..=6 => change_rows(random, &mut input, other),
            7 => change_events(random, &mut input, other),
            _ => touch(random, &mut input),
        }
    }
    input.truncate(MOST);
    input
}

/// Where the sheet ends, where the count can be read and is met.
fn sheet_end(input: &[u8]) -> Option<usize> {
    let count: usize = std::str::from_utf8(input.get(..COUNT)?).ok()?.trim().parse().ok()?;
    count.checked_mul(LINE)?.checked_add(COUNT).filter(|&end| end <= input.len())
}

/// Rows and events, where the count and the lines can be read.
pub fn parts(input: &[u8]) -> Option<(Vec<Row>, &[u8])> {
    let (sheet, events) = input.split_at(sheet_end(input)?);
    sheet::read(&sheet[COUNT..], Slip::None).ok().map(|rows| (rows, events))
}

/// Fields of a line or of an event left blank.
fn blank(random: &mut Random, input: &mut [u8]) {
    let Some(end) = sheet_end(input) else { return };
    if random.chance(50) {
        blanks::line(random, &mut input[COUNT..end]);
    } else {
        blanks::event(random, &mut input[end..]);
    }
}

/// A byte or a few put, taken out or put in.
pub fn change_bytes(random: &mut Random, bytes: &mut Vec<u8>, from: &[u8]) {
    let at = random.below(bytes.len() + 1);
    let count = random.below(bytes.len() - at + 1).min(1 + random.below(80));
    let byte = *random.pick(from).expect("bytes");
    match random.below(8) {
        0..=2 if at < bytes.len() => bytes[at] = byte,
        3 if at < bytes.len() => bytes[at] ^= 1 << random.below(8),
        4 => bytes.insert(at, byte),
        5 => drop(bytes.drain(at..at + count)),
        6 => {
            let part = bytes[at..at + count].to_vec();
            let to = random.below(bytes.len() + 1);
            bytes.splice(to..to, part);
        }
        _ => bytes.truncate(at),
    }
}

fn change_rows(random: &mut Random, input: &mut Vec<u8>, other: &[u8]) {
    let Some((mut rows, events)) = parts(input) else { return };
    let other = parts(other).map_or(Vec::new(), |(rows, _)| rows);
    lines::change(random, &mut rows, &other);
    *input = [generate::counted(&rows), events.to_vec()].concat();
}

/// Events in another order, twice, left out, those of another session, of another role, or one of four leaves or without a role
/// at the end.
fn change_events(random: &mut Random, input: &mut Vec<u8>, other: &[u8]) {
    let (Some((rows, events)), Some((_, others))) = (parts(input), parts(other)) else { return };
    let old = if random.chance(50) { with_four_leaves } else { without_role };
    let old = events.chunks_exact(EVENT).last().map(old).unwrap_or_default();
    let other_role = events.chunks_exact(EVENT).last().map(|event| with_drawn_role(random, event)).unwrap_or_default();
    let mut events: Vec<&[u8]> = events.chunks(EVENT).collect();
    let at = random.below(events.len() + 1);
    match random.below(7) {
        0 => events.extend(others.chunks(EVENT)),
        1 => drop(events.drain(at..)),
        2 => events.push(&old),
        5..=6 => events.push(&other_role),
        3 if at < events.len() => drop(events.remove(at)),
        _ if at < events.len() => {
            let with = random.below(events.len());
            events.swap(at, with);
        }
        _ => {}
    }
    *input = [generate::counted(&rows), events.concat()].concat();
}

/// The event with another role, or none.
fn with_drawn_role(random: &mut Random, event: &[u8]) -> Vec<u8> {
    let mut event = event.to_vec();
    event[ROLE_COLUMNS].copy_from_slice(format!("{:2}", random.between(0, 9)).as_bytes());
    event
}

/// Further events, for what the session shows at its end.
fn touch(random: &mut Random, input: &mut Vec<u8>) {
    let text = input.clone();
    let mut rest = &text[..];
    let Ok(Ok(flow)) = session::load(&mut rest, Rules::default()) else { return };
    let (mut state, _) = State::start(&flow);
    // A short last event is left out. A refused event leaves the state as it is.
    let whole = input.len() - rest.len() % EVENT;
    for event in rest.chunks_exact(EVENT) {
        let _ = state.handle(event);
    }
    input.truncate(whole);
    for _ in 0..1 + random.below(4) {
        let event = touches::event(random, &state);
        let _ = state.handle(&event);
        input.extend(event);
    }
}

/// What the screens show, each and from one to the next: the head line, without leaves, and the entries.
pub fn shown(screens: &[u8]) -> Vec<u64> {
    let (mut shown, mut before) = (Vec::new(), 0);
    let mut rest = screens;
    while let Some((head, after)) = rest.split_at_checked(HEAD) {
        let count = number(&head[HEAD_COUNT]) as usize;
        let Some((entries, after)) = after.split_at_checked(ENTRY * count) else { break };
        let own = hash([number(&head[..4]), number(&head[4..8]), number(&head[8..12]), count as u64]);
        shown.extend([own, hash([own, before, 0, 1]), hash([own, actions(entries), 0, 2])]);
        (rest, before) = (after, own);
    }
    shown
}

/// Actions, path lengths and leaf kinds of entries.
fn actions(entries: &[u8]) -> u64 {
    entries.chunks(ENTRY).fold(0, |sum, entry| {
        let (path, rest) = entry.split_at(PATH);
        let (action, kinds) = rest.split_at(ACTION);
        let marks = path.iter().filter(|&&byte| byte != b' ').count() as u64;
        hash([sum, marks, number(action), number(kinds)])
    })
}

/// The digits of columns.
fn number(columns: &[u8]) -> u64 {
    columns.iter().filter(|byte| byte.is_ascii_digit()).fold(0, |sum, byte| 10 * sum + u64::from(byte - b'0'))
}

pub fn hash(numbers: [u64; 4]) -> u64 {
    numbers.into_iter().fold(0, |sum, number| Random::new(sum ^ number).draw())
}
