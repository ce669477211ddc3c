//! Lent memory: what sessions lend to the calls, and changes of it.

use crate::sessions::{change_bytes, hash};
use crate::{blanks, lines};
use reference::calls::{self, ROW};
use reference::engine::Answers;
use reference::event::{ENTRY, EVENT};
use reference::flow::Flow;
use reference::generate::{states, touches};
use reference::lent::{self, Lent};
use reference::limits::LEAVES;
use reference::random::Random;
use reference::roles::Role;
use reference::rules::Rules;
use reference::session;
use reference::sheet::{self, Row};
use reference::slips::Slip;
use reference::state::{LastRow, State};
use reference::words::{self, STATE_ROW};

/// Words and bytes of a memory at most: a fence has room for them.
pub const MOST_WORDS: usize = 50_000;
pub const MOST_BYTES: usize = 200_000;

/// What a session lends at each of its events; nothing where its sheet is refused.
pub fn of_session(input: &[u8]) -> Vec<Lent> {
    let mut events = input;
    let Ok(Ok(flow)) = session::load(&mut events, Rules::default()) else { return Vec::new() };
    let (mut state, _) = State::start(&flow);
    let mut lent = Vec::new();
    for event in events.chunks(EVENT).chain([&b""[..]]) {
        lent.push(of_state(&flow, &state, session::role_after(event, Slip::None), event.to_vec()));
        // A refused event leaves the state as it is.
        let _ = state.handle(event);
    }
    lent
}

fn of_state(flow: &Flow, state: &State, role: Role, event: Vec<u8>) -> Lent {
    let rows = calls::words_of_rows(&flow.rows);
    let list = vec![b'.'; ENTRY * state.look(role).entries.len()];
    Lent {
        text: sheet::write(&flow.rows),
        room: vec![7; rows.len()],
        rows,
        state: words::write(flow, state),
        role,
        value: vec![7; LEAVES],
        list,
        event,
    }
}

/// An input of those in the pool, changed in one or some ways; now and then one of the second implementation's.
pub fn make(random: &mut Random, pool: &[Lent]) -> Lent {
    if random.chance(5) {
        return lent::inputs(random.draw(), 1).next().expect("one");
    }
    let mut lent = random.pick(pool).expect("a pool").clone();
    let other = random.pick(pool).expect("a pool");
    for _ in 0..1 + random.below(3) {
        change(random, &mut lent, other);
    }
    for words in [&mut lent.room, &mut lent.rows, &mut lent.state, &mut lent.value] {
        words.truncate(MOST_WORDS);
    }
    for bytes in [&mut lent.text, &mut lent.list, &mut lent.event] {
        bytes.truncate(MOST_BYTES);
    }
    lent
}

fn change(random: &mut Random, lent: &mut Lent, other: &Lent) {
    match random.below(24) {
        0 => change_bytes(random, &mut lent.text, b" 0123456789-\n"),
        1 => change_bytes(random, &mut lent.event, b" 01234-\n"),
        2 => change_bytes(random, &mut lent.list, b".27"),
        3 => change_words(random, &mut lent.room, &other.room, ROW),
        4 => change_words(random, &mut lent.rows, &other.rows, ROW),
        5..=7 => change_words(random, &mut lent.state, &other.state, STATE_ROW),
        8 => change_words(random, &mut lent.value, &other.value, LEAVES),
        9 => lent.event.clone_from(&other.event),
        10 => lent.list.resize(random.below(2 * (lent.list.len() + ENTRY)), b'.'),
        11..=13 => change_rows(random, lent, other),
        14..=17 => run(random, lent),
        18 => drawn(random, lent),
        19 => blanks::line(random, &mut lent.text),
        20 => blanks::event(random, &mut lent.event),
        21 => lent.role = lent::some_role(random),
        22 => other_touches(random, lent),
        _ => lent.text.clone_from(&other.text),
    }
}

/// A word or a row changed, moved or taken from elsewhere, or the length.
pub fn change_words(random: &mut Random, words: &mut Vec<i32>, other: &[i32], row: usize) {
    let length = match random.below(12) {
        0 => 0,
        1 => random.below(2 * words.len() + 2),
        2 => words.len() + row,
        3 => words.len().saturating_sub(1 + random.below(row)),
        4 if random.chance(5) => MOST_WORDS,
        _ => words.len(),
    };
    words.resize_with(length, || random.word());
    if words.is_empty() {
        return;
    }
    let at = random.below(words.len());
    let [from, to] = [(); 2].map(|()| random.below(words.len().div_ceil(row)) * row);
    match random.below(8) {
        0 => words[at] ^= 1 << random.below(32),
        1 => words[at] = words[at].wrapping_add(random.between(-1, 1)),
        2..=3 => words[at] = random.word(),
        4 => {
            let part = words[from..(from + row).min(words.len())].to_vec();
            words.iter_mut().skip(to).zip(part).for_each(|(word, new)| *word = new);
        }
        5 => words.iter_mut().skip(from).zip(other.iter().skip(from)).take(row).for_each(|(word, &new)| *word = new),
        6 => words.iter_mut().skip(from).take(row).for_each(|word| *word = 0),
        _ => words.iter_mut().zip(other).skip(from).for_each(|(word, &new)| *word = new),
    }
}

fn rows_of(words: &[i32]) -> Vec<Row> {
    words.as_chunks().0.iter().map(|&[kind, a, b, c]| Row::new(kind, a, b, c)).collect()
}

/// Other rows, often with a state and a sheet of their own.
fn change_rows(random: &mut Random, lent: &mut Lent, other: &Lent) {
    let mut rows = rows_of(&lent.rows);
    lines::change(random, &mut rows, &rows_of(&other.rows));
    lent.rows = calls::words_of_rows(&rows);
    if random.chance(70) {
        lent.text = sheet::write(&rows);
        lent.room.resize(lent.rows.len(), 7);
    }
    if let Some(flow) = calls::flow_of(&lent.rows).ok().filter(|_| random.chance(80)) {
        lent.state = words::write(&flow, &State::start(&flow).0);
    }
}

/// An event for the rest, and now and then the state after it.
fn run(random: &mut Random, lent: &mut Lent) {
    let Ok(flow) = calls::flow_of(&lent.rows) else { return };
    if lent.state.len() != STATE_ROW * flow.rows.len() {
        return;
    }
    let Some(mut state) = words::read(&flow, &lent.state) else { return };
    lent.event = touches::event(random, &state);
    lent.role = session::role_after(&lent.event, Slip::None);
    lent.list.resize(ENTRY * state.look(lent.role).entries.len(), b'.');
    lent.value.resize(LEAVES, 7);
    if random.chance(50) && state.rests() && state.handle(&lent.event).is_ok() {
        let event = touches::event(random, &state);
        *lent = of_state(&flow, &state, session::role_after(&event, Slip::None), event);
    }
}

/// Other touches left in the rows of kind 50 that are live.
fn other_touches(random: &mut Random, lent: &mut Lent) {
    let Ok(flow) = calls::flow_of(&lent.rows) else { return };
    let Some(mut state) = words::read(&flow, &lent.state) else { return };
    if let LastRow::Task(task) = &mut state.last_row {
        task.change_touches(&mut |gate| states::touches_left(random, gate));
    }
    lent.state = words::write(&flow, &state);
}

/// A state of the flow, a rest or not; now and then the words of a last row that failed as a whole, a state or not.
fn drawn(random: &mut Random, lent: &mut Lent) {
    let Ok(flow) = calls::flow_of(&lent.rows) else { return };
    if random.chance(25) {
        return lent::fail_whole(random, &flow, &mut lent.state);
    }
    let state = if random.chance(50) { states::rest(random, &flow) } else { states::state(random, &flow) };
    lent.state = words::write(&flow, &state);
}

/// What the answers show: the numbers, the counts, and which kinds of rows are live by which tag.
pub fn shown(lent: &Lent, answers: &Answers) -> Vec<u64> {
    let [load, start, look, handle] = answers.numbers().map(u64::from);
    let Answers { look: looked, start: (_, strides), handle: (_, handled), .. } = answers;
    let mut shown = vec![
        hash([load, start, look, handle]),
        hash([start, u64::from(*strides), handle, u64::from(*handled) + 1000]),
        hash([look, looked.bytes as u64, u64::from(looked.fails), u64::from(looked.valued) + 2000]),
    ];
    let rows = lent.rows.chunks(ROW).zip(lent.state.chunks(STATE_ROW)).filter(|(_, state)| state[0] != 0);
    // Words that no row has are one.
    let [kind, tag] = [|word: i32| word.clamp(0, 51) as u64, |word: i32| word.clamp(0, 5) as u64];
    shown.extend(rows.map(|(row, state)| hash([kind(row[0]), tag(state[0]), look, handle + 3000])));
    shown
}
