//! The words of a state: each line of the table in `docs/STATE.md`, and that writing and reading are
//! inverse.

mod common;

use common::*;
use reference::calls;
use reference::event::{self, EVENT};
use reference::flow::Flow;
use reference::generate::{self, states};
use reference::random::Random;
use reference::rules::Rules;
use reference::session;
use reference::sheet::Row;
use reference::state::State;
use reference::syntax::Type;
use reference::value::Leaves;
use reference::words::{self, STATE_ROW};

const SEED: u64 = 1;
const LAYOUT: &str = include_str!("../../docs/STATE.md");

/// A live row: its number, tag, shape and leaves.
type Live = (usize, i32, i32, Leaves);

/// A line of the table, a flow, events, and the rows that are live after start and these events.
struct Line {
    table: &'static str,
    rows: Vec<[i32; 4]>,
    events: Vec<Vec<u8>>,
    live: Vec<Live>,
}

fn line(table: &'static str, rows: &[[i32; 4]], events: &[Vec<u8>], live: &[Live]) -> Line {
    Line { table, rows: rows.to_vec(), events: events.to_vec(), live: live.to_vec() }
}

/// A live row that holds a number.
fn number(at: usize, tag: i32, leaf: i32) -> Live {
    (at, tag, 3, padded(&[leaf]))
}

/// A live row that holds a tag alone.
fn bare(at: usize, tag: i32) -> Live {
    (at, tag, 0, padded(&[]))
}

const NUMBER: [i32; 4] = [3, 0, 0, 0];
const EMPTY: [i32; 4] = [41, 0, 0, 0];

/// The lines of the table, in its order, those of two kinds or two tags once for each.
fn lines() -> Vec<Line> {
    let step = |kind| [NUMBER, EMPTY, [23, 0, 0, 0], [40, 2, 0, 0], [kind, 1, 3, 0]];
    let two = |kind| [NUMBER, EMPTY, EMPTY, [kind, 1, 2, 0]];
    let cells = [NUMBER, [2, 0, 0, 0], [10, 0, -7, 0], [10, 1, 1, 0], [42, 3, 0, 0]];
    let either = |truth| [NUMBER, [21, truth, 0, 0], EMPTY, [45, 0, 0, 0], [25, 1, 2, 3]];
    let pair = |kind| [[22, 5, 0, 0], [22, -6, 0, 0], [26, 0, 1, 0], [kind, 2, 0, 0]];
    let task_of_a = "| 43, 44 | a task of A | 1 | | A |";
    let taken = "| 43, 44 | a value of A's type and a task of B under it | 2 | that value | B |";
    let chosen = "| 47 | the left, the right | 2, 3 | | A, B |";
    let picked = "| 48 | a side and its task | 2, 3 | | A, B |";
    let gated = "| 50 | touches left, and a task of B | 1 | the touches left, a number | B |";
    let decided = "| 25 | a side and its task | 2, 3 | | B, C |";
    let gate = [NUMBER, EMPTY, [50, 2, 1, 3]];
    // P12's sum, beside a cell.
    let beyond = [NUMBER, [10, 0, 6, 0], [22, i32::MAX, 0, 0], [22, 1, 0, 0], [24, 1, 2, 3], [40, 4, 0, 0]];
    let in_cells = [number(2, 1, -7), (3, 1, 2, padded(&[1])), bare(4, 1)];
    vec![
        line("| 10 | cell | 1 | its content | |", &cells, &[], &in_cells),
        line("| 40 | filled | 1 | its content | |", &pair(40), &[], &[(3, 1, 60, padded(&[5, -6]))]),
        line("| 41 | empty | 1 | | |", &[NUMBER, EMPTY], &[], &[bare(1, 1)]),
        line("| 41 | with a content | 2 | its content | |", &[NUMBER, EMPTY], &[value("", 6)], &[number(1, 2, 6)]),
        line("| 42 | shared | 1 | | |", &[NUMBER, [10, 0, 4, 0], [42, 1, 0, 0]], &[], &[number(1, 1, 4), bare(2, 1)]),
        line(task_of_a, &step(43), &[], &[bare(1, 1), bare(4, 1)]),
        line(task_of_a, &step(44), &[value("", 8)], &[number(1, 2, 8), bare(4, 1)]),
        line(taken, &step(43), &[value("", 8)], &[number(3, 1, 8), number(4, 2, 8)]),
        line(taken, &step(44), &[value("", 8), go_on("")], &[number(3, 1, 8), number(4, 2, 8)]),
        line("| 45 | itself | 1 | | |", &[NUMBER, [45, 0, 0, 0]], &[], &[bare(1, 1)]),
        line("| 46 | two | 1 | | A, B |", &two(46), &[], &[bare(1, 1), bare(2, 1), bare(3, 1)]),
        line("| 47 | two | 1 | | A, B |", &two(47), &[], &[bare(1, 1), bare(2, 1), bare(3, 1)]),
        line(chosen, &two(47), &[value("1", 9)], &[number(1, 2, 9), bare(3, 2)]),
        line(chosen, &two(47), &[value("2", 9)], &[number(2, 2, 9), bare(3, 3)]),
        line("| 48 | unpicked | 1 | | |", &two(48), &[], &[bare(3, 1)]),
        line(picked, &two(48), &[left("")], &[bare(1, 1), bare(3, 2)]),
        line(picked, &two(48), &[right("")], &[bare(2, 1), bare(3, 3)]),
        line("| 49 | shown | 1 | its content | |", &pair(49), &[], &[(3, 1, 60, padded(&[5, -6]))]),
        line(gated, &gate, &[], &[bare(1, 1), number(2, 1, 3)]),
        line(gated, &gate, &[by(2, value("", 6))], &[number(1, 2, 6), number(2, 1, 2)]),
        line(decided, &either(1), &[], &[bare(2, 1), bare(4, 2)]),
        line(decided, &either(0), &[], &[bare(3, 1), bare(4, 3)]),
        line(
            "| 31 | a value and a task of B | 2 | that value | B |",
            &[[21, 1, 0, 0], [23, 0, 0, 0], [40, 1, 0, 0], [31, 0, 2, 0]],
            &[],
            &[(2, 1, 2, padded(&[1])), (3, 2, 2, padded(&[1]))],
        ),
        line("| last row | failed as a whole | 4 | | |", &beyond, &[], &[number(1, 1, 6), bare(5, 4)]),
    ]
}

fn flow(rows: &[[i32; 4]]) -> Flow {
    let rows = rows.iter().map(|&[kind, a, b, c]| Row::new(kind, a, b, c)).collect();
    Flow::of_rows(rows, Rules::default()).expect("accepted")
}

/// The words of these live rows, every other word 0.
fn words_of(rows: usize, live: &[Live]) -> Vec<i32> {
    let mut words = vec![0; STATE_ROW * rows];
    for &(at, tag, shape, leaves) in live {
        let row = &mut words[STATE_ROW * at..][..STATE_ROW];
        row[words::TAG] = tag;
        row[words::SHAPE] = shape;
        row[words::LEAF..words::REST].copy_from_slice(&leaves);
    }
    words
}

#[test]
fn each_line_of_the_table() {
    for Line { table, rows, events, live } in lines() {
        let flow = flow(&rows);
        let (mut state, _) = State::start(&flow);
        for event in events {
            assert!(state.handle(&event).is_ok(), "{table}");
        }
        let words = words_of(rows.len(), &live);
        assert_eq!(words::write(&flow, &state), words, "{table}");
        assert_eq!(words::read(&flow, &words), Some(state), "{table}");
    }
}

/// The lines above are the table's, all of them, in its order.
#[test]
fn the_table_has_these_lines() {
    let table = LAYOUT.lines().skip_while(|line| !line.starts_with("| Row |")).skip(2);
    let table: Vec<&str> = table.take_while(|line| line.starts_with('|')).collect();
    let mut told: Vec<&str> = lines().iter().map(|line| line.table).collect();
    told.dedup();
    assert_eq!(told, table);
}

#[test]
fn shapes() {
    let pair = Type::pair;
    assert_eq!([Type::Unit, Type::Truth, Type::Number].map(|of| words::shape(&of)), [1, 2, 3]);
    assert_eq!(words::shape(&pair(Type::Number, Type::Number)), 60);
    // Prefix order: pair, unit, pair, truth, number.
    let of = pair(Type::Unit, pair(Type::Truth, Type::Number));
    assert_eq!(words::shape(&of), 4 + 16 * (4 * (2 + 4 * 3)));
    // Pair, pair, unit, truth, number: the same leaves, another type.
    assert_eq!(words::shape(&pair(pair(Type::Unit, Type::Truth), Type::Number)), 16 * (1 + 4 * (2 + 4 * 3)));
    let four = pair(pair(Type::Number, Type::Number), pair(Type::Number, Type::Number));
    assert_eq!(words::shape(&four), 4 * (60 + 64 * 60));
    // Eight leaves have 15 digits.
    let eight = words::shape(&pair(four.clone(), four));
    assert_eq!((eight, eight / 4_i32.pow(14)), (4 * (15_600 + 4_i32.pow(7) * 15_600), 3));
}

/// Leaves of a deeper pair stand in order, a unit as 0.
#[test]
fn leaves_of_a_pair() {
    let rows = [[1, 0, 0, 0], [2, 0, 0, 0], NUMBER, [4, 1, 2, 0], [4, 0, 3, 0], [41, 4, 0, 0]];
    let flow = flow(&rows);
    let (mut state, _) = State::start(&flow);
    state.handle(&event::write("", 1, padded(&[0, 1, -7]))).expect("taken");
    let words = words_of(6, &[(5, 2, 900, padded(&[0, 1, -7]))]);
    assert_eq!(words::write(&flow, &state), words);
    let places =
        [(2, 1), (3, 2), (3, -1), (5, 1), (6, 1), (9, 1), (10, 1), (15, 1), (1, 3), (1, 60), (0, 1), (0, 3), (0, 0)];
    for (place, word) in places {
        let mut changed = words.clone();
        changed[5 * STATE_ROW + place] = word;
        assert_eq!(words::read(&flow, &changed), None, "{word} at {place}");
    }
}

/// The flows of cases, each with the states after start and after each event.
fn sessions(count: u64, mut each: impl FnMut(&Flow, &[State])) {
    for input in generate::cases(SEED, count) {
        let mut input = &input[..];
        let Ok(Ok(flow)) = session::load(&mut input, Rules::default()) else { continue };
        let mut states = vec![State::start(&flow).0];
        for event in input.chunks(EVENT) {
            let mut after = states[states.len() - 1].clone();
            let _ = after.handle(event);
            states.push(after);
        }
        states.dedup();
        each(&flow, &states);
    }
}

fn written_and_read(flow: &Flow, state: &State) {
    let words = words::write(flow, state);
    assert_eq!(words.len(), STATE_ROW * flow.rows.len());
    assert_eq!(words::read(flow, &words).as_ref(), Some(state));
}

#[test]
fn reading_undoes_writing() {
    sessions(3000, |flow, states| {
        assert_eq!(calls::flow_of(&calls::words_of_rows(&flow.rows)).expect("accepted").rows, flow.rows);
        states.iter().for_each(|state| written_and_read(flow, state));
    });
    for at in 0..3000 {
        let random = &mut Random::of_case(SEED, at);
        let rows = generate::accepted(random);
        let flow = Flow::of_rows(rows, Rules::default()).expect("accepted");
        written_and_read(&flow, &states::state(random, &flow));
        written_and_read(&flow, &states::rest(random, &flow));
    }
}

/// What changed words read as, if anything, is another state, and they are its writing. Gives
/// whether they read.
fn reads_as_another(flow: &Flow, words: &[i32], changed: &[i32]) -> bool {
    let read = words::read(flow, changed);
    if let Some(state) = &read {
        assert_eq!(words::write(flow, state), changed);
        assert_eq!(words::read(flow, words).as_ref() == Some(state), words == changed);
        let value = state.look(1).value;
        assert!(value.is_none_or(|value| value.type_of() == flow.own_type));
    }
    read.is_some()
}

/// Counts of changes that read and that do not.
fn change_each_word(flow: &Flow, state: &State, counts: &mut [usize; 2]) {
    let mut words = words::write(flow, state);
    let good = words.clone();
    for place in 0..words.len() {
        let word = words[place];
        for other in [0, 1, 2, 3, 4, 60, -1, word.wrapping_add(1), word.wrapping_sub(1), i32::MIN, i32::MAX] {
            if other != word {
                words[place] = other;
                counts[usize::from(reads_as_another(flow, &good, &words))] += 1;
            }
        }
        words[place] = word;
    }
}

#[test]
fn each_change_of_one_word_of_the_table() {
    let mut counts = [0; 2];
    for Line { rows, events, .. } in lines() {
        let flow = flow(&rows);
        let (mut state, _) = State::start(&flow);
        for event in &events {
            assert!(state.handle(event).is_ok());
        }
        change_each_word(&flow, &state, &mut counts);
    }
    assert!(counts[0] > 10_000 && counts[1] > 50, "{counts:?}");
}

#[test]
fn each_change_of_one_word_of_cases() {
    let mut counts = [0; 2];
    sessions(400, |flow, states| {
        if flow.rows.len() <= 40 {
            states.iter().take(4).for_each(|state| change_each_word(flow, state, &mut counts));
        }
    });
    assert!(counts[0] > 1_000_000 && counts[1] > 5_000, "{counts:?}");
}

/// Rows of two states of one flow, mixed.
#[test]
fn mixed_states() {
    let mut counts = [0; 2];
    for at in 0..2000 {
        let random = &mut Random::of_case(SEED + 1, at);
        let flow = Flow::of_rows(generate::accepted(random), Rules::default()).expect("accepted");
        let words = words::write(&flow, &states::state(random, &flow));
        let other = words::write(&flow, &states::state(random, &flow));
        for _ in 0..8 {
            let percent = [2, 10, 50, 90][random.below(4)];
            let rows = words.chunks(STATE_ROW).zip(other.chunks(STATE_ROW));
            let mixed: Vec<&[i32]> = rows.map(|(one, two)| if random.chance(percent) { two } else { one }).collect();
            counts[usize::from(reads_as_another(&flow, &words, &mixed.concat()))] += 1;
        }
    }
    assert!(counts.iter().all(|&count| count > 1000), "{counts:?}");
}

/// No words but 16 a row.
#[test]
fn other_lengths() {
    let flow = flow(&[NUMBER, EMPTY]);
    let words = words_of(2, &[bare(1, 1)]);
    assert!(words::read(&flow, &words).is_some());
    for length in [0, 1, 16, 31, 33, 48] {
        let mut other = words.clone();
        other.resize(length, 0);
        assert_eq!(words::read(&flow, &other), None);
    }
}
