//! The exports of 01's four calls on lent memory of every kind, right and wrong in length and content, against the second
//! implementation: every number, every single answer and every word and byte at exit, and nothing outside what is lent.
//!
//! NANNYJIFFY_SEED and NANNYJIFFY_COUNT set another seed and another number of inputs.

mod common;

use common::any_memory::{bytes, words, MOST_BYTES, MOST_WORDS};
use common::{set, Archive, Calls};
use nannyjiffy::{ENTRY_BYTES, EVENT_BYTES, LINE_BYTES, ROW_WORDS, STATE_WORDS, VALUE_WORDS};
use reference::coverage::Tally;
use reference::engine::{Answers, Reference};
use reference::lent::{self, Lent};
use reference::random::Random;

const SEED: u64 = 1;
const COUNT: u64 = 10_000;

/// The numbers of load, start, look and handle.
const NUMBERS: [(&str, &[usize]); 4] = [
    ("load", &[0, 1, 2, 3, 4, 5, 6, 7, 21]),
    ("start", &[0, 20, 21]),
    ("look", &[0, 8, 20, 21, 22, 23, 24]),
    ("handle", &[0, 8, 9, 20, 21, 22, 23, 30, 31]),
];

/// Compares the answers to each input, and tallies the numbers of each call.
fn compare(inputs: impl Iterator<Item = Lent>) -> [Tally; 4] {
    let archive = Archive::new();
    let mut tallies = NUMBERS.map(|_| Tally::default());
    for (at, lent) in inputs.enumerate() {
        let answers = Answers::of(&archive, &lent);
        let expected = Answers::of(&Reference, &lent);
        assert!(answers == expected, "input {at}: {:?}, not {:?}", answers.numbers(), expected.numbers());
        assert!(Answers::of(&Calls, &lent) == expected, "input {at}: the safe calls differ");
        assert!(answers.keep(&lent), "input {at}: {:?}", answers.numbers());
        for (tally, number) in tallies.iter_mut().zip(answers.numbers()) {
            tally.add(number as usize);
        }
    }
    for (tally, (call, numbers)) in tallies.iter().zip(NUMBERS) {
        println!("{call}:{tally}");
        assert_eq!(tally.total(), numbers.iter().map(|&number| tally.of(number)).sum(), "{call}:{tally}");
    }
    tallies
}

/// Right memory, and memory that is wrong in one or several ways.
#[test]
fn the_exports_answer_as_the_reference() {
    let (seed, count) = (set("NANNYJIFFY_SEED", SEED), set("NANNYJIFFY_COUNT", COUNT));
    println!("seed {seed}, {count} inputs");
    let tallies = compare(lent::inputs(seed, count));
    for (tally, (call, numbers)) in tallies.iter().zip(NUMBERS) {
        for &number in numbers {
            assert!(tally.of(number) as u64 >= count / 100, "{call}:{tally}");
        }
    }
}

/// The list at its edges, for each rest that is shown: exactly the bytes of its entries, one less, an entry a row, one less, and plenty.
#[test]
fn lists_at_their_edges() {
    let (seed, count) = (set("NANNYJIFFY_SEED", SEED) + 2, set("NANNYJIFFY_COUNT", COUNT) / 5);
    let at_edges = |lent: Lent| {
        let enough = lent.rows.len() / ROW_WORDS * ENTRY_BYTES;
        let bytes = Answers::of(&Reference, &Lent { list: vec![7; enough], ..lent.clone() }).look.bytes;
        let shown =
            if bytes == 0 { vec![] } else { vec![bytes, bytes - 1, enough, enough - 1, enough + ENTRY_BYTES + 1] };
        shown.into_iter().map(move |length| Lent { list: vec![7; length], ..lent.clone() })
    };
    let [.., look, _] = compare(lent::inputs(seed, count).flat_map(at_edges));
    // One length of five is a byte too short: no flow shows an entry for each of its rows.
    assert!(look.of(24) as u64 >= count / 5 && look.of(0) == 4 * look.of(24), "{look}");
}

/// Memory of any length, 0 and very long ones too, and any content, in the place of some or of each that would serve.
#[test]
fn any_memory_is_answered() {
    let mut lengths = [[0; 2]; 7];
    let drawn = |(at, mut lent): (usize, Lent)| {
        let random = &mut Random::of_case(SEED, at as u64);
        let percent = [30, 60, 100][at % 3];
        let Lent { text, room, rows, state, role, value, list, event } = &mut lent;
        if random.chance(percent) {
            *role = random.draw() as u32;
        }
        let (texts, all_words) = (
            [(text, LINE_BYTES), (list, ENTRY_BYTES), (event, EVENT_BYTES)],
            [(room, ROW_WORDS), (rows, ROW_WORDS), (state, STATE_WORDS), (value, VALUE_WORDS)],
        );
        for ((memory, unit), [none, most]) in texts.into_iter().zip(&mut lengths[..3]) {
            if random.chance(percent) {
                *memory = bytes(random, unit);
            }
            (*none, *most) = (*none + u32::from(memory.is_empty()), *most + u32::from(memory.len() == MOST_BYTES));
        }
        for ((memory, unit), [none, most]) in all_words.into_iter().zip(&mut lengths[3..]) {
            if random.chance(percent) {
                *memory = words(random, unit);
            }
            (*none, *most) = (*none + u32::from(memory.is_empty()), *most + u32::from(memory.len() == MOST_WORDS));
        }
        lent
    };
    compare(lent::inputs(SEED + 1, COUNT).enumerate().map(drawn));
    println!("memories of length 0, and of the most: {lengths:?}");
    assert!(lengths.iter().flatten().all(|&count| u64::from(count) >= COUNT / 200), "{lengths:?}");
}

/// The fence is one.
mod fence {
    use crate::common::fence::{Fence, Place};

    /// Writes over byte `at` of, or beside, 8 bytes that are lent as content.
    fn write(place: Place, at: isize) {
        let (fence, content) = (Fence::new(), [7u8; 8]);
        let lent = fence.lend(&content, place);
        // SAFETY: guard bytes are in the fence's room.
        unsafe { *lent.start().offset(at) = 9 };
        assert_eq!(lent.content()[at as usize], 9);
        lent.assert_same();
    }

    #[test]
    #[should_panic(expected = "outside")]
    fn tells_a_byte_before() {
        write(Place::Middle, -1);
    }

    #[test]
    #[should_panic(expected = "outside")]
    fn tells_a_byte_after() {
        write(Place::First, 8);
    }

    #[test]
    #[should_panic(expected = "only read")]
    fn tells_a_byte_in_it() {
        write(Place::Last, 7);
    }
}
