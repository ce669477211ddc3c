//! Eight leaves (CR 4) in lent memory: value memory of 8 words, list memory of 35 bytes an entry, events of 117 bytes, eight
//! leaves in a row of a state; states that were parked before, which are opened as they are; and wrong engines that kept
//! a figure of before.

mod common;

use common::*;
use reference::calls::{self, Looked, ROW};
use reference::engine::{Answers, Engine, Reference};
use reference::event::{self, entry_bytes, event_bytes, with_four_leaves, without_role, Event, ENTRY, EVENT, LEAF};
use reference::leaf_edges::{fitting, mixed, Nesting, Rows, NESTINGS};
use reference::lent::{self, Lent};
use reference::limits::{LEAVES, LEAVES_BEFORE};
use reference::roles::{Role, FIRST};
use reference::slips::Slip;
use reference::value::Leaves;
use reference::words::{self, STATE_ROW};

/// An empty editor of a mixed type: its rows, and the state that it starts in.
fn editor(leaves: usize, nesting: Nesting) -> (Vec<i32>, Vec<i32>) {
    let mut rows = Rows::default();
    rows.empty(&mixed(leaves, nesting));
    let rows = calls::words_of_rows(&rows.0);
    let mut state = vec![7; rows.len() / ROW * STATE_ROW];
    assert_eq!(calls::start(&rows, &mut state), (0, 1));
    (rows, state)
}

fn look(rows: &[i32], state: &[i32], value: usize, list: usize) -> (Looked, Vec<i32>) {
    let mut value = vec![9; value];
    let looked = calls::look(rows, state, FIRST, &mut value, &mut vec![b'#'; list]);
    (looked, value)
}

/// 21 for every length of value memory but 8 words; 24 for every length of list memory under 35 bytes, 27 among them.
#[test]
fn lengths_of_value_and_list() {
    let (rows, state) = editor(LEAVES, Nesting::Even);
    for words in 0..=2 * LEAVES {
        assert_eq!(look(&rows, &state, words, ENTRY).0.number, if words == 8 { 0 } else { 21 }, "{words} words");
        assert_eq!(look(&rows, &state, words, 0).0.number, if words == 8 { 24 } else { 21 }, "{words} words");
    }
    for bytes in 0..=2 * ENTRY {
        let expected = if bytes < 35 { 24 } else { 0 };
        assert_eq!(look(&rows, &state, 8, bytes).0.number, expected, "{bytes} bytes");
    }
    assert_eq!(look(&rows, &state, LEAVES_BEFORE, 35).0.number, 21);
    assert_eq!(look(&rows, &state, 8, entry_bytes(LEAVES_BEFORE)).0.number, 24);
    assert_eq!(look(&rows, &state, 8, 35).0, Looked { number: 0, valued: false, fails: false, bytes: 35 });
}

/// 8 for every length of an event but 117 bytes, those of four leaves and of no role among them.
#[test]
fn lengths_of_an_event() {
    let (rows, state) = editor(1, Nesting::Even);
    let whole = value("", 12);
    let handled = |event: &[u8]| calls::handle(&rows, &mut state.clone(), event).0;
    for bytes in 0..EVENT {
        assert_eq!(handled(&whole[..bytes]), 8, "{bytes} bytes");
        assert_eq!(handled(&[&whole[..bytes], b"\n"].concat()), if bytes == 116 { 0 } else { 8 }, "{bytes} columns");
    }
    assert_eq!(handled(&with_four_leaves(&whole)), 8);
    assert_eq!((handled(&without_role(&whole)), handled(&without_role(&with_four_leaves(&whole)))), (8, 8));
    assert_eq!((handled(&whole), handled(&whole.repeat(2))), (0, 8));
}

/// A row holds tag, shape, and eight leaves in words 2 to 9; words 10 to 15 are 0, else 22. A shape has 15 digits of base
/// 4, so it is below 2^30.
#[test]
fn eight_leaves_in_a_row_of_a_state() {
    for nesting in NESTINGS {
        let (rows, mut state) = editor(LEAVES, nesting);
        let event = event::write("", 1, padded(&fitting(LEAVES)));
        assert_eq!(calls::handle(&rows, &mut state, &event), (0, 1));
        let last = state.len() - STATE_ROW;
        let row = &state[last..];
        assert_eq!((row[0], row[1]), (2, words::shape(&mixed(LEAVES, nesting))));
        assert!((1 << 28..1 << 30).contains(&row[1]), "{}", row[1]);
        assert_eq!((&row[2..10], &row[10..]), (&fitting(LEAVES)[..], &[0; 6][..]));
        let leaves: Leaves = row[2..10].try_into().expect("eight");
        assert_eq!(look(&rows, &state, LEAVES, ENTRY).1, leaves);
        for place in 2..STATE_ROW {
            let mut changed = state.clone();
            changed[last + place] += 1;
            let number = look(&rows, &changed, LEAVES, ENTRY).0.number;
            // Leaves 1, 4, 5 and 8 are numbers, 2 and 6 truths that are 1, 3 and 7 units.
            let expected = if [2, 5, 6, 9].contains(&place) { 0 } else { 22 };
            assert_eq!(number, expected, "word {place}");
        }
    }
}

/// A flow whose types have at most four leaves, in whose states words 6 to 15 of each row were 0 before CR 4.
const PARKED: [[i32; 4]; 15] = [
    [3, 0, 0, 0],
    [2, 0, 0, 0],
    [4, 0, 1, 0],
    [4, 2, 2, 0],
    [10, 0, 7, 0],
    [41, 3, 0, 0],
    [23, 0, 0, 0],
    [28, 6, 0, 0],
    [40, 7, 0, 0],
    [44, 5, 8, 0],
    [42, 4, 0, 0],
    [22, -5, 0, 0],
    [49, 11, 0, 0],
    [47, 10, 12, 0],
    [46, 9, 13, 0],
];

/// A live row of a state as it stood before CR 4: its number and its first six words.
type Row = (usize, [i32; 6]);

/// Its states as they were written before CR 4: at start; with the order given and the cell changed; after Continue.
const STARTED: [Row; 6] = [
    (4, [1, 3, 7, 0, 0, 0]),
    (5, [1, 0, 0, 0, 0, 0]),
    (9, [1, 0, 0, 0, 0, 0]),
    (10, [1, 0, 0, 0, 0, 0]),
    (13, [2, 0, 0, 0, 0, 0]),
    (14, [1, 0, 0, 0, 0, 0]),
];
const GIVEN: [Row; 6] = [
    (4, [1, 3, 8, 0, 0, 0]),
    (5, [2, 11440, 12, 1, -3, 1]),
    (9, [1, 0, 0, 0, 0, 0]),
    (10, [1, 0, 0, 0, 0, 0]),
    (13, [2, 0, 0, 0, 0, 0]),
    (14, [1, 0, 0, 0, 0, 0]),
];
const CONTINUED: [Row; 6] = [
    (4, [1, 3, 8, 0, 0, 0]),
    (8, [1, 44, -3, 1, 0, 0]),
    (9, [2, 11440, 12, 1, -3, 1]),
    (10, [1, 0, 0, 0, 0, 0]),
    (13, [2, 0, 0, 0, 0, 0]),
    (14, [1, 0, 0, 0, 0, 0]),
];

/// The words of these rows, every other word 0.
fn words_of(live: &[Row]) -> Vec<i32> {
    let mut words = vec![0; PARKED.len() * STATE_ROW];
    live.iter().for_each(|(row, first)| words[row * STATE_ROW..][..6].copy_from_slice(first));
    words
}

/// States of before CR 4 are what start and handle write now, are opened, and go on.
#[test]
fn parked_states_are_opened() {
    let rows = PARKED.concat();
    let [started, given, continued] = [STARTED, GIVEN, CONTINUED].map(|live| words_of(&live));
    let mut state = vec![7; started.len()];
    assert_eq!((calls::start(&rows, &mut state), &state), ((0, 2), &started));
    let order = event::write("1", 1, padded(&[12, 1, -3, 1]));
    assert_eq!(
        (calls::handle(&rows, &mut state, &order).0, calls::handle(&rows, &mut state, &value("2", 8)).0),
        (0, 0)
    );
    assert_eq!(state, given);
    // From the words alone.
    let mut parked = given.clone();
    assert_eq!((calls::handle(&rows, &mut parked, &go_on("1")), &parked), ((0, 1), &continued));
    let shown = |state: &[i32]| {
        let (looked, value) = look(&rows, state, LEAVES, 3 * ENTRY);
        (looked.number, looked.valued, looked.bytes / ENTRY, value)
    };
    assert_eq!(shown(&started), (0, false, 2, vec![0; LEAVES]));
    assert_eq!(shown(&given), (0, false, 3, vec![0; LEAVES]));
    assert_eq!(shown(&continued), (0, true, 2, padded(&[-3, 1, 8]).to_vec()));
    // The words behind four leaves are 0 in each of them, and no other word makes a state of it.
    for state in [started, given, continued] {
        for place in (0..state.len()).filter(|place| place % STATE_ROW >= 6) {
            let mut changed = state.clone();
            changed[place] = 1;
            assert_eq!(look(&rows, &changed, LEAVES, 3 * ENTRY).0.number, 22, "word {place}");
        }
    }
}

/// Engines that kept a figure of before CR 4.
#[derive(Clone, Copy, Debug, PartialEq, Eq)]
enum Kept {
    /// Value memory of 4 words is taken, and gets the first four leaves.
    ValueOf4Words,
    /// Ground 24 is asked by 27 bytes an entry.
    ListOf27Bytes,
    /// An event of four leaves is read.
    EventOfFourLeaves,
    /// Leaf 8 of a row is not written into a state.
    LeafDropped,
    /// Leaf 8 of a row is not read from a state.
    LeafUnread,
    /// What stands behind four leaves of a row is 22.
    StateOfFourLeaves,
}

use Kept::*;

const KEPT: [Kept; 6] = [ValueOf4Words, ListOf27Bytes, EventOfFourLeaves, LeafDropped, LeafUnread, StateOfFourLeaves];

impl Kept {
    /// The state as this engine has it.
    fn misread(self, state: &[i32], dropping: Kept) -> Vec<i32> {
        let mut state = state.to_vec();
        if self == dropping {
            state.chunks_exact_mut(STATE_ROW).for_each(|row| row[words::REST - 1] = 0);
        }
        state
    }

    fn refuses(self, state: &[i32]) -> bool {
        let behind = words::LEAF + LEAVES_BEFORE;
        self == StateOfFourLeaves
            && state.chunks_exact(STATE_ROW).any(|row| row[behind..].iter().any(|&word| word != 0))
    }
}

impl Engine for Kept {
    fn load(&self, text: &[u8], rows: &mut [i32]) -> u32 {
        calls::load(text, rows)
    }

    fn start(&self, rows: &[i32], state: &mut [i32]) -> (u32, u32) {
        let answer = calls::start(rows, state);
        if answer.0 == 0 {
            state.copy_from_slice(&self.misread(state, LeafDropped));
        }
        answer
    }

    fn look(&self, rows: &[i32], state: &[i32], role: Role, value: &mut [i32], list: &mut [u8]) -> Looked {
        let state = &self.misread(state, LeafUnread);
        let before = value.to_vec();
        if *self == ValueOf4Words && value.len() == LEAVES_BEFORE {
            let mut wide = [0; LEAVES];
            let looked = calls::look(rows, state, role, &mut wide, list);
            if looked.number == 0 {
                value.copy_from_slice(&wide[..LEAVES_BEFORE]);
            }
            return looked;
        }
        let looked = calls::look(rows, state, role, value, list);
        if looked.number == 0 && self.refuses(state) {
            value.copy_from_slice(&before);
            return Looked { number: 22, ..Looked::default() };
        }
        if *self == ListOf27Bytes && looked.number == 24 {
            let mut long = vec![0; rows.len() / ROW * ENTRY];
            let needed = calls::look(rows, state, role, &mut [0; LEAVES], &mut long).bytes / ENTRY;
            if list.len() >= needed * entry_bytes(LEAVES_BEFORE) {
                list.copy_from_slice(&long[..list.len()]);
                return calls::look(rows, state, role, value, &mut long);
            }
        }
        looked
    }

    fn handle(&self, rows: &[i32], state: &mut [i32], event: &[u8]) -> (u32, u32) {
        let old = *self == EventOfFourLeaves && event.len() == event_bytes(LEAVES_BEFORE) && event.ends_with(b"\n");
        let leaves = format!("{:>LEAF$}", 0).repeat(LEAVES - LEAVES_BEFORE);
        let event = match old {
            true => &[&event[..event.len() - 1], leaves.as_bytes(), b"\n"].concat()[..],
            false => event,
        };
        let answer = calls::handle(rows, state, event);
        if answer.0 == 0 {
            state.copy_from_slice(&self.misread(state, LeafDropped));
        }
        answer
    }
}

/// Each is told from the second implementation by 4000 inputs.
#[test]
fn engines_that_kept_a_figure_are_caught() {
    let inputs: Vec<Lent> = lent::inputs(1, 4000).collect();
    let expected: Vec<Answers> = inputs.iter().map(|lent| Answers::of(&Reference, lent)).collect();
    for kept in KEPT {
        let differs = |(lent, expected): (&Lent, &Answers)| Answers::of(&kept, lent) != *expected;
        let caught = inputs.iter().zip(&expected).filter(|&pair| differs(pair)).count();
        println!("{kept:?}: {caught}");
        assert!(caught > 0, "{kept:?}");
    }
    // An old event that would have been read is among them.
    let wide = |lent: &Lent| [&lent.event[..lent.event.len() - 1], &[b' '; LEAF].repeat(4), b"\n"].concat();
    let old = |lent: &&Lent| lent.event.len() == event_bytes(LEAVES_BEFORE);
    assert!(inputs.iter().filter(old).any(|lent| Event::read(&wide(lent), Slip::None).is_some()));
}
