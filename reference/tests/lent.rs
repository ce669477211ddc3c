//! Inputs of the four calls from a fixed seed: each number is hit, refusals keep what is lent, and
//! wrong engines are told from the second implementation.

use reference::calls::{self, Looked};
use reference::coverage::Tally;
use reference::engine::{Answers, Engine, Reference};
use reference::event::{leaf_columns, Event, ENTRY, EVENT, LEAF};
use reference::flow::Flow;
use reference::generate::{self, states};
use reference::lent::{self, Lent};
use reference::limits::LEAVES;
use reference::random::Random;
use reference::roles::Role;
use reference::rules::{Asking, Rules};
use reference::sheet::LINES;
use reference::slips::Slip;
use reference::state::{LastRow, State};
use reference::task::Store;
use reference::words::{self, STATE_ROW};

const SEED: u64 = 1;
const COUNT: u64 = 4000;

#[test]
fn each_number_is_hit_in_each_call() {
    let mut tallies = [Tally::default(), Tally::default(), Tally::default(), Tally::default()];
    for lent in lent::inputs(SEED, COUNT) {
        let answers = Answers::of(&Reference, &lent);
        assert!(answers.keep(&lent), "{:?}", answers.numbers());
        for (tally, number) in tallies.iter_mut().zip(answers.numbers()) {
            tally.add(number as usize);
        }
    }
    let numbers: [&[usize]; 4] =
        [&[0, 1, 2, 3, 4, 5, 6, 7, 21], &[0, 20, 21], &[0, 8, 20, 21, 22, 23, 24], &[0, 8, 9, 20, 21, 22, 23, 30, 31]];
    for ((tally, numbers), call) in tallies.iter().zip(numbers).zip(["load", "start", "look", "handle"]) {
        println!("{call}:{tally}");
        assert_eq!(tally.total(), numbers.iter().map(|&number| tally.of(number)).sum(), "{call}:{tally}");
        for &number in numbers {
            assert!(tally.of(number) >= 40, "{call}:{tally}");
        }
    }
}

#[test]
fn inputs_follow_from_the_seed() {
    let inputs = |seed| lent::inputs(seed, 20).collect::<Vec<_>>();
    assert_eq!(inputs(7), inputs(7));
    assert_ne!(inputs(7), inputs(8));
    assert_eq!(inputs(7)[..5], lent::inputs(7, 5).collect::<Vec<_>>());
}

/// Both ways of asking agree at rests that no session need reach.
#[test]
fn both_ways_of_asking_agree_at_any_rest() {
    for at in 0..1500 {
        let random = &mut Random::of_case(SEED, at);
        let rows = generate::accepted(random);
        let flow = Flow::of_rows(rows.clone(), Rules::default()).expect("accepted");
        let literal = Flow::of_rows(rows, Rules::asking(Asking::Literally)).expect("accepted");
        let mut state = states::state(random, &flow);
        let mut other = words::read(&literal, &words::write(&flow, &state)).expect("read");
        assert_eq!(state.normalise(), other.normalise());
        assert_eq!(words::write(&flow, &state), words::write(&literal, &other));
        assert_eq!(
            (1..=8).map(|role| state.look(role)).collect::<Vec<_>>(),
            (1..=8).map(|role| other.look(role)).collect::<Vec<_>>()
        );
        for _ in 0..3 {
            let event = generate::touches::event(random, &state);
            assert_eq!(state.handle(&event), other.handle(&event));
            assert_eq!(words::write(&flow, &state), words::write(&literal, &other));
        }
    }
}

/// Names the wrong engines, and lists them.
macro_rules! faults {
    ($($name:ident,)*) => {
        #[derive(Clone, Copy, Debug, PartialEq, Eq)]
        enum Fault {
            $($name,)*
        }

        const FAULTS: &[Fault] = &[$(Fault::$name,)*];
    };
}

faults! {
    LoadAsksMemoryFirst,
    LoadAsksMemoryLast,
    LoadWritesOnRefusal,
    LoadRefusesBlanks,
    MemoryBeforeRows,
    RowsUnasked,
    StartOnlyOnBlankState,
    StartCountsOneMore,
    ValueMemoryAfterState,
    ListBeforeRest,
    RestUnasked,
    WordsAfterLeavesUnread,
    RowsWithoutTagUnread,
    ValueKeptWithoutValue,
    ValueClearedOnRefusal,
    FlagsExchanged,
    ListOneByteMore,
    ListClearedBehind,
    ListFilledAsFarAsItGoes,
    EventBeforeState,
    EventOfAnyLength,
    BlankLeavesAreZeros,
    HandleKeepsState,
    HandleClearsOnRefusal,
    HandleCountsOneMore,
    NineIsAccepted,
    FailedStartCountsNone,
    FailedStateRefused,
    FailedStateAnywhere,
    FailedStateAnyCells,
}

use Fault::*;

/// The state as an engine with this fault reads it.
fn misread(fault: Fault, rows: &[i32], state: &[i32]) -> Vec<i32> {
    let mut state = state.to_vec();
    for row in state.chunks_exact_mut(STATE_ROW) {
        match fault {
            WordsAfterLeavesUnread => row[words::REST..].fill(0),
            RowsWithoutTagUnread if row[0] == 0 => row.fill(0),
            _ => {}
        }
    }
    if fault == RestUnasked {
        let normalised = calls::flow_of(rows).ok().and_then(|flow| {
            let mut read = words::read(&flow, &state)?;
            read.normalise();
            Some(words::write(&flow, &read))
        });
        return normalised.unwrap_or(state);
    }
    state
}

/// Whether the words, which are no state, are that of a last row that failed as a whole (CR 3) to an engine that reads it
/// in every flow, or with whatever the cells hold.
fn reads_failed(fault: Fault, rows: &[i32], state: &[i32]) -> bool {
    let flow = calls::flow_of(rows).expect("accepted");
    let (first, _) = State::start(&flow);
    let is_cell = |at: usize| flow.rows[at].kind == 10;
    let last = flow.rows.len() - 1;
    let mut failed = vec![0; state.len()];
    failed[last * STATE_ROW] = words::WHOLE;
    let tasks_are_so = (0..=last).filter(|&at| !is_cell(at)).all(|at| row(state, at) == row(&failed, at));
    // Words of some task, with these cells: read exactly where the cells can be.
    let mut with_cells = words::write(&flow, &states::state(&mut Random::new(SEED), &flow));
    (0..=last).filter(|&at| is_cell(at)).for_each(|at| {
        with_cells[at * STATE_ROW..][..STATE_ROW].copy_from_slice(row(state, at));
    });
    let cells = words::read(&flow, &with_cells).map(|read| read.store);
    tasks_are_so
        && match fault {
            FailedStateAnywhere => cells == Some(Store::new(&flow.contents)),
            FailedStateAnyCells => cells.is_some() && first.last_row == LastRow::FailedWhole,
            _ => false,
        }
}

/// The words of row `at`.
fn row(state: &[i32], at: usize) -> &[i32] {
    &state[at * STATE_ROW..][..STATE_ROW]
}

/// Whether the state's last row is tagged as one that failed as a whole.
fn is_failed(state: &[i32]) -> bool {
    state.len().checked_sub(STATE_ROW).is_some_and(|last| state[last] == words::WHOLE)
}

/// The entries of a state, at rest or not, for a role.
fn entries(rows: &[i32], state: &[i32], role: Role) -> usize {
    let flow = calls::flow_of(rows).expect("accepted");
    let state = words::read(&flow, state).expect("a state");
    state.look(role).entries.len()
}

/// 21 by the length of the rows memory alone.
fn wrong_length(rows: &[i32], state: &[i32]) -> bool {
    state.len() != rows.len() * 4
}

/// The event with 0 in its blank leaves.
fn without_blanks(event: &[u8]) -> Vec<u8> {
    let mut event = event.to_vec();
    for leaf in 0..LEAVES {
        if let Some(columns) =
            event.get_mut(leaf_columns(leaf)).filter(|columns| columns.iter().all(|&byte| byte == b' '))
        {
            columns[LEAF - 1] = b'0';
        }
    }
    event
}

impl Engine for Fault {
    fn load(&self, text: &[u8], rows: &mut [i32]) -> u32 {
        let exact = rows.len() == text.len() / 45 * 4;
        match self {
            LoadAsksMemoryFirst if !exact => 21,
            LoadAsksMemoryLast if !exact => match calls::load(text, &mut vec![0; text.len() / 45 * 4]) {
                0 => 21,
                number => number,
            },
            // A number ends its field, so twelve spaces are those of a blank operand.
            LoadRefusesBlanks if exact && text.windows(12).any(|columns| columns == [b' '; 12]) => {
                match calls::load(text, &mut vec![0; rows.len()]) {
                    0 => 2,
                    number => number,
                }
            }
            _ => {
                let number = calls::load(text, rows);
                if *self == LoadWritesOnRefusal && number > 2 {
                    rows.fill(0);
                }
                number
            }
        }
    }

    fn start(&self, rows: &[i32], state: &mut [i32]) -> (u32, u32) {
        match self {
            MemoryBeforeRows if wrong_length(rows, state) => (21, 0),
            StartOnlyOnBlankState if state.iter().any(|&word| word != 0) => (21, 0),
            RowsUnasked if rows.len() > 1024 => (0, 1),
            _ => {
                let (number, strides) = calls::start(rows, state);
                let counted = *self != FailedStartCountsNone || number != 0 || !is_failed(state);
                let strides = if counted { strides } else { 0 };
                (number, strides + u32::from(*self == StartCountsOneMore && number == 0))
            }
        }
    }

    fn look(&self, rows: &[i32], state: &[i32], role: Role, value: &mut [i32], list: &mut [u8]) -> Looked {
        let refused = |number| Looked { number, ..Looked::default() };
        let (value_before, room) = (value.to_vec(), list.len());
        let mut looked = calls::look(rows, &misread(*self, rows, state), role, value, list);
        let refuse = looked.number != 0;
        match self {
            MemoryBeforeRows if wrong_length(rows, state) => return refused(21),
            ValueMemoryAfterState if looked.number == 21 && !wrong_length(rows, state) => {
                let after = calls::look(rows, state, role, &mut [0; LEAVES], &mut [0; ENTRY * LINES]).number;
                return refused(if after == 0 { 21 } else { after });
            }
            ListBeforeRest if looked.number == 23 && room < ENTRY * entries(rows, state, role) => return refused(24),
            ValueKeptWithoutValue if !refuse && !looked.valued => value.copy_from_slice(&value_before),
            ValueClearedOnRefusal if refuse => value.fill(0),
            FlagsExchanged => (looked.valued, looked.fails) = (looked.fails, looked.valued),
            ListOneByteMore if !refuse && looked.bytes == room && room > 0 => {
                value.copy_from_slice(&value_before);
                looked = refused(24);
            }
            ListClearedBehind if !refuse => list[looked.bytes..].fill(0),
            ListFilledAsFarAsItGoes if looked.number == 24 => list.fill(b' '),
            FailedStateRefused if !refuse && is_failed(state) => {
                value.copy_from_slice(&value_before);
                looked = refused(22);
            }
            FailedStateAnywhere | FailedStateAnyCells if looked.number == 22 && reads_failed(*self, rows, state) => {
                value.fill(0);
                looked = Looked { fails: true, ..Looked::default() };
            }
            _ => {}
        }
        looked
    }

    fn handle(&self, rows: &[i32], state: &mut [i32], event: &[u8]) -> (u32, u32) {
        let mut after = misread(*self, rows, state);
        let event = &match self {
            EventOfAnyLength => event[..event.len().min(EVENT)].to_vec(),
            BlankLeavesAreZeros => without_blanks(event),
            _ => event.to_vec(),
        };
        let (number, strides) = calls::handle(rows, &mut after, event);
        match self {
            MemoryBeforeRows if wrong_length(rows, state) => return (21, 0),
            EventBeforeState if Event::read(event, Slip::None).is_none() => return (8, 0),
            HandleClearsOnRefusal if number == 9 => state.fill(0),
            NineIsAccepted if number == 9 => return (0, 1),
            FailedStateRefused if matches!(number, 8 | 9) && is_failed(state) => return (22, 0),
            FailedStateAnywhere | FailedStateAnyCells if number == 22 && reads_failed(*self, rows, state) => {
                return (if Event::read(event, Slip::None).is_some() { 9 } else { 8 }, 0);
            }
            HandleCountsOneMore if number == 0 => {
                state.copy_from_slice(&after);
                return (0, strides + 1);
            }
            _ if number == 0 && *self != HandleKeepsState => state.copy_from_slice(&after),
            _ => {}
        }
        (number, strides)
    }
}

#[test]
fn every_wrong_engine_is_caught() {
    let inputs: Vec<Lent> = lent::inputs(SEED, COUNT).collect();
    let expected: Vec<Answers> = inputs.iter().map(|lent| Answers::of(&Reference, lent)).collect();
    for &fault in FAULTS {
        let differs = |(lent, expected): (&Lent, &Answers)| Answers::of(&fault, lent) != *expected;
        let caught = inputs.iter().zip(&expected).position(differs);
        println!("{fault:?}: {caught:?}");
        assert!(caught.is_some(), "{fault:?}");
    }
}
