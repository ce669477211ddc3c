//! The cases from a fixed seed: what they cover, that both ways of asking print the same, and that
//! they catch every slip.

use reference::binders::Binders;
use reference::compare::{self, Case};
use reference::coverage::{Coverage, Tally, AT_START, RIGHT_SIDE};
use reference::event::{Event, EVENT};
use reference::flow::Flow;
use reference::generate::{self, states};
use reference::grounds::Ground;
use reference::limits::LEAVES;
use reference::model;
use reference::random::Random;
use reference::role_coverage::{DARK_FOR_ALL, DARK_FOR_ROLE};
use reference::roles::{Role, Who, ROLES};
use reference::rules::{Asking, Rules};
use reference::session;
use reference::sheet;
use reference::slips::Slip;
use reference::state::State;

const SEED: u64 = 1;
const COUNT: u64 = 3000;

fn cases() -> Vec<Case> {
    compare::cases(SEED, COUNT)
}

fn at_least(tally: &Tally, numbers: impl IntoIterator<Item = usize>, least: usize, of: &str) {
    for number in numbers {
        assert!(tally.of(number) >= least, "{of} {number}: {} < {least}", tally.of(number));
    }
}

#[test]
fn cases_cover_the_document() {
    let coverage = Coverage::of(cases().into_iter().map(|case| case.input));
    at_least(&coverage.sheets, [0], 2000, "accepted sheets");
    at_least(&coverage.sheets, 1..=7, 30, "sheets with ground");
    at_least(&coverage.kinds, (1..=4).chain([10]).chain(20..=31).chain(40..=50), 400, "kind");
    at_least(&coverage.operators, 1..=8, 150, "operator");
    assert_eq!((coverage.rows.least(), coverage.rows.most()), (Some(2), Some(256)));
    at_least(&coverage.rows, 2..=90, 1, "rows");
    at_least(&coverage.rows, [256], 200, "rows");
    assert_eq!((coverage.binders.most(), coverage.marks.most()), (Some(16), Some(16)));
    at_least(&coverage.binders, (0..=6).chain([16]), 40, "binders");
    at_least(&coverage.marks, (0..=4).chain([16]), 40, "marks");
    at_least(&coverage.events, [0, 8, 9], 1500, "events answered");
    at_least(&coverage.actions, 1..=4, 300, "actions accepted");
    at_least(&coverage.paths, 0..=16, 1, "path length accepted");
    at_least(&coverage.strides, 1..=5, 10, "strides");
    at_least(&coverage.strides, [17], 20, "strides");
    assert!(coverage.strides.most() >= Some(30));
    at_least(&coverage.entries, 0..=17, 5, "entries");
    at_least(&coverage.failing, 0..=1, 250, "failing flag");
    at_least(&coverage.values, 0..=1, 5000, "value flag");
    // CR 1: a screen may be quiet without failing.
    at_least(&coverage.quiet, 0..=1, 201, "failing flag of quiet screens");
    // CR 2: unused operands, leaves and paths may be blank; 24, 25 and 50 have no unused operand.
    at_least(&coverage.blank_sheets, 2..=7, 5, "sheets with a blank operand answered");
    at_least(&coverage.blank_sheets, [0], 400, "sheets with a blank operand answered");
    let with_unused = (1..=4).chain([10]).chain(20..=23).chain(26..=31).chain(40..=49);
    at_least(&coverage.blank_operands, with_unused, 100, "blank operands of kind");
    assert_eq!([24, 25, 50].map(|kind| coverage.blank_operands.of(kind)), [0; 3]);
    at_least(&coverage.blank_leaves, [0, 8, 9], 300, "events with a blank leaf answered");
    at_least(&coverage.blank_paths, [0, 8, 9], 75, "events with a blank path answered");
    // CR 3: over 5 in 100 sheets leave the range at start, in a right side, in a branch.
    let over_5_in_100 = COUNT as usize / 20 + 1;
    at_least(&coverage.overflows, [AT_START, RIGHT_SIDE, 48], over_5_in_100, "sheets that leave the range in");
    at_least(&coverage.overflows, 43..=44, 75, "sheets that leave the range in");
    // CR 4: each number of leaves comes up in over 100 sheets: of the own type, of an editor, of a value shown.
    for (tally, of) in [(&coverage.leaves, "own"), (&coverage.editors, "editor"), (&coverage.shown, "value shown")] {
        at_least(tally, 1..=LEAVES, 101, &format!("sheets by leaves, {of}"));
        assert_eq!((tally.least(), tally.most()), (Some(1), Some(LEAVES)));
    }
    at_least(&coverage.given, 1..=LEAVES, 250, "values accepted by leaves");
}

/// CR 6: rows of kind 50 of three roles, with 0 to 3 and 99 touches, in each other; events of each role that pass some and
/// are accepted, get 30 or 31; lists that are empty for one role, or for all though the task is not quiet.
#[test]
fn cases_cover_roles_and_touches() {
    let coverage = Coverage::of(cases().into_iter().map(|case| case.input));
    let roles = &coverage.roles;
    assert_eq!(roles.missing(), Vec::<String>::new());
    at_least(&coverage.events, [30], 500, "events answered");
    at_least(&coverage.events, [31], 150, "events answered");
    at_least(&roles.roles, 1..=3, 1000, "rows of role");
    at_least(&roles.touches, [0, 1, 2, 3, 99], 200, "rows with touches");
    at_least(&roles.enclosing, 0..=5, 30, "most rows of kind 50 above a row");
    at_least(&roles.accepted, 1..=3, 50, "rows of kind 50 passed by accepted events");
    at_least(&roles.actions, 1..=4, 50, "actions accepted behind a row of kind 50");
    at_least(&roles.looks, 1..=8, 200, "roles looked in");
    at_least(&roles.lists, [DARK_FOR_ROLE, DARK_FOR_ALL], 500, "lists empty by roles and touches");
}

#[test]
fn both_ways_of_asking_print_the_same() {
    let cases = cases();
    let differing: Vec<usize> = compare::differing(&cases, Rules::asking(Asking::Literally)).collect();
    assert_eq!(differing, []);
}

/// Each slip gives other screens than the rules in some case.
#[test]
fn every_slip_is_caught() {
    assert!(Slip::ALL.len() >= 30);
    let cases = cases();
    let caught = |slip: Slip| compare::differing(&cases, Rules::slipping(slip)).next().is_some();
    let missed: Vec<_> = Slip::ALL.iter().filter(|(slip, _)| !caught(*slip)).collect();
    assert!(missed.is_empty(), "{missed:?}");
}

/// Cases follow from the seed alone, and others from another.
#[test]
fn cases_follow_from_the_seed() {
    let inputs = |seed| compare::cases(seed, 20).into_iter().map(|case| case.input).collect::<Vec<_>>();
    assert_eq!(inputs(7), inputs(7));
    assert_ne!(inputs(7), inputs(8));
}

#[test]
fn drafts_within_the_limits_are_accepted() {
    for at in 0..COUNT {
        let rows = generate::accepted(&mut Random::of_case(SEED, at));
        let loaded = Flow::load(&sheet::write(&rows), Rules::default());
        assert!(loaded.is_ok(), "{at}: {loaded:?}");
    }
}

/// The list of anyone is empty exactly for quiet tasks, and then every role's is; one that fails is quiet. Gives whether the
/// state's task is quiet, and whether it fails.
fn check_quiet(state: &State) -> (bool, bool) {
    // A last row that failed as a whole is quiet as 45 is (CR 3).
    let is_quiet = model::quiet(&Binders::NONE, &state.store, state.last_row.task());
    let looks = ROLES.map(|role| state.look(role as Role));
    assert_eq!(state.entries(Who::Anyone).is_empty(), is_quiet, "{state:?}");
    let failing = state.look(1).failing;
    assert!(looks.into_iter().all(|look| (!is_quiet || look.entries.is_empty()) && look.failing == failing));
    assert!(is_quiet || !failing, "{state:?}");
    (is_quiet, failing)
}

/// Quiet is said of every task, so states are asked that are no rests and that no session need
/// reach.
#[test]
fn the_list_of_anyone_is_empty_exactly_for_quiet_tasks() {
    let mut without_failing = 0;
    for at in 0..COUNT {
        let random = &mut Random::of_case(SEED, at);
        let flow = Flow::of_rows(generate::accepted(random), Rules::default()).expect("accepted");
        for _ in 0..3 {
            without_failing += usize::from(check_quiet(&states::state(random, &flow)) == (true, false));
        }
    }
    assert!(without_failing > 200, "{without_failing}");
}

/// A readable event is taken exactly where one entry of its role covers it, and by none of two; it is refused with 9 exactly
/// where no entry of anyone's does.
fn check_covered(state: &State, event: &[u8], answer: Result<usize, Ground>) {
    let Some(event) = Event::read(event, Slip::None) else { return assert_eq!(answer, Err(Ground::Event)) };
    let covering = [Who::Is(event.role), Who::Anyone].map(|who| model::covering(&state.entries(who), &event));
    let expected = match answer {
        Ok(_) => [1, 1],
        Err(Ground::Handling) => [0, 0],
        Err(ground) => {
            assert!(matches!(ground, Ground::Role | Ground::Touches));
            [0, 1]
        }
    };
    assert_eq!(covering, expected, "{event:?}");
}

/// What 01, its change requests and the paper say of every rest: strides bounded by the rows of kind 43
/// and 47; no entry exactly where the task is quiet, and then no event taken; an event taken exactly
/// where an entry of its role covers it; a rest that normalising does not change; entries that stand once.
#[test]
fn every_screen_keeps_the_theorems() {
    for case in cases() {
        let mut input = &case.input[..];
        let Ok(Ok(flow)) = session::load(&mut input, Rules::default()) else { continue };
        let bound = 1 + flow.rows.iter().filter(|row| matches!(row.kind, 43 | 47)).count();
        let (mut state, strides) = State::start(&flow);
        assert!(strides <= bound);
        check_rest(&flow, &state);
        for event in input.chunks(EVENT) {
            let before = state.clone();
            let answer = state.handle(event);
            check_covered(&before, event, answer);
            match answer {
                Ok(strides) => assert!((1..=bound).contains(&strides) && !check_quiet(&before).0),
                Err(_) => assert_eq!(state, before),
            }
            check_rest(&flow, &state);
        }
    }
}

fn check_rest(flow: &Flow, state: &State) {
    let (look, entries) = (state.look(2), state.entries(Who::Anyone));
    check_quiet(state);
    assert!(entries.len() <= 2 * flow.rows.len());
    for (at, entry) in entries.iter().enumerate() {
        assert!(entries[..at].iter().all(|other| (&other.path, other.action) != (&entry.path, entry.action)));
    }
    // A role's list is anyone's, some entries left out.
    let mut rest = entries.iter();
    assert!(look.entries.iter().all(|entry| rest.any(|other| other == entry)));
    if let Some(value) = look.value {
        assert_eq!(value.type_of(), flow.own_type);
    }
    assert!(state.rests());
}
