//! What 01 and its change requests say of every rest, for each role, asked at the rests of generated sessions: which events
//! are accepted, by the list of their role; which number the others get, by the rows of kind 50 on their way; what touches
//! are left; when a task is quiet; and that the flow is else the one without rows of kind 50. What is expected is written
//! here anew, from their words, and not by the rules of handling.

use crate::binders::Binders;
use crate::coverage::Tally;
use crate::event::{self, with_role, Action, Entry, Event, EVENT};
use crate::flow::Flow;
use crate::generate::{self, rewrite, states};
use crate::grounds::Ground;
use crate::limits::LEAVES;
use crate::random::Random;
use crate::roles::{Role, Who, ROLES};
use crate::rules::Rules;
use crate::session;
use crate::slips::Slip;
use crate::state::{LastRow, State};
use crate::syntax::{Code, Going};
use crate::task::{Env, Origin, Side, Store, Task};
use crate::value::Leaves;
use crate::words::{self, STATE_ROW};
use std::fmt;

/// CR 1: "Call a task quiet if it is 45, 49, a 46 or 47 of quiet parts, a 43 with quiet A, a 44 with quiet A whose Continue
/// is not takable, or a failing 48." CR 6: of a 50, "quiet .. [is] that of B". What has been taken, named or picked, and 25
/// and 31, is quiet as the task that it became.
pub fn quiet(env: &Env, store: &Store, task: &Task) -> bool {
    match task {
        Task::Fail | Task::View(_) => true,
        Task::Filled(_) | Task::Empty(_) | Task::Shared(_) => false,
        Task::Both(left, right) | Task::Choice(left, right) => quiet(env, store, left) && quiet(env, store, right),
        Task::Step(Going::ByItself, left, _) => quiet(env, store, left),
        Task::Step(Going::AtContinue, left, right) => {
            quiet(env, store, left) && !continue_takable(env, store, left, right)
        }
        Task::Pick(..) => Rules::default().failing(env, store, task),
        Task::Gate(_, _, task) => quiet(env, store, task),
        Task::Became(origin, task) => quiet(&origin.within(env), store, task),
    }
}

/// "44 takes Continue if A has a value v and B evaluated under v does not fail."
fn continue_takable(env: &Env, store: &Store, left: &Task, right: &Code) -> bool {
    let rules = Rules::default();
    rules.value(store, left).is_some_and(|value| !rules.right_side(env, store, &value, right).fails)
}

/// Whether the entry covers the event: its path and action, and leaves that meet the leaf kinds. "Kinds 0 and 1 are met only
/// by 0, 2 by 0 or 1, 3 by any number" (01); "a blank leaf meets only leaf kind 0" (CR 2).
pub fn covers(entry: &Entry, event: &Event) -> bool {
    let meets = |(kind, leaf): (&i32, &Option<i32>)| match (kind, leaf) {
        (0, None) => true,
        (_, None) => false,
        (0 | 1, Some(number)) => *number == 0,
        (2, Some(number)) => (0..=1).contains(number),
        (_, Some(_)) => true,
    };
    entry.path == event.path && entry.action == event.action && entry.kinds.iter().zip(&event.leaves).all(meets)
}

/// The entries of a list that cover the event.
pub fn covering(entries: &[Entry], event: &Event) -> usize {
    entries.iter().filter(|entry| covers(entry, event)).count()
}

/// The rows of kind 50 from this row, itself included, to the row that takes an event, where one does.
pub fn passed(flow: &Flow, store: &Store, at: usize, task: &Task, path: &[u8], action: Action) -> Vec<usize> {
    let [a, b, c] = flow.rows[at].operands.map(|operand| operand as usize);
    let go = |at: usize, task: &Task, path: &[u8]| passed(flow, store, at, task, path, action);
    let is_left = |side: &Side| *side == Side::Left;
    match task {
        Task::Gate(_, _, task) => [vec![at], go(b, task, path)].concat(),
        Task::Both(left, right) | Task::Choice(left, right) => match path {
            [b'1', rest @ ..] => go(a, left, rest),
            [_, rest @ ..] => go(b, right, rest),
            [] => Vec::new(),
        },
        // What has a value takes no Continue at the empty path, so the outermost step whose A has one takes it.
        Task::Step(Going::AtContinue, left, _)
            if path.is_empty() && action == Action::Continue && Rules::default().value(store, left).is_some() =>
        {
            Vec::new()
        }
        Task::Step(_, left, _) => go(a, left, path),
        Task::Became(Origin::Taken(_) | Origin::Bound(_), task) => go(b, task, path),
        Task::Became(Origin::Chosen(side) | Origin::Picked(side), task) => {
            go(if is_left(side) { a } else { b }, task, path)
        }
        Task::Became(Origin::Decided(side), task) => go(if is_left(side) { b } else { c }, task, path),
        Task::Filled(_) | Task::Empty(_) | Task::Shared(_) | Task::Fail | Task::Pick(..) | Task::View(_) => Vec::new(),
    }
}

/// The paths that lead somewhere in a task, and those of one mark more.
pub fn paths(task: &Task) -> Vec<Vec<u8>> {
    fn add(task: &Task, path: &mut Vec<u8>, paths: &mut Vec<Vec<u8>>) {
        match task {
            Task::Both(left, right) | Task::Choice(left, right) => {
                paths.push(path.clone());
                for (mark, part) in [(b'1', left), (b'2', right)] {
                    path.push(mark);
                    add(part, path, paths);
                    path.pop();
                }
            }
            Task::Step(_, task, _) | Task::Gate(_, _, task) | Task::Became(_, task) => add(task, path, paths),
            _ => paths.extend([path.clone(), [&path[..], b"1"].concat(), [&path[..], b"2"].concat()]),
        }
    }
    let mut paths = Vec::new();
    add(task, &mut Vec::new(), &mut paths);
    paths.retain(|path| path.len() <= event::PATH);
    paths
}

/// What was asked, and what was not as expected.
#[derive(Clone, Debug, Default)]
pub struct Model {
    /// The rules that are asked: a wrong variant of them is to be found out.
    pub rules: Rules,
    pub sessions: usize,
    pub rests: usize,
    /// Quiet rests, and others whose list is empty for every role.
    pub quiet: usize,
    pub dark: usize,
    /// Events that were handled, by answer.
    pub events: Tally,
    pub failures: Vec<String>,
}

impl Model {
    /// Asks at the rests of sessions of a seed until so many events were handled, or something is not as expected.
    pub fn of(rules: Rules, seed: u64, events: usize) -> Self {
        let mut model = Model { rules, ..Model::default() };
        let mut random = Random::new(seed);
        for input in generate::cases(seed, u64::MAX) {
            if model.events.total() >= events || !model.failures.is_empty() {
                break;
            }
            model.add(&mut random, &input);
        }
        model
    }

    /// Asks at each rest of a session.
    pub fn add(&mut self, random: &mut Random, mut input: &[u8]) {
        let Ok(Ok(flow)) = session::load(&mut input, self.rules) else { return };
        let open = Flow { code: rewrite::without_gates(flow.contents.len(), &flow.code), ..flow.clone() };
        self.sessions += 1;
        let ((mut state, strides), (mut twin, same)) = (State::start(&flow), State::start(&open));
        self.ask_both(random, &flow, &state);
        self.compare((&state, strides), (&twin, same));
        for event in input.chunks(EVENT) {
            // A refused event leaves the state as it is.
            if let Ok(strides) = state.handle(event) {
                self.ask_both(random, &flow, &state);
                let same = twin.handle(event).unwrap_or(0);
                self.compare((&state, strides), (&twin, same));
            }
        }
    }

    /// A flow and the same without its rows of kind 50, after the same accepted events: "type, value, failing, quiet, stride
    /// and path are those of B".
    fn compare(&mut self, (state, strides): (&State, usize), (twin, same): (&State, usize)) {
        let seen = |state: &State| (state.look(1).value, state.look(1).failing, state.entries(Who::Anyone));
        self.expect(strides == same && seen(state) == seen(twin), || {
            format!("not as without rows of kind 50: {state:?}")
        });
    }

    /// Asks at a rest, and at the same with other touches left, which is a rest too.
    fn ask_both(&mut self, random: &mut Random, flow: &Flow, state: &State) {
        self.ask(random, flow, state);
        let mut other = state.clone();
        if let LastRow::Task(task) = &mut other.last_row {
            task.change_touches(&mut |gate| states::touches_left(random, gate));
        }
        if other != *state {
            self.expect(other.rests(), || format!("no rest by its touches left: {other:?}"));
            self.ask(random, flow, &other);
        }
    }

    /// Asks at a rest: what an entry offers to anyone in each role, every other path and action in one.
    fn ask(&mut self, random: &mut Random, flow: &Flow, state: &State) {
        self.rests += 1;
        let anyone = state.entries(Who::Anyone);
        let lists: Vec<(Role, Vec<Entry>)> =
            ROLES.map(|role| (role as Role, state.look(role as Role).entries)).collect();
        let is_quiet = quiet(&Binders::NONE, &state.store, state.last_row.task());
        let is_dark = lists.iter().all(|(_, entries)| entries.is_empty());
        self.quiet += usize::from(is_quiet);
        self.dark += usize::from(is_dark && !is_quiet);
        self.expect(is_quiet == anyone.is_empty() && (!is_quiet || is_dark), || format!("quiet {is_quiet}: {state:?}"));
        let mut taken = false;
        let paths = paths(state.last_row.task());
        for (path, action) in paths.iter().flat_map(|path| Action::ALL.map(|action| (path, action))) {
            let is_offered = anyone.iter().any(|entry| entry.path == *path && entry.action == action);
            let drawn = random.below(lists.len());
            let asked = if is_offered { &lists[..] } else { &lists[drawn..=drawn] };
            // Zeros fit every editor.
            for leaves in [[0; LEAVES], leaves(random, &anyone, path, action)] {
                let event = event::write(&String::from_utf8_lossy(path), action.number(), leaves);
                for (role, entries) in asked {
                    let event = with_role(&role.to_string(), event.clone());
                    taken |= self.handle(flow, state, &anyone, entries, &event) != Some(9);
                }
            }
        }
        self.expect(is_quiet != taken, || format!("quiet {is_quiet}, and an event is taken {taken}: {state:?}"));
    }

    /// Handles an event, and compares answer and state with what is expected.
    fn handle(&mut self, flow: &Flow, state: &State, anyone: &[Entry], entries: &[Entry], bytes: &[u8]) -> Option<i32> {
        let event = Event::read(bytes, Slip::None)?;
        let mut after = state.clone();
        let answer = after.handle(bytes).map_or_else(Ground::number, |_| 0);
        self.events.add(answer as usize);
        let before = words::write(flow, state);
        let left = |words: &[i32], row: usize| words[row * STATE_ROW + words::LEAF];
        let last = flow.rows.len() - 1;
        let rows = passed(flow, &state.store, last, state.last_row.task(), event.path, event.action);
        let expected = match covering(anyone, &event) {
            0 => 9,
            _ if rows.iter().any(|&row| flow.rows[row].operands[0] != event.role as i32) => 30,
            _ if rows.iter().any(|&row| left(&before, row) == 0) => 31,
            _ => 0,
        };
        let told = || format!("{answer}, expected {expected}: {}, {state:?}", String::from_utf8_lossy(bytes));
        self.expect(answer == expected, told);
        self.expect(covering(entries, &event) == usize::from(answer == 0) && covering(anyone, &event) <= 1, told);
        self.expect(answer == 0 || after == *state, told);
        if answer == 0 {
            let now = words::write(flow, &after);
            // A row that is live before and after was not evaluated again; one that is live only after has all its touches.
            let gates = (0..=last).filter(|&row| flow.rows[row].kind == 50 && now[row * STATE_ROW] != 0);
            let as_expected = gates.into_iter().all(|row| {
                let is_new = before[row * STATE_ROW] == 0;
                let all = flow.rows[row].operands[2];
                left(&now, row) == if is_new { all } else { left(&before, row) - i32::from(rows.contains(&row)) }
            });
            self.expect(as_expected, || format!("touches left: {}", told()));
        }
        Some(answer)
    }

    fn expect(&mut self, holds: bool, told: impl FnOnce() -> String) {
        if !holds {
            self.failures.push(told());
        }
    }
}

/// Leaves for an event: such as meet the entry there, or any.
fn leaves(random: &mut Random, anyone: &[Entry], path: &[u8], action: Action) -> Leaves {
    let entry = anyone.iter().find(|entry| entry.path == path && entry.action == action);
    let kinds = entry.map_or([0; LEAVES], |entry| entry.kinds);
    let fits = random.chance(80);
    kinds.map(|kind| match kind {
        2 if fits => random.between(0, 1),
        3 if fits => random.word(),
        _ if fits || action != Action::Value => 0,
        _ => random.between(-1, 2),
    })
}

impl fmt::Display for Model {
    fn fmt(&self, out: &mut fmt::Formatter<'_>) -> fmt::Result {
        writeln!(
            out,
            "sessions {}, rests {} (quiet {}, dark for every role and not quiet {})",
            self.sessions, self.rests, self.quiet, self.dark
        )?;
        writeln!(out, "events {}, by answer:{}", self.events.total(), self.events)?;
        writeln!(out, "not as expected {}", self.failures.len())?;
        self.failures.iter().take(5).try_for_each(|told| writeln!(out, "{told}"))
    }
}
