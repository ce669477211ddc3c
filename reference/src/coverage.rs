//! What cases cover: counts over kinds, operators, grounds, strides, lists, events, rows, blanks, numbers beyond the
//! range, leaves, and [roles](crate::role_coverage).

use crate::binders::Binders;
use crate::event::{leaf_columns, Action, Entry, Event, EVENT, PATH_COLUMNS};
use crate::field;
use crate::flow::Flow;
use crate::grounds::Ground;
use crate::limits::{self, LEAVES};
use crate::role_coverage::RoleCoverage;
use crate::roles::{self, Role, Who};
use crate::rules::Rules;
use crate::session::{self, COUNT};
use crate::sheet::{COLUMNS, LINE};
use crate::slips::Slip;
use crate::state::{LastRow, State};
use crate::syntax::Going;
use crate::task::{Env, Store, Task};
use std::collections::{BTreeMap, BTreeSet};
use std::fmt;

/// How often each number came up.
#[derive(Clone, Debug, Default)]
pub struct Tally(BTreeMap<usize, usize>);

impl Tally {
    pub fn add(&mut self, number: usize) {
        *self.0.entry(number).or_default() += 1;
    }

    pub fn of(&self, number: usize) -> usize {
        self.0.get(&number).copied().unwrap_or(0)
    }

    pub fn total(&self) -> usize {
        self.0.values().sum()
    }

    pub fn least(&self) -> Option<usize> {
        self.0.keys().next().copied()
    }

    pub fn most(&self) -> Option<usize> {
        self.0.keys().next_back().copied()
    }
}

impl fmt::Display for Tally {
    fn fmt(&self, out: &mut fmt::Formatter<'_>) -> fmt::Result {
        for (number, count) in &self.0 {
            write!(out, " {number}:{count}")?;
        }
        Ok(())
    }
}

/// What sessions cover.
#[derive(Clone, Debug, Default)]
pub struct Coverage {
    /// Answers of load, 0 an accepted sheet.
    pub sheets: Tally,
    /// Of accepted sheets: rows, rows of each kind, operators, most binders and marks above a
    /// row, leaves of the flow's own type.
    pub rows: Tally,
    pub kinds: Tally,
    pub operators: Tally,
    pub binders: Tally,
    pub marks: Tally,
    pub leaves: Tally,
    /// Answers to events, and the actions of those accepted.
    pub events: Tally,
    pub actions: Tally,
    /// Path lengths of accepted events.
    pub paths: Tally,
    /// Strides of start and of accepted events.
    pub strides: Tally,
    /// Entries, failing flags and value flags of the screens, and the failing flags of the quiet
    /// ones, which have no entry for anyone (CR 1).
    pub entries: Tally,
    pub failing: Tally,
    pub values: Tally,
    pub quiet: Tally,
    /// Answers to sheets with a blank operand, and the kinds of the rows that have one in accepted
    /// sheets, once for each (CR 2).
    pub blank_sheets: Tally,
    pub blank_operands: Tally,
    /// Answers to events with a blank leaf, and to events with a blank path.
    pub blank_leaves: Tally,
    pub blank_paths: Tally,
    /// Accepted sheets that leave the range (CR 3), once for each place where they do at some screen: at start
    /// ([`AT_START`]), in a right side ([`RIGHT_SIDE`], and by itself 43 or 44), in a branch (48).
    pub overflows: Tally,
    /// Leaves (CR 4) of the editors that the screens of an accepted sheet list, and of the values that they show, once a
    /// sheet for each number; and of the value that each accepted event gives.
    pub editors: Tally,
    pub shown: Tally,
    pub given: Tally,
    /// Roles and touches (CR 6).
    pub roles: RoleCoverage,
}

/// The numbers of leaves that a session comes to, as in [`Coverage::editors`] and [`Coverage::shown`].
#[derive(Default)]
struct Widths {
    editors: BTreeSet<usize>,
    shown: BTreeSet<usize>,
}

/// The places that are no kind, of [`Coverage::overflows`].
pub const AT_START: usize = 0;
pub const RIGHT_SIDE: usize = 1;

impl Coverage {
    pub fn of(cases: impl Iterator<Item = Vec<u8>>) -> Self {
        let mut coverage = Coverage::default();
        cases.for_each(|input| coverage.add(&input));
        coverage
    }

    /// Runs a session and counts what it covers.
    pub fn add(&mut self, whole: &[u8]) {
        let mut input = whole;
        let loaded = session::load(&mut input, Rules::default()).expect("memory is read");
        let text = whole.get(COUNT..whole.len() - input.len()).unwrap_or_default();
        self.sheets.add(answer(loaded.as_ref().err()));
        if blank_operands(text).next().is_some() {
            self.blank_sheets.add(answer(loaded.as_ref().err()));
        }
        let Ok(flow) = loaded else { return };
        self.add_flow(&flow);
        blank_operands(text).for_each(|row| self.blank_operands.add(flow.rows[row].kind as usize));
        let (mut state, strides) = State::start(&flow);
        self.strides.add(strides);
        let (mut places, mut widths) = (BTreeSet::new(), Widths::default());
        let mut entries = self.add_screen(&state, roles::FIRST, &mut widths);
        add_overflows(&state, &mut places);
        for event in input.chunks(EVENT) {
            let before = state.clone();
            let handled = state.handle(event);
            self.add_event(event, answer(handled.as_ref().err()));
            self.roles.add_event(&before, event, answer(handled.as_ref().err()));
            if let (Ok(strides), Some(event)) = (handled, Event::read(event, Slip::None)) {
                self.strides.add(strides);
                self.actions.add(event.action.number() as usize);
                self.paths.add(event.path.len());
                let touched = entries.iter().find(|entry| entry.path == event.path && entry.action == event.action);
                touched.and_then(editor_leaves).into_iter().for_each(|leaves| self.given.add(leaves));
            }
            entries = self.add_screen(&state, session::role_after(event, Slip::None), &mut widths);
            add_overflows(&state, &mut places);
        }
        places.into_iter().for_each(|place| self.overflows.add(place));
        widths.editors.into_iter().for_each(|leaves| self.editors.add(leaves));
        widths.shown.into_iter().for_each(|leaves| self.shown.add(leaves));
    }

    fn add_event(&mut self, event: &[u8], answer: usize) {
        self.events.add(answer);
        let is_blank = |columns| event.get(columns).is_some_and(|field| field::is_blank(field, Slip::None));
        if (0..LEAVES).any(|leaf| is_blank(leaf_columns(leaf))) {
            self.blank_leaves.add(answer);
        }
        if is_blank(PATH_COLUMNS) {
            self.blank_paths.add(answer);
        }
    }

    fn add_flow(&mut self, flow: &Flow) {
        self.roles.add_rows(&flow.rows);
        self.rows.add(flow.rows.len());
        for row in &flow.rows {
            self.kinds.add(row.kind as usize);
            if row.kind == 24 {
                self.operators.add(row.operands[0] as usize);
            }
        }
        let enclosing = limits::enclosing(&flow.rows, Slip::None);
        self.binders.add(enclosing.iter().map(|of| of.binders).max().unwrap_or(0));
        self.marks.add(enclosing.iter().map(|of| of.marks).max().unwrap_or(0));
        self.leaves.add(flow.own_type.leaves());
    }

    /// Adds the screen that this role sees. Gives the entries of anyone's.
    fn add_screen(&mut self, state: &State, role: Role, widths: &mut Widths) -> Vec<Entry> {
        self.roles.add_screen(state, role);
        let (look, entries) = (state.look(role), state.entries(Who::Anyone));
        self.entries.add(look.entries.len());
        self.failing.add(look.failing.into());
        self.values.add(look.value.is_some().into());
        if entries.is_empty() {
            self.quiet.add(look.failing.into());
        }
        widths.editors.extend(look.entries.iter().filter_map(editor_leaves));
        widths.shown.extend(look.value.map(|value| value.type_of().leaves()));
        entries
    }
}

/// The leaves of the editor that an entry is of; none where it is a button's.
fn editor_leaves(entry: &Entry) -> Option<usize> {
    (entry.action == Action::Value).then(|| entry.kinds.iter().filter(|&&kind| kind != 0).count())
}

/// Adds the places where this state leaves the range.
fn add_overflows(state: &State, places: &mut BTreeSet<usize>) {
    match &state.last_row {
        LastRow::FailedWhole => drop(places.insert(AT_START)),
        LastRow::Task(task) => add_tried(&Binders::NONE, &state.store, task, places),
    }
}

/// Adds the kinds whose right side or branch leaves the range when it is tried.
fn add_tried(env: &Env, store: &Store, task: &Task, places: &mut BTreeSet<usize>) {
    let rules = Rules::default();
    match task {
        Task::Step(going, left, right) => {
            add_tried(env, store, left, places);
            let value = rules.value(store, left);
            if value.is_some_and(|value| rules.right_side(env, store, &value, right).overflows) {
                places.extend([RIGHT_SIDE, if *going == Going::ByItself { 43 } else { 44 }]);
            }
        }
        Task::Both(left, right) | Task::Choice(left, right) => {
            add_tried(env, store, left, places);
            add_tried(env, store, right, places);
        }
        Task::Pick(left, right) => {
            if [left, right].into_iter().any(|code| rules.whole(env, store, code).overflows) {
                places.insert(48);
            }
        }
        Task::Gate(_, _, task) => add_tried(env, store, task, places),
        Task::Became(origin, task) => add_tried(&origin.within(env), store, task, places),
        Task::Filled(_) | Task::Empty(_) | Task::Shared(_) | Task::Fail | Task::View(_) => {}
    }
}

/// The rows of a sheet's text that have a blank operand, once for each.
fn blank_operands(text: &[u8]) -> impl Iterator<Item = usize> + '_ {
    text.chunks_exact(LINE).enumerate().flat_map(|(row, line)| {
        let blank = COLUMNS[2..].iter().filter(|columns| field::is_blank(&line[(*columns).clone()], Slip::None));
        blank.map(move |_| row)
    })
}

fn answer(ground: Option<&Ground>) -> usize {
    ground.map_or(0, |ground| ground.number() as usize)
}

impl fmt::Display for Coverage {
    fn fmt(&self, out: &mut fmt::Formatter<'_>) -> fmt::Result {
        let tallies = [
            ("sheets by answer", &self.sheets),
            ("rows of accepted sheets", &self.rows),
            ("kinds", &self.kinds),
            ("operators", &self.operators),
            ("most binders above a row", &self.binders),
            ("most marks above a row", &self.marks),
            ("leaves of the own type", &self.leaves),
            ("events by answer", &self.events),
            ("actions accepted", &self.actions),
            ("path lengths accepted", &self.paths),
            ("strides", &self.strides),
            ("entries shown", &self.entries),
            ("failing flag", &self.failing),
            ("value flag", &self.values),
            ("failing flag of quiet screens", &self.quiet),
            ("sheets with a blank operand by answer", &self.blank_sheets),
            ("kinds with a blank operand", &self.blank_operands),
            ("events with a blank leaf by answer", &self.blank_leaves),
            ("events with a blank path by answer", &self.blank_paths),
            ("sheets that leave the range, at start 0, in a right side 1, in kinds", &self.overflows),
            ("sheets by leaves of editors listed", &self.editors),
            ("sheets by leaves of values shown", &self.shown),
            ("values accepted by leaves", &self.given),
        ];
        for (name, tally) in tallies {
            writeln!(out, "{name} ({}):{tally}", tally.total())?;
        }
        write!(out, "{}", self.roles)
    }
}
