//! What cases cover of roles and touches (CR 6).

use crate::coverage::Tally;
use crate::event::Event;
use crate::roles::{Passed, Role, Who, ROLES};
use crate::sheet::Row;
use crate::slips::Slip;
use crate::state::State;
use std::fmt;

/// Whose list is empty: the one shown is not; it is, and another role's is not; every role's is, by roles and touches alone;
/// the task is quiet.
pub const SHOWN: usize = 0;
pub const DARK_FOR_ROLE: usize = 1;
pub const DARK_FOR_ALL: usize = 2;
pub const QUIET: usize = 3;

/// What sessions cover of roles and touches.
#[derive(Clone, Debug, Default)]
pub struct RoleCoverage {
    /// Of the rows of kind 50 of accepted sheets: roles, touches, and how many of them enclose a row at most.
    pub roles: Tally,
    pub touches: Tally,
    pub enclosing: Tally,
    /// The roles of events that can be read.
    pub events: Tally,
    /// How many rows of kind 50 an event passes that is accepted, that gets 30, that gets 31.
    pub accepted: Tally,
    pub other: Tally,
    pub spent: Tally,
    /// The actions of events that are accepted and pass one.
    pub actions: Tally,
    /// The touches left in the rows passed, before an event that is accepted.
    pub left: Tally,
    /// The roles that screens are shown to, and whose list is empty.
    pub looks: Tally,
    pub lists: Tally,
}

impl RoleCoverage {
    pub fn add_rows(&mut self, rows: &[Row]) {
        for row in rows.iter().filter(|row| row.kind == 50) {
            self.roles.add(row.operands[0] as usize);
            self.touches.add(row.operands[2] as usize);
        }
        self.enclosing.add(enclosing(rows));
    }

    /// An event and its answer, at the state before it.
    pub fn add_event(&mut self, before: &State, event: &[u8], answer: usize) {
        let Some(event) = Event::read(event, Slip::None) else { return };
        self.events.add(event.role as usize);
        let passed = before.clone().take(event).map_or(Vec::new(), |derived| derived.passed);
        match answer {
            0 => self.add_accepted(event, &passed),
            30 => self.other.add(passed.len()),
            31 => self.spent.add(passed.len()),
            _ => {}
        }
    }

    fn add_accepted(&mut self, event: Event, passed: &[Passed]) {
        self.accepted.add(passed.len());
        passed.iter().for_each(|gate| self.left.add(gate.left as usize));
        if !passed.is_empty() {
            self.actions.add(event.action.number() as usize);
        }
    }

    pub fn add_screen(&mut self, state: &State, role: Role) {
        self.looks.add(role as usize);
        let shown = |who| !state.entries(who).is_empty();
        self.lists.add(match role {
            _ if !shown(Who::Anyone) => QUIET,
            _ if shown(Who::Is(role)) => SHOWN,
            _ if ROLES.into_iter().any(|other| shown(Who::Is(other as Role))) => DARK_FOR_ROLE,
            _ => DARK_FOR_ALL,
        });
    }

    /// The tallies, each with its name and the numbers that are to come up in it.
    fn tallies(&self) -> [(&'static str, &Tally, Vec<usize>); 11] {
        let small = |least: usize, most: usize| (least..=most).collect::<Vec<usize>>();
        [
            ("roles of rows of kind 50", &self.roles, small(1, 3)),
            ("their touches", &self.touches, vec![0, 1, 2, 3, 99]),
            ("most of them above a row", &self.enclosing, small(0, 3)),
            ("roles of readable events", &self.events, small(1, 8)),
            ("rows of kind 50 passed by accepted events", &self.accepted, small(0, 3)),
            ("by events that get 30", &self.other, small(1, 3)),
            ("by events that get 31", &self.spent, small(1, 3)),
            ("actions accepted behind one", &self.actions, small(1, 4)),
            ("touches left before accepted events", &self.left, vec![1, 2, 3, 99]),
            ("roles of looks", &self.looks, small(1, 8)),
            ("lists shown 0, of another role 1, of none 2, of a quiet task 3", &self.lists, small(SHOWN, QUIET)),
        ]
    }

    /// What never came up, and was to.
    pub fn missing(&self) -> Vec<String> {
        let tallies = self.tallies();
        let numbers =
            tallies.iter().flat_map(|(name, tally, numbers)| numbers.iter().map(move |at| (name, tally, *at)));
        numbers.filter(|(_, tally, at)| tally.of(*at) == 0).map(|(name, _, at)| format!("{name} {at}")).collect()
    }
}

/// The rows of kind 50 above a row at most.
fn enclosing(rows: &[Row]) -> usize {
    let mut above = vec![0; rows.len()];
    for (at, row) in rows.iter().enumerate().rev().filter(|(_, row)| row.kind >= 20) {
        let own = above[at] + usize::from(row.kind == 50);
        row.named().for_each(|name| above[name] = own);
    }
    above.into_iter().max().unwrap_or(0)
}

impl fmt::Display for RoleCoverage {
    fn fmt(&self, out: &mut fmt::Formatter<'_>) -> fmt::Result {
        for (name, tally, _) in self.tallies() {
            writeln!(out, "{name} ({}):{tally}", tally.total())?;
        }
        match &self.missing()[..] {
            [] => Ok(()),
            missing => writeln!(out, "never: {}", missing.join(", ")),
        }
    }
}
