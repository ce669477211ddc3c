//! Start, look and handle on a flow.

use crate::binders::Binders;
use crate::evaluate::Whole;
use crate::event::{Action, Entry, Event};
use crate::flow::Flow;
use crate::grounds::Ground;
use crate::handle::Derived;
use crate::roles::{Role, Who};
use crate::rules::Rules;
use crate::slips::Slip;
use crate::task::{Store, Task};
use crate::value::Value;

/// A state of a flow: a rest, unless it was read or built otherwise.
#[derive(Clone, Debug, PartialEq, Eq)]
pub struct State<'f> {
    rules: Rules,
    pub store: Store,
    pub last_row: LastRow<'f>,
}

/// What a state holds of the last row.
#[derive(Clone, Debug, PartialEq, Eq)]
pub enum LastRow<'f> {
    /// A task of it.
    Task(Task<'f>),
    /// It failed as a whole at start, since evaluating it left the range; "handled as 45" (CR 3).
    FailedWhole,
}

impl<'f> LastRow<'f> {
    /// The task that it is, or is handled as.
    pub fn task(&self) -> &Task<'f> {
        match self {
            LastRow::Task(task) => task,
            LastRow::FailedWhole => &Task::Fail,
        }
    }
}

/// What a look shows.
#[derive(Clone, Debug, PartialEq, Eq)]
pub struct Look {
    pub value: Option<Value>,
    pub failing: bool,
    pub entries: Vec<Entry>,
}

impl<'f> State<'f> {
    /// The state of these cells and this task, which are the flow's.
    pub fn new(flow: &Flow, store: Store, task: Task<'f>) -> Self {
        State { rules: flow.rules, store, last_row: LastRow::Task(task) }
    }

    /// The last row evaluated from the cells' first contents.
    pub fn evaluated(flow: &'f Flow) -> Self {
        let Whole { task, store, overflows } =
            flow.rules.whole(&Binders::NONE, &Store::new(&flow.contents), &flow.code);
        let last_row = if overflows { LastRow::FailedWhole } else { LastRow::Task(task) };
        State { rules: flow.rules, store, last_row }
    }

    /// The last row normalised from the cells' first contents, and its strides.
    pub fn start(flow: &'f Flow) -> (Self, usize) {
        let mut state = State::evaluated(flow);
        let strides = state.normalise();
        (state, strides)
    }

    /// What may be touched now, by a role or by anyone.
    pub fn entries(&self, who: Who) -> Vec<Entry> {
        self.rules.inputs(&Binders::NONE, &self.store, self.last_row.task(), who)
    }

    /// What is seen by a role (CR 6): the value and the failing flag are the same for all.
    pub fn look(&self, role: Role) -> Look {
        let task = self.last_row.task();
        let entries = self.entries(Who::Is(role));
        // CR 1: a screen without an entry need not fail.
        let failing = match self.rules.slip {
            Slip::FailingByTheList => entries.is_empty(),
            _ => self.rules.failing(&Binders::NONE, &self.store, task),
        };
        Look { value: self.rules.value(&self.store, task), failing, entries }
    }

    /// Handles an event and normalises the result. Gives the strides of the latter; on a refusal
    /// the state stays.
    pub fn handle(&mut self, event: &[u8]) -> Result<usize, Ground> {
        let rules = self.rules;
        let event = Event::read(event, rules.slip).ok_or(Ground::Event)?;
        let before = self.clone();
        let derived = self.take(event).ok_or_else(|| self.refusal(event))?;
        if let Err(ground) = rules.verdict(event.role, &derived.passed) {
            self.undo(before);
            return Err(ground);
        }
        if rules.slip == Slip::ResultNotNormalised {
            return Ok(1);
        }
        let strides = self.normalise();
        Ok(if rules.slip == Slip::LeftStridesCounted { strides + derived.strides } else { strides })
    }

    /// Goes back to the state before a step that the role may not take.
    fn undo(&mut self, before: State<'f>) {
        let after = std::mem::replace(self, before);
        match (self.rules.slip, &mut self.last_row) {
            (Slip::RefusedTouchUsed, LastRow::Task(task)) => task.take_touches(after.last_row.task()),
            (Slip::RefusedStepTaken, _) => *self = after,
            _ => {}
        }
    }

    /// Handles an event, before normalising, whatever its role; see [`Rules::handle`].
    pub fn take(&mut self, event: Event) -> Option<Derived> {
        let rules = self.rules;
        self.run(|store, task| rules.handle(&Binders::NONE, store, task, event))
    }

    /// Normalises and gives the strides.
    pub fn normalise(&mut self) -> usize {
        let rules = self.rules;
        self.run(|store, task| rules.normalise(&Binders::NONE, store, task))
    }

    /// One stride; see [`Rules::stride`].
    pub fn stride(&mut self) -> bool {
        let rules = self.rules;
        self.run(|store, task| rules.stride(&Binders::NONE, store, task))
    }

    /// Follows a rule on the cells and the task. No rule changes a fail, so what failed whole stays so.
    fn run<T>(&mut self, rule: impl FnOnce(&mut Store, &mut Task<'f>) -> T) -> T {
        match &mut self.last_row {
            LastRow::Task(task) => rule(&mut self.store, task),
            LastRow::FailedWhole => rule(&mut self.store, &mut Task::Fail),
        }
    }

    /// Whether normalising changes nothing.
    pub fn rests(&self) -> bool {
        let mut after = self.clone();
        let strides = after.normalise();
        strides == 1 && after == *self
    }

    /// The ground where no rule derives a step.
    fn refusal(&self, event: Event) -> Ground {
        let is_editor = |entry: &Entry| entry.action == Action::Value && entry.path == event.path;
        match (self.rules.slip, self.last_row.task()) {
            (Slip::UnfittingLeafIsEight, _) if self.entries(Who::Anyone).iter().any(is_editor) => Ground::Event,
            (Slip::RoleAskedFirst, Task::Gate(gate, ..)) if gate.role != event.role => Ground::Role,
            _ => Ground::Handling,
        }
    }
}
