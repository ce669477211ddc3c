//! Handling an event (01, "The rules"; the paper's rules H-; CR 6 for rows of kind 50).

use crate::evaluate::Whole;
use crate::event::{Action, Event};
use crate::roles::{Gate, Passed};
use crate::rules::Rules;
use crate::slips::Slip;
use crate::syntax::{Code, Going};
use crate::task::{Env, Origin, Side, Store, Task};
use crate::value::Value;

/// What a rule derives beside task and store.
#[derive(Clone, Debug, Default, PartialEq, Eq)]
pub struct Derived {
    /// The strides inside the rule, which 01 does not count.
    pub strides: usize,
    /// The rows of kind 50 from here to the row that takes the event, the outermost first.
    pub passed: Vec<Passed>,
}

impl Rules {
    /// Handles the event, before normalising, roles and touches aside: task and store change only where a rule derives a
    /// step. Each row of kind 50 that the event passes then has one touch less, if it had one.
    pub fn handle(&self, env: &Env, store: &mut Store, task: &mut Task, event: Event) -> Option<Derived> {
        let at_end = event.path.is_empty();
        match task {
            Task::Filled(_) | Task::Empty(_) | Task::Shared(_) => {
                let here = at_end || self.slip == Slip::DigitsLeftOver;
                (here && event.action == Action::Value).then_some(())?;
                self.edit(store, task, event)
            }
            Task::Step(going, left, right) => {
                if at_end && event.action == Action::Continue && *going == Going::AtContinue {
                    if let Some(taken) = self.go_on(env, store, left, right) {
                        let asked = self.slip == Slip::ContinueAsksA;
                        let passed = if asked { gates_in_front(left) } else { Vec::new() };
                        *task = taken;
                        return Some(Derived { strides: 0, passed });
                    }
                    if self.slip == Slip::ContinueNotPassed {
                        return None;
                    }
                }
                self.handle(env, store, left, event)
            }
            Task::Both(left, right) | Task::Choice(left, right) => {
                let (part, rest) = self.marked(left, right, event.path)?;
                self.handle(env, store, part, Event { path: rest, ..event })
            }
            Task::Pick(left, right) => {
                let (side, code) = match event.action {
                    Action::Left => (Side::Left, *left),
                    Action::Right => (Side::Right, *right),
                    _ => return None,
                };
                let here = at_end || self.slip == Slip::DigitsLeftOver;
                let (picked, strides) = here.then(|| self.pick(env, store, code))??;
                *task = Task::Became(Origin::Picked(side), Box::new(picked));
                Some(Derived { strides, passed: Vec::new() })
            }
            Task::View(content) if self.slip == Slip::ViewTakesValue && at_end && event.action == Action::Value => {
                *content = Value::of_leaves(&content.type_of(), &event.leaves, self.slip)?;
                Some(Derived::default())
            }
            // CR 1: a shown value takes no event.
            Task::Fail | Task::View(_) => None,
            Task::Gate(gate, left, task) => self.pass(env, store, (*gate, left), task, event),
            Task::Became(origin, task) => {
                let mut path = event.path;
                if let (Origin::Chosen(side), Slip::ChosenKeepsMark) = (&*origin, self.slip) {
                    path = path.strip_prefix(mark(*side))?;
                }
                self.handle(&origin.within(env), store, task, Event { path, ..event })
            }
        }
    }

    /// 50 passes events on, and has one touch less where its task takes one. Where it has none left it keeps none: the step
    /// is derived all the same, and refused by the verdict.
    fn pass(
        &self,
        env: &Env,
        store: &mut Store,
        (gate, left): (Gate, &mut i32),
        task: &mut Task,
        event: Event,
    ) -> Option<Derived> {
        let before = (self.slip == Slip::OutermostTouchUsed).then(|| task.clone());
        let mut derived = self.handle(env, store, task, event)?;
        if let Some(before) = before {
            task.take_touches(&before);
        }
        let uses = match self.slip {
            Slip::NoTouchUsed => false,
            Slip::InnermostTouchUsed => derived.passed.is_empty(),
            _ => true,
        };
        derived.passed.insert(0, Passed { role: gate.role, left: *left });
        if uses && *left > 0 {
            *left -= 1;
        }
        Some(derived)
    }

    /// An editor takes a value of its type: 41 becomes filled, 42 writes its cell.
    fn edit(&self, store: &mut Store, task: &mut Task, event: Event) -> Option<Derived> {
        let of = match task {
            Task::Filled(content) => &content.type_of(),
            Task::Empty(of) => *of,
            Task::Shared(cell) => &store.read(*cell).type_of(),
            _ => return None,
        };
        let mut content = Value::of_leaves(of, &event.leaves, self.slip)?;
        if self.slip == Slip::LastLeafDropped {
            content = content.without_last_leaf();
        }
        match task {
            Task::Shared(cell) if self.slip != Slip::SharedBecomesFilled => store.write(*cell, content),
            _ => *task = Task::Filled(content),
        }
        Some(Derived::default())
    }

    /// 44 takes Continue if A has a value and B evaluated under it does not fail. B is evaluated
    /// and not normalised.
    fn go_on<'c>(&self, env: &Env, store: &mut Store, left: &Task, right: &'c Code) -> Option<Task<'c>> {
        let value = self.value(store, left)?;
        let mut tried = self.right_side(env, store, &value, right);
        if tried.fails && self.slip != Slip::ContinueTakenUntried {
            if self.slip == Slip::RefusedContinueWrites {
                *store = tried.store;
            }
            return None;
        }
        if self.slip != Slip::ContinueDropsStore {
            *store = tried.store;
        }
        if self.slip == Slip::ContinueNormalises {
            self.normalise(&env.with(&value), store, &mut tried.task);
        }
        Some(Task::Became(Origin::Taken(value), Box::new(tried.task)))
    }

    /// 48 takes Left or Right if that branch, normalised, does not fail. Gives the branch and its strides.
    fn pick<'c>(&self, env: &Env, store: &mut Store, code: &'c Code) -> Option<(Task<'c>, usize)> {
        let mut picked = self.branch(env, store, code);
        if self.slip == Slip::LeftEvaluates {
            Whole { task: picked.task, store: picked.store, .. } = self.whole(env, store, code);
        }
        if let (Slip::PickUsesTouch, Task::Gate(_, touches @ 1.., _)) = (self.slip, &mut picked.task) {
            *touches -= 1;
        }
        (!picked.fails || self.slip == Slip::LeftTakenThoughFailing).then_some(())?;
        if self.slip != Slip::LeftDropsStore {
            *store = picked.store;
        }
        Some((picked.task, picked.strides))
    }

    /// 46 and 47 take mark 1 or 2 and pass the rest of the path on.
    fn marked<'t, 'c, 'p>(
        &self,
        left: &'t mut Task<'c>,
        right: &'t mut Task<'c>,
        path: &'p [u8],
    ) -> Option<(&'t mut Task<'c>, &'p [u8])> {
        if path.is_empty() && self.slip == Slip::MarkMissing {
            return Some((left, path));
        }
        let (digit, rest) = path.split_first()?;
        let first = (*digit == b'1') != (self.slip == Slip::MarksExchangedInHandling);
        Some((if first { left } else { right }, rest))
    }
}

/// The rows of kind 50 that an event at the empty path comes to first: what a slip asks at Continue.
fn gates_in_front(task: &Task) -> Vec<Passed> {
    match task {
        Task::Gate(gate, left, task) => {
            let own = Passed { role: gate.role, left: *left };
            [vec![own], gates_in_front(task)].concat()
        }
        Task::Step(_, task, _) | Task::Became(_, task) => gates_in_front(task),
        _ => Vec::new(),
    }
}

/// The digit that leads to this side.
pub fn mark(side: Side) -> &'static [u8] {
    match side {
        Side::Left => b"1",
        Side::Right => b"2",
    }
}
