//! What is seen of a task: its value (the paper's Fig. 9) and whether it fails (Fig. 10), and
//! the tentative work that failing, striding, handling and the list share.

use crate::evaluate::Whole;
use crate::rules::{Asking, Rules};
use crate::slips::Slip;
use crate::syntax::{Code, Type};
use crate::task::{Env, Store, Task};
use crate::value::Value;

/// A right side or a branch, tried on a copy of the store.
pub struct Attempt<'c> {
    pub task: Task<'c>,
    /// The store that it leaves, to be kept or dropped.
    pub store: Store,
    /// The strides that it took, which 01 does not count.
    pub strides: usize,
    pub fails: bool,
    /// Whether it fails since evaluating it left the range (CR 3).
    pub overflows: bool,
}

impl Rules {
    /// The task's value, if it has one.
    pub fn value(&self, store: &Store, task: &Task) -> Option<Value> {
        match task {
            Task::Filled(content) | Task::View(content) => Some(content.clone()),
            Task::Shared(cell) => Some(store.read(*cell).clone()),
            Task::Empty(of) if self.slip == Slip::EmptyHasZero => Some(zero(of)),
            Task::Empty(_) | Task::Step(..) | Task::Fail | Task::Pick(..) => None,
            Task::Both(left, right) => Some(Value::pair(self.value(store, left)?, self.value(store, right)?)),
            Task::Choice(left, right) => self.value(store, left).or_else(|| self.value(store, right)),
            Task::Gate(_, 0, _) if self.slip == Slip::SpentHasNoValue => None,
            Task::Gate(_, _, task) | Task::Became(_, task) => self.value(store, task),
        }
    }

    /// Whether the task fails in this store.
    pub fn failing(&self, env: &Env, store: &Store, task: &Task) -> bool {
        match task {
            Task::Fail => true,
            Task::Filled(_) | Task::Empty(_) | Task::Shared(_) => false,
            // CR 1: it never fails.
            Task::View(_) => self.slip == Slip::ViewFails,
            Task::Step(..) if self.slip == Slip::StepNeverFails => false,
            Task::Step(_, left, _) => self.failing(env, store, left),
            Task::Both(left, right) if self.slip == Slip::BothFailsIfEither => {
                self.failing(env, store, left) || self.failing(env, store, right)
            }
            Task::Choice(left, right) if self.slip == Slip::ChoiceFailsIfEither => {
                self.failing(env, store, left) || self.failing(env, store, right)
            }
            Task::Both(left, right) | Task::Choice(left, right) => {
                self.failing(env, store, left) && self.failing(env, store, right)
            }
            Task::Pick(left, right) => self.pick_fails(env, store, left, right),
            Task::Gate(_, 0, _) if self.slip == Slip::SpentFails => true,
            Task::Gate(_, _, task) => self.failing(env, store, task),
            Task::Became(origin, task) => self.failing(&origin.within(env), store, task),
        }
    }

    /// 48 fails if both branches, each normalised from the present store, fail.
    fn pick_fails(&self, env: &Env, store: &Store, left: &Code, right: &Code) -> bool {
        match self.slip {
            Slip::PickNeverFails => false,
            Slip::PickFailsIfEither => self.branch(env, store, left).fails || self.branch(env, store, right).fails,
            Slip::PickThreadsStore => {
                let left = self.branch(env, store, left);
                left.fails && self.branch(env, &left.store, right).fails
            }
            _ => self.branch(env, store, left).fails && self.branch(env, store, right).fails,
        }
    }

    /// A branch of a 48, normalised from this store. Whether it fails is asked in the store that
    /// normalising gave; after more than one stride it does not (see [`Asking`]).
    pub fn branch<'c>(&self, env: &Env, store: &Store, code: &'c Code) -> Attempt<'c> {
        let Whole { mut task, store: mut after, overflows } = self.whole(env, store, code);
        let strides = self.normalise(env, &mut after, &mut task);
        let asked_in = if self.slip == Slip::BranchFailsInOldStore { store } else { &after };
        let known = self.asking == Asking::ByLemma && strides > 1;
        let fails = !known && self.failing(env, asked_in, &task);
        Attempt { task, store: after, strides, fails, overflows }
    }

    /// The right side of a step, evaluated under `value`. Whether it fails is asked in the store
    /// after evaluating it.
    pub fn right_side<'c>(&self, env: &Env, store: &Store, value: &Value, code: &'c Code) -> Attempt<'c> {
        let scope = env.with(value);
        let Whole { task, store: after, overflows } = self.whole(&scope, store, code);
        let asked_in = if self.slip == Slip::RightSideFailsInOldStore { store } else { &after };
        let fails = self.failing(&scope, asked_in, &task);
        Attempt { task, store: after, strides: 0, fails, overflows }
    }
}

/// The value of a type with all leaves 0.
fn zero(of: &Type) -> Value {
    match of {
        Type::Unit => Value::Unit,
        Type::Truth => Value::Truth(false),
        Type::Number => Value::Number(0),
        Type::Pair(parts) => Value::pair(zero(&parts.0), zero(&parts.1)),
    }
}
