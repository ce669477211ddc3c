//! Running tasks and the store (01, "A task of a row is"; the paper's Fig. 8).

use crate::binders::Binders;
use crate::roles::{Gate, Passed};
use crate::syntax::{Cell, Code, Going, Type};
use crate::value::Value;

/// What the binders in scope stand for.
pub type Env<'s> = Binders<'s, Value>;

#[derive(Clone, Copy, Debug, PartialEq, Eq)]
pub enum Side {
    Left,
    Right,
}

/// A task of a code, which it borrows what is not evaluated from.
#[derive(Clone, Debug, PartialEq, Eq)]
pub enum Task<'c> {
    /// 40, and 41 once filled.
    Filled(Value),
    Empty(&'c Type),
    /// 42: its content is the cell's.
    Shared(Cell),
    Step(Going, Box<Task<'c>>, &'c Code),
    Fail,
    Both(Box<Task<'c>>, Box<Task<'c>>),
    Choice(Box<Task<'c>>, Box<Task<'c>>),
    Pick(&'c Code, &'c Code),
    /// 49: its content is of its own, and nothing changes it (CR 1).
    View(Value),
    /// 50, with the touches that it has left (CR 6). In all but handling and the list it hands on to its task.
    Gate(Gate, i32, Box<Task<'c>>),
    /// What a step, choice, condition or binding became. It hands value, failing, striding,
    /// entries and handling on to that task, and has no mark of its own.
    Became(Origin, Box<Task<'c>>),
}

impl Task<'_> {
    /// Its rows of kind 50 that are live, in order.
    pub fn gates(&self) -> Vec<Passed> {
        match self {
            Task::Gate(gate, left, task) => {
                let own = Passed { role: gate.role, left: *left };
                [vec![own], task.gates()].concat()
            }
            Task::Step(_, task, _) | Task::Became(_, task) => task.gates(),
            Task::Both(left, right) | Task::Choice(left, right) => [left.gates(), right.gates()].concat(),
            Task::Filled(_) | Task::Empty(_) | Task::Shared(_) | Task::Fail | Task::Pick(..) | Task::View(_) => {
                Vec::new()
            }
        }
    }

    /// Other touches left in its rows of kind 50 that are live, each by its own.
    pub fn change_touches(&mut self, to: &mut impl FnMut(Gate) -> i32) {
        match self {
            Task::Gate(gate, left, task) => {
                *left = to(*gate);
                task.change_touches(to);
            }
            Task::Step(_, task, _) | Task::Became(_, task) => task.change_touches(to),
            Task::Both(left, right) | Task::Choice(left, right) => {
                left.change_touches(to);
                right.change_touches(to);
            }
            Task::Filled(_) | Task::Empty(_) | Task::Shared(_) | Task::Fail | Task::Pick(..) | Task::View(_) => {}
        }
    }

    /// The touches left of `other`, as far as the two are alike: what slips about touches are made with.
    pub fn take_touches(&mut self, other: &Task) {
        match (self, other) {
            (Task::Gate(_, left, task), Task::Gate(_, of_other, other)) => {
                *left = *of_other;
                task.take_touches(other);
            }
            (Task::Step(_, task, _), Task::Step(_, other, _)) | (Task::Became(_, task), Task::Became(_, other)) => {
                task.take_touches(other);
            }
            (Task::Both(left, right), Task::Both(left_of_other, right_of_other))
            | (Task::Choice(left, right), Task::Choice(left_of_other, right_of_other)) => {
                left.take_touches(left_of_other);
                right.take_touches(right_of_other);
            }
            _ => {}
        }
    }
}

/// What a task became from.
#[derive(Clone, Debug, PartialEq, Eq)]
pub enum Origin {
    /// A 43 or 44 that was taken with this value.
    Taken(Value),
    /// A 31 of this value.
    Bound(Value),
    /// A 47 of which this side was chosen.
    Chosen(Side),
    /// A 48 of which this side was picked.
    Picked(Side),
    /// A 25 of which this side, B left and C right, holds.
    Decided(Side),
}

impl Origin {
    /// The binders in scope within.
    pub fn within<'s>(&'s self, env: &'s Env<'s>) -> Env<'s> {
        match self {
            Origin::Taken(value) | Origin::Bound(value) => env.with(value),
            Origin::Chosen(_) | Origin::Picked(_) | Origin::Decided(_) => *env,
        }
    }
}

/// The cells' contents.
#[derive(Clone, Debug, PartialEq, Eq)]
pub struct Store(Vec<Value>);

impl Store {
    pub fn new(contents: &[Value]) -> Self {
        Store(contents.to_vec())
    }

    pub fn read(&self, cell: Cell) -> &Value {
        &self.0[cell]
    }

    pub fn write(&mut self, cell: Cell, content: Value) {
        self.0[cell] = content;
    }

    /// The first cell of the type of this one.
    pub fn first_like(&self, cell: Cell) -> Cell {
        let of = self.0[cell].type_of();
        self.0.iter().position(|content| content.type_of() == of).unwrap_or(cell)
    }
}
