//! Types, plain expressions and tasks as trees: what the rows of an accepted sheet say.

use crate::operators::Operator;
use crate::roles::Gate;
use std::rc::Rc;

#[derive(Clone, Debug, PartialEq, Eq)]
pub enum Type {
    Unit,
    Truth,
    Number,
    Pair(Rc<(Type, Type)>),
}

impl Type {
    pub fn pair(first: Type, second: Type) -> Self {
        Type::Pair(Rc::new((first, second)))
    }

    pub fn leaves(&self) -> usize {
        match self {
            Type::Pair(parts) => parts.0.leaves() + parts.1.leaves(),
            _ => 1,
        }
    }
}

/// A cell of the store, by its place among the cells.
pub type Cell = usize;

/// Plain expressions, kinds 20 to 31.
#[derive(Clone, Debug, PartialEq, Eq)]
pub enum Plain {
    Unit,
    Truth(bool),
    Number(i32),
    /// The value of a binder, counted outward: any number, ground 7 if it reaches none.
    Binder(i32),
    Operation(Operator, Box<Plain>, Box<Plain>),
    Condition(Box<Plain>, Box<Plain>, Box<Plain>),
    Pair(Box<Plain>, Box<Plain>),
    First(Box<Plain>),
    Second(Box<Plain>),
    Read(Cell),
    Write(Cell, Box<Plain>),
    Bind(Box<Plain>, Box<Plain>),
}

impl Plain {
    /// Whether the value of binder `outward` stands in it.
    pub fn asks(&self, outward: i32) -> bool {
        match self {
            Plain::Binder(asked) => *asked == outward,
            Plain::Unit | Plain::Truth(_) | Plain::Number(_) | Plain::Read(_) => false,
            Plain::First(a) | Plain::Second(a) | Plain::Write(_, a) => a.asks(outward),
            Plain::Operation(_, a, b) | Plain::Pair(a, b) => a.asks(outward) || b.asks(outward),
            Plain::Condition(a, b, c) => a.asks(outward) || b.asks(outward) || c.asks(outward),
            Plain::Bind(a, b) => a.asks(outward) || b.asks(outward + 1),
        }
    }
}

/// Whether a step goes on by itself (43) or waits for Continue (44).
#[derive(Clone, Copy, Debug, PartialEq, Eq)]
pub enum Going {
    ByItself,
    AtContinue,
}

/// Task expressions, kinds 40 to 50, and 25 and 31 where they are tasks.
#[derive(Clone, Debug, PartialEq, Eq)]
pub enum Code {
    Filled(Plain),
    Empty(Type),
    Shared(Cell),
    Step(Going, Box<Code>, Box<Code>),
    Fail(Type),
    Both(Box<Code>, Box<Code>),
    /// 47, the internal choice.
    Choice(Box<Code>, Box<Code>),
    /// 48, the external choice.
    Pick(Box<Code>, Box<Code>),
    /// 49, a shown value (CR 1).
    View(Plain),
    /// 50, a task for a role (CR 6).
    Gate(Gate, Box<Code>),
    Condition(Plain, Box<Code>, Box<Code>),
    Bind(Plain, Box<Code>),
}

impl Code {
    /// Whether the value of binder `outward` stands in it.
    pub fn asks(&self, outward: i32) -> bool {
        match self {
            Code::Empty(_) | Code::Shared(_) | Code::Fail(_) => false,
            Code::Filled(a) | Code::View(a) => a.asks(outward),
            Code::Gate(_, a) => a.asks(outward),
            Code::Both(a, b) | Code::Choice(a, b) | Code::Pick(a, b) => a.asks(outward) || b.asks(outward),
            Code::Condition(a, b, c) => a.asks(outward) || b.asks(outward) || c.asks(outward),
            Code::Step(_, a, b) => a.asks(outward) || b.asks(outward + 1),
            Code::Bind(a, b) => a.asks(outward) || b.asks(outward + 1),
        }
    }
}
