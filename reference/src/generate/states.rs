//! States of a flow, whether some events lead there or not: any content and bound value of the type
//! asked, any side, any touches left. Most are no rests.

use crate::binders::Binders;
use crate::flow::Flow;
use crate::random::Random;
use crate::roles::Gate;
use crate::slips::Slip;
use crate::state::State;
use crate::syntax::{Code, Type};
use crate::task::{Origin, Side, Store, Task};
use crate::typing::Typing;
use crate::value::Value;

/// A well-typed state of the flow.
pub fn state<'f>(random: &mut Random, flow: &'f Flow) -> State<'f> {
    let cells: Vec<Type> = flow.contents.iter().map(Value::type_of).collect();
    let contents: Vec<Value> = cells.iter().map(|of| value(random, of)).collect();
    let moved = [0, 20, 50, 80, 100][random.below(5)];
    let mut states = States { random, typing: Typing { cells: &cells, slip: Slip::None }, moved };
    let task = states.task(&Binders::NONE, &flow.code);
    State::new(flow, Store::new(&contents), task)
}

/// A state of the flow that normalising does not change.
pub fn rest<'f>(random: &mut Random, flow: &'f Flow) -> State<'f> {
    let mut state = state(random, flow);
    state.normalise();
    state
}

/// A value of this type.
pub fn value(random: &mut Random, of: &Type) -> Value {
    match of {
        Type::Unit => Value::Unit,
        Type::Truth => Value::Truth(random.chance(50)),
        Type::Number => Value::Number(random.word()),
        Type::Pair(parts) => {
            let first = value(random, &parts.0);
            Value::pair(first, value(random, &parts.1))
        }
    }
}

/// Touches that a row of kind 50 may have left.
pub fn touches_left(random: &mut Random, gate: Gate) -> i32 {
    match random.below(4) {
        0 => 0,
        1 => gate.touches,
        _ => random.between(0, gate.touches),
    }
}

struct States<'s> {
    random: &'s mut Random,
    typing: Typing<'s>,
    /// How many of 100 steps are taken, choices made and empty editors filled.
    moved: usize,
}

impl States<'_> {
    fn moves(&mut self) -> bool {
        self.random.chance(self.moved)
    }

    fn side(&mut self) -> Side {
        if self.random.chance(50) {
            Side::Left
        } else {
            Side::Right
        }
    }

    /// A task of this code, where the binders in scope are of these types (01, "A task of a row
    /// is").
    fn task<'c>(&mut self, context: &Binders<Type>, code: &'c Code) -> Task<'c> {
        match code {
            Code::Filled(content) => {
                let of = self.typing.plain(context, content).expect("typed");
                Task::Filled(value(self.random, &of))
            }
            Code::Empty(of) if self.moves() => Task::Filled(value(self.random, of)),
            Code::Empty(of) => Task::Empty(of),
            Code::Shared(cell) => Task::Shared(*cell),
            Code::Step(_, left, right) if self.moves() => {
                let of = self.typing.task(context, left).expect("typed");
                let bound = value(self.random, &of);
                Task::Became(Origin::Taken(bound), self.part(&context.with(&of), right))
            }
            Code::Step(going, left, right) => Task::Step(*going, self.part(context, left), right),
            Code::Fail(_) => Task::Fail,
            Code::Both(left, right) => {
                let left = self.part(context, left);
                Task::Both(left, self.part(context, right))
            }
            Code::Choice(left, right) if self.moves() => self.became(context, Origin::Chosen, left, right),
            Code::Choice(left, right) => {
                let left = self.part(context, left);
                Task::Choice(left, self.part(context, right))
            }
            Code::Pick(left, right) if self.moves() => self.became(context, Origin::Picked, left, right),
            Code::Pick(left, right) => Task::Pick(left, right),
            Code::View(content) => {
                let of = self.typing.plain(context, content).expect("typed");
                Task::View(value(self.random, &of))
            }
            Code::Gate(gate, task) => {
                let left = touches_left(self.random, *gate);
                Task::Gate(*gate, left, self.part(context, task))
            }
            Code::Condition(_, then, otherwise) => self.became(context, Origin::Decided, then, otherwise),
            Code::Bind(bound, body) => {
                let of = self.typing.plain(context, bound).expect("typed");
                let bound = value(self.random, &of);
                Task::Became(Origin::Bound(bound), self.part(&context.with(&of), body))
            }
        }
    }

    fn part<'c>(&mut self, context: &Binders<Type>, code: &'c Code) -> Box<Task<'c>> {
        Box::new(self.task(context, code))
    }

    /// A task of either side.
    fn became<'c>(
        &mut self,
        context: &Binders<Type>,
        origin: fn(Side) -> Origin,
        left: &'c Code,
        right: &'c Code,
    ) -> Task<'c> {
        let side = self.side();
        let code = if side == Side::Left { left } else { right };
        Task::Became(origin(side), self.part(context, code))
    }
}
