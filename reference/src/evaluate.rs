//! Evaluation (01, "The rules"; the paper's rules E-): left to right, carrying the store. Where it comes to a
//! sum, difference or product beyond the range it ends, and the whole expression evaluates as fail (CR 3).

use crate::operators::Operator;
use crate::rules::Rules;
use crate::slips::Slip;
use crate::syntax::{Code, Plain};
use crate::task::{Env, Origin, Side, Store, Task};
use crate::value::Value;

/// A whole expression, evaluated: the last row at start, a right side, or a branch of a 48.
pub struct Whole<'c> {
    pub task: Task<'c>,
    /// The store that it leaves.
    pub store: Store,
    /// Whether a number came to be beyond the range, so that it failed as a whole.
    pub overflows: bool,
}

impl Rules {
    /// Evaluates a whole expression from this store. Where that leaves the range, it "evaluates as fail, with the
    /// store from before it" (CR 3).
    pub fn whole<'c>(&self, env: &Env, before: &Store, code: &'c Code) -> Whole<'c> {
        let mut store = before.clone();
        match self.evaluate(env, &mut store, code) {
            Some(task) => Whole { task, store, overflows: false },
            None if self.slip == Slip::OverflowKeepsWrites => Whole { task: Task::Fail, store, overflows: true },
            None => Whole { task: Task::Fail, store: before.clone(), overflows: true },
        }
    }

    /// The value of a plain expression; none where evaluating it comes to a number beyond the range.
    pub fn plain(&self, env: &Env, store: &mut Store, expression: &Plain) -> Option<Value> {
        Some(match expression {
            Plain::Unit => Value::Unit,
            Plain::Truth(truth) => Value::Truth(*truth),
            Plain::Number(number) => Value::Number(*number),
            Plain::Binder(outward) => self.binder(env, *outward as usize),
            Plain::Operation(operator, left, right) => {
                if self.slip == Slip::ShortCircuit {
                    let known = self.plain(env, &mut store.clone(), left)?;
                    if matches!(
                        (operator, &known),
                        (Operator::And, Value::Truth(false)) | (Operator::Or, Value::Truth(true))
                    ) {
                        return self.plain(env, store, left);
                    }
                }
                let (left, right) = self.in_turn(env, store, left, right)?;
                operator.apply(&left, &right, self.slip)?
            }
            Plain::Condition(condition, then, otherwise) => {
                let holds = self.plain(env, store, condition)?.truth();
                let (taken, other) = if holds { (then, otherwise) } else { (otherwise, then) };
                if self.slip == Slip::BothSidesOfCondition {
                    self.plain(env, store, other)?;
                }
                self.plain(env, store, taken)?
            }
            Plain::Pair(first, second) => {
                let (first, second) = self.in_turn(env, store, first, second)?;
                Value::pair(first, second)
            }
            Plain::First(pair) => self.plain(env, store, pair)?.parts().0.clone(),
            Plain::Second(pair) => self.plain(env, store, pair)?.parts().1.clone(),
            Plain::Read(cell) => store.read(*cell).clone(),
            Plain::Write(cell, content) => {
                let content = self.plain(env, store, content)?;
                let cell = if self.slip == Slip::WritesFirstCell { store.first_like(*cell) } else { *cell };
                store.write(cell, content);
                Value::Unit
            }
            Plain::Bind(bound, body) => {
                let bound = match self.plain(env, store, bound) {
                    None if self.slip == Slip::OverflowUnusedIgnored && !body.asks(0) => Value::Unit,
                    bound => bound?,
                };
                self.plain(&env.with(&bound), store, body)?
            }
        })
    }

    /// The value of binder `outward`, 0 the nearest.
    fn binder(&self, env: &Env, outward: usize) -> Value {
        let value = env.get(outward).expect("reaches a binder, by ground 7");
        match self.slip {
            Slip::BinderNextOut => {
                env.get(outward + 1).filter(|next| next.type_of() == value.type_of()).unwrap_or(value).clone()
            }
            Slip::BoundLeafDropped => value.without_last_leaf(),
            _ => value.clone(),
        }
    }

    /// The left value and then, from the store that it leaves, the right.
    fn in_turn(&self, env: &Env, store: &mut Store, left: &Plain, right: &Plain) -> Option<(Value, Value)> {
        if self.slip == Slip::RightOperandFirst {
            let right = self.plain(env, store, right)?;
            return Some((self.plain(env, store, left)?, right));
        }
        let left = self.plain(env, store, left)?;
        Some((left, self.plain(env, store, right)?))
    }

    /// The task of a task expression; none where evaluating it comes to a number beyond the range. Steps evaluate A
    /// only; 48 evaluates neither branch.
    fn evaluate<'c>(&self, env: &Env, store: &mut Store, code: &'c Code) -> Option<Task<'c>> {
        Some(match code {
            Code::Filled(content) => Task::Filled(self.plain(env, store, content)?),
            Code::Empty(of) => Task::Empty(of),
            Code::Shared(cell) => Task::Shared(*cell),
            Code::Step(going, left, right) => Task::Step(*going, self.part(env, store, left)?, right),
            Code::Fail(_) => Task::Fail,
            Code::Both(left, right) => {
                if self.slip == Slip::RightPartFirst {
                    let right = self.part(env, store, right)?;
                    return Some(Task::Both(self.part(env, store, left)?, right));
                }
                let left = self.part(env, store, left)?;
                Task::Both(left, self.part(env, store, right)?)
            }
            Code::Choice(left, right) => {
                let left = self.part(env, store, left)?;
                Task::Choice(left, self.part(env, store, right)?)
            }
            Code::Pick(left, right) => {
                if self.slip == Slip::PickEvaluates {
                    self.evaluate(env, store, left)?;
                }
                Task::Pick(left, right)
            }
            Code::View(content) => Task::View(self.plain(env, store, content)?),
            Code::Gate(gate, task) => Task::Gate(*gate, gate.touches, self.part(env, store, task)?),
            Code::Condition(condition, then, otherwise) => {
                let (side, code) = match self.plain(env, store, condition)?.truth() {
                    true => (Side::Left, then),
                    false => (Side::Right, otherwise),
                };
                Task::Became(Origin::Decided(side), self.part(env, store, code)?)
            }
            Code::Bind(bound, body) => {
                let bound = match self.plain(env, store, bound) {
                    None if self.slip == Slip::OverflowUnusedIgnored && !body.asks(0) => Value::Unit,
                    bound => bound?,
                };
                let body = self.part(&env.with(&bound), store, body)?;
                Task::Became(Origin::Bound(bound), body)
            }
        })
    }

    /// The task of a part. A number beyond the range in it fails the whole, and not the part alone.
    fn part<'c>(&self, env: &Env, store: &mut Store, code: &'c Code) -> Option<Box<Task<'c>>> {
        let task = self.evaluate(env, store, code);
        if self.slip == Slip::OverflowFailsOperandOnly {
            return task.or(Some(Task::Fail)).map(Box::new);
        }
        task.map(Box::new)
    }
}
