//! Striding and normalising (01, "The rules"; the paper's Figs. 11 and 12).

use crate::rules::{Asking, Rules};
use crate::slips::Slip;
use crate::syntax::{Code, Going};
use crate::task::{Env, Origin, Side, Store, Task};
use std::mem;

impl Rules {
    /// Strides the task until a stride changes neither task nor store. Gives the number of
    /// strides, the last included.
    pub fn normalise(&self, env: &Env, store: &mut Store, task: &mut Task) -> usize {
        let mut strides = 0;
        loop {
            strides += 1;
            let changed = match self.asking {
                Asking::ByLemma => self.stride_to_rest(env, store, task),
                Asking::Literally => {
                    let before = (task.clone(), store.clone());
                    self.stride(env, store, task);
                    (&before.0, &before.1) != (&*task, &*store)
                }
            };
            if !changed || self.slip == Slip::OneStride {
                break;
            }
        }
        strides - usize::from(self.slip == Slip::LastStrideNotCounted)
    }

    /// One stride; whether it asks for another.
    fn stride_to_rest(&self, env: &Env, store: &mut Store, task: &mut Task) -> bool {
        if self.slip == Slip::RestOfStoreIsEnough {
            let before = store.clone();
            return self.stride(env, store, task) && *store != before;
        }
        self.stride(env, store, task)
    }

    /// One stride. Tells whether a 43 was taken or a 47 chosen: nothing else changes task or
    /// store.
    pub fn stride(&self, env: &Env, store: &mut Store, task: &mut Task) -> bool {
        match task {
            Task::Step(going, left, right) if *going == Going::ByItself || self.slip == Slip::NextGoesByItself => {
                let moved = self.stride(env, store, left);
                if moved && self.slip == Slip::RightSideNextStride {
                    return true;
                }
                let taken = self.step(env, store, left, right);
                taken.map_or(moved, |taken| {
                    *task = taken;
                    true
                })
            }
            Task::Step(_, left, _) => {
                if self.slip == Slip::NextLosesStore {
                    return self.stride(env, &mut store.clone(), left);
                }
                self.stride(env, store, left)
            }
            Task::Both(left, right) => self.stride_parts(env, store, left, right),
            Task::Choice(left, right) => {
                let (moved, chosen) = self.choose(env, store, left, right);
                if let Some(side) = chosen {
                    let part = if side == Side::Left { left } else { right };
                    let part = mem::replace(part, Box::new(Task::Fail));
                    *task = Task::Became(Origin::Chosen(side), part);
                }
                moved || chosen.is_some()
            }
            Task::Gate(gate, left, task) => {
                if self.slip == Slip::TouchesAnew {
                    *left = gate.touches;
                }
                self.stride(env, store, task)
            }
            Task::Became(origin, task) => self.stride(&origin.within(env), store, task),
            Task::Filled(_) | Task::Empty(_) | Task::Shared(_) | Task::Fail | Task::Pick(..) | Task::View(_) => false,
        }
    }

    /// What replaces a 43 whose A, strided, is `left`: B evaluated under its value, unless there
    /// is none or B fails; then B's store is dropped. A B that leaves the range fails, so the step waits (CR 3).
    fn step<'c>(&self, env: &Env, store: &mut Store, left: &Task, right: &'c Code) -> Option<Task<'c>> {
        let value = self.value(store, left)?;
        let mut tried = self.right_side(env, store, &value, right);
        if tried.overflows && self.slip == Slip::OverflowFailsStep {
            return Some(Task::Fail);
        }
        if tried.fails && self.slip != Slip::StepsIntoFailing {
            let keeps_overflow = tried.overflows && self.slip == Slip::OverflowKeepsWrites;
            if keeps_overflow || self.slip == Slip::KeepsFailedWrites {
                *store = tried.store;
            }
            return None;
        }
        if self.slip != Slip::StepDropsStore {
            *store = tried.store;
        }
        if self.slip == Slip::ReplacementStrided {
            self.stride(&env.with(&value), store, &mut tried.task);
        }
        Some(Task::Became(Origin::Taken(value), Box::new(tried.task)))
    }

    /// 46 strides left, then right from the left's store.
    fn stride_parts(&self, env: &Env, store: &mut Store, left: &mut Task, right: &mut Task) -> bool {
        match self.slip {
            Slip::RightPartStridesFirst => self.stride(env, store, right) | self.stride(env, store, left),
            Slip::PartsStrideApart => {
                let mut apart = store.clone();
                let moved = self.stride(env, store, left);
                if self.stride(env, &mut apart, right) {
                    *store = apart;
                    return true;
                }
                moved
            }
            _ => self.stride(env, store, left) | self.stride(env, store, right),
        }
    }

    /// 47 strides left and, where that has no value, right. Tells whether a part moved and which
    /// part has a value and so replaces the choice.
    fn choose(&self, env: &Env, store: &mut Store, left: &mut Task, right: &mut Task) -> (bool, Option<Side>) {
        let mut moved = self.stride(env, store, left);
        let has_value = self.value(store, left).is_some();
        if has_value && self.slip != Slip::StridesRightToo && self.slip != Slip::ChoosesRight {
            return (moved, Some(Side::Left));
        }
        moved |= self.stride(env, store, right);
        if has_value && self.slip == Slip::StridesRightToo {
            return (moved, Some(Side::Left));
        }
        if self.value(store, right).is_some() && self.slip != Slip::RightNeverChosen {
            return (moved, Some(Side::Right));
        }
        (moved, has_value.then_some(Side::Left))
    }
}
