//! The list: what may be touched (01, "Touches and what is shown"; the paper's Fig. 15).

use crate::event::{Action, Entry};
use crate::handle::mark;
use crate::limits::LEAVES;
use crate::roles::Who;
use crate::rules::Rules;
use crate::slips::Slip;
use crate::syntax::{Code, Going, Type};
use crate::task::{Env, Origin, Side, Store, Task};
use crate::value::{leaf_kinds, Leaves};

/// The list being written, for whom, and the path to the task at hand.
struct List {
    who: Who,
    path: Vec<u8>,
    /// Whether what stands here is not to be listed.
    hidden: bool,
    entries: Vec<Entry>,
}

impl List {
    fn editor(&mut self, of: &Type) {
        self.add(Action::Value, leaf_kinds(of));
    }

    fn action(&mut self, action: Action) {
        self.add(action, [0; LEAVES]);
    }

    fn add(&mut self, action: Action, kinds: Leaves) {
        if !self.hidden {
            self.entries.push(Entry { path: self.path.clone(), action, kinds });
        }
    }
}

impl Rules {
    /// The entries of a task at rest that this role may touch now, or anyone, in order: A before B, A's entries before
    /// Continue, Left before Right.
    pub fn inputs(&self, env: &Env, store: &Store, task: &Task, who: Who) -> Vec<Entry> {
        let mut list = List { who, path: Vec::new(), hidden: false, entries: Vec::new() };
        self.list(env, store, task, &mut list);
        list.entries
    }

    fn list(&self, env: &Env, store: &Store, task: &Task, list: &mut List) {
        match task {
            Task::Filled(content) => list.editor(&content.type_of()),
            Task::Empty(of) => list.editor(of),
            Task::Shared(cell) => list.editor(&store.read(*cell).type_of()),
            Task::Step(Going::ByItself, left, _) => self.list(env, store, left, list),
            Task::Step(Going::AtContinue, left, right) => {
                let goes_on = self.may_go_on(env, store, left, right);
                if goes_on && self.slip == Slip::ContinueShownFirst {
                    list.action(Action::Continue);
                }
                self.list(env, store, left, list);
                if goes_on && self.slip != Slip::ContinueShownFirst {
                    list.action(Action::Continue);
                }
            }
            Task::View(content) if self.slip == Slip::ViewOffers => list.editor(&content.type_of()),
            Task::Fail | Task::View(_) => {}
            Task::Both(left, right) | Task::Choice(left, right) => {
                let mut parts = [(Side::Left, left), (Side::Right, right)];
                if self.slip == Slip::RightPartShownFirst {
                    parts.reverse();
                }
                for (side, part) in parts {
                    self.list_marked(env, store, part, side, list);
                }
            }
            Task::Pick(left, right) => {
                let mut branches = [(Action::Left, *left), (Action::Right, *right)];
                if self.slip == Slip::RightShownFirst {
                    branches.reverse();
                }
                for (action, code) in branches {
                    if !self.branch(env, store, code).fails || self.slip == Slip::LeftShownThoughFailing {
                        list.action(action);
                    }
                }
            }
            Task::Gate(gate, left, task) => {
                let lists = self.lists(list.who, *gate, *left);
                self.list_behind(env, store, task, lists, list);
            }
            Task::Became(origin, task) => {
                let env = origin.within(env);
                match origin {
                    Origin::Chosen(side) if self.slip == Slip::ChosenKeepsMark => {
                        self.list_marked(&env, store, task, *side, list);
                    }
                    _ => self.list(&env, store, task, list),
                }
            }
        }
    }

    /// The entries of the task of a row of kind 50, where it lists them; else none.
    fn list_behind(&self, env: &Env, store: &Store, task: &Task, lists: bool, list: &mut List) {
        let (outside, innermost) = (list.hidden, self.slip == Slip::InnermostGateLists);
        list.hidden = !lists || (outside && !innermost);
        // What is hidden need not be asked for.
        if !list.hidden || innermost {
            self.list(env, store, task, list);
        }
        list.hidden = outside;
    }

    /// The entries of a part, with its mark in front of what follows.
    fn list_marked(&self, env: &Env, store: &Store, part: &Task, side: Side, list: &mut List) {
        let shown = match (self.slip, side) {
            (Slip::MarksExchangedInList, Side::Left) => Side::Right,
            (Slip::MarksExchangedInList, Side::Right) => Side::Left,
            _ => side,
        };
        list.path.extend_from_slice(mark(shown));
        self.list(env, store, part, list);
        list.path.pop();
    }

    /// Whether a 44 with this A and B takes Continue.
    fn may_go_on(&self, env: &Env, store: &Store, left: &Task, right: &Code) -> bool {
        let value = self.value(store, left);
        value.is_some_and(|value| {
            self.slip == Slip::ContinueShownUntried || !self.right_side(env, store, &value, right).fails
        })
    }
}
