//! An engine, as the four calls of 01, and what it makes of one input: so that two can be compared.

use crate::calls::{self, Looked};
use crate::lent::Lent;
use crate::roles::Role;

/// The four calls on lent memory.
pub trait Engine {
    /// Gives the number.
    fn load(&self, text: &[u8], rows: &mut [i32]) -> u32;
    /// Gives the number and the strides.
    fn start(&self, rows: &[i32], state: &mut [i32]) -> (u32, u32);
    fn look(&self, rows: &[i32], state: &[i32], role: Role, value: &mut [i32], list: &mut [u8]) -> Looked;
    /// Gives the number and the strides.
    fn handle(&self, rows: &[i32], state: &mut [i32], event: &[u8]) -> (u32, u32);
}

/// The second implementation.
#[derive(Clone, Copy, Debug, Default)]
pub struct Reference;

impl Engine for Reference {
    fn load(&self, text: &[u8], rows: &mut [i32]) -> u32 {
        calls::load(text, rows)
    }

    fn start(&self, rows: &[i32], state: &mut [i32]) -> (u32, u32) {
        calls::start(rows, state)
    }

    fn look(&self, rows: &[i32], state: &[i32], role: Role, value: &mut [i32], list: &mut [u8]) -> Looked {
        calls::look(rows, state, role, value, list)
    }

    fn handle(&self, rows: &[i32], state: &mut [i32], event: &[u8]) -> (u32, u32) {
        calls::handle(rows, state, event)
    }
}

/// What each of the four calls answers, and each memory that it may write, as it leaves it.
#[derive(Clone, Debug, PartialEq, Eq)]
pub struct Answers {
    pub load: u32,
    pub loaded: Vec<i32>,
    pub start: (u32, u32),
    pub started: Vec<i32>,
    pub look: Looked,
    pub value: Vec<i32>,
    pub list: Vec<u8>,
    pub handle: (u32, u32),
    pub handled: Vec<i32>,
}

impl Answers {
    /// The four calls, each on a copy of what is lent.
    pub fn of(engine: &impl Engine, lent: &Lent) -> Self {
        let (mut loaded, mut value, mut list) = (lent.room.clone(), lent.value.clone(), lent.list.clone());
        let (mut started, mut handled) = (lent.state.clone(), lent.state.clone());
        Answers {
            load: engine.load(&lent.text, &mut loaded),
            start: engine.start(&lent.rows, &mut started),
            look: engine.look(&lent.rows, &lent.state, lent.role, &mut value, &mut list),
            handle: engine.handle(&lent.rows, &mut handled, &lent.event),
            loaded,
            started,
            value,
            list,
            handled,
        }
    }

    /// The numbers of load, start, look and handle.
    pub fn numbers(&self) -> [u32; 4] {
        [self.load, self.start.0, self.look.number, self.handle.0]
    }

    /// Whether each refused call has strides, flags and part of nothing and left its memory as it was
    /// lent, and an accepted look the list after its part (01, "Order").
    pub fn keep(&self, lent: &Lent) -> bool {
        let kept = |number: u32, same: bool| number == 0 || same;
        let nothing = Looked { number: self.look.number, ..Looked::default() };
        kept(self.load, self.loaded == lent.room)
            && kept(self.start.0, self.start.1 == 0 && self.started == lent.state)
            && kept(self.look.number, self.look == nothing && self.value == lent.value)
            && kept(self.handle.0, self.handle.1 == 0 && self.handled == lent.state)
            && self.list.get(self.look.bytes..) == lent.list.get(self.look.bytes..)
    }
}
