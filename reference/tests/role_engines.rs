//! Engines that are wrong about roles and touches (CR 6), on lent memory: each is told from the second implementation.

use reference::calls::{self, Looked};
use reference::engine::{Answers, Engine, Reference};
use reference::event::{Event, ENTRY};
use reference::flow::Flow;
use reference::lent::{self, Lent};
use reference::roles::{self, Role, Who, FIRST};
use reference::slips::Slip;
use reference::words::{self, STATE_ROW};

#[derive(Clone, Copy, Debug, PartialEq, Eq)]
enum Wrong {
    /// Look answers 24 before 8.
    ListBeforeRole,
    /// Look answers 8 before 23.
    RoleBeforeRest,
    /// Role 9 looks as role 1.
    RoleNineSeen,
    /// The role is the last byte of what is lent.
    RoleByItsLastByte,
    /// The list is that of anyone.
    LookForAnyone,
    /// A row of kind 50 always has all its touches.
    TouchesUnread,
    /// Touches left above C are all of them.
    TouchesAboveC,
    /// Negative touches left are none.
    TouchesNegative,
    /// An accepted event gives each row of kind 50 all its touches.
    TouchesKept,
    /// An event that gets 30 or 31 leaves the state that it would lead to.
    RefusedIsTaken,
    /// 9 in the place of 30.
    ThirtyIsNine,
    /// 30 in the place of 31.
    ThirtyOneIsThirty,
}

use Wrong::*;

const WRONG: [Wrong; 12] = [
    ListBeforeRole,
    RoleBeforeRest,
    RoleNineSeen,
    RoleByItsLastByte,
    LookForAnyone,
    TouchesUnread,
    TouchesAboveC,
    TouchesNegative,
    TouchesKept,
    RefusedIsTaken,
    ThirtyIsNine,
    ThirtyOneIsThirty,
];

impl Wrong {
    /// The state as this engine has it.
    fn misread(self, rows: &[i32], state: &[i32]) -> Vec<i32> {
        let mut state = state.to_vec();
        let Ok(flow) = calls::flow_of(rows) else { return state };
        for (row, words) in flow.rows.iter().zip(state.chunks_exact_mut(STATE_ROW)).filter(|(row, _)| row.kind == 50) {
            let (most, left) = (row.operands[2], words[words::LEAF]);
            words[words::LEAF] = match self {
                TouchesUnread if words[words::TAG] == 1 => most,
                TouchesAboveC if left > most => most,
                TouchesNegative if left < 0 => 0,
                _ => left,
            };
        }
        state
    }
}

/// Whether a list memory is too short for what anyone may touch at a rest.
fn is_short(rows: &[i32], state: &[i32], room: usize) -> bool {
    let flow = calls::flow_of(rows).expect("accepted");
    room < ENTRY * words::read(&flow, state).expect("a state").entries(Who::Anyone).len()
}

/// The state after an event, whatever its role.
fn taken(flow: &Flow, state: &[i32], event: &[u8]) -> Option<Vec<i32>> {
    let mut read = words::read(flow, state)?;
    read.take(Event::read(event, Slip::None)?)?;
    Some(words::write(flow, &read))
}

impl Engine for Wrong {
    fn load(&self, text: &[u8], rows: &mut [i32]) -> u32 {
        calls::load(text, rows)
    }

    fn start(&self, rows: &[i32], state: &mut [i32]) -> (u32, u32) {
        calls::start(rows, state)
    }

    fn look(&self, rows: &[i32], state: &[i32], role: Role, value: &mut [i32], list: &mut [u8]) -> Looked {
        let refused = |number| Looked { number, ..Looked::default() };
        let (before, room) = (value.to_vec(), list.len());
        let seen_as = match self {
            RoleNineSeen if role == 9 => FIRST,
            RoleByItsLastByte => role & 0xff,
            _ => role,
        };
        let looked = calls::look(rows, &self.misread(rows, state), seen_as, value, list);
        match self {
            ListBeforeRole if looked.number == 8 && is_short(rows, state, room) => refused(24),
            RoleBeforeRest if looked.number == 23 && !roles::is_role(role) => refused(8),
            LookForAnyone if looked.number == 0 && is_short(rows, state, room) => {
                value.copy_from_slice(&before);
                refused(24)
            }
            _ => looked,
        }
    }

    fn handle(&self, rows: &[i32], state: &mut [i32], event: &[u8]) -> (u32, u32) {
        let mut after = self.misread(rows, state);
        let (number, strides) = calls::handle(rows, &mut after, event);
        match (self, number) {
            (ThirtyIsNine, 30) => return (9, 0),
            (ThirtyOneIsThirty, 31) => return (30, 0),
            (RefusedIsTaken, 30 | 31) => {
                let flow = calls::flow_of(rows).expect("accepted");
                state.copy_from_slice(&taken(&flow, state, event).expect("a step"));
            }
            (TouchesKept, 0) => state.copy_from_slice(&TouchesUnread.misread(rows, &after)),
            (_, 0) => state.copy_from_slice(&after),
            _ => {}
        }
        (number, strides)
    }
}

#[test]
fn engines_wrong_about_roles_are_caught() {
    let inputs: Vec<Lent> = lent::inputs(1, 4000).collect();
    let expected: Vec<Answers> = inputs.iter().map(|lent| Answers::of(&Reference, lent)).collect();
    for wrong in WRONG {
        let differs = |(lent, expected): (&Lent, &Answers)| Answers::of(&wrong, lent) != *expected;
        let caught = inputs.iter().zip(&expected).filter(|&pair| differs(pair)).count();
        println!("{wrong:?}: {caught}");
        assert!(caught > 0, "{wrong:?}");
    }
}
