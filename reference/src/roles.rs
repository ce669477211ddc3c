//! Roles and touches (CR 6): a row of kind 50 is for one role, and is touched so often at most.

use crate::grounds::Ground;
use crate::rules::Rules;
use crate::slips::Slip;
use std::ops::RangeInclusive;

/// A role, 1 to 8; a look may be asked for any number.
pub type Role = u32;

/// The roles that there are, and the touches that a row of kind 50 may have.
pub const ROLES: RangeInclusive<i32> = 1..=8;
pub const TOUCHES: RangeInclusive<i32> = 0..=99;
/// The session's role at the start, and where no other can be read.
pub const FIRST: Role = 1;

/// The role of this number, if there is one.
pub fn role_of(number: i32, slip: Slip) -> Option<Role> {
    let also = match slip {
        Slip::RoleZeroRead => number == 0,
        Slip::RoleNineRead => number == 9,
        _ => false,
    };
    (ROLES.contains(&number) || also).then_some(number as Role)
}

/// Whether there is such a role.
pub fn is_role(role: Role) -> bool {
    i32::try_from(role).is_ok_and(|number| ROLES.contains(&number))
}

/// What a row of kind 50 says of its task: whose it is, and the touches that it has when it is evaluated.
#[derive(Clone, Copy, Debug, PartialEq, Eq)]
pub struct Gate {
    pub role: Role,
    pub touches: i32,
}

/// For whom a list is made: for a role, or for anyone, as before CR 6.
#[derive(Clone, Copy, Debug, PartialEq, Eq)]
pub enum Who {
    Anyone,
    Is(Role),
}

/// A row of kind 50 that an event passed, with the touches that it had left.
#[derive(Clone, Copy, Debug, PartialEq, Eq)]
pub struct Passed {
    pub role: Role,
    pub left: i32,
}

impl Rules {
    /// Whether what stands behind this row of kind 50 is listed: it is this role's, and a touch is left.
    pub fn lists(&self, who: Who, gate: Gate, left: i32) -> bool {
        let touchable = left > 0 || self.slip == Slip::SpentListed;
        match who {
            Who::Anyone => true,
            Who::Is(_) if self.slip == Slip::ListForAnyone => touchable,
            Who::Is(role) => role == gate.role && touchable,
        }
    }

    /// Whether a derived step is one that the role may take, by the rows of kind 50 that the event passed, the outermost first:
    /// 30 where one of them is another role's, and else 31 where one of them has no touch left.
    pub fn verdict(&self, role: Role, passed: &[Passed]) -> Result<(), Ground> {
        let asked = match (self.slip, passed) {
            (Slip::OutermostGateAsked, [outermost, ..]) => std::slice::from_ref(outermost),
            (Slip::InnermostGateAsked, [.., innermost]) => std::slice::from_ref(innermost),
            _ => passed,
        };
        let other = asked.iter().any(|gate| gate.role != role);
        let spent = asked.iter().any(|gate| gate.left == 0);
        match (other, spent) {
            (true, true) if self.slip == Slip::TouchesAskedFirst => Err(Ground::Touches),
            (true, _) => Err(Ground::Role),
            (false, true) => Err(Ground::Touches),
            (false, false) => Ok(()),
        }
    }
}
