//! Roles: who looks, and whose event it is.

use crate::MAX_ROLE;

/// A role, 1 to 8.
#[derive(Clone, Copy, Debug, PartialEq, Eq, PartialOrd, Ord, Hash)]
pub struct Role(u32);

impl Role {
    /// Role 1: in which the session program looks at the start, and where no other can be read.
    pub const FIRST: Role = Role(1);

    /// The role of this number, if there is one.
    pub const fn new(number: u32) -> Option<Self> {
        if number >= 1 && number <= MAX_ROLE {
            Some(Role(number))
        } else {
            None
        }
    }

    pub const fn number(self) -> u32 {
        self.0
    }

    /// The role that an event's first two columns say; none where they say none.
    pub fn of_event(event: &[u8]) -> Option<Self> {
        match event {
            [b' ', digit @ b'1'..=b'8', ..] => Role::new(u32::from(digit - b'0')),
            _ => None,
        }
    }
}
