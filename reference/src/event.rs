//! Events and list entries as bytes (01, "Touches and what is shown"; CR 6 for the role in front of an event).

use crate::field::{self, Field};
use crate::limits::{LEAVES, LEAVES_BEFORE};
use crate::roles::{self, Role};
use crate::slips::Slip;
use crate::value::{Given, Leaves};
use std::io::{self, Write};
use std::ops::Range;

/// Bytes an event and an entry of the list, and columns of a role, a path, an action, a leaf and a leaf kind.
pub const EVENT: usize = event_bytes(LEAVES);
pub const ENTRY: usize = entry_bytes(LEAVES);
pub const ROLE: usize = 2;
pub const PATH: usize = 16;
pub const ACTION: usize = 2;
pub const LEAF: usize = 12;
pub const KIND: usize = 2;

/// Where an event has its role, its path and its action; an entry has its path in front.
pub const ROLE_COLUMNS: Range<usize> = 0..ROLE;
pub const PATH_COLUMNS: Range<usize> = ROLE..ROLE + PATH;
pub const ACTION_COLUMNS: Range<usize> = ROLE + PATH..ROLE + PATH + ACTION;

/// Bytes an event before CR 6: the same without a role.
pub const EVENT_BEFORE: usize = EVENT - ROLE;

/// The bytes of an event of so many leaves.
pub const fn event_bytes(leaves: usize) -> usize {
    ROLE + PATH + ACTION + leaves * LEAF + 1
}

/// The bytes of an entry of so many leaf kinds.
pub const fn entry_bytes(leaves: usize) -> usize {
    PATH + ACTION + leaves * KIND + 1
}

/// The columns of leaf `at` of an event.
pub fn leaf_columns(at: usize) -> Range<usize> {
    let from = ACTION_COLUMNS.end + LEAF * at;
    from..from + LEAF
}

#[derive(Clone, Copy, Debug, PartialEq, Eq)]
pub enum Action {
    Value = 1,
    Continue = 2,
    Left = 3,
    Right = 4,
}

impl Action {
    pub const ALL: [Action; 4] = [Action::Value, Action::Continue, Action::Left, Action::Right];

    pub const fn number(self) -> i32 {
        self as i32
    }

    fn of_number(number: i32) -> Option<Self> {
        Self::ALL.into_iter().find(|action| action.number() == number)
    }
}

/// A readable event. The path's digits stand as the bytes `1` and `2`, outermost first; blank and 0
/// are two leaves (CR 2).
#[derive(Clone, Copy, Debug, PartialEq, Eq)]
pub struct Event<'e> {
    pub role: Role,
    pub path: &'e [u8],
    pub action: Action,
    pub leaves: Given,
}

impl<'e> Event<'e> {
    /// The event in these bytes; none where ground 8 holds.
    pub fn read(bytes: &'e [u8], slip: Slip) -> Option<Self> {
        let (role, rest) = split_role(bytes, slip)?;
        let (last, fields) = rest.split_last()?;
        let count = leaves_in(ROLE + rest.len(), slip)?;
        if *last != b'\n' && slip != Slip::EventByteTenUnread {
            return None;
        }
        let (path, fields) = fields.split_at(PATH);
        let (action, fields) = fields.split_at(ACTION);
        let (path, action) = (read_path(path, slip)?, read_action(action, slip)?);
        let leaves = read_leaves(fields, count, slip)?;
        // A leaf not 0 at actions 2 to 4; a blank is none.
        let given = |leaf: &Option<i32>| match leaf {
            Some(number) => *number != 0,
            None => slip == Slip::BlankAtContinueIsEight,
        };
        let unused = action != Action::Value && leaves.iter().any(given);
        match slip {
            Slip::LeafAtContinueIgnored => Some(Event { role, path, action, leaves }),
            // Read as a value, which nothing takes at a path that long.
            Slip::LeafAtContinueIsNine if unused => {
                Some(Event { role, path: &[b'1'; PATH + 2], action: Action::Value, leaves })
            }
            _ => (!unused).then_some(Event { role, path, action, leaves }),
        }
    }
}

/// The role, where it can be read, and what stands behind it.
fn split_role(bytes: &[u8], slip: Slip) -> Option<(Role, &[u8])> {
    let without = matches!(slip, Slip::EventsWithoutRole | Slip::EventWithoutRoleRead);
    if without && bytes.len() == EVENT_BEFORE {
        return Some((roles::FIRST, bytes));
    }
    let (role, rest) = bytes.split_at_checked(ROLE)?;
    Some((read_role(role, slip)?, rest))
}

/// The role in these columns: a number from 1 to 8.
pub fn read_role(field: &[u8], slip: Slip) -> Option<Role> {
    match field::read(field, slip) {
        Field::Number(number) => roles::role_of(number, slip),
        Field::Blank => (slip == Slip::BlankRoleIsOne).then_some(roles::FIRST),
        Field::Unreadable => None,
    }
}

/// How many leaves an event of so many bytes has; none where no event has that length.
fn leaves_in(bytes: usize, slip: Slip) -> Option<usize> {
    match slip {
        Slip::EventsOfFourLeaves => (bytes == event_bytes(LEAVES_BEFORE)).then_some(LEAVES_BEFORE),
        Slip::EventOfFourLeavesRead if bytes == event_bytes(LEAVES_BEFORE) => Some(LEAVES_BEFORE),
        _ => (bytes == EVENT).then_some(LEAVES),
    }
}

/// The first `count` leaves in these columns, each a number or blank; none where one is neither. Those after them, which a
/// slip leaves unread, are 0.
fn read_leaves(fields: &[u8], count: usize, slip: Slip) -> Option<Given> {
    let mut leaves = [Some(0); LEAVES];
    let read = if slip == Slip::LastLeafUnread { LEAVES - 1 } else { count };
    for (leaf, field) in leaves.iter_mut().zip(fields.chunks_exact(LEAF)).take(read) {
        *leaf = match field::read(field, slip) {
            Field::Number(number) => Some(number),
            Field::Blank if slip != Slip::BlankLeafIsEight => None,
            Field::Blank | Field::Unreadable => return None,
        };
    }
    Some(leaves)
}

/// The action; none where it is blank.
fn read_action(field: &[u8], slip: Slip) -> Option<Action> {
    match field::read(field, slip) {
        Field::Number(number) => Action::of_number(number),
        Field::Blank if slip == Slip::BlankActionGives => Some(Action::Value),
        Field::Blank | Field::Unreadable => None,
    }
}

/// The path's digits: none for `0` alone and for a blank, else 1 to 16 digits 1 and 2.
fn read_path(field: &[u8], slip: Slip) -> Option<&[u8]> {
    let mut digits = field::after_spaces(field);
    if slip == Slip::ZeroBeforePath && digits.len() > 1 {
        digits = digits.strip_prefix(b"0").unwrap_or(digits);
    }
    match digits {
        b"0" => Some(b""),
        b"" if matches!(slip, Slip::BlankPathUnreadable | Slip::BlankUnreadable) => None,
        b"" => Some(b""),
        _ => digits.iter().all(|digit| matches!(digit, b'1' | b'2')).then_some(digits),
    }
}

/// An entry of the list: what may be touched.
#[derive(Clone, Debug, PartialEq, Eq)]
pub struct Entry {
    pub path: Vec<u8>,
    pub action: Action,
    pub kinds: Leaves,
}

impl Entry {
    /// Path and action as in an event, the leaf kinds, byte 10. What is unused is written as 0.
    pub fn write(&self, out: &mut impl Write, slip: Slip) -> io::Result<()> {
        write_path(out, &self.path)?;
        field::write(out, self.action.number(), ACTION)?;
        let count = if slip == Slip::EntriesOf27 { LEAVES_BEFORE } else { LEAVES };
        for (at, &kind) in self.kinds.iter().enumerate().take(count) {
            match kind {
                0 if slip == Slip::BlankWritten => write!(out, "{:KIND$}", "")?,
                _ if slip == Slip::LastKindNotShown && at == LEAVES - 1 => field::write(out, 0, KIND)?,
                _ => field::write(out, kind, KIND)?,
            }
        }
        out.write_all(b"\n")
    }
}

/// The bytes of an event of role 1; path and action may be any text and number.
pub fn write(path: &str, action: i32, leaves: Leaves) -> Vec<u8> {
    let path = if path.is_empty() { "0" } else { path };
    let leaves = leaves.map(|leaf| format!("{leaf:>LEAF$}")).concat();
    format!("{:>ROLE$}{path:>PATH$}{action:>ACTION$}{leaves}\n", roles::FIRST).into_bytes()
}

/// The same event with this text for its role.
pub fn with_role(role: &str, mut event: Vec<u8>) -> Vec<u8> {
    event[ROLE_COLUMNS].copy_from_slice(format!("{role:>ROLE$}").as_bytes());
    event
}

/// The event without its role, as events were before CR 6: 115 bytes, or all that there are.
pub fn without_role(event: &[u8]) -> Vec<u8> {
    event[event.len().min(ROLE)..].to_vec()
}

/// The event with its first four leaves alone: 69 bytes, or all that there are. Without its role it is what an event was
/// before CR 4.
pub fn with_four_leaves(event: &[u8]) -> Vec<u8> {
    let columns = event.len().min(event_bytes(LEAVES_BEFORE) - 1);
    [&event[..columns], b"\n"].concat()
}

/// Writes a path right-justified, `0` for the empty one.
pub fn write_path(out: &mut impl Write, path: &[u8]) -> io::Result<()> {
    let digits = if path.is_empty() { b"0" } else { path };
    write!(out, "{:>PATH$}", String::from_utf8_lossy(digits))
}
