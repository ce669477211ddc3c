//! Events: most from a list shown to their role, some near it, some that cannot be read.

use super::{blanks, gates};
use crate::event::{
    self, leaf_columns, with_four_leaves, with_role, without_role, Action, Entry, ACTION_COLUMNS, EVENT, PATH,
    PATH_COLUMNS,
};
use crate::limits::LEAVES;
use crate::random::Random;
use crate::roles::{Role, Who};
use crate::state::State;
use crate::value::{padded, Leaves};

/// Texts that are no field.
pub const NO_FIELDS: [&str; 13] =
    ["+1", "01", "-0", "1 ", "\t1", "1x", "-", "2147483648", "-2147483649", "1 1", "00", "\t", "\0"];

/// Texts that are no role.
pub const NO_ROLES: [&str; 10] = ["", "0", "9", "01", "1 ", "+1", "-1", "10", "1x", "\t1"];

/// An event for a state; in one of four, fields of it are blank by chance.
pub fn event(random: &mut Random, state: &State) -> Vec<u8> {
    let (role, entries) = offered(random, state);
    let (mut event, kinds) = filled(random, &entries);
    blanks::event(random, kinds, &mut event);
    match random.chance(3) {
        true => with_role(random.pick(&NO_ROLES).expect("texts"), event),
        false => with_role(&role.to_string(), event),
    }
}

/// A role, and the list that its event is made from: most often one of a role that has entries, else its own, or that of
/// anyone, so that it is refused by another's row of kind 50, or by one without a touch left.
fn offered(random: &mut Random, state: &State) -> (Role, Vec<Entry>) {
    let others = random.between(4, 8) as Role;
    let drawn = random.weighed(&[(3, 1), (3, 2), (3, 3), (1, others)]);
    match random.below(10) {
        0..=5 => {
            let roles = [drawn].into_iter().chain(gates::ROLES.into_iter().filter(|role| *role != drawn));
            let mut lists = roles.map(|role| (role, state.entries(Who::Is(role))));
            lists.find(|(_, entries)| !entries.is_empty()).unwrap_or_else(|| (drawn, state.entries(Who::Anyone)))
        }
        6 => (drawn, state.entries(Who::Is(drawn))),
        7 => (drawn, state.entries(Who::Anyone)),
        _ => {
            let gates = state.last_row.task().gates();
            let role = random.pick(&gates).map_or(drawn, |gate| gate.role);
            (role, not_for(state, role))
        }
    }
}

/// What anyone may touch but this role, or all of it.
fn not_for(state: &State, role: Role) -> Vec<Entry> {
    let (anyone, own) = (state.entries(Who::Anyone), state.entries(Who::Is(role)));
    let others: Vec<Entry> = anyone.iter().filter(|entry| !own.contains(entry)).cloned().collect();
    if others.is_empty() {
        anyone
    } else {
        others
    }
}

/// An event that is too short: cut anywhere, one of four leaves, or one without a role, as events were before.
pub fn short(random: &mut Random, state: &State) -> Vec<u8> {
    let event = event(random, state);
    match random.below(20) {
        0..=3 => with_four_leaves(&event),
        4..=7 => without_role(&event),
        8 => without_role(&with_four_leaves(&event)),
        _ => event[..1 + random.below(EVENT - 1)].to_vec(),
    }
}

/// An event without blanks, or with one that is meant; and the leaf kinds that it was made for.
fn filled(random: &mut Random, entries: &[Entry]) -> (Vec<u8>, Leaves) {
    // Continue, Left and Right are fewer than editors, so they come first half of the time.
    let moving: Vec<&Entry> = entries.iter().filter(|entry| entry.action != Action::Value).collect();
    let moving = random.pick(&moving).copied().filter(|_| random.chance(50));
    let none = [0; LEAVES];
    let Some(entry) = moving.or_else(|| random.pick(entries)) else { return (stray(random), none) };
    let path = String::from_utf8_lossy(&entry.path).into_owned();
    let leaves = fitting(random, entry.kinds);
    match random.below(100) {
        0..=57 => (event::write(&path, entry.action.number(), leaves), entry.kinds),
        58..=71 => (near(random, path, entry.action, leaves, entry.kinds), entry.kinds),
        72..=86 => (pressing(random, entries), none),
        87..=91 => (stray(random), none),
        _ => (unreadable(random, event::write(&path, entry.action.number(), leaves)), entry.kinds),
    }
}

/// Leaves that meet these kinds.
fn fitting(random: &mut Random, kinds: Leaves) -> Leaves {
    kinds.map(|kind| match kind {
        2 => random.between(0, 1),
        3 => random.word(),
        _ => 0,
    })
}

/// An event of the list with one thing changed.
fn near(random: &mut Random, mut path: String, action: Action, mut leaves: Leaves, kinds: Leaves) -> Vec<u8> {
    let mut action = action.number();
    match random.below(6) {
        0 => path.push(if random.chance(50) { '1' } else { '2' }),
        1 => drop(path.pop()),
        2 if !path.is_empty() => exchange(random, &mut path),
        2 | 3 => {
            action = random.between(1, 4);
            if action != 1 {
                leaves = [0; LEAVES];
            }
        }
        4 => {
            // A leaf that does not meet its kind, where there is one.
            let at = random.below(LEAVES);
            leaves[at] = if kinds[at] == 3 { random.word() } else { random.between(-1, 3) };
        }
        _ => {
            let at = random.below(LEAVES);
            leaves[at] = random.word();
        }
    }
    path.truncate(PATH);
    event::write(&path, action, leaves)
}

/// Exchanges a mark of the path, if it has one.
fn exchange(random: &mut Random, path: &mut String) {
    if !path.is_empty() {
        let at = random.below(path.len());
        let other = if &path[at..=at] == "1" { "2" } else { "1" };
        path.replace_range(at..=at, other);
    }
}

/// Continue, Left or Right where something is shown, or beside it: a quiet part has no entry that
/// leads there. Often to be refused.
fn pressing(random: &mut Random, entries: &[Entry]) -> Vec<u8> {
    let entry = random.pick(entries);
    let mut path = entry.map_or(String::new(), |entry| String::from_utf8_lossy(&entry.path).into_owned());
    if random.chance(30) {
        exchange(random, &mut path);
    }
    event::write(&path, random.weighed(&[(3, 2), (1, 3), (1, 4)]), [0; LEAVES])
}

/// Any path and action.
fn stray(random: &mut Random) -> Vec<u8> {
    let longest = if random.chance(10) { PATH } else { 3 };
    let length = random.below(longest + 1);
    let path: String = (0..length).map(|_| if random.chance(50) { '1' } else { '2' }).collect();
    let leaf = if random.chance(20) { random.word() } else { 0 };
    event::write(&path, random.between(0, 5), padded(&[leaf]))
}

/// An event with something in it that cannot be read, or mostly so.
fn unreadable(random: &mut Random, mut event: Vec<u8>) -> Vec<u8> {
    let paths = ["\t", "00", "01", "10", "3", "1 2", "011", "1x", "-1", "12 "];
    match random.below(5) {
        0 => event[EVENT - 1] = *random.pick(b" \r0").expect("bytes"),
        1 => {
            let at = random.below(EVENT);
            event[at] = random.draw() as u8;
        }
        2 => put(&mut event[PATH_COLUMNS], random.pick(&paths).expect("paths")),
        3 => {
            let columns = leaf_columns(random.below(LEAVES));
            put(&mut event[columns], random.pick(&NO_FIELDS).expect("fields"));
        }
        _ => {
            put(&mut event[ACTION_COLUMNS], random.pick(&["", "0", "5", "-1", "01", "+1", "1 ", "x"]).expect("actions"))
        }
    }
    event
}

/// Puts a text right-justified into columns.
pub fn put(columns: &mut [u8], text: &str) {
    let width = columns.len();
    columns.copy_from_slice(&format!("{text:>width$}").as_bytes()[..width]);
}
