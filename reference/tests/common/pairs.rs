//! Pairs of sessions for the tests of CR 5.

use super::{read_screens, Screen};
use reference::pairs::Pair;
use reference::rules::Rules;
use reference::session;

/// What the two sessions of a pair print.
pub fn printed(pair: &Pair, rules: Rules) -> [Vec<u8>; 2] {
    pair.inputs().map(|input| session::screens(&input, rules))
}

pub fn difference(pair: &Pair) -> Option<String> {
    let [first, second] = printed(pair, Rules::default());
    pair.difference(&first, &second)
}

/// The screens of both sessions, which correspond.
pub fn corresponding(pair: &Pair) -> [Vec<Screen>; 2] {
    assert_eq!(difference(pair), None);
    assert_eq!(pair.states_differ(), None);
    printed(pair, Rules::default()).map(|screens| read_screens(&screens))
}

/// The answers of a session.
pub fn answers(screens: &[Screen]) -> Vec<i32> {
    screens.iter().map(|screen| screen.answer).collect()
}

/// Path and action of each entry.
pub fn paths(screen: &Screen) -> Vec<String> {
    screen.entries.iter().map(|entry| entry.split(' ').take(2).collect::<Vec<_>>().join(" ")).collect()
}
