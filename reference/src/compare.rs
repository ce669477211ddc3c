//! Cases with the screens that the rules give them, and the comparison of other screens with these.

use crate::generate;
use crate::rules::Rules;
use crate::session;

/// A session: what it reads and what it prints.
#[derive(Clone, Debug)]
pub struct Case {
    pub input: Vec<u8>,
    pub screens: Vec<u8>,
}

/// Cases 0 to `count` - 1 under a seed, with their screens.
pub fn cases(seed: u64, count: u64) -> Vec<Case> {
    let inputs = generate::cases(seed, count);
    inputs.map(|input| Case { screens: session::screens(&input, Rules::default()), input }).collect()
}

/// The places of the cases to which `rules` give other screens.
pub fn differing(cases: &[Case], rules: Rules) -> impl Iterator<Item = usize> + '_ {
    let differs = move |case: &Case| session::screens(&case.input, rules) != case.screens;
    cases.iter().enumerate().filter(move |(_, case)| differs(case)).map(|(at, _)| at)
}
