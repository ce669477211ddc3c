//! A program run on pairs of sessions that CR 5 says correspond, and on controls, which must not: what it comes to, and
//! whether the pairs were telling.

use crate::counterparts::{Reading, Screen};
use crate::event::{EVENT, PATH_COLUMNS};
use crate::field;
use crate::generate::arrangements::{self, Order, Sheets};
use crate::pairs::{Arrangement, Pair};
use crate::program;
use crate::random::Random;
use crate::rules::Rules;
use crate::session;
use std::fmt;
use std::io;
use std::path::Path;

/// The count that a control must have.
const DIFFERING: &str = "differing";

/// What is run: two arrangements, and two controls.
#[derive(Clone, Copy, Debug, PartialEq, Eq)]
pub enum Of {
    Mirrored,
    Regrouped,
    /// Mirrored sheets with writes.
    MirroredWrites,
    /// (a, b), c against b, (a, c).
    RegroupedExchanged,
}

impl Of {
    pub const ALL: [Of; 4] = [Of::Mirrored, Of::Regrouped, Of::MirroredWrites, Of::RegroupedExchanged];

    /// Pair `at` under a seed.
    pub fn pair(self, seed: u64, at: u64, reading: Reading) -> Pair {
        let random = &mut Random::of_case(seed, at * Of::ALL.len() as u64 + self as u64);
        // Every second of the regrouped has writes.
        let writes = at % 2 == 1;
        let sheets = match self {
            Of::Mirrored => arrangements::mirrored(random, false),
            Of::MirroredWrites => arrangements::mirrored(random, true),
            Of::Regrouped => arrangements::regrouped(random, writes, Order::Kept),
            Of::RegroupedExchanged => arrangements::regrouped(random, writes, Order::Exchanged),
        };
        let Sheets { first, second, events } = sheets;
        let pair = match self {
            Of::Mirrored | Of::MirroredWrites => Pair::mirrored(&first, &events, reading),
            Of::Regrouped | Of::RegroupedExchanged => Pair::regrouped(&first, &second, &events, reading),
        };
        pair.expect("the first is accepted")
    }

    /// Pairs 0 to `count` - 1 under a seed.
    pub fn pairs(self, seed: u64, count: u64, reading: Reading) -> impl Iterator<Item = Pair> {
        (0..count).map(move |at| self.pair(seed, at, reading))
    }
}

/// What the pairs of one kind came to: how many of them have what the name says.
#[derive(Clone, Debug, Default)]
pub struct Counts {
    pub pairs: usize,
    /// Touches of the first sessions, by answer, and those without a counterpart.
    pub accepted: usize,
    pub unreadable: usize,
    pub refused: usize,
    pub other_role: usize,
    pub spent: usize,
    pub alone: usize,
    /// Pairs that show a value, an entry, leave the range at start, or have rows of kind 50.
    pub values: usize,
    pub lists: usize,
    pub fail_whole: usize,
    pub gated: usize,
    /// Mirrored: halves of different numbers of leaves, both touched, and one that a touch of the other changes.
    pub uneven: usize,
    pub both_touched: usize,
    pub across: usize,
    /// Regrouped: a, b and c touched before the choice; chosen at start, later; a, b and c chosen.
    pub touched: [usize; 3],
    pub at_start: usize,
    pub later: usize,
    pub chosen: [usize; 3],
    /// Pairs whose screens do not correspond.
    pub differing: usize,
}

impl Counts {
    /// Adds a pair, by what is printed for its first session.
    pub fn add(&mut self, pair: &Pair, first: &[u8]) {
        let screens = Screen::all(first).unwrap_or_default();
        self.pairs += 1;
        self.values += usize::from(screens.iter().any(Screen::has_value));
        self.lists += usize::from(screens.iter().any(|screen| !screen.entries.is_empty()));
        self.fail_whole += usize::from(pair.fails_whole);
        self.gated += usize::from(pair.gated);
        self.alone += pair.steps.iter().filter(|step| !step.corresponds).count();
        for screen in screens.iter().skip(1) {
            match screen.number() {
                Some(0) => self.accepted += 1,
                Some(8) => self.unreadable += 1,
                Some(30) => self.other_role += 1,
                Some(31) => self.spent += 1,
                _ => self.refused += 1,
            }
        }
        match pair.arrangement {
            Arrangement::Mirrored { first, second } => self.add_halves(pair, &screens, first, second),
            Arrangement::Regrouped => self.add_choice(pair, &screens),
        }
    }

    fn add_halves(&mut self, pair: &Pair, screens: &[Screen], first: usize, second: usize) {
        self.uneven += usize::from(first != second);
        let (mut touched, mut across) = ([false; 2], false);
        for (at, path) in accepted(pair, screens) {
            let half = usize::from(path.first() == Some(&b'2'));
            touched[half] = true;
            // The block and the leaves of the other half.
            let (mark, from, to) = if half == 0 { (b'2', first, first + second) } else { (b'1', 0, first) };
            let [before, after] = [&screens[at - 1], &screens[at]];
            let values = before.has_value() && after.has_value();
            // Lists of two roles tell nothing of the touch.
            let same_role = !pair.gated || pair.steps[at - 1].role == pair.steps[at].role;
            across |= (same_role && before.block(mark) != after.block(mark))
                || (values && before.leaves(from, to) != after.leaves(from, to));
        }
        self.both_touched += usize::from(touched == [true; 2]);
        self.across += usize::from(across);
    }

    fn add_choice(&mut self, pair: &Pair, screens: &[Screen]) {
        let mut touched = [false; 3];
        for (at, path) in accepted(pair, screens) {
            match path {
                _ if pair.steps[at - 1].chosen.is_some() => {}
                [b'1', b'1', ..] => touched[0] = true,
                [b'1', ..] => touched[1] = true,
                _ => touched[2] = true,
            }
        }
        for (count, touched) in self.touched.iter_mut().zip(touched) {
            *count += usize::from(touched);
        }
        let chosen = pair.steps.last().and_then(|step| step.chosen);
        if let Some(chosen) = chosen {
            self.chosen[chosen as usize] += 1;
            match pair.steps[0].chosen {
                Some(_) => self.at_start += 1,
                None => self.later += 1,
            }
        }
    }

    /// What there is too little of for the run to tell anything: each number with the least that is asked of 100 pairs.
    fn asked(&self, of: Of) -> Vec<(&'static str, usize, usize)> {
        let mut asked = vec![
            ("touches accepted", self.accepted, 200),
            ("touches refused", self.refused, 50),
            ("touches of another role", self.other_role, 5),
            ("touches of spent rows", self.spent, 2),
            ("touches unreadable", self.unreadable, 10),
            ("with a value", self.values, 15),
            ("with an entry", self.lists, 60),
            ("out of range at start", self.fail_whole, 1),
            ("with rows of kind 50", self.gated, 20),
        ];
        match of {
            Of::Mirrored | Of::MirroredWrites => asked.extend([
                ("uneven halves", self.uneven, 30),
                ("both halves touched", self.both_touched, 20),
                ("one half changed by the other", self.across, 3),
            ]),
            Of::Regrouped | Of::RegroupedExchanged => asked.extend([
                ("a touched", self.touched[0], 10),
                ("b touched", self.touched[1], 10),
                ("c touched", self.touched[2], 10),
                ("chosen at start", self.at_start, 5),
                ("chosen later", self.later, 20),
                ("a chosen", self.chosen[0], 10),
                ("b chosen", self.chosen[1], 5),
                ("c chosen", self.chosen[2], 5),
            ]),
        }
        match of {
            Of::MirroredWrites => asked.push((DIFFERING, self.differing, 1)),
            Of::RegroupedExchanged => asked.push((DIFFERING, self.differing, 30)),
            Of::Mirrored | Of::Regrouped => {}
        }
        asked
    }
}

/// The accepted touches: which screen they led to, and their path.
fn accepted<'p>(pair: &'p Pair, screens: &'p [Screen]) -> impl Iterator<Item = (usize, &'p [u8])> {
    let events = pair.events[0].chunks(EVENT).zip(screens.iter().skip(1)).enumerate();
    let taken = events.filter(|(_, (_, screen))| screen.number() == Some(0));
    taken.map(|(at, (event, _))| (at + 1, field::after_spaces(&event[PATH_COLUMNS])))
}

/// What a run came to.
#[derive(Clone, Debug, Default)]
pub struct Report {
    /// Of each of [`Of::ALL`].
    pub counts: [Counts; 4],
    /// What must not be: screens that are not this implementation's, that do not correspond, or counts that tell nothing.
    pub failures: Vec<String>,
}

impl Report {
    /// Runs the program on `count` pairs of each kind.
    pub fn of(program: &Path, seed: u64, count: u64) -> io::Result<Self> {
        let program = program.canonicalize()?;
        Self::running(|input| program::run(&program, input), seed, count)
    }

    /// The same with whatever makes screens of inputs.
    pub fn running(run: impl Fn(Vec<u8>) -> io::Result<Vec<u8>>, seed: u64, count: u64) -> io::Result<Self> {
        let mut report = Report::default();
        for of in Of::ALL {
            for (at, pair) in of.pairs(seed, count, Reading::AsMeant).enumerate() {
                let inputs = pair.inputs();
                let screens = inputs.each_ref().map(|input| session::screens(input, Rules::default()));
                let [first, second] = inputs.map(&run);
                report.add(of, &format!("{of:?} {at} of seed {seed}"), &pair, &screens, [first?, second?]);
            }
            report.ask(of);
        }
        Ok(report)
    }

    fn add(&mut self, of: Of, name: &str, pair: &Pair, screens: &[Vec<u8>; 2], printed: [Vec<u8>; 2]) {
        let counts = &mut self.counts[of as usize];
        counts.add(pair, &printed[0]);
        for (expected, printed) in screens.iter().zip(&printed) {
            if expected != printed {
                let told = program::first_difference(expected, printed);
                self.failures.push(format!("{name}, against this implementation: {told}"));
            }
        }
        let difference = pair.difference(&printed[0], &printed[1]);
        let is_control = matches!(of, Of::MirroredWrites | Of::RegroupedExchanged);
        if let Some(told) = difference {
            counts.differing += 1;
            if !is_control {
                self.failures.push(format!("{name}: {told}"));
            }
        }
        if let Some(at) = pair.states_differ().filter(|_| !is_control) {
            self.failures.push(format!("{name}: the states of screen {at} do not correspond"));
        }
    }

    /// Counts that are too small are failures.
    fn ask(&mut self, of: Of) {
        let counts = &self.counts[of as usize];
        for (told, count, percent) in counts.asked(of) {
            let least = counts.pairs * percent / 100;
            if count < least.max(usize::from(told == DIFFERING)) {
                self.failures.push(format!("{of:?}: {told} {count}, which is under {least}"));
            }
        }
    }
}

impl fmt::Display for Report {
    fn fmt(&self, out: &mut fmt::Formatter<'_>) -> fmt::Result {
        let [mirrored, regrouped, writes, exchanged] = &self.counts;
        let of = |count: fn(&Counts) -> usize| count(mirrored) + count(regrouped);
        writeln!(
            out,
            "mirrored pairs {}, regrouped {}; touches accepted {}, refused {} (ground 8 {}, ground 9 {}, ground 30 {}, \
             ground 31 {}); differing {}; controls differing: mirrored with writes {} of {}, a and b exchanged {} of {}",
            mirrored.pairs,
            regrouped.pairs,
            of(|counts| counts.accepted),
            of(|counts| counts.unreadable + counts.refused + counts.other_role + counts.spent),
            of(|counts| counts.unreadable),
            of(|counts| counts.refused),
            of(|counts| counts.other_role),
            of(|counts| counts.spent),
            of(|counts| counts.differing),
            writes.differing,
            writes.pairs,
            exchanged.differing,
            exchanged.pairs,
        )?;
        writeln!(
            out,
            "mirrored: with a value {}, with an entry {}, out of range at start {}, with rows of kind 50 {}, uneven halves {}, \
             both halves touched {}, one half changed by the other {}",
            mirrored.values,
            mirrored.lists,
            mirrored.fail_whole,
            mirrored.gated,
            mirrored.uneven,
            mirrored.both_touched,
            mirrored.across,
        )?;
        let [a, b, c] = regrouped.touched;
        let chosen = regrouped.chosen;
        writeln!(
            out,
            "regrouped: with a value {}, with an entry {}, out of range at start {}, with rows of kind 50 {}, touched before the \
             choice a {a} b {b} c {c}, chosen at start {}, later {} (a {} b {} c {}), touches without a counterpart {}",
            regrouped.values,
            regrouped.lists,
            regrouped.fail_whole,
            regrouped.gated,
            regrouped.at_start,
            regrouped.later,
            chosen[0],
            chosen[1],
            chosen[2],
            regrouped.alone,
        )?;
        self.failures.iter().take(5).try_for_each(|told| writeln!(out, "{told}"))
    }
}
