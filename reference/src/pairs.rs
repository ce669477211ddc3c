//! Two sessions that correspond (CR 5): a sheet and its mirrored or regrouped one, events and their counterparts; and the
//! comparison of what is printed for the one with what is printed for the other.

use crate::counterparts::{self, mirrored_event, mirrored_sheet, Reading, Screen};
use crate::event::EVENT;
use crate::flow::Flow;
use crate::generate::with_count;
use crate::grounds::Ground;
use crate::roles::{self, Role, ROLES};
use crate::rules::Rules;
use crate::session;
use crate::slips::Slip;
use crate::state::{LastRow, State};
use crate::syntax::Type;
use crate::task::{Origin, Side, Task};
use crate::words;

/// How the second sheet is arranged.
#[derive(Clone, Copy, Debug, PartialEq, Eq)]
pub enum Arrangement {
    /// The halves of the last row 46, of so many leaves, are exchanged.
    Mirrored { first: usize, second: usize },
    /// (a, b), c under the last row 47 is a, (b, c).
    Regrouped,
}

/// Which of a, b and c is chosen.
#[derive(Clone, Copy, Debug, PartialEq, Eq)]
pub enum Chosen {
    A,
    B,
    C,
}

/// After start, and after each event of the first session.
#[derive(Clone, Copy, Debug, PartialEq, Eq)]
pub struct Step {
    /// What is chosen, where three are regrouped.
    pub chosen: Option<Chosen>,
    /// Whose screen is printed.
    pub role: Role,
    /// Whether there is a counterpart in the second session.
    pub corresponds: bool,
}

/// Two sessions, and how their screens correspond.
#[derive(Clone, Debug)]
pub struct Pair {
    pub sheets: [Vec<u8>; 2],
    pub events: [Vec<u8>; 2],
    pub arrangement: Arrangement,
    pub reading: Reading,
    pub steps: Vec<Step>,
    /// Whether the first leaves the range at start (CR 3), and whether it has rows of kind 50 (CR 6).
    pub fails_whole: bool,
    pub gated: bool,
}

impl Pair {
    /// A sheet whose last row is 46 and the mirrored one, and events of the first.
    pub fn mirrored(sheet: &[u8], events: &[u8], reading: Reading) -> Result<Self, Ground> {
        let flow = Flow::load(sheet, Rules::default())?;
        let Type::Pair(parts) = &flow.own_type else { panic!("a 46 is of a pair type") };
        assert_eq!(flow.rows.last().map(|row| row.kind), Some(46), "the last row is 46");
        let arrangement = Arrangement::Mirrored { first: parts.0.leaves(), second: parts.1.leaves() };
        Ok(Self::of(arrangement, &flow, [sheet.to_vec(), mirrored_sheet(sheet)], events, reading))
    }

    /// A sheet over (a, b), c and one over a, (b, c), and events of the first.
    pub fn regrouped(first: &[u8], second: &[u8], events: &[u8], reading: Reading) -> Result<Self, Ground> {
        let flow = Flow::load(first, Rules::default())?;
        Ok(Self::of(Arrangement::Regrouped, &flow, [first.to_vec(), second.to_vec()], events, reading))
    }

    fn of(arrangement: Arrangement, flow: &Flow, sheets: [Vec<u8>; 2], events: &[u8], reading: Reading) -> Self {
        let (mut state, _) = State::start(flow);
        let mut steps = vec![Step { chosen: chosen_first(&state), role: roles::FIRST, corresponds: true }];
        let mut others = Vec::with_capacity(events.len());
        for event in events.chunks(EVENT) {
            let made = chosen_first(&state).is_some();
            let counterpart = match arrangement {
                Arrangement::Mirrored { .. } => Some(mirrored_event(event, reading)),
                Arrangement::Regrouped => counterparts::regrouped_event(event, made, reading),
            };
            // A refused event leaves the state as it is.
            let _ = state.handle(event);
            let role = session::role_after(event, Slip::None);
            steps.push(Step { chosen: chosen_first(&state), role, corresponds: counterpart.is_some() });
            others.extend(counterpart.unwrap_or_default());
        }
        let fails_whole = state.last_row == LastRow::FailedWhole;
        let gated = flow.rows.iter().any(|row| row.kind == 50);
        Pair { sheets, events: [events.to_vec(), others], arrangement, reading, steps, fails_whole, gated }
    }

    /// What the two sessions read.
    pub fn inputs(&self) -> [Vec<u8>; 2] {
        let [first, second] = &self.sheets;
        let input = |sheet: &Vec<u8>, events: &Vec<u8>| [with_count(sheet.clone()), events.clone()].concat();
        [input(first, &self.events[0]), input(second, &self.events[1])]
    }

    /// The first difference between what is printed for the second session and the counterparts of what is printed for the
    /// first.
    pub fn difference(&self, first: &[u8], second: &[u8]) -> Option<String> {
        let (Some(first), Some(second)) = (Screen::all(first), Screen::all(second)) else {
            return Some("a screen is not whole".into());
        };
        if first.len() != self.steps.len() {
            return Some(format!("{} screens where there are {}", first.len(), self.steps.len()));
        }
        let mut others = second.iter();
        for (at, (screen, step)) in first.iter().zip(&self.steps).enumerate() {
            if !step.corresponds {
                if !screen.refuses(&first[at - 1], step.role == self.steps[at - 1].role) {
                    return Some(format!("screen {at}: a touch without a counterpart is not refused"));
                }
                continue;
            }
            let (expected, printed) = (self.counterpart(screen, step), others.next());
            if expected.as_ref() != printed {
                let (expected, printed) = (told(expected.as_ref()), told(printed));
                return Some(format!("screen {at}\n  expected {expected:?}\n  printed  {printed:?}"));
            }
        }
        others.next().map(|more| format!("a screen too many\n  printed  {:?}", told(Some(more))))
    }

    fn counterpart(&self, screen: &Screen, step: &Step) -> Option<Screen> {
        match self.arrangement {
            Arrangement::Mirrored { first, second } => Some(screen.mirrored(first, second, self.reading)),
            Arrangement::Regrouped => screen.regrouped(step.chosen.is_some(), self.reading),
        }
    }

    /// The first step after which this implementation's own states do not correspond: mirrored ones are equal word for
    /// word; regrouped ones have chosen the same, and have the same touches left; and what each role sees corresponds. A
    /// sheet that is refused has no state.
    pub fn states_differ(&self) -> Option<usize> {
        let [Ok(first), Ok(second)] = self.sheets.each_ref().map(|sheet| Flow::load(sheet, Rules::default())) else {
            return Some(0);
        };
        let ((mut one, _), (mut other, _)) = (State::start(&first), State::start(&second));
        let [mut events, mut others] = self.events.each_ref().map(|events| events.chunks(EVENT));
        self.steps.iter().enumerate().find_map(|(at, step)| {
            if at > 0 {
                let _ = one.handle(events.next().expect("an event a step"));
            }
            if at > 0 && step.corresponds {
                let _ = other.handle(others.next().expect("a counterpart a step that has one"));
            }
            let correspond = match self.arrangement {
                Arrangement::Mirrored { .. } => words::write(&first, &one) == words::write(&second, &other),
                Arrangement::Regrouped => {
                    chosen_first(&one) == chosen_second(&other)
                        && one.last_row.task().gates() == other.last_row.task().gates()
                }
            };
            let seen = |state: &State, role: i32| Screen::of(&state.look(role as Role));
            let looks =
                ROLES.into_iter().all(|role| self.counterpart(&seen(&one, role), step) == Some(seen(&other, role)));
            (!correspond || !looks).then_some(at)
        })
    }
}

/// What is chosen of (a, b), c at a rest. Where the inner choice is made, so is the outer: its left has a value.
pub fn chosen_first(state: &State) -> Option<Chosen> {
    match chosen(state.last_row.task())? {
        (Side::Right, _) => Some(Chosen::C),
        (Side::Left, left) => match chosen(left)?.0 {
            Side::Left => Some(Chosen::A),
            Side::Right => Some(Chosen::B),
        },
    }
}

/// What is chosen of a, (b, c) at a rest.
fn chosen_second(state: &State) -> Option<Chosen> {
    match chosen(state.last_row.task())? {
        (Side::Left, _) => Some(Chosen::A),
        (Side::Right, right) => match chosen(right)?.0 {
            Side::Left => Some(Chosen::B),
            Side::Right => Some(Chosen::C),
        },
    }
}

/// The side that a 47 became, and its task.
fn chosen<'t, 'c>(task: &'t Task<'c>) -> Option<(Side, &'t Task<'c>)> {
    match task {
        Task::Became(Origin::Chosen(side), part) => Some((*side, part)),
        _ => None,
    }
}

/// A screen in short: numbers and paths with single spaces.
fn told(screen: Option<&Screen>) -> String {
    let Some(screen) = screen else { return "(no screen)".into() };
    let lines = [&screen.head].into_iter().chain(&screen.entries);
    let words = |line: &Vec<u8>| String::from_utf8_lossy(line).split_whitespace().collect::<Vec<_>>().join(" ");
    lines.map(words).collect::<Vec<_>>().join("; ")
}
