//! What is fuzzed: the exports of 01's calls and that of CR 7, on fenced memory, with the safe calls,
//! [`Flow`](nannyjiffy::Flow) and [`Rest`](nannyjiffy::Rest) in sessions, the session program, and, to try the mutator,
//! wrong variants.

use crate::bout::Target;
use crate::cases::{self, LENT, RECEIPT, SESSION};
use crate::common::{Archive, Calls};
use crate::screens::screens;
use crate::{lent, receipts, sessions};
use reference::engine::{Answers, Reference};
use reference::lent::Lent;
use reference::program;
use reference::random::Random;
use reference::receipt;
use reference::receipt_inputs::Input;
use reference::rules::Rules;
use reference::session;
use reference::slips::Slip;
use std::cell::{Cell, RefCell};
use std::fmt::{self, Display, Formatter};
use std::path::PathBuf;

/// The numbers that load, start, look and handle may answer.
const NUMBERS: [&[u32]; 4] =
    [&[0, 1, 2, 3, 4, 5, 6, 7, 21], &[0, 20, 21], &[0, 8, 20, 21, 22, 23, 24], &[0, 8, 9, 20, 21, 22, 23, 30, 31]];

pub struct Exports(Archive);

impl Exports {
    pub fn new() -> Self {
        Exports(Archive::new())
    }
}

impl Target for Exports {
    type Input = Lent;
    const NAME: &'static str = "exports";
    const EXTENSION: &'static str = LENT;

    fn run(&self, lent: &Lent) -> Result<Vec<u64>, String> {
        let answers = Answers::of(&self.0, lent);
        let numbers = answers.numbers();
        let told = |what: &str| Err(format!("{what}: {numbers:?}"));
        if NUMBERS.iter().zip(numbers).any(|(listed, number)| !listed.contains(&number)) {
            return told("a number that 01 does not list");
        }
        if !answers.keep(lent) {
            return told("a refused call changed what it was lent");
        }
        let expected = Answers::of(&Reference, lent);
        if answers != expected {
            return told(&format!("not {:?}", expected.numbers()));
        }
        if Answers::of(&Calls, lent) != expected {
            return told("the safe calls differ");
        }
        Ok(lent::shown(lent, &answers))
    }

    fn make(&self, random: &mut Random, pool: &[Lent]) -> Lent {
        lent::make(random, pool)
    }

    fn bytes(lent: &Lent) -> Vec<u8> {
        cases::bytes_of(lent)
    }
}

pub struct Receipts(Archive);

impl Receipts {
    pub fn new() -> Self {
        Receipts(Archive::new())
    }
}

impl Target for Receipts {
    type Input = Input;
    const NAME: &'static str = "receipts";
    const EXTENSION: &'static str = RECEIPT;

    fn run(&self, input: &Input) -> Result<Vec<u64>, String> {
        let Input { prices, order } = input;
        let (answer, expected) = (self.0.receipt(prices, order), receipt::receipt(prices, order));
        if answer != expected {
            return Err(format!("{answer:?}, not {expected:?}"));
        }
        if Calls.receipt(prices, order) != expected {
            return Err(format!("the safe calls differ: {expected:?}"));
        }
        Ok(receipts::shown(input, answer))
    }

    fn make(&self, random: &mut Random, pool: &[Input]) -> Input {
        receipts::make(random, pool)
    }

    fn bytes(input: &Input) -> Vec<u8> {
        cases::bytes_of_receipt(input)
    }
}

/// A target of sessions.
macro_rules! sessions {
    ($target:ty, $name:literal, $run:item) => {
        impl Target for $target {
            type Input = Vec<u8>;
            const NAME: &'static str = $name;
            const EXTENSION: &'static str = SESSION;

            $run

            fn make(&self, random: &mut Random, pool: &[Vec<u8>]) -> Vec<u8> {
                sessions::make(random, pool)
            }

            fn bytes(input: &Vec<u8>) -> Vec<u8> {
                input.clone()
            }
        }
    };
}

/// What the screens show, if they are the expected ones.
fn same(expected: &[u8], printed: &[u8]) -> Result<Vec<u64>, String> {
    if printed != expected {
        return Err(program::first_difference(expected, printed));
    }
    Ok(sessions::shown(expected))
}

pub struct Wrapper;

sessions!(
    Wrapper,
    "wrapper",
    fn run(&self, input: &Vec<u8>) -> Result<Vec<u64>, String> {
        // Where the row count is not met, there is no sheet to load.
        let Some(printed) = screens(input) else { return Ok(Vec::new()) };
        same(&session::screens(input, Rules::default()), &printed)
    }
);

pub struct Program(pub PathBuf);

sessions!(
    Program,
    "program",
    fn run(&self, input: &Vec<u8>) -> Result<Vec<u64>, String> {
        let printed = program::run(&self.0, input.clone()).map_err(|error| error.to_string())?;
        same(&session::screens(input, Rules::default()), &printed)
    }
);

/// The wrong variants that no input has told yet, and after how many inputs the others were.
pub struct Slips {
    left: RefCell<Vec<(Slip, &'static str)>>,
    told: RefCell<Vec<(u64, Slip)>>,
    inputs: Cell<u64>,
}

impl Slips {
    pub fn all() -> Self {
        Slips { left: RefCell::new(Slip::ALL.to_vec()), told: RefCell::default(), inputs: Cell::new(0) }
    }
}

sessions!(
    Slips,
    "slips",
    fn run(&self, input: &Vec<u8>) -> Result<Vec<u64>, String> {
        self.inputs.set(self.inputs.get() + 1);
        let expected = session::screens(input, Rules::default());
        self.left.borrow_mut().retain(|&(slip, _)| {
            let is_told = session::screens(input, Rules::slipping(slip)) != expected;
            if is_told {
                self.told.borrow_mut().push((self.inputs.get(), slip));
            }
            !is_told
        });
        Ok(sessions::shown(&expected))
    }
);

impl Display for Slips {
    fn fmt(&self, to: &mut Formatter<'_>) -> fmt::Result {
        let (told, left) = (self.told.borrow(), self.left.borrow());
        let last = told.last().map_or(0, |&(at, _)| at);
        writeln!(to, "slips: {} told, the last by input {last}; {} left", told.len(), left.len())?;
        left.iter().try_for_each(|(slip, what)| writeln!(to, "  {slip:?}: {what}"))
    }
}
