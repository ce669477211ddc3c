//! The loop: an input that answers as none did before is kept in the pool, from which further inputs are made.

use reference::random::Random;
use std::collections::HashSet;
use std::fmt::{self, Display, Formatter};
use std::panic::{catch_unwind, AssertUnwindSafe};
use std::time::{Duration, Instant};

/// What is fuzzed.
pub trait Target {
    type Input: Clone;
    const NAME: &'static str;
    /// Of the file that an input is kept in.
    const EXTENSION: &'static str;

    /// What the answers show, as numbers; or how they differ from those of the second implementation.
    fn run(&self, input: &Self::Input) -> Result<Vec<u64>, String>;
    /// An input made of those in the pool, which is not empty.
    fn make(&self, random: &mut Random, pool: &[Self::Input]) -> Self::Input;
    fn bytes(input: &Self::Input) -> Vec<u8>;
}

#[derive(Clone, Copy)]
pub enum Limit {
    Time(Duration),
    Executions(u64),
}

/// Inputs in the pool at most; a new one then takes the place of another.
const POOL: usize = 4096;

pub struct Bout<'t, T: Target> {
    target: &'t T,
    random: Random,
    pool: Vec<T::Input>,
    shown: HashSet<u64>,
    executions: u64,
    started: Instant,
}

impl<'t, T: Target> Bout<'t, T> {
    pub fn new(target: &'t T, seed: u64) -> Self {
        let random = Random::of_case(seed, 0);
        Bout { target, random, pool: Vec::new(), shown: HashSet::new(), executions: 0, started: Instant::now() }
    }

    /// Runs the seeds, and then what is made of them. Gives the input that differs, and how. The inputs follow from the
    /// seed: the time only ends them.
    pub fn run(&mut self, seeds: Vec<T::Input>, limit: Limit) -> Option<(T::Input, String)> {
        self.started = Instant::now();
        for input in seeds {
            if let Err(why) = self.execute(&input) {
                return Some((input, why));
            }
        }
        while !self.is_over(limit) {
            let input = self.target.make(&mut self.random, &self.pool);
            if let Err(why) = self.execute(&input) {
                return Some((input, why));
            }
        }
        None
    }

    fn is_over(&self, limit: Limit) -> bool {
        match limit {
            Limit::Time(time) => self.started.elapsed() >= time,
            Limit::Executions(count) => self.executions >= count,
        }
    }

    fn execute(&mut self, input: &T::Input) -> Result<(), String> {
        self.executions += 1;
        // A fence that is broken panics.
        let answer = catch_unwind(AssertUnwindSafe(|| self.target.run(input)));
        let shown = answer.unwrap_or_else(|_| Err("a panic".into()))?;
        let before = self.shown.len();
        self.shown.extend(shown);
        if self.shown.len() > before || self.pool.is_empty() {
            if self.pool.len() < POOL {
                self.pool.push(input.clone());
            } else {
                let at = self.random.below(POOL);
                self.pool[at] = input.clone();
            }
        }
        Ok(())
    }
}

impl<T: Target> Display for Bout<'_, T> {
    fn fmt(&self, to: &mut Formatter<'_>) -> fmt::Result {
        let seconds = self.started.elapsed().as_secs_f64();
        write!(to, "{} executions in {seconds:.0} s, ", self.executions)?;
        write!(to, "{} distinct answers, {} inputs in the pool", self.shown.len(), self.pool.len())
    }
}
