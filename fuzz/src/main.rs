//! Mutated inputs, for so many seconds from a seed, to the engine and the second implementation: see `fuzz/README.md`.

mod blanks;
mod bout;
mod cases;
mod lent;
mod lines;
mod receipts;
mod sessions;
mod targets;

#[path = "../../embedding/rust/tests/common/mod.rs"]
mod common;
#[path = "../../embedding/rust/tests/common/screens.rs"]
mod screens;

use bout::{Bout, Limit, Target};
use std::io;
use std::path::{Path, PathBuf};
use std::process::ExitCode;
use std::time::Duration;
use targets::{Exports, Program, Receipts, Slips, Wrapper};

const USAGE: &str = "usage:
  fuzz kept PROGRAM             every case of corpus/ and found/ through the exports, the crate and PROGRAM, the session program
  fuzz exports SECONDS SEED     lent memory to the exports and the safe calls
  fuzz receipts SECONDS SEED    price lists and orders to the export and the safe calls
  fuzz wrapper SECONDS SEED     sessions by Flow and Rest
  fuzz program PROGRAM SECONDS SEED
                                sessions by PROGRAM
  fuzz slips EXECUTIONS SEED    how soon sessions tell each wrong variant of the second implementation";

fn main() -> ExitCode {
    let arguments: Vec<String> = std::env::args().skip(1).collect();
    let words: Vec<&str> = arguments.iter().map(String::as_str).collect();
    match run(&words) {
        Ok(true) => ExitCode::SUCCESS,
        Ok(false) => ExitCode::FAILURE,
        Err(error) => {
            eprintln!("{error}");
            ExitCode::FAILURE
        }
    }
}

/// Whether nothing differed.
fn run(words: &[&str]) -> io::Result<bool> {
    match *words {
        ["kept", program] => kept(&path(program)?),
        ["exports", seconds, seed] => {
            let seeds = cases::sessions()?.iter().flat_map(|case| lent::of_session(&case.content)).collect();
            fuzz(&Exports::new(), seeds, limit(seconds)?, number(seed)?)
        }
        ["receipts", seconds, seed] => {
            let seeds = cases::receipts()?.into_iter().map(|case| case.content).collect();
            fuzz(&Receipts::new(), seeds, limit(seconds)?, number(seed)?)
        }
        ["wrapper", seconds, seed] => fuzz(&Wrapper, contents()?, limit(seconds)?, number(seed)?),
        ["program", program, seconds, seed] => {
            fuzz(&Program(path(program)?), contents()?, limit(seconds)?, number(seed)?)
        }
        ["slips", executions, seed] => {
            let slips = Slips::all();
            let none = fuzz(&slips, contents()?, Limit::Executions(number(executions)?), number(seed)?)?;
            print!("{slips}");
            Ok(none)
        }
        _ => Err(io::Error::new(io::ErrorKind::InvalidInput, USAGE)),
    }
}

fn number(word: &str) -> io::Result<u64> {
    word.parse().map_err(|_| io::Error::new(io::ErrorKind::InvalidInput, USAGE))
}

fn limit(seconds: &str) -> io::Result<Limit> {
    number(seconds).map(|seconds| Limit::Time(Duration::from_secs(seconds)))
}

fn path(program: &str) -> io::Result<PathBuf> {
    Path::new(program).canonicalize()
}

/// The sessions of the corpus and of what was found.
fn contents() -> io::Result<Vec<Vec<u8>>> {
    Ok(cases::sessions()?.into_iter().map(|case| case.content).collect())
}

/// Runs a bout, prints what it came to, and keeps the input at which it ended, if it did.
fn fuzz<T: Target>(target: &T, seeds: Vec<T::Input>, limit: Limit, seed: u64) -> io::Result<bool> {
    let mut bout = Bout::new(target, seed);
    let found = bout.run(seeds, limit);
    println!("{}: seed {seed}, {bout}", T::NAME);
    let Some((input, why)) = found else { return Ok(true) };
    let file = cases::keep(T::EXTENSION, &T::bytes(&input))?;
    println!("{}: {why}\n  kept as {}", T::NAME, file.display());
    Ok(false)
}

/// Every case, once.
fn kept(program: &Path) -> io::Result<bool> {
    let (exports, priced, program) = (Exports::new(), Receipts::new(), Program(program.to_path_buf()));
    let (sessions, lents, receipts) = (cases::sessions()?, cases::lents()?, cases::receipts()?);
    let mut differing = Vec::new();
    let mut add = |name: &str, answer: Result<Vec<u64>, String>| {
        differing.extend(answer.err().map(|why| format!("{name}: {why}")));
    };
    for case in &sessions {
        add(&case.name, Wrapper.run(&case.content));
        add(&case.name, program.run(&case.content));
        for lent in lent::of_session(&case.content) {
            add(&case.name, exports.run(&lent));
        }
    }
    for case in &lents {
        add(&case.name, exports.run(&case.content));
    }
    for case in &receipts {
        add(&case.name, priced.run(&case.content));
    }
    print!("kept: {} sessions, {} of lent memory, {} receipts, ", sessions.len(), lents.len(), receipts.len());
    println!("{} differing", differing.len());
    differing.iter().for_each(|told| println!("  {told}"));
    Ok(differing.is_empty())
}
