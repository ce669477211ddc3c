//! Another program compared with this one: it reads each session's input and must print the same
//! screens, byte for byte.

use crate::coverage::Coverage;
use crate::rules::Rules;
use crate::session;
use std::fmt;
use std::io::{self, Write};
use std::path::Path;
use std::process::{Command, Stdio};
use std::thread;

/// What a comparison came to.
#[derive(Debug, Default)]
pub struct Report {
    pub sessions: usize,
    pub bytes: usize,
    pub coverage: Coverage,
    /// The sessions whose screens differ, each with the first line that does.
    pub differing: Vec<String>,
}

impl Report {
    /// Runs the program on each named input.
    pub fn of(program: &Path, inputs: impl Iterator<Item = (String, Vec<u8>)>) -> io::Result<Self> {
        let program = program.canonicalize()?;
        let mut report = Report::default();
        for (name, input) in inputs {
            report.add(&program, &name, input)?;
        }
        Ok(report)
    }

    fn add(&mut self, program: &Path, name: &str, input: Vec<u8>) -> io::Result<()> {
        self.coverage.add(&input);
        let expected = session::screens(&input, Rules::default());
        let printed = run(program, input)?;
        self.sessions += 1;
        self.bytes += expected.len();
        if printed != expected {
            self.differing.push(format!("{name}: {}", first_difference(&expected, &printed)));
        }
        Ok(())
    }
}

impl fmt::Display for Report {
    fn fmt(&self, out: &mut fmt::Formatter<'_>) -> fmt::Result {
        let Coverage { sheets, events, entries, .. } = &self.coverage;
        writeln!(out, "sessions {}, screens {}, bytes {}", self.sessions, entries.total(), self.bytes)?;
        writeln!(out, "sheets accepted {}, refused {}", sheets.of(0), sheets.total() - sheets.of(0))?;
        writeln!(
            out,
            "events accepted {}, refused {} (ground 8 {}, ground 9 {}, ground 30 {}, ground 31 {})",
            events.of(0),
            events.total() - events.of(0),
            events.of(8),
            events.of(9),
            events.of(30),
            events.of(31)
        )?;
        writeln!(out, "differing {}", self.differing.len())?;
        self.differing.iter().take(5).try_for_each(|told| writeln!(out, "{told}"))
    }
}

/// What the program prints.
pub fn run(program: &Path, input: Vec<u8>) -> io::Result<Vec<u8>> {
    let mut child = Command::new(program).stdin(Stdio::piped()).stdout(Stdio::piped()).spawn()?;
    let mut to = child.stdin.take().expect("standard input is a pipe");
    // A program that refuses a sheet ends before all is written.
    let writer = thread::spawn(move || {
        to.write_all(&input)
            .or_else(|error| if error.kind() == io::ErrorKind::BrokenPipe { Ok(()) } else { Err(error) })
    });
    let output = child.wait_with_output()?;
    writer.join().expect("the writer ends")?;
    if !output.status.success() {
        return Ok(format!("the program ended with {}\n", output.status).into_bytes());
    }
    Ok(output.stdout)
}

/// The first line that differs.
pub fn first_difference(expected: &[u8], printed: &[u8]) -> String {
    let lines = |bytes: &[u8]| -> Vec<String> { String::from_utf8_lossy(bytes).lines().map(str::to_string).collect() };
    let (expected, printed) = (lines(expected), lines(printed));
    let at = expected.iter().zip(&printed).take_while(|(one, other)| one == other).count();
    let line = |of: &[String]| of.get(at).cloned().unwrap_or("(no line)".into());
    format!("line {}\n  expected {:?}\n  printed  {:?}", at + 1, line(&expected), line(&printed))
}
