//! The command line: see `reference/README.md`.
#![forbid(unsafe_code)]

use reference::compare;
use reference::coverage::Coverage;
use reference::edges;
use reference::generate;
use reference::model::Model;
use reference::pair_report;
use reference::program::Report;
use reference::receipt;
use reference::receipt_report;
use reference::rules::Rules;
use reference::session;
use reference::slips::Slip;
use std::io::{self, BufWriter, Read, Write};
use std::path::Path;
use std::process::ExitCode;
use std::{env, fs};

const USAGE: &str = "usage:
  reference session              a session: input on standard input, screens on standard output
  reference cases SEED COUNT DIR a file N.in, and N.out with its screens, for each case
  reference stream SEED COUNT    the inputs, framed, on standard output
  reference replay               framed inputs on standard input, the screens of each and a line ---- on standard output
  reference compare PROGRAM SEED COUNT
                                 runs PROGRAM on the edges and on the cases, and compares its screens with these
  reference mirror PROGRAM SEED COUNT
                                 runs PROGRAM on COUNT mirrored and COUNT regrouped pairs of sessions (CR 5) and on as many
                                 of each control, and compares its screens with these, and those of a pair with each other
  reference model SEED EVENTS    asks, in each role, EVENTS events at the rests of the cases' sessions, and compares answers,
                                 touches left and lists with what CR 1 to CR 6 say
  reference receipt SEED COUNT   prices the edges of CR 7 and COUNT generated orders, and each accepted order with one copy
                                 more of each value, and compares the totals with its bound
  reference coverage SEED COUNT  what the cases cover
  reference slips SEED COUNT     how many cases catch each slip, and the first that does";

fn main() -> ExitCode {
    let arguments: Vec<String> = env::args().skip(1).collect();
    let words: Vec<&str> = arguments.iter().map(String::as_str).collect();
    match run(&words) {
        Ok(()) => ExitCode::SUCCESS,
        Err(error) => {
            eprintln!("{error}");
            ExitCode::FAILURE
        }
    }
}

fn run(words: &[&str]) -> io::Result<()> {
    let mut output = BufWriter::new(io::stdout().lock());
    match *words {
        ["session"] => session::run(io::stdin().lock(), output, Rules::default()),
        ["cases", seed, count, directory] => write_cases(number(seed)?, number(count)?, Path::new(directory)),
        ["stream", seed, count] => {
            generate::cases(number(seed)?, number(count)?).try_for_each(|input| write_framed(&mut output, &input))?;
            output.flush()
        }
        ["compare", program, seed, count] => compare_program(Path::new(program), number(seed)?, number(count)?),
        ["mirror", program, seed, count] => compare_pairs(Path::new(program), number(seed)?, number(count)?),
        ["model", seed, events] => ask_model(number(seed)?, number(events)?),
        ["receipt", seed, count] => price_orders(number(seed)?, number(count)?),
        ["replay"] => replay(&mut io::stdin().lock(), &mut output),
        ["coverage", seed, count] => {
            write!(output, "{}", Coverage::of(generate::cases(number(seed)?, number(count)?)))?;
            output.flush()
        }
        ["slips", seed, count] => report_slips(&mut output, number(seed)?, number(count)?),
        _ => Err(invalid(USAGE)),
    }
}

fn invalid(told: &str) -> io::Error {
    io::Error::new(io::ErrorKind::InvalidInput, told)
}

fn number(word: &str) -> io::Result<u64> {
    word.parse().map_err(|_| invalid(USAGE))
}

/// Writes `000000.in`, `000000.out` and so on.
fn write_cases(seed: u64, count: u64, directory: &Path) -> io::Result<()> {
    fs::create_dir_all(directory)?;
    for (at, case) in compare::cases(seed, count).iter().enumerate() {
        fs::write(directory.join(format!("{at:06}.in")), &case.input)?;
        fs::write(directory.join(format!("{at:06}.out")), &case.screens)?;
    }
    Ok(())
}

/// A frame: the length in 8 columns, byte 10, and that many bytes.
fn write_framed(output: &mut impl Write, bytes: &[u8]) -> io::Result<()> {
    writeln!(output, "{:>8}", bytes.len())?;
    output.write_all(bytes)
}

/// Runs the program on the edges and on the cases.
fn compare_program(program: &Path, seed: u64, count: u64) -> io::Result<()> {
    let cases =
        generate::cases(seed, count).enumerate().map(|(at, input)| (format!("case {at} of seed {seed}"), input));
    let report = Report::of(program, edges::inputs().into_iter().chain(cases))?;
    print!("{report}");
    if report.differing.is_empty() {
        Ok(())
    } else {
        Err(io::Error::other("screens differ"))
    }
}

/// Runs the program on pairs of sessions that correspond, and on the controls, which must not.
fn compare_pairs(program: &Path, seed: u64, count: u64) -> io::Result<()> {
    let report = pair_report::Report::of(program, seed, count)?;
    print!("{report}");
    if report.failures.is_empty() {
        Ok(())
    } else {
        Err(io::Error::other("pairs of sessions do not correspond, or tell nothing"))
    }
}

/// Asks at the rests of sessions.
fn ask_model(seed: u64, events: u64) -> io::Result<()> {
    let model = Model::of(Rules::default(), seed, events as usize);
    print!("{model}");
    if model.failures.is_empty() {
        Ok(())
    } else {
        Err(io::Error::other("a rest is not as expected"))
    }
}

/// Prices orders, and those with one copy more.
fn price_orders(seed: u64, count: u64) -> io::Result<()> {
    let report = receipt_report::Report::of(receipt::receipt, seed, count);
    print!("{report}");
    if report.is_right() {
        Ok(())
    } else {
        Err(io::Error::other("an order is not priced as expected"))
    }
}

/// Runs each framed session, and ends its screens with a line of four minus signs.
fn replay(input: &mut impl Read, output: &mut impl Write) -> io::Result<()> {
    let mut frames = Vec::new();
    input.read_to_end(&mut frames)?;
    let mut rest = &frames[..];
    while !rest.is_empty() {
        let (head, bytes) = rest.split_at_checked(9).ok_or_else(|| invalid("a frame without a length"))?;
        let length = number(String::from_utf8_lossy(head).trim())? as usize;
        let (session, after) = bytes.split_at_checked(length).ok_or_else(|| invalid("a short frame"))?;
        output.write_all(&session::screens(session, Rules::default()))?;
        output.write_all(b"----\n")?;
        rest = after;
    }
    output.flush()
}

fn report_slips(output: &mut impl Write, seed: u64, count: u64) -> io::Result<()> {
    let cases = compare::cases(seed, count);
    for (slip, told) in Slip::ALL {
        let caught: Vec<usize> = compare::differing(&cases, Rules::slipping(*slip)).collect();
        let first = caught.first().map_or("-".to_string(), usize::to_string);
        writeln!(output, "{:>6} {first:>6}  {slip:?}: {told}", caught.len())?;
    }
    output.flush()
}
