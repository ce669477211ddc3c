//! The session of document 01: a number is asked for until it is at most 9, and is then multiplied by 30. Prints a screen
//! after start and after each event, as 01 prints them.

use nannyjiffy::{Flow, Ground, Rest, Role, MAX_LEAVES};
use std::io::{self, Write};

/// Row number, kind, A, B, C.
const SHEET: &[u8] = b"   0   3           0           0           0
   1  41           0           0           0
   2  23           0           0           0
   3  22           9           0           0
   4  24           5           2           3
   5  23           0           0           0
   6  22          30           0           0
   7  24           3           5           6
   8  40           7           0           0
   9  45           0           0           0
  10  25           4           8           9
  11  43           1          10           0
";

/// Role, path, action, the first leaf: value 12, value 4, Continue. The leaves after it are not used, and are 0.
const EVENTS: [&str; 3] =
    [" 1               0 1          12", " 1               0 1           4", " 1               0 2           0"];

fn main() -> io::Result<()> {
    let flow = Flow::load(SHEET).map_err(io::Error::other)?;
    let mut rest = Rest::start(&flow);
    print(Ok(()), &rest)?;
    for event in EVENTS {
        let unused = "           0".repeat(MAX_LEAVES - 1);
        let answer = rest.handle(format!("{event}{unused}\n").as_bytes());
        print(answer, &rest)?;
    }
    Ok(())
}

fn print(answer: Result<(), Ground>, rest: &Rest) -> io::Result<()> {
    let screen = rest.look(Role::FIRST);
    let number = answer.map_or_else(Ground::number, |()| 0);
    let [fails, valued] = [screen.failing, screen.value.is_some()].map(u32::from);
    let leaves = screen.value.unwrap_or_default().map(|leaf| format!("{leaf:12}")).concat();
    let mut out = io::stdout().lock();
    write!(out, "{number:4}{:4}{fails:2}{valued:2}", rest.strides())?;
    writeln!(out, "{leaves}{:4}", screen.count())?;
    out.write_all(screen.entries())
}
