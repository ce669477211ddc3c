//! An order from look (CR 7): runs the flow of a session file once for each print that is ordered, and prices the values that
//! it shows by the price list of another file. Prints a line for each value: its code and copies, and the number and the
//! cents of the order up to it. `examples/receipt.md` tells what comes out.
//!
//!     cargo run --release --offline --example receipt SESSION PRICES

use nannyjiffy::{receipt, Flow, Ground, Rest, Role, LINE_BYTES, MAX_LEAVES, VALUE_WORDS};
use std::error::Error;
use std::{env, fs};

/// What is ordered: the actions that choose the format, Left (3) and Right (4), and the copies.
const PRINTS: [(&[u32], i32); 4] = [(&[3], 1), (&[4, 3], 1), (&[3], 100), (&[4, 4], 1)];

const GIVE: u32 = 1;
const CONTINUE: u32 = 2;

fn main() -> Result<(), Box<dyn Error>> {
    let names: Vec<String> = env::args().skip(1).collect();
    let [session, prices] = &names[..] else { return Err("SESSION PRICES".into()) };
    let (session, prices) = (fs::read(session)?, fs::read(prices)?);
    let flow = Flow::load(sheet(&session).ok_or("no sheet")?)?;
    let mut order = Vec::new();
    for (format, copies) in PRINTS {
        let value = run(&flow, format, copies)?;
        order.push(value);
        let (number, cents) = match receipt(&prices, &order) {
            Ok(cents) => (0, cents),
            Err(ground) => (ground.number(), 0),
        };
        println!("{:12}{:12}{number:4}{cents:12}", value[0], value[1]);
    }
    Ok(())
}

/// The sheet of a session: as many lines as the count in front of it says.
fn sheet(session: &[u8]) -> Option<&[u8]> {
    let (count, rest) = session.split_at_checked(5)?;
    let lines: usize = str::from_utf8(count).ok()?.trim().parse().ok()?;
    rest.get(..lines.checked_mul(LINE_BYTES)?)
}

/// Runs the flow, and gives the value that it shows when it is done.
fn run(flow: &Flow, format: &[u32], copies: i32) -> Result<[i32; VALUE_WORDS], Box<dyn Error>> {
    let mut rest = Rest::start(flow);
    for &action in format {
        touch(&mut rest, action, 0)?;
    }
    touch(&mut rest, GIVE, copies)?;
    touch(&mut rest, CONTINUE, 0)?;
    let screen = rest.look(Role::FIRST);
    let done = screen.value.filter(|_| screen.count() == 0);
    done.ok_or_else(|| "the flow is not done".into())
}

/// An event at the empty path. Leaves that are not used are blank.
fn touch(rest: &mut Rest, action: u32, leaf: i32) -> Result<(), Ground> {
    let (role, unused) = (Role::FIRST.number(), " ".repeat(12 * (MAX_LEAVES - 1)));
    rest.handle(format!("{role:2}{:16}{action:2}{leaf:12}{unused}\n", 0).as_bytes())
}
