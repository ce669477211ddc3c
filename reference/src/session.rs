//! The program (01, "A session in full").

use crate::event::{event_bytes, read_role, EVENT, EVENT_BEFORE, LEAF, ROLE_COLUMNS};
use crate::field;
use crate::flow::Flow;
use crate::grounds::Ground;
use crate::limits::{LEAVES, LEAVES_BEFORE};
use crate::roles::{self, Role};
use crate::rules::Rules;
use crate::sheet::{LINE, LINES};
use crate::slips::Slip;
use crate::state::{Look, State};
use std::io::{self, BufReader, Read, Write};
use std::ops::Range;

/// Bytes of the row count with its byte 10.
pub const COUNT: usize = 5;

/// Columns of the answer, the strides and the entry count, and of each flag.
const NUMBER: usize = 4;
const FLAG: usize = 2;
/// The columns of the value's leaves in a head line begin here.
pub const HEAD_LEAVES: usize = 2 * NUMBER + 2 * FLAG;
/// The columns of its entry count.
pub const HEAD_COUNT: Range<usize> = HEAD_LEAVES + LEAVES * LEAF..HEAD_LEAVES + LEAVES * LEAF + NUMBER;
/// Bytes of a head line with its byte 10.
pub const HEAD: usize = HEAD_COUNT.end + 1;

/// Reads the row count, a sheet and events, and prints a screen after start and each event, in the event's role.
pub fn run<R: Read>(input: R, mut output: impl Write, rules: Rules) -> io::Result<()> {
    let mut input = BufReader::new(input);
    let flow = match load(&mut input, rules)? {
        Ok(flow) => flow,
        Err(ground) => {
            let nothing = Look { value: None, failing: false, entries: Vec::new() };
            print(&mut output, Err(ground), &nothing, rules.slip)?;
            return output.flush();
        }
    };
    let (mut state, strides) = State::start(&flow);
    let mut role = roles::FIRST;
    print(&mut output, Ok(strides), &state.look(role), rules.slip)?;
    let length = match rules.slip {
        Slip::EventsOfFourLeaves => event_bytes(LEAVES_BEFORE),
        Slip::EventsWithoutRole => EVENT_BEFORE,
        _ => EVENT,
    };
    let mut event = Vec::with_capacity(length);
    loop {
        if input.buffer().is_empty() {
            output.flush()?;
        }
        // Events are cut every 117 bytes, with no looking for byte 10; a short last one answers 8.
        read_up_to(&mut input, length, &mut event)?;
        if event.is_empty() || (event.len() < length && rules.slip == Slip::ShortEventSkipped) {
            return output.flush();
        }
        let answer = state.handle(&event);
        role = match rules.slip {
            Slip::LooksInRoleOne => roles::FIRST,
            Slip::LooksInRoleOneAfterEight if answer == Err(Ground::Event) => roles::FIRST,
            Slip::LooksInRoleOneAfterRefusal if answer.is_err() => roles::FIRST,
            Slip::KeepsRoleAfterEight => role_in(&event, rules.slip).unwrap_or(role),
            _ => role_after(&event, rules.slip),
        };
        print(&mut output, answer, &state.look(role), rules.slip)?;
    }
}

/// The role that is looked in after these bytes: the event's, and role 1 where it is bad or they are too few (CR 6).
pub fn role_after(event: &[u8], slip: Slip) -> Role {
    role_in(event, slip).unwrap_or(roles::FIRST)
}

/// The role of an event of all 117 bytes, whatever else is wrong with it.
fn role_in(event: &[u8], slip: Slip) -> Option<Role> {
    let whole = event.len() == EVENT || slip == Slip::LooksInRoleOfShort;
    event.get(ROLE_COLUMNS).filter(|_| whole).and_then(|role| read_role(role, slip))
}

/// The screens that an input gives.
pub fn screens(input: &[u8], rules: Rules) -> Vec<u8> {
    let mut output = Vec::new();
    run(input, &mut output, rules).expect("memory is read and written");
    output
}

/// Reads the row count and a sheet, and loads it.
pub fn load(input: &mut impl Read, rules: Rules) -> io::Result<Result<Flow, Ground>> {
    let sheet = read_sheet(input, rules.slip)?;
    Ok(sheet.ok_or(Ground::Length).and_then(|sheet| Flow::load(&sheet, rules)))
}

/// The counted lines; none where the row count is unreadable (blank, too), not 1 to 256, or not met.
fn read_sheet(input: &mut impl Read, slip: Slip) -> io::Result<Option<Vec<u8>>> {
    let mut text = Vec::new();
    read_up_to(input, COUNT, &mut text)?;
    let Some(lines) = row_count(&text, slip) else { return Ok(None) };
    read_up_to(input, lines * LINE, &mut text)?;
    Ok((text.len() == lines * LINE).then_some(text))
}

fn row_count(text: &[u8], slip: Slip) -> Option<usize> {
    let [columns @ .., b'\n'] = text else { return None };
    let count = field::read(columns, slip).number().filter(|_| text.len() == COUNT)?;
    let most = LINES + usize::from(slip == Slip::Lines257);
    usize::try_from(count).ok().filter(|count| (1..=most).contains(count))
}

/// Reads `length` bytes into `bytes`, fewer only where the input ends.
fn read_up_to(input: &mut impl Read, length: usize, bytes: &mut Vec<u8>) -> io::Result<()> {
    bytes.clear();
    input.take(length as u64).read_to_end(bytes).map(|_| ())
}

/// Prints a screen: answer (4), strides (4), failing (2), value flag (2), leaves (8 of 12), entry count (4), byte 10, then
/// the entries.
pub fn print(output: &mut impl Write, answer: Result<usize, Ground>, look: &Look, slip: Slip) -> io::Result<()> {
    let (number, strides) = match answer {
        Ok(strides) => (0, strides as i32),
        Err(ground) => (ground.number(), 0),
    };
    field::write(output, number, NUMBER)?;
    field::write(output, strides, NUMBER)?;
    field::write(output, look.failing.into(), FLAG)?;
    field::write(output, look.value.is_some().into(), FLAG)?;
    let leaves = look.value.as_ref().map_or([0; LEAVES], |value| value.leaves(slip));
    for &leaf in leaves.iter().take(if slip == Slip::HeadOf64 { LEAVES_BEFORE } else { LEAVES }) {
        field::write(output, leaf, LEAF)?;
    }
    field::write(output, look.entries.len() as i32, NUMBER)?;
    output.write_all(b"\n")?;
    look.entries.iter().try_for_each(|entry| entry.write(output, slip))
}
