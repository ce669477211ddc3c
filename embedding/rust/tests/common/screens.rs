//! A whole session by [`Flow`] and [`Rest`], printed as 01 prints it ("A session in full"), each screen in the role that CR 6 says.

use nannyjiffy::{Flow, Ground, Rest, Role, EVENT_BYTES, LINE_BYTES};
use std::fmt::Write;

/// Bytes of the row count with its byte 10.
const COUNT_BYTES: usize = 5;

/// The screens of a session, where its row count is readable and met.
pub fn screens(input: &[u8]) -> Option<Vec<u8>> {
    let (field, rest) = input.split_at_checked(COUNT_BYTES)?;
    let count = (0..=256).find(|count| format!("{count:4}\n").as_bytes() == field)?;
    let (sheet, events) = rest.split_at_checked(count * LINE_BYTES)?;
    let mut out = String::new();
    match Flow::load(sheet) {
        Err(ground) => print(&mut out, ground.number(), None),
        Ok(flow) => {
            let mut rest = Rest::start(&flow);
            print(&mut out, 0, Some((&rest, Role::FIRST)));
            for event in events.chunks(EVENT_BYTES) {
                let number = rest.handle(event).map_or_else(Ground::number, |()| 0);
                let whole = event.len() == EVENT_BYTES;
                let role = Role::of_event(event).filter(|_| whole).unwrap_or(Role::FIRST);
                print(&mut out, number, Some((&rest, role)));
            }
        }
    }
    Some(out.into_bytes())
}

fn print(out: &mut String, number: u32, seen: Option<(&Rest, Role)>) {
    let (strides, screen) = (seen.map_or(0, |(rest, _)| rest.strides()), seen.map(|(rest, role)| rest.look(role)));
    let [fails, valued] = screen.as_ref().map_or([false; 2], |s| [s.failing, s.value.is_some()]).map(u32::from);
    let leaves = screen.as_ref().and_then(|s| s.value).unwrap_or_default().map(|leaf| format!("{leaf:12}")).concat();
    let entries = screen.as_ref().map_or(&b""[..], |s| s.entries());
    let count = screen.as_ref().map_or(0, |s| s.count());
    writeln!(out, "{number:4}{strides:4}{fails:2}{valued:2}{leaves}{count:4}").expect("memory");
    out.push_str(std::str::from_utf8(entries).expect("digits and spaces"));
}
