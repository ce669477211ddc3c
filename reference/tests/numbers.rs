//! The examples of `docs/NUMBERS.md`: each gives the numbers that its block names.

mod common;

use common::read_screens;
use reference::calls::{self, ROW};
use reference::receipt::{receipt, Receipt};
use reference::roles::{Role, FIRST};
use reference::rules::Rules;
use reference::session;
use reference::sheet::LINE;

const PAGE: &str = include_str!("../../docs/NUMBERS.md");

/// A fenced block `WHAT gives NUMBERS`, under the section of a number, if it stands in one.
struct Example {
    section: Option<u32>,
    what: String,
    gives: Vec<u32>,
    body: String,
}

fn examples() -> Vec<Example> {
    let mut examples = Vec::new();
    let mut section = None;
    let mut lines = PAGE.lines();
    while let Some(line) = lines.next() {
        if let Some(title) = line.strip_prefix("## ") {
            section = title.split(':').next().and_then(|number| number.parse().ok());
        }
        let Some(marker) = line.strip_prefix("```") else { continue };
        let (what, gives) = marker.split_once(" gives ").expect("a marker");
        let gives = gives.split(' ').map(|number| number.parse().expect("a number")).collect();
        let body = lines.by_ref().take_while(|line| *line != "```").map(|line| format!("{line}\n")).collect();
        examples.push(Example { section, what: what.to_string(), gives, body });
    }
    examples
}

#[test]
fn each_example_gives_its_numbers() {
    for Example { section, what, gives, body } in examples() {
        let given = match &what[..] {
            "sheet" => vec![calls::load(body.as_bytes(), &mut vec![7; body.len() / LINE * ROW])],
            "session" => answers(&body),
            "call" => vec![Lent::read(&body).call()],
            "receipt" => vec![priced(&body)],
            _ => panic!("no such example: {what}"),
        };
        assert_eq!(given, gives, "{section:?}:\n{body}");
    }
}

/// Each number has its section, with an example that gives it and a mended one.
#[test]
fn each_number_has_examples() {
    let examples = examples();
    let mut sections: Vec<u32> = examples.iter().filter_map(|example| example.section).collect();
    sections.sort_unstable();
    sections.dedup();
    assert_eq!(sections, (1..=9).chain(20..=24).chain(30..=34).collect::<Vec<_>>());
    for number in sections {
        let mut of_number = examples.iter().filter(|example| example.section == Some(number));
        assert!(of_number.clone().any(|example| example.gives.contains(&number)), "{number}");
        assert!(of_number.any(|example| example.gives.last() == Some(&0)), "{number} mended");
        let wrong = |example: &Example| {
            example.section == Some(number) && example.gives.iter().any(|&of| of != 0 && of != number)
        };
        assert!(!examples.iter().any(wrong), "another number under {number}");
    }
}

/// The answers of a session.
fn answers(input: &str) -> Vec<u32> {
    let screens = session::screens(input.as_bytes(), Rules::default());
    read_screens(&screens).iter().map(|screen| screen.answer as u32).collect()
}

/// What a price list and an order answer; the total is the one that the block tells, or 0.
fn priced(body: &str) -> u32 {
    let (prices, rest) = body.split_at(body.find("order\n").expect("an order"));
    let (values, total) = rest.split_once("total ").unwrap_or((rest, "0"));
    let order: Vec<i32> = values.lines().skip(1).flat_map(words).collect();
    let Receipt { number, total: cents } = receipt(prices.as_bytes(), &order);
    assert_eq!(cents.to_string(), total.trim_end(), "{body}");
    assert_eq!(number == 0, rest.contains("total"), "{body}");
    number
}

/// What a `call` lends; a look is in role 1 where its block names none.
#[derive(Default)]
struct Lent {
    call: String,
    rows: Vec<i32>,
    state: Vec<i32>,
    role: Option<Role>,
    value: Vec<i32>,
    list: Vec<u8>,
    sheet: String,
    event: String,
}

impl Lent {
    /// Reads lines `NAME: CONTENT`; those of rows, state and sheet follow one another.
    fn read(body: &str) -> Self {
        let mut lent = Lent::default();
        for line in body.lines() {
            let (name, content) = line.split_once(": ").expect("a name");
            match name {
                "call" => lent.call = content.to_string(),
                "rows" => lent.rows.extend(words(content)),
                "state" => lent.state.extend(words(content)),
                "role" => lent.role = Some(content.parse().expect("a role")),
                "value" => lent.value = vec![7; content.parse().expect("a length")],
                "list" => lent.list = vec![b'#'; content.parse().expect("a length")],
                "sheet" => lent.sheet += &format!("{content}\n"),
                "event" => lent.event = format!("{content}\n"),
                _ => panic!("no such memory: {name}"),
            }
        }
        lent
    }

    fn call(&mut self) -> u32 {
        match &self.call[..] {
            "load" => calls::load(self.sheet.as_bytes(), &mut self.rows),
            "start" => calls::start(&self.rows, &mut self.state).0,
            "look" => {
                let role = self.role.unwrap_or(FIRST);
                calls::look(&self.rows, &self.state, role, &mut self.value, &mut self.list).number
            }
            "handle" => calls::handle(&self.rows, &mut self.state, self.event.as_bytes()).0,
            other => panic!("no such call: {other}"),
        }
    }
}

/// Words, or `N words` that hold anything.
fn words(content: &str) -> Vec<i32> {
    let number = |word: &str| word.parse().expect("a number");
    match content.strip_suffix(" words") {
        Some(length) => vec![7; number(length) as usize],
        None => content.split_whitespace().map(number).collect(),
    }
}
