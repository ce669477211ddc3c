//! The tables of `examples/*.md`: rows and touches are those of the session that a page tells, and answers, strides,
//! entries and values those of its screens.

mod common;

use common::tables::{code, numbers, table, tables, Table};
use common::{read_screens, Screen};
use reference::event::{self, EVENT, ROLE};
use reference::limits::LEAVES;
use reference::receipt::{downward, receipt, value, Receipt};
use reference::rules::Rules;
use reference::session::{self, COUNT};
use reference::sheet::{self, Row, LINE};
use std::collections::BTreeSet;
use std::fs;

/// A page, a session that it tells, and the column that has the session's touches: their leaves, or the first of them.
const TOLD: [(&str, &str, &str); 6] = [
    ("shop", "shop", "Role, path, action, leaves"),
    ("proof-order", "proof-order", "Role, path, action, leaves"),
    ("counter-and-customer", "counter-and-customer", "Role, path, action, leaf"),
    ("mirrored", "counter-right", "Right"),
    ("mirrored", "counter-left", "Left"),
    ("receipt", "receipt", "Role, path, action, leaf"),
];

fn read(name: &str) -> Vec<u8> {
    fs::read(format!("../examples/{name}")).unwrap_or_else(|_| panic!("an example {name}"))
}

fn page(name: &str) -> Vec<Table> {
    tables(&String::from_utf8(read(&format!("{name}.md"))).expect("text"))
}

/// The files of the examples with this ending, without it.
fn files(ending: &str) -> BTreeSet<String> {
    let entries = fs::read_dir("../examples").expect("the examples");
    let names = entries.map(|entry| entry.expect("a file").file_name().into_string().expect("text"));
    names.filter_map(|name| name.strip_suffix(ending).map(str::to_string)).collect()
}

/// Each page is tested, and each session but 01's has its page and its screens, which it prints.
#[test]
fn every_example_is_told() {
    assert_eq!(files(".md"), TOLD.map(|(page, ..)| page.to_string()).into());
    let told = BTreeSet::from(TOLD.map(|(_, session, _)| session.to_string()));
    assert_eq!(files(".screens"), told);
    let mut sessions = files(".session");
    assert!(sessions.remove("document-01"));
    assert_eq!(sessions, told);
    for name in told {
        let screens = session::screens(&read(&format!("{name}.session")), Rules::default());
        assert_eq!(screens, read(&format!("{name}.screens")), "{name}");
    }
}

/// The rows that a page tells of the sheet whose touches stand in `column`.
fn rows(tables: &[Table], column: &str) -> Vec<Row> {
    let told: Vec<_> = table(tables, "Row").lines.iter().filter(|line| is_of(line, column)).collect();
    let counted = told.iter().map(|line| numbers(&line[0])[0]);
    assert!(counted.eq(0..told.len() as i32), "rows count from 0");
    told.iter().map(|line| row(&numbers(&line[1..5].join(" ")))).collect()
}

/// Whether a line of a table of rows is of that sheet. Of two sheets of one page, a line in which they differ says whose
/// it is.
fn is_of(line: &[String], column: &str) -> bool {
    let of = line[5].strip_prefix("counter on the ").and_then(|text| text.split(':').next());
    of.is_none_or(|of| of == column.to_lowercase())
}

fn row(words: &[i32]) -> Row {
    let &[kind, a, b, c] = words else { panic!("kind, A, B and C: {words:?}") };
    Row::new(kind, a, b, c)
}

/// A page's rows are those of the session's sheet, and the row count is theirs.
#[test]
fn rows_are_told() {
    for (name, session, column) in TOLD {
        let rows = rows(&page(name), column);
        let text = [format!("{:>4}\n", rows.len()).into_bytes(), sheet::write(&rows)].concat();
        let input = read(&format!("{session}.session"));
        assert_eq!(String::from_utf8_lossy(&input[..text.len()]), String::from_utf8_lossy(&text), "{session}");
    }
}

/// A page's touches are those of the session, with their answers, strides and entries.
#[test]
fn touches_are_told() {
    for (name, session, column) in TOLD {
        let (tables, input) = (page(name), read(&format!("{session}.session")));
        let told = table(&tables, "Touch");
        let mut events = told.column(column).into_iter();
        assert_eq!(events.next(), Some(""), "{session}: the start");
        let events: Vec<&str> = events.map(code).collect();
        let sent: Vec<&[u8]> = input[COUNT + rows(&tables, column).len() * LINE..].chunks(EVENT).collect();
        assert_eq!(events.len(), sent.len(), "{session}");
        for (event, bytes) in events.iter().zip(sent) {
            assert!(tells(event, bytes, column.ends_with("leaves")), "{session}: {event}");
        }
        let screens = read_screens(&read(&format!("{session}.screens")));
        let seen = |of: fn(&Screen) -> i32| screens.iter().map(of).collect::<Vec<_>>();
        let told = |column: &str| told.column(column).iter().map(|cell| numbers(cell)[0]).collect::<Vec<_>>();
        assert_eq!(told("Answer"), seen(|screen| screen.answer), "{session}");
        assert_eq!(told("Strides"), seen(|screen| screen.strides), "{session}");
        assert_eq!(told("Entries"), seen(|screen| screen.entries.len() as i32), "{session}");
    }
}

/// Whether these words are those of the bytes; where not all leaves are told, the others are 0.
fn tells(words: &str, bytes: &[u8], whole: bool) -> bool {
    let (role, rest) = bytes.split_at(ROLE);
    let text = [role, b" ", rest].concat();
    let text = String::from_utf8_lossy(&text);
    let mut sent = text.split_whitespace();
    let begins = words.split(' ').all(|word| sent.next() == Some(word));
    begins && if whole { sent.next().is_none() } else { sent.all(|word| word == "0") }
}

/// Where a leaf of the value is not what it was on the screen before, 0 at first, the line of the touch names it.
#[test]
fn values_are_told() {
    for (name, session, _) in TOLD {
        let tables = page(name);
        let mut before = [0; LEAVES];
        let screens = read_screens(&read(&format!("{session}.screens")));
        for (line, screen) in table(&tables, "Touch").lines.iter().zip(screens) {
            let leaves = screen.value.unwrap_or(before);
            let told = [line.first(), line.last()].into_iter().flatten();
            let said: Vec<&str> = told.flat_map(|cell| cell.split([' ', ',', '.', ':'])).collect();
            for (_, leaf) in before.iter().zip(&leaves).filter(|(before, leaf)| before != leaf) {
                assert!(said.contains(&&leaf.to_string()[..]), "{session}: {leaf} in {line:?}");
            }
            before = leaves;
        }
        assert_ne!(before, [0; LEAVES], "{session} has a value");
    }
}

/// The page on receipts (CR 7): its price list is the one that the examples of `embedding/` read, its runs come to the values that
/// it tells, and its table is what they print, number and cents of the order up to each value.
#[test]
fn receipts_are_told() {
    let text = String::from_utf8(read("receipt.md")).expect("text");
    let prices = text.split("```\n").nth(1).expect("a block").as_bytes();
    assert_eq!(prices, read("receipt.prices"));
    let session = read("receipt.session");
    let sheet = &session[..COUNT + rows(&page("receipt"), TOLD[5].2).len() * LINE];
    let (mut order, mut printed) = (Vec::new(), String::new());
    for line in &table(&page("receipt"), "Run").lines {
        let &[code, copies, number, cents] = &numbers(&line[1..5].join(" "))[..] else { panic!("{line:?}") };
        // Left and Right are actions 3 and 4; then the copies, and Continue.
        let steps = line[0].split(", ").map(|step| match step {
            "Left" => (3, 0),
            "Right" => (4, 0),
            copies => (1, numbers(copies.split(' ').next().expect("copies"))[0]),
        });
        let events = steps.chain([(2, 0)]).flat_map(|(action, leaf)| event::write("", action, value(leaf, 0)));
        let screens = session::screens(&[sheet.to_vec(), events.collect()].concat(), Rules::default());
        let shown = read_screens(&screens).pop().and_then(|screen| screen.value);
        assert_eq!(shown, Some(value(code, copies)), "{line:?}");
        order.extend(value(code, copies));
        let told = Receipt { number: number as u32, total: cents as u64 };
        assert_eq!(receipt(prices, &order), told, "{line:?}");
        printed += &format!("{code:12}{copies:12}{number:4}{cents:12}\n");
    }
    assert_eq!(printed.as_bytes(), read("receipt.totals"));
}

/// The paper on that page (CR 8): the values that were priced, the last one at the top, each with its price, its cost and the sum
/// down to it; the last sum, rounded, is the total.
#[test]
fn the_paper_is_told() {
    let (tables, prices) = (page("receipt"), read("receipt.prices"));
    let runs = table(&tables, "Run").lines.iter().map(|line| numbers(&line[1..5].join(" ")));
    let priced: Vec<Vec<i32>> = runs.filter(|run| run[2] == 0).collect();
    let order: Vec<i32> = priced.iter().flat_map(|run| value(run[0], run[1])).collect();
    let sums = downward(&prices, &order).expect("priced");
    let told: Vec<Vec<i32>> = table(&tables, "Line").lines.iter().map(|line| numbers(&line.join(" "))).collect();
    assert_eq!((told.len(), sums.len()), (priced.len(), priced.len()));
    for ((line, cells), (run, sum)) in (1..).zip(&told).zip(priced.iter().rev().zip(sums)) {
        let &[number, code, copies, price, cost, below] = &cells[..] else { panic!("{cells:?}") };
        assert_eq!((number, code, copies), (line, run[0], run[1]), "{cells:?}");
        assert_eq!((cost, below as u64), (copies * price, sum), "{cells:?}");
        assert_eq!(receipt(&prices, &value(code, copies)).total, (cost as u64 + 50) / 100, "{cells:?}");
    }
    assert_eq!(priced.last().map(|run| run[3]), told.last().map(|cells| (cells[5] + 50) / 100));
}
