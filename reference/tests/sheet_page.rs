//! The tables of `docs/SHEET.md`: columns, kinds, operators and examples are as the page tells them.

mod common;

use common::tables::{code, numbers, table, tables, Table};
use common::{answers_after_start, by, last_screen, loads, screens, sheet_of, value, Screen, Sheet};
use reference::blank_edges::{blanked, EVERY_KIND};
use reference::event::{
    self, leaf_columns, ACTION, ACTION_COLUMNS, ENTRY, EVENT, KIND, PATH, PATH_COLUMNS, ROLE_COLUMNS,
};
use reference::kinds::{self, Operand, Sort};
use reference::limits::{ENCLOSING, LEAVES};
use reference::operators::Operator;
use reference::receipt::{CODE_COLUMNS, COPIES, PRICES, PRICE_COLUMNS, PRICE_LINE, PRICE_LINES};
use reference::roles::{ROLES, TOUCHES};
use reference::rules::Rules;
use reference::session::{self, COUNT, HEAD, HEAD_COUNT, HEAD_LEAVES};
use reference::sheet::{self, Row, COLUMNS, LINE, LINES};
use reference::value::padded;
use std::fs;
use std::ops::{Range, RangeInclusive};

fn page() -> String {
    fs::read_to_string("../docs/SHEET.md").expect("the page")
}

// ---- columns

/// The columns that the page gives a format, each with what stands there.
fn format(name: &str) -> Vec<(Range<usize>, String)> {
    let tables = tables(&page());
    let mut of = tables.iter().filter(|table| table.head[0] == "Columns" && table.lines[0][0] == name);
    let table = of.next().unwrap_or_else(|| panic!("a format {name}"));
    let columns = table.head[1..].iter().map(|columns| {
        let (from, to) = columns.split_once('-').unwrap_or((columns, columns));
        numbers(from)[0] as usize - 1..numbers(to)[0] as usize
    });
    columns.zip(table.lines[0][1..].iter().cloned()).collect()
}

/// The columns of each format, their names and the bytes in all.
#[test]
fn formats_have_their_columns() {
    let leaves =
        |columns: fn(usize) -> Range<usize>, name: &'static str| (0..LEAVES).map(move |at| (columns(at), name));
    let end = |bytes: usize| [(bytes - 1..bytes, "byte 10")];
    let same = |name: &str, fields: Vec<(Range<usize>, &str)>| {
        let told = format(name);
        let told: Vec<_> = told.iter().map(|(columns, name)| (columns.clone(), &name[..])).collect();
        assert_eq!(told, fields, "{name}");
    };
    same("Row count", [vec![(0..COUNT - 1, "lines of the sheet")], end(COUNT).into()].concat());
    let line = COLUMNS.into_iter().zip(["row number", "kind", "A", "B", "C"]);
    same("Holds", line.chain(end(LINE)).collect());
    let event = [(ROLE_COLUMNS, "role"), (PATH_COLUMNS, "path"), (ACTION_COLUMNS, "action")];
    same("Event", event.into_iter().chain(leaves(leaf_columns, "leaf")).chain(end(EVENT)).collect());
    let entry = [(0..PATH, "path"), (PATH..PATH + ACTION, "action")];
    let kind = |at| PATH + ACTION + KIND * at..PATH + ACTION + KIND * (at + 1);
    same("Entry", entry.into_iter().chain(leaves(kind, "leaf kind")).chain(end(ENTRY)).collect());
    let head = [(0..4, "answer"), (4..8, "strides"), (8..10, "failing"), (10..HEAD_LEAVES, "value flag")];
    let leaf = |at| HEAD_LEAVES + 12 * at..HEAD_LEAVES + 12 * (at + 1);
    let count = [(HEAD_COUNT, "entries")];
    same("Head line", head.into_iter().chain(leaves(leaf, "leaf")).chain(count).chain(end(HEAD)).collect());
    let price = [(CODE_COLUMNS, "code"), (PRICE_COLUMNS, "price of a copy, in hundredths of a cent")];
    same("Price line", price.into_iter().chain(end(PRICE_LINE)).collect());
}

/// These words, each at the right end of its columns, and byte 10 in the last.
fn placed(name: &str, words: &[&str]) -> String {
    let columns = format(name);
    assert_eq!(columns.len(), words.len() + 1, "{name}");
    let text: String = columns.iter().zip(words).map(|((at, _), word)| format!("{word:>0$}", at.len())).collect();
    text + "\n"
}

/// A session written by the page's columns is read, and its screens stand in the page's columns.
#[test]
fn a_session_by_the_page() {
    let lines = [["0", "3", "0", "", ""], ["1", "41", "0", "0", "0"]].map(|line| placed("Holds", &line));
    let event = placed("Event", &["1", "0", "1", "-12", "0", "0", "0", "0", "0", "0", ""]);
    let input = placed("Row count", &["2"]) + &lines.concat() + &event;
    let output = session::screens(input.as_bytes(), Rules::default());
    let empty = placed("Head line", &["0", "1", "0", "0", "0", "0", "0", "0", "0", "0", "0", "0", "1"]);
    let entry = placed("Entry", &["0", "1", "3", "0", "0", "0", "0", "0", "0", "0"]);
    let filled = placed("Head line", &["0", "1", "0", "1", "-12", "0", "0", "0", "0", "0", "0", "0", "1"]);
    assert_eq!(String::from_utf8_lossy(&output), [empty, entry.clone(), filled, entry].concat());
}

/// The figures in the page's sentences.
#[test]
fn figures() {
    let text = page().split_whitespace().collect::<Vec<_>>().join(" ");
    for figure in [
        format!("A sheet is 1 to {LINES} lines of {LINE} bytes."),
        format!("within {} and {}", i32::MIN, i32::MAX),
        format!("A type has at most {LEAVES} leaves"),
        format!("At most {ENCLOSING} binders, and at most {ENCLOSING} rows of kind 46 or 47, enclose a row."),
        format!("The role, {} to {}, is", ROLES.start(), ROLES.end()),
        format!("a session is cut every {EVENT} bytes"),
        format!("A price list is up to {PRICE_LINES} lines"),
        format!("a price {} to {}", PRICES.start(), PRICES.end()),
        format!("a code and copies from {} to {}", COPIES.start(), COPIES.end()),
    ] {
        assert!(text.contains(&figure), "{figure}");
    }
}

/// One space too many or too few in the first touch makes it 8, and every later one.
#[test]
fn one_wrong_space() {
    let sheet = sheet_of(&[[3, 0, 0, 0], [41, 0, 0, 0]]).text();
    let events = [5, 6, 7].map(|number| value("", number));
    assert_eq!(answers_after_start(&sheet, &events), [0, 0, 0]);
    let longer = [b" ".to_vec(), events.concat()];
    assert_eq!(answers_after_start(&sheet, &longer), [8, 8, 8, 8]);
    assert_eq!(answers_after_start(&sheet, &[events.concat()[1..].to_vec()]), [8, 8, 8]);
}

// ---- kinds

/// What the page says of an operand, as the second implementation names it.
fn asked(cell: &str) -> Operand {
    match cell {
        "" => Operand::Unused,
        "0 or 1" => Operand::Truth,
        "the number" => Operand::Number,
        "first content" => Operand::Content,
        "how many binders outward, 0 the nearest" => Operand::Outward,
        "type, of kind 2 or 3" => Operand::BasicType,
        "type" => Operand::Row(Sort::Type),
        "cell" => Operand::Row(Sort::Cell),
        "plain" | "plain, a truth" => Operand::Row(Sort::Plain),
        "task" | "task, with one binder more: A's value" => Operand::Row(Sort::Task),
        "plain or task: then" | "of the sort of B: else" | "plain or task, with one binder more" => Operand::Expression,
        _ if range(cell, "operator") == Some(1..=Operator::ALL.len() as i32) => Operand::Operator,
        _ if range(cell, "role") == Some(ROLES) => Operand::Role,
        _ if range(cell, "touches") == Some(TOUCHES) => Operand::Touches,
        _ => panic!("no such operand: {cell}"),
    }
}

/// The range in `NAME, LEAST to MOST`.
fn range(cell: &str, name: &str) -> Option<RangeInclusive<i32>> {
    let (least, most) = cell.strip_prefix(name)?.strip_prefix(", ")?.split_once(" to ")?;
    Some(least.parse().ok()?..=most.parse().ok()?)
}

/// The kinds of the page with what they say of A, B and C.
fn told_kinds() -> Vec<(i32, [String; 3])> {
    let tables = tables(&page());
    let lines = &table(&tables, "Kind").lines;
    lines.iter().map(|line| (numbers(&line[0])[0], [2, 3, 4].map(|at| line[at].clone()))).collect()
}

/// Every kind is told, once and in order, with what its operands are; and which B has one binder more.
#[test]
fn kinds_have_their_operands() {
    let told = told_kinds();
    let kinds: Vec<i32> = told.iter().map(|(kind, _)| *kind).collect();
    assert_eq!(kinds, (-1..1000).filter(|&kind| kinds::operands(kind).is_some()).collect::<Vec<_>>());
    for (kind, cells) in told {
        assert_eq!(Some(cells.clone().map(|cell| asked(&cell))), kinds::operands(kind), "{kind}");
        assert_eq!(cells[1].contains("with one binder more"), kinds::binds(kind), "{kind}");
    }
}

/// A condition takes the side that the page says.
#[test]
fn then_and_else() {
    let told = told_kinds();
    let (_, cells) = told.iter().find(|(kind, _)| *kind == 25).expect("a condition");
    for (truth, side) in [(1, "then"), (0, "else")] {
        let sheet = sheet_of(&[[21, truth, 0, 0], [22, 1, 0, 0], [22, 2, 0, 0], [25, 0, 1, 2], [49, 3, 0, 0]]);
        let place = cells.iter().position(|cell| cell.ends_with(side)).map(|place| place as i32);
        assert_eq!(last_screen(&sheet, &[]).leaf(), place, "{side}");
    }
}

/// In a sheet that has every kind: an operand that is not told is blank or 0, else 3; one that is told is not blank, else
/// 2; a number is one of those told, else 3; and a row is of the sort told, else 4.
#[test]
fn kinds_are_asked_so() {
    let text = sheet::write(&EVERY_KIND);
    assert_eq!(loads(&text), 0);
    for (kind, cells) in told_kinds() {
        let at = EVERY_KIND.iter().position(|row| row.kind == kind).expect("every kind");
        for (place, cell) in cells.iter().enumerate() {
            let with = |operand: i32| {
                let mut rows = EVERY_KIND;
                rows[at].operands[place] = operand;
                loads(&sheet::write(&rows))
            };
            let blank = loads(&blanked(&text, at, &COLUMNS[2 + place]));
            assert_eq!(blank, if cell.is_empty() { 0 } else { 2 }, "{kind}: {cell}");
            if let Some(listed) = listed(cell) {
                let other = [listed.start() - 1, listed.end() + 1, i32::MIN, i32::MAX];
                assert!(other.iter().all(|&number| with(number) == 3), "{kind}: {cell}");
                assert!(listed.clone().all(|number| with(number) != 3), "{kind}: {cell}");
            } else if asked(cell).names_row() {
                for (name, named) in EVERY_KIND.iter().enumerate() {
                    let fits = name < at && fits(cell, EVERY_KIND[at], named.kind);
                    assert_eq!(with(name as i32) != 4, fits, "{kind}: {cell}, row {name}");
                }
            } else {
                // A number, a first content or binders outward: any word, as far as grounds 2 to 6 go.
                assert!(
                    [i32::MIN, -1, 0, 1, i32::MAX].iter().all(|&word| matches!(with(word), 0 | 7)),
                    "{kind}: {cell}"
                );
            }
        }
    }
}

/// The numbers that a cell lists.
fn listed(cell: &str) -> Option<RangeInclusive<i32>> {
    match cell {
        "" => Some(0..=0),
        "0 or 1" => Some(0..=1),
        _ => ["operator", "role", "touches"].iter().find_map(|name| range(cell, name)),
    }
}

/// Whether a row of the kind `named` is what the cell asks for; 25 and 31 are plain in the sheet of every kind.
fn fits(cell: &str, row: Row, named: i32) -> bool {
    let plain = (20..=31).contains(&named);
    match cell.split([' ', ',']).next() {
        Some("type") if cell.ends_with("2 or 3") => matches!(named, 2 | 3),
        Some("type") => (1..=4).contains(&named),
        Some("cell") => named == 10,
        // A 25 whose other side is plain.
        Some("plain" | "of") if row.kind == 25 => plain,
        Some("plain") if cell.contains("or task") => plain || named >= 40,
        Some("plain") => plain,
        Some("task") => named >= 40,
        _ => panic!("names no row: {cell}"),
    }
}

// ---- operators

/// What an operator of this name gives; a truth is 0 or 1.
fn reckoned(name: &str, left: i32, right: i32) -> i32 {
    match name {
        "sum" => left + right,
        "difference" => left - right,
        "product" => left * right,
        "less" => i32::from(left < right),
        "less or equal" => i32::from(left <= right),
        "equal" => i32::from(left == right),
        "and" => left & right,
        "or" => left | right,
        _ => panic!("no such operator: {name}"),
    }
}

/// A shown value of operator `number` on two rows of this kind.
fn shown(number: i32, kind: i32, left: i32, right: i32) -> Sheet {
    sheet_of(&[[kind, left, 0, 0], [kind, right, 0, 0], [24, number, 0, 1], [49, 2, 0, 0]])
}

/// Each operator gives what its name says, on what the page says, and has no type on the other.
#[test]
fn operators_are_what_they_are_called() {
    let tables = tables(&page());
    let Table { head, lines } = table(&tables, "Operator");
    assert_eq!((&lines[0][0][..], &lines[1][0][..]), ("Is", "On"));
    assert_eq!(numbers(&head[1..].join(" ")), Operator::ALL.map(Operator::number));
    for (at, number) in (1..).zip(Operator::ALL.map(Operator::number)) {
        let (name, on) = (&lines[0][at], &lines[1][at][..]);
        let (kind, other, words) = if on == "numbers" { (22, 21, -2..=2) } else { (21, 22, 0..=1) };
        assert!(matches!(on, "numbers" | "truths"), "{on}");
        assert_eq!(loads(&shown(number, other, 1, 1).text()), 7, "{name} on {on}");
        for (left, right) in words.clone().flat_map(|left| words.clone().map(move |right| (left, right))) {
            let screen = last_screen(&shown(number, kind, left, right), &[]);
            assert_eq!(screen.leaf(), Some(reckoned(name, left, right)), "{left} {name} {right}");
        }
    }
}

// ---- examples

/// Each example answers what its line says, and ends in its value.
#[test]
fn examples_answer_so() {
    let tables = tables(&page());
    let examples = &table(&tables, "What is to be seen").lines;
    assert!(examples.len() >= 7);
    for line in examples {
        let [what, rows, touches, answers, end] = &line[..] else { panic!("five cells: {line:?}") };
        let rows = code(rows).split("; ").map(|row| <[i32; 4]>::try_from(numbers(row)).expect("kind, A, B, C"));
        let sheet = sheet_of(&rows.collect::<Vec<_>>());
        let touches: Vec<Vec<u8>> = code(touches).split("; ").map(touch).collect();
        let screens = screens(&sheet, &touches);
        assert_eq!(screens.iter().map(|screen| screen.answer).collect::<Vec<_>>(), numbers(answers), "{what}");
        let value = screens.last().and_then(|Screen { value, .. }| *value);
        assert_eq!(value, (!end.is_empty()).then(|| padded(&numbers(end))), "{what}");
    }
}

/// The event of `ROLE PATH ACTION LEAF`.
fn touch(words: &str) -> Vec<u8> {
    let &[role, path, action, leaf] = &numbers(words)[..] else { panic!("four words: {words}") };
    by(role as u32, event::write(&path.to_string(), action, padded(&[leaf])))
}
