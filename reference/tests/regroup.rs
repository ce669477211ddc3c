//! CR 5, three choices under a last row 47 regrouped from (a, b), c to a, (b, c).

mod common;

use common::pairs::{answers, corresponding, difference, paths};
use common::{by, go_on, input, left, loads, numbers, padded, right, value, Sheet};
use reference::counterparts::{regrouped_event, rotated, rotated_back, Reading};
use reference::event;
use reference::pairs::{Chosen, Pair};
use reference::rules::Rules;
use reference::session;

/// What makes a task in a sheet and gives its row.
type Part<'p> = &'p dyn Fn(&mut Sheet) -> i32;

/// (a, b), c over what `cells` makes.
fn first(cells: Part, [a, b, c]: [Part; 3]) -> Sheet {
    let mut sheet = numbers();
    cells(&mut sheet);
    let (a, b) = (a(&mut sheet), b(&mut sheet));
    let both = sheet.row(47, a, b, 0);
    let c = c(&mut sheet);
    sheet.row(47, both, c, 0);
    sheet
}

/// a, (b, c), its rows in another order.
fn second(cells: Part, [a, b, c]: [Part; 3]) -> Sheet {
    let mut sheet = numbers();
    cells(&mut sheet);
    let (c, b) = (c(&mut sheet), b(&mut sheet));
    let both = sheet.row(47, b, c, 0);
    let a = a(&mut sheet);
    sheet.row(47, a, both, 0);
    sheet
}

fn no_cells(_: &mut Sheet) -> i32 {
    0
}

fn empty(sheet: &mut Sheet) -> i32 {
    sheet.empty()
}

/// A 46 of two empty editors that steps on, when both are filled, to a choice of two empty ones.
fn in_parts(sheet: &mut Sheet) -> i32 {
    let (one, two) = (sheet.empty(), sheet.empty());
    let both = sheet.row(46, one, two, 0);
    let (three, four) = (sheet.empty(), sheet.empty());
    let then = sheet.row(48, three, four, 0);
    sheet.row(43, both, then, 0)
}

fn pair(parts: [Part; 3], events: &[Vec<u8>]) -> Pair {
    let sheets = [first(&no_cells, parts), second(&no_cells, parts)].map(|sheet| sheet.text());
    Pair::regrouped(&sheets[0], &sheets[1], &events.concat(), Reading::AsMeant).expect("accepted")
}

fn chosen(pair: &Pair) -> Vec<Option<Chosen>> {
    pair.steps.iter().map(|step| step.chosen).collect()
}

#[test]
fn paths_correspond_until_a_choice_is_made() {
    for (path, made, changed) in [("11", Chosen::A, "1"), ("12", Chosen::B, "21"), ("2", Chosen::C, "22")] {
        let pair = pair([&empty, &empty, &empty], &[value(path, 7), value(path, 8), value("", 9)]);
        assert_eq!(chosen(&pair), [None, Some(made), Some(made), Some(made)]);
        let [one, other] = corresponding(&pair);
        assert_eq!(paths(&one[0]), ["11 1", "12 1", "2 1"]);
        assert_eq!(paths(&other[0]), ["1 1", "21 1", "22 1"]);
        assert_eq!(answers(&one), [0, 0, 9, 0]);
        assert_eq!((one[3].leaf(), &one[3].entries), (Some(9), &other[3].entries));
        assert_eq!(pair.events[1], [value(changed, 7), value(path, 8), value("", 9)].concat());
    }
}

/// Before the choice, what stands behind the marks stays; after it, the marks that are left are those of the part.
#[test]
fn marks_within_the_parts() {
    let touches = [value("121", 1), value("21", 2), value("122", 3), left("12"), value("12", 4), value("11", 4)];
    let pair = pair([&empty, &in_parts, &in_parts], &touches);
    let [one, other] = corresponding(&pair);
    assert_eq!(paths(&one[0]), ["11 1", "121 1", "122 1", "21 1", "22 1"]);
    assert_eq!(paths(&other[0]), ["1 1", "211 1", "212 1", "221 1", "222 1"]);
    assert_eq!(paths(&other[3]), ["1 1", "21 3", "21 4", "221 1", "222 1"]);
    assert_eq!(answers(&one), [0, 0, 0, 0, 0, 0, 9]);
    assert_eq!(one.iter().map(|screen| screen.strides).collect::<Vec<_>>(), [1, 1, 1, 2, 1, 2, 0]);
    assert_eq!(chosen(&pair)[4..], [None, Some(Chosen::B), Some(Chosen::B)]);
}

#[test]
fn a_choice_that_the_start_makes() {
    let filled = |sheet: &mut Sheet| sheet.filled(5);
    let shown = |sheet: &mut Sheet| sheet.shown(6);
    let forms: [([Part; 3], Chosen, &[&str]); 4] = [
        ([&filled, &shown, &empty], Chosen::A, &["0 1"]),
        ([&empty, &shown, &filled], Chosen::B, &[]),
        ([&empty, &in_step, &filled], Chosen::C, &["0 1"]),
        ([&shown, &filled, &filled], Chosen::A, &[]),
    ];
    for (parts, made, entries) in forms {
        let pair = pair(parts, &[value("", 1), value("11", 1), value("1", 1), value("2", 2), go_on("12")]);
        let [one, other] = corresponding(&pair);
        assert_eq!(
            (pair.steps[0].chosen, paths(&one[0]), paths(&other[0])),
            (Some(made), words(entries), words(entries))
        );
        assert_eq!(answers(&one)[2..], [9, 9, 9, 9]);
    }
}

/// A step that waits for Continue: no value at start.
fn in_step(sheet: &mut Sheet) -> i32 {
    let (from, to) = (sheet.filled(1), sheet.filled(2));
    sheet.row(44, from, to, 0)
}

fn words(entries: &[&str]) -> Vec<String> {
    entries.iter().map(|entry| entry.to_string()).collect()
}

#[test]
fn failing_parts_and_a_start_beyond_the_range() {
    let fail = |sheet: &mut Sheet| sheet.fail();
    let beyond = |sheet: &mut Sheet| {
        let (most, one) = (sheet.row(22, i32::MAX, 0, 0), sheet.row(22, 1, 0, 0));
        let sum = sheet.row(24, 1, most, one);
        sheet.row(40, sum, 0, 0)
    };
    let touches = [value("11", 1), value("12", 1), value("2", 1), go_on(""), value("3", 1)];
    let forms: [([Part; 3], bool, [i32; 6]); 5] = [
        ([&fail, &fail, &fail], true, [0, 9, 9, 9, 9, 8]),
        ([&empty, &fail, &fail], false, [0, 0, 9, 9, 9, 8]),
        ([&fail, &fail, &empty], false, [0, 9, 9, 0, 9, 8]),
        ([&beyond, &empty, &empty], true, [0, 9, 9, 9, 9, 8]),
        ([&empty, &empty, &beyond], true, [0, 9, 9, 9, 9, 8]),
    ];
    for (at, (parts, fails, expected)) in forms.into_iter().enumerate() {
        let pair = pair(parts, &touches);
        assert_eq!(pair.fails_whole, at > 2);
        let [one, _] = corresponding(&pair);
        assert_eq!((one[0].failing, answers(&one)), (fails, expected.to_vec()));
    }
}

/// Cells in other rows, in another order, with another beside them; with writes, which go by the parts' order.
#[test]
fn cells_that_moved_and_writes() {
    let (price, cast) = (10, 20);
    let cells = |sheet: &mut Sheet| {
        sheet.row(10, 0, price, 0);
        sheet.row(10, 0, cast, 0)
    };
    let moved = |sheet: &mut Sheet| {
        sheet.row(10, 0, 0, 0);
        sheet.row(10, 0, cast, 0);
        sheet.row(10, 0, price, 0)
    };
    // a writes the price and then picks, b asks for Continue and then edits it, c edits the cast.
    let writing = |price: i32| {
        move |sheet: &mut Sheet| {
            let (from, write) = (sheet.filled(1), sheet.write(price, 7));
            let (fail, empty) = (sheet.fail(), sheet.empty());
            let pick = sheet.row(48, fail, empty, 0);
            let then = sheet.row(31, write, pick, 0);
            sheet.row(43, from, then, 0)
        }
    };
    let editing = |price: i32| {
        move |sheet: &mut Sheet| {
            let read = sheet.row(29, price, 0, 0);
            let (from, then) = (sheet.row(49, read, 0, 0), sheet.row(42, price, 0, 0));
            sheet.row(44, from, then, 0)
        }
    };
    let cast = |sheet: &mut Sheet| {
        let (from, then) = (sheet.empty(), sheet.row(42, 2, 0, 0));
        sheet.row(43, from, then, 0)
    };
    let one = first(&cells, [&writing(1), &editing(1), &cast]);
    let other = second(&moved, [&writing(3), &editing(3), &cast]);
    let touches = [go_on("12"), value("", 8), value("", 9)].concat();
    let pair = Pair::regrouped(&one.text(), &other.text(), &touches, Reading::AsMeant).expect("accepted");
    let [one, _] = corresponding(&pair);
    assert_eq!(one.iter().map(|screen| screen.leaf()).collect::<Vec<_>>(), [None, Some(7), Some(8), Some(9)]);
}

/// Rows of kind 50 in the parts (CR 6): answers, each role's list and the touches left correspond, before the choice and after.
#[test]
fn roles_and_touches() {
    let gated = |role: i32, touches: i32| {
        move |sheet: &mut Sheet| {
            let task = in_parts(sheet);
            sheet.gate(role, task, touches)
        }
    };
    let (a, b, c) = (gated(1, 0), gated(2, 4), gated(3, 2));
    let touches = [
        value("111", 1),
        by(2, value("111", 1)),
        by(2, value("121", 1)),
        by(3, value("21", 2)),
        by(3, value("22", 3)),
        by(3, left("2")),
        by(2, value("122", 3)),
        by(2, left("12")),
        by(2, value("12", 4)),
        by(2, value("", 5)),
        by(1, value("", 5)),
    ];
    let pair = pair([&a, &b, &c], &touches);
    let [one, other] = corresponding(&pair);
    assert_eq!(answers(&one), [0, 31, 30, 0, 0, 0, 31, 0, 0, 0, 31, 30]);
    // Role 1 sees nothing, role 2 sees b, and role 3 has no touch left for c.
    assert_eq!([&one[0], &one[2], &one[4], &one[5]].map(|screen| paths(screen).len()), [0, 2, 2, 0]);
    assert_eq!((paths(&one[3]), paths(&other[3])), (words(&["121 1", "122 1"]), words(&["211 1", "212 1"])));
    assert_eq!(chosen(&pair)[8..10], [None, Some(Chosen::B)]);
    assert_eq!((one[9].leaf(), paths(&other[9])), (Some(4), vec![]));
}

/// 14 marks in c: 15 on the one sheet and 16 on the other. One mark more is refused there.
#[test]
fn the_16th_mark() {
    let deep = |marks: usize| {
        move |sheet: &mut Sheet| {
            let mut task = sheet.empty();
            for _ in 0..marks {
                let other = sheet.empty();
                task = sheet.row(47, other, task, 0);
            }
            task
        }
    };
    let long = "2222222222222222";
    let touches = [value(long, 1), go_on(long), value("1111111111111111", 1), value(&long[1..], 3), value("", 4)];
    let unreadable = event::write(long, 7, padded(&[]));
    let at_end = deep(14);
    let pair = pair([&empty, &empty, &at_end], &[vec![unreadable], touches.to_vec()].concat());
    assert_eq!(
        pair.steps.iter().map(|step| step.corresponds).collect::<Vec<_>>(),
        [true, false, false, false, true, true, true]
    );
    let [one, other] = corresponding(&pair);
    assert_eq!(answers(&one), [0, 8, 9, 9, 9, 0, 0]);
    assert_eq!(answers(&other), [0, 9, 0, 0]);
    assert_eq!(paths(&other[0])[16], format!("{long} 1"));

    let past = deep(15);
    let sheets = [first(&no_cells, [&empty, &empty, &past]), second(&no_cells, [&empty, &empty, &past])];
    assert_eq!(sheets.each_ref().map(|sheet| loads(&sheet.text())), [0, 6]);
    let pair = Pair::regrouped(&sheets[0].text(), &sheets[1].text(), &[], Reading::AsMeant).expect("accepted");
    assert!(difference(&pair).is_some() && pair.states_differ() == Some(0));
}

/// The control: b, (a, c) is another choice.
#[test]
fn exchanged_parts_differ() {
    let filled = |number: i32| move |sheet: &mut Sheet| sheet.filled(number);
    let (one, two) = (filled(1), filled(2));
    for (parts, exchanged) in [
        ([&one as Part, &two, &empty], [&two as Part, &one, &empty]),
        ([&empty, &in_step, &empty], [&in_step, &empty, &empty]),
    ] {
        let sheets = [first(&no_cells, parts), second(&no_cells, exchanged)].map(|sheet| sheet.text());
        let pair = Pair::regrouped(&sheets[0], &sheets[1], &[], Reading::AsMeant).expect("accepted");
        assert!(difference(&pair).is_some());
    }
}

/// Each wrong reading is found out by one short session: b has marks of its own, before the choice and after it.
#[test]
fn wrong_readings_are_found() {
    let pairs = |sheet: &mut Sheet| sheet.row(4, 0, 0, 0);
    let whole = |sheet: &mut Sheet| sheet.row(41, 1, 0, 0);
    let apart = |sheet: &mut Sheet| {
        let (one, two) = (sheet.empty(), sheet.empty());
        sheet.row(46, one, two, 0)
    };
    let parts: [Part; 3] = [&whole, &apart, &whole];
    let sheets = [first(&pairs, parts), second(&pairs, parts)].map(|sheet| sheet.text());
    let touches = [value("121", 1), value("122", 2), value("2", 3), value("22", 1)].concat();
    for reading in Reading::WRONG_OF_REGROUPED.into_iter().chain([Reading::AsMeant]) {
        let pair = Pair::regrouped(&sheets[0], &sheets[1], &touches, reading).expect("accepted");
        assert_eq!(difference(&pair).is_none(), reading == Reading::AsMeant, "{reading:?}");
        assert_eq!(chosen(&pair), [None, None, Some(Chosen::B), Some(Chosen::B), Some(Chosen::B)]);
    }
    let [screens, other] = [&sheets[0], &sheets[1]].map(|sheet| session::screens(&input(sheet, &[]), Rules::default()));
    let pair = Pair::regrouped(&sheets[0], &sheets[1], &[], Reading::AsMeant).expect("accepted");
    // Screens cut short, missing, too many, or with any byte changed.
    assert_eq!(pair.difference(&screens, &other), None);
    assert!(pair.difference(&screens, &other[..other.len() - 1]).is_some());
    assert!(pair.difference(&screens, &[]).is_some());
    assert!(pair.difference(&screens, &[&other[..], &other[..]].concat()).is_some());
    for at in 0..other.len() {
        let mut changed = other.clone();
        changed[at] ^= 1;
        assert!(pair.difference(&screens, &changed).is_some(), "byte {at}");
    }
}

#[test]
fn rotating_is_undone_by_rotating_back() {
    let mut paths: Vec<Vec<u8>> = vec![Vec::new()];
    for length in 0..7 {
        let longer: Vec<Vec<u8>> = paths.iter().filter(|path| path.len() == length).cloned().collect();
        paths.extend(longer.iter().flat_map(|path| [[&path[..], b"1"].concat(), [&path[..], b"2"].concat()]));
    }
    assert_eq!(paths.len(), 255);
    for path in &paths {
        assert_eq!(rotated(path).and_then(|path| rotated_back(&path)).as_ref(), Some(path));
        assert_eq!(rotated_back(path).and_then(|path| rotated(&path)).as_ref(), Some(path));
    }
    let told = |path: &str| rotated(path.as_bytes()).map(|path| String::from_utf8_lossy(&path).into_owned());
    assert_eq!(
        ["", "1", "2", "11", "12", "112"].map(told),
        ["", "2", "22", "1", "21", "12"].map(|path| Some(path.into()))
    );
    assert_eq!(rotated(&[b'2'; 16]), None);
    assert_eq!(rotated(&[b'1'; 16]).map(|path| path.len()), Some(15));
    // Columns that are no path stay, whatever is made of them.
    for columns in ["0", "", "3", "1 2", "21 ", "x"] {
        let event = go_on(columns);
        assert_eq!(regrouped_event(&event, false, Reading::AsMeant), Some(event));
    }
    assert_eq!(regrouped_event(&right("2"), true, Reading::AsMeant), Some(right("2")));
    assert_eq!(regrouped_event(&by(7, right("2")), false, Reading::AsMeant), Some(by(7, right("22"))));
}
