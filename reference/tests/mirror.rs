//! CR 5, the halves of a last row 46 exchanged; and the comparison of pairs of sessions, which must find what is wrong.

mod common;

use common::pairs::{answers, corresponding, difference, paths, printed};
use common::{by, go_on, left, numbers, padded, read_screens, right, value, Screen, Sheet};
use reference::counterparts::{mirrored_event, mirrored_sheet, Reading};
use reference::event::{self, EVENT};
use reference::pair_report::{Of, Report};
use reference::pairs::Pair;
use reference::rules::Rules;
use reference::session::{self, COUNT};
use reference::sheet::{self, LINE};
use reference::slips::Slip;
use std::fs;

fn mirrored(sheet: &Sheet, events: &[Vec<u8>]) -> Pair {
    Pair::mirrored(&sheet.text(), &events.concat(), Reading::AsMeant).expect("accepted")
}

/// 46 of two leaves and one: a filled pair beside a 44, and a 48.
fn uneven() -> Sheet {
    let mut sheet = numbers();
    let (one, two) = (sheet.row(22, 1, 0, 0), sheet.row(22, 2, 0, 0));
    let pair = sheet.row(26, one, two, 0);
    let editor = sheet.row(40, pair, 0, 0);
    let (seven, eight) = (sheet.filled(7), sheet.filled(8));
    let pick = sheet.row(48, seven, eight, 0);
    sheet.row(46, editor, pick, 0);
    sheet
}

/// 46 of three empty editors to the left of a step with Continue.
fn nested() -> Sheet {
    let mut sheet = numbers();
    let (one, two, three) = (sheet.empty(), sheet.empty(), sheet.empty());
    let inner = sheet.row(46, one, two, 0);
    let outer = sheet.row(46, inner, three, 0);
    let (filled, then) = (sheet.filled(5), sheet.shown(6));
    let step = sheet.row(44, filled, then, 0);
    sheet.row(46, outer, step, 0);
    sheet
}

#[test]
fn halves_of_the_value_change_places() {
    let touches = [right("2"), event::write("1", 1, padded(&[3, 4])), value("2", 9), left("2")];
    let [first, second] = corresponding(&mirrored(&uneven(), &touches));
    assert_eq!(answers(&first), [0, 0, 0, 0, 9]);
    assert_eq!(first[0].value, None);
    assert_eq!(first[1].value, Some(padded(&[1, 2, 8])));
    assert_eq!(second[1].value, Some(padded(&[8, 1, 2])));
    assert_eq!(first[3].value, Some(padded(&[3, 4, 9])));
    assert_eq!(second[3].value, Some(padded(&[9, 3, 4])));
    assert_eq!(paths(&first[0]), ["1 1", "2 3", "2 4"]);
    assert_eq!(paths(&second[0]), ["1 3", "1 4", "2 1"]);
}

#[test]
fn blocks_of_the_list_change_places_with_their_first_marks() {
    let touches = [value("112", 1), value("12", 2), go_on("2"), value("111", 3), value("211", 3)];
    let [first, second] = corresponding(&mirrored(&nested(), &touches));
    assert_eq!(answers(&first), [0, 0, 0, 0, 0, 9]);
    assert_eq!(paths(&first[0]), ["111 1", "112 1", "12 1", "2 1", "2 2"]);
    assert_eq!(paths(&second[0]), ["1 1", "1 2", "211 1", "212 1", "22 1"]);
    assert_eq!(second[4].value, Some(padded(&[6, 3, 1, 2])));
}

/// Every event has a counterpart, with the same number; so have those that are cut short.
#[test]
fn refused_touches_have_counterparts() {
    let mut touches = Vec::new();
    let texts = ["", "1", "2", "3", "13", "1 2", "00", "01", "10", "12 ", "x", "-1", "21", "1212121212121212", "\t1"];
    for path in texts {
        touches.extend([value(path, 5), go_on(path), event::write(path, 7, padded(&[]))]);
    }
    touches.push(vec![b' '; EVENT - 1]);
    touches.last_mut().expect("one").push(b'\n');
    for length in [1, 2, 3, 17, 18, 19, 69, 115, 116] {
        let touches = [&touches[..], &[value("1", 5)[..length].to_vec()]].concat();
        let [first, second] = corresponding(&mirrored(&uneven(), &touches));
        assert_eq!(answers(&first), answers(&second));
        assert_eq!(answers(&first).iter().filter(|&&answer| answer == 0).count(), 2);
        assert!([8, 9].iter().all(|ground| answers(&first).contains(ground)));
        assert_eq!(first.last().map(|screen| screen.answer), Some(8));
    }
    assert_eq!(mirrored_event(b" 1  1", Reading::AsMeant), b" 1  2");
    assert_eq!(mirrored_event(b" 1", Reading::AsMeant), b" 1");
    assert_eq!(mirrored_event(b"", Reading::AsMeant), b"");
}

#[test]
fn a_start_beyond_the_range_is_so_on_both() {
    for exchanged in [false, true] {
        let mut sheet = numbers();
        let (most, one) = (sheet.row(22, i32::MAX, 0, 0), sheet.row(22, 1, 0, 0));
        let sum = sheet.row(24, 1, most, one);
        let (beyond, empty) = (sheet.row(49, sum, 0, 0), sheet.empty());
        let (a, b) = if exchanged { (empty, beyond) } else { (beyond, empty) };
        sheet.row(46, a, b, 0);
        let pair = mirrored(&sheet, &[value("1", 1), value("2", 1)]);
        assert!(pair.fails_whole);
        let [first, _] = corresponding(&pair);
        assert_eq!(answers(&first), [0, 9, 9]);
        assert!(first.iter().all(|screen| screen.failing && screen.entries.is_empty()));
    }
}

/// An editor of a cell beside a step that goes on where the cell is 1: what one half does shows in the other.
fn talking(cells: [i32; 2]) -> Sheet {
    let mut sheet = numbers();
    let (other, cell) = (sheet.row(10, 0, cells[0], 0), sheet.row(10, 0, cells[1], 0));
    let shared = sheet.row(42, cell, 0, 0);
    let read = sheet.row(29, cell, 0, 0);
    let then = sheet.filled_if(read, 1, 5);
    let from = sheet.row(42, other, 0, 0);
    let step = sheet.row(43, from, then, 0);
    sheet.row(46, shared, step, 0);
    sheet
}

#[test]
fn halves_may_depend_on_each_other() {
    let [first, second] = corresponding(&mirrored(&talking([3, 0]), &[value("1", 2), value("1", 1), value("2", 4)]));
    assert_eq!(first.iter().map(|screen| screen.strides).collect::<Vec<_>>(), [1, 1, 2, 1]);
    assert_eq!((first[1].value, first[2].value), (None, Some(padded(&[1, 5]))));
    assert_eq!(second[3].value, Some(padded(&[4, 1])));
}

/// With writes, the half that comes second has the last word.
#[test]
fn with_writes_the_mirrored_sheet_differs() {
    let mut sheet = numbers();
    let cell = sheet.row(10, 0, 0, 0);
    let [one, two] = [1, 2].map(|number| sheet.writing(cell, number, |sheet| sheet.row(42, cell, 0, 0)));
    sheet.row(46, one, two, 0);
    let pair = mirrored(&sheet, &[]);
    let [first, second] = printed(&pair, Rules::default()).map(|screens| read_screens(&screens));
    assert_eq!((first[0].value, second[0].value), (Some(padded(&[2, 2])), Some(padded(&[1, 1]))));
    assert!(difference(&pair).is_some() && pair.states_differ() == Some(0));
}

/// 16 marks: the first of them is exchanged, and the path is not longer.
#[test]
fn mirrored_paths_of_16_marks() {
    let mut sheet = numbers();
    let mut task = sheet.empty();
    for _ in 0..15 {
        let other = sheet.empty();
        task = sheet.row(47, other, task, 0);
    }
    let other = sheet.empty();
    sheet.row(46, other, task, 0);
    let deepest = "2222222222222222";
    let [first, second] = corresponding(&mirrored(&sheet, &[value("2222222222222221", 1), value("2", 4)]));
    assert!(paths(&first[0]).contains(&format!("{deepest} 1")));
    assert_eq!(paths(&second[0])[15], "1222222222222222 1");
    assert_eq!(answers(&second), [0, 0, 0]);
}

/// Rows of kind 50 in the halves (CR 6): answers, each role's list and the touches left correspond.
#[test]
fn roles_and_touches() {
    let mut sheet = numbers();
    let (one, two) = (sheet.empty(), sheet.empty());
    let counter = sheet.gate(2, two, 1);
    let both = sheet.row(46, one, counter, 0);
    let (filled, then) = (sheet.filled(5), sheet.shown(6));
    let step = sheet.row(44, filled, then, 0);
    let customer = sheet.gate(1, step, 2);
    sheet.row(46, both, customer, 0);
    let touches = [
        by(1, value("12", 7)),
        by(2, value("12", 7)),
        by(2, value("12", 8)),
        by(3, value("11", 9)),
        by(2, go_on("2")),
        value("2", 4),
        go_on("2"),
        go_on("2"),
        by(9, go_on("2")),
    ];
    let [first, second] = corresponding(&mirrored(&sheet, &touches));
    assert_eq!(answers(&first), [0, 30, 0, 31, 0, 30, 0, 0, 9, 8]);
    // After 30 the screen is role 1's, then role 2's; after a bad role it is role 1's again.
    let lists = |screens: &[Screen]| screens.iter().map(paths).collect::<Vec<_>>();
    assert_eq!(lists(&first)[..3], [vec!["11 1", "2 1", "2 2"], vec!["11 1", "2 1", "2 2"], vec!["11 1"]]);
    assert_eq!(lists(&second)[..3], [vec!["1 1", "1 2", "21 1"], vec!["1 1", "1 2", "21 1"], vec!["21 1"]]);
    assert_eq!(second[8].value, Some(padded(&[6, 9, 7])));
}

/// The pairs that are generated: no writes where none are meant, and a last row as asked.
#[test]
fn generated_pairs() {
    let has_writes = |text: &[u8]| {
        let rows = sheet::read(text, Slip::None).expect("read");
        rows.iter().any(|row| row.kind == 30)
    };
    for (of, last) in Of::ALL.into_iter().zip([46, 47, 46, 47]) {
        let pairs: Vec<Pair> = of.pairs(1, 200, Reading::AsMeant).collect();
        for sheet in pairs.iter().flat_map(|pair| &pair.sheets) {
            assert_eq!(sheet::read(sheet, Slip::None).expect("read").last().map(|row| row.kind), Some(last));
        }
        let writes: Vec<bool> = pairs.iter().map(|pair| has_writes(&pair.sheets[0])).collect();
        match of {
            Of::Mirrored => assert!(!writes.contains(&true)),
            Of::MirroredWrites => assert!(writes.iter().filter(|&&writes| writes).count() > 100),
            _ => {
                assert!(writes.iter().step_by(2).all(|&writes| !writes));
                assert!(writes.iter().filter(|&&writes| writes).count() > 30);
                let moved = |pair: &&Pair| cell_rows(&pair.sheets[0]) != cell_rows(&pair.sheets[1]);
                assert!(pairs.iter().filter(moved).count() > 100);
            }
        }
    }
}

/// The rows of a sheet's cells.
fn cell_rows(text: &[u8]) -> Vec<usize> {
    let rows = sheet::read(text, Slip::None).expect("read");
    (0..rows.len()).filter(|&at| rows[at].kind == 10).collect()
}

/// This implementation's own screens correspond, and those of the controls do not.
#[test]
fn a_report_of_this_implementation() {
    let run = |input: Vec<u8>| Ok(session::screens(&input, Rules::default()));
    let report = Report::running(run, 1, 300).expect("no program is run");
    assert_eq!(report.failures, Vec::<String>::new());
    assert_eq!(report.counts.each_ref().map(|counts| counts.differing == 0), [true, true, false, false]);
    // None is told from none: a run without pairs is no run.
    assert!(!Report::running(run, 1, 0).expect("no program is run").failures.is_empty());
}

/// A program that prints no screen but the first is found out, and so is one that refuses a sheet whose halves stand the
/// other way round: by this implementation, and by what it prints for the other sheet.
#[test]
fn a_report_of_wrong_programs() {
    let start_only = |input: Vec<u8>| {
        let sheet = &input[..COUNT + lines(&input) * LINE];
        Ok(session::screens(sheet, Rules::default()))
    };
    let one_way = |input: Vec<u8>| {
        let rows = sheet::read(&input[COUNT..][..lines(&input) * LINE], Slip::None).expect("read");
        let [a, b, _] = rows.last().expect("a row").operands;
        Ok(session::screens(if a < b { &input } else { b"" }, Rules::default()))
    };
    for report in [Report::running(start_only, 1, 20), Report::running(one_way, 1, 20)] {
        let failures = report.expect("no program is run").failures;
        let (against, between): (Vec<&String>, Vec<&String>) =
            failures.iter().partition(|told| told.contains("against this implementation"));
        assert!(!against.is_empty() && between.iter().any(|told| told.contains("Mirrored ")));
    }
}

fn lines(input: &[u8]) -> usize {
    String::from_utf8_lossy(&input[..COUNT]).trim().parse().expect("a row count")
}

/// Each wrong reading of CR 5 is found out by generated pairs, though the screens are right.
#[test]
fn wrong_readings_are_found() {
    let readings = Reading::WRONG_OF_MIRRORED.map(|reading| (Of::Mirrored, reading));
    let others = Reading::WRONG_OF_REGROUPED.map(|reading| (Of::Regrouped, reading));
    for (of, reading) in readings.into_iter().chain(others) {
        let found = of.pairs(2, 400, reading).filter(|pair| difference(pair).is_some()).count();
        assert!(found >= 10, "{reading:?} is found by {found} pairs");
    }
    for reading in Reading::WRONG_OF_MIRRORED {
        let touches = [value("2", 9), right("2"), value("12", 4)].concat();
        let found =
            [uneven(), nested()].map(|sheet| Pair::mirrored(&sheet.text(), &touches, reading).expect("accepted"));
        assert!(found.iter().any(|pair| difference(pair).is_some()), "{reading:?}");
    }
}

/// Some slips of an engine show between its own screens of a pair. When the choice is made, which regrouped pairs ask, is told
/// by the true rules.
#[test]
fn slips_that_pairs_tell() {
    let slips = [
        (Of::Mirrored, Slip::MarkMissing),
        (Of::Mirrored, Slip::RightPartShownFirst),
        (Of::Mirrored, Slip::LeavesSwapped),
        (Of::Regrouped, Slip::RightNeverChosen),
        (Of::Regrouped, Slip::ChosenKeepsMark),
        (Of::Regrouped, Slip::MarksExchangedInHandling),
        (Of::Regrouped, Slip::WritesFirstCell),
        (Of::Regrouped, Slip::OneStride),
    ];
    for (of, slip) in slips {
        let differs = |pair: &Pair| {
            let [first, second] = printed(pair, Rules::slipping(slip));
            pair.difference(&first, &second).is_some()
        };
        assert!(of.pairs(3, 300, Reading::AsMeant).any(|pair| differs(&pair)), "{slip:?}");
    }
}

/// The example: the sheets, the touches and the screens of the two shops correspond.
#[test]
fn the_example_corresponds() {
    let read = |name: &str| fs::read(format!("../examples/counter-{name}")).expect("an example");
    let [right, left] = ["right.session", "left.session"].map(read);
    let (sheet, events) = right[COUNT..].split_at(lines(&right) * LINE);
    let pair = Pair::mirrored(sheet, events, Reading::AsMeant).expect("accepted");
    assert_eq!(pair.inputs(), [right.clone(), left]);
    assert_eq!(pair.difference(&read("right.screens"), &read("left.screens")), None);
    assert_eq!(mirrored_sheet(&mirrored_sheet(sheet)), sheet);
}
