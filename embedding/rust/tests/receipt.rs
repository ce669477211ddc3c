//! The export that prices orders (CR 7), on lent memory of every kind, right and wrong in length and content, against the
//! second implementation: the number, the total, written at every call, and that nothing else is written; the safe calls;
//! and values as look shows them.
//!
//! NANNYJIFFY_SEED and NANNYJIFFY_COUNT set another seed and another number of inputs.

mod common;

use common::any_memory::{bytes, words, MOST_BYTES, MOST_WORDS};
use common::{set, Archive, Calls};
use nannyjiffy::{calls, Flow, Ground, Rest, Role};
use nannyjiffy::{MAX_COPIES, MAX_PRICE, MAX_PRICE_LINES, MAX_VALUES, PRICE_LINE_BYTES, VALUE_WORDS};
use reference::coverage::Tally;
use reference::event;
use reference::random::Random;
use reference::receipt::{self, order, price_line, value, Receipt};
use reference::receipt_inputs;
use reference::receipt_report::Report;
use reference::sheet::{self, Row};
use reference::value::padded;
use std::cell::RefCell;

const SEED: u64 = 1;
const COUNT: u64 = 5000;

/// The archive's receipts, each compared with the second implementation's and with those of the safe calls.
struct Compared {
    archive: Archive,
    tally: RefCell<Tally>,
}

impl Compared {
    fn new() -> Self {
        Compared { archive: Archive::new(), tally: RefCell::default() }
    }

    fn receipt(&self, prices: &[u8], order: &[i32]) -> Receipt {
        let answer = self.archive.receipt(prices, order);
        let input = || format!("{:?}, {order:?}", String::from_utf8_lossy(prices));
        assert_eq!(answer, receipt::receipt(prices, order), "{}", input());
        assert_eq!(answer, Calls.receipt(prices, order), "the safe calls: {}", input());
        assert!(answer.number == 0 || answer.total == 0, "{answer:?}: {}", input());
        self.tally.borrow_mut().add(answer.number as usize);
        answer
    }
}

/// The edges, whose answers are written out, generated lists and orders, and those that are priced with one copy more of
/// each value.
#[test]
fn the_export_answers_as_the_reference() {
    let (seed, count) = (set("NANNYJIFFY_SEED", SEED), set("NANNYJIFFY_COUNT", COUNT));
    let compared = Compared::new();
    let report = Report::of(|prices, order| compared.receipt(prices, order), seed, count);
    println!("seed {seed}\n{report}receipts:{}", compared.tally.borrow());
    assert!(report.is_right(), "{report}");
    assert!(report.edges > 300 && report.answers.total() as u64 == count, "{report}");
    assert!(report.rounded_up as u64 > count && report.rounded_up < report.equal, "{report}");
    for number in [0, 32, 33, 34] {
        assert!(report.answers.of(number) as u64 >= count / 20, "{report}");
    }
}

/// Memory of any length, 0 and very long ones too, and any content, in the place of the list, of the order, or of both.
#[test]
fn any_memory_is_answered() {
    let (compared, mut lengths) = (Compared::new(), [[0; 2]; 2]);
    for (at, mut input) in receipt_inputs::inputs(SEED + 1, COUNT).enumerate() {
        let random = &mut Random::of_case(SEED, at as u64);
        if at % 3 != 0 {
            input.prices = bytes(random, PRICE_LINE_BYTES);
        }
        if at % 3 != 1 {
            input.order = words(random, VALUE_WORDS);
        }
        let seen = [(input.prices.len(), MOST_BYTES), (input.order.len(), MOST_WORDS)];
        for ((length, most), [none, all]) in seen.into_iter().zip(&mut lengths) {
            (*none, *all) = (*none + u64::from(length == 0), *all + u64::from(length == most));
        }
        compared.receipt(&input.prices, &input.order);
    }
    println!("length 0, and the most: {lengths:?}; receipts:{}", compared.tally.borrow());
    assert!(lengths.iter().flatten().all(|&count| count >= COUNT / 100), "{lengths:?}");
}

/// The crate's constants are where the archive begins to refuse.
#[test]
fn constants_are_the_edges() {
    let lines = |count: usize| (0..count as i64).flat_map(|code| price_line(code, 100)).collect::<Vec<u8>>();
    assert_eq!(lines(MAX_PRICE_LINES).len(), MAX_PRICE_LINES * PRICE_LINE_BYTES);
    assert_eq!(nannyjiffy::receipt(&lines(MAX_PRICE_LINES), &[value(255, 7)]), Ok(7));
    assert_eq!(nannyjiffy::receipt(&lines(MAX_PRICE_LINES + 1), &[]), Err(Ground::Prices));
    assert_eq!(nannyjiffy::receipt(&lines(1), &vec![value(0, 1); MAX_VALUES]), Ok(64));
    assert_eq!(nannyjiffy::receipt(&lines(1), &vec![value(0, 1); MAX_VALUES + 1]), Err(Ground::Order));
    assert_eq!(nannyjiffy::receipt(&lines(1), &[value(0, MAX_COPIES)]), Ok(9999));
    assert_eq!(nannyjiffy::receipt(&lines(1), &[value(0, MAX_COPIES + 1)]), Err(Ground::Order));
    let priced = |price: i32| nannyjiffy::receipt(&price_line(7, price.into()), &[value(7, 1)]);
    assert_eq!((priced(MAX_PRICE), priced(MAX_PRICE + 1)), (Ok(100_000), Err(Ground::Prices)));
    assert_eq!(calls::receipt(&lines(1), &order(&[(0, 1)])[1..]), Err(Ground::Order));
    assert_eq!(Ground::NoPrice.to_string(), "34: a code without a price");
}

/// What look shows of two editors side by side, any code and any copies, goes into an order as it is: it is 33 by the range
/// of its copies alone.
#[test]
fn values_that_look_shows() {
    let rows = [Row::new(3, 0, 0, 0), Row::new(41, 0, 0, 0), Row::new(41, 0, 0, 0), Row::new(46, 1, 2, 0)];
    let flow = Flow::load(&sheet::write(&rows)).expect("accepted");
    let mut rest = Rest::start(&flow);
    let random = &mut Random::new(SEED);
    let mut tally = Tally::default();
    for at in 0..COUNT {
        let copies = if at % 2 == 0 { random.between(-2, 10_001) } else { random.word() };
        for (path, leaf) in [("1", random.draw() as i32), ("2", copies)] {
            rest.handle(&event::write(path, 1, padded(&[leaf]))).expect("taken");
        }
        let shown = rest.look(Role::FIRST).value.expect("both are given");
        let expected = if (0..=9999).contains(&copies) { Ok(copies as u64) } else { Err(Ground::Order) };
        assert_eq!(nannyjiffy::receipt(&price_line(shown[0].into(), 100), &[shown]), expected, "{shown:?}");
        assert_eq!(nannyjiffy::receipt(b"", &[shown]), expected.and(Err(Ground::NoPrice)), "{shown:?}");
        tally.add(expected.map_or_else(Ground::number, |_| 0) as usize);
    }
    assert!([0, 33].iter().all(|&number| tally.of(number) as u64 > COUNT / 10), "{tally}");
}
