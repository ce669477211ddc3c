//! The tariff on the receipt (CR 7, CR 8): the edges with their written answers, one copy more, the sums on the way, and
//! what is generated. Wrong models are in `receipt_models.rs`.

use reference::coverage::Tally;
use reference::grounds::Ground;
use reference::limits::LEAVES;
use reference::receipt::{downward, hundredths, order, price_line, price_list, receipt, value, Receipt, PRICE_LINE};
use reference::receipt_edges::edges;
use reference::receipt_inputs::{inputs, one_copy_more, turned};
use reference::receipt_report::Report;
use std::collections::BTreeSet;

const SEED: u64 = 1;
const COUNT: u64 = 6000;

#[test]
fn each_edge_gets_the_answer_written() {
    let edges = edges();
    for edge in &edges {
        assert_eq!(receipt(&edge.prices, &edge.order), edge.answer, "{}", edge.name);
    }
    let names: BTreeSet<&String> = edges.iter().map(|edge| &edge.name).collect();
    assert_eq!(names.len(), edges.len());
}

/// A list and an order of CR 7, byte for byte and word for word.
#[test]
fn a_list_and_an_order_as_they_are_lent() {
    let prices = b"          12        2550\n          -3           9\n";
    let words = [12, 3, 0, 0, 0, 0, 0, 0, -3, 1, 0, 0, 0, 0, 0, 0];
    assert_eq!(receipt(prices, &words), Receipt { number: 0, total: 77 });
    assert_eq!(price_list(&[(12, 2550), (-3, 9)]), prices);
    assert_eq!(order(&[(12, 3), (-3, 1)]), words);
    assert_eq!(price_line(-2_147_483_648, 9_999_999).len(), 25);
    assert_eq!(value(i32::MIN, 9999).len(), 8);
}

/// The bound is kept, and met with equality; one copy more at price 1 raises 49 hundredths to a cent.
#[test]
fn one_copy_more_keeps_the_bound() {
    let report = Report::of(receipt, SEED, COUNT);
    println!("{report}");
    assert!(report.is_right(), "{report}");
    assert!(report.raised > 30_000 && report.rounded_up > 10_000 && report.rounded_up < report.equal, "{report}");
    assert!(report.equal < report.raised, "{report}");
    let list = price_list(&[(7, 49), (8, 1)]);
    let words = order(&[(7, 1), (8, 0)]);
    assert_eq!(receipt(&list, &words), Receipt { number: 0, total: 0 });
    assert_eq!(receipt(&list, &one_copy_more(&words, 1).expect("under 9999")), Receipt { number: 0, total: 1 });
}

/// "List the latest print, an order's last value, at the top and add up downward" (CR 8): a sum a value, each of what the
/// last values come to by themselves.
#[test]
fn sums_go_downward() {
    let list = price_list(&[(7, 10), (8, 7), (9, 30)]);
    let sums = |values: &[(i32, i32)]| downward(&list, &order(values));
    assert_eq!(sums(&[]), Ok(vec![]));
    assert_eq!(sums(&[(8, 1)]), Ok(vec![7]));
    assert_eq!(sums(&[(7, 2), (8, 1), (9, 1)]), Ok(vec![30, 37, 57]));
    assert_eq!(sums(&[(7, 2), (8, 1), (6, 1)]), Err(Ground::NoPrice));
    for input in inputs(SEED, COUNT) {
        let Ok(sums) = downward(&input.prices, &input.order) else { continue };
        let values = input.order.len() / LEAVES;
        assert_eq!(sums.len(), values);
        for (line, sum) in sums.iter().enumerate() {
            assert_eq!(hundredths(&input.prices, &input.order[(values - 1 - line) * LEAVES..]), Ok(*sum));
        }
    }
}

#[test]
fn the_last_value_first() {
    let words = order(&[(7, 1), (8, 2), (9, 3)]);
    assert_eq!(turned(&words), order(&[(9, 3), (8, 2), (7, 1)]));
    assert_eq!(turned(&turned(&words)), words);
    assert_eq!(turned(&words[..LEAVES + 1]), [&[8][..], &words[..LEAVES]].concat());
}

/// For every remainder of a cent and every price up to three cents.
#[test]
fn one_copy_more_at_every_remainder() {
    for (before, u) in (0..100).flat_map(|before| (0..=300).map(move |u| (before, u))) {
        let list = price_list(&[(1, before), (2, u)]);
        let total = |copies| receipt(&list, &order(&[(1, 1), (2, copies)])).total;
        for copies in 0..3 {
            let raised = total(copies + 1).checked_sub(total(copies)).expect("never lower");
            assert!(raised <= (u as u64).div_ceil(100), "{u} after {before}");
        }
    }
}

#[test]
fn one_copy_more_of_a_value_under_9999() {
    let words = order(&[(7, 9998), (8, 9999), (9, -1), (9, 10_000), (9, i32::MAX)]);
    assert_eq!(one_copy_more(&words, 0), Some(order(&[(7, 9999), (8, 9999), (9, -1), (9, 10_000), (9, i32::MAX)])));
    assert!((1..6).all(|k| one_copy_more(&words, k).is_none()));
}

#[test]
fn inputs_follow_from_the_seed() {
    let all = |seed| inputs(seed, 20).collect::<Vec<_>>();
    assert_eq!(all(7), all(7));
    assert_ne!(all(7), all(8));
    assert_eq!(all(7)[..5], inputs(7, 5).collect::<Vec<_>>());
}

/// Each number is got often; priced lists and orders are of every size, from none to the most.
#[test]
fn what_is_generated() {
    let (mut answers, mut lines, mut values, mut beyond) = (Tally::default(), Tally::default(), Tally::default(), 0);
    for input in inputs(SEED, COUNT) {
        let answer = receipt(&input.prices, &input.order);
        answers.add(answer.number as usize);
        if answer.number == 0 {
            lines.add(input.prices.len() / PRICE_LINE);
            values.add(input.order.len() / LEAVES);
            beyond += usize::from(answer.total > u32::MAX.into());
        }
    }
    println!("answers:{answers}\nlines:{lines}\nvalues:{values}\nbeyond 32 bits: {beyond}");
    assert_eq!(answers.total(), [0, 32, 33, 34].map(|number| answers.of(number)).iter().sum::<usize>());
    assert!(answers.of(0) > 3000 && [32, 33, 34].iter().all(|&number| answers.of(number) > 300), "{answers}");
    assert!([0, 1, 255, 256].iter().all(|&number| lines.of(number) > 10) && lines.most() == Some(256), "{lines}");
    assert!([0, 1, 63, 64].iter().all(|&number| values.of(number) > 10) && values.most() == Some(64), "{values}");
    assert!(beyond > 100);
}
