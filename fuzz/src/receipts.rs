//! Price lists and orders (CR 7): changes of them, and what their answers show.

use crate::lent::{change_words, MOST_BYTES, MOST_WORDS};
use crate::sessions::{change_bytes, hash};
use reference::generate::touches::{put, NO_FIELDS};
use reference::limits::LEAVES;
use reference::random::Random;
use reference::receipt::{value, Receipt, CODE_COLUMNS, PRICE_COLUMNS, PRICE_LINE, PRICE_LINES, VALUES};
use reference::receipt_inputs::{self, Input};

/// An input of those in the pool, changed in one or some ways; now and then one of the second implementation's.
pub fn make(random: &mut Random, pool: &[Input]) -> Input {
    if random.chance(5) {
        return receipt_inputs::inputs(random.draw(), 1).next().expect("one");
    }
    let mut input = random.pick(pool).expect("a pool").clone();
    let other = random.pick(pool).expect("a pool");
    for _ in 0..1 + random.below(3) {
        change(random, &mut input, other);
    }
    input.prices.truncate(MOST_BYTES);
    input.order.truncate(MOST_WORDS);
    input
}

fn change(random: &mut Random, input: &mut Input, other: &Input) {
    match random.below(16) {
        0 => change_bytes(random, &mut input.prices, b" 0123456789-\n"),
        1..=3 => change_field(random, &mut input.prices),
        4..=6 => change_lines(random, &mut input.prices, &other.prices),
        7..=8 => change_words(random, &mut input.order, &other.order, LEAVES),
        9..=10 => change_copies(random, &mut input.order),
        11..=13 => order_listed(random, input),
        14 => input.order.clone_from(&other.order),
        _ => input.prices.clone_from(&other.prices),
    }
}

/// A code or a price: another number, at its edges or not, a blank, or a text that is no number.
fn change_field(random: &mut Random, prices: &mut [u8]) {
    if prices.len() < PRICE_LINE {
        return;
    }
    let at = PRICE_LINE * random.below(prices.len() / PRICE_LINE);
    let line = &mut prices[at..at + PRICE_LINE];
    let columns = if random.chance(50) { CODE_COLUMNS } else { PRICE_COLUMNS };
    match random.below(8) {
        0 => line[columns].fill(b' '),
        1 => put(&mut line[columns], random.pick(&NO_FIELDS).expect("texts")),
        2 => put(&mut line[columns], random.pick(&["-1", "0", "9999999", "10000000"]).expect("prices")),
        3..=5 => put(&mut line[PRICE_COLUMNS], &random.between(0, 9_999_999).to_string()),
        _ => put(&mut line[columns], &random.word().to_string()),
    }
}

/// A line taken out, put elsewhere once more, or taken from another list; or the lines of both.
fn change_lines(random: &mut Random, prices: &mut Vec<u8>, other: &[u8]) {
    let whole = |bytes: &[u8]| bytes.len() / PRICE_LINE;
    let to = PRICE_LINE * random.below(whole(prices) + 1);
    let from = |random: &mut Random, bytes: &[u8]| {
        let at = PRICE_LINE * random.below(whole(bytes).max(1));
        bytes[at..bytes.len().min(at + PRICE_LINE)].to_vec()
    };
    let line = if random.chance(30) { from(random, prices) } else { from(random, other) };
    match random.below(8) {
        0..=2 => drop(prices.drain(to..prices.len().min(to + PRICE_LINE))),
        3..=6 => drop(prices.splice(to..to, line)),
        _ => prices.extend_from_slice(other),
    }
}

/// The copies of a value: one more, one less, or at their edges.
fn change_copies(random: &mut Random, order: &mut [i32]) {
    if order.len() < LEAVES {
        return;
    }
    let at = LEAVES * random.below(order.len() / LEAVES) + 1;
    order[at] = match random.below(4) {
        0 => *random.pick(&[-1, 0, 9998, 9999, 10_000]).expect("copies"),
        1 => random.between(0, 9999),
        _ => order[at].wrapping_add(if random.chance(50) { 1 } else { -1 }),
    };
}

/// A value of a code that the list has, put in somewhere; now and then as many as fill an order, or one more.
fn order_listed(random: &mut Random, input: &mut Input) {
    let lines: Vec<&[u8]> = input.prices.chunks_exact(PRICE_LINE).collect();
    let Some(line) = random.pick(&lines) else { return };
    let Some(code) = std::str::from_utf8(&line[CODE_COLUMNS]).ok().and_then(|text| text.trim().parse().ok()) else {
        return;
    };
    let most = if random.chance(5) { VALUES + random.below(2) } else { 0 };
    loop {
        let to = LEAVES * random.below(input.order.len() / LEAVES + 1);
        input.order.splice(to..to, value(code, random.between(0, 9999)));
        if input.order.len() / LEAVES >= most {
            return;
        }
    }
}

/// What an answer shows: its number with how long list and order are, and how large the total is.
pub fn shown(input: &Input, answer: Receipt) -> Vec<u64> {
    // Each length about the most is one, and each number of binary digits below.
    let size = |length: usize, most: usize| match length {
        _ if length + 1 < most => u64::from(usize::BITS - length.leading_zeros()),
        _ => 100 + length.min(most + 1) as u64,
    };
    let (lines, values) = (input.prices.len() / PRICE_LINE, input.order.len() / LEAVES);
    let number = u64::from(answer.number);
    let parts = [input.prices.len() % PRICE_LINE, input.order.len() % LEAVES].map(|part| part as u64);
    vec![
        hash([number, size(lines, PRICE_LINES), size(values, VALUES), 4000]),
        hash([number, parts[0], parts[1], 5000]),
        hash([number, u64::from(u64::BITS - answer.total.leading_zeros()), size(values, VALUES), 6000]),
    ]
}

#[cfg(test)]
mod tests {
    use super::{make, shown};
    use reference::coverage::Tally;
    use reference::random::Random;
    use reference::receipt::receipt;
    use reference::receipt_inputs::inputs;
    use std::collections::HashSet;

    /// Each number is often come to, and answers that no seed has.
    #[test]
    fn what_is_made() {
        let (random, seeds) = (&mut Random::new(1), inputs(1, 50).collect::<Vec<_>>());
        let (mut tally, mut seen) = (Tally::default(), HashSet::new());
        for _ in 0..20_000 {
            let input = make(random, &seeds);
            let answer = receipt(&input.prices, &input.order);
            tally.add(answer.number as usize);
            seen.extend(shown(&input, answer));
        }
        let known: HashSet<u64> =
            seeds.iter().flat_map(|seed| shown(seed, receipt(&seed.prices, &seed.order))).collect();
        println!("{tally}, {} of {} shown anew", seen.difference(&known).count(), seen.len());
        assert!([0, 32, 33, 34].iter().all(|&number| tally.of(number) > 1000), "{tally}");
        assert!(seen.difference(&known).count() > known.len(), "{} after {}", seen.len(), known.len());
    }
}
