//! Price lists and orders from a seed (CR 7), right and wrong: in most nothing is wrong, in others one thing or two, so
//! that the order of the grounds shows. What is broken stays right now and then by chance.

use crate::generate::touches::{put, NO_FIELDS};
use crate::limits::LEAVES;
use crate::random::Random;
use crate::receipt::{
    price_line, price_list, value, CODE_COLUMNS, COPIES, PRICES, PRICE_COLUMNS, PRICE_LINE, PRICE_LINES, VALUES,
};
use std::collections::BTreeSet;

/// A price list and an order, as they are lent.
#[derive(Clone, Debug, PartialEq, Eq)]
pub struct Input {
    pub prices: Vec<u8>,
    pub order: Vec<i32>,
}

/// Inputs 0 to `count` - 1 under a seed. Each follows from the seed and its own number.
pub fn inputs(seed: u64, count: u64) -> impl Iterator<Item = Input> {
    (0..count).map(move |at| input(&mut Random::of_case(seed, at)))
}

/// The same order with one copy more of value `k`, where it has under 9999.
pub fn one_copy_more(order: &[i32], k: usize) -> Option<Vec<i32>> {
    let at = k * LEAVES + 1;
    let copies = *order.get(at)?;
    let mut more = order.to_vec();
    more[at] = copies.checked_add(1)?;
    (COPIES.contains(&copies) && COPIES.contains(&more[at])).then_some(more)
}

/// The same values, the last one first. What is left over after whole values, if anything, comes before them.
pub fn turned(order: &[i32]) -> Vec<i32> {
    order.chunks(LEAVES).rev().flatten().copied().collect()
}

fn input(random: &mut Random) -> Input {
    let mut input = right(random);
    for _ in 0..random.weighed(&[(12, 0), (5, 1), (4, 2)]) {
        match random.weighed(&[(5, 32), (4, 33), (3, 34)]) {
            32 => break_prices(random, &mut input.prices),
            33 => break_order(random, &mut input.order),
            _ => break_codes(random, &mut input),
        }
    }
    input
}

/// A list of different codes in any order, and an order of them.
fn right(random: &mut Random) -> Input {
    let codes = some_codes(random);
    let lines: Vec<(i64, i64)> = codes.iter().map(|&code| (code.into(), some_price(random).into())).collect();
    let values = if codes.is_empty() { 0 } else { some_number(random, VALUES) };
    // Of a few codes, or of any.
    let drawn = if random.chance(30) { codes.len().min(3) } else { codes.len() };
    let order = (0..values).flat_map(|_| value(codes[random.below(drawn)], some_copies(random)));
    Input { order: order.collect(), prices: price_list(&lines) }
}

/// A number of lines or values: mostly few, now and then none, the most, or about that.
fn some_number(random: &mut Random, most: usize) -> usize {
    match random.below(20) {
        0 => 0,
        1 => most,
        2 => most - 1 - random.below(3),
        3..=6 => random.below(most + 1),
        _ => 1 + random.below(8),
    }
}

fn some_codes(random: &mut Random) -> Vec<i32> {
    let number = some_number(random, PRICE_LINES);
    let mut codes = BTreeSet::new();
    while codes.len() < number {
        codes.insert(some_code(random));
    }
    let mut codes: Vec<i32> = codes.into_iter().collect();
    codes.sort_by_cached_key(|_| random.draw());
    codes
}

fn some_code(random: &mut Random) -> i32 {
    match random.below(8) {
        0 => *random.pick(&[i32::MIN, i32::MIN + 1, -1, 0, 1, i32::MAX - 1, i32::MAX]).expect("codes"),
        1 => random.draw() as i32,
        2 => random.between(-300, 0),
        _ => random.between(1, 400),
    }
}

fn some_price(random: &mut Random) -> i32 {
    match random.below(8) {
        0..=1 => *random.pick(&[0, 1, 49, 50, 51, 99, 100, 9_999_998, 9_999_999]).expect("prices"),
        2..=4 => random.between(0, 300),
        _ => random.between(*PRICES.start(), *PRICES.end()),
    }
}

fn some_copies(random: &mut Random) -> i32 {
    match random.below(8) {
        0..=1 => *random.pick(&[0, 1, 49, 50, 9998, 9999]).expect("copies"),
        2..=4 => random.between(0, 20),
        _ => random.between(*COPIES.start(), *COPIES.end()),
    }
}

/// The bytes of a line, which is added where there is none.
fn some_line<'p>(random: &mut Random, prices: &'p mut Vec<u8>) -> &'p mut [u8] {
    if prices.len() < PRICE_LINE {
        prices.splice(.., price_line(some_code(random).into(), some_price(random).into()));
    }
    let at = PRICE_LINE * random.below(prices.len() / PRICE_LINE);
    &mut prices[at..at + PRICE_LINE]
}

/// Breaks a list near ground 32.
fn break_prices(random: &mut Random, prices: &mut Vec<u8>) {
    let columns = if random.chance(50) { CODE_COLUMNS } else { PRICE_COLUMNS };
    match random.below(10) {
        0..=1 => put(&mut some_line(random, prices)[columns], random.pick(&NO_FIELDS).expect("texts")),
        2 => some_line(random, prices)[columns].fill(b' '),
        3 => some_line(random, prices)[PRICE_LINE - 1] = *random.pick(b"\r \0\t0").expect("bytes"),
        4 => {
            let at = random.below(PRICE_LINE);
            some_line(random, prices)[at] = *random.pick(b" -0123456789\n\0").expect("bytes");
        }
        5 => break_length(random, prices, PRICE_LINE, b' '),
        6 => {
            let price = random.pick(&["-1", "10000000", "10000001", "-2147483648", "2147483647"]).expect("prices");
            put(&mut some_line(random, prices)[PRICE_COLUMNS], price);
        }
        7..=8 => repeat_code(random, prices),
        _ => {
            let more = PRICE_LINES + 1 + random.below(3);
            // Codes that few other lines have.
            let mut code = random.between(10_000, 20_000).into();
            while prices.len() < more * PRICE_LINE {
                prices.extend(price_line(code, some_price(random).into()));
                code += 1;
            }
        }
    }
}

/// Writes a line's code once more, with its price or another: in another line, or behind the last.
fn repeat_code(random: &mut Random, prices: &mut Vec<u8>) {
    let mut line = some_line(random, prices).to_vec();
    if random.chance(50) {
        put(&mut line[PRICE_COLUMNS], &some_price(random).to_string());
    }
    if prices.len() < PRICE_LINES * PRICE_LINE && random.chance(70) {
        prices.extend(line);
    } else {
        some_line(random, prices).copy_from_slice(&line);
    }
}

/// Breaks an order near ground 33.
fn break_order(random: &mut Random, order: &mut Vec<i32>) {
    if order.len() < LEAVES {
        *order = value(some_code(random), some_copies(random)).to_vec();
    }
    let at = LEAVES * random.below(order.len() / LEAVES);
    match random.below(9) {
        0..=2 => order[at + 1] = *random.pick(&[-1, 10_000, 10_001, i32::MIN, i32::MAX]).expect("copies"),
        3..=5 => {
            order[at + random.between(2, LEAVES as i32 - 1) as usize] = *random.pick(&[1, -1, 256]).expect("words")
        }
        6 => order[at + random.below(LEAVES)] = random.word(),
        7 => break_length(random, order, LEAVES, 0),
        _ => {
            let more = VALUES + 1 + random.below(3);
            let (code, copies) = (order[at], order[at + 1]);
            while order.len() < more * LEAVES {
                order.extend(value(code, copies));
            }
        }
    }
}

/// Takes some of the last away, or adds some, less than one whole.
fn break_length<T: Copy>(random: &mut Random, lent: &mut Vec<T>, whole: usize, added: T) {
    let some = 1 + random.below(whole - 1);
    let by = random.weighed(&[(1, 1), (1, some), (1, whole - 1)]);
    if random.chance(50) {
        lent.truncate(lent.len().saturating_sub(by));
    } else {
        lent.resize(lent.len() + by, added);
    }
}

/// Breaks what ties the two near ground 34: a value's code, or the line that has its price.
fn break_codes(random: &mut Random, input: &mut Input) {
    if input.order.len() < LEAVES {
        input.order = value(some_code(random), some_copies(random)).to_vec();
    }
    let at = LEAVES * random.below(input.order.len() / LEAVES);
    let code = input.order[at];
    match random.below(6) {
        0 => input.order[at] = code.wrapping_add(random.between(-1, 1)),
        1 => input.order[at] = code.wrapping_neg(),
        2 => input.order[at] = 0,
        3 => input.order[at..at + 2].copy_from_slice(&[some_code(random), 0]),
        4 => input.order[at] = some_code(random),
        _ => {
            let text = format!("{code:>12}");
            let lines = input.prices.chunks(PRICE_LINE).filter(|line| !line.starts_with(text.as_bytes()));
            input.prices = lines.flatten().copied().collect();
        }
    }
}
