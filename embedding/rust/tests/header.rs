//! The header's numbers are this crate's. (That its declarations fit the exports, the example in C shows.)

use nannyjiffy::*;
use std::collections::BTreeMap;

const HEADER: &str = include_str!("../../../include/nannyjiffy.h");

const PREFIX: &str = "NANNYJIFFY_";

/// The constants of the header that are numbers, or formulas of numbers and of constants above, without their prefix.
fn constants() -> BTreeMap<&'static str, usize> {
    let mut constants = BTreeMap::new();
    for line in HEADER.lines() {
        let line = line.trim_start().trim_start_matches("#define ");
        let named = line.strip_prefix(PREFIX).and_then(|line| line.split_once(' '));
        if let Some((name, number)) = named.and_then(|(name, rest)| Some((name, reckoned(rest, &constants)?))) {
            constants.insert(name, number);
        }
    }
    constants
}

/// A sum of products, in parentheses or not, in front of a comma or a comment.
fn reckoned(text: &str, above: &BTreeMap<&str, usize>) -> Option<usize> {
    let text = text.trim_start_matches("= ").split([',', '/']).next()?.trim();
    let text = text.strip_prefix('(').and_then(|text| text.strip_suffix(')')).unwrap_or(text);
    let factor = |factor: &str| match factor.strip_prefix(PREFIX) {
        Some(name) => above.get(name).copied(),
        None => factor.parse().ok(),
    };
    let product = |product: &str| product.split(" * ").map(factor).product::<Option<usize>>();
    text.split(" + ").map(product).sum()
}

#[test]
fn sizes_are_the_same() {
    let constants = constants();
    let sizes = [
        ("MAX_ROWS", MAX_ROWS),
        ("LINE_BYTES", LINE_BYTES),
        ("MAX_LEAVES", MAX_LEAVES),
        ("EVENT_BYTES", EVENT_BYTES),
        ("ENTRY_BYTES", ENTRY_BYTES),
        ("ROW_WORDS", ROW_WORDS),
        ("STATE_WORDS", STATE_WORDS),
        ("VALUE_WORDS", VALUE_WORDS),
        ("MAX_ROLE", MAX_ROLE as usize),
        ("MAX_TOUCHES", MAX_TOUCHES as usize),
        ("PRICE_LINE_BYTES", PRICE_LINE_BYTES),
        ("MAX_PRICE_LINES", MAX_PRICE_LINES),
        ("MAX_PRICE", MAX_PRICE as usize),
        ("MAX_VALUES", MAX_VALUES),
        ("MAX_COPIES", MAX_COPIES as usize),
        ("STACK_BYTES", STACK_BYTES),
    ];
    for (name, size) in sizes {
        assert_eq!(constants.get(name), Some(&size), "{name}");
    }
    // The figures that the formulas come to.
    assert_eq!((MAX_LEAVES, EVENT_BYTES, ENTRY_BYTES, VALUE_WORDS, STATE_WORDS), (8, 117, 35, 8, 16));
    assert_eq!((MAX_ROLE, MAX_TOUCHES), (8, 99));
    assert_eq!((PRICE_LINE_BYTES, MAX_PRICE_LINES, MAX_PRICE, MAX_VALUES, MAX_COPIES), (25, 256, 9_999_999, 64, 9999));
    assert_eq!(list_bytes(MAX_ROWS), 8960);
}

#[test]
fn grounds_are_the_same() {
    let constants = constants();
    // NO_STATE is NoState.
    let camel = |name: &str| {
        let word = |word: &str| format!("{}{}", &word[..1], word[1..].to_lowercase());
        name.split('_').map(word).collect::<String>()
    };
    let grounds = (1..100).filter_map(Ground::of);
    for ground in grounds {
        let named = constants.iter().find(|(name, _)| camel(name) == format!("{ground:?}"));
        assert_eq!(named.map(|(_, &number)| number), Some(ground.number() as usize), "{ground:?}");
    }
    assert_eq!(constants["ACCEPTED"], 0);
}
