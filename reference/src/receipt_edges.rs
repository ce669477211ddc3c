//! Price lists and orders at the edges of CR 7 and beside them, each with the answer that it must get. The answers are
//! written out: [`receipt`](crate::receipt::receipt) is not asked.

use crate::limits::LEAVES;
use crate::receipt::{order, price_line, price_list, Receipt, PRICE_LINE, PRICE_LINES};

/// What is lent to be priced, and what that answers.
#[derive(Clone, Debug, PartialEq, Eq)]
pub struct Edge {
    pub name: String,
    pub prices: Vec<u8>,
    pub order: Vec<i32>,
    pub answer: Receipt,
}

/// All of them, each with a name of its own.
pub fn edges() -> Vec<Edge> {
    [totals(), beyond_32_bits(), ranges(), unpriced(), fields(), lengths(), counts(), words(), repeated(), pairs()]
        .concat()
}

fn priced(name: &str, lines: &[(i64, i64)], values: &[(i32, i32)], total: u64) -> Edge {
    let answer = Receipt { number: 0, total };
    Edge { name: name.to_string(), prices: price_list(lines), order: order(values), answer }
}

fn refused(name: impl Into<String>, prices: Vec<u8>, order: Vec<i32>, number: u32) -> Edge {
    Edge { name: name.into(), prices, order, answer: Receipt { number, total: 0 } }
}

/// Rounded half up, once at the end.
fn totals() -> Vec<Edge> {
    vec![
        priced("no line and no value", &[], &[], 0),
        priced("a line and no value", &[(7, 50)], &[], 0),
        priced("1 copy at 49", &[(7, 49)], &[(7, 1)], 0),
        priced("1 copy at 50", &[(7, 50)], &[(7, 1)], 1),
        priced("1 copy at 51", &[(7, 51)], &[(7, 1)], 1),
        priced("1 copy at 149", &[(7, 149)], &[(7, 1)], 1),
        priced("1 copy at 150", &[(7, 150)], &[(7, 1)], 2),
        priced("49 and 1", &[(7, 49), (8, 1)], &[(7, 1), (8, 1)], 1),
        priced("25 and 25 of one code", &[(7, 25)], &[(7, 1), (7, 1)], 1),
        priced("50 and 50", &[(7, 50), (8, 50)], &[(8, 1), (7, 1)], 1),
        priced("49 and 0", &[(7, 49), (8, 1)], &[(7, 1), (8, 0)], 0),
        priced("49 copies at 1", &[(7, 1)], &[(7, 49)], 0),
        priced("50 copies at 1", &[(7, 1)], &[(7, 50)], 1),
        priced("99 copies at 1", &[(7, 1)], &[(7, 99)], 1),
        priced("3 copies at 250 and 2 at 1999", &[(-5, 1999), (7, 250)], &[(7, 3), (-5, 2)], 47),
        priced("2 at 1999 and 3 copies at 250", &[(-5, 1999), (7, 250)], &[(-5, 2), (7, 3)], 47),
        priced("147, 2 and 49", &[(7, 49), (8, 1)], &[(7, 3), (8, 2), (7, 1)], 2),
        priced("49, 2 and 147", &[(7, 49), (8, 1)], &[(7, 1), (8, 2), (7, 3)], 2),
    ]
}

/// Sums and totals at the ends of 31 and 32 bits, and the most that there is.
fn beyond_32_bits() -> Vec<Edge> {
    let dear = [(7, 9_999_999)];
    vec![
        priced("2^31 hundredths", &[(7, 1_048_576)], &[(7, 2048)], 21_474_836),
        priced("2^32 hundredths", &[(7, 1_048_576)], &[(7, 4096)], 42_949_673),
        priced("2^31 cents", &[(7, 5_242_880)], &[(7, 8192); 5], 2_147_483_648),
        priced("2^32 cents", &[(7, 5_242_880)], &[(7, 8192); 10], 4_294_967_296),
        priced("1 value of the most", &dear, &[(7, 9999)], 999_899_900),
        priced("43 values of the most", &dear, &[(7, 9999); 43], 42_995_695_700),
        priced("63 values of the most", &dear, &[(7, 9999); 63], 62_993_693_701),
        priced("64 values of the most", &dear, &[(7, 9999); 64], 63_993_593_601),
    ]
}

/// Codes, prices and copies at the ends of their ranges and beyond.
fn ranges() -> Vec<Edge> {
    let mut edges = vec![
        priced("0 copies", &[(7, 9_999_999)], &[(7, 0)], 0),
        priced("9999 copies", &[(7, 1)], &[(7, 9999)], 100),
        priced("price 0", &[(7, 0)], &[(7, 9999)], 0),
        priced("price 9999999", &[(7, 9_999_999)], &[(7, 1)], 100_000),
        priced("least code", &[(-2_147_483_648, 300)], &[(-2_147_483_648, 1)], 3),
        priced("greatest code", &[(2_147_483_647, 300)], &[(2_147_483_647, 1)], 3),
        priced("code -1", &[(-1, 300)], &[(-1, 1)], 3),
        priced("code 0", &[(0, 300)], &[(0, 1)], 3),
    ];
    let ends = [(0, 100), (-2_147_483_648, 200), (2_147_483_647, 400), (-1, 800)];
    edges.extend([
        priced("code 0 of four", &ends, &[(0, 1)], 1),
        priced("the least of four", &ends, &[(-2_147_483_648, 1)], 2),
        priced("the greatest of four", &ends, &[(2_147_483_647, 1)], 4),
        priced("code -1 of four", &ends, &[(-1, 1)], 8),
    ]);
    for copies in [-1, 10_000, 10_001, i32::MIN, i32::MAX] {
        edges.push(refused(format!("{copies} copies"), price_list(&[(7, 1)]), order(&[(7, copies)]), 33));
        edges.push(refused(format!("{copies} copies at 0"), price_list(&[(7, 0)]), order(&[(7, 1), (7, copies)]), 33));
    }
    for price in [-1, 10_000_000, -2_147_483_648, 2_147_483_647, 2_147_483_648] {
        edges.push(refused(format!("price {price}"), price_line(7, price), order(&[(7, 1)]), 32));
        edges.push(refused(format!("price {price}, no value"), price_list(&[(8, 1), (7, price)]), Vec::new(), 32));
    }
    for code in [2_147_483_648, -2_147_483_649, 999_999_999_999] {
        edges.push(refused(format!("code {code}"), price_line(code, 1), Vec::new(), 32));
    }
    edges
}

/// Codes that no line has: also of 0 copies, and 0, in whose place no line stands.
fn unpriced() -> Vec<Edge> {
    let list = price_list(&[(7, 100), (-8, 200)]);
    let mut edges = vec![
        refused("no line, 0 copies", Vec::new(), order(&[(7, 0)]), 34),
        refused("no line, 1 copy of 0", Vec::new(), order(&[(0, 1)]), 34),
        refused("0 copies of 9, after others", list.clone(), order(&[(7, 1), (-8, 1), (9, 0)]), 34),
    ];
    for code in [0, 8, -7, 6, 70, i32::MIN, i32::MAX] {
        edges.push(refused(format!("no price for {code}"), list.clone(), order(&[(code, 1)]), 34));
        edges.push(refused(format!("no price for {code}, then 7"), list.clone(), order(&[(code, 1), (7, 1)]), 34));
    }
    for values in [3, 64] {
        for place in [0, values / 2, values - 1] {
            let mut full = vec![(7, 1); values];
            full[place] = (9, 1);
            edges.push(refused(format!("no price for value {place} of {values}"), list.clone(), order(&full), 34));
        }
    }
    edges
}

/// Texts that are no field in each place of a line, the second of three, and its end; a blank is no field here (CR 2).
fn fields() -> Vec<Edge> {
    let texts = [
        "",
        "-0",
        "00",
        "05",
        "-05",
        "+5",
        "5 ",
        "5 5",
        "-",
        "- 5",
        "--5",
        "5-",
        "5x",
        "5.",
        "\t5",
        "\t",
        "5\t",
        "\0",
        "5\0",
        "\n5",
        "2147483648",
        "-2147483649",
    ];
    let among = |line: String| [price_line(1, 100), line.into_bytes(), price_line(3, 100)].concat();
    let wrong = |name: String, line: String| refused(name, among(line), order(&[(1, 1)]), 32);
    let mut edges = Vec::new();
    for text in texts {
        edges.push(wrong(format!("code {text:?}"), format!("{text:>12}{:>12}\n", 100)));
        edges.push(wrong(format!("price {text:?}"), format!("{:>12}{text:>12}\n", 2)));
    }
    for end in ["\r", " ", "\0", "0", "\u{b}", "\t"] {
        edges.push(wrong(format!("{end:?} for byte 10"), format!("{:>12}{:>12}{end}", 2, 100)));
    }
    edges.push(wrong("all blank".to_string(), format!("{:>24}\n", "")));
    edges.push(wrong("one column to the left".to_string(), format!("{:>11}{:>12} \n", 2, 100)));
    edges
}

/// Texts that are no whole number of lines, or that are one only by their length.
fn lengths() -> Vec<Edge> {
    let line = price_line(7, 100);
    let two = [price_line(8, 100), line.clone()].concat();
    let mut edges = Vec::new();
    for length in (1..PRICE_LINE).chain(PRICE_LINE + 1..2 * PRICE_LINE) {
        edges.push(refused(format!("{length} bytes of two lines"), two[..length].to_vec(), Vec::new(), 32));
    }
    let added = |name: &str, end: &str| refused(name, [&line[..], end.as_bytes()].concat(), order(&[(7, 1)]), 32);
    edges.extend([
        added("a second byte 10", "\n"),
        added("a space after the line", " "),
        added("a word behind", "end\n"),
    ]);
    // 25 lines of 24 or 26 bytes are 24 or 26 lines of 25.
    let many =
        |end: &str| (0..25).flat_map(|code| format!("{code:>12}{:>12}{end}", 100).into_bytes()).collect::<Vec<u8>>();
    edges.extend([
        refused("byte 13 before byte 10", [&line[..PRICE_LINE - 1], b"\r\n"].concat(), order(&[(7, 1)]), 32),
        refused("25 lines with byte 13", many("\r\n"), order(&[(7, 1)]), 32),
        refused("25 lines without byte 10", many(""), order(&[(7, 1)]), 32),
    ]);
    edges
}

/// Lines 0 to `lines` - 1; the price is the code and 1.
fn counted(lines: i64) -> Vec<u8> {
    (0..lines).flat_map(|code| price_line(code, code + 1)).collect()
}

/// 256 lines and 64 values, and one more of each.
fn counts() -> Vec<Edge> {
    let most: Vec<(i64, i64)> = (0..256).map(|code| (code, code + 1)).collect();
    let last: Vec<(i32, i32)> = (192..256).map(|code| (code, 100)).collect();
    let mut edges = vec![
        priced("256 lines, no value", &most, &[], 0),
        priced("the first of 256 lines", &most, &[(0, 100)], 1),
        priced("the last of 256 lines", &most, &[(255, 100)], 256),
        priced("256 lines, 64 values", &most, &last, 14_368),
        refused("256 lines, none of 256", counted(256), order(&[(256, 1)]), 34),
        refused("256 lines, 65 values", counted(256), order(&[(255, 100); 65]), 33),
    ];
    for lines in [257, 258, 512] {
        edges.push(refused(format!("{lines} lines"), counted(lines), order(&[(0, 1)]), 32));
        edges.push(refused(format!("{lines} lines, no value"), counted(lines), Vec::new(), 32));
    }
    for values in [65, 66, 128, 256] {
        edges.push(refused(format!("{values} values"), price_line(7, 1), order(&vec![(7, 1); values]), 33));
        edges.push(refused(format!("{values} values of 0 copies"), price_line(7, 1), order(&vec![(7, 0); values]), 33));
    }
    edges
}

/// Words that are no whole number of values, and words after the first two that are not 0.
fn words() -> Vec<Edge> {
    let list = price_list(&[(0, 100), (7, 100)]);
    let mut edges = Vec::new();
    for length in [1, 2, 4, 7, 9, 15, 17, 505, 511, 513, 519, 521] {
        let words = order(&vec![(7, 1); 66])[..length].to_vec();
        edges.push(refused(format!("{length} words"), list.clone(), words, 33));
        edges.push(refused(format!("{length} words of 0"), list.clone(), vec![0; length], 33));
    }
    for (at, not_0) in (2..LEAVES).flat_map(|at| [(at, 1), (at, -1), (at, i32::MIN)]) {
        for (name, values, value) in [("the only value", 1, 0), ("the first of 64", 64, 0), ("the last of 64", 64, 63)]
        {
            let mut words = order(&vec![(7, 1); values]);
            words[value * LEAVES + at] = not_0;
            edges.push(refused(format!("{not_0} in word {} of {name}", at + 1), list.clone(), words, 33));
        }
    }
    let mut wrong = order(&[(7, 1); 64]);
    wrong[1] = -1;
    wrong.push(0);
    edges.push(refused("513 words and -1 copies", list, wrong, 33));
    edges
}

/// Two lines of one code, with one price and with two; whether an order names it or not.
fn repeated() -> Vec<Edge> {
    let lists: [(&str, &[(i64, i64)]); 6] = [
        ("one price", &[(7, 100), (7, 100)]),
        ("two prices", &[(7, 100), (7, 200)]),
        ("others between", &[(7, 100), (8, 100), (9, 100), (7, 100)]),
        ("the last two", &[(8, 100), (7, 200), (7, 100)]),
        ("code 0", &[(7, 100), (0, 0), (0, 0)]),
        ("the least code", &[(-2_147_483_648, 100), (7, 100), (-2_147_483_648, 100)]),
    ];
    let mut edges = Vec::new();
    for (name, lines) in lists {
        for (ordered, values) in [("named", vec![(7, 1)]), ("no value", Vec::new())] {
            edges.push(refused(format!("repeated, {name}, {ordered}"), price_list(lines), order(&values), 32));
        }
    }
    for (first, second) in [(0, 255), (0, 1), (254, 255), (100, 200)] {
        let mut list = counted(PRICE_LINES as i64);
        list.copy_within(first * PRICE_LINE..(first + 1) * PRICE_LINE, second * PRICE_LINE);
        edges.push(refused(format!("lines {first} and {second} of 256 are one"), list, order(&[(50, 1)]), 32));
    }
    edges
}

/// Lists that get 32, with the fault in the first line, the last, or in all.
fn wrong_lists() -> [(&'static str, Vec<u8>); 7] {
    let blank = format!("{:>24}\n", "").into_bytes();
    [
        ("first line blank", [&blank[..], &price_line(2, 200)].concat()),
        ("last line blank", [&price_line(1, 100), &blank[..]].concat()),
        ("price -1", price_list(&[(1, -1), (2, 200)])),
        ("price 10000000", price_list(&[(1, 100), (2, 10_000_000)])),
        ("repeated", price_list(&[(1, 100), (2, 200), (1, 100)])),
        ("257 lines", counted(257)),
        ("a byte more", [&price_line(1, 100)[..], b" "].concat()),
    ]
}

/// Orders that get 33 by a list of the codes 1 and 2.
fn wrong_orders() -> [(&'static str, Vec<i32>); 5] {
    let mut third_word = order(&[(1, 1), (2, 1)]);
    third_word[LEAVES + 2] = 1;
    [
        ("first 10000 copies", order(&[(1, 10_000), (2, 1)])),
        ("last -1 copies", order(&[(1, 1), (2, -1)])),
        ("third word", third_word),
        ("65 values", order(&[(1, 1); 65])),
        ("17 words", [&order(&[(1, 1), (2, 1)])[..], &[0]].concat()),
    ]
}

/// Each two grounds and all three, in either place: 32 before 33 before 34.
fn pairs() -> Vec<Edge> {
    let no_price = order(&[(1_000_000, 1)]);
    let mut edges = Vec::new();
    for (list_name, list) in wrong_lists() {
        for (name, words) in wrong_orders() {
            let all = [&no_price[..], &words].concat();
            edges.push(refused(format!("{list_name} and {name}"), list.clone(), words, 32));
            edges.push(refused(format!("{list_name}, {name} and no price"), list.clone(), all, 32));
        }
        edges.push(refused(format!("{list_name} and no price"), list.clone(), no_price.clone(), 32));
        edges.push(refused(format!("{list_name}, then no price"), list.clone(), order(&[(2, 1), (1_000_000, 0)]), 32));
    }
    for (name, words) in wrong_orders() {
        let list = price_list(&[(1, 100), (2, 200)]);
        edges.push(refused(format!("no price, then {name}"), list.clone(), [&no_price[..], &words].concat(), 33));
        edges.push(refused(format!("{name}, then no price"), list, [&words[..], &no_price].concat(), 33));
        edges.push(refused(format!("no line and {name}"), Vec::new(), words, 33));
    }
    edges.push(refused("no price and 10000 copies in one", price_line(1, 100), order(&[(1_000_000, 10_000)]), 33));
    edges
}
