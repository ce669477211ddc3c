//! Memory of any length, 0 and very long ones too, and any content, for the tests of the exports.

use reference::random::Random;

/// Words and bytes of a memory at most: the fence has room for them.
pub const MOST_WORDS: usize = 60_000;
pub const MOST_BYTES: usize = 4 * MOST_WORDS;

/// A length: 0, any, so many rows, lines, entries, events or values, or the most.
fn length(random: &mut Random, unit: usize, most: usize) -> usize {
    match random.below(100) {
        0..=24 => 0,
        25..=49 => random.below(3000),
        50..=97 => random.below(300) * unit,
        _ => most,
    }
}

pub fn bytes(random: &mut Random, unit: usize) -> Vec<u8> {
    let near = random.chance(50);
    let byte =
        |random: &mut Random| if near { *random.pick(b" 0123\n-\xff").expect("bytes") } else { random.draw() as u8 };
    (0..length(random, unit, MOST_BYTES)).map(|_| byte(random)).collect()
}

pub fn words(random: &mut Random, unit: usize) -> Vec<i32> {
    let near = random.chance(50);
    let word = |random: &mut Random| if near { random.word() } else { random.draw() as i32 };
    (0..length(random, unit, MOST_WORDS)).map(|_| word(random)).collect()
}
