//! Failing of nested 48 over 43: asked literally it doubles with each level, by the lemma it does
//! not, and both answer alike.

mod common;

use common::*;
use reference::rules::{Asking, Rules};
use reference::session;

/// A 48 over a 43 over a 48 and so on, `levels` of each, with an editor or a fail at the bottom.
fn nested(levels: i32, fails: bool) -> Vec<u8> {
    let mut sheet = numbers();
    let mut task = if fails { sheet.fail() } else { sheet.empty() };
    for _ in 0..levels {
        let filled = sheet.filled(1);
        let step = sheet.row(43, filled, task, 0);
        let other = sheet.fail();
        task = sheet.row(48, step, other, 0);
    }
    let touches: Vec<Vec<u8>> = (0..levels).map(|_| left("")).chain([value("", 4)]).collect();
    input(&sheet.text(), &touches)
}

#[test]
fn both_ways_of_asking_agree_on_nested_choices() {
    for levels in 1..=9 {
        for fails in [false, true] {
            let input = nested(levels, fails);
            let literally = session::screens(&input, Rules::asking(Asking::Literally));
            assert_eq!(session::screens(&input, Rules::default()), literally);
        }
    }
}

#[test]
fn sixteen_levels_by_the_lemma() {
    let screens = read_screens(&session::screens(&nested(16, false), Rules::default()));
    assert!(screens.iter().all(|screen| screen.answer == 0));
    assert_eq!(screens.last().and_then(Screen::leaf), Some(4));
}
