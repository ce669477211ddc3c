//! Eight leaves (CR 4) in sheets and sessions: types and expressions of 8 leaves and of 9, an editor of 8 mixed leaves, its
//! value passed on and taken apart, and events of four leaves and of a byte too few. Lent memory is in `wide_memory.rs`.

mod common;

use common::*;
use reference::event::{self, event_bytes, leaf_columns, with_four_leaves, without_role, ENTRY, EVENT, EVENT_BEFORE};
use reference::leaf_edges::{self, fitting, mixed, Nesting, Rows, NESTINGS};
use reference::limits::{ENCLOSING, LEAVES, LEAVES_BEFORE};
use reference::rules::Rules;
use reference::session::{self, HEAD};
use reference::slips::Slip;
use reference::syntax::Type;

fn give(path: &str, leaves: &[i32]) -> Vec<u8> {
    event::write(path, 1, padded(leaves))
}

/// The sheet of these rows.
fn sheet(rows: Rows) -> Sheet {
    Sheet(rows.0)
}

fn answers(screens: &[Screen]) -> Vec<i32> {
    screens.iter().map(|screen| screen.answer).collect()
}

/// The figures of the request, which every width is reckoned to; CR 6 puts two columns in front of an event.
#[test]
fn the_figures() {
    assert_eq!((LEAVES, EVENT, ENTRY, HEAD), (8, 117, 35, 112 + 1));
    assert_eq!((EVENT_BEFORE, event_bytes(LEAVES_BEFORE)), (115, 2 + 67));
    let line = session::screens(&input(&printed().text(), &[]), Rules::default());
    assert_eq!(line.iter().position(|&byte| byte == b'\n'), Some(112));
    assert_eq!(line.len(), HEAD + ENTRY);
    assert_eq!(value("", 12).len(), EVENT);
}

/// A type row of 8 leaves is read, one of 9 gets 6, whether an editor names it or nothing does.
#[test]
fn types() {
    for nesting in NESTINGS {
        for leaves in 1..=LEAVES + 3 {
            let of = mixed(leaves, nesting);
            assert_eq!(of.leaves(), leaves);
            let expected = if leaves <= 8 { 0 } else { 6 };
            let mut named = Rows::default();
            named.empty(&of);
            assert_eq!(loads(&sheet(named).text()), expected, "{leaves} leaves, {nesting:?}");
            let mut idle = Rows::default();
            idle.type_row(&of);
            idle.empty(&Type::Number);
            assert_eq!(loads(&sheet(idle).text()), expected, "{leaves} leaves, {nesting:?}, unnamed");
        }
    }
}

/// An expression of 9 leaves has no type: 7, by 26 and by 46, wherever the ninth leaf is. Ground 6 does not ask it.
#[test]
fn expressions() {
    for first in 1..=LEAVES {
        for second in 1..=LEAVES {
            let expected = if first + second <= 8 { 0 } else { 7 };
            let parts = [first, second].map(|leaves| (mixed(leaves, Nesting::Second), fitting(leaves)));
            let mut rows = Rows::default();
            let [a, b] = parts.each_ref().map(|(of, leaves)| rows.constant(of, &mut &leaves[..]));
            let pair = rows.add(26, a, b);
            rows.add(49, pair, 0);
            assert_eq!(loads(&sheet(rows).text()), expected, "26 of {first} and {second}");
            let mut rows = Rows::default();
            let [a, b] = parts.map(|(of, _)| rows.empty(&of));
            rows.add(46, a, b);
            assert_eq!(loads(&sheet(rows).text()), expected, "46 of {first} and {second}");
        }
    }
}

/// An empty editor of 8 mixed leaves is filled and changed; every leaf and every leaf kind is shown.
#[test]
fn an_editor_of_eight_leaves() {
    for nesting in NESTINGS {
        let mut rows = Rows::default();
        rows.empty(&mixed(LEAVES, nesting));
        let first = [11, 1, 0, 44, 55, 1, 0, i32::MIN];
        let second = [-1, 0, 0, i32::MAX, 0, 1, 0, 7];
        let screens = screens(&sheet(rows), &[give("", &first), give("", &second)]);
        assert_eq!(fitting(LEAVES), first);
        assert_eq!(answers(&screens), [0; 3]);
        assert_eq!(screens.iter().map(|screen| screen.value).collect::<Vec<_>>(), [None, Some(first), Some(second)]);
        assert!(screens.iter().all(|screen| screen.entries == ["0 1 3 2 1 3 3 2 1 3"]));
    }
}

/// Its value is passed to a step, by itself or at Continue, and taken apart by 27 and 28 down to each leaf.
#[test]
fn a_value_taken_apart() {
    let given = fitting(LEAVES);
    for nesting in NESTINGS {
        for leaf in 0..LEAVES {
            let of = mixed(LEAVES, nesting);
            let mut rows = Rows::default();
            let (editor, part) = (rows.empty(&of), rows.leaf(&of, leaf));
            let shown = rows.add(49, part, 0);
            let [by_itself, at_continue] = [43, 44].map(|kind| {
                let mut rows = rows.clone();
                rows.add(kind, editor, shown);
                sheet(rows)
            });
            let screens = screens(&by_itself, &[give("", &given)]);
            assert_eq!((screens[1].strides, screens[1].leaf()), (2, Some(given[leaf])), "{leaf} {nesting:?}");
            let screen = last_screen(&at_continue, &[give("", &given), go_on("")]);
            assert_eq!((screen.answer, screen.value), (0, Some(padded(&given[leaf..=leaf]))), "{leaf} {nesting:?}");
        }
    }
}

/// A 46 of two pairs of four leaves has all eight, the left's first; each half is given by itself.
#[test]
fn two_pairs_of_four() {
    let mut rows = Rows::default();
    let [left, right] = [(); 2].map(|()| rows.empty(&mixed(4, Nesting::Even)));
    rows.add(46, left, right);
    let touches = [give("1", &[1, 1, 0, 2]), give("2", &[3, 0, 0, 4]), give("2", &[5, 1, 0, 6]), give("", &[7])];
    let screens = screens(&sheet(rows), &touches);
    assert_eq!(answers(&screens), [0, 0, 0, 0, 9]);
    assert!(screens.iter().all(|screen| screen.entries == ["1 1 3 2 1 3 0 0 0 0", "2 1 3 2 1 3 0 0 0 0"]));
    let values: Vec<_> = screens.iter().map(|screen| screen.value).collect();
    let (filled, changed) = (Some([1, 1, 0, 2, 3, 0, 0, 4]), Some([1, 1, 0, 2, 5, 1, 0, 6]));
    assert_eq!(values, [None, None, filled, changed, changed]);
}

/// Sixteen binders hold values of eight leaves, each what the one outside it holds; the innermost row asks any of them.
#[test]
fn sixteen_binders_of_eight_leaves() {
    for outward in 0..ENCLOSING {
        let mut rows = Rows::default();
        let asked = rows.add(23, outward as i32, 0);
        let mut task = rows.add(40, asked, 0);
        for _ in 1..ENCLOSING {
            let outside = rows.add(23, 0, 0);
            let editor = rows.add(40, outside, 0);
            task = rows.add(43, editor, task);
        }
        let value = rows.constant(&mixed(LEAVES, Nesting::First), &mut &fitting(LEAVES)[..]);
        rows.add(31, value, task);
        let screen = last_screen(&sheet(rows), &[]);
        assert_eq!((screen.answer, screen.strides), (0, ENCLOSING as i32), "{outward}");
        assert_eq!(screen.value, Some(padded(&fitting(LEAVES))), "{outward}");
    }
}

/// Leaf 8 at editors of fewer leaves: not 0 gets 9, 0 and a blank are taken (CR 2). At one of 8 a blank gets 9.
#[test]
fn the_eighth_leaf_at_narrower_editors() {
    for leaves in 1..=LEAVES {
        let mut rows = Rows::default();
        rows.empty(&mixed(leaves, Nesting::Even));
        let given = give("", &fitting(leaves));
        let mut with_last = given.clone();
        with_last[leaf_columns(LEAVES - 1)].copy_from_slice(b"           1");
        let mut blank = given.clone();
        blank[leaf_columns(LEAVES - 1)].fill(b' ');
        let last = answers(&screens(&sheet(rows), &[given, with_last, blank]));
        let expected = if leaves == 8 { [0, 0, 0, 9] } else { [0, 0, 9, 0] };
        assert_eq!(last, expected, "{leaves} leaves");
    }
}

/// Events are cut every 117 bytes. One of four leaves gets 8, with a role and without, as it was, and so does one of 116.
#[test]
fn lengths_of_events() {
    let mut sheet = numbers();
    sheet.empty();
    let (whole, narrow) = (value("", 12), with_four_leaves(&value("", 12)));
    let old = without_role(&narrow);
    assert_eq!((narrow.len(), old.len(), old[66]), (69, 67, b'\n'));
    let of = |events: &[u8]| answers(&screens(&sheet, &[events.to_vec()]));
    assert_eq!(of(&whole), [0, 0]);
    assert_eq!(of(&whole[..116]), [0, 8]);
    for short in [narrow, old] {
        assert_eq!(of(&short), [0, 8]);
        assert_eq!(of(&[&whole[..], &short].concat()), [0, 0, 8]);
        // Two of them are one event and a short one, neither of which can be read.
        assert_eq!(of(&short.repeat(2)), [0, 8, 8]);
    }
    let text = String::from_utf8(whole).expect("text");
    assert_eq!(text, format!(" 1               0 1          12{}\n", "           0".repeat(7)));
}

/// The edges are told apart by their names, are among those that programs are compared on, and catch every slip about
/// leaves alone.
#[test]
fn edges_of_leaves() {
    let inputs = leaf_edges::inputs();
    assert_among_edges(&inputs);
    let about_leaves = [
        Slip::TypeOfNine,
        Slip::TypeOverFour,
        Slip::UnusedTypeIgnored,
        Slip::ExpressionOfNine,
        Slip::ExpressionOverFour,
        Slip::LastLeafNotShown,
        Slip::BoundLeafDropped,
        Slip::LastLeafDropped,
        Slip::UnusedLeafIgnored,
        Slip::BlankUnusedLeafRefused,
        Slip::LastKindNotShown,
        Slip::EntriesOf27,
        Slip::EventsOfFourLeaves,
        Slip::EventOfFourLeavesRead,
        Slip::LastLeafUnread,
        Slip::HeadOf64,
    ];
    for slip in about_leaves {
        let screens = |input: &[u8], rules| session::screens(input, rules);
        let caught =
            inputs.iter().any(|(_, input)| screens(input, Rules::slipping(slip)) != screens(input, Rules::default()));
        assert!(caught, "{slip:?}");
    }
}
