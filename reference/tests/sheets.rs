//! What each of grounds 2 to 7 takes in, and what it does not.

mod common;

use common::*;
use reference::sheet::{self, Row};

/// What load answers to these rows.
fn rows(rows: &[[i32; 4]]) -> i32 {
    loads(&sheet::write(&rows.iter().map(|&[kind, a, b, c]| Row::new(kind, a, b, c)).collect::<Vec<_>>()))
}

#[test]
fn ground_2_fields() {
    let line = |kind: &str, a: &str| {
        let head = "   0  22           5           0           0\n";
        format!("{head}   1{kind:>4}{a:>12}           0           0\n").into_bytes()
    };
    assert_eq!(loads(&line("40", "0")), 0);
    for a in
        ["", "+0", "00", "-0", "0 ", "0x", "\t0", "- 1", "--1", "-", "2147483648", "-2147483649", "99999999999", "1 0"]
    {
        assert_eq!(loads(&line("40", a)), 2, "{a:?}");
    }
    // Of kinds, ground 2 asks where a blank may stand alone (`blank_sheets.rs`); readable numbers out of
    // place are 3 and 4.
    assert_eq!(loads(&line("x", "0")), 2);
    assert_eq!(loads(&line("-1", "0")), 3);
    assert_eq!(loads(&line("40", "-2147483648")), 4);
    let mut wrong = line("40", "0");
    wrong[sheet::LINE + 3] = b'2';
    assert_eq!(loads(&wrong), 2);
    wrong[sheet::LINE + 2..sheet::LINE + 4].copy_from_slice(b"-1");
    assert_eq!(loads(&wrong), 2);
}

#[test]
fn ground_3_kinds_operators_truths_and_unused_operands() {
    for kind in [-1, 0, 5, 9, 11, 19, 32, 39, 51, 60, 999] {
        assert_eq!(rows(&[[kind, 0, 0, 0], [20, 0, 0, 0], [40, 1, 0, 0]]), 3, "kind {kind}");
    }
    for operator in [-1, 0, 9] {
        assert_eq!(rows(&[[22, 1, 0, 0], [22, 1, 0, 0], [24, operator, 0, 1], [40, 2, 0, 0]]), 3);
    }
    for truth in [-1, 2] {
        assert_eq!(rows(&[[21, truth, 0, 0], [40, 0, 0, 0]]), 3);
        assert_eq!(rows(&[[2, 0, 0, 0], [10, 0, truth, 0], [42, 1, 0, 0]]), 3);
        // A cell's content is asked only where its A is a lower row of kind 2.
        assert_eq!(rows(&[[3, 0, 0, 0], [10, 0, truth, 0], [42, 1, 0, 0]]), 0);
        assert_eq!(rows(&[[10, 1, truth, 0], [2, 0, 0, 0], [42, 0, 0, 0]]), 4);
    }
    // An operand that the kind does not use must be 0.
    for (kind, places) in USED {
        for place in 1..=3 {
            let mut row = [kind, i32::from(matches!(kind, 24 | 50)), 0, 0];
            row[place] = 1;
            let refused = rows(&[row, [20, 0, 0, 0], [40, 1, 0, 0]]) == 3;
            assert_eq!(refused, !places.contains(&place), "kind {kind} place {place}");
        }
    }
}

#[test]
fn ground_4_operands() {
    // Row 0 number, 1 cell, 2 plain, 3 task: each place asks its own sort.
    let lower = [[3, 0, 0, 0], [10, 0, 0, 0], [22, 7, 0, 0], [41, 0, 0, 0]];
    let sorts = ["type", "cell", "plain", "task"];
    let asks: [(i32, usize, &[&str]); 32] = [
        (4, 1, &["type"]),
        (4, 2, &["type"]),
        (10, 1, &["type"]),
        (24, 2, &["plain"]),
        (24, 3, &["plain"]),
        (25, 1, &["plain"]),
        (26, 1, &["plain"]),
        (26, 2, &["plain"]),
        (27, 1, &["plain"]),
        (28, 1, &["plain"]),
        (29, 1, &["cell"]),
        (30, 1, &["cell"]),
        (30, 2, &["plain"]),
        (31, 1, &["plain"]),
        (31, 2, &["plain", "task"]),
        (40, 1, &["plain"]),
        (41, 1, &["type"]),
        (42, 1, &["cell"]),
        (43, 1, &["task"]),
        (43, 2, &["task"]),
        (44, 1, &["task"]),
        (44, 2, &["task"]),
        (45, 1, &["type"]),
        (46, 1, &["task"]),
        (46, 2, &["task"]),
        (47, 1, &["task"]),
        (47, 2, &["task"]),
        (48, 1, &["task"]),
        (48, 2, &["task"]),
        (49, 1, &["plain"]),
        (50, 2, &["task"]),
        (25, 2, &["task"]),
    ];
    for (kind, place, asked) in asks {
        for (operand, sort) in sorts.into_iter().enumerate() {
            // The other places as they must be.
            let mut row = match kind {
                4 => [4, 0, 0, 0],
                10 => [10, 0, 0, 0],
                24 => [24, 1, 2, 2],
                25 => [25, 2, 3, 3],
                26 => [26, 2, 2, 0],
                27 | 28 | 40 | 49 => [kind, 2, 0, 0],
                29 | 42 => [kind, 1, 0, 0],
                30 => [30, 1, 2, 0],
                31 => [31, 2, 3, 0],
                41 | 45 => [kind, 0, 0, 0],
                50 => [50, 1, 3, 1],
                _ => [kind, 3, 3, 0],
            };
            row[place] = operand as i32;
            let sheet = [&lower[..], &[row]].concat();
            assert_eq!(rows(&sheet) == 4, !asked.contains(&sort), "kind {kind} place {place} {sort}");
        }
        for operand in [4, 5, -1, i32::MAX, i32::MIN] {
            let mut row = match kind {
                24 => [24, 1, 2, 2],
                50 => [50, 1, 3, 1],
                _ => [kind, 0, 0, 0],
            };
            row[place] = operand;
            assert_eq!(rows(&[&lower[..], &[row]].concat()), 4, "kind {kind} place {place} names {operand}");
        }
    }
    // Cells of unit and of pairs.
    assert_eq!(rows(&[[1, 0, 0, 0], [10, 0, 0, 0], [42, 1, 0, 0]]), 4);
    assert_eq!(rows(&[[2, 0, 0, 0], [4, 0, 0, 0], [10, 1, 0, 0], [42, 2, 0, 0]]), 4);
}

#[test]
fn ground_5_naming() {
    // Named never, and twice by one row.
    assert_eq!(rows(&[[20, 0, 0, 0], [20, 0, 0, 0], [40, 1, 0, 0]]), 5);
    assert_eq!(rows(&[[22, 1, 0, 0], [24, 1, 0, 0], [40, 1, 0, 0]]), 5);
    // Types and cells are named never or often.
    assert_eq!(rows(&[[3, 0, 0, 0], [10, 0, 0, 0], [10, 0, 0, 0], [42, 1, 0, 0], [42, 1, 0, 0], [46, 3, 4, 0]]), 0);
    // The last row.
    assert_eq!(rows(&[[3, 0, 0, 0]]), 5);
    assert_eq!(rows(&[[3, 0, 0, 0], [10, 0, 0, 0]]), 5);
    assert_eq!(rows(&[[20, 0, 0, 0]]), 5);
    assert_eq!(rows(&[[22, 1, 0, 0], [22, 1, 0, 0], [24, 1, 0, 1]]), 5);
    assert_eq!(rows(&[[22, 1, 0, 0], [22, 1, 0, 0], [26, 0, 1, 0]]), 5);
    assert_eq!(rows(&[[20, 0, 0, 0], [40, 0, 0, 0], [3, 0, 0, 0]]), 5);
    assert_eq!(rows(&[[20, 0, 0, 0], [49, 0, 0, 0]]), 0);
    assert_eq!(rows(&[[3, 0, 0, 0], [41, 0, 0, 0], [50, 1, 1, 1]]), 0);
    assert_eq!(rows(&[[3, 0, 0, 0], [41, 0, 0, 0], [50, 1, 1, 1], [50, 1, 1, 1]]), 5);
    // A plain 25 or 31 as the last row passes 5 and gets 7, unless 6 comes first.
    assert_eq!(rows(&[[21, 1, 0, 0], [20, 0, 0, 0], [20, 0, 0, 0], [25, 0, 1, 2]]), 7);
    assert_eq!(rows(&[[20, 0, 0, 0], [20, 0, 0, 0], [31, 0, 1, 0]]), 7);
    let nine = [[3, 0, 0, 0], [4, 0, 0, 0], [4, 1, 1, 0], [4, 2, 2, 0], [4, 3, 0, 0]];
    assert_eq!(rows(&[&nine[..], &[[20, 0, 0, 0], [20, 0, 0, 0], [31, 5, 6, 0]]].concat()), 6);
}

#[test]
fn ground_6_leaves() {
    let eight = [[3, 0, 0, 0], [4, 0, 0, 0], [4, 1, 1, 0], [4, 2, 2, 0]];
    assert_eq!(rows(&[&eight[..], &[[41, 3, 0, 0]]].concat()), 0);
    assert_eq!(rows(&[&eight[..], &[[4, 3, 0, 0], [41, 3, 0, 0]]].concat()), 6);
    assert_eq!(rows(&[&eight[..], &[[4, 3, 0, 0], [41, 4, 0, 0]]].concat()), 6);
    // Doubling with each row, far past any count.
    let mut doubling = vec![[3, 0, 0, 0]];
    doubling.extend((0..250).map(|at| [4, at, at, 0]));
    doubling.extend([[20, 0, 0, 0], [40, 251, 0, 0]]);
    assert_eq!(rows(&doubling), 6);
}

/// A binder encloses its B only: steps nested in A by the dozen enclose nothing.
#[test]
fn ground_6_binders_enclose_b_only() {
    let mut sheet = numbers();
    let mut task = sheet.empty();
    for _ in 0..40 {
        let right = sheet.empty();
        task = sheet.row(43, task, right, 0);
    }
    assert_eq!(loads(&sheet.text()), 0);
    // A 48 is no mark.
    let mut sheet = numbers();
    let mut task = sheet.empty();
    for _ in 0..40 {
        let other = sheet.empty();
        task = sheet.row(48, other, task, 0);
    }
    assert_eq!(loads(&sheet.text()), 0);
}

#[test]
fn ground_7_typing() {
    let lower = [[3, 0, 0, 0], [2, 0, 0, 0], [1, 0, 0, 0], [10, 0, 0, 0], [10, 1, 0, 0]];
    let answer = |more: &[[i32; 4]]| rows(&[&lower[..], more].concat());
    let (number, truth, unit) = ([22, 1, 0, 0], [21, 1, 0, 0], [20, 0, 0, 0]);
    // Operators, in a filled editor.
    for operator in 1..=8 {
        let fits = |left, right| answer(&[left, right, [24, operator, 5, 6], [40, 7, 0, 0]]) == 0;
        assert_eq!(fits(number, number), operator <= 6);
        assert_eq!(fits(truth, truth), operator >= 7);
        assert!(!fits(number, truth) && !fits(truth, number) && !fits(unit, unit));
    }
    // Conditions.
    assert_eq!(answer(&[truth, number, number, [25, 5, 6, 7], [40, 8, 0, 0]]), 0);
    assert_eq!(answer(&[number, number, number, [25, 5, 6, 7], [40, 8, 0, 0]]), 7);
    assert_eq!(answer(&[truth, number, truth, [25, 5, 6, 7], [40, 8, 0, 0]]), 7);
    assert_eq!(answer(&[truth, [41, 0, 0, 0], [41, 0, 0, 0], [25, 5, 6, 7]]), 0);
    assert_eq!(answer(&[truth, [41, 0, 0, 0], [41, 1, 0, 0], [25, 5, 6, 7]]), 7);
    assert_eq!(answer(&[unit, [41, 0, 0, 0], [41, 0, 0, 0], [25, 5, 6, 7]]), 7);
    // Projections and writes.
    assert_eq!(answer(&[number, truth, [26, 5, 6, 0], [27, 7, 0, 0], [40, 8, 0, 0]]), 0);
    assert_eq!(answer(&[number, [27, 5, 0, 0], [40, 6, 0, 0]]), 7);
    assert_eq!(answer(&[number, [28, 5, 0, 0], [40, 6, 0, 0]]), 7);
    assert_eq!(answer(&[number, [30, 3, 5, 0], [40, 6, 0, 0]]), 0);
    assert_eq!(answer(&[truth, [30, 3, 5, 0], [40, 6, 0, 0]]), 7);
    assert_eq!(answer(&[truth, [30, 4, 5, 0], [40, 6, 0, 0]]), 0);
    // Choices.
    for kind in [47, 48] {
        assert_eq!(answer(&[[41, 0, 0, 0], [42, 3, 0, 0], [kind, 5, 6, 0]]), 0);
        assert_eq!(answer(&[[41, 0, 0, 0], [42, 4, 0, 0], [kind, 5, 6, 0]]), 7);
        // A shown value is of the type of its A.
        assert_eq!(answer(&[number, [49, 5, 0, 0], [41, 0, 0, 0], [kind, 6, 7, 0]]), 0);
        assert_eq!(answer(&[truth, [49, 5, 0, 0], [41, 0, 0, 0], [kind, 6, 7, 0]]), 7);
    }
    // Binders: of the type of A's task value; none, or a negative one, reaches nothing.
    assert_eq!(answer(&[[41, 1, 0, 0], [23, 0, 0, 0], unit, unit, [25, 6, 7, 8], [40, 9, 0, 0], [43, 5, 10, 0]]), 0);
    assert_eq!(answer(&[[41, 0, 0, 0], [23, 0, 0, 0], unit, unit, [25, 6, 7, 8], [40, 9, 0, 0], [43, 5, 10, 0]]), 7);
    assert_eq!(answer(&[[41, 0, 0, 0], [23, 1, 0, 0], [40, 6, 0, 0], [43, 5, 7, 0]]), 7);
    assert_eq!(answer(&[[41, 0, 0, 0], [23, -1, 0, 0], [40, 6, 0, 0], [43, 5, 7, 0]]), 7);
    // The A of a binder does not have it.
    assert_eq!(answer(&[[23, 0, 0, 0], [40, 5, 0, 0], [41, 0, 0, 0], [43, 6, 7, 0]]), 7);
    // Eight leaves, and nine.
    let pairs = [[4, 0, 0, 0], [4, 5, 5, 0], [4, 6, 6, 0]];
    assert_eq!(answer(&[&pairs[..], &[[41, 6, 0, 0], [41, 6, 0, 0], [46, 8, 9, 0]]].concat()), 0);
    assert_eq!(answer(&[&pairs[..], &[[41, 7, 0, 0], [41, 0, 0, 0], [46, 8, 9, 0]]].concat()), 7);
}

/// Types are equal when their shapes are, whatever their rows.
#[test]
fn types_are_equal_by_shape() {
    let types = [[3, 0, 0, 0], [3, 0, 0, 0], [4, 0, 1, 0], [4, 1, 1, 0], [2, 0, 0, 0], [4, 0, 4, 0]];
    let choice = |left, right| rows(&[&types[..], &[[41, left, 0, 0], [41, right, 0, 0], [47, 6, 7, 0]]].concat());
    assert_eq!((choice(0, 1), choice(2, 3), choice(2, 5), choice(0, 2)), (0, 0, 7, 7));
}
