//! Sessions about roles and touches (CR 6): each role and number of touches in a row of kind 50 and in events, such a row in
//! each place and around each kind of task, many of them in each other, and in which role the session looks.

use crate::event::{self, with_role, without_role, EVENT};
use crate::generate::{counted, touches};
use crate::overflow_edges::{Form, Rows, CELL};
use crate::roles::Role;
use crate::value::padded;

/// Adds a task and gives its row.
pub type Task = (&'static str, fn(&mut Rows) -> i32);

/// Tasks of a number, but for the 46.
pub const TASKS: [Task; 10] = [
    ("40", |rows| rows.filled(5)),
    ("41", |rows| rows.empty()),
    ("42", |rows| rows.add(42, CELL, 0, 0)),
    ("43", |rows| {
        let (left, right) = (rows.empty(), rows.with(23, 0, |rows, bound| rows.add(40, bound, 0, 0)));
        rows.add(43, left, right, 0)
    }),
    ("44", |rows| {
        let (left, right) = (rows.filled(4), rows.with(23, 0, |rows, bound| rows.add(40, bound, 0, 0)));
        rows.add(44, left, right, 0)
    }),
    ("45", |rows| rows.fail()),
    ("46", |rows| {
        let (left, right) = (rows.empty(), rows.filled(3));
        rows.add(46, left, right, 0)
    }),
    ("47", |rows| {
        let (left, right) = (rows.empty(), rows.empty());
        rows.add(47, left, right, 0)
    }),
    ("48", |rows| {
        let (left, right) = (rows.filled(1), rows.empty());
        rows.add(48, left, right, 0)
    }),
    ("49", |rows| rows.with(22, 6, |rows, six| rows.add(49, six, 0, 0))),
];

/// Where a task of a number may stand.
pub const PLACES: [Form; 15] = [
    ("alone", |_, task| task),
    ("A of 43", |rows, task| {
        let right = rows.filled(2);
        rows.add(43, task, right, 0)
    }),
    ("B of 43", |rows, task| {
        let left = rows.empty();
        rows.add(43, left, task, 0)
    }),
    ("A of 44", |rows, task| {
        let right = rows.filled(2);
        rows.add(44, task, right, 0)
    }),
    ("B of 44", |rows, task| {
        let left = rows.filled(2);
        rows.add(44, left, task, 0)
    }),
    ("A of 46", |rows, task| {
        let other = rows.empty();
        rows.add(46, task, other, 0)
    }),
    ("B of 46", |rows, task| {
        let other = rows.empty();
        rows.add(46, other, task, 0)
    }),
    ("A of 47", |rows, task| {
        let other = rows.empty();
        rows.add(47, task, other, 0)
    }),
    ("B of 47", |rows, task| {
        let other = rows.empty();
        rows.add(47, other, task, 0)
    }),
    ("A of 48", |rows, task| {
        let other = rows.filled(2);
        rows.add(48, task, other, 0)
    }),
    ("B of 48", |rows, task| {
        let other = rows.fail();
        rows.add(48, other, task, 0)
    }),
    ("B of 31", |rows, task| rows.with(22, 8, |rows, bound| rows.add(31, bound, task, 0))),
    ("B of 25", |rows, task| {
        let (truth, other) = (rows.add(21, 1, 0, 0), rows.fail());
        rows.add(25, truth, task, other)
    }),
    ("C of 25", |rows, task| {
        let (truth, other) = (rows.add(21, 0, 0, 0), rows.fail());
        rows.add(25, truth, other, task)
    }),
    ("B of 50", |rows, task| rows.add(50, 1, task, 2)),
];

/// Role and touches.
pub const GATES: [(i32, i32); 4] = [(1, 0), (1, 1), (2, 1), (2, 3)];

/// The inputs, each with its name.
pub fn inputs() -> Vec<(String, Vec<u8>)> {
    let mut inputs = operands();
    inputs.extend(places());
    inputs.extend(depths());
    inputs.extend(texts());
    inputs.extend(looks());
    inputs
}

/// An event of this role; action 1 gives 1.
pub fn touch(role: Role, path: &str, action: i32) -> Vec<u8> {
    with_role(&role.to_string(), event::write(path, action, padded(&[i32::from(action == 1)])))
}

fn session(rows: &Rows, events: &[Vec<u8>]) -> Vec<u8> {
    [counted(&rows.0), events.concat()].concat()
}

/// An empty editor in a row of kind 50.
fn editor(role: i32, touches: i32) -> Rows {
    let mut rows = Rows::new();
    let empty = rows.empty();
    rows.add(50, role, empty, touches);
    rows
}

/// Each role and each number of touches, right and wrong, touched twice by each role; a B that is no task.
fn operands() -> Vec<(String, Vec<u8>)> {
    let by_all: Vec<Vec<u8>> = [1, 2, 3, 4, 5, 6, 7, 8, 1, 8].map(|role| touch(role, "", 1)).into();
    let roles = [i32::MIN, -1, 0, 1, 2, 3, 4, 5, 6, 7, 8, 9, 10, i32::MAX];
    let touches = [i32::MIN, -1, 0, 2, 98, 99, 100, 101, i32::MAX];
    let operands = roles.map(|role| (role, 1)).into_iter().chain(touches.map(|touches| (8, touches)));
    let mut inputs: Vec<(String, Vec<u8>)> = operands
        .map(|(role, touches)| (format!("50 of {role} with {touches}"), session(&editor(role, touches), &by_all)))
        .collect();
    for (name, b) in [("a type", 0), ("a cell", CELL), ("a plain row", 2), ("itself", 3), ("no row", -1)] {
        let mut rows = Rows::new();
        rows.add(22, 5, 0, 0);
        rows.add(50, 1, b, 1);
        inputs.push((format!("50 of {name}"), session(&rows, &by_all)));
    }
    let mut twice = editor(1, 1);
    twice.add(50, 1, 2, 1);
    inputs.push(("50 twice of one row".into(), session(&twice, &by_all)));
    let used_up: Vec<Vec<u8>> = (0..102).map(|_| touch(1, "", 1)).collect();
    inputs.push(("99 touches and more".into(), session(&editor(1, 99), &used_up)));
    inputs
}

/// A row of kind 50 around each task, in each place, with all actions of two roles, and values of three.
fn places() -> Vec<(String, Vec<u8>)> {
    let paths = ["", "1", "2"];
    let pressed = paths.into_iter().flat_map(|path| [2, 3, 4, 1].map(|action| (path, action)));
    let mut events: Vec<Vec<u8>> =
        pressed.flat_map(|(path, action)| [2, 1].map(|role| touch(role, path, action))).collect();
    events.extend(paths.into_iter().flat_map(|path| [3, 2, 1].map(|role| touch(role, path, 1))));
    let mut inputs = Vec::new();
    for (name, around) in PLACES {
        for (of, task) in TASKS {
            for (role, touches) in GATES {
                let mut rows = Rows::new();
                let inner = task(&mut rows);
                let gate = rows.add(50, role, inner, touches);
                around(&mut rows, gate);
                inputs.push((format!("50 of {role} with {touches} around {of}, {name}"), session(&rows, &events)));
            }
        }
    }
    inputs
}

/// Rows of kind 50 in each other, of one role and of two, and between 16 marks and 16 binders.
fn depths() -> Vec<(String, Vec<u8>)> {
    let values: Vec<Vec<u8>> = [2, 1, 1, 2, 1].map(|role| touch(role, "", 1)).into();
    let mut inputs = Vec::new();
    for levels in [2, 3, 17, 250] {
        for (name, role_at) in [("one role", (|_| 1) as fn(i32) -> i32), ("two roles", |level| 1 + level % 2)] {
            let mut rows = Rows::new();
            let mut task = rows.empty();
            for level in 0..levels {
                // The innermost has the fewest touches, or the outermost.
                task = rows.add(50, role_at(level), task, if levels % 2 == 0 { 2 + level % 9 } else { 11 - level % 9 });
            }
            inputs.push((format!("{levels} rows of kind 50, {name}"), session(&rows, &values)));
        }
    }
    let mut rows = Rows::new();
    let mut task = rows.empty();
    for level in 0..16 {
        let (gate, other) = (rows.add(50, 1, task, 2 + level), rows.empty());
        task = rows.add(47, other, gate, 0);
    }
    let marked = [touch(2, &"2".repeat(16), 1), touch(1, &"2".repeat(16), 1), touch(1, "", 1), touch(2, "", 1)];
    inputs.push(("rows of kind 50 between 16 marks".into(), session(&rows, &marked)));
    let mut rows = Rows::new();
    let mut task = rows.with(23, 15, |rows, bound| rows.add(40, bound, 0, 0));
    for level in 0..16 {
        let (gate, left) = (rows.add(50, 1 + level % 2, task, 1), rows.filled(level));
        task = rows.add(44, left, gate, 0);
    }
    let pressed: Vec<Vec<u8>> = (0..34).map(|at| touch(1 + at % 2, "", 2)).collect();
    inputs.push(("rows of kind 50 between 16 binders".into(), session(&rows, &pressed)));
    inputs
}

/// Each text of two columns for a role that is near one.
fn texts() -> Vec<(String, Vec<u8>)> {
    let mut texts: Vec<String> = touches::NO_ROLES.map(String::from).into();
    texts.extend((1..=8).map(|role| role.to_string()));
    texts.extend(["00", "08", "8 ", " +", "- ", "\n1", "\0\0", "1\t", "2x", "x2", "19"].map(String::from));
    let mut inputs = Vec::new();
    for text in texts {
        let bad = with_role(&text, touch(1, "", 1));
        // Taken by role 2 alone; the list shows in whose role the session looks.
        let events = [touch(2, "", 1), bad.clone(), touch(2, "", 2), bad, touch(2, "", 1)];
        inputs.push((format!("role {text:?}"), session(&editor(2, 99), &events)));
    }
    inputs
}

/// In which role the session looks: after events that get 0, 8, 9, 30 and 31, and after bytes that are too few or too many.
fn looks() -> Vec<(String, Vec<u8>)> {
    let mut rows = Rows::new();
    let (one, two) = (rows.empty(), rows.empty());
    let (first, second) = (rows.add(50, 1, one, 1), rows.add(50, 2, two, 1));
    rows.add(46, first, second, 0);
    let good =
        [touch(2, "2", 1), touch(1, "2", 1), touch(2, "2", 1), touch(3, "1", 1), touch(2, "", 2), touch(2, "", 7)];
    let mut inputs = vec![("looks after each answer".into(), session(&rows, &good))];
    for length in [1, 2, 3, 18, 19, 69, 115, EVENT - 1] {
        let cut = touch(2, "2", 1)[..length].to_vec();
        let events = [touch(2, "1", 1), cut];
        inputs.push((format!("a look after {length} bytes"), session(&rows, &events)));
    }
    let old = without_role(&touch(2, "2", 1));
    inputs.push(("an event without a role".into(), session(&rows, &[touch(2, "1", 1), old.clone()])));
    inputs.push(("events without a role".into(), session(&rows, &vec![old; 4])));
    let mut unended = touch(2, "2", 1);
    unended[EVENT - 1] = b' ';
    inputs.push(("an event of role 2 without byte 10".into(), session(&rows, &[unended, touch(2, "2", 1)])));
    inputs
}
