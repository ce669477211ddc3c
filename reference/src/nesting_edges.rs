//! Sheets about what encloses a row (01, ground 6; CR 9): rows in each other up to 16 binders and 16 marks, one past them and far past
//! them, by each kind and through each operand, reached by a start or not. The answers follow from what each layer puts around the row
//! below it, as it is written here: [`enclosing`](crate::limits::enclosing) is not asked.

use crate::event;
use crate::generate::counted;
use crate::limits::{Enclosing, ENCLOSING};
use crate::overflow_edges::{Rows, PLAINS};
use crate::role_edges::PLACES;
use crate::sheet::{Row, LINES};
use crate::value::padded;

/// A sheet, and the number that load gives it.
#[derive(Clone, Debug)]
pub struct Edge {
    pub name: String,
    pub rows: Vec<Row>,
    pub number: i32,
}

/// What stands around a task, by its name in [`PLACES`]: what it puts around the task, and the binders that it puts around a task
/// beside it.
#[derive(Clone, Copy, Debug)]
struct Layer {
    place: &'static str,
    own: Enclosing,
    beside: usize,
}

const fn binder(place: &'static str) -> Layer {
    Layer { place, own: Enclosing { binders: 1, marks: 0 }, beside: 0 }
}

/// A 46 becomes a number again, by a 44 around it.
const fn mark(place: &'static str, beside: usize) -> Layer {
    Layer { place, own: Enclosing { binders: 0, marks: 1 }, beside }
}

const fn neither(place: &'static str, beside: usize) -> Layer {
    Layer { place, own: Enclosing { binders: 0, marks: 0 }, beside }
}

const BINDERS: [Layer; 3] = [binder("B of 31"), binder("B of 43"), binder("B of 44")];
const MARKS: [Layer; 4] = [mark("A of 47", 0), mark("B of 46", 1), mark("B of 47", 0), mark("A of 46", 1)];
const NEITHER: [Layer; 7] = [
    neither("B of 50", 0),
    neither("C of 25", 0),
    neither("A of 43", 1),
    neither("B of 48", 0),
    neither("B of 25", 0),
    neither("A of 44", 1),
    neither("A of 48", 0),
];

/// Depths around the limit, and far past it.
const DEPTHS: [usize; 7] = [1, 15, 16, 17, 18, 40, 126];

/// All of them, each with a name of its own.
pub fn edges() -> Vec<Edge> {
    [alike(), mixed(), elsewhere(), side_by_side(), plain(), longest()].concat()
}

/// The edges as sessions.
pub fn inputs() -> Vec<(String, Vec<u8>)> {
    let paths = ["".to_string(), "1".repeat(ENCLOSING), "2".repeat(ENCLOSING), "12".repeat(ENCLOSING / 2)];
    let give = |path: &String| event::write(path, 1, padded(&[7]));
    let touches: Vec<Vec<u8>> =
        paths.iter().map(give).chain((0..3).map(|_| event::write("", 2, padded(&[])))).collect();
    edges().into_iter().map(|edge| (edge.name, [counted(&edge.rows), touches.concat()].concat())).collect()
}

/// Puts layers around a task of a number, the first innermost, and tells what is then around it and around the tasks beside it.
fn around(rows: &mut Rows, task: i32, layers: &[Layer]) -> (i32, Vec<Enclosing>) {
    let mut outermost = task;
    let mut most = vec![Enclosing::default()];
    for layer in layers {
        let (_, place) = PLACES.iter().find(|(name, _)| *name == layer.place).expect("a place");
        outermost = place(rows, outermost);
        if layer.place.ends_with("46") {
            let number = rows.empty();
            outermost = rows.add(44, outermost, number, 0);
        }
        put_around(&mut most, layer.own);
        most.push(Enclosing { binders: layer.beside, marks: 0 });
    }
    (outermost, most)
}

fn put_around(most: &mut [Enclosing], own: Enclosing) {
    for of in most {
        *of = Enclosing { binders: of.binders + own.binders, marks: of.marks + own.marks };
    }
}

fn number(most: &[Enclosing]) -> i32 {
    let small = most.iter().all(|of| of.binders <= ENCLOSING && of.marks <= ENCLOSING);
    if small {
        0
    } else {
        6
    }
}

/// The outermost binder's value, or an empty editor where there is none, in these layers.
fn edge(name: String, layers: &[Layer]) -> Edge {
    let mut rows = Rows::new();
    let binders: usize = layers.iter().map(|layer| layer.own.binders).sum();
    let task = match binders as i32 {
        0 => rows.empty(),
        binders => rows.with(23, binders - 1, |rows, bound| rows.add(40, bound, 0, 0)),
    };
    let (_, most) = around(&mut rows, task, layers);
    Edge { name, rows: rows.0, number: number(&most) }
}

/// So many layers, these in turn.
fn times(layers: &[Layer], count: usize) -> Vec<Layer> {
    layers.iter().copied().cycle().take(count).collect()
}

/// One layer alone, so many times.
fn alike() -> Vec<Edge> {
    let mut edges = Vec::new();
    for layer in BINDERS.into_iter().chain(MARKS).chain(NEITHER) {
        for count in DEPTHS {
            let edge = edge(format!("{count} times {}", layer.place), &times(&[layer], count));
            edges.extend((edge.rows.len() <= LINES).then_some(edge));
        }
    }
    edges
}

/// Binders and marks mixed, each around the other, and with rows between them that are neither.
fn mixed() -> Vec<Edge> {
    let mut edges = Vec::new();
    let by_47 = [MARKS[0], MARKS[2]];
    for (by, kinds) in [("46 and 47", &MARKS[..]), ("47", &by_47[..])] {
        for (binders, marks) in [(16, 0), (17, 0), (0, 16), (0, 17), (16, 16), (16, 17), (17, 16), (17, 17)] {
            let (bound, marked) = (times(&BINDERS, binders), times(kinds, marks));
            let in_turn = |at: usize| bound.get(at).into_iter().chain(marked.get(at)).copied();
            let woven: Vec<Layer> = (0..=ENCLOSING).flat_map(in_turn).collect();
            let apart: Vec<Layer> =
                woven.iter().zip(NEITHER.iter().cycle()).flat_map(|(&one, &two)| [one, two]).collect();
            let name = |how: &str| format!("{binders} binders and {marks} marks by {by}, {how}");
            edges.push(edge(name("marks outside"), &[bound.clone(), marked.clone()].concat()));
            edges.push(edge(name("binders outside"), &[marked.clone(), bound.clone()].concat()));
            edges.push(edge(name("in turn"), &woven));
            edges.push(edge(name("with others between"), &apart));
        }
    }
    edges
}

/// A task in 15 to 17 layers, at each place, reached by a start or not.
fn elsewhere() -> Vec<Edge> {
    let mut edges = Vec::new();
    for place in BINDERS.into_iter().chain(MARKS).chain(NEITHER) {
        for (of, layers) in [("binders", &BINDERS[..]), ("marks", &MARKS[..])] {
            for count in [15, 16, 17] {
                let layers = [times(layers, count), vec![place]].concat();
                edges.push(edge(format!("{count} {of} within {}", place.place), &layers));
            }
        }
    }
    edges
}

/// Two tasks in layers of their own under one row, of which the first, the second, both or none pass the limit.
fn side_by_side() -> Vec<Edge> {
    let mut edges = Vec::new();
    for (kind, marks) in [(25, 0), (46, 1), (47, 1), (48, 0)] {
        for (of, layers) in [("binders", &BINDERS[..]), ("marks", &MARKS[..])] {
            for counts in [[15, 15], [15, 16], [16, 15], [16, 16], [16, 17], [17, 16], [17, 17]] {
                let mut rows = Rows::new();
                let [(first, left), (second, right)] = counts.map(|count| {
                    let empty = rows.empty();
                    around(&mut rows, empty, &times(layers, count))
                });
                match kind {
                    25 => rows.with(21, 1, |rows, truth| rows.add(25, truth, first, second)),
                    _ => rows.add(kind, first, second, 0),
                };
                let mut most = [left, right].concat();
                put_around(&mut most, Enclosing { binders: 0, marks });
                let name = format!("{kind} of {} and {} {of}", counts[0], counts[1]);
                edges.push(Edge { name, rows: rows.0, number: number(&most) });
            }
        }
    }
    edges
}

/// A number in so many plain bindings, each the B of the next, or each the A.
fn bound(rows: &mut Rows, count: usize, in_b: bool) -> i32 {
    let mut plain = rows.add(22, 1, 0, 0);
    for _ in 0..count {
        plain = rows.with(22, 2, |rows, other| match in_b {
            true => rows.add(31, other, plain, 0),
            false => rows.add(31, plain, other, 0),
        });
    }
    plain
}

/// Plain bindings: in each form of a plain expression, in task binders, and in their A, which they do not enclose.
fn plain() -> Vec<Edge> {
    let mut edges = Vec::new();
    let mut add = |name: String, rows: Rows, binders: usize| {
        edges.push(Edge { name, rows: rows.0, number: number(&[Enclosing { binders, marks: 0 }]) });
    };
    for (name, form) in PLAINS {
        for count in [15, 16, 17] {
            let mut rows = Rows::new();
            let plain = bound(&mut rows, count, true);
            let plain = form(&mut rows, plain);
            rows.add(40, plain, 0, 0);
            let in_b = matches!(name, "the B of a 31" | "what follows a write");
            add(format!("{count} plain bindings as {name}"), rows, count + usize::from(in_b));
        }
    }
    for (outside, inside) in [(8, 8), (8, 9), (9, 8), (16, 0), (0, 16), (16, 1), (1, 16)] {
        let mut rows = Rows::new();
        let plain = bound(&mut rows, inside, true);
        let task = rows.add(40, plain, 0, 0);
        around(&mut rows, task, &times(&BINDERS, outside));
        add(format!("{inside} plain bindings within {outside} binders"), rows, inside + outside);
    }
    let mut rows = Rows::new();
    let plain = bound(&mut rows, 40, false);
    rows.add(40, plain, 0, 0);
    add("40 plain bindings in A".into(), rows, 0);
    edges
}

/// The most that 256 rows hold: 127 binders, plain or not, and 127 marks.
fn longest() -> Vec<Edge> {
    let deepest = 127;
    let in_one = |layer: Layer| {
        let mut rows = Rows(vec![Row::new(3, 0, 0, 0)]);
        let empty = rows.empty();
        around(&mut rows, empty, &times(&[layer], deepest));
        (layer.place, rows)
    };
    let mut plain = Rows(Vec::new());
    let number = bound(&mut plain, deepest, true);
    plain.add(40, number, 0, 0);
    [in_one(BINDERS[0]), in_one(MARKS[0]), in_one(MARKS[2]), ("a plain 31", plain)]
        .map(|(name, rows)| Edge { name: format!("256 rows, {deepest} times {name}"), rows: rows.0, number: 6 })
        .into()
}
