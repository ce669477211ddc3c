//! Sessions about the leaves that a type may have (CR 4): editors of each number of leaves and of one too many, expressions
//! of 8 leaves and of 9, a value of 8 leaves taken apart, put together and bound under 16 binders, and events that are
//! too short by four leaves or by one byte.

use crate::event::{self, leaf_columns, with_four_leaves, EVENT};
use crate::generate::counted;
use crate::limits::{ENCLOSING, LEAVES};
use crate::sheet::Row;
use crate::syntax::Type;
use crate::value::padded;

/// How the pairs of a type stand: each in the first part of the next, each in the second, or evenly.
#[derive(Clone, Copy, Debug, PartialEq, Eq)]
pub enum Nesting {
    First,
    Second,
    Even,
}

pub const NESTINGS: [Nesting; 3] = [Nesting::First, Nesting::Second, Nesting::Even];

/// A type of so many leaves: numbers, truths and units mixed, the first and the eighth a number.
pub fn mixed(leaves: usize, nesting: Nesting) -> Type {
    part(0, leaves, nesting)
}

fn part(from: usize, to: usize, nesting: Nesting) -> Type {
    let first = match nesting {
        _ if to - from == 1 => return basic(from),
        Nesting::First => to - from - 1,
        Nesting::Second => 1,
        Nesting::Even => (to - from) / 2,
    };
    Type::pair(part(from, from + first, nesting), part(from + first, to, nesting))
}

fn basic(leaf: usize) -> Type {
    match leaf % 4 {
        1 => Type::Truth,
        2 => Type::Unit,
        _ => Type::Number,
    }
}

/// Leaves that fit a mixed type, the eighth the least number; or others.
pub fn fitting(leaves: usize) -> Vec<i32> {
    let leaf = |leaf: usize| match basic(leaf) {
        Type::Truth => 1,
        Type::Number if leaf == LEAVES - 1 => i32::MIN,
        Type::Number => 11 * (leaf as i32 + 1),
        _ => 0,
    };
    (0..leaves).map(leaf).collect()
}

fn changed(leaves: usize) -> Vec<i32> {
    let leaf = |(leaf, fits): (usize, i32)| match basic(leaf) {
        Type::Truth => 1 - fits,
        Type::Number => -(fits / 2) - 1,
        _ => fits,
    };
    fitting(leaves).into_iter().enumerate().map(leaf).collect()
}

/// Rows being added.
#[derive(Clone, Debug, Default)]
pub struct Rows(pub Vec<Row>);

impl Rows {
    pub fn add(&mut self, kind: i32, a: i32, b: i32) -> i32 {
        self.0.push(Row::new(kind, a, b, 0));
        self.0.len() as i32 - 1
    }

    pub fn type_row(&mut self, of: &Type) -> i32 {
        match of {
            Type::Unit => self.add(1, 0, 0),
            Type::Truth => self.add(2, 0, 0),
            Type::Number => self.add(3, 0, 0),
            Type::Pair(parts) => {
                let (first, second) = (self.type_row(&parts.0), self.type_row(&parts.1));
                self.add(4, first, second)
            }
        }
    }

    pub fn empty(&mut self, of: &Type) -> i32 {
        let of = self.type_row(of);
        self.add(41, of, 0)
    }

    /// The plain value of this type that has the leaves in front of `leaves`, which are taken from it.
    pub fn constant(&mut self, of: &Type, leaves: &mut &[i32]) -> i32 {
        if let Type::Pair(parts) = of {
            let (first, second) = (self.constant(&parts.0, leaves), self.constant(&parts.1, leaves));
            return self.add(26, first, second);
        }
        let (leaf, rest) = leaves.split_first().expect("a leaf");
        *leaves = rest;
        match of {
            Type::Unit => self.add(20, 0, 0),
            Type::Truth => self.add(21, *leaf, 0),
            _ => self.add(22, *leaf, 0),
        }
    }

    /// Leaf `at` of the nearest binder's value, by 27 and 28.
    pub fn leaf(&mut self, of: &Type, at: usize) -> i32 {
        let mut way = Vec::new();
        let (mut of, mut at) = (of, at);
        while let Type::Pair(parts) = of {
            let first = parts.0.leaves();
            way.push(if at < first { 27 } else { 28 });
            (of, at) = if at < first { (&parts.0, at) } else { (&parts.1, at - first) };
        }
        let value = self.add(23, 0, 0);
        way.into_iter().fold(value, |value, kind| self.add(kind, value, 0))
    }
}

/// The inputs, each with its name.
pub fn inputs() -> Vec<(String, Vec<u8>)> {
    let mut inputs = Vec::new();
    for nesting in NESTINGS {
        inputs.extend((1..=LEAVES + 1).flat_map(|leaves| widths(leaves, nesting)));
        inputs.extend((0..LEAVES).flat_map(|leaf| apart(leaf, nesting)));
        for outward in [0, ENCLOSING - 1] {
            inputs.push((format!("binder {outward} of 16 of 8 leaves, {nesting:?}"), bound(outward as i32, nesting)));
        }
    }
    inputs.extend(expressions());
    inputs.extend(together());
    inputs.extend(lengths());
    inputs
}

fn give(path: &str, leaves: &[i32]) -> Vec<u8> {
    event::write(path, 1, padded(leaves))
}

fn press(action: i32) -> Vec<u8> {
    event::write("", action, padded(&[]))
}

/// Values that fit an editor of so many leaves and others; each leaf after them not 0, and blank.
fn values(leaves: usize) -> Vec<Vec<u8>> {
    let (own, others) = (fitting(leaves.min(LEAVES)), changed(leaves.min(LEAVES)));
    let mut events = vec![give("", &own), give("", &others), give("", &[])];
    for unused in leaves.min(LEAVES)..LEAVES {
        let mut leaves = padded(&own);
        leaves[unused] = 1;
        events.push(event::write("", 1, leaves));
        let mut blank = give("", &others);
        blank[leaf_columns(unused)].fill(b' ');
        events.push(blank);
    }
    let mut last_blank = give("", &own);
    last_blank[leaf_columns(LEAVES - 1)].fill(b' ');
    let mut last_alone = padded(&[]);
    last_alone[LEAVES - 1] = 1;
    events.extend([last_blank, event::write("", 1, last_alone), event::write("", 2, last_alone)]);
    events
}

/// An empty editor, a filled one and a shown value of so many leaves, and the type beside an editor that does not name it.
fn widths(leaves: usize, nesting: Nesting) -> Vec<(String, Vec<u8>)> {
    let of = mixed(leaves, nesting);
    let mut sheets = vec![Rows::default(); 4];
    sheets[0].empty(&of);
    for (rows, kind) in sheets[1..3].iter_mut().zip([40, 49]) {
        let content = rows.constant(&of, &mut &fitting(leaves)[..]);
        rows.add(kind, content, 0);
    }
    sheets[3].type_row(&of);
    sheets[3].empty(&Type::Number);
    let named = sheets.into_iter().zip(["41", "40", "49", "a type beside 41"]);
    let touched = |rows: Rows| [counted(&rows.0), values(leaves).concat()].concat();
    named.map(|(rows, name)| (format!("{name} of {leaves} leaves, {nesting:?}"), touched(rows))).collect()
}

/// An editor of 8 leaves, then by itself or at Continue one leaf of its value.
fn apart(leaf: usize, nesting: Nesting) -> Vec<(String, Vec<u8>)> {
    let of = mixed(LEAVES, nesting);
    let touches = [press(2), give("", &fitting(LEAVES)), give("", &changed(LEAVES)), press(2)].concat();
    let step = |kind: i32| {
        let mut rows = Rows::default();
        let (editor, leaf) = (rows.empty(&of), rows.leaf(&of, leaf));
        let shown = rows.add(40, leaf, 0);
        rows.add(kind, editor, shown);
        [counted(&rows.0), touches.clone()].concat()
    };
    [43, 44].map(|kind| (format!("leaf {} of 8 after {kind}, {nesting:?}", leaf + 1), step(kind))).into()
}

/// One of 16 binders, each of a value of 8 leaves, each kind of binder in turn.
fn bound(outward: i32, nesting: Nesting) -> Vec<u8> {
    let of = mixed(LEAVES, nesting);
    let mut rows = Rows::default();
    let shown = rows.add(23, outward, 0);
    let mut task = rows.add(40, shown, 0);
    for level in (0..ENCLOSING).rev() {
        // Each binds what the one outside it has bound, the outermost a constant.
        let value = match level {
            0 => rows.constant(&of, &mut &fitting(LEAVES)[..]),
            _ => rows.add(23, 0, 0),
        };
        task = match level % 3 {
            0 => rows.add(31, value, task),
            kind => {
                let editor = rows.add(40, value, 0);
                rows.add(42 + kind as i32, editor, task)
            }
        };
    }
    let touches = [vec![press(2); 3], vec![give("", &changed(LEAVES))], vec![press(2); 4]].concat();
    [counted(&rows.0), touches.concat()].concat()
}

/// Pairs of 8 leaves and of 9 in all, by 26 and by 46.
fn expressions() -> Vec<(String, Vec<u8>)> {
    let mut inputs = Vec::new();
    let of_eight = (1..LEAVES).map(|first| (first, LEAVES - first));
    let of_nine = (1..=LEAVES).map(|first| (first, LEAVES + 1 - first));
    for (first, second) in of_eight.chain(of_nine) {
        let parts = [first, second].map(|leaves| mixed(leaves, Nesting::Even));
        let mut rows = Rows::default();
        let [a, b] = [(0, first), (1, second)].map(|(at, leaves)| rows.constant(&parts[at], &mut &fitting(leaves)[..]));
        let pair = rows.add(26, a, b);
        rows.add(40, pair, 0);
        let own: Vec<i32> = [fitting(first), fitting(second)].concat().into_iter().take(LEAVES).collect();
        inputs.push((format!("26 of {first} and {second} leaves"), [counted(&rows.0), give("", &own)].concat()));
        let mut rows = Rows::default();
        let [a, b] = [&parts[0], &parts[1]].map(|of| rows.empty(of));
        rows.add(46, a, b);
        let touches = [give("1", &fitting(first)), give("2", &fitting(second)), give("", &own)].concat();
        inputs.push((format!("46 of {first} and {second} leaves"), [counted(&rows.0), touches].concat()));
    }
    inputs
}

/// Eight editors side by side, alone and with a step to their value.
fn together() -> Vec<(String, Vec<u8>)> {
    let mut rows = Rows::default();
    let mut tasks: Vec<i32> = (0..LEAVES).map(|leaf| rows.empty(&basic(leaf))).collect();
    while tasks.len() > 1 {
        tasks = tasks.chunks(2).map(|two| rows.add(46, two[0], two[1])).collect();
    }
    let path =
        |leaf: usize| (0..LEAVES.ilog2()).rev().map(|bit| if leaf >> bit & 1 == 0 { '1' } else { '2' }).collect();
    let touch = |(leaf, own): (usize, &i32)| give(&String::from_iter::<Vec<char>>(path(leaf)), &[*own]);
    let touches: Vec<u8> = fitting(LEAVES).iter().enumerate().flat_map(touch).collect();
    let mut inputs = vec![("8 editors in 46".into(), [counted(&rows.0), touches.clone()].concat())];
    for kind in [43, 44] {
        let mut rows = rows.clone();
        let value = rows.add(23, 0, 0);
        let shown = rows.add(40, value, 0);
        rows.add(kind, tasks[0], shown);
        let touches = [touches.clone(), press(2), give("", &changed(LEAVES))].concat();
        inputs.push((format!("8 editors in 46 under {kind}"), [counted(&rows.0), touches].concat()));
    }
    inputs
}

/// Events of four leaves, last and in front of others, and one of a byte too few.
fn lengths() -> Vec<(String, Vec<u8>)> {
    let mut rows = Rows::default();
    rows.empty(&Type::Number);
    let (sheet, whole) = (counted(&rows.0), give("", &[12]));
    let old = with_four_leaves(&whole);
    let lasts = [("four leaves", old.clone()), ("a byte too few", whole[..EVENT - 1].to_vec()), ("all", whole.clone())];
    let mut inputs: Vec<(String, Vec<u8>)> = lasts
        .map(|(name, last)| (format!("an event, then one of {name}"), [&sheet[..], &whole, &last].concat()))
        .into();
    inputs.push(("events of four leaves".into(), [&sheet[..], &old.repeat(5)].concat()));
    inputs.push(("events of four leaves, then whole ones".into(), [&sheet[..], &old, &whole.repeat(3)].concat()));
    inputs
}
