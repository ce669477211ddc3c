//! A state as words, 16 a row (`docs/STATE.md`): one writing per state, and its reading.

use crate::binders::Binders;
use crate::flow::Flow;
use crate::limits::LEAVES;
use crate::roles::Gate;
use crate::sheet::Row;
use crate::slips::Slip;
use crate::state::{LastRow, State};
use crate::syntax::{Code, Type};
use crate::task::{Origin, Side, Store, Task};
use crate::typing::Typing;
use crate::value::{Leaves, Value};

/// Words a row of a state.
pub const STATE_ROW: usize = 16;
/// The places in a row: the tag, the shape of the value, its first leaf, what is always 0.
pub const TAG: usize = 0;
pub const SHAPE: usize = 1;
pub const LEAF: usize = 2;
pub const REST: usize = LEAF + LEAVES;

/// The words of one row.
type RowWords = [i32; STATE_ROW];

/// The shape of a type as one number: its nodes in prefix order, a digit of base 4 each, the first
/// the least. A type of 8 leaves has 15 nodes, so a shape is below 2^30.
pub fn shape(of: &Type) -> i32 {
    digits(of).0
}

/// The shape, and 4 to the number of its digits.
fn digits(of: &Type) -> (i32, i32) {
    match of {
        Type::Unit => (1, 4),
        Type::Truth => (2, 4),
        Type::Number => (3, 4),
        Type::Pair(parts) => {
            let (first, second) = (digits(&parts.0), digits(&parts.1));
            (4 * (first.0 + first.1 * second.0), 4 * first.1 * second.1)
        }
    }
}

/// The tag of a last row that failed as a whole (CR 3); no other row has it.
pub const WHOLE: i32 = 4;

/// The tag of what became of a row by this side.
const fn tag_of(side: Side) -> i32 {
    match side {
        Side::Left => 2,
        Side::Right => 3,
    }
}

/// The words of a state of this flow, 16 a row.
pub fn write(flow: &Flow, state: &State) -> Vec<i32> {
    let mut writer = Writer { rows: &flow.rows, words: vec![[0; STATE_ROW]; flow.rows.len()] };
    for (cell, at) in cell_rows(flow).enumerate() {
        writer.put(at, 1, Some(state.store.read(cell)));
    }
    let last = flow.rows.len() - 1;
    match &state.last_row {
        LastRow::Task(task) => writer.task(last, task),
        LastRow::FailedWhole => writer.put(last, WHOLE, None),
    }
    writer.words.concat()
}

/// The cells' rows, in order.
fn cell_rows(flow: &Flow) -> impl Iterator<Item = usize> + '_ {
    flow.rows.iter().enumerate().filter(|(_, row)| row.kind == 10).map(|(at, _)| at)
}

/// The rows that a row names with A, B and C; to be asked of operands that name rows.
fn parts(row: &Row) -> [usize; 3] {
    row.operands.map(|operand| operand as usize)
}

struct Writer<'f> {
    rows: &'f [Row],
    words: Vec<RowWords>,
}

impl Writer<'_> {
    fn put(&mut self, at: usize, tag: i32, value: Option<&Value>) {
        let words = &mut self.words[at];
        words[TAG] = tag;
        if let Some(value) = value {
            words[SHAPE] = shape(&value.type_of());
            words[LEAF..REST].copy_from_slice(&value.leaves(Slip::None));
        }
    }

    /// Writes a task of row `at`, and the rows that are live below.
    fn task(&mut self, at: usize, task: &Task) {
        let row = &self.rows[at];
        let [a, b, c] = parts(row);
        match (row.kind, task) {
            (40, Task::Filled(content)) | (49, Task::View(content)) => self.put(at, 1, Some(content)),
            // CR 6: the touches left.
            (50, Task::Gate(_, left, task)) => {
                self.put(at, 1, Some(&Value::Number(*left)));
                self.task(b, task);
            }
            (41, Task::Filled(content)) => self.put(at, 2, Some(content)),
            (41, Task::Empty(_)) | (42, Task::Shared(_)) | (45, Task::Fail) | (48, Task::Pick(..)) => {
                self.put(at, 1, None);
            }
            (43 | 44, Task::Step(_, left, _)) => {
                self.put(at, 1, None);
                self.task(a, left);
            }
            (46, Task::Both(left, right)) | (47, Task::Choice(left, right)) => {
                self.put(at, 1, None);
                self.task(a, left);
                self.task(b, right);
            }
            (43 | 44, Task::Became(Origin::Taken(value), task)) | (31, Task::Became(Origin::Bound(value), task)) => {
                self.put(at, 2, Some(value));
                self.task(b, task);
            }
            (47, Task::Became(Origin::Chosen(side), task)) | (48, Task::Became(Origin::Picked(side), task)) => {
                self.put(at, tag_of(*side), None);
                self.task(if *side == Side::Left { a } else { b }, task);
            }
            (25, Task::Became(Origin::Decided(side), task)) => {
                self.put(at, tag_of(*side), None);
                self.task(if *side == Side::Left { b } else { c }, task);
            }
            (kind, task) => unreachable!("no task of a row of kind {kind}: {task:?}"),
        }
    }
}

/// The state of this flow that these words are the writing of; none where there is none. Asked of
/// words of any number, 16 a row or not.
pub fn read<'f>(flow: &'f Flow, words: &[i32]) -> Option<State<'f>> {
    let (words, []) = words.as_chunks::<STATE_ROW>() else { return None };
    if words.len() != flow.rows.len() {
        return None;
    }
    if words.last()?[TAG] == WHOLE {
        return read_failed(flow, words);
    }
    let cells: Vec<Type> = flow.contents.iter().map(Value::type_of).collect();
    let typing = Typing { cells: &cells, slip: Slip::None };
    let mut reader = Reader { rows: &flow.rows, words, typing, live: vec![false; words.len()] };
    let contents: Option<Vec<Value>> = cell_rows(flow).zip(&cells).map(|(at, of)| reader.cell(at, of)).collect();
    let store = Store::new(&contents?);
    let task = reader.task(flow.rows.len() - 1, &flow.code, &Binders::NONE)?;
    reader.others_are_empty().then(|| State::new(flow, store, task))
}

/// The state that holds the last row as failed whole. "It is a state only where start fails so and the cells have
/// their first contents" (CR 3): so a flow has one such state, that of its start, or none.
fn read_failed<'f>(flow: &'f Flow, words: &[RowWords]) -> Option<State<'f>> {
    let first = State::evaluated(flow);
    (first.last_row == LastRow::FailedWhole && write(flow, &first) == words.concat()).then_some(first)
}

struct Reader<'r> {
    rows: &'r [Row],
    words: &'r [RowWords],
    typing: Typing<'r>,
    /// The rows gone through.
    live: Vec<bool>,
}

impl Reader<'_> {
    fn cell(&mut self, at: usize, of: &Type) -> Option<Value> {
        self.live[at] = true;
        if self.words[at][TAG] != 1 {
            return None;
        }
        self.value(at, of)
    }

    /// The task of row `at`, which says `code`, where the binders in scope are of these types. What
    /// stands in the row is of the type that typing gives there.
    fn task<'f>(&mut self, at: usize, code: &'f Code, context: &Binders<Type>) -> Option<Task<'f>> {
        self.live[at] = true;
        let [a, b, c] = parts(&self.rows[at]);
        Some(match (code, self.words[at][TAG]) {
            (Code::Filled(content), 1) => {
                let of = self.typing.plain(context, content)?;
                Task::Filled(self.value(at, &of)?)
            }
            (Code::Empty(of), 1) => self.bare(at, Task::Empty(of))?,
            (Code::Empty(of), 2) => Task::Filled(self.value(at, of)?),
            (Code::Shared(cell), 1) => self.bare(at, Task::Shared(*cell))?,
            (Code::Step(going, left, right), 1) => {
                let step = Task::Step(*going, self.part(a, left, context)?, right);
                self.bare(at, step)?
            }
            (Code::Step(_, left, right), 2) => {
                let of = self.typing.task(context, left)?;
                let value = self.value(at, &of)?;
                Task::Became(Origin::Taken(value), self.part(b, right, &context.with(&of))?)
            }
            (Code::Fail(_), 1) => self.bare(at, Task::Fail)?,
            (Code::Both(left, right), 1) => {
                let both = Task::Both(self.part(a, left, context)?, self.part(b, right, context)?);
                self.bare(at, both)?
            }
            (Code::Choice(left, right), 1) => {
                let choice = Task::Choice(self.part(a, left, context)?, self.part(b, right, context)?);
                self.bare(at, choice)?
            }
            (Code::Choice(left, right), tag) => {
                let (side, at_part, code) = sided(tag, (a, left), (b, right))?;
                let chosen = Task::Became(Origin::Chosen(side), self.part(at_part, code, context)?);
                self.bare(at, chosen)?
            }
            (Code::Pick(left, right), 1) => self.bare(at, Task::Pick(left, right))?,
            (Code::Pick(left, right), tag) => {
                let (side, at_part, code) = sided(tag, (a, left), (b, right))?;
                let picked = Task::Became(Origin::Picked(side), self.part(at_part, code, context)?);
                self.bare(at, picked)?
            }
            (Code::View(content), 1) => {
                let of = self.typing.plain(context, content)?;
                Task::View(self.value(at, &of)?)
            }
            (Code::Gate(gate, task), 1) => Task::Gate(*gate, self.touches(at, *gate)?, self.part(b, task, context)?),
            (Code::Condition(_, then, otherwise), tag) => {
                let (side, at_part, code) = sided(tag, (b, then), (c, otherwise))?;
                let decided = Task::Became(Origin::Decided(side), self.part(at_part, code, context)?);
                self.bare(at, decided)?
            }
            (Code::Bind(bound, body), 2) => {
                let of = self.typing.plain(context, bound)?;
                let value = self.value(at, &of)?;
                Task::Became(Origin::Bound(value), self.part(b, body, &context.with(&of))?)
            }
            _ => return None,
        })
    }

    fn part<'f>(&mut self, at: usize, code: &'f Code, context: &Binders<Type>) -> Option<Box<Task<'f>>> {
        self.task(at, code, context).map(Box::new)
    }

    /// The value of type `of` that stands in row `at`: its shape, its leaves, and 0.
    fn value(&self, at: usize, of: &Type) -> Option<Value> {
        let words = &self.words[at];
        let leaves: Leaves = words[LEAF..REST].try_into().ok()?;
        let fits = words[SHAPE] == shape(of) && zero(&words[REST..]);
        fits.then(|| Value::of_leaves(of, &leaves.map(Some), Slip::None)).flatten()
    }

    /// The touches left that stand in row `at`, a number from 0 to those that it began with.
    fn touches(&self, at: usize, gate: Gate) -> Option<i32> {
        let left = self.value(at, &Type::Number)?.number();
        (0..=gate.touches).contains(&left).then_some(left)
    }

    /// The task, if row `at` holds a tag and no value.
    fn bare<'f>(&self, at: usize, task: Task<'f>) -> Option<Task<'f>> {
        zero(&self.words[at][SHAPE..]).then_some(task)
    }

    /// Whether every row that was not gone through is all 0.
    fn others_are_empty(&self) -> bool {
        self.words.iter().zip(&self.live).all(|(words, live)| *live || zero(words))
    }
}

/// The side that a tag names, with its row and code.
fn sided<'f>(tag: i32, left: (usize, &'f Code), right: (usize, &'f Code)) -> Option<(Side, usize, &'f Code)> {
    let (side, (at, code)) = match tag {
        2 => (Side::Left, left),
        3 => (Side::Right, right),
        _ => return None,
    };
    Some((side, at, code))
}

fn zero(words: &[i32]) -> bool {
    words.iter().all(|&word| word == 0)
}
