//! What CR 5 says of bytes: the counterparts of a sheet, an event and a screen where the halves of a last row 46 are
//! exchanged, and of an event and a screen where three choices under a last row 47 are regrouped.

use crate::event::{ENTRY, LEAF, PATH, PATH_COLUMNS, ROLE};
use crate::field;
use crate::session::{self, HEAD, HEAD_COUNT, HEAD_LEAVES};
use crate::sheet::{COLUMNS, LINE};
use crate::slips::Slip;
use crate::state::Look;

/// How CR 5 is read: as it is meant, or in a wrong way, which a comparison must find out.
#[derive(Clone, Copy, Debug, Default, PartialEq, Eq)]
pub enum Reading {
    #[default]
    AsMeant,
    /// The halves of the value stay where they are.
    HalvesInPlace,
    /// The mirrored value is cut where the first is: after as many leaves as A has.
    CutAtA,
    /// The blocks of the list stay where they are, with their marks exchanged.
    BlocksInPlace,
    /// The blocks of the list are exchanged, and keep their marks.
    MarksInPlace,
    /// Every mark of a path is exchanged.
    EveryMark,
    /// Touches keep their first marks.
    TouchesInPlace,
    /// Paths are equal before the choice is made.
    NeverRotated,
    /// Paths are rotated after the choice, too.
    RotatedAfterChoice,
    /// Paths are rotated the other way: from a, (b, c) to (a, b), c.
    RotatedBack,
}

impl Reading {
    /// Wrong readings of mirrored sheets, and of regrouped ones.
    pub const WRONG_OF_MIRRORED: [Reading; 6] = [
        Reading::HalvesInPlace,
        Reading::CutAtA,
        Reading::BlocksInPlace,
        Reading::MarksInPlace,
        Reading::EveryMark,
        Reading::TouchesInPlace,
    ];
    pub const WRONG_OF_REGROUPED: [Reading; 3] =
        [Reading::NeverRotated, Reading::RotatedAfterChoice, Reading::RotatedBack];
}

/// The sheet with A and B of its last line exchanged.
pub fn mirrored_sheet(text: &[u8]) -> Vec<u8> {
    let mut text = text.to_vec();
    let last = text.len() - LINE;
    let (a, b) = (COLUMNS[2].clone(), COLUMNS[3].clone());
    text[last..][a.start..b.end].rotate_left(a.len());
    text
}

/// The event with its first mark exchanged. Whatever else stands in it stays, its role too.
pub fn mirrored_event(event: &[u8], reading: Reading) -> Vec<u8> {
    let mut event = event.to_vec();
    let columns = event.len().min(PATH_COLUMNS.end);
    if let Some(path) = event[..columns].get_mut(ROLE..).filter(|_| reading != Reading::TouchesInPlace) {
        exchange_marks(path, reading);
    }
    event
}

/// Exchanges 1 and 2 in the first column that is no space.
fn exchange_marks(columns: &mut [u8], reading: Reading) {
    let exchanged = if reading == Reading::EveryMark { usize::MAX } else { 1 };
    for column in columns.iter_mut().skip_while(|column| **column == b' ').take(exchanged) {
        *column = match *column {
            b'1' => b'2',
            b'2' => b'1',
            other => other,
        };
    }
}

/// The path on the sheet a, (b, c) to what stands at this one on (a, b), c, while no choice is made. None where it would
/// have 17 marks.
pub fn rotated(path: &[u8]) -> Option<Vec<u8>> {
    let rotated = match path {
        [b'1', b'1', rest @ ..] => [b"1", rest].concat(),
        [b'1', b'2', rest @ ..] => [b"21", rest].concat(),
        [b'1'] => b"2".to_vec(),
        [b'2', rest @ ..] => [b"22", rest].concat(),
        _ => path.to_vec(),
    };
    (rotated.len() <= PATH).then_some(rotated)
}

/// The other way; the two are inverse to each other.
pub fn rotated_back(path: &[u8]) -> Option<Vec<u8>> {
    let rotated = match path {
        [b'2', b'2', rest @ ..] => [b"2", rest].concat(),
        [b'2', b'1', rest @ ..] => [b"12", rest].concat(),
        [b'2'] => b"1".to_vec(),
        [b'1', rest @ ..] => [b"11", rest].concat(),
        _ => path.to_vec(),
    };
    (rotated.len() <= PATH).then_some(rotated)
}

/// The event with the path of its counterpart, and its own role.
pub fn regrouped_event(event: &[u8], made: bool, reading: Reading) -> Option<Vec<u8>> {
    let (role, rest) = event.split_at(event.len().min(ROLE));
    Some([role, &regrouped(rest, made, reading)?].concat())
}

/// The entry, or what stands behind an event's role, with the path of its counterpart: where no choice is made and these
/// columns are a path, the rotated one. None where there is none.
pub fn regrouped(bytes: &[u8], made: bool, reading: Reading) -> Option<Vec<u8>> {
    let stays = match reading {
        Reading::NeverRotated => true,
        Reading::RotatedAfterChoice => false,
        _ => made,
    };
    let marks = bytes.get(..PATH).map_or(&[][..], field::after_spaces);
    if stays || marks.is_empty() || !marks.iter().all(|mark| matches!(mark, b'1' | b'2')) {
        return Some(bytes.to_vec());
    }
    let path = if reading == Reading::RotatedBack { rotated_back(marks) } else { rotated(marks) }?;
    let spaces = vec![b' '; PATH - path.len()];
    Some([&spaces, &path, &bytes[PATH..]].concat())
}

/// A screen as it is printed: its head line, and its entries.
#[derive(Clone, Debug, PartialEq, Eq)]
pub struct Screen {
    pub head: Vec<u8>,
    pub entries: Vec<Vec<u8>>,
}

impl Screen {
    /// What is printed for a look, with answer and strides 0.
    pub fn of(look: &Look) -> Screen {
        let mut bytes = Vec::new();
        session::print(&mut bytes, Ok(0), look, Slip::None).expect("memory is written");
        Screen::all(&bytes).and_then(|mut screens| screens.pop()).expect("a whole screen")
    }

    /// The screens in these bytes; none where one is not whole.
    pub fn all(mut bytes: &[u8]) -> Option<Vec<Screen>> {
        let mut screens = Vec::new();
        while !bytes.is_empty() {
            let (head, rest) = bytes.split_at_checked(HEAD)?;
            let count = field::read(&head[HEAD_COUNT], Slip::None).number()?;
            let (entries, rest) = rest.split_at_checked(usize::try_from(count).ok()? * ENTRY)?;
            screens.push(Screen { head: head.to_vec(), entries: entries.chunks(ENTRY).map(<[u8]>::to_vec).collect() });
            bytes = rest;
        }
        Some(screens)
    }

    /// The answer.
    pub fn number(&self) -> Option<i32> {
        field::read(&self.head[..4], Slip::None).number()
    }

    pub fn has_value(&self) -> bool {
        self.head[11] == b'1'
    }

    /// Leaves `from` to `to` of its value, as columns.
    pub fn leaves(&self, from: usize, to: usize) -> &[u8] {
        &self.head[HEAD_LEAVES + from * LEAF..HEAD_LEAVES + to * LEAF]
    }

    /// The entries behind a first mark.
    pub fn block(&self, mark: u8) -> Vec<Vec<u8>> {
        let is_behind = |entry: &&Vec<u8>| field::after_spaces(&entry[..PATH]).first() == Some(&mark);
        self.entries.iter().filter(is_behind).cloned().collect()
    }

    /// The screen of the mirrored sheet, where A has `first` leaves and B `second`.
    pub fn mirrored(&self, first: usize, second: usize, reading: Reading) -> Screen {
        let mut head = self.head.clone();
        let cut = match reading {
            Reading::HalvesInPlace => 0,
            Reading::CutAtA => second,
            _ => first,
        };
        head[HEAD_LEAVES..HEAD_LEAVES + (first + second) * LEAF].rotate_left(cut * LEAF);
        let mut entries = match reading {
            Reading::BlocksInPlace => self.entries.clone(),
            _ => [self.block(b'2'), self.block(b'1')].concat(),
        };
        if reading != Reading::MarksInPlace {
            entries.iter_mut().for_each(|entry| exchange_marks(&mut entry[..PATH], reading));
        }
        Screen { head, entries }
    }

    /// The screen of the regrouped sheet; none where a path has no counterpart.
    pub fn regrouped(&self, made: bool, reading: Reading) -> Option<Screen> {
        let entries = self.entries.iter().map(|entry| regrouped(entry, made, reading)).collect::<Option<_>>()?;
        Some(Screen { head: self.head.clone(), entries })
    }

    /// Whether this is the screen of the same state as `before`, after a touch that was refused; the list is the same where
    /// it is that of the same role.
    pub fn refuses(&self, before: &Screen, same_role: bool) -> bool {
        matches!(self.number(), Some(8 | 9))
            && self.head[4..8] == *b"   0"
            && self.head[8..HEAD_COUNT.start] == before.head[8..HEAD_COUNT.start]
            && (!same_role || self.entries == before.entries)
    }
}
