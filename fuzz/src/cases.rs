//! The files: sessions as the session program reads them, lent memory as eight frames, and price lists with orders.

use reference::lent::Lent;
use reference::receipt_inputs::Input;
use std::fs;
use std::hash::{DefaultHasher, Hash, Hasher};
use std::io;
use std::path::{Path, PathBuf};

pub const SESSION: &str = "session";
pub const LENT: &str = "lent";
pub const RECEIPT: &str = "receipt";

pub struct Case<T> {
    pub name: String,
    pub content: T,
}

fn folder(name: &str) -> PathBuf {
    Path::new(env!("CARGO_MANIFEST_DIR")).join(name)
}

/// The files of the corpus and of what was found, in order.
fn files(extension: &str) -> io::Result<Vec<PathBuf>> {
    let mut files = Vec::new();
    for name in ["corpus", "found"] {
        for entry in fs::read_dir(folder(name))? {
            let file = entry?.path();
            if file.extension().is_some_and(|own| own == extension) {
                files.push(file);
            }
        }
    }
    files.sort();
    Ok(files)
}

fn read(file: &Path) -> io::Result<Case<Vec<u8>>> {
    let name = file.file_name().unwrap_or_default().to_string_lossy().into_owned();
    fs::read(file).map(|content| Case { name, content })
}

/// The sessions of the corpus and of what was found.
pub fn sessions() -> io::Result<Vec<Case<Vec<u8>>>> {
    files(SESSION)?.iter().map(|file| read(file)).collect()
}

/// The lent memories of what was found.
pub fn lents() -> io::Result<Vec<Case<Lent>>> {
    framed(LENT, lent_of)
}

/// The price lists and orders of the corpus and of what was found.
pub fn receipts() -> io::Result<Vec<Case<Input>>> {
    framed(RECEIPT, receipt_of)
}

fn framed<T>(extension: &str, of: impl Fn(&[u8]) -> Option<T>) -> io::Result<Vec<Case<T>>> {
    let case = |file: &PathBuf| {
        let Case { name, content } = read(file)?;
        let content = of(&content).ok_or_else(|| io::Error::other(format!("{name} lacks a frame")))?;
        Ok(Case { name, content })
    };
    files(extension)?.iter().map(case).collect()
}

/// Writes an input into found/, under a name that follows from it.
pub fn keep(extension: &str, bytes: &[u8]) -> io::Result<PathBuf> {
    let mut hasher = DefaultHasher::new();
    bytes.hash(&mut hasher);
    let file = folder("found").join(format!("{:016x}.{extension}", hasher.finish()));
    fs::write(&file, bytes)?;
    Ok(file)
}

/// A frame: a length in 8 columns, byte 10, and that many bytes.
fn frame(bytes: &[u8]) -> Vec<u8> {
    [format!("{:8}\n", bytes.len()).as_bytes(), bytes].concat()
}

/// The content of the first frame, which is taken off.
fn unframe(bytes: &mut &[u8]) -> Option<Vec<u8>> {
    let (head, rest) = bytes.split_at_checked(9)?;
    let (content, rest) = rest.split_at_checked(std::str::from_utf8(head).ok()?.trim().parse().ok()?)?;
    *bytes = rest;
    Some(content.to_vec())
}

/// A word is 4 bytes, the least first.
fn bytes_of_words(words: &[i32]) -> Vec<u8> {
    words.iter().flat_map(|word| word.to_le_bytes()).collect()
}

fn words_of_bytes(bytes: &[u8]) -> Vec<i32> {
    bytes.as_chunks().0.iter().map(|&word| i32::from_le_bytes(word)).collect()
}

/// Eight frames; the role is a word, too.
pub fn bytes_of(lent: &Lent) -> Vec<u8> {
    let words = bytes_of_words;
    let Lent { text, room, rows, state, role, value, list, event } = lent;
    let role = role.to_le_bytes().to_vec();
    let memories =
        [text.clone(), words(room), words(rows), words(state), role, words(value), list.clone(), event.clone()];
    memories.iter().flat_map(|bytes| frame(bytes)).collect()
}

fn lent_of(mut bytes: &[u8]) -> Option<Lent> {
    let mut frame = || unframe(&mut bytes);
    let words = |bytes: Vec<u8>| words_of_bytes(&bytes);
    Some(Lent {
        text: frame()?,
        room: words(frame()?),
        rows: words(frame()?),
        state: words(frame()?),
        role: u32::from_le_bytes(frame()?.try_into().ok()?),
        value: words(frame()?),
        list: frame()?,
        event: frame()?,
    })
}

/// The price list in a frame, and the words of the order.
pub fn bytes_of_receipt(input: &Input) -> Vec<u8> {
    [frame(&input.prices), bytes_of_words(&input.order)].concat()
}

fn receipt_of(mut bytes: &[u8]) -> Option<Input> {
    Some(Input { prices: unframe(&mut bytes)?, order: words_of_bytes(bytes) })
}

#[cfg(test)]
mod tests {
    use super::{bytes_of, bytes_of_receipt, lent_of, receipt_of};

    #[test]
    fn frames_read_as_what_was_written() {
        for lent in reference::lent::inputs(1, 200) {
            assert!(lent_of(&bytes_of(&lent)) == Some(lent));
        }
        for input in reference::receipt_inputs::inputs(1, 200) {
            assert!(receipt_of(&bytes_of_receipt(&input)) == Some(input));
        }
    }
}
