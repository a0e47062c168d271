//! Files of steps, which the program `test_replay` does one after another: they
//! lend texts, rows and boards, call an export, and compare. A step is a byte for
//! what it does, a place of the program's memory in two bytes, the number of its
//! data's bytes in one (or 255 and then the number in two), and the data. The
//! memory is 32,768 words of 32 bits; numbers of more than a byte are
//! little-endian.

use crate::vectors::Vectors;

pub mod expected;
pub mod finder;
pub mod lent;
pub mod memory;
pub mod readers;

pub use memory::*;

/// The exports by their numbers.
#[derive(Clone, Copy)]
pub enum Call {
    /// Opens a cursor over the tokens of the text.
    Open,
    /// The next token from the cursor's place on.
    Next,
    /// The text from the cursor's place on.
    Trailing,
    /// The heading of the text as one board.
    ParseHeading,
    /// How many boards the text has as a file.
    CountBoards,
    /// The heading of the board of a number.
    FileHeading,
    /// Opens a cursor over the boards of the text.
    OpenBoards,
    /// The next part or line from the board cursor on, and whether it is a board.
    NextBoard,
    /// The text as one board, with its calls and its play.
    ParseLin,
    /// The board of a number, with its calls and its play.
    FileBoard,
    /// How many boards have the second text as a name, with work space.
    FindName,
    /// Writes the rows as tokens, and what trails them.
    WriteDocument,
    /// Writes the lent board after the used bytes.
    Append,
    /// Writes the lent board from the first byte on.
    WriteLin,
    /// Writes the lent cards trick by trick.
    PlayText,
    /// Writes the text of a raw annotation.
    AnnotationText,
    /// Makes a board of the lent PBN record.
    FromBoard,
    /// Whether the lent board equals the second one.
    SameBoard,
    /// The next board from the board cursor on, with its calls and its play, and the
    /// cursor's step to it.
    ReadBoard,
    /// Whether the calls of the rows are a lawful auction, with the dealer of the lent
    /// board.
    CheckAuction,
}

/// A file of steps that is being made.
#[derive(Default)]
pub struct Steps {
    bytes: Vec<u8>,
    /// Where the last step begins, if it puts or compares small words.
    last: Option<usize>,
}

fn place(n: usize) -> [u8; 2] {
    u16::try_from(n)
        .expect("a place of the memory")
        .to_le_bytes()
}

impl Steps {
    /// A file with its constants.
    pub fn new() -> Steps {
        let mut s = Steps::default();
        s.set(ZERO, &[0, 1, WORD, MARK.into(), 208, 2, 3, 4, u32::MAX]);
        s.set(ALL_WORDS, &[MOST_WORDS, MOST_CARDS]);
        s.set(
            TEXT,
            &[0, 0, SECOND_TEXT, 0, FIRST_CARDS, 0, SECOND_CARDS, 0],
        );
        s.set(ROWS, &[READ_ROWS as u32, 0, READ_ROWS2 as u32, 0]);
        s.set(NUMBER, &[0, 0, 0, 0, 0]);
        s
    }

    fn step(&mut self, op: u8, at: usize, data: &[u8]) {
        self.last = None;
        self.bytes.push(op);
        self.bytes.extend(place(at));
        if data.len() < 255 {
            self.bytes.push(data.len() as u8);
        } else {
            self.bytes.push(255);
            self.bytes.extend(place(data.len()));
        }
        self.bytes.extend(data);
    }

    fn numbers(&mut self, op: u8, at: usize, words: &[u32]) {
        if words.is_empty() || self.merged(op, at, words) {
            return;
        }
        if words.iter().all(|w| *w < 256) {
            let small: Vec<u8> = words.iter().map(|w| *w as u8).collect();
            let begins = self.bytes.len();
            self.step(op, at, &small);
            self.last = Some(begins);
        } else {
            let data: Vec<u8> = words.iter().flat_map(|w| w.to_le_bytes()).collect();
            self.step(op + 1, at, &data);
        }
    }

    /// Puts words from a place on.
    pub fn set(&mut self, at: usize, words: &[u32]) {
        self.numbers(0, at, words);
    }

    /// Puts a number of two words.
    pub fn long(&mut self, at: usize, n: u64) {
        self.set(at, &[n as u32, (n >> 32) as u32]);
    }

    /// Copies so many words; with a stride of 0 all are the same one.
    pub fn copy(&mut self, to: usize, from: usize, count: usize, stride: usize) {
        let data = [from, count, stride].map(place).concat();
        self.step(2, to, &data);
    }

    /// Puts one word so many times.
    pub fn repeat(&mut self, to: usize, from: usize, count: usize) {
        self.copy(to, from, count, 0);
    }

    /// Counts each card from a place on.
    pub fn count(&mut self, at: usize, held: &[u8]) {
        self.step(3, at, held);
    }

    /// Adds the word at the other place to the word at the first.
    pub fn add(&mut self, at: usize, other: usize) {
        self.step(4, at, &place(other));
    }

    /// Takes the word at the other place from the word at the first.
    pub fn sub(&mut self, at: usize, other: usize) {
        self.step(5, at, &place(other));
    }

    /// Lends bytes: they go where the word at the place says, and their number
    /// into the word after it.
    pub fn lend(&mut self, at: usize, bytes: &[u8]) {
        self.step(6, at, bytes);
    }

    /// Puts bytes where the word at the place says.
    pub fn patch(&mut self, at: usize, bytes: &[u8]) {
        self.step(7, at, bytes);
    }

    /// Lends a text of one byte so many times.
    pub fn lend_many(&mut self, at: usize, byte: u8, count: usize) {
        self.set(at + 1, &[count as u32]);
        self.step(8, at, &[byte]);
    }

    /// Marks the output's part, so many bytes from its first on.
    pub fn mark(&mut self, len: usize) {
        self.set(OUT, &[0, len as u32]);
        self.mark_again();
    }

    /// Marks the output's part once more, after a call wrote there.
    pub fn mark_again(&mut self) {
        self.step(64 + 8, OUT, &[MARK]);
    }

    /// Steps that are done only where a step goes to them.
    pub fn block(&mut self, at: usize, make: impl FnOnce(&mut Steps)) {
        let mut inner = Steps::default();
        make(&mut inner);
        inner.step(18, 0, &[]);
        self.step(16, at, &inner.bytes);
    }

    /// Does the steps of a block, and then those after this one.
    pub fn go(&mut self, block: usize) {
        self.step(17, block, &[]);
    }

    /// Goes on with a block's steps if a word is this one.
    pub fn jump_if(&mut self, block: usize, at: usize, value: u8) {
        let [a, b] = place(at);
        self.step(21, block, &[a, b, value]);
    }

    /// The end of a case of a group.
    pub fn case(&mut self, group: usize) {
        self.step(19, group, &[]);
    }

    /// The lines of the groups, from 0 on.
    pub fn say(&mut self, subject: &str, names: &[&str]) {
        for (group, name) in names.iter().enumerate() {
            self.step(20, group, format!("{subject} {name}").as_bytes());
        }
    }

    /// Calls an export with what is lent, and lays its answer into the memory.
    pub fn call(&mut self, call: Call) {
        self.step(48, call as usize, &[]);
    }

    /// The words from a place on are these.
    pub fn is(&mut self, at: usize, words: &[u32]) {
        self.numbers(32, at, words);
    }

    /// Small words right after those of a last step of the same kind join them.
    fn merged(&mut self, op: u8, at: usize, words: &[u32]) -> bool {
        let Some(b) = self.last.filter(|b| self.bytes[*b] == op) else {
            return false;
        };
        let begins = u16::from_le_bytes([self.bytes[b + 1], self.bytes[b + 2]]) as usize;
        let len = self.bytes[b + 3] as usize;
        let fits = len + words.len() < 255 && words.iter().all(|w| *w < 256);
        if begins + len != at || !fits {
            return false;
        }
        self.bytes[b + 3] += words.len() as u8;
        self.bytes.extend(words.iter().map(|w| *w as u8));
        true
    }

    /// As many words as a word says, from a place moved by a word on, are those
    /// from another place on; with a stride of 0 the one there.
    pub fn agree(&mut self, at: usize, from: usize, count: usize, stride: usize, by: usize) {
        let data = [from, count, stride, by].map(place).concat();
        self.step(34, at, &data);
    }

    /// The word is that at another place.
    pub fn same(&mut self, at: usize, from: usize) {
        self.agree(at, from, ONE, 1, ZERO);
    }

    /// As many spans as a word says, a stride apart, are those of another place,
    /// which are moved by a word.
    pub fn moved(&mut self, at: usize, whole: usize, count: usize, stride: usize, by: usize) {
        let data = [whole, count, stride, by].map(place).concat();
        self.step(35, at, &data);
    }

    /// The span at a place is within the text, and has these bytes.
    pub fn shows(&mut self, at: usize, bytes: &[u8]) {
        self.step(36, at, bytes);
    }

    /// The output has these bytes where the word at the place says.
    pub fn wrote(&mut self, at: usize, bytes: &[u8]) {
        self.step(64 + 37, at, bytes);
    }

    /// The output's part by the start and length at a place is all this byte.
    pub fn all_are(&mut self, at: usize, byte: u8) {
        self.step(64 + 38, at, &[byte]);
    }

    /// The output's part by the start and length at a place is the second text.
    pub fn is_text2(&mut self, at: usize) {
        self.step(49, at, &[]);
    }

    /// The output is as it was.
    pub fn stayed(&mut self) {
        self.all_are(OUT, MARK);
    }

    /// The answer is this refusal, or with 0 a value, and no more.
    pub fn answer(&mut self, refusal: u32, kind: u32, value: u64) {
        self.is(ANSWER, &[refusal, kind, value as u32, 0, 0, 0, 0, 0]);
        self.is(HIGH, &[0, 0, (value >> 32) as u32, 0, 0, 0, 0, 0]);
    }

    /// The file with all its steps.
    pub fn done(self) -> Vectors {
        Vectors::of(self.bytes)
    }
}

#[cfg(test)]
mod tests {
    use super::*;
    use std::{collections::HashMap, fs, path::Path};

    /// The constants of a source below the repository's root, by their names.
    fn constants(file: &str) -> HashMap<String, String> {
        let root = Path::new(env!("CARGO_MANIFEST_DIR")).join("..");
        let source = fs::read_to_string(root.join(file)).unwrap();
        let parts = |line: &str| {
            let (name, rest) = line.strip_prefix("pub const ")?.split_once(": ")?;
            let value = rest.split_once(" = ")?.1.strip_suffix(';')?;
            Some((name.to_string(), value.to_string()))
        };
        source.lines().filter_map(parts).collect()
    }

    /// The places and sizes that these files go by are those of the program.
    #[test]
    fn places_are_the_programs() {
        let ours = constants("oracle/src/steps/memory.rs");
        let memory = constants("crates/test_memory/src/memory.rt");
        let both = ours.iter().filter(|(name, _)| memory.contains_key(*name));
        let mut n = 0;
        for (name, value) in both {
            assert_eq!(value, &memory[name], "{name}");
            n += 1;
        }
        assert!(n >= 24, "{n}");
        let lent = constants("crates/test_memory/src/lent_parts.rt");
        for (our, their) in [
            ("WORD", "WORD"),
            ("MARK", "MARK"),
            ("MOST_WORDS", "CALLS"),
            ("MOST_CARDS", "PLACES"),
            ("MOST_WORK", "SPACE"),
        ] {
            assert_eq!(ours[our], lent[their], "{our}");
        }
    }

    #[test]
    fn forms_of_steps() {
        let mut s = Steps::default();
        s.set(3, &[1, 2]);
        s.set(4, &[256]);
        s.is(5, &[7]);
        s.is(6, &[8]);
        s.is(8, &[9]);
        assert_eq!(
            s.bytes,
            [0, 3, 0, 2, 1, 2, 1, 4, 0, 4, 0, 1, 0, 0, 32, 5, 0, 2, 7, 8, 32, 8, 0, 1, 9]
        );
        let mut s = Steps::default();
        s.lend(TEXT, &[b'a'; 300]);
        assert_eq!(s.bytes[..6], [6, 16, 0, 255, 44, 1]);
        s.block(9, |b| b.go(10));
        assert_eq!(s.bytes[306..], [16, 9, 0, 8, 17, 10, 0, 0, 18, 0, 0, 0]);
    }
}
