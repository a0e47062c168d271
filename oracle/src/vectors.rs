//! The files of stored answers. That of the listings is a sequence of fields, each
//! a length of four bytes, little-endian, and that many bytes; the others are
//! steps.

use std::{fs, io, path::Path};

/// A file that is being made, of fields or of steps.
#[derive(Default)]
pub struct Vectors {
    bytes: Vec<u8>,
    cases: usize,
}

impl Vectors {
    /// A file without fields.
    pub fn new() -> Vectors {
        Vectors::default()
    }

    /// A file of these bytes.
    pub fn of(bytes: Vec<u8>) -> Vectors {
        Vectors { bytes, cases: 0 }
    }

    /// Begins a case. It leaves no mark in the file.
    pub fn case(&mut self) {
        self.cases += 1;
    }

    /// Puts a field at the end: the number of these bytes, and the bytes.
    pub fn field(&mut self, bytes: &[u8]) {
        self.bytes.extend(word(bytes.len()));
        self.bytes.extend(bytes);
    }

    /// A field of four bytes, a number little-endian.
    pub fn number(&mut self, n: usize) {
        self.field(&word(n));
    }

    /// How many cases were begun: 0 in a file of steps, whose cases the replay
    /// counts.
    pub fn cases(&self) -> usize {
        self.cases
    }

    /// All that the file holds so far.
    pub fn bytes(&self) -> &[u8] {
        &self.bytes
    }

    /// Writes the file to this place, over what is there.
    pub fn save(&self, file: &Path) -> io::Result<()> {
        fs::write(file, &self.bytes)
    }
}

fn word(n: usize) -> [u8; 4] {
    u32::try_from(n)
        .expect("a field's number fits 32 bits")
        .to_le_bytes()
}

/// The fields of a file; nothing if its last field is not whole.
pub fn fields(mut bytes: &[u8]) -> Option<Vec<&[u8]>> {
    let mut all = Vec::new();
    while !bytes.is_empty() {
        let (len, rest) = bytes.split_first_chunk::<4>()?;
        let (field, rest) = rest.split_at_checked(u32::from_le_bytes(*len) as usize)?;
        all.push(field);
        bytes = rest;
    }
    Some(all)
}
