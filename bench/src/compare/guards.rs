//! Buffers between guards, which no call may change.

use super::{same, Same};
use std::fmt::Debug;

/// How much stands on either side.
const GUARD: usize = 16;

/// A buffer of some words or bytes, with guards before and after it.
pub struct Guarded<T> {
    what: &'static str,
    all: Vec<T>,
    guards: Vec<T>,
}

impl<T: Copy + PartialEq + Debug> Guarded<T> {
    fn new(what: &'static str, held: &[T], guard: impl Fn(usize) -> T) -> Guarded<T> {
        let guards: Vec<T> = (0..2 * GUARD).map(guard).collect();
        let all = [&guards[..GUARD], held, &guards[GUARD..]].concat();
        Guarded { what, all, guards }
    }

    /// The buffer, to be lent to a call.
    pub fn lent(&mut self) -> &mut [T] {
        let end = self.all.len() - GUARD;
        &mut self.all[GUARD..end]
    }

    /// Whether the guards are as they were, whatever the buffer holds after the call.
    pub fn kept(&self) -> Same {
        let end = self.all.len() - GUARD;
        if self.all[..GUARD] != self.guards[..GUARD] || self.all[end..] != self.guards[GUARD..] {
            return Err(format!("{}: changed outside of it", self.what));
        }
        Ok(())
    }

    /// Whether the buffer holds this after the call, and the guards are as they
    /// were.
    pub fn holds(&self, want: &[T]) -> Same {
        self.kept()?;
        let held = &self.all[GUARD..self.all.len() - GUARD];
        if held == want {
            return Ok(());
        }
        same(self.what, held, want)
    }
}

/// Bytes that a buffer of this length holds before a call.
pub fn held(len: usize) -> Vec<u8> {
    (0..len).map(|i| (i * 7 + 3) as u8).collect()
}

/// The same of words.
pub fn held_words(len: usize) -> Vec<u32> {
    (0..len).map(|i| 0xA5A5_0000 | i as u32).collect()
}

/// An output, or places for cards, that hold these bytes.
pub fn bytes(what: &'static str, held: &[u8]) -> Guarded<u8> {
    Guarded::new(what, held, |i| (i * 11 + 5) as u8)
}

/// Rows that hold these words.
pub fn words(what: &'static str, held: &[u32]) -> Guarded<u32> {
    Guarded::new(what, held, |i| 0x5A5A_0000 | (i * 11) as u32)
}

#[cfg(test)]
mod tests {
    use super::*;

    #[test]
    fn what_changes_is_seen() {
        for place in 0..2 * GUARD + 3 {
            let mut buffer = bytes("output", &held(3));
            assert_eq!(buffer.holds(&held(3)), Ok(()));
            buffer.all[place] ^= 1;
            assert!(buffer.holds(&held(3)).is_err(), "{place}");
            let within = (GUARD..GUARD + 3).contains(&place);
            assert_eq!(buffer.kept().is_ok(), within, "{place}");
        }
        let mut rows = words("rows", &held_words(2));
        rows.lent()[1] = 7;
        assert_eq!(rows.holds(&[held_words(1)[0], 7]), Ok(()));
        assert!(rows.holds(&held_words(2)).is_err());
    }
}
