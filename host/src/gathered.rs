//! Texts gathered into one, with their places in it; parts of texts and outputs
//! as `str`; and outputs of the length that is needed.

use crate::{boards::LinText, tokens::Span, Refusal, LIMIT};

/// Puts a part at the end of the text. A text whose places pass 32 bits is
/// longer than a text may be, and refused before its places are looked at.
pub(crate) fn gather(text: &mut Vec<u8>, part: &str) -> Span {
    let word = |n: usize| u32::try_from(n).unwrap_or(u32::MAX);
    let span = Span::new(word(text.len()), word(part.len()));
    text.extend(part.as_bytes());
    span
}

pub(crate) fn gather_some(text: &mut Vec<u8>, part: Option<&str>) -> LinText {
    let Span { start, len } = part.map_or(Span::default(), |part| gather(text, part));
    LinText {
        present: part.is_some().into(),
        start,
        len,
    }
}

/// A part of a text that the library accepted. It cuts such a text only between
/// characters, so this is UTF-8.
pub(crate) fn shown(part: &[u8]) -> &str {
    std::str::from_utf8(part).expect("a part of a text that was accepted")
}

/// What the library wrote of texts that it accepted, which is UTF-8.
pub(crate) fn written(output: Vec<u8>) -> String {
    String::from_utf8(output).expect("what was written is UTF-8")
}

/// What is written, in an output of its length: the refusal of an empty one
/// tells how long it is.
pub(crate) fn fitted(write: impl Fn(&mut [u8]) -> Result<u64, Refusal>) -> Result<String, Refusal> {
    let needed = match write(&mut []) {
        Err(Refusal::OutputTooSmall(n)) => n,
        told => told?,
    };
    let room = usize::try_from(needed).map_or(LIMIT, |n| n.min(LIMIT));
    let mut out = vec![0; room];
    write(&mut out)?;
    Ok(written(out))
}
