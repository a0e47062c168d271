//! Annotations and boards made of PBN records against what is expected and the
//! model. Every buffer stands between guards.

use super::{
    boards::fields_of,
    guards::{bytes, held, held_words, words},
    same, Same,
};
use crate::{
    expected,
    model::{self, clean, pbn::Told},
    upstream,
};
use lin_host_rust::{
    boards::ROW,
    pbn::{self, Lent, NoteWords},
    tokens::Span,
    LIMIT,
};
use oracle::{bridge_types::Call, pbn::Record};

/// The text of a raw annotation in an output of `len` bytes: answer and output
/// are the model's.
pub fn annotation(text: &[u8], raw: Span, notes: &NoteWords, len: usize) -> Same {
    let mut want = held(len);
    let mut out = bytes("output", &want);
    let wanted = model::pbn::annotation(text, raw, notes, &mut want);
    let got = pbn::annotation_numbers(text, raw, notes, out.lent());
    same("answer", got.read(), wanted)?;
    out.holds(&want)?;
    if got.answer.refusal == 0 {
        return cleaned(text, raw, notes);
    }
    Ok(())
}

/// The annotation of a board made is the model's text, cleaned; and the safe wrapper
/// gives that text.
fn cleaned(text: &[u8], raw: Span, notes: &NoteWords) -> Same {
    let notes = model::pbn::note_texts(text, notes);
    let raw = std::str::from_utf8(raw.of(text)).map_err(|e| e.to_string())?;
    let want = model::pbn::annotation_text(raw, &notes);
    let call = oracle::bridge_types::AnnotatedCall {
        call: Call::Pass,
        annotation: Some(raw.to_string()),
    };
    let made = expected::made(&Record {
        calls: vec![call],
        notes: notes.iter().map(|(n, t)| (*n, t.to_string())).collect(),
        ..Record::default()
    })?;
    let cleaned = want.as_deref().map(clean);
    same("cleaned", &made.auction[0].annotation, &cleaned)?;
    same("as a text", pbn::annotation_text(raw, &notes), Ok(want))
}

/// The text in outputs that just fit, are longer, and are a byte smaller, or
/// refused in any.
pub fn annotations(text: &[u8], raw: Span, notes: &NoteWords) -> Same {
    let mut room = vec![0; LIMIT.min(1 << 16)];
    let n = match model::pbn::annotation(text, raw, notes, &mut room) {
        Ok(len) => len.unwrap_or(0) as usize,
        Err(refusal) => refusal.carried().unwrap_or(0).min(1 << 20) as usize,
    };
    annotation(text, raw, notes, n)?;
    annotation(text, raw, notes, n + 5)?;
    if n > 0 {
        return annotation(text, raw, notes, n - 1);
    }
    Ok(())
}

/// How many bytes, words of rows and places for cards are lent.
#[derive(Debug, Clone, Copy)]
pub struct Sizes {
    /// Bytes of the output.
    pub bytes: usize,
    /// Words of the rows.
    pub words: usize,
    /// Places for cards.
    pub places: usize,
}

/// A record lent with so much: the whole answer and all that is lent are the
/// model's, whose board is the expected one.
pub fn converted(lent: Lent, sizes: Sizes) -> Same {
    if model::pbn::refusal(&lent).is_none() {
        expected::made(&upstream::record(lent))?;
    }
    answered(lent, sizes)
}

/// The same, once the board is known to be the expected one.
fn answered(lent: Lent, sizes: Sizes) -> Same {
    let mut want = (
        held(sizes.bytes),
        held_words(sizes.words),
        held(sizes.places),
    );
    let mut out = bytes("output", &want.0);
    let mut rows = words("rows", &want.1);
    let mut cards = bytes("cards", &want.2);
    let wanted = model::pbn::convert(lent, &mut want.0, &mut want.1, &mut want.2);
    let got = lent.convert_numbers(out.lent(), rows.lent(), cards.lent());
    let at = |d: String| format!("{sizes:?}: {d}");
    same(
        "answer",
        got.heading.answer.read(),
        wanted.heading.answer.read(),
    )
    .map_err(at)?;
    if got != wanted {
        return same("answer", got, wanted).map_err(at);
    }
    out.holds(&want.0).map_err(at)?;
    rows.holds(&want.1).map_err(at)?;
    cards.holds(&want.2).map_err(at)
}

/// A record with exactly enough of all, with more, and with a byte, a row, a
/// place or all three less; or refused with any. The safe wrapper gives the board
/// expected.
pub fn record(lent: Lent) -> Same {
    if model::pbn::refusal(&lent).is_some() {
        let none = Sizes {
            bytes: 0,
            words: 0,
            places: 0,
        };
        let some = Sizes {
            bytes: 300,
            words: 60,
            places: 20,
        };
        answered(lent, none)?;
        return answered(lent, some);
    }
    let made = expected::made(&upstream::record(lent))?;
    let told = Told::from(&made);
    let exact = Sizes {
        bytes: told.texts.len(),
        words: told.rows.len(),
        places: told.cards.len(),
    };
    answered(lent, exact)?;
    let more = Sizes {
        bytes: exact.bytes + 9,
        words: exact.words + ROW + 5,
        places: exact.places + 3,
    };
    answered(lent, more)?;
    lacking(lent, exact)?;
    wrapped(lent, &made)
}

/// Refused where something is lacking.
fn lacking(lent: Lent, exact: Sizes) -> Same {
    let less = |n: usize| n.saturating_sub(1);
    let Sizes {
        bytes,
        words,
        places,
    } = exact;
    let sizes = |bytes, words, places| Sizes {
        bytes,
        words,
        places,
    };
    answered(lent, sizes(less(bytes), words, places))?;
    answered(lent, sizes(bytes, less(words), places))?;
    answered(lent, sizes(bytes, words, less(places)))?;
    answered(lent, sizes(less(bytes), less(words), less(places)))?;
    answered(lent, sizes(less(bytes), words, less(places)))
}

/// The board of the safe wrapper.
fn wrapped(lent: Lent, made: &oracle::lin::LinData) -> Same {
    let record = upstream::record(lent);
    match pbn::from_board(&upstream::pbn_record(&record)) {
        Ok(got) => fields_of(&got.board(), made),
        Err(refusal) => Err(format!("refused: {refusal:?}")),
    }
}
