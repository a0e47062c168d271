//! Token cases: texts, and their commands, values and trailing text by
//! `LinDocument::parse`.

use crate::{random::Rng, records, steps::*, texts, vectors::Vectors};

/// Texts that document 01 names, short words, records, and texts by chance; each
/// once.
pub fn texts() -> Vec<String> {
    let mut all: Vec<String> = texts::NAMED.iter().map(|t| t.to_string()).collect();
    all.extend(texts::words(&["|", "a"], 5));
    all.extend(texts::words(&["|", "a", "\n"], 4));
    all.extend(texts::words(&["|", "a", "é", ",", "!", " "], 3));
    all.extend(texts::SAMPLES.iter().flat_map(|s| texts::beside_pipes(s)));
    all.extend((1..=20).map(|n| "|".repeat(n)));

    let rng = &mut Rng::new(1);
    all.extend((1..=4).map(|n| records::file(rng, n)));
    all.extend((1..=3).map(|n| records::lines(rng, n)));
    all.extend((1..=6).map(|n| records::movie(rng, 4 * n)));
    let record = records::file(rng, 1);
    all.push(format!("\u{FFFE}{record}"));
    all.push(record.replace('\n', "\r\n"));
    all.push(record.replace("||", "|"));

    let long = "Count your tricks — then count again. ".repeat(500);
    assert_eq!(long.len(), 20_000);
    all.push(format!("at|{long}|"));
    all.push("a|b|".repeat(2_000));
    all.push(" ".repeat(3_000));

    let rng = &mut Rng::new(2);
    all.extend((0..200).map(|_| texts::mixture(rng, 12)));
    texts::distinct(all)
}

/// The groups.
pub(crate) const LINES: [&str; 2] = ["tokens", "written"];

/// The blocks: a token, the end of the tokens, and the text written again.
const FOUND: usize = OWN_BLOCK;
const ENDED: usize = OWN_BLOCK + 1;
const WRITTEN: usize = OWN_BLOCK + 2;

/// More bytes than any text has.
const MOST_BYTES: usize = 32_768;

pub(crate) fn define(s: &mut Steps) {
    s.mark(MOST_BYTES);
    s.block(FOUND, |b| {
        b.call(Call::Next);
        b.is(ANSWER, &[1]);
        b.is(ANSWER + 6, &[0; 10]);
        b.copy(NUMBER, ANSWER + 5, 1, 1);
    });
    // No token more, and the cursor stays; what is left is from its place on.
    s.block(ENDED, |b| {
        b.call(Call::Next);
        b.is(ANSWER, &[0; 5]);
        b.same(ANSWER + 5, NUMBER);
        b.is(ANSWER + 6, &[0; 10]);
        b.call(Call::Trailing);
        b.same(ANSWER, NUMBER);
        b.is(ANSWER + 2, &[0; 14]);
        b.copy(SPAN, ANSWER, 2, 1);
    });
    s.block(WRITTEN, |b| {
        b.copy(ROOM, OUT_LEN, 1, 1);
        b.call(Call::WriteDocument);
        b.is(ANSWER, &[0, 0]);
        b.same(ANSWER + 2, TEXT + 1);
        b.is(ANSWER + 3, &[0; 13]);
        b.copy(TEXT2, TEXT, 2, 1);
        b.copy(REST, TEXT, 2, 1);
        b.is_text2(REST);
        b.copy(REST, TEXT + 1, 1, 1);
        b.copy(REST_LEN, OUT_LEN, 1, 1);
        b.sub(REST_LEN, TEXT + 1);
        b.all_are(REST, MARK);
        b.case(1);
        b.mark_again();
    });
}

/// The cursor over a text: each command and value, each place, the end and the
/// trailing text. The rows of the tokens found are kept, and written again.
pub(crate) fn put(s: &mut Steps, text: &str, tokens: &[(String, String)], trailing: &str) {
    s.lend(TEXT, text.as_bytes());
    s.call(Call::Open);
    s.answer(0, 0, 0);
    s.set(NUMBER, &[0]);
    let mut next = 0;
    for (n, (command, value)) in tokens.iter().enumerate() {
        next += command.len() + value.len() + 2;
        s.go(FOUND);
        s.shows(ANSWER + 1, command.as_bytes());
        s.shows(ANSWER + 3, value.as_bytes());
        s.is(ANSWER + 5, &[next as u32]);
        s.copy(READ_ROWS + 4 * n, ANSWER + 1, 4, 1);
    }
    s.go(ENDED);
    s.shows(ANSWER, trailing.as_bytes());
    s.case(0);
    s.set(ROWS + 1, &[4 * tokens.len() as u32]);
    s.go(WRITTEN);
}

/// The file `tokens.bin`: the tokens of each text, and the text written again.
pub fn vectors() -> Vectors {
    let mut s = Steps::new();
    define(&mut s);
    for text in texts() {
        let (tokens, trailing) = crate::tokens(&text);
        put(&mut s, &text, &tokens, &trailing);
    }
    s.say("tokens", &LINES);
    s.done()
}

#[cfg(test)]
mod tests {
    /// The tokens and the trailing text give every text again, and rows and bytes
    /// are enough for them.
    #[test]
    fn texts_are_given_again() {
        let texts = super::texts();
        assert!(texts.len() >= 700);
        for text in texts {
            let (tokens, trailing) = crate::tokens(&text);
            let pairs = tokens.iter().map(|(c, v)| format!("{c}|{v}|"));
            assert_eq!(pairs.collect::<String>() + &trailing, text);
            assert!(4 * tokens.len() <= 8_192 && text.len() < super::MOST_BYTES);
        }
    }
}
