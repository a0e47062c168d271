//! UTF-8 cases: bytes, and the length of their longest well-formed start by
//! `std::str::from_utf8`, as the cursor opens or refuses them.

use crate::{random::Rng, records, steps::*, texts, vectors::Vectors};

/// Bytes at which some text stops being well formed, one for each kind.
const FAULTS: &[&[u8]] = &[
    // a later byte without a first one
    b"\x80",
    b"\xBF",
    // overlong forms
    b"\xC0\x80",
    b"\xC1\xBF",
    b"\xE0\x80\x80",
    b"\xE0\x9F\xBF",
    b"\xF0\x80\x80\x80",
    b"\xF0\x8F\xBF\xBF",
    // surrogates
    b"\xED\xA0\x80",
    b"\xED\xAF\xBF",
    b"\xED\xB0\x80",
    b"\xED\xBF\xBF",
    b"\xED\xA0\x80\xED\xB0\x80",
    // beyond U+10FFFF
    b"\xF4\x90\x80\x80",
    b"\xF4\xBF\xBF\xBF",
    b"\xF5\x80\x80\x80",
    b"\xF7\xBF\xBF\xBF",
    b"\xF8\x88\x80\x80\x80",
    b"\xFC\x84\x80\x80\x80\x80",
    b"\xFE",
    b"\xFF",
    // later bytes missing
    b"\xC3",
    b"\xE2",
    b"\xE2\x82",
    b"\xF0",
    b"\xF0\x9F",
    b"\xF0\x9F\x98",
    // another first byte among the later ones
    b"\xC3\xC3",
    b"\xE2\x82\xE2",
    b"\xF0\x9F\x98\xF0",
];

const EDGES: [u8; 8] = [0x7F, 0x80, 0x8F, 0x90, 0x9F, 0xA0, 0xBF, 0xC0];

/// The bytes that a first byte asks for behind it.
fn tail(first: u8) -> usize {
    match first {
        0..=0xDF => 1,
        0xE0..=0xEF => 2,
        _ => 3,
    }
}

/// Bytes that are well formed up to a fault of some kind or to their end; each
/// once.
pub fn texts() -> Vec<Vec<u8>> {
    let mut all: Vec<Vec<u8>> = vec![Vec::new()];
    all.extend((0..=255).map(|b| vec![b]));

    for first in 194..=255 {
        for n in 1..=3 {
            all.push([&[first][..], &[0x80; 3][..n]].concat());
        }
        let short = [&[first][..], &[0xBF; 3][..tail(first) - 1]].concat();
        all.push([&short[..], b"a"].concat());
        all.push([&short[..], b"\x7F\x80"].concat());
    }

    // the edges of each later byte
    for first in [
        0xC2, 0xDF, 0xE0, 0xE1, 0xEC, 0xED, 0xEE, 0xEF, 0xF0, 0xF1, 0xF3, 0xF4,
    ] {
        for place in 1..=tail(first) {
            for edge in EDGES {
                // A0 hex is good behind every first byte but ED and F4.
                let second = match first {
                    0xED => 0x90,
                    0xF4 => 0x85,
                    _ => 0xA0,
                };
                let mut text = vec![first, second, 0x85, 0x85];
                text.truncate(1 + tail(first));
                text[place] = edge;
                all.push(text);
            }
        }
    }

    for good in ["a", "é", "€", "😀", "mn|Åsa|"] {
        for fault in FAULTS {
            all.push([good.as_bytes(), fault].concat());
        }
    }
    for fault in FAULTS {
        all.push([b"a", *fault, "é|".as_bytes()].concat());
    }

    let mixed = "a|é\u{301}ż€\u{FEFF}\u{FFFF}😀\u{10FFFF}\0\u{7F}\u{80}\u{7FF}\u{800}\u{D7FF}\u{E000}\u{10000}.";
    all.extend((0..=mixed.len()).map(|n| mixed.as_bytes()[..n].to_vec()));
    all.extend((0..mixed.len()).map(|n| mixed.as_bytes()[n..].to_vec()));

    for n in [
        7, 8, 9, 15, 16, 17, 31, 32, 33, 63, 64, 65, 255, 256, 1_000, 4_000,
    ] {
        let ascii = b"LIN ".iter().copied().cycle().take(n);
        all.push(ascii.clone().chain([0xFF]).collect());
        all.push(ascii.chain([0xC3, 0xA9, 0x80]).collect());
    }
    all.push("é€😀".repeat(300).into_bytes());

    let rng = &mut Rng::new(3);
    all.extend((0..150).map(|_| texts::bytes(rng, 12)));
    for _ in 0..150 {
        let text = texts::mixture(rng, 3);
        all.push(texts::damaged(rng, text.as_bytes(), 3));
    }
    all.push(records::movie(rng, 6).into_bytes());
    texts::distinct(all)
}

/// The length of the longest well-formed start; the blocks of a text that is all
/// well formed, and of one that is not.
const WELL_FORMED: usize = OWN_NUMBER;
const OPENED: usize = OWN_BLOCK;
const REFUSED: usize = OWN_BLOCK + 1;

/// The file `utf8.bin`: each text opened, or refused by 2 with the length of its
/// longest well-formed start.
pub fn vectors() -> Vectors {
    let mut s = Steps::new();
    s.block(OPENED, |b| {
        b.call(Call::Open);
        b.answer(0, 0, 0);
        b.case(0);
    });
    s.block(REFUSED, |b| {
        b.call(Call::Open);
        b.is(ANSWER, &[2, 0]);
        b.same(ANSWER + 2, WELL_FORMED);
        b.is(ANSWER + 3, &[0; 13]);
        b.case(0);
    });
    for text in texts() {
        let good = crate::well_formed(&text);
        s.lend(TEXT, &text);
        if good == text.len() {
            s.go(OPENED);
        } else {
            s.set(WELL_FORMED, &[good as u32]);
            s.go(REFUSED);
        }
    }
    s.say("utf8", &["starts"]);
    s.done()
}

#[cfg(test)]
mod tests {
    #[test]
    fn every_fault_is_one() {
        for fault in super::FAULTS {
            assert!(std::str::from_utf8(fault).is_err());
        }
    }
}
