//! The sweep over every short word of some letters.

use super::{
    scalars::{annotation, board, file},
    Kind, Report,
};
use crate::{
    compare::{self, Same},
    model::names::{canonical, mapped},
};

/// Letters, the longest word of them, what stands before and after a word, and
/// how it is compared.
struct Letters {
    letters: &'static [&'static str],
    longest: u32,
    around: [&'static str; 2],
    compared: fn(&str) -> Same,
}

const LETTERS: &[Letters] = &[
    Letters {
        letters: &["|", "a", "\n", "é", " "],
        longest: 7,
        around: ["", ""],
        compared: compare::text,
    },
    Letters {
        letters: &[
            "md|1SA|", "md|0|", "qx|a|", "mn||", "pn|b,|", "mb|1C!|", "an|x|", "pc|SA|", "mc|9|",
            "mc|x|", "sv|b|", "\n",
        ],
        longest: 4,
        around: ["", ""],
        compared: board,
    },
    Letters {
        letters: &[
            "md|1|", "md|0|", "qx|a|", "mn|t|", "pn|b|", "mb|p|", "\n", " ", "|",
        ],
        longest: 4,
        around: ["", ""],
        compared: whole_file,
    },
    Letters {
        letters: &["S", "h", "A", "k", "x", ",", "1"],
        longest: 5,
        around: ["md|1", "|"],
        compared: board,
    },
    Letters {
        letters: &["n", "s", "E", "w", "b", "o", "t", "h", "a", "L", " "],
        longest: 4,
        around: ["sv|b|sv|", "|"],
        compared: board,
    },
    Letters {
        letters: &["0", "1", "2", "5", "6", "+", "-", " "],
        longest: 5,
        around: ["mc|7|mc|", "|"],
        compared: board,
    },
    Letters {
        letters: &["S", "d", "A", "2", "1", "0", "é", " ", "!"],
        longest: 4,
        around: ["pc|", "|"],
        compared: board,
    },
    Letters {
        letters: &["!", "1", "C", " ", "é"],
        longest: 5,
        around: ["mb|", "|an|x|"],
        compared: board,
    },
    Letters {
        letters: &["=", "1", "$", "!", "?", "+", "é"],
        longest: 6,
        around: ["", ""],
        compared: annotation,
    },
    Letters {
        letters: &["p ", "d ", "r ", "1C ", "1N ", "2C "],
        longest: 6,
        around: ["", ""],
        compared: auction,
    },
    Letters {
        letters: &[
            "p", "P", "d", "D", "r", "0", "1", "7", "8", "c", "H", "s", "N", "n", "T", "t", "!",
            " ", "é", "\u{17F}", "\u{FEFF}",
        ],
        longest: 3,
        around: ["", ""],
        compared: bid_alone,
    },
    Letters {
        letters: &[
            "e", "é", "\u{1EB9}", "\u{300}", "\u{301}", "\u{323}", "\u{31B}", "\u{34F}", "\u{59A}",
        ],
        longest: 4,
        around: ["", ""],
        compared: spelled,
    },
    Letters {
        letters: &["\u{FEFF}", "|", "a", "\n"],
        longest: 6,
        around: ["", ""],
        compared: compare::text,
    },
    Letters {
        letters: &["\u{FEFF}", "\u{FFFE}", " ", "m", "D"],
        longest: 5,
        around: ["", "|1SA|"],
        compared: board,
    },
    Letters {
        letters: &["\u{FEFF}", "\u{1EFF}", "\u{3000}", "1", "4", "S", "a", ","],
        longest: 4,
        around: ["md|", "|"],
        compared: board,
    },
    Letters {
        letters: &["\u{FEFF}", "\u{FEFE}", "\u{200B}", "\u{A0}", "x", "S", ","],
        longest: 4,
        around: ["md|1SAKQJT98765432,HAKQJT98765432,DAKQJT98765432,", "|"],
        compared: board,
    },
    Letters {
        letters: &["\u{FEFF}", "\u{FF00}", " ", "n", "S"],
        longest: 5,
        around: ["sv|b|sv|", "|"],
        compared: board,
    },
    Letters {
        letters: &["\u{FEFF}", "\u{2060}", "\n", "d", "T"],
        longest: 5,
        around: ["pc|", "|"],
        compared: board,
    },
    Letters {
        letters: &["\u{FEFF}", "\u{FFFE}", " ", "+", "1", "9"],
        longest: 4,
        around: ["mc|7|mc|", "|"],
        compared: board,
    },
    Letters {
        letters: &["\u{FEFF}", "!", "p", " "],
        longest: 4,
        around: ["mb|", "|an|\u{FEFF}|"],
        compared: board,
    },
    Letters {
        letters: &["\u{FEFF}", "\u{FFFE}", "\u{2028}", " ", "\n", "pn|b|"],
        longest: 5,
        around: ["", ""],
        compared: whole_file,
    },
    Letters {
        letters: &["\u{FEFF}", "qx|a|", "md|1|", "mn|t|", "pn|b|", "\n", "|"],
        longest: 4,
        around: ["", ""],
        compared: whole_file,
    },
    Letters {
        letters: &["\u{FEFF}", "=", "1", "$", "!"],
        longest: 5,
        around: ["", ""],
        compared: annotation,
    },
];

/// The auction of a word's bids, with a space after each.
fn auction(text: &str) -> Same {
    let bids: Vec<&str> = text.split_terminator(' ').collect();
    compare::bids(&bids)
}

/// A word as the one bid of an auction, and after a pass.
fn bid_alone(bid: &str) -> Same {
    compare::bids(&[bid]).and_then(|()| compare::bids(&["p", bid]))
}

/// A word as a name among those of the same letters: mapped, ordered, from the last to
/// the first, and with the last two exchanged.
fn spelled(word: &str) -> Same {
    let mut exchanged: Vec<char> = word.chars().collect();
    let last = exchanged.len();
    exchanged[last.saturating_sub(2)..].reverse();
    let apart = [mapped(word), canonical(word), exchanged].map(String::from_iter);
    let back: String = word.chars().rev().collect();
    let all = [word, &apart[0], &apart[1], &apart[2], &back];
    let text: String = all.map(|name| format!("pn|{name}|\n")).concat();
    compare::names(text.as_bytes(), &all.map(str::as_bytes))
}

fn whole_file(text: &str) -> Same {
    file(text).and_then(|()| compare::name(text.as_bytes(), b"b"))
}

impl Letters {
    /// How many words there are of each length up to the longest.
    fn many(&self) -> u64 {
        (0..=self.longest)
            .map(|n| (self.letters.len() as u64).pow(n))
            .sum()
    }

    /// The word of a number, shorter words first.
    fn word(&self, mut number: u64) -> String {
        let base = self.letters.len() as u64;
        let mut len = 0;
        while number >= base.pow(len) {
            number -= base.pow(len);
            len += 1;
        }
        let mut word = String::from(self.around[0]);
        for place in (0..len).rev() {
            let letter = number / base.pow(place) % base;
            word += self.letters[letter as usize];
        }
        word + self.around[1]
    }
}

/// The step from one turn to the next, which shares no factor with the number of
/// words.
const STRIDE: u64 = 100_003;

/// The short words in an order of their own, each once before any has its second
/// turn.
pub struct Words {
    start: u64,
    turn: u64,
    all: u64,
}

impl Words {
    pub fn new(seed: u64) -> Words {
        let all = LETTERS.iter().map(Letters::many).sum();
        Words {
            start: seed.wrapping_mul(0x9E37_79B9_7F4A_7C15) % all,
            turn: 0,
            all,
        }
    }

    /// How many words had their turn, and how many there are.
    pub fn turns(&self) -> (u64, u64) {
        (self.turn, self.all)
    }

    /// A few words more.
    pub fn some(&mut self, report: &mut Report) {
        for _ in 0..40 {
            let mut number = (self.start + self.turn % self.all * STRIDE) % self.all;
            self.turn += 1;
            for group in LETTERS {
                if number < group.many() {
                    let word = group.word(number);
                    let outcome = (group.compared)(&word);
                    report.add(Kind::Words, word.as_bytes(), outcome, || {
                        format!("word {word:?}")
                    });
                    break;
                }
                number -= group.many();
            }
        }
    }
}

#[cfg(test)]
mod tests {
    use super::*;

    /// Each word has one turn before any has its second.
    #[test]
    fn every_turn() {
        let all = Words::new(1).all;
        let mut seen = vec![false; all as usize];
        for turn in 0..all {
            let number = (5 + turn * STRIDE) % all;
            assert!(!std::mem::replace(&mut seen[number as usize], true));
        }
    }

    #[test]
    fn every_word() {
        for group in LETTERS.iter().filter(|group| group.many() < 20_000) {
            let all: std::collections::HashSet<_> =
                (0..group.many()).map(|n| group.word(n)).collect();
            assert_eq!(all.len() as u64, group.many());
        }
        let first = &LETTERS[0];
        assert_eq!([0, 1, 5, 6].map(|n| first.word(n)), ["", "|", " ", "||"]);
    }
}
