//! The files that the benchmark reads, each made from a fixed seed and as long
//! as the limit given allows.

use oracle::{random::Rng, records};

/// A file's name in the table, and what gives its next piece.
pub struct Input {
    pub name: &'static str,
    piece: fn(&mut Rng, usize) -> String,
}

pub const ALL: &[Input] = &[
    Input {
        name: "realistic",
        piece: realistic,
    },
    Input {
        name: "commentary",
        piece: commentary,
    },
    Input {
        name: "commentary, not ASCII",
        piece: foreign_commentary,
    },
    Input {
        name: "a board to a line",
        piece: line,
    },
    Input {
        name: "short parts",
        piece: short_part,
    },
    Input {
        name: "repeated cards",
        piece: repeated_cards,
    },
];

impl Input {
    /// Whole pieces, up to so many bytes.
    pub fn text(&self, limit: usize) -> String {
        let mut rng = Rng::new(1);
        let mut text = String::with_capacity(limit);
        for n in 1.. {
            let more = (self.piece)(&mut rng, n);
            if limit < text.len() + more.len() {
                break;
            }
            text += &more;
        }
        text
    }
}

/// A board with its calls and its play; every fourth a movie, whose last
/// command is closed, since the next board would else be taken for its value.
fn realistic(rng: &mut Rng, n: usize) -> String {
    let movie = match n % 4 {
        0 => records::movie(rng, 12),
        _ => return records::file(rng, 1),
    };
    match movie.strip_suffix("at|never closed") {
        Some(closed) => closed.to_string(),
        None => movie,
    }
}

/// A board, and a page of text that fills some kilobytes.
fn commentary(rng: &mut Rng, _: usize) -> String {
    page(rng, &["Count your losers", "before you play", "a card"])
}

fn foreign_commentary(rng: &mut Rng, _: usize) -> String {
    page(
        rng,
        &["Zähl die Verlierer", "раньше чем сыграть", "出牌之前"],
    )
}

fn page(rng: &mut Rng, words: &[&str]) -> String {
    let mut text = records::file(rng, 1);
    text += "at|";
    for _ in 0..200 {
        text += *rng.pick(words);
        text += ", ";
    }
    text + "|pg||\n"
}

fn line(rng: &mut Rng, _: usize) -> String {
    records::lines(rng, 1)
}

fn short_part(rng: &mut Rng, _: usize) -> String {
    format!("qx|o{}|md|1|", rng.below(10))
}

/// Three hands of thirteen cards that are all one, which leaves East many; or
/// four long hands of few different cards.
fn repeated_cards(rng: &mut Rng, n: usize) -> String {
    let mut hand = |len: usize| {
        let suit = *rng.pick(&["S", "H", "D", "C"]);
        let rank = *rng.pick(&["A", "K", "T", "2"]);
        format!("{suit}{}", rank.repeat(len))
    };
    let len = match n % 8 {
        0 => 400,
        _ => 13,
    };
    let hands = [hand(len), hand(len), hand(len)].join(",");
    let east = if len == 13 { String::new() } else { hand(len) };
    format!("qx|o{n}|md|1{hands},{east}|sv|0|\n")
}
