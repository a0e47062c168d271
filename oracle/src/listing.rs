//! Listings: what linlist prints for an input, by `parse_lin_file`. A case is
//! two fields, the input and what is printed.

mod files;
pub mod runs;

use crate::{
    boards::SEATS,
    lin::{parse_lin_file, write_lin, LinData},
    texts,
    vectors::Vectors,
};
use bridge_types::Direction;

/// The bytes that linlist takes.
pub const LIMIT: usize = 65_536;

const HEADER: &str = "board dealer vul S W N E calls cards claim\n";

fn dealer(d: Direction) -> char {
    match d {
        Direction::South => 'S',
        Direction::West => 'W',
        Direction::North => 'N',
        Direction::East => 'E',
    }
}

/// The value of the sv token that `write_lin` writes.
fn sv(board: &LinData) -> String {
    let (tokens, _) = crate::tokens(&write_lin(board));
    let (_, value) = tokens.into_iter().find(|(c, _)| c == "sv").expect("an sv");
    value
}

fn line(number: usize, board: &LinData) -> String {
    let lengths = SEATS.map(|d| board.deal.hand(d).len().to_string());
    format!(
        "{number} {} {} {} {} {} {}\n",
        dealer(board.dealer),
        sv(board),
        lengths.join(" "),
        board.auction.len(),
        board.play.len(),
        board.claim.map_or("-".to_string(), |n| n.to_string()),
    )
}

/// What linlist prints.
pub fn printed(input: &[u8]) -> String {
    if input.len() > LIMIT {
        return "refused 1\n".to_string();
    }
    let Ok(text) = std::str::from_utf8(input) else {
        return "refused 2\n".to_string();
    };
    let Ok(boards) = parse_lin_file(text);
    let lines = boards.iter().enumerate().map(|(k, b)| line(k, b));
    HEADER.to_string() + &lines.collect::<String>()
}

fn inputs() -> Vec<Vec<u8>> {
    texts::distinct(files::inputs())
}

/// The file `listing.bin`: a case for each input.
pub fn vectors() -> Vectors {
    let mut out = Vectors::new();
    for input in inputs() {
        out.case();
        out.field(&input);
        out.field(printed(&input).as_bytes());
    }
    out
}

#[cfg(test)]
mod tests {
    use super::*;
    use crate::vectors::fields;

    #[test]
    fn listed_file() {
        assert_eq!(
            printed(b"qx|o1|md|3SAK,SQJ,ST9|mb|1C!|pc|SA|mc|9|"),
            HEADER.to_string() + "0 N 0 2 2 2 0 1 1 9\n"
        );
        assert_eq!(printed(b""), HEADER);
        assert_eq!(printed(b"\xFF"), "refused 2\n");
        assert_eq!(printed(&[0xFF; LIMIT + 1]), "refused 1\n");
    }

    #[test]
    fn fields_give_the_cases_again() {
        let vectors = super::vectors();
        assert!(vectors.cases() >= 300 && vectors.bytes().len() <= 1_000_000);
        let all = fields(vectors.bytes()).unwrap();
        assert_eq!(all.len(), 2 * vectors.cases());
        for case in all.chunks(2) {
            assert_eq!(printed(case[0]).as_bytes(), case[1]);
        }
        assert!(super::vectors().bytes() == vectors.bytes());
    }

    /// The listings show every dealer, every sv letter, claims and none, and
    /// boards past 9 and past 99.
    #[test]
    fn lines_are_of_every_kind() {
        let all: String = inputs().iter().map(|i| printed(i)).collect();
        for seat in ["N", "E", "S", "W"] {
            for sv in ["0", "n", "e", "b"] {
                assert!(all.contains(&format!(" {seat} {sv} ")), "{seat} {sv}");
            }
        }
        for end in [" -\n", " 0\n", " 255\n", "refused 1\n", "refused 2\n"] {
            assert!(all.contains(end), "{end}");
        }
        assert!(all.contains("\n10 ") && all.contains("\n100 "));
    }
}
