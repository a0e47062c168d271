//! The upstream LIN sources, unchanged, as the answers to compare with.

#![deny(missing_docs)]

pub mod error;

// Upstream's own layout and comments: kept byte for byte, so the formatter passes
// them by, and a public item may be without a comment.
#[allow(missing_docs)]
#[rustfmt::skip]
#[path = "../upstream/src/lin/mod.rs"]
pub mod lin;

pub mod accents;
pub mod annotation;
pub mod appends;
pub mod boards;
pub mod built;
pub mod by_hand;
pub mod equality;
pub mod files;
pub mod listing;
pub mod pbn;
pub mod random;
pub mod records;
pub mod steps;
pub mod texts;
pub mod tokens;
pub mod utf8;
pub mod vectors;
pub mod writer;

/// The stand-in for the crate whose types upstream's sources use.
pub use bridge_types;

use lin::{LinDocument, LinToken};

/// The commands and values of a text, and what trails them.
pub fn tokens(text: &str) -> (Vec<(String, String)>, String) {
    let doc = LinDocument::parse(text);
    let pairs = doc.tokens.into_iter().map(|t| (t.raw_command, t.value));
    (pairs.collect(), doc.trailing)
}

/// The text of these commands and values, and what trails them.
pub fn write(tokens: &[(String, String)], trailing: &str) -> String {
    let doc = LinDocument {
        tokens: tokens.iter().map(|(c, v)| LinToken::new(c, v)).collect(),
        trailing: trailing.to_string(),
    };
    doc.to_lin()
}

/// The length of the longest well-formed start.
pub fn well_formed(bytes: &[u8]) -> usize {
    match std::str::from_utf8(bytes) {
        Ok(text) => text.len(),
        Err(fault) => fault.valid_up_to(),
    }
}

#[cfg(test)]
mod tests {
    use super::*;

    /// What `str::trim` removes is document 01's white space, over every scalar value.
    #[test]
    fn white_space_is_the_list() {
        for c in '\0'..=char::MAX {
            assert_eq!(c.is_whitespace(), texts::WHITE.contains(&c), "{c:?}");
        }
    }

    /// Upstream lowers sv by Unicode, document 01 by ASCII: no character beyond ASCII lowers into a letter of an sv word.
    #[test]
    fn lowering_sv_is_ascii() {
        for c in '\u{80}'..=char::MAX {
            let low = c.to_lowercase().to_string();
            assert!(
                !low.contains(['n', 's', 'e', 'w', 'b', 'o', 't', 'h', 'a', 'l']),
                "{c:?}"
            );
        }
    }

    #[test]
    fn fresh_board() {
        let Ok(fresh) = lin::parse_lin("");
        let text = lin::write_lin(&fresh);
        assert_eq!(text, "mn||pn|,,,|qx||rh||md|3,,,|sv|0|\nsa|0|pg||\n");
        assert_eq!(text.len(), 43);
        let Ok(read) = lin::parse_lin(&text);
        assert!(read == fresh);
    }

    #[test]
    fn listed_board() {
        let Ok(boards) = lin::parse_lin_file("qx|o1|md|3SAK,SQJ,ST9|mb|1C!|pc|SA|mc|9|");
        assert_eq!(boards.len(), 1);
        let lengths = bridge_types::Direction::ALL.map(|d| boards[0].deal.hand(d).len());
        assert_eq!(lengths, [2, 0, 2, 2]);
        assert!(boards[0].auction[0].alert && boards[0].auction[0].bid == "1C");
        assert_eq!(boards[0].format_cardplay_by_trick(), "SA");
        assert_eq!(boards[0].claim, Some(9));
    }

    #[test]
    fn board_from_pbn() {
        use bridge_types::*;
        let board = Board {
            number: Some(6),
            date: Some("2026.09.14".into()),
            auction: Some(Auction {
                calls: vec![AnnotatedCall {
                    call: Call::Bid {
                        level: 1,
                        strain: Strain::NoTrump,
                    },
                    annotation: Some("=1=$2z".into()),
                }],
                notes: [(1, "weak".into())].into(),
            }),
            result: Some(256),
            ..Board::default()
        };
        let made = lin::LinData::from_board(&board);
        assert_eq!(made.dealer, Direction::East);
        assert_eq!(made.title.as_deref(), Some(" - 2026.09.14"));
        assert_eq!(made.room_board.as_deref(), Some("o6,BOARD 6"));
        assert_eq!(made.auction[0].bid, "1N");
        assert_eq!(made.auction[0].annotation.as_deref(), Some("weak ?"));
        assert_eq!(made.claim, None);
    }

    #[test]
    fn written_records_read_back() {
        let mut rng = random::Rng::new(1);
        for boards in 0..20 {
            let list: Vec<_> = (1..=boards).map(|n| records::board(&mut rng, n)).collect();
            let Ok(read) = lin::parse_lin_file(&lin::write_lin_file(&list));
            assert!(read == list);
        }
    }
}
