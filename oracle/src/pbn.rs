//! PBN cases: records as a PBN reader gives them, and the board that
//! `from_board` makes of each.

pub mod calls;
pub mod heads;
pub mod mixed;
pub(crate) mod replayed;

use crate::{
    annotation::{put_notes, Notes},
    boards,
    lin::LinData,
    steps::Steps,
    vectors::Vectors,
};
use bridge_types::{
    AnnotatedCall, Auction, Board, Call, Card, Deal, Direction, PlaySequence, PlayerNames, Strain,
    Trick, Vulnerability,
};
use std::collections::HashSet;

/// A record in document 01's words: the names in the order of LIN, and the play
/// as a list of entries.
#[derive(Clone, Default)]
pub struct Record {
    /// The names of S, W, N, E.
    pub names: [Option<String>; 4],
    /// The first half of the title.
    pub event: Option<String>,
    /// The second half of the title, after a dash.
    pub date: Option<String>,
    /// The label of the board; an empty one counts as absent.
    pub id: Option<String>,
    /// 1 to 65,535. Without an id it is the label; without a dealer it gives one.
    pub number: Option<u32>,
    /// Who deals; North if neither this nor the number is given.
    pub dealer: Option<Direction>,
    /// The hands.
    pub deal: Deal,
    /// Which sides are vulnerable.
    pub vulnerable: Vulnerability,
    /// The auction, each call with its raw annotation.
    pub calls: Vec<AnnotatedCall>,
    /// What the annotations refer to by `=n=`.
    pub notes: Notes,
    /// The cards in the order of play, with gaps for those that are not on record.
    pub play: Vec<Option<Card>>,
    /// The tricks that declarer won; it becomes the claim if it is 0 to 255.
    pub result: Option<i32>,
}

/// A name, and the records that go by it.
type Group = (&'static str, fn() -> Vec<Record>);

const GROUPS: &[Group] = &[
    ("named", mixed::named),
    ("names", heads::names),
    ("spellings", heads::spellings),
    ("given", heads::given),
    ("titles", heads::titles),
    ("texts", heads::texts),
    ("labels", heads::labels),
    ("numbers", heads::numbers),
    ("dealers", heads::dealers),
    ("results", heads::results),
    ("deals", heads::deals),
    ("single", calls::single),
    ("dropped", calls::dropped),
    ("auctions", calls::auctions),
    ("cleaned", calls::cleaned),
    ("annotated", calls::annotated),
    ("notes", calls::notes),
    ("gaps", calls::gaps),
    ("plays", calls::plays),
    ("random", mixed::random),
    ("long", mixed::long),
];

/// The strains by their numbers, 0 to 4.
pub const STRAINS: [Strain; 5] = [
    Strain::Clubs,
    Strain::Diamonds,
    Strain::Hearts,
    Strain::Spades,
    Strain::NoTrump,
];

/// Upstream's form of the record. The entries of the play fill the tricks in
/// order, and the last trick is filled up with gaps.
pub fn board(record: &Record) -> Board {
    let [south, west, north, east] = record.names.clone();
    let names = PlayerNames {
        north,
        east,
        south,
        west,
    };
    let trick = |entries: &[Option<Card>]| {
        let mut cards = [None; 4];
        cards[..entries.len()].copy_from_slice(entries);
        Trick { cards }
    };
    Board {
        number: record.number,
        board_id: record.id.clone(),
        event: record.event.clone(),
        date: record.date.clone(),
        player_names: record.names.iter().any(Option::is_some).then_some(names),
        dealer: record.dealer,
        vulnerable: record.vulnerable,
        deal: record.deal.clone(),
        auction: (!record.calls.is_empty()).then(|| Auction {
            calls: record.calls.clone(),
            notes: record.notes.clone().into_iter().collect(),
        }),
        play: (!record.play.is_empty()).then(|| PlaySequence {
            tricks: record.play.chunks(4).map(trick).collect(),
        }),
        result: record.result,
    }
}

/// The board that upstream makes of the record.
pub fn made(record: &Record) -> LinData {
    LinData::from_board(&board(record))
}

fn marks(record: &Record) -> [u8; 12] {
    let [s, w, n, e] = record.names.each_ref().map(|n| n.is_some().into());
    [
        s,
        w,
        n,
        e,
        record.event.is_some().into(),
        record.date.is_some().into(),
        record.id.is_some().into(),
        record.number.is_some().into(),
        record.dealer.is_some().into(),
        record.dealer.map_or(0, boards::seat),
        boards::vulnerability(record.vulnerable),
        record.result.is_some().into(),
    ]
}

fn call_bytes(call: &AnnotatedCall) -> [u8; 4] {
    let annotated = call.annotation.is_some().into();
    let place = |strain| STRAINS.iter().position(|s| *s == strain);
    match call.call {
        Call::Pass => [0, 0, 0, annotated],
        Call::Double => [1, 0, 0, annotated],
        Call::Redouble => [2, 0, 0, annotated],
        Call::Bid { level, strain } => {
            [3, level, place(strain).expect("a strain") as u8, annotated]
        }
        Call::Continue => [4, 0, 0, annotated],
        Call::Blank => [5, 0, 0, annotated],
    }
}

fn entry(card: &Option<Card>) -> u8 {
    card.as_ref().map_or(255, boards::number)
}

fn put_record(out: &mut Vectors, record: &Record) {
    out.field(&marks(record));
    record
        .names
        .iter()
        .for_each(|n| out.field(boards::text_of(n)));
    out.field(boards::text_of(&record.event));
    out.field(boards::text_of(&record.date));
    out.field(boards::text_of(&record.id));
    out.number(record.number.unwrap_or(0) as usize);
    out.field(&record.result.unwrap_or(0).to_le_bytes());
    out.field(&boards::held(&record.deal));
    out.field(&record.calls.iter().flat_map(call_bytes).collect::<Vec<_>>());
    for call in &record.calls {
        out.field(boards::text_of(&call.annotation));
    }
    out.field(&record.play.iter().map(entry).collect::<Vec<_>>());
    put_notes(out, &record.notes);
}

/// What a record is told from others by.
fn key(record: &Record) -> Vec<u8> {
    let mut out = Vectors::new();
    put_record(&mut out, record);
    out.bytes().to_vec()
}

/// The records of all groups, each once.
pub fn all() -> Vec<Record> {
    let mut seen = HashSet::new();
    let all = GROUPS.iter().flat_map(|(_, records)| records());
    all.filter(|r| seen.insert(key(r))).collect()
}

/// The file `pbn.bin`: the board made of each record with rows, places and bytes to
/// spare and with exactly enough, and the refusals with fewer.
pub fn vectors() -> Vectors {
    let mut s = Steps::new();
    replayed::define(&mut s);
    for record in all() {
        replayed::put(&mut s, &record, &made(&record));
    }
    s.say("pbn", &replayed::LINES);
    s.done()
}

#[cfg(test)]
mod tests {
    use super::*;
    use crate::built;

    /// The records keep to document 01's ranges, and 128 rows, 128 places for cards
    /// and 16,384 bytes are enough for a replay.
    #[test]
    fn ranges_and_rows() {
        for record in all() {
            assert!(record.number.is_none_or(|n| (1..=65_535).contains(&n)));
            for call in &record.calls {
                if let Call::Bid { level, .. } = call.call {
                    assert!((1..=7).contains(&level));
                }
            }
            assert!(record.calls.len() < 128 && record.play.len() < 128);
            let own = &built::bytes(&made(&record));
            assert!(own.len() < 16_384);
        }
    }

    /// What the records are to show.
    #[test]
    fn records_of_every_kind() {
        let all = all();
        let results: HashSet<_> = all.iter().map(|r| r.result).collect();
        for r in [i32::MIN, -1, 0, 13, 255, 256, i32::MAX] {
            assert!(results.contains(&Some(r)), "{r}");
        }
        let claims: HashSet<_> = all.iter().map(|r| made(r).claim).collect();
        assert_eq!(claims.len(), 257);
        for side in built::SIDES {
            for dealer in [None].into_iter().chain(built::SEATS.map(Some)) {
                for rest in 0..4 {
                    let of = |r: &&Record| {
                        let by = r.number.is_some_and(|n| n % 4 == rest);
                        r.vulnerable == side && r.dealer == dealer && by
                    };
                    assert!(all.iter().filter(of).count() >= 2);
                }
            }
        }
        let calls: HashSet<_> = all.iter().flat_map(|r| &r.calls).map(call_bytes).collect();
        assert_eq!(calls.len(), 80);
        let gaps = all.iter().filter(|r| r.play.contains(&None)).count();
        println!("plays with gaps {gaps}");
        assert!(gaps >= 200);
    }

    /// No text that is made needs cleaning, and no call is alerted.
    #[test]
    fn texts_are_clean() {
        let clean = |t: &String| !t.contains(['|', '\r', '\n']);
        for board in all().iter().map(made) {
            assert!(board
                .player_names
                .iter()
                .all(|n| clean(n) && !n.contains(',')));
            let texts = [board.title, board.room_board, board.board_header];
            assert!(texts.iter().flatten().all(clean));
            for call in board.auction {
                assert!(!call.alert && call.annotation.iter().all(clean));
            }
        }
    }

    /// A name keeps its spelling, composed or decomposed, and so do the other
    /// texts; the two are never the same bytes.
    #[test]
    fn spellings_are_kept() {
        let boards: Vec<_> = all().iter().map(made).collect();
        for [one, two] in heads::SPELLINGS {
            let kept = [one, two].map(|s| s.replace(',', "").replace('|', "/"));
            assert_ne!(kept[0], kept[1]);
            let both = |b: &&LinData| kept.iter().all(|text| b.player_names.contains(text));
            assert!(boards.iter().filter(both).count() >= 12);
        }
        for text in ["é", "e\u{301}"] {
            let titled = |b: &&LinData| b.title.iter().any(|t| t.contains(text));
            let labelled = |b: &&LinData| b.room_board.iter().any(|t| t.contains(text));
            let noted = |b: &&LinData| {
                let mut notes = b.auction.iter().flat_map(|c| &c.annotation);
                notes.any(|t| t.contains(text))
            };
            assert!(boards.iter().filter(titled).count() >= 10);
            assert!(boards.iter().filter(labelled).count() >= 5);
            assert!(boards.iter().filter(noted).count() >= 5);
        }
    }

    /// How many records meet a test.
    fn many(all: &[Record], test: impl Fn(&Record, &LinData) -> bool) -> usize {
        all.iter().filter(|r| test(r, &made(r))).count()
    }

    fn given(text: &Option<String>) -> bool {
        text.as_ref().is_some_and(|t| !t.is_empty())
    }

    fn empty(text: &Option<String>) -> bool {
        text.as_deref() == Some("")
    }

    /// The header that the number gives.
    fn by_number(record: &Record) -> Option<String> {
        record.number.map(|n| format!("Board {n}"))
    }

    /// A date alone gives a title that begins with its dash; an empty event, date
    /// or id acts as absent.
    #[test]
    fn titles_and_labels() {
        let all = all();
        let dated = |r: &Record, b: &LinData| {
            let title = b.title.as_deref().unwrap_or_default();
            !given(&r.event) && given(&r.date) && title.starts_with(" - ")
        };
        assert!(many(&all, dated) >= 20);
        let none = |r: &Record, b: &LinData| empty(&r.event) && empty(&r.date) && b.title.is_none();
        assert!(many(&all, none) >= 1);
        assert!(many(&all, |r, b| empty(&r.event) && b.title.is_some()) >= 9);
        assert!(many(&all, |r, b| empty(&r.date) && b.title.is_some()) >= 9);
        assert!(many(&all, |r, b| empty(&r.id) && b.room_board.is_none()) >= 1);
        let numbered = |r: &Record, b: &LinData| {
            empty(&r.id) && r.number.is_some() && b.board_header == by_number(r)
        };
        assert!(many(&all, numbered) >= 5);
    }

    /// The id gives the label while the number gives the dealer; a dealer that is
    /// given wins over the number; without either it is North.
    #[test]
    fn dealers_and_claims() {
        let all = all();
        let by_id = |r: &Record, b: &LinData| {
            let named = given(&r.id) && r.number.is_some() && b.board_header != by_number(r);
            named && r.dealer.is_none() && b.dealer != Direction::North
        };
        assert!(many(&all, by_id) >= 20);
        let wins = |r: &Record, b: &LinData| {
            let own = r.number.map(bridge_types::dealer_from_board_number);
            own.is_some() && r.dealer.is_some() && r.dealer != own && r.dealer == Some(b.dealer)
        };
        assert!(many(&all, wins) >= 50);
        let north = |r: &Record, b: &LinData| {
            r.dealer.is_none() && r.number.is_none() && b.dealer == Direction::North
        };
        assert!(many(&all, north) >= 50);
        let unclaimed = |r: &Record, b: &LinData| {
            r.result.is_some_and(|n| !(0..=255).contains(&n)) && b.claim.is_none()
        };
        assert!(many(&all, unclaimed) >= 40);
    }

    /// Annotations are cleaned after their words are joined, and one without a
    /// word is absent.
    #[test]
    fn annotations_are_cleaned_and_absent() {
        let all = all();
        let noted = |b: &LinData, text: &str| {
            let mut notes = b.auction.iter().flat_map(|c| &c.annotation);
            notes.any(|t| t == text)
        };
        for (raw, text) in [("=|=", "=/="), ("=\n=", "= ="), ("=\r=", "= =")] {
            let has = |r: &Record, b: &LinData| {
                let mut raws = r.calls.iter().flat_map(|c| &c.annotation);
                raws.any(|t| t == raw) && noted(b, text)
            };
            assert!(many(&all, has) >= 1, "{raw:?}");
        }
        assert!(many(&all, |_, b| noted(b, "we/ak ?")) >= 1);
        let absent = |r: &Record, b: &LinData| {
            let raw = r.calls.first().and_then(|c| c.annotation.as_ref());
            raw.is_some() && b.auction.first().is_some_and(|c| c.annotation.is_none())
        };
        assert!(many(&all, absent) >= 50);
        let empty = |r: &Record, _: &LinData| {
            let mut raws = r.calls.iter().flat_map(|c| &c.annotation);
            raws.any(String::is_empty)
        };
        assert!(many(&all, empty) >= 40);
    }

    #[test]
    fn every_group_has_records_of_its_own() {
        let mut seen = HashSet::new();
        for (name, records) in GROUPS {
            let new = records().into_iter().filter(|r| seen.insert(key(r)));
            let n = new.count();
            println!("{name}: {n}");
            assert!(n > 0, "{name}");
        }
        assert_eq!(seen.len(), all().len());
    }
}
