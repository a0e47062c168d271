//! The board made of a PBN record in plain Rust. (Document 01, From PBN)

use super::{clean, clean_name, pbn::annotation_text};
use oracle::{
    bridge_types::{AnnotatedCall, Call, Direction, Strain},
    lin::{BidWithAnnotation, LinData},
    pbn::Record,
};

/// The text, unless it is absent or empty.
fn filled(text: &Option<String>) -> Option<&str> {
    text.as_deref().filter(|t| !t.is_empty())
}

/// The event, a dash with the date after it, or both.
fn title(record: &Record) -> Option<String> {
    let date = filled(&record.date).map(|date| format!(" - {date}"));
    let event = filled(&record.event).map(str::to_string);
    match (event, date) {
        (Some(event), Some(date)) => Some(event + &date),
        (event, date) => event.or(date),
    }
}

/// The id, or else the number.
fn label(record: &Record) -> Option<String> {
    let id = filled(&record.id).map(str::to_string);
    id.or(record.number.map(|number| number.to_string()))
}

/// The dealer that is given, or else that of the number, or else North.
fn dealer(record: &Record) -> Direction {
    let of_number = |number: u32| match number % 4 {
        1 => Direction::North,
        2 => Direction::East,
        3 => Direction::South,
        _ => Direction::West,
    };
    let numbered = record.number.map(of_number);
    record.dealer.or(numbered).unwrap_or(Direction::North)
}

/// A call's letters; none for one that is dropped.
fn bid(call: &Call) -> Option<String> {
    match call {
        Call::Pass => Some("p".to_string()),
        Call::Double => Some("d".to_string()),
        Call::Redouble => Some("r".to_string()),
        Call::Bid { level, strain } => {
            let strain = match strain {
                Strain::Clubs => "C",
                Strain::Diamonds => "D",
                Strain::Hearts => "H",
                Strain::Spades => "S",
                Strain::NoTrump => "N",
            };
            Some(format!("{level}{strain}"))
        }
        Call::Continue | Call::Blank => None,
    }
}

/// The board made of a record.
pub fn made(record: &Record) -> LinData {
    let notes = record.notes.iter().map(|(n, text)| (*n, text.as_str()));
    let notes = notes.collect();
    let call = |made: &AnnotatedCall| {
        let raw = made.annotation.as_deref();
        let text = raw.and_then(|raw| annotation_text(raw, &notes));
        Some(BidWithAnnotation {
            bid: bid(&made.call)?,
            alert: false,
            annotation: text.map(|text| clean(&text)),
        })
    };
    let name = |name: &Option<String>| clean_name(name.as_deref().unwrap_or_default());
    let label = label(record);
    let label = label.as_deref();
    LinData {
        player_names: record.names.each_ref().map(name),
        dealer: dealer(record),
        deal: record.deal.clone(),
        vulnerability: record.vulnerable,
        title: title(record).map(|title| clean(&title)),
        room_board: label.map(|label| clean(&format!("o{label},BOARD {label}"))),
        board_header: label.map(|label| clean(&format!("Board {label}"))),
        auction: record.calls.iter().filter_map(call).collect(),
        play: record.play.iter().flatten().copied().collect(),
        claim: record.result.and_then(|tricks| u8::try_from(tricks).ok()),
    }
}
