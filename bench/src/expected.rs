//! What the exports are to answer. Upstream is asked where no byte order mark stands
//! in the texts that it would be given, and the model's answer must be the same;
//! where one stands, the answer is the model's alone. (Document 02, N2)

use crate::{
    compare::{same, same_boards, Same},
    model::{self, has_mark},
};
use oracle::{
    lin::{parse_lin, parse_lin_file, write_lin, LinData},
    pbn::Record,
};

/// An answer, or how the model's differs from upstream's.
pub type Expected<T> = Result<T, String>;

/// Upstream's answer if none of the texts has a mark, else the model's.
fn ruled<'a, T>(
    texts: impl IntoIterator<Item = &'a str>,
    model: T,
    upstream: impl FnOnce() -> T,
    compared: impl FnOnce(&T, &T) -> Same,
) -> Expected<T> {
    if texts.into_iter().any(|text| has_mark(text.as_bytes())) {
        return Ok(model);
    }
    let upstream = upstream();
    let differs = |difference| format!("the model beside upstream: {difference}");
    compared(&model, &upstream).map_err(differs)?;
    Ok(upstream)
}

/// The board of a text.
pub fn board(text: &str) -> Expected<LinData> {
    let upstream = || {
        let Ok(board) = parse_lin(text);
        board
    };
    ruled([text], model::parse_lin(text), upstream, same_boards)
}

/// The boards of a text.
pub fn file(text: &str) -> Expected<Vec<LinData>> {
    let upstream = || {
        let Ok(boards) = parse_lin_file(text);
        boards
    };
    let compared = |model: &Vec<LinData>, upstream: &Vec<LinData>| {
        same("boards", model.len(), upstream.len())?;
        let mut pairs = model.iter().zip(upstream);
        pairs.try_for_each(|(one, other)| same_boards(one, other))
    };
    let model = model::parse_lin_file(text);
    ruled([text], model, upstream, compared)
}

/// The commands and values of a text, and what trails them.
pub type Pairs = (Vec<(String, String)>, String);

/// The tokens of a text.
pub fn tokens(text: &str) -> Expected<Pairs> {
    let string = |bytes: &[u8]| String::from_utf8(bytes.to_vec()).expect("UTF-8 about pipes");
    let all = model::tokens(text.as_bytes(), 0);
    let end = all.last().map_or(0, |token| token.end());
    let pairs = all.iter().map(|t| (string(t.command), string(t.value)));
    let model = (pairs.collect(), text[end..].to_string());
    let upstream = || oracle::tokens(text);
    ruled([text], model, upstream, |a, b| same("tokens", a, b))
}

/// Whether these tokens are to be written as the model has written them.
pub fn document((tokens, trailing): &Pairs, written: &str) -> Same {
    let texts = tokens.iter().flat_map(|(command, value)| [command, value]);
    let texts = texts.chain([trailing]).map(String::as_str);
    let upstream = || oracle::write(tokens, trailing);
    let written = written.to_string();
    ruled(texts, written, upstream, |a, b| same("document", a, b)).map(|_| ())
}

/// The texts of a board.
fn texts(board: &LinData) -> impl Iterator<Item = &str> {
    let given = [&board.title, &board.room_board, &board.board_header];
    let calls = board.auction.iter();
    let bids = calls.clone().map(|call| &call.bid);
    let annotations = calls.flat_map(|call| &call.annotation);
    let all = board.player_names.iter().chain(given.into_iter().flatten());
    all.chain(bids).chain(annotations).map(String::as_str)
}

/// The written form of a board.
pub fn written(board: &LinData) -> Expected<String> {
    let upstream = || write_lin(board);
    ruled(texts(board), model::written(board), upstream, |a, b| {
        same("written", a, b)
    })
}

/// Whether one board equals another.
pub fn equal(one: &LinData, other: &LinData) -> Expected<bool> {
    let texts = texts(one).chain(texts(other));
    let upstream = || one == other;
    ruled(texts, model::equal(one, other), upstream, |a, b| {
        same("equal", a, b)
    })
}

/// The texts of a PBN record.
fn record_texts(record: &Record) -> impl Iterator<Item = &str> {
    let given = [&record.event, &record.date, &record.id];
    let given = record.names.iter().chain(given).flatten();
    let annotations = record.calls.iter().flat_map(|call| &call.annotation);
    let all = given.chain(annotations).chain(record.notes.values());
    all.map(String::as_str)
}

/// The board made of a PBN record.
pub fn made(record: &Record) -> Expected<LinData> {
    let upstream = || oracle::pbn::made(record);
    ruled(
        record_texts(record),
        model::made(record),
        upstream,
        same_boards,
    )
}

#[cfg(test)]
mod tests {
    use super::*;
    use oracle::bridge_types::{AnnotatedCall, Call};

    /// Without a mark upstream is asked, and must answer as the model does; with one
    /// it is not.
    #[test]
    fn who_is_asked() {
        let asked = |texts: &[&'static str], model, upstream: Option<u8>| {
            let upstream = || upstream.expect("not asked");
            let compared = |model: &u8, upstream: &u8| same("answers", model, upstream);
            ruled(texts.iter().copied(), model, upstream, compared)
        };
        assert_eq!(asked(&["a", "\u{FFFE}"], 1, Some(1)), Ok(1));
        let differs = "the model beside upstream: answers: 1, not 2";
        assert_eq!(asked(&["a"], 1, Some(2)), Err(differs.to_string()));
        assert_eq!(asked(&["a", "b\u{FEFF}"], 1, None), Ok(1));
    }

    fn marked<'a>(texts: impl Iterator<Item = &'a str>) -> usize {
        texts.filter(|text| has_mark(text.as_bytes())).count()
    }

    /// A mark in any one text of a board is seen.
    #[test]
    fn texts_of_boards() {
        let text = "pn|1,2,3,4|mn|5|qx|6|ah|7|mb|8|an|9|";
        assert_eq!(marked(texts(&model::parse_lin(text))), 0);
        for digit in '1'..='9' {
            let text = text.replace(digit, "\u{FEFF}");
            assert_eq!(marked(texts(&model::parse_lin(&text))), 1, "{digit}");
        }
    }

    /// The same of a record.
    #[test]
    fn texts_of_records() {
        for place in 0..=9 {
            let text = |n| if n == place { "\u{FEFF}" } else { "a" }.to_string();
            let call = AnnotatedCall {
                call: Call::Pass,
                annotation: Some(text(8)),
            };
            let record = Record {
                names: [1, 2, 3, 4].map(|n| Some(text(n))),
                event: Some(text(5)),
                date: Some(text(6)),
                id: Some(text(7)),
                calls: vec![call],
                notes: [(1, text(9))].into(),
                ..Record::default()
            };
            let marks = marked(record_texts(&record));
            assert_eq!(marks, usize::from(place > 0), "{place}");
        }
    }
}
