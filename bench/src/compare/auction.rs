//! Auctions against the model. What is lent stands between guards.

use super::{
    guards::{bytes, words},
    same, Same,
};
use crate::model;
use lin_host_rust::{
    auction,
    boards::{Call, Seat, ROW},
    tokens::Span,
    Refusal, LIMIT,
};

/// The auction of any rows of any text: all numbers of the answer are the model's,
/// and what was lent stays; and as the safe wrapper gives it.
pub fn auction(text: &[u8], dealer: u32, rows: &[u32]) -> Same {
    let want = model::auction::check_auction(text, dealer, rows);
    let mut lent = (bytes("text", text), words("rows", rows));
    let got = auction::check_auction_numbers(lent.0.lent(), dealer, lent.1.lent());
    same("answer", got, model::auction::numbers(want))?;
    lent.0.holds(text)?;
    lent.1.holds(rows)?;
    let Some(seat) = Seat::ALL.get(dealer as usize) else {
        // no such dealer can be made
        return Ok(());
    };
    let rowed = auction::check_auction_rows(text, *seat, rows);
    same("by rows", rowed, want)?;
    if model::auction::refusal(text, dealer, rows).is_some() {
        return Ok(());
    }
    let calls: Vec<Call> = rows.chunks_exact(ROW).map(|row| call(text, row)).collect();
    let len = |c: &Call| c.bid.len() + c.annotation.map_or(0, str::len);
    let want = match calls.iter().map(len).sum::<usize>() {
        0..=LIMIT => want,
        _ => Err(Refusal::TextTooLong),
    };
    same("by calls", auction::check_auction(*seat, &calls), want)
}

/// The call of a row whose spans are UTF-8.
fn call<'a>(text: &'a [u8], row: &[u32]) -> Call<'a> {
    let part = |start, len| std::str::from_utf8(Span::new(start, len).of(text)).expect("UTF-8");
    Call {
        bid: part(row[0], row[1]),
        alerted: row[2] == 1,
        annotation: (row[3] == 1).then(|| part(row[4], row[5])),
    }
}

/// The auction of these bids by every dealer.
pub fn bids(bids: &[&str]) -> Same {
    let mut text = Vec::new();
    let mut rows = Vec::new();
    for bid in bids {
        rows.extend([text.len() as u32, bid.len() as u32, 0, 0, u32::MAX, 1]);
        text.extend(bid.as_bytes());
    }
    (0..4).try_for_each(|dealer| auction(&text, dealer, &rows))
}
