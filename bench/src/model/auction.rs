//! The auction in plain Rust, from document 02's words (N1) and the Laws of
//! Duplicate Bridge 2017: every call with its seat is kept, and a law looks at all
//! calls before.

use super::pbn::spans_refused;
use lin_host_rust::{
    auction::{Auction, Contract, Doubling, LinAuction, Strain},
    boards::{Seat, ROW},
    tokens::Span,
    LinAnswer, Refusal, LIMIT,
};

/// What a player says.
#[derive(Debug, Clone, Copy, PartialEq, Eq)]
pub enum Said {
    /// p.
    Pass,
    /// d.
    Double,
    /// r.
    Redouble,
    /// A level of 1 to 7, and the number of a strain: C, D, H, S, N.
    Bid(u8, u8),
}

/// What these bytes say, ASCII case ignored; none if they are none of the forms.
pub fn said(bid: &[u8]) -> Option<Said> {
    let bid = bid.to_ascii_lowercase();
    match bid.as_slice() {
        b"p" => Some(Said::Pass),
        b"d" => Some(Said::Double),
        b"r" => Some(Said::Redouble),
        [level @ b'1'..=b'7', strain @ ..] => {
            let strains: [&[&[u8]]; 5] = [&[b"c"], &[b"d"], &[b"h"], &[b"s"], &[b"n", b"nt"]];
            let strain = strains.iter().position(|names| names.contains(&strain))?;
            Some(Said::Bid(level - b'0', strain as u8))
        }
        _ => None,
    }
}

/// A call of an auction, and who made it.
#[derive(Debug, Clone, Copy)]
struct Made {
    seat: usize,
    said: Said,
}

/// The calls that were made, all of them lawful.
#[derive(Debug, Clone, Default)]
pub struct History {
    calls: Vec<Made>,
}

impl History {
    /// The bids, the last one first.
    fn bids(&self) -> impl Iterator<Item = (usize, (u8, u8))> + '_ {
        self.calls.iter().rev().filter_map(|call| match call.said {
            Said::Bid(level, strain) => Some((call.seat, (level, strain))),
            _ => None,
        })
    }

    /// The last call, passes apart.
    fn last_but_passes(&self) -> Option<Made> {
        let calls = self.calls.iter().rev();
        calls.copied().find(|call| call.said != Said::Pass)
    }

    /// Whether the auction ended: by four opening passes, or by three running ones
    /// once a bid was made.
    pub fn ended(&self) -> bool {
        let pass = |call: &Made| call.said == Said::Pass;
        let running = self.calls.iter().rev().take_while(|c| pass(c)).count();
        match self.bids().next() {
            Some(_) => running >= 3,
            None => running >= 4,
        }
    }

    /// Whether a player may now say this.
    pub fn allows(&self, seat: usize, said: Said) -> bool {
        let opponent = |other: usize| (other + seat) % 2 == 1;
        let last = self.last_but_passes();
        !self.ended()
            && match said {
                Said::Pass => true,
                Said::Bid(level, strain) => {
                    let outranked = self.bids().next().map(|(_, bid)| bid);
                    outranked < Some((level, strain))
                }
                Said::Double => {
                    last.is_some_and(|c| matches!(c.said, Said::Bid(..)) && opponent(c.seat))
                }
                Said::Redouble => last.is_some_and(|c| c.said == Said::Double && opponent(c.seat)),
            }
    }

    /// A further call.
    pub fn make(&mut self, seat: usize, said: Said) {
        self.calls.push(Made { seat, said });
    }

    /// What the auction is.
    fn told(&self) -> Auction {
        match self.bids().next() {
            _ if !self.ended() => Auction::Open,
            None => Auction::PassedOut,
            Some((bidder, (level, strain))) => {
                let side = |seat: &usize| seat % 2 == bidder % 2;
                let named = self.bids().filter(|(_, bid)| bid.1 == strain);
                let first = named.map(|(seat, _)| seat).filter(side).last();
                Auction::Ended(Contract {
                    level,
                    strain: Strain::ALL[usize::from(strain)],
                    doubling: self.doubling(),
                    declarer: Seat::ALL[first.expect("the last bidder at least")],
                })
            }
        }
    }

    /// Whether the last bid is doubled: a bid after a double would be the last call
    /// that is no pass.
    fn doubling(&self) -> Doubling {
        match self.last_but_passes().map(|call| call.said) {
            Some(Said::Double) => Doubling::Doubled,
            Some(Said::Redouble) => Doubling::Redoubled,
            _ => Doubling::Undoubled,
        }
    }
}

/// The auction of these calls, of which the dealer makes the first.
pub fn auction(dealer: usize, all: &[Said]) -> Auction {
    let mut history = History::default();
    for (n, said) in all.iter().enumerate() {
        let seat = (dealer + n) % 4;
        if !history.allows(seat, *said) {
            return Auction::Unlawful(n);
        }
        history.make(seat, *said);
    }
    history.told()
}

/// The first of the refusals 1, 8, 5 and 6 that meets these rows.
pub fn refusal(text: &[u8], dealer: u32, rows: &[u32]) -> Option<Refusal> {
    if text.len() > LIMIT {
        return Some(Refusal::TextTooLong);
    }
    let rows = || rows.chunks_exact(ROW);
    if dealer > 3 || rows().any(|row| row[2] > 1 || row[3] > 1) {
        return Some(Refusal::OutOfRange);
    }
    let mut spans = Vec::new();
    for row in rows() {
        spans.push(Span::new(row[0], row[1]));
        if row[3] == 1 {
            spans.push(Span::new(row[4], row[5]));
        }
    }
    spans_refused(text, &spans)
}

/// The auction of the calls whose rows these are, or the first of the refusals 1, 8,
/// 5, 6 and 9 that meets them.
pub fn check_auction(text: &[u8], dealer: u32, rows: &[u32]) -> Result<Auction, Refusal> {
    if let Some(refusal) = refusal(text, dealer, rows) {
        return Err(refusal);
    }
    let mut all = Vec::new();
    for row in rows.chunks_exact(ROW) {
        let unknown = Refusal::BidUnknown(all.len() as u64);
        all.push(said(Span::new(row[0], row[1]).of(text)).ok_or(unknown)?);
    }
    Ok(auction(dealer as usize, &all))
}

/// All numbers by which the export gives this.
pub fn numbers(told: Result<Auction, Refusal>) -> LinAuction {
    let answer = |value| LinAnswer {
        refusal: 0,
        kind: 0,
        value,
    };
    let (answer, outcome) = match told {
        Err(refusal) => (refusal.into(), 0),
        Ok(Auction::PassedOut) => (answer(0), 1),
        Ok(Auction::Ended(_)) => (answer(0), 2),
        Ok(Auction::Open) => (answer(0), 3),
        Ok(Auction::Unlawful(n)) => (answer(n as u64), 4),
    };
    let [level, strain, doubling, declarer] = match told {
        Ok(Auction::Ended(c)) => [
            c.level.into(),
            c.strain as u32,
            c.doubling as u32,
            c.declarer as u32,
        ],
        _ => [0; 4],
    };
    LinAuction {
        answer,
        outcome,
        level,
        strain,
        doubling,
        declarer,
    }
}

#[cfg(test)]
mod tests {
    use super::*;

    /// The auction of bids with a space between any two.
    fn checked(dealer: u32, bids: &str) -> Result<Auction, Refusal> {
        let mut rows = Vec::new();
        let mut start = 0;
        for bid in bids.split(' ').filter(|_| !bids.is_empty()) {
            rows.extend([start, bid.len() as u32, 0, 0, u32::MAX, 1]);
            start += bid.len() as u32 + 1;
        }
        check_auction(bids.as_bytes(), dealer, &rows)
    }

    fn unlawful(n: usize) -> Result<Auction, Refusal> {
        Ok(Auction::Unlawful(n))
    }

    fn ended(
        level: u8,
        strain: Strain,
        doubling: Doubling,
        seat: Seat,
    ) -> Result<Auction, Refusal> {
        Ok(Auction::Ended(Contract {
            level,
            strain,
            doubling,
            declarer: seat,
        }))
    }

    #[test]
    fn forms() {
        for (bid, want) in [
            ("p", Said::Pass),
            ("P", Said::Pass),
            ("D", Said::Double),
            ("r", Said::Redouble),
            ("7nT", Said::Bid(7, 4)),
            ("1N", Said::Bid(1, 4)),
            ("1c", Said::Bid(1, 0)),
            ("3S", Said::Bid(3, 3)),
        ] {
            assert_eq!(said(bid.as_bytes()), Some(want), "{bid}");
        }
        for bid in [
            "pass", "x", "-", "", " p", "1C!", "8C", "0N", "1NN", "1T", "c", "1", "1NTT", "1CT",
            "1\u{17F}", "é",
        ] {
            assert_eq!(said(bid.as_bytes()), None, "{bid}");
        }
        let words: Vec<[u8; 2]> = (0..=u16::MAX).map(u16::to_be_bytes).collect();
        assert_eq!(words.iter().filter(|w| said(*w).is_some()).count(), 7 * 10);
    }

    #[test]
    fn laws() {
        for (bids, want) in [
            ("p d", unlawful(1)),
            ("1N 1NT", unlawful(1)),
            ("1C p d", unlawful(2)),
            ("1C p p d", Ok(Auction::Open)),
            ("1C d p r", unlawful(3)),
            ("1C d p p r", Ok(Auction::Open)),
            ("1C d r d", unlawful(3)),
            ("1C d 1D r", unlawful(3)),
            ("1C d 1D d", Ok(Auction::Open)),
            ("", Ok(Auction::Open)),
            ("p p p", Ok(Auction::Open)),
            ("p p p p", Ok(Auction::PassedOut)),
            ("p p p p p", unlawful(4)),
            ("1C p p p p", unlawful(4)),
            ("1C p p p 1D", unlawful(4)),
        ] {
            assert_eq!(checked(2, bids), want, "{bids}");
        }
    }

    #[test]
    fn contracts() {
        let clubs = |level, doubling, seat| ended(level, Strain::Clubs, doubling, seat);
        for (dealer, bids, want) in [
            (
                2,
                "1C 2C p 3C p p p",
                clubs(3, Doubling::Undoubled, Seat::East),
            ),
            (
                0,
                "1C d r p p p",
                clubs(1, Doubling::Redoubled, Seat::South),
            ),
            (1, "1C p p d p p p", clubs(1, Doubling::Doubled, Seat::West)),
            (
                3,
                "p 1C 1D 2C p p p",
                clubs(2, Doubling::Undoubled, Seat::South),
            ),
        ] {
            assert_eq!(checked(dealer, bids), want, "{bids}");
        }
        let hearts = ended(2, Strain::Hearts, Doubling::Undoubled, Seat::East);
        assert_eq!(checked(0, "1C d 1H 2H p p p"), hearts);
    }

    /// 9 comes before every law, and after all else.
    #[test]
    fn refusals() {
        let unknown = |n| Err(Refusal::BidUnknown(n));
        assert_eq!(checked(2, "p d zz"), unknown(2));
        assert_eq!(checked(2, "p p p p p zz yy"), unknown(5));
        let row: [u32; ROW] = [0, 1, 0, 0, 9, 9];
        let told =
            |text: &[u8], dealer, rows: &[[u32; ROW]]| check_auction(text, dealer, &rows.concat());
        assert_eq!(told(b"p", 3, &[row]), Ok(Auction::Open));
        assert_eq!(told(b"x", 3, &[row]), unknown(0));
        assert_eq!(told(b"\xFF", 3, &[row]), Err(Refusal::SpanNotUtf8));
        let past = [0, 1, 0, 1, 1, 1];
        assert_eq!(told(b"\xFF", 3, &[row, past]), Err(Refusal::SpanPastEnd));
        assert_eq!(told(b"\xFF", 4, &[row, past]), Err(Refusal::OutOfRange));
        let flag = [0, 1, 2, 0, 0, 0];
        assert_eq!(told(b"\xFF", 0, &[past, flag]), Err(Refusal::OutOfRange));
        let long = vec![0xFF; LIMIT + 1];
        assert_eq!(told(&long, 4, &[row]), Err(Refusal::TextTooLong));
        assert_eq!(check_auction(b"p", 0, &[9; 5]), Ok(Auction::Open));
    }
}
