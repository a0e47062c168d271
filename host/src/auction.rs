//! The auction: whether its calls are lawful by the Laws of Duplicate Bridge 2017,
//! how it ends, and its contract.
//!
//! ```
//! use lin_host_rust::{
//!     auction::{self, Auction, Contract, Doubling, Strain},
//!     boards::{self, Seat},
//!     Refusal,
//! };
//!
//! let text = b"md|3SAK|mb|1C!|an|16+|mb|2c|mb|p|mb|3C|mb|d|mb|p|mb|p|mb|P|";
//! let board = boards::board(text)?;
//! let checked = auction::check_auction(board.heading.dealer, &board.calls)?;
//! let contract = Contract {
//!     level: 3,
//!     strain: Strain::Clubs,
//!     doubling: Doubling::Doubled,
//!     declarer: Seat::East,
//! };
//! assert_eq!(checked, Auction::Ended(contract));
//!
//! // a double of partner's bid, and a bid that is none
//! let unlawful = boards::board(b"md|3|mb|1C|mb|p|mb|d|")?;
//! let checked = auction::check_auction(Seat::North, &unlawful.calls)?;
//! assert_eq!(checked, Auction::Unlawful(2));
//! let unknown = boards::board(b"md|3|mb|1C|mb|pass|")?;
//! let refused = auction::check_auction(Seat::North, &unknown.calls);
//! assert_eq!(refused, Err(Refusal::BidUnknown(1)));
//! # Ok::<(), Refusal>(())
//! ```

use crate::{
    boards::{Call, Seat},
    ffi,
    writer::gather_calls,
    Refusal,
};

pub use crate::pbn::Strain;
pub use ffi::LinAuction;

/// The outcomes by their numbers, see [`LinAuction::outcome`].
pub(crate) const REFUSED: u32 = 0;
pub(crate) const PASSED_OUT: u32 = 1;
pub(crate) const ENDED: u32 = 2;
pub(crate) const OPEN: u32 = 3;
pub(crate) const UNLAWFUL: u32 = 4;

/// Whether a contract is doubled.
#[derive(Debug, Clone, Copy, PartialEq, Eq)]
pub enum Doubling {
    /// Neither doubled nor redoubled.
    Undoubled,
    /// Doubled.
    Doubled,
    /// Redoubled.
    Redoubled,
}

impl Doubling {
    /// The three by their numbers, 0 to 2.
    pub const ALL: [Doubling; 3] = [Doubling::Undoubled, Doubling::Doubled, Doubling::Redoubled];
}

/// What an auction that ended with a bid gives.
#[derive(Debug, Clone, Copy, PartialEq, Eq)]
pub struct Contract {
    /// 1 to 7.
    pub level: u8,
    /// The strain of the last bid.
    pub strain: Strain,
    /// Whether the last bid was doubled or redoubled.
    pub doubling: Doubling,
    /// The first of the last bidder's side to name the strain.
    pub declarer: Seat,
}

/// What an auction is.
#[derive(Debug, Clone, Copy, PartialEq, Eq)]
pub enum Auction {
    /// Lawful, and ended by four opening passes.
    PassedOut,
    /// Lawful, and ended by three running passes after a bid.
    Ended(Contract),
    /// Lawful, and not ended.
    Open,
    /// The index of the first unlawful call. A call after the end is unlawful.
    Unlawful(usize),
}

impl LinAuction {
    /// The auction, or the refusal.
    ///
    /// # Panics
    ///
    /// If a number has no meaning, see [`LinAnswer::read`](crate::LinAnswer::read),
    /// or if there is a contract or a value where the outcome has none.
    pub fn read(self) -> Result<Auction, Refusal> {
        let contract = [self.level, self.strain, self.doubling, self.declarer];
        let told = self.answer.read();
        match (self.outcome, told, contract) {
            (REFUSED, Err(refusal), [0, 0, 0, 0]) => Err(refusal),
            (PASSED_OUT, Ok(0), [0, 0, 0, 0]) => Ok(Auction::PassedOut),
            (ENDED, Ok(0), _) => Ok(Auction::Ended(self.contract())),
            (OPEN, Ok(0), [0, 0, 0, 0]) => Ok(Auction::Open),
            (UNLAWFUL, Ok(n), [0, 0, 0, 0]) => {
                Ok(Auction::Unlawful(usize::try_from(n).expect("a call")))
            }
            _ => panic!("neither an auction nor a refusal: {self:?}"),
        }
    }

    fn contract(self) -> Contract {
        assert!((1..=7).contains(&self.level), "no level: {}", self.level);
        Contract {
            level: self.level as u8,
            strain: Strain::ALL[self.strain as usize],
            doubling: Doubling::ALL[self.doubling as usize],
            declarer: Seat::ALL[self.declarer as usize],
        }
    }
}

/// The answer of the export that checks the auction of the calls whose rows these
/// are. Dealer and rows are raw: any numbers are taken, and those out of range are
/// refused. A rest of fewer than six words is no row.
pub fn check_auction_numbers(text: &[u8], dealer: u32, rows: &[u32]) -> LinAuction {
    // SAFETY: each pointer and length are those of one slice.
    unsafe { ffi::lin_check_auction(text.as_ptr(), text.len(), dealer, rows.as_ptr(), rows.len()) }
}

/// The auction of the calls whose rows these are, with nothing copied, as a reader
/// fills the rows and as a board is lent to the writer; refusals 1, 8, 5, 6 and 9.
///
/// ```
/// use lin_host_rust::{auction::{self, Auction}, files};
///
/// let text = b"qx|o1|md|1|mb|p|mb|p|mb|p|mb|p|qx|o2|md|2|mb|1C|mb|1C|";
/// let mut reader = files::read_boards(text)?;
/// let mut found = Vec::new();
/// while let Some(read) = reader.read() {
///     let dealer = read.heading.dealer;
///     found.push(auction::check_auction_rows(text, dealer, read.rows())?);
/// }
/// assert_eq!(found, [Auction::PassedOut, Auction::Unlawful(1)]);
/// # Ok::<(), lin_host_rust::Refusal>(())
/// ```
pub fn check_auction_rows(text: &[u8], dealer: Seat, rows: &[u32]) -> Result<Auction, Refusal> {
    check_auction_numbers(text, dealer as u32, rows).read()
}

/// The auction of these calls, of which the dealer makes the first. A bid is p, d,
/// r, or a level 1 to 7 and C, D, H, S, N or NT, in either case. Refusal 9 if one is
/// none of these, wherever it stands, and before it 1 if the texts of the calls
/// together are too long.
///
/// ```
/// use lin_host_rust::{auction::{self, Auction}, boards::{Call, Seat}, Refusal};
///
/// let call = |bid| Call { bid, alerted: false, annotation: None };
/// let calls = ["1c", "D", "p", "p", "r"].map(call);
/// assert_eq!(auction::check_auction(Seat::West, &calls)?, Auction::Open);
/// // the double is unlawful, and 9 is looked for before any law
/// let refused = auction::check_auction(Seat::West, &["p", "d", "8C"].map(call));
/// assert_eq!(refused, Err(Refusal::BidUnknown(2)));
/// # Ok::<(), Refusal>(())
/// ```
pub fn check_auction(dealer: Seat, calls: &[Call]) -> Result<Auction, Refusal> {
    let mut text = Vec::new();
    let rows = gather_calls(&mut text, calls);
    check_auction_rows(&text, dealer, &rows)
}
