//! The plain book of document 01: a text T and a list L of boards, both empty at
//! first, and the settled form of a board, in that document's words.

use crate::{
    built::{self, remainder},
    lin::{write_lin, BidWithAnnotation, LinData},
};

/// "pipe to `/`, CR and LF each to a space"
fn clean(text: &str) -> String {
    let letter = |c| match c {
        '|' => '/',
        '\r' | '\n' => ' ',
        c => c,
    };
    text.chars().map(letter).collect()
}

/// "names then lose commas"
fn clean_name(name: &str) -> String {
    clean(name).chars().filter(|c| *c != ',').collect()
}

/// "empty title and room absent"
fn given(text: &Option<String>) -> Option<String> {
    text.as_deref().map(clean).filter(|t| !t.is_empty())
}

/// "a bid loses trailing `!` and is alerted if it was or lost one"
fn settled_call(call: &BidWithAnnotation) -> BidWithAnnotation {
    let mut bid = clean(&call.bid);
    let mut alert = call.alert;
    while bid.ends_with('!') {
        bid.pop();
        alert = true;
    }
    BidWithAnnotation {
        bid,
        alert,
        annotation: call.annotation.as_deref().map(clean),
    }
}

/// "East left out when three lengths are 13 and East is implied (empty, or as
/// long as the remainder and each card of East in the remainder)"; "an implied
/// East beside three 13s replaced by the remainder"
fn settled_hands(board: &LinData) -> bridge_types::Deal {
    let [south, west, north, east] = built::hands(&board.deal);
    let three = [south, west, north];
    let rest = remainder(&three);
    let implied =
        east.is_empty() || east.len() == rest.len() && east.iter().all(|c| rest.contains(c));
    let whole = three.iter().all(|hand| hand.len() == 13);
    let east = if whole && implied { rest } else { east };
    let [south, west, north] = three;
    built::deal([south, west, north, east])
}

pub fn settled(board: &LinData) -> LinData {
    LinData {
        player_names: board.player_names.each_ref().map(|n| clean_name(n)),
        dealer: board.dealer,
        deal: settled_hands(board),
        vulnerability: board.vulnerability,
        title: given(&board.title),
        room_board: given(&board.room_board),
        board_header: board.board_header.as_deref().map(clean),
        auction: board.auction.iter().map(settled_call).collect(),
        play: board.play.clone(),
        claim: board.claim,
    }
}

/// T and L.
#[derive(Default)]
pub struct Log {
    pub text: String,
    pub boards: Vec<LinData>,
}

/// The used count after an accepted call; the bytes that refusal 7 carries.
pub enum Answer {
    Used(usize),
    TooSmall(usize),
}

impl Log {
    /// "7 does .. exactly when T and the board's written form together pass the
    /// room. T and L then stay. Any other call is accepted: its written form goes
    /// to the end of T, its settled form to the end of L."
    pub fn append(&mut self, room: usize, board: &LinData) -> Answer {
        let written = write_lin(board);
        if self.text.len() + written.len() > room {
            return Answer::TooSmall(written.len());
        }
        self.text += &written;
        self.boards.push(settled(board));
        Answer::Used(self.text.len())
    }
}
