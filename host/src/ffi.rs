//! The exports as C sees them. A lent slice is two arguments, a pointer and a
//! length. `include/lin_host.h` has the same declarations for C.

#[cfg(test)]
mod header;

/// An answer or a refusal by its number.
#[repr(C)]
#[derive(Debug, Clone, Copy, PartialEq, Eq)]
pub struct LinAnswer {
    /// 0 for an answer, or the number of the refusal.
    pub refusal: u32,
    /// For refusal 3: 0 calls, 1 cards. Otherwise 0.
    pub kind: u32,
    /// The answer, or what the refusal carries, or 0.
    pub value: u64,
}

/// A step of the cursor. Without a token the four places are 0, and `next` is
/// the place from which the step was asked.
#[repr(C)]
#[derive(Debug, Clone, Copy, PartialEq, Eq)]
pub struct LinStep {
    /// 1 with a token, 0 without.
    pub found: u32,
    /// Where the command begins.
    pub command_start: u64,
    /// Its length in bytes.
    pub command_len: u64,
    /// Where the value begins.
    pub value_start: u64,
    /// Its length in bytes.
    pub value_len: u64,
    /// The place after the token.
    pub next: u64,
}

/// A part of a text.
#[repr(C)]
#[derive(Debug, Clone, Copy, PartialEq, Eq)]
pub struct LinPart {
    /// The place of its first byte.
    pub start: u64,
    /// Its length in bytes.
    pub len: u64,
}

/// A text of a board or its absence, which is 0, 0, 0.
#[repr(C)]
#[derive(Debug, Clone, Copy, PartialEq, Eq)]
pub struct LinText {
    /// 1 with a text, 0 without.
    pub present: u32,
    /// The place of its first byte.
    pub start: u32,
    /// Its length in bytes.
    pub len: u32,
}

/// A board without its rows.
#[repr(C)]
#[derive(Debug, Clone, Copy, PartialEq, Eq)]
pub struct LinBoard {
    /// Start and length of each name, in the order S, W, N, E.
    pub names: [u32; 8],
    /// 0 to 3 for S, W, N, E.
    pub dealer: u32,
    /// 0 none, 1 NS, 2 EW, 3 both.
    pub vulnerability: u32,
    /// What mn says.
    pub title: LinText,
    /// What qx says.
    pub room_board: LinText,
    /// What ah says.
    pub board_header: LinText,
    /// 1 with a claim, 0 without.
    pub claimed: u32,
    /// The claim, or 0.
    pub claim: u32,
    /// The count of a card is at seat times 52 plus card.
    pub counts: [u32; 208],
}

/// A heading. A refusal has a fresh board, without calls and cards.
#[repr(C)]
#[derive(Debug, Clone, Copy, PartialEq, Eq)]
pub struct LinHeading {
    /// The value is 0 where nothing is refused.
    pub answer: LinAnswer,
    /// How many calls the board has.
    pub calls: u64,
    /// How many cards its play has.
    pub cards: u64,
    /// The board.
    pub board: LinBoard,
}

/// A board cursor: the place of the next part or line, and the number of the
/// next board. A refusal has the cursor 0, 0, 0.
#[repr(C)]
#[derive(Debug, Clone, Copy, PartialEq, Eq)]
pub struct LinBoards {
    /// The value is 0 where nothing is refused.
    pub answer: LinAnswer,
    /// The place of the next part or line.
    pub at: u64,
    /// The number of the next board.
    pub number: u64,
    /// 1 for a file of lines, 0 for one of parts.
    pub lines: u32,
}

/// A step of the board cursor. Without a part or a line its numbers are 0, and
/// the cursor is as it was. After a last line that no LF ends the cursor's place
/// is one past the text's length.
#[repr(C)]
#[derive(Debug, Clone, Copy, PartialEq, Eq)]
pub struct LinSection {
    /// 1 with a part or a line, 0 without.
    pub found: u32,
    /// The number that it has if it is a board.
    pub number: u64,
    /// The place where it begins.
    pub start: u64,
    /// The place where it ends.
    pub stop: u64,
    /// 1 for a board, 0 for none.
    pub board: u32,
    /// The place of the next part or line.
    pub next_at: u64,
    /// The number of the next board.
    pub next_number: u64,
}

/// A step of the board cursor to the next board, and the board. Without one, or
/// refused, its numbers are 0, the cursor is as it was, and the board is fresh,
/// without calls and cards. The cursor's place is as for [`LinSection`].
#[repr(C)]
#[derive(Debug, Clone, Copy, PartialEq, Eq)]
pub struct LinRead {
    /// The value is 0 where nothing is refused.
    pub answer: LinAnswer,
    /// 1 with a board, 0 without.
    pub found: u32,
    /// The number of the board.
    pub number: u64,
    /// The place where its part or line begins.
    pub start: u64,
    /// The place where it ends.
    pub stop: u64,
    /// The place of the next part or line.
    pub next_at: u64,
    /// The number of the next board.
    pub next_number: u64,
    /// The board.
    pub board: LinBoard,
    /// How many calls the board has.
    pub calls: u64,
    /// How many cards its play has.
    pub cards: u64,
}

/// What an auction is. The last four numbers are those of a contract, and 0
/// where there is none.
#[repr(C)]
#[derive(Debug, Clone, Copy, PartialEq, Eq)]
pub struct LinAuction {
    /// The value is the index of the first unlawful call, from 0 on, where the
    /// outcome is 4, and otherwise 0 where nothing is refused.
    pub answer: LinAnswer,
    /// 0 refused, 1 passed out, 2 ended with a contract, 3 open, 4 unlawful.
    pub outcome: u32,
    /// 1 to 7.
    pub level: u32,
    /// 0 to 4 for C, D, H, S, N.
    pub strain: u32,
    /// 0 neither, 1 doubled, 2 redoubled.
    pub doubling: u32,
    /// 0 to 3 for S, W, N, E.
    pub declarer: u32,
}

/// What becomes of a raw annotation.
#[repr(C)]
#[derive(Debug, Clone, Copy, PartialEq, Eq)]
pub struct LinAnnotation {
    /// The value is the text's length, 0 where there is none.
    pub answer: LinAnswer,
    /// 1 with a text, 0 without.
    pub present: u32,
}

/// A PBN record without its calls, its play and its notes. What a flag says is
/// not given is not looked at.
#[repr(C)]
#[derive(Debug, Clone, Copy, PartialEq, Eq)]
pub struct LinPbn {
    /// South's name.
    pub south: LinText,
    /// West's name.
    pub west: LinText,
    /// North's name.
    pub north: LinText,
    /// East's name.
    pub east: LinText,
    /// The event.
    pub event: LinText,
    /// The date.
    pub date: LinText,
    /// The board's id.
    pub id: LinText,
    /// 1 with a number, 0 without.
    pub number_given: u32,
    /// 1 to 65,535.
    pub number: u32,
    /// 1 with a dealer, 0 without.
    pub dealer_given: u32,
    /// 0 to 3 for S, W, N, E.
    pub dealer: u32,
    /// 0 none, 1 NS, 2 EW, 3 both.
    pub vulnerability: u32,
    /// 1 with a result, 0 without.
    pub result_given: u32,
    /// The tricks won.
    pub result: i32,
    /// The count of a card is at seat times 52 plus card.
    pub counts: [u32; 208],
}

/// A board made of a PBN record; its texts are parts of the output. A refusal
/// has a fresh board, without calls, cards and texts.
#[repr(C)]
#[derive(Debug, Clone, Copy, PartialEq, Eq)]
pub struct LinConverted {
    /// The board's heading.
    pub heading: LinHeading,
    /// The bytes of the texts.
    pub len: u64,
}

extern "C" {
    pub fn lin_open(text: *const u8, text_len: usize) -> LinAnswer;
    pub fn lin_next(text: *const u8, text_len: usize, at: u64) -> LinStep;
    pub fn lin_trailing(text: *const u8, text_len: usize, at: u64) -> LinPart;
    pub fn lin_write_document(
        text: *const u8,
        text_len: usize,
        rows: *const u32,
        rows_len: usize,
        trailing_start: u32,
        trailing_len: u32,
        out: *mut u8,
        out_len: usize,
    ) -> LinAnswer;
    pub fn lin_parse_heading(text: *const u8, text_len: usize) -> LinHeading;
    pub fn lin_parse_lin(
        text: *const u8,
        text_len: usize,
        rows: *mut u32,
        rows_len: usize,
        cards: *mut u8,
        cards_len: usize,
    ) -> LinHeading;
    pub fn lin_count_boards(text: *const u8, text_len: usize) -> LinAnswer;
    pub fn lin_file_heading(text: *const u8, text_len: usize, number: u64) -> LinHeading;
    pub fn lin_file_board(
        text: *const u8,
        text_len: usize,
        number: u64,
        rows: *mut u32,
        rows_len: usize,
        cards: *mut u8,
        cards_len: usize,
    ) -> LinHeading;
    pub fn lin_find_name(
        text: *const u8,
        text_len: usize,
        name: *const u8,
        name_len: usize,
        work: *mut u32,
        work_len: usize,
    ) -> LinAnswer;
    pub fn lin_open_boards(text: *const u8, text_len: usize) -> LinBoards;
    pub fn lin_next_board(
        text: *const u8,
        text_len: usize,
        at: u64,
        number: u64,
        lines: u32,
    ) -> LinSection;
    pub fn lin_read_board(
        text: *const u8,
        text_len: usize,
        at: u64,
        number: u64,
        lines: u32,
        rows: *mut u32,
        rows_len: usize,
        cards: *mut u8,
        cards_len: usize,
    ) -> LinRead;
    pub fn lin_append(
        text: *const u8,
        text_len: usize,
        board: LinBoard,
        rows: *const u32,
        rows_len: usize,
        cards: *const u8,
        cards_len: usize,
        out: *mut u8,
        out_len: usize,
        used: u64,
    ) -> LinAnswer;
    pub fn lin_write_lin(
        text: *const u8,
        text_len: usize,
        board: LinBoard,
        rows: *const u32,
        rows_len: usize,
        cards: *const u8,
        cards_len: usize,
        out: *mut u8,
        out_len: usize,
    ) -> LinAnswer;
    pub fn lin_play_text(
        cards: *const u8,
        cards_len: usize,
        out: *mut u8,
        out_len: usize,
    ) -> LinAnswer;
    pub fn lin_same_board(
        text: *const u8,
        text_len: usize,
        board: LinBoard,
        rows: *const u32,
        rows_len: usize,
        cards: *const u8,
        cards_len: usize,
        text2: *const u8,
        text2_len: usize,
        board2: LinBoard,
        rows2: *const u32,
        rows2_len: usize,
        cards2: *const u8,
        cards2_len: usize,
    ) -> LinAnswer;
    pub fn lin_check_auction(
        text: *const u8,
        text_len: usize,
        dealer: u32,
        rows: *const u32,
        rows_len: usize,
    ) -> LinAuction;
    pub fn lin_annotation_text(
        text: *const u8,
        text_len: usize,
        raw_start: u32,
        raw_len: u32,
        notes: *const [u32; 768],
        out: *mut u8,
        out_len: usize,
    ) -> LinAnnotation;
    pub fn lin_from_board(
        text: *const u8,
        text_len: usize,
        board: LinPbn,
        calls: *const u32,
        calls_len: usize,
        plays: *const u8,
        plays_len: usize,
        notes: *const [u32; 768],
        out: *mut u8,
        out_len: usize,
        rows: *mut u32,
        rows_len: usize,
        cards: *mut u8,
        cards_len: usize,
    ) -> LinConverted;
}
