//! The places of the program's memory. The first are the program's own, as in
//! crates/test_memory/src/memory.rt; the others are known to the files alone.

/// 1 until a comparison of the case fails.
pub const OK: usize = 0;
/// The lent text: where it begins in the program's bytes, and its length.
pub const TEXT: usize = 16;
/// The second lent text, as `TEXT`: a name to find, the text of the second board,
/// or what the output must be.
pub const TEXT2: usize = 18;
/// The lent cards, as `TEXT`: the play of the lent board, or that of the record
/// with its gaps.
pub const CARDS: usize = 20;
/// The play of the second board, as `TEXT`.
pub const CARDS2: usize = 22;
/// The rows that are lent for reading: where they begin in the memory, and how
/// many words they are.
pub const ROWS: usize = 24;
/// The rows of the second board, as `ROWS`.
pub const ROWS2: usize = 26;
/// How many words of rows are lent to be filled.
pub const LENT_WORDS: usize = 28;
/// How many places for cards are lent to be filled.
pub const LENT_CARDS: usize = 29;
/// How many bytes of the output are lent to be filled.
pub const ROOM: usize = 30;
/// How many words of work space are lent.
pub const LENT_WORK: usize = 31;
/// The first number of a call, in two words: a cursor's place, a board's number or
/// the used bytes.
pub const NUMBER: usize = 32;
/// The second number of a call, in two words: that of a board cursor's next board.
pub const SECOND: usize = 34;
/// 0 if a board cursor steps over parts, another number if it steps over lines.
pub const LINES: usize = 36;
/// A start and a length in the text: what trails a document, or a raw annotation.
pub const SPAN: usize = 38;
/// The answer: the low words of its eight numbers.
pub const ANSWER: usize = 64;
/// The high words of the numbers at `ANSWER`.
pub const HIGH: usize = 72;
/// The board of the answer: start and length of the names S, W, N, E; the dealer;
/// the vulnerability; title, room and board, and header, each a flag, a start and a
/// length; the claim with a flag before it; from word 21 on the counts of the cards
/// held. A flag is 1 for what is there and 0 for what is absent.
pub const BOARD: usize = 80;
/// The board that is lent, laid out as `BOARD`. Its dealer is that of an auction.
pub const LENT_BOARD: usize = 320;
/// The second board that is lent, which the first is compared with.
pub const LENT_BOARD2: usize = 576;
/// The PBN record that is lent: the names S, W, N, E, event, date and id, each a
/// flag, a start and a length; number and dealer, each with a flag before it; the
/// vulnerability; the result with a flag before it; from word 28 on the counts of
/// the cards held.
pub const RECORD: usize = 832;
/// The 256 notes that are lent: a flag, a start and a length for each.
pub const NOTES: usize = 2_048;
/// Where the step that reads laid its step: the low words of eight numbers, which
/// are found, number, start, stop, the next place and the next number, then two
/// of 0.
pub const STEP: usize = 1_072;
/// The high words of the numbers at `STEP`.
pub const STEP_HIGH: usize = 1_080;
/// The rows that a call filled, and after them those that it did not fill.
pub const FILLED_ROWS: usize = 4_096;
/// The cards that a call filled, a word each, and after them the places that it did
/// not fill.
pub const FILLED_CARDS: usize = 7_296;
/// The work space after a call that was lent some of it, and after that the words that
/// were not lent.
pub const WORK: usize = 24_576;

// Words that only the files use: constants, the numbers of a case, places of
// blocks.

/// Holds 0. A step names most of its numbers by their places, so that constants
/// have places too.
pub const ZERO: usize = 42;
/// Holds 1.
pub const ONE: usize = 43;
/// Holds `WORD`, which rows and work space have that no call filled.
pub const MARK_WORD: usize = 44;
/// Holds `MARK`, which places for cards have that no call filled.
pub const MARK_BYTE: usize = 45;
/// Holds 208: a deal has 52 counts for each seat.
pub const COUNTS: usize = 46;
/// Holds 2.
pub const TWO: usize = 47;
/// Holds 3.
pub const THREE: usize = 48;
/// Holds 4.
pub const FOUR: usize = 49;
/// Holds the greatest word: a start beyond every text, and a code outside every
/// range.
pub const MOST: usize = 50;
/// Holds `MOST_WORDS`.
pub const ALL_WORDS: usize = 51;
/// Holds `MOST_CARDS`.
pub const ALL_CARDS: usize = 52;
/// Holds `MOST_WORK` in the files that ask for names.
pub const ALL_WORK: usize = 53;
/// The start of the output's part that is marked and looked at.
pub const OUT: usize = 54;
/// The length of the output's part that is marked and looked at.
pub const OUT_LEN: usize = 55;
/// The start of other bytes of the output, or of lent bytes.
pub const REST: usize = 56;
/// The number of the bytes whose start is at `REST`.
pub const REST_LEN: usize = 57;
/// Where the counts of the cards held on the expected board are made.
pub const DEAL: usize = 1_100;
/// The first of the numbers of a case.
pub const OWN: usize = 1_320;
/// The first of the words that hold where a block begins in the file.
pub const BLOCKS: usize = 1_400;
/// How many calls the expected board has.
pub const CALLS_OF: usize = OWN;
/// How many cards the play of the expected board has.
pub const CARDS_OF: usize = OWN + 1;
/// The words of the expected board's rows, six for each call.
pub const WORDS_OF: usize = OWN + 2;
/// The words of all rows that are left after the expected board's.
pub const REST_WORDS: usize = OWN + 3;
/// The places for cards that are left after the expected board's play.
pub const REST_CARDS: usize = OWN + 4;
/// The block that compares the heading with that of the expected board, and makes
/// the counts of the expected board.
pub const HEAD: usize = BLOCKS;
/// The block that compares the filled rows and cards with the expected board's.
pub const TAIL: usize = BLOCKS + 1;
/// The block that sets the counts at `DEAL` to 0.
pub const CLEAR: usize = BLOCKS + 2;
/// The block that compares the board of the answer with a fresh one.
pub const FRESH: usize = BLOCKS + 3;
/// The block for rows and places for cards that are all as they were before the
/// call.
pub const UNTOUCHED: usize = BLOCKS + 4;
/// The block for an accepted board: the numbers of its calls and cards, its heading
/// and its hands are those of the expected board.
pub const HEADED: usize = BLOCKS + 5;
/// The block for the rows and cards of an accepted board: they are the expected
/// board's, and all after them is as it was before the call.
pub const ROWED: usize = BLOCKS + 6;
/// The block that makes `WORDS_OF`, `REST_WORDS` and `REST_CARDS`.
pub const SIZES: usize = BLOCKS + 7;
/// The block that reads the expected board: its heading alone, then all of it with
/// rows and places to spare, then with exactly enough.
pub const READ: usize = BLOCKS + 8;
/// The block that reads the expected board with a word too few: refusal 3 for the
/// calls.
pub const FEW_CALLS: usize = BLOCKS + 9;
/// The block that reads the expected board with a place too few: refusal 3 for the
/// cards.
pub const FEW_CARDS: usize = BLOCKS + 10;
/// The block that reads the expected board with a row and a place too few: refusal 3
/// for the calls.
pub const FEW_BOTH: usize = BLOCKS + 11;
/// The block that asks for numbers that no board of the text has: refusal 4.
pub const MISSING: usize = BLOCKS + 12;
/// The block that counts the boards of the text, and goes to the first of them.
pub const COUNTED: usize = BLOCKS + 13;
/// The block that sets the lent board's words beyond every text, and empties its
/// hands.
pub const BLANK: usize = BLOCKS + 14;
/// The block that does with the second board what `BLANK` does with the first.
pub const BLANK2: usize = BLOCKS + 15;
/// The block for a board whose four names are empty.
pub const NO_NAMES: usize = BLOCKS + 16;
/// How many boards the text has.
pub const COUNT_OF: usize = OWN + 5;
/// The number of the board that is read next.
pub const BOARD_NUMBER: usize = OWN + 6;
/// How many boards have the name that is sought.
pub const HAVING: usize = OWN + 7;
/// How many places of work space the finder needs.
pub const PLACES_OF: usize = OWN + 8;
/// The words of all work space that are left after the lent ones.
pub const REST_WORK: usize = OWN + 9;
/// The block that asks for the name with places to spare.
pub const SOUGHT: usize = BLOCKS + 50;
/// The block that asks for it with places to spare, with exactly enough and with one
/// less.
pub const SOUGHT_ALL: usize = BLOCKS + 51;
/// The block for work space that is all as it was before the call.
pub const WORK_KEPT: usize = BLOCKS + 52;
/// The block that calls the finder: it counts `HAVING` boards, and the work space that
/// was not lent is as it was.
pub const NAME_COUNTED: usize = BLOCKS + 53;
/// A block without steps.
pub const NO_STEPS: usize = BLOCKS + 54;
/// The first block that a subject has for itself.
pub const OWN_BLOCK: usize = BLOCKS + 20;
/// The first number that a subject has for itself.
pub const OWN_NUMBER: usize = OWN + 10;
/// Notes that are all absent.
pub const NO_NOTES: usize = 2_816;
/// Where the rows stand that are lent for reading.
pub const READ_ROWS: usize = 8_192;
/// Where the rows of the second board stand.
pub const READ_ROWS2: usize = 16_384;
/// A heading and rows that are kept for later steps.
pub const KEPT: usize = 20_480;

/// What the program marks the words of rows and of work space with before a call.
pub const WORD: u32 = 0xA5A5_A5A5;
/// What places for cards and bytes of the output are marked with before a call.
pub const MARK: u8 = 0xA5;
/// The words of rows that the program can lend to be filled.
pub const MOST_WORDS: u32 = 3_200;
/// The places for cards that the program can lend to be filled.
pub const MOST_CARDS: u32 = 600;
/// The words of work space that the program can lend.
pub const MOST_WORK: u32 = 4_096;
/// Where the second text begins in the program's bytes.
pub const SECOND_TEXT: u32 = 1_050_000;
/// Where the lent cards begin in the program's bytes.
pub const FIRST_CARDS: u32 = 1_090_000;
/// Where the cards of the second board begin in the program's bytes.
pub const SECOND_CARDS: u32 = 1_100_000;
