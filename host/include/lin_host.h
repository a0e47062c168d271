/*
 * LIN records of contract bridge: the functions of liblin_host.a for C.
 *
 * The archive is for x86-64 Linux. Link it by its name:
 *
 *     cc prog.c -Ihost/include target/staticlib/liblin_host.a
 *
 * Arguments
 *
 * Memory is lent for the time of a call; the library keeps none of it, allocates
 * none, and has no state of its own. A lent list is two arguments, a pointer and
 * then its length, which counts elements: bytes for uint8_t, words for uint32_t.
 * The order is the same in all functions:
 *
 *     1. the text, then the board or the record whose spans are in it
 *     2. what else is read: rows or calls, cards or plays, notes, a name
 *     3. the output
 *     4. the rows and the cards that are filled, or work space
 *
 * Numbers stand behind the list that they belong to: a place, the number of a
 * board, or a dealer, behind the text; the trailing span of a document behind its
 * rows; the used count behind the output. lin_same_board takes all of the first
 * board and then all of the second.
 *
 * What the caller owes, which the proof of the library takes as given:
 *
 * - A pointer is valid for its whole length. It is aligned for its type and is
 *   not null, also where the length is 0.
 * - What a call writes (a pointer that is not const) overlaps nothing else that
 *   is lent to the call. What is only read may overlap, or be the same.
 * - No other thread writes what is lent, or reads what the call writes, until it
 *   returns.
 *
 * Nothing is owed about the contents: every text, number and length has an
 * answer, which is the defined result or a refusal.
 *
 * Structs are passed and returned by value, as the C ABI of the platform does.
 *
 * Layouts
 *
 * place      the number of a byte in a text, from 0 on
 * span       a start and a length in bytes, in the text that is lent beside it
 * seat       0 to 3 for South, West, North, East
 * card       0 to 51, suit times 13 plus rank: suits 0 to 3 for S, H, D, C; ranks
 *            0 to 12 for 2 to 9, T, J, Q, K, A. The ace of spades is 12, the two
 *            of clubs is 39. In lists of cards a card is a byte
 * counts     how often each seat holds each card, at seat times 52 plus card
 * row        a call of the auction, six words: the bid's start and length; 1 if it
 *            is alerted, else 0; 1 if it has an annotation, else 0; the
 *            annotation's start and length, which are 0, 0 if it has none
 *
 * The length of rows is in words. A rest of fewer than six words is no row.
 *
 * A text has at most LIN_LIMIT bytes. The room of an output is the lesser of its
 * length and LIN_LIMIT. Work space is no output: all of its length counts.
 */
#ifndef LIN_HOST_H
#define LIN_HOST_H

#include <stddef.h>
#include <stdint.h>

#ifdef __cplusplus
extern "C" {
#endif

/* The bytes that a text, or the room of an output, has at most. */
#define LIN_LIMIT 1048576

/* The words of a row. */
#define LIN_ROW 6

/* The words of the notes: three for each of the 256 numbers. */
#define LIN_NOTES 768

/* The byte for an entry of a record's play that is a gap. */
#define LIN_GAP 255

/*
 * The refusals, by the numbers of documents 01 and 02. A refused call changes
 * nothing that was lent to it. Behind each: the value that comes with it.
 *
 * Calls that read a text check 1, 2, 4, 3, and lin_find_name checks 1, 2, 7; all
 * other calls check 1, 8, 5, 6, 9, 3, 7, of which 9 meets lin_check_auction alone.
 * Each is checked over the whole input before the next, and the first that is met
 * is the answer.
 */
enum {
    /* No refusal. */
    LIN_ACCEPTED = 0,
    /* A lent text is too long. Nothing. */
    LIN_TEXT_TOO_LONG = 1,
    /* The bytes that were looked at of a read text are not UTF-8. The place up to
     * which they are well formed, counted from the start of the text. */
    LIN_NOT_UTF8 = 2,
    /* Too few rows, or too few places for cards; `kind` tells which, calls before
     * cards. How many of that kind are needed: rows, not words. */
    LIN_TOO_FEW_ROWS = 3,
    /* No board of that number. How many boards there are. */
    LIN_NO_BOARD = 4,
    /* A span passes the end of its text. Nothing. */
    LIN_SPAN_PAST_END = 5,
    /* The bytes of a span are not UTF-8. Nothing. */
    LIN_SPAN_NOT_UTF8 = 6,
    /* The output is too small. The bytes that this call would write, or 2^64 - 1
     * for any number beyond it. Of lin_find_name: the work space is too small. The
     * places of 32 bits that it needs. */
    LIN_OUTPUT_TOO_SMALL = 7,
    /* A card, a level, a flag or another number is outside its range, or the used
     * bytes are beyond the room. Nothing. */
    LIN_OUT_OF_RANGE = 8,
    /* A bid of an auction, such as pass or 8C, is none of p, d, r and the bids 1C
     * to 7N. The least index of such a bid, from 0 on. */
    LIN_BID_UNKNOWN = 9
};

/* The kinds of LIN_TOO_FEW_ROWS. */
enum {
    LIN_CALLS = 0,
    LIN_CARDS = 1
};

/* The outcomes of lin_check_auction. */
enum {
    /* The call was refused. */
    LIN_AUCTION_REFUSED = 0,
    /* Lawful, and ended by four opening passes. */
    LIN_AUCTION_PASSED_OUT = 1,
    /* Lawful, and ended with a contract. */
    LIN_AUCTION_ENDED = 2,
    /* Lawful, and not ended. */
    LIN_AUCTION_OPEN = 3,
    /* A call is unlawful. */
    LIN_AUCTION_UNLAWFUL = 4
};

/* An answer or a refusal. */
typedef struct LinAnswer {
    /* LIN_ACCEPTED, or the number of the refusal. */
    uint32_t refusal;
    /* For LIN_TOO_FEW_ROWS: LIN_CALLS or LIN_CARDS. Otherwise 0. */
    uint32_t kind;
    /* The answer, or what the refusal carries, or 0. */
    uint64_t value;
} LinAnswer;

/* A step of the token cursor. Without a token the four numbers of the pieces are
 * 0, and `next` is the place from which the step was asked. */
typedef struct LinStep {
    /* 1 with a token, 0 without. */
    uint32_t found;
    /* The piece before the first pipe. */
    uint64_t command_start;
    uint64_t command_len;
    /* The piece between the two pipes. */
    uint64_t value_start;
    uint64_t value_len;
    /* The place behind the second pipe. */
    uint64_t next;
} LinStep;

/* A part of a text. */
typedef struct LinPart {
    uint64_t start;
    uint64_t len;
} LinPart;

/* A text of a board, or its absence, which a reader gives as 0, 0, 0. */
typedef struct LinText {
    /* 1 with a text, 0 without. */
    uint32_t present;
    uint32_t start;
    uint32_t len;
} LinText;

/* A board without its calls and its play. */
typedef struct LinBoard {
    /* Start and length of each name, in the order S, W, N, E. */
    uint32_t names[8];
    /* A seat. */
    uint32_t dealer;
    /* 0 none, 1 North and South, 2 East and West, 3 both. */
    uint32_t vulnerability;
    /* What mn, qx and ah say. */
    LinText title;
    LinText room_board;
    LinText board_header;
    /* 1 with a claim, 0 without. */
    uint32_t claimed;
    /* The claim, 0 to 255; a reader gives 0 if there is none. */
    uint32_t claim;
    /* The hands. */
    uint32_t counts[208];
} LinBoard;

/* A board, with the numbers of its calls and of its cards. A refusal has a fresh
 * board, whose dealer is North and whose other numbers are 0. */
typedef struct LinHeading {
    /* The value is 0 where nothing is refused. */
    LinAnswer answer;
    /* How many calls the auction has. */
    uint64_t calls;
    /* How many cards the play has. */
    uint64_t cards;
    LinBoard board;
} LinHeading;

/* A board cursor. A refusal has the cursor 0, 0, 0. */
typedef struct LinBoards {
    /* The value is 0 where nothing is refused. */
    LinAnswer answer;
    /* The place of the next part or line. */
    uint64_t at;
    /* The number of the next board. */
    uint64_t number;
    /* 1 for a file of lines, 0 for a file of parts. */
    uint32_t lines;
} LinBoards;

/* A step of the board cursor. Without a part or a line its numbers are 0, and
 * the cursor is as it was. Behind a last line that no LF ends, `next_at` is one
 * more than the length of the text. */
typedef struct LinSection {
    /* 1 with a part or a line, 0 without. */
    uint32_t found;
    /* The number that it has if it is a board. */
    uint64_t number;
    /* Where it begins, and the place behind its last byte. */
    uint64_t start;
    uint64_t stop;
    /* 1 if it is a board, else 0. */
    uint32_t board;
    /* The cursor behind it. */
    uint64_t next_at;
    uint64_t next_number;
} LinSection;

/* A step of the board cursor to the next board, and the board. Without one, or
 * refused, its numbers are 0, the cursor is as it was, and the board is fresh.
 * `next_at` is as for LinSection. */
typedef struct LinRead {
    /* The value is 0 where nothing is refused. */
    LinAnswer answer;
    /* 1 with a board, 0 without. */
    uint32_t found;
    /* The number of the board. */
    uint64_t number;
    /* Where its part or line begins, and the place behind its last byte. */
    uint64_t start;
    uint64_t stop;
    /* The cursor behind it. */
    uint64_t next_at;
    uint64_t next_number;
    LinBoard board;
    /* How many rows and how many places for cards were filled. */
    uint64_t calls;
    uint64_t cards;
} LinRead;

/* What an auction is. The last four numbers are those of the contract of
 * LIN_AUCTION_ENDED, and otherwise 0. */
typedef struct LinAuction {
    /* The value is the index of the first unlawful call, from 0 on, where the
     * outcome is LIN_AUCTION_UNLAWFUL, and otherwise 0 where nothing is refused. */
    LinAnswer answer;
    /* One of the outcomes. */
    uint32_t outcome;
    /* 1 to 7. */
    uint32_t level;
    /* 0 to 4 for C, D, H, S, N. */
    uint32_t strain;
    /* 0 neither, 1 doubled, 2 redoubled. */
    uint32_t doubling;
    /* A seat. */
    uint32_t declarer;
} LinAuction;

/* What becomes of a raw annotation. */
typedef struct LinAnnotation {
    /* The value is the length of the text, 0 if there is none. */
    LinAnswer answer;
    /* 1 with a text, 0 without. */
    uint32_t present;
} LinAnnotation;

/* A PBN record without its calls, its play and its notes. What a flag says is
 * not given is not looked at. */
typedef struct LinPbn {
    /* The names. */
    LinText south;
    LinText west;
    LinText north;
    LinText east;
    LinText event;
    LinText date;
    /* The id of the board. */
    LinText id;
    /* 1 if it is given, else 0; 1 to 65,535. */
    uint32_t number_given;
    uint32_t number;
    /* 1 if it is given, else 0; a seat. */
    uint32_t dealer_given;
    uint32_t dealer;
    /* As in LinBoard. */
    uint32_t vulnerability;
    /* 1 if it is given, else 0; the tricks won. Outside 0 to 255 they give no
     * claim. */
    uint32_t result_given;
    int32_t result;
    /* The hands. */
    uint32_t counts[208];
} LinPbn;

/* A board made of a PBN record. Its spans are places of the output. A refusal
 * has a fresh board and the length 0. */
typedef struct LinConverted {
    LinHeading heading;
    /* The bytes of all texts together. */
    uint64_t len;
} LinConverted;

/* ---- Tokens ---- */

/* Looks at a whole text. The value is 0, the place of a cursor at its start.
 * Refusals 1 and 2. */
LinAnswer lin_open(const uint8_t *text, size_t text_len);

/* The token at a place. Nothing is refused: any bytes are taken, and any place.
 * With fewer than two pipes left there is none. */
LinStep lin_next(const uint8_t *text, size_t text_len, uint64_t at);

/* The part of the text from a place on; beyond the end, the empty part at the
 * end. Nothing is refused. */
LinPart lin_trailing(const uint8_t *text, size_t text_len, uint64_t at);

/* Writes a document from the first byte of the output on: four words for each
 * token, the spans of its command and its value, then the span of what trails
 * them. A rest of fewer than four words is no token. The value is the length.
 * Refusals 1, 5, 6 and 7. */
LinAnswer lin_write_document(const uint8_t *text, size_t text_len,
                             const uint32_t *rows, size_t rows_len,
                             uint32_t trailing_start, uint32_t trailing_len,
                             uint8_t *out, size_t out_len);

/* ---- One board ---- */

/* The board that a text is, without its calls and its play, but with their
 * numbers. Refusals 1 and 2. */
LinHeading lin_parse_heading(const uint8_t *text, size_t text_len);

/* The same, with the calls in the rows and the play in the cards. Those behind
 * the last that is needed stay as they were. Refusals 1, 2 and 3. */
LinHeading lin_parse_lin(const uint8_t *text, size_t text_len,
                         uint32_t *rows, size_t rows_len,
                         uint8_t *cards, size_t cards_len);

/* ---- The boards of a file ----
 *
 * The spans are places of the whole text. No board has more calls or cards than
 * a quarter of the bytes of its text, so that text_len / 4 rows and text_len / 4
 * places are enough for any. */

/* The value is the number of boards. Refusals 1 and 2. */
LinAnswer lin_count_boards(const uint8_t *text, size_t text_len);

/* The board of a number, from 0 on, as lin_parse_heading gives one. Refusals 1, 2
 * and 4. */
LinHeading lin_file_heading(const uint8_t *text, size_t text_len, uint64_t number);

/* The same, with rows and cards as lin_parse_lin fills them. Refusals 1, 2, 4 and
 * 3. */
LinHeading lin_file_board(const uint8_t *text, size_t text_len, uint64_t number,
                          uint32_t *rows, size_t rows_len,
                          uint8_t *cards, size_t cards_len);

/* The value is the number of boards that have the name at any seat. Two names are
 * the same if their characters are equal after these were mapped by the canonical
 * mappings of Unicode for U+00C0 to U+024F, U+0300 to U+036F and U+1E00 to U+1EFF,
 * until none applies, and the marks U+0300 to U+036F ordered by combining class
 * within each run of nonzero classes. All other characters stay as they are, and
 * their class is 0. Refusals 1 and 2, each of the file and then of the name, and
 * last 7.
 *
 * The characters are mapped into the work space, each into a place of 32 bits. 7
 * carries the places that are needed: as many as the sought name has characters
 * when mapped, plus the most that a name of the file's boards has, 0 without boards;
 * a name that a later pn of its board replaces is none. So many places are always
 * enough, rounded up:
 *
 *     3 * (text_len + name_len) / 2
 *
 * With the places of the sought name and 3 * text_len / 2 more, or with those above,
 * the file is walked once; with fewer it is walked for the places needed before.
 * What the work space holds before the call changes nothing. It is as it was after a
 * refusal, and may hold anything after an answer. */
LinAnswer lin_find_name(const uint8_t *text, size_t text_len,
                        const uint8_t *name, size_t name_len,
                        uint32_t *work, size_t work_len);

/* A board cursor at the start of a file, all of which is looked at. Refusals 1
 * and 2. */
LinBoards lin_open_boards(const uint8_t *text, size_t text_len);

/* The part or the line at a board cursor. Nothing is refused: any bytes are
 * taken, and any numbers; `lines` other than 0 counts as 1. */
LinSection lin_next_board(const uint8_t *text, size_t text_len,
                          uint64_t at, uint64_t number, uint32_t lines);

/* The next board from a board cursor on, with rows and cards as lin_parse_lin
 * fills them; parts and lines that are no boards are passed. The cursor is as for
 * lin_next_board. Refusals 1, 2 and 3. 2 looks at the bytes from the cursor's
 * place to the end of the board, or of the text if there is none, so that the
 * steps behind lin_open_boards are not refused by it; 3 asks for the rows of this
 * board alone. After a refusal the same step can be made again. */
LinRead lin_read_board(const uint8_t *text, size_t text_len,
                       uint64_t at, uint64_t number, uint32_t lines,
                       uint32_t *rows, size_t rows_len,
                       uint8_t *cards, size_t cards_len);

/* ---- Boards written ----
 *
 * A board is lent with the numbers that a reader gives, or with others: a code or
 * a flag outside its range is refused by 8. Its calls are the whole rows, and its
 * play is all cards, so that after a reading the lengths to lend are LIN_ROW times
 * calls, and cards. The place of an absent text, and the number of an absent
 * claim, are not looked at. */

/* Writes a board behind the first `used` bytes of the output, which stay. The
 * value is the new used count. Refusals 1, 8, 5, 6 and 7. */
LinAnswer lin_append(const uint8_t *text, size_t text_len, LinBoard board,
                     const uint32_t *rows, size_t rows_len,
                     const uint8_t *cards, size_t cards_len,
                     uint8_t *out, size_t out_len, uint64_t used);

/* Writes a board from the first byte of the output on. The value is the length.
 * Refusals 1, 8, 5, 6 and 7. */
LinAnswer lin_write_lin(const uint8_t *text, size_t text_len, LinBoard board,
                        const uint32_t *rows, size_t rows_len,
                        const uint8_t *cards, size_t cards_len,
                        uint8_t *out, size_t out_len);

/* Writes the cards as text, a space between two cards and a pipe between two
 * tricks, from the first byte of the output on. The value is the length. Refusals
 * 8 and 7. */
LinAnswer lin_play_text(const uint8_t *cards, size_t cards_len,
                        uint8_t *out, size_t out_len);

/* The value is 1 if the first board equals the second, else 0. Each card that a
 * hand of the first holds is looked for in the second, and hands have the same
 * length: with repeated cards the answer may differ from that of the same boards
 * the other way round. Refusals 1, 8, 5 and 6, each of both boards before the
 * next. */
LinAnswer lin_same_board(const uint8_t *text, size_t text_len, LinBoard board,
                         const uint32_t *rows, size_t rows_len,
                         const uint8_t *cards, size_t cards_len,
                         const uint8_t *text2, size_t text2_len, LinBoard board2,
                         const uint32_t *rows2, size_t rows2_len,
                         const uint8_t *cards2, size_t cards2_len);

/* ---- The auction ---- */

/* Whether the calls of the rows, of which the dealer makes the first, are lawful
 * by the Laws of Duplicate Bridge 2017; whether they end the auction; and the
 * contract. A bid is p, d, r, or a level 1 to 7 and C, D, H, S, N or NT, in either
 * case. The dealer is a seat, and another number is refused by 8, as is a flag of a
 * row that is neither 0 nor 1. The place of an absent annotation is not looked at.
 * Refusals 1, 8, 5, 6 and 9. */
LinAuction lin_check_auction(const uint8_t *text, size_t text_len, uint32_t dealer,
                             const uint32_t *rows, size_t rows_len);

/* ---- From PBN ----
 *
 * The notes are LIN_NOTES words, three for each number of 0 to 255: 0 if the note
 * is absent and any other number if it is there, then its span. A code, a flag or
 * a number of the record that is outside its range is refused by 8. */

/* Writes the text of the raw annotation at a span from the first byte of the
 * output on. Refusals 1, 5, 6 and 7. */
LinAnnotation lin_annotation_text(const uint8_t *text, size_t text_len,
                                  uint32_t raw_start, uint32_t raw_len,
                                  const uint32_t notes[LIN_NOTES],
                                  uint8_t *out, size_t out_len);

/* Makes a board of a record. A call takes six words: 0 to 5 for pass, double,
 * redouble, bid, continue, blank; of a bid the level 1 to 7 and the strain 0 to 4
 * for C, D, H, S, N; 1 if it has a raw annotation, else 0; the span of that. An
 * entry of the play is a card or LIN_GAP. Continue, blank and gaps are left out.
 * The texts that are made go into the output, rows and cards are filled as by
 * lin_parse_lin. Refusals 1, 8, 5, 6, 3 and 7. */
LinConverted lin_from_board(const uint8_t *text, size_t text_len, LinPbn board,
                            const uint32_t *calls, size_t calls_len,
                            const uint8_t *plays, size_t plays_len,
                            const uint32_t notes[LIN_NOTES],
                            uint8_t *out, size_t out_len,
                            uint32_t *rows, size_t rows_len,
                            uint8_t *cards, size_t cards_len);

#ifdef __cplusplus
}
#endif

#endif
