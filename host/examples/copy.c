/*
 * Copies the boards of a LIN file: reads the file that the argument names, or
 * standard input, and writes its boards to standard output in the layout of the
 * library's writer.
 *
 *     cc copy.c -I../include ../../target/staticlib/liblin_host.a -o copy
 *     ./copy ../../samples/lesson.lin
 *
 * A refusal is printed by its number and its value; nothing is then copied, and
 * the program ends with 1.
 */
#include <inttypes.h>
#include <stdio.h>

#include "lin_host.h"

/* A text's calls and cards are at most a quarter of its bytes. */
#define MOST (LIN_LIMIT / 4)

/* One byte more than a text may have, so that a longer one is seen. */
static uint8_t text[LIN_LIMIT + 1];
static uint32_t rows[LIN_ROW * MOST];
static uint8_t cards[MOST];
static uint8_t out[LIN_LIMIT];

static int refused(const char *call, LinAnswer answer)
{
    fprintf(stderr, "%s: refusal %" PRIu32 ", value %" PRIu64 "\n", call,
            answer.refusal, answer.value);
    return 1;
}

static int failed(const char *what)
{
    perror(what);
    return 1;
}

/* Appends all boards of the text to the output, and tells how many bytes they
 * are; or tells that one was refused. */
static int copy_boards(size_t len, size_t *copied)
{
    LinBoards cursor = lin_open_boards(text, len);
    if (cursor.answer.refusal != LIN_ACCEPTED)
        return refused("lin_open_boards", cursor.answer);

    uint64_t used = 0;
    for (;;) {
        LinRead read = lin_read_board(text, len, cursor.at, cursor.number,
                                      cursor.lines, rows, LIN_ROW * MOST, cards,
                                      MOST);
        if (read.answer.refusal != LIN_ACCEPTED)
            return refused("lin_read_board", read.answer);
        if (!read.found)
            break;

        LinAnswer filed = lin_append(text, len, read.board, rows,
                                     LIN_ROW * read.calls, cards, read.cards, out,
                                     sizeof out, used);
        if (filed.refusal != LIN_ACCEPTED)
            return refused("lin_append", filed);
        used = filed.value;
        cursor.at = read.next_at;
        cursor.number = read.next_number;
    }
    *copied = used;
    return 0;
}

int main(int argc, char **argv)
{
    if (argc > 2) {
        fprintf(stderr, "usage: copy [FILE]\n");
        return 2;
    }
    const char *name = argc == 2 ? argv[1] : "standard input";
    FILE *in = argc == 2 ? fopen(name, "rb") : stdin;
    if (in == NULL)
        return failed(name);
    size_t len = fread(text, 1, sizeof text, in);
    if (ferror(in))
        return failed(name);

    size_t copied;
    if (copy_boards(len, &copied) != 0)
        return 1;
    if (fwrite(out, 1, copied, stdout) != copied || fflush(stdout) != 0)
        return failed("standard output");
    return 0;
}
