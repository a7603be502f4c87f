/* Reads a chunked body in pieces of a few bytes, as from a receive queue, and prints each call, the answer and the
 * output. Usage: pieces [FILE]; without one it reads standard input. The expected output is in pieces.out. */
#include "quizotepec.h"

#include <stdio.h>
#include <string.h>

enum {
    ROOM = 16, /* bytes of data that there is room for */
    PIECE = 6, /* most bytes that wait at once */
    QUOTA = 4  /* most bytes that one call may take */
};

static unsigned long count(size_t n)
{
    return (unsigned long)n;
}

/* Feeds what waits, a quota at a time, until all is taken or the body is whole or refused. */
static QzFed drain(QzPieces pieces, const uint8_t *piece, size_t waiting, uint8_t *out)
{
    static const char *const states[] = {"whole", "more", "refused"};
    QzFed fed;
    do {
        fed = qz_pieces_feed(pieces, piece, waiting, QUOTA, out, ROOM);
        printf("%lu waiting, %lu taken: %s\n", count(waiting), count(fed.took), states[fed.body.state]);
        pieces = fed.pieces;
        piece += fed.took;
        waiting -= fed.took;
    } while (fed.body.state == QZ_MORE && waiting > 0);
    return fed;
}

static void show(QzBody body, const uint8_t *out)
{
    if (body.state == QZ_WHOLE) {
        printf("whole: %lu bytes taken, %lu bytes of data\n", count(body.taken), count(body.length));
        /* The reader keeps no byte of it: a caller that wants the trailer keeps its pieces. */
        printf("trailer: %lu bytes from %lu\n", count(body.trailer_length), count(body.trailer_start));
    } else if (body.state == QZ_MORE) {
        printf("more: the input ended too early\n");
    } else {
        printf("refused: number %u at %lu\n", (unsigned)body.number, count(body.place));
    }
    printf("output: %.*s\n", ROOM, (const char *)out);
}

int main(int argc, char **argv)
{
    uint8_t out[ROOM];
    uint8_t piece[PIECE];
    size_t waiting;
    QzFed fed;
    FILE *queue = argc > 1 ? fopen(argv[1], "rb") : stdin;
    if (queue == NULL) {
        perror(argv[1]);
        return 2;
    }
    memset(out, '.', sizeof out);
    /* An empty piece takes nothing, and the answer is "more". */
    fed = qz_pieces_feed(qz_pieces_start(ROOM), NULL, 0, QUOTA, out, ROOM);
    while (fed.body.state == QZ_MORE && (waiting = fread(piece, 1, sizeof piece, queue)) > 0) {
        fed = drain(fed.pieces, piece, waiting, out);
    }
    show(fed.body, out);
    return ferror(queue) != 0 ? 2 : 0;
}
