/*
 * The bench program of document 01, for speed: the baseline of the benchmarks. Its output is that of
 * `bench::run`. It wants a system as POSIX has them, with the C locale.
 */

#include <errno.h>
#include <stdlib.h>
#include <string.h>
#include <strings.h>
#include <unistd.h>

enum { DIGIT_LIMIT = 32768, FRAME_LIMIT = DIGIT_LIMIT / 2, ROOM = 16384 };
enum { LINE_LIMIT = 1024, TRAILER_LIMIT = 8192 };
enum { INPUT_SIZE = 65536, OUTPUT_SIZE = 65536, ANSWER_LONGEST = 64 };

/* The refusals that a body can have, and what stands for none: the input ends. */
enum {
    MORE = 0,
    MALFORMED = 1,
    LINE_TOO_LONG = 5,
    TRAILER_TOO_LONG = 6,
    BODY_TOO_LARGE = 7,
    FORBIDDEN_FIELD = 15
};

typedef unsigned char byte;

/* The value of each hex digit, with a mark that it is one. */
enum { IS_DIGIT = 0x10, DIGIT_VALUE = 0x0F };
static const byte HEX[256] = {
    ['0'] = 0x10, ['1'] = 0x11, ['2'] = 0x12, ['3'] = 0x13, ['4'] = 0x14, ['5'] = 0x15, ['6'] = 0x16,
    ['7'] = 0x17, ['8'] = 0x18, ['9'] = 0x19, ['a'] = 0x1A, ['b'] = 0x1B, ['c'] = 0x1C, ['d'] = 0x1D,
    ['e'] = 0x1E, ['f'] = 0x1F, ['A'] = 0x1A, ['B'] = 0x1B, ['C'] = 0x1C, ['D'] = 0x1D, ['E'] = 0x1E,
    ['F'] = 0x1F,
};

/* Bits of `classes`: bytes of tokens, of trailer lines, between quotes, and behind a pair's backslash. */
enum { TOKEN = 1, TEXT = 2, QUOTED = 4, PAIR = 8 };
static byte classes[256];

static void fill_classes(void) {
    for (int c = 0; c < 256; c++) {
        int is_ascii_text = c == '\t' || (c >= 32 && c <= 126);
        int is_token = c >= 33 && c <= 126 && strchr("()<>@,;:\\\"/[]?={}", c) == NULL;
        int is_text = is_ascii_text || c >= 128;
        int is_quoted = is_text && c != '"' && c != '\\';
        classes[c] = (byte)(is_token * TOKEN | is_text * TEXT | is_quoted * QUOTED | is_ascii_text * PAIR);
    }
}

static byte frame[FRAME_LIMIT];
/* Not static: the compiler must not find out that nobody reads the body. */
byte body[ROOM];

/* Reads a frame. Each step gives 1, or 0 if it stops: then `number` is the refusal of the byte at `at`. */
struct reader {
    size_t length;
    size_t at;
    /* The place where what is counted, a chunk line or the trailer, is too long, and the refusal of that. */
    size_t limit;
    int too_long;
    int number;
};

static int stop(struct reader *reader, int number) {
    reader->number = number;
    return 0;
}

static int is_here(const struct reader *reader, byte wanted) {
    return reader->at < reader->length && frame[reader->at] == wanted;
}

/* Takes a byte that fits the grammar here. */
static int take(struct reader *reader) {
    if (reader->at >= reader->limit) return stop(reader, reader->too_long);
    reader->at++;
    return 1;
}

/* Takes all bytes of a class; there is a byte behind them. */
static int run(struct reader *reader, int class) {
    size_t end = reader->length < reader->limit ? reader->length : reader->limit;
    size_t at = reader->at;
    while (at < end && (classes[frame[at]] & class)) at++;
    reader->at = at;
    if (at == reader->length) return stop(reader, MORE);
    return classes[frame[at]] & class ? stop(reader, reader->too_long) : 1;
}

static int token(struct reader *reader) {
    size_t start = reader->at;
    if (!run(reader, TOKEN)) return 0;
    return reader->at > start ? 1 : stop(reader, MALFORMED);
}

/* Takes a byte of a class. */
static int one_of(struct reader *reader, int class) {
    if (reader->at == reader->length) return stop(reader, MORE);
    if (!(classes[frame[reader->at]] & class)) return stop(reader, MALFORMED);
    return take(reader);
}

static int expect(struct reader *reader, byte wanted) {
    if (reader->at == reader->length) return stop(reader, MORE);
    if (frame[reader->at] != wanted) return stop(reader, MALFORMED);
    return take(reader);
}

static int quoted_rest(struct reader *reader) {
    while (run(reader, QUOTED)) {
        if (is_here(reader, '"')) return take(reader);
        if (!expect(reader, '\\') || !one_of(reader, PAIR)) return 0;
    }
    return 0;
}

static int extension_value(struct reader *reader) {
    if (!is_here(reader, '"')) return token(reader);
    return take(reader) && quoted_rest(reader);
}

static int extensions(struct reader *reader) {
    while (is_here(reader, ';')) {
        if (!take(reader) || !token(reader)) return 0;
        if (is_here(reader, '=') && !(take(reader) && extension_value(reader))) return 0;
    }
    return 1;
}

/* A CRLF that no limit counts. */
static int line_break(struct reader *reader) {
    reader->limit = (size_t)-1;
    return expect(reader, '\r') && expect(reader, '\n');
}

static int chunk_size(struct reader *reader, size_t room_left, size_t *size) {
    size_t start = reader->at;
    for (*size = 0; reader->at < reader->length; reader->at++) {
        byte digit = HEX[frame[reader->at]];
        if (digit == 0) return reader->at > start ? 1 : stop(reader, MALFORMED);
        if (reader->at >= reader->limit) return stop(reader, LINE_TOO_LONG);
        /* A value that is kept is at most the room, so the shift loses no bit. */
        *size = *size << 4 | (digit & DIGIT_VALUE);
        if (*size > room_left) return stop(reader, BODY_TOO_LARGE);
    }
    return stop(reader, MORE);
}

static int chunk_line(struct reader *reader, size_t room_left, size_t *size) {
    reader->limit = reader->at + LINE_LIMIT;
    reader->too_long = LINE_TOO_LONG;
    return chunk_size(reader, room_left, size) && extensions(reader) && line_break(reader);
}

static int is_forbidden(const byte *name, size_t length) {
    static const char *const FIELDS[] = {"Transfer-Encoding", "Content-Length", "Trailer"};
    for (size_t i = 0; i < sizeof FIELDS / sizeof *FIELDS; i++)
        if (length == strlen(FIELDS[i]) && strncasecmp((const char *)name, FIELDS[i], length) == 0) return 1;
    return 0;
}

static int field_name(struct reader *reader) {
    size_t start = reader->at;
    if (!token(reader)) return 0;
    size_t colon = reader->at;
    /* 1 and 6 come before 15 at the colon. */
    if (!expect(reader, ':')) return 0;
    if (!is_forbidden(frame + start, colon - start)) return 1;
    reader->at = colon;
    return stop(reader, FORBIDDEN_FIELD);
}

/* The trailer and the closing CRLF. */
static int trailer(struct reader *reader) {
    reader->limit = reader->at + TRAILER_LIMIT;
    reader->too_long = TRAILER_TOO_LONG;
    while (!is_here(reader, '\r')) {
        if (!field_name(reader) || !run(reader, TEXT)) return 0;
        if (!expect(reader, '\r') || !expect(reader, '\n')) return 0;
    }
    return line_break(reader);
}

/* Decodes a body, and gives its length. */
static int decode(struct reader *reader, size_t *length) {
    size_t size;
    *length = 0;
    while (chunk_line(reader, ROOM - *length, &size)) {
        if (size == 0) return trailer(reader);
        if (size > reader->length - reader->at) return stop(reader, MORE);
        memcpy(body + *length, frame + reader->at, size);
        *length += size;
        reader->at += size;
        if (!line_break(reader)) return 0;
    }
    return 0;
}

static char output[OUTPUT_SIZE];
static size_t written;

static void flush_output(void) {
    for (size_t done = 0; done < written;) {
        ssize_t count = write(STDOUT_FILENO, output + done, written - done);
        if (count >= 0) done += (size_t)count;
        else if (errno != EINTR) exit(EXIT_FAILURE);
    }
    written = 0;
}

static void put_number(size_t number) {
    char digits[24];
    size_t start = sizeof digits;
    do {
        digits[--start] = (char)('0' + number % 10);
        number /= 10;
    } while (number > 0);
    output[written++] = ' ';
    memcpy(output + written, digits + start, sizeof digits - start);
    written += sizeof digits - start;
}

static void put_answer(char kind, const size_t *numbers, int count) {
    if (written > OUTPUT_SIZE - ANSWER_LONGEST) flush_output();
    output[written++] = kind;
    for (int i = 0; i < count; i++) put_number(numbers[i]);
    output[written++] = '\n';
}

/* Fills the frame; 0, if the line has an odd count of characters, another one or too many. */
static int read_digits(const byte *line, size_t length) {
    if (length > DIGIT_LIMIT || length % 2 != 0) return 0;
    byte all = IS_DIGIT;
    for (size_t i = 0; i < length / 2; i++) {
        byte high = HEX[line[2 * i]], low = HEX[line[2 * i + 1]];
        all &= high & low;
        frame[i] = (byte)(high << 4 | (low & DIGIT_VALUE));
    }
    return all == IS_DIGIT;
}

static void answer(const byte *line, size_t length) {
    if (!read_digits(line, length)) {
        put_answer('X', NULL, 0);
        return;
    }
    struct reader reader = {.length = length / 2};
    size_t body_length;
    if (decode(&reader, &body_length)) put_answer('C', (size_t[]){reader.at, body_length}, 2);
    else if (reader.number == MORE) put_answer('M', NULL, 0);
    else put_answer('R', (size_t[]){(size_t)reader.number, reader.at}, 2);
}

static byte input[INPUT_SIZE];

/* Answers the lines that end in the input, which has no LF before `searched`; gives the next one's start. */
static size_t answer_lines(size_t searched, size_t end, int *is_too_long) {
    size_t start = 0;
    const byte *feed;
    while ((feed = memchr(input + searched, '\n', end - searched)) != NULL) {
        size_t line_end = (size_t)(feed - input);
        if (*is_too_long) put_answer('X', NULL, 0);
        else answer(input + start, line_end - start);
        *is_too_long = 0;
        start = searched = line_end + 1;
    }
    return start;
}

int main(void) {
    size_t held = 0;
    int is_too_long = 0;
    fill_classes();
    for (;;) {
        ssize_t count = read(STDIN_FILENO, input + held, INPUT_SIZE - held);
        if (count < 0 && errno == EINTR) continue;
        if (count < 0) return EXIT_FAILURE;
        if (count == 0) break;
        size_t end = held + (size_t)count;
        size_t start = answer_lines(held, end, &is_too_long);
        held = end - start;
        memmove(input, input + start, held);
        /* A line too long gives `X` however it goes on. */
        if (held > DIGIT_LIMIT) {
            is_too_long = 1;
            held = 0;
        }
    }
    /* After the last LF, nothing left is no line. */
    if (is_too_long) put_answer('X', NULL, 0);
    else if (held > 0) answer(input, held);
    flush_output();
    return EXIT_SUCCESS;
}
