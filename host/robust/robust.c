/* Feeds every function of quizotepec.h arbitrary bytes, lengths and numbers, and checks of each answer what holds of
 * any answer. Usage: robust SECONDS SEED [ROUNDS]; it stops at the bound that comes first.
 *
 * The address sanitizer instruments this program and not the archive, so it would not see the archive read one byte
 * past a heap block. So each lent block begins or ends at a page that may not be touched, and such a read or write
 * is a fault, which the sanitizer reports.
 */
#define _DEFAULT_SOURCE /* MAP_ANONYMOUS */
#include "quizotepec.h"

#include <inttypes.h>
#include <stdio.h>
#include <stdlib.h>
#include <string.h>
#include <strings.h>
#include <sys/mman.h>
#include <time.h>
#include <unistd.h>

/* The limits that the documents give, and how many refusal numbers there are, 0 included. */
enum { LINE_LIMIT = 1024, TRAILER_LIMIT = 8192, VALUE_LIMIT = 8192, VERSION_LIMIT = 65535, QVALUE_LIMIT = 1000 };
enum { LEVEL_LIMIT = 8 };
enum { FIRST_PRESENT_YEAR = 1632, LAST_PRESENT_YEAR = 9949 };
enum { NUMBERS = 16 };
#define SECONDS_CAP 2147483648u
#define LENGTH_LIMIT (UINT64_MAX / 2)
#define EARLIEST INT64_C(-12212553600)
#define LATEST INT64_C(253402300799)
#define WRITER_LIMIT ((size_t)1 << 30)
#define FRAMED_LIMIT ((size_t)1 << 40)

enum {
    LONGEST = 9000,     /* of the drawn inputs */
    SHORT = 40,         /* most inputs and outputs are below it */
    MIDDLE = 300,       /* many are below it */
    NEAR = 16,          /* how far from a limit the lengths near it are */
    CUTS = 16,          /* a long input is fed in about so many pieces */
    GROWTH = 6,         /* the writer makes at most so many bytes of one, and some more for the last chunk */
    ARENA = 1 << 16,    /* bytes between two guards; a multiple of the page size, and above GROWTH times LONGEST */
    MARGIN = 64,        /* bytes around an output that are checked too */
    HUGE_ONCE_IN = 256,
    CLOCK_ROUNDS = 256, /* rounds between two looks at the clock */
    GRACE = 20,         /* seconds over time at which a call that does not return ends the program */
    SHOWN = 64          /* bytes of an input that a failure shows */
};

typedef struct Block {
    uint8_t *bytes;
    size_t length;
} Block;

/* What a call may use: two inputs, an output, three numbers, a present year. */
typedef struct Call {
    Block a;
    Block b;
    Block out;
    uint64_t numbers[3];
    uint32_t year;
} Call;

/* What every answer says. */
typedef struct Answer {
    unsigned number;
    size_t place;
    size_t within; /* the length of the input that the place counts in; of the longest, where none was refused */
    size_t front;  /* how many bytes of the output were written */
    bool sound;    /* the other fields are in their ranges, and 0 where they have no meaning */
} Answer;

/* ---- answers: for each struct what must hold of it */

static Answer answer(unsigned number, size_t place, size_t within, bool sound)
{
    Answer x = {number, place, within, 0, sound};
    return x;
}

static Answer of_QzVersion(QzVersion r, const Call *c)
{
    bool kept = r.major <= VERSION_LIMIT && r.minor <= VERSION_LIMIT;
    return answer(r.number, r.place, c->a.length, r.number == 0 ? kept : r.major == 0 && r.minor == 0);
}

/* Whether digits are above the limit, told by their count and their text. */
static bool is_above(Block digits, const char *limit)
{
    size_t zeros = 0;
    while (zeros < digits.length && digits.bytes[zeros] == '0') {
        zeros++;
    }
    size_t length = digits.length - zeros;
    return length > strlen(limit) || (length == strlen(limit) && memcmp(digits.bytes + zeros, limit, length) > 0);
}

static Answer of_QzSeconds(QzSeconds r, const Call *c)
{
    bool above = is_above(c->a, "2147483647");
    bool told = r.capped == above && (above ? r.value == SECONDS_CAP : r.value < SECONDS_CAP);
    return answer(r.number, r.place, c->a.length, r.number == 0 ? told : r.value == 0 && !r.capped);
}

static Answer of_QzQvalue(QzQvalue r, const Call *c)
{
    return answer(r.number, r.place, c->a.length, r.number == 0 ? r.value <= QVALUE_LIMIT : r.value == 0);
}

/* Ranges of an entity, then unused entries. */
static bool is_table(const QzRanges *r, uint64_t entity_length)
{
    bool kept = r->count <= QZ_RANGES;
    size_t i;
    for (i = 0; kept && i < QZ_RANGES; i++) {
        QzRange range = r->ranges[i];
        kept = i < r->count ? range.first <= range.last && range.last < entity_length
                            : range.first == 0 && range.last == 0;
    }
    return kept;
}

/* An element begins with a digit or a minus. */
static bool begins_element(uint8_t byte)
{
    return byte == '-' || (byte >= '0' && byte <= '9');
}

static Answer of_QzRanges(QzRanges r, const Call *c)
{
    uint64_t entity_length = c->numbers[0];
    bool too_long = entity_length > LENGTH_LIMIT;
    bool named = c->a.length > strlen("bytes=-") && strncasecmp((const char *)c->a.bytes, "bytes=", 6) == 0;
    bool told = r.number == 0 ? named && r.unsatisfiable == (r.count == 0) : !r.unsatisfiable && r.count == 0;
    bool crowded = r.number == QZ_TOO_MANY_PARAMETERS && r.place < c->a.length;
    told = told && (r.number == QZ_OUT_OF_RANGE) == too_long && (!crowded || begins_element(c->a.bytes[r.place]));
    /* Such a length is refused before anything is read: the place counts in no input. */
    return answer(r.number, r.place, too_long ? 0 : c->a.length, told && is_table(&r, entity_length));
}

static Answer of_QzLanguage(QzLanguage r, const Call *c)
{
    bool counted = r.parts > 0 && r.primary > 0 && r.primary <= 8 && r.primary + 2 * (r.parts - 1) <= c->a.length;
    return answer(r.number, r.place, c->a.length, r.number == 0 ? counted : r.parts == 0 && r.primary == 0);
}

static bool inside(size_t start, size_t length, size_t whole)
{
    return start <= whole && length <= whole - start;
}

static Answer of_QzTag(QzTag r, const Call *c)
{
    bool quoted = r.start == (r.weak ? 3u : 1u) && inside(r.start, r.length, c->a.length) &&
                  c->a.bytes[r.start - 1] == '"' && c->a.bytes[c->a.length - 1] == '"';
    return answer(r.number, r.place, c->a.length, r.number == 0 ? quoted : !r.weak && r.start == 0 && r.length == 0);
}

static bool is_date(QzDate r)
{
    int64_t time = r.hour * INT64_C(3600) + r.minute * INT64_C(60) + r.second;
    return r.year >= 1583 && r.year <= 9999 && r.month >= 1 && r.month <= 12 && r.day >= 1 && r.day <= 31 &&
           r.hour < 24 && r.minute < 60 && r.second < 60 && r.seconds >= EARLIEST && r.seconds <= LATEST &&
           (r.seconds - time) % 86400 == 0;
}

/* A year of two digits, which the longest form alone has, ends in them and is at most 49 before the present one or 50
 * after it. */
static bool is_year(uint32_t year, const Call *c)
{
    enum {
        FOUR_DIGITS = 29, /* a form whose year has four digits is not longer */
        BEHIND = 13       /* bytes of ` 08:49:37 GMT` */
    };
    const uint8_t *end;
    if (c->a.length <= FOUR_DIGITS) {
        return true;
    }
    end = c->a.bytes + c->a.length - BEHIND;
    return year % 100 == (end[-2] - '0') * 10u + (end[-1] - '0') && year + 49 >= c->year && year <= c->year + 50;
}

static Answer of_QzDate(QzDate r, const Call *c)
{
    bool none = r.seconds == 0 && (r.year | r.month | r.day | r.hour | r.minute | r.second) == 0;
    bool outside = c->year < FIRST_PRESENT_YEAR || c->year > LAST_PRESENT_YEAR;
    bool told = r.number == 0 ? is_date(r) && is_year(r.year, c) : none;
    /* Such a year is refused before anything is read: the place counts in no input. */
    return answer(r.number, r.place, outside ? 0 : c->a.length, told && (r.number == QZ_OUT_OF_RANGE) == outside);
}

static bool is_unused(QzParameter p)
{
    return p.start == 0 && p.length == 0 && p.value_start == 0 && p.value_length == 0 && !p.quoted;
}

/* A value of so many bytes at `start`, in its quotes where it is quoted. */
static bool is_value(size_t start, size_t length, bool quoted, const Call *c)
{
    const uint8_t *bytes = c->a.bytes;
    return start > 0 && inside(start, length + (quoted ? 1 : 0), c->a.length) &&
           (quoted ? bytes[start - 1] == '"' && bytes[start + length] == '"' : length > 0 && bytes[start - 1] == '=');
}

/* A parameter whose attribute begins behind `end`. */
static bool is_parameter(QzParameter p, size_t end, const Call *c)
{
    size_t equals = p.start + p.length;
    return p.start > end && p.length > 0 && inside(p.start, p.length + 1, c->a.length) && c->a.bytes[equals] == '=' &&
           p.value_start == equals + (p.quoted ? 2 : 1) && is_value(p.value_start, p.value_length, p.quoted, c);
}

static bool is_media(const QzMedia *r, const Call *c)
{
    size_t end = r->subtype_start + r->subtype_length;
    bool kept = r->type_start == 0 && r->type_length > 0 && r->subtype_start == r->type_length + 1 &&
                r->subtype_length > 0 && end <= c->a.length && c->a.bytes[r->type_length] == '/' &&
                r->count <= QZ_PARAMETERS;
    size_t i;
    for (i = 0; kept && i < r->count; i++) {
        QzParameter p = r->parameters[i];
        kept = is_parameter(p, end, c);
        end = p.value_start + p.value_length + (p.quoted ? 1 : 0);
    }
    return kept && end == c->a.length;
}

static Answer of_QzMedia(QzMedia r, const Call *c)
{
    bool none = r.type_start == 0 && r.type_length == 0 && r.subtype_start == 0 && r.subtype_length == 0;
    bool kept = r.number == 0 ? is_media(&r, c) : none && r.count == 0;
    size_t i;
    for (i = r.count; kept && i < QZ_PARAMETERS; i++) {
        kept = is_unused(r.parameters[i]);
    }
    return answer(r.number, r.place, c->a.length, kept);
}

/* `without` is the kind where none is stated. */
static Answer charset_answer(QzCharset r, uint8_t without, const Call *c)
{
    bool none = r.start == 0 && r.length == 0 && !r.quoted;
    bool stated = r.kind == QZ_STATED_CHARSET && is_value(r.start, r.length, r.quoted, c);
    bool other = r.kind == without && none;
    return answer(r.number, r.place, c->a.length, r.number == 0 ? stated || other : r.kind == 0 && none);
}

static Answer of_QzCharset(QzCharset r, const Call *c)
{
    return charset_answer(r, QZ_NO_CHARSET, c);
}

/* Where ISO-8859-1 is assumed of `text`. */
static Answer of_assumed(QzCharset r, const Call *c)
{
    bool text = c->a.length >= 5 && strncasecmp((const char *)c->a.bytes, "text/", 5) == 0;
    return charset_answer(r, text ? QZ_ISO_8859_1 : QZ_NO_CHARSET, c);
}

/* A part that begins at `from` or later, or is absent. */
static bool is_part(QzPart part, size_t from, const Call *c)
{
    bool none = part.start == 0 && part.length == 0;
    return part.present ? part.start >= from && inside(part.start, part.length, c->a.length) : none;
}

static bool is_url(QzUrl r, const Call *c)
{
    size_t path = r.host.start + r.host.length;
    return r.host.start == strlen("http://") && r.host.length > 0 && is_part(r.path, path, c) &&
           (!r.path.present || c->a.bytes[r.path.start] == '/') &&
           is_part(r.query, r.path.start + r.path.length + 1, c) && (r.path.present || !r.query.present);
}

static Answer of_QzUrl(QzUrl r, const Call *c)
{
    bool none = r.host.start == 0 && r.host.length == 0 && r.port == 0 && !r.path.present && !r.query.present &&
                is_part(r.path, 0, c) && is_part(r.query, 0, c);
    return answer(r.number, r.place, c->a.length, r.number == 0 ? is_url(r, c) : none);
}

static bool is_capital(uint8_t b)
{
    return b >= 'A' && b <= 'Z';
}

/* It begins with `http://`, has no capital before its path, is equal to its URL, and is its own normal form. */
static bool is_normal(const uint8_t *form, size_t length, const Call *c)
{
    uint8_t again[VALUE_LIMIT];
    QzWritten w;
    QzSame s;
    size_t i = strlen("http://");
    if (length < i + 2 || length > VALUE_LIMIT || memcmp(form, "http://", i) != 0) {
        return false;
    }
    for (; form[i] != '/'; i++) {
        if (i + 1 == length || is_capital(form[i])) {
            return false;
        }
    }
    s = qz_url_equal(form, length, c->a.bytes, c->a.length);
    w = qz_url_normalize(form, length, again, sizeof again);
    return s.number == 0 && s.same && w.number == 0 && w.length == length && memcmp(form, again, length) == 0;
}

static size_t digits(unsigned n)
{
    return n < 10 ? 1 : 1 + digits(n / 10);
}

/* The length of the URL, or of its normal form where that is longer: by the `/` of an absent path. */
static size_t normal_limit(const Call *c)
{
    QzUrl u = qz_url_read(c->a.bytes, c->a.length);
    size_t port = u.port == 80 ? 0 : 1 + digits(u.port);
    size_t bare = strlen("http://") + u.host.length + port + strlen("/");
    return u.number == 0 && !u.path.present && bare > c->a.length ? bare : c->a.length;
}

static Answer of_normal(QzWritten r, const Call *c)
{
    bool kept = r.number == 0 ? r.length <= c->out.length && is_normal(c->out.bytes, r.length, c) : r.length == 0;
    Answer x = answer(r.number, r.place, normal_limit(c), kept);
    x.front = r.length;
    return x;
}

static Answer of_QzProducts(QzProducts r, const Call *c)
{
    size_t count = r.products + r.comments;
    bool counted = count > 0 && count <= c->a.length && r.deepest <= LEVEL_LIMIT && (r.deepest > 0) == (r.comments > 0);
    return answer(r.number, r.place, c->a.length, r.number == 0 ? counted : count == 0 && r.deepest == 0);
}

/* A comparison: the second input is refused only where the first was read. */
static Answer compared(unsigned number, size_t place, unsigned which, bool sound, const Call *c)
{
    size_t longest = c->a.length > c->b.length ? c->a.length : c->b.length;
    if (number == 0) {
        return answer(number, place, longest, sound && which == 0);
    }
    if (which == 1) {
        return answer(number, place, c->a.length, sound);
    }
    return answer(number, place, c->b.length, sound && which == 2 && c->a.length <= VALUE_LIMIT);
}

static Answer of_QzOrder(QzOrder r, const Call *c)
{
    return compared(r.number, r.place, r.which, r.order <= (r.number == 0 ? QZ_GREATER : 0), c);
}

static Answer of_QzSame(QzSame r, const Call *c)
{
    return compared(r.number, r.place, r.which, r.number == 0 || !r.same, c);
}

static Answer of_QzWritten(QzWritten r, const Call *c)
{
    Answer x = answer(r.number, r.place, c->a.length, r.place == 0 && (r.number == 0 ? r.length > 0 : r.length == 0));
    x.front = r.length;
    return x;
}

/* A line begins with a name that no trailer may hold, and its colon stands there. */
static bool ends_forbidden_name(const uint8_t *bytes, size_t colon)
{
    static const char *const names[] = {"Transfer-Encoding", "Content-Length", "Trailer"};
    bool found = false;
    size_t i;
    for (i = 0; !found && i < sizeof names / sizeof names[0]; i++) {
        size_t length = strlen(names[i]);
        found = bytes[colon] == ':' && colon > length && bytes[colon - length - 1] == '\n' &&
                strncasecmp((const char *)bytes + colon - length, names[i], length) == 0;
    }
    return found;
}

/* The trailer: lines between the last chunk and the closing CRLF, none of them with a forbidden name. */
static bool is_trailer(QzBody r, const uint8_t *bytes)
{
    size_t end = r.trailer_start + r.trailer_length;
    bool kept = inside(r.trailer_start, r.trailer_length, r.taken) && end + 2 == r.taken &&
                r.trailer_start > r.length + 2 && r.trailer_length <= TRAILER_LIMIT &&
                memcmp(bytes + r.trailer_start - 2, "\r\n", 2) == 0 && memcmp(bytes + end - 2, "\r\n\r\n", 4) == 0;
    size_t i;
    for (i = r.trailer_start; kept && i < end; i++) {
        kept = !ends_forbidden_name(bytes, i);
    }
    return kept;
}

static bool no_counts(QzBody r)
{
    return r.taken == 0 && r.length == 0 && r.trailer_start == 0 && r.trailer_length == 0;
}

static Answer of_QzBody(QzBody r, const Call *c)
{
    bool whole = r.state == QZ_WHOLE && r.number == 0 && r.taken <= c->a.length && r.length < r.taken &&
                 is_trailer(r, c->a.bytes);
    bool other = (r.state == QZ_MORE ? r.number == 0 : r.state == QZ_REFUSED && r.number != 0) && no_counts(r);
    Answer x = answer(r.number, r.place, c->a.length, whole || other);
    /* A refused body has a byte at the place: one that only ends too early is "more". */
    x.sound = x.sound && (r.number == 0 || r.place < c->a.length) &&
              (r.number != QZ_FORBIDDEN_FIELD || ends_forbidden_name(c->a.bytes, r.place));
    x.front = r.length;
    return x;
}

static Answer of_QzPieces(QzPieces r, const Call *c)
{
    bool begins = (r.position | r.part | r.name) == 0 &&
                  (r.size | r.length | r.total | r.taken | r.refused) == 0;
    return answer(0, 0, c->a.length, begins && r.room == (size_t)c->numbers[0]);
}

static Answer of_QzLibraryVersion(QzLibraryVersion r, const Call *c)
{
    bool same = r.major == QZ_VERSION_MAJOR && r.minor == QZ_VERSION_MINOR && r.patch == QZ_VERSION_PATCH;
    return answer(0, 0, c->a.length, same);
}

/* ---- samples: the generator changes, cuts and grows them */

static const char *const versions[] = {"HTTP/1.1", "http/01.0", "HTTP/65535.65535", "HTTP/65536.0", NULL};
static const char *const deltas[] = {"0",          "120",        "2147483647",           "0002147483647",
                                     "2147483648", "4294967301", "18446744073709551621", NULL};
static const char *const qvalues[] = {"0", "0.", "0.25", "0.999", "1.000", NULL};
static const char *const ranges[] = {"bytes=0-499",
                                     "bytes=-5",
                                     "BYTES=9-",
                                     "bytes=0-0 ,\t-1, 30-",
                                     "bytes=5-3",
                                     "bytes=99999999999999999999-99999999999999999998,9223372036854775807-",
                                     "bytes=0-,1-,2-,3-,4-,5-,6-,7-,8-,9-,-0,-1,-2,-3,-4,-5",
                                     "bytes=0-,1-,2-,3-,4-,5-,6-,7-,8-,9-,-0,-1,-2,-3,-4,-5,-6",
                                     NULL};
static const char *const languages[] = {"en", "en-US", "x-pig-latin", "abcdefgh-i", NULL};
static const char *const etags[] = {"\"xyzzy\"", "W/\"xyzzy\"", "w/\"\"", "\"a\\\"b\xff\t\"", NULL};
static const char *const dates[] = {"Sun, 06 Nov 1994 08:49:37 GMT",
                                    "Sunday, 06-Nov-94 08:49:37 GMT",
                                    "Tuesday, 29-Feb-00 00:00:00 GMT",
                                    "Thursday, 01-Jan-82 00:00:00 GMT", /* of 1682, the last year in 1632 */
                                    "Saturday, 01-Jan-83 00:00:00 GMT", /* of 1583, the first in 1632 */
                                    "Friday, 31-Dec-99 23:59:59 GMT",   /* of 9999, the last in 9949 */
                                    "Sun Nov  6 08:49:37 1994",
                                    "Wed, 31 Dec 1969 23:59:59 GMT",
                                    "Tue, 29 Feb 2000 00:00:00 GMT",
                                    "Fri, 31 Dec 9999 23:59:59 GMT",
                                    "Mon, 29 Feb 1900 24:60:60 GMT",
                                    "Mon, 06 Nov 1994 08:49:37 GMT",
                                    NULL};
static const char *const media_types[] = {"text/html; charset=ISO-8859-4",
                                          "TEXT/html ;\tCharset=\"utf\\-8\";q=\"\xff\"",
                                          "Text/plain;q=1",
                                          "a/b;x=1;y=2;X=\"1\"",
                                          "a/b;a=1;b=1;c=1;d=1;e=1;f=1;g=1;h=1;i=1;j=1;k=1;l=1;m=1;n=1;o=1;p=1",
                                          "a/b;a=1;b=1;c=1;d=1;e=1;f=1;g=1;h=1;i=1;j=1;k=1;l=1;m=1;n=1;o=1;p=1;q=1",
                                          NULL};
static const char *const urls[] = {"http://abc.com:80/~smith/home.html", "HTTP://ABC.com:/%7esmith/home.html",
                                   "http://a.b:65536", "http://a/b;c=%2F?d&e?f", "http://A-b:080",
                                   "http://A-b", "http://a.b:8080", NULL};
static const char *const products[] = {"CERN-LineMode/2.15 libwww/2.17b3", "a (b (c\\)) d)\t(\xff)",
                                       "((((((((x))))))))", NULL};
static const char *const bodies[] = {"0\r\n\r\n",
                                     "5\r\nhello\r\n0\r\n\r\n",
                                     "1\r\na\r\n2;x\r\nbc\r\n0\r\n\r\n",
                                     "00A;a=b;c=\"d\\\"\"\r\n0\r\n\r\n0\r\n\r\n\r\n000;e\r\nA: b\r\n\r\n",
                                     "0\r\nExpires: Sun, 06 Nov 1994 08:49:37 GMT\r\nB:\t\xff\r\n\r\n",
                                     "0\r\nTransfer-Encoding: chunked\r\n\r\n",
                                     "1\r\na\r\n0\r\nA: b\r\nContent-Length: 5\r\n\r\n",
                                     "0\r\ntrailer:\r\n\r\n",
                                     "0\r\nTrailers: Trailer:\r\nContent-Lengt:\r\nX-Trailer:\r\n\r\n",
                                     "ffffffffffffffff1\r\n",
                                     NULL};
static const char *const texts[] = {"hello", "0\r\n\r\n", NULL};

/* ---- the entry points, one line each */

/* A length of 0 may come with a null pointer. */
static uint8_t *lent(Block block, const Call *c)
{
    return block.length == 0 && c->numbers[1] % 2 == 0 ? NULL : block.bytes;
}

#define A lent(c->a, c), c->a.length
#define B lent(c->b, c), c->b.length
#define OUT lent(c->out, c), c->out.length
#define NO(n) (1u << (n))
#define MEDIA (NO(1) | NO(10) | NO(11) | NO(13))

/* ROW(function, its arguments, what its answer is, samples of its inputs, the numbers that it may give) */
#define ENTRIES(ROW)                                                                                                 \
    ROW(qz_version_read, (A), QzVersion, versions, NO(1) | NO(2) | NO(13))                                           \
    ROW(qz_version_compare, (A, B), QzOrder, versions, NO(1) | NO(2) | NO(13))                                       \
    ROW(qz_version_write, ((uint32_t)c->numbers[0], (uint32_t)c->numbers[1], OUT), QzWritten, texts, NO(8) | NO(9))  \
    ROW(qz_delta_read, (A), QzSeconds, deltas, NO(1) | NO(13))                                                       \
    ROW(qz_qvalue_read, (A), QzQvalue, qvalues, NO(1) | NO(13))                                                      \
    ROW(qz_qvalue_write, ((uint16_t)c->numbers[0], OUT), QzWritten, texts, NO(8) | NO(9))                            \
    ROW(qz_ranges_read, (A, c->numbers[0]), QzRanges, ranges, NO(1) | NO(9) | NO(10) | NO(13))                       \
    ROW(qz_content_range_write, (c->numbers[0], c->numbers[1], c->numbers[2], OUT), QzWritten, texts, NO(8) | NO(9)) \
    ROW(qz_language_read, (A), QzLanguage, languages, NO(1) | NO(13))                                                \
    ROW(qz_language_equal, (A, B), QzSame, languages, NO(1) | NO(13))                                                \
    ROW(qz_etag_read, (A), QzTag, etags, NO(1) | NO(13))                                                             \
    ROW(qz_etag_strong_match, (A, B), QzSame, etags, NO(1) | NO(13))                                                 \
    ROW(qz_etag_weak_match, (A, B), QzSame, etags, NO(1) | NO(13))                                                   \
    ROW(qz_date_read, (A, c->year), QzDate, dates, NO(1) | NO(3) | NO(4) | NO(9) | NO(13))                           \
    ROW(qz_date_write, ((int64_t)c->numbers[0], OUT), QzWritten, texts, NO(8) | NO(9))                               \
    ROW(qz_media_read, (A), QzMedia, media_types, MEDIA)                                                             \
    ROW(qz_media_equal, (A, B), QzSame, media_types, MEDIA)                                                          \
    ROW(qz_media_charset, (A), QzCharset, media_types, MEDIA)                                                        \
    ROW(qz_media_charset_assuming_iso_8859_1, (A), assumed, media_types, MEDIA)                                      \
    ROW(qz_url_read, (A), QzUrl, urls, NO(1) | NO(2) | NO(13))                                                       \
    ROW(qz_url_equal, (A, B), QzSame, urls, NO(1) | NO(2) | NO(13))                                                  \
    ROW(qz_url_normalize, (A, OUT), normal, urls, NO(1) | NO(2) | NO(8) | NO(13))                                    \
    ROW(qz_products_read, (A), QzProducts, products, NO(1) | NO(12) | NO(13))                                        \
    ROW(qz_chunked_decode, (A, OUT), QzBody, bodies, NO(1) | NO(5) | NO(6) | NO(7) | NO(15))                         \
    ROW(qz_chunked_encode, (A, (size_t)c->numbers[0], OUT), QzWritten, texts, NO(7) | NO(8) | NO(9))                 \
    ROW(qz_pieces_start, ((size_t)c->numbers[0]), QzPieces, texts, 0)                                                \
    ROW(qz_library_version, (), QzLibraryVersion, texts, 0)

#define CALL(function, arguments, type, samples, numbers)                                                            \
    static Answer call_##function(const Call *c)                                                                     \
    {                                                                                                                \
        return of_##type(function arguments, c);                                                                     \
    }
#define ENTRY(function, arguments, type, samples, numbers) {#function, call_##function, samples, NO(0) | (numbers)},

ENTRIES(CALL)

/* Not one call but several, each on the state that the last one gave. */
static Answer call_qz_pieces_feed(const Call *c);

typedef struct Entry {
    const char *name;
    Answer (*call)(const Call *c);
    const char *const *samples;
    unsigned numbers;
} Entry;

static const Entry entries[] = {
    ENTRIES(ENTRY)
    {"qz_pieces_feed", call_qz_pieces_feed, bodies,
     NO(0) | NO(1) | NO(5) | NO(6) | NO(7) | NO(9) | NO(14) | NO(15)}};
enum { COUNT = sizeof entries / sizeof entries[0] };

/* ---- the generator: xorshift64* */

static uint64_t state;

static uint64_t word(void)
{
    state ^= state >> 12;
    state ^= state << 25;
    state ^= state >> 27;
    return state * UINT64_C(2685821657736338717);
}

static size_t below(size_t bound)
{
    return (size_t)((word() >> 11) % bound);
}

/* Bytes that some rule names. */
static const char notable[] = "\"\\()/;:=,-.?%&+@ \t\r\n\x7f\x80\xff" "0159afFgzAZHW*[]{}<>#_~!'";

static uint8_t byte_of(const char *text)
{
    return (uint8_t)text[below(strlen(text))];
}

static const char *sample_of(const char *const *samples)
{
    size_t count = 0;
    while (samples[count] != NULL) {
        count++;
    }
    return samples[below(count)];
}

static size_t draw_length(void)
{
    static const size_t limits[] = {LINE_LIMIT, LINE_LIMIT + 1, VALUE_LIMIT, VALUE_LIMIT + 1};
    size_t limit = limits[below(4)];
    switch (below(12)) {
    case 0:
        return limit;
    case 1:
        return limit - NEAR + below(2 * NEAR);
    case 2:
        return below(LONGEST + 1);
    case 3:
    case 4:
        return below(MIDDLE);
    default:
        return below(SHORT);
    }
}

static uint64_t draw_number(void)
{
    static const uint64_t edges[] = {1,
                                     QVALUE_LIMIT,
                                     VERSION_LIMIT,
                                     WRITER_LIMIT,
                                     UINT32_MAX,
                                     FRAMED_LIMIT,
                                     (uint64_t)EARLIEST,
                                     (uint64_t)LATEST,
                                     UINT64_MAX / 2,
                                     UINT64_MAX};
    switch (below(4)) {
    case 0:
        return edges[below(sizeof edges / sizeof edges[0])] - 1 + below(3);
    case 1:
        return word();
    case 2:
        return word() >> below(64);
    default:
        return below(SHORT);
    }
}

/* Mostly a year under which dates are read, often the first or the last of them or one beside it; at times any. */
static uint32_t draw_year(void)
{
    switch (below(6)) {
    case 0:
        return (uint32_t)draw_number();
    case 1:
        return FIRST_PRESENT_YEAR - 1 + (uint32_t)below(3);
    case 2:
        return LAST_PRESENT_YEAR - 1 + (uint32_t)below(3);
    default:
        return FIRST_PRESENT_YEAR + (uint32_t)below(LAST_PRESENT_YEAR - FIRST_PRESENT_YEAR + 1);
    }
}

/* A sample with some of its bytes repeated in place, `length` bytes in all. */
static size_t grow(const char *sample, size_t length, uint8_t *draft)
{
    size_t size = strlen(sample);
    size_t at = below(size);
    size_t run = below(2) == 0 ? 1 : 1 + below(size - at);
    size_t more = length > size ? length - size : 0;
    size_t i;
    memcpy(draft, sample, at);
    for (i = 0; i < more; i++) {
        draft[at + i] = (uint8_t)sample[at + i % run];
    }
    memcpy(draft + at + more, sample + at, size - at);
    return size + more;
}

/* Some bytes are replaced; some letters change their case. */
static void damage(uint8_t *draft, size_t length)
{
    size_t left = length == 0 || below(2) == 0 ? 0 : 1 + below(3);
    for (; left > 0; left--) {
        uint8_t *byte = draft + below(length);
        if (below(2) == 0) {
            *byte ^= 'a' ^ 'A';
        } else {
            *byte = below(4) == 0 ? (uint8_t)word() : byte_of(notable);
        }
    }
}

/* Arbitrary bytes, bytes of an alphabet, or a sample that is cut, whole or grown. */
static size_t draw_bytes(const char *const *samples, uint8_t *draft)
{
    const char *sample = sample_of(samples);
    const char *alphabet = below(2) == 0 ? notable : sample;
    size_t length = draw_length();
    size_t kind = below(8);
    size_t i;
    if (kind >= 3) {
        length = grow(sample, kind < 6 ? 0 : length, draft);
        damage(draft, length);
        return kind == 3 ? below(length + 1) : length;
    }
    for (i = 0; i < length; i++) {
        draft[i] = kind == 0 ? (uint8_t)word() : byte_of(alphabet);
    }
    return length;
}

/* ---- lent blocks */

enum { INPUT, OTHER_INPUT, OUTPUT, PIECE, ARENAS };
static uint8_t *arenas[ARENAS];
static uint8_t drafts[2][ARENA]; /* what the inputs hold */
static uint8_t untouched[ARENA]; /* what the output's arena holds before each call */
static uint8_t *huge;            /* more bytes than the writer takes, all 0, only for reading */

static void *map(size_t length, int protection)
{
    void *start = mmap(NULL, length, protection, MAP_PRIVATE | MAP_ANONYMOUS | MAP_NORESERVE, -1, 0);
    if (start == MAP_FAILED) {
        perror("mmap");
        exit(2);
    }
    return start;
}

static void map_arenas(void)
{
    size_t i;
    for (i = 0; i < ARENAS; i++) {
        uint8_t *guard = map(3 * (size_t)ARENA, PROT_NONE);
        arenas[i] = guard + ARENA;
        if (mprotect(arenas[i], ARENA, PROT_READ | PROT_WRITE) != 0) {
            perror("mprotect");
            exit(2);
        }
    }
    for (i = 0; i < ARENA; i++) {
        untouched[i] = (uint8_t)word();
    }
    memcpy(arenas[OUTPUT], untouched, ARENA);
    huge = map(WRITER_LIMIT + 2, PROT_READ);
}

/* At the end of the arena or at its start. */
static Block lend(uint8_t *arena, size_t length)
{
    Block block = {below(3) == 0 ? arena : arena + ARENA - length, length};
    return block;
}

static Block lend_input(size_t which, size_t length)
{
    Block block = lend(arenas[which], length);
    memcpy(block.bytes, drafts[which], length);
    return block;
}

static size_t draw_room(size_t input)
{
    size_t kind = below(4);
    if (kind == 0 || input > ARENA / GROWTH - MARGIN) {
        return below(MIDDLE);
    }
    if (kind == 1) {
        return input < NEAR ? below(NEAR) : input - NEAR + below(2 * NEAR);
    }
    return kind == 2 ? below(SHORT) : GROWTH * input + below(SHORT);
}

static void draw_call(const Entry *e, Call *c)
{
    size_t length = draw_bytes(e->samples, drafts[0]);
    size_t i;
    c->a = lend_input(INPUT, length);
    if (below(2) == 0) {
        /* The same bytes but perhaps for the case of a letter. */
        memcpy(drafts[1], drafts[0], length);
        drafts[1][below(length + 1)] ^= below(2) == 0 ? 0 : 'a' ^ 'A';
    } else {
        length = draw_bytes(e->samples, drafts[1]);
    }
    c->b = lend_input(OTHER_INPUT, length);
    if (below(HUGE_ONCE_IN) == 0) {
        c->a.bytes = huge;
        c->a.length = WRITER_LIMIT + below(3);
    }
    c->out = lend(arenas[OUTPUT], draw_room(c->a.length));
    for (i = 0; i < sizeof c->numbers / sizeof c->numbers[0]; i++) {
        c->numbers[i] = draw_number();
    }
    c->year = draw_year();
}

/* ---- bodies in pieces */

/* The call of qz_pieces_feed that is under way. */
static struct {
    QzPieces pieces;
    Block piece;
    Block out;
    size_t quota;
} feeding;
static uint8_t kept[ARENA]; /* what its output held before */

static bool same_pieces(QzPieces a, QzPieces b)
{
    return a.position == b.position && a.part == b.part && a.name == b.name && a.size == b.size &&
           a.length == b.length && a.total == b.total && a.taken == b.taken &&
           a.room == b.room && a.refused == b.refused;
}

static bool same_body(QzBody a, QzBody b)
{
    return a.state == b.state && a.number == b.number && a.place == b.place && a.taken == b.taken &&
           a.length == b.length && a.trailer_start == b.trailer_start && a.trailer_length == b.trailer_length;
}

/* How many bytes of data a state has written. In data, `size` bytes are left behind the next one. */
static size_t filled(QzPieces p)
{
    enum { IN_DATA = 2 };
    return p.position == IN_DATA ? p.total - p.size - 1 : p.total;
}

/* The answer is of a listed kind, and its other fields are 0. */
static bool is_listed(QzBody b)
{
    bool more = b.state == QZ_MORE && b.number == 0 && b.place == 0;
    bool refused = b.state == QZ_REFUSED && b.number != 0;
    bool whole = b.state == QZ_WHOLE && b.number == 0 && b.place == 0;
    return whole || ((more || refused) && no_counts(b));
}

static bool is_invalid(QzBody b)
{
    return b.state == QZ_REFUSED && b.number == QZ_OUT_OF_RANGE;
}

/* Only data behind that of the state before, and up to that of the state after, was written. */
static bool wrote_data(const QzFed *r)
{
    size_t from = filled(feeding.pieces);
    size_t to = filled(r->pieces);
    size_t length = feeding.out.length;
    const uint8_t *bytes = feeding.out.bytes;
    return from <= to && to <= length && to - from <= r->took && memcmp(bytes, kept, from) == 0 &&
           memcmp(bytes + to, kept + to, length - to) == 0;
}

/* What must hold of a valid call. */
static bool is_valid_answer(const QzFed *r)
{
    size_t offered = feeding.quota < feeding.piece.length ? feeding.quota : feeding.piece.length;
    QzBody b = r->body;
    bool over = b.state != QZ_MORE;
    bool placed = b.state == QZ_REFUSED ? b.place == r->pieces.taken : true;
    bool counted = b.state == QZ_WHOLE ? b.taken == r->pieces.taken && b.length == filled(r->pieces) : true;
    bool trailed = b.trailer_start <= b.taken && b.trailer_length <= TRAILER_LIMIT;
    return feeding.quota > 0 && feeding.out.length == feeding.pieces.room && r->pieces.room == feeding.pieces.room &&
           r->pieces.taken == feeding.pieces.taken + r->took && r->pieces.taken <= FRAMED_LIMIT &&
           (over ? r->took <= offered : r->took == offered) && placed && counted && trailed && wrote_data(r);
}

static bool output_as_before(void)
{
    return memcmp(feeding.out.bytes, kept, feeding.out.length) == 0;
}

/* One call, with what must hold of any. */
static QzFed feed(QzPieces pieces, Block piece, size_t quota, Block out, const Call *c, bool *sound)
{
    QzFed r;
    feeding.pieces = pieces;
    feeding.piece = piece;
    feeding.quota = quota;
    feeding.out = out;
    memcpy(kept, out.bytes, out.length);
    r = qz_pieces_feed(pieces, lent(piece, c), piece.length, quota, lent(out, c), out.length);
    *sound = *sound && is_listed(r.body) &&
             (is_invalid(r.body) ? r.took == 0 && output_as_before() : is_valid_answer(&r));
    return r;
}

/* An invalid call on a state that a call gave changes nothing. */
static bool changes_nothing(QzPieces pieces, Block piece, const Call *c)
{
    bool sound = true;
    Block out = c->out;
    bool shorter = pieces.room == out.length && out.length > 0 && below(2) == 0;
    QzFed r;
    out.length = shorter ? below(out.length) : out.length;
    r = feed(pieces, piece, shorter ? 1 + below(SHORT) : 0, out, c, &sound);
    return sound && is_invalid(r.body) && same_pieces(r.pieces, pieces);
}

/* Once over, a valid call takes nothing and gives the same. */
static bool repeats(QzFed last, Block piece, const Call *c)
{
    bool sound = true;
    QzFed r = feed(last.pieces, piece, 1 + below(SHORT), c->out, c, &sound);
    return sound && r.took == 0 && same_pieces(r.pieces, last.pieces) && same_body(r.body, last.body);
}

static Block lend_piece(const uint8_t *bytes, size_t length)
{
    Block piece = lend(arenas[PIECE], length);
    memcpy(piece.bytes, bytes, length);
    return piece;
}

static size_t draw_quota(size_t length)
{
    switch (below(4)) {
    case 0:
        return 1 + below(length + 1);
    case 1:
        return SIZE_MAX - below(2);
    default:
        return length + 1;
    }
}

/* The whole of it gives the answer of one call. */
static bool as_in_one(QzBody b, const Call *c)
{
    static uint8_t out[ARENA];
    QzBody one = qz_chunked_decode(c->a.bytes, c->a.length, out, c->out.length);
    return of_QzBody(b, c).sound && same_body(b, one) && memcmp(out, c->out.bytes, b.length) == 0;
}

/* The input from the start, in pieces, with invalid calls between. */
static Answer feed_all(const Call *c)
{
    size_t longest = c->a.length < MIDDLE ? 1 + below(SHORT) : c->a.length / CUTS + below(MIDDLE);
    size_t most = longest < ARENA ? longest : ARENA;
    size_t at = 0;
    bool sound = true;
    QzFed r;
    Answer x;
    r.pieces = qz_pieces_start(c->out.length);
    do {
        size_t left = c->a.length - at;
        size_t length = below(most + 1);
        Block piece = lend_piece(c->a.bytes + at, length < left ? length : left);
        sound = sound && (below(4) != 0 || changes_nothing(r.pieces, piece, c));
        r = feed(r.pieces, piece, draw_quota(piece.length), c->out, c, &sound);
        at += r.took;
        sound = sound && r.pieces.taken == at && (r.body.state == QZ_MORE || repeats(r, piece, c));
    } while (sound && r.body.state == QZ_MORE && at < c->a.length);
    sound = sound && as_in_one(r.body, c);
    x = answer(r.body.number, r.body.place, c->a.length, sound);
    x.front = sound ? filled(r.pieces) : 0;
    return x;
}

static size_t draw_field(size_t room)
{
    switch (below(3)) {
    case 0:
        return (size_t)draw_number();
    case 1:
        return below(room + 1);
    default:
        return below(NEAR);
    }
}

/* Numbers in every field; many of them are such as a call could have given. */
static QzPieces draw_pieces(size_t room)
{
    QzPieces p;
    p.position = (uint8_t)(below(8) == 0 ? word() : below(9));
    p.part = (uint8_t)(below(8) == 0 ? word() : below(10));
    p.name = (uint8_t)(below(2) == 0 ? word() : below(SHORT));
    p.size = draw_field(room);
    p.length = below(2) == 0 ? draw_length() : draw_field(room);
    p.total = draw_field(room);
    p.taken = below(4) == 0 ? FRAMED_LIMIT - below(SHORT) : draw_field(room);
    p.room = below(8) == 0 ? draw_field(room) : room;
    p.refused = below(2) == 0 ? 0 : below(2) == 0 ? below(NUMBERS + 1) : draw_field(room);
    return p;
}

/* One call on any numbers, and invalid ones on what it gave. */
static Answer feed_any(const Call *c)
{
    bool sound = true;
    Block piece = lend_piece(c->a.bytes, c->a.length < ARENA ? c->a.length : ARENA);
    QzFed r = feed(draw_pieces(c->out.length), piece, below(8) == 0 ? 0 : draw_quota(piece.length), c->out, c, &sound);
    Answer x;
    sound = sound && (r.body.state == QZ_MORE || is_invalid(r.body) || repeats(r, piece, c));
    sound = sound && changes_nothing(r.pieces, piece, c);
    x = answer(r.body.number, r.body.place, FRAMED_LIMIT + 1, sound);
    x.front = sound && !is_invalid(r.body) ? filled(r.pieces) : 0;
    return x;
}

static Answer call_qz_pieces_feed(const Call *c)
{
    return below(2) == 0 ? feed_all(c) : feed_any(c);
}

/* ---- checks */

/* The place that the number's row of the table of refusals names. */
static bool place_holds(const Answer *x)
{
    switch (x->number) {
    case 0:
    case QZ_NO_SUCH_DATE:
    case QZ_WRONG_DAY_NAME:
    case QZ_OUTPUT_TOO_SHORT:
    case QZ_OUT_OF_RANGE:
        return x->place == 0;
    case QZ_MALFORMED:
        return x->place <= x->within;
    case QZ_VALUE_TOO_LONG:
        return x->place == VALUE_LIMIT;
    default:
        return x->place < x->within;
    }
}

static bool input_kept(const Block *input, const uint8_t *draft)
{
    return input->bytes == huge || memcmp(input->bytes, draft, input->length) == 0;
}

/* Only the written front of the output has changed; it is then put back. */
static bool output_kept(const Block *out, size_t front)
{
    size_t start = (size_t)(out->bytes - arenas[OUTPUT]);
    size_t end = start + out->length;
    size_t from = start < MARGIN ? 0 : start - MARGIN;
    size_t to = ARENA - end < MARGIN ? ARENA : end + MARGIN;
    bool before = memcmp(arenas[OUTPUT] + from, untouched + from, start - from) == 0;
    bool behind = memcmp(out->bytes + front, untouched + start + front, to - start - front) == 0;
    memcpy(out->bytes, untouched + start, front);
    return before && behind;
}

/* What is wrong with the answer, or null. */
static const char *fault(const Entry *e, const Call *c, const Answer *x)
{
    if (x->number >= NUMBERS || (e->numbers & NO(x->number)) == 0) {
        return "a number that the function does not give";
    }
    if (!place_holds(x)) {
        return "a place that the number does not have";
    }
    if ((e->numbers & NO(QZ_VALUE_TOO_LONG)) != 0 && (x->number == QZ_VALUE_TOO_LONG) != (x->within > VALUE_LIMIT)) {
        return "the limit of a header value";
    }
    if (!x->sound) {
        return "a field out of its range";
    }
    if (x->front > c->out.length || !output_kept(&c->out, x->front)) {
        return "the bytes of the output, or around it";
    }
    if (!input_kept(&c->a, drafts[0]) || !input_kept(&c->b, drafts[1])) {
        return "a changed input";
    }
    return NULL;
}

static void show(const char *name, const Block *block)
{
    size_t i;
    fprintf(stderr, "%s: %zu bytes:", name, block->length);
    for (i = 0; i < block->length && i < SHOWN; i++) {
        fprintf(stderr, " %02x", (unsigned)block->bytes[i]);
    }
    fprintf(stderr, "\n");
}

/* ---- the loop */

static uint64_t seed;
static uint64_t round_now;
static Call call_now;
static uint64_t calls[COUNT][NUMBERS];

static void show_feeding(void)
{
    QzPieces p = feeding.pieces;
    fprintf(stderr, "position %u, part %u, name %u, ", (unsigned)p.position, (unsigned)p.part,
            (unsigned)p.name);
    fprintf(stderr, "size %zu, length %zu, total %zu, taken %zu, room %zu, refused %zu\n", p.size, p.length, p.total,
            p.taken, p.room, p.refused);
    fprintf(stderr, "quota %zu, output lent: %zu bytes\n", feeding.quota, feeding.out.length);
    show("piece", &feeding.piece);
}

static void show_call(void)
{
    fprintf(stderr, "seed %" PRIu64 ", round %" PRIu64 ", %s\n", seed, round_now, entries[round_now % COUNT].name);
    fprintf(stderr, "numbers given: %" PRIu64 ", %" PRIu64 " and %" PRIu64 "; present year %" PRIu32 "\n",
            call_now.numbers[0], call_now.numbers[1], call_now.numbers[2], call_now.year);
    show("first input", &call_now.a);
    show("second input", &call_now.b);
    fprintf(stderr, "output: %zu bytes\n", call_now.out.length);
    if (entries[round_now % COUNT].call == call_qz_pieces_feed) {
        show_feeding();
    }
}

/* The sanitizer calls it before its report. */
void __asan_on_error(void);

void __asan_on_error(void)
{
    show_call();
}

static double now(void)
{
    struct timespec t;
    clock_gettime(CLOCK_MONOTONIC, &t);
    return (double)t.tv_sec + (double)t.tv_nsec / 1e9;
}

/* One call of one entry point; false where a check failed. */
static bool try_entry(size_t i)
{
    Answer x;
    const char *wrong;
    draw_call(&entries[i], &call_now);
    x = entries[i].call(&call_now);
    wrong = fault(&entries[i], &call_now, &x);
    if (wrong != NULL) {
        fprintf(stderr, "%s: %s\n", entries[i].name, wrong);
        fprintf(stderr, "number %u, place %zu, %zu bytes written\n", x.number, x.place, x.front);
        show_call();
        return false;
    }
    calls[i][x.number]++;
    return true;
}

static bool run(double seconds, uint64_t rounds)
{
    double end = now() + seconds;
    for (round_now = 0; round_now < rounds; round_now++) {
        if (round_now % CLOCK_ROUNDS == 0 && now() >= end) {
            return true;
        }
        if (!try_entry(round_now % COUNT)) {
            return false;
        }
    }
    return true;
}

static void print_counts(const Entry *e, const uint64_t *numbers)
{
    uint64_t all = 0;
    unsigned n;
    for (n = 0; n < NUMBERS; n++) {
        all += numbers[n];
    }
    printf("%s: %" PRIu64 " calls;", e->name, all);
    for (n = 0; n < NUMBERS; n++) {
        if ((e->numbers & NO(n)) != 0) {
            printf(" %u: %" PRIu64, n, numbers[n]);
        }
    }
    printf("\n");
}

int main(int argc, char **argv)
{
    unsigned long seconds = argc > 2 ? strtoul(argv[1], NULL, 10) : 0;
    uint64_t rounds = argc > 3 ? strtoull(argv[3], NULL, 10) : UINT64_MAX;
    size_t i;
    if (argc < 3 || argc > 4 || seconds == 0 || rounds == 0) {
        fprintf(stderr, "usage: robust SECONDS SEED [ROUNDS], each bound above 0\n");
        return 2;
    }
    seed = strtoull(argv[2], NULL, 10);
    state = (2 * seed + 1) * UINT64_C(0x9E3779B97F4A7C15);
    map_arenas();
    alarm((unsigned)seconds + GRACE);
    if (!run((double)seconds, rounds)) {
        return 1;
    }
    for (i = 0; i < COUNT; i++) {
        print_counts(&entries[i], calls[i]);
    }
    printf("ok: %" PRIu64 " calls of %d functions, seed %" PRIu64 "\n", round_now, (int)COUNT, seed);
    return 0;
}
