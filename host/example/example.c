/* Prints a few answers. The expected output is in example.out. */
#include "quizotepec.h"

#include <stdio.h>
#include <string.h>

static const uint8_t *bytes(const char *text)
{
    return (const uint8_t *)text;
}

static void show_refusal(const char *text, uint8_t number, size_t place)
{
    printf("%s: refused, %u at %lu\n", text, (unsigned)number, (unsigned long)place);
}

static void show_version(const char *text)
{
    QzVersion v = qz_version_read(bytes(text), strlen(text));
    if (v.number == 0) {
        printf("%s: %lu and %lu\n", text, (unsigned long)v.major, (unsigned long)v.minor);
    } else {
        show_refusal(text, v.number, v.place);
    }
}

static void show_order(const char *a, const char *b)
{
    static const char *const names[] = {"below", "equal to", "above"};
    QzOrder o = qz_version_compare(bytes(a), strlen(a), bytes(b), strlen(b));
    if (o.number == 0) {
        printf("%s is %s %s\n", a, names[o.order], b);
    } else {
        printf("%s and %s: input %u refused, %u at %lu\n", a, b, (unsigned)o.which, (unsigned)o.number,
               (unsigned long)o.place);
    }
}

static void show_seconds(const char *text)
{
    QzSeconds s = qz_delta_read(bytes(text), strlen(text));
    if (s.number == 0) {
        printf("%s seconds: %lu%s\n", text, (unsigned long)s.value, s.capped ? ", capped" : "");
    } else {
        show_refusal(text, s.number, s.place);
    }
}

static void show_qvalue(const char *text)
{
    QzQvalue q = qz_qvalue_read(bytes(text), strlen(text));
    if (q.number == 0) {
        printf("qvalue %s: %lu\n", text, (unsigned long)q.value);
    } else {
        show_refusal(text, q.number, q.place);
    }
}

static void show_same(const char *what, QzSame s)
{
    if (s.number == 0) {
        printf("%s: %s\n", what, s.same ? "yes" : "no");
    } else {
        printf("%s: input %u refused, %u at %lu\n", what, (unsigned)s.which, (unsigned)s.number,
               (unsigned long)s.place);
    }
}

static void show_tags(void)
{
    QzLanguage l = qz_language_read(bytes("en-US"), 5);
    QzTag t = qz_etag_read(bytes("W/\"a\""), 5);
    printf("en-US: number %u, %lu parts, %lu letters first\n", (unsigned)l.number, (unsigned long)l.parts,
           (unsigned long)l.primary);
    show_same("en-US equals EN-us", qz_language_equal(bytes("en-US"), 5, bytes("EN-us"), 5));
    show_same("en- equals en", qz_language_equal(bytes("en-"), 3, bytes("en"), 2));
    printf("W/\"a\": number %u, %s, %lu bytes from %lu\n", (unsigned)t.number, t.weak ? "weak" : "strong",
           (unsigned long)t.length, (unsigned long)t.start);
    show_same("W/\"a\" strongly matches \"a\"", qz_etag_strong_match(bytes("W/\"a\""), 5, bytes("\"a\""), 3));
    show_same("W/\"a\" weakly matches \"a\"", qz_etag_weak_match(bytes("W/\"a\""), 5, bytes("\"a\""), 3));
}

static void show_written(const char *what, QzWritten w)
{
    printf("%s: number %u, %lu bytes\n", what, (unsigned)w.number, (unsigned long)w.length);
}

/* A program takes the present year from its clock: gmtime(&now)->tm_year + 1900. */
static void show_date(const char *text, uint32_t present_year)
{
    QzDate d = qz_date_read(bytes(text), strlen(text), present_year);
    printf("in %lu, ", (unsigned long)present_year);
    if (d.number != 0) {
        show_refusal(text, d.number, d.place);
        return;
    }
    printf("%s: %04lu-%02lu-%02lu %02lu:%02lu:%02lu, %lld seconds\n", text, (unsigned long)d.year,
           (unsigned long)d.month, (unsigned long)d.day, (unsigned long)d.hour, (unsigned long)d.minute,
           (unsigned long)d.second, (long long)d.seconds);
}

static void show_dates(void)
{
    uint8_t out[64];
    QzWritten w;
    show_date("Sunday, 06-Nov-94 08:49:37 GMT", 2026);
    show_date("Wed, 31 Dec 1969 23:59:59 GMT", 2026);
    show_date("Mon, 06 Nov 1994 08:49:37 GMT", 2026);
    /* 77 is 1977 up to 2026, and from 2027 on 2077, in which that day has another name. */
    show_date("Saturday, 01-Jan-77 00:00:00 GMT", 2026);
    show_date("Saturday, 01-Jan-77 00:00:00 GMT", 2027);
    show_date("Friday, 01-Jan-77 00:00:00 GMT", 2027);
    show_date("Friday, 01-Jan-77 00:00:00 GMT", 1631);
    w = qz_date_write(951782400, out, sizeof out);
    show_written("instant 951782400", w);
    printf("%.*s\n", (int)w.length, (const char *)out);
    show_written("instant 253402300800", qz_date_write(253402300800, out, sizeof out));
    show_written("instant 0 in 28 bytes", qz_date_write(0, out, 28));
}

static void show_media(const char *text)
{
    QzMedia m = qz_media_read(bytes(text), strlen(text));
    size_t i;
    if (m.number != 0) {
        show_refusal(text, m.number, m.place);
        return;
    }
    printf("%s: type %.*s, subtype %.*s, %lu parameters", text, (int)m.type_length, text + m.type_start,
           (int)m.subtype_length, text + m.subtype_start, (unsigned long)m.count);
    for (i = 0; i < m.count; i++) {
        QzParameter p = m.parameters[i];
        printf(", %.*s is %.*s%s", (int)p.length, text + p.start, (int)p.value_length, text + p.value_start,
               p.quoted ? " in quotes" : "");
    }
    printf("\n");
}

static void show_equal_media(const char *a, const char *b)
{
    printf("%s equals ", a);
    show_same(b, qz_media_equal(bytes(a), strlen(a), bytes(b), strlen(b)));
}

static void show_charset(const char *label, const char *text, QzCharset c)
{
    if (c.number != 0) {
        show_refusal(label, c.number, c.place);
        return;
    }
    printf("charset of %s: ", label);
    if (c.kind == QZ_STATED_CHARSET) {
        printf("%.*s%s\n", (int)c.length, text + c.start, c.quoted ? " in quotes" : "");
    } else {
        printf("%s\n", c.kind == QZ_ISO_8859_1 ? "ISO-8859-1" : "none");
    }
}

/* What is stated; and, for a caller that relies on the old default, the same with ISO-8859-1 for `text`. */
static void show_charsets(const char *text)
{
    char assuming[96];
    snprintf(assuming, sizeof assuming, "%s, assuming ISO-8859-1", text);
    show_charset(text, text, qz_media_charset(bytes(text), strlen(text)));
    show_charset(assuming, text, qz_media_charset_assuming_iso_8859_1(bytes(text), strlen(text)));
}

static void show_media_types(void)
{
    show_media("text/html; Charset=\"utf\\-8\" ;q=1");
    show_media("text/html ");
    show_media("a/b;x=1;X=2");
    show_media("a/b;a=1;b=1;c=1;d=1;e=1;f=1;g=1;h=1;i=1;j=1;k=1;l=1;m=1;n=1;o=1;p=1;a=1");
    show_equal_media("text/html;charset=\"utf-8\"", "TEXT/HTML ; Charset=UTF-8");
    show_equal_media("a/b;x=1;y=2", "a/b;y=2;x=\"1\"");
    show_equal_media("a/b;x=1;y=2", "a/b;x=1");
    show_equal_media("a/b", "a/b;");
    show_charsets("text/html;a=b;charset=\"utf-8\"");
    show_charsets("TEXT/html");
    show_charsets("image/gif;a=b");
    show_charsets("text/html;charset =x");
}

static void show_part(const char *name, const char *text, QzPart p)
{
    if (p.present) {
        printf(", %s %.*s", name, (int)p.length, text + p.start);
    } else {
        printf(", %s absent", name);
    }
}

static void show_url(const char *text)
{
    QzUrl u = qz_url_read(bytes(text), strlen(text));
    if (u.number != 0) {
        show_refusal(text, u.number, u.place);
        return;
    }
    printf("%s: host %.*s, port %u", text, (int)u.host.length, text + u.host.start, (unsigned)u.port);
    show_part("path", text, u.path);
    show_part("query", text, u.query);
    printf("\n");
}

static void show_equal_urls(const char *a, const char *b)
{
    printf("%s equals ", a);
    show_same(b, qz_url_equal(bytes(a), strlen(a), bytes(b), strlen(b)));
}

/* A normal form is at most one byte longer than its URL. */
static void show_normal(const char *text)
{
    uint8_t out[64];
    QzWritten w = qz_url_normalize(bytes(text), strlen(text), out, sizeof out);
    if (w.number != 0) {
        show_refusal(text, w.number, w.place);
        return;
    }
    printf("normal form of %s: %.*s\n", text, (int)w.length, (const char *)out);
}

static void show_urls(void)
{
    show_url("http://abc.com:8080/~smith/home.html?a");
    show_url("http://abc.com");
    show_url("http://abc.com:65536");
    show_equal_urls("http://abc.com:80/~smith/home.html", "http://ABC.com:/%7esmith/home.html");
    show_equal_urls("http://a/", "http://a/?");
    show_equal_urls("http://a", "http://a#");
    show_normal("HTTP://ABC.com:/%7Esmith/home.html");
    show_normal("http://A:08080/%2f%2F%41");
    show_normal("http://a?x");
}

static void show_products(const char *text)
{
    QzProducts p = qz_products_read(bytes(text), strlen(text));
    if (p.number != 0) {
        show_refusal(text, p.number, p.place);
        return;
    }
    printf("%s: %lu products, %lu comments, deepest level %lu\n", text, (unsigned long)p.products,
           (unsigned long)p.comments, (unsigned long)p.deepest);
}

static void show_body(const char *what, QzBody b)
{
    static const char *const states[] = {"whole", "more", "refused"};
    printf("%s: %s, number %u at %lu, %lu taken, %lu bytes of data\n", what, states[b.state], (unsigned)b.number,
           (unsigned long)b.place, (unsigned long)b.taken, (unsigned long)b.length);
}

/* A whole body's trailer is a part of the input. Its last CRLF is not printed. */
static void show_trailer(const char *what, const char *text)
{
    uint8_t data[64];
    QzBody b = qz_chunked_decode(bytes(text), strlen(text), data, sizeof data);
    show_body(what, b);
    if (b.state == QZ_WHOLE && b.trailer_length > 0) {
        printf("%lu bytes of trailer from %lu: %.*s\n", (unsigned long)b.trailer_length,
               (unsigned long)b.trailer_start, (int)b.trailer_length - 2, text + b.trailer_start);
    }
}

int main(void)
{
    uint8_t out[64];
    uint8_t data[64];
    QzWritten w;
    QzBody b;

    show_version("HTTP/01.1");
    show_version("HTTP/65536.0");
    show_order("HTTP/2.4", "HTTP/2.13");
    show_order("HTTP/1.1", "HTTP/1");
    show_seconds("120");
    show_seconds("2147483647");
    show_seconds("99999999999");
    show_seconds("99999999999x");
    show_qvalue("0.25");
    show_qvalue("1.001");

    show_tags();

    w = qz_version_write(1, 1, out, sizeof out);
    show_written("version 1.1", w);
    printf("%.*s\n", (int)w.length, (const char *)out);
    w = qz_qvalue_write(500, out, sizeof out);
    show_written("500 thousandths", w);
    printf("%.*s\n", (int)w.length, (const char *)out);
    show_written("1001 thousandths", qz_qvalue_write(1001, out, sizeof out));

    show_dates();
    show_media_types();
    show_urls();
    show_products("CERN-LineMode/2.15 libwww/2.17b3");
    show_products("a (b (c)) (d)");
    show_products("(((((((((");

    w = qz_chunked_encode(bytes("hello"), 5, 2, out, sizeof out);
    show_written("hello at length 2", w);
    b = qz_chunked_decode(out, w.length, data, sizeof data);
    show_body("read again", b);
    printf("%.*s\n", (int)b.length, (const char *)data);
    show_body("without the last byte", qz_chunked_decode(out, w.length - 1, data, sizeof data));
    show_body("in room 4", qz_chunked_decode(out, w.length, data, 4));
    show_trailer("with a trailer", "5\r\nhello\r\n0\r\nETag: \"x\"\r\n\r\n");
    show_trailer("with Content-Length in it", "5\r\nhello\r\n0\r\nContent-Length: 5\r\n\r\n");
    return 0;
}
