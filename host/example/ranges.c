/* Answers range requests on an entity as a server does: the status, and for each range its Content-Range and its bytes.
 * Usage: ranges ENTITY VALUE..; each VALUE is that of a Range header. The expected output is in ranges.out. */
#include "quizotepec.h"

#include <stdio.h>
#include <string.h>

enum { LONGEST = 65 /* bytes that a Content-Range value can have */ };

/* One part of the answer. A range that was read in this entity is never refused. */
static void send_range(const char *entity, QzRange range)
{
    uint8_t value[LONGEST];
    QzWritten w = qz_content_range_write(range.first, range.last, strlen(entity), value, sizeof value);
    printf("Content-Range: %.*s\n", (int)w.length, (const char *)value);
    printf("%.*s\n", (int)(range.last - range.first + 1), entity + range.first);
}

static void answer(const char *entity, const char *value)
{
    size_t length = strlen(entity);
    QzRanges r = qz_ranges_read((const uint8_t *)value, strlen(value), length);
    size_t i;
    printf("Range: %s\n", value);
    if (r.number != 0) {
        /* RFC 2616 14.35.1: a set that is malformed is ignored, and the entity is sent whole. A server may do so with any other
         * set, and does so here with one of too many ranges. */
        printf("ignored: number %u at %lu\n", (unsigned)r.number, (unsigned long)r.place);
        printf("200 OK\n%s\n", entity);
    } else if (r.unsatisfiable) {
        /* 14.16: no range, only the length. */
        printf("416 Requested Range Not Satisfiable\nContent-Range: bytes */%lu\n", (unsigned long)length);
    } else {
        /* 14.16: several ranges are the parts of a multipart/byteranges, each with its own Content-Range. */
        printf("206 Partial Content, parts: %lu\n", (unsigned long)r.count);
        for (i = 0; i < r.count; i++) {
            send_range(entity, r.ranges[i]);
        }
    }
}

int main(int argc, char **argv)
{
    int i;
    if (argc < 3) {
        fprintf(stderr, "usage: ranges ENTITY VALUE..\n");
        return 2;
    }
    for (i = 2; i < argc; i++) {
        answer(argv[1], argv[i]);
    }
    return 0;
}
