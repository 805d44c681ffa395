/* Calls gorvaneth_report from C, as a build tool would. Standard input has pairs of texts, each text a line with its
   number of bytes, the bytes and a newline; for each pair the line is written to standard output. Each pair is also
   reported to outputs that are too short, and by the name report to a longer one. Bytes that must be unchanged are
   checked. */

#include <stddef.h>
#include <stdint.h>
#include <stdio.h>
#include <stdlib.h>
#include <string.h>

#include "gorvaneth.h"

enum { LONGEST_LINE = 387, ROOM = 512, GUARD = '#' };

struct text {
    uint8_t *bytes;
    size_t length;
};

static void fail(const char *what) {
    fprintf(stderr, "check: %s\n", what);
    exit(1);
}

/* Reads one text; returns 0 at the end of the input. */
static int read_block(struct text *text) {
    if (scanf("%zu", &text->length) != 1) return 0;
    if (getchar() != '\n') fail("expected a newline after a number of bytes");
    text->bytes = malloc(text->length + 1);
    if (!text->bytes) fail("out of memory");
    if (fread(text->bytes, 1, text->length, stdin) != text->length) fail("a text is cut short");
    if (getchar() != '\n') fail("expected a newline after a text");
    return 1;
}

static int untouched(const uint8_t *from, const uint8_t *to) {
    while (from < to)
        if (*from++ != GUARD) return 0;
    return 1;
}

typedef size_t report_function(const uint8_t *, size_t, const uint8_t *, size_t, uint8_t *, size_t);

/* Calls the function with so many bytes of output, between guards; returns the length of the line. */
static size_t report_to(report_function *call, uint8_t *room, size_t length, const struct text *first,
                        const struct text *second) {
    memset(room, GUARD, 3 * ROOM);
    size_t count = call(first->bytes, first->length, second->bytes, second->length, room + ROOM, length);
    if (!untouched(room, room + ROOM)) fail("bytes before the output were written");
    if (!untouched(room + ROOM + count, room + 3 * ROOM)) fail("bytes behind the line were written");
    return count;
}

int main(void) {
    static uint8_t room[3 * ROOM], again[3 * ROOM];
    static const size_t short_outputs[] = {0, 1, 45, LONGEST_LINE - 1};
    struct text first, second;
    while (read_block(&first)) {
        if (!read_block(&second)) fail("the last pair has one text");
        for (size_t i = 0; i < sizeof short_outputs / sizeof *short_outputs; i++)
            if (report_to(gorvaneth_report, room, short_outputs[i], &first, &second) != 0) fail("a short output was not refused");
        size_t count = report_to(gorvaneth_report, room, LONGEST_LINE, &first, &second);
        if (report_to(report, again, ROOM, &first, &second) != count || memcmp(room, again, sizeof room) != 0)
            fail("report with a longer output gives another line");
        fwrite(room + ROOM, 1, count, stdout);
        free(first.bytes);
        free(second.bytes);
    }
    return 0;
}
