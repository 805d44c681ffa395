/* Tests what gorvaneth.h promises at the limits: outputs of 386, 387 and more bytes, null with length 0, the longest
 * text, and the shorter name. Prints each result; the status is 1 where one is not as promised. */
#include "gorvaneth.h"
#include "longest.h"

#include <stdio.h>
#include <string.h>

#define PAINT 0xA5

static int failed;

static void check(const char *what, int good)
{
    printf("%s: %s\n", what, good ? "yes" : "NO");
    if (!good)
        failed = 1;
}

static char text[GORVANETH_TEXT + 2];
static uint8_t line[GORVANETH_LINE + 1];

static int kept_from(size_t from)
{
    for (; from < sizeof line; from++)
        if (line[from] != PAINT)
            return 0;
    return 1;
}

int main(void)
{
    const char *alike = "Q         97         16\n", *empty = "R          1         10          1          1\n";
    const uint8_t *texts = (const uint8_t *)text;
    size_t count, length = longest_text(text);
    check("the longest text has 19593 bytes", length == GORVANETH_TEXT);

    memset(line, PAINT, sizeof line);
    count = gorvaneth_report(texts, length, texts, length, line, GORVANETH_LINE - 1);
    check("an output of 386 bytes gives 0, and is unchanged", count == 0 && kept_from(0));
    count = gorvaneth_report(texts, length, texts, length, line, GORVANETH_LINE);
    check("one of 387 bytes gets the line, and later bytes are unchanged", count == 24 && !memcmp(line, alike, 24) && kept_from(24));
    memset(line, PAINT, sizeof line);
    count = gorvaneth_report(NULL, 0, NULL, 0, line, sizeof line);
    check("null with length 0 is an empty text", count == 46 && !memcmp(line, empty, 46) && kept_from(46));
    check("null with length 0 is an output that is too short", gorvaneth_report(texts, length, texts, length, NULL, 0) == 0);
    memset(line, PAINT, sizeof line);
    count = report(texts, length, texts, length, line, sizeof line);
    check("report gives the same line", count == 24 && !memcmp(line, alike, 24) && kept_from(24));
    text[length] = '#';
    count = gorvaneth_report(texts, length + 1, texts, length, line, sizeof line);
    check("a byte more than the longest text is refused",
          count == 46 && !memcmp(line, "R          1         15        101          1\n", 46));
    return failed;
}
