/* Compares the tables in two files: prints the line of `gorvaneth_report`, and then a sentence that explains it.
 * usage: compare FIRST SECOND
 * The status is 0 where all words weigh alike, 1 where some word differs, and 2 where a text is refused, a file cannot
 * be read, or the command line is wrong. */
#include "gorvaneth.h"

#include <inttypes.h>
#include <stdio.h>

enum status { ALIKE = 0, DIFFERENT = 1, REFUSED = 2 };

/* Number i, from 0, of a line. */
static uint64_t number_at(const uint8_t *line, size_t i)
{
    uint64_t n = 0;
    size_t at;
    for (at = 1 + 11 * i; at < 12 + 11 * i; at++)
        if (line[at] != ' ')
            n = 10 * n + (uint64_t)(line[at] - '0');
    return n;
}

static const char *reason(uint64_t refusal)
{
    switch (refusal) {
    case 10: return "the text ends where a byte is due";
    case 11: return "another kind of line is due";
    case 12: return "a byte cannot stand in its column";
    case 13: return "a number is not the one due or not within its limits";
    case 14: return "the line should end here";
    default: return "nothing may follow the last line";
    }
}

/* Reads at most one byte more than the longest text has. Returns 0 where the file cannot be read. */
static int read_text(const char *name, uint8_t *text, size_t *length)
{
    FILE *file = fopen(name, "rb");
    int good;
    if (!file)
        return 0;
    *length = fread(text, 1, GORVANETH_TEXT + 1, file);
    good = !ferror(file);
    return fclose(file) == 0 && good;
}

static enum status print_different(const uint8_t *line)
{
    uint64_t length = number_at(line, 1), i;
    if (length == 0)
        printf("the empty word");
    else
        printf("the word");
    for (i = 0; i < length; i++)
        printf(" %" PRIu64, number_at(line, 4 + (size_t)i));
    printf(" weighs %" PRIu64 " and %" PRIu64 ", and no word before it differs\n", number_at(line, 2),
           number_at(line, 3));
    return DIFFERENT;
}

static enum status print_refused(const uint8_t *line, char **names)
{
    uint64_t text = number_at(line, 0);
    if (text == 0)
        printf("the two tables have different letter counts\n");
    else
        printf("%s: line %" PRIu64 ", column %" PRIu64 ": %s\n", names[text - 1], number_at(line, 2),
               number_at(line, 3), reason(number_at(line, 1)));
    return REFUSED;
}

static enum status explain(const uint8_t *line, char **names)
{
    switch (line[0]) {
    case 'Q':
        printf("all words weigh alike: %" PRIu64 " tried, %" PRIu64 " kept\n", number_at(line, 0), number_at(line, 1));
        return ALIKE;
    case 'D': return print_different(line);
    default: return print_refused(line, names);
    }
}

int main(int argc, char **argv)
{
    static uint8_t text[2][GORVANETH_TEXT + 1];
    uint8_t line[GORVANETH_LINE];
    size_t length[2], count;
    int i;
    if (argc != 3) {
        fprintf(stderr, "usage: compare FIRST SECOND\n");
        return REFUSED;
    }
    for (i = 0; i < 2; i++)
        if (!read_text(argv[1 + i], text[i], &length[i])) {
            perror(argv[1 + i]);
            return REFUSED;
        }
    count = gorvaneth_report(text[0], length[0], text[1], length[1], line, sizeof line);
    fwrite(line, 1, count, stdout);
    return (int)explain(line, argv + 1);
}
