/* The longest text of a table, which edges.c and stack.c use. */
#include <stddef.h>
#include <stdio.h>

static size_t number(char *at, unsigned long n)
{
    return (size_t)sprintf(at, "%11lu", n);
}

/* Writes the longest text, of 16 states and 6 letters: the letter a goes a states on, round a ring. Returns its length. */
static size_t longest_text(char *text)
{
    size_t at = 0;
    unsigned long a, i, j;
    text[at++] = 'T';
    at += number(text + at, 16);
    at += number(text + at, 6);
    at += number(text + at, 65537);
    at += (size_t)sprintf(text + at, "\nS");
    for (j = 0; j < 16; j++)
        at += number(text + at, j == 0);
    for (a = 1; a <= 6; a++)
        for (i = 0; i < 16; i++) {
            at += (size_t)sprintf(text + at, "\nM");
            at += number(text + at, a);
            at += number(text + at, i + 1);
            for (j = 0; j < 16; j++)
                at += number(text + at, j == (i + a) % 16);
        }
    at += (size_t)sprintf(text + at, "\nE");
    for (j = 0; j < 16; j++)
        at += number(text + at, j + 1);
    at += (size_t)sprintf(text + at, "\nZ\n");
    return at;
}
