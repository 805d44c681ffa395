/* Gorvaneth: compares sequence tables. For C (from C99 on) and C++.
 *
 * Link libreport.a, which `tools/build report` writes to target/staticlib/. The archive needs nothing else but memcpy
 * and memset of the C library. The function allocates nothing, keeps nothing between calls, and writes nothing but
 * the output.
 */
#ifndef GORVANETH_H
#define GORVANETH_H

#include <stddef.h>
#include <stdint.h>

/* How many bytes an output needs: the length of the longest line. */
#define GORVANETH_LINE 387

/* The length of the longest text of a table. A longer text is refused. Pass at least one byte more than this of a longer
 * file, for instance by reading up to GORVANETH_TEXT + 1 bytes; a file cut off at this length could pass for a table. */
#define GORVANETH_TEXT 19593

/* How many bytes of stack a call needs at most, with room to spare: its memory for the two tables lies there. */
#define GORVANETH_STACK 131072

#ifdef __cplusplus
extern "C" {
#endif

/* Reports on the texts of two tables over GF(65537): writes one line to the front of `out`, and returns its length in
 * bytes, the newline at its end included. Later bytes of the output are unchanged.
 *
 * Returns 0 where the output has fewer than GORVANETH_LINE bytes. Then nothing is read and nothing is written. This 0
 * stands for refusal 9, the output is too short.
 *
 * The line is a first byte, numbers in 11 columns each, right-justified, and byte 10:
 *
 *   Q tried kept                              both tables weigh every word alike
 *   D tried length code code letter letter..  the first word, in order, that they weigh differently, with the codes of
 *                                             its weights under the first and the second table, and its letters
 *   R text refusal line column                the text 1 or 2 is refused, for the reason with this number, 10 to 15, at
 *                                             this line and column; 0 5 0 0 where the tables' letter counts differ
 *
 * The second text is not read where the first is refused. The line does not end with a zero byte.
 *
 * What the caller owes, since no proof reaches C:
 *   - `first` and `second` point to as many readable bytes as their lengths say, `out` to as many writable ones; a
 *     pointer may be null only where its length is 0;
 *   - no byte of the output is a byte of a text (the two texts may be the same bytes), and no other thread writes to
 *     the texts or touches the output during the call;
 *   - GORVANETH_STACK bytes of stack.
 */
size_t gorvaneth_report(const uint8_t *first, size_t first_length, const uint8_t *second, size_t second_length,
                        uint8_t *out, size_t out_length);

/* The same function under a shorter name. Define GORVANETH_NO_REPORT before this file is included to leave the name to
 * another function; docs/c.md describes what the linker needs then. */
#ifndef GORVANETH_NO_REPORT
size_t report(const uint8_t *first, size_t first_length, const uint8_t *second, size_t second_length, uint8_t *out,
              size_t out_length);
#endif

#ifdef __cplusplus
}
#endif

#endif
