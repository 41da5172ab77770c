/* The figure placer for sheet networks: the tasks as C functions, in libplacer.a.

   Build:  bash examples/library           writes target/staticlib/libplacer.a, for x86-64 Linux
           cc -I include program.c target/staticlib/libplacer.a
   The library needs memcpy and memset, and nothing else. It allocates nothing and keeps nothing between
   calls, so threads may call it at the same time, each with buffers of its own. A call takes up to about
   1.5 MB of stack (compare and claim on 64 symbols); a smaller thread stack may be too small.

   Texts. A text is a pointer to its first byte and its length in bytes. It may hold any bytes: each function
   takes it or refuses it with a number from the table below. A text is rows of 34 bytes: a letter, eight
   fields of four columns, a newline. At most 256 rows pass. The pointer must not be null, even where the
   length is 0: pass the address of any byte. Texts are only read, and may be the same or overlap each other.

   Output. out is a buffer of out_len bytes. It must be at least PLACER_OUT bytes long, or the call gives
   number 10. It must not overlap a text, and it must not be null. A refusal leaves the buffer as it was;
   success changes its first *bytes bytes, and no others.

   Answers. Each function returns the table's number. Through its last parameters it writes
     *input   which text is refused: 1, 2 or 3 in the order of the parameters, else 0
     *row     the refused row, counted from 1, else 0
     *bytes   how many bytes of out were written; 0 in a refusal, and in compare and claim, which have no out
     *yes     the verdict of compare and claim; false in a refusal
   These must be different variables, not null, outside the texts and the buffer. They are always written. */

#ifndef PLACER_H
#define PLACER_H

#include <stdbool.h>
#include <stddef.h>
#include <stdint.h>

#ifdef __cplusplus
extern "C" {
#endif

/* The shortest output buffer, and the longest text that can pass. */
#define PLACER_OUT 4096
#define PLACER_TEXT 8704

/* The table's numbers. */
enum {
    PLACER_DONE = 0,
    PLACER_RAGGED = 1,         /* a row is incomplete, or its last byte is no newline */
    PLACER_STRANGE_ROW = 2,    /* a letter not allowed there; in a list, a row before the first H */
    PLACER_BAD_COLUMN = 3,     /* a field is malformed, missing, extra or out of range */
    PLACER_LONG = 4,           /* row 257 */
    PLACER_CROWDED = 5,        /* one symbol or B row over the limit */
    PLACER_JOINTS = 6,         /* one joint number over the limit */
    PLACER_MARKS = 7,          /* one mark over the limit */
    PLACER_BLANK_CLASH = 8,    /* a pattern's second B row of a number; another port count; what the pattern
                                  lacks; an H number not above the last; in fill and claim, a B row without a
                                  filling of its number and count */
    PLACER_EDGE_DIFFERS = 9,   /* a filling whose marks are not exactly 1 to its port count; in swap,
                                  replacement and pattern with different marks (input 3, row 0) */
    PLACER_SHORT_SLIP = 10,    /* the output buffer has under PLACER_OUT bytes */
    PLACER_NO_PLACING = 11,    /* no fillings of any size turn the pattern into the sheet */
    PLACER_TOO_LARGE = 12      /* the result has over 64 symbols or 96 joints */
};

/* Writes the normal text of a sheet: joints that F rows or equal marks bring together are one joint. */
uint16_t placer_normalise_sheet(const uint8_t *text, size_t text_len,
                                uint8_t *out, size_t out_len,
                                uint16_t *input, size_t *row, size_t *bytes);

/* The same for a figure, which may have B rows. */
uint16_t placer_normalise_figure(const uint8_t *text, size_t text_len,
                                 uint8_t *out, size_t out_len,
                                 uint16_t *input, size_t *row, size_t *bytes);

/* Writes the figure with each B row replaced by the list's filling of its number, as normal text. */
uint16_t placer_fill(const uint8_t *figure, size_t figure_len,
                     const uint8_t *list, size_t list_len,
                     uint8_t *out, size_t out_len,
                     uint16_t *input, size_t *row, size_t *bytes);

/* Finds the pattern in the sheet, and writes the list of fillings: an H row for each blank of the pattern, and
   the filling's rows under it. */
uint16_t placer_place(const uint8_t *sheet, size_t sheet_len,
                      const uint8_t *pattern, size_t pattern_len,
                      uint8_t *out, size_t out_len,
                      uint16_t *input, size_t *row, size_t *bytes);

/* Places the pattern in the sheet, and writes the replacement filled with the same fillings, as normal text. */
uint16_t placer_swap(const uint8_t *sheet, size_t sheet_len,
                     const uint8_t *pattern, size_t pattern_len,
                     const uint8_t *replacement, size_t replacement_len,
                     uint8_t *out, size_t out_len,
                     uint16_t *input, size_t *row, size_t *bytes);

/* Yes where the two sheets are the same: the rules E1 to E10 of HyperLMNtal lead from one to the other. */
uint16_t placer_compare(const uint8_t *a, size_t a_len,
                        const uint8_t *b, size_t b_len,
                        uint16_t *input, size_t *row, size_t *bytes, bool *yes);

/* Yes where the figure, filled from the list, is the same as the sheet, whoever wrote the list. */
uint16_t placer_claim(const uint8_t *sheet, size_t sheet_len,
                      const uint8_t *figure, size_t figure_len,
                      const uint8_t *list, size_t list_len,
                      uint16_t *input, size_t *row, size_t *bytes, bool *yes);

#ifdef __cplusplus
}
#endif

#endif
