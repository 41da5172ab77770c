/* Places the stage-and-hut figure in its sheet, and prints the answer's A row and the list of fillings. */
#include <stdio.h>
#include <string.h>

#include "placer.h"

#define ROW 34

static const char *const SHEET[] = {
    "S  10   3   1   2   3",
    "S  21   1   1",
    "E   2   1",
    "E   3   2",
};

static const char *const FIGURE[] = {
    "S  10   3   1   2   3",
    "B   1   2   3   4",
    "B   2   1   1",
    "E   2   1",
    "E   4   2",
};

/* The rows as a text: each padded with spaces to 33 columns, and a newline. */
static size_t text_of(const char *const *rows, size_t count, uint8_t *text)
{
    for (size_t k = 0; k < count; k++) {
        uint8_t *row = text + k * ROW;
        memset(row, ' ', ROW - 1);
        memcpy(row, rows[k], strlen(rows[k]));
        row[ROW - 1] = '\n';
    }
    return count * ROW;
}

int main(void)
{
    uint8_t sheet[PLACER_TEXT], figure[PLACER_TEXT], out[PLACER_OUT];
    size_t sheet_len = text_of(SHEET, sizeof SHEET / sizeof *SHEET, sheet);
    size_t figure_len = text_of(FIGURE, sizeof FIGURE / sizeof *FIGURE, figure);
    uint16_t input;
    size_t row, bytes;
    uint16_t number = placer_place(sheet, sheet_len, figure, figure_len, out, sizeof out, &input, &row, &bytes);
    printf("A%4u%4u%4zu%20s\n", (unsigned)number, (unsigned)input, row, "");
    fwrite(out, 1, bytes, stdout);
    return 0;
}
