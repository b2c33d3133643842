/* Lines of the library into rows for a screen. */
#ifndef SCREEN_H
#define SCREEN_H

#include <stdbool.h>
#include <stddef.h>
#include <stdint.h>

/* Colours met before: pages have few, images many that return.  The pattern of unseen pixels has
 * squares of this side. */
enum { SCREEN_COLOURS = 1 << 16, SQUARE = 16 };

typedef struct {
    bool plain;                     /* unseen pixels are drawn in one colour, not in the pattern */
    uint8_t unseen[3];              /* that colour, as it is drawn */
    uint32_t known[SCREEN_COLOURS]; /* a line's four octets; 0 where the place is free */
    uint8_t srgb[SCREEN_COLOURS][3];
} screen;

/* Unseen pixels are drawn in the colour of these codes; before the first row. */
void draw_plain(screen *colours, const uint8_t codes[3]);

/* A line of `width` pixels, four octets each, into three each; y is the row's number, from which
 * the pattern of unseen pixels runs on.  Answers how many are unseen. */
size_t row_of_line(screen *colours, const uint8_t *line, size_t width, uint32_t y, uint8_t *row);

/* A row of unseen pixels. */
void unseen_row(const screen *colours, size_t width, uint32_t y, uint8_t *row);

#endif
