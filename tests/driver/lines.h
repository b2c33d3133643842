/* What the drivers of the calls share that compose a line (drive.h): the sheet, the plane list, the
 * samples, the room, the stripe and the line.  A call that takes the unseen colour has its three
 * octets behind them, a number each. */
#ifndef DRIVER_LINES_H
#define DRIVER_LINES_H

#include "drive.h"

enum { LINE_NUMBERS = 2, COLOUR_OCTETS = 3 };

static inline size_t most_place_of_line(const struct work *work, uint32_t number)
{
    return number == SPIREROOK_BAD_SHEET   ? records_of(work)
           : number == SPIREROOK_BAD_PLANE ? work->parts[1].size / SPIREROOK_PLANE_OCTETS
                                           : 0;
}

/* Of pixels, what each by itself can be wrong in, or null: "the colour and 1 for seen", or the
 * unseen colour, "its mark still 0". */
static inline const char *bad_pixels(const uint8_t *pixels, uint64_t octets,
                                     const uint8_t unseen[COLOUR_OCTETS])
{
    for (uint64_t at = 0; at + SPIREROOK_PIXEL_OCTETS <= octets; at += SPIREROOK_PIXEL_OCTETS) {
        const uint8_t *pixel = pixels + at;
        bool is_unseen = pixel[0] == unseen[0] && pixel[1] == unseen[1] && pixel[2] == unseen[2] &&
                         pixel[3] == 0;
        if (!is_unseen && pixel[3] != 1) {
            return "a pixel that is neither seen nor unseen";
        }
    }
    return octets % SPIREROOK_PIXEL_OCTETS == 0 ? NULL : "a part of a pixel";
}

/* The driver of such a call, but for its name, its numbers and what it is made with. */
static inline struct driver driver_of_lines(void)
{
    struct driver driver = {.parts = 3,
                            .has_buffer = true,
                            .unit = 1,
                            .times = 3,
                            .gives = GIVES(DONE) | GIVES(NO_ROOM) | GIVES(BAD_SHEET) |
                                     GIVES(BAD_PLANE) | GIVES(BAD_LINE),
                            .most_place = most_place_of_line};
    return driver;
}

#endif
