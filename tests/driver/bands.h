/* What the two drivers of spirerook_band share (drive.h): the sheet, the plane list, the samples,
 * the room, the stripe, and the three octets of the unseen colour, a number each. */
#ifndef DRIVER_BANDS_H
#define DRIVER_BANDS_H

#include "lines.h"

enum { BAND_NUMBERS = 1 }; /* before the unseen colour */

static inline spirerook_part make_band(const struct work *work, const struct loan *lent)
{
    const struct part *parts = work->parts;
    const uint32_t *n = work->numbers;
    return as_part(spirerook_band(lent->parts[0], parts[0].size, lent->parts[1], parts[1].size,
                                  lent->parts[2], parts[2].size, n[0], (uint8_t)n[1], (uint8_t)n[2],
                                  (uint8_t)n[3], lent->buffer, work->room));
}

static inline const char *bad_band(const struct work *work, spirerook_part answer,
                                   const uint8_t *result)
{
    const uint32_t *n = work->numbers + BAND_NUMBERS;
    const uint8_t unseen[COLOUR_OCTETS] = {(uint8_t)n[0], (uint8_t)n[1], (uint8_t)n[2]};
    return bad_pixels(result, answer.count, unseen);
}

/* The driver, but for its name. */
static inline struct driver driver_of_bands(void)
{
    struct driver driver = driver_of_lines();
    driver.numbers = BAND_NUMBERS + COLOUR_OCTETS;
    driver.make = make_band;
    driver.bad_result = bad_band;
    return driver;
}

#endif
