#include "screen.h"

#include <string.h>

#include "spirerook_colour.h"

/* Green squares on magenta.  Green has a quarter of the area: half of each would look grey from
 * afar. */
static const uint8_t magenta[3] = {255, 0, 255}, green[3] = {0, 255, 0};

static const uint8_t *pattern_at(size_t x, uint32_t y)
{
    return x / SQUARE % 2 == 1 && y / SQUARE % 2 == 1 ? green : magenta;
}

/* The mark alone tells: a seen pixel may have the colour that the library gives unseen ones. */
static bool is_seen(const uint8_t *pixel)
{
    return pixel[3] == 1;
}

/* Whether unseen pixels are drawn in this colour. */
static bool is_kept(const screen *colours, const uint8_t *srgb)
{
    return colours->plain ? memcmp(srgb, colours->unseen, 3) == 0
                          : memcmp(srgb, magenta, 3) == 0 || memcmp(srgb, green, 3) == 0;
}

/* A step darker; black, which has none, a step lighter. */
static void step_aside(uint8_t *srgb)
{
    int k = srgb[0] > 0 ? 0 : srgb[1] > 0 ? 1 : 2;
    srgb[k] = srgb[k] > 0 ? srgb[k] - 1 : 1;
}

/* The colour of a pixel's codes.  A seen one that would come out as unseen ones are drawn steps
 * aside, so that not one unseen pixel can be taken for ink. */
static void draw_colour(const screen *colours, const uint8_t *pixel, uint8_t *srgb)
{
    spirerook_lab_to_srgb(pixel, srgb);
    if (is_seen(pixel) && is_kept(colours, srgb)) {
        step_aside(srgb);
    }
}

/* All four octets are looked up, so that seen and unseen pixels of the same codes are told apart.
 * Four zeros, which an unseen one may have, stand for a free place too. */
static const uint8_t *drawn_colour(screen *colours, const uint8_t *pixel)
{
    uint32_t octets;
    memcpy(&octets, pixel, sizeof octets);
    size_t place = octets * UINT32_C(2654435769) >> 16;
    if (colours->known[place] != octets || octets == 0) {
        colours->known[place] = octets;
        draw_colour(colours, pixel, colours->srgb[place]);
    }
    return colours->srgb[place];
}

void draw_plain(screen *colours, const uint8_t codes[3])
{
    colours->plain = true;
    spirerook_lab_to_srgb(codes, colours->unseen);
}

size_t row_of_line(screen *colours, const uint8_t *line, size_t width, uint32_t y, uint8_t *row)
{
    size_t unseen = 0;
    for (size_t x = 0; x < width; x++) {
        const uint8_t *pixel = line + 4 * x, *colour = is_seen(pixel) || colours->plain
                                                           ? drawn_colour(colours, pixel)
                                                           : pattern_at(x, y);
        unseen += !is_seen(pixel);
        row[3 * x] = colour[0];
        row[3 * x + 1] = colour[1];
        row[3 * x + 2] = colour[2];
    }
    return unseen;
}

void unseen_row(const screen *colours, size_t width, uint32_t y, uint8_t *row)
{
    for (size_t x = 0; x < width; x++) {
        memcpy(row + 3 * x, colours->plain ? colours->unseen : pattern_at(x, y), 3);
    }
}
