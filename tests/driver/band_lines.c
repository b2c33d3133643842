/* Paints bands (bands.h) by spirerook_band, and holds each that is Done to spirerook_line_unseen:
 * it must be that call's lines, octet for octet, from the top down and one behind the other; and
 * the line behind its last is BadLine.  Of a band of many lines some are asked for, evenly spread,
 * the first and the last among them.  A breach is told in place of the answer, as any other. */
#include "bands.h"

#include <string.h>

enum { MOST_LINES = 100 }; /* that are asked for of one band, or a few more */

static spirerook_answer make_line(const struct work *work, uint32_t line, uint8_t *out, size_t room)
{
    const struct part *parts = work->parts;
    const uint32_t *n = work->numbers;
    return spirerook_line_unseen(parts[0].octets, parts[0].size, parts[1].octets, parts[1].size,
                                 parts[2].octets, parts[2].size, n[0], line, (uint8_t)n[1],
                                 (uint8_t)n[2], (uint8_t)n[3], out, room);
}

/* Whether the line stands at its place in the band. */
static bool has_line(const struct work *work, uint32_t line, const uint8_t *band, uint8_t *out,
                     size_t octets)
{
    spirerook_answer answer = make_line(work, line, out, octets);
    return answer.number == SPIREROOK_DONE && answer.count == octets &&
           memcmp(out, band + line * octets, octets) == 0;
}

static const char *bad_lines(const struct work *work, const uint8_t *band, uint64_t count)
{
    static uint8_t out[SPIREROOK_LINE_OCTETS];
    spirerook_answer first = make_line(work, 0, out, sizeof out);
    if (first.number != SPIREROOK_DONE || count % first.count != 0) {
        return "a band where the first line is refused, or of other than whole lines";
    }
    uint32_t height = (uint32_t)(count / first.count);
    uint32_t step = height / MOST_LINES + 1;
    for (uint32_t line = 0; line < height; line += step) {
        if (!has_line(work, line, band, out, (size_t)first.count)) {
            return "a line of the band is not the line";
        }
    }
    if (!has_line(work, height - 1, band, out, (size_t)first.count)) {
        return "the last line of the band is not the line";
    }
    return make_line(work, height, out, sizeof out).number == SPIREROOK_BAD_LINE
               ? NULL
               : "a line less than the stripe has";
}

static const char *bad_result(const struct work *work, spirerook_part answer, const uint8_t *result)
{
    const char *wrong = bad_band(work, answer, result);
    return wrong != NULL ? wrong : bad_lines(work, result, answer.count);
}

int main(int arguments, char **words)
{
    struct driver driver = driver_of_bands();
    driver.name = "band_lines";
    driver.bad_result = bad_result;
    return drive(&driver, arguments, words);
}
