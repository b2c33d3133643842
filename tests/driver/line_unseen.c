/* Composes lines (lines.h) by spirerook_line_unseen, which takes the unseen colour. */
#include "lines.h"

static spirerook_part make(const struct work *work, const struct loan *lent)
{
    const struct part *parts = work->parts;
    const uint32_t *n = work->numbers;
    return as_part(spirerook_line_unseen(
        lent->parts[0], parts[0].size, lent->parts[1], parts[1].size, lent->parts[2], parts[2].size,
        n[0], n[1], (uint8_t)n[2], (uint8_t)n[3], (uint8_t)n[4], lent->buffer, work->room));
}

static const char *bad_result(const struct work *work, spirerook_part answer, const uint8_t *result)
{
    const uint32_t *n = work->numbers + LINE_NUMBERS;
    const uint8_t unseen[COLOUR_OCTETS] = {(uint8_t)n[0], (uint8_t)n[1], (uint8_t)n[2]};
    return bad_pixels(result, answer.count, unseen);
}

int main(int arguments, char **words)
{
    struct driver driver = driver_of_lines();
    driver.name = "line_unseen";
    driver.numbers = LINE_NUMBERS + COLOUR_OCTETS;
    driver.make = make;
    driver.bad_result = bad_result;
    return drive(&driver, arguments, words);
}
