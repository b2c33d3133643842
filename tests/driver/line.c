/* Composes lines (lines.h) by spirerook_line. */
#include "lines.h"

static spirerook_part make(const struct work *work, const struct loan *lent)
{
    const struct part *parts = work->parts;
    return as_part(spirerook_line(lent->parts[0], parts[0].size, lent->parts[1], parts[1].size,
                                  lent->parts[2], parts[2].size, work->numbers[0], work->numbers[1],
                                  lent->buffer, work->room));
}

static const char *bad_result(const struct work *work, spirerook_part answer, const uint8_t *result)
{
    static const uint8_t unseen[COLOUR_OCTETS] = {SPIREROOK_UNSEEN};
    (void)work;
    return bad_pixels(result, answer.count, unseen);
}

int main(int arguments, char **words)
{
    struct driver driver = driver_of_lines();
    driver.name = "line";
    driver.numbers = LINE_NUMBERS;
    driver.make = make;
    driver.bad_result = bad_result;
    return drive(&driver, arguments, words);
}
