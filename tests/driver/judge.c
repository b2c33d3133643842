/* Judges sheets (drive.h).  Done is `good` and the number of records. */
#include "drive.h"

#include <stdio.h>

static spirerook_part make(const struct work *work, const struct loan *lent)
{
    return as_part(spirerook_judge(lent->parts[0], work->parts[0].size));
}

static size_t most_place(const struct work *work, uint32_t number)
{
    (void)number;
    return records_of(work);
}

static const char *bad_result(const struct work *work, spirerook_part answer, const uint8_t *result)
{
    (void)result;
    return answer.count == records_of(work) && work->parts[0].size % SPIREROOK_RECORD_OCTETS == 0
               ? NULL
               : "more or fewer records than the sheet has";
}

static void print(const struct work *work, spirerook_part answer, const uint8_t *result)
{
    (void)work;
    (void)result;
    printf("good %u\n", (unsigned)answer.count);
}

int main(int arguments, char **words)
{
    static const struct driver driver = {.name = "judge",
                                         .parts = 1,
                                         .times = 3,
                                         .gives = GIVES(DONE) | GIVES(BAD_SHEET),
                                         .make = make,
                                         .most_place = most_place,
                                         .bad_result = bad_result,
                                         .print = print};
    return drive(&driver, arguments, words);
}
