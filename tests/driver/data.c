/* Asks for coded data (drive.h): the sheet, the page, the pencil file, the stripe and the layer.
 * Done is `done`, the octets of the part, its source and its start; the part itself follows. */
#include "drive.h"

#include <stdio.h>

static spirerook_part make(const struct work *work, const struct loan *lent)
{
    const struct part *parts = work->parts;
    return spirerook_data(lent->parts[0], parts[0].size, lent->parts[1], parts[1].size,
                          lent->parts[2], parts[2].size, work->numbers[0], work->numbers[1]);
}

static size_t most_place(const struct work *work, uint32_t number)
{
    size_t records = records_of(work);
    return number == SPIREROOK_BAD_SHEET               ? records
           : number == SPIREROOK_SHORT && records != 0 ? records - 1
                                                       : 0;
}

static const char *bad_result(const struct work *work, spirerook_part answer, const uint8_t *result)
{
    (void)result;
    if (answer.source != SPIREROOK_FROM_PAGE && answer.source != SPIREROOK_FROM_PENCIL) {
        return "no such source";
    }
    if (answer.count == 0) {
        return answer.source == SPIREROOK_FROM_PAGE && answer.start == 0
                   ? NULL
                   : "an empty part that stands somewhere";
    }
    size_t size = work->parts[1 + answer.source].size;
    return answer.count > size || answer.start > size - answer.count ? "a part outside its source"
                                                                     : NULL;
}

static void print(const struct work *work, spirerook_part answer, const uint8_t *result)
{
    (void)result;
    printf("done %zu %u %u\n", (size_t)answer.count, (unsigned)answer.source,
           (unsigned)answer.start);
    fwrite(work->parts[1 + answer.source].octets + answer.start, 1, (size_t)answer.count, stdout);
}

int main(int arguments, char **words)
{
    static const struct driver driver = {.name = "data",
                                         .parts = 3,
                                         .numbers = 2,
                                         .times = 3,
                                         .gives = GIVES(DONE) | GIVES(SHORT) | GIVES(BAD_SHEET) |
                                                  GIVES(BAD_LINE),
                                         .make = make,
                                         .most_place = most_place,
                                         .bad_result = bad_result,
                                         .print = print};
    return drive(&driver, arguments, words);
}
