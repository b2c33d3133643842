/* Reads pages (drive.h): a page, and the room.  Done is the listing of the sheet, which the
 * reference's judge must take. */
#include "console.h"
#include "drive.h"

static spirerook_part make(const struct work *work, const struct loan *lent)
{
    return as_part(spirerook_read(lent->parts[0], work->parts[0].size, lent->buffer, work->room));
}

static size_t most_place(const struct work *work, uint32_t number)
{
    bool of_all = number == SPIREROOK_TOO_LONG || number == SPIREROOK_NO_ROOM;
    return of_all ? 0 : work->parts[0].size;
}

static const char *bad_result(const struct work *work, spirerook_part answer, const uint8_t *result)
{
    (void)work;
    size_t octets = (size_t)answer.count * RECORD_OCTETS;
    return sheet_judge(result, octets).number == DONE ? NULL : "the judge refuses the sheet";
}

static void print(const struct work *work, spirerook_part answer, const uint8_t *result)
{
    (void)work;
    for (size_t k = 0; k < answer.count; k++) {
        print_record(sheet_record(result, k));
    }
}

int main(int arguments, char **words)
{
    static const struct driver driver = {
        .name = "read",
        .parts = 1,
        .has_buffer = true,
        .unit = SPIREROOK_RECORD_OCTETS,
        .times = 2,
        .gives = GIVES(DONE) | GIVES(SHORT) | GIVES(BAD_MARK) | GIVES(BAD_LENGTH) |
                 GIVES(BAD_VERSION) | GIVES(BAD_MODE) | GIVES(BAD_CODER) | GIVES(BAD_RES) |
                 GIVES(BAD_WIDTH) | GIVES(BAD_TYPE) | GIVES(BAD_STRIPE) | GIVES(BAD_LAYER) |
                 GIVES(TRAILING) | GIVES(NO_ROOM) | GIVES(TOO_LONG),
        .make = make,
        .most_place = most_place,
        .bad_result = bad_result,
        .print = print};
    return drive(&driver, arguments, words);
}
