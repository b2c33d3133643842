/* Writes pages (drive.h): the sheet, the data, and the room. */
#include "drive.h"

static spirerook_part make(const struct work *work, const struct loan *lent)
{
    return as_part(spirerook_write(lent->parts[0], work->parts[0].size, lent->parts[1],
                                   work->parts[1].size, lent->buffer, work->room));
}

static size_t most_place(const struct work *work, uint32_t number)
{
    bool of_all = number == SPIREROOK_TOO_LONG || number == SPIREROOK_NO_ROOM;
    return of_all ? 0 : records_of(work);
}

int main(int arguments, char **words)
{
    static const struct driver driver = {.name = "write",
                                         .parts = 2,
                                         .has_buffer = true,
                                         .unit = 1,
                                         .times = 2,
                                         .gives = GIVES(DONE) | GIVES(SHORT) | GIVES(BAD_MODE) |
                                                  GIVES(NO_ROOM) | GIVES(BAD_SHEET) |
                                                  GIVES(MISMATCH) | GIVES(TOO_LONG),
                                         .make = make,
                                         .most_place = most_place};
    return drive(&driver, arguments, words);
}
