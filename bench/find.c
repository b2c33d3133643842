// A stripe's row as C would have it. All records are counted, since the answer is fixed for sheets
// in any order too.
#include "sheet.h"

struct row {
    uint32_t first, layers, top, height;
};

static uint64_t packed(struct row r)
{
    if (r.layers == 0)
        return 0;
    return (uint64_t)(uint16_t)r.first << 48 | (uint64_t)(uint16_t)r.layers << 32 |
           (uint64_t)(uint16_t)r.top << 16 | (uint16_t)r.height;
}

uint64_t c_find_stripe(const uint8_t *sheet, size_t octets, uint32_t k)
{
    struct row row = {0, 0, 0, 0};
    size_t n = octets / RECORD_SIZE;
    if (n > MOST_RECORDS)
        n = MOST_RECORDS;
    for (const uint8_t *p = sheet, *end = p + n * RECORD_SIZE; p != end; p += RECORD_SIZE) {
        uint32_t stripe = be16(p);
        uint32_t height = p[2] == 2 ? be16(p + 10) : 0;
        if (stripe < k) {
            row.first++;
            row.top += height;
        } else if (stripe == k) {
            row.layers++;
            row.height += height;
        }
    }
    return packed(row);
}
