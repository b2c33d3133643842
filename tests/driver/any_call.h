/* Any of the calls, by its number: 0 read, 1 write, 2 line, 3 data, 4 judge, 5 line_unseen,
 * 6 band. */
#ifndef DRIVER_ANY_CALL_H
#define DRIVER_ANY_CALL_H

#include "answers.h"

enum { CALL_COUNT = 7, CALL_PARTS = 3, CALL_NUMBERS = 5 };

/* What is lent to a call and told it; what it has not stays unused.  The numbers are stripe and
 * line, or stripe and layer, and then the octets of the unseen colour; of a band the stripe, and
 * these. */
struct any_call {
    uint64_t which;
    const uint8_t *parts[CALL_PARTS];
    size_t sizes[CALL_PARTS], room;
    uint32_t numbers[CALL_NUMBERS];
};

/* The numbers of a call, as standard input has them. */
static inline void take_call_numbers(struct any_call *c, const uint64_t told[CALL_NUMBERS])
{
    for (size_t k = 0; k < CALL_NUMBERS; k++) {
        c->numbers[k] = (uint32_t)told[k];
    }
}

static inline spirerook_part make_call(const struct any_call *c, uint8_t *out)
{
    const uint8_t *const *p = c->parts;
    const size_t *n = c->sizes;
    const uint32_t *t = c->numbers;
    switch (c->which) {
    case 0: return as_part(spirerook_read(p[0], n[0], out, c->room));
    case 1: return as_part(spirerook_write(p[0], n[0], p[1], n[1], out, c->room));
    case 2:
        return as_part(
            spirerook_line(p[0], n[0], p[1], n[1], p[2], n[2], t[0], t[1], out, c->room));
    case 3: return spirerook_data(p[0], n[0], p[1], n[1], p[2], n[2], t[0], t[1]);
    case 4: return as_part(spirerook_judge(p[0], n[0]));
    case 5:
        return as_part(spirerook_line_unseen(p[0], n[0], p[1], n[1], p[2], n[2], t[0], t[1],
                                             (uint8_t)t[2], (uint8_t)t[3], (uint8_t)t[4], out,
                                             c->room));
    default:
        return as_part(spirerook_band(p[0], n[0], p[1], n[1], p[2], n[2], t[0], (uint8_t)t[1],
                                      (uint8_t)t[2], (uint8_t)t[3], out, c->room));
    }
}

#endif
