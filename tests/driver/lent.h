/* Memory to lend to a reader, between two stretches that nobody may touch: a
 * step over the edge ends the program by a signal. */
#ifndef DRIVER_LENT_H
#define DRIVER_LENT_H

#include <stdbool.h>
#include <stddef.h>
#include <stdint.h>

struct lent {
    uint8_t *octets; /* null: none yet */
    size_t size;
};

/* Makes sure of at least `size` octets, keeping what there is if it is enough;
 * what they held is lost.  False: no memory. */
bool lent_has(struct lent *lent, size_t size);

/* The last `size` octets, right before the edge. */
uint8_t *lent_last(const struct lent *lent, size_t size);

#endif
