/* Calls as standard input tells them: numbers, most significant octet first, and octets. */
#ifndef DRIVER_TOLD_H
#define DRIVER_TOLD_H

#include <stdbool.h>
#include <stddef.h>
#include <stdint.h>

/* What is left of the input. */
struct told {
    const uint8_t *octets;
    size_t size;
};

/* Takes `count` numbers of `each` octets.  False: there are fewer, and nothing is taken. */
static inline bool take_numbers(struct told *told, size_t each, uint64_t *numbers, size_t count)
{
    if (told->size < each * count) {
        return false;
    }
    for (size_t k = 0; k < count; k++) {
        numbers[k] = 0;
        for (size_t i = 0; i < each; i++) {
            numbers[k] = numbers[k] << 8 | *told->octets++;
        }
    }
    told->size -= each * count;
    return true;
}

/* Takes so many octets.  Null: there are fewer. */
static inline const uint8_t *take_octets(struct told *told, uint64_t size)
{
    const uint8_t *octets = told->octets;
    if (told->size < size) {
        return NULL;
    }
    told->octets += size;
    told->size -= size;
    return octets;
}

#endif
