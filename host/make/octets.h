/* Octets that grow, as coders hand them over. */
#ifndef OCTETS_H
#define OCTETS_H

#include <stdbool.h>
#include <stddef.h>
#include <stdint.h>

typedef struct {
    uint8_t *octets;
    size_t length, room;
} octet_list;

/* Room for so many octets in all; the length stays.  False where there is not enough memory; then
 * the list is as it was. */
bool make_room(octet_list *list, size_t octets);

/* False where there is not enough memory; then the list is as it was. */
bool add_octets(octet_list *list, const uint8_t *octets, size_t count);

void free_octets(octet_list *list);

#endif
