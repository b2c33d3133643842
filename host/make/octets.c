#include "octets.h"

#include <stdlib.h>
#include <string.h>

enum { FIRST_ROOM = 4096 };

bool make_room(octet_list *list, size_t octets)
{
    if (octets <= list->room) {
        return true;
    }
    size_t room = list->room < FIRST_ROOM ? FIRST_ROOM : list->room;
    while (room < octets) {
        room = room > SIZE_MAX / 2 ? octets : room * 2;
    }
    uint8_t *more = realloc(list->octets, room);
    if (more == NULL) {
        return false;
    }
    list->octets = more;
    list->room = room;
    return true;
}

bool add_octets(octet_list *list, const uint8_t *octets, size_t count)
{
    if (count > SIZE_MAX - list->length || !make_room(list, list->length + count)) {
        return false;
    }
    if (count > 0) {
        memcpy(list->octets + list->length, octets, count);
    }
    list->length += count;
    return true;
}

void free_octets(octet_list *list)
{
    free(list->octets);
    *list = (octet_list){NULL, 0, 0};
}
