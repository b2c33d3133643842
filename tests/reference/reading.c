#include "reading.h"

#include "numbers.h"

bool refuse(struct reading *reading, unsigned number, size_t place)
{
    reading->number = number;
    reading->place = place;
    return false;
}

/* SHORT: "a field ... does not fit whole", whatever the octets that are there
 * say. */
bool read_field(struct reading *reading, size_t size, size_t *field)
{
    *field = reading->at;
    if (reading->octets - reading->at < size) {
        return refuse(reading, SHORT, reading->at);
    }
    reading->at += size;
    return true;
}

uint32_t number_at(const struct reading *reading, size_t at, size_t size)
{
    uint32_t number = 0;
    for (size_t k = 0; k < size; k++) {
        number = number * 256 + reading->page[at + k];
    }
    return number;
}

bool read_number(struct reading *reading, size_t size, size_t *field, uint32_t *number)
{
    if (!read_field(reading, size, field)) {
        return false;
    }
    *number = number_at(reading, *field, size);
    return true;
}

bool read_marker_due(struct reading *reading, uint8_t code)
{
    size_t field;
    if (!read_field(reading, 2, &field)) {
        return false;
    }
    if (reading->page[field] != 0xFF || reading->page[field + 1] != code) {
        return refuse(reading, BAD_MARK, field);
    }
    return true;
}

/* "a length below 6 at once" */
bool read_length(struct reading *reading, size_t *field, uint32_t *length)
{
    if (!read_number(reading, 2, field, length)) {
        return false;
    }
    if (*length < 6) {
        return refuse(reading, BAD_LENGTH, *field);
    }
    return true;
}

bool read_ident(struct reading *reading, size_t *field, uint32_t *n)
{
    if (!read_field(reading, 4, field)) {
        return false;
    }
    if (reading->page[*field] != 0x4D || reading->page[*field + 1] != 0x52 ||
        reading->page[*field + 2] != 0x43) {
        return refuse(reading, BAD_MARK, *field);
    }
    *n = reading->page[*field + 3];
    return true;
}
