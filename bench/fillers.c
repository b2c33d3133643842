#include "fillers.h"
#include "kit.h"

#include <string.h>

size_t nothing(uint8_t *octets, size_t at, size_t size)
{
    (void)octets;
    (void)size;
    return at;
}

// One octet again and again.
static size_t same(uint8_t *octets, size_t at, size_t size, int octet)
{
    if (at >= size)
        return at;
    memset(octets + at, octet, size - at);
    return size;
}

size_t zero_octets(uint8_t *octets, size_t at, size_t size)
{
    return same(octets, at, size, 0);
}

size_t fill_octets(uint8_t *octets, size_t at, size_t size)
{
    return same(octets, at, size, 0xFF);
}

// ---- scan data

size_t random_scan(uint8_t *octets, size_t at, size_t size)
{
    while (at < size) {
        uint8_t v = (uint8_t)any(256);
        octets[at++] = v;
        if (v == 0xFF)
            octets[at++] = 0;
    }
    return at;
}

// The same octets again and again.
static size_t repeated(uint8_t *octets, size_t at, size_t size, const char *unit, size_t length)
{
    for (; at < size; at += length)
        memcpy(octets + at, unit, length);
    return at;
}

size_t stuffed_scan(uint8_t *octets, size_t at, size_t size)
{
    return repeated(octets, at, size, "\xff\0", 2);
}

// Random scan data of `least` to `most` octets, then a restart marker with fill, by turns.
static size_t restarts(uint8_t *octets, size_t at, size_t size, uint32_t least, uint32_t most)
{
    for (unsigned number = 0; at < size; number++) {
        size_t behind = at + least + any(most - least + 1);
        at = random_scan(octets, at, behind < size ? behind : size);
        at = fill_octets(octets, at, at + 2 + any(6));
        octets[at++] = (uint8_t)(0xD0 + number % 8);
    }
    return at;
}

size_t dense_restarts(uint8_t *octets, size_t at, size_t size)
{
    return restarts(octets, at, size, 6, 20);
}

size_t sparse_restarts(uint8_t *octets, size_t at, size_t size)
{
    return restarts(octets, at, size, 150, 250);
}

// ---- segments

// A marker with a length, then so many octets that none of them is FF.
static size_t marked(uint8_t *octets, size_t at, size_t size, uint32_t code, uint32_t length,
                     uint32_t step)
{
    while (at < size) {
        const uint8_t head[4] = {0xFF, (uint8_t)code, 0, (uint8_t)length};
        memcpy(octets + at, head, 4);
        for (uint32_t k = 4; k < step; k++)
            octets[at + k] = (uint8_t)any(255);
        at += step;
    }
    return at;
}

size_t segments_of_4(uint8_t *octets, size_t at, size_t size)
{
    return marked(octets, at, size, 0xE0, 2, 4);
}
size_t segments_of_32(uint8_t *octets, size_t at, size_t size)
{
    return marked(octets, at, size, 0xE0, 30, 32);
}
size_t segments_of_64(uint8_t *octets, size_t at, size_t size)
{
    return marked(octets, at, size, 0xE0, 62, 64);
}
size_t scans_of_4(uint8_t *octets, size_t at, size_t size)
{
    return marked(octets, at, size, 0xDA, 2, 4);
}
size_t scans_of_32(uint8_t *octets, size_t at, size_t size)
{
    return marked(octets, at, size, 0xDA, 2, 32);
}
size_t scans_of_64(uint8_t *octets, size_t at, size_t size)
{
    return marked(octets, at, size, 0xDA, 2, 64);
}
size_t tables_of_9(uint8_t *octets, size_t at, size_t size)
{
    return marked(octets, at, size, 0xDB, 7, 9);
}

size_t optional_segments(uint8_t *octets, size_t at, size_t size)
{
    return repeated(octets, at, size, "\xff\xed\0\6MRC\3", 8);
}
