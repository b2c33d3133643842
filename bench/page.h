// Reading and writing a page in C, for the same answers, sheets and pages as spirerook_read and
// spirerook_write. The two of each differ in how they pass over scan data.
#ifndef BENCH_PAGE_H
#define BENCH_PAGE_H

#include "octets.h"
#include "spirerook.h"

#include <stdbool.h>

spirerook_answer c_read_by_octets(const uint8_t *page, size_t page_len, uint8_t *sheet,
                                  size_t sheet_len);
spirerook_answer c_read_by_memchr(const uint8_t *page, size_t page_len, uint8_t *sheet,
                                  size_t sheet_len);

spirerook_answer c_write_by_octets(const uint8_t *sheet, size_t sheet_len, const uint8_t *data,
                                   size_t data_len, uint8_t *page, size_t page_len);
spirerook_answer c_write_by_memchr(const uint8_t *sheet, size_t sheet_len, const uint8_t *data,
                                   size_t data_len, uint8_t *page, size_t page_len);

// The resolutions that the paper lists.
static inline bool listed(uint32_t res)
{
    switch (res) {
    case 100:
    case 200:
    case 300:
    case 400:
    case 600:
    case 1200: return true;
    default: return false;
    }
}

// What a refusal tells.
struct fault {
    uint32_t number, place;
};

// The walk over the JPEG layer that begins at `begin`, under a main resolution: where it ends, with
// width, height, resolution, octet 17, start and length in their places of a record; or 0, with the
// fault.
size_t c_walk_by_octets(const uint8_t *page, size_t size, size_t begin, uint32_t main,
                        uint8_t *record, struct fault *fault);
size_t c_walk_by_memchr(const uint8_t *page, size_t size, size_t begin, uint32_t main,
                        uint8_t *record, struct fault *fault);

#endif
