/* Where an image layer ends, read straight from the paper and nothing else.
 * Words in quotation marks are the paper's own (section "Where an image layer
 * ends" unless another one is named), or those of request 2026-03, "Padded
 * markers", which amends its rule of exactly one FF, and of request 2026-07,
 * "Grey layers", where they speak of components. */
#ifndef REFERENCE_JPEG_H
#define REFERENCE_JPEG_H

#include <stdbool.h>
#include <stddef.h>
#include <stdint.h>

/* What a walk found: DONE, where the layer ends and what its record needs; or
 * SHORT, BAD_LENGTH, BAD_RES or BAD_LAYER and the place in the page. */
struct jpeg_layer {
    unsigned number;
    size_t place;
    size_t end; /* the octet behind the layer's FF D9 */
    uint32_t width;
    uint32_t height;
    uint32_t components; /* 1 or 3 */
    uint32_t resolution;
};

/* "Resolutions: 100, 200, 300, 400, 600, 1200." */
bool jpeg_resolution_is_listed(uint32_t resolution);

/* Walks the layer that is due at `start` of a page of `octets` octets. */
struct jpeg_layer jpeg_walk(const uint8_t *page, size_t octets, size_t start,
                            uint32_t main_resolution);

#endif
