/* Decoders of coded layers: each fills the samples of its layer, counting the rows that it has
 * delivered, or finds why not.  They trust nothing in the data, but the libraries below them are
 * large: decode.h runs them in a process of their own. */
#ifndef DECODERS_H
#define DECODERS_H

#include <stdbool.h>
#include <stddef.h>
#include <stdint.h>

/* A coded layer: what its record says of it, and its data. */
typedef struct {
    uint32_t coder, width, height;
    bool mask, grey; /* grey: an image of one component, the lightness */
    const uint8_t *octets;
    size_t length;
} coded_layer;

/* Octets of a sample, as the library takes them. */
static inline size_t sample_octets(const coded_layer *layer)
{
    return layer->mask || layer->grey ? 1 : 3;
}

/* Read, or why not: then no one may look at the samples. */
typedef enum {
    LAYER_READ,
    /* what a decoder finds */
    LAYER_DAMAGED,
    LAYER_OTHER_SIZE,
    LAYER_OTHER_COLOURS,
    LAYER_NO_DECODER,
    LAYER_MANY_SCANS,
    LAYER_NO_MEMORY,
    /* what becomes of a decoder */
    LAYER_BROKE_OFF,
    LAYER_FORBIDDEN,
    LAYER_TOO_SLOW,
    LAYER_TOO_LATE,
    /* why none was started */
    LAYER_NOT_STARTED,
    LAYER_NO_SANDBOX,
    LAYER_NO_TIME,
    LAYER_TOO_LARGE,
    LAYER_NO_ROOM,
    LAYER_SHORT,
    LAYER_ASKED
} finding;

enum { MOST_SCANS = 200 };

/* MH, MR and MMR (coders 1, 2 and 4): one octet a sample, 1 where the mask is black. */
finding decode_fax(const coded_layer *layer, uint8_t *samples, uint32_t *rows);

/* JBIG as T.85 has it (coder 8), the same. */
finding decode_t85(const coded_layer *layer, uint8_t *samples, uint32_t *rows);

/* JPEG: the codes as they stand, three octets a sample or, where the layer is grey, one.  `memory`
 * bounds what libjpeg may take besides. */
finding decode_jpeg(const coded_layer *layer, uint8_t *samples, size_t memory, uint32_t *rows);

/* Called outside the sandbox, before a JPEG is decoded inside it: libjpeg asks what the processor
 * can when a thread first works with it, and on Arm it opens a file for that. */
void ready_jpeg(void);

/* A row of bits, the first in the highest place, into octets of 0 and 1. */
void spread_bits(const uint8_t *bits, uint32_t count, uint8_t *samples);

#endif
