/* A layer read by its decoder in a process apart. */
#ifndef DECODE_H
#define DECODE_H

#include "apart.h"
#include "decoders.h"

/* Read only where the decoder's own report says so and tells of all rows; only then are there
 * samples. */
finding decode_layer(const coded_layer *layer, const apart_bounds *bounds, apart_samples *samples);

#endif
