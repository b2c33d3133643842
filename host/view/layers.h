/* The layers of a stripe, each read by its decoder or unread for a reason. */
#ifndef LAYERS_H
#define LAYERS_H

#include "book.h"
#include "decoders.h"

/* Seconds that are left, of the processor and by the clock.  The first count: they are the same
 * when others work on the machine.  The second only see to it that all comes to an end. */
typedef struct {
    double processor, clock;
} seconds;

/* Of what one decoder has, all of a page's have so much together, and lines are composed so long:
 * by itself no page keeps the viewer over a minute. */
static const double all_decoders = 2.5, all_lines = 4.5;

/* What was read of a stripe: the samples of each layer in a mapping of its own within one range of
 * addresses, and the plane list over them. */
typedef struct {
    uint8_t *samples;
    size_t octets;
    uint64_t held; /* octets of the samples themselves, as --memory counts them */
    uint8_t planes[SPIREROOK_LAYERS * SPIREROOK_PLANE_OCTETS];
    size_t planes_octets;
    finding found[SPIREROOK_LAYERS]; /* by layer, from layer 1; of uncoded ones LAYER_READ */
    int fault[SPIREROOK_LAYERS];     /* the system's, where a decoder was not started */
} stripe_layers;

/* Takes the time that decoders need from what is left. */
void read_layers(const options *asked, const book *opened, size_t stripe, seconds *left,
                 stripe_layers *read);

void free_layers(stripe_layers *read);

/* One line of each layer: what it is, and whether it was read.  With read NULL only the first, and
 * where its data stands. */
void tell_layers(const options *asked, const book *opened, size_t stripe,
                 const stripe_layers *read);

#endif
