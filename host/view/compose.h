/* The lines of a stripe, composed by the library: all at once, as a band, where the memory allowed
 * and the time left have room for that, else one by one. */
#ifndef COMPOSE_H
#define COMPOSE_H

#include "layers.h"

typedef struct {
    const options *asked;
    const book *opened;
    size_t line_octets;
    uint8_t *room[2];             /* two lines, for what is composed one by one */
    const uint8_t *line, *before; /* the last line handed out and the one before it, or null */
    const stripe_layers *read;    /* of the stripe at hand */
    size_t stripe;
    uint32_t next; /* its first line that was not handed out */
    uint8_t *band; /* null where its lines come one by one */
    size_t band_octets;
    size_t bands; /* stripes that had one */
} composer;

/* False where there is not enough memory. */
bool begin_composer(composer *c, const options *asked, const book *opened, uint32_t width);

void end_composer(composer *c);

/* A stripe whose layers are read; so much time is left for its lines.  They are composed here where
 * they come as a band. */
spirerook_answer begin_lines(composer *c, size_t stripe, const stripe_layers *read, seconds left);

/* The next line of the stripe: `line`, and what that was is `before`. */
spirerook_answer next_line(composer *c);

/* Gives the band back, so that none is held while layers are decoded. */
void end_lines(composer *c);

#endif
