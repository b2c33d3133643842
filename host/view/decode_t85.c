/* T.85 through jbigkit, which hands out a row at a time and takes three rows of memory. */
#include "decoders.h"

#include <jbig85.h>
#include <stdlib.h>

typedef struct {
    const coded_layer *layer;
    uint8_t *samples;
    uint32_t rows;
    bool other_size;
} t85_rows;

/* Rows come in order; one that the record does not have stops the decoder. */
static int take_row(const struct jbg85_dec_state *decoder, unsigned char *bits, size_t octets,
                    unsigned long y, void *taken)
{
    t85_rows *rows = taken;
    const coded_layer *layer = rows->layer;
    if (jbg85_dec_getwidth(decoder) != layer->width || octets != (layer->width + 7) / 8 ||
        y != rows->rows || y >= layer->height) {
        rows->other_size = true;
        return 1;
    }
    spread_bits(bits, layer->width, rows->samples + (size_t)y * layer->width);
    rows->rows++;
    return 0;
}

/* The decoder waits for more until it is told that there is none. */
static int decode_all(struct jbg85_dec_state *decoder, const coded_layer *layer, size_t *taken)
{
    int answer = jbg85_dec_in(decoder, (unsigned char *)layer->octets, layer->length, taken);
    return answer == JBG_EAGAIN && *taken == layer->length ? jbg85_dec_end(decoder) : answer;
}

finding decode_t85(const coded_layer *layer, uint8_t *samples, uint32_t *delivered)
{
    t85_rows rows = {layer, samples, 0, false};
    struct jbg85_dec_state decoder;
    size_t room = (size_t)3 * ((layer->width + 7) / 8), taken = 0;
    uint8_t *memory = malloc(room);
    if (memory == NULL) {
        return LAYER_NO_MEMORY;
    }
    jbg85_dec_init(&decoder, memory, room, take_row, &rows);
    int answer = decode_all(&decoder, layer, &taken);
    free(memory);
    *delivered = rows.rows;
    bool sized = jbg85_dec_validwidth(&decoder);
    if (rows.other_size || (sized && (jbg85_dec_getwidth(&decoder) != layer->width ||
                                      (answer == JBG_EOK && rows.rows != layer->height)))) {
        return LAYER_OTHER_SIZE;
    }
    return answer == JBG_EOK && sized && taken == layer->length ? LAYER_READ : LAYER_DAMAGED;
}
