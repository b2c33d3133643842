#include "decode.h"

void spread_bits(const uint8_t *bits, uint32_t count, uint8_t *samples)
{
    uint32_t whole = count / 8;
    for (uint32_t k = 0; k < whole; k++) {
        for (int bit = 0; bit < 8; bit++) {
            samples[8 * k + (uint32_t)bit] = bits[k] >> (7 - bit) & 1;
        }
    }
    for (uint32_t k = 8 * whole; k < count; k++) {
        samples[k] = bits[whole] >> (7 - k % 8) & 1;
    }
}

/* A layer, and the memory that its decoder may take. */
typedef struct {
    const coded_layer *layer;
    size_t memory;
} decoding;

static void decode_here(const void *about, uint8_t *samples, apart_report *report)
{
    const decoding *task = about;
    const coded_layer *layer = task->layer;
    report->found = !layer->mask        ? decode_jpeg(layer, samples, task->memory, &report->rows)
                    : layer->coder == 8 ? decode_t85(layer, samples, &report->rows)
                                        : decode_fax(layer, samples, &report->rows);
}

/* What a decoder may find; that all rows came is told twice. */
static finding told_by(const apart_report *report, uint32_t height)
{
    return report->found > LAYER_NO_MEMORY                         ? LAYER_BROKE_OFF
           : report->found == LAYER_READ && report->rows != height ? LAYER_BROKE_OFF
                                                                   : (finding)report->found;
}

finding decode_layer(const coded_layer *layer, const apart_bounds *bounds, apart_samples *samples)
{
    static const finding ends[] = {
        [APART_NOT_STARTED] = LAYER_NOT_STARTED, [APART_NO_SANDBOX] = LAYER_NO_SANDBOX,
        [APART_NO_ROOM] = LAYER_NO_ROOM,         [APART_FORBIDDEN] = LAYER_FORBIDDEN,
        [APART_BROKE_OFF] = LAYER_BROKE_OFF,     [APART_TOO_SLOW] = LAYER_TOO_SLOW,
        [APART_TOO_LATE] = LAYER_TOO_LATE};
    decoding task = {layer, bounds->memory};
    size_t octets = sample_octets(layer) * layer->width * layer->height;
    apart_report report;
    if (!layer->mask) {
        ready_jpeg();
    }
    apart_end end = do_apart(decode_here, &task, bounds, octets, samples, &report);
    finding found = end == APART_DONE ? told_by(&report, layer->height) : ends[end];
    if (end == APART_DONE && found != LAYER_READ) {
        drop_samples(samples);
    }
    return found;
}
