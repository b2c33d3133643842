#include "notes.h"

#include <stdlib.h>

#include "lines.h"
#include "spirerook_colour.h"

/* A step or two are the rounding of codes; MASK is layer 2, counted from 0, which has the sides. */
enum { STEPS = 2, MASK = 1 };

static void note_colour(const plan *from, const plan_layer *layer)
{
    const uint8_t *given = layer->srgb;
    uint8_t shown[3];
    int most = 0;
    spirerook_lab_to_srgb(layer->base, shown);
    for (int k = 0; k < 3; k++) {
        int steps = abs(shown[k] - given[k]);
        most = steps > most ? steps : most;
    }
    if (most > STEPS) {
        say_line("note: %s:%u: base %02X%02X%02X is shown as %02X%02X%02X: CIELAB codes hold no "
                 "nearer colour",
                 from->file, layer->line, given[0], given[1], given[2], shown[0], shown[1],
                 shown[2]);
    }
}

/* How many pixels a side of a layer passes the end of the stripe's. */
static uint64_t passes(uint32_t offset, uint32_t samples, uint32_t pixels_a_sample, uint32_t side)
{
    uint64_t end = offset + (uint64_t)samples * pixels_a_sample;
    return end > side ? end - side : 0;
}

static const char *pixels(uint64_t count)
{
    return count == 1 ? "pixel" : "pixels";
}

static void note_place(const plan *from, const plan_layer *layer, const spirerook_record *record,
                       const spirerook_record *mask)
{
    uint32_t each = mask->resolution / record->resolution;
    uint64_t right = passes(record->x, record->width, each, mask->width),
             below = passes(record->y, record->height, each, mask->height);
    if (right == 0 && below == 0) {
        return;
    }
    add_words("note: %s:%u: %s ", from->file, layer->line, layer->name);
    if (record->x >= mask->width || record->y >= mask->height) {
        say_line("lies outside its stripe: nothing of it is shown");
        return;
    }
    if (right > 0) {
        add_words("reaches %ju %s beyond the stripe's right edge", (uintmax_t)right, pixels(right));
    }
    if (below > 0 && right > 0) {
        add_words(" and %ju below it", (uintmax_t)below);
    } else if (below > 0) {
        add_words("reaches %ju %s below the stripe", (uintmax_t)below, pixels(below));
    }
    say_line("; %s not shown", right + below == 1 ? "it is" : "they are");
}

void say_notes(const plan *from, const coded_layers *layers)
{
    for (unsigned s = 0; s < from->stripe_count; s++) {
        for (unsigned k = 0; k < from->stripes[s].layer_count; k++) {
            const plan_layer *layer = &from->stripes[s].layers[k];
            if (layer->is_srgb) {
                note_colour(from, layer);
            }
            if (layer->path != NULL) {
                note_place(from, layer, &layers->records[s][k], &layers->records[s][MASK]);
            }
        }
    }
}
