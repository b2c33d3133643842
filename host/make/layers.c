#include "layers.h"

#include <stdlib.h>
#include <string.h>

#include "coders.h"
#include "picture_in.h"
#include "to_lab.h"

enum { MASK = 1, PAGE_LAYERS = 3 }; /* MASK: layer 2, counted from 0 */

typedef struct {
    const plan *from;
    coded_layers *made;
    trouble *what;
    lab_table known;
    uint32_t width; /* of the page; 0 while nothing tells it */
    unsigned width_line;
} layer_coder;

/* Sides that no mask will tell are missed before pictures are read. */
static bool has_sides(const plan *from, trouble *what)
{
    bool width = from->width != 0;
    for (unsigned k = 0; k < from->stripe_count; k++) {
        const plan_stripe *stripe = &from->stripes[k];
        bool mask = stripe->layers[MASK].path != NULL;
        width = width || mask;
        if (!mask && stripe->height == 0) {
            return tell_at(what, from->file, stripe->line,
                           "this stripe has no mask, so it needs a 'height'");
        }
    }
    return width || tell_at(what, from->file, 0,
                            "no stripe has a mask, so the plan needs the page's 'width'");
}

/* A page's own mask has its width and the stripe's height. */
static bool agrees(layer_coder *coder, const plan_stripe *stripe, const picture *mask)
{
    const char *file = coder->from->file;
    const plan_layer *layer = &stripe->layers[MASK];
    if (mask->width > SPIREROOK_WIDTH) {
        return tell_at(coder->what, file, layer->line,
                       "%s is %u samples wide; a page is at most %d", layer->name,
                       (unsigned)mask->width, SPIREROOK_WIDTH);
    }
    if (coder->width != 0 && mask->width != coder->width) {
        return tell_at(coder->what, file, layer->line,
                       "%s is %u samples wide, but the page is %u (line %u)", layer->name,
                       (unsigned)mask->width, (unsigned)coder->width, coder->width_line);
    }
    if (stripe->height != 0 && mask->height != stripe->height) {
        return tell_at(coder->what, file, layer->line,
                       "%s is %u samples high, but the stripe is %u (line %u)", layer->name,
                       (unsigned)mask->height, (unsigned)stripe->height, stripe->height_line);
    }
    coder->width_line = coder->width == 0 ? layer->line : coder->width_line;
    coder->width = mask->width;
    return true;
}

static bool code_mask(const picture *mask, const plan_layer *layer, octet_list *to, trouble *what)
{
    return layer->coder == CODER_T85 ? code_t85(mask, to, what)
                                     : code_fax(mask, layer->coder, to, what);
}

/* As the plan says, or the picture's kind where it says nothing. */
static bool is_grey(const picture *from, const plan_layer *layer)
{
    return from->use == AS_IMAGE &&
           (layer->kind == LIKE_PICTURE ? from->is_grey : layer->kind == GREY);
}

static bool code_image(layer_coder *coder, picture *image, const plan_layer *layer, octet_list *to,
                       trouble *what)
{
    const jpeg_wish wish = {layer->resolution, layer->quality, layer->progressive, layer->half,
                            is_grey(image, layer)};
    if (!turn_to_lab(&coder->known, image, what)) {
        return false;
    }
    if (wish.grey) {
        keep_lightness(image);
    }
    return code_jpeg(image, &wish, to, what);
}

/* Codes a picture into the list that its layer belongs to, and sets what the record has of it. */
static bool code_picture(layer_coder *coder, picture *from, const plan_layer *layer,
                         spirerook_record *record)
{
    trouble cause;
    octet_list *to = record->layer > PAGE_LAYERS ? &coder->made->pencil_data
                                                 : &coder->made->page_data;
    uint64_t start = to->length;
    bool done = from->use == AS_MASK ? code_mask(from, layer, to, &cause)
                                     : code_image(coder, from, layer, to, &cause);
    if (!done) {
        return tell_at(coder->what, coder->from->file, layer->line, "%s: %s", layer->name,
                       cause.text);
    }
    if (to->length > UINT32_MAX) {
        return tell_at(coder->what, coder->from->file, layer->line,
                       "%s: the coded layers have over 4 GiB", layer->name);
    }
    record->coder = from->use == AS_MASK ? layer->coder : CODER_JPEG;
    record->x = layer->x;
    record->y = layer->y;
    record->width = from->width;
    record->height = from->height;
    record->resolution = layer->resolution;
    record->start = (uint32_t)start;
    record->length = (uint32_t)(to->length - start);
    record->grey = is_grey(from, layer);
    return true;
}

static bool code_layer(layer_coder *coder, const plan_stripe *stripe, unsigned k,
                       spirerook_record *record)
{
    const plan_layer *layer = &stripe->layers[k];
    trouble cause;
    picture from;
    memcpy(record->base, layer->base, sizeof record->base);
    record->resolution = coder->from->resolution;
    if (layer->path == NULL) {
        return true;
    }
    if (!read_picture(layer->path, k % 2 == 1 ? AS_MASK : AS_IMAGE, &from, &cause)) {
        return tell_at(coder->what, coder->from->file, layer->line, "%s: %s", layer->name,
                       cause.text);
    }
    bool done = (k != MASK || agrees(coder, stripe, &from)) &&
                code_picture(coder, &from, layer, record);
    free_picture(&from);
    return done;
}

static bool code_stripes(layer_coder *coder)
{
    for (unsigned s = 0; s < coder->from->stripe_count; s++) {
        const plan_stripe *stripe = &coder->from->stripes[s];
        for (unsigned k = 0; k < stripe->layer_count; k++) {
            spirerook_record *record = &coder->made->records[s][k];
            record->stripe = s;
            record->layer = k + 1;
            if (!code_layer(coder, stripe, k, record)) {
                return false;
            }
        }
    }
    for (unsigned s = 0; s < coder->from->stripe_count; s++) {
        spirerook_record *mask = &coder->made->records[s][MASK];
        mask->width = coder->width;
        mask->height = mask->height == 0 ? coder->from->stripes[s].height : mask->height;
    }
    return true;
}

bool code_layers(const plan *from, coded_layers **made, trouble *what)
{
    *made = calloc(1, sizeof **made);
    if (*made == NULL) {
        return tell_no_memory(what);
    }
    layer_coder coder = {from, *made, what, {NULL}, from->width, from->width_line};
    bool done = has_sides(from, what) && code_stripes(&coder);
    free_table(&coder.known);
    return done;
}

void free_layers(coded_layers *made)
{
    if (made != NULL) {
        free_octets(&made->page_data);
        free_octets(&made->pencil_data);
        free(made);
    }
}

const char *coder_name(const spirerook_record *record)
{
    if (record->layer % 2 == 1) {
        return "JPEG";
    }
    return record->coder == CODER_MH    ? "MH"
           : record->coder == CODER_MR  ? "MR"
           : record->coder == CODER_MMR ? "MMR"
                                        : "T.85";
}
