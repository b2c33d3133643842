/* The line of a layer. */
#include <stdlib.h>
#include <string.h>

#include "colour.h"
#include "names.h"
#include "plan.h"

enum {
    RESOLUTION = 1,
    AT = 2,
    COLOUR = 4,
    QUALITY = 8,
    PROGRESSIVE = 16,
    HALF = 32,
    CODER = 64,
    KIND = 128
};
enum {
    OF_IMAGE = RESOLUTION | AT | COLOUR | QUALITY | PROGRESSIVE | HALF | KIND,
    OF_PENCIL_MASK = CODER | RESOLUTION | AT,
    OF_MASK = 0
};
enum { MOST_OFFSET = 65535 };

static const struct {
    const char *name;
    int option;
} options[] = {{"resolution", RESOLUTION},
               {"at", AT},
               {"base", COLOUR},
               {"lab", COLOUR},
               {"quality", QUALITY},
               {"progressive", PROGRESSIVE},
               {"half", HALF},
               {"grey", KIND},
               {"coloured", KIND},
               {"coder", CODER}};

static int options_of(unsigned layer_number)
{
    return layer_number % 2 == 1 ? OF_IMAGE : layer_number == 2 ? OF_MASK : OF_PENCIL_MASK;
}

static bool take_quality(plan_line *line, int *quality)
{
    uint32_t number;
    if (!take_number(line, "quality", 1, 100, &number)) {
        return false;
    }
    *quality = (int)number;
    return true;
}

static bool take_base(plan_line *line, plan_layer *layer)
{
    layer->is_srgb = take_srgb(line, layer->srgb);
    lab_of_srgb(layer->srgb, layer->base);
    return layer->is_srgb;
}

static bool take_option(plan_line *line, const char *name, int option, plan_layer *layer)
{
    switch (option) {
    case RESOLUTION: return take_resolution(line, &layer->resolution);
    case AT:
        return take_number(line, "at", 0, MOST_OFFSET, &layer->x) &&
               take_number(line, "at", 0, MOST_OFFSET, &layer->y);
    case COLOUR:
        return strcmp(name, "lab") == 0 ? take_lab(line, layer->base) : take_base(line, layer);
    case QUALITY: return take_quality(line, &layer->quality);
    case PROGRESSIVE: return layer->progressive = true;
    case HALF: return layer->half = true;
    case KIND: layer->kind = strcmp(name, "grey") == 0 ? GREY : COLOURED; return true;
    default: return take_coder(line, &layer->coder);
    }
}

static int option_of(const char *name)
{
    for (size_t k = 0; k < sizeof options / sizeof *options; k++) {
        if (strcmp(options[k].name, name) == 0) {
            return options[k].option;
        }
    }
    return 0;
}

static bool take_options(plan_line *line, int allowed, plan_layer *layer)
{
    int seen = 0;
    const char *key = line->words[0].text;
    for (const plan_word *word = next_word(line); word != NULL; word = next_word(line)) {
        int option = option_of(word->text);
        if (option == 0) {
            return allowed == 0 ? wrong(line, "'%s' is a word too many", word->text)
                                : wrong(line, "unknown word '%s'", word->text);
        }
        if ((option & allowed) == 0) {
            return wrong(line, "'%s' has no '%s'", key, word->text);
        }
        if ((option & seen) != 0) {
            return wrong(line,
                         option == COLOUR ? "a base colour is given twice ('%s')"
                         : option == KIND ? "grey or coloured is given twice ('%s')"
                                          : "'%s' is given twice",
                         word->text);
        }
        seen |= option;
        if (!take_option(line, word->text, option, layer)) {
            return false;
        }
    }
    return true;
}

static bool take_picture(const plan *made, plan_line *line, plan_layer *layer)
{
    const plan_word *word = next_word(line);
    if (word == NULL) {
        return wrong(line, "'%s' needs a file name, or none", line->words[0].text);
    }
    if (strcmp(word->text, "none") == 0 && !word->quoted) {
        return true;
    }
    if (word->text[0] == '\0') {
        return wrong(line, "the file name has no letters");
    }
    layer->name = strdup(word->text);
    layer->path = beside(made->file, word->text); /* the plan's folder counts */
    return (layer->name != NULL && layer->path != NULL) ||
           wrong(line, "there is not enough memory");
}

/* The library would refuse it too, but at the stripe's layer 2. */
static bool divides(const plan *made, plan_line *line, const plan_layer *layer)
{
    return layer->path == NULL || made->resolution % layer->resolution == 0 ||
           wrong(line, "a resolution of %u does not divide the page's %u",
                 (unsigned)layer->resolution, (unsigned)made->resolution);
}

bool take_layer(const plan *made, plan_line *line, unsigned layer_number, plan_layer *layer)
{
    layer->line = line->number;
    return take_picture(made, line, layer) && take_options(line, options_of(layer_number), layer) &&
           divides(made, line, layer);
}
