#include "plan.h"

#include <stdlib.h>
#include <string.h>

#include "coders.h"
#include "file.h"

enum { MOST_PLAN = 1 << 20, PAGE_LAYERS = 3, USUAL_QUALITY = 90 };

static const uint8_t white[3] = {255, 128, 96}, black[3] = {0, 128, 96};

static plan_stripe *last_stripe(plan *made)
{
    return made->stripe_count == 0 ? NULL : &made->stripes[made->stripe_count - 1];
}

static bool misses_image(const plan_stripe *stripe)
{
    return stripe->layer_count > PAGE_LAYERS && stripe->layers[stripe->layer_count - 1].line == 0;
}

/* What only the end of a stripe's lines can tell. */
static bool end_stripe(plan *made, trouble *what)
{
    plan_stripe *stripe = last_stripe(made);
    return stripe == NULL || !misses_image(stripe) ||
           tell_at(what, made->file, stripe->layers[stripe->layer_count - 2].line,
                   "this pencil-mask has no pencil-image behind it");
}

static void set_usual(const plan *made, plan_stripe *stripe)
{
    for (unsigned k = 0; k < SPIREROOK_LAYERS; k++) {
        plan_layer *layer = &stripe->layers[k];
        layer->coder = made->coder;
        layer->resolution = made->resolution;
        layer->quality = USUAL_QUALITY;
        if (k % 2 == 0) {
            memcpy(layer->base, k == 0 ? white : black, sizeof layer->base);
        }
    }
}

static bool begin_stripe(plan *made, plan_line *line)
{
    if (!end_stripe(made, line->what) || !ends_here(line)) {
        return false;
    }
    if (made->resolution == 0) {
        return wrong(line, "the page's 'resolution' must stand before the first stripe");
    }
    if (made->stripe_count == SPIREROOK_STRIPES) {
        return wrong(line, "a page has at most %d stripes", SPIREROOK_STRIPES);
    }
    made->coder = made->coder == 0 ? CODER_MMR : made->coder;
    plan_stripe *stripe = &made->stripes[made->stripe_count++];
    stripe->line = line->number;
    stripe->layer_count = PAGE_LAYERS;
    set_usual(made, stripe);
    return true;
}

static bool page_key(plan *made, plan_line *line, const char *key)
{
    bool resolution = strcmp(key, "resolution") == 0, coder = strcmp(key, "coder") == 0;
    if (made->stripe_count > 0) {
        return wrong(line, "the page's '%s' must stand before the first stripe", key);
    }
    if ((resolution ? made->resolution : coder ? made->coder : made->width) != 0) {
        return wrong(line, "'%s' is given twice", key);
    }
    made->width_line = resolution || coder ? made->width_line : line->number;
    bool taken = resolution ? take_resolution(line, &made->resolution)
                 : coder    ? take_coder(line, &made->coder)
                            : take_number(line, key, 1, SPIREROOK_WIDTH, &made->width);
    return taken && ends_here(line);
}

static bool take_height(plan_stripe *stripe, plan_line *line)
{
    if (stripe->height != 0) {
        return wrong(line, "'height' is given twice in this stripe");
    }
    stripe->height_line = line->number;
    return take_number(line, "height", 1, SPIREROOK_HEIGHT, &stripe->height) && ends_here(line);
}

static bool pencil_key(const plan *made, plan_stripe *stripe, plan_line *line, bool is_mask)
{
    if (!is_mask) {
        return misses_image(stripe)
                   ? take_layer(made, line, stripe->layer_count,
                                &stripe->layers[stripe->layer_count - 1])
                   : wrong(line, "a 'pencil-image' must stand behind its 'pencil-mask'");
    }
    if (misses_image(stripe)) {
        return wrong(line, "the 'pencil-mask' of line %u has no 'pencil-image' yet",
                     stripe->layers[stripe->layer_count - 2].line);
    }
    if (stripe->layer_count == SPIREROOK_LAYERS) {
        return wrong(line, "a stripe has at most %d pairs of pencil layers",
                     (SPIREROOK_LAYERS - PAGE_LAYERS) / 2);
    }
    stripe->layer_count += 2;
    return take_layer(made, line, stripe->layer_count - 1,
                      &stripe->layers[stripe->layer_count - 2]);
}

static bool stripe_key(const plan *made, plan_stripe *stripe, plan_line *line, const char *key)
{
    static const char *const names[PAGE_LAYERS] = {"background", "mask", "foreground"};
    if (strcmp(key, "height") == 0) {
        return take_height(stripe, line);
    }
    for (unsigned k = 0; k < PAGE_LAYERS; k++) {
        if (strcmp(key, names[k]) == 0) {
            return stripe->layers[k].line == 0
                       ? take_layer(made, line, k + 1, &stripe->layers[k])
                       : wrong(line, "'%s' is given twice in this stripe", key);
        }
    }
    return pencil_key(made, stripe, line, strcmp(key, "pencil-mask") == 0);
}

static bool is_one_of(const char *word, const char *const *words)
{
    while (*words != NULL && strcmp(word, *words) != 0) {
        words++;
    }
    return *words != NULL;
}

static bool take_line(plan *made, plan_line *line)
{
    static const char *const page_keys[] = {"resolution", "coder", "width", NULL};
    static const char *const stripe_keys[] = {"height",      "background",   "mask", "foreground",
                                              "pencil-mask", "pencil-image", NULL};
    const plan_word *word = next_word(line);
    if (word == NULL) {
        return true;
    }
    const char *key = word->text;
    if (strcmp(key, "stripe") == 0) {
        return begin_stripe(made, line);
    }
    if (is_one_of(key, page_keys)) {
        return page_key(made, line, key);
    }
    if (!is_one_of(key, stripe_keys)) {
        return wrong(line, "unknown word '%s'", key);
    }
    return made->stripe_count > 0 ? stripe_key(made, last_stripe(made), line, key)
                                  : wrong(line, "'%s' stands before the first 'stripe'", key);
}

/* The text ends in an octet 0. */
static bool take_lines(plan *made, char *text, trouble *what)
{
    plan_line line = {.plan = made->file, .what = what};
    for (char *next = text; next != NULL; text = next) {
        next = strchr(text, '\n');
        if (next != NULL) {
            *next++ = '\0';
        }
        line.number++;
        if (!split_line(&line, text) || !take_line(made, &line)) {
            return false;
        }
    }
    if (made->stripe_count == 0) {
        return tell_at(what, made->file, 0, "the plan has no 'stripe'");
    }
    return end_stripe(made, what);
}

bool read_plan(const char *name, plan **made, trouble *what)
{
    whole_file file;
    *made = calloc(1, sizeof **made);
    if (*made == NULL) {
        return tell_no_memory(what);
    }
    (*made)->file = name;
    const char *why = read_file(name, MOST_PLAN, &file);
    if (why != NULL) {
        return tell_at(what, name, 0, "%s", why);
    }
    bool done = file.length < MOST_PLAN ||
                tell_at(what, name, 0, "a plan has less than %d octets", MOST_PLAN);
    if (done && file.length > 0 && memchr(file.octets, 0, file.length) != NULL) {
        done = tell_at(what, name, 0, "this is no text: it has an octet 0");
    }
    char *text = done ? realloc(file.octets, file.length + 1) : NULL;
    if (text == NULL) {
        free(file.octets);
        return done ? tell_no_memory(what) : false;
    }
    text[file.length] = '\0';
    done = take_lines(*made, text, what);
    free(text);
    return done;
}

void free_plan(plan *made)
{
    for (unsigned k = 0; made != NULL && k < SPIREROOK_STRIPES * SPIREROOK_LAYERS; k++) {
        plan_layer *layer = &made->stripes[k / SPIREROOK_LAYERS].layers[k % SPIREROOK_LAYERS];
        free(layer->name);
        free(layer->path);
    }
    free(made);
}

bool has_pencil(const plan *made)
{
    for (unsigned k = 0; k < made->stripe_count; k++) {
        if (made->stripes[k].layer_count > PAGE_LAYERS) {
            return true;
        }
    }
    return false;
}
