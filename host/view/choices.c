#include "choices.h"

#include <stdio.h>
#include <string.h>

#include "lines.h"

enum { INPUTS = 4 }; /* the page, the sheet, its side file and the pencil file */

static int bad_choice(const char *option, size_t stripe, size_t layer, const char *what)
{
    char chosen[48];
    int count = snprintf(chosen, sizeof chosen, "%zu", stripe);
    if (layer != 0) {
        snprintf(chosen + count, sizeof chosen - (size_t)count, ":%zu", layer);
    }
    complain("spirerook-view: %s %s: %s", option, chosen, what);
    return STATUS_BAD_OPTION;
}

/* Whether lines would be written into what is read. */
static int check_lines(const char *const *inputs)
{
    for (size_t k = 0; k < INPUTS; k++) {
        const char *standard = inputs[k] == NULL ? NULL : standard_file(inputs[k]);
        if (standard != NULL && strcmp(standard, "standard output") == 0) {
            complain("spirerook-view: %s: it is read, and standard output would be written into it",
                     inputs[k]);
            return STATUS_BAD_OPTION;
        }
    }
    return STATUS_WHOLE;
}

/* Whether the picture would be written over what is read, over what is told, or over a sheet that
 * was left out. */
static int check_place(const options *asked, const char *const *inputs, const pencil_source *source)
{
    const char *what = standard_file(asked->out);
    for (size_t k = 0; what == NULL && k < INPUTS; k++) {
        if (inputs[k] != NULL && same_file(asked->out, inputs[k])) {
            what = "what is read";
        }
    }
    for (size_t k = 0; what == NULL && k < source->beside_count; k++) {
        if (same_file(asked->out, source->beside[k])) {
            what = "the page's sheet";
        }
    }
    if (what != NULL) {
        complain("spirerook-view: -o %s: the picture would take the place of %s", asked->out, what);
        return STATUS_BAD_OPTION;
    }
    return STATUS_WHOLE;
}

static int check_unread(const options *asked, const book *opened)
{
    for (size_t stripe = 0; stripe < SPIREROOK_STRIPES; stripe++) {
        for (size_t layer = 1; layer <= SPIREROOK_LAYERS; layer++) {
            if (!asked->unread[stripe][layer]) {
                continue;
            }
            if (stripe >= opened->stripes) {
                return bad_choice("--unread", stripe, layer, "the page has no such stripe");
            }
            if (layer > opened->first[stripe + 1] - opened->first[stripe]) {
                return bad_choice("--unread", stripe, layer, "the stripe has no such layer");
            }
            if (!spirerook_record_coded(
                    spirerook_record_at(opened->sheet, opened->first[stripe] + layer - 1))) {
                return bad_choice("--unread", stripe, layer,
                                  "the layer is not coded, so nothing of it is read");
            }
        }
    }
    return STATUS_WHOLE;
}

int check_choices(const options *asked, const book *opened)
{
    if (asked->one_stripe && asked->stripe >= opened->stripes) {
        return bad_choice("--stripe", asked->stripe, 0, "the page has no such stripe");
    }
    const pencil_source *source = &opened->source;
    const char *inputs[INPUTS] = {asked->page, source->sheet, source->file, source->side};
    int status = check_lines(inputs);
    if (status == STATUS_WHOLE && asked->out != NULL) {
        status = check_place(asked, inputs, source);
    }
    return status == STATUS_WHOLE ? check_unread(asked, opened) : status;
}
