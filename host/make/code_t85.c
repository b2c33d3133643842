/* JBIG by jbigkit, with the options that T.85 has as its basic ones: 128 lines a stripe, typical
 * prediction, one plane, one layer. */
#include <stdlib.h>

#include <jbig85.h>

#include "coders.h"

enum { LINES_A_STRIPE = 128, MOST_SHIFT = 8 };

typedef struct {
    octet_list *coded;
    bool failed;
} t85_output;

static void take_octets(unsigned char *octets, size_t count, void *to)
{
    t85_output *output = to;
    output->failed = output->failed || !add_octets(output->coded, octets, count);
}

bool code_t85(const picture *mask, octet_list *coded, trouble *what)
{
    t85_output output = {coded, false};
    struct jbg85_enc_state coder;
    uint8_t *white = calloc(1, mask->row_octets);
    if (white == NULL) {
        return tell_no_memory(what);
    }
    jbg85_enc_init(&coder, mask->width, mask->height, take_octets, &output);
    jbg85_enc_options(&coder, JBG_TPBON, LINES_A_STRIPE, MOST_SHIFT);
    for (uint32_t y = 0; y < mask->height && !output.failed; y++) {
        uint8_t *row = mask->samples + y * mask->row_octets;
        uint8_t *above = y < 1 ? white : row - mask->row_octets;
        uint8_t *second = y < 2 ? white : above - mask->row_octets;
        jbg85_enc_lineout(&coder, row, above, second);
    }
    free(white);
    return !output.failed || tell_no_memory(what);
}
