#include "to_lab.h"

#include <stdlib.h>

#include "colour.h"

enum { COLOURS = 1 << 24, FOUND = 1 << 24 };

static uint32_t codes_of(const uint8_t *srgb)
{
    uint8_t lab[3];
    lab_of_srgb(srgb, lab);
    return FOUND | (uint32_t)lab[0] << 16 | (uint32_t)lab[1] << 8 | lab[2];
}

bool turn_to_lab(lab_table *known, picture *image, trouble *what)
{
    if (known->codes == NULL) {
        known->codes = calloc(COLOURS, sizeof *known->codes);
    }
    if (known->codes == NULL) {
        return tell_no_memory(what);
    }
    uint8_t *end = image->samples + image->row_octets * image->height;
    for (uint8_t *sample = image->samples; sample < end; sample += 3) {
        uint32_t *codes =
            &known->codes[(uint32_t)sample[0] << 16 | (uint32_t)sample[1] << 8 | sample[2]];
        if (*codes == 0) {
            *codes = codes_of(sample);
        }
        sample[0] = (uint8_t)(*codes >> 16 & 255);
        sample[1] = (uint8_t)(*codes >> 8 & 255);
        sample[2] = (uint8_t)(*codes & 255);
    }
    return true;
}

void keep_lightness(picture *image)
{
    size_t count = (size_t)image->width * image->height;
    for (size_t k = 1; k < count; k++) {
        image->samples[k] = image->samples[3 * k];
    }
    image->row_octets = image->width;
}

void free_table(lab_table *known)
{
    free(known->codes);
    known->codes = NULL;
}
