/* Pictures of sRGB turned into pictures of CIELAB codes. */
#ifndef TO_LAB_H
#define TO_LAB_H

#include "picture_in.h"
#include "trouble.h"

/* The codes of each colour that was met, found once: pictures have more samples than colours. */
typedef struct {
    uint32_t *codes; /* null before the first picture */
} lab_table;

/* In place. */
bool turn_to_lab(lab_table *known, picture *image, trouble *what);

/* Of codes only the first of each sample, one octet a sample from then on; in place. */
void keep_lightness(picture *image);

void free_table(lab_table *known);

#endif
