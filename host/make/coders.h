/* Coders of layers: a picture in, the octets that stand in a page out, added to a list. */
#ifndef CODERS_H
#define CODERS_H

#include <stdbool.h>
#include <stdint.h>

#include "octets.h"
#include "picture_in.h"
#include "trouble.h"

/* As a record has them. */
enum { CODER_MH = 1, CODER_MR = 2, CODER_MMR = 4, CODER_T85 = 8, CODER_JPEG = 1 };

typedef struct {
    uint32_t resolution; /* stands in the coded data */
    int quality;         /* 1 to 100 */
    bool progressive;
    bool half; /* the colour components have half the samples both ways */
    bool grey; /* one component, the lightness */
} jpeg_wish;

/* A mask, by MH, MR or MMR (T.4, T.6). */
bool code_fax(const picture *mask, uint32_t coder, octet_list *coded, trouble *what);

/* A mask, by JBIG as T.85 has it. */
bool code_t85(const picture *mask, octet_list *coded, trouble *what);

/* An image whose samples are CIELAB codes (T.42), or where it is grey lightness alone. */
bool code_jpeg(const picture *image, const jpeg_wish *wish, octet_list *coded, trouble *what);

#endif
