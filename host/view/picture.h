/* The picture that the viewer writes: a PNG of sRGB, row by row. */
#ifndef PICTURE_H
#define PICTURE_H

#include <stdbool.h>
#include <stdint.h>
#include <stdio.h>

typedef struct picture picture;

/* NULL where there is no memory, or the file cannot be written. */
picture *begin_picture(FILE *file, uint32_t width, uint32_t height, uint32_t resolution);

/* Three octets a pixel.  False where the file cannot be written; then only drop_picture may
 * follow. */
bool put_row(picture *picture, const uint8_t *row);

/* The end, with texts that tell how many pixels are unseen and, where they have a plain colour and
 * no pattern (else NULL), which.  Frees the picture. */
bool end_picture(picture *picture, uint64_t unseen, const uint8_t *colour);

void drop_picture(picture *picture);

#endif
