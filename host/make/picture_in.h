/* Pictures from PNG and PNM files, as samples that a coder takes. */
#ifndef PICTURE_IN_H
#define PICTURE_IN_H

#include <stdbool.h>
#include <stddef.h>
#include <stdint.h>

#include "trouble.h"

enum { PICTURE_SIDE = 65535 }; /* samples, at most: a record has two octets for each */

/* Of a mask a sample is a bit, 1 where the picture is nearer black than white, the first of a row
 * in the highest bit and the last octet filled up with 0; of an image three octets of sRGB. */
typedef enum { AS_MASK, AS_IMAGE } picture_use;

typedef struct {
    picture_use use;
    bool is_grey; /* the file is of a kind that holds no colours */
    uint32_t width, height;
    size_t row_octets;
    uint8_t *samples; /* row by row */
} picture;

/* The samples are the caller's to free, by free_picture; where it fails there are none. */
bool read_picture(const char *name, picture_use use, picture *made, trouble *what);

void free_picture(picture *made);

/* From now on PNG files are read without a sandbox, for systems that have none. */
void do_without_sandbox(void);

/* ---- For the readers of the kinds of files ---- */

/* Judges the sides, and tells the octets of a row. */
bool size_picture(picture *made, picture_use use, uint64_t width, uint64_t height, trouble *what);

/* And gets memory for the samples, all 0. */
bool begin_picture(picture *made, picture_use use, uint64_t width, uint64_t height, trouble *what);

/* Row y from its sRGB octets, three a sample. */
void put_row(picture *made, uint32_t y, const uint8_t *srgb);

bool read_png(const uint8_t *octets, size_t length, picture_use use, picture *made, trouble *what);

bool read_pnm(const uint8_t *octets, size_t length, picture_use use, picture *made, trouble *what);

#endif
