/* sRGB, as picture files and people have it, as CIELAB codes, as a page has them. */
#ifndef COLOUR_H
#define COLOUR_H

#include <stdbool.h>
#include <stdint.h>

/* RRGGBB, six hexadecimal digits; false where the text is anything else. */
bool srgb_of_digits(const char *text, uint8_t srgb[3]);

/* The nearest codes. */
void lab_of_srgb(const uint8_t srgb[3], uint8_t lab[3]);

#endif
