// A line of pixels composed in C, for the same answers and lines as spirerook_line_unseen. The two
// differ in what is done once a line: the first does all of the paper's rule for each layer of each
// pixel; the second finds each layer's row of samples first, and goes from the highest pair down.
#ifndef BENCH_LINE_H
#define BENCH_LINE_H

#include "octets.h"
#include "spirerook.h"

typedef spirerook_answer composer(const uint8_t *sheet, size_t sheet_len, const uint8_t *planes,
                                  size_t planes_len, const uint8_t *samples, size_t samples_len,
                                  uint32_t stripe, uint32_t line, uint8_t u0, uint8_t u1,
                                  uint8_t u2, uint8_t *out, size_t out_len);

composer c_line, c_line_by_rows;

#endif
