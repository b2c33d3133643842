// A band of pixels composed in C, for the same answers and octets as spirerook_band; and one line of
// it by the same code, for those of spirerook_line_unseen.
#ifndef BENCH_BAND_H
#define BENCH_BAND_H

#include "line.h"

typedef spirerook_answer band_composer(const uint8_t *sheet, size_t sheet_len,
                                       const uint8_t *planes, size_t planes_len,
                                       const uint8_t *samples, size_t samples_len, uint32_t stripe,
                                       uint8_t u0, uint8_t u1, uint8_t u2, uint8_t *out,
                                       size_t out_len);

band_composer c_band;
composer c_band_line;

#endif
