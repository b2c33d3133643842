// What is timed, in Rattle and in C. Both pack their answers in the same way:
//   judge         good: records * 65536 + stripes; bad: REFUSED + the record at fault
//   find_stripe   first record, layers, top and height of stripe k, sixteen bits each; 0 where
//     there is no such stripe
#ifndef BENCH_SHEET_H
#define BENCH_SHEET_H

#include "octets.h"

#define MOST_RECORDS 960
#define REFUSED 4294967296u

uint64_t bench_judge(const uint8_t *sheet, size_t octets);
uint64_t bench_find_stripe(const uint8_t *sheet, size_t octets, uint32_t k);

uint64_t c_judge(const uint8_t *sheet, size_t octets);
uint64_t c_find_stripe(const uint8_t *sheet, size_t octets, uint32_t k);

#endif
