/* The sheet, read straight from the paper and nothing else.
 *
 * This is a yardstick for the proved library: it shares no code with it, is
 * written in the paper's words and takes its time.  Words in quotation marks
 * are the paper's own (section "The sheet" unless another one is named), or
 * those of request 2026-07, "Grey layers", where they speak of octet 17. */
#ifndef REFERENCE_SHEET_H
#define REFERENCE_SHEET_H

#include <stddef.h>
#include <stdint.h>

enum {
    RECORD_OCTETS = 28, /* "Records of 28 octets, no header" */
    DONE = 0,           /* "Numbers that a call returns": the work was done */
    BAD_SHEET = 14      /* "Numbers that a call returns": a sheet rule broken */
};

/* One record, its fields in the order of the paper's table. */
struct record {
    uint32_t stripe;
    uint32_t layer;
    uint32_t coder;
    uint32_t x;
    uint32_t y;
    uint32_t width;
    uint32_t height;
    uint32_t resolution;
    uint32_t colour[3];
    uint32_t grey; /* octet 17 */
    uint32_t start;
    uint32_t length;
    uint32_t zero_at_26;
};

/* The answer to a sheet: DONE with the records and stripes it has, or
 * BAD_SHEET with the number of the record at fault, from 0.  `rule` names the
 * rule that was broken, so that tests can count which ones they reach; where a
 * record breaks several, it is one of them. */
struct verdict {
    unsigned number;
    const char *rule;
    size_t place;
    size_t records;
    size_t stripes;
};

/* Record `number` of a sheet that has it whole. */
struct record sheet_record(const uint8_t *sheet, size_t number);

/* Judges a sheet of any length. */
struct verdict sheet_judge(const uint8_t *sheet, size_t octets);

#endif
