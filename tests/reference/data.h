/* Where the coded data of a layer stands, straight from the paper and nothing
 * else.
 *
 * This is a yardstick for the proved library: it shares no code with it, is
 * written in the paper's words and order and takes its time.  Words in
 * quotation marks are the paper's own. */
#ifndef REFERENCE_DATA_H
#define REFERENCE_DATA_H

#include "page.h"

/* What a call for coded data is lent, and which layer it names.  Of "the page"
 * and "the pencil file" only the lengths matter: "never a copy". */
struct reference_data_call {
    const uint8_t *sheet;
    size_t sheet_octets;
    size_t page_octets;
    size_t pencil_octets;
    uint32_t stripe, layer;
};

/* "returns ... the length of the part handed out": it stands in the page
 * (source 0) or in the pencil file (source 1), from its start on.  "Data of an
 * uncoded layer, or refused, is an empty part": one that stands at 0 of the
 * page. */
struct reference_part {
    struct reference_answer answer;
    unsigned source, start;
};

struct reference_part reference_data(const struct reference_data_call *call);

#endif
