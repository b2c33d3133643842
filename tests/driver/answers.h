/* Answers of all calls in one form: that of coded data, which has the most fields. */
#ifndef DRIVER_ANSWERS_H
#define DRIVER_ANSWERS_H

#include "spirerook.h"

#include <stdbool.h>

static inline spirerook_part as_part(spirerook_answer answer)
{
    spirerook_part part = {answer.number, answer.place, answer.count, 0, 0};
    return part;
}

static inline bool is_same_answer(spirerook_part one, spirerook_part other)
{
    return one.number == other.number && one.place == other.place && one.count == other.count &&
           one.source == other.source && one.start == other.start;
}

#endif
