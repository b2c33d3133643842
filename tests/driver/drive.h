/* What the drivers of the calls share.  What is linked decides who answers: the library, or the
 * reference.
 *
 *   NAME many   any number of calls, each told by numbers of four octets: the lengths of the parts
 *               lent for reading, the room where the call has a buffer, and its own numbers; the
 *               parts follow
 *
 * The answer is a line, `done` and the octets of the result, which follow the line, or as the call
 * has it; or `refused`, the number and the place.  A line `.` follows.
 *
 * Each call is made two or three times.  The first time all that is lent ends where memory ends;
 * the second time it begins where memory begins, with a null pointer for no octets; the third time
 * it begins at odd places.  The buffer's content before differs each time.  What the paper says of
 * the answer and of all that is lent is looked at each time; a breach is printed in place of the
 * answer and begins with `broken`. */
#ifndef DRIVER_DRIVE_H
#define DRIVER_DRIVE_H

#include "answers.h"

enum { MOST_PARTS = 3, MOST_NUMBERS = 5 };

/* Octets to be lent for reading. */
struct part {
    const uint8_t *octets;
    size_t size;
};

/* A call as it is told. */
struct work {
    struct part parts[MOST_PARTS];
    size_t room; /* 0 where the call has no buffer */
    uint32_t numbers[MOST_NUMBERS];
};

/* What is lent to a call; null for no octets, one of the times. */
struct loan {
    const uint8_t *parts[MOST_PARTS];
    uint8_t *buffer;
};

/* What a call has for its own. */
struct driver {
    const char *name; /* of the program, for messages */
    size_t parts, numbers;
    bool has_buffer;
    size_t unit; /* octets of the buffer that a count of 1 owns */
    unsigned times;
    uint32_t gives; /* the numbers that it can give, a bit each */
    spirerook_part (*make)(const struct work *work, const struct loan *lent);
    /* the highest place that a refusal of this number can have */
    size_t (*most_place)(const struct work *work, uint32_t number);
    /* what else is wrong with Done and its result, or null; null: nothing can be */
    const char *(*bad_result)(const struct work *work, spirerook_part answer,
                              const uint8_t *result);
    /* prints Done; null: as above */
    void (*print)(const struct work *work, spirerook_part answer, const uint8_t *result);
};

/* The program: its exit status. */
int drive(const struct driver *driver, int arguments, char **words);

/* Whole records of a sheet that is lent first, for most_place: one more may be due. */
static inline size_t records_of(const struct work *work)
{
    return work->parts[0].size / SPIREROOK_RECORD_OCTETS;
}

#define GIVES(constant) (UINT32_C(1) << SPIREROOK_##constant)

#endif
