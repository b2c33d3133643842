/* Makes calls that are lent more octets than four octets count, through
 * include/spirerook.h.
 *
 *   far many   any number of calls, each behind fourteen numbers of eight octets:
 *              which call (any_call.h), the lengths of the three parts lent for
 *              reading, how many octets of each are told, the room, how many
 *              octets of the buffer are shown, and the five numbers that a call
 *              may be told; the octets told behind
 *
 * All octets that are not told are 0, those of the buffer too; only those that
 * somebody touches take memory.  The answer is a line: number, place, count,
 * source and start, and the first octets of the buffer in hexadecimal; or `no
 * memory`, where the machine lends none. */
#define _DEFAULT_SOURCE
#include "any_call.h"
#include "console.h"
#include "told.h"

#include <inttypes.h>
#include <stdbool.h>
#include <stdio.h>
#include <string.h>
#include <sys/mman.h>

enum { NUMBERS = 9 + CALL_NUMBERS, LENT = CALL_PARTS + 1 };

struct call {
    struct any_call any;
    const uint8_t *told[CALL_PARTS]; /* the first octets of each part */
    uint64_t told_sizes[CALL_PARTS], shown;
};

static void print_answer(const struct call *call, spirerook_part part, const uint8_t *out)
{
    printf("%" PRIu32 " %" PRIu32 " %" PRIu64 " %" PRIu32 " %" PRIu32 " ", part.number, part.place,
           part.count, part.source, part.start);
    for (uint64_t k = 0; k < call->shown; k++) {
        printf("%02x", (unsigned)out[k]);
    }
    putchar('\n');
}

/* False: the machine lends no memory. */
static bool far_one(struct call *call)
{
    uint8_t *lent[LENT] = {NULL, NULL, NULL, NULL};
    size_t sizes[LENT] = {call->any.sizes[0], call->any.sizes[1], call->any.sizes[2],
                          call->any.room};
    bool enough = true;
    for (size_t k = 0; k < LENT && enough; k++) {
        lent[k] = mmap(NULL, sizes[k] + 1, PROT_READ | PROT_WRITE,
                       MAP_PRIVATE | MAP_ANONYMOUS | MAP_NORESERVE, -1, 0);
        enough = lent[k] != MAP_FAILED;
        if (enough && k < CALL_PARTS) {
            memcpy(lent[k], call->told[k], call->told_sizes[k]);
            call->any.parts[k] = lent[k];
        }
    }
    if (enough) {
        print_answer(call, make_call(&call->any, lent[CALL_PARTS]), lent[CALL_PARTS]);
    }
    for (size_t k = 0; k < LENT; k++) {
        if (lent[k] != NULL && lent[k] != MAP_FAILED) {
            munmap(lent[k], sizes[k] + 1);
        }
    }
    return enough;
}

/* False: the numbers do not fit each other, or what is left of the input. */
static bool take_call(struct told *told, const uint64_t n[NUMBERS], struct call *call)
{
    struct any_call any = {.which = n[0], .sizes = {n[1], n[2], n[3]}, .room = n[7]};
    take_call_numbers(&any, n + 9);
    call->any = any;
    call->shown = n[8];
    for (size_t k = 0; k < CALL_PARTS; k++) {
        call->told_sizes[k] = n[4 + k];
        call->told[k] = take_octets(told, n[4 + k]);
        if (n[4 + k] > any.sizes[k] || call->told[k] == NULL) {
            return false;
        }
    }
    return any.which < CALL_COUNT && call->shown <= any.room;
}

static bool far_many(const uint8_t *input, size_t octets)
{
    struct told told = {input, octets};
    uint64_t numbers[NUMBERS];
    while (take_numbers(&told, 8, numbers, NUMBERS)) {
        struct call call;
        if (!take_call(&told, numbers, &call)) {
            return false;
        }
        if (!far_one(&call)) {
            puts("no memory");
        }
        fflush(stdout); /* where the next call ends it, this one is told */
    }
    return told.size == 0;
}

int main(int arguments, char **words)
{
    return run_many(arguments, words, "far", far_many);
}
