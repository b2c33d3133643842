/* Composes lines out of more samples than four octets count, through
 * include/spirerook.h.  What is linked decides who composes.
 *
 *   line_far many   any number of calls, each behind eleven numbers of eight
 *                   octets: which call (any_call.h), the lengths of the sheet,
 *                   of the plane list and of the samples, the room, how many
 *                   samples are told, and the five numbers that a call may be
 *                   told; then the sheet, the plane list, and each sample told
 *                   as eight octets of its place and one of its value
 *
 * All other samples are 0.  The samples end where memory ends; only those that
 * somebody touches take memory.  The answer is told as line.c tells it; a line
 * `no memory` stands for one where the machine lends none. */
#define _DEFAULT_SOURCE
#include "any_call.h"
#include "console.h"
#include "told.h"

#include <stdbool.h>
#include <stdio.h>
#include <stdlib.h>
#include <string.h>
#include <sys/mman.h>
#include <unistd.h>

enum { NUMBERS = 6 + CALL_NUMBERS, SAMPLES = 2, TOLD = 9 };

struct call {
    struct any_call any;
    struct told told; /* the samples told */
};

static void put_told(const struct call *call, uint8_t *samples)
{
    struct told told = call->told;
    uint64_t place;
    while (take_numbers(&told, 8, &place, 1)) {
        samples[place] = *take_octets(&told, 1);
    }
}

static void compose(const struct any_call *any, uint8_t *out)
{
    spirerook_part answer = make_call(any, out);
    if (answer.number != SPIREROOK_DONE || answer.count > any->room) {
        printf("refused %u %u\n", (unsigned)answer.number, (unsigned)answer.place);
    } else {
        printf("done %zu\n", (size_t)answer.count);
        fwrite(out, 1, (size_t)answer.count, stdout);
    }
}

/* False: the machine lends no memory. */
static bool line_one(struct call *call)
{
    uint64_t edge = (uint64_t)sysconf(_SC_PAGESIZE);
    uint64_t inner = (call->any.sizes[SAMPLES] / edge + 1) * edge;
    uint8_t *out = malloc(call->any.room + 1);
    uint8_t *all = mmap(NULL, inner + edge, PROT_NONE, MAP_PRIVATE | MAP_ANONYMOUS | MAP_NORESERVE,
                        -1, 0);
    bool lent = out != NULL && all != MAP_FAILED &&
                mprotect(all, inner, PROT_READ | PROT_WRITE) == 0;
    if (lent) {
        uint8_t *samples = all + (inner - call->any.sizes[SAMPLES]);
        put_told(call, samples);
        call->any.parts[SAMPLES] = samples;
        compose(&call->any, out);
    }
    if (all != MAP_FAILED) {
        munmap(all, inner + edge);
    }
    free(out);
    return lent;
}

static bool line_many(const uint8_t *input, size_t octets)
{
    struct told told = {input, octets};
    uint64_t n[NUMBERS];
    while (take_numbers(&told, 8, n, NUMBERS)) {
        struct call call = {{.which = n[0], .sizes = {n[1], n[2], n[3]}, .room = n[4]},
                            {NULL, n[5] * TOLD}};
        take_call_numbers(&call.any, n + 6);
        call.any.parts[0] = take_octets(&told, call.any.sizes[0]);
        call.any.parts[1] = take_octets(&told, call.any.sizes[1]);
        call.told.octets = take_octets(&told, call.told.size);
        if (call.any.parts[0] == NULL || call.any.parts[1] == NULL || call.told.octets == NULL) {
            return false;
        }
        if (!line_one(&call)) {
            puts("no memory");
        }
        puts(".");
        fflush(stdout); /* where the next call ends it, this one is told */
    }
    return told.size == 0;
}

int main(int arguments, char **words)
{
    return run_many(arguments, words, "line_far", line_many);
}
