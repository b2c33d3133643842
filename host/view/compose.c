#include "compose.h"

#include <errno.h>
#include <stdlib.h>
#include <string.h>
#include <sys/mman.h>
#include <unistd.h>

/* Left free beside a band, for all that the picture may still need: a bound of the system's must
 * not refuse with a band what it would take line by line. */
enum { ROOM_BESIDE = 4 << 20 };

/* What a pixel takes at most, under all layers: a band cannot be broken off, so one is begun only
 * where even then it ends in time. */
static const double pixel_seconds = 40e-9;

bool begin_composer(composer *c, const options *asked, const book *opened, uint32_t width)
{
    *c = (composer){
        .asked = asked, .opened = opened, .line_octets = (size_t)width * SPIREROOK_PIXEL_OCTETS};
    c->room[0] = malloc(c->line_octets);
    c->room[1] = malloc(c->line_octets);
    return c->room[0] != NULL && c->room[1] != NULL;
}

void end_composer(composer *c)
{
    end_lines(c);
    free(c->room[0]);
    free(c->room[1]);
}

static bool is_time_for(uint64_t octets, seconds left)
{
    double most = (double)(octets / SPIREROOK_PIXEL_OCTETS) * pixel_seconds;
    return most < left.processor && most < left.clock;
}

/* Within the memory allowed, beside the samples; and within a quarter of the machine's, since many
 * systems promise more than they have, and end the program that takes it. */
static bool is_memory_for(uint64_t octets, const options *asked, const stripe_layers *read)
{
    long pages = sysconf(_SC_PHYS_PAGES), page = sysconf(_SC_PAGESIZE);
    uint64_t quarter = pages > 0 && page > 0 ? (uint64_t)pages / 4 * (uint64_t)page : UINT64_MAX;
    return octets <= asked->memory - read->held && octets <= quarter &&
           octets < SIZE_MAX - ROOM_BESIDE;
}

/* Memory for so many octets, or null.  It comes in large pieces where the system has them: all of
 * it is written once and read once, so that small ones would take as long as composing. */
static uint8_t *hold_band(size_t octets)
{
    void *held = mmap(NULL, octets + ROOM_BESIDE, PROT_READ | PROT_WRITE,
                      MAP_PRIVATE | MAP_ANONYMOUS, -1, 0);
    if (held == MAP_FAILED) {
        return NULL;
    }
    mremap(held, octets + ROOM_BESIDE, octets, 0);
    madvise(held, octets, MADV_HUGEPAGE);
    return held;
}

static spirerook_answer compose_band(composer *c)
{
    const book *b = c->opened;
    const stripe_layers *read = c->read;
    const uint8_t *unseen = c->asked->unseen;
    return spirerook_band(b->sheet, b->sheet_octets, read->planes, read->planes_octets,
                          read->samples, read->octets, (uint32_t)c->stripe, unseen[0], unseen[1],
                          unseen[2], c->band, c->band_octets);
}

static spirerook_answer compose_line(composer *c, uint8_t *line)
{
    const book *b = c->opened;
    const stripe_layers *read = c->read;
    const uint8_t *unseen = c->asked->unseen;
    return spirerook_line_unseen(b->sheet, b->sheet_octets, read->planes, read->planes_octets,
                                 read->samples, read->octets, (uint32_t)c->stripe, c->next,
                                 unseen[0], unseen[1], unseen[2], line, c->line_octets);
}

spirerook_answer begin_lines(composer *c, size_t stripe, const stripe_layers *read, seconds left)
{
    uint64_t octets = spirerook_band_octets(mask_of_stripe(c->opened, stripe));
    spirerook_answer done = {.number = SPIREROOK_DONE};
    int kept = errno; /* it tells why a picture cannot be written; to have no band is no reason */
    c->stripe = stripe;
    c->read = read;
    c->next = 0;
    if (is_memory_for(octets, c->asked, read) && is_time_for(octets, left)) {
        c->band_octets = (size_t)octets;
        c->band = hold_band(c->band_octets);
    }
    errno = kept;
    if (c->band != NULL) {
        c->bands++;
        done = compose_band(c);
    }
    return done;
}

spirerook_answer next_line(composer *c)
{
    spirerook_answer done = {.number = SPIREROOK_DONE};
    c->before = c->line;
    if (c->band != NULL) {
        c->line = c->band + c->next * c->line_octets;
    } else {
        uint8_t *line = c->room[c->before == c->room[0]];
        done = compose_line(c, line);
        c->line = line;
    }
    c->next += done.number == SPIREROOK_DONE;
    return done;
}

void end_lines(composer *c)
{
    if (c->band == NULL) {
        return;
    }
    if (c->next > 0) {
        memcpy(c->room[0], c->line, c->line_octets);
        c->line = c->room[0];
    }
    munmap(c->band, c->band_octets);
    c->band = NULL;
}
