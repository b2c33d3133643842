#include "layers.h"

#include <errno.h>
#include <inttypes.h>
#include <string.h>
#include <sys/mman.h>
#include <unistd.h>

#include "clock.h"
#include "decode.h"
#include "lines.h"

/* Where the samples of each layer will stand: on pages of their own with a page between, as far as
 * the memory allowed reaches.  The pages between count as address space only. */
typedef struct {
    uint64_t start[SPIREROOK_LAYERS], octets, span;
} places;

static size_t layers_of(const book *opened, size_t stripe)
{
    return opened->first[stripe + 1] - opened->first[stripe];
}

static const uint8_t *record_of(const book *opened, size_t stripe, size_t k)
{
    return spirerook_record_at(opened->sheet, opened->first[stripe] + k);
}

/* Samples that need more than `memory` are unread for the reason `why`. */
static places place_samples(const book *opened, size_t stripe, uint64_t memory, finding why,
                            stripe_layers *read)
{
    uint64_t page = (uint64_t)sysconf(_SC_PAGESIZE);
    places placed = {.octets = 0, .span = page};
    for (size_t k = 0; k < layers_of(opened, stripe); k++) {
        uint64_t octets = spirerook_record_samples(record_of(opened, stripe, k));
        if (octets == 0 || read->found[k] != LAYER_READ) {
            continue;
        }
        if (octets > memory - placed.octets || placed.span > UINT32_MAX) {
            read->found[k] = why;
        } else {
            placed.start[k] = placed.span;
            placed.octets += octets;
            placed.span += (octets + page - 1) / page * page + page;
        }
    }
    return placed;
}

/* The range of addresses that the samples come to.  It can be read, as all that the library is lent
 * must be, and never written.  Where the system gives less than is allowed, the layers that fit into
 * half of it are tried, and so on. */
static places hold_range(const options *asked, const book *opened, size_t stripe,
                         stripe_layers *read)
{
    places placed = place_samples(opened, stripe, asked->memory, LAYER_TOO_LARGE, read);
    while (placed.octets > 0) {
        void *range = mmap(NULL, placed.span, PROT_READ,
                           MAP_PRIVATE | MAP_ANONYMOUS | MAP_NORESERVE, -1, 0);
        if (range != MAP_FAILED) {
            read->samples = range;
            read->octets = placed.span;
            break;
        }
        placed = place_samples(opened, stripe, placed.octets / 2, LAYER_NO_ROOM, read);
    }
    return placed;
}

static double least(double one, double other)
{
    return one < other ? one : other;
}

/* Read, its samples stand at their place. */
static finding decode_into(const options *asked, const coded_layer *layer, uint8_t *at,
                           seconds *left, stripe_layers *read)
{
    apart_bounds bounds = {.memory = asked->memory,
                           .seconds = least(asked->seconds, left->processor),
                           .clock = least(asked->clock_seconds, left->clock),
                           .no_sandbox = asked->no_sandbox,
                           .hidden = read->samples,
                           .hidden_octets = read->octets};
    apart_samples samples;
    double began = seconds_now();
    finding found = decode_layer(layer, &bounds, &samples);
    if (found == LAYER_READ && map_samples(&samples, at) == NULL) {
        found = LAYER_NO_ROOM;
    }
    left->processor -= samples.spent;
    left->clock -= seconds_now() - began;
    bool share = (found == LAYER_TOO_SLOW && bounds.seconds < asked->seconds) ||
                 (found == LAYER_TOO_LATE && bounds.clock < asked->clock_seconds);
    if (share) {
        left->processor = 0;
    }
    return share ? LAYER_NO_TIME : found;
}

static finding read_layer(const options *asked, const book *opened, size_t stripe, size_t k,
                          uint8_t *at, seconds *left, stripe_layers *read)
{
    const uint8_t *record = record_of(opened, stripe, k);
    spirerook_part part = spirerook_data(opened->sheet, opened->sheet_octets, opened->page.octets,
                                         opened->page.length, opened->pencil.octets,
                                         opened->pencil.length, (uint32_t)stripe, (uint32_t)k + 1);
    if (part.number != SPIREROOK_DONE) {
        return LAYER_SHORT;
    }
    if (left->processor <= 0 || left->clock <= 0) {
        return LAYER_NO_TIME;
    }
    coded_layer layer = {.coder = spirerook_record_coder(record),
                         .width = spirerook_record_width(record),
                         .height = spirerook_record_height(record),
                         .mask = spirerook_record_mask(record),
                         .grey = spirerook_record_grey(record) == 1,
                         .length = part.count,
                         .octets = (part.source == SPIREROOK_FROM_PENCIL ? opened->pencil.octets
                                                                         : opened->page.octets) +
                                   part.start};
    return decode_into(asked, &layer, at, left, read);
}

void read_layers(const options *asked, const book *opened, size_t stripe, seconds *left,
                 stripe_layers *read)
{
    memset(read, 0, sizeof *read);
    for (size_t k = 0; k < layers_of(opened, stripe); k++) {
        read->found[k] = asked->unread[stripe][k + 1] ? LAYER_ASKED : LAYER_READ;
    }
    places placed = hold_range(asked, opened, stripe, read);
    for (size_t k = 0; k < layers_of(opened, stripe); k++) {
        if (!spirerook_record_coded(record_of(opened, stripe, k)) || read->found[k] != LAYER_READ) {
            continue;
        }
        errno = 0;
        read->found[k] = read_layer(asked, opened, stripe, k, read->samples + placed.start[k], left,
                                    read);
        read->fault[k] = errno;
        if (read->found[k] == LAYER_READ) {
            spirerook_put_plane(read->planes + read->planes_octets, (uint32_t)k + 1,
                                (uint32_t)placed.start[k]);
            read->planes_octets += SPIREROOK_PLANE_OCTETS;
            read->held += spirerook_record_samples(record_of(opened, stripe, k));
        }
    }
}

void free_layers(stripe_layers *read)
{
    if (read->samples != NULL) {
        munmap(read->samples, read->octets);
    }
}

static const char *coder_name(const uint8_t *record)
{
    static const char *const names[] = {[1] = "MH", [2] = "MR", [4] = "MMR", [8] = "T.85"};
    return spirerook_record_mask(record) ? names[spirerook_record_coder(record)] : "JPEG";
}

static void tell_why(const options *asked, finding found, int fault, const uint8_t *record)
{
    switch (found) {
    case LAYER_READ: break;
    case LAYER_DAMAGED: add_words("its decoder finds the data damaged"); break;
    case LAYER_OTHER_SIZE: add_words("its data has another size"); break;
    case LAYER_OTHER_COLOURS: add_words("its data has another number of components"); break;
    case LAYER_NO_DECODER: add_words("no decoder here reads this kind of data"); break;
    case LAYER_MANY_SCANS: add_words("it has over %d scans", MOST_SCANS); break;
    case LAYER_NO_MEMORY: add_words("its decoder has not enough memory"); break;
    case LAYER_BROKE_OFF: add_words("its decoder broke off"); break;
    case LAYER_FORBIDDEN: add_words("its decoder tried what no decoder may do"); break;
    case LAYER_TOO_SLOW:
        add_words("its decoder took over %u seconds of the processor", (unsigned)asked->seconds);
        break;
    case LAYER_TOO_LATE:
        add_words("its decoder took over %u seconds by the clock", (unsigned)asked->clock_seconds);
        break;
    case LAYER_NOT_STARTED:
        add_words("its decoder could not be started: %s", strerror(fault));
        break;
    case LAYER_NO_SANDBOX:
        add_words("this system has no sandbox for its decoder (--no-sandbox does without)");
        break;
    case LAYER_NO_TIME: add_words("no time is left for its decoder"); break;
    case LAYER_TOO_LARGE:
        add_words("its %" PRIu64 " octets of samples, with those of lower layers, pass the %" PRIu64
                  " allowed to a stripe (--memory)",
                  spirerook_record_samples(record), asked->memory);
        break;
    case LAYER_NO_ROOM:
        add_words("there is no memory for its %" PRIu64 " octets of samples",
                  spirerook_record_samples(record));
        break;
    case LAYER_SHORT: add_words("its data passes the end of the file"); break;
    case LAYER_ASKED: add_words("asked for by --unread"); break;
    }
}

static void tell_uncoded(const book *opened, size_t stripe, size_t k)
{
    const uint8_t *record = record_of(opened, stripe, k), *base = spirerook_record_base(record);
    bool virtual_mask = k == 1 && spirerook_record_coded(record_of(opened, stripe, 2));
    if (spirerook_record_mask(record)) {
        say_line("not coded, %s", virtual_mask ? "1 all over" : "0 all over");
    } else {
        say_line("not coded, colour %d %d %d all over", base[0], base[1], base[2]);
    }
}

void tell_layers(const options *asked, const book *opened, size_t stripe, const stripe_layers *read)
{
    for (size_t k = 0; k < layers_of(opened, stripe); k++) {
        const uint8_t *r = record_of(opened, stripe, k);
        add_words("%s: stripe %zu, layer %zu: ", k < 3 ? asked->page : opened->source.file, stripe,
                  k + 1);
        if (!spirerook_record_coded(r)) {
            tell_uncoded(opened, stripe, k);
            continue;
        }
        add_words("%s, %u by %u at %u to the inch%s", coder_name(r), spirerook_record_width(r),
                  spirerook_record_height(r), spirerook_record_resolution(r),
                  spirerook_record_grey(r) == 1 ? ", grey" : "");
        if (read == NULL) {
            say_line(", %u right and %u down, %u octets from octet %u", spirerook_record_x(r),
                     spirerook_record_y(r), spirerook_record_length(r), spirerook_record_start(r));
        } else if (read->found[k] == LAYER_READ) {
            say_line(": read");
        } else {
            add_words(": UNREAD: ");
            tell_why(asked, read->found[k], read->fault[k], r);
            say_line("; where a pixel hangs on it, unseen is shown");
        }
    }
}
