/* Paints a band of 2^32 octets and more in little memory, through include/spirerook.h.
 *
 *   band_far HEIGHT   a stripe of the widest page and so many lines
 *
 * All lines are alike but the last.  So many lines at a time as MANY stand in the same memory, over
 * and over, and the last ones in memory of their own: whatever order a stripe is painted in, each
 * line comes out as it would alone, since a layer painted twice over the same pixels gives them the
 * same octets.  A place in the band that is cut to 32 bits puts the last line into the others'
 * memory, and leaves its own as it was.
 *
 * Prints the answer's number, place and count; then `lines` where each line in memory is that of
 * spirerook_line_unseen, and the octets behind the band are as they were, or what is wrong; or `no
 * memory`, where the machine lends none. */
#define _GNU_SOURCE
#include "spirerook.h"

#include <inttypes.h>
#include <stdbool.h>
#include <stdio.h>
#include <stdlib.h>
#include <string.h>
#include <sys/mman.h>
#include <unistd.h>

enum {
    WIDTH = SPIREROOK_WIDTH,
    LINE = SPIREROOK_LINE_OCTETS,
    MANY = 16, /* lines that stand in the same memory */
    LAYERS = 5,
    K = 12, /* main pixels of a sample of the mask, each way */
    COLUMNS = (WIDTH + K - 1) / K,
    BEHIND = 4096, /* octets behind the band that are looked at */
    FILL = 0xA5
};

/* The call: layer 1 has samples in the last line, mask 4 has the same row all over the stripe. */
struct scene {
    uint8_t sheet[LAYERS * SPIREROOK_RECORD_OCTETS];
    uint8_t planes[2 * SPIREROOK_PLANE_OCTETS];
    uint8_t *samples;
    size_t octets;
    uint32_t height;
};

/* The band, whose first lines share memory. */
struct band {
    uint8_t *octets;
    uint64_t room;
};

static void put_sheet(struct scene *scene, uint32_t rows)
{
    for (uint32_t layer = 1; layer <= LAYERS; layer++) {
        uint8_t shade = (uint8_t)(layer % 2 * 40 * layer);
        spirerook_record r = {0, layer, 0, 0, 0, 0, 0, 1200, {shade, shade, shade}, 0, 0, 0};
        if (layer == 1) {
            r.coder = r.length = r.height = r.grey = 1;
            r.y = scene->height - 1;
            r.width = WIDTH;
        } else if (layer == 2) {
            r.width = WIDTH;
            r.height = scene->height;
        } else if (layer == 4) {
            r.coder = r.length = 1;
            r.width = COLUMNS;
            r.height = rows;
            r.resolution = 1200 / K;
        }
        spirerook_put_record(scene->sheet + (layer - 1) * SPIREROOK_RECORD_OCTETS, &r);
    }
}

/* False: no memory. */
static bool make_scene(struct scene *scene, uint32_t height)
{
    uint32_t rows = (height + K - 1) / K;
    scene->height = height;
    scene->octets = WIDTH + (size_t)COLUMNS * rows;
    scene->samples = malloc(scene->octets);
    if (scene->samples == NULL) {
        return false;
    }
    for (size_t k = 0; k < scene->octets; k++) {
        scene->samples[k] = k < WIDTH ? (uint8_t)(k % 251) : (k - WIDTH) % COLUMNS % 3 == 1;
    }
    put_sheet(scene, rows);
    spirerook_put_plane(scene->planes, 1, 0);
    spirerook_put_plane(scene->planes + SPIREROOK_PLANE_OCTETS, 4, WIDTH);
    return true;
}

/* False: no memory. */
static bool make_band(struct band *band, uint32_t height)
{
    uint64_t many = (uint64_t)MANY * LINE, shared = (height - 1) / MANY * many;
    int file = memfd_create("band", 0);
    band->room = (uint64_t)height * LINE + BEHIND;
    band->octets = mmap(NULL, band->room, PROT_READ | PROT_WRITE,
                        MAP_PRIVATE | MAP_ANONYMOUS | MAP_NORESERVE, -1, 0);
    bool lent = file >= 0 && ftruncate(file, (off_t)many) == 0 && band->octets != MAP_FAILED;
    for (uint64_t at = 0; lent && at < shared; at += many) {
        lent = mmap(band->octets + at, many, PROT_READ | PROT_WRITE, MAP_SHARED | MAP_FIXED, file,
                    0) != MAP_FAILED;
    }
    if (lent) {
        memset(band->octets, FILL, many);
        memset(band->octets + shared, FILL, band->room - shared);
    }
    return lent;
}

/* What is wrong with the lines from one on to before another, or null. */
static const char *bad_lines(const struct scene *scene, const struct band *band, uint32_t from,
                             uint32_t to)
{
    static uint8_t line[LINE];
    for (uint32_t y = from; y < to; y++) {
        spirerook_answer answer = spirerook_line_unseen(
            scene->sheet, sizeof scene->sheet, scene->planes, sizeof scene->planes, scene->samples,
            scene->octets, 0, y, 1, 2, 3, line, sizeof line);
        if (answer.count != LINE || memcmp(line, band->octets + (uint64_t)y * LINE, LINE) != 0) {
            return y < MANY ? "a line of the first" : "a line of the last";
        }
    }
    return NULL;
}

static const char *bad_band(const struct scene *scene, const struct band *band)
{
    const char *wrong = bad_lines(scene, band, 0, MANY);
    if (wrong == NULL) {
        wrong = bad_lines(scene, band, (scene->height - 1) / MANY * MANY, scene->height);
    }
    for (uint64_t k = band->room - BEHIND; wrong == NULL && k < band->room; k++) {
        wrong = band->octets[k] != FILL ? "octets behind the band changed" : NULL;
    }
    return wrong;
}

int main(int arguments, char **words)
{
    struct scene scene;
    struct band band;
    uint32_t height = arguments == 2 ? (uint32_t)strtoul(words[1], NULL, 10) : 0;
    if (height <= MANY || height > SPIREROOK_HEIGHT) {
        fputs("use: band_far HEIGHT\n", stderr);
        return EXIT_FAILURE;
    }
    if (!make_scene(&scene, height) || !make_band(&band, height)) {
        puts("no memory");
        return EXIT_SUCCESS;
    }
    spirerook_answer answer = spirerook_band(scene.sheet, sizeof scene.sheet, scene.planes,
                                             sizeof scene.planes, scene.samples, scene.octets, 0, 1,
                                             2, 3, band.octets, band.room);
    const char *wrong = bad_band(&scene, &band);
    printf("%" PRIu32 " %" PRIu32 " %" PRIu64 " %s\n", answer.number, answer.place, answer.count,
           wrong == NULL ? "lines" : wrong);
    free(scene.samples);
    return EXIT_SUCCESS;
}
