/* PNG (ISO/IEC 15948) over zlib.  Each row is coded as its difference from the row above; a long
 * run of rows that are all alike is coded once and the code repeated, so that the largest page,
 * which is mostly such rows, is written in seconds. */
#include "picture.h"

#include <inttypes.h>
#include <stdlib.h>
#include <string.h>
#include <zlib.h>

/* More effort than this costs time and saves little: pages are paper and text.  A run of fewer rows
 * is not worth the break that it makes. */
enum { EFFORT = 3, LONG_RUN = 8, ROOM = 1 << 18, FILTER_UP = 2, RAW = -15 };

struct picture {
    FILE *file;
    size_t row_octets;
    uint8_t *above, *filtered; /* a row; a row coded, with the filter's octet in front */
    uint32_t runs;             /* rows like the one above that are still to be coded */
    z_stream deflater;
    uLong sum, like_sum; /* of all coded octets; of a row like the one above */
    uint8_t *like;       /* such a row, compressed */
    size_t like_octets, used;
    bool first;
    uint8_t room[ROOM];
};

static void put4(uint8_t *octets, uint32_t value)
{
    for (int k = 0; k < 4; k++) {
        octets[k] = (uint8_t)(value >> (24 - 8 * k) & 255);
    }
}

static bool put_chunk(picture *made, const char *name, const uint8_t *octets, size_t count)
{
    uint8_t head[8], foot[4];
    put4(head, (uint32_t)count);
    memcpy(head + 4, name, 4);
    uLong sum = crc32(crc32(0, NULL, 0), head + 4, 4);
    put4(foot, (uint32_t)(count == 0 ? sum : crc32(sum, octets, (uInt)count)));
    return fwrite(head, 1, 8, made->file) == 8 &&
           (count == 0 || fwrite(octets, 1, count, made->file) == count) &&
           fwrite(foot, 1, 4, made->file) == 4;
}

static bool empty_room(picture *made)
{
    size_t used = made->used;
    made->used = 0;
    return used == 0 || put_chunk(made, "IDAT", made->room, used);
}

static bool put_octets(picture *made, const uint8_t *octets, size_t count)
{
    while (count > 0) {
        size_t part = count < ROOM - made->used ? count : ROOM - made->used;
        memcpy(made->room + made->used, octets, part);
        made->used += part;
        octets += part;
        count -= part;
        if (made->used == ROOM && !empty_room(made)) {
            return false;
        }
    }
    return true;
}

/* Compresses `count` octets of `filtered`, and whatever the flush asks for. */
static bool compress_row(picture *made, size_t count, int flush)
{
    made->deflater.next_in = made->filtered;
    made->deflater.avail_in = (uInt)count;
    made->sum = adler32(made->sum, made->filtered, (uInt)count);
    do {
        if (made->used == ROOM && !empty_room(made)) {
            return false;
        }
        made->deflater.next_out = made->room + made->used;
        made->deflater.avail_out = (uInt)(ROOM - made->used);
        int answer = deflate(&made->deflater, flush);
        made->used = ROOM - made->deflater.avail_out;
        if (answer == Z_STREAM_ERROR) {
            return false;
        }
    } while (made->deflater.avail_out == 0);
    return true;
}

/* A row like the one above, compressed so that it can stand behind any full flush. */
static bool make_like(picture *made)
{
    z_stream deflater = {.next_in = made->filtered, .avail_in = (uInt)(made->row_octets + 1)};
    if (deflateInit2(&deflater, Z_BEST_COMPRESSION, Z_DEFLATED, RAW, 9, Z_DEFAULT_STRATEGY) !=
        Z_OK) {
        return false;
    }
    size_t room = deflateBound(&deflater, (uLong)made->row_octets + 1) + 16;
    made->like = malloc(room);
    deflater.next_out = made->like;
    deflater.avail_out = (uInt)room;
    bool good = made->like != NULL && deflate(&deflater, Z_FULL_FLUSH) == Z_OK &&
                deflater.avail_in == 0;
    made->like_octets = room - deflater.avail_out;
    made->like_sum = adler32(adler32(0, NULL, 0), made->filtered, (uInt)(made->row_octets + 1));
    deflateEnd(&deflater);
    return good;
}

/* The rows that were only counted. */
static bool put_runs(picture *made)
{
    uint32_t runs = made->runs;
    made->runs = 0;
    if (runs == 0) {
        return true;
    }
    memset(made->filtered + 1, 0, made->row_octets);
    bool is_long = runs >= LONG_RUN, good = true;
    if (is_long) {
        good = (made->like != NULL || make_like(made)) && compress_row(made, 0, Z_FULL_FLUSH);
    }
    for (; good && runs > 0; runs--) {
        if (is_long) {
            made->sum = adler32_combine(made->sum, made->like_sum, (z_off_t)(made->row_octets + 1));
        }
        good = is_long ? put_octets(made, made->like, made->like_octets)
                       : compress_row(made, made->row_octets + 1, Z_NO_FLUSH);
    }
    return good;
}

static bool put_head(picture *made, uint32_t width, uint32_t height, uint32_t resolution)
{
    uint8_t size[13] = {[8] = 8, [9] = 2}, metre[9] = {[8] = 1},
            relative = 1; /* eight bits of red, green and blue; pixels a metre */
    put4(size, width);
    put4(size + 4, height);
    put4(metre, (uint32_t)(resolution / 0.0254 + 0.5));
    memcpy(metre + 4, metre, 4);
    return fwrite("\x89PNG\r\n\x1A\n", 1, 8, made->file) == 8 &&
           put_chunk(made, "IHDR", size, sizeof size) && put_chunk(made, "sRGB", &relative, 1) &&
           put_chunk(made, "pHYs", metre, sizeof metre) &&
           put_octets(made, (const uint8_t *)"\x78\x01", 2);
}

picture *begin_picture(FILE *file, uint32_t width, uint32_t height, uint32_t resolution)
{
    picture *made = calloc(1, sizeof *made);
    if (made == NULL ||
        deflateInit2(&made->deflater, EFFORT, Z_DEFLATED, RAW, 9, Z_DEFAULT_STRATEGY) != Z_OK) {
        free(made);
        return NULL;
    }
    made->file = file;
    made->row_octets = (size_t)3 * width;
    made->above = calloc(1, made->row_octets);
    made->filtered = calloc(1, made->row_octets + 1);
    made->sum = adler32(0, NULL, 0);
    made->first = true;
    if (made->above == NULL || made->filtered == NULL ||
        !put_head(made, width, height, resolution)) {
        drop_picture(made);
        return NULL;
    }
    made->filtered[0] = FILTER_UP;
    return made;
}

bool put_row(picture *made, const uint8_t *row)
{
    if (!made->first && memcmp(row, made->above, made->row_octets) == 0) {
        made->runs++;
        return true;
    }
    if (!put_runs(made)) {
        return false;
    }
    for (size_t k = 0; k < made->row_octets; k++) {
        made->filtered[k + 1] = (uint8_t)(row[k] - made->above[k]);
    }
    memcpy(made->above, row, made->row_octets);
    made->first = false;
    return compress_row(made, made->row_octets + 1, Z_NO_FLUSH);
}

/* What programs find by its name; a zero octet parts the two. */
static bool put_text(picture *made, const char *name, const char *text)
{
    char both[48];
    int count = snprintf(both, sizeof both, "%s%c%s", name, 0, text);
    return put_chunk(made, "tEXt", (const uint8_t *)both, (size_t)count);
}

bool end_picture(picture *made, uint64_t unseen, const uint8_t *colour)
{
    char number[24], digits[8];
    uint8_t sum[4];
    bool good = put_runs(made) && compress_row(made, 0, Z_FINISH);
    put4(sum, (uint32_t)made->sum);
    snprintf(number, sizeof number, "%" PRIu64, unseen);
    good = good && put_octets(made, sum, 4) && empty_room(made) &&
           put_text(made, "Unseen pixels", number);
    if (good && colour != NULL) {
        snprintf(digits, sizeof digits, "#%02X%02X%02X", colour[0], colour[1], colour[2]);
        good = put_text(made, "Unseen colour", digits);
    }
    good = good && put_chunk(made, "IEND", NULL, 0);
    drop_picture(made);
    return good;
}

void drop_picture(picture *made)
{
    deflateEnd(&made->deflater);
    free(made->above);
    free(made->filtered);
    free(made->like);
    free(made);
}
