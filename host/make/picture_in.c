#include "picture_in.h"

#include <stdlib.h>
#include <string.h>

#include "file.h"

static const uint64_t most_octets = UINT64_C(1) << 30; /* of samples */
static const size_t most_file = ((size_t)1 << 31) +
                                ((size_t)1 << 20); /* holds them with 16 bits each, and a header */

static const uint8_t png_mark[8] = {0x89, 'P', 'N', 'G', '\r', '\n', 0x1A, '\n'};

bool size_picture(picture *made, picture_use use, uint64_t width, uint64_t height, trouble *what)
{
    if (width == 0 || height == 0) {
        return tell(what, "the picture has no samples");
    }
    if (width > PICTURE_SIDE || height > PICTURE_SIDE) {
        return tell(what, "the picture is %ju by %ju samples; a side has at most %d",
                    (uintmax_t)width, (uintmax_t)height, PICTURE_SIDE);
    }
    uint64_t row = use == AS_MASK ? (width + 7) / 8 : width * 3;
    if (row * height > most_octets) {
        return tell(what, "the picture is %ju by %ju samples; they would need over 1 GiB",
                    (uintmax_t)width, (uintmax_t)height);
    }
    made->use = use;
    made->width = (uint32_t)width;
    made->height = (uint32_t)height;
    made->row_octets = (size_t)row;
    return true;
}

bool begin_picture(picture *made, picture_use use, uint64_t width, uint64_t height, trouble *what)
{
    if (!size_picture(made, use, width, height, what)) {
        return false;
    }
    made->samples = calloc(made->height, made->row_octets);
    return made->samples != NULL || tell_no_memory(what);
}

/* Black is as far as white where the sum is 3 * 255 / 2. */
static bool is_dark(const uint8_t *srgb)
{
    return 2 * (srgb[0] + srgb[1] + srgb[2]) < 3 * 255;
}

void put_row(picture *made, uint32_t y, const uint8_t *srgb)
{
    uint8_t *row = made->samples + y * made->row_octets;
    if (made->use == AS_IMAGE) {
        memcpy(row, srgb, made->row_octets);
        return;
    }
    for (uint32_t x = 0; x < made->width; x++) {
        if (is_dark(srgb + 3 * (size_t)x)) {
            row[x / 8] = (uint8_t)(row[x / 8] | 0x80 >> x % 8);
        }
    }
}

static bool is_png(const whole_file *file)
{
    return file->length >= sizeof png_mark && memcmp(file->octets, png_mark, sizeof png_mark) == 0;
}

static bool is_pnm(const whole_file *file)
{
    return file->length >= 2 && file->octets[0] == 'P' && file->octets[1] >= '1' &&
           file->octets[1] <= '6';
}

/* Twice: the first octets tell whether all are worth reading. */
static bool read_known(const char *name, whole_file *file, trouble *what)
{
    const size_t limits[] = {sizeof png_mark, most_file};
    for (int k = 0; k < 2; k++) {
        const char *why = read_plain_file(name, limits[k], file);
        if (why != NULL) {
            return tell(what, "%s", why);
        }
        bool known = is_png(file) || is_pnm(file);
        if (!known || k == 0 || file->length == most_file) {
            free(file->octets);
        }
        if (!known) {
            return tell(what, "the picture is neither PNG nor PNM (P1 to P6)");
        }
    }
    return file->length < most_file || tell(what, "the file has over 2 GiB");
}

bool read_picture(const char *name, picture_use use, picture *made, trouble *what)
{
    whole_file file;
    *made = (picture){.use = use};
    if (!read_known(name, &file, what)) {
        return false;
    }
    bool done = is_png(&file) ? read_png(file.octets, file.length, use, made, what)
                              : read_pnm(file.octets, file.length, use, made, what);
    free(file.octets);
    if (!done) {
        free_picture(made);
    }
    return done;
}

void free_picture(picture *made)
{
    free(made->samples);
    made->samples = NULL;
}
