/* PNG by libpng, from memory, in a process apart. */
#include <errno.h>
#include <png.h>
#include <stdio.h>
#include <stdlib.h>
#include <string.h>
#include <sys/mman.h>

#include "apart.h"
#include "picture_in.h"

enum { COLOURS = 256 }; /* of a palette, at most */

/* What may pass between the calls of libpng; it stands outside the function that libpng jumps back
 * to. */
typedef struct {
    const uint8_t *octets;
    size_t length, at;
    png_structp png;
    png_infop info;
    uint8_t *rows; /* all rows of an interlaced picture, else one */
    unsigned sample_octets;
    uint8_t palette[COLOURS][4]; /* sRGB and alpha */
    int colours;
    size_t row_octets;
    uint8_t *flat; /* a row, three octets a sample */
    uint32_t rows_put;
    bool done;
    picture *made;
    trouble *what;
} png_reader;

enum { MOST_CHUNK = 8000000, CHUNKS_KEPT = 16, SIDES_AT = 16, KIND_AT = 25, HEAD = 26 };

static const uint64_t most_rows = UINT64_C(1) << 30;
static const double most_seconds = 60, most_clock = 360;

static bool without_sandbox;

static void on_error(png_structp png, png_const_charp text)
{
    png_reader *reader = png_get_error_ptr(png);
    tell(reader->what, "the PNG file cannot be read: %s", text);
    png_longjmp(png, 1);
}

/* Warnings are of chunks that say nothing of the samples, and of what stands behind these. */
static void on_warning(png_structp png, png_const_charp text)
{
    (void)png;
    (void)text;
}

static void give_octets(png_structp png, png_bytep to, size_t count)
{
    png_reader *reader = png_get_io_ptr(png);
    if (reader->length - reader->at < count) {
        png_error(png, "the file ends too early");
    }
    memcpy(to, reader->octets + reader->at, count);
    reader->at += count;
}

/* The colours that samples are numbers of.  libpng would take any number, and make some colour of
 * those that the palette does not have. */
static void take_palette(png_reader *reader)
{
    png_colorp colours = NULL;
    png_bytep alphas = NULL;
    int count = 0, alpha_count = 0;
    png_get_PLTE(reader->png, reader->info, &colours, &count);
    png_get_tRNS(reader->png, reader->info, &alphas, &alpha_count, NULL);
    reader->colours = count < COLOURS ? count : COLOURS;
    for (int k = 0; k < reader->colours; k++) {
        uint8_t *rgba = reader->palette[k];
        rgba[0] = colours[k].red;
        rgba[1] = colours[k].green;
        rgba[2] = colours[k].blue;
        rgba[3] = k < alpha_count ? alphas[k] : 255;
    }
}

/* Whatever kind it is, four octets a sample: sRGB and alpha; of a palette one, the number. */
static int ask_for_samples(png_reader *reader)
{
    reader->sample_octets = 4;
    if (png_get_color_type(reader->png, reader->info) == PNG_COLOR_TYPE_PALETTE) {
        reader->sample_octets = 1;
        take_palette(reader);
        png_set_packing(reader->png);
    } else {
        png_set_expand(reader->png);
        png_set_scale_16(reader->png);
        png_set_gray_to_rgb(reader->png);
        png_set_add_alpha(reader->png, 255, PNG_FILLER_AFTER);
    }
    int passes = png_set_interlace_handling(reader->png);
    png_read_update_info(reader->png, reader->info);
    return passes;
}

static bool get_rows(png_reader *reader, bool interlaced)
{
    uint32_t width = reader->made->width;
    uint64_t rows = interlaced ? reader->made->height : 1;
    reader->row_octets = (size_t)width * reader->sample_octets;
    if (png_get_rowbytes(reader->png, reader->info) != reader->row_octets) {
        return tell(reader->what, "the PNG file is of a kind that cannot be read");
    }
    if (rows * reader->row_octets > most_rows) {
        return tell(reader->what, "the picture is interlaced, and would need over 1 GiB");
    }
    reader->rows = calloc((size_t)rows, reader->row_octets);
    reader->flat = malloc((size_t)width * 3);
    return (reader->rows != NULL && reader->flat != NULL) || tell_no_memory(reader->what);
}

static const uint8_t *rgba_at(png_reader *reader, const uint8_t *row, uint32_t x)
{
    if (reader->sample_octets == 4) {
        return row + 4 * (size_t)x;
    }
    if (row[x] >= reader->colours) {
        png_error(reader->png, "a sample has a number that its palette does not have");
    }
    return reader->palette[row[x]];
}

/* Flattened on white. */
static void put_samples(png_reader *reader, uint32_t y, const uint8_t *row)
{
    uint8_t *srgb = reader->flat;
    for (uint32_t x = 0; x < reader->made->width; x++, srgb += 3) {
        const uint8_t *rgba = rgba_at(reader, row, x);
        for (int k = 0; k < 3; k++) {
            srgb[k] = (uint8_t)((rgba[k] * rgba[3] + 255 * (255 - rgba[3]) + 127) / 255);
        }
    }
    put_row(reader->made, y, reader->flat);
    reader->rows_put++;
}

static void read_rows(png_reader *reader, int passes)
{
    uint32_t height = reader->made->height;
    for (int pass = 0; pass < passes; pass++) {
        for (uint32_t y = 0; y < height; y++) {
            uint8_t *row = reader->rows + (passes > 1 ? y * reader->row_octets : 0);
            png_read_row(reader->png, row, NULL);
            if (pass == passes - 1) {
                put_samples(reader, y, row);
            }
        }
    }
    png_read_end(reader->png, NULL);
}

static void read_all(png_reader *reader)
{
    png_set_read_fn(reader->png, reader, give_octets);
    png_set_chunk_malloc_max(reader->png, MOST_CHUNK);
    png_set_chunk_cache_max(reader->png, CHUNKS_KEPT);
    /* the sides were judged before, with words of our own */
    png_set_user_limits(reader->png, PNG_UINT_31_MAX, PNG_UINT_31_MAX);
    png_read_info(reader->png, reader->info);
    if (png_get_image_width(reader->png, reader->info) != reader->made->width ||
        png_get_image_height(reader->png, reader->info) != reader->made->height) {
        png_error(reader->png, "another size than its header's");
    }
    int passes = ask_for_samples(reader);
    if (get_rows(reader, passes > 1)) {
        read_rows(reader, passes);
        reader->done = true;
    }
}

static void try_all(png_reader *reader)
{
    if (setjmp(png_jmpbuf(reader->png)) == 0) {
        read_all(reader);
    }
}

/* The process ends with this work, and what was allocated for it. */
static void read_apart(const void *about, uint8_t *samples, apart_report *report)
{
    png_reader reader = *(const png_reader *)about;
    trouble what = {.text = ""};
    picture made = *reader.made;
    made.samples = samples;
    reader.made = &made;
    reader.what = &what;
    reader.png = png_create_read_struct(PNG_LIBPNG_VER_STRING, &reader, on_error, on_warning);
    reader.info = reader.png == NULL ? NULL : png_create_info_struct(reader.png);
    if (reader.info == NULL) {
        tell_no_memory(&what);
    } else {
        try_all(&reader);
    }
    report->found = !reader.done;
    report->rows = reader.rows_put;
    snprintf(report->words, sizeof report->words, "%.*s", APART_WORDS - 1, what.text);
}

static bool tell_end(apart_end end, const apart_report *report, trouble *what)
{
    switch (end) {
    case APART_DONE: return tell(what, "%s", report->words);
    case APART_NOT_STARTED:
        return tell(what, "its reader could not be started: %s", strerror(errno));
    case APART_NO_SANDBOX:
        return tell(what, "this system has no sandbox for its reader (--no-sandbox does without)");
    case APART_NO_ROOM: return tell_no_memory(what);
    case APART_FORBIDDEN: return tell(what, "its reader tried what no reader may do");
    case APART_TOO_SLOW:
    case APART_TOO_LATE: return tell(what, "its reader took too long");
    case APART_BROKE_OFF: break;
    }
    return tell(what, "its reader broke off");
}

/* Samples that colours can be worked out in. */
static bool take_samples(apart_samples *filled, picture *made, trouble *what)
{
    uint8_t *samples = map_samples(filled, NULL);
    made->samples = samples == NULL ? NULL : malloc(filled->octets);
    if (made->samples != NULL) {
        memcpy(made->samples, samples, filled->octets);
    }
    if (samples != NULL) {
        munmap(samples, filled->octets);
    }
    return made->samples != NULL || tell_no_memory(what);
}

void do_without_sandbox(void)
{
    without_sandbox = true;
}

static uint32_t side_at(const uint8_t *octets)
{
    return (uint32_t)octets[0] << 24 | (uint32_t)octets[1] << 16 | (uint32_t)octets[2] << 8 |
           octets[3];
}

/* The sides and the kind stand in the header, always the first chunk. */
bool read_png(const uint8_t *octets, size_t length, picture_use use, picture *made, trouble *what)
{
    png_reader reader = {.octets = octets, .length = length, .made = made};
    apart_bounds bounds = {.memory = (size_t)(2 * most_rows),
                           .seconds = most_seconds,
                           .clock = most_clock,
                           .no_sandbox = without_sandbox};
    apart_samples filled;
    apart_report report = {.found = 0};
    if (length < HEAD || memcmp(octets + SIDES_AT - 4, "IHDR", 4) != 0) {
        return tell(what, "the PNG file cannot be read: its header is not whole");
    }
    if (!size_picture(made, use, side_at(octets + SIDES_AT), side_at(octets + SIDES_AT + 4),
                      what)) {
        return false;
    }
    made->is_grey = (octets[KIND_AT] & ~PNG_COLOR_MASK_ALPHA) == PNG_COLOR_TYPE_GRAY;
    apart_end end = do_apart(read_apart, &reader, &bounds, made->row_octets * made->height, &filled,
                             &report);
    if (end == APART_DONE && report.found == 0 && report.rows == made->height) {
        return take_samples(&filled, made, what);
    }
    drop_samples(&filled);
    return tell_end(end, &report, what);
}
