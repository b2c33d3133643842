/* T.4 and T.6 through libtiff: it decodes the strips of TIFF files, so a file of one strip is put
 * around the data. */
#include "decoders.h"

#include <stdlib.h>
#include <string.h>
#include <tiffio.h>

enum { TAGS = 11, DIRECTORY = 8, AROUND = DIRECTORY + 2 + 12 * TAGS + 4 };

/* The file, as libtiff reads it: `around` and then the data, which is not copied. */
typedef struct {
    uint8_t around[AROUND];
    const coded_layer *layer;
    uint64_t at;
    bool complained;
} fax_file;

static uint64_t file_length(const fax_file *file)
{
    return AROUND + (uint64_t)file->layer->length;
}

static void put_little(uint8_t *octets, int count, uint32_t value)
{
    for (int k = 0; k < count; k++) {
        octets[k] = (uint8_t)(value >> (8 * k) & 255);
    }
}

/* One row more than the record has is asked for, so that data with more rows shows itself. */
static void put_around(fax_file *file)
{
    const coded_layer *layer = file->layer;
    uint32_t rows = layer->height + 1, group4 = layer->coder == 4;
    const uint32_t tags[TAGS][2] = {
        {TIFFTAG_IMAGEWIDTH, layer->width},
        {TIFFTAG_IMAGELENGTH, rows},
        {TIFFTAG_BITSPERSAMPLE, 1},
        {TIFFTAG_COMPRESSION, group4 ? COMPRESSION_CCITTFAX4 : COMPRESSION_CCITTFAX3},
        {TIFFTAG_PHOTOMETRIC, PHOTOMETRIC_MINISWHITE},
        {TIFFTAG_FILLORDER, FILLORDER_MSB2LSB},
        {TIFFTAG_STRIPOFFSETS, AROUND},
        {TIFFTAG_SAMPLESPERPIXEL, 1},
        {TIFFTAG_ROWSPERSTRIP, rows},
        {TIFFTAG_STRIPBYTECOUNTS, (uint32_t)layer->length},
        {group4 ? TIFFTAG_GROUP4OPTIONS : TIFFTAG_GROUP3OPTIONS,
         layer->coder == 2 ? GROUP3OPT_2DENCODING : 0}};
    memcpy(file->around, "II*\0\x08\0\0\0", DIRECTORY);
    put_little(file->around + DIRECTORY, 2, TAGS);
    for (int k = 0; k < TAGS; k++) {
        uint8_t *entry = file->around + DIRECTORY + 2 + 12 * k;
        put_little(entry, 2, tags[k][0]);
        put_little(entry + 2, 2, TIFF_LONG);
        put_little(entry + 4, 4, 1);
        put_little(entry + 8, 4, tags[k][1]);
    }
    put_little(file->around + AROUND - 4, 4, 0);
}

static tmsize_t read_part(thandle_t handle, void *to, tmsize_t count)
{
    fax_file *file = handle;
    uint64_t length = file_length(file), from = file->at < length ? file->at : length;
    uint64_t part = (uint64_t)count < length - from ? (uint64_t)count : length - from;
    for (uint64_t k = 0; k < part;) {
        bool front = from + k < AROUND;
        uint64_t left = front ? AROUND - (from + k) : part - k,
                 piece = left < part - k ? left : part - k;
        memcpy((uint8_t *)to + k,
               front ? file->around + from + k : file->layer->octets + (from + k - AROUND), piece);
        k += piece;
    }
    file->at = from + part;
    return (tmsize_t)part;
}

static tmsize_t write_nothing(thandle_t handle, void *from, tmsize_t count)
{
    (void)handle, (void)from, (void)count;
    return 0;
}

static toff_t seek(thandle_t handle, toff_t offset, int whence)
{
    fax_file *file = handle;
    file->at = whence == SEEK_SET   ? offset
               : whence == SEEK_CUR ? file->at + offset
                                    : file_length(file) + offset;
    return file->at;
}

static int close_nothing(thandle_t handle)
{
    (void)handle;
    return 0;
}

static toff_t size_of(thandle_t handle)
{
    return file_length(handle);
}

/* libtiff goes on where data is damaged, and only tells: any word of it counts. */
static void note_complaint(thandle_t handle, const char *module, const char *format, va_list words)
{
    (void)module, (void)format, (void)words;
    if (handle != NULL) {
        ((fax_file *)handle)->complained = true;
    }
}

static finding read_rows(TIFF *tiff, fax_file *file, uint8_t *bits, uint8_t *samples,
                         uint32_t *rows)
{
    const coded_layer *layer = file->layer;
    for (uint32_t y = 0; y < layer->height; y++) {
        memset(bits, 0, (layer->width + 7) / 8);
        if (TIFFReadScanline(tiff, bits, y, 0) != 1 || file->complained) {
            return LAYER_DAMAGED;
        }
        spread_bits(bits, layer->width, samples + (size_t)y * layer->width);
        *rows = y + 1;
    }
    return TIFFReadScanline(tiff, bits, layer->height, 0) == 1 && !file->complained
               ? LAYER_OTHER_SIZE
               : LAYER_READ;
}

finding decode_fax(const coded_layer *layer, uint8_t *samples, uint32_t *rows)
{
    fax_file file = {.layer = layer};
    if (layer->length > UINT32_MAX - AROUND) {
        return LAYER_NO_MEMORY;
    }
    put_around(&file);
    TIFFSetErrorHandler(NULL);
    TIFFSetWarningHandler(NULL);
    TIFFSetErrorHandlerExt(note_complaint);
    TIFFSetWarningHandlerExt(note_complaint);
    TIFF *tiff = TIFFClientOpen("layer", "rm", &file, read_part, write_nothing, seek, close_nothing,
                                size_of, NULL, NULL);
    uint8_t *bits = malloc((layer->width + 7) / 8);
    finding found = tiff == NULL || bits == NULL ? LAYER_NO_MEMORY
                    : file.complained            ? LAYER_DAMAGED
                                                 : read_rows(tiff, &file, bits, samples, rows);
    if (tiff != NULL) {
        TIFFClose(tiff);
    }
    free(bits);
    return found;
}
