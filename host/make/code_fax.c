/* Fax coders by libtiff: a TIFF file is made in memory, and its one strip is what a page has. */
#include <stdio.h>
#include <string.h>
#include <tiffio.h>

#include "coders.h"

/* A file in memory.  After a write that fails, all fail. */
typedef struct {
    octet_list list;
    uint64_t at;
    bool failed;
    trouble *what;
} memory_file;

static tmsize_t read_memory(thandle_t handle, void *to, tmsize_t count)
{
    memory_file *file = handle;
    uint64_t left = file->at < file->list.length ? file->list.length - file->at : 0;
    size_t size = count < 0 ? 0 : (uint64_t)count < left ? (size_t)count : (size_t)left;
    if (size > 0) {
        memcpy(to, file->list.octets + file->at, size);
    }
    file->at += size;
    return (tmsize_t)size;
}

/* A place behind the end may be written to; what is between becomes 0. */
static tmsize_t write_memory(thandle_t handle, void *from, tmsize_t count)
{
    memory_file *file = handle;
    octet_list *list = &file->list;
    size_t size = count < 0 ? 0 : (size_t)count;
    if (file->failed || file->at > SIZE_MAX - size || !make_room(list, (size_t)file->at + size)) {
        file->failed = true;
        return -1;
    }
    size_t at = (size_t)file->at;
    if (at > list->length) {
        memset(list->octets + list->length, 0, at - list->length);
    }
    if (size > 0) {
        memcpy(list->octets + at, from, size);
    }
    list->length = at + size > list->length ? at + size : list->length;
    file->at = at + size;
    return count;
}

static toff_t seek_memory(thandle_t handle, toff_t by, int from)
{
    memory_file *file = handle;
    file->at = from == SEEK_SET ? by : from == SEEK_CUR ? file->at + by : file->list.length + by;
    return file->at;
}

static int close_memory(thandle_t handle)
{
    (void)handle;
    return 0;
}

static toff_t size_of_memory(thandle_t handle)
{
    return ((memory_file *)handle)->list.length;
}

/* The handlers belong to one file: libtiff's own would print.  1: no other handler is asked. */
static int on_error(TIFF *tiff, void *data, const char *place, const char *form, va_list values)
{
    memory_file *file = data;
    char text[256];
    (void)tiff;
    (void)place;
    vsnprintf(text, sizeof text, form, values);
    file->failed = true;
    tell(file->what, "libtiff cannot code the mask: %s", text);
    return 1;
}

static int on_warning(TIFF *tiff, void *data, const char *place, const char *form, va_list values)
{
    (void)tiff;
    (void)data;
    (void)place;
    (void)form;
    (void)values;
    return 1;
}

static TIFF *open_memory(memory_file *file, const char *mode)
{
    TIFFOpenOptions *options = TIFFOpenOptionsAlloc();
    if (options == NULL) {
        return NULL;
    }
    TIFFOpenOptionsSetErrorHandlerExtR(options, on_error, file);
    TIFFOpenOptionsSetWarningHandlerExtR(options, on_warning, file);
    file->at = 0;
    TIFF *tiff = TIFFClientOpenExt("mask", mode, file, read_memory, write_memory, seek_memory,
                                   close_memory, size_of_memory, NULL, NULL, options);
    TIFFOpenOptionsFree(options);
    return tiff;
}

/* MINISWHITE: 1 is black, the ink of a mask. */
static bool set_tags(TIFF *tiff, const picture *mask, uint32_t coder)
{
    int scheme = coder == CODER_MMR ? COMPRESSION_CCITTFAX4 : COMPRESSION_CCITTFAX3;
    return TIFFSetField(tiff, TIFFTAG_IMAGEWIDTH, mask->width) == 1 &&
           TIFFSetField(tiff, TIFFTAG_IMAGELENGTH, mask->height) == 1 &&
           TIFFSetField(tiff, TIFFTAG_BITSPERSAMPLE, 1) == 1 &&
           TIFFSetField(tiff, TIFFTAG_SAMPLESPERPIXEL, 1) == 1 &&
           TIFFSetField(tiff, TIFFTAG_PHOTOMETRIC, PHOTOMETRIC_MINISWHITE) == 1 &&
           TIFFSetField(tiff, TIFFTAG_FILLORDER, FILLORDER_MSB2LSB) == 1 &&
           TIFFSetField(tiff, TIFFTAG_ROWSPERSTRIP, mask->height) == 1 &&
           TIFFSetField(tiff, TIFFTAG_COMPRESSION, scheme) == 1 &&
           (coder != CODER_MR ||
            TIFFSetField(tiff, TIFFTAG_GROUP3OPTIONS, GROUP3OPT_2DENCODING) == 1);
}

/* The end marks come with TIFFClose. */
static bool write_strip(memory_file *file, const picture *mask, uint32_t coder)
{
    TIFF *tiff = open_memory(file, "w");
    if (tiff == NULL) {
        return false;
    }
    tmsize_t size = (tmsize_t)(mask->row_octets * mask->height);
    bool done = set_tags(tiff, mask, coder) &&
                TIFFWriteEncodedStrip(tiff, 0, mask->samples, size) == size;
    TIFFClose(tiff);
    return done && !file->failed;
}

static bool take_strip(memory_file *file, octet_list *coded)
{
    TIFF *tiff = open_memory(file, "rm");
    if (tiff == NULL) {
        return false;
    }
    uint64_t size = TIFFRawStripSize64(tiff, 0);
    bool done = TIFFNumberOfStrips(tiff) == 1 && size > 0 && size <= file->list.length &&
                size <= SIZE_MAX - coded->length &&
                make_room(coded, coded->length + (size_t)size) &&
                TIFFReadRawStrip(tiff, 0, coded->octets + coded->length, (tmsize_t)size) ==
                    (tmsize_t)size;
    TIFFClose(tiff);
    coded->length += done ? (size_t)size : 0;
    return done && !file->failed;
}

bool code_fax(const picture *mask, uint32_t coder, octet_list *coded, trouble *what)
{
    memory_file file = {.what = what};
    /* for where libtiff fails and says nothing */
    tell(what, "libtiff cannot code the mask: there may be not enough memory");
    bool done = write_strip(&file, mask, coder) && take_strip(&file, coded);
    free_octets(&file.list);
    return done;
}
