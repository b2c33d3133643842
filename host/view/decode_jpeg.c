/* JPEG through libjpeg.  Its components are CIELAB codes, which it takes for YCbCr and is kept from
 * converting. */
#include "decoders.h"

#include <setjmp.h>
#include <stdio.h>
#include <stdlib.h>

#include <jpeglib.h>
#include <jerror.h>

typedef struct {
    struct jpeg_error_mgr errors;
    jmp_buf out;
    finding found;
} jpeg_trouble;

static finding finding_of(int code)
{
    switch (code) {
    case JERR_OUT_OF_MEMORY:
    case JERR_NO_BACKING_STORE:
    case JERR_WIDTH_OVERFLOW: return LAYER_NO_MEMORY;
    case JERR_SOF_UNSUPPORTED:
    case JERR_BAD_PRECISION:
    case JERR_ARITH_NOTIMPL:
    case JERR_CONVERSION_NOTIMPL:
    case JERR_IMAGE_TOO_BIG:
    case JERR_COMPONENT_COUNT:
    case JERR_BAD_J_COLORSPACE:
    case JERR_CCIR601_NOTIMPL:
    case JERR_FRACT_SAMPLE_NOTIMPL:
    case JERR_NOT_COMPILED: return LAYER_NO_DECODER;
    default: return LAYER_DAMAGED;
    }
}

static void leave(j_common_ptr common)
{
    jpeg_trouble *trouble = (jpeg_trouble *)common->err;
    trouble->found = finding_of(common->err->msg_code);
    longjmp(trouble->out, 1);
}

/* libjpeg warns of damaged data and goes on with what it can make of it: that is not the layer. */
static void leave_at_warning(j_common_ptr common, int level)
{
    if (level < 0) {
        leave(common);
    }
}

static void say_nothing(j_common_ptr common)
{
    (void)common;
}

/* Called before each piece of work.  Each scan passes over the whole picture, and a page has room
 * for millions. */
static void count_scans(j_common_ptr common)
{
    if (((j_decompress_ptr)common)->input_scan_number > MOST_SCANS) {
        jpeg_trouble *trouble = (jpeg_trouble *)common->err;
        trouble->found = LAYER_MANY_SCANS;
        longjmp(trouble->out, 1);
    }
}

/* libjpeg says nothing where scans are missing at the end: each component must have come, in a
 * progressive picture to its last bit. */
static bool all_came(const struct jpeg_decompress_struct *decoder)
{
    for (int c = 0; c < decoder->num_components; c++) {
        if (decoder->comp_info[c].quant_table == NULL) {
            return false;
        }
        for (int k = 0; decoder->coef_bits != NULL && k < DCTSIZE2; k++) {
            if (decoder->coef_bits[c][k] != 0) {
                return false;
            }
        }
    }
    return true;
}

/* Whether the data is what its record tells.  Of a page's own layers the library has seen to that;
 * of a pencil's nobody has. */
static finding judge_header(const struct jpeg_decompress_struct *decoder, const coded_layer *layer)
{
    if (decoder->image_width != layer->width || decoder->image_height != layer->height) {
        return LAYER_OTHER_SIZE;
    }
    if (decoder->num_components != 1 && decoder->num_components != 3) {
        return LAYER_NO_DECODER;
    }
    return (decoder->num_components == 1) == layer->grey ? LAYER_READ : LAYER_OTHER_COLOURS;
}

static finding read_picture(struct jpeg_decompress_struct *decoder, const coded_layer *layer,
                            uint8_t *samples, uint32_t *rows)
{
    jpeg_read_header(decoder, TRUE);
    finding judged = judge_header(decoder, layer);
    if (judged != LAYER_READ) {
        return judged;
    }
    decoder->jpeg_color_space = decoder->out_color_space = layer->grey ? JCS_GRAYSCALE : JCS_YCbCr;
    jpeg_start_decompress(decoder);
    while (decoder->output_scanline < decoder->output_height) {
        JSAMPROW row = samples + sample_octets(layer) * layer->width * decoder->output_scanline;
        jpeg_read_scanlines(decoder, &row, 1);
        *rows = decoder->output_scanline;
    }
    bool whole = all_came(decoder);
    jpeg_finish_decompress(decoder);
    return whole && decoder->src->bytes_in_buffer == 0 ? LAYER_READ : LAYER_DAMAGED;
}

finding decode_jpeg(const coded_layer *layer, uint8_t *samples, size_t memory, uint32_t *rows)
{
    struct jpeg_decompress_struct decoder;
    struct jpeg_progress_mgr progress = {.progress_monitor = count_scans};
    jpeg_trouble trouble = {.found = LAYER_NO_MEMORY};
    decoder.err = jpeg_std_error(&trouble.errors);
    trouble.errors.error_exit = leave;
    trouble.errors.emit_message = leave_at_warning;
    trouble.errors.output_message = say_nothing;
    if (setjmp(trouble.out) != 0) {
        jpeg_destroy_decompress(&decoder);
        return trouble.found;
    }
    jpeg_create_decompress(&decoder);
    decoder.mem->max_memory_to_use = (long)memory;
    decoder.progress = &progress;
    jpeg_mem_src(&decoder, layer->octets, layer->length);
    finding found = read_picture(&decoder, layer, samples, rows);
    jpeg_destroy_decompress(&decoder);
    return found;
}

void ready_jpeg(void)
{
    struct jpeg_compress_struct coder = {0};
    jpeg_trouble trouble;
    unsigned char *octets = NULL;
    unsigned long length = 0;
    coder.err = jpeg_std_error(&trouble.errors);
    trouble.errors.error_exit = leave;
    if (setjmp(trouble.out) == 0) {
        jpeg_create_compress(&coder);
        jpeg_mem_dest(&coder, &octets, &length);
        coder.image_width = coder.image_height = 1;
        coder.input_components = 1;
        coder.in_color_space = JCS_GRAYSCALE;
        jpeg_set_defaults(&coder);
        jpeg_start_compress(&coder, TRUE);
    }
    jpeg_destroy_compress(&coder);
    free(octets);
}
