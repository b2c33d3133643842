/* JPEG by libjpeg, on CIELAB codes as they stand (T.42), with the resolution in a G3FAX0 segment
 * (T.4, Annex E). */
#include <setjmp.h>
#include <stdio.h>

#include <jpeglib.h>

#include "coders.h"

enum { CHUNK = 65536 };

/* The coder first: libjpeg's callbacks have a pointer to it. */
typedef struct {
    struct jpeg_compress_struct coder;
    struct jpeg_error_mgr errors;
    struct jpeg_destination_mgr destination;
    jmp_buf back;
    octet_list *coded;
    trouble *what;
    JOCTET chunk[CHUNK];
} jpeg_writer;

static void on_error(j_common_ptr coder)
{
    jpeg_writer *writer = (jpeg_writer *)coder;
    char text[JMSG_LENGTH_MAX];
    coder->err->format_message(coder, text);
    tell(writer->what, "libjpeg cannot code the image: %s", text);
    longjmp(writer->back, 1);
}

static void print_nothing(j_common_ptr coder)
{
    (void)coder;
}

static void begin_chunk(j_compress_ptr coder)
{
    jpeg_writer *writer = (jpeg_writer *)coder;
    writer->destination.next_output_byte = writer->chunk;
    writer->destination.free_in_buffer = CHUNK;
}

static void take_chunk(jpeg_writer *writer, size_t count)
{
    if (!add_octets(writer->coded, writer->chunk, count)) {
        tell_no_memory(writer->what);
        longjmp(writer->back, 1);
    }
}

static boolean next_chunk(j_compress_ptr coder)
{
    take_chunk((jpeg_writer *)coder, CHUNK);
    begin_chunk(coder);
    return TRUE;
}

static void last_chunk(j_compress_ptr coder)
{
    jpeg_writer *writer = (jpeg_writer *)coder;
    take_chunk(writer, CHUNK - writer->destination.free_in_buffer);
}

/* The same in and out: no conversion, and nothing in the file that would tell of another colour
 * space. */
static void set_options(j_compress_ptr coder, const picture *image, const jpeg_wish *wish)
{
    coder->image_width = image->width;
    coder->image_height = image->height;
    coder->input_components = wish->grey ? 1 : 3;
    coder->in_color_space = wish->grey ? JCS_GRAYSCALE : JCS_YCbCr;
    jpeg_set_defaults(coder);
    jpeg_set_quality(coder, wish->quality, TRUE);
    coder->write_JFIF_header = FALSE;
    coder->comp_info[0].h_samp_factor = wish->half && !wish->grey ? 2 : 1;
    coder->comp_info[0].v_samp_factor = wish->half && !wish->grey ? 2 : 1;
    if (wish->progressive) {
        jpeg_simple_progression(coder);
    }
}

static void write_resolution(j_compress_ptr coder, uint32_t resolution)
{
    const JOCTET segment[] = {'G',
                              '3',
                              'F',
                              'A',
                              'X',
                              0,
                              0x07,
                              0xCA,
                              (JOCTET)(resolution >> 8 & 255),
                              (JOCTET)(resolution & 255)};
    jpeg_write_marker(coder, JPEG_APP0 + 1, segment, sizeof segment);
}

static bool write_image(jpeg_writer *writer, const picture *image, const jpeg_wish *wish)
{
    j_compress_ptr coder = &writer->coder;
    if (setjmp(writer->back) != 0) {
        return false;
    }
    jpeg_create_compress(coder);
    coder->dest = &writer->destination;
    set_options(coder, image, wish);
    jpeg_start_compress(coder, TRUE);
    write_resolution(coder, wish->resolution);
    while (coder->next_scanline < coder->image_height) {
        JSAMPROW row = image->samples + coder->next_scanline * image->row_octets;
        jpeg_write_scanlines(coder, &row, 1);
    }
    jpeg_finish_compress(coder);
    return true;
}

bool code_jpeg(const picture *image, const jpeg_wish *wish, octet_list *coded, trouble *what)
{
    jpeg_writer writer = {.coded = coded, .what = what};
    size_t before = coded->length;
    writer.coder.err = jpeg_std_error(&writer.errors);
    writer.errors.error_exit = on_error;
    writer.errors.output_message = print_nothing;
    writer.destination.init_destination = begin_chunk;
    writer.destination.empty_output_buffer = next_chunk;
    writer.destination.term_destination = last_chunk;
    bool done = write_image(&writer, image, wish);
    jpeg_destroy_compress(&writer.coder);
    if (!done) {
        coded->length = before;
    }
    return done;
}
