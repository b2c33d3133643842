/* Decodes a JPEG layer by libjpeg as it stands, without conversion:
 *
 *   lab_samples < layer.jpg > samples
 *
 * The samples are those of a PGM or PPM: one octet or three, row by row. Any
 * warning of libjpeg ends it with status 1. */
#include <stdio.h>
#include <stdlib.h>

#include <jpeglib.h>

int main(void)
{
    struct jpeg_decompress_struct decoder;
    struct jpeg_error_mgr errors;
    decoder.err = jpeg_std_error(&errors);
    jpeg_create_decompress(&decoder);
    jpeg_stdio_src(&decoder, stdin);
    jpeg_read_header(&decoder, TRUE);
    /* the same space in and out: nothing is converted */
    J_COLOR_SPACE space = decoder.num_components == 1 ? JCS_GRAYSCALE : JCS_YCbCr;
    decoder.jpeg_color_space = space;
    decoder.out_color_space = space;
    jpeg_start_decompress(&decoder);
    size_t size = (size_t)decoder.output_width * (size_t)decoder.output_components;
    JSAMPROW row = malloc(size);
    if (row == NULL) {
        return EXIT_FAILURE;
    }
    printf("P%d %u %u 255\n", decoder.output_components == 1 ? 5 : 6, decoder.output_width,
           decoder.output_height);
    while (decoder.output_scanline < decoder.output_height) {
        jpeg_read_scanlines(&decoder, &row, 1);
        fwrite(row, 1, size, stdout);
    }
    jpeg_finish_decompress(&decoder);
    int warnings = (int)errors.num_warnings;
    jpeg_destroy_decompress(&decoder);
    free(row);
    return warnings == 0 ? EXIT_SUCCESS : EXIT_FAILURE;
}
