/* Codes a picture of CIELAB codes as a JPEG layer with its resolution, by
 * libjpeg:
 *
 *   lab_jpeg RESOLUTION QUALITY WORD .. < picture.ppm > layer.jpg
 *
 * Words: progressive, restart (a marker behind each row of blocks), dense (one
 * behind each block), half (colour at half the samples both ways), grey (one
 * component, from a PGM). */
#include <stdbool.h>
#include <stdio.h>
#include <stdlib.h>
#include <string.h>

#include <jpeglib.h>

enum { MOST = 65500 };

static bool has_word(char **words, const char *word)
{
    for (; *words != NULL; words++) {
        if (strcmp(*words, word) == 0) {
            return true;
        }
    }
    return false;
}

static void set_options(struct jpeg_compress_struct *coder, char **words)
{
    if (has_word(words, "progressive")) {
        jpeg_simple_progression(coder);
    }
    if (has_word(words, "restart")) {
        coder->restart_in_rows = 1;
    }
    if (has_word(words, "dense")) {
        coder->restart_interval = 1;
    }
    int sampling = has_word(words, "half") ? 2 : 1;
    coder->comp_info[0].h_samp_factor = sampling;
    coder->comp_info[0].v_samp_factor = sampling;
}

/* T.4, Annex E: G3FAX0 holds the year of the standard and the resolution. */
static void write_resolution(struct jpeg_compress_struct *coder, int resolution)
{
    const JOCTET segment[] = {'G',
                              '3',
                              'F',
                              'A',
                              'X',
                              0,
                              0x07,
                              0xCA,
                              (JOCTET)(resolution / 256),
                              (JOCTET)(resolution % 256)};
    jpeg_write_marker(coder, JPEG_APP0 + 1, segment, sizeof segment);
}

static void write_rows(struct jpeg_compress_struct *coder)
{
    static JSAMPLE samples[MOST * 3];
    JSAMPROW row = samples;
    size_t size = (size_t)coder->image_width * (size_t)coder->input_components;
    while (coder->next_scanline < coder->image_height) {
        if (fread(samples, 1, size, stdin) != size) {
            fputs("the picture is short\n", stderr);
            exit(EXIT_FAILURE);
        }
        jpeg_write_scanlines(coder, &row, 1);
    }
}

int main(int arguments, char **words)
{
    struct jpeg_compress_struct coder;
    struct jpeg_error_mgr errors;
    unsigned width, height;
    bool grey = has_word(words, "grey");
    const char *head = grey ? "P5 %u %u 255" : "P6 %u %u 255";
    if (arguments < 3 || scanf(head, &width, &height) != 2 || getchar() == EOF || width > MOST) {
        fputs("lab_jpeg RESOLUTION QUALITY WORD .. < picture\n", stderr);
        return EXIT_FAILURE;
    }
    coder.err = jpeg_std_error(&errors);
    jpeg_create_compress(&coder);
    jpeg_stdio_dest(&coder, stdout);
    coder.image_width = width;
    coder.image_height = height;
    coder.input_components = grey ? 1 : 3;
    /* as it stands: CIELAB codes are not to be converted */
    coder.in_color_space = grey ? JCS_GRAYSCALE : JCS_YCbCr;
    jpeg_set_defaults(&coder);
    jpeg_set_quality(&coder, atoi(words[2]), TRUE);
    coder.write_JFIF_header = FALSE;
    set_options(&coder, words);
    jpeg_start_compress(&coder, TRUE);
    write_resolution(&coder, atoi(words[1]));
    write_rows(&coder);
    jpeg_finish_compress(&coder);
    jpeg_destroy_compress(&coder);
    return EXIT_SUCCESS;
}
