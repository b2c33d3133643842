/* Spirerook reads a mixed raster page (ITU-T T.44, Mode 1) into a table of its layers, the sheet;
 * writes a page from a sheet; judges a sheet; hands out the coded data of a layer; and composes
 * decoded layers into lines and bands of pixels.  docs/C-API.md is the manual, with an example.
 *
 * Of all calls:
 * - A caller lends octets for the time of the call, a length beside each pointer.  Any octets of
 *   any length may be lent, and any numbers given: a call does its work, or refuses with a number
 *   and a place.  A null pointer is taken where the length is 0.
 * - What is lent for reading (const) is left as it was and may overlap or be the same.  What is
 *   lent for writing may overlap nothing else that is lent.
 * - A refusal changes no octet; Done changes those that it counts, from the first on, and none
 *   behind them.
 * - No call allocates, keeps anything from one call to the next, reads a clock or a file, or calls
 *   back.  They share no state: threads may call at once, each with its own buffers for writing.
 * - No call recurses; each takes less stack than SPIREROOK_STACK, whatever it is lent.
 * - All numbers in octets are most significant octet first. */
#ifndef SPIREROOK_H
#define SPIREROOK_H

#include <stddef.h>
#include <stdint.h>

#ifdef __cplusplus
extern "C" {
#endif

/* The first number, which is the shared object's too, changes with a call or struct that viewers
 * link, and with what they must lend a call; the second with a call that is added or with pages that
 * are read and were not. */
/* 1.1.0: spirerook_judge.
 * 1.2.0: spirerook_line_unseen; unseen pixels of spirerook_line are 128 128 96 0, no longer 0 0 0 0
 *        (what a program does that looks for those: at spirerook_line_unseen).
 * 1.3.0: octets FF before a marker of a JPEG layer are fill; such pages were BadLayer, and such
 *        layers Mismatch.  What was Done before is Done with the same octets.
 * 2.0.0: grey layers.  Octet 17 of a record is 1 where its JPEG data has one component
 *        (spirerook_record_grey), and the samples of such a layer are one octet each, no longer
 *        three.  A program of before would lend three, and be shown a wrong picture without a
 *        refusal: it must be changed and compiled anew (docs/C-API.md, "Grey layers").
 *        JPEG data of components other than one and three was read, and is BadLayer.
 *        A sheet of before has octet 17 = 0 over one component too: it is kept, samples of that layer
 *        stay three octets, and writing it is Mismatch.
 * 2.1.0: spirerook_band. */
#define SPIREROOK_VERSION "2.1.0"

/* ---- Bounds ---- */

/* clang-format off */
#define SPIREROOK_RECORD_OCTETS 28      /* of a record of the sheet */
#define SPIREROOK_STRIPES 64            /* of a page, at most */
#define SPIREROOK_LAYERS 15             /* of a stripe, at most; 3 in a Mode 1 page */
#define SPIREROOK_RECORDS 960           /* of a sheet, at most: 64 stripes of 15 layers */
#define SPIREROOK_PAGE_SHEET_OCTETS 5376 /* hold the sheet of any Mode 1 page: 64 stripes of 3 records */
#define SPIREROOK_SHEET_OCTETS 26880    /* of a sheet, at most: 960 records */
#define SPIREROOK_PAGE_OCTETS 16777215  /* of a page, at most */
#define SPIREROOK_WIDTH 32768           /* of a page in pixels, at most; 1 at least */
#define SPIREROOK_HEIGHT 65535          /* of all stripes of a page together, at most; 1 at least for each */
#define SPIREROOK_PLANE_OCTETS 5        /* of an entry of the plane list */
#define SPIREROOK_PIXEL_OCTETS 4        /* of a pixel of a line: the colour, and 1 where it is seen */
#define SPIREROOK_LINE_OCTETS 131072    /* of a line, at most: 4 times the width */
#define SPIREROOK_STACK 16384           /* a thread of this stack size may make any call */

/* clang-format on */

/* ---- Colours ---- */

/* A colour is three octets, the CIELAB codes of T.42 in its default range, under D50:
 *   L* = L x 100/255     a* = (a - 128) x 170/255     b* = (b - 96) x 200/255
 * White is 255 128 96, black 0 128 96, and every grey has 128 96 behind its lightness.  Base colours,
 * the samples of image layers and the pixels of a line are all such codes; the library carries them
 * as they stand.
 * The JPEG data of an image layer holds them as its three components.  It is not YCbCr, though
 * decoders take it for that: their conversion of colours must be off.  With libjpeg, behind
 * jpeg_read_header and before jpeg_start_decompress:
 *   jpeg.jpeg_color_space = jpeg.out_color_space = JCS_YCbCr;
 * A layer of one component has lightness alone (with libjpeg JCS_GRAYSCALE, for both).  It is a grey
 * layer, spirerook_record_grey is 1: its samples are one octet each, the lightness, and nobody
 * widens them; spirerook_line gives the colour, the octet and 128 96 behind it.
 * For a screen, spirerook_lab_to_srgb in spirerook_colour.h makes sRGB of a colour. */

/* The colour that spirerook_line gives unseen pixels, a middle grey: three octets, as three
 * arguments or as what an array begins with. */
#define SPIREROOK_UNSEEN 128, 128, 96

/* clang-format off */
/* ---- Numbers ---- */

/* Each answer has one of these: number, constant, name, and what it tells. */
#define SPIREROOK_NUMBERS(X) \
    X(0, DONE, "Done", "the call did its work") \
    X(1, SHORT, "Short", "octets end before a field or coded data does") \
    X(2, BAD_MARK, "BadMark", "another marker or ident is due here") \
    X(3, BAD_LENGTH, "BadLength", "the length of a segment is not one it may have") \
    X(4, BAD_VERSION, "BadVersion", "the version must be 0") \
    X(5, BAD_MODE, "BadMode", "the mode must be 1, and a page that is written has no layer above 3") \
    X(6, BAD_CODER, "BadCoder", "no coder has this octet") \
    X(7, BAD_RES, "BadRes", "a resolution is none of the six, or does not divide the page's") \
    X(8, BAD_WIDTH, "BadWidth", "the page's width must be 1 to 32768") \
    X(9, BAD_TYPE, "BadType", "a stripe cannot have these layers, or the page names no coder for one of them") \
    X(10, BAD_STRIPE, "BadStripe", "a stripe's height, offset or mask length is wrong, or there are no stripes or more than 64") \
    X(11, BAD_LAYER, "BadLayer", "the JPEG data of an image layer is not well formed") \
    X(12, TRAILING, "Trailing", "only zero octets may follow the end of the page") \
    X(13, NO_ROOM, "NoRoom", "the buffer is too small for the result") \
    X(14, BAD_SHEET, "BadSheet", "the sheet breaks one of its rules") \
    X(15, BAD_PLANE, "BadPlane", "the plane list names a layer that is not there, not coded or out of order, or samples that are not there") \
    X(16, MISMATCH, "Mismatch", "a layer's coded data is not what its record says, or a second mask coder is used") \
    X(17, BAD_LINE, "BadLine", "there is no such stripe, line or layer") \
    X(18, TOO_LONG, "TooLong", "a page has at most 16777215 octets")

enum {
#define SPIREROOK_CONSTANT(number, constant, name, text) SPIREROOK_##constant = number,
    SPIREROOK_NUMBERS(SPIREROOK_CONSTANT)
#undef SPIREROOK_CONSTANT
    SPIREROOK_NUMBER_COUNT = 19
};

/* The name of a number, as "BadRes"; of one that no call gives, "unknown". */
static inline const char *spirerook_name(uint32_t number)
{
    switch (number) {
#define SPIREROOK_CASE(number, constant, name, text) case number: return name;
        SPIREROOK_NUMBERS(SPIREROOK_CASE)
#undef SPIREROOK_CASE
        default: return "unknown";
    }
}

/* What a number tells, for people: a phrase without a capital or a full stop. */
static inline const char *spirerook_text(uint32_t number)
{
    switch (number) {
#define SPIREROOK_CASE(number, constant, name, text) case number: return text;
        SPIREROOK_NUMBERS(SPIREROOK_CASE)
#undef SPIREROOK_CASE
        default: return "no call gives this number";
    }
}

/* clang-format on */

/* ---- Answers ---- */

/* number: one of the above.
 * place:  of a refusal, where the fault is, as each call says below; of Done, 0.
 * count:  of Done, the records or octets written, the records judged, or the octets of the part; of a
 *         refusal, 0. */
typedef struct {
    uint32_t number, place;
    uint64_t count;
} spirerook_answer;

/* The same, and where the part stands: count octets from start on, of the page (source 0) or of the
 * pencil file (source 1).  An empty part, that is every one of count 0, has source 0 and start
 * 0. */
typedef struct {
    uint32_t number, place;
    uint64_t count;
    uint32_t source, start;
} spirerook_part;

enum { SPIREROOK_FROM_PAGE = 0, SPIREROOK_FROM_PENCIL = 1 };

/* ---- Calls ---- */

/* Reads a page into the sheet: three records a stripe; count tells how many records.
 * Lent: the page, for reading; room for the sheet, for writing (SPIREROOK_PAGE_SHEET_OCTETS are
 * enough for any page).
 * Numbers, in this order:
 *   TooLong, place 0: the page has more than SPIREROOK_PAGE_OCTETS octets; nothing of it is looked
 *     at.
 *   Short, BadMark, BadLength, BadVersion, BadMode, BadCoder, BadRes, BadWidth, BadType, BadStripe,
 *     BadLayer, Trailing: the first fault in the order of the page's octets.  The place is the
 *     first octet of the field at fault, from 0; it equals the page's length where a field is due
 *     at its end.  A marker of a JPEG layer may have any number of octets FF before it, but for the
 *     layer's first, and its place is the first of them.  The page's own markers have none.  A
 *     frame of components other than one and three is BadLayer at the octet that counts them, which is
 *     judged behind height and width.
 *   NoRoom, place 0: 28 octets a record do not fit.
 *   Done.  Octets behind the records stay as they were. */
spirerook_answer spirerook_read(const uint8_t *page, size_t page_len, uint8_t *sheet,
                                size_t sheet_len);

/* Writes the page of a sheet; count tells how many octets: 26, 39 a stripe, and the coded data.
 * There are no optional segments and no padding.
 * Lent: the sheet and the data that the starts of its records point into, both for reading; room
 * for the page, for writing.  Records may share data.
 * Numbers, in this order; places are records, from 0:
 *   BadSheet: the first record that breaks a rule; it equals the number of whole records where one
 *     more was due.
 *   BadMode: the first record of a layer above 3.
 *   Short or Mismatch, record by record: coded data passes the end of the data (Short, judged
 *     first); or an image's data is not just the JPEG layer that its record tells, its components
 *     by octet 17 among that, or a mask's coder is not that of an earlier coded mask (Mismatch).
 *   TooLong, place 0: the page would have more than SPIREROOK_PAGE_OCTETS octets.
 *   NoRoom, place 0: the page does not fit.
 *   Done.  Octets behind the page stay as they were.
 * Time: a walk over the data of each coded image record, 128 of them at most, and one copy of the
 * page.  Records that share long data are walked each, even where the page turns out too long. */
spirerook_answer spirerook_write(const uint8_t *sheet, size_t sheet_len, const uint8_t *data,
                                 size_t data_len, uint8_t *page, size_t page_len);

/* Composes a line of a stripe, both counted from 0, out of decoded layers; count tells how many
 * octets: four a pixel of the page's width, left to right.
 * A pixel is its colour and 1 where it is seen, or SPIREROOK_UNSEEN and 0 where it is unseen: it is
 * seen exactly if it has one colour whatever the layers hold that were not read.  A seen pixel may
 * have that colour too: the fourth octet alone tells.
 * Lent: the sheet, the plane list and the samples, for reading; room for the line, for writing.
 * The plane list tells which coded layers of the stripe were read: entries of five octets, the
 * layer and four of its start in the samples, layers rising.  From its start a layer has its own
 * width by height, row by row, one octet a sample of a mask (0 is 0, all else 1), one of a grey layer
 * (its colour is that octet, 128, 96) and three of any other image layer: so many octets as
 * spirerook_record_samples says.  Layers may share samples; coded layers that are not listed are
 * unread.  An unread grey layer holds some grey, and no other colour.
 * Numbers, in this order:
 *   BadSheet: the place is the first record that breaks a rule, from 0, or the number of whole
 *     records where one more was due.
 *   BadLine, place 0: the sheet has no such stripe, or the stripe no such line.
 *   BadPlane: the place is the first entry, from 0, whose layer the stripe does not have or has
 *     uncoded, or is not above that of the entry before, or runs past the samples; or the number of
 *     whole entries, where a part of one stands behind them.
 *   NoRoom, place 0: four octets a pixel do not fit.
 *   Done.  Octets behind the line stay as they were. */
spirerook_answer spirerook_line(const uint8_t *sheet, size_t sheet_len, const uint8_t *planes,
                                size_t planes_len, const uint8_t *samples, size_t samples_len,
                                uint32_t stripe, uint32_t line, uint8_t *out, size_t out_len);

/* The same with another colour for unseen pixels: they are u0 u1 u2 0, whatever three octets these
 * are.  Answers, places and all seen pixels are those of spirerook_line, which is this call with
 * SPIREROOK_UNSEEN.
 * With 0, 0, 0 it is spirerook_line as it was before version 1.2.0, for all that may be lent but
 * sheets with grey layers, which were BadSheet then.  So a program that looks for 0 0 0 0 calls this
 * one, or goes by the fourth octet. */
spirerook_answer spirerook_line_unseen(const uint8_t *sheet, size_t sheet_len,
                                       const uint8_t *planes, size_t planes_len,
                                       const uint8_t *samples, size_t samples_len, uint32_t stripe,
                                       uint32_t line, uint8_t u0, uint8_t u1, uint8_t u2,
                                       uint8_t *out, size_t out_len);

/* Composes a whole stripe, counted from 0: its lines from the top down, one behind the other, each as
 * spirerook_line_unseen gives it; count tells how many octets: four a pixel, the page's width by the
 * stripe's height (spirerook_band_octets).  So the pixel at x, y stands at 4 x (y x width + x).
 * What is lent is that of spirerook_line_unseen, with room for the band.  One call for all lines
 * judges once what each line would: it is the faster way to a picture.
 * Numbers, in this order:
 *   BadSheet, as of a line.
 *   BadLine, place 0: the sheet has no such stripe.
 *   BadPlane, as of a line.
 *   NoRoom, place 0: four octets a pixel of the stripe do not fit.
 *   Done.  Octets behind the band stay as they were. */
spirerook_answer spirerook_band(const uint8_t *sheet, size_t sheet_len, const uint8_t *planes,
                                size_t planes_len, const uint8_t *samples, size_t samples_len,
                                uint32_t stripe, uint8_t u0, uint8_t u1, uint8_t u2, uint8_t *out,
                                size_t out_len);

/* Tells where the coded data of a layer stands, and copies none of it: layers 1 to 3 have it in the
 * page, higher ones in the pencil file.  Stripes are counted from 0, layers from 1.  The part of a
 * layer that is not coded is empty, and so is that of a refusal.
 * Lent: the sheet, the page and the pencil file, all for reading.  Nothing is written, and of the
 * page and the pencil file only the lengths matter.
 * Numbers, in this order:
 *   BadSheet: the place is the first record that breaks a rule, from 0, or the number of whole
 *     records where one more was due.
 *   BadLine, place 0: the sheet has no such stripe, or the stripe no such layer.
 *   Short: the layer's data passes the end of its source; the place is the layer's record, from 0.
 *   Done: the part lies within its source. */
spirerook_part spirerook_data(const uint8_t *sheet, size_t sheet_len, const uint8_t *page,
                              size_t page_len, const uint8_t *pencil, size_t pencil_len,
                              uint32_t stripe, uint32_t layer);

/* Judges a sheet; count tells how many records it has.  Every call that is lent a sheet judges it
 * first, by the same rules: this one does nothing else, for those who get or make one.
 * Lent: the sheet, for reading.  Nothing is written.
 * Numbers:
 *   BadSheet: the place is the first record that breaks a rule, from 0, or the number of whole
 *     records where one more was due.  A sheet of no octets is refused, at 0.
 *   Done. */
spirerook_answer spirerook_judge(const uint8_t *sheet, size_t sheet_len);

/* ---- Records ---- */

/* The fields of a record.  Each reader below is lent the 28 octets of one record. */
static inline uint32_t spirerook_get2(const uint8_t *octets)
{
    return (uint32_t)octets[0] << 8 | octets[1];
}

static inline uint32_t spirerook_get4(const uint8_t *octets)
{
    return spirerook_get2(octets) << 16 | spirerook_get2(octets + 2);
}

/* Record k of a sheet, from 0. */
static inline const uint8_t *spirerook_record_at(const uint8_t *sheet, size_t k)
{
    return sheet + k * SPIREROOK_RECORD_OCTETS;
}

/* clang-format off */
static inline uint32_t spirerook_record_stripe(const uint8_t *record) { return spirerook_get2(record); }

/* 1 the background, 2 the mask, 3 the foreground; above, even ones are masks and odd ones
 * images. */
static inline uint32_t spirerook_record_layer(const uint8_t *record) { return record[2]; }

/* Of a mask 1 (MH), 2 (MR), 4 (MMR) or 8 (JBIG as T.85 has it), of an image 1 (JPEG); 0 where the
 * layer is not coded. */
static inline uint32_t spirerook_record_coder(const uint8_t *record) { return record[3]; }

/* Offsets in pixels of the page, from the stripe's upper left corner. */
static inline uint32_t spirerook_record_x(const uint8_t *record) { return spirerook_get2(record + 4); }
static inline uint32_t spirerook_record_y(const uint8_t *record) { return spirerook_get2(record + 6); }

/* In the layer's own samples.  Those of layer 2 are the page's width and the stripe's height, coded
 * or not. */
static inline uint32_t spirerook_record_width(const uint8_t *record) { return spirerook_get2(record + 8); }
static inline uint32_t spirerook_record_height(const uint8_t *record) { return spirerook_get2(record + 10); }

/* 100, 200, 300, 400, 600 or 1200; that of layer 2 is the page's, and all others divide it. */
static inline uint32_t spirerook_record_resolution(const uint8_t *record) { return spirerook_get2(record + 12); }

/* The three octets of the base colour. */
static inline const uint8_t *spirerook_record_base(const uint8_t *record) { return record + 14; }

/* 1 where the layer is grey: an image whose JPEG data has one component; 0 of all others, masks and
 * layers that are not coded among them. */
static inline uint32_t spirerook_record_grey(const uint8_t *record) { return record[17]; }

/* Where the coded data stands. */
static inline uint32_t spirerook_record_start(const uint8_t *record) { return spirerook_get4(record + 18); }
static inline uint32_t spirerook_record_length(const uint8_t *record) { return spirerook_get4(record + 22); }

/* 1 where the layer is coded, 0 where not. */
static inline int spirerook_record_coded(const uint8_t *record) { return spirerook_record_length(record) != 0; }

/* 1 where the layer is a mask, 0 where it is an image. */
static inline int spirerook_record_mask(const uint8_t *record) { return record[2] % 2 == 0; }

/* clang-format on */

/* The octets that the layer's decoded samples take: one a sample of a mask and of a grey layer, three
 * of any other image; 0 where it is not coded. */
static inline uint64_t spirerook_record_samples(const uint8_t *record)
{
    uint64_t count = (uint64_t)spirerook_record_width(record) * spirerook_record_height(record);
    int one = spirerook_record_mask(record) || spirerook_record_grey(record) == 1;
    return spirerook_record_coded(record) ? count * (one ? 1 : 3) : 0;
}

/* The octets of a stripe's band, from the stripe's record of layer 2: up to 2^33, so that a size_t of
 * 32 bits may not hold them. */
static inline uint64_t spirerook_band_octets(const uint8_t *second)
{
    return (uint64_t)SPIREROOK_PIXEL_OCTETS * spirerook_record_width(second) *
           spirerook_record_height(second);
}

/* ---- Makers ---- */

static inline void spirerook_put2(uint8_t *octets, uint32_t value)
{
    octets[0] = (uint8_t)(value >> 8 & 255);
    octets[1] = (uint8_t)(value & 255);
}

static inline void spirerook_put4(uint8_t *octets, uint32_t value)
{
    spirerook_put2(octets, value >> 16);
    spirerook_put2(octets + 2, value & 65535);
}

/* An entry of the plane list: SPIREROOK_PLANE_OCTETS octets.  Layers rise from entry to entry, and
 * are at most SPIREROOK_LAYERS. */
static inline void spirerook_put_plane(uint8_t *entry, uint32_t layer, uint32_t start)
{
    entry[0] = (uint8_t)(layer & 255);
    spirerook_put4(entry + 1, start);
}

/* The fields of a record by name, for those who make a sheet. */
typedef struct {
    uint32_t stripe, layer, coder, x, y, width, height, resolution;
    uint8_t base[3];
    uint32_t start, length;
    uint32_t grey; /* 1 where JPEG data has one component, else 0 */
} spirerook_record;

/* A record: SPIREROOK_RECORD_OCTETS octets.  Whether it keeps the rules of a sheet, spirerook_judge
 * says. */
static inline void spirerook_put_record(uint8_t *record, const spirerook_record *fields)
{
    spirerook_put2(record, fields->stripe);
    record[2] = (uint8_t)(fields->layer & 255);
    record[3] = (uint8_t)(fields->coder & 255);
    spirerook_put2(record + 4, fields->x);
    spirerook_put2(record + 6, fields->y);
    spirerook_put2(record + 8, fields->width);
    spirerook_put2(record + 10, fields->height);
    spirerook_put2(record + 12, fields->resolution);
    record[14] = fields->base[0];
    record[15] = fields->base[1];
    record[16] = fields->base[2];
    record[17] = (uint8_t)(fields->grey & 255);
    spirerook_put4(record + 18, fields->start);
    spirerook_put4(record + 22, fields->length);
    spirerook_put2(record + 26, 0);
}

#ifdef __cplusplus
}
#endif

#endif
