"""Faults of painting a band, for tests/faults_band.py: what goes wrong, the text of
tests/reference/band.c, the text in its place.

The wrong programs of request 2026-12 are among them: an unknown mask that keeps the lower colour,
the crop in samples, the image layer's area for the crop, leftovers of the buffer, a crop reused for
another layer.
"""

CROP = "struct area crop = crop_of(stripe, mask);"
ITS_AREA = "    return area_within(stripe, &stripe->layer[mask]);"
IMAGE_AREA = "struct area area = area_within(stripe, image);"
ROWS = "for (uint64_t y = crop.top; y < crop.below; y++) {"
COLUMNS = "for (uint64_t x = crop.left; x < crop.right; x++) {"
FIRST = "            put_sample(stripe, pixel_at(stripe, band, x, y), image_at(first, area, x, y));"
PLACE = "(y * stripe->width + x) * PIXEL_OCTETS"
PAIRS = "for (uint32_t mask = 2; mask < stripe.layers; mask += 2) {"
PAINTED = "        paint_pair(&stripe, out, mask);\n    }"
IS_ZERO = "octets_at(layer, x, y)[0] == 0 ? ZERO : ONE"
IS_VIRTUAL = "layer == 2 && !is_coded(stripe->layer[2].record) && is_coded(stripe->layer[3].record)"
SAME = "sample.known && pixel[MARK] == 1 && memcmp(pixel, sample.colour, COLOUR_OCTETS) == 0"
SHOWN = "memcpy(pixel, sample.known ? sample.colour : stripe->call->unseen, COLOUR_OCTETS);"
MARKED = "pixel[MARK] = sample.known ? 1 : 0;"
GREYED = "{true, {0, 128, 96}}"

PLACES = [
    ("lines from the bottom up", PLACE,
     "((stripe->height - 1 - y) * stripe->width + x) * PIXEL_OCTETS"),
    ("columns first", PLACE, "(x * stripe->height + y) * PIXEL_OCTETS"),
    ("lines a pixel apart", PLACE, "(y * (stripe->width + 1) + x) * PIXEL_OCTETS"),
    ("lines on whole blocks of 64 pixels", PLACE,
     "(y * ((stripe->width + 63) / 64 * 64) + x) * PIXEL_OCTETS"),
    ("lines of an even number of pixels", PLACE,
     "(y * ((stripe->width + 1) / 2 * 2) + x) * PIXEL_OCTETS"),
    ("the first line always", PLACE, "x * PIXEL_OCTETS"),
    ("lines 1 and 2 exchanged", PLACE,
     "((stripe->height > 2 && y - 1 < 2 ? 3 - y : y) * stripe->width + x) * PIXEL_OCTETS"),
    ("pixels from the right to the left", PLACE,
     "(y * stripe->width + stripe->width - 1 - x) * PIXEL_OCTETS"),
    ("places of 16 bits", PLACE, "(uint16_t)((y * stripe->width + x) * PIXEL_OCTETS)"),
    ("lines of 8 bits", PLACE, "((uint8_t)y * stripe->width + x) * PIXEL_OCTETS"),
]

CROPS = [
    ("the crop in samples and not in main pixels", ITS_AREA,
     "    struct layer one = stripe->layer[mask];\n    one.k = 1;\n"
     "    return area_within(stripe, &one);"),
    ("the crop's rows in samples", ITS_AREA,
     "    struct area area = area_within(stripe, &stripe->layer[mask]);\n"
     "    struct record r = stripe->layer[mask].record;\n"
     "    area.below = smaller(r.y + r.height, stripe->height);\n    return area;"),
    ("the crop's offsets in samples", ITS_AREA,
     "    struct layer one = stripe->layer[mask];\n    one.record.x *= one.k;\n"
     "    one.record.y *= one.k;\n    return area_within(stripe, &one);"),
    ("the image layer's area for the crop", ITS_AREA,
     "    return area_within(stripe, &stripe->layer[mask + 1]);"),
    ("the crop cut to the image layer's area", "    " + IMAGE_AREA,
     "    " + IMAGE_AREA + "\n    if (is_coded(image->record)) {\n"
     "        crop.right = smaller(crop.right, area.right);\n"
     "        crop.below = smaller(crop.below, area.below);\n"
     "        if (crop.left < area.left) crop.left = area.left;\n"
     "        if (crop.top < area.top) crop.top = area.top;\n    }"),
    ("a virtual mask where layer 3 is", "        return all;",
     "        return area_within(stripe, &stripe->layer[3]);"),
    ("the whole stripe for the crop", ITS_AREA,
     "    struct area all = {0, stripe->width, 0, stripe->height};\n    return all;"),
    ("mask 4's crop reused for higher ones", CROP,
     "struct area crop = crop_of(stripe, mask < 4 ? mask : 4);"),
    ("the crop of the mask before", CROP,
     "struct area crop = crop_of(stripe, mask > 4 ? mask - 2 : mask);"),
    ("a crop's columns kept from pair to pair", CROP,
     CROP + "\n    static struct area kept;\n    if (mask == 2) kept = crop;\n"
     "    if (crop.left < crop.right && mask > 2 && kept.left < kept.right) {\n"
     "        crop.left = kept.left > crop.left ? kept.left : crop.left;\n"
     "        crop.right = smaller(kept.right, crop.right);\n    }\n    kept = crop;"),
    ("layer 1's area for all images", IMAGE_AREA,
     "struct area area = area_within(stripe, &stripe->layer[1]);"),
    ("the mask's area for the image", IMAGE_AREA, "struct area area = crop;"),
    ("the area of the image before", IMAGE_AREA,
     "struct area area = area_within(stripe, mask > 2 ? image - 2 : image);"),
    ("a column too few at the left", COLUMNS, COLUMNS.replace("x = crop.left", "x = crop.left + 1")),
    ("a column too few at the right", COLUMNS, COLUMNS.replace("x < crop", "x + 1 < crop")),
    ("a column too many at the right", COLUMNS,
     COLUMNS.replace("x < crop.right", "x <= crop.right && x < stripe->width")),
    ("a column too many at the left", COLUMNS,
     COLUMNS.replace("x = crop.left", "x = crop.left - (crop.left > 0)")),
    ("a row too few at the top", ROWS, ROWS.replace("y = crop.top", "y = crop.top + 1")),
    ("a row too few below", ROWS, ROWS.replace("y < crop", "y + 1 < crop")),
    ("a row too many below", ROWS,
     ROWS.replace("y < crop.below", "y <= crop.below && y < stripe->height")),
    ("a row too many at the top", ROWS,
     ROWS.replace("y = crop.top", "y = crop.top - (crop.top > 0)")),
    ("no crop at the right side of the page", "smaller(r.x + r.width * layer->k, stripe->width)",
     "r.x + r.width * layer->k"),
    ("no crop at the lower side of the stripe",
     "smaller(r.y + r.height * layer->k, stripe->height)", "r.y + r.height * layer->k"),
    ("the page's width a pixel early", "smaller(r.x + r.width * layer->k, stripe->width)",
     "smaller(r.x + r.width * layer->k, stripe->width - 1)"),
    ("the stripe's height a line early", "smaller(r.y + r.height * layer->k, stripe->height)",
     "smaller(r.y + r.height * layer->k, stripe->height - 1)"),
    ("width times k of 16 bits", "r.x + r.width * layer->k",
     "r.x + (uint16_t)(r.width * layer->k)"),
    ("height times k of 16 bits", "r.y + r.height * layer->k",
     "r.y + (uint16_t)(r.height * layer->k)"),
    ("the right edge of 16 bits", "r.x + r.width * layer->k",
     "(uint16_t)(r.x + r.width * layer->k)"),
    ("the lower edge of 16 bits", "r.y + r.height * layer->k",
     "(uint16_t)(r.y + r.height * layer->k)"),
    ("leftovers of the buffer outside layer 1", FIRST,
     "            if (is_inside(area, x, y))" + FIRST),
    ("leftovers of the buffer where layer 1 is not coded", FIRST,
     "            if (is_coded(first->record))" + FIRST),
    ("leftovers of the buffer outside the last crop", FIRST,
     "            if (x < stripe->width - 1 || y < stripe->height - 1)" + FIRST),
]

# rows that are looked at in blocks of 64
BLOCKS = [
    ("a block of 64 judged by its first mask sample", COLUMNS,
     COLUMNS + "\n            if ((x - crop.left) % 64 == 0 && crop.right - x >= 64 &&\n"
     "                mask_at(stripe, mask, x, y) == ZERO) { x += 63; continue; }"),
    ("a block of 64 judged by its last mask sample", COLUMNS,
     COLUMNS + "\n            if ((x - crop.left) % 64 == 0 && crop.right - x >= 64 &&\n"
     "                mask_at(stripe, mask, x + 63, y) == ZERO) { x += 63; continue; }"),
    ("what is behind the last whole block left out", COLUMNS,
     COLUMNS + "\n            if (crop.right - crop.left >= 64 &&\n"
     "                (x - crop.left) / 64 == (crop.right - crop.left) / 64) break;"),
    ("a crop narrower than a block left out", COLUMNS,
     COLUMNS + "\n            if (crop.right - crop.left < 12 && stripe->width >= 64) break;"),
    ("the last pixel before a block's edge left out", COLUMNS,
     COLUMNS + "\n            if ((x - crop.left) % 64 == 63) continue;"),
    ("a run of 1 taken to the block's end", COLUMNS,
     COLUMNS + "\n            if ((x - crop.left) % 64 != 0 && mask_at(stripe, mask, x, y) == ZERO\n"
     "                && mask_at(stripe, mask, x - 1, y) == ONE && crop.right - x > 40) {\n"
     "                put_sample(stripe, pixel_at(stripe, band, x, y), image_at(image, area, x, y));"
     "\n            }"),
]

# layers at a pixel
LAYERS = [
    ("x divided before the offset is taken away", "(x - r.x) / layer->k",
     "x / layer->k - r.x / layer->k"),
    ("y divided before the offset is taken away", "(y - r.y) / layer->k",
     "y / layer->k - r.y / layer->k"),
    ("x not divided", "uint64_t column = (x - r.x) / layer->k;",
     "uint64_t column = smaller(x - r.x, r.width - 1);"),
    ("y not divided", "uint64_t row = (y - r.y) / layer->k;",
     "uint64_t row = smaller(y - r.y, r.height - 1);"),
    ("rounded up", "(x - r.x) / layer->k", "(x - r.x + layer->k - 1) / layer->k % r.width"),
    ("the x offset not taken away", "(x - r.x) / layer->k", "x / layer->k % r.width"),
    ("the y offset not taken away", "(y - r.y) / layer->k", "y / layer->k % r.height"),
    ("the row divided anew from the crop's top", "(y - r.y) / layer->k",
     "(y > 0 ? y - 1 - smaller(r.y, y - 1) : 0) / layer->k"),
    ("columns first in samples", "(row * r.width + column)", "(column * r.height + row)"),
    ("the first row of samples always", "(row * r.width + column)", "(0 * row + column)"),
    ("k of layer 1 for all", "second.resolution / stripe.layer[layer].record.resolution",
     "second.resolution / stripe.layer[1].record.resolution"),
    ("k of the mask for its image", "second.resolution / stripe.layer[layer].record.resolution",
     "second.resolution / stripe.layer[layer > 2 ? layer / 2 * 2 : layer].record.resolution"),
    ("k from 400", "second.resolution / stripe.layer[layer].record.resolution",
     "(second.resolution > 400 ? 400 : second.resolution) / stripe.layer[layer].record.resolution"),
    ("black outside", "sample.colour[i] = (uint8_t)r.colour[i];",
     "sample.colour[i] = is_coded(r) ? sample.colour[i] : (uint8_t)r.colour[i];"),
    ("a grey layer's base colour in grey", "i < COLOUR_OCTETS; i++",
     "i < (is_grey(r) ? 1 : COLOUR_OCTETS); i++"),
    ("two octets of the base colour", "i < COLOUR_OCTETS; i++", "i < COLOUR_OCTETS - 1; i++"),
    ("the base colour inside", "memcpy(sample.colour, octets_at(layer, x, y), sample_size(r));",
     "for (size_t i = 0; i < 3; i++) sample.colour[i] = (uint8_t)r.colour[i];"),
    ("a lightness of black for unread layers", "sample.known = false;", "sample.known = true;"),
    ("an unread layer in its base colour", "        sample.known = false;",
     "        for (size_t i = 0; i < 3; i++) sample.colour[i] = (uint8_t)r.colour[i];"),
    ("unread layers are unread outside too", "    if (!is_inside(area, x, y)) {",
     "    if (!is_inside(area, x, y) && (layer->samples != NULL || !is_coded(r))) {"),
    ("grey is (v, v, v)", "        memcpy(sample.colour, octets_at(layer, x, y), sample_size(r));",
     "        memcpy(sample.colour, octets_at(layer, x, y), sample_size(r));\n"
     "        if (is_grey(r)) sample.colour[1] = sample.colour[2] = sample.colour[0];"),
    ("grey is (v, 96, 128)", GREYED, "{true, {0, 96, 128}}"),
    ("no grey", "return r.grey == 1;", "return r.grey == 2;"),
    ("grey in layer 1 only", "return r.grey == 1;", "return r.grey == 1 && r.layer == 1;"),
    ("every image layer grey", "return r.grey == 1;", "return r.layer % 2 == 1;"),
    ("a mask octet 2 taken as 0", IS_ZERO, "octets_at(layer, x, y)[0] % 2 == 0 ? ZERO : ONE"),
    ("only a mask octet 1 taken as 1", IS_ZERO, "octets_at(layer, x, y)[0] == 1 ? ONE : ZERO"),
    ("masks upside down", IS_ZERO, "octets_at(layer, x, y)[0] == 0 ? ONE : ZERO"),
    ("no virtual mask", IS_VIRTUAL, "layer == 1"),
    ("a virtual mask without a coded layer 3", IS_VIRTUAL,
     "layer == 2 && !is_coded(stripe->layer[2].record)"),
    ("virtual masks above 2", IS_VIRTUAL,
     "!is_coded(stripe->layer[layer].record) && is_coded(stripe->layer[layer + 1].record)"),
    ("a virtual mask over a coded one", IS_VIRTUAL,
     "layer == 2 && is_coded(stripe->layer[3].record)"),
]

# pair after pair
PAINTING = [
    ("an unknown mask keeps the lower colour", "if (bit != ZERO) {", "if (bit == ONE) {"),
    ("an unknown mask taken as 1", "if (bit == UNKNOWN) {", "if (false) {"),
    ("an unknown mask keeps no colour", "sample.known = is_same(pixel, sample);",
     "sample.known = false;"),
    ("an unknown mask taken as 0 above layer 2", "if (bit != ZERO) {",
     "if (bit == ONE || (bit == UNKNOWN && stripe->layers == 3)) {"),
    ("an unknown mask takes a colour over what is not known", SAME,
     SAME.replace("pixel[MARK] == 1 && memcmp(pixel, sample.colour, COLOUR_OCTETS) == 0",
                  "(pixel[MARK] == 0 || memcmp(pixel, sample.colour, COLOUR_OCTETS) == 0)")),
    ("colours compared, and no mark", SAME, SAME.replace("pixel[MARK] == 1 && ", "")),
    ("what is not known told by its colour", "sample.known = is_same(pixel, sample);",
     "sample.known = is_same(pixel, sample) && memcmp(pixel, stripe->call->unseen, 3) != 0;"),
    ("an unread sample compared as black", SAME, SAME.replace("sample.known && ", "")),
    ("colours compared by their first octet", SAME, SAME.replace("COLOUR_OCTETS", "1")),
    ("colours compared without their third octet", SAME, SAME.replace("COLOUR_OCTETS", "2")),
    ("a known mask taken as 1, whatever its value", "if (bit != ZERO) {", "if (true) {"),
    ("masks above 2 ignored", PAIRS, PAIRS.replace("mask < stripe.layers", "mask < 4")),
    ("masks above 12 ignored", PAIRS,
     PAIRS.replace("mask < stripe.layers", "mask < stripe.layers && mask <= 12")),
    ("mask 2 ignored", PAIRS, PAIRS.replace("mask = 2", "mask = 4")),
    ("from the highest pair down", PAIRS,
     "for (uint32_t mask = stripe.layers - 1; mask >= 2; mask -= 2) {"),
    ("pairs ordered as text", "    " + PAIRS,
     "    for (uint32_t mask = 10; mask < stripe.layers; mask += 2)\n"
     "        paint_pair(&stripe, out, mask);\n"
     "    for (uint32_t mask = 2; mask < stripe.layers && mask < 10; mask += 2) {"),
    ("layer 1 painted last", PAINTED, PAINTED + "\n    paint_first(&stripe, out);"),
    ("layer 1 painted again between pairs", "        paint_pair(&stripe, out, mask);",
     "        if (mask == 6) paint_first(&stripe, out);\n        paint_pair(&stripe, out, mask);"),
    ("a mask takes the layer below", "&stripe->layer[mask + 1];", "&stripe->layer[mask - 1];"),
    ("layer 3 for every mask", "&stripe->layer[mask + 1];", "&stripe->layer[3];"),
    ("a higher pair only over what is known", "if (bit != ZERO) {",
     "if (bit != ZERO && pixel[MARK] == 1) {"),
    ("seen is 255", MARKED, "pixel[MARK] = sample.known ? 255 : 0;"),
    ("all seen", MARKED, "pixel[MARK] = 1;"),
    ("seen in the unseen colour is unseen", MARKED,
     "pixel[MARK] = memcmp(pixel, stripe->call->unseen, 3) != 0;"),
    ("unseen pixels keep the colour below", SHOWN,
     "if (sample.known) memcpy(pixel, sample.colour, COLOUR_OCTETS);"),
    ("unseen pixels show the sample", SHOWN, "memcpy(pixel, sample.colour, COLOUR_OCTETS);"),
    ("the unseen colour over seen pixels", SHOWN,
     "memcpy(pixel, stripe->call->unseen, COLOUR_OCTETS);"),
    ("a third octet left as it was", SHOWN, SHOWN.replace("COLOUR_OCTETS", "2")),
    ("a line of an unread mask skipped as if it were 0", ROWS,
     ROWS + "\n        if (stripe->layer[mask].samples == NULL && y > crop.top) continue;"),
    ("a row of the crop's first line kept for all", "mask_at(stripe, mask, x, y),",
     "mask_at(stripe, mask, x, crop.top),"),
]

ALL = PLACES + CROPS + BLOCKS + LAYERS + PAINTING
