/* The walk goes from marker to marker.  Each step below answers whether the
 * walk goes on; where it does not, the layer has its end or its fault. */
#include "jpeg.h"

#include "numbers.h"
#include "sheet.h"

struct walk {
    const uint8_t *page;
    size_t octets;
    uint32_t main_resolution;
    size_t at; /* the first octet that was not walked */
    bool has_resolution;
    bool has_frame;
    bool has_scan;
    struct jpeg_layer layer;
};

/* "Any run of FF octets before a marker code, in scan data too, is fill."  So a
 * marker is a run of one or more FF, and then a code, which is not FF. */
struct marker {
    size_t place;  /* "a marker's place is the first FF of its run" */
    size_t run;    /* how many FF */
    uint8_t code;
    size_t behind; /* the first octet behind the code */
};

enum marker_class { STANDS_ALONE, FRAME, SCAN, END, FAULT, WITH_LENGTH };

/* "The marker codes fall into classes by range: 01 stands alone; C0 to CF
 * except C4, C8, CC is the frame; DA starts a scan; D9 ends; D0 to D7 and a
 * second D8 are faults outside a scan; 00, FF and 02 to BF are faults; the rest
 * carry a length".  Since FF is fill, no code is FF. */
static enum marker_class class_of(uint8_t code)
{
    if (code == 0x01) {
        return STANDS_ALONE;
    }
    if (code >= 0xC0 && code <= 0xCF && code != 0xC4 && code != 0xC8 && code != 0xCC) {
        return FRAME;
    }
    if (code == 0xDA) {
        return SCAN;
    }
    if (code == 0xD9) {
        return END;
    }
    if (code >= 0xD0 && code <= 0xD7) {
        return FAULT;
    }
    if (code == 0xD8) {
        return FAULT;
    }
    if (code == 0x00) {
        return FAULT;
    }
    if (code >= 0x02 && code <= 0xBF) {
        return FAULT;
    }
    return WITH_LENGTH;
}

bool jpeg_resolution_is_listed(uint32_t resolution)
{
    return resolution == 100 || resolution == 200 || resolution == 300 || resolution == 400 ||
           resolution == 600 || resolution == 1200;
}

static bool stop(struct walk *walk, unsigned number, size_t place)
{
    walk->layer.number = number;
    walk->layer.place = place;
    return false;
}

/* Whether `size` octets from `at` on are in the page.  A walk never stands
 * behind the page's end, so `at` is at most its length. */
static bool fits(const struct walk *walk, size_t at, size_t size)
{
    return walk->octets - at >= size;
}

/* "All numbers are most significant octet first." */
static uint32_t two_octets(const struct walk *walk, size_t at)
{
    return (uint32_t)walk->page[at] * 256 + walk->page[at + 1];
}

/* The marker whose run begins at `place`, where an FF stands; or false, where
 * the page ends before its code. */
static bool read_marker(const struct walk *walk, size_t place, struct marker *marker)
{
    size_t at = place;
    while (fits(walk, at, 1) && walk->page[at] == 0xFF) {
        at += 1;
    }
    if (!fits(walk, at, 1)) {
        return false;
    }
    marker->place = place;
    marker->run = at - place;
    marker->code = walk->page[at];
    marker->behind = at + 1;
    return true;
}

/* The length that stands at `field`, directly behind a marker, and whether its
 * body is there.  "Numbers that a call returns": "A JPEG body (after its length)
 * ... that passes the page's end is Short at its first octet, unjudged".  The
 * least length is judged where the length stands, before the body. */
static bool read_length(struct walk *walk, size_t field, uint32_t least, uint32_t *length)
{
    if (!fits(walk, field, 2)) {
        return stop(walk, SHORT, field);
    }
    *length = two_octets(walk, field);
    if (*length < least) {
        return stop(walk, BAD_LENGTH, field);
    }
    if (!fits(walk, field + 2, *length - 2)) {
        return stop(walk, SHORT, field + 2);
    }
    return true;
}

/* "beginning 47 33 46 41 58 00" */
static bool begins_with_tag(const struct walk *walk, size_t body)
{
    static const uint8_t tag[6] = {0x47, 0x33, 0x46, 0x41, 0x58, 0x00};
    for (size_t k = 0; k < sizeof tag; k++) {
        if (walk->page[body + k] != tag[k]) {
            return false;
        }
    }
    return true;
}

/* "the rest carry a length of at least 2 and are skipped" */
static bool walk_segment(struct walk *walk, struct marker marker)
{
    uint32_t length;
    if (!read_length(walk, marker.behind, 2, &length)) {
        return false;
    }
    size_t body = marker.behind + 2;
    /* "Before the frame stands an FF E1 segment of length 12 or more beginning
     * 47 33 46 41 58 00, then two octets not tested, then the resolution; the
     * first such segment counts."  A frame is refused without a resolution, so
     * that behind the frame there is always a first one already. */
    if (marker.code == 0xE1 && length >= 12 && begins_with_tag(walk, body) &&
        !walk->has_resolution) {
        uint32_t resolution = two_octets(walk, body + 8);
        /* "Each layer's must divide the main one: under 400, 200 is taken and
         * 300 refused." */
        if (!jpeg_resolution_is_listed(resolution) || walk->main_resolution % resolution != 0) {
            return stop(walk, BAD_RES, body + 8);
        }
        walk->has_resolution = true;
        walk->layer.resolution = resolution;
    }
    walk->at = marker.behind + length;
    return true;
}

/* "Exactly one frame comes before the first scan and none after, its length at
 * least 8, its width and height not 0." */
static bool walk_frame(struct walk *walk, struct marker marker)
{
    uint32_t length;
    if (walk->has_frame) {
        return stop(walk, BAD_LAYER, marker.place);
    }
    /* "Numbers that a call returns": "A missing frame, scan or resolution is
     * faulted at the marker where it was due." */
    if (!walk->has_resolution) {
        return stop(walk, BAD_LAYER, marker.place);
    }
    if (!read_length(walk, marker.behind, 8, &length)) {
        return false;
    }
    /* T.81, B.2.2: one octet of precision, two of lines, two of samples per
     * line, one of components. */
    size_t body = marker.behind + 2;
    walk->layer.height = two_octets(walk, body + 1);
    if (walk->layer.height == 0) {
        return stop(walk, BAD_LAYER, body + 1);
    }
    walk->layer.width = two_octets(walk, body + 3);
    if (walk->layer.width == 0) {
        return stop(walk, BAD_LAYER, body + 3);
    }
    /* "hand back the component count from the frame, and only 1 and 3 are
     * taken"; "another count is BadLayer at its octet".  A scan header counts
     * its own components, which nobody asks for. */
    walk->layer.components = walk->page[body + 5];
    if (walk->layer.components != 1 && walk->layer.components != 3) {
        return stop(walk, BAD_LAYER, body + 5);
    }
    walk->has_frame = true;
    walk->at = marker.behind + length;
    return true;
}

/* "After a scan header, FF 00 and FF D0 to FF D7 are data; FF with another code
 * is the next marker."  Fill stands before any marker code, so before D0 to D7
 * too; but 00 is no marker code: "FF FF 00 is a fault in a scan and outside." */
static bool is_data(struct marker marker)
{
    if (marker.code == 0x00) {
        return marker.run == 1;
    }
    return marker.code >= 0xD0 && marker.code <= 0xD7;
}

/* The scan data whose first octet is at `data`, up to the next marker, of which
 * nothing is judged here. */
static bool walk_scan_data(struct walk *walk, size_t data)
{
    size_t at = data;
    while (fits(walk, at, 1)) {
        struct marker marker;
        if (walk->page[at] != 0xFF) {
            at += 1;
        } else if (!read_marker(walk, at, &marker)) {
            break;
        } else if (is_data(marker)) {
            at = marker.behind;
        } else {
            walk->at = marker.place;
            return true;
        }
    }
    /* "Numbers that a call returns": "Short at its first octet, unjudged; so is
     * scan data with no next marker" */
    return stop(walk, SHORT, data);
}

/* "DA starts a scan" */
static bool walk_scan(struct walk *walk, struct marker marker)
{
    uint32_t length;
    /* "Exactly one frame comes before the first scan" */
    if (!walk->has_frame) {
        return stop(walk, BAD_LAYER, marker.place);
    }
    if (!read_length(walk, marker.behind, 2, &length)) {
        return false;
    }
    walk->has_scan = true;
    return walk_scan_data(walk, marker.behind + length);
}

/* "D9 ends"; "At least one scan is needed before FF D9." */
static bool walk_end(struct walk *walk, struct marker marker)
{
    if (!walk->has_scan) {
        return stop(walk, BAD_LAYER, marker.place);
    }
    walk->layer.end = marker.behind;
    return stop(walk, DONE, 0);
}

/* "then markers": of one FF or more, and a code.  Every fault of a marker is at
 * the first FF of its run, and so is a run that the page's end cuts, which
 * "does not fit whole". */
static bool walk_marker(struct walk *walk)
{
    struct marker marker;
    size_t due = walk->at;
    if (!fits(walk, due, 2)) {
        return stop(walk, SHORT, due);
    }
    if (walk->page[due] != 0xFF) {
        return stop(walk, BAD_LAYER, due);
    }
    if (!read_marker(walk, due, &marker)) {
        return stop(walk, SHORT, due);
    }
    switch (class_of(marker.code)) {
    case STANDS_ALONE: walk->at = marker.behind; return true;
    case FRAME: return walk_frame(walk, marker);
    case SCAN: return walk_scan(walk, marker);
    case END: return walk_end(walk, marker);
    case WITH_LENGTH: return walk_segment(walk, marker);
    case FAULT: break;
    }
    return stop(walk, BAD_LAYER, marker.place);
}

/* "The JPEG stream is walked: FF D8, then markers"; "A layer still begins with
 * FF D8 at its first octet", so no fill stands there. */
static bool walk_start(struct walk *walk)
{
    size_t start = walk->at;
    if (!fits(walk, start, 2)) {
        return stop(walk, SHORT, start);
    }
    if (walk->page[start] != 0xFF || walk->page[start + 1] != 0xD8) {
        return stop(walk, BAD_LAYER, start);
    }
    walk->at = start + 2;
    return true;
}

struct jpeg_layer jpeg_walk(const uint8_t *page, size_t octets, size_t start,
                            uint32_t main_resolution)
{
    struct walk walk = {page,  octets, main_resolution, start,
                        false, false,  false,           {0, 0, 0, 0, 0, 0, 0}};
    bool goes_on = walk_start(&walk);
    while (goes_on) {
        goes_on = walk_marker(&walk);
    }
    return walk.layer;
}
