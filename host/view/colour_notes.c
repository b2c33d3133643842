#include "colour_notes.h"

#include <spirerook.h>
#include <string.h>

#include "lines.h"

/* docs/FIELDS.md, sections 2 and 3: the first segment behind the page's start, the octets before a
 * segment's data, and the lengths that count all but the marker. */
enum { FIRST_SEGMENT = 22, SEGMENT_HEAD = 8, MARKER = 2, SHORTEST = 6, STRIPE = 1 };

static const uint8_t default_gamut[] = {0, 0, 0, 100, 0, 128, 0, 170, 0, 96, 0, 200};
static const uint8_t default_illuminant[] = {0, 'D', '5', '0'};

static const struct {
    uint8_t kind;
    const char *shown, *what;
    const uint8_t *usual;
    size_t length;
} notes[] = {{0x0A, "in the default range", "a gamut", default_gamut, sizeof default_gamut},
             {0x0B, "under D50", "an illuminant", default_illuminant, sizeof default_illuminant}};

static void note_segment(const char *name, size_t at, const uint8_t *segment, size_t length)
{
    for (size_t k = 0; k < sizeof notes / sizeof *notes; k++) {
        size_t data = length - SEGMENT_HEAD;
        if (segment[SEGMENT_HEAD - 1] == notes[k].kind &&
            (data != notes[k].length ||
             memcmp(segment + SEGMENT_HEAD, notes[k].usual, data) != 0)) {
            say_line("%s: its colours are shown %s, but it has %s segment at octet %zu", name,
                     notes[k].shown, notes[k].what, at);
        }
    }
}

void note_colours(const char *name, const whole_file *page)
{
    static const uint8_t ident[] = {'M', 'R', 'C'};
    size_t at = FIRST_SEGMENT;
    while (at <= page->length && page->length - at >= SEGMENT_HEAD) {
        const uint8_t *segment = page->octets + at;
        size_t length = MARKER + (size_t)spirerook_get2(segment + MARKER);
        if (segment[0] != 0xFF || segment[1] != 0xED || length < MARKER + SHORTEST ||
            memcmp(segment + 4, ident, sizeof ident) != 0 || segment[SEGMENT_HEAD - 1] == STRIPE ||
            length > page->length - at) {
            return;
        }
        note_segment(name, at, segment, length);
        at += length;
    }
}
