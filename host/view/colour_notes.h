/* Segments of a page that its colours do not follow yet. */
#ifndef COLOUR_NOTES_H
#define COLOUR_NOTES_H

#include "file.h"

/* A line for each segment of gamut or illuminant that is not just the default; the page is one that
 * the library has read. */
void note_colours(const char *name, const whole_file *page);

#endif
