/* Files that appear together, or not at all. */
#ifndef OUTPUTS_H
#define OUTPUTS_H

#include <stdbool.h>
#include <stddef.h>
#include <stdint.h>

#include "new_file.h"
#include "trouble.h"

typedef struct {
    const char *name;
    const uint8_t *octets;
    size_t length;
    new_file file;
} output;

/* Whether two names are of one place, though nothing may stand there yet. */
bool same_place(const char *one, const char *other);

/* Writes all to the disk, but not in their places. */
bool begin_outputs(output *outputs, unsigned count, trouble *what);

/* Puts them in their places, at most MOST_NEW_FILES of them. */
bool keep_outputs(output *outputs, unsigned count, trouble *what);

void drop_outputs(output *outputs, unsigned count);

#endif
