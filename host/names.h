/* The parts of a file's name. */
#ifndef NAMES_H
#define NAMES_H

#include <stddef.h>

/* What stands behind the last slash. */
const char *last_part(const char *name);

/* The three below are the caller's to free; NULL where there is not enough memory. */

/* The folder that a name is seen from here in. */
char *folder_part(const char *name);

/* A name that is seen from the folder of another name, as it is seen from here. */
char *beside(const char *other, const char *name);

/* The first `count` letters of a name, and an ending. */
char *with_ending(const char *name, size_t count, const char *ending);

#endif
