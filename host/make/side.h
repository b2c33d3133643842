/* The side file of a sheet: the digests of its page, of itself and of its pencil file. */
#ifndef SIDE_H
#define SIDE_H

#include "digest.h"
#include "outputs.h"
#include "trouble.h"

/* The text is the caller's to free.  The outputs are in the order of a side file's lines. */
bool make_side(const output *outputs, char **text, trouble *what);

#endif
