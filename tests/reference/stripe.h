/* A stripe: its fields, its coded layers and its three records.  Words in
 * quotation marks are the paper's own. */
#ifndef REFERENCE_STRIPE_H
#define REFERENCE_STRIPE_H

#include "reading.h"

/* Reads a stripe from its type on; the marker, the length and the ident before
 * it are the page's matter. */
bool read_stripe(struct reading *reading);

#endif
