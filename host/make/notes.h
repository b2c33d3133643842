/* What a plan asks for and a page cannot show: no mistake, but better known before the show. */
#ifndef NOTES_H
#define NOTES_H

#include "layers.h"
#include "plan.h"

/* A line each on standard output: base colours that come out as others, layers that pass the edge of
 * their stripe. */
void say_notes(const plan *from, const coded_layers *layers);

#endif
