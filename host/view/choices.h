/* Whether what is asked for can be had of this page. */
#ifndef CHOICES_H
#define CHOICES_H

#include "book.h"
#include "options.h"

/* STATUS_WHOLE, or the status to leave with: options that name what the page does not have, or a
 * place that is taken, are said on standard error. */
int check_choices(const options *asked, const book *opened);

#endif
