/* Which pencil belongs to a page: where its sheet, side file and pencil file stand, and whether the
 * digests of the side file are those of what was read. */
#ifndef PENCIL_H
#define PENCIL_H

#include "digest.h"
#include "file.h"
#include "options.h"

/* Beside a name two names of a sheet are looked for, and beside each that the page's name links to:
 * the system follows no more links than this. */
enum { MOST_LINKS = 40, MOST_BESIDE = 2 * (MOST_LINKS + 1) };

typedef struct {
    char *sheet, *file, *side; /* names; null where there is no pencil, or none of its parts yet */
    char *beside[MOST_BESIDE]; /* sheets that stand beside the page */
    size_t beside_count;
    bool found, checked; /* not given but found beside the page; checked by digests */
    side_file told;
} pencil_source;

/* Names the sheet that is given or stands beside the page; its name stays null where there is no
 * pencil to show.  STATUS_WHOLE, or the status to leave with: what is refused is said. */
int find_pencil(const options *asked, pencil_source *source);

/* Reads the sheet's side file, and takes the pencil file's name from it where none is given; the
 * answer is as above. */
int read_digests(const options *asked, pencil_source *source);

/* Reads a part of the pencil.  Where the viewer looked by itself it must be a plain file: a pipe
 * would be waited for. */
const char *read_part(const pencil_source *source, const char *name, size_t most, whole_file *file);

/* Whether the side file has the digest of what was read, where digests are asked for; the answer is
 * as above. */
int check_digest(const options *asked, const pencil_source *source, side_line which,
                 const whole_file *read);

/* Words behind a refusal of what was not asked for. */
const char *way_out(const pencil_source *source);

/* The last words of the page's line. */
void tell_pencil(const pencil_source *source);

void forget_pencil(pencil_source *source);

#endif
