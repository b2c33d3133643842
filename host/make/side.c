#include "side.h"

#include <errno.h>
#include <stdlib.h>
#include <string.h>

#include "file.h"
#include "names.h"

/* The whole name of a file in a folder. */
static char *whole_name(const char *folder, const char *last)
{
    char *whole = NULL, *real = realpath(folder, NULL);
    if (real != NULL &&
        asprintf(&whole, "%s%s%s", real, strcmp(real, "/") == 0 ? "" : "/", last) < 0) {
        whole = NULL;
    }
    free(real);
    return whole;
}

/* A name by itself where it stands in the folder of the sheet, so that the files can be moved
 * together; else with all folders.  NULL for the reason in errno. */
static char *seen_from(const char *sheet, const char *name)
{
    char *folder = folder_part(name), *own = folder_part(sheet), *seen = NULL;
    const char *last = last_part(name);
    if (folder != NULL && own != NULL && same_file(folder, own)) {
        seen = strdup(strcmp(last, "-") == 0 ? "./-" : last); /* "-" would be standard input */
    } else if (folder != NULL && own != NULL) {
        seen = whole_name(folder, last);
    }
    free(folder);
    free(own);
    return seen;
}

bool make_side(const output *outputs, char **text, trouble *what)
{
    side_file side;
    bool done = true;
    memset(&side, 0, sizeof side);
    for (int k = 0; done && k < SIDE_LINES; k++) {
        side.digests[k] = digest_of(outputs[k].octets, outputs[k].length);
        side.names[k] = seen_from(outputs[OF_SHEET].name, outputs[k].name);
        done = side.names[k] != NULL || tell(what, "%s: %s", outputs[k].name, strerror(errno));
    }
    if (done && (*text = write_side(&side)) == NULL) {
        done = tell_no_memory(what);
    }
    forget_side(&side);
    return done;
}
