#include "outputs.h"

#include <errno.h>
#include <stdlib.h>
#include <string.h>

#include "file.h"
#include "names.h"

bool same_place(const char *one, const char *other)
{
    if (strcmp(one, other) == 0 || same_file(one, other)) {
        return true;
    }
    char *first = folder_part(one), *second = folder_part(other);
    bool same = first != NULL && second != NULL && strcmp(last_part(one), last_part(other)) == 0 &&
                same_file(first, second);
    free(first);
    free(second);
    return same;
}

static const char *write_beside(output *to)
{
    const char *why = open_beside(to->name, &to->file);
    if (why != NULL) {
        return why;
    }
    if (to->length > 0 && fwrite(to->octets, 1, to->length, to->file.file) != to->length) {
        return strerror(errno);
    }
    return complete_file(&to->file);
}

bool begin_outputs(output *outputs, unsigned count, trouble *what)
{
    for (unsigned k = 0; k < count; k++) {
        const char *why = write_beside(&outputs[k]);
        if (why != NULL) {
            drop_outputs(outputs, count);
            return tell(what, "%s: %s", outputs[k].name, why);
        }
    }
    return true;
}

bool keep_outputs(output *outputs, unsigned count, trouble *what)
{
    new_file *files[MOST_NEW_FILES];
    unsigned failed = 0;
    for (unsigned k = 0; k < count; k++) {
        files[k] = &outputs[k].file;
    }
    const char *why = keep_files(files, count, &failed);
    return why == NULL || tell(what, "%s: %s", outputs[failed].name, why);
}

void drop_outputs(output *outputs, unsigned count)
{
    for (unsigned k = 0; k < count; k++) {
        drop_file(&outputs[k].file);
    }
}
