#include "names.h"

#include <stdio.h>
#include <string.h>

const char *last_part(const char *name)
{
    const char *slash = strrchr(name, '/');
    return slash == NULL ? name : slash + 1;
}

char *folder_part(const char *name)
{
    size_t count = (size_t)(last_part(name) - name);
    return count == 0 ? strdup(".") : strndup(name, count == 1 ? 1 : count - 1);
}

char *beside(const char *other, const char *name)
{
    size_t count = *name == '/' ? 0 : (size_t)(last_part(other) - other);
    return with_ending(other, count, name);
}

char *with_ending(const char *name, size_t count, const char *ending)
{
    char *whole = NULL;
    return asprintf(&whole, "%.*s%s", (int)count, name, ending) < 0 ? NULL : whole;
}
