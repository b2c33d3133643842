#include "trouble.h"

#include <stdarg.h>
#include <stdio.h>
#include <string.h>

#include "lines.h"

static bool tell_behind(trouble *what, size_t length, const char *form, va_list values)
{
    vsnprintf(what->text + length, sizeof what->text - length, form, values);
    what->status = STATUS_REFUSED;
    return false;
}

bool tell(trouble *what, const char *form, ...)
{
    va_list values;
    va_start(values, form);
    tell_behind(what, 0, form, values);
    va_end(values);
    return false;
}

bool tell_at(trouble *what, const char *plan, unsigned line, const char *form, ...)
{
    va_list values;
    if (line == 0) {
        snprintf(what->text, sizeof what->text, "%s: ", plan);
    } else {
        snprintf(what->text, sizeof what->text, "%s:%u: ", plan, line);
    }
    va_start(values, form);
    tell_behind(what, strlen(what->text), form, values);
    va_end(values);
    return false;
}

bool tell_no_memory(trouble *what)
{
    return tell(what, "there is not enough memory");
}

void say(const char *program, const trouble *what)
{
    complain("%s: %s", program, what->text);
}
