/* What went wrong, for the one line that a program says of it. */
#ifndef TROUBLE_H
#define TROUBLE_H

#include <stdbool.h>

enum { TROUBLE_ROOM = 16384, STATUS_REFUSED = 1, STATUS_BAD_OPTION = 2 };

typedef struct {
    int status; /* that the program ends with */
    char text[TROUBLE_ROOM];
} trouble;

/* Each answers false, so that a caller can return it; the status is STATUS_REFUSED. */
bool tell(trouble *what, const char *form, ...) __attribute__((format(printf, 2, 3)));

/* Of a line of a plan, "PLAN:LINE: "; of the whole plan where the line is 0, "PLAN: ". */
bool tell_at(trouble *what, const char *plan, unsigned line, const char *form, ...)
    __attribute__((format(printf, 4, 5)));

bool tell_no_memory(trouble *what);

/* One line on standard error. */
void say(const char *program, const trouble *what);

#endif
