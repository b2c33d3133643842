/* The inside of a process apart; host/apart.c is the outside. */
#ifndef APART_INSIDE_H
#define APART_INSIDE_H

#include <sys/types.h>

#include "apart.h"

enum { TOKEN_OCTETS = 16 };

/* What goes over the pipe, in one piece.  The token is handed to the process at its start: what
 * does not have it was not written by the code that was to be run. */
typedef struct {
    uint8_t token[TOKEN_OCTETS];
    apart_report report;
} apart_letter;

/* How the process leaves: statuses that no library uses. */
enum { LEFT_DONE = 113, LEFT_NO_SANDBOX = 114, LEFT_NO_ROOM = 115, LEFT_NOT_SHUT_IN = 116 };

/* Shuts the process in, does the work, reports and leaves; `nowhere` takes what it says. */
_Noreturn void work_inside(apart_work *work, const void *about, const apart_bounds *bounds,
                           const apart_samples *samples, const apart_letter *due, int pipe_end,
                           int nowhere, pid_t parent);

#endif
