/* Runs that put several files into the same folders do so one after the other, or their files would
 * be mixed. */
#ifndef TURNS_H
#define TURNS_H

enum { MOST_FOLDERS = 4 };

typedef struct {
    int held[MOST_FOLDERS];
    unsigned count;
} turn;

/* Waits until no other run holds one of these folders, and holds them.  NULL, or why it has not come
 * to that; then none is held.  A folder that may not be read cannot be held, and is passed over. */
const char *take_turn(const int *folders, unsigned count, turn *taken);

void end_turn(turn *taken);

#endif
