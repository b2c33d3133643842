/* Files that appear only when they are complete, one or several together. */
#ifndef NEW_FILE_H
#define NEW_FILE_H

#include <stdbool.h>
#include <stdio.h>

enum { MOST_NEW_FILES = 4, OWN_NAME_ROOM = 32 };

/* A file that takes its place only when it is kept: a run that fails, or is stopped by a signal,
 * leaves what stood there.  Until then it has no name, where the file system can have such files;
 * else one of its own in the same folder. */
typedef struct {
    FILE *file;
    int folder;       /* of its place */
    char *path;       /* of its place, as it was found */
    const char *last; /* of that, within the folder */
    bool placed;
    char beside[OWN_NAME_ROOM]; /* its own name; empty where it has none */
    char old[OWN_NAME_ROOM];    /* of what stood in its place, while that may have to go back */
} new_file;

/* NULL, or why it cannot be made.  An existing place must be a file that may be written; the new
 * one has its owner, group and mode. */
const char *open_beside(const char *name, new_file *file);

/* All that was written so far stands on the disk.  NULL, or why not. */
const char *complete_file(new_file *file);

/* All take their places, their octets on the disk before their names; or none does, and each place
 * has what stood there.  NULL, or why not and which of them could not.  Nothing else is left. */
const char *keep_files(new_file *const *files, unsigned count, unsigned *failed);

/* The same of one file. */
const char *keep_file(new_file *file);

void drop_file(new_file *file);

#endif
