/* Whole files, read within a bound of octets and of time. */
#ifndef FILE_H
#define FILE_H

#include <stdbool.h>
#include <stddef.h>
#include <stdint.h>

/* All pipes of a run together have so long; a plain file has no clock. */
enum { PIPE_SECONDS = 20 };

typedef struct {
    uint8_t *octets;
    size_t length;
} whole_file;

/* For the start of a program: where standard input, output or error is closed, no file that is
 * opened later may take its number, or words meant for people would go into it.  What is written to
 * such a one fails, and so does what is written to one that is full or that nobody reads: no signal
 * ends the program for it. */
void hold_standard_files(void);

/* Reads at most `most` octets of a file or a pipe; a longer one is read so far.  NULL, or why it
 * cannot be read.  The octets are the caller's to free. */
const char *read_file(const char *name, size_t most, whole_file *file);

/* The same of plain files only: for what is read more than once. */
const char *read_plain_file(const char *name, size_t most, whole_file *file);

/* Whether both names are of one existing file. */
bool same_file(const char *one, const char *other);

/* NULL, or the standard output or standard error that is the plain file of this name. */
const char *standard_file(const char *name);

#endif
