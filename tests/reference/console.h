/* What the programs of this folder do with standard input and output. */
#ifndef REFERENCE_CONSOLE_H
#define REFERENCE_CONSOLE_H

#include "sheet.h"

#include <stdbool.h>

/* Reads standard input to its end, however long; the caller frees it.  Null: it
 * could not be read. */
uint8_t *read_standard_input(size_t *octets);

/* Makes all calls that standard input tells, by a function that answers false
 * where they end in their midst or memory lacks; the program's name is for
 * messages, and `many` its only word.  Answers the exit status. */
int run_many(int arguments, char **words, const char *name,
             bool (*many)(const uint8_t *input, size_t octets));

/* A line of "A listing". */
void print_record(struct record record);

#endif
