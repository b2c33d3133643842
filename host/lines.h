/* Lines for people.  Whatever stands in a name, a line stays one line and drives no terminal: what
 * could end it, or could be taken for something else, is shown escaped. */
#ifndef LINES_H
#define LINES_H

#define LIKE_PRINTF __attribute__((format(printf, 1, 2)))

/* Words of the line that is being made. */
void add_words(const char *form, ...) LIKE_PRINTF;

/* A name in that line, its semicolons escaped: they part the line's own words. */
void add_name(const char *name);

/* The last words of that line, which goes to standard output at once; where it cannot be written
 * there, to standard error, so that it is not lost. */
void say_line(const char *form, ...) LIKE_PRINTF;

/* A text of lines, each with its end. */
void say_lines(const char *text);

/* A line of its own on standard error. */
void complain(const char *form, ...) LIKE_PRINTF;

/* NULL, or why lines could not go to standard output. */
const char *output_fault(void);

#endif
