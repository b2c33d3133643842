/* A line of a plan as words, taken one behind the other. */
#ifndef PLAN_WORDS_H
#define PLAN_WORDS_H

#include <stdbool.h>
#include <stdint.h>

#include "trouble.h"

enum { MOST_WORDS = 24 };

typedef struct {
    char *text;
    bool quoted;
} plan_word;

typedef struct {
    const char *plan; /* its name, for messages */
    unsigned number;  /* of the line, from 1 */
    trouble *what;
    plan_word words[MOST_WORDS];
    unsigned count, at; /* at: the first word not taken */
} plan_line;

/* Splits the text, which is changed and must outlive the words.  Blanks part words, `#` outside
 * quotes begins a comment. */
bool split_line(plan_line *line, char *text);

/* A message of this line; false. */
bool wrong(plan_line *line, const char *form, ...) __attribute__((format(printf, 2, 3)));

/* The next word, or null. */
const plan_word *next_word(plan_line *line);

/* Whether no word is left; says so where one is. */
bool ends_here(plan_line *line);

/* What the next words are, of the key that stands before them; each says what is due where it is
 * something else. */
bool take_number(plan_line *line, const char *key, uint32_t least, uint32_t most, uint32_t *number);
bool take_resolution(plan_line *line, uint32_t *resolution);
bool take_coder(plan_line *line, uint32_t *coder);

/* A base colour: sRGB in six digits, or its codes in three numbers. */
bool take_srgb(plan_line *line, uint8_t srgb[3]);
bool take_lab(plan_line *line, uint8_t base[3]);

#endif
