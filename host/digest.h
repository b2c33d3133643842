/* The digests that tell which page and which pencil file a sheet belongs to: a side file, named as
 * the sheet with .sha256 behind it, of three lines in the form of sha256sum. */
#ifndef DIGEST_H
#define DIGEST_H

#include <stddef.h>
#include <stdint.h>

enum { DIGEST_LETTERS = 64 };

/* SHA-256 in small hexadecimal letters. */
typedef struct {
    char letters[DIGEST_LETTERS + 1];
} digest;

digest digest_of(const uint8_t *octets, size_t length);

/* What the lines of a side file are of, in this order. */
typedef enum { OF_PAGE, OF_SHEET, OF_PENCIL, SIDE_LINES } side_line;

typedef struct {
    digest digests[SIDE_LINES];
    char *names[SIDE_LINES]; /* as they stand in the file: seen from its folder */
} side_file;

/* The name of a sheet's side file, the caller's to free; NULL where there is not enough memory. */
char *side_name(const char *sheet);

/* A side file's text, the caller's to free; NULL where there is not enough memory. */
char *write_side(const side_file *side);

/* NULL, or what is wrong in the line, from 1.  The names are for forget_side, in any case. */
const char *read_side(const uint8_t *octets, size_t length, side_file *side, unsigned *line);

void forget_side(side_file *side);

#endif
