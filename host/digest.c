#include "digest.h"

#include <stdbool.h>
#include <stdlib.h>
#include <string.h>

#include <nettle/sha2.h>

#include "names.h"

static const char hexadecimal[] = "0123456789abcdef";
static const char no_memory[] = "there is not enough memory";

/* sha256sum escapes these in a name, and puts a backslash before such a line. */
static const char escaped[] = "\\\n\r", letters[] = "\\nr";

digest digest_of(const uint8_t *octets, size_t length)
{
    struct sha256_ctx state;
    uint8_t sum[SHA256_DIGEST_SIZE];
    digest made;
    sha256_init(&state);
    if (length > 0) {
        sha256_update(&state, length, octets);
    }
    sha256_digest(&state, sizeof sum, sum);
    for (size_t k = 0; k < DIGEST_LETTERS; k++) {
        made.letters[k] = hexadecimal[k % 2 == 0 ? sum[k / 2] >> 4 : sum[k / 2] & 15];
    }
    made.letters[DIGEST_LETTERS] = 0;
    return made;
}

char *side_name(const char *sheet)
{
    return with_ending(sheet, strlen(sheet), ".sha256");
}

/* Puts a line, and answers its end. */
static char *put_line(char *to, const digest *of, const char *name)
{
    if (strpbrk(name, escaped) != NULL) {
        *to++ = '\\';
    }
    memcpy(to, of->letters, DIGEST_LETTERS);
    to += DIGEST_LETTERS;
    *to++ = ' ';
    *to++ = ' ';
    for (; *name != 0; name++) {
        const char *which = strchr(escaped, *name);
        if (which != NULL) {
            *to++ = '\\';
        }
        *to++ = which == NULL ? *name : letters[which - escaped];
    }
    *to++ = '\n';
    return to;
}

char *write_side(const side_file *side)
{
    size_t room = 1;
    for (int k = 0; k < SIDE_LINES; k++) {
        room += 1 + DIGEST_LETTERS + 2 + 2 * strlen(side->names[k]) + 1;
    }
    char *text = malloc(room), *to = text;
    for (int k = 0; text != NULL && k < SIDE_LINES; k++) {
        to = put_line(to, &side->digests[k], side->names[k]);
    }
    if (text != NULL) {
        *to = 0;
    }
    return text;
}

/* False where the text is not of a name; `to` has room for it. */
static bool read_name(const char *text, size_t count, bool is_escaped, char *to)
{
    for (size_t k = 0; k < count; k++) {
        char letter = text[k];
        if (is_escaped && letter == '\\') {
            const char *which = ++k < count && text[k] != 0 ? strchr(letters, text[k]) : NULL;
            if (which == NULL) {
                return false;
            }
            letter = escaped[which - letters];
        } else if (letter == 0 || letter == '\r') {
            return false;
        }
        *to++ = letter;
    }
    *to = 0;
    return true;
}

static bool is_hexadecimal(const char *text, size_t count)
{
    for (size_t k = 0; k < count; k++) {
        if (text[k] == 0 || strchr(hexadecimal, text[k]) == NULL) {
            return false;
        }
    }
    return true;
}

/* A line without its end. */
static const char *read_line(const char *text, size_t count, digest *of, char **name)
{
    bool is_escaped = count > 0 && text[0] == '\\';
    text += is_escaped;
    count -= is_escaped;
    if (count > 0 && text[count - 1] == '\r') {
        return "it ends with a carriage return";
    }
    if (count <= DIGEST_LETTERS + 2 || !is_hexadecimal(text, DIGEST_LETTERS) ||
        text[DIGEST_LETTERS] != ' ' ||
        (text[DIGEST_LETTERS + 1] != ' ' && text[DIGEST_LETTERS + 1] != '*')) {
        return "it is not a digest and a name, as sha256sum has them";
    }
    memcpy(of->letters, text, DIGEST_LETTERS);
    of->letters[DIGEST_LETTERS] = 0;
    *name = malloc(count);
    if (*name == NULL) {
        return no_memory;
    }
    return read_name(text + DIGEST_LETTERS + 2, count - DIGEST_LETTERS - 2, is_escaped, *name)
               ? NULL
               : "its name is not as sha256sum has it";
}

const char *read_side(const uint8_t *octets, size_t length, side_file *side, unsigned *line)
{
    static const char three[] =
        "there are just three, of the page, of the sheet and of the pencil file";
    const char *text = (const char *)octets;
    memset(side, 0, sizeof *side);
    for (int k = 0; k < SIDE_LINES; k++) {
        const char *end = length == 0 ? NULL : memchr(text, '\n', length);
        *line = (unsigned)k + 1;
        if (end == NULL) {
            return length == 0 ? three : "it does not end";
        }
        const char *why = read_line(text, (size_t)(end - text), &side->digests[k], &side->names[k]);
        if (why != NULL) {
            return why;
        }
        length -= (size_t)(end - text) + 1;
        text = end + 1;
    }
    *line = SIDE_LINES + 1;
    return length == 0 ? NULL : three;
}

void forget_side(side_file *side)
{
    for (int k = 0; k < SIDE_LINES; k++) {
        free(side->names[k]);
        side->names[k] = NULL;
    }
}
