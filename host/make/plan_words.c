#include "plan_words.h"

#include <stdarg.h>
#include <stdio.h>
#include <string.h>

#include "coders.h"
#include "colour.h"

static bool is_blank(char octet)
{
    return octet == ' ' || octet == '\t' || octet == '\r' || octet == '\f' || octet == '\v';
}

bool wrong(plan_line *line, const char *form, ...)
{
    char text[TROUBLE_ROOM];
    va_list values;
    va_start(values, form);
    vsnprintf(text, sizeof text, form, values);
    va_end(values);
    return tell_at(line->what, line->plan, line->number, "%s", text);
}

/* The end of the word at the text, its first octet (behind an opening quote) in the word; null
 * where it is not well formed. */
static char *split_word(plan_line *line, char *text, plan_word *word)
{
    word->quoted = *text == '"';
    word->text = word->quoted ? text + 1 : text;
    if (word->quoted) {
        char *end = strchr(word->text, '"');
        if (end == NULL) {
            wrong(line, "a quote is not closed");
            return NULL;
        }
        if (end[1] != '\0' && end[1] != '#' && !is_blank(end[1])) {
            wrong(line, "a blank is due behind a closing quote");
            return NULL;
        }
        *end = '\0';
        return end + 1;
    }
    while (*text != '\0' && *text != '#' && *text != '"' && !is_blank(*text)) {
        text++;
    }
    if (*text == '"') {
        wrong(line, "a quote stands inside a word");
        return NULL;
    }
    return text;
}

bool split_line(plan_line *line, char *text)
{
    line->count = line->at = 0;
    for (;;) {
        while (is_blank(*text)) {
            text++;
        }
        if (*text == '\0' || *text == '#') {
            return true;
        }
        if (line->count == MOST_WORDS) {
            return wrong(line, "the line has too many words");
        }
        char *end = split_word(line, text, &line->words[line->count++]);
        if (end == NULL) {
            return false;
        }
        /* the octet behind a plain word is looked at before it ends the word */
        bool last = *end == '\0' || *end == '#';
        *end = '\0';
        if (last) {
            return true;
        }
        text = end + 1;
    }
}

const plan_word *next_word(plan_line *line)
{
    return line->at < line->count ? &line->words[line->at++] : NULL;
}

bool ends_here(plan_line *line)
{
    return line->at == line->count ||
           wrong(line, "'%s' is a word too many", line->words[line->at].text);
}

static bool is_number(const char *text, uint32_t least, uint32_t most, uint32_t *number)
{
    uint64_t value = 0;
    if (*text == '\0' || strlen(text) > 10) {
        return false;
    }
    for (; *text != '\0'; text++) {
        if (*text < '0' || *text > '9') {
            return false;
        }
        value = value * 10 + (uint64_t)(*text - '0');
    }
    *number = (uint32_t)value;
    return value >= least && value <= most;
}

bool take_number(plan_line *line, const char *key, uint32_t least, uint32_t most, uint32_t *number)
{
    const plan_word *word = next_word(line);
    if (word == NULL) {
        return wrong(line, "'%s' needs a number from %u to %u", key, (unsigned)least,
                     (unsigned)most);
    }
    return is_number(word->text, least, most, number) ||
           wrong(line, "'%s' must be a number from %u to %u, not '%s'", key, (unsigned)least,
                 (unsigned)most, word->text);
}

bool take_resolution(plan_line *line, uint32_t *resolution)
{
    static const uint32_t known[] = {100, 200, 300, 400, 600, 1200};
    const plan_word *word = next_word(line);
    for (size_t k = 0; word != NULL && k < sizeof known / sizeof *known; k++) {
        if (is_number(word->text, known[k], known[k], resolution)) {
            return true;
        }
    }
    return wrong(line, "a resolution must be 100, 200, 300, 400, 600 or 1200%s%s",
                 word == NULL ? "" : ", not ", word == NULL ? "" : word->text);
}

bool take_coder(plan_line *line, uint32_t *coder)
{
    static const struct {
        const char *name;
        uint32_t coder;
    } known[] = {{"mh", CODER_MH}, {"mr", CODER_MR}, {"mmr", CODER_MMR}, {"t85", CODER_T85}};
    const plan_word *word = next_word(line);
    for (size_t k = 0; word != NULL && k < sizeof known / sizeof *known; k++) {
        if (strcmp(word->text, known[k].name) == 0) {
            *coder = known[k].coder;
            return true;
        }
    }
    return wrong(line, "a coder must be mh, mr, mmr or t85%s%s", word == NULL ? "" : ", not ",
                 word == NULL ? "" : word->text);
}

bool take_srgb(plan_line *line, uint8_t srgb[3])
{
    const plan_word *word = next_word(line);
    return (word != NULL && srgb_of_digits(word->text, srgb)) ||
           wrong(line, "'base' needs a colour of six digits, RRGGBB%s%s",
                 word == NULL ? "" : ", not ", word == NULL ? "" : word->text);
}

bool take_lab(plan_line *line, uint8_t base[3])
{
    for (int k = 0; k < 3; k++) {
        uint32_t code;
        if (!take_number(line, "lab", 0, 255, &code)) {
            return false;
        }
        base[k] = (uint8_t)code;
    }
    return true;
}
