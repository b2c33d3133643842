/* What host/sheet_words.c says of sheets that the library refuses.
 *
 *   words many   any number of sheets, each behind its length in four octets
 *
 * A line each: `good`, or `refused`, number, place and the words; or `named`, a record that breaks
 * no rule and the words that it has all the same.  A sheet is lent right before the edge of memory.
 */
#include "console.h"
#include "lent.h"
#include "sheet_words.h"
#include "spirerook.h"
#include "told.h"

#include <stdio.h>
#include <string.h>

/* The first of so many records that has the words of a rule. */
static size_t first_named(const uint8_t *sheet, size_t octets, size_t records)
{
    size_t k = 0;
    while (k < records &&
           strcmp(broken_rule(sheet, octets, k), "it is not known here which") == 0) {
        k++;
    }
    return k;
}

static void print_words(const uint8_t *sheet, size_t octets)
{
    spirerook_answer judged = spirerook_judge(sheet, octets);
    bool good = judged.number == SPIREROOK_DONE;
    size_t kept = good ? octets / SPIREROOK_RECORD_OCTETS : judged.place;
    size_t named = first_named(sheet, octets, kept);
    if (named < kept) {
        printf("named %zu %s\n", named, broken_rule(sheet, octets, named));
    } else if (good) {
        puts("good");
    } else {
        printf("refused %u %u %s\n", (unsigned)judged.number, (unsigned)judged.place,
               broken_rule(sheet, octets, judged.place));
    }
}

/* False: the input ends in the midst of a sheet, or memory lacks. */
static bool tell_many(const uint8_t *input, size_t size)
{
    static struct lent lent;
    struct told told = {input, size};
    uint64_t octets;
    while (take_numbers(&told, 4, &octets, 1)) {
        const uint8_t *given = take_octets(&told, octets);
        if (given == NULL || !lent_has(&lent, octets)) {
            return false;
        }
        uint8_t *sheet = lent_last(&lent, octets);
        memcpy(sheet, given, octets);
        print_words(sheet, octets);
    }
    return told.size == 0;
}

int main(int arguments, char **words)
{
    return run_many(arguments, words, "words", tell_many);
}
