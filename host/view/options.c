#include "options.h"

#include <string.h>

#include "colour.h"
#include "lines.h"

static const char help[] =
    "usage: spirerook-view PAGE [-o OUT.png] [--pencil SHEET FILE | --no-pencil] [OPTION ..]\n"
    "\n"
    "Shows a mixed raster page (ITU-T T.44, Mode 1) as a PNG at the page's resolution.\n"
    "\n"
    "  -o OUT.png               the picture; without it the page is read and composed, and only told of\n"
    "  --pencil SHEET FILE      the page's sheet with pencil layers added, and the file of their coded data\n"
    "  --no-pencil              the page alone, though a sheet stands beside it\n"
    "  --no-digests             takes a pencil that SHEET.sha256 does not tell to be the page's\n"
    "  --list                   tells the layers and where they stand; nothing is decoded\n"
    "  --unread STRIPE:LAYER .. shows the page as if these layers could not be read\n"
    "  --unseen RRGGBB          draws unseen pixels in this colour, not as green squares on magenta\n"
    "  --stripe N               shows this stripe only; stripes count from 0, layers from 1\n"
    "  --memory SIZE            for the samples of a stripe and its band, as 512M or 2G (1G if not given)\n"
    "  --seconds N or N:M       for a decoder: N of the processor (10 if not given), M by the clock (6 N)\n"
    "  --no-sandbox             lets decoders run where the system cannot shut them in\n"
    "  --times                  tells how long the parts of the work took\n"
    "  --help, --version\n"
    "\n"
    "Without --pencil the pencil of PAGE.sheet, or of PAGE with its ending replaced by .sheet, is shown.\n"
    "Exit status: 0 shown whole, 3 shown with unseen pixels, 1 refused, 2 bad option.\n";

enum {
    DEFAULT_MEMORY = 1 << 30,
    DEFAULT_SECONDS = 10,
    MOST_SECONDS = 3600,
    MOST_CLOCK_SECONDS = 86400,
    CLOCK_TIMES = 6 /* others may work on the machine */
};
static const uint64_t most_memory = UINT64_C(1) << 32; /* a plane's start has 32 bits */

/* A number of at most `most` at the start of a text; NULL, or what follows it. */
static const char *number_at(const char *text, uint64_t most, uint64_t *number)
{
    const char *digit = text;
    for (*number = 0; *digit >= '0' && *digit <= '9'; digit++) {
        *number = *number * 10 + (uint64_t)(*digit - '0');
        if (*number > most) {
            return NULL;
        }
    }
    return digit == text ? NULL : digit;
}

static bool whole_number(const char *text, uint64_t most, uint64_t *number)
{
    const char *rest = number_at(text, most, number);
    return rest != NULL && *rest == 0;
}

/* Each takes the words behind its option; false where they do not fit it. */

static bool take_out(const char **values, options *asked)
{
    asked->out = values[0];
    return values[0][0] != 0;
}

static bool take_pencil(const char **values, options *asked)
{
    asked->pencil_sheet = values[0];
    asked->pencil_file = values[1];
    return values[0][0] != 0 && values[1][0] != 0;
}

static bool take_stripe(const char **values, options *asked)
{
    uint64_t number = 0;
    asked->one_stripe = whole_number(values[0], SPIREROOK_STRIPES - 1, &number);
    asked->stripe = (uint32_t)number;
    return asked->one_stripe;
}

static bool take_unread(const char **values, options *asked)
{
    uint64_t stripe, layer;
    const char *rest = number_at(values[0], SPIREROOK_STRIPES - 1, &stripe);
    if (rest == NULL || *rest != ':' || !whole_number(rest + 1, SPIREROOK_LAYERS, &layer) ||
        layer == 0) {
        return false;
    }
    asked->unread[stripe][layer] = true;
    return true;
}

/* '#' may stand before the digits, as people write colours. */
static bool take_unseen(const char **values, options *asked)
{
    uint8_t srgb[3];
    asked->plain_unseen = srgb_of_digits(values[0] + (values[0][0] == '#'), srgb);
    if (asked->plain_unseen) {
        lab_of_srgb(srgb, asked->unseen);
    }
    return asked->plain_unseen;
}

static bool take_memory(const char **values, options *asked)
{
    const char *rest = number_at(values[0], most_memory, &asked->memory);
    if (rest == NULL) {
        return false;
    }
    int shift = *rest == 'K' ? 10 : *rest == 'M' ? 20 : *rest == 'G' ? 30 : 0;
    bool fits = asked->memory <= most_memory >> shift;
    asked->memory <<= shift;
    return fits && rest[shift != 0] == 0;
}

static bool take_seconds(const char **values, options *asked)
{
    uint64_t seconds, clock_seconds;
    const char *rest = number_at(values[0], MOST_SECONDS, &seconds);
    if (rest == NULL || seconds == 0) {
        return false;
    }
    clock_seconds = seconds * CLOCK_TIMES;
    if (*rest != 0 &&
        (*rest != ':' || !whole_number(rest + 1, MOST_CLOCK_SECONDS, &clock_seconds) ||
         clock_seconds < seconds)) {
        return false;
    }
    asked->seconds = (uint32_t)seconds;
    asked->clock_seconds = (uint32_t)clock_seconds;
    return true;
}

#define LAYER "STRIPE:LAYER, a stripe from 0 to 63 and a layer from 1 to 15"
#define COLOUR "RRGGBB, six hexadecimal digits of red, green and blue"
#define SECONDS \
    "N or N:M, N from 1 to 3600 seconds of the processor and M from N to 86400 by the clock"
_Static_assert(SPIREROOK_STRIPES == 64 && SPIREROOK_LAYERS == 15, "the words of faults say so");

/* An option with the number of words behind it, and what is said where one lacks or does not fit;
 * one without words is a bool of the options. */
typedef struct {
    const char *name;
    int values;
    bool (*take)(const char **values, options *asked);
    const char *lacks, *fits_not;
    size_t flag;
} option;

/* clang-format off */
static const option known[] = {
    {"-o", 1, take_out, "needs the name of a picture", "an empty name", 0},
    {"--pencil", 2, take_pencil, "needs the names of a sheet and of its pencil file", "an empty name", 0},
    {"--stripe", 1, take_stripe, "needs a number from 0 to 63", "not a number from 0 to 63", 0},
    {"--unread", 1, take_unread, "needs " LAYER, "not " LAYER, 0},
    {"--unseen", 1, take_unseen, "needs " COLOUR, "not " COLOUR, 0},
    {"--memory", 1, take_memory, "needs a size, at most 4G, as 300K, 512M or 2G", "at most 4G, as 300K, 512M or 2G", 0},
    {"--seconds", 1, take_seconds, "needs " SECONDS, "not " SECONDS, 0},
    {"--list", 0, NULL, NULL, NULL, offsetof(options, list)},
    {"--times", 0, NULL, NULL, NULL, offsetof(options, times)},
    {"--no-pencil", 0, NULL, NULL, NULL, offsetof(options, no_pencil)},
    {"--no-digests", 0, NULL, NULL, NULL, offsetof(options, no_digests)},
    {"--no-sandbox", 0, NULL, NULL, NULL, offsetof(options, no_sandbox)},
};
/* clang-format on */

static const option *option_of(const char *word)
{
    for (size_t k = 0; k < sizeof known / sizeof *known; k++) {
        if (strcmp(word, known[k].name) == 0) {
            return &known[k];
        }
    }
    return NULL;
}

static const char *visible(const char *value)
{
    return value[0] == 0 ? "''" : value;
}

/* An option with the values that it has, and what is wrong. */
static int fault(const char *name, const char **values, int count, const char *what)
{
    complain("spirerook-view: %s%s%s%s%s: %s", name, count > 0 ? " " : "",
             count > 0 ? visible(values[0]) : "", count > 1 ? " " : "",
             count > 1 ? visible(values[1]) : "", what);
    return 0;
}

static bool looks_like_layer(const char *text)
{
    return strchr(text, ':') != NULL && strspn(text, "0123456789:") == strlen(text);
}

/* How many words the option takes with its own; 0 where something is wrong with it, which is
 * said. */
static int take_option(const option *one, const char **words, int left, options *asked)
{
    int taken = 1 + one->values;
    if (left < taken) {
        return fault(one->name, words + 1, left - 1, one->lacks);
    }
    if (one->take == NULL) {
        *(bool *)((char *)asked + one->flag) = true;
    } else if (!one->take(words + 1, asked)) {
        return fault(one->name, words + 1, one->values, one->fits_not);
    }
    for (; one->take == take_unread && taken < left && looks_like_layer(words[taken]); taken++) {
        if (!take_unread(words + taken, asked)) {
            return fault(one->name, words + taken, 1, one->fits_not);
        }
    }
    return taken;
}

/* An option that would undo what it said before; of --unread each adds to the others. */
static bool is_repeated(const option *one, uint32_t *seen)
{
    uint32_t bit = UINT32_C(1) << (one - known);
    bool repeated = one->take != NULL && one->take != take_unread && (*seen & bit) != 0;
    *seen |= bit;
    return repeated;
}

static int take_page(const char *word, options *asked)
{
    if (word[0] == '-' && word[1] != 0) {
        return fault(word, NULL, 0, "no such option; --help tells of all");
    }
    if (word[0] == 0) {
        return fault("''", NULL, 0, "an empty name");
    }
    if (asked->page != NULL) {
        complain("spirerook-view: %s: a second page; the first is %s", word, asked->page);
        return 0;
    }
    asked->page = word;
    return 1;
}

static options_answer check_together(const options *asked)
{
    const char *pencil[] = {asked->pencil_sheet, asked->pencil_file}, *out[] = {asked->out};
    if (asked->page == NULL) {
        complain("spirerook-view: no page is named; --help tells how");
        return OPTIONS_BAD;
    }
    if (asked->list && asked->out != NULL) {
        fault("-o", out, 1, "not together with --list, which writes no picture");
        return OPTIONS_BAD;
    }
    if (asked->no_pencil && asked->pencil_sheet != NULL) {
        fault("--pencil", pencil, 2, "not together with --no-pencil");
        return OPTIONS_BAD;
    }
    return OPTIONS_GOOD;
}

options_answer read_options(int count, char **words, options *asked)
{
    *asked = (options){.unseen = {SPIREROOK_UNSEEN},
                       .memory = DEFAULT_MEMORY,
                       .seconds = DEFAULT_SECONDS,
                       .clock_seconds = DEFAULT_SECONDS * CLOCK_TIMES};
    uint32_t seen = 0;
    for (int k = 1, taken = 0; k < count; k += taken) {
        const option *one = option_of(words[k]);
        if (strcmp(words[k], "--version") == 0) {
            say_line("spirerook-view " SPIREROOK_VERSION);
            return OPTIONS_ANSWERED;
        }
        if (strcmp(words[k], "--help") == 0) {
            say_lines(help);
            return OPTIONS_ANSWERED;
        }
        taken = one == NULL ? take_page(words[k], asked)
                            : take_option(one, (const char **)words + k, count - k, asked);
        if (taken != 0 && one != NULL && is_repeated(one, &seen)) {
            taken = fault(one->name, (const char **)words + k + 1, one->values, "given twice");
        }
        if (taken == 0) {
            return OPTIONS_BAD;
        }
    }
    return check_together(asked);
}
