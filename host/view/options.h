/* What the viewer is asked for. */
#ifndef OPTIONS_H
#define OPTIONS_H

#include <stdbool.h>
#include <stddef.h>
#include <stdint.h>

#include <spirerook.h>

/* The viewer's exit statuses. */
enum { STATUS_WHOLE = 0, STATUS_REFUSED = 1, STATUS_BAD_OPTION = 2, STATUS_UNSEEN = 3 };

typedef struct {
    const char *page, *pencil_sheet, *pencil_file, *out; /* null where not given */
    bool list, times, no_pencil, no_digests, no_sandbox;
    bool unread[SPIREROOK_STRIPES][SPIREROOK_LAYERS + 1];
    bool plain_unseen; /* unseen pixels are drawn in one colour, not in the pattern */
    uint8_t unseen[3]; /* the codes of that colour, or of the library's own */
    bool one_stripe;
    uint32_t stripe;
    uint64_t memory; /* octets that a stripe's samples and, beside them, its band may take */
    uint32_t seconds, clock_seconds; /* of a decoder: the processor's, and by the clock */
} options;

typedef enum { OPTIONS_GOOD, OPTIONS_BAD, OPTIONS_ANSWERED } options_answer;

/* Says on standard error what is bad; --help and --version are answered on standard output. */
options_answer read_options(int count, char **words, options *asked);

#endif
