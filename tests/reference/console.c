#include "console.h"

#include <inttypes.h>
#include <stdio.h>
#include <stdlib.h>
#include <string.h>

uint8_t *read_standard_input(size_t *octets)
{
    size_t room = 65536;
    uint8_t *input = malloc(room);
    *octets = 0;
    while (input != NULL) {
        size_t got = fread(input + *octets, 1, room - *octets, stdin);
        if (got == 0) {
            break;
        }
        *octets += got;
        if (*octets == room) {
            uint8_t *bigger = realloc(input, room * 2);
            if (bigger == NULL) {
                free(input);
            }
            input = bigger;
            room *= 2;
        }
    }
    if (input == NULL || ferror(stdin)) {
        fputs("standard input could not be read\n", stderr);
        free(input);
        return NULL;
    }
    return input;
}

int run_many(int arguments, char **words, const char *name,
             bool (*many)(const uint8_t *input, size_t octets))
{
    size_t octets;
    if (arguments != 2 || strcmp(words[1], "many") != 0) {
        fprintf(stderr, "use: %s many\n", name);
        return EXIT_FAILURE;
    }
    uint8_t *input = read_standard_input(&octets);
    if (input == NULL) {
        return EXIT_FAILURE;
    }
    bool done = many(input, octets);
    if (!done) {
        fprintf(stderr, "%s: the calls end in their midst, or memory lacks\n", name);
    }
    free(input);
    return done ? EXIT_SUCCESS : EXIT_FAILURE;
}

/* "stripe, layer, coder, x, y, width, height, resolution, three base octets,
 * start, length"; request 2026-07: "Listing lines end with this octet", 17. */
void print_record(struct record r)
{
    const uint32_t fields[] = {r.stripe,    r.layer,  r.coder,      r.x,         r.y,
                               r.width,     r.height, r.resolution, r.colour[0], r.colour[1],
                               r.colour[2], r.start,  r.length,     r.grey};
    const size_t count = sizeof fields / sizeof fields[0];
    for (size_t k = 0; k < count; k++) {
        printf("%" PRIu32 "%c", fields[k], k + 1 < count ? ' ' : '\n');
    }
}
