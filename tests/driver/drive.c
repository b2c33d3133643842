#include "drive.h"

#include "console.h"
#include "lent.h"
#include "told.h"

#include <stdio.h>
#include <string.h>

enum {
    GUARD = 64, /* octets beside the buffer that are looked at; more than the odd places take */
    MOST_TIMES = 3
};

/* One making of the call: what is lent to it, and what it answers. */
struct trial {
    uint8_t *parts[MOST_PARTS];
    uint8_t *buffer;
    uint8_t *fence; /* the buffer and the octets beside it */
    uint8_t filled; /* the content of all these before */
    spirerook_part answer;
};

/* The octets of the buffer that an answer owns. */
static size_t owned(const struct driver *driver, spirerook_part answer)
{
    return answer.number == SPIREROOK_DONE ? (size_t)answer.count * driver->unit : 0;
}

static const char *bad_refusal(const struct driver *driver, const struct work *work,
                               spirerook_part answer)
{
    if (answer.count != 0) {
        return "a refusal has a count";
    }
    if (answer.source != SPIREROOK_FROM_PAGE || answer.start != 0) {
        return "a refusal has a part";
    }
    if (answer.place > driver->most_place(work, answer.number)) {
        return "a place past the last, or where none is due";
    }
    return NULL;
}

/* What is wrong with an answer by itself, or null. */
static const char *bad_answer(const struct driver *driver, const struct work *work,
                              spirerook_part answer)
{
    if (answer.number >= SPIREROOK_NUMBER_COUNT || (driver->gives >> answer.number & 1) == 0) {
        return "no number of this call";
    }
    if (answer.number != SPIREROOK_DONE) {
        return bad_refusal(driver, work, answer);
    }
    if (answer.place != 0) {
        return "Done has a place";
    }
    /* the count first: a product of it may wrap */
    if (driver->has_buffer && (answer.count > work->room || owned(driver, answer) > work->room)) {
        return "Done without room";
    }
    return NULL;
}

/* Whether these octets are all as they were. */
static bool is_filled(const uint8_t *octets, size_t size, uint8_t filled)
{
    return size == 0 || (octets[0] == filled && memcmp(octets, octets + 1, size - 1) == 0);
}

/* Whether all octets that the answer does not own are as they were. */
static bool is_untouched(const struct driver *driver, const struct work *work,
                         const struct trial *trial)
{
    const uint8_t *rest = trial->buffer + owned(driver, trial->answer);
    const uint8_t *end = trial->fence + work->room + GUARD;
    return is_filled(trial->fence, (size_t)(trial->buffer - trial->fence), trial->filled) &&
           is_filled(rest, (size_t)(end - rest), trial->filled);
}

static const char *breach(const struct driver *driver, const struct work *work,
                          const struct trial *trial)
{
    const char *wrong = bad_answer(driver, work, trial->answer);
    if (wrong != NULL) {
        return wrong;
    }
    if (!is_untouched(driver, work, trial)) {
        return "octets past the result changed, or a refusal changed some";
    }
    for (size_t k = 0; k < driver->parts; k++) {
        if (memcmp(trial->parts[k], work->parts[k].octets, work->parts[k].size) != 0) {
            return "what was lent for reading changed";
        }
    }
    return NULL;
}

/* What is wrong with two makings of one call, or null. */
static const char *difference(const struct driver *driver, const struct trial *one,
                              const struct trial *other)
{
    if (!is_same_answer(one->answer, other->answer)) {
        return "two calls give two answers";
    }
    if (memcmp(one->buffer, other->buffer, owned(driver, one->answer)) != 0) {
        return "two calls give two results";
    }
    return NULL;
}

static void make(const struct driver *driver, const struct work *work, struct trial *trial,
                 bool nulls)
{
    struct loan lent = {.buffer = nulls && work->room == 0 ? NULL : trial->buffer};
    for (size_t k = 0; k < driver->parts; k++) {
        size_t size = work->parts[k].size;
        memcpy(trial->parts[k], work->parts[k].octets, size);
        lent.parts[k] = nulls && size == 0 ? NULL : trial->parts[k];
    }
    memset(trial->fence, trial->filled, work->room + GUARD);
    trial->answer = driver->make(work, &lent);
}

/* Where each trial has what is lent to it.  False: no memory. */
static bool place_trials(const struct driver *driver, const struct work *work,
                         struct trial trials[MOST_TIMES])
{
    static struct lent parts[MOST_PARTS], buffers[MOST_TIMES];
    for (size_t k = 0; k < driver->parts; k++) {
        if (!lent_has(&parts[k], work->parts[k].size + GUARD)) {
            return false;
        }
        trials[0].parts[k] = lent_last(&parts[k], work->parts[k].size);
        trials[1].parts[k] = parts[k].octets;
        trials[2].parts[k] = parts[k].octets + 2 * k + 1;
    }
    for (size_t k = 0; k < MOST_TIMES; k++) {
        if (!lent_has(&buffers[k], work->room + GUARD)) {
            return false;
        }
        trials[k].fence = buffers[k].octets;
    }
    trials[0].fence = lent_last(&buffers[0], work->room + GUARD);
    trials[0].buffer = trials[0].fence + GUARD;
    trials[1].buffer = trials[1].fence;
    trials[2].buffer = trials[2].fence + 3;
    return true;
}

static void print_answer(const struct driver *driver, const struct work *work,
                         const struct trial *trial)
{
    spirerook_part answer = trial->answer;
    if (answer.number != SPIREROOK_DONE) {
        printf("refused %u %u\n", (unsigned)answer.number, (unsigned)answer.place);
    } else if (driver->print != NULL) {
        driver->print(work, answer, trial->buffer);
    } else {
        printf("done %zu\n", owned(driver, answer));
        fwrite(trial->buffer, 1, owned(driver, answer), stdout);
    }
}

/* False: no memory. */
static bool drive_one(const struct driver *driver, const struct work *work)
{
    struct trial trials[MOST_TIMES] = {{.filled = 0xA5}, {.filled = 0x5A}, {.filled = 0x01}};
    const char *wrong = NULL;
    if (!place_trials(driver, work, trials)) {
        return false;
    }
    for (size_t k = 0; k < driver->times && wrong == NULL; k++) {
        make(driver, work, &trials[k], k == 1);
        wrong = breach(driver, work, &trials[k]);
        if (wrong == NULL) {
            wrong = difference(driver, &trials[0], &trials[k]);
        }
    }
    /* the results are the same, so that one of them is looked into */
    if (wrong == NULL && trials[0].answer.number == SPIREROOK_DONE && driver->bad_result != NULL) {
        wrong = driver->bad_result(work, trials[0].answer, trials[0].buffer);
    }
    if (wrong != NULL) {
        printf("broken: %s\n", wrong);
    } else {
        print_answer(driver, work, &trials[0]);
    }
    return true;
}

static const struct driver *driven; /* run_many lends no more than the input */

/* False: the input ends in the midst of a call. */
static bool take_work(struct told *told, const uint64_t *numbers, struct work *work)
{
    for (size_t k = 0; k < driven->parts; k++, numbers++) {
        work->parts[k].size = (size_t)*numbers;
        work->parts[k].octets = take_octets(told, *numbers);
        if (work->parts[k].octets == NULL) {
            return false;
        }
    }
    if (driven->has_buffer) {
        work->room = (size_t)*numbers++;
    }
    for (size_t k = 0; k < driven->numbers; k++) {
        work->numbers[k] = (uint32_t)numbers[k];
    }
    return true;
}

static bool drive_many(const uint8_t *input, size_t octets)
{
    struct told told = {input, octets};
    uint64_t numbers[MOST_PARTS + 1 + MOST_NUMBERS];
    while (take_numbers(&told, 4, numbers, driven->parts + driven->has_buffer + driven->numbers)) {
        struct work work = {.room = 0};
        if (!take_work(&told, numbers, &work) || !drive_one(driven, &work)) {
            return false;
        }
        puts(".");
        fflush(stdout); /* where the next call ends it, this one is told */
    }
    return told.size == 0;
}

int drive(const struct driver *driver, int arguments, char **words)
{
    driven = driver;
    return run_many(arguments, words, driver->name, drive_many);
}
