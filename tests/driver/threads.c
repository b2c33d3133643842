/* How much stack the calls take, and that threads may call at once, through
 * include/spirerook.h.
 *
 *   threads   any number of calls from standard input, each behind ten numbers of
 *             four octets: which call (any_call.h), the lengths of the three parts
 *             lent for reading, the room, and the five numbers that a call may be
 *             told; the parts behind
 *
 * Each call is made here, then in a thread of SPIREROOK_STACK, then in one whose
 * stack was painted, then by THREADS threads at once, ROUNDS times each; answers
 * and buffers must be the same.  A line a call: its number, and the octets of
 * stack that were touched. */
#define _GNU_SOURCE
#include "any_call.h"
#include "console.h"
#include "told.h"

#include <pthread.h>
#include <stdbool.h>
#include <stdio.h>
#include <stdlib.h>
#include <string.h>
#include <sys/mman.h>
#include <unistd.h>

enum {
    NUMBERS = 5 + CALL_NUMBERS,
    MOST = 128, /* calls of one run */
    THREADS = 8,
    ROUNDS = 3,
    PAINTED = 1 << 20,
    PAINT = 0xC5,
    FILL = 0x3C
};

/* What a call answers, and the buffer after it. */
struct result {
    spirerook_part answer;
    uint8_t *out;
};

struct task {
    const struct any_call *job;
    struct result *result;
};

/* False: no memory. */
static bool make_result(struct result *result, const struct any_call *job)
{
    result->out = malloc(job->room + 1);
    if (result->out != NULL) {
        memset(result->out, FILL, job->room + 1);
    }
    return result->out != NULL;
}

static bool is_same(const struct result *one, const struct result *other,
                    const struct any_call *job)
{
    return is_same_answer(one->answer, other->answer) &&
           memcmp(one->out, other->out, job->room + 1) == 0;
}

static void *run_task(void *task)
{
    struct task *t = task;
    t->result->answer = make_call(t->job, t->result->out);
    return NULL;
}

/* Runs a function in a thread with these attributes.  False: it did not run. */
static bool in_thread(pthread_attr_t *attributes, void *(*function)(void *), void *argument)
{
    pthread_t thread;
    return pthread_create(&thread, attributes, function, argument) == 0 &&
           pthread_join(thread, NULL) == 0;
}

/* In a thread of SPIREROOK_STACK; of the least that there is where that is more, as on Arm: then
 * the painted stack alone tells. */
static bool in_small_stack(struct task *task)
{
    pthread_attr_t attributes;
    long least = sysconf(_SC_THREAD_STACK_MIN);
    size_t size = least > SPIREROOK_STACK ? (size_t)least : SPIREROOK_STACK;
    bool ran = pthread_attr_init(&attributes) == 0 &&
               pthread_attr_setstacksize(&attributes, size) == 0 &&
               in_thread(&attributes, run_task, task);
    pthread_attr_destroy(&attributes);
    return ran;
}

static void *run_nothing(void *task)
{
    (void)task;
    return NULL;
}

/* The octets of a painted stack that a thread touches, or 0: it did not run. */
static size_t touched(uint8_t *stack, void *(*function)(void *), void *task)
{
    size_t untouched = 0;
    pthread_attr_t attributes;
    memset(stack, PAINT, PAINTED);
    if (pthread_attr_init(&attributes) != 0 ||
        pthread_attr_setstack(&attributes, stack, PAINTED) != 0 ||
        !in_thread(&attributes, function, task)) {
        return 0;
    }
    pthread_attr_destroy(&attributes);
    while (untouched < PAINTED && stack[untouched] == PAINT) {
        untouched++;
    }
    return PAINTED - untouched;
}

/* What is wrong with a job by itself, or null; the stack that it takes. */
static const char *alone(const struct any_call *job, struct result *due, uint8_t *stack,
                         size_t *most)
{
    struct result small, painted;
    if (!make_result(due, job) || !make_result(&small, job) || !make_result(&painted, job)) {
        return "no memory";
    }
    due->answer = make_call(job, due->out);
    struct task in_small = {job, &small}, in_painted = {job, &painted};
    if (!in_small_stack(&in_small)) {
        return "no thread of SPIREROOK_STACK";
    }
    size_t nothing = touched(stack, run_nothing, NULL);
    size_t some = touched(stack, run_task, &in_painted);
    if (nothing == 0 || some == 0) {
        return "no thread on a painted stack";
    }
    *most = some > nothing ? some - nothing : 0;
    bool same = is_same(due, &small, job) && is_same(due, &painted, job);
    free(small.out);
    free(painted.out);
    return same ? NULL : "a thread gives another result";
}

/* All jobs, in turn from one of them on. */
struct round {
    const struct any_call *jobs;
    const struct result *due;
    size_t count, from;
    bool same;
};

static void *run_round(void *round)
{
    struct round *r = round;
    r->same = true;
    for (size_t k = 0; k < r->count * ROUNDS; k++) {
        size_t at = (r->from + k) % r->count;
        struct result result;
        if (!make_result(&result, &r->jobs[at])) {
            r->same = false;
            return NULL;
        }
        result.answer = make_call(&r->jobs[at], result.out);
        r->same = r->same && is_same(&r->due[at], &result, &r->jobs[at]);
        free(result.out);
    }
    return NULL;
}

static bool at_once(const struct any_call *jobs, const struct result *due, size_t count)
{
    pthread_t threads[THREADS];
    struct round rounds[THREADS];
    bool same = true;
    for (size_t k = 0; k < THREADS; k++) {
        struct round round = {jobs, due, count, k, false};
        rounds[k] = round;
        if (pthread_create(&threads[k], NULL, run_round, &rounds[k]) != 0) {
            return false;
        }
    }
    for (size_t k = 0; k < THREADS; k++) {
        same = pthread_join(threads[k], NULL) == 0 && rounds[k].same && same;
    }
    return same;
}

/* The jobs of standard input, or 0 of them where it tells none. */
static size_t read_jobs(const uint8_t *input, size_t octets, struct any_call jobs[MOST])
{
    struct told told = {input, octets};
    uint64_t n[NUMBERS];
    size_t count = 0;
    while (count < MOST && take_numbers(&told, 4, n, NUMBERS)) {
        struct any_call job = {.which = n[0], .sizes = {n[1], n[2], n[3]}, .room = n[4]};
        take_call_numbers(&job, n + 5);
        for (size_t k = 0; k < CALL_PARTS; k++) {
            job.parts[k] = take_octets(&told, job.sizes[k]);
            if (job.which >= CALL_COUNT || job.parts[k] == NULL) {
                return 0;
            }
        }
        jobs[count++] = job;
    }
    return told.size == 0 ? count : 0;
}

static const char *run_jobs(const struct any_call *jobs, size_t count)
{
    static struct result due[MOST];
    uint8_t *stack = mmap(NULL, PAINTED, PROT_READ | PROT_WRITE,
                          MAP_PRIVATE | MAP_ANONYMOUS | MAP_STACK, -1, 0);
    if (stack == MAP_FAILED) {
        return "no memory";
    }
    for (size_t k = 0; k < count; k++) {
        size_t most = 0;
        const char *wrong = alone(&jobs[k], &due[k], stack, &most);
        if (wrong != NULL) {
            return wrong;
        }
        printf("%u %u %zu\n", (unsigned)jobs[k].which, (unsigned)due[k].answer.number, most);
        fflush(stdout); /* where the next call ends it, this one is told */
    }
    return at_once(jobs, due, count) ? NULL : "threads at once give another result";
}

int main(void)
{
    static struct any_call jobs[MOST];
    size_t octets;
    uint8_t *input = read_standard_input(&octets);
    size_t count = input == NULL ? 0 : read_jobs(input, octets, jobs);
    const char *wrong = count == 0 ? "no calls on standard input" : run_jobs(jobs, count);
    if (wrong != NULL) {
        fprintf(stderr, "threads: %s\n", wrong);
    }
    free(input);
    return wrong == NULL ? EXIT_SUCCESS : EXIT_FAILURE;
}
