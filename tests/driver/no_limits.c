/* Stands before two calls of a decoder's process in the sanitized viewer
 * (-Wl,--wrap=setrlimit,--wrap=dup2). That process may write no file, no words
 * and little memory; a sanitizer needs them to tell what it found: the
 * address sanitizer in a file, the one for undefined behaviour on standard
 * error.
 *
 * PLANT asks for a fault in that process: the proof that one is caught there. */
#include <stdlib.h>
#include <string.h>
#include <sys/resource.h>
#include <unistd.h>

int __wrap_setrlimit(int resource, const struct rlimit *bound);
int __wrap_dup2(int from, int to);
int __real_dup2(int from, int to);

int __wrap_setrlimit(int resource, const struct rlimit *bound)
{
    const char *plant = getenv("PLANT");
    (void)resource;
    (void)bound;
    if (plant != NULL && strcmp(plant, "address") == 0) {
        volatile char *room = malloc(strlen(plant));
        room[strlen(plant)] = 1;
        free((void *)room);
    }
    if (plant != NULL && strcmp(plant, "undefined") == 0) {
        volatile int most = 0x7fffffff;
        most = most + 1;
    }
    return 0;
}

int __wrap_dup2(int from, int to)
{
    return to == STDERR_FILENO ? to : __real_dup2(from, to);
}
