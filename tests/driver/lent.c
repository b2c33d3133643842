#define _DEFAULT_SOURCE
#include "lent.h"

#include <sys/mman.h>
#include <unistd.h>

bool lent_has(struct lent *lent, size_t size)
{
    if (lent->octets != NULL && lent->size >= size) {
        return true;
    }
    size_t edge = (size_t)sysconf(_SC_PAGESIZE);
    size_t inner = (size / edge + 1) * edge;
    if (lent->octets != NULL) {
        munmap(lent->octets - edge, lent->size + 2 * edge);
        lent->octets = NULL;
    }
    uint8_t *all = mmap(NULL, inner + 2 * edge, PROT_NONE, MAP_PRIVATE | MAP_ANONYMOUS, -1, 0);
    if (all == MAP_FAILED) {
        return false;
    }
    if (mprotect(all + edge, inner, PROT_READ | PROT_WRITE) != 0) {
        munmap(all, inner + 2 * edge);
        return false;
    }
    lent->octets = all + edge;
    lent->size = inner;
    return true;
}

uint8_t *lent_last(const struct lent *lent, size_t size)
{
    return lent->octets + lent->size - size;
}
