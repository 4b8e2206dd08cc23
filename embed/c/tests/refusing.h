/* What the tests of the calls share: an allocator that refuses. */
#include "needing.h"

/* What refuses an allocation, and counts what is taken: the linker puts these in the place of
 * malloc, realloc and free (--wrap). */
static unsigned long left;
static size_t taken, most;
void *__real_malloc(size_t size);
void __real_free(void *block);

void *__wrap_malloc(size_t size) {
    size_t *block;
    if (left > 0 && --left == 0) return NULL;
    block = __real_malloc(size + 16);
    if (!block) exit(BROKEN);
    *block = size;
    taken += size;
    if (taken > most) most = taken;
    return (char *)block + 16;
}

void __wrap_free(void *block) {
    if (!block) return;
    taken -= *(size_t *)((char *)block - 16);
    __real_free((char *)block - 16);
}

void *__wrap_realloc(void *block, size_t size) {
    size_t old = block ? *(size_t *)((char *)block - 16) : 0;
    void *moved = __wrap_malloc(size);
    if (!moved) return NULL;
    if (block) memcpy(moved, block, old < size ? old : size);
    __wrap_free(block);
    return moved;
}

/* Plays a scenario with the first allocation refused, then with the second, and so on, until it
 * tells that none was. */
static int refuse_each(unsigned long (*scenario)(void)) {
    unsigned long rounds = 0;
    for (left = 1; scenario() > 0; left = rounds + 1) rounds++;
    printf("refused allocations: %lu\n", rounds);
    return 0;
}
