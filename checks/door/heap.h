/* A heap that refuses one allocation. The program is linked with -Wl,--wrap=malloc -Wl,--wrap=realloc -Wl,--wrap=free. */
#ifndef HEAP_H
#define HEAP_H
#include <stddef.h>

/* Allocations so far, which of them is refused (none if 0), and blocks that weren't freed yet. The program sets them back. */
static long asked, refused, blocks;

void *__real_malloc(size_t), *__real_realloc(void *, size_t);
void __real_free(void *);

void *__wrap_malloc(size_t size) {
    if (++asked == refused) return NULL;
    blocks++;
    return __real_malloc(size);
}

void *__wrap_realloc(void *old, size_t size) {
    if (++asked == refused) return NULL;
    if (!old) blocks++;
    return __real_realloc(old, size);
}

void __wrap_free(void *old) {
    if (old) blocks--;
    __real_free(old);
}
#endif
