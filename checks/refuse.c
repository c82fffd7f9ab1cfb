// Refuses one growth of memory: that with the number that the variable REFUSE names, from 1. It is
// loaded in front of a program (LD_PRELOAD).
#include <stdlib.h>
extern void *__libc_malloc(size_t);
extern void *__libc_realloc(void *, size_t);
extern void *__libc_memalign(size_t, size_t);
static long growths;
static int refused(void) {
    const char *at = getenv("REFUSE");
    return ++growths == (at ? atol(at) : 0);
}
void *malloc(size_t n) { return refused() ? 0 : __libc_malloc(n); }
void *realloc(void *old, size_t n) { return refused() ? 0 : __libc_realloc(old, n); }
void *aligned_alloc(size_t a, size_t n) { return refused() ? 0 : __libc_memalign(a, n); }
int posix_memalign(void **out, size_t a, size_t n) {
    if (refused()) return 12;
    *out = __libc_memalign(a, n);
    return 0;
}
