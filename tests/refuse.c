/* Refuses memory to the program that it is loaded into by LD_PRELOAD: to the call of malloc or realloc whose number, from 1, REFUSE
   has. Where it was refused, the file that REFUSED names is made. */
#define _GNU_SOURCE
#include <dlfcn.h>
#include <fcntl.h>
#include <stdatomic.h>
#include <stddef.h>
#include <stdlib.h>
#include <unistd.h>

static atomic_long calls;
static long refused;
static const char *mark;

static void __attribute__((constructor)) begin(void) {
    const char *number = getenv("REFUSE");
    mark = getenv("REFUSED");
    calls = 0;
    refused = number ? atol(number) : 0;
}

static int is_refused(void) {
    if (refused == 0 || atomic_fetch_add(&calls, 1) + 1 != refused) return 0;
    if (mark) close(open(mark, O_CREAT | O_WRONLY, 0600));
    return 1;
}

void *malloc(size_t size) {
    static void *(*real)(size_t);
    if (!real) real = (void *(*)(size_t))dlsym(RTLD_NEXT, "malloc");
    return is_refused() ? NULL : real(size);
}

void *realloc(void *old, size_t size) {
    static void *(*real)(void *, size_t);
    if (!real) real = (void *(*)(void *, size_t))dlsym(RTLD_NEXT, "realloc");
    return is_refused() ? NULL : real(old, size);
}
