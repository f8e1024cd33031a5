/* Loaded in front of the C library (LD_PRELOAD), refuses one call of malloc or realloc: the one whose number, from 1,
 * stands in REFUSE. Where there is none of that number, it writes how many there were to the file descriptor 9 at the end. */
#define _GNU_SOURCE
#include <dlfcn.h>
#include <errno.h>
#include <stdio.h>
#include <stdlib.h>
#include <unistd.h>

static unsigned long calls;
static unsigned long refused;

/* whether this call is the one to refuse */
static int is_refused(void) {
    if (refused == 0) {
        const char *number = getenv("REFUSE");
        refused = number ? strtoul(number, NULL, 10) : 0;
    }
    if (++calls != refused) return 0;
    errno = ENOMEM;
    return 1;
}

void *malloc(size_t size) {
    static void *(*next)(size_t);
    if (!next) next = (void *(*)(size_t))dlsym(RTLD_NEXT, "malloc");
    return is_refused() ? NULL : next(size);
}

void *realloc(void *memory, size_t size) {
    static void *(*next)(void *, size_t);
    if (!next) next = (void *(*)(void *, size_t))dlsym(RTLD_NEXT, "realloc");
    return is_refused() ? NULL : next(memory, size);
}

__attribute__((destructor)) static void tell(void) {
    static int told;
    char text[32];
    int length;
    if (told++ || calls >= refused) return;
    length = snprintf(text, sizeof text, "%lu\n", calls);
    if (write(9, text, (size_t)length) < 0) abort();
}

/* A program that may start threads ends by this call, which runs no destructor. */
__attribute__((noreturn)) void _exit(int status) {
    static void (*next)(int);
    tell();
    if (!next) next = (void (*)(int))dlsym(RTLD_NEXT, "_exit");
    next(status);
    __builtin_unreachable();
}
