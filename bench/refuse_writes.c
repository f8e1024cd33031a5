/* Loaded in front of the C library (LD_PRELOAD), counts the calls that write, cut, flush, rename or remove a file. At the one whose
 * number, from 1, stands in STOP it kills the program, before the call is done. The one whose number stands in FAIL fails, with nothing
 * done. Where there is none of that number, it writes how many there were to the file descriptor 9 at the end. Standard output and what
 * is no file aren't counted. */
#define _GNU_SOURCE
#include <dlfcn.h>
#include <errno.h>
#include <signal.h>
#include <stdio.h>
#include <stdlib.h>
#include <sys/stat.h>
#include <sys/types.h>
#include <sys/uio.h>
#include <unistd.h>

static unsigned long calls;

static unsigned long number_in(const char *name) {
    const char *number = getenv(name);
    return number ? strtoul(number, NULL, 10) : 0;
}

/* whether this call is the one to fail; at the one to stop at there is no way back */
static int is_refused(void) {
    calls++;
    if (calls == number_in("STOP")) {
        raise(SIGKILL);
        for (;;) pause();
    }
    if (calls != number_in("FAIL")) return 0;
    errno = EIO;
    return 1;
}

static int is_file(int descriptor) {
    struct stat found;
    return descriptor > 2 && descriptor != 9 && fstat(descriptor, &found) == 0 && S_ISREG(found.st_mode);
}

#define NEXT(type, name, words) \
    static type(*next) words; \
    if (!next) next = (type(*) words)dlsym(RTLD_NEXT, name)

ssize_t write(int descriptor, const void *bytes, size_t count) {
    NEXT(ssize_t, "write", (int, const void *, size_t));
    return is_file(descriptor) && is_refused() ? -1 : next(descriptor, bytes, count);
}

ssize_t writev(int descriptor, const struct iovec *parts, int count) {
    NEXT(ssize_t, "writev", (int, const struct iovec *, int));
    return is_file(descriptor) && is_refused() ? -1 : next(descriptor, parts, count);
}

ssize_t pwrite(int descriptor, const void *bytes, size_t count, off_t at) {
    NEXT(ssize_t, "pwrite", (int, const void *, size_t, off_t));
    return is_file(descriptor) && is_refused() ? -1 : next(descriptor, bytes, count, at);
}

ssize_t pwrite64(int descriptor, const void *bytes, size_t count, off64_t at) {
    NEXT(ssize_t, "pwrite64", (int, const void *, size_t, off64_t));
    return is_file(descriptor) && is_refused() ? -1 : next(descriptor, bytes, count, at);
}

int ftruncate(int descriptor, off_t size) {
    NEXT(int, "ftruncate", (int, off_t));
    return is_file(descriptor) && is_refused() ? -1 : next(descriptor, size);
}

int ftruncate64(int descriptor, off64_t size) {
    NEXT(int, "ftruncate64", (int, off64_t));
    return is_file(descriptor) && is_refused() ? -1 : next(descriptor, size);
}

int fsync(int descriptor) {
    NEXT(int, "fsync", (int));
    return is_file(descriptor) && is_refused() ? -1 : next(descriptor);
}

int fdatasync(int descriptor) {
    NEXT(int, "fdatasync", (int));
    return is_file(descriptor) && is_refused() ? -1 : next(descriptor);
}

int unlink(const char *path) {
    NEXT(int, "unlink", (const char *));
    return is_refused() ? -1 : next(path);
}

int unlinkat(int folder, const char *path, int flags) {
    NEXT(int, "unlinkat", (int, const char *, int));
    return is_refused() ? -1 : next(folder, path, flags);
}

int rename(const char *path, const char *to) {
    NEXT(int, "rename", (const char *, const char *));
    return is_refused() ? -1 : next(path, to);
}

__attribute__((destructor)) static void tell(void) {
    static int told;
    NEXT(ssize_t, "write", (int, const void *, size_t));
    char text[32];
    int length;
    if (told++ || calls >= number_in("STOP") + number_in("FAIL")) return;
    length = snprintf(text, sizeof text, "%lu\n", calls);
    if (next(9, text, (size_t)length) < 0) abort();
}

/* A program that may start threads ends by this call, which runs no destructor. */
__attribute__((noreturn)) void _exit(int status) {
    static void (*next_exit)(int);
    tell();
    if (!next_exit) next_exit = (void (*)(int))dlsym(RTLD_NEXT, "_exit");
    next_exit(status);
    __builtin_unreachable();
}
