/* A library for LD_PRELOAD: one call fails, or does less than it was asked to.
 *
 * FAILING_CALLS is `files`, for the calls of the system on files, `memory`, for those that allocate, `streams`, for reads of the standard
 * input and writes of the standard output, or `threads`, for those that start a thread. FAILING_AT is the number of the call, from 1 on, in
 * the order in which all threads make them; FAILING_WITH the number of its error, or 0 for a read or a write of half the bytes. With
 * FAILING_ON the calls behind it fail like it. With FAILING_COUNT, a path, the number of calls that were made is written there at the end.
 */
#define _GNU_SOURCE
#include <dlfcn.h>
#include <errno.h>
#include <fcntl.h>
#include <pthread.h>
#include <stdarg.h>
#include <stdatomic.h>
#include <stdio.h>
#include <stdlib.h>
#include <string.h>
#include <sys/file.h>
#include <sys/stat.h>
#include <sys/syscall.h>
#include <unistd.h>

enum { NONE, FILES, MEMORY, STREAMS, THREADS, KINDS };

static const char *const NAMES[KINDS] = {"", "files", "memory", "streams", "threads"};

static atomic_long made;
static long failing_at = -1;
static int failing_with, failing_on, counted = NONE;

__attribute__((constructor)) static void begin(void) {
    const char *calls = getenv("FAILING_CALLS"), *at = getenv("FAILING_AT"), *with = getenv("FAILING_WITH");
    failing_at = at ? atol(at) : -1;
    failing_with = with ? atoi(with) : 0;
    failing_on = getenv("FAILING_ON") != NULL;
    for (counted = KINDS - 1; counted && (!calls || strcmp(calls, NAMES[counted])); counted--) {}
}

static void end(void) {
    counted = NONE;
    const char *path = getenv("FAILING_COUNT");
    FILE *file = path ? fopen(path, "w") : NULL;
    if (file) {
        fprintf(file, "%ld\n", (long)made);
        fclose(file);
    }
}

/* The program ends by this call, or returns from `main`. */
void _exit(int status) {
    end();
    for (;;) syscall(SYS_exit_group, status);
}

__attribute__((destructor)) static void return_from_main(void) {
    end();
}

/* Whether this call, of one of the kinds, fails; then errno says why. */
static int is_it(int kind) {
    if (kind != counted)
        return 0;
    long number = atomic_fetch_add(&made, 1) + 1;
    int fails = number == failing_at || (failing_on && failing_at > 0 && number > failing_at);
    if (fails)
        errno = failing_with;
    return fails;
}

#define NEXT(type, name, ...) \
    static type (*next)(__VA_ARGS__); \
    if (!next) next = (type (*)(__VA_ARGS__))dlsym(RTLD_NEXT, name)

#define OPEN(name) \
    int name(const char *path, int flags, ...) { \
        NEXT(int, #name, const char *, int, ...); \
        va_list more; \
        va_start(more, flags); \
        mode_t mode = flags & O_CREAT ? va_arg(more, mode_t) : 0; \
        va_end(more); \
        return is_it(FILES) && failing_with ? -1 : next(path, flags, mode); \
    }

#define OPENAT(name) \
    int name(int at, const char *path, int flags, ...) { \
        NEXT(int, #name, int, const char *, int, ...); \
        va_list more; \
        va_start(more, flags); \
        mode_t mode = flags & O_CREAT ? va_arg(more, mode_t) : 0; \
        va_end(more); \
        return is_it(FILES) && failing_with ? -1 : next(at, path, flags, mode); \
    }

#define WITHOUT_BYTES(name, params, types, args) \
    int name params { \
        NEXT(int, #name, types); \
        return is_it(FILES) && failing_with ? -1 : next args; \
    }
#define TWO(a, b) a, b
#define FIVE(a, b, c, d, e) a, b, c, d, e

#define WITH_BYTES(name, buffer) \
    ssize_t name(int fd, buffer bytes, size_t count, off_t at) { \
        NEXT(ssize_t, #name, int, buffer, size_t, off_t); \
        if (is_it(FILES)) { \
            if (failing_with) return -1; \
            count = count > 1 ? count / 2 : count; \
        } \
        return next(fd, bytes, count, at); \
    }

#define OF_STREAM(name, stream, buffer) \
    ssize_t name(int fd, buffer bytes, size_t count) { \
        NEXT(ssize_t, #name, int, buffer, size_t); \
        if (fd == stream && is_it(STREAMS)) { \
            if (failing_with) return -1; \
            count = count > 1 ? count / 2 : count; \
        } \
        return next(fd, bytes, count); \
    }

OPEN(open)
OPEN(open64)
OPENAT(openat)
OPENAT(openat64)
WITH_BYTES(pread, void *)
WITH_BYTES(pread64, void *)
WITH_BYTES(pwrite, const void *)
WITH_BYTES(pwrite64, const void *)
OF_STREAM(read, STDIN_FILENO, void *)
OF_STREAM(write, STDOUT_FILENO, const void *)
WITHOUT_BYTES(fsync, (int fd), int, (fd))
WITHOUT_BYTES(fdatasync, (int fd), int, (fd))
WITHOUT_BYTES(flock, (int fd, int how), TWO(int, int), (fd, how))
WITHOUT_BYTES(unlink, (const char *path), const char *, (path))
WITHOUT_BYTES(mkdir, (const char *path, mode_t mode), TWO(const char *, mode_t), (path, mode))
WITHOUT_BYTES(statx, (int at, const char *path, int flags, unsigned mask, struct statx *into), FIVE(int, const char *, int, unsigned, struct statx *), (at, path, flags, mask, into))

ssize_t getdents64(int fd, void *into, size_t room) {
    NEXT(ssize_t, "getdents64", int, void *, size_t);
    return is_it(FILES) && failing_with ? -1 : next(fd, into, room);
}

int pthread_create(pthread_t *thread, const pthread_attr_t *told, void *(*begin)(void *), void *with) {
    NEXT(int, "pthread_create", pthread_t *, const pthread_attr_t *, void *(*)(void *), void *);
    return is_it(THREADS) ? failing_with : next(thread, told, begin, with);
}

extern void *__libc_malloc(size_t size);
extern void *__libc_realloc(void *at, size_t size);

void *malloc(size_t size) {
    return is_it(MEMORY) ? NULL : __libc_malloc(size);
}

void *realloc(void *at, size_t size) {
    return is_it(MEMORY) ? NULL : __libc_realloc(at, size);
}
