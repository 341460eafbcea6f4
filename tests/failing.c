/* A library that is put before the C library: one call of the system fails, or one growth of memory is refused, or the disk fills up.
 *
 * NETBILL_FAILS has three words: the name of the call, its number among those of this name, from 1 on, and how it fails: an error as errno.h
 * numbers it, or 0, by which a call moves half of the bytes that it was given and no more. Memory is called memory, whatever call asks for it.
 * Where NETBILL_ROOM is a number, a file has room for so many bytes: a write at a place (pwrite) is cut there, and one that begins there, or behind
 * it, fails with ENOSPC. Where NETBILL_CALLS names a file, the name of each call is appended to it, in a line. Standard error never fails, and is not counted. */
#define _GNU_SOURCE
#include <dlfcn.h>
#include <errno.h>
#include <fcntl.h>
#include <stdio.h>
#include <stdlib.h>
#include <string.h>
#include <sys/syscall.h>
#include <unistd.h>

extern ssize_t __write(int, const void *, size_t);
extern void *__libc_malloc(size_t);
extern void *__libc_calloc(size_t, size_t);
extern void *__libc_realloc(void *, size_t);
extern void *__libc_memalign(size_t, size_t);

static char failing[32];
static long number, made;
static off64_t room = -1;
static int error, told = -1;

/* Where the words are read, which takes no memory. Calls of before are not counted. */
__attribute__((constructor)) static void begin(void)
{
    const char *words = getenv("NETBILL_FAILS"), *bytes = getenv("NETBILL_ROOM"), *calls = getenv("NETBILL_CALLS");
    if (calls) {
        int file = open(calls, O_WRONLY | O_CREAT | O_APPEND | O_CLOEXEC, 0600);
        /* The program is to have the descriptors that it has without this one. */
        told = fcntl(file, F_DUPFD_CLOEXEC, 500);
        close(file);
    }
    if (words)
        sscanf(words, "%31s %ld %d", failing, &number, &error);
    if (bytes)
        room = atoll(bytes);
}

/* Counts a call of this name: whether it fails. */
static int fails(const char *name)
{
    if (told >= 0) {
        char line[40];
        int length = snprintf(line, sizeof line, "%s\n", name);
        syscall(SYS_write, told, line, (size_t)length);
    }
    return !strcmp(name, failing) && __atomic_add_fetch(&made, 1, __ATOMIC_RELAXED) == number;
}

/* The C library's own function of this name. */
#define NEXT(name) \
    static __typeof__(&name) next; \
    if (!next) \
        next = (__typeof__(&name))dlsym(RTLD_NEXT, #name)

/* How many of so many bytes behind this place a file has room for; less than 0 where it has no room at all. */
static ssize_t fits(off64_t place, size_t size)
{
    if (room < 0 || place + (off64_t)size <= room)
        return (ssize_t)size;
    return place < room ? (ssize_t)(room - place) : -1;
}

/* A call that moves bytes, of which so many find room: where it fails with no error it moves half of them. */
#define MOVES(counted, name, fitting, parameters, ...) \
    ssize_t name parameters \
    { \
        NEXT(name); \
        if ((ssize_t)(fitting) < 0) { \
            errno = ENOSPC; \
            return -1; \
        } \
        size = (size_t)(fitting); \
        if (file != 2 && fails(counted)) { \
            if (error) { \
                errno = error; \
                return -1; \
            } \
            size = (size + 1) / 2; \
        } \
        return next(__VA_ARGS__); \
    }

MOVES("read", read, size, (int file, void *bytes, size_t size), file, bytes, size)
MOVES("write", write, size, (int file, const void *bytes, size_t size), file, bytes, size)
MOVES("write", __write, size, (int file, const void *bytes, size_t size), file, bytes, size)
MOVES("pread", pread, size, (int file, void *bytes, size_t size, off_t place), file, bytes, size, place)
MOVES("pread", pread64, size, (int file, void *bytes, size_t size, off64_t place), file, bytes, size, place)
MOVES("pwrite", pwrite, fits(place, size), (int file, const void *bytes, size_t size, off_t place), file, bytes, size, place)
MOVES("pwrite", pwrite64, fits(place, size), (int file, const void *bytes, size_t size, off64_t place), file, bytes, size, place)

#define SYNCS(name) \
    int name(int file) \
    { \
        NEXT(name); \
        if (fails(#name)) { \
            errno = error; \
            return -1; \
        } \
        return next(file); \
    }

SYNCS(fsync)
SYNCS(fdatasync)

/* To read ahead is a hint, which is counted by itself. */
#define ADVISES(name, type) \
    int name(int file, type place, type size, int advice) \
    { \
        NEXT(name); \
        return fails(advice == POSIX_FADV_WILLNEED ? "hint" : "posix_fadvise") ? error : next(file, place, size, advice); \
    }

ADVISES(posix_fadvise, off_t)
ADVISES(posix_fadvise64, off64_t)

/* ---- memory */

void *malloc(size_t size)
{
    return fails("memory") ? (errno = ENOMEM, NULL) : __libc_malloc(size);
}

void *calloc(size_t count, size_t size)
{
    return fails("memory") ? (errno = ENOMEM, NULL) : __libc_calloc(count, size);
}

void *realloc(void *bytes, size_t size)
{
    return fails("memory") ? (errno = ENOMEM, NULL) : __libc_realloc(bytes, size);
}

void *aligned_alloc(size_t to, size_t size)
{
    return fails("memory") ? (errno = ENOMEM, NULL) : __libc_memalign(to, size);
}

int posix_memalign(void **bytes, size_t to, size_t size)
{
    if (fails("memory"))
        return ENOMEM;
    *bytes = __libc_memalign(to, size);
    return *bytes ? 0 : ENOMEM;
}
