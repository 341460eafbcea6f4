/* A library that is put before the C library: it counts the syncs that a program makes, and how long they take where they are made.
 *
 * SYNCS_LOG names a file of 16 bytes, two numbers of 64 bits as the machine has them: how many syncs there were, and their nanoseconds, of all
 * processes that have this name. Each is added as it ends, in memory that the processes share, so that nothing is lost where one is killed, and the
 * file is never written by a call. What is not a file of that size is left alone, and then nothing is counted. */
#define _GNU_SOURCE
#include <dlfcn.h>
#include <fcntl.h>
#include <stdint.h>
#include <stdlib.h>
#include <sys/mman.h>
#include <sys/stat.h>
#include <time.h>
#include <unistd.h>

/* How many syncs there were, and their nanoseconds. */
struct syncs {
    uint64_t count, nanoseconds;
};

static struct syncs *syncs;

/* Where the file is brought into memory. The program is to have the descriptors that it has without this one. */
__attribute__((constructor)) static void begin(void)
{
    const char *name = getenv("SYNCS_LOG");
    struct stat found;
    int file = name ? open(name, O_RDWR | O_CLOEXEC) : -1;
    if (file < 0)
        return;
    if (fstat(file, &found) == 0 && found.st_size == sizeof *syncs) {
        void *at = mmap(NULL, sizeof *syncs, PROT_READ | PROT_WRITE, MAP_SHARED, file, 0);
        syncs = at == MAP_FAILED ? NULL : at;
    }
    close(file);
}

/* Now, in nanoseconds since some moment. */
static uint64_t now(void)
{
    struct timespec time;
    clock_gettime(CLOCK_MONOTONIC, &time);
    return (uint64_t)time.tv_sec * 1000000000 + (uint64_t)time.tv_nsec;
}

/* A sync by the C library's own function of this name, timed. */
#define SYNCS(name, parameters, ...) \
    int name parameters \
    { \
        static __typeof__(&name) next; \
        if (!next) \
            next = (__typeof__(&name))dlsym(RTLD_NEXT, #name); \
        uint64_t began = now(); \
        int result = next(__VA_ARGS__); \
        if (syncs) { \
            __atomic_add_fetch(&syncs->nanoseconds, now() - began, __ATOMIC_RELAXED); \
            __atomic_add_fetch(&syncs->count, 1, __ATOMIC_RELAXED); \
        } \
        return result; \
    }

SYNCS(fsync, (int file), file)
SYNCS(fdatasync, (int file), file)
SYNCS(syncfs, (int file), file)
SYNCS(msync, (void *at, size_t size, int how), at, size, how)
SYNCS(sync_file_range, (int file, off64_t place, off64_t size, unsigned how), file, place, size, how)
