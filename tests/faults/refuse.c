/* Preloaded, it does to the calls of a program what the variables of its environment ask for.

   Refusals. Each is reported by a byte to the file descriptor in REPORT_ON, or else 9.
     REFUSE_CALL=N       the Nth call of malloc's family gets no memory. Calls that the C library
                         makes before this one is set up are not counted.
     REFUSE_ON_WORKERS=1 calls of the first thread are not counted either.
     REFUSE_THREAD=N     the Nth thread is not started.
     FAIL_READ=N         the Nth read of standard input fails with EIO.

   Standard input and output.
     INTERRUPT=1         every other read and write is interrupted, the first one, too.
     READ_AT_MOST=N      a read gives N bytes at most.
     WRITE_AT_MOST=N     a write takes N bytes at most.
     TAKE_BYTES=N        N bytes are taken in all; then writes fail as on a full disk.
     TAKE_NOTHING=1      then they don't fail but take nothing.

   Schedules.
     SLEEP_SEED=N        threads sleep for some microseconds, at some calls of sched_yield and, all
                         but the first, at some calls of malloc's family. Which, and for how long, is
                         given by the seed and the thread's number. */
#define _GNU_SOURCE
#include <dlfcn.h>
#include <errno.h>
#include <pthread.h>
#include <sched.h>
#include <stdatomic.h>
#include <stddef.h>
#include <stdint.h>
#include <stdlib.h>
#include <time.h>
#include <unistd.h>

#define MOST_THREADS 64
#define NUMBER_OF(value, otherwise) ((value) ? atol(value) : (otherwise))

static long refused_call, refused_thread, failed_read, report_on;
static long read_at_most, write_at_most, left, takes_nothing;
static int counting, on_workers, interrupting, sleeping;
static uint64_t seed;
static atomic_long calls, threads, reads, tries_to_read, tries_to_write;
static _Thread_local uint64_t number, state;

static ssize_t (*next_read)(int, void *, size_t);
static ssize_t (*next_write)(int, const void *, size_t);
static void *(*next_malloc)(size_t);
static void *(*next_realloc)(void *, size_t);
static void *(*next_aligned_alloc)(size_t, size_t);
static int (*next_posix_memalign)(void **, size_t, size_t);
static int (*next_create)(pthread_t *, const pthread_attr_t *, void *(*)(void *), void *);
static int (*next_yield)(void);

__attribute__((constructor)) static void start(void)
{
    next_read = dlsym(RTLD_NEXT, "read");
    next_write = dlsym(RTLD_NEXT, "write");
    next_malloc = dlsym(RTLD_NEXT, "malloc");
    next_realloc = dlsym(RTLD_NEXT, "realloc");
    next_aligned_alloc = dlsym(RTLD_NEXT, "aligned_alloc");
    next_posix_memalign = dlsym(RTLD_NEXT, "posix_memalign");
    next_create = dlsym(RTLD_NEXT, "pthread_create");
    next_yield = dlsym(RTLD_NEXT, "sched_yield");
    refused_call = NUMBER_OF(getenv("REFUSE_CALL"), 0);
    refused_thread = NUMBER_OF(getenv("REFUSE_THREAD"), 0);
    failed_read = NUMBER_OF(getenv("FAIL_READ"), 0);
    report_on = NUMBER_OF(getenv("REPORT_ON"), 9);
    read_at_most = NUMBER_OF(getenv("READ_AT_MOST"), -1);
    write_at_most = NUMBER_OF(getenv("WRITE_AT_MOST"), -1);
    left = NUMBER_OF(getenv("TAKE_BYTES"), -1);
    takes_nothing = getenv("TAKE_NOTHING") != NULL;
    on_workers = getenv("REFUSE_ON_WORKERS") != NULL;
    interrupting = getenv("INTERRUPT") != NULL;
    sleeping = getenv("SLEEP_SEED") != NULL;
    seed = (uint64_t)NUMBER_OF(getenv("SLEEP_SEED"), 0);
    counting = 1;
}

static void report(void)
{
    ssize_t written = next_write((int)report_on, "r", 1);
    (void)written;
}

/* Sleeping */

/* The next number of the thread's own row of numbers (SplitMix64). */
static uint64_t draw(void)
{
    if (state == 0)
        state = (seed << 8) + number + 1;
    uint64_t drawn = state += 0x9e3779b97f4a7c15u;
    drawn = (drawn ^ (drawn >> 30)) * 0xbf58476d1ce4e5b9u;
    drawn = (drawn ^ (drawn >> 27)) * 0x94d049bb133111ebu;
    return drawn ^ (drawn >> 31);
}

/* At one call of four, for up to 32 microseconds and what the system adds. */
static void sleep_at_times(void)
{
    uint64_t drawn = draw();
    if (drawn % 4 == 0) {
        struct timespec pause = {0, (long)(drawn >> 49)};
        nanosleep(&pause, NULL);
    }
}

int sched_yield(void)
{
    if (sleeping)
        sleep_at_times();
    return next_yield();
}

/* Memory */

static int is_refused(void)
{
    if (!counting || (on_workers && gettid() == getpid()))
        return 0;
    if (sleeping && number > 0)
        sleep_at_times();
    if (atomic_fetch_add(&calls, 1) + 1 != refused_call)
        return 0;
    report();
    return 1;
}

void *malloc(size_t size)
{
    if (is_refused()) {
        errno = ENOMEM;
        return NULL;
    }
    if (!next_malloc)
        next_malloc = dlsym(RTLD_NEXT, "malloc");
    return next_malloc(size);
}

void *realloc(void *old, size_t size)
{
    if (is_refused()) {
        errno = ENOMEM;
        return NULL;
    }
    if (!next_realloc)
        next_realloc = dlsym(RTLD_NEXT, "realloc");
    return next_realloc(old, size);
}

void *aligned_alloc(size_t alignment, size_t size)
{
    if (is_refused()) {
        errno = ENOMEM;
        return NULL;
    }
    if (!next_aligned_alloc)
        next_aligned_alloc = dlsym(RTLD_NEXT, "aligned_alloc");
    return next_aligned_alloc(alignment, size);
}

int posix_memalign(void **result, size_t alignment, size_t size)
{
    if (is_refused())
        return ENOMEM;
    if (!next_posix_memalign)
        next_posix_memalign = dlsym(RTLD_NEXT, "posix_memalign");
    return next_posix_memalign(result, alignment, size);
}

/* Threads */

/* What a thread does, at the place of its number: the first one is 0, and the others count from 1. */
static struct {
    void *(*job)(void *);
    void *with;
} begun[MOST_THREADS];

static void *begin(void *place)
{
    number = (uint64_t)(uintptr_t)place;
    return begun[number].job(begun[number].with);
}

int pthread_create(pthread_t *thread, const pthread_attr_t *attributes, void *(*job)(void *), void *with)
{
    if (!next_create)
        next_create = dlsym(RTLD_NEXT, "pthread_create");
    long place = atomic_fetch_add(&threads, 1) + 1;
    if (place == refused_thread) {
        report();
        return EAGAIN;
    }
    if (place >= MOST_THREADS)
        return next_create(thread, attributes, job, with);
    begun[place].job = job;
    begun[place].with = with;
    return next_create(thread, attributes, begin, (void *)(uintptr_t)place);
}

/* Standard input and output */

/* Whether this call is interrupted. */
static int is_interrupted(atomic_long *tries)
{
    return interrupting && atomic_fetch_add(tries, 1) % 2 == 0;
}

static size_t lesser(size_t count, long most)
{
    return most < 0 || count < (size_t)most ? count : (size_t)most;
}

ssize_t read(int file, void *bytes, size_t count)
{
    if (!next_read)
        next_read = dlsym(RTLD_NEXT, "read");
    if (file != 0)
        return next_read(file, bytes, count);
    if (is_interrupted(&tries_to_read)) {
        errno = EINTR;
        return -1;
    }
    if (atomic_fetch_add(&reads, 1) + 1 == failed_read) {
        report();
        errno = EIO;
        return -1;
    }
    return next_read(file, bytes, lesser(count, read_at_most));
}

ssize_t write(int file, const void *bytes, size_t count)
{
    if (!next_write)
        next_write = dlsym(RTLD_NEXT, "write");
    if (file != 1)
        return next_write(file, bytes, count);
    if (is_interrupted(&tries_to_write)) {
        errno = EINTR;
        return -1;
    }
    if (left == 0 && takes_nothing)
        return 0;
    if (left == 0) {
        errno = ENOSPC;
        return -1;
    }
    ssize_t taken = next_write(file, bytes, lesser(lesser(count, write_at_most), left));
    if (left > 0 && taken > 0)
        left -= taken;
    return taken;
}
