/* Refuses growths of memory and starts of threads to a program that is started with this library before its others (LD_PRELOAD).
 *
 * REFUSE_GROWTH=N        the Nth growth is refused, a call of malloc, calloc, realloc, memalign, aligned_alloc or posix_memalign
 * REFUSE_GROWTHS_FROM=N  each growth from the Nth on is refused
 * REFUSE_LARGE=N         the Nth growth by 4096 bytes or more is refused
 * REFUSE_MARK=SIZE       a thread that asks for SIZE bytes is refused them, and each growth after that
 * REFUSE_THREAD=N        the Nth thread can't be started
 * REFUSE_THREADS_FROM=N  each thread from the Nth on can't be started
 * REFUSE_COUNTS=FILE     FILE, 32 bytes, gets four 64-bit numbers: growths asked for and refused, threads asked for and refused
 *
 * The file is mapped, so the counts stand even where the program is killed. A program that is linked with a malloc of its own, as one
 * with an address sanitizer is, isn't reached: its counts stay 0. tools/test memory_sweep builds and uses this.
 */
#define _GNU_SOURCE
#include <dlfcn.h>
#include <errno.h>
#include <fcntl.h>
#include <pthread.h>
#include <stdatomic.h>
#include <stdlib.h>
#include <sys/mman.h>
#include <unistd.h>

struct Counts {
    atomic_long growths, refused_growths, threads, refused_threads;
};

static struct Counts own;
static struct Counts *counts = &own;
static long growth, growths_from, large, mark, thread, threads_from;

/* How many growths by as many bytes as a large one has were asked for. */
static atomic_long large_growths;
enum { LARGE = 4096 };

/* Whether the thread has asked for the size of the mark. (Another model would ask malloc for the variable's room.) */
static _Thread_local int is_marked __attribute__((tls_model("initial-exec")));

/* The number in a variable of the environment; 0 where there is none. */
static long number(const char *name) {
    const char *text = getenv(name);
    return text ? atol(text) : 0;
}

/* What the loader asked for before isn't counted. */
__attribute__((constructor)) static void start(void) {
    const char *path = getenv("REFUSE_COUNTS");
    int file = path ? open(path, O_RDWR | O_CLOEXEC) : -1;
    if (file >= 0) {
        void *map = mmap(NULL, sizeof own, PROT_READ | PROT_WRITE, MAP_SHARED, file, 0);
        if (map != MAP_FAILED) {
            counts = map;
        }
        close(file);
    }
    growth = number("REFUSE_GROWTH");
    growths_from = number("REFUSE_GROWTHS_FROM");
    large = number("REFUSE_LARGE");
    mark = number("REFUSE_MARK");
    thread = number("REFUSE_THREAD");
    threads_from = number("REFUSE_THREADS_FROM");
}

/* Counts one more, and whether it is to be refused: the one alone, each from the other on, or this one for a reason of its own. */
static int is_refused(atomic_long *asked, atomic_long *refused, long alone, long from, int is_barred) {
    long n = atomic_fetch_add(asked, 1) + 1;
    if (n != alone && (from == 0 || n < from) && !is_barred) {
        return 0;
    }
    atomic_fetch_add(refused, 1);
    return 1;
}

/* Whether the growth is large, and the one among these that is refused. */
static int is_barred_as_large(size_t size) { return size >= LARGE && atomic_fetch_add(&large_growths, 1) + 1 == large; }

static int is_growth_refused(size_t size) {
    if (mark != 0 && size == (size_t)mark) {
        is_marked = 1;
    }
    int is_barred = is_barred_as_large(size) || is_marked;
    if (!is_refused(&counts->growths, &counts->refused_growths, growth, growths_from, is_barred)) {
        return 0;
    }
    errno = ENOMEM;
    return 1;
}

extern void *__libc_malloc(size_t);
extern void *__libc_calloc(size_t, size_t);
extern void *__libc_realloc(void *, size_t);
extern void *__libc_memalign(size_t, size_t);

void *malloc(size_t size) { return is_growth_refused(size) ? NULL : __libc_malloc(size); }

void *calloc(size_t count, size_t size) { return is_growth_refused(count * size) ? NULL : __libc_calloc(count, size); }

void *realloc(void *old, size_t size) { return is_growth_refused(size) ? NULL : __libc_realloc(old, size); }

void *memalign(size_t align, size_t size) { return is_growth_refused(size) ? NULL : __libc_memalign(align, size); }

void *aligned_alloc(size_t align, size_t size) { return memalign(align, size); }

int posix_memalign(void **out, size_t align, size_t size) {
    void *got = memalign(align, size);
    if (!got) {
        return ENOMEM;
    }
    *out = got;
    return 0;
}

int pthread_create(pthread_t *made, const pthread_attr_t *attributes, void *(*run)(void *), void *argument) {
    typedef int Create(pthread_t *, const pthread_attr_t *, void *(*)(void *), void *);
    if (is_refused(&counts->threads, &counts->refused_threads, thread, threads_from, 0)) {
        return EAGAIN;
    }
    Create *create = (Create *)dlsym(RTLD_NEXT, "pthread_create");
    return create ? create(made, attributes, run, argument) : EAGAIN;
}
