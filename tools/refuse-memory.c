/* Stands between a program and the C library's allocator, counts the requests for memory, and refuses some of them.

   `tools/refuse-memory` builds it as a shared library and has the loader put it in front of the C library (LD_PRELOAD). The environment
   says what to do:

     REFUSE_AT      the number of the request to refuse, counted from 1; with 0, or where it isn't set, none is refused
     REFUSE_REST    where it is set, all requests behind that one are refused too
     REFUSE_COUNTS  a file with room for the counts below; it is mapped, so that they stand there however the program ends

   Every request of the process is counted, from whatever thread: malloc, calloc, realloc, reallocarray, posix_memalign, aligned_alloc,
   memalign, and pthread_create, since a thread is given a stack. What the C library itself takes from the system by mmap isn't seen. */

#define _GNU_SOURCE
#include <dlfcn.h>
#include <errno.h>
#include <fcntl.h>
#include <pthread.h>
#include <stdatomic.h>
#include <stdint.h>
#include <stdlib.h>
#include <sys/mman.h>
#include <unistd.h>

enum phase { BEFORE_MAIN, IN_MAIN, AFTER_MAIN };

struct counts {
    atomic_uint_least64_t requests; /* all that came */
    atomic_uint_least64_t early;    /* those that came before main was called */
    atomic_uint_least64_t refused;  /* those that were refused */
    atomic_uint_least64_t phase;    /* of the first one that was refused */
    atomic_uint_least64_t call;     /* which call that was: its place among the names in tools/refuse-memory */
    atomic_uint_least64_t size;     /* how many bytes it asked for */
};

static struct counts unmapped;
static struct counts *counts = &unmapped;
static _Atomic enum phase phase = BEFORE_MAIN;
static uint64_t at;
static int rest;

/* Reads the environment, where the C library has it already. No call in it takes memory. */
static void attach(void) {
    const char *file, *number;
    if (counts != &unmapped || environ == NULL || (file = getenv("REFUSE_COUNTS")) == NULL) return;
    int opened = open(file, O_RDWR | O_CLOEXEC);
    if (opened < 0) _exit(99);
    void *mapped = mmap(NULL, sizeof *counts, PROT_READ | PROT_WRITE, MAP_SHARED, opened, 0);
    if (mapped == MAP_FAILED) _exit(99);
    close(opened);
    counts = mapped;
    atomic_store(&counts->requests, atomic_load(&unmapped.requests));
    atomic_store(&counts->early, atomic_load(&unmapped.early));
    number = getenv("REFUSE_AT");
    at = number ? strtoull(number, NULL, 10) : 0;
    rest = getenv("REFUSE_REST") != NULL;
}

__attribute__((constructor)) static void begin(void) { attach(); }

/* Counts a request, and says whether it is to be refused. */
static int refuses(int call, uint64_t size) {
    attach();
    if (phase == BEFORE_MAIN) atomic_fetch_add(&counts->early, 1);
    uint64_t number = atomic_fetch_add(&counts->requests, 1) + 1;
    if (at == 0 || number < at || (number > at && !rest)) return 0;
    if (atomic_fetch_add(&counts->refused, 1) == 0) {
        counts->phase = phase;
        counts->call = call;
        counts->size = size;
    }
    return 1;
}

void *__libc_malloc(size_t);
void *__libc_calloc(size_t, size_t);
void *__libc_realloc(void *, size_t);
void *__libc_memalign(size_t, size_t);

static void *none(void) {
    errno = ENOMEM;
    return NULL;
}

void *malloc(size_t size) { return refuses(0, size) ? none() : __libc_malloc(size); }

void *calloc(size_t count, size_t size) { return refuses(1, count * size) ? none() : __libc_calloc(count, size); }

void *realloc(void *old, size_t size) { return refuses(2, size) ? none() : __libc_realloc(old, size); }

void *reallocarray(void *old, size_t count, size_t size) {
    size_t whole;
    if (refuses(3, count * size) || __builtin_mul_overflow(count, size, &whole)) return none();
    return __libc_realloc(old, whole);
}

int posix_memalign(void **made, size_t alignment, size_t size) {
    if (refuses(4, size)) return ENOMEM;
    void *block = __libc_memalign(alignment, size);
    if (block == NULL) return ENOMEM;
    *made = block;
    return 0;
}

void *aligned_alloc(size_t alignment, size_t size) { return refuses(5, size) ? none() : __libc_memalign(alignment, size); }

void *memalign(size_t alignment, size_t size) { return refuses(6, size) ? none() : __libc_memalign(alignment, size); }

int pthread_create(pthread_t *made, const pthread_attr_t *how, void *(*run)(void *), void *given) {
    static int (*real)(pthread_t *, const pthread_attr_t *, void *(*)(void *), void *);
    if (refuses(7, 0)) return EAGAIN;
    if (real == NULL) real = dlsym(RTLD_NEXT, "pthread_create");
    return real(made, how, run, given);
}

/* main is called through a function that marks when it begins and when it has ended. */
static int (*main_of_program)(int, char **, char **);

static int marked_main(int count, char **words, char **environment) {
    phase = IN_MAIN;
    int status = main_of_program(count, words, environment);
    phase = AFTER_MAIN;
    return status;
}

int __libc_start_main(int (*main)(int, char **, char **), int count, char **words, void (*init)(void), void (*fini)(void),
                      void (*end)(void), void *stack) {
    int (*real)(int (*)(int, char **, char **), int, char **, void (*)(void), void (*)(void), void (*)(void), void *) =
        dlsym(RTLD_NEXT, "__libc_start_main");
    main_of_program = main;
    return real(marked_main, count, words, init, fini, end, stack);
}
