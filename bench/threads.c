/* A library to preload into a program: it notes when threads are begun, when they start and end, when one waits for another, and when the
   clock is read, in the file that THREADS names. Each note is a struct of 16 bytes: milliseconds, the thread, and what it did. */
#define _GNU_SOURCE
#include <dlfcn.h>
#include <fcntl.h>
#include <pthread.h>
#include <stdatomic.h>
#include <stdlib.h>
#include <sys/mman.h>
#include <sys/syscall.h>
#include <time.h>
#include <unistd.h>

enum { BEGUN, STARTS, ENDS, WAITS, GOES_ON, CLOCK };

struct note {
    double at;
    int thread;
    int what;
};

struct notes {
    atomic_long count;
    long unused;
    struct note list[1 << 16];
};

struct start {
    void *(*run)(void *);
    void *argument;
};

static struct notes *notes;

static void note(int what) {
    struct timespec t;
    long place = notes ? atomic_fetch_add(&notes->count, 1) : 1 << 16;

    if (place >= 1 << 16) return;
    syscall(SYS_clock_gettime, CLOCK_MONOTONIC, &t);
    notes->list[place].at = t.tv_sec * 1e3 + t.tv_nsec * 1e-6;
    notes->list[place].thread = (int) syscall(SYS_gettid);
    notes->list[place].what = what;
}

__attribute__((constructor)) static void map_notes(void) {
    const char *name = getenv("THREADS");
    int file = name ? open(name, O_RDWR | O_CREAT | O_TRUNC, 0666) : -1;

    if (file < 0 || ftruncate(file, sizeof(struct notes)) != 0) return;
    notes = mmap(0, sizeof(struct notes), PROT_READ | PROT_WRITE, MAP_SHARED, file, 0);
    if (notes == MAP_FAILED) notes = 0;
}

static void *run(void *given) {
    struct start start = *(struct start *) given;
    void *result;

    free(given);
    note(STARTS);
    result = start.run(start.argument);
    note(ENDS);
    return result;
}

int pthread_create(pthread_t *thread, const pthread_attr_t *attributes, void *(*begin)(void *), void *argument) {
    static int (*create)(pthread_t *, const pthread_attr_t *, void *(*)(void *), void *);
    struct start *start = malloc(sizeof(struct start));

    if (!create) create = (int (*)(pthread_t *, const pthread_attr_t *, void *(*)(void *), void *)) dlsym(RTLD_NEXT, "pthread_create");
    start->run = begin;
    start->argument = argument;
    note(BEGUN);
    return create(thread, attributes, run, start);
}

int pthread_join(pthread_t thread, void **result) {
    static int (*join)(pthread_t, void **);
    int status;

    if (!join) join = (int (*)(pthread_t, void **)) dlsym(RTLD_NEXT, "pthread_join");
    note(WAITS);
    status = join(thread, result);
    note(GOES_ON);
    return status;
}

int clock_gettime(clockid_t clock, struct timespec *t) {
    note(CLOCK);
    return (int) syscall(SYS_clock_gettime, clock, t);
}
