/* Preloaded before a program: refuses one growth of its memory. REFUSE_AT=N refuses the N-th call of malloc or realloc that the program
   itself makes, from 1 on (0: none). REFUSE_COUNT names a file
   that holds the number of these calls, as eight bytes. */
#define _GNU_SOURCE
#include <dlfcn.h>
#include <fcntl.h>
#include <stdatomic.h>
#include <stdio.h>
#include <stdlib.h>
#include <string.h>
#include <sys/mman.h>
#include <unistd.h>

static void *(*next_malloc)(size_t);
static void *(*next_realloc)(void *, size_t);
static atomic_long own_calls;
static atomic_long *calls = &own_calls;
static long refused = 0;
static const char *program_start, *program_end;

/* Where the program's own code lies, by the first lines of /proc/self/maps: calls from libraries, such as those that start threads, are let pass. */
static void find_program(void) {
    char path[4096], line[8192];
    ssize_t length = readlink("/proc/self/exe", path, sizeof path - 1);
    if (length < 0) return;
    path[length] = 0;
    FILE *maps = fopen("/proc/self/maps", "r");
    while (maps && fgets(line, sizeof line, maps)) {
        unsigned long from, to;
        if (strstr(line, path) && sscanf(line, "%lx-%lx", &from, &to) == 2) {
            if (!program_start) program_start = (const char *)from;
            program_end = (const char *)to;
        }
    }
    if (maps) fclose(maps);
}

/* Counts in a file of eight bytes, which keeps the number however the program ends. */
static void share_count(const char *name) {
    int file = name ? open(name, O_RDWR | O_CREAT | O_TRUNC, 0644) : -1;
    if (file < 0 || ftruncate(file, sizeof(atomic_long)) != 0) return;
    void *shared = mmap(NULL, sizeof(atomic_long), PROT_READ | PROT_WRITE, MAP_SHARED, file, 0);
    if (shared != MAP_FAILED) calls = shared;
}

__attribute__((constructor)) static void begin(void) {
    next_malloc = dlsym(RTLD_NEXT, "malloc");
    next_realloc = dlsym(RTLD_NEXT, "realloc");
    find_program();
    share_count(getenv("REFUSE_COUNT"));
    const char *at = getenv("REFUSE_AT");
    refused = at ? atol(at) : 0;
}

static int is_refused(const void *caller) {
    if ((const char *)caller < program_start || (const char *)caller >= program_end) return 0;
    return atomic_fetch_add(calls, 1) + 1 == refused;
}

void *malloc(size_t size) {
    if (!next_malloc) next_malloc = dlsym(RTLD_NEXT, "malloc");
    return is_refused(__builtin_return_address(0)) ? NULL : next_malloc(size);
}

void *realloc(void *old, size_t size) {
    if (!next_realloc) next_realloc = dlsym(RTLD_NEXT, "realloc");
    return is_refused(__builtin_return_address(0)) ? NULL : next_realloc(old, size);
}
