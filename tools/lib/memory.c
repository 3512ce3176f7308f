/* Preloaded by tools/check-memory and tools/check-threads: counts what a program asks of malloc and realloc, and refuses the one whose number MEMORY_FAILS has; as many in a row, from it on, as
   MEMORY_ROW says, if that is set. As the program ends, the count is written to the file that MEMORY_COUNT names. MEMORY_CONTROL names a file of two numbers that the program shares with whoever
   writes to it: so many as the first one has of the next allocations are refused, which makes it less, and the second one counts these. */
#define _GNU_SOURCE
#include <dlfcn.h>
#include <errno.h>
#include <fcntl.h>
#include <stdio.h>
#include <stdlib.h>
#include <sys/mman.h>
#include <unistd.h>

static unsigned long asked, failing, row;

static struct control {
    long left, refused;
} *control;

static void *(*system_malloc)(size_t);
static void *(*system_realloc)(void *, size_t);

static struct control *shared(const char *path) {
    int file = path ? open(path, O_RDWR) : -1;
    void *found = file < 0 ? MAP_FAILED : mmap(0, sizeof *control, PROT_READ | PROT_WRITE, MAP_SHARED, file, 0);
    if (file >= 0) close(file);
    return found == MAP_FAILED ? 0 : found;
}

__attribute__((constructor)) static void begin(void) {
    system_malloc = (void *(*)(size_t))dlsym(RTLD_NEXT, "malloc");
    system_realloc = (void *(*)(void *, size_t))dlsym(RTLD_NEXT, "realloc");
    const char *number = getenv("MEMORY_FAILS");
    asked = 0;
    failing = number ? strtoul(number, 0, 10) : 0;
    number = getenv("MEMORY_ROW");
    row = number ? strtoul(number, 0, 10) : 1;
    control = shared(getenv("MEMORY_CONTROL"));
}

static void tell(void) {
    const char *path = getenv("MEMORY_COUNT");
    unsigned long count = asked;
    FILE *file = path ? fopen(path, "w") : 0;
    if (file) {
        fprintf(file, "%lu", count);
        fclose(file);
    }
}

__attribute__((destructor)) static void end(void) { tell(); }

/* A program that may start threads ends so, and no destructor runs. */
void _exit(int status) {
    void (*system_exit)(int) = (void (*)(int))dlsym(RTLD_NEXT, "_exit");
    tell();
    system_exit(status);
    __builtin_unreachable();
}

/* Whether it is one of those that are left to be refused. */
static int is_left(void) {
    if (!control) return 0;
    long left = __atomic_load_n(&control->left, __ATOMIC_SEQ_CST);
    while (left > 0) {
        if (__atomic_compare_exchange_n(&control->left, &left, left - 1, 0, __ATOMIC_SEQ_CST, __ATOMIC_SEQ_CST)) {
            __atomic_add_fetch(&control->refused, 1, __ATOMIC_SEQ_CST);
            return 1;
        }
    }
    return 0;
}

static int is_refused(void) {
    unsigned long now = __atomic_add_fetch(&asked, 1, __ATOMIC_RELAXED);
    int is_of_row = failing && now >= failing && now - failing < row;
    if (!is_of_row && !is_left()) return 0;
    errno = ENOMEM;
    return 1;
}

void *malloc(size_t bytes) {
    if (!system_malloc) begin();
    return is_refused() ? 0 : system_malloc(bytes);
}

void *realloc(void *old, size_t bytes) {
    if (!system_realloc) begin();
    return is_refused() ? 0 : system_realloc(old, bytes);
}
