/* Preloaded by tools/check-threads and tools/check-power: refuses calls of two files, as a disk does that fails. DEVICE_FILES names them by their inodes. DEVICE_CONTROL names a file that the program
   shares with whoever writes to it: for each of the two files how many calls are left until one is refused, 0 if none is, and how that one is: 1 once, 2 it and every later one, 3 it is short, where it is a
   read or a write; and how many were refused or cut short. Calls are its reads, its writes and its syncs. */
#define _GNU_SOURCE
#include <dlfcn.h>
#include <errno.h>
#include <fcntl.h>
#include <stdio.h>
#include <stdlib.h>
#include <sys/mman.h>
#include <sys/stat.h>
#include <unistd.h>

#define SYSTEM(name, result, ...) ((result(*)(__VA_ARGS__))dlsym(RTLD_NEXT, name))

enum way { AS_ASKED, ONCE, FROM_THEN_ON, SHORT };

static struct control {
    struct {
        long left, way;
    } files[2];
    long refused;
} *control;

static unsigned long inodes[2];

__attribute__((constructor)) static void begin(void) {
    const char *names = getenv("DEVICE_FILES"), *path = getenv("DEVICE_CONTROL");
    int file = path ? open(path, O_RDWR) : -1;
    if (file < 0 || !names || sscanf(names, "%lu %lu", &inodes[0], &inodes[1]) != 2) return;
    void *found = mmap(0, sizeof *control, PROT_READ | PROT_WRITE, MAP_SHARED, file, 0);
    close(file);
    if (found != MAP_FAILED) control = found;
}

/* Counts a call of a file, and tells how it is answered. The last one that is left stays so, if each later one is refused too. */
static enum way counted(int file) {
    struct stat of;
    if (!control || fstat(file, &of) != 0 || (of.st_ino != inodes[0] && of.st_ino != inodes[1])) return AS_ASKED;
    int place = of.st_ino != inodes[0];
    enum way way = __atomic_load_n(&control->files[place].way, __ATOMIC_SEQ_CST);
    long left = __atomic_load_n(&control->files[place].left, __ATOMIC_SEQ_CST);
    do {
        if (left == 0) return AS_ASKED;
    } while (!(left == 1 && way == FROM_THEN_ON) && !__atomic_compare_exchange_n(&control->files[place].left, &left, left - 1, 0, __ATOMIC_SEQ_CST, __ATOMIC_SEQ_CST));
    if (left > 1) return AS_ASKED;
    __atomic_add_fetch(&control->refused, 1, __ATOMIC_SEQ_CST);
    return way;
}

/* How many bytes are read or written; -1 if it is refused. */
static ssize_t allowed(int file, size_t count) {
    switch (counted(file)) {
    case ONCE:
    case FROM_THEN_ON:
        errno = EIO;
        return -1;
    case SHORT:
        return count > 1 ? count / 2 : count;
    case AS_ASKED:
        return count;
    }
    abort();
}

ssize_t pread(int file, void *bytes, size_t count, off_t at) {
    ssize_t most = allowed(file, count);
    return most < 0 ? -1 : SYSTEM("pread", ssize_t, int, void *, size_t, off_t)(file, bytes, most, at);
}

ssize_t pwrite(int file, const void *bytes, size_t count, off_t at) {
    ssize_t most = allowed(file, count);
    return most < 0 ? -1 : SYSTEM("pwrite", ssize_t, int, const void *, size_t, off_t)(file, bytes, most, at);
}

static int sync_by(const char *name, int file) {
    enum way way = counted(file);
    if (way == ONCE || way == FROM_THEN_ON) {
        errno = EIO;
        return -1;
    }
    return SYSTEM(name, int, int)(file);
}

int fdatasync(int file) { return sync_by("fdatasync", file); }

int fsync(int file) { return sync_by("fsync", file); }
