/* Preloaded by bench/threads. With SYNC_MICROS each sync of a file takes so many microseconds, and writes nothing through: a disk whose syncs are slow, over memory. With SYNC_COUNT that file has how many
   syncs there were of files whose names end in .log: eight bytes, in the machine's order. */
#define _GNU_SOURCE
#include <fcntl.h>
#include <stdint.h>
#include <stdio.h>
#include <stdlib.h>
#include <string.h>
#include <sys/syscall.h>
#include <time.h>
#include <unistd.h>

static uint64_t syncs;

static int is_log(int file) {
    char link[64], name[4096];
    snprintf(link, sizeof link, "/proc/self/fd/%d", file);
    ssize_t length = readlink(link, name, sizeof name);
    return length > 4 && memcmp(name + length - 4, ".log", 4) == 0;
}

static void note(int file) {
    const char *path = getenv("SYNC_COUNT");
    if (!path || !is_log(file))
        return;
    uint64_t now = __atomic_add_fetch(&syncs, 1, __ATOMIC_SEQ_CST);
    int counts = open(path, O_WRONLY | O_CREAT, 0644);
    if (counts < 0 || pwrite(counts, &now, sizeof now, 0) != sizeof now)
        abort();
    close(counts);
}

static int synced(int file, long call) {
    note(file);
    const char *micros = getenv("SYNC_MICROS");
    if (!micros)
        return syscall(call, file);
    long most = atol(micros);
    struct timespec time = {most / 1000000, most % 1000000 * 1000};
    nanosleep(&time, NULL);
    return 0;
}

int fdatasync(int file) {
    return synced(file, SYS_fdatasync);
}

int fsync(int file) {
    return synced(file, SYS_fsync);
}
