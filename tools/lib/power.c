/* Preloaded by tools/check-power and tools/check-backup: notes what a loss of power may take back of the files that a program writes. For each file, and for each folder in which one is made, there is a
   file of notes in the folder that POWER_NOTES names, called by the inode: one note after another, each a head and its bytes. POWER_SKIPS names one kind of call that then does nothing. POWER_FAILS names a file by its inode, and a number N: the
   N-th sync of that file fails, once, with an input or output error. POWER_ENDS names two files by their inodes, and numbers BOTH, ALL, SLOW, FRONT and LATER: the process is
   killed at the first of these calls: the BOTH-th at which both files have writes that no sync has covered; the ALL-th; and the LATER-th from the first write on that begins below the byte FRONT of
   the first file. Calls are the writes and the syncs of the two, a write once it is done, a sync before it is; and a sync of one of them takes SLOW microseconds more. */
#define _GNU_SOURCE
#include <dlfcn.h>
#include <errno.h>
#include <fcntl.h>
#include <libgen.h>
#include <signal.h>
#include <stdarg.h>
#include <stdio.h>
#include <stdlib.h>
#include <string.h>
#include <sys/stat.h>
#include <sys/uio.h>
#include <unistd.h>

enum kind { REPLACED = 'r', RESIZED = 'l', NAMED = 'n', BYTES_SYNCED = 'b', SYNCED = 's', FAILED = 'f', DROPPED = 'd' };

struct head {
    long kind, at, count;
};

#define SYSTEM(name, result, ...) ((result(*)(__VA_ARGS__))dlsym(RTLD_NEXT, name))

static int skips(const char *kind) {
    const char *skipped = getenv("POWER_SKIPS");
    return skipped && strcmp(skipped, kind) == 0;
}

/* One call of the system, so that a kill leaves no half of a note. */
static void note(const struct stat *of, enum kind kind, long at, const void *bytes, long count) {
    char path[4096];
    snprintf(path, sizeof path, "%s/%lu", getenv("POWER_NOTES"), (unsigned long)of->st_ino);
    int notes = SYSTEM("open", int, const char *, int, mode_t)(path, O_WRONLY | O_CREAT | O_APPEND, 0600);
    struct head head = {kind, at, count};
    struct iovec parts[2] = {{&head, sizeof head}, {(void *)bytes, count}};
    if (notes < 0 || writev(notes, parts, 2) != (ssize_t)sizeof head + count) abort();
    close(notes);
}

/* Bytes beyond the end are zeros. */
static void note_what_is_there(int file, enum kind kind, long at, long count) {
    struct stat of;
    char *bytes = calloc(1, count + 1);
    if (!bytes || fstat(file, &of) != 0 || SYSTEM("pread", ssize_t, int, void *, size_t, off_t)(file, bytes, count, at) < 0) abort();
    note(&of, kind, at, bytes, count);
    free(bytes);
}

static int is_file(int file) {
    struct stat of;
    return fstat(file, &of) == 0 && S_ISREG(of.st_mode);
}

struct ending {
    unsigned long inodes[2];
    long both, all, slow, front, later;
};

/* Whether a file of a pair has writes that no sync has covered, whether there was a write at the front of the first one, and how many calls there were: all, those with both files so, and those since
   that write. */
static int waits[2], is_later;
static long calls, calls_with_both, calls_later;

/* Which of the two files this is; 2 if it is another, or none are named. */
static int place_in_pair(int file, struct ending *end) {
    struct stat of;
    const char *text = getenv("POWER_ENDS");
    if (!text || sscanf(text, "%lu %lu %ld %ld %ld %ld %ld", &end->inodes[0], &end->inodes[1], &end->both, &end->all, &end->slow, &end->front, &end->later) != 7) return 2;
    if (fstat(file, &of) != 0) abort();
    return of.st_ino == end->inodes[0] ? 0 : of.st_ino == end->inodes[1] ? 1 : 2;
}

/* One more call, if it counts. Whether it is the one of this number. */
static int is_due(long *count, int counts, long number) { return counts && __atomic_add_fetch(count, 1, __ATOMIC_SEQ_CST) >= number; }

static int holds(const int *mark) { return __atomic_load_n(mark, __ATOMIC_SEQ_CST); }

static void count_call(const struct ending *end) {
    int is_last = is_due(&calls, 1, end->all);
    is_last |= is_due(&calls_with_both, holds(&waits[0]) && holds(&waits[1]), end->both);
    is_last |= is_due(&calls_later, holds(&is_later), end->later);
    if (is_last) kill(getpid(), SIGKILL);
}

static void count_write(int file, long at) {
    struct ending end;
    int place = place_in_pair(file, &end);
    if (place == 2) return;
    __atomic_store_n(&waits[place], 1, __ATOMIC_SEQ_CST);
    if (place == 0 && at < end.front) __atomic_store_n(&is_later, 1, __ATOMIC_SEQ_CST);
    count_call(&end);
}

static void count_sync(int file) {
    struct ending end;
    if (place_in_pair(file, &end) == 2) return;
    usleep(end.slow);
    count_call(&end);
}

static void count_synced(int file) {
    struct ending end;
    int place = place_in_pair(file, &end);
    if (place != 2) __atomic_store_n(&waits[place], 0, __ATOMIC_SEQ_CST);
}

ssize_t pwrite(int file, const void *bytes, size_t count, off_t at) {
    if (is_file(file)) note_what_is_there(file, REPLACED, at, count);
    ssize_t written = SYSTEM("pwrite", ssize_t, int, const void *, size_t, off_t)(file, bytes, count, at);
    count_write(file, at);
    return written;
}

int ftruncate(int file, off_t length) {
    struct stat of;
    if (fstat(file, &of) != 0) abort();
    note_what_is_there(file, RESIZED, 0, of.st_size);
    return SYSTEM("ftruncate", int, int, off_t)(file, length);
}

/* Whether this sync of a file is the one that fails. */
static int fails(const struct stat *of) {
    static long count;
    const char *failing = getenv("POWER_FAILS");
    unsigned long inode;
    long number;
    if (!failing || sscanf(failing, "%lu %ld", &inode, &number) != 2 || inode != of->st_ino) return 0;
    return __atomic_add_fetch(&count, 1, __ATOMIC_SEQ_CST) == number;
}

static int sync_by(const char *name, int file, enum kind kind) {
    struct stat of;
    if (fstat(file, &of) != 0) abort();
    count_sync(file);
    if (skips(S_ISDIR(of.st_mode) ? "folder" : name)) return 0;
    if (fails(&of)) {
        note(&of, FAILED, 0, "", 0);
        errno = EIO;
        return -1;
    }
    /* What the machine's own disk has is asked by nobody: the note alone counts. */
    note(&of, kind, 0, "", 0);
    count_synced(file);
    return 0;
}

int fdatasync(int file) { return sync_by("fdatasync", file, BYTES_SYNCED); }

int fsync(int file) { return sync_by("fsync", file, SYNCED); }

static int advise(int file, int advice) {
    struct stat of;
    if (fstat(file, &of) != 0) abort();
    if (advice == POSIX_FADV_DONTNEED && S_ISREG(of.st_mode)) note(&of, DROPPED, 0, "", 0);
    return 0;
}

int posix_fadvise(int file, off_t at, off_t count, int advice) { return advise(file, advice); }

int posix_fadvise64(int file, off_t at, off_t count, int advice) { return advise(file, advice); }

int open(const char *path, int flags, ...) {
    va_list rest;
    va_start(rest, flags);
    mode_t mode = flags & O_CREAT ? va_arg(rest, mode_t) : 0;
    va_end(rest);
    int is_new = flags & O_CREAT && access(path, F_OK) != 0;
    int file = SYSTEM("open", int, const char *, int, mode_t)(path, flags, mode);
    if (file >= 0 && is_new) {
        struct stat of;
        char folder[4096], name[4096];
        snprintf(folder, sizeof folder, "%s", path);
        snprintf(name, sizeof name, "%s", path);
        if (stat(dirname(folder), &of) != 0) abort();
        note(&of, NAMED, 0, basename(name), strlen(basename(name)));
    }
    return file;
}
