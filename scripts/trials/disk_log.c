/* Writes down what a program writes to one file, and when it syncs it. scripts/trials/disk_log.py compiles it and runs a program
 * with it.
 *
 *     LD_PRELOAD=./disk_log.so DISK_LOG=FILE DISK_LOG_OF=MEDIUM PROGRAM
 *
 * A line of FILE is `write OFFSET LENGTH`, or `sync`. Maps of MEDIUM that other programs would see (MAP_SHARED) and may be written
 * are the line `shared`. Other files are not looked at. */
#define _GNU_SOURCE
#include <dlfcn.h>
#include <fcntl.h>
#include <stdarg.h>
#include <stdio.h>
#include <stdlib.h>
#include <string.h>
#include <sys/mman.h>
#include <sys/stat.h>
#include <sys/types.h>
#include <sys/uio.h>
#include <unistd.h>

#define NEXT(type, name) ((type)dlsym(RTLD_NEXT, name))

static int is_medium(int file) {
    const char *path = getenv("DISK_LOG_OF");
    struct stat one, other;
    return path && fstat(file, &one) == 0 && stat(path, &other) == 0 && one.st_dev == other.st_dev && one.st_ino == other.st_ino;
}

static void note(const char *text) {
    const char *path = getenv("DISK_LOG");
    int log = path ? open(path, O_WRONLY | O_CREAT | O_APPEND | O_CLOEXEC, 0644) : -1;
    if (log < 0)
        abort();
    ssize_t (*next)(int, const void *, size_t) = NEXT(ssize_t(*)(int, const void *, size_t), "write");
    if (next(log, text, strlen(text)) < 0)
        abort();
    close(log);
}

static void note_write(int file, off_t at, ssize_t done) {
    char text[64];
    if (done <= 0 || !is_medium(file))
        return;
    snprintf(text, sizeof text, "write %lld %lld\n", (long long)at, (long long)done);
    note(text);
}

ssize_t pwrite(int file, const void *bytes, size_t count, off_t at) {
    ssize_t done = NEXT(ssize_t(*)(int, const void *, size_t, off_t), "pwrite")(file, bytes, count, at);
    note_write(file, at, done);
    return done;
}

ssize_t pwrite64(int file, const void *bytes, size_t count, off_t at) { return pwrite(file, bytes, count, at); }

ssize_t pwritev(int file, const struct iovec *parts, int count, off_t at) {
    ssize_t done = NEXT(ssize_t(*)(int, const struct iovec *, int, off_t), "pwritev")(file, parts, count, at);
    note_write(file, at, done);
    return done;
}

ssize_t pwritev64(int file, const struct iovec *parts, int count, off_t at) { return pwritev(file, parts, count, at); }

ssize_t write(int file, const void *bytes, size_t count) {
    off_t at = lseek(file, 0, SEEK_CUR);
    ssize_t done = NEXT(ssize_t(*)(int, const void *, size_t), "write")(file, bytes, count);
    if (at >= 0)
        note_write(file, at, done);
    return done;
}

int fdatasync(int file) {
    int answer = NEXT(int (*)(int), "fdatasync")(file);
    if (answer == 0 && is_medium(file))
        note("sync\n");
    return answer;
}

int fsync(int file) {
    int answer = NEXT(int (*)(int), "fsync")(file);
    if (answer == 0 && is_medium(file))
        note("sync\n");
    return answer;
}

void *mmap(void *at, size_t length, int access, int how, int file, off_t offset) {
    if (file >= 0 && (how & MAP_SHARED) && (access & PROT_WRITE) && is_medium(file))
        note("shared\n");
    return NEXT(void *(*)(void *, size_t, int, int, int, off_t), "mmap")(at, length, access, how, file, offset);
}

void *mmap64(void *at, size_t size, int access, int how, int fd, off_t from) { return mmap(at, size, access, how, fd, from); }
