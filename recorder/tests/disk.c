/* A disk that fails, is slow, and is written down: put in front of the C library (LD_PRELOAD) of a service under trial.
 * What it does is in its environment.
 *
 *     DISK=PATH            the medium, or the file that is made of it first (PATH.new is left alone)
 *     DISK_TRAIL=PATH      each write to it, each sync of it, and each line to DISK_LINES is written down here before it is done:
 *                          'W' offset:8 length:8 bytes, 'S', 'A' length:8 bytes
 *     DISK_LINES=PATH      what the service acknowledges
 *     DISK_FAIL=N:ERRNO    its Nth operation fails, from 1 on; N+:ERRNO that and all later
 *                          ones, N-M:ERRNO those up to the Mth
 *     DISK_AGAIN=N         the Nth operation after the first that failed fails too
 *     DISK_NEXT=PATH       where this file is, the next operation fails with EIO, and takes the file away
 *     DISK_HIT=PATH        made where an operation failed
 *     DISK_SLOW=MICROS     each sync takes so much longer
 *     DISK_DRAG=MICROS     each write takes so much longer
 *     DISK_BAD=BLOCK       a plain read that touches this block fails
 *     DISK_CLOCK=PATH      the system's clock is so many seconds off as this file says
 */
#define _GNU_SOURCE
#include <dlfcn.h>
#include <errno.h>
#include <fcntl.h>
#include <stdint.h>
#include <stdio.h>
#include <stdlib.h>
#include <string.h>
#include <sys/stat.h>
#include <sys/syscall.h>
#include <time.h>
#include <unistd.h>

static const char *disk, *lines, *clock_file, *hit, *next;
static int trail = -1, fail_errno, slow, drag;
static long fail_at, fail_to, again, failed_at, done, bad = -1;

__attribute__((constructor)) static void begin(void) {
    const char *text;
    disk = getenv("DISK");
    lines = getenv("DISK_LINES");
    clock_file = getenv("DISK_CLOCK");
    hit = getenv("DISK_HIT");
    next = getenv("DISK_NEXT");
    if ((text = getenv("DISK_AGAIN")))
        again = atol(text);
    if ((text = getenv("DISK_TRAIL")))
        trail = open(text, O_WRONLY | O_CREAT | O_APPEND | O_CLOEXEC, 0644);
    if ((text = getenv("DISK_SLOW")))
        slow = atoi(text);
    if ((text = getenv("DISK_DRAG")))
        drag = atoi(text);
    if ((text = getenv("DISK_BAD")))
        bad = atol(text);
    if ((text = getenv("DISK_FAIL"))) {
        char *end;
        fail_at = fail_to = strtol(text, &end, 10);
        if (*end == '+') {
            fail_to = -1;
            end++;
        } else if (*end == '-')
            fail_to = strtol(end + 1, &end, 10);
        fail_errno = atoi(end + 1);
    }
}

static int is(int file, const char *path) {
    struct stat one, other;
    return path && fstat(file, &one) == 0 && stat(path, &other) == 0 && one.st_dev == other.st_dev && one.st_ino == other.st_ino;
}

static void note(char kind, const uint64_t *head, size_t heads, const void *bytes, size_t count) {
    char record[1 + 16 + (1 << 18)];
    if (trail < 0 || count > 1 << 18)
        return;
    record[0] = kind;
    memcpy(record + 1, head, 8 * heads);
    memcpy(record + 1 + 8 * heads, bytes, count);
    if (syscall(SYS_write, trail, record, 1 + 8 * heads + count) < 0)
        abort();
}

/* Whether the next operation fails. */
static int fails(void) {
    long number = __atomic_add_fetch(&done, 1, __ATOMIC_SEQ_CST);
    if (next && unlink(next) == 0) {
        errno = EIO;
        return 1;
    }
    int is_again = again && failed_at && number == failed_at + again;
    if (!is_again && (fail_at == 0 || number < fail_at || (fail_to >= 0 && number > fail_to)))
        return 0;
    failed_at = failed_at ? failed_at : number;
    if (hit)
        syscall(SYS_close, (int)syscall(SYS_open, hit, O_CREAT | O_WRONLY, 0644));
    errno = fail_errno;
    return 1;
}

ssize_t pwrite64(int file, const void *bytes, size_t count, off64_t at) {
    if (is(file, disk)) {
        if (fails())
            return -1;
        note('W', (uint64_t[]){(uint64_t)at, count}, 2, bytes, count);
        if (drag)
            usleep((useconds_t)drag);
    }
    return syscall(SYS_pwrite64, file, bytes, count, at);
}

int fdatasync(int file) {
    if (is(file, disk)) {
        if (fails())
            return -1;
        note('S', NULL, 0, "", 0);
        if (slow)
            usleep((useconds_t)slow);
    }
    return (int)syscall(SYS_fdatasync, file);
}

ssize_t write(int file, const void *bytes, size_t count) {
    if (trail >= 0 && is(file, lines))
        note('A', (uint64_t[]){count}, 1, bytes, count);
    return syscall(SYS_write, file, bytes, count);
}

ssize_t pread64(int file, void *bytes, size_t count, off64_t at) {
    if (bad >= 0 && is(file, disk) && at < 512 * (bad + 1) && (long)at + (long)count > 512 * bad) {
        errno = EIO;
        return -1;
    }
    return syscall(SYS_pread64, file, bytes, count, at);
}

int clock_gettime(clockid_t which, struct timespec *now) {
    int answer = (int)syscall(SYS_clock_gettime, which, now);
    if (answer == 0 && which == CLOCK_REALTIME && clock_file) {
        char text[32] = {0};
        int file = (int)syscall(SYS_open, clock_file, O_RDONLY | O_CLOEXEC);
        if (file >= 0) {
            if (syscall(SYS_read, file, text, sizeof text - 1) > 0)
                now->tv_sec += atol(text);
            syscall(SYS_close, file);
        }
    }
    return answer;
}
