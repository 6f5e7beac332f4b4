/* Counts the bytes that a program asks for, for scripts/measure/bench.py --memory:
 *
 *     cc -O2 -shared -fPIC -o count_malloc.so count_malloc.c
 *     LD_PRELOAD=./count_malloc.so PROGRAM
 *
 * Right before each write to standard output it writes a line "asked NOW MOST WRITTEN" to standard error: the bytes in use as they were asked for, the
 * most of them since the line before, and how many bytes went to standard output so far. For programs of one thread, over glibc.
 */
#include <errno.h>
#include <stddef.h>
#include <stdint.h>
#include <stdio.h>
#include <string.h>
#include <sys/syscall.h>
#include <sys/uio.h>
#include <unistd.h>

extern void *__libc_malloc(size_t);
extern void __libc_free(void *);

/* What stands before each piece of memory: how many bytes it has, and where the C library's piece begins. */
struct front {
    size_t size;
    void *piece;
};

static size_t now, most, written;

static void *give(size_t size, size_t align) {
    size_t room = sizeof(struct front) + align;
    char *piece = size < SIZE_MAX - room ? __libc_malloc(size + room) : NULL;
    if (piece == NULL) {
        errno = ENOMEM;
        return NULL;
    }
    uintptr_t at = ((uintptr_t)piece + room) / align * align;
    struct front *front = (struct front *)at - 1;
    front->size = size;
    front->piece = piece;
    now += size;
    if (most < now)
        most = now;
    return (void *)at;
}

void *malloc(size_t size) { return give(size, 16); }

void free(void *given) {
    if (given == NULL)
        return;
    struct front *front = (struct front *)given - 1;
    now -= front->size;
    __libc_free(front->piece);
}

void *calloc(size_t number, size_t size) {
    size_t all;
    if (__builtin_mul_overflow(number, size, &all)) {
        errno = ENOMEM;
        return NULL;
    }
    void *given = give(all, 16);
    if (given != NULL)
        memset(given, 0, all);
    return given;
}

/* Old and new are counted one behind the other, as where the C library finds room behind the old. */
void *realloc(void *given, size_t size) {
    if (given == NULL)
        return give(size, 16);
    size_t old = ((struct front *)given - 1)->size;
    now -= old;
    void *other = give(size, 16);
    now += old;
    if (other == NULL)
        return NULL;
    memcpy(other, given, old < size ? old : size);
    free(given);
    return other;
}

int posix_memalign(void **given, size_t align, size_t size) {
    *given = give(size, align < 16 ? 16 : align);
    return *given == NULL ? ENOMEM : 0;
}

void *aligned_alloc(size_t align, size_t size) { return give(size, align < 16 ? 16 : align); }

void *memalign(size_t align, size_t size) { return aligned_alloc(align, size); }

static void tell(int file) {
    if (file != 1)
        return;
    char line[96];
    int size = snprintf(line, sizeof line, "asked %zu %zu %zu\n", now, most, written);
    syscall(SYS_write, 2, line, (size_t)size);
    most = now;
}

static ssize_t told(int file, ssize_t done) {
    if (file == 1 && done > 0)
        written += (size_t)done;
    return done;
}

ssize_t write(int file, const void *bytes, size_t size) {
    tell(file);
    return told(file, syscall(SYS_write, file, bytes, size));
}

ssize_t writev(int file, const struct iovec *parts, int number) {
    tell(file);
    return told(file, syscall(SYS_writev, file, parts, number));
}

ssize_t __write(int file, const void *bytes, size_t size) { return write(file, bytes, size); }
