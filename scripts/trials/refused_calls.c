/* Linked into a build by scripts/trials/refused_calls.py. In it each call that may be refused memory calls `r10_enter` first, with
 * its number, and `r10_leave` last.
 *
 * CALLED_CALLS=FILE   a byte for each number, 0 before: it becomes 1 where that was entered, and 2 where memory was asked for until
 *                     it was left
 * REFUSED_CALL=N      all memory is refused from where number N is entered until it is left */
#include <fcntl.h>
#include <stddef.h>
#include <stdint.h>
#include <stdlib.h>
#include <sys/mman.h>
#include <sys/stat.h>
#include <unistd.h>

extern void *__libc_malloc(size_t size);
extern void *__libc_realloc(void *at, size_t size);

void r10_enter(int64_t number);
void r10_leave(int64_t number);

enum { DEEP = 256 };

static unsigned char *called;
static int64_t refused = -1, numbers;
static _Thread_local int64_t inside, open_calls[DEEP];
static _Thread_local unsigned depth;

__attribute__((constructor)) static void begin(void) {
    const char *file = getenv("CALLED_CALLS"), *number = getenv("REFUSED_CALL");
    struct stat about;
    if (number)
        refused = strtoll(number, NULL, 10);
    if (!file)
        return;
    int opened = open(file, O_RDWR);
    if (opened < 0 || fstat(opened, &about) != 0)
        abort();
    numbers = about.st_size;
    called = mmap(NULL, (size_t)numbers, PROT_READ | PROT_WRITE, MAP_SHARED, opened, 0);
    if (called == MAP_FAILED)
        abort();
}

void r10_enter(int64_t number) {
    if (called && number < numbers && called[number] == 0)
        called[number] = 1;
    if (depth < DEEP)
        open_calls[depth] = number;
    depth++;
    inside += number == refused;
}

void r10_leave(int64_t number) {
    depth--;
    inside -= number == refused;
}

static int is_refused(void) {
    for (unsigned n = 0; called && n < depth && n < DEEP; n++)
        if (open_calls[n] < numbers)
            called[open_calls[n]] = 2;
    return inside > 0;
}

void *malloc(size_t size) { return is_refused() ? NULL : __libc_malloc(size); }
void *realloc(void *at, size_t size) { return is_refused() ? NULL : __libc_realloc(at, size); }
