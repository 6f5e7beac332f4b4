/* Refuses one allocation of a program, for scripts/trials/refuse_memory.py:
 *
 *     cc -O2 -shared -fPIC -o refuse_memory.so refuse_memory.c
 *     LD_PRELOAD=./refuse_memory.so REFUSE_MEMORY=N PROGRAM
 *
 * The Nth call of malloc or realloc, counted from 1, answers null. Where it was met, a line on standard error says so. */
#include <stdatomic.h>
#include <stddef.h>
#include <stdlib.h>
#include <string.h>
#include <unistd.h>

extern void *__libc_malloc(size_t size);
extern void *__libc_realloc(void *at, size_t size);

static atomic_ulong asked;
static unsigned long refused;

__attribute__((constructor)) static void begin(void) {
    const char *number = getenv("REFUSE_MEMORY");
    atomic_store(&asked, 0);
    refused = number ? strtoul(number, NULL, 10) : 0;
}

static int is_refused(void) {
    static const char line[] = "refuse_memory: refused\n";
    if (atomic_fetch_add(&asked, 1) + 1 != refused)
        return 0;
    if (write(2, line, sizeof line - 1) < 0)
        abort();
    return 1;
}

void *malloc(size_t size) { return is_refused() ? NULL : __libc_malloc(size); }
void *realloc(void *at, size_t size) { return is_refused() ? NULL : __libc_realloc(at, size); }
