/* Disturbs the threads of a program, for scripts/trials/hammer.py:
 *
 *     cc -O2 -shared -fPIC -o hammer.so hammer.c
 *     LD_PRELOAD=./hammer.so HAMMER_YIELD=SEED HAMMER_REFUSE=FROM-TO HAMMER_PAUSE=MICROSECONDS PROGRAM
 *
 * With HAMMER_YIELD each call that sleeps on a number or wakes sleepers (futex) yields up to seven times before it and after it, by
 * chance from SEED and the thread. With HAMMER_REFUSE the FROM-th to the TO-th thread can't be made, counted from 1 in the order in
 * which they are asked for. With HAMMER_PAUSE each yield of the first thread sleeps so long. Where one of these was done, a line on
 * standard error says so once.
 */
#define _GNU_SOURCE
#include <dlfcn.h>
#include <errno.h>
#include <pthread.h>
#include <sched.h>
#include <stdarg.h>
#include <stdatomic.h>
#include <stdio.h>
#include <stdlib.h>
#include <string.h>
#include <sys/syscall.h>
#include <time.h>
#include <unistd.h>

static atomic_ulong asked;
static atomic_flag told_refused = ATOMIC_FLAG_INIT, told_yielded = ATOMIC_FLAG_INIT, told_paused = ATOMIC_FLAG_INIT;
static unsigned long seed, first_refused = 1, last_refused, pause_time;
static int yields;
static long (*next_syscall)(long, ...);
static int (*next_create)(pthread_t *, const pthread_attr_t *, void *(*)(void *), void *);
static int (*next_yield)(void);
static _Thread_local unsigned long state;

__attribute__((constructor)) static void begin(void) {
    const char *yield = getenv("HAMMER_YIELD"), *refuse = getenv("HAMMER_REFUSE"), *rest = getenv("HAMMER_PAUSE");
    next_syscall = (long (*)(long, ...))dlsym(RTLD_NEXT, "syscall");
    next_create = (int (*)(pthread_t *, const pthread_attr_t *, void *(*)(void *), void *))dlsym(RTLD_NEXT, "pthread_create");
    next_yield = (int (*)(void))dlsym(RTLD_NEXT, "sched_yield");
    if (yield) {
        yields = 1;
        seed = strtoul(yield, NULL, 10);
    }
    if (rest)
        pause_time = strtoul(rest, NULL, 10);
    if (refuse && sscanf(refuse, "%lu-%lu", &first_refused, &last_refused) != 2)
        abort();
}

static void say(atomic_flag *flag, const char *line) {
    if (!atomic_flag_test_and_set(flag) && write(2, line, strlen(line)) < 0)
        abort();
}

static void some_yields(void) {
    if (!state)
        state = (seed * 2654435761u) ^ (unsigned long)&state ^ 88172645463325252u;
    state ^= state << 13;
    state ^= state >> 7;
    state ^= state << 17;
    for (unsigned long n = state & 7; n > 0; n--)
        next_yield();
}

long syscall(long number, ...) {
    long a[6], result;
    int error;
    va_list more;
    va_start(more, number);
    for (int i = 0; i < 6; i++)
        a[i] = va_arg(more, long);
    va_end(more);
    if (number != SYS_futex || !yields)
        return next_syscall(number, a[0], a[1], a[2], a[3], a[4], a[5]);
    say(&told_yielded, "hammer: a call yields\n");
    some_yields();
    result = next_syscall(number, a[0], a[1], a[2], a[3], a[4], a[5]);
    error = errno;
    some_yields();
    errno = error;
    return result;
}

int pthread_create(pthread_t *thread, const pthread_attr_t *attr, void *(*run)(void *), void *with) {
    unsigned long place = atomic_fetch_add(&asked, 1) + 1;
    if (first_refused <= place && place <= last_refused) {
        say(&told_refused, "hammer: a thread is refused\n");
        return EAGAIN;
    }
    return next_create(thread, attr, run, with);
}

int sched_yield(void) {
    if (!pause_time || next_syscall(SYS_gettid) != getpid())
        return next_yield();
    say(&told_paused, "hammer: a yield pauses\n");
    struct timespec rest = {.tv_sec = (time_t)(pause_time / 1000000), .tv_nsec = (long)(pause_time % 1000000) * 1000};
    return nanosleep(&rest, NULL);
}
