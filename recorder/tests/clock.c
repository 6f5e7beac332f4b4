/* A clock that runs by a plan: put in front of the C library (LD_PRELOAD) of a service under trial. An hour takes half a minute.
 * What it does is in its environment.
 *
 *     CLOCK_PLAN=PATH      lines `SECOND WORD VALUE`, by rising seconds of made time since the start:
 *                          step S      the system's clock steps by S seconds, and is in sync no longer
 *                          leap S      it steps so at a leap second, and is in sync still
 *                          coming N    the kernel says that a second is put in (1) or taken out (-1) at the end of the day
 *                          rate R      it is steered by R millionths from here on, and CLOCK_MONOTONIC with it
 *                          sync E      a program sets it: it is off by E microseconds at most, and 500 millionths more from here on
 *     CLOCK_START=NS       when made time starts: CLOCK_MONOTONIC of the machine
 *     CLOCK_SPEED=N        so much faster it goes
 *     CLOCK_BASE=SECONDS   what the system's clock is at the start, since 1970
 *     CLOCK_CARD=NS        a card stamps datagrams by a clock that is so far ahead of the system's, 5 ms before the kernel does
 */
#define _GNU_SOURCE
#include <dlfcn.h>
#include <errno.h>
#include <linux/futex.h>
#include <linux/net_tstamp.h>
#include <stdarg.h>
#include <stdint.h>
#include <stdio.h>
#include <stdlib.h>
#include <string.h>
#include <sys/socket.h>
#include <sys/syscall.h>
#include <sys/timex.h>
#include <time.h>
#include <unistd.h>

enum { MOST = 1000 };
static const int64_t SECOND = 1000000000, EARLY = 5000000;

static struct step {
    int64_t at;
    char word;
    double value;
} plan[MOST];
static int steps;
static int64_t start, speed = 1, base, card;
static long (*next_syscall)(long, ...);
static ssize_t (*next_recvmsg)(int, struct msghdr *, int);

static int64_t of_system(clockid_t which) {
    struct timespec now;
    syscall(SYS_clock_gettime, which, &now);
    return now.tv_sec * SECOND + now.tv_nsec;
}

/* How far CLOCK_REALTIME of the machine is ahead of CLOCK_MONOTONIC: of several looks the one that took the shortest time, since
 * one that has to wait for a processor would put a stamp off by that. */
static int64_t system_ahead(void) {
    int64_t shortest = INT64_MAX, ahead = 0;
    for (int n = 0; n < 100 && (n < 5 || shortest > 500); n++) {
        int64_t before = of_system(CLOCK_MONOTONIC), it = of_system(CLOCK_REALTIME), took = of_system(CLOCK_MONOTONIC) - before;
        if (took < shortest) {
            shortest = took;
            ahead = it - before - took / 2;
        }
    }
    return ahead;
}

__attribute__((constructor)) static void begin(void) {
    const char *text;
    char word[16];
    double at, value;
    FILE *file;
    next_syscall = (long (*)(long, ...))dlsym(RTLD_NEXT, "syscall");
    next_recvmsg = (ssize_t(*)(int, struct msghdr *, int))dlsym(RTLD_NEXT, "recvmsg");
    if ((text = getenv("CLOCK_CARD")))
        card = atoll(text);
    if (!(text = getenv("CLOCK_PLAN")) || !(file = fopen(text, "r")))
        return;
    while (steps < MOST && fscanf(file, "%lf %15s %lf", &at, word, &value) == 3)
        plan[steps++] = (struct step){(int64_t)(at * 1e9), word[0] == 's' && word[1] == 'y' ? 'y' : word[0], value};
    fclose(file);
    start = atoll(getenv("CLOCK_START"));
    speed = atoll(getenv("CLOCK_SPEED"));
    base = atoll(getenv("CLOCK_BASE")) * SECOND;
}

/* The made clocks at so many nanoseconds of CLOCK_MONOTONIC of the machine. */
struct made {
    int64_t past, steered, stepped, most_error;
    int is_synchronised, coming;
};

static struct made made_at(int64_t at) {
    struct made it = {.past = (at - start) * speed, .most_error = 16 * SECOND};
    int64_t since = 0, set = 0;
    double rate = 0;
    for (int n = 0; n < steps && plan[n].at <= it.past; n++) {
        it.steered += (int64_t)((double)(plan[n].at - since) * rate / 1e6);
        since = plan[n].at;
        switch (plan[n].word) {
        case 's':
            it.is_synchronised = 0;
            /* fall through */
        case 'l': it.stepped += (int64_t)(plan[n].value * 1e9); break;
        case 'c': it.coming = (int)plan[n].value; break;
        case 'r': rate = plan[n].value; break;
        default:
            it.is_synchronised = 1;
            it.most_error = (int64_t)(plan[n].value * 1e3);
            set = plan[n].at;
        }
    }
    it.steered += (int64_t)((double)(it.past - since) * rate / 1e6);
    it.most_error = it.is_synchronised ? it.most_error + (it.past - set) / 2000 : 16 * SECOND;
    return it;
}

static int64_t made_clock(clockid_t which, int64_t at) {
    struct made it = made_at(at);
    if (which == CLOCK_MONOTONIC_RAW)
        return start + it.past;
    return which == CLOCK_REALTIME ? base + it.past + it.steered + it.stepped : start + it.past + it.steered;
}

int clock_gettime(clockid_t which, struct timespec *now) {
    int64_t at;
    if (which < 0 && card) {
        clock_gettime(CLOCK_REALTIME, now);
        at = now->tv_sec * SECOND + now->tv_nsec + card;
    } else if (steps && (which == CLOCK_REALTIME || which == CLOCK_MONOTONIC || which == CLOCK_MONOTONIC_RAW))
        at = made_clock(which, of_system(CLOCK_MONOTONIC));
    else
        return (int)syscall(SYS_clock_gettime, which, now);
    *now = (struct timespec){at / SECOND, at % SECOND};
    return 0;
}

int adjtimex(struct timex *it) {
    if (!steps)
        return (int)syscall(SYS_adjtimex, it);
    struct made now = made_at(of_system(CLOCK_MONOTONIC));
    memset(it, 0, sizeof *it);
    it->maxerror = now.most_error / 1000;
    it->esterror = it->maxerror / 2;
    it->status = (now.is_synchronised ? 0 : STA_UNSYNC) | (now.coming > 0 ? STA_INS : now.coming < 0 ? STA_DEL : 0);
    return now.is_synchronised ? TIME_OK : TIME_ERROR;
}

static struct timespec shorter(const struct timespec *it) {
    int64_t time = (it->tv_sec * SECOND + it->tv_nsec) / speed;
    return (struct timespec){time / SECOND, time % SECOND};
}

int nanosleep(const struct timespec *wanted, struct timespec *left) {
    struct timespec it = shorter(wanted);
    return (int)syscall(SYS_nanosleep, &it, left);
}

int clock_nanosleep(clockid_t which, int how, const struct timespec *wanted, struct timespec *left) {
    struct timespec it = *wanted, now;
    if (how & TIMER_ABSTIME) {
        clock_gettime(which, &now);
        int64_t time = (wanted->tv_sec - now.tv_sec) * SECOND + wanted->tv_nsec - now.tv_nsec;
        time = time > 0 ? time : 0;
        it = (struct timespec){time / SECOND, time % SECOND};
    }
    it = shorter(&it);
    return syscall(SYS_nanosleep, &it, left) == 0 ? 0 : errno;
}

/* A thread waits until a moment of the made clock. */
long syscall(long number, ...) {
    va_list words;
    long it[6];
    va_start(words, number);
    for (int n = 0; n < 6; n++)
        it[n] = va_arg(words, long);
    va_end(words);
    if (!next_syscall)
        next_syscall = (long (*)(long, ...))dlsym(RTLD_NEXT, "syscall");
    struct timespec until;
    if (steps && number == SYS_futex && (it[1] & FUTEX_CMD_MASK) == FUTEX_WAIT_BITSET && it[3]) {
        const struct timespec *made = (const struct timespec *)it[3];
        int64_t now = of_system(CLOCK_MONOTONIC);
        int64_t wait = (made->tv_sec * SECOND + made->tv_nsec - made_clock(CLOCK_MONOTONIC, now)) / speed;
        now += wait > 0 ? wait : 0;
        until = (struct timespec){now / SECOND, now % SECOND};
        it[3] = (long)&until;
    }
    return next_syscall(number, it[0], it[1], it[2], it[3], it[4], it[5]);
}

/* The kernel's stamps, as the made clock has them. */
ssize_t recvmsg(int socket, struct msghdr *message, int flags) {
    ssize_t count = next_recvmsg(socket, message, flags);
    int64_t at = 0;
    if (count < 0 || !(steps || card))
        return count;
    int64_t ahead = system_ahead();
    for (struct cmsghdr *it = CMSG_FIRSTHDR(message); it; it = CMSG_NXTHDR(message, it)) {
        struct timespec *stamps = (struct timespec *)CMSG_DATA(it);
        if (it->cmsg_level != SOL_SOCKET || (it->cmsg_type != SO_TIMESTAMPNS && it->cmsg_type != SO_TIMESTAMPING))
            continue;
        if (stamps->tv_sec)
            at = stamps->tv_sec * SECOND + stamps->tv_nsec;
        if (steps && it->cmsg_type == SO_TIMESTAMPNS) {
            int64_t made = made_clock(CLOCK_REALTIME, at - ahead);
            *stamps = (struct timespec){made / SECOND, made % SECOND};
        }
        if (card && it->cmsg_type == SO_TIMESTAMPING)
            stamps[2] = (struct timespec){(at + card - EARLY) / SECOND, (at + card - EARLY) % SECOND};
    }
    return count;
}
