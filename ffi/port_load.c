/* How fast messages come in from other threads, through ports, onto a medium in memory.
 *
 *     port_load feeds MESSAGES LENGTH   four threads offer so many messages of so many bytes each, and never wait; this one carries, pumps and commits
 *     port_load slow MILLISECONDS       syncs of the disk take so long; what commits take, and offers of another thread meanwhile
 *
 * It prints lines NAME VALUE UNIT. Status 1 where what was offered is not accepted or lost, or what was accepted is not in the file. */
#define _GNU_SOURCE
#include <inttypes.h>
#include <pthread.h>
#include <sched.h>
#include <stdatomic.h>
#include <stdio.h>
#include <stdlib.h>
#include <string.h>
#include <time.h>

#include "measured.h"
#include "r10.h"

enum { FEEDS = 4, FIRST = 3, CAPACITY = 1000, ROOM = 1024, COST = 124, MOST_BLOCKS = 1 << 24, COMMITS = 50, LOOKS = 1000, ROUNDS = 16 };

typedef struct feed {
    r10_port port;
    r10_outlet outlet;
    pthread_t thread;
    uint16_t channel;
    uint64_t messages;
    size_t length;
    struct timespec between; /* how long is slept after each offer */
    double all, longest;     /* seconds of its offers, where these are timed */
    atomic_bool done;
} feed;

static r10 recorder;
static feed feeds[FEEDS];
static uint8_t buffer[512 * 128];
static char script[2048];

static void offer(feed *it, uint64_t n) {
    static const uint8_t bytes[65535];
    uint32_t answer = r10_port_uart(&it->port, 1000 + n, false, 0, bytes, it->length);
    if (answer != R10_OVERFLOW)
        must("an offer", answer);
}

static void *offer_all(void *argument) {
    feed *it = argument;
    for (uint64_t n = 0; n < it->messages; n++)
        offer(it, n);
    atomic_store(&it->done, true);
    return NULL;
}

static void *offer_slowly(void *argument) {
    feed *it = argument;
    for (uint64_t n = 0; n < it->messages; n++) {
        double began = seconds();
        offer(it, n);
        double took = seconds() - began;
        it->all += took;
        it->longest = took > it->longest ? took : it->longest;
        nanosleep(&it->between, NULL);
    }
    atomic_store(&it->done, true);
    return NULL;
}

/* Takes what the disk is to do; a sync takes so long. */
static void settle(const struct timespec *sync) {
    r10_run_info it;
    do {
        must("orders", r10_orders(&recorder, &it, buffer, sizeof buffer));
        if (it.kind == R10_SYNC && sync)
            nanosleep(sync, NULL);
    } while (it.kind != R10_NOTHING);
}

/* Moves what waits at the ports of so many feeds into the file: whether there was any. */
static bool move_all(int count) {
    bool moved = false;
    for (int n = 0; n < count; n++) {
        size_t carried, pumped;
        must("carry", r10_carry(&recorder, &feeds[n].outlet, CAPACITY, &carried));
        must("pump", r10_pump(&recorder, feeds[n].channel, CAPACITY, &pumped));
        moved = moved || carried + pumped > 0;
    }
    return moved;
}

static bool are_done(int count) {
    bool done = true;
    for (int n = 0; n < count; n++)
        done = atomic_load(&feeds[n].done) && done;
    return done;
}

/* A recorder in memory that records a file, with room for so many messages of each feed; and their ports. */
static void begin(int count, uint64_t messages, size_t length) {
    const r10_civil civil = {2024, 2, 29, 12, 34, 56, 78};
    uint64_t blocks = (COST + length) * FEEDS * messages / 512 + 4096;
    blocks = blocks < MOST_BLOCKS ? blocks : MOST_BLOCKS;
    int at = snprintf(script, sizeof script, "blocks = %" PRIu64 "\ndirectory = 2\nvolume = \"LOAD\"\nnodes = 1000\ntime = 1\nevent = 2\n", blocks);
    for (int n = 0; n < FEEDS; n++)
        at += snprintf(script + at, sizeof script - (size_t)at,
                       "[[channel]]\nid = %d\nkind = \"uart\"\ncapacity = %d\ncheck = 0\nbytes = 524288\nnumber = 65535\n", FIRST + n, CAPACITY);
    uint8_t *memory = malloc(512 * blocks);
    if (!memory)
        exit(3);
    /* (so that all of it is in use before anything is timed) */
    memset(memory, 0xFF, 512 * blocks);
    must("format", r10_format((r10_region){memory, blocks}, ROOM, script, strlen(script), &recorder));
    must("mount", r10_mount(&recorder));
    must("tick", r10_tick(&recorder, 10, &civil));
    must("start", r10_start(&recorder, "LOAD", 4, "", 0));
    settle(NULL);
    for (int n = 0; n < count; n++) {
        feeds[n] = (feed){.channel = (uint16_t)(FIRST + n), .messages = messages, .length = length};
        must("open a port", r10_port_open(script, strlen(script), feeds[n].channel, &feeds[n].port, &feeds[n].outlet));
    }
}

/* Whether each message that was offered was accepted or lost, and each that was accepted is in the file: how many these are. */
static bool adds_up(int count, uint64_t *accepted, uint64_t *lost) {
    bool does = true;
    *accepted = *lost = 0;
    for (int n = 0; n < count; n++) {
        r10_port_info port;
        r10_account_info account;
        must("state", r10_port_state(&feeds[n].port, &port));
        must("account", r10_account_of(&recorder, feeds[n].channel, &account));
        does = does && port.accepted + port.lost == feeds[n].messages && account.accepted == port.accepted && account.waiting + account.erased == 0;
        *accepted += port.accepted;
        *lost += port.lost;
    }
    return does;
}

static int run_feeds(uint64_t messages, size_t length) {
    size_t taken, left;
    uint64_t accepted, lost;
    begin(FEEDS, messages, length);
    double began = seconds();
    for (int n = 0; n < FEEDS; n++)
        if (pthread_create(&feeds[n].thread, NULL, offer_all, &feeds[n]) != 0)
            return 3;
    for (unsigned round = 1;; round++) {
        bool done = are_done(FEEDS), moved = move_all(FEEDS);
        if (round % ROUNDS == 0)
            must("commit", r10_commit(&recorder));
        settle(NULL);
        if (done && !moved)
            break;
        if (!moved)
            sched_yield();
    }
    must("stop", r10_stop(&recorder, &taken, &left));
    settle(NULL);
    double took = seconds() - began;
    for (int n = 0; n < FEEDS; n++)
        pthread_join(feeds[n].thread, NULL);
    bool does = adds_up(FEEDS, &accepted, &lost);
    printf("feeds-accepted %" PRIu64 " messages\nfeeds-refused-of-1000 %" PRIu64 " messages\nfeeds %.0f messages/s\n", accepted,
           1000 * lost / (accepted + lost), (double)accepted / took);
    return !does;
}

static int run_slow(long millis) {
    const struct timespec sync = {millis / 1000, millis % 1000 * 1000000}, between = {0, 5000000};
    double all = 0, longest = 0;
    size_t taken, left;
    uint64_t accepted, lost;
    begin(1, LOOKS, 8);
    feeds[0].between.tv_nsec = 1000000;
    if (pthread_create(&feeds[0].thread, NULL, offer_slowly, &feeds[0]) != 0)
        return 3;
    for (int n = 0; n < COMMITS; n++) {
        double began = seconds();
        move_all(1);
        must("commit", r10_commit(&recorder));
        settle(&sync);
        double took = seconds() - began;
        all += took;
        longest = took > longest ? took : longest;
        nanosleep(&between, NULL);
    }
    pthread_join(feeds[0].thread, NULL);
    while (move_all(1))
        ;
    must("stop", r10_stop(&recorder, &taken, &left));
    settle(NULL);
    bool does = adds_up(1, &accepted, &lost);
    printf("commit-mean %.0f ns\ncommit-longest %.0f ns\noffer-mean %.0f ns\noffer-longest %.0f ns\nslow-refused %" PRIu64 " messages\n", all / COMMITS * 1e9,
           longest * 1e9, feeds[0].all / LOOKS * 1e9, feeds[0].longest * 1e9, lost);
    return !does;
}

int main(int count, char **words) {
    if (count == 4 && strcmp(words[1], "feeds") == 0 && atol(words[2]) > 0 && atol(words[3]) >= 0 && atol(words[3]) <= 65535)
        return run_feeds(strtoull(words[2], NULL, 10), strtoul(words[3], NULL, 10));
    if (count == 3 && strcmp(words[1], "slow") == 0 && atol(words[2]) >= 0)
        return run_slow(atol(words[2]));
    fprintf(stderr, "usage: port_load feeds MESSAGES LENGTH | slow MILLISECONDS\n");
    return 2;
}
