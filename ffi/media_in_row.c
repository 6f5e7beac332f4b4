/* A flight that is longer than a medium: two recorders of one script, each over a medium of its own, and a port that stays. A thread offers numbered
 * messages; where the port is full, the number is lost, as a driver's would be, and the thread waits a millisecond. The flight goes on on the second
 * medium once the first has little room. Then all files of both are read: each number is there once, in order, or in the gap of the next message. Prints what was counted. */
#define _GNU_SOURCE
#include <inttypes.h>
#include <pthread.h>
#include <stdatomic.h>
#include <stdio.h>
#include <stdlib.h>
#include <string.h>
#include <time.h>

#include "r10.h"

enum { BLOCKS = 2048, CHANNEL = 5, MESSAGES = 14000, LOST_AFTER = 5 };

static const char script[] = "blocks = 2048\ndirectory = 4\nvolume = \"VOL\"\nnodes = 100\ntime = 1\nevent = 2\n"
                             "[[channel]]\nid = 5\nkind = \"message\"\ncapacity = 64\ncheck = 16\nbytes = 16384\nnumber = 200\n";
static const r10_civil civil = {2026, 12, 1, 12, 0, 0, 0};

static unsigned char memory[2][BLOCKS * 512];
static r10 recorders[2];
static r10_port port;
static r10_outlet outlet;
static atomic_bool has_ended;

static void must(const char *what, uint32_t number) {
    if (number != R10_OK) {
        printf("%s: %u, %s\n", what, number, r10_strerror(number));
        exit(1);
    }
}

/* offers the numbers from 1 on; counts are ten times the number */
static void *offer_all(void *nothing) {
    for (uint32_t n = 1; n <= MESSAGES; n++) {
        uint32_t answer = r10_port_message(&port, UINT64_C(1000) + 10 * (uint64_t)n, false, false, 0, &n, sizeof n);
        if (answer != R10_OK && answer != R10_OVERFLOW)
            must("offer", answer);
        if (answer == R10_OVERFLOW)
            nanosleep(&(struct timespec){0, 1000000}, NULL);
    }
    must("lost", r10_port_lost(&port, LOST_AFTER));
    atomic_store(&has_ended, true);
    return nothing;
}

static void settle(r10 *recorder) {
    static uint8_t bytes[64 * 512];
    r10_run_info run = {0, 0, R10_WRITE};
    while (run.kind != R10_NOTHING)
        must("orders", r10_orders(recorder, &run, bytes, sizeof bytes));
}

static void begin(int which) {
    r10 *recorder = &recorders[which];
    must("open", r10_format((r10_region){memory[which], BLOCKS}, 256, script, strlen(script), recorder));
    must("mount", r10_mount(recorder));
    must("tick", r10_tick(recorder, 1000, &civil));
    must("start", r10_start(recorder, which == 0 ? "FIRST" : "SECOND", which == 0 ? 5 : 6, "", 0));
}

/* What waits in the first one's lane, and what was lost after it, goes on to the second: how many messages. */
static size_t hand_on(void) {
    size_t count = 0;
    r10_losses_info losses;
    for (bool there = true; there;) {
        r10_entry entry;
        uint32_t number;
        must("take waiting", r10_take_waiting(&recorders[0], CHANNEL, &there, &entry));
        if (!there)
            break;
        must("taken", r10_taken(&recorders[0], (uint8_t *)&number, sizeof number, NULL, 0));
        must("lost", r10_lost(&recorders[1], CHANNEL, entry.lost));
        must("offer", r10_offer_message(&recorders[1], CHANNEL, entry.count, false, false, 0, &number, sizeof number));
        count++;
    }
    must("losses", r10_losses_of(&recorders[0], CHANNEL, &losses));
    must("lost", r10_lost(&recorders[1], CHANNEL, losses.missed));
    return count;
}

/* Reads the files of a medium after so many numbers: how many came, in messages or in gaps. */
static uint64_t read_all(int which, uint64_t before, uint64_t *messages) {
    size_t files;
    must("files", r10_files(&recorders[which], &files));
    for (size_t file = 0; file < files; file++) {
        r10_parts parts = {0, R10_LAST_COUNT, 0};
        uint16_t id = CHANNEL;
        for (;;) {
            size_t cursor, queued;
            bool there;
            must("part", r10_part(&recorders[which], &parts, file, &id, 1, 4096, &there, &cursor, &queued));
            if (!there)
                break;
            for (bool more = true; more;) {
                r10_entry entry;
                uint32_t number;
                must("take", r10_take(&recorders[which], cursor, &more, &entry));
                if (!more)
                    break;
                must("taken", r10_taken(&recorders[which], (uint8_t *)&number, sizeof number, NULL, 0));
                before += entry.lost + 1;
                if (number != before) {
                    printf("number %" PRIu32 " stands where %" PRIu64 " should\n", number, before);
                    exit(1);
                }
                ++*messages;
            }
            must("close cursor", r10_close_cursor(&recorders[which], cursor));
        }
    }
    return before;
}

int main(void) {
    pthread_t thread;
    r10_status_info status;
    r10_losses_info losses;
    size_t carried, moved, taken, left, handed = 0, now = 0;
    must("port", r10_port_open(script, strlen(script), CHANNEL, &port, &outlet));
    begin(0);
    begin(1);
    if (pthread_create(&thread, NULL, offer_all, NULL) != 0)
        return 1;
    for (bool last = false; !last;) {
        last = atomic_load(&has_ended);
        do {
            must("carry", r10_carry(&recorders[now], &outlet, 64, &carried));
            uint32_t answer = r10_pump(&recorders[now], CHANNEL, 64, &moved);
            if (answer != R10_OK && (answer != R10_MEDIUM_FULL || now == 1))
                must("pump", answer);
            must("commit", r10_commit(&recorders[now]));
            settle(&recorders[now]);
            must("status", r10_status(&recorders[now], &status));
            if (now == 0 && (status.free < 100000 || answer == R10_MEDIUM_FULL)) {
                /* two more are waited for, so that something is handed on */
                for (size_t wait = 0; wait < 2; wait += carried)
                    must("carry", r10_carry(&recorders[0], &outlet, 1, &carried));
                handed = hand_on();
                must("stop", r10_stop(&recorders[0], &taken, &left));
                settle(&recorders[0]);
                now = 1;
                carried = 1;
            }
        } while (carried > 0);
    }
    pthread_join(thread, NULL);
    must("stop", r10_stop(&recorders[1], &taken, &left));
    settle(&recorders[1]);
    uint64_t messages = 0, first = read_all(0, 0, &messages), all = read_all(1, first, &messages);
    r10_port_info state;
    must("port's state", r10_port_state(&port, &state));
    must("losses", r10_losses_of(&recorders[1], CHANNEL, &losses));
    printf("the second medium was needed: %s\n", now == 1 && first < MESSAGES ? "yes" : "no");
    printf("messages were handed on: %s\n", handed >= 2 && handed <= 64 ? "yes" : "no");
    printf("each number is on one medium, once, or in a gap: %s\n", messages == state.accepted && all <= MESSAGES && left == 0 ? "yes" : "no");
    printf("what came is what is recorded and what was lost: %s\n", state.accepted + state.lost == MESSAGES + LOST_AFTER && losses.missed == 0 ? "yes" : "no");
    r10_port_close(&port);
    r10_outlet_close(&outlet);
    r10_close(&recorders[0]);
    r10_close(&recorders[1]);
    return 0;
}
