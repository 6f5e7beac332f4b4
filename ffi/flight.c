/* Flights that end: an hour's index in one call, over a queue that has few places at first.
 *
 *     flight MINUTES PACKETS
 *
 * A channel of 100 messages a second is recorded for so many minutes, with a tick and a commit each second, and the file is stopped. Then a file of so many
 * packets is recorded and cut off: it is opened again and closed by a seal. Another one is stopped. In each, a second memory does the operations as a disk
 * does: after each call it has to hold what the region holds. At the end the messages are counted, from the disk. */
#define _POSIX_C_SOURCE 200809L
#include <inttypes.h>
#include <stdio.h>
#include <stdlib.h>
#include <string.h>

#include "r10.h"

enum { BLOCKS = 131072, ROOM = 1024, LINE = 5 };

static unsigned char *memory, *disk;
static r10 recorder;
static unsigned long runs, operations, most_rings;

static void must(const char *what, uint32_t number) {
    if (number != R10_OK) {
        printf("%s: refused %u, %s\n", what, number, r10_strerror(number));
        exit(1);
    }
}

static void settle(void) {
    static uint8_t bytes[512 * 128];
    r10_run_info run;
    r10_queue_info queue;
    must("queue", r10_queue(&recorder, &queue));
    if (queue.rings > most_rings)
        most_rings = queue.rings;
    for (;;) {
        must("orders", r10_orders(&recorder, &run, bytes, sizeof bytes));
        if (run.kind == R10_NOTHING)
            return;
        runs++;
        operations += run.kind == R10_SYNC ? 1 : run.blocks;
        if (run.kind == R10_WRITE)
            memcpy(disk + 512 * run.block, bytes, 512 * run.blocks);
    }
}

static void is_same(const char *when) {
    if (memcmp(disk, memory, (size_t)BLOCKS * 512) != 0) {
        printf("%s: the disk holds something else\n", when);
        exit(2);
    }
}

static char script[1024];

static void settings(unsigned number) {
    snprintf(script, sizeof script,
             "blocks = %d\ndirectory = 2\nvolume = \"VOL\"\nnodes = 100\ntime = 1\nevent = 2\n"
             "[[channel]]\nid = %d\nkind = \"uart\"\ncapacity = 128\ncheck = 16\nbytes = 4096\nnumber = %u\n",
             BLOCKS, LINE, number);
}

static void begin(const char *name) {
    const r10_region region = {memory, BLOCKS};
    const r10_civil civil = {2024, 2, 29, 12, 0, 0, 0};
    memset(memory, 0, (size_t)BLOCKS * 512);
    memset(disk, 0, (size_t)BLOCKS * 512);
    runs = operations = most_rings = 0;
    must("format", r10_format(region, ROOM, script, strlen(script), &recorder));
    settle();
    must("mount", r10_mount(&recorder));
    must("tick", r10_tick(&recorder, 0, &civil));
    must("start", r10_start(&recorder, name, strlen(name), "", 0));
    settle();
}

/* How many messages the file has, read from what the disk holds. */
static void count(const char *what, unsigned long wanted) {
    static uint8_t bytes[65535];
    uint16_t words[36];
    const r10_region region = {memory, BLOCKS};
    r10_file_info info;
    uint8_t name[56];
    unsigned long found = 0;
    r10_close(&recorder);
    memcpy(memory, disk, (size_t)BLOCKS * 512);
    must("open", r10_open(region, ROOM, script, strlen(script), &recorder));
    must("mount", r10_mount(&recorder));
    must("file", r10_file(&recorder, 0, &info, name, sizeof name));
    for (uint64_t from = 0; from < UINT64_C(1) << 40; from += UINT64_C(1) << 28) {
        /* a reader takes a long file in parts: by ranges of counts */
        size_t cursor, queued;
        must("cursor", r10_cursor(&recorder, 0, NULL, 0, from, from + (UINT64_C(1) << 28) - 1, &cursor));
        must("advance", r10_advance(&recorder, cursor, &queued));
        for (size_t n = 0; n < queued; n++) {
            bool there = false;
            r10_entry entry;
            must("next", r10_next(&recorder, cursor, &there, &entry, bytes, sizeof bytes, words, 36));
            if (entry.kind != R10_UART)
                continue;
            char text[32];
            snprintf(text, sizeof text, "%lu", found);
            if (!there || entry.length != strlen(text) || memcmp(bytes, text, entry.length) != 0) {
                printf("%s: not message %lu\n", what, found);
                exit(2);
            }
            found++;
        }
        must("close cursor", r10_close_cursor(&recorder, cursor));
        if (queued == 0 && from > 0)
            break;
    }
    printf("%s: closed %d, %lu of %lu messages\n", what, info.closed, found, wanted);
    settle();
    r10_close(&recorder);
}

static void offer(unsigned long number, uint64_t at) {
    char text[32];
    snprintf(text, sizeof text, "%lu", number);
    must("offer", r10_offer_uart(&recorder, LINE, at, false, 0, text, strlen(text)));
}

int main(int words, char **word) {
    if (words != 3) {
        fprintf(stderr, "usage: flight MINUTES PACKETS\n");
        return 1;
    }
    unsigned long seconds = 60 * strtoul(word[1], NULL, 10), packets = strtoul(word[2], NULL, 10), number = 0;
    size_t moved, taken, left;
    memory = malloc((size_t)BLOCKS * 512);
    disk = malloc((size_t)BLOCKS * 512);
    if (!memory || !disk)
        return 1;
    settings(100);
    begin("FLIGHT");
    for (unsigned long second = 0; second < seconds; second++) {
        uint64_t now = (uint64_t)second * 10000000;
        r10_civil civil = {2024, 2, 29, (uint16_t)(12 + second / 3600), (uint16_t)(second / 60 % 60), (uint16_t)(second % 60), 0};
        must("tick", r10_tick(&recorder, now, &civil));
        for (unsigned n = 0; n < 100; n++)
            offer(number++, now + 100000 * n);
        must("pump", r10_pump(&recorder, LINE, SIZE_MAX, &moved));
        must("commit", r10_commit(&recorder));
        settle();
    }
    is_same("flight");
    unsigned long before = operations;
    must("stop", r10_stop(&recorder, &taken, &left));
    settle();
    is_same("stop");
    printf("%lu minutes: a stop of %s operations\n", seconds / 60, operations - before > ROOM ? "more than 1024" : "few");
    count("flight", number);

    for (int sealed = 1; sealed >= 0; sealed--) {
        settings(1);
        begin("PACKETS");
        for (number = 0; number < packets; number++) {
            offer(number, 10000 * number);
            must("pump", r10_pump(&recorder, LINE, 1, &moved));
            if (number % 64 == 63)
                settle();
        }
        must("commit", r10_commit(&recorder));
        settle();
        before = operations;
        if (sealed) {
            const r10_region region = {memory, BLOCKS};
            r10_close(&recorder);
            memcpy(memory, disk, (size_t)BLOCKS * 512);
            must("open", r10_open(region, ROOM, script, strlen(script), &recorder));
            must("mount", r10_mount(&recorder));
            must("seal", r10_seal(&recorder));
        } else {
            must("stop", r10_stop(&recorder, &taken, &left));
        }
        settle();
        is_same(sealed ? "seal" : "stop");
        printf("%lu packets: a %s of %s operations\n", packets, sealed ? "seal" : "stop", operations - before > ROOM ? "more than 1024" : "few");
        count(sealed ? "sealed" : "stopped", number);
    }
    free(memory);
    free(disk);
    return 0;
}
