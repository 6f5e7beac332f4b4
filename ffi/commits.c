/* Counts what a commit writes, for so many busy channels and so much time between commits, and looks whether a block is written twice between two
 * syncs, or a sync follows another with no write between.
 *
 *     commits [RATE [LENGTH]]     messages a second on each channel (1,000), and the bytes of each (32)
 *
 * It prints a table in Markdown. Nothing in it depends on the machine. Status 2 where a block is written twice or a sync does nothing, but for the one of a start. */
#include <inttypes.h>
#include <stdio.h>
#include <stdlib.h>
#include <string.h>

#include "r10.h"

enum { BLOCKS = 262144, ROOM = 1024, FIRST = 10, MOST_CHANNELS = 32, TICKS_A_MS = 10000 };

typedef struct counts {
    unsigned long commits, runs, blocks, syncs, twice, idle;
} counts;

static uint8_t *memory, *written;
static r10 recorder;
static bool is_synced;
static uint32_t touched[BLOCKS];
static size_t touched_count;

static void must(const char *what, uint32_t number) {
    if (number != R10_OK) {
        fprintf(stderr, "%s: refused %u, %s\n", what, number, r10_strerror(number));
        exit(1);
    }
}

static void settle(counts *found) {
    static uint8_t bytes[512 * 128];
    r10_run_info run;
    for (;;) {
        must("orders", r10_orders(&recorder, &run, bytes, sizeof bytes));
        if (run.kind == R10_NOTHING)
            return;
        if (run.kind == R10_SYNC) {
            found->syncs++;
            found->idle += is_synced;
            is_synced = true;
            while (touched_count > 0)
                written[touched[--touched_count]] = 0;
            continue;
        }
        is_synced = false;
        found->runs++;
        found->blocks += run.blocks;
        for (size_t n = 0; n < run.blocks; n++) {
            size_t block = run.block + n;
            found->twice += written[block];
            if (!written[block])
                touched[touched_count++] = (uint32_t)block;
            written[block] = 1;
        }
    }
}

static void open_over(unsigned channels) {
    static char script[8192];
    const r10_region region = {memory, BLOCKS};
    const r10_civil civil = {2024, 2, 29, 12, 0, 0, 0};
    int at = snprintf(script, sizeof script, "blocks = %d\ndirectory = 7\nvolume = \"VOL\"\nnodes = 1000\ntime = 1\nevent = 2\n", BLOCKS);
    for (unsigned n = 0; n < channels; n++)
        at += snprintf(script + at, sizeof script - (size_t)at,
                       "[[channel]]\nid = %u\nkind = \"message\"\ncapacity = 1024\ncheck = 16\nbytes = 262144\nnumber = 4000\n", FIRST + n);
    counts formatting = {0};
    must("format", r10_format(region, ROOM, script, strlen(script), &recorder));
    settle(&formatting);
    must("mount", r10_mount(&recorder));
    must("tick", r10_tick(&recorder, 0, &civil));
}

/* Records for so many commits, so many milliseconds apart. */
static counts record(unsigned channels, unsigned milliseconds, unsigned commits, unsigned rate, unsigned length, counts *starting) {
    static uint8_t bytes[65535];
    counts found = {0};
    uint64_t next[MOST_CHANNELS] = {0};
    *starting = found;
    open_over(channels);
    must("start", r10_start(&recorder, "FLT", 3, "", 0));
    settle(starting);
    uint64_t step = (uint64_t)10000000 / rate;
    for (unsigned n = 1; n <= commits; n++) {
        uint64_t until = (uint64_t)n * milliseconds * TICKS_A_MS;
        for (unsigned channel = 0; channel < channels; channel++) {
            size_t moved;
            for (; next[channel] * step < until; next[channel]++) {
                must("offer", r10_offer_message(&recorder, (uint16_t)(FIRST + channel), next[channel] * step, false, false, 0, bytes, length));
                must("pump", r10_pump(&recorder, (uint16_t)(FIRST + channel), 1, &moved));
            }
        }
        must("commit", r10_commit(&recorder));
        settle(&found);
        found.commits++;
    }
    r10_close(&recorder);
    return found;
}

int main(int count, char **words) {
    static const unsigned channels[] = {1, 4, 32}, times[] = {1, 10, 100, 1000};
    unsigned rate = count > 1 ? (unsigned)strtoul(words[1], NULL, 10) : 1000, length = count > 2 ? (unsigned)strtoul(words[2], NULL, 10) : 32;
    unsigned long twice = 0, idle = 0;
    if (rate == 0 || rate > 10000000 || length > 65535) {
        fprintf(stderr, "usage: commits [RATE [LENGTH]]\n");
        return 1;
    }
    memory = calloc(BLOCKS, 512);
    written = calloc(BLOCKS, 1);
    if (!memory || !written)
        return 3;
    printf("| Channels | ms between commits | messages | runs | syncs | blocks | bytes written for a byte of messages |\n|---|---|---|---|---|---|---|\n");
    for (size_t c = 0; c < sizeof channels / sizeof *channels; c++)
        for (size_t t = 0; t < sizeof times / sizeof *times; t++) {
            unsigned commits = times[t] >= 1000 ? 5 : times[t] >= 100 ? 20 : 100;
            counts starting, found;
            memset(memory, 0, (size_t)BLOCKS * 512);
            memset(written, 0, BLOCKS);
            touched_count = 0;
            is_synced = false;
            found = record(channels[c], times[t], commits, rate, length, &starting);
            double messages = (double)times[t] * rate * channels[c] / 1000;
            printf("| %u | %u | %.0f | %.1f | %.1f | %.1f | %.2f |\n", channels[c], times[t], messages, (double)found.runs / commits,
                   (double)found.syncs / commits, (double)found.blocks / commits, 512.0 * (double)found.blocks / ((double)commits * messages * length));
            twice += found.twice + starting.twice;
            idle += found.idle;
        }
    printf("\nblocks written twice between two syncs: %lu; syncs with no write before them: %lu\n", twice, idle);
    free(memory);
    free(written);
    return twice + idle > 0 ? 2 : 0;
}
