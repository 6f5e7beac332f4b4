/* Records much into a file, and says how fast and in how much memory, beside plain writes of the same blocks with the same syncs.
 *
 *     load FILE BLOCKS MEGABYTES LENGTH EACH
 *
 * Messages of LENGTH bytes come to so many megabytes, in as many files as that takes, with a commit after each EACH. Then a second new file is written by
 * plain writes of the same runs, and synced as often. The memory is what the program has of its own, at its highest: pages of the file that the system keeps
 * are not in it. */
#define _GNU_SOURCE
#include <inttypes.h>
#include <stdio.h>
#include <stdlib.h>
#include <string.h>
#include <time.h>

#include "measured.h"
#include "r10.h"
#include "r10_posix.h"

enum { LINE = 5, ROOM = 1024 };

typedef struct run {
    uint32_t block, blocks;
} run;

static r10 recorder;
static r10_disk disk;
static char script[512];
static run *runs;
static size_t run_count, run_room, syncs, written;
static unsigned long most_own, most_rings;

static void note(uint32_t block, uint32_t blocks) {
    if (run_count == run_room) {
        run_room = run_room ? 2 * run_room : 4096;
        runs = realloc(runs, run_room * sizeof *runs);
        if (!runs)
            exit(3);
    }
    runs[run_count++] = (run){block, blocks};
}

/* The private memory of this program in kB, without the list of runs, which is the trial's own. */
static void look(void) {
    FILE *text = fopen("/proc/self/smaps_rollup", "r");
    char line[256];
    unsigned long own = 0, some;
    while (text && fgets(line, sizeof line, text))
        if (sscanf(line, "Anonymous: %lu kB", &some) == 1)
            own = some;
    if (text)
        fclose(text);
    unsigned long list = (unsigned long)(run_count * sizeof *runs / 1024);
    own = own > list ? own - list : 0;
    if (own > most_own)
        most_own = own;
}

static void settle(void) {
    r10_run_info it;
    r10_queue_info queue;
    must("queue", r10_queue(&recorder, &queue));
    if (queue.rings > most_rings)
        most_rings = queue.rings;
    if (queue.rings > 0)
        look();
    for (;;) {
        must("orders", r10_orders(&recorder, &it, disk.bytes, sizeof disk.bytes));
        if (it.kind == R10_NOTHING)
            break;
        if (it.kind == R10_SYNC) {
            if (fdatasync(disk.file) != 0)
                exit(3);
            note(0, 0);
            syncs++;
            continue;
        }
        if (pwrite(disk.file, disk.bytes, 512 * it.blocks, (off_t)it.block * 512) != (ssize_t)(512 * it.blocks))
            exit(3);
        note((uint32_t)it.block, (uint32_t)it.blocks);
        disk.kept += it.blocks;
        written += it.blocks;
    }
    if (disk.kept >= R10_GIVE_BACK) {
        look();
        r10_disk_give_back(&disk);
    }
}

static void start(void) {
    size_t files;
    char name[32];
    must("files", r10_files(&recorder, &files));
    snprintf(name, sizeof name, "LOAD%zu", files);
    must("start", r10_start(&recorder, name, strlen(name), "", 0));
    settle();
}

int main(int count, char **words) {
    if (count != 6) {
        fprintf(stderr, "usage: load FILE BLOCKS MEGABYTES LENGTH EACH\n");
        return 1;
    }
    size_t blocks = strtoul(words[2], NULL, 10), length = strtoul(words[4], NULL, 10), each = strtoul(words[5], NULL, 10);
    uint64_t messages = strtoull(words[3], NULL, 10) * 1000000 / length;
    snprintf(script, sizeof script,
             "blocks = %zu\ndirectory = 64\nvolume = \"VOL\"\nnodes = 1000\ntime = 1\nevent = 2\n"
             "[[channel]]\nid = %d\nkind = \"message\"\ncapacity = 4096\ncheck = 16\nbytes = 262144\nnumber = 4000\n",
             blocks, LINE);
    if (r10_disk_make(words[1], blocks, ROOM, script, strlen(script)) != 0 || r10_disk_open(&disk, words[1], blocks) != 0) {
        perror(words[1]);
        return 1;
    }
    const r10_civil civil = {2024, 2, 29, 12, 34, 56, 78};
    uint8_t *bytes = calloc(length, 1);
    if (!bytes)
        return 3;
    must("open", r10_open(disk.region, ROOM, script, strlen(script), &recorder));
    must("mount", r10_mount(&recorder));
    must("tick", r10_tick(&recorder, 1000, &civil));
    double began = seconds();
    start();
    for (uint64_t n = 0; n < messages; n++) {
        size_t moved = 0, taken, left;
        memcpy(bytes, &n, length < 8 ? length : 8);
        must("offer", r10_offer_message(&recorder, LINE, 1000 + 10 * n, false, false, 0, bytes, length));
        uint32_t number = r10_pump(&recorder, LINE, 1, &moved);
        if (number == R10_MEDIUM_FULL) {
            must("stop", r10_stop(&recorder, &taken, &left));
            settle();
            start();
            number = r10_pump(&recorder, LINE, 1, &moved);
        }
        must("pump", number);
        if (n % each == each - 1) {
            must("commit", r10_commit(&recorder));
            settle();
        }
    }
    size_t taken, left;
    must("stop", r10_stop(&recorder, &taken, &left));
    look();
    settle();
    double took = seconds() - began;
    printf("recorded %.0f MB of messages in %.1f s: %.1f MB/s; %zu blocks in %zu runs, %zu syncs; at most %lu MiB of own memory, %lu further rings\n",
           (double)messages * (double)length / 1e6, took, (double)messages * (double)length / 1e6 / took, written, run_count - syncs, syncs, most_own / 1024,
           most_rings);
    r10_close(&recorder);
    /* another new file, allocated whole like the first */
    char path[4096];
    snprintf(path, sizeof path, "%s.plain", words[1]);
    int file = open(path, O_RDWR | O_CREAT | O_TRUNC, 0644);
    if (file < 0 || posix_fallocate(file, 0, (off_t)blocks * 512) != 0 || fsync(file) != 0)
        return 3;
    began = seconds();
    for (size_t n = 0; n < run_count; n++) {
        if (runs[n].blocks == 0 ? fdatasync(file) != 0
                                : pwrite(file, disk.bytes, 512 * (size_t)runs[n].blocks, (off_t)runs[n].block * 512) != 512 * (ssize_t)runs[n].blocks)
            return 3;
    }
    double plain = seconds() - began;
    printf("plain writes of the same runs, with the same syncs: %.1f s: %.1f MB/s\n", plain, (double)messages * (double)length / 1e6 / plain);
    close(file);
    unlink(path);
    r10_disk_close(&disk);
    free(bytes);
    free(runs);
    return 0;
}
