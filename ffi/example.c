/* Records messages of a serial line into a file that it maps, reads along, and says how many messages are durable.
 *
 *     example FILE RUN MESSAGES EACH [LOG [BLOCKS]]
 *
 * RUN is a number that stands in names and messages, MESSAGES how many it records (0: until it is killed), EACH how many stand between two
 * commits. The file is made and formatted where it is not there. A recording that was cut off is closed first. Where the medium is full all files
 * are erased. It may be killed at any moment: what it said is durable is there when the file is mapped again. Its memory does not grow with what it records.
 *
 *     sealed NAME         a recording that was cut off is closed
 *     started NAME        a recording began
 *     sure N played P at K    the messages 0 to N - 1 of this run are on the medium; P entries of them were read back; K operations were done so far
 *     stopped NAME        a recording was closed
 *     erasing N           the messages below N, and all of earlier runs, are about to be erased
 *     erased N            they are
 *
 * With LOG, each operation is written there before it is done: a line `write BLOCK` and the block's 512 bytes, or a line `sync`. A `-` stands for none. The
 * file has BLOCKS blocks: 2,048 (1 MiB) where that is not said.
 *
 * Status 0, 1 where a call was refused, or 2 where what was read back is not what was recorded.
 */
#define _GNU_SOURCE
#include <stdio.h>
#include <stdlib.h>
#include <string.h>
#include <sys/stat.h>
#include <unistd.h>

#include "r10.h"
#include "r10_posix.h"

enum { LINE = 5, ROOM = 1024, GIVE_BACK = 1024 };

static char script[512];
static size_t blocks = 2048;

static void settings(void) {
    snprintf(script, sizeof script,
             "blocks = %zu\n"
             "directory = 2\n"
             "volume = \"VOL\"\n"
             "nodes = 100\n"
             "time = 1\n"
             "event = 2\n"
             "[[channel]]\n"
             "id = %d\n"
             "kind = \"uart\"\n"
             "capacity = 64\n"
             "check = 16\n"
             "bytes = 4096\n"
             "number = 100\n",
             blocks, LINE);
}

static r10 recorder;
static r10_disk disk;
static FILE *trail;
static unsigned long run, each, operations;
static unsigned long offered, filed, erased, played;
static size_t cursor;
static char name[57];

/* Does on the file what the last call came to, run by run. Before that nothing of the call is durable. Without LOG r10_disk_settle does the same. */
static void settle(void) {
    r10_run_info run;
    for (;;) {
        uint32_t number = r10_orders(&recorder, &run, disk.bytes, sizeof disk.bytes);
        if (number != R10_OK) {
            printf("orders: refused %u, %s\n", number, r10_strerror(number));
            exit(1);
        }
        if (run.kind == R10_NOTHING)
            break;
        if (run.kind == R10_SYNC) {
            if (trail)
                fprintf(trail, "sync\n");
            if (fdatasync(disk.file) != 0) {
                perror("sync");
                exit(1);
            }
            operations++;
            continue;
        }
        for (size_t n = 0; trail && n < run.blocks; n++) {
            fprintf(trail, "write %lu\n", (unsigned long)(run.block + n));
            fwrite(disk.bytes + 512 * n, 1, 512, trail);
        }
        if (pwrite(disk.file, disk.bytes, run.blocks * 512, (off_t)run.block * 512) != (ssize_t)(run.blocks * 512)) {
            perror("write");
            exit(1);
        }
        operations += run.blocks;
        disk.kept += run.blocks;
    }
    /* Nothing waits: the file holds what the region holds. So the pages of the region can be given back, and are read from the file when they are wanted. */
    if (disk.kept >= GIVE_BACK)
        r10_disk_give_back(&disk);
}

static void must(const char *what, uint32_t number) {
    if (number == R10_OK) {
        settle();
        return;
    }
    printf("%s: refused %u, %s\n", what, number, r10_strerror(number));
    exit(1);
}

/* Closes a last file that was cut off. */
static void seal(void) {
    size_t files;
    r10_file_info info;
    uint8_t found[56];
    must("files", r10_files(&recorder, &files));
    if (files == 0)
        return;
    must("file", r10_file(&recorder, files - 1, &info, found, sizeof found));
    if (info.closed)
        return;
    must("seal", r10_seal(&recorder));
    printf("sealed %.*s\n", (int)info.name_length, (const char *)found);
}

static void start(void) {
    for (;;) {
        size_t files;
        must("files", r10_files(&recorder, &files));
        snprintf(name, sizeof name, "RUN%lu_%lu", run, (unsigned long)files);
        uint32_t number = r10_start(&recorder, name, strlen(name), "", 0);
        settle();
        if (number == R10_OK) {
            printf("started %s\n", name);
            must("cursor", r10_cursor(&recorder, files, NULL, 0, 0, ((uint64_t)1 << 48) - 1, &cursor));
            return;
        }
        if (number != R10_DIRECTORY_FULL && number != R10_MEDIUM_FULL)
            must("start", number);
        printf("erasing %lu\n", filed);
        fflush(stdout);
        must("erase", r10_erase(&recorder));
        erased = played = filed;
        printf("erased %lu\n", filed);
        fflush(stdout);
    }
}

/* Reads what was shown since the last time, and compares it with what was recorded. */
static void play(void) {
    static uint8_t bytes[65535];
    uint16_t words[36];
    size_t queued;
    must("advance", r10_advance(&recorder, cursor, &queued));
    while (queued-- > 0) {
        bool there = false;
        r10_entry entry;
        char wanted[64];
        must("next", r10_next(&recorder, cursor, &there, &entry, bytes, sizeof bytes, words, 36));
        if (!there) {
            printf("play: no entry\n");
            exit(2);
        }
        if (entry.kind != R10_UART)
            continue;
        snprintf(wanted, sizeof wanted, "%lu %lu", run, played);
        if (entry.length != strlen(wanted) || memcmp(bytes, wanted, entry.length) != 0 || entry.channel != LINE) {
            printf("play: not message %lu: %.*s\n", played, (int)entry.length, (const char *)bytes);
            exit(2);
        }
        played++;
    }
}

static void say_sure(void) {
    play();
    printf("sure %lu played %lu at %lu\n", filed, played, operations);
    fflush(stdout);
}

static void stop(void) {
    size_t taken, left;
    must("stop", r10_stop(&recorder, &taken, &left));
    filed += taken;
    printf("stopped %s\n", name);
    say_sure();
    must("close cursor", r10_close_cursor(&recorder, cursor));
}

int main(int count, char **words) {
    if (count < 5 || count > 7) {
        fprintf(stderr, "usage: %s FILE RUN MESSAGES EACH [LOG [BLOCKS]]\n", words[0]);
        return 1;
    }
    run = strtoul(words[2], NULL, 10);
    unsigned long messages = strtoul(words[3], NULL, 10);
    each = strtoul(words[4], NULL, 10);
    if (count == 7)
        blocks = strtoul(words[6], NULL, 10);
    settings();
    if (count > 5 && strcmp(words[5], "-") != 0 && !(trail = fopen(words[5], "wb"))) {
        perror(words[5]);
        return 1;
    }
    struct stat found;
    if (stat(words[1], &found) != 0 && r10_disk_make(words[1], blocks, ROOM, script, strlen(script)) != 0) {
        perror(words[1]);
        return 1;
    }
    if (r10_disk_open(&disk, words[1], blocks) != 0) {
        perror(words[1]);
        return 1;
    }
    const r10_civil civil = {2024, 2, 29, 12, 34, 56, 78};
    must("open", r10_open(disk.region, ROOM, script, strlen(script), &recorder));
    must("mount", r10_mount(&recorder));
    must("tick", r10_tick(&recorder, 1000, &civil));
    seal();
    start();
    while (messages == 0 || offered < messages) {
        char text[64];
        size_t moved = 0;
        snprintf(text, sizeof text, "%lu %lu", run, offered);
        must("offer", r10_offer_uart(&recorder, LINE, 1000 + 10 * offered, false, 0, text, strlen(text)));
        offered++;
        uint32_t number = r10_pump(&recorder, LINE, 1, &moved);
        settle();
        if (number == R10_MEDIUM_FULL) {
            /* the message waits for the next file */
            stop();
            start();
            must("pump", r10_pump(&recorder, LINE, 1, &moved));
        } else {
            must("pump", number);
        }
        filed += moved;
        if (offered % each == 0) {
            must("commit", r10_commit(&recorder));
            say_sure();
        }
    }
    stop();
    must("dismount", r10_dismount(&recorder));
    r10_close(&recorder);
    r10_disk_close(&disk);
    return 0;
}
