/* Recorders on media that others left: one without a directory, recorders with groups of different sizes in their indexes, and a
 * recording from before there were reports of losses. Prints what is answered. */
#include <inttypes.h>
#include <stdio.h>
#include <string.h>

#include "expect.h"
#include "r10.h"

#define SCRIPT(blocks, nodes)                                                                                                                                  \
    "blocks = " blocks "\ndirectory = 2\nvolume = \"VOL\"\nnodes = " nodes "\ntime = 1\nevent = 2\n"                                                           \
    "[[channel]]\nid = 5\nkind = \"uart\"\ncapacity = 2\ncheck = 0\nbytes = 524288\nnumber = 65535\n"

static const r10_civil civil = {2024, 2, 29, 12, 34, 56, 78};
static unsigned char memory[64 * 512];
static r10 recorder;

static void open_over(size_t blocks, const char *script) {
    expect("open", r10_open((r10_region){memory, blocks}, 64, script, strlen(script), &recorder), R10_OK);
}

static void list(void) {
    size_t count = 0;
    expect("files", r10_files(&recorder, &count), R10_OK);
    printf("  files %zu\n", count);
    for (size_t n = 0; n < count; n++) {
        r10_file_info info = {0};
        uint8_t name[56];
        expect("file", r10_file(&recorder, n, &info, name, sizeof name), R10_OK);
        printf("  %.*s: %" PRIu64 " bytes in %" PRIu64 " blocks, %s\n", (int)info.name_length, (const char *)name, info.size, info.blocks,
               info.closed ? "closed" : "left open");
    }
}

/* ---- a medium without a directory */

static void no_directory(void) {
    printf("no directory\n");
    memset(memory, 0, sizeof memory);
    open_over(16, SCRIPT("16", "100"));
    size_t taken, left;
    r10_fault_info fault = {0};
    expect("mount", r10_mount(&recorder), R10_BAD_DIRECTORY);
    expect("fault", r10_fault(&recorder, &fault), R10_OK);
    printf("  directory block %" PRIu64 "\n", fault.at);
    expect("tick", r10_tick(&recorder, 1000, &civil), R10_NOT_MOUNTED);
    expect("start", r10_start(&recorder, "FLT1", 4, "ABCD", 4), R10_NOT_MOUNTED);
    expect("stop", r10_stop(&recorder, &taken, &left), R10_NOT_MOUNTED);
    expect("mount", r10_mount(&recorder), R10_BAD_DIRECTORY);
    r10_close(&recorder);
    for (size_t place = 0; place < sizeof memory; place++)
        if (memory[place] != 0) {
            printf("  byte %zu was written\n", place);
            break;
        }
}

/* ---- recorders whose indexes have groups of different sizes */

/* The hundredth time of a file, counted from 0. */
static void find(size_t file) {
    bool there = false;
    size_t number = 0;
    r10_entry entry = {0};
    uint8_t bytes[65535];
    uint16_t words[36];
    expect("find", r10_find(&recorder, file, 1, 1099, &there, &number, &entry, bytes, sizeof bytes, words, 36), R10_OK);
    printf("  file %zu: %s %zu, count %" PRIu64 ", kind %u\n", file, there ? "number" : "none", number, entry.count, entry.kind);
}

/* A file of a setup text and a hundred times, begun after what is there. */
static void record(const char *name) {
    expect("tick", r10_tick(&recorder, 1000, &civil), R10_OK);
    expect("start", r10_start(&recorder, name, strlen(name), "ABCD", 4), R10_OK);
    for (uint64_t count = 1001; count < 1100; count++)
        expect("tick", r10_tick(&recorder, count, &civil), R10_OK);
}

static void stop(void) {
    size_t taken = 9, left = 9;
    expect("stop", r10_stop(&recorder, &taken, &left), R10_OK);
    if (taken != 0 || left != 0)
        printf("  stop: %zu taken, %zu left\n", taken, left);
}

static void groups(void) {
    printf("a file that is left open by a recorder with two nodes in a group\n");
    memset(memory, 0, sizeof memory);
    const char *one = SCRIPT("64", "1"), *two = SCRIPT("64", "2");
    expect("format", r10_format((r10_region){memory, 64}, 64, two, strlen(two), &recorder), R10_OK);
    expect("mount", r10_mount(&recorder), R10_OK);
    record("FLT1");
    expect("commit", r10_commit(&recorder), R10_OK);
    list();
    r10_close(&recorder);
    printf("sealed by one with a node in a group, which records another\n");
    open_over(64, one);
    expect("mount", r10_mount(&recorder), R10_OK);
    expect("seal", r10_seal(&recorder), R10_OK);
    record("FLT2");
    stop();
    find(0);
    find(1);
    list();
    r10_close(&recorder);
    printf("read and followed by one with two again\n");
    open_over(64, two);
    expect("mount", r10_mount(&recorder), R10_OK);
    find(0);
    find(1);
    record("FLT3");
    stop();
    find(2);
    list();
    r10_close(&recorder);
    printf("all read by one with a node in a group\n");
    open_over(64, one);
    expect("mount", r10_mount(&recorder), R10_OK);
    for (size_t file = 0; file < 3; file++)
        find(file);
    r10_close(&recorder);
}

/* ---- a recording from before there were reports */

/* The directory's first block up to its first entry's end: a file of 168 bytes that nobody closed. */
static const unsigned char listed[176] = {
    0x46, 0x4F, 0x52, 0x54, 0x59, 0x74, 0x77, 0x6F, 0x0F, 0, 0, 1, 0,    0,    2,    0,    0x56, 0x4F, 0x4C, 0,    0,    0,    0,    0,    0,    0,
    0,    0,    0,    0,    0,    0,    0,    0,    0,    0, 0, 0, 0,    0,    0,    0,    0,    0,    0,    0,    0,    0,    0,    0,    0,    0,
    0,    0,    0,    1,    0,    0,    0,    0,    0,    0, 0, 1, 0x46, 0x4C, 0x54, 0x31, 0,    0,    0,    0,    0,    0,    0,    0,    0,    0,
    0,    0,    0,    0,    0,    0,    0,    0,    0,    0, 0, 0, 0,    0,    0,    0,    0,    0,    0,    0,    0,    0,    0,    0,    0,    0,
    0,    0,    0,    0,    0,    0,    0,    0,    0,    0, 0, 0, 0,    0,    0,    0,    0,    0,    0,    0,    0,    0,    0,    3,    0,    0,
    0,    0,    0,    0,    0,    1,    0,    0,    0,    0, 0, 0, 0,    0xA8, 0x32, 0x39, 0x30, 0x32, 0x32, 0x30, 0x32, 0x34, 0x31, 0x32, 0x33, 0x34,
    0x35, 0x36, 0x37, 0x38, 0,    0,    0,    0,    0,    0, 0, 0, 0x2D, 0x2D, 0x2D, 0x2D, 0x2D, 0x2D, 0x2D, 0x2D};

/* That file: a setup text, a time, two messages, and one after a loss of which no report tells. */
static const unsigned char before[168] = {
    0x25, 0xEB, 0,    0,    0x20, 0,    0,    0,    8,    0, 0,    0,    8,    0,    0, 1, 0xE8, 3, 0, 0,    0,    0, 0x3D, 0xF0, 0x0C, 0, 0,    0,
    0x41, 0x42, 0x43, 0x44, 0x25, 0xEB, 1,    0,    0x24, 0, 0,    0,    0x0C, 0,    0, 0, 8,    0, 0, 0x11, 0xE8, 3, 0,    0,    0,    0, 0x46, 0,
    1,    3,    0,    0,    0x78, 0x56, 0x34, 0x12, 0x29, 2, 0x24, 0x20, 0x25, 0xEB, 5, 0, 0x38, 0, 0, 0,    0x20, 0, 0,    0,    8,    0, 0,    0x50,
    0xE9, 3,    0,    0,    0,    0,    0x73, 0x3F, 0,    0, 0,    0x80, 0xE9, 3,    0, 0, 0,    0, 0, 0,    1,    0, 0,    0,    0x41, 0, 0xEA, 3,
    0,    0,    0,    0,    0,    0,    1,    0,    0,    0, 0x42, 0,    0x25, 0xEB, 5, 0, 0x2C, 0, 0, 0,    0x12, 0, 0,    0,    8,    1, 0x10, 0x50,
    0xEC, 3,    0,    0,    0,    0,    0x6C, 0x40, 0,    0, 0,    0x80, 0xEC, 3,    0, 0, 0,    0, 0, 0,    1,    0, 0,    0,    0x44, 0, 0,    0};

/* The index that a seal puts after it: a node of four entries, and a root. */
static const unsigned char sealed[168] = {
    0x25, 0xEB, 0, 0, 0x6C, 0, 0,    0, 0x54, 0, 0, 0, 8,    1, 0, 3, 0xE8, 3, 0, 0, 0, 0, 0xD5, 0xF3, 4,    0, 0,    0x80, 0xE8, 3, 0, 0, 0,    0, 0, 0,
    0,    0,    1, 0, 0,    0, 0,    0, 0,    0, 0, 0, 0xE8, 3, 0, 0, 0,    0, 0, 0, 1, 0, 0x11, 0,    0x20, 0, 0,    0,    0,    0, 0, 0, 0xE9, 3, 0, 0,
    0,    0,    0, 0, 5,    0, 0x50, 0, 0x44, 0, 0, 0, 0,    0, 0, 0, 0xEC, 3, 0, 0, 0, 0, 0,    0,    5,    0, 0x50, 0,    0x7C, 0, 0, 0, 0,    0, 0, 0,
    0x25, 0xEB, 0, 0, 0x3C, 0, 0,    0, 0x24, 0, 0, 0, 8,    2, 0, 3, 0xE8, 3, 0, 0, 0, 0, 0x75, 0xF4, 2,    0, 0,    0,    0xE8, 3, 0, 0, 0,    0, 0, 0,
    0xA8, 0,    0, 0, 0,    0, 0,    0, 0xE8, 3, 0, 0, 0,    0, 0, 0, 0x14, 1, 0, 0, 0, 0, 0,    0};

static void without_reports(void) {
    printf("a recording from before there were reports\n");
    memset(memory, 0, sizeof memory);
    memcpy(memory + 512, listed, sizeof listed);
    memcpy(memory + 3 * 512, before, sizeof before);
    open_over(16, SCRIPT("16", "100"));
    expect("mount", r10_mount(&recorder), R10_OK);
    expect("seal", r10_seal(&recorder), R10_OK);
    const uint16_t channel = 5;
    size_t cursor = 9, queued = 9;
    expect("cursor", r10_cursor(&recorder, 0, &channel, 1, 0, 281474976710655, &cursor), R10_OK);
    expect("advance", r10_advance(&recorder, cursor, &queued), R10_OK);
    printf("  cursor %zu, queued %zu\n", cursor, queued);
    for (bool there = true; there;) {
        r10_entry entry = {0};
        static uint8_t bytes[65535];
        uint16_t words[36];
        expect("next", r10_next(&recorder, cursor, &there, &entry, bytes, sizeof bytes, words, 36), R10_OK);
        if (there)
            printf("  count %" PRIu64 " %.*s%s, lost %" PRIu64 "\n", entry.count, (int)entry.length, (const char *)bytes, entry.gap ? ", after a loss" : "",
                   entry.lost);
    }
    r10_close(&recorder);
    if (memcmp(memory + 3 * 512, before, sizeof before) != 0)
        printf("  the recording was changed\n");
    if (memcmp(memory + 3 * 512 + sizeof before, sealed, sizeof sealed) != 0)
        printf("  another index\n");
}

int main(void) {
    no_directory();
    groups();
    without_reports();
    return is_wrong;
}
