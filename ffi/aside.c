/* A file that was cut off and then damaged is set aside: the disk has one block written, of which eight bytes differ, and the next file is recorded.
 * A power loss before that block is written leaves the old list of files. Prints what is answered. */
#include <inttypes.h>
#include <stdio.h>
#include <string.h>

#include "expect.h"
#include "r10.h"

enum { BLOCKS = 64, SIZE = BLOCKS * 512 };

static const char script[] = "blocks = 64\ndirectory = 2\nvolume = \"VOL\"\nnodes = 100\ntime = 1\nevent = 2\n"
                             "[[channel]]\nid = 5\nkind = \"message\"\ncapacity = 8\ncheck = 32\nbytes = 4096\nnumber = 100\n";
static const r10_civil civil = {2026, 12, 1, 12, 0, 0, 0};

/* what the recorder works on, and what the disk has: the operations that were handed out are done there */
static unsigned char memory[SIZE], disk[SIZE];
static r10 recorder;

static const r10_region region = {memory, BLOCKS};

/* Does what waits on the disk: how many blocks were written, the last one's number, and how many syncs there were. */
static void settle(size_t *blocks, size_t *last, size_t *syncs) {
    static uint8_t bytes[SIZE];
    *blocks = *syncs = *last = 0;
    for (;;) {
        r10_run_info run;
        expect("orders", r10_orders(&recorder, &run, bytes, sizeof bytes), R10_OK);
        if (run.kind == R10_NOTHING)
            return;
        if (run.kind == R10_WRITE) {
            memcpy(disk + 512 * run.block, bytes, 512 * run.blocks);
            *blocks += run.blocks;
            *last = run.block + run.blocks - 1;
        } else
            (*syncs)++;
    }
}

static void done(void) {
    size_t blocks, last, syncs;
    settle(&blocks, &last, &syncs);
}

/* the recorder goes, as by a kill, and the next one has what the disk has */
static void lose_power(void) {
    r10_close(&recorder);
    memcpy(memory, disk, SIZE);
}

static void open_mounted(void) {
    lose_power();
    expect("open", r10_open(region, 64, script, strlen(script), &recorder), R10_OK);
    expect("mount", r10_mount(&recorder), R10_OK);
    expect("tick", r10_tick(&recorder, 9000, &civil), R10_OK);
    done();
}

static void record(const char *name, uint64_t first, size_t messages) {
    expect("tick", r10_tick(&recorder, first, &civil), R10_OK);
    expect("start", r10_start(&recorder, name, strlen(name), "", 0), R10_OK);
    for (size_t n = 1; n <= messages; n++) {
        size_t moved;
        expect("offer", r10_offer_message(&recorder, 5, first + n, false, false, 0, "twelve bytes", 12), R10_OK);
        expect("pump", r10_pump(&recorder, 5, 1, &moved), R10_OK);
        expect("commit", r10_commit(&recorder), R10_OK);
    }
    done();
}

static void list(void) {
    size_t count = 0;
    expect("files", r10_files(&recorder, &count), R10_OK);
    printf("  files %zu\n", count);
    for (size_t n = 0; n < count; n++) {
        r10_file_info info = {0};
        uint8_t name[56];
        expect("file", r10_file(&recorder, n, &info, name, sizeof name), R10_OK);
        printf("  %.*s: %" PRIu64 " bytes in %" PRIu64 " blocks, %s\n", (int)info.name_length, (const char *)name, info.size, info.blocks,
               info.closed ? "closed" : "left open");
    }
}

static void set_aside(const char *what, bool wanted) {
    bool was_open = !wanted;
    uint32_t answer = r10_set_aside(region, 64, script, strlen(script), &recorder, &was_open);
    printf("%s: %" PRIu32 ", a file was open: %d\n", what, answer, was_open);
    if (was_open != wanted)
        is_wrong = true;
}

/* which bytes of two media differ */
static void compare(const unsigned char *before, const unsigned char *now) {
    size_t count = 0;
    for (size_t place = 0; place < SIZE; place++)
        if (before[place] != now[place]) {
            if (count == 0)
                printf("  from byte %zu of block %zu on: %.8s, was %.8s\n", place % 512, place / 512, (const char *)now + place, (const char *)before + place);
            count++;
        }
    printf("  %zu bytes differ\n", count);
}

int main(void) {
    static unsigned char before[SIZE];
    size_t blocks, last, syncs, cursor, queued, taken, left;
    r10_fault_info fault;
    bool was_open = true;

    expect("format", r10_format(region, 64, script, strlen(script), &recorder), R10_OK);
    expect("mount", r10_mount(&recorder), R10_OK);
    record("GOOD", 1000, 3);
    expect("stop", r10_stop(&recorder, &taken, &left), R10_OK);
    done();
    record("CUT", 2000, 3);
    list();

    /* the power is lost, and one bit of what was committed goes over */
    lose_power();
    disk[4 * 512 + 100] ^= 1;
    open_mounted();
    expect("start", r10_start(&recorder, "NEXT", 4, "", 0), R10_UNSEALED);
    expect("seal", r10_seal(&recorder), R10_BAD_FILE);
    expect("fault", r10_fault(&recorder, &fault), R10_OK);
    printf("seal: byte %" PRIu64 ", %s\n", fault.at, r10_fault_name(fault.fault));
    expect("dismount", r10_dismount(&recorder), R10_OK);
    done();

    /* a power loss before the block is written leaves the old list */
    lose_power();
    memcpy(before, disk, SIZE);
    set_aside("set aside", true);
    lose_power();
    expect("open", r10_open(region, 64, script, strlen(script), &recorder), R10_OK);
    expect("mount", r10_mount(&recorder), R10_OK);
    list();

    /* and after it the new one; nothing else of the disk changes */
    lose_power();
    set_aside("set aside", true);
    settle(&blocks, &last, &syncs);
    printf("  %zu block written, number %zu, and %zu syncs\n", blocks, last, syncs);
    compare(before, disk);
    open_mounted();
    list();
    printf("cursor of what was set aside: %" PRIu32 "\n", r10_cursor(&recorder, 1, NULL, 0, 0, 9000, &cursor));
    record("NEXT", 9000, 2);
    expect("stop", r10_stop(&recorder, &taken, &left), R10_OK);
    expect("cursor", r10_cursor(&recorder, 2, NULL, 0, 9001, 9002, &cursor), R10_OK);
    expect("advance", r10_advance(&recorder, cursor, &queued), R10_OK);
    printf("messages of the next file: %zu\n", queued);
    list();
    done();

    /* where no file was left open, nothing is written; nor where it is refused */
    lose_power();
    set_aside("set aside once more", false);
    settle(&blocks, &last, &syncs);
    printf("  %zu blocks written, and %zu syncs\n", blocks, syncs);
    printf("of an open recorder: %" PRIu32 "\n", r10_set_aside(region, 64, script, strlen(script), &recorder, &was_open));
    r10_close(&recorder);
    memcpy(before, memory, SIZE);
    printf("of another size: %" PRIu32 "\n", r10_set_aside((r10_region){memory, 63}, 64, script, strlen(script), &recorder, &was_open));
    printf("by no script: %" PRIu32 "\n", r10_set_aside(region, 64, "blocks", 6, &recorder, &was_open));
    compare(before, memory);
    memory[512] ^= 1;
    memcpy(before, memory, SIZE);
    printf("without a directory: %" PRIu32 "\n", r10_set_aside(region, 64, script, strlen(script), &recorder, &was_open));
    compare(before, memory);
    printf("the answer was left as it was: %d\n", was_open);
    printf("of a closed one: %" PRIu32 "\n", r10_commit(&recorder));
    return is_wrong;
}
