/* Refuses each allocation of each call in turn, of readers too, and does the call again. With room for the operations of a call, one
 * that lacks memory answers R10_NO_MEMORY with nothing changed, also where operations of earlier calls wait: R10_MEDIUM is left to a
 * disk that failed. What a reader is given in the end is what was recorded. */
#include <inttypes.h>
#include <stdio.h>
#include <stdlib.h>
#include <string.h>

#include "r10.h"

enum { BLOCKS = 512, ROOM = 40, ROUNDS = 60, FILES = 5 };

static const char script[] = "blocks = 512\n"
                             "directory = 2\n"
                             "volume = \"VOL\"\n"
                             "nodes = 100\n"
                             "time = 1\n"
                             "event = 2\n"
                             "[[channel]]\nid = 3\nkind = \"message\"\ncapacity = 64\ncheck = 16\nbytes = 4096\nnumber = 100\n";

extern void *__libc_malloc(size_t size);
extern void *__libc_realloc(void *at, size_t size);

/* how many allocations are granted before one is refused; below 0 all are */
static long granted = -1;
static unsigned long refusals;

static bool is_refused(void) {
    if (granted < 0 || granted-- > 0)
        return false;
    refusals++;
    return true;
}

void *malloc(size_t size) { return is_refused() ? NULL : __libc_malloc(size); }
void *realloc(void *at, size_t size) { return is_refused() ? NULL : __libc_realloc(at, size); }

static unsigned char memory[BLOCKS * 512], before[sizeof memory];
static r10 recorder;
static uint64_t count = 1000;
static unsigned long mediums, changes, wrongs;
static size_t moved, taken, left;
static size_t room = ROOM;
static size_t reader, queued, found;
static uint64_t first;
static bool there;

typedef uint32_t call(void);

static uint32_t mount(void) { return r10_mount(&recorder); }

static const r10_civil civil = {2024, 2, 29, 12, 34, 56, 78};

static uint32_t tick(void) { return r10_tick(&recorder, count, &civil); }

static char name[] = "FLT1";

static uint32_t start(void) { return r10_start(&recorder, name, 4, "ABCD", 4); }

static uint32_t offer(void) {
    static const uint8_t bytes[1000];
    return r10_offer_message(&recorder, 3, count, false, false, 0, bytes, sizeof bytes);
}

static uint32_t pump(void) { return r10_pump(&recorder, 3, 1, &moved); }

static uint32_t event(void) { return r10_event(&recorder, 7, count); }

static uint32_t commit(void) { return r10_commit(&recorder); }

static uint32_t stop(void) { return r10_stop(&recorder, &taken, &left); }

static uint32_t seal(void) { return r10_seal(&recorder); }

static uint32_t erase(void) { return r10_erase(&recorder); }

static uint32_t dismount(void) { return r10_dismount(&recorder); }

static uint32_t files(void) { return r10_files(&recorder, &found); }

static uint32_t cursor(void) { return r10_cursor(&recorder, 0, NULL, 0, 0, 281474976710655, &reader); }

static uint32_t advance(void) { return r10_advance(&recorder, reader, &queued); }

static uint32_t close_cursor(void) { return r10_close_cursor(&recorder, reader); }

static uint32_t find(void) {
    static uint8_t bytes[65535];
    static uint16_t words[36];
    r10_entry entry;
    uint32_t answer = r10_find(&recorder, 0, 3, 0, &there, &found, &entry, bytes, sizeof bytes, words, 36);
    first = entry.count;
    return answer;
}

static uint32_t count_at(void) { return r10_count_at(&recorder, 0, &civil, &there, &first); }

static uint32_t status(r10_status_info *info) {
    memset(info, 0, sizeof *info);
    return r10_status(&recorder, info);
}

/* Does a call with its first allocation refused, then with its second, and so on, until none is refused. */
static void each(const char *what, call *it, uint32_t wanted) {
    for (long n = 0;; n++) {
        r10_status_info was, is;
        memcpy(before, memory, sizeof memory);
        status(&was);
        unsigned long then = refusals;
        granted = n;
        uint32_t answer = it();
        granted = -1;
        if (refusals == then || answer == wanted) {
            if (answer != wanted) {
                printf("%s: %" PRIu32 ", and not %" PRIu32 "\n", what, answer, wanted);
                wrongs++;
            }
            return;
        }
        status(&is);
        if (answer == R10_MEDIUM || answer == R10_FAILED) {
            mediums++;
            return;
        }
        if (answer != R10_NO_MEMORY) {
            printf("%s: %" PRIu32 " where memory was refused\n", what, answer);
            wrongs++;
            return;
        }
        if (memcmp(before, memory, sizeof memory) != 0 || memcmp(&was, &is, sizeof is) != 0) {
            printf("%s: 30, and something changed\n", what);
            changes++;
        }
    }
}

/* What a call found has to be this. */
static void want(const char *what, uint64_t is, uint64_t wanted) {
    if (is != wanted) {
        printf("%s: %" PRIu64 ", and not %" PRIu64 "\n", what, is, wanted);
        wrongs++;
    }
}

static void settle(void) {
    uint8_t bytes[512 * 16];
    r10_run_info run;
    while (r10_orders(&recorder, &run, bytes, sizeof bytes) == R10_OK && run.kind != R10_NOTHING)
        ;
}

/* Reads the open file, of which so many messages are shown, the first of them at a count. */
static void read_back(unsigned messages, uint64_t from) {
    unsigned long got = 0;
    each("cursor", cursor, R10_OK);
    each("advance", advance, R10_OK);
    for (r10_entry entry; r10_take(&recorder, reader, &there, &entry) == R10_OK && there;)
        got += entry.kind == R10_MESSAGE;
    want("messages that were read", got, messages);
    each("close a cursor", close_cursor, R10_OK);
    each("find", find, R10_OK);
    want("the first message", there ? first : 0, from);
    each("count at", count_at, R10_OK);
    want("a time is found", there, true);
    each("files", files, R10_OK);
    want("files", found, 1);
}

/* A file is left open as by a loss of power, and sealed by a new recorder; then the directory grows over a block. */
static void power_loss(void) {
    each("start", start, R10_OK);
    count += 1000;
    each("offer", offer, R10_OK);
    each("pump", pump, R10_OK);
    each("commit", commit, R10_OK);
    r10_close(&recorder);
    if (r10_open((r10_region){memory, BLOCKS}, room, script, strlen(script), &recorder) != R10_OK)
        exit(1);
    each("mount", mount, R10_OK);
    each("seal", seal, R10_OK);
    each("erase", erase, R10_OK);
    each("tick", tick, R10_OK);
    for (int n = 0; n < FILES; n++) {
        name[3] = (char)('1' + n);
        each("start", start, R10_OK);
        each("stop", stop, R10_OK);
    }
    name[3] = '1';
    each("dismount", dismount, R10_OK);
    each("mount", mount, R10_OK);
    each("files", files, R10_OK);
    want("files", found, FILES);
    each("erase", erase, R10_OK);
}

/* A recording whose operations are handed out after so many rounds, or never. */
static void flight(unsigned rounds) {
    const uint64_t from = count + 1000;
    each("mount", mount, R10_OK);
    each("tick", tick, R10_OK);
    each("start", start, R10_OK);
    for (unsigned n = 0; n < ROUNDS; n++) {
        count += 1000;
        each("offer", offer, R10_OK);
        each("pump", pump, R10_OK);
        if (n % 10 == 9) {
            each("tick", tick, R10_OK);
            each("event", event, R10_OK);
            each("commit", commit, R10_OK);
            read_back(n + 1, from);
        }
        if (rounds > 0 && n % rounds == 0)
            settle();
    }
    each("stop", stop, R10_OK);
    each("seal", seal, R10_NO_FILE);
    each("erase", erase, R10_OK);
    power_loss();
    each("dismount", dismount, R10_OK);
}

static void try(const char *what, size_t places, unsigned rounds) {
    r10_queue_info queue;
    refusals = mediums = changes = wrongs = 0;
    room = places;
    if (r10_format((r10_region){memory, BLOCKS}, room, script, strlen(script), &recorder) != R10_OK)
        exit(1);
    flight(rounds);
    if (r10_queue(&recorder, &queue) != R10_OK)
        exit(1);
    r10_close(&recorder);
    printf("%s: %s refused, %lu answered as a failed disk", what, refusals > 50 ? "many were" : "few were", mediums);
    printf(", %lu changed something, %lu wrong\n", changes, wrongs);
}

int main(void) {
    setvbuf(stdout, NULL, _IONBF, 0);
    try("settled after each round", ROOM, 1);
    try("settled after ten rounds", ROOM, 10);
    try("never settled", ROOM, 0);
    return 0;
}
