/* A long file in parts: what they give, one after the other, is what one cursor gives at once.
 * A file that grows in parts: the program keeps each part's cursor and advances it again, so that what comes late is given too.
 * The entries are taken in two calls, into memory of their own length. How much memory the parts of a long file take is counted. */
#include <inttypes.h>
#include <malloc.h>
#include <stdio.h>
#include <stdlib.h>
#include <string.h>

#include "r10.h"

enum { BLOCKS = 4096, MESSAGES = 3000, ALL = 2 * MESSAGES + 100 };

static const char script[] = "blocks = 4096\n"
                             "directory = 2\n"
                             "volume = \"VOL\"\n"
                             "nodes = 100\n"
                             "time = 1\n"
                             "event = 2\n"
                             "[[channel]]\nid = 3\nkind = \"uart\"\ncapacity = 64\ncheck = 0\nbytes = 4096\nnumber = 100\n"
                             "[[channel]]\nid = 4\nkind = \"1553\"\ncapacity = 64\ncheck = 8\nbytes = 4096\nnumber = 10\n";

extern void *__libc_malloc(size_t size);
extern void *__libc_realloc(void *at, size_t size);
extern void __libc_free(void *at);

/* how many bytes of memory are in use, and how many were at the most */
static size_t in_use, at_most;

static void *noted(void *at) {
    if (at != NULL)
        in_use += malloc_usable_size(at);
    if (in_use > at_most)
        at_most = in_use;
    return at;
}

void *malloc(size_t size) { return noted(__libc_malloc(size)); }

void *realloc(void *at, size_t size) {
    if (at != NULL)
        in_use -= malloc_usable_size(at);
    return noted(__libc_realloc(at, size));
}

void free(void *at) {
    if (at != NULL)
        in_use -= malloc_usable_size(at);
    __libc_free(at);
}

typedef struct taken {
    uint64_t count;
    uint16_t channel;
    uint8_t kind;
    size_t length;
    uint64_t sum;
} taken;

static r10 recorder;
static unsigned char *memory;
static taken whole[ALL], again[ALL];

static void must(const char *what, uint32_t number) {
    if (number != R10_OK) {
        printf("%s: refused %u, %s\n", what, number, r10_strerror(number));
        exit(1);
    }
}

/* Counts that are dense, far apart, and equal on both channels, in turn. */
static uint64_t count_of(unsigned n) {
    if (n < 1000)
        return 1000 + n / 2;
    return n < 2000 ? 2000 + 50000 * (uint64_t)(n - 1000) : 60001000 + n / 100;
}

static void record(void) {
    const r10_civil civil = {2024, 2, 29, 12, 34, 56, 78};
    uint8_t bytes[200];
    uint16_t words[36];
    size_t moved, took, left;
    must("format", r10_format((r10_region){memory, BLOCKS}, 64, script, strlen(script), &recorder));
    must("mount", r10_mount(&recorder));
    must("tick", r10_tick(&recorder, 1000, &civil));
    must("start", r10_start(&recorder, "FLT1", 4, "", 0));
    for (unsigned n = 0; n < MESSAGES; n++) {
        memset(bytes, (int)(n % 251), sizeof bytes);
        for (unsigned k = 0; k < 36; k++)
            words[k] = (uint16_t)(n + k);
        must("offer", r10_offer_uart(&recorder, 3, count_of(n), false, 0, bytes, n % 200));
        must("offer", r10_offer_1553(&recorder, 4, count_of(n), 0, 0, words, 3 + n % 34));
        must("pump", r10_pump(&recorder, 3, 1, &moved));
        must("pump", r10_pump(&recorder, 4, 1, &moved));
    }
    must("stop", r10_stop(&recorder, &took, &left));
}

/* The next entry of a cursor, into memory that has room for it and no more. */
static bool next(size_t cursor, taken *it) {
    bool there;
    r10_entry entry;
    must("take", r10_take(&recorder, cursor, &there, &entry));
    if (!there) {
        if (r10_taken(&recorder, NULL, 0, NULL, 0) != R10_PLACE)
            printf("an entry is in hand that is not there\n");
        return false;
    }
    size_t byte_count = entry.kind == R10_UART ? entry.length : 0, word_count = entry.kind == R10_1553 ? entry.length : 0;
    uint8_t *bytes = malloc(byte_count + 1);
    uint16_t *words = malloc(2 * (word_count + 1));
    if (bytes == NULL || words == NULL)
        exit(1);
    bytes[byte_count] = 0xA5;
    words[word_count] = 0xA5A5;
    if ((byte_count > 0 && r10_taken(&recorder, bytes, byte_count - 1, words, word_count) != R10_ROOM) ||
        (word_count > 0 && r10_taken(&recorder, bytes, byte_count, words, word_count - 1) != R10_ROOM))
        printf("too little room was not refused\n");
    must("taken", r10_taken(&recorder, bytes, byte_count, words, word_count));
    *it = (taken){entry.count, entry.channel, entry.kind, entry.length, 0};
    for (size_t n = 0; n < byte_count; n++)
        it->sum = it->sum * 31 + bytes[n];
    for (size_t n = 0; n < word_count; n++)
        it->sum = it->sum * 31 + words[n];
    if (bytes[byte_count] != 0xA5 || words[word_count] != 0xA5A5)
        printf("more was written than there is\n");
    free(bytes);
    free(words);
    return true;
}

static size_t at_once(const uint16_t *ids, size_t id_count, uint64_t from, uint64_t to) {
    size_t cursor, queued, count = 0;
    must("cursor", r10_cursor(&recorder, 0, ids, id_count, from, to, &cursor));
    must("advance", r10_advance(&recorder, cursor, &queued));
    while (count < ALL && next(cursor, &whole[count]))
        count++;
    must("close", r10_close_cursor(&recorder, cursor));
    if (queued != count)
        printf("%zu were queued, and %zu came\n", queued, count);
    return count;
}

static void in_parts(const char *what, const uint16_t *ids, size_t id_count, uint64_t from, uint64_t to, size_t most) {
    r10_parts parts = {from, to, 0};
    size_t wanted = at_once(ids, id_count, from, to), count = 0, cursor, queued, largest = 0, number = 0;
    for (;;) {
        bool there;
        must("part", r10_part(&recorder, &parts, 0, ids, id_count, most, &there, &cursor, &queued));
        if (!there)
            break;
        number++;
        if (queued > largest)
            largest = queued;
        size_t got = 0, first = count;
        while (count < ALL && next(cursor, &again[count])) {
            if (queued > most && again[count].count != again[first].count)
                printf("more than %zu entries, and not of one count\n", most);
            count++;
            got++;
        }
        if (got != queued)
            printf("%zu were queued, and %zu came\n", queued, got);
        must("close", r10_close_cursor(&recorder, cursor));
    }
    bool same = count == wanted;
    for (size_t n = 0; n < count && same; n++)
        same = whole[n].count == again[n].count && whole[n].channel == again[n].channel && whole[n].kind == again[n].kind &&
               whole[n].length == again[n].length && whole[n].sum == again[n].sum;
    printf("%s, at most %zu: %zu parts with %zu entries, at most %zu in one", what, most, number, count, largest);
    printf(": %s\n", same ? "as at once" : "NOT as at once");
}

/* ---- a file that grows */

enum { ROUNDS = 40, EACH = 60, KEPT = 400 };

/* Entries by count, channel, length and content. */
static int compare(const void *one, const void *other) {
    const taken *a = one, *b = other;
    if (a->count != b->count)
        return a->count < b->count ? -1 : 1;
    if (a->channel != b->channel)
        return a->channel < b->channel ? -1 : 1;
    if (a->length != b->length)
        return a->length < b->length ? -1 : 1;
    return a->sum < b->sum ? -1 : a->sum > b->sum;
}

/* Takes all that a cursor has, which are counts of a part in order, and says how many that was. */
static size_t take_part(size_t cursor, uint64_t first, uint64_t last, size_t *count) {
    size_t got = 0;
    while (*count < ALL && next(cursor, &again[*count])) {
        const taken *it = &again[*count];
        if (it->count < first || it->count > last || (got > 0 && it->count < it[-1].count))
            printf("an entry of another part, or out of order\n");
        got++;
        ++*count;
    }
    return got;
}

/* A round of the recording: channel 3 keeps up, and channel 4 comes three seconds late. A tick ends the round, and all is shown. */
static void record_round(unsigned round) {
    const r10_civil civil = {2024, 2, 29, 12, 34, 56, 78};
    const uint64_t second = 10000000, late = 3 * second;
    uint8_t bytes[8];
    uint16_t words[3] = {0};
    size_t moved;
    for (unsigned n = 0; n < EACH; n++) {
        uint64_t count = (round + 4) * second + n * (second / EACH);
        memcpy(bytes, &count, sizeof bytes);
        words[1] = (uint16_t)n;
        must("offer", r10_offer_uart(&recorder, 3, count, false, 0, bytes, sizeof bytes));
        if (n % 4 == 0)
            must("offer", r10_offer_1553(&recorder, 4, count - late, 0, 0, words, 3));
    }
    must("pump", r10_pump(&recorder, 3, EACH, &moved));
    must("pump", r10_pump(&recorder, 4, EACH, &moved));
    must("tick", r10_tick(&recorder, (round + 5) * second, &civil));
    must("commit", r10_commit(&recorder));
}

/* Reads while it records, at most so many entries of a part at a time: new parts up to the last tick, and what came late to those of before. */
static void while_it_grows(size_t most) {
    const r10_civil civil = {2024, 2, 29, 12, 34, 56, 78};
    static struct {
        size_t cursor;
        uint64_t first, last;
    } kept[KEPT];
    size_t kept_count = 0, count = 0, queued, late = 0, largest = 0, took, left;
    r10_parts parts = {0, 0, 0};
    must("format", r10_format((r10_region){memory, BLOCKS}, 64, script, strlen(script), &recorder));
    must("mount", r10_mount(&recorder));
    must("tick", r10_tick(&recorder, 1000, &civil));
    must("start", r10_start(&recorder, "GROWS", 5, "", 0));
    for (unsigned round = 0; round <= ROUNDS; round++) {
        if (round < ROUNDS)
            record_round(round);
        else
            must("stop", r10_stop(&recorder, &took, &left));
        for (size_t n = 0; n < kept_count; n++) {
            must("advance", r10_advance(&recorder, kept[n].cursor, &queued));
            late += take_part(kept[n].cursor, kept[n].first, kept[n].last, &count);
        }
        /* (not every round, so that there is more than one part) */
        if (round % 8 != 7 && round != ROUNDS)
            continue;
        parts.to = (round + 5) * (uint64_t)10000000;
        for (;;) {
            bool there;
            uint64_t first = parts.from;
            size_t cursor;
            must("part", r10_part(&recorder, &parts, 0, NULL, 0, most, &there, &cursor, &queued));
            if (!there)
                break;
            if (kept_count == KEPT) {
                printf("more parts than there is room for\n");
                exit(1);
            }
            kept[kept_count].cursor = cursor;
            kept[kept_count].first = first;
            kept[kept_count++].last = parts.from - 1;
            if (queued > largest)
                largest = queued;
            take_part(cursor, first, parts.from - 1, &count);
        }
    }
    size_t wanted = at_once(NULL, 0, 0, ((uint64_t)1 << 48) - 1);
    qsort(whole, wanted, sizeof *whole, compare);
    qsort(again, count, sizeof *again, compare);
    bool same = count == wanted;
    for (size_t n = 0; n < count && same; n++)
        same = compare(&whole[n], &again[n]) == 0 && whole[n].kind == again[n].kind;
    printf("while it grows, at most %zu: %zu entries in %zu parts, at most %zu in a new one, %zu late", most, count, kept_count, largest, late);
    printf(": %s\n", same ? "each once" : "NOT each once");
    r10_close(&recorder);
}

/* ---- a burst after an hour without a message */

static const char long_script[] = "blocks = 65536\n"
                                  "directory = 2\n"
                                  "volume = \"VOL\"\n"
                                  "nodes = 100\n"
                                  "time = 1\n"
                                  "event = 2\n"
                                  "[[channel]]\nid = 3\nkind = \"uart\"\ncapacity = 64\ncheck = 0\nbytes = 65536\nnumber = 1000\n";

/* What the parts of a file take, beside what one cursor takes. */
static void burst(void) {
    enum { HOUR = 3600, SECONDS = 600, EACH_SECOND = 100, MOST = 50 };
    const r10_civil civil = {2024, 2, 29, 12, 34, 56, 78};
    const uint64_t second = 10000000, end = ((uint64_t)1 << 48) - 1;
    const uint16_t line[1] = {3};
    uint8_t bytes[60] = {0};
    size_t moved, took, left, cursor, queued, largest = 0, count = 0, before;
    void *blocks = calloc(65536, 512);
    if (blocks == NULL)
        exit(1);
    must("format", r10_format((r10_region){blocks, 65536}, 64, long_script, strlen(long_script), &recorder));
    must("mount", r10_mount(&recorder));
    must("tick", r10_tick(&recorder, 0, &civil));
    must("start", r10_start(&recorder, "BURST", 5, "", 0));
    for (uint64_t n = 0; n < SECONDS * EACH_SECOND; n++) {
        must("offer", r10_offer_uart(&recorder, 3, HOUR * second + n * (second / EACH_SECOND), false, 0, bytes, sizeof bytes));
        must("pump", r10_pump(&recorder, 3, 1, &moved));
    }
    must("stop", r10_stop(&recorder, &took, &left));
    must("cursor", r10_cursor(&recorder, 0, line, 1, 0, end, &cursor));
    before = at_most = in_use;
    must("advance", r10_advance(&recorder, cursor, &queued));
    printf("a burst: %zu entries, at once in more than 4 MiB: %s\n", queued, at_most - before > 4 << 20 ? "yes" : "NO");
    must("close", r10_close_cursor(&recorder, cursor));
    r10_parts parts = {0, end, 0};
    before = at_most = in_use;
    for (bool there = true; there;) {
        bool one = true;
        r10_entry entry;
        must("part", r10_part(&recorder, &parts, 0, line, 1, MOST, &there, &cursor, &queued));
        if (!there)
            break;
        if (queued > largest)
            largest = queued;
        while (one) {
            must("take", r10_take(&recorder, cursor, &one, &entry));
            count += one;
        }
        must("close", r10_close_cursor(&recorder, cursor));
    }
    printf("in parts: %zu entries, at most %zu in one, in less than 512 KiB: %s\n", count, largest, at_most - before < 512 << 10 ? "yes" : "NO");
    if (at_most - before >= 512 << 10)
        fprintf(stderr, "it took %zu bytes\n", at_most - before);
    r10_close(&recorder);
    free(blocks);
}

int main(void) {
    const uint16_t one[1] = {4};
    const uint64_t end = ((uint64_t)1 << 48) - 1;
    memory = calloc(BLOCKS, 512);
    if (memory == NULL)
        return 1;
    record();
    in_parts("all", NULL, 0, 0, end, 1);
    in_parts("all", NULL, 0, 0, end, 7);
    in_parts("all", NULL, 0, 0, end, 100);
    in_parts("all", NULL, 0, 0, end, 1000000);
    in_parts("one channel", one, 1, 0, end, 50);
    in_parts("some counts", NULL, 0, 1200, 40000000, 50);
    in_parts("one count", NULL, 0, 60001020, 60001020, 10);
    in_parts("none", NULL, 0, 5000000000, end, 10);
    size_t cursor;
    bool there = true;
    r10_entry entry;
    must("cursor", r10_cursor(&recorder, 0, NULL, 0, 1000, 1000, &cursor));
    printf("take, nothing queued: %u", r10_take(&recorder, cursor, &there, &entry));
    printf(" there %d\n", there);
    printf("take, no cursor: %u", r10_take(&recorder, cursor + 1, &there, &entry));
    printf(", then taken: %u\n", r10_taken(&recorder, NULL, 0, NULL, 0));
    r10_close(&recorder);
    printf("take, closed: %u\n", r10_take(&recorder, 0, &there, &entry));
    printf("taken, closed: %u\n", r10_taken(&recorder, NULL, 0, NULL, 0));
    while_it_grows(50);
    while_it_grows(1000000);
    free(memory);
    burst();
    return 0;
}
