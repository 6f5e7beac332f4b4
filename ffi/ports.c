/* Offers from other threads: four threads offer 100,000 messages each at ports of their own, while this one carries, pumps and commits. Two of them never
 * wait, so that ports overflow; two wait for room. At the end each message that was accepted is in the file once, in order, and each gap is as long as what
 * was lost there. Before it, in one thread: a port refuses what a lane refuses, by the same number, and what is closed stays closed.
 *
 *     ports [MESSAGES]
 */
#define _GNU_SOURCE
#include <inttypes.h>
#include <pthread.h>
#include <sched.h>
#include <stdatomic.h>
#include <stdio.h>
#include <stdlib.h>
#include <string.h>

#include "kinds.h"
#include "r10.h"

enum { BLOCKS = 1 << 18, CAPACITY = 512, BUSES = 4, FIRST = 10 };

static const char script[] = "blocks = 262144\n"
                             "directory = 7\n"
                             "volume = \"VOL\"\n"
                             "nodes = 1000\n"
                             "time = 1\n"
                             "event = 2\n"
                             "[[channel]]\nid = 10\nkind = \"uart\"\ncapacity = 512\ncheck = 0\nbytes = 262144\nnumber = 4000\n"
                             "[[channel]]\nid = 11\nkind = \"1553\"\ncapacity = 512\ncheck = 8\nbytes = 262144\nnumber = 4000\n"
                             "[[channel]]\nid = 12\nkind = \"arinc\"\ncapacity = 512\ncheck = 0\nbytes = 262144\nnumber = 4000\n"
                             "[[channel]]\nid = 13\nkind = \"message\"\ncapacity = 512\ncheck = 16\nbytes = 262144\nnumber = 4000\n"
                             "[[channel]]\nid = 14\nkind = \"discrete\"\ncapacity = 2\ncheck = 0\nbytes = 4096\nnumber = 100\nbits = 8\n";

typedef struct bus {
    r10_port port;
    r10_outlet outlet;
    pthread_t thread;
    bool waits;
    uint16_t channel;
    atomic_uint_fast64_t carried; /* how many messages the owner has carried */
    atomic_bool done;
} bus;

static uint64_t messages = 100000;
static r10 recorder;
static bus buses[BUSES];
static uint8_t buffer[512 * 128];
static int wrong;

static void must(const char *what, uint32_t number) {
    if (number != R10_OK) {
        printf("%s: refused %u, %s\n", what, number, r10_strerror(number));
        exit(1);
    }
}

static void same(const char *what, uint64_t is, uint64_t wanted) {
    if (is != wanted) {
        printf("%s: %" PRIu64 ", not %" PRIu64 "\n", what, is, wanted);
        wrong = 1;
    }
}

/* The message of this number of a bus, of some kind and length. */
static uint32_t offer(bus *it, uint64_t n) {
    uint64_t count = 1000 + 10 * n;
    uint8_t bytes[200] = {0};
    memcpy(bytes, &n, sizeof n);
    uint16_t words[4] = {(uint16_t)n, (uint16_t)(n >> 16), 7, 8};
    switch (it->channel) {
    case 10: return r10_port_uart(&it->port, count, false, 0, bytes, 8 + n % 64);
    case 11: return r10_port_1553(&it->port, count, 0, 0, words, 2 + n % 3);
    case 12: return r10_port_arinc(&it->port, count, 3, false, false, true, (uint32_t)n);
    default: return r10_port_message(&it->port, count, false, false, 9, bytes, 8 + n % 192);
    }
}

static void *run(void *argument) {
    bus *it = argument;
    uint64_t accepted = 0;
    for (uint64_t n = 0; n < messages; n++) {
        while (it->waits && accepted - atomic_load(&it->carried) >= CAPACITY)
            sched_yield();
        uint32_t answer = offer(it, n);
        if (answer == R10_OK)
            accepted++;
        else if (answer != R10_OVERFLOW)
            must("an offer at a port", answer);
        if (n % 97 == 0)
            sched_yield();
    }
    atomic_store(&it->done, true);
    return NULL;
}

/* The operations are handed out, and done on no disk. */
static void settle(void) {
    r10_run_info it;
    do
        must("orders", r10_orders(&recorder, &it, buffer, sizeof buffer));
    while (it.kind != R10_NOTHING);
}

/* One round of the owner: whether something moved. */
static bool round_of(bus *it) {
    size_t carried, moved;
    must("carry", r10_carry(&recorder, &it->outlet, CAPACITY, &carried));
    atomic_fetch_add(&it->carried, carried);
    must("pump", r10_pump(&recorder, it->channel, CAPACITY, &moved));
    return carried + moved > 0;
}

/* What the file has of a bus, beside what its port accepted. */
static void check(bus *it) {
    size_t cursor, queued;
    bool there;
    r10_entry entry;
    uint8_t bytes[200];
    uint16_t words[36];
    r10_port_info port;
    r10_account_info account = {0};
    uint64_t next = 0, found = 0, lost = 0;
    must("cursor", r10_cursor(&recorder, 0, &it->channel, 1, 0, (1ULL << 48) - 1, &cursor));
    must("advance", r10_advance(&recorder, cursor, &queued));
    for (;;) {
        must("take", r10_take(&recorder, cursor, &there, &entry));
        if (!there)
            break;
        must("taken", r10_taken(&recorder, bytes, sizeof bytes, words, 36));
        uint64_t n = (entry.count - 1000) / 10, told = entry.word;
        size_t length = 0;
        if (entry.kind == R10_UART || entry.kind == R10_MESSAGE) {
            memcpy(&told, bytes, sizeof told);
            length = 8 + n % (entry.kind == R10_UART ? 64 : 192);
        } else if (entry.kind == R10_1553) {
            told = words[0] | (uint64_t)words[1] << 16;
            length = 2 + n % 3;
        }
        if (told != n || entry.length != length || n < next || entry.lost != n - next || entry.gap != (n > next)) {
            printf("channel %u: after %" PRIu64 " comes %" PRIu64 " at %" PRIu64 ", with %" PRIu64 " lost\n", it->channel, next, told, n, entry.lost);
            wrong = 1;
            break;
        }
        lost += entry.lost;
        next = n + 1;
        found++;
    }
    must("close", r10_close_cursor(&recorder, cursor));
    must("state", r10_port_state(&it->port, &port));
    must("account", r10_account_of(&recorder, it->channel, &account));
    same("found", found, port.accepted);
    same("found and lost", found + port.lost, messages);
    same("carried", account.accepted, port.accepted);
    same("lost by the recorder's account", account.lost, lost);
    same("lost after the last", port.lost - lost, messages - next);
    if (it->waits)
        same("lost by a thread that waits", port.lost, 0);
    printf("channel %u: %" PRIu64 " messages, each in the file once and in order, or lost where a gap says so%s\n", it->channel, found + port.lost,
           it->waits ? "; none lost" : "");
}

/* What becomes of a port whose outlet or recorder is closed, and of an outlet whose port is. */
static void closings(void) {
    r10_port port = {0}, other = {0};
    r10_outlet outlet = {0};
    r10 second = {0};
    r10_port_info info;
    static uint8_t memory[64 * 512];
    static const char small[] = "blocks = 64\ndirectory = 2\nvolume = \"VOL\"\nnodes = 10\ntime = 1\nevent = 2\n"
                                "[[channel]]\nid = 14\nkind = \"discrete\"\ncapacity = 2\ncheck = 0\nbytes = 4096\nnumber = 100\nbits = 8\n";
    size_t carried = 9;
    bool one = true;
    must("open", r10_port_open(small, strlen(small), 14, &port, &outlet));
    printf("beside an open outlet: %u\n", r10_port_open(small, strlen(small), 14, &other, &outlet));
    must("offer", r10_port_discrete(&port, 10, 1));
    must("offer", r10_port_discrete(&port, 11, 2));
    printf("into no recorder: %u", r10_carry(&second, &outlet, 10, &carried));
    printf(", %zu; one: %u", carried, r10_carry_one(&second, &outlet, &one));
    printf(", %d\n", one);
    /* of another script: its channel of that ID took a later message, and this one stays */
    printf("into another one: %u\n", r10_carry(&recorder, &outlet, 10, &carried));
    /* the port is closed: what it accepted is carried */
    r10_port_close(&port);
    must("format", r10_format((r10_region){memory, 64}, 64, small, strlen(small), &second));
    must("carry", r10_carry(&second, &outlet, 10, &carried));
    printf("of a closed port: %zu", carried);
    must("carry", r10_carry(&second, &outlet, 10, &carried));
    printf(", then %zu\n", carried);
    r10_close(&second);
    r10_outlet_close(&outlet);
    /* the outlet is closed: the port fills */
    must("open", r10_port_open(small, strlen(small), 14, &port, &outlet));
    r10_outlet_close(&outlet);
    printf("without an outlet: %u", r10_port_discrete(&port, 10, 1));
    printf(", %u", r10_port_discrete(&port, 11, 2));
    printf(", %u\n", r10_port_discrete(&port, 12, 3));
    must("state", r10_port_state(&port, &info));
    printf("port: %" PRIu64 " accepted, %" PRIu64 " lost\n", info.accepted, info.lost);
    r10_port_close(&port);
    r10_port_close(&port);
}

/* What a port refuses a lane refuses, by the same number and with the same rest. */
static void refusals(void) {
    r10_port port = {0};
    r10_outlet outlet = {0};
    r10_port_info info;
    const uint16_t words[40] = {0};
    size_t carried;
    bool one;
    printf("no such channel: %u\n", r10_port_open(script, strlen(script), 99, &port, &outlet));
    printf("no script: %u\n", r10_port_open("blocks", 6, 14, &port, &outlet));
    printf("open: %u\n", r10_port_open(script, strlen(script), 14, &port, &outlet));
    printf("open again: %u\n", r10_port_open(script, strlen(script), 14, &port, &outlet));
    const struct {
        uint64_t count;
        uint32_t states;
    } tries[] = {{50, 1}, {50, 256}, {49, 1}, {1ULL << 48, 1}, {1ULL << 48, 256}, {60, 2}, {61, 3}, {62, 4}, {40, 4}};
    for (size_t n = 0; n < sizeof tries / sizeof *tries; n++) {
        uint32_t at_port = r10_port_discrete(&port, tries[n].count, tries[n].states);
        printf("offer %zu: %u\n", n, at_port);
        same("the same offer at a lane", r10_offer_discrete(&recorder, 14, tries[n].count, tries[n].states), at_port);
    }
    for (size_t n = 0; n < KINDS; n++) {
        const kind *it = &kinds[n];
        if (it->number == R10_DISCRETE)
            continue;
        /* (of words there are too many, at a count that is none) */
        uint64_t count = it->lent == WORDS_LENT ? 1ULL << 48 : 70;
        r10_entry other = {.length = it->lent == WORDS_LENT ? 40 : 3, .word = 1, .bus = 1};
        uint32_t at_port = it->offer_at(&port, count, &other, words);
        same("another kind", it->offer(&recorder, 14, count, &other, words), at_port);
    }
    must("lost", r10_port_lost(&port, 5));
    must("state", r10_port_state(&port, &info));
    printf("port: %" PRIu64 " accepted, %" PRIu64 " lost, room for %zu, channel %u\n", info.accepted, info.lost, info.capacity, info.channel);
    /* the lane is full, by the offers above, and its last count is above that of the first in the port: what is in the port stays there */
    printf("into a full lane that is further: %u", r10_carry(&recorder, &outlet, 10, &carried));
    printf(", %zu\n", carried);
    r10_channel_info lane = {0};
    must("channel", r10_channel_of(&recorder, 14, &lane));
    printf("the lane: %zu wait, %" PRIu64 " lost\n", lane.waiting, lane.lost);
    must("pump", r10_pump(&recorder, 14, 2, &carried));
    /* the lane's last count is above that of the first in the port: it is refused, and stays */
    printf("after it was pumped: %u", r10_carry(&recorder, &outlet, 10, &carried));
    printf(", %zu\n", carried);
    printf("again: %u\n", r10_carry_one(&recorder, &outlet, &one));
    r10_port_close(&port);
    printf("closed: %u, %u\n", r10_port_discrete(&port, 80, 1), r10_port_state(&port, &info));
    r10_outlet_close(&outlet);
    r10_outlet_close(&outlet);
    printf("closed: %u\n", r10_carry_one(&recorder, &outlet, &one));
    printf("null: %u, %u, %u\n", r10_port_discrete(NULL, 80, 1), r10_carry_one(&recorder, NULL, &one), r10_port_open(NULL, 1, 14, &port, &outlet));
}

/* Three messages are lost before one that a lane does not take: neither the lane nor its recorder counts them. A new recorder takes it after them. */
static void refused_after_a_loss(void) {
    static unsigned char memory[2][64 * 512];
    const r10_civil civil = {2024, 2, 29, 12, 34, 56, 78};
    const char *small = "blocks = 64\ndirectory = 2\nvolume = \"VOL\"\nnodes = 100\ntime = 1\nevent = 2\n"
                        "[[channel]]\nid = 5\nkind = \"discrete\"\ncapacity = 2\ncheck = 0\nbytes = 4096\nnumber = 100\nbits = 8\n";
    r10 one = {0};
    r10_port port = {0}, other = {0};
    r10_outlet outlet = {0}, elsewhere = {0};
    r10_channel_info lane = {0};
    r10_entry entry;
    size_t cursor, queued, carried, moved, taken, left;
    bool there;
    must("open a port", r10_port_open(small, strlen(small), 5, &port, &outlet));
    must("lost", r10_port_lost(&port, 3));
    must("offer", r10_port_discrete(&port, 5, 1));
    must("format", r10_format((r10_region){memory[0], 64}, 64, small, strlen(small), &one));
    must("offer", r10_offer_discrete(&one, 5, 10, 2));
    printf("after a later message: %u", r10_carry(&one, &outlet, 10, &carried));
    must("channel", r10_channel(&one, 0, &lane));
    printf(", %zu carried, %" PRIu64 " lost\n", carried, lane.lost);
    /* a message of a channel that the recorder does not have stays, too */
    must("open a port", r10_port_open(script, strlen(script), 14, &other, &elsewhere));
    must("offer", r10_port_discrete(&other, 100, 1));
    printf("of another channel: %u", r10_carry(&one, &elsewhere, 10, &carried));
    printf(", %zu carried\n", carried);
    r10_port_close(&other);
    r10_outlet_close(&elsewhere);
    r10_close(&one);
    must("format", r10_format((r10_region){memory[1], 64}, 64, small, strlen(small), &one));
    must("mount", r10_mount(&one));
    must("tick", r10_tick(&one, 1, &civil));
    must("start", r10_start(&one, "FLT", 3, "", 0));
    must("carry", r10_carry(&one, &outlet, 10, &carried));
    /* two more, so that the lane is full with one left in the port */
    must("offer", r10_port_discrete(&port, 6, 1));
    must("offer", r10_port_discrete(&port, 7, 1));
    must("carry", r10_carry(&one, &outlet, 10, &moved));
    printf("into a new recorder: %zu, then %zu of two", carried, moved);
    must("pump", r10_pump(&one, 5, 1, &moved));
    must("carry", r10_carry(&one, &outlet, 10, &carried));
    printf(", and %zu once there was room\n", carried);
    must("stop", r10_stop(&one, &taken, &left));
    must("cursor", r10_cursor(&one, 0, (const uint16_t[]){5}, 1, 0, R10_LAST_COUNT, &cursor));
    must("advance", r10_advance(&one, cursor, &queued));
    must("take", r10_take(&one, cursor, &there, &entry));
    printf("its first message: count %" PRIu64 ", %" PRIu64 " lost before it, %zu in all\n", entry.count, entry.lost, queued);
    r10_close(&one);
    r10_port_close(&port);
    r10_outlet_close(&outlet);
}

int main(int count, char **words) {
    const r10_civil civil = {2024, 2, 29, 12, 34, 56, 78};
    size_t taken, left;
    if (count > 1)
        messages = strtoull(words[1], NULL, 10);
    void *memory = calloc(BLOCKS, 512);
    if (!memory)
        return 3;
    must("format", r10_format((r10_region){memory, BLOCKS}, 1024, script, strlen(script), &recorder));
    must("mount", r10_mount(&recorder));
    must("tick", r10_tick(&recorder, 10, &civil));
    must("start", r10_start(&recorder, "FLT1", 4, "", 0));
    refusals();
    refused_after_a_loss();
    closings();
    for (int n = 0; n < BUSES; n++) {
        buses[n].channel = (uint16_t)(FIRST + n);
        buses[n].waits = n % 2;
        must("open a port", r10_port_open(script, strlen(script), buses[n].channel, &buses[n].port, &buses[n].outlet));
    }
    for (int n = 0; n < BUSES; n++)
        if (pthread_create(&buses[n].thread, NULL, run, &buses[n]) != 0)
            return 3;
    for (unsigned rounds = 0;; rounds++) {
        bool moved = false, done = true;
        for (int n = 0; n < BUSES; n++)
            done = atomic_load(&buses[n].done) && done;
        for (int n = 0; n < BUSES; n++)
            moved = round_of(&buses[n]) || moved;
        if (rounds % 16 == 0)
            must("commit", r10_commit(&recorder));
        settle();
        if (done && !moved)
            break;
        if (!moved)
            sched_yield();
    }
    for (int n = 0; n < BUSES; n++)
        pthread_join(buses[n].thread, NULL);
    must("stop", r10_stop(&recorder, &taken, &left));
    settle();
    printf("left in lanes: %zu\n", left);
    for (int n = 0; n < BUSES; n++) {
        check(&buses[n]);
        r10_port_close(&buses[n].port);
        r10_outlet_close(&buses[n].outlet);
    }
    r10_close(&recorder);
    free(memory);
    return wrong;
}
