/* Random calls from a seed, with lent memory of every size, and what they come to.
 *
 *     random SEED CALLS [SCRIPT REPLIES]
 *
 * After each call a second memory does the operations as a disk does, by single operations or by runs of random sizes, and has to hold what the region holds.
 * With SCRIPT and REPLIES the same calls are written down as a script for `r10 sim`, and what they answered as its lines, but for the texts behind a refusal's
 * number. The last line says how many calls were done and how many refused. Memory is lent in blocks of its own, of exactly the size that is told: the address
 * sanitizer and valgrind see a byte beyond. */
#define _POSIX_C_SOURCE 200809L
#include <inttypes.h>
#include <stdio.h>
#include <stdlib.h>
#include <string.h>

#include "kinds.h"
#include "r10.h"

enum { BLOCKS = 96, CURSORS = 4, FULL = 65535 };

static char settings[4096] = "blocks = 96\ndirectory = 2\nvolume = \"VOL\"\nnodes = 3\ntime = 1\nevent = 2\n";

static uint64_t state;

static uint64_t below(uint64_t most) {
    /* xorshift, as a sequence that is the same everywhere */
    state ^= state << 13;
    state ^= state >> 7;
    state ^= state << 17;
    return (state * UINT64_C(0x2545F4914F6CDD1D) >> 11) % most;
}

static unsigned char *memory, *disk;
static r10 recorder;
static FILE *script, *replies;
static unsigned long step, refused;
static uint64_t now = 1000;

static void *lend(size_t size) {
    void *at = malloc(size ? size : 1);
    if (!at)
        exit(3);
    return at;
}

static void settle(void) {
    for (;;) {
        size_t room = 512 + (size_t)below(3) * 512 + (size_t)below(512);
        uint8_t *bytes = lend(room);
        uint8_t kind;
        if (below(4) == 0) {
            size_t small = (size_t)below(512);
            uint8_t *few = lend(small);
            r10_order_info order;
            if (r10_order(&recorder, &order, few, small) != R10_ROOM)
                abort();
            free(few);
        }
        if (below(2)) {
            r10_order_info order;
            if (r10_order(&recorder, &order, bytes, room) != R10_OK)
                abort();
            kind = order.kind;
            if (kind == R10_WRITE)
                memcpy(disk + 512 * order.block, bytes, 512);
        } else {
            r10_run_info run;
            if (r10_orders(&recorder, &run, bytes, room) != R10_OK)
                abort();
            kind = run.kind;
            if (kind == R10_WRITE)
                memcpy(disk + 512 * run.block, bytes, 512 * run.blocks);
        }
        free(bytes);
        if (kind == R10_NOTHING)
            break;
    }
    if (memcmp(disk, memory, (size_t)BLOCKS * 512) != 0) {
        printf("step %lu: the disk holds something else\n", step);
        exit(2);
    }
}

/* A step begins: its words for the script. */
#define STEP(...)                                                                                                                                              \
    do {                                                                                                                                                       \
        step++;                                                                                                                                                \
        if (script)                                                                                                                                            \
            fprintf(script, "[[step]]\n" __VA_ARGS__);                                                                                                         \
    } while (0)

/* A reply, where it was not refused. */
#define REPLY(number, ...)                                                                                                                                     \
    do {                                                                                                                                                       \
        uint32_t answer = (number);                                                                                                                            \
        settle();                                                                                                                                              \
        if (answer != R10_OK)                                                                                                                                  \
            refused++;                                                                                                                                         \
        if (replies) {                                                                                                                                         \
            fprintf(replies, "%lu ", step);                                                                                                                    \
            if (answer != R10_OK)                                                                                                                              \
                fprintf(replies, "refused %u\n", answer);                                                                                                      \
            else {                                                                                                                                             \
                __VA_ARGS__;                                                                                                                                   \
                fprintf(replies, "\n");                                                                                                                        \
            }                                                                                                                                                  \
        }                                                                                                                                                      \
    } while (0)

static void hex(FILE *to, const uint8_t *bytes, size_t length) {
    for (size_t n = 0; n < length; n++)
        fprintf(to, "%02x", bytes[n]);
}

/* The bytes or the words that are lent for a message of a kind, if any. */
static void hex_lent(FILE *to, const kind *it, size_t length, const void *lent) {
    if (it->lent == BYTES_LENT)
        hex(to, lent, length);
    for (size_t n = 0; it->lent == WORDS_LENT && n < length; n++)
        fprintf(to, "%04x", ((const uint16_t *)lent)[n]);
}

static void say_entry(const r10_entry *e, const uint8_t *bytes, const uint16_t *words) {
    fprintf(replies, "entry %u %" PRIu64 " ", e->channel, e->count);
    if (e->gap && e->lost == 0)
        fprintf(replies, "1+ ");
    else
        fprintf(replies, "%" PRIu64 " ", e->lost);
    const kind *it = kind_of(e->kind);
    if (it != NULL) {
        fprintf(replies, "%s ", it->name);
        it->print(replies, e);
        hex_lent(replies, it, e->length, it->lent == WORDS_LENT ? (const void *)words : bytes);
        if (it->lent != NOTHING_LENT && e->length == 0)
            fprintf(replies, "-");
    } else if (e->kind == R10_TIME)
        fprintf(replies, "time %04u-%02u-%02u %02u:%02u:%02u.%02u", e->year, e->month, e->day, e->hour, e->minute, e->second, e->centi);
    else
        fprintf(replies, "event %u %u", e->number, e->occurrence);
}

static uint16_t some_channel(void) { return below(12) == 0 ? NO_CHANNEL : kinds[below(KINDS)].id; }

static uint64_t some_count(void) {
    switch (below(24)) {
    case 0: return (UINT64_C(1) << 48) + below(3);
    case 1: return now > 5 ? now - 5 : 0;
    default: now += below(50); return now;
    }
}

/* The kind of a channel, or the first one. */
static const kind *kind_of_channel(uint16_t channel) {
    for (size_t n = 0; n < KINDS; n++)
        if (kinds[n].id == channel)
            return &kinds[n];
    return kinds;
}

static void offer(void) {
    uint16_t channel = some_channel();
    const kind *it = below(10) == 0 ? &kinds[below(KINDS)] : kind_of_channel(channel);
    uint64_t count = some_count();
    r10_entry message;
    memset(&message, 0, sizeof message);
    STEP("do = \"offer\"\nchannel = %u\nkind = \"%s\"\ncount = %" PRIu64 "\n", channel, it->name, count);
    it->draw(&message, below);
    void *lent = lend(it->lent * message.length);
    for (size_t n = 0; n < message.length; n++)
        if (it->lent == BYTES_LENT)
            ((uint8_t *)lent)[n] = (uint8_t)below(256);
        else
            ((uint16_t *)lent)[n] = (uint16_t)below(65536);
    if (script) {
        it->keys(script, &message);
        if (it->lent != NOTHING_LENT) {
            fprintf(script, "%s = \"", it->lent == BYTES_LENT ? "bytes" : "words");
            hex_lent(script, it, message.length, lent);
            fprintf(script, "\"\n");
        }
    }
    REPLY(it->offer(&recorder, channel, count, &message, lent), fprintf(replies, "ok"));
    free(lent);
}

static r10_civil some_civil(void) {
    r10_civil civil = {(uint16_t)(2000 + below(30)), (uint16_t)(1 + below(12)), (uint16_t)(1 + below(below(9) ? 28 : 33)),
                       (uint16_t)below(24),          (uint16_t)below(60),       (uint16_t)below(60),
                       (uint16_t)below(100)};
    return civil;
}

#define CIVIL "civil = \"%04u-%02u-%02u %02u:%02u:%02u.%02u\"\n"
#define PARTS(c) (c).year, (c).month, (c).day, (c).hour, (c).minute, (c).second, (c).centi

static void one_call(void) {
    static unsigned long files;
    uint64_t which = below(100);
    if (which < 28) {
        offer();
    } else if (which < 30) {
        uint16_t channel = some_channel();
        uint64_t count = below(below(4) == 0 ? (uint64_t)INT64_MAX : 5);
        STEP("do = \"lose\"\nchannel = %u\ncount = %" PRIu64 "\n", channel, count);
        REPLY(r10_lost(&recorder, channel, count), fprintf(replies, "ok"));
    } else if (which < 48) {
        uint16_t channel = some_channel();
        size_t most = (size_t)below(8), moved = 0;
        STEP("do = \"pump\"\nchannel = %u\nk = %zu\n", channel, most);
        REPLY(r10_pump(&recorder, channel, most, &moved), fprintf(replies, "moved %zu", moved));
    } else if (which < 54) {
        uint64_t count = some_count();
        r10_civil civil = some_civil();
        STEP("do = \"tick\"\ncount = %" PRIu64 "\n" CIVIL, count, PARTS(civil));
        REPLY(r10_tick(&recorder, count, &civil), fprintf(replies, "ok"));
    } else if (which < 60) {
        STEP("do = \"commit\"\n");
        REPLY(r10_commit(&recorder), fprintf(replies, "ok"));
    } else if (which < 64) {
        uint16_t number = (uint16_t)below(4100);
        uint64_t count = some_count();
        STEP("do = \"event\"\nnumber = %u\ncount = %" PRIu64 "\n", number, count);
        REPLY(r10_event(&recorder, number, count), fprintf(replies, "ok"));
    } else if (which < 68) {
        char name[32];
        size_t length = (size_t)below(200);
        uint8_t *setup = lend(length);
        for (size_t n = 0; n < length; n++)
            setup[n] = (uint8_t)below(256);
        snprintf(name, sizeof name, below(12) == 0 ? "a b" : "F%lu", files + below(3) / 2);
        files++;
        STEP("do = \"start\"\nname = \"%s\"\nsetup = \"", name);
        if (script) {
            hex(script, setup, length);
            fprintf(script, "\"\n");
        }
        REPLY(r10_start(&recorder, name, strlen(name), setup, length), fprintf(replies, "ok"));
        free(setup);
    } else if (which < 70) {
        size_t taken = 0, left = 0;
        STEP("do = \"stop\"\n");
        REPLY(r10_stop(&recorder, &taken, &left), fprintf(replies, "stopped %zu %zu", taken, left));
    } else if (which < 73) {
        STEP("do = \"mount\"\n");
        REPLY(r10_mount(&recorder), fprintf(replies, "ok"));
    } else if (which < 74) {
        STEP("do = \"dismount\"\n");
        REPLY(r10_dismount(&recorder), fprintf(replies, "ok"));
    } else if (which < 76) {
        STEP("do = \"seal\"\n");
        REPLY(r10_seal(&recorder), fprintf(replies, "ok"));
    } else if (which < 77) {
        if (below(3) == 0) {
            STEP("do = \"erase\"\n");
            REPLY(r10_erase(&recorder), fprintf(replies, "ok"));
        }
    } else if (which < 80) {
        r10_status_info info;
        static const char *const modes[] = {"unmounted", "idle", "recording", "failed"};
        STEP("do = \"status\"\n");
        REPLY(r10_status(&recorder, &info), {
            fprintf(replies, "status %s ", modes[info.mode]);
            if (info.ticked)
                fprintf(replies, "%" PRIu64, info.tick);
            else
                fprintf(replies, "-");
            fprintf(replies, " %zu %" PRIu64, info.files, info.free);
            for (size_t place = 0; place < info.channels; place++) {
                r10_channel_info channel;
                if (r10_channel(&recorder, place, &channel) != R10_OK)
                    abort();
                fprintf(replies, "\nchannel %u %zu %" PRIu64 " %" PRIu64, channel.channel, channel.waiting, channel.lost, channel.erased);
            }
        });
    } else if (which < 83) {
        size_t count = 0;
        STEP("do = \"files\"\n");
        REPLY(r10_files(&recorder, &count), {
            fprintf(replies, "files %zu", count);
            for (size_t number = 0; number < count; number++) {
                r10_file_info info;
                size_t room = (size_t)below(58);
                uint8_t *some = lend(room), name[56];
                if (r10_file(&recorder, number, &info, some, room) != R10_OK || r10_file(&recorder, number, &info, name, sizeof name) != R10_OK ||
                    memcmp(some, name, room < info.name_length ? room : info.name_length) != 0)
                    abort();
                fprintf(replies, "\nfile %zu %.*s %" PRIu64 " %" PRIu64 " %d", number, (int)info.name_length, (const char *)name, info.size, info.blocks,
                        info.closed);
                free(some);
            }
        });
    } else if (which < 86) {
        size_t file = (size_t)below(4), cursor = 0;
        uint64_t from = below(2) ? 0 : now / 2, to = below(20) ? (UINT64_C(1) << 48) - 1 : UINT64_C(1) << 48;
        uint16_t channels[2] = {3, 5};
        size_t some = (size_t)below(3);
        STEP("do = \"cursor\"\nfile = %zu\nchannels = [%s]\nfrom = %" PRIu64 "\nto = %" PRIu64 "\n", file, some == 0 ? "" : some == 1 ? "3" : "3, 5", from, to);
        REPLY(r10_cursor(&recorder, file, channels, some, from, to, &cursor), fprintf(replies, "cursor %zu", cursor));
    } else if (which < 89) {
        size_t cursor = (size_t)below(CURSORS), queued = 0;
        STEP("do = \"advance\"\nid = %zu\n", cursor);
        REPLY(r10_advance(&recorder, cursor, &queued), fprintf(replies, "advanced %zu", queued));
    } else if (which < 98) {
        bool is_find = which >= 96, there = false;
        size_t cursor = (size_t)below(CURSORS), number = 0, small = (size_t)below(FULL);
        uint16_t channel = some_channel();
        uint64_t count = below(now + 2);
        uint8_t *bytes = lend(FULL), *few = lend(small);
        uint16_t *words = lend(72);
        r10_entry entry;
        memset(&entry, 0, sizeof entry);
        if (is_find)
            STEP("do = \"find\"\nfile = 0\nchannel = %u\ncount = %" PRIu64 "\n", channel, count);
        else
            STEP("do = \"next\"\nid = %zu\n", cursor);
        if (r10_next(&recorder, cursor, &there, &entry, few, small, words, 36) != R10_ROOM || there)
            abort();
        REPLY(is_find ? r10_find(&recorder, 0, channel, count, &there, &number, &entry, bytes, FULL, words, 36)
                      : r10_next(&recorder, cursor, &there, &entry, bytes, FULL, words, 36),
              {
                  if (is_find && there)
                      fprintf(replies, "found %zu ", number);
                  if (there)
                      say_entry(&entry, bytes, words);
                  else
                      fprintf(replies, "none");
              });
        free(bytes);
        free(few);
        free(words);
    } else if (which < 99) {
        size_t cursor = (size_t)below(CURSORS);
        STEP("do = \"close\"\nid = %zu\n", cursor);
        REPLY(r10_close_cursor(&recorder, cursor), fprintf(replies, "ok"));
    } else {
        r10_civil civil = some_civil();
        bool there = false;
        uint64_t count = 0;
        STEP("do = \"count_at\"\nfile = 0\n" CIVIL, PARTS(civil));
        REPLY(r10_count_at(&recorder, 0, &civil, &there, &count), {
            if (there)
                fprintf(replies, "count %" PRIu64, count);
            else
                fprintf(replies, "none");
        });
    }
}

int main(int count, char **words) {
    if (count != 3 && count != 5) {
        fprintf(stderr, "usage: random SEED CALLS [SCRIPT REPLIES]\n");
        return 1;
    }
    state = (strtoull(words[1], NULL, 10) + 1) * UINT64_C(0x9E3779B97F4A7C15);
    unsigned long calls = strtoul(words[2], NULL, 10);
    add_channels(settings, sizeof settings, NULL);
    if (count == 5) {
        script = fopen(words[3], "w");
        replies = fopen(words[4], "w");
        if (!script || !replies)
            return 1;
        fputs(settings, script);
    }
    memory = calloc(BLOCKS, 512);
    disk = calloc(BLOCKS, 512);
    if (!memory || !disk)
        return 1;
    r10_region region = {memory, BLOCKS};
    if (r10_format(region, (size_t)below(40), settings, strlen(settings), &recorder) != R10_OK)
        return 1;
    settle();
    if (count == 5) {
        /* a new recorder, as that of `r10 sim` */
        r10_close(&recorder);
        if (r10_open(region, (size_t)below(40), settings, strlen(settings), &recorder) != R10_OK)
            return 1;
    }
    STEP("do = \"mount\"\n");
    REPLY(r10_mount(&recorder), fprintf(replies, "ok"));
    while (step < calls) {
        one_call();
        if (count == 3 && below(2000) == 0) {
            /* closed and opened again, as after a loss of power: what was not committed is lost */
            r10_close(&recorder);
            memcpy(memory, disk, (size_t)BLOCKS * 512);
            if (r10_open(region, (size_t)below(40), settings, strlen(settings), &recorder) != R10_OK || r10_mount(&recorder) != R10_OK)
                return 2;
            settle();
        }
    }
    printf("%lu calls, %lu refused\n", step, refused);
    r10_close(&recorder);
    free(memory);
    free(disk);
    if (script)
        fclose(script);
    if (replies)
        fclose(replies);
    return 0;
}
