/* Fails a disk at each operation of a short run in turn, and accounts for each message that was accepted, refused for an overflow, or lost
 * before it was offered. It was erased, or it is in a file that is found again, or in the gap of an entry there, or it goes on to the next
 * recorder, or the next recorder is given that it was lost (r10_untold). The operation that fails is done on the disk, or it is not. */
#include <inttypes.h>
#include <stdio.h>
#include <stdlib.h>
#include <string.h>

#include "r10.h"

enum { BLOCKS = 128, ROOM = 64, CHANNELS = 2, MESSAGES = 100, NEVER = 1000000 };

static const char script[] = "blocks = 128\ndirectory = 3\nvolume = \"VOL\"\nnodes = 100\ntime = 1\nevent = 2\n"
                             "[[channel]]\nid = 5\nkind = \"uart\"\ncapacity = 4\ncheck = 0\nbytes = 4096\nnumber = 100\n"
                             "[[channel]]\nid = 6\nkind = \"message\"\ncapacity = 3\ncheck = 16\nbytes = 4096\nnumber = 1\n";
static const uint16_t ids[CHANNELS] = {5, 6};

static unsigned char memory[BLOCKS * 512], disk[BLOCKS * 512];
static const r10_region region = {memory, BLOCKS};
static r10 recorder;

/* how many operations the disk still does, whether it does the one that fails, and whether it has failed */
static unsigned long left;
static bool does_the_last, has_failed;

/* What the program knows itself, by the counts of its messages, each of which is offered once: which channel's lane accepted it,
 * whether it was in a file before the erase, and whether it is found in one. And what the account said of earlier erases,
 * and whether the disk failed under this one. */
static uint64_t at, erased[CHANNELS];
/* all messages of a channel, those that were refused or lost too; and how many losses were in gaps of what was erased */
static uint64_t came[CHANNELS], gone_lost[CHANNELS];
static struct { bool accepted[CHANNELS], was_filed, is_found; } messages[MESSAGES];
static bool is_erased, is_erasing;

/* what was tried */
static unsigned long runs, with_waiting, with_losses, after_an_erase, in_an_erase, still_there, in_a_pump, handed_on, with_missed, with_gaps_gone;

static void stop_with(const char *what, uint32_t number) {
    printf("run %lu: %s: %u, %s\n", runs, what, number, r10_strerror(number));
    exit(1);
}

static void wrong(const char *what, unsigned channel) {
    printf("run %lu: channel %u: %s\n", runs, channel, what);
    exit(2);
}

static void must(const char *what, uint32_t number) {
    if (number != R10_OK)
        stop_with(what, number);
}

static void settle(void) {
    static uint8_t bytes[512];
    r10_order_info order;
    while (!has_failed) {
        must("order", r10_order(&recorder, &order, bytes, sizeof bytes));
        if (order.kind == R10_NOTHING)
            return;
        bool fails = left == 0;
        if (order.kind == R10_WRITE && (!fails || does_the_last))
            memcpy(disk + 512 * order.block, bytes, 512);
        if (fails) {
            has_failed = true;
            must("disk failed", r10_disk_failed(&recorder));
            return;
        }
        left--;
    }
}

/* A call of the run: once the disk has failed it may be refused Failed or Medium, and nothing else. */
static bool goes(const char *what, uint32_t number) {
    if (number != R10_OK && !(has_failed && (number == R10_MEDIUM || number == R10_FAILED)))
        stop_with(what, number);
    settle();
    return number == R10_OK && !has_failed;
}

static void offer(unsigned channel, unsigned count) {
    /* more than a block, so that a pump writes */
    static const uint8_t message[600];
    for (unsigned n = 0; n < count; n++) {
        came[channel]++;
        uint32_t answer = channel == 0 ? r10_offer_uart(&recorder, ids[0], ++at, false, 0, (const uint8_t *)"uart", 4)
                                       : r10_offer_message(&recorder, ids[1], ++at, false, false, 0, message, sizeof message);
        if (answer == R10_OK)
            messages[at % MESSAGES].accepted[channel] = true;
        else if (answer != R10_OVERFLOW)
            stop_with("offer", answer);
    }
}

/* so many messages of a channel are lost before they are offered */
static void lose(unsigned channel, uint64_t count) {
    came[channel] += count;
    must("lost", r10_lost(&recorder, ids[channel], count));
}

static void pump(unsigned channel, size_t most) {
    size_t moved;
    bool failed_before = has_failed;
    uint32_t answer = r10_pump(&recorder, ids[channel], most, &moved);
    in_a_pump += failed_before && answer == R10_MEDIUM;
    goes("pump", answer);
}

static void stop(void) {
    size_t taken, left_over;
    goes("stop", r10_stop(&recorder, &taken, &left_over));
}

static void tick(void) {
    const r10_civil civil = {2024, 2, 29, 12, 0, 0, 0};
    goes("tick", r10_tick(&recorder, ++at, &civil));
}

static uint64_t erased_now(unsigned channel) {
    r10_account_info info;
    must("account", r10_account_of(&recorder, ids[channel], &info));
    return info.erased;
}

/* How many entries of a channel a file has, and the last one. Each is a message that was accepted, and is found once. */
static size_t entries_of(size_t file, unsigned channel, r10_entry *last, uint64_t *lost) {
    static uint8_t bytes[65535];
    static uint16_t words[36];
    size_t cursor, queued, count = 0;
    bool there = true;
    r10_entry entry;
    must("cursor", r10_cursor(&recorder, file, &ids[channel], 1, 0, ((uint64_t)1 << 48) - 1, &cursor));
    must("advance", r10_advance(&recorder, cursor, &queued));
    while (there) {
        must("next", r10_next(&recorder, cursor, &there, &entry, bytes, sizeof bytes, words, 36));
        if (there) {
            if (!messages[entry.count % MESSAGES].accepted[channel] || messages[entry.count % MESSAGES].is_found)
                wrong("a message is found that was not accepted, or twice", ids[channel]);
            messages[entry.count % MESSAGES].is_found = true;
            *lost += entry.lost;
            *last = entry;
            count++;
        }
    }
    must("close cursor", r10_close_cursor(&recorder, cursor));
    return count;
}

/* How many messages of a channel the files have, and the losses in their gaps; r10_found says the same. */
static uint64_t find_all(size_t files, unsigned channel, uint64_t *lost) {
    uint64_t found = 0, counted = 0, counted_lost = 0;
    r10_entry last;
    *lost = 0;
    for (size_t file = 0; file < files; file++)
        found += entries_of(file, channel, &last, lost);
    must("found", r10_found(&recorder, 0, ids[channel], &counted, &counted_lost));
    if (counted != found || counted_lost != *lost)
        wrong("r10_found counts others", ids[channel]);
    return found;
}

/* How many messages of a channel were accepted: of those that were filed before the erase alone, or of those that are not found. */
static uint64_t count_messages(unsigned channel, bool filed, bool lost) {
    uint64_t count = 0;
    for (size_t n = 0; n < MESSAGES; n++)
        if (messages[n].accepted[channel] && (!filed || messages[n].was_filed) && (!lost || !messages[n].is_found))
            count++;
    return count;
}

static void erase(void) {
    bool worked = !has_failed;
    size_t files;
    for (unsigned n = 0; n < CHANNELS; n++)
        erased[n] = erased_now(n);
    if (worked) {
        must("files", r10_files(&recorder, &files));
        for (unsigned n = 0; n < CHANNELS; n++)
            find_all(files, n, &gone_lost[n]);
        for (size_t n = 0; n < MESSAGES; n++) {
            messages[n].was_filed = messages[n].is_found;
            messages[n].is_found = false;
        }
    }
    uint32_t answer = r10_erase(&recorder);
    is_erased = answer == R10_OK;
    goes("erase", answer);
    is_erasing = is_erased && has_failed;
}

static void start(const char *name) { goes("start", r10_start(&recorder, name, strlen(name), "", 0)); }

static void record_all(void) {
    goes("mount", r10_mount(&recorder));
    tick();
    start("A");
    offer(0, 3);
    pump(0, 3);
    offer(1, 2);
    pump(1, 2);
    goes("commit", r10_commit(&recorder));
    offer(0, 2);
    pump(0, 1);
    goes("event", r10_event(&recorder, 1, ++at));
    lose(1, 5);
    offer(1, 1);
    lose(0, 2);
    offer(0, 6); /* the lane has room for four */
    stop();
    lose(0, 1);
    erase();
    tick();
    start("B");
    offer(0, 2);
    pump(0, 2);
    goes("commit", r10_commit(&recorder));
    offer(0, 2);
    offer(1, 2);
    pump(1, 1);
    pump(0, 1);
    stop();
    start("C");
    offer(0, 3);
    pump(0, 2);
    goes("commit", r10_commit(&recorder));
    offer(1, 2);
    pump(1, 1);
    pump(0, 1);
    lose(0, 3);
    offer(0, 1);
    offer(1, 4); /* the lane has room for three */
    lose(1, 7);
}

/* Closes the recorder, opens the medium as the disk has it, and accounts for each message. */
static void account(void) {
    r10_account_info account[CHANNELS], none;
    r10_losses_info losses[CHANNELS], no_losses;
    r10_file_info file;
    r10_entry entry;
    size_t files;
    uint8_t name[56];
    for (unsigned n = 0; n < CHANNELS; n++) {
        must("account", r10_account(&recorder, n, &account[n]));
        if (account[n].channel != ids[n] || account[n].accepted != count_messages(n, false, false) ||
            account[n].erased != (is_erased ? count_messages(n, true, false) : 0) || account[n].waiting > account[n].accepted)
            wrong("the account is another", ids[n]);
        with_waiting += account[n].waiting > 0;
        if (account[n].accepted + account[n].lost != came[n])
            wrong("accepted and lost are not all that came", ids[n]);
    }
    if (r10_account(&recorder, CHANNELS, &none) != R10_PLACE)
        wrong("there is one more account", 0);
    /* in each third run what waits goes on to the next recorder */
    static r10_entry handed[CHANNELS][8];
    static uint8_t handed_bytes[CHANNELS][8][600];
    size_t hands[CHANNELS] = {0};
    bool there = runs % 3 == 0;
    for (unsigned n = 0; n < CHANNELS; n++)
        for (bool more = there; more;) {
            must("take waiting", r10_take_waiting(&recorder, ids[n], &more, &handed[n][hands[n]]));
            if (more) {
                must("taken", r10_taken(&recorder, handed_bytes[n][hands[n]], 600, NULL, 0));
                hands[n]++;
            }
        }
    if (r10_take_waiting(&recorder, 9, &there, &handed[0][7]) != R10_NO_CHANNEL)
        wrong("a channel that is not there gives a message", 9);
    for (unsigned n = 0; n < CHANNELS; n++) {
        must("losses", r10_losses(&recorder, n, &losses[n]));
        if (losses[n].channel != ids[n] || losses[n].handed != hands[n])
            wrong("the losses are another's", ids[n]);
        with_missed += losses[n].missed > 0;
        handed_on += hands[n];
    }
    if (r10_losses(&recorder, CHANNELS, &no_losses) != R10_PLACE)
        wrong("there are losses of one more channel", 0);
    r10_close(&recorder);
    if (r10_account(&recorder, 0, &none) != R10_CLOSED || r10_losses(&recorder, 0, &no_losses) != R10_CLOSED)
        wrong("a closed recorder has an account", 0);

    memcpy(memory, disk, sizeof memory);
    left = NEVER;
    has_failed = false;
    must("open", r10_open(region, ROOM, script, strlen(script), &recorder));
    must("mount", r10_mount(&recorder));
    tick();
    must("files", r10_files(&recorder, &files));
    if (files > 0) {
        must("file", r10_file(&recorder, files - 1, &file, name, sizeof name));
        if (!file.closed)
            must("seal", r10_seal(&recorder));
        settle();
    }
    in_an_erase += is_erasing;
    still_there += is_erasing && files > 0;
    uint64_t lost[CHANNELS];
    for (unsigned n = 0; n < CHANNELS; n++) {
        /* where the disk failed under the erase and the files are still there, it took none */
        bool is_kept = is_erasing && files > 0;
        uint64_t found_lost, handed_lost = 0, found = find_all(files, n, &found_lost);
        account[n].erased = is_kept ? erased[n] : account[n].erased;
        losses[n].erased_lost = is_kept ? 0 : losses[n].erased_lost;
        for (size_t one = 0; one < hands[n]; one++)
            handed_lost += handed[n][one].lost;
        lost[n] = r10_untold(&account[n], &losses[n], found, found_lost);
        uint64_t went = is_erased && !is_kept ? count_messages(n, true, false) + gone_lost[n] : 0;
        if (losses[n].handed_lost != handed_lost || lost[n] + found + found_lost + hands[n] + handed_lost + went != came[n])
            wrong("more or fewer messages are lost", ids[n]);
        with_losses += lost[n] > 0;
        with_gaps_gone += losses[n].erased_lost > 0;
        after_an_erase += account[n].erased > 0 && lost[n] > 0;
        must("lost", r10_lost(&recorder, ids[n], lost[n]));
        for (size_t one = 0; one < hands[n]; one++) {
            const r10_entry *it = &handed[n][one];
            must("lost, handed on", r10_lost(&recorder, ids[n], it->lost));
            must("offer, handed on", n == 0 ? r10_offer_uart(&recorder, ids[n], it->count, it->parity, it->sub, handed_bytes[n][one], it->length)
                                            : r10_offer_message(&recorder, ids[n], it->count, false, false, 0, handed_bytes[n][one], it->length));
            if (one == 0)
                lost[n] += it->lost;
        }
        if (hands[n] == 0)
            offer(n, 1);
    }
    start("NEXT");
    stop();
    for (unsigned n = 0; n < CHANNELS; n++) {
        size_t cursor, queued, wanted = hands[n] > 0 ? hands[n] : 1;
        bool is_there;
        must("cursor", r10_cursor(&recorder, files, &ids[n], 1, 0, R10_LAST_COUNT, &cursor));
        must("advance", r10_advance(&recorder, cursor, &queued));
        must("take", r10_take(&recorder, cursor, &is_there, &entry));
        if (queued != wanted || entry.gap != (lost[n] > 0) || entry.lost != lost[n])
            wrong("the next file reports another loss", ids[n]);
        must("account", r10_account_of(&recorder, ids[n], &account[n]));
        if (account[n].accepted != wanted || account[n].erased != 0 || account[n].waiting != 0)
            wrong("the next account is another", ids[n]);
    }
    r10_close(&recorder);
}

/* A run whose disk does so many operations: whether it failed. */
static bool run(unsigned long operations, bool does) {
    runs++;
    at = 1000;
    memset(memory, 0, sizeof memory);
    memset(disk, 0, sizeof disk);
    memset(messages, 0, sizeof messages);
    memset(erased, 0, sizeof erased);
    memset(came, 0, sizeof came);
    memset(gone_lost, 0, sizeof gone_lost);
    is_erased = is_erasing = has_failed = false;
    does_the_last = does;
    left = NEVER;
    must("format", r10_format(region, ROOM, script, strlen(script), &recorder));
    settle();
    left = operations;
    record_all();
    bool failed = has_failed;
    account();
    return failed;
}

static void say(const char *what, bool yes) { printf("%s: %s\n", what, yes ? "yes" : "no"); }

int main(void) {
    unsigned long operations = 0;
    while (run(operations, false) && run(operations, true))
        operations++;
    say("each operation of a run failed in turn, more than 20 of them", operations > 20);
    say("messages waited", with_waiting > 0);
    say("messages were lost", with_losses > 0);
    say("also after an erase", after_an_erase > 0);
    say("the disk failed under an erase, and the files were still there", still_there > 0);
    say("and they were gone", in_an_erase > still_there);
    say("a pump was refused for the medium", in_a_pump > 0);
    say("messages went on to the next recorder", handed_on > 0);
    say("losses came after the last message", with_missed > 0);
    say("losses were in gaps of what was erased", with_gaps_gone > 0);
    printf("each message is accounted for\n");
    return 0;
}
