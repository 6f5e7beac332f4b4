/* Calls each function of the library on plain memory, with arguments that can be told apart, and prints what it answers. */
#include <inttypes.h>
#include <stdio.h>
#include <string.h>

#include "kinds.h"
#include "r10.h"

static char script[4096] = "blocks = 64\n"
                           "directory = 2\n"
                           "volume = \"VOL\"\n"
                           "nodes = 100\n"
                           "time = 1\n"
                           "event = 2\n";

static unsigned char memory[64 * 512];
static uint8_t bytes[65535];
static uint16_t words[36];
static r10 recorder;

static unsigned char disk[64 * 512];
static bool is_open;

static unsigned long unsure, settles;

/* What a disk does after each call, by single operations and by runs in turn; then it has to hold what the region holds. */
static void settle(void) {
    r10_order_info order;
    r10_run_info run;
    uint8_t some[3 * 512 + 100];
    if (settles++ % 2 == 0) {
        while (r10_order(&recorder, &order, some, 512) == R10_OK && order.kind != R10_NOTHING) {
            if (order.kind == R10_SYNC)
                unsure = 0;
            else {
                unsure++;
                memcpy(disk + 512 * order.block, some, 512);
            }
        }
    } else {
        while (r10_orders(&recorder, &run, some, sizeof some) == R10_OK && run.kind != R10_NOTHING) {
            if (run.kind == R10_SYNC)
                unsure = 0;
            else {
                unsure++;
                if (run.blocks < 1 || run.blocks > 3)
                    printf("  a run of %zu blocks\n", run.blocks);
                memcpy(disk + 512 * run.block, some, 512 * run.blocks);
            }
        }
    }
    if (memcmp(disk, memory, sizeof disk) != 0)
        printf("  the disk holds something else\n");
}

static void say(const char *what, uint32_t number) {
    printf("%s: %u\n", what, number);
    if (is_open)
        settle();
}

/* Of a call that answers 0 only where what it did is durable. */
static void say_sure(const char *what, uint32_t number) {
    say(what, number);
    if (number == R10_OK)
        printf("  %s\n", unsure == 0 ? "sure" : "not sure");
}

static void show(const r10_entry *e) {
    printf("  kind %u channel %u count %" PRIu64 " gap %d lost %" PRIu64, e->kind, e->channel, e->count, e->gap, e->lost);
    const kind *it = kind_of(e->kind);
    if (it != NULL) {
        it->show(e);
        if (it->lent == BYTES_LENT)
            printf(": %.*s", (int)e->length, (const char *)bytes);
        if (it->lent == WORDS_LENT)
            printf(":");
        for (size_t i = 0; it->lent == WORDS_LENT && i < e->length; i++)
            printf(" %04x", words[i]);
    } else if (e->kind == R10_TIME)
        printf(": %04u-%02u-%02u %02u:%02u:%02u.%02u", e->year, e->month, e->day, e->hour, e->minute, e->second, e->centi);
    else
        printf(" number %u occurrence %u", e->number, e->occurrence);
    printf("\n");
}

static void status(void) {
    r10_status_info info;
    say("status", r10_status(&recorder, &info));
    printf("  mode %u ticked %d tick %" PRIu64 " files %zu free %" PRIu64 " channels %zu\n", info.mode, info.ticked, info.tick, info.files, info.free,
           info.channels);
}

static void losses_of_3(void) {
    r10_losses_info info;
    memset(&info, 0, sizeof info);
    say("losses of ID 3", r10_losses_of(&recorder, 3, &info));
    printf("  missed %" PRIu64 " waiting_lost %" PRIu64 " erased_lost %" PRIu64, info.missed, info.waiting_lost, info.erased_lost);
    printf(" handed %" PRIu64 " handed_lost %" PRIu64 "\n", info.handed, info.handed_lost);
}

int main(void) {
    r10_region region = {memory, 64};
    r10_civil civil = {2024, 2, 29, 12, 34, 56, 78}, later = {2024, 2, 29, 12, 34, 57, 0}, earlier = {2024, 2, 29, 12, 34, 56, 77},
              none = {2024, 2, 30, 0, 0, 0, 0};
    const uint16_t one_channel[1] = {5};
    size_t moved = 9, taken = 9, left = 9, files = 9, cursor = 9, second = 9, queued = 9, number = 9, got = 9;
    r10_status_info info;
    uint64_t count = 9;
    bool there = true;
    r10_entry entry;
    r10_file_info file;
    r10_order_info order;
    r10_run_info run;
    r10_queue_info queue;
    r10_channel_info channel;
    r10_account_info account;
    r10_losses_info losses;
    uint8_t name[56];
    r10_region small = {memory, 63};

    add_channels(script, sizeof script, "capacity = 2\nbytes = 4096\nnumber = 100\n");
    say("version", r10_version());
    say("commit, closed", r10_commit(&recorder));
    say("pump, closed", r10_pump(&recorder, 3, 9, &moved));
    printf("  moved %zu\n", moved);
    say("lost, closed", r10_lost(&recorder, 3, 1));
    say("account, closed", r10_account(&recorder, 0, &account));
    say("orders, closed", r10_orders(&recorder, &run, bytes, sizeof bytes));
    r10_close(&recorder);
    say("format, another size", r10_format(small, 64, script, strlen(script), &recorder));
    say("format, no script", r10_format(region, 64, "blocks", 6, &recorder));
    is_open = true;
    say_sure("format", r10_format(region, 64, script, strlen(script), &recorder));
    say("format, open", r10_format(region, 64, script, strlen(script), &recorder));
    say("open, open", r10_open(region, 64, script, strlen(script), &recorder));
    r10_close(&recorder);
    is_open = false;
    say("open, another size", r10_open(small, 64, script, strlen(script), &recorder));
    is_open = true;
    say("open", r10_open(region, 1, script, strlen(script), &recorder));
    status();
    say("order, no room", r10_order(&recorder, &order, bytes, 511));
    say("orders, no room", r10_orders(&recorder, &run, bytes, 511));
    say_sure("commit", r10_commit(&recorder));
    say("mount", r10_mount(&recorder));
    say("mount", r10_mount(&recorder));
    say("tick, no such date", r10_tick(&recorder, 1000, &none));
    say("tick", r10_tick(&recorder, 1000, &civil));
    say("start, no name", r10_start(&recorder, "", 0, "ABCD", 4));
    say_sure("start", r10_start(&recorder, "FLT1", 4, "ABCD", 4));
    for (size_t n = 0; n < KINDS; n++)
        kinds[n].call(&recorder, say);
    say("channel of ID 6", r10_channel_of(&recorder, 6, &channel));
    printf("  %u waiting %zu\n", channel.channel, channel.waiting);
    say("channel of ID 8", r10_channel_of(&recorder, 8, &channel));
    say("offer to another channel", r10_offer_discrete(&recorder, 8, 1009, 0));
    for (size_t place = 0; place <= KINDS; place++) {
        uint32_t answer = r10_channel(&recorder, place, &channel);
        say("channel", answer);
        if (answer == R10_OK)
            printf("  %u waiting %zu lost %" PRIu64 " erased %" PRIu64 "\n", channel.channel, channel.waiting, channel.lost, channel.erased);
    }
    for (size_t n = 0; n < KINDS; n++) {
        say("pump", r10_pump(&recorder, kinds[n].id, 9, &moved));
        printf("  moved %zu\n", moved);
    }
    say("offer uart", r10_offer_uart(&recorder, 3, 1010, false, 0, "four", 4));
    say("event", r10_event(&recorder, 4095, 1011));
    say("event, 4096", r10_event(&recorder, 4096, 1012));
    say_sure("commit", r10_commit(&recorder));
    say("cursor", r10_cursor(&recorder, 0, NULL, 0, 0, ((uint64_t)1 << 48) - 1, &cursor));
    say("cursor", r10_cursor(&recorder, 0, one_channel, 1, 1005, 1005, &second));
    printf("  %zu and %zu\n", cursor, second);
    say("advance", r10_advance(&recorder, cursor, &queued));
    printf("  queued %zu\n", queued);
    say("advance", r10_advance(&recorder, cursor, &queued));
    say("next, no room", r10_next(&recorder, cursor, &there, &entry, bytes, 100, words, 36));
    do {
        say("next", r10_next(&recorder, cursor, &there, &entry, bytes, sizeof bytes, words, 36));
        if (there)
            show(&entry);
    } while (there);
    say("advance", r10_advance(&recorder, second, &queued));
    say("next", r10_next(&recorder, second, &there, &entry, bytes, sizeof bytes, words, 36));
    show(&entry);
    say("close cursor", r10_close_cursor(&recorder, second));
    say("close cursor", r10_close_cursor(&recorder, second));
    say("find", r10_find(&recorder, 0, 3, 1002, &there, &number, &entry, bytes, sizeof bytes, words, 36));
    printf("  there %d number %zu\n", there, number);
    show(&entry);
    say("find", r10_find(&recorder, 0, 3, 1003, &there, &number, &entry, bytes, sizeof bytes, words, 36));
    printf("  there %d\n", there);
    say("count at", r10_count_at(&recorder, 0, &later, &there, &count));
    printf("  there %d count %" PRIu64 "\n", there, count);
    say("count at", r10_count_at(&recorder, 0, &earlier, &there, &count));
    printf("  there %d\n", there);
    status();
    say_sure("erase", r10_erase(&recorder));
    say_sure("stop", r10_stop(&recorder, &taken, &left));
    printf("  taken %zu left %zu\n", taken, left);
    say("seal", r10_seal(&recorder));
    say("files", r10_files(&recorder, &files));
    printf("  %zu\n", files);
    say("file", r10_file(&recorder, 0, &file, name, sizeof name));
    printf("  %.*s size %" PRIu64 " blocks %" PRIu64 " closed %d\n", (int)file.name_length, (const char *)name, file.size, file.blocks, file.closed);
    say("file", r10_file(&recorder, 1, &file, name, sizeof name));
    say("first block", r10_first_block(&recorder, 2, 0, &count));
    printf("  %" PRIu64 "\n", count);
    say("first block, no file", r10_first_block(&recorder, 2, 1, &count));
    memset(bytes, 'x', sizeof bytes);
    say("shown", r10_shown(&recorder, region, 2, 0, 0, bytes, 8, &got));
    printf("  %zu bytes: %02x%02x channel %02x%02x, then %c\n", got, bytes[0], bytes[1], bytes[3], bytes[2], bytes[8]);
    memset(bytes, 'x', sizeof bytes);
    say("shown, the last 3", r10_shown(&recorder, region, 2, 0, file.size - 3, bytes, sizeof bytes, &got));
    printf("  %zu bytes, as in the region %d, then %c\n", got, memcmp(bytes, memory + 512 * 3 + file.size - 3, 3) == 0, bytes[3]);
    say("shown, behind all", r10_shown(&recorder, region, 2, 0, file.size, bytes, sizeof bytes, &got));
    printf("  %zu bytes\n", got);
    say("shown, no file", r10_shown(&recorder, region, 2, 1, 0, bytes, sizeof bytes, &got));
    say("cursor", r10_cursor(&recorder, 0, NULL, 0, 1010, 1010, &second));
    say("advance", r10_advance(&recorder, second, &queued));
    say("next, behind a loss", r10_next(&recorder, second, &there, &entry, bytes, sizeof bytes, words, 36));
    show(&entry);
    say("close cursor", r10_close_cursor(&recorder, second));
    say_sure("erase", r10_erase(&recorder));
    say("advance", r10_advance(&recorder, cursor, &queued));
    status();
    say("dismount", r10_dismount(&recorder));
    say("files", r10_files(&recorder, &files));
    say("mount", r10_mount(&recorder));
    say("start", r10_start(&recorder, "FLT2", 4, "", 0));
    say("lost", r10_lost(&recorder, 3, 38));
    say("lost", r10_lost(&recorder, 3, 2));
    say("lost, none", r10_lost(&recorder, 3, 0));
    say("lost, no channel", r10_lost(&recorder, 8, 1));
    say("offer uart", r10_offer_uart(&recorder, 3, 1015, false, 0, "known", 5));
    say("pump", r10_pump(&recorder, 3, 1, &moved));
    say_sure("commit", r10_commit(&recorder));
    say("cursor", r10_cursor(&recorder, 0, NULL, 0, 1015, 1015, &second));
    say("advance", r10_advance(&recorder, second, &queued));
    say("next, after losses outside", r10_next(&recorder, second, &there, &entry, bytes, sizeof bytes, words, 36));
    show(&entry);
    say("close cursor", r10_close_cursor(&recorder, second));
    say("channel", r10_channel(&recorder, 0, &channel));
    printf("  %u waiting %zu lost %" PRIu64 " erased %" PRIu64 "\n", channel.channel, channel.waiting, channel.lost, channel.erased);
    say("offer uart", r10_offer_uart(&recorder, 3, 1020, false, 0, "five", 4));
    say("pump", r10_pump(&recorder, 3, 1, &moved));
    say("disk failed", r10_disk_failed(&recorder));
    is_open = false;
    say("commit", r10_commit(&recorder));
    say("commit", r10_commit(&recorder));
    status();
    for (size_t place = 0; place <= KINDS; place++) {
        uint32_t answer = r10_account(&recorder, place, &account);
        say("account", answer);
        if (answer == R10_OK)
            printf("  %u accepted %" PRIu64 " erased %" PRIu64, account.channel, account.accepted, account.erased);
        if (answer == R10_OK)
            printf(" lost %" PRIu64 " waiting %zu\n", account.lost, account.waiting);
    }
    say("account of ID 7", r10_account_of(&recorder, 7, &account));
    printf("  %u accepted %" PRIu64 "\n", account.channel, account.accepted);
    say("account of ID 8", r10_account_of(&recorder, 8, &account));
    /* a failed recorder's lanes still take messages, and give them to the next recorder */
    say("losses, no channel", r10_losses(&recorder, KINDS, &losses));
    say("take waiting, no channel", r10_take_waiting(&recorder, 8, &there, &entry));
    say("offer uart", r10_offer_uart(&recorder, 3, 1030, true, 9, "wait", 4));
    say("lost", r10_lost(&recorder, 3, 2));
    losses_of_3();
    say("offer uart", r10_offer_uart(&recorder, 3, 1040, false, 0, "next", 4));
    losses_of_3();
    for (there = true; there;) {
        say("take waiting", r10_take_waiting(&recorder, 3, &there, &entry));
        if (!there)
            break;
        say("taken", r10_taken(&recorder, bytes, sizeof bytes, words, 36));
        show(&entry);
        losses_of_3();
    }
    say("taken, none", r10_taken(&recorder, bytes, sizeof bytes, words, 36));
    say("account of ID 3", r10_account_of(&recorder, 3, &account));
    say("losses of ID 3", r10_losses_of(&recorder, 3, &losses));
    memset(&account, 0, sizeof account);
    memset(&losses, 0, sizeof losses);
    account.accepted = 100;
    account.erased = 10;
    account.lost = 50;
    losses.missed = 4;
    losses.erased_lost = 5;
    losses.handed = 3;
    losses.handed_lost = 2;
    printf("untold %" PRIu64 " %" PRIu64 "\n", r10_untold(&account, &losses, 60, 30), r10_untold(&account, &losses, 200, 30));
    say("queue", r10_queue(&recorder, &queue));
    printf("  waiting %zu\n", queue.waiting);
    r10_close(&recorder);
    printf("closed %d\n", recorder.held == NULL && !recorder.open);
    say("status, closed", r10_status(&recorder, &info));
    for (uint32_t which = 0; which < 50; which++)
        if (strcmp(r10_strerror(which), r10_strerror(99)) != 0)
            printf("%u %s\n", which, r10_strerror(which));
    return 0;
}
