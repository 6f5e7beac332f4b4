/* What refusals say, of scripts, directories, files and null pointers. Prints what is answered. */
#include <inttypes.h>
#include <stdio.h>
#include <string.h>

#include "expect.h"
#include "kinds.h"
#include "r10.h"

#define CHANNEL "[[channel]]\nid = 3\nkind = \"uart\"\ncapacity = 8\ncheck = 16\nbytes = 4096\nnumber = 100\n"
#define REST "nodes = 100\ntime = 1\nevent = 2\n"
#define TOP "blocks = 64\ndirectory = 2\nvolume = \"VOL\"\n" REST

static const char script[] = TOP CHANNEL;
static unsigned char memory[64 * 512];
static r10 recorder;

/* ---- scripts */

static void check(const char *what, const char *text, size_t room) {
    r10_script_info info = {9, 9, 9, 9, 9};
    char said[200];
    memset(said, '#', sizeof said);
    uint32_t answer = r10_check_script(text, strlen(text), &info, said, room);
    printf("%s: %u, blocks %zu directory %zu channels %zu", what, answer, info.blocks, info.directory, info.channels);
    printf(" line %zu length %zu\n", info.line, info.length);
    size_t got = info.length < room ? info.length : room;
    if (answer == R10_SCRIPT && got > 0)
        printf("  %.*s\n", (int)got, said);
    for (size_t place = answer == R10_SCRIPT ? got : 0; place < sizeof said; place++)
        if (said[place] != '#') {
            printf("  byte %zu was written\n", place);
            break;
        }
}

/* A volume has 32 letters at most. A script with one more is none, and no directory is written. */
static void volumes(void) {
    static const char most[] = "VVVVVVVVVVVVVVVVVVVVVVVVVVVVVVVV";
    for (int more = 0; more < 2; more++) {
        char text[400];
        const char *last = more ? "V" : "";
        snprintf(text, sizeof text, "blocks = 64\ndirectory = 2\nvolume = \"%s%s\"\n" REST CHANNEL, most, last);
        memset(memory, 0x55, sizeof memory);
        check(more ? "a volume of 33 letters" : "a volume of 32 letters", text, 200);
        uint32_t answer = r10_format((r10_region){memory, 64}, 64, text, strlen(text), &recorder);
        printf("  format: %u, block 1 begins with %02x, byte 47 is %02x\n", answer, memory[512], memory[512 + 47]);
        r10_close(&recorder);
    }
}

static void scripts(void) {
    check("a script", script, 200);
    check("a script, no room", script, 0);
    check("nothing", "", 200);
    check("no TOML", TOP CHANNEL "number = = 4\n", 200);
    check("a key is missing", TOP "[[channel]]\nid = 3\nkind = \"uart\"\ncheck = 16\nbytes = 4096\nnumber = 100\n", 200);
    check("a wrong value", "blocks = 64\ndirectory = 2\nvolume = \"VOL\"\nnodes = 0\ntime = 1\nevent = 2\n" CHANNEL, 200);
    check("an unknown key", TOP CHANNEL "colour = 1\n", 200);
    check("no channel", TOP, 200);
    check("room for 10 bytes", TOP CHANNEL "colour = 1\n", 10);
    check("no room", TOP CHANNEL "colour = 1\n", 0);
    volumes();
}

/* ---- directories and files */

static void open_again(void) {
    r10_close(&recorder);
    expect("open", r10_open((r10_region){memory, 64}, 64, script, strlen(script), &recorder), R10_OK);
}

static void show(const char *what, uint32_t number) {
    r10_fault_info fault = {9, 9, 9, 9};
    uint32_t answer = r10_fault(&recorder, &fault);
    printf("%s: %u; fault %u: number %u at %" PRIu64, what, number, answer, fault.number, fault.at);
    printf(" fault %u %s rule %u\n", fault.fault, r10_fault_name(fault.fault), fault.rule);
}

static void faults(void) {
    const r10_civil civil = {2024, 2, 29, 12, 34, 56, 78};
    size_t moved, cursor;
    r10_entry entry;
    uint8_t bytes[65535];
    uint16_t words[36];
    bool there;
    size_t place;
    uint64_t count;
    expect("format", r10_format((r10_region){memory, 64}, 64, script, strlen(script), &recorder), R10_OK);
    show("commit", r10_commit(&recorder));
    expect("mount", r10_mount(&recorder), R10_OK);
    expect("tick", r10_tick(&recorder, 1000, &civil), R10_OK);
    expect("start", r10_start(&recorder, "FLT1", 4, "ABCD", 4), R10_OK);
    for (unsigned n = 0; n < 8; n++)
        expect("offer", r10_offer_uart(&recorder, 3, 1001 + n, false, 0, "ABCDEFGH", 8), R10_OK);
    expect("pump", r10_pump(&recorder, 3, 8, &moved), R10_OK);
    expect("commit", r10_commit(&recorder), R10_OK);
    open_again();
    /* the first packet's sync pattern, in the file's first block */
    memory[3 * 512] ^= 1;
    expect("mount", r10_mount(&recorder), R10_OK);
    show("nothing yet", 0);
    show("seal", r10_seal(&recorder));
    show("status leaves it", r10_dismount(&recorder));
    memory[3 * 512] ^= 1;
    /* a byte of the third packet's body, which has a checksum: the first message */
    memory[3 * 512 + 68 + 40] ^= 1;
    open_again();
    expect("mount", r10_mount(&recorder), R10_OK);
    show("seal", r10_seal(&recorder));
    show("cursor", r10_cursor(&recorder, 0, NULL, 0, 0, 2000, &cursor));
    show("find", r10_find(&recorder, 0, 3, 0, &there, &place, &entry, bytes, sizeof bytes, words, 36));
    show("count at", r10_count_at(&recorder, 0, &civil, &there, &count));
    memory[3 * 512 + 68 + 40] ^= 1;
    expect("seal", r10_seal(&recorder), R10_OK);
    show("what was, stays", 0);
    open_again();
    memset(memory + 512, 0, 512);
    show("mount", r10_mount(&recorder));
    r10_close(&recorder);
    r10_fault_info fault = {9, 9, 9, 9};
    expect("fault, closed", r10_fault(&recorder, &fault), R10_CLOSED);
    if (fault.number != 9 || fault.at != 9)
        printf("a closed recorder's fault was written\n");
}

/* ---- null pointers */

static void nulls(void) {
    r10_region region = {memory, 64};
    r10_civil civil = {2024, 2, 29, 12, 34, 56, 78};
    r10_order_info order;
    r10_run_info run;
    r10_queue_info queue;
    r10_file_info file;
    r10_status_info status;
    r10_channel_info channel;
    r10_fault_info fault;
    r10_script_info told;
    r10_entry entry, message = {.length = 1};
    r10_account_info account;
    r10_losses_info losses;
    uint64_t counted;
    r10_parts parts = {0, 10, 0};
    r10_port port = {0};
    r10_outlet outlet = {0};
    r10_port_info state;
    size_t size = 0, other = 0;
    uint64_t count;
    bool there;
    uint8_t bytes[600];
    uint16_t words[36] = {0};
    char before[sizeof memory];
    /* no recorder */
    expect("format", r10_format(region, 64, script, strlen(script), NULL), R10_CLOSED);
    expect("open", r10_open(region, 64, script, strlen(script), NULL), R10_CLOSED);
    expect("set_aside", r10_set_aside(region, 64, script, strlen(script), NULL, &there), R10_CLOSED);
    expect("orders", r10_orders(NULL, &run, bytes, 600), R10_CLOSED);
    expect("order", r10_order(NULL, &order, bytes, 600), R10_CLOSED);
    expect("queue", r10_queue(NULL, &queue), R10_CLOSED);
    expect("disk_failed", r10_disk_failed(NULL), R10_CLOSED);
    r10_close(NULL);
    expect("mount", r10_mount(NULL), R10_CLOSED);
    expect("dismount", r10_dismount(NULL), R10_CLOSED);
    expect("tick", r10_tick(NULL, 1, &civil), R10_CLOSED);
    expect("start", r10_start(NULL, "A", 1, "", 0), R10_CLOSED);
    expect("pump", r10_pump(NULL, 3, 1, &size), R10_CLOSED);
    expect("event", r10_event(NULL, 1, 1), R10_CLOSED);
    expect("commit", r10_commit(NULL), R10_CLOSED);
    expect("stop", r10_stop(NULL, &size, &other), R10_CLOSED);
    expect("seal", r10_seal(NULL), R10_CLOSED);
    expect("erase", r10_erase(NULL), R10_CLOSED);
    for (size_t n = 0; n < KINDS; n++) {
        expect(kinds[n].name, kinds[n].offer(NULL, 3, 1, &message, words), R10_CLOSED);
        expect(kinds[n].name, kinds[n].offer_at(NULL, 1, &message, words), R10_CLOSED);
    }
    expect("lost", r10_lost(NULL, 3, 1), R10_CLOSED);
    expect("port_open", r10_port_open(script, strlen(script), 3, NULL, &outlet), R10_CLOSED);
    expect("port_open", r10_port_open(script, strlen(script), 3, &port, NULL), R10_CLOSED);
    expect("port_lost", r10_port_lost(NULL, 1), R10_CLOSED);
    expect("port_state", r10_port_state(NULL, &state), R10_CLOSED);
    r10_port_close(NULL);
    r10_outlet_close(NULL);
    expect("account_of", r10_account_of(NULL, 5, &account), R10_CLOSED);
    expect("losses", r10_losses(NULL, 0, &losses), R10_CLOSED);
    expect("losses_of", r10_losses_of(NULL, 5, &losses), R10_CLOSED);
    expect("take_waiting", r10_take_waiting(NULL, 5, &there, &entry), R10_CLOSED);
    expect("found", r10_found(NULL, 0, 5, &counted, &counted), R10_CLOSED);
    expect("carry_one", r10_carry_one(NULL, &outlet, &there), R10_CLOSED);
    expect("carry_one", r10_carry_one(&recorder, NULL, &there), R10_CLOSED);
    expect("carry", r10_carry(NULL, &outlet, 1, &size), R10_CLOSED);
    expect("carry", r10_carry(&recorder, NULL, 1, &size), R10_CLOSED);
    expect("files", r10_files(NULL, &size), R10_CLOSED);
    expect("file", r10_file(NULL, 0, &file, bytes, 56), R10_CLOSED);
    expect("status", r10_status(NULL, &status), R10_CLOSED);
    expect("fault", r10_fault(NULL, &fault), R10_CLOSED);
    expect("channel", r10_channel(NULL, 0, &channel), R10_CLOSED);
    expect("cursor", r10_cursor(NULL, 0, NULL, 0, 0, 1, &size), R10_CLOSED);
    expect("advance", r10_advance(NULL, 0, &size), R10_CLOSED);
    expect("next", r10_next(NULL, 0, &there, &entry, bytes, 600, words, 36), R10_CLOSED);
    expect("take", r10_take(NULL, 0, &there, &entry), R10_CLOSED);
    expect("taken", r10_taken(NULL, bytes, 600, words, 36), R10_CLOSED);
    expect("close_cursor", r10_close_cursor(NULL, 0), R10_CLOSED);
    expect("find", r10_find(NULL, 0, 3, 1, &there, &size, &entry, bytes, 600, words, 36), R10_CLOSED);
    expect("count_at", r10_count_at(NULL, 0, &civil, &there, &count), R10_CLOSED);
    expect("first_block", r10_first_block(NULL, 2, 0, &count), R10_CLOSED);
    expect("shown", r10_shown(NULL, region, 2, 0, 0, bytes, 600, &size), R10_CLOSED);
    expect("channel_of", r10_channel_of(NULL, 3, &channel), R10_CLOSED);
    expect("part", r10_part(NULL, &parts, 0, NULL, 0, 1, &there, &size, &other), R10_CLOSED);
    /* nowhere to put it, or nothing to take it from */
    expect("check_script", r10_check_script(NULL, 4, &told, bytes, 600), R10_ROOM);
    expect("check_script", r10_check_script(script, 4, NULL, bytes, 600), R10_ROOM);
    expect("check_script", r10_check_script(script, 4, &told, NULL, 600), R10_ROOM);
    expect("open", r10_open(region, 64, NULL, 4, &recorder), R10_ROOM);
    expect("open", r10_open((r10_region){NULL, 64}, 64, script, strlen(script), &recorder), R10_ROOM);
    expect("set_aside", r10_set_aside(region, 64, NULL, 4, &recorder, &there), R10_ROOM);
    expect("set_aside", r10_set_aside((r10_region){NULL, 64}, 64, script, strlen(script), &recorder, &there), R10_ROOM);
    expect("set_aside", r10_set_aside(region, 64, script, strlen(script), &recorder, NULL), R10_ROOM);
    expect("format", r10_format(region, 64, NULL, 4, &recorder), R10_ROOM);
    expect("format", r10_format((r10_region){NULL, 64}, 64, script, strlen(script), &recorder), R10_ROOM);
    expect("format", r10_format(region, 64, script, strlen(script), &recorder), R10_OK);
    expect("mount", r10_mount(&recorder), R10_OK);
    memcpy(before, memory, sizeof memory);
    expect("orders", r10_orders(&recorder, NULL, bytes, 600), R10_ROOM);
    expect("orders", r10_orders(&recorder, &run, NULL, 600), R10_ROOM);
    expect("order", r10_order(&recorder, NULL, bytes, 600), R10_ROOM);
    expect("order", r10_order(&recorder, &order, NULL, 600), R10_ROOM);
    expect("queue", r10_queue(&recorder, NULL), R10_ROOM);
    expect("tick", r10_tick(&recorder, 1, NULL), R10_ROOM);
    expect("start", r10_start(&recorder, NULL, 1, "", 0), R10_ROOM);
    expect("start", r10_start(&recorder, "A", 1, NULL, 1), R10_ROOM);
    expect("pump", r10_pump(&recorder, 3, 1, NULL), R10_ROOM);
    expect("stop", r10_stop(&recorder, NULL, &other), R10_ROOM);
    expect("stop", r10_stop(&recorder, &size, NULL), R10_ROOM);
    expect("port_open", r10_port_open(NULL, 4, 3, &port, &outlet), R10_ROOM);
    expect("port_open", r10_port_open(script, strlen(script), 3, &port, &outlet), R10_OK);
    for (size_t n = 0; n < KINDS; n++)
        if (kinds[n].lent != NOTHING_LENT) {
            expect(kinds[n].name, kinds[n].offer(&recorder, 3, 1, &message, NULL), R10_ROOM);
            expect(kinds[n].name, kinds[n].offer_at(&port, 1, &message, NULL), R10_ROOM);
        }
    expect("port_state", r10_port_state(&port, NULL), R10_ROOM);
    expect("account_of", r10_account_of(&recorder, 5, NULL), R10_ROOM);
    expect("losses", r10_losses(&recorder, 0, NULL), R10_ROOM);
    expect("losses_of", r10_losses_of(&recorder, 5, NULL), R10_ROOM);
    expect("take_waiting", r10_take_waiting(&recorder, 5, NULL, &entry), R10_ROOM);
    expect("take_waiting", r10_take_waiting(&recorder, 5, &there, NULL), R10_ROOM);
    expect("found", r10_found(&recorder, 0, 5, NULL, &counted), R10_ROOM);
    expect("found", r10_found(&recorder, 0, 5, &counted, NULL), R10_ROOM);
    expect("untold", (uint32_t)r10_untold(NULL, &losses, 0, 0), 0);
    expect("carry_one", r10_carry_one(&recorder, &outlet, NULL), R10_ROOM);
    expect("carry", r10_carry(&recorder, &outlet, 1, NULL), R10_ROOM);
    expect("port_state", r10_port_state(&port, &state), R10_OK);
    if (state.accepted != 0 || state.lost != 0)
        printf("a port counted what it was not offered\n");
    r10_port_close(&port);
    r10_outlet_close(&outlet);
    expect("files", r10_files(&recorder, NULL), R10_ROOM);
    expect("file", r10_file(&recorder, 0, NULL, bytes, 56), R10_ROOM);
    expect("file", r10_file(&recorder, 0, &file, NULL, 56), R10_ROOM);
    expect("status", r10_status(&recorder, NULL), R10_ROOM);
    expect("fault", r10_fault(&recorder, NULL), R10_ROOM);
    expect("channel", r10_channel(&recorder, 0, NULL), R10_ROOM);
    expect("cursor", r10_cursor(&recorder, 0, NULL, 1, 0, 1, &size), R10_ROOM);
    expect("cursor", r10_cursor(&recorder, 0, NULL, 0, 0, 1, NULL), R10_ROOM);
    expect("advance", r10_advance(&recorder, 0, NULL), R10_ROOM);
    expect("next", r10_next(&recorder, 0, NULL, &entry, bytes, 600, words, 36), R10_ROOM);
    expect("next", r10_next(&recorder, 0, &there, NULL, bytes, 600, words, 36), R10_ROOM);
    expect("next", r10_next(&recorder, 0, &there, &entry, NULL, 65535, words, 36), R10_ROOM);
    expect("next", r10_next(&recorder, 0, &there, &entry, bytes, 600, NULL, 36), R10_ROOM);
    expect("take", r10_take(&recorder, 0, NULL, &entry), R10_ROOM);
    expect("take", r10_take(&recorder, 0, &there, NULL), R10_ROOM);
    expect("taken", r10_taken(&recorder, NULL, 600, words, 36), R10_ROOM);
    expect("taken", r10_taken(&recorder, bytes, 600, NULL, 36), R10_ROOM);
    expect("find", r10_find(&recorder, 0, 3, 1, NULL, &size, &entry, bytes, 600, words, 36), R10_ROOM);
    expect("find", r10_find(&recorder, 0, 3, 1, &there, NULL, &entry, bytes, 600, words, 36), R10_ROOM);
    expect("find", r10_find(&recorder, 0, 3, 1, &there, &size, NULL, bytes, 600, words, 36), R10_ROOM);
    expect("count_at", r10_count_at(&recorder, 0, NULL, &there, &count), R10_ROOM);
    expect("count_at", r10_count_at(&recorder, 0, &civil, NULL, &count), R10_ROOM);
    expect("count_at", r10_count_at(&recorder, 0, &civil, &there, NULL), R10_ROOM);
    expect("first_block", r10_first_block(&recorder, 2, 0, NULL), R10_ROOM);
    expect("shown", r10_shown(&recorder, region, 2, 0, 0, bytes, 600, NULL), R10_ROOM);
    expect("shown", r10_shown(&recorder, (r10_region){NULL, 64}, 2, 0, 0, bytes, 600, &size), R10_ROOM);
    expect("shown", r10_shown(&recorder, region, 2, 0, 0, NULL, 600, &size), R10_ROOM);
    expect("channel_of", r10_channel_of(&recorder, 3, NULL), R10_ROOM);
    expect("part", r10_part(&recorder, NULL, 0, NULL, 0, 1, &there, &size, &other), R10_ROOM);
    expect("part", r10_part(&recorder, &parts, 0, NULL, 0, 1, NULL, &size, &other), R10_ROOM);
    expect("part", r10_part(&recorder, &parts, 0, NULL, 0, 1, &there, NULL, &other), R10_ROOM);
    expect("part", r10_part(&recorder, &parts, 0, NULL, 0, 1, &there, &size, NULL), R10_ROOM);
    expect("status", r10_status(&recorder, &status), R10_OK);
    if (status.mode != R10_MODE_IDLE || status.ticked || memcmp(before, memory, sizeof memory) != 0)
        printf("a call that was refused changed something\n");
    r10_close(&recorder);
}

int main(void) {
    scripts();
    faults();
    nulls();
    printf("null pointers: %s\n", is_wrong ? "something else was answered" : "each call answers 44, or 42 for what is lent");
    return is_wrong;
}
