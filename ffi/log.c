/* Writes a log channel of its own: what the recorder lost, also after the last message, stands in the file in the lines that r10d
 * writes, and `ch10 summary` counts it.
 *
 *     log MEDIUM      records into memory, prints the lines of the log channel as a cursor gives them, and writes the medium down
 *
 * Status 0, or 1 where a call was refused, or a line is not what it is to be. */
#include <stdio.h>
#include <stdlib.h>
#include <string.h>

#include "r10.h"

enum { BLOCKS = 512, ROOM = 64, LINE = 5, LOG = 9, MESSAGES = 10, LOST = 3 };

static const char script[] = "blocks = 512\ndirectory = 3\nvolume = \"VOL\"\nnodes = 100\ntime = 1\nevent = 2\n"
                             "[[channel]]\nid = 5\nkind = \"uart\"\ncapacity = 64\ncheck = 0\nbytes = 4096\nnumber = 100\n"
                             "[[channel]]\nid = 9\nkind = \"message\"\ncapacity = 64\ncheck = 16\nbytes = 8192\nnumber = 100\n";
static const r10_civil civil = {2024, 2, 29, 12, 34, 56, 78};
static const uint64_t now = 1709210096780000000;

static unsigned char memory[BLOCKS * 512];
static r10 recorder;

static void must(const char *what, uint32_t number) {
    if (number != R10_OK) {
        printf("%s: %u, %s\n", what, number, r10_strerror(number));
        exit(1);
    }
}

static void is(const r10_log *line, const char *wanted) {
    if (line->is_full || line->length != strlen(wanted) || memcmp(line->text, wanted, line->length) != 0) {
        printf("%.*s\nwanted was\n%s\n", (int)line->length, line->text, wanted);
        exit(1);
    }
}

/* The form of lines: times at the ends of years and leap days, and values that want quotes. */
static void forms(void) {
    static char text[R10_LOG_ROOM + 1], cut[2 * R10_LOG_ROOM];
    r10_log line;
    r10_log_begin(&line, "x", 0);
    is(&line, "r10log x at=1970-01-01T00:00:00.000000Z");
    r10_log_begin(&line, "x", 951868799999999999);
    is(&line, "r10log x at=2000-02-29T23:59:59.999999Z");
    r10_log_begin(&line, "x", 4107542400000001500);
    is(&line, "r10log x at=2100-03-01T00:00:00.000001Z");
    r10_log_begin(&line, "x", 0);
    r10_log_text(&line, "why", "a \"b\" \\ \n");
    r10_log_text(&line, "none", "");
    r10_log_text(&line, "plain", "10.0.0.5:20005");
    r10_log_number(&line, "most", UINT64_MAX);
    is(&line, "r10log x at=1970-01-01T00:00:00.000000Z why=\"a \\\"b\\\" \\\\ \\u000a\" none=\"\" plain=10.0.0.5:20005 "
              "most=18446744073709551615");
    /* a letter of two bytes is not cut in two */
    memset(text, 'x', R10_LOG_VALUE + 10);
    memcpy(text + R10_LOG_VALUE - 1, "\xc3\xa9", 2);
    r10_log_begin(&line, "x", 0);
    r10_log_text(&line, "long", text);
    text[R10_LOG_VALUE - 1] = 0;
    snprintf(cut, sizeof cut, "r10log x at=1970-01-01T00:00:00.000000Z long=%s..", text);
    is(&line, cut);
    /* a key without room, and a line that is none */
    for (int key = 0; key < 5; key++)
        r10_log_text(&line, "long", text);
    uint32_t none = r10_log_offer(&recorder, LOG, 1000, NULL), nobody = r10_log_offer(NULL, LOG, 1000, &line);
    printf("too long %u, none %u, nobody %u\n", r10_log_offer(&recorder, LOG, 1000, &line), none, nobody);
}

/* What the service says when a file begins and ends. */
static void begin(uint64_t count) {
    r10_log line;
    r10_log_begin(&line, "start", now);
    r10_log_text(&line, "version", "example 1");
    r10_log_number(&line, "log", LOG);
    must("start", r10_log_offer(&recorder, LOG, count, &line));
    r10_log_begin(&line, "file", now);
    r10_log_number(&line, "number", 1);
    r10_log_text(&line, "name", "FLT1");
    r10_log_number(&line, "log", LOG);
    r10_log_text(&line, "sync", "no");
    r10_log_text(&line, "source", "a clock without GPS");
    r10_log_text(&line, "error_ns", "unknown");
    must("file", r10_log_offer(&recorder, LOG, count, &line));
}

static void end(uint64_t count) {
    r10_account_info account;
    must("account", r10_account_of(&recorder, LINE, &account));
    r10_log line;
    r10_log_begin(&line, "total", now + 1000000000);
    r10_log_number(&line, "file", 1);
    r10_log_text(&line, "name", "FLT1");
    r10_log_number(&line, "channel", LINE);
    r10_log_text(&line, "kind", "uart");
    r10_log_number(&line, "came", account.accepted + account.lost);
    r10_log_number(&line, "recorded", account.accepted);
    r10_log_number(&line, "lost", account.lost);
    r10_log_number(&line, "after", LOST);
    r10_log_number(&line, "waiting", 0);
    r10_log_number(&line, "carried", 0);
    r10_log_number(&line, "passed", 0);
    must("total", r10_log_offer(&recorder, LOG, count, &line));
}

int main(int count, char **words) {
    r10_region region = {memory, BLOCKS};
    if (count != 2)
        return 1;
    must("format", r10_format(region, ROOM, script, strlen(script), &recorder));
    forms();
    must("mount", r10_mount(&recorder));
    must("tick", r10_tick(&recorder, 1000, &civil));
    must("start", r10_start(&recorder, "FLT1", 4, "", 0));
    begin(1000);
    for (uint64_t number = 0; number < MESSAGES; number++) {
        if (number == 4)
            must("lost", r10_lost(&recorder, LINE, 2));
        must("offer", r10_offer_uart(&recorder, LINE, 1001 + number, false, 0, "message", 7));
    }
    /* nothing comes after these: no entry of the file has them */
    must("lost", r10_lost(&recorder, LINE, LOST));
    end(1100);
    size_t taken, left, cursor, queued;
    must("stop", r10_stop(&recorder, &taken, &left));
    uint16_t channel = LOG;
    must("cursor", r10_cursor(&recorder, 0, &channel, 1, 0, 2000, &cursor));
    must("advance", r10_advance(&recorder, cursor, &queued));
    for (; queued > 0; queued--) {
        static uint8_t bytes[65535];
        uint16_t none[36];
        r10_entry entry;
        bool there;
        must("next", r10_next(&recorder, cursor, &there, &entry, bytes, sizeof bytes, none, 36));
        if (there)
            printf("%.*s\n", (int)entry.length, (const char *)bytes);
    }
    FILE *to = fopen(words[1], "wb");
    return to != NULL && fwrite(memory, 1, sizeof memory, to) == sizeof memory && fclose(to) == 0 ? 0 : 1;
}
