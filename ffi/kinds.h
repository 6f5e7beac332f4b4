/* The kinds of channels, as the programs here try them. What depends on a kind alone stands here, and each program goes over all.
 * A kind is a row of the table below: one that lacks a part does not compile.
 *
 * A message has its fields in an r10_entry. Its bytes or words are lent beside it. */
#ifndef KINDS_H
#define KINDS_H

#include <inttypes.h>
#include <stdio.h>
#include <string.h>

#include "r10.h"

/* What is lent beside a message's fields, by the size of each. */
enum { NOTHING_LENT = 0, BYTES_LENT = 1, WORDS_LENT = 2 };

/* No channel has this ID. */
enum { NO_CHANNEL = 8 };

typedef struct kind {
    uint8_t number; /* in an r10_entry */
    uint8_t lent;
    uint16_t id;          /* of its channel */
    const char *name;     /* in a script */
    const char *settings; /* of its channel alone */
    const char *limits;   /* of its channel in random.c */
    uint32_t (*offer)(r10 *recorder, uint16_t channel, uint64_t count, const r10_entry *it, const void *lent);
    uint32_t (*offer_at)(r10_port *port, uint64_t count, const r10_entry *it, const void *lent);
    void (*call)(r10 *recorder, void (*say)(const char *what, uint32_t number)); /* offers whose fields can be told apart */
    void (*draw)(r10_entry *it, uint64_t (*below)(uint64_t most));               /* fields by chance, also beyond their ranges */
    void (*keys)(FILE *to, const r10_entry *it);                                 /* fields as a script has them */
    void (*print)(FILE *to, const r10_entry *it);                                /* fields as `r10 play` prints them */
    void (*show)(const r10_entry *it);                                           /* fields with their names */
} kind;

static inline const char *in_words(bool it) { return it ? "true" : "false"; }

/* ---- a serial line */

static uint32_t uart_offer(r10 *recorder, uint16_t channel, uint64_t count, const r10_entry *it, const void *lent) {
    return r10_offer_uart(recorder, channel, count, it->parity, it->sub, lent, it->length);
}

static uint32_t uart_offer_at(r10_port *port, uint64_t count, const r10_entry *it, const void *lent) {
    return r10_port_uart(port, count, it->parity, it->sub, lent, it->length);
}

static void uart_call(r10 *recorder, void (*say)(const char *what, uint32_t number)) {
    say("offer uart", r10_offer_uart(recorder, 3, 1001, true, 16383, "one", 3));
    say("offer uart", r10_offer_uart(recorder, 3, 1002, false, 2, "", 0));
    say("offer uart", r10_offer_uart(recorder, 3, 1003, false, 3, "three", 5));
}

/* (of a message channel too) */
static void bytes_draw(r10_entry *it, uint64_t (*below)(uint64_t most)) {
    it->parity = it->data_error = below(2) != 0;
    it->format = below(2) != 0;
    it->sub = (uint16_t)(below(20) == 0 ? 16384 : below(16384));
    it->length = (size_t)(below(15) == 0 ? below(70000) : below(300));
}

static void uart_keys(FILE *to, const r10_entry *it) { fprintf(to, "sub = %u\nparity = %s\n", it->sub, in_words(it->parity)); }

static void uart_print(FILE *to, const r10_entry *it) { fprintf(to, "%d %u ", it->parity, it->sub); }

static void uart_show(const r10_entry *it) { printf(" parity %d sub %u", it->parity, it->sub); }

/* ---- MIL-STD-1553 */

static uint32_t bus_1553_offer(r10 *recorder, uint16_t channel, uint64_t count, const r10_entry *it, const void *lent) {
    return r10_offer_1553(recorder, channel, count, it->status, it->gap_times, (const uint16_t *)lent, it->length);
}

static uint32_t bus_1553_offer_at(r10_port *port, uint64_t count, const r10_entry *it, const void *lent) {
    return r10_port_1553(port, count, it->status, it->gap_times, (const uint16_t *)lent, it->length);
}

static void bus_1553_call(r10 *recorder, void (*say)(const char *what, uint32_t number)) {
    const uint16_t words[3] = {0x0821, 0xABCD, 0x0001};
    say("offer 1553", r10_offer_1553(recorder, 4, 1004, 0x2000, 0x1234, words, 3));
}

static void bus_1553_draw(r10_entry *it, uint64_t (*below)(uint64_t most)) {
    it->status = (uint16_t)(below(10) == 0 ? 1 : below(2) * 0x2000);
    it->gap_times = (uint16_t)below(65536);
    it->length = (size_t)below(38);
}

static void bus_1553_keys(FILE *to, const r10_entry *it) { fprintf(to, "status = %u\ngap = %u\n", it->status, it->gap_times); }

static void bus_1553_print(FILE *to, const r10_entry *it) { fprintf(to, "%04x %04x ", it->status, it->gap_times); }

static void bus_1553_show(const r10_entry *it) { printf(" status %04x gap times %04x", it->status, it->gap_times); }

/* ---- ARINC 429 */

static uint32_t arinc_offer(r10 *recorder, uint16_t channel, uint64_t count, const r10_entry *it, const void *lent) {
    (void)lent;
    return r10_offer_arinc(recorder, channel, count, it->bus, it->format, it->parity, it->high, it->word);
}

static uint32_t arinc_offer_at(r10_port *port, uint64_t count, const r10_entry *it, const void *lent) {
    (void)lent;
    return r10_port_arinc(port, count, it->bus, it->format, it->parity, it->high, it->word);
}

static void arinc_call(r10 *recorder, void (*say)(const char *what, uint32_t number)) {
    say("offer arinc", r10_offer_arinc(recorder, 5, 1005, 7, true, false, true, 0x89ABCDEF));
}

static void arinc_draw(r10_entry *it, uint64_t (*below)(uint64_t most)) {
    it->bus = (uint8_t)below(256);
    it->format = below(2) != 0;
    it->parity = below(2) != 0;
    it->high = below(2) != 0;
    it->word = (uint32_t)below(UINT64_C(1) << 32);
}

static void arinc_keys(FILE *to, const r10_entry *it) {
    fprintf(to, "bus = %u\nformat = %s\nparity = %s\n", it->bus, in_words(it->format), in_words(it->parity));
    fprintf(to, "high = %s\ndata = %" PRIu32 "\n", in_words(it->high), it->word);
}

static void arinc_print(FILE *to, const r10_entry *it) {
    fprintf(to, "%u %d %d %d ", it->bus, it->format, it->parity, it->high);
    fprintf(to, "%08" PRIx32, it->word);
}

static void arinc_show(const r10_entry *it) {
    printf(" bus %u format %d parity %d high %d", it->bus, it->format, it->parity, it->high);
    printf(": %08" PRIx32, it->word);
}

/* ---- discretes */

static uint32_t discrete_offer(r10 *recorder, uint16_t channel, uint64_t count, const r10_entry *it, const void *lent) {
    (void)lent;
    return r10_offer_discrete(recorder, channel, count, it->word);
}

static uint32_t discrete_offer_at(r10_port *port, uint64_t count, const r10_entry *it, const void *lent) {
    (void)lent;
    return r10_port_discrete(port, count, it->word);
}

static void discrete_call(r10 *recorder, void (*say)(const char *what, uint32_t number)) {
    say("offer discrete", r10_offer_discrete(recorder, 6, 1006, 0xA5A));
    say("offer discrete, 13 bits", r10_offer_discrete(recorder, 6, 1007, 0x1000));
}

static void discrete_draw(r10_entry *it, uint64_t (*below)(uint64_t most)) {
    uint64_t most = below(10) == 0 ? 8192 : 4096;
    it->word = (uint32_t)below(most);
}

static void discrete_keys(FILE *to, const r10_entry *it) { fprintf(to, "states = %" PRIu32 "\n", it->word); }

static void discrete_print(FILE *to, const r10_entry *it) { fprintf(to, "%08" PRIx32, it->word); }

static void discrete_show(const r10_entry *it) { printf(": %08" PRIx32, it->word); }

/* ---- any other source */

static uint32_t message_offer(r10 *recorder, uint16_t channel, uint64_t count, const r10_entry *it, const void *lent) {
    return r10_offer_message(recorder, channel, count, it->data_error, it->format, it->sub, lent, it->length);
}

static uint32_t message_offer_at(r10_port *port, uint64_t count, const r10_entry *it, const void *lent) {
    return r10_port_message(port, count, it->data_error, it->format, it->sub, lent, it->length);
}

static void message_call(r10 *recorder, void (*say)(const char *what, uint32_t number)) {
    say("offer message", r10_offer_message(recorder, 7, 1008, true, false, 77, "another", 7));
}

static void message_keys(FILE *to, const r10_entry *it) {
    fprintf(to, "sub = %u\ndata = %s\nformat = %s\n", it->sub, in_words(it->data_error), in_words(it->format));
}

static void message_print(FILE *to, const r10_entry *it) { fprintf(to, "%d %d %u ", it->data_error, it->format, it->sub); }

static void message_show(const r10_entry *it) {
    printf(" data error %d format %d", it->data_error, it->format);
    printf(" sub %u", it->sub);
}

/* ---- all of them */

/* clang-format off */
static const kind kinds[] = {
    {R10_UART, BYTES_LENT, 3, "uart", "check = 0\n", "capacity = 6\nbytes = 512\nnumber = 4\n",
     uart_offer, uart_offer_at, uart_call, bytes_draw, uart_keys, uart_print, uart_show},
    {R10_1553, WORDS_LENT, 4, "1553", "check = 8\n", "capacity = 4\nbytes = 4096\nnumber = 3\n",
     bus_1553_offer, bus_1553_offer_at, bus_1553_call, bus_1553_draw, bus_1553_keys, bus_1553_print, bus_1553_show},
    {R10_ARINC, NOTHING_LENT, 5, "arinc", "check = 16\n", "capacity = 9\nbytes = 1024\nnumber = 8\n",
     arinc_offer, arinc_offer_at, arinc_call, arinc_draw, arinc_keys, arinc_print, arinc_show},
    {R10_DISCRETE, NOTHING_LENT, 6, "discrete", "bits = 12\ncheck = 32\n", "capacity = 3\nbytes = 256\nnumber = 2\n",
     discrete_offer, discrete_offer_at, discrete_call, discrete_draw, discrete_keys, discrete_print, discrete_show},
    {R10_MESSAGE, BYTES_LENT, 7, "message", "check = 0\n", "capacity = 5\nbytes = 8192\nnumber = 100\n",
     message_offer, message_offer_at, message_call, bytes_draw, message_keys, message_print, message_show},
};
/* clang-format on */

enum { KINDS = sizeof kinds / sizeof *kinds };

/* Adds a channel of each kind to a script: with these limits, or those of each kind. */
static inline void add_channels(char *script, size_t room, const char *limits) {
    for (size_t n = 0; n < KINDS; n++) {
        const kind *it = &kinds[n];
        const char *its = limits ? limits : it->limits;
        size_t at = strlen(script);
        snprintf(script + at, room - at, "[[channel]]\nid = %u\nkind = \"%s\"\n%s%s", it->id, it->name, it->settings, its);
    }
}

/* The kind of an entry's number; none of a time and an event. */
static inline const kind *kind_of(uint8_t number) {
    for (size_t n = 0; n < KINDS; n++)
        if (kinds[n].number == number)
            return &kinds[n];
    return NULL;
}

#endif
