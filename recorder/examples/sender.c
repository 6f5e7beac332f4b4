/* Sends messages of a card to r10d as datagrams with a header (docs/RECORDER.md), with the times that the card gave them.
 *
 *     sender ADDRESS PORT [NUMBER]     so many messages, 10, of a MIL-STD-1553 channel 20 and an ARINC 429 channel 30
 *
 * What this program makes up, a card's program has from its card: the counter, the bus, the status. cc -O2 -o sender sender.c
 */
#define _POSIX_C_SOURCE 200809L
#include <arpa/inet.h>
#include <stdint.h>
#include <stdio.h>
#include <stdlib.h>
#include <string.h>
#include <sys/socket.h>
#include <time.h>
#include <unistd.h>

enum { HEADER = 32 };
enum what { MESSAGE, PAIR };
enum stamp { ARRIVAL, COUNTER, UNIX, PTP };

/* Puts a number of so many bytes, the low one first. */
static void put(uint8_t *to, uint64_t value, size_t count) {
    for (size_t n = 0; n < count; n++)
        to[n] = (uint8_t)(value >> 8 * n);
}

/* The 32 bytes before a message: what it is, what its stamp is a time of, its number on its channel, the stamp, the kind's words. */
static void header(uint8_t *to, enum what what, enum stamp stamp, uint32_t sequence, uint16_t channel, uint16_t sub, uint64_t at, uint32_t word, uint32_t of) {
    memcpy(to, "R10D", 4);
    to[4] = 1;
    to[5] = (uint8_t)what;
    to[6] = (uint8_t)stamp;
    to[7] = 0;
    put(to + 8, sequence, 4);
    put(to + 12, channel, 2);
    put(to + 14, sub, 2);
    put(to + 16, at, 8);
    put(to + 24, word, 4);
    put(to + 28, of, 4);
}

static uint64_t nanoseconds(clockid_t which) {
    struct timespec now;
    clock_gettime(which, &now);
    return (uint64_t)now.tv_sec * 1000000000u + (uint64_t)now.tv_nsec;
}

/* A card's counter of 48 bits, in units of 100 ns: here the machine's, from another start. */
static uint64_t counter(void) { return (nanoseconds(CLOCK_MONOTONIC) / 100 + 123456789) & 0xffffffffffff; }

int main(int count, char **words) {
    struct sockaddr_in to = {.sin_family = AF_INET};
    uint8_t bytes[HEADER + 8];
    if (count < 3 || inet_pton(AF_INET, words[1], &to.sin_addr) != 1) {
        fprintf(stderr, "sender ADDRESS PORT [NUMBER]\n");
        return 2;
    }
    to.sin_port = htons((uint16_t)atoi(words[2]));
    uint32_t number = count > 3 ? (uint32_t)atoi(words[3]) : 10;
    int it = socket(AF_INET, SOCK_DGRAM, 0);
    if (it < 0 || connect(it, (struct sockaddr *)&to, sizeof to) != 0) {
        perror("sender");
        return 1;
    }
    for (uint32_t n = 0; n < number; n++) {
        /* once a second the card's counter is tied to a time in UTC */
        if (n % 1000 == 0) {
            header(bytes, PAIR, COUNTER, 0, 0, 0, counter(), 0, UNIX);
            put(bytes + HEADER, nanoseconds(CLOCK_REALTIME), 8);
            send(it, bytes, HEADER + 8, 0);
        }
        /* a message on bus B (status 0x2000) with gap times 7: a command and its two data words */
        header(bytes, MESSAGE, COUNTER, n, 20, 0, counter(), 0x2000 | 7 << 16, 0);
        put(bytes + HEADER, 0x2842, 2);
        put(bytes + HEADER + 2, n, 4);
        send(it, bytes, HEADER + 6, 0);
        /* a word of bus 5 at high speed, stamped in UTC */
        header(bytes, MESSAGE, UNIX, n, 30, 0, nanoseconds(CLOCK_REALTIME), 5 | 1 << 8, 0);
        put(bytes + HEADER, n << 10 | 0xc1, 4);
        send(it, bytes, HEADER + 4, 0);
        struct timespec pause = {0, 1000000};
        nanosleep(&pause, NULL);
    }
    close(it);
    return 0;
}
