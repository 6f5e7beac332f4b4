/* A burst: so many datagrams of 40 bytes as fast as they go, each with its number in eight bytes, the low one first.
 *
 *     burst ADDRESS PORT NUMBER     prints how long it took, in microseconds
 */
#define _GNU_SOURCE
#include <arpa/inet.h>
#include <stdint.h>
#include <stdio.h>
#include <stdlib.h>
#include <string.h>
#include <sys/socket.h>
#include <time.h>

enum { SIZE = 40, AT_ONCE = 1000 };

static int64_t now(void) {
    struct timespec it;
    clock_gettime(CLOCK_MONOTONIC, &it);
    return it.tv_sec * 1000000000LL + it.tv_nsec;
}

int main(int count, char **words) {
    static uint8_t bytes[AT_ONCE][SIZE];
    static struct iovec parts[AT_ONCE];
    static struct mmsghdr messages[AT_ONCE];
    struct sockaddr_in to = {.sin_family = AF_INET};
    if (count != 4 || inet_pton(AF_INET, words[1], &to.sin_addr) != 1)
        return 2;
    to.sin_port = htons((uint16_t)atoi(words[2]));
    uint64_t number = 0, wanted = strtoull(words[3], NULL, 10);
    int it = socket(AF_INET, SOCK_DGRAM, 0);
    if (it < 0 || connect(it, (struct sockaddr *)&to, sizeof to) != 0)
        return 1;
    int64_t start = now();
    while (number < wanted) {
        unsigned some = wanted - number < AT_ONCE ? (unsigned)(wanted - number) : AT_ONCE;
        for (unsigned n = 0; n < some; n++) {
            uint64_t value = number + n;
            memcpy(bytes[n], &value, 8);
            parts[n] = (struct iovec){bytes[n], SIZE};
            messages[n].msg_hdr = (struct msghdr){.msg_iov = &parts[n], .msg_iovlen = 1};
        }
        int sent = sendmmsg(it, messages, some, 0);
        if (sent <= 0)
            return 1;
        number += (uint64_t)sent;
    }
    printf("%lld\n", (long long)(now() - start) / 1000);
    return 0;
}
