/* The first fault of a file, as a cursor on it is answered: scripts/rows/run_rows.py compares it with the answers of rows.
 *
 *     first_fault < IMAGE
 *
 * Reads the image of a medium and looks at its first file. Prints `none`, or where and how the file is at fault, as `112 Rule 6`,
 * with status 1. Another answer is printed by its number, with status 2. */
#include <inttypes.h>
#include <stdio.h>
#include <string.h>

#include "r10.h"

enum { BLOCK = 512, BLOCKS = 4096 };

static unsigned char memory[BLOCKS * BLOCK];
static r10 recorder;

static int refused(const char *what, uint32_t number) {
    printf("%s: refused %u, %s\n", what, number, r10_strerror(number));
    return 2;
}

int main(void) {
    char script[256];
    r10_fault_info found = {0};
    size_t cursor = 0, size = fread(memory, 1, sizeof memory, stdin);
    if (size % BLOCK != 0 || size == sizeof memory) {
        printf("%zu bytes are no image of fewer than %d blocks\n", size, BLOCKS);
        return 2;
    }
    snprintf(script, sizeof script,
             "blocks = %zu\ndirectory = 2\nvolume = \"VOL\"\nnodes = 100\ntime = 1\nevent = 2\n"
             "[[channel]]\nid = 5\nkind = \"uart\"\ncapacity = 2\ncheck = 0\nbytes = 524288\nnumber = 65535\n",
             size / BLOCK);
    uint32_t number = r10_open((r10_region){memory, size / BLOCK}, 64, script, strlen(script), &recorder);
    if (number != R10_OK)
        return refused("open", number);
    number = r10_mount(&recorder);
    if (number != R10_OK)
        return refused("mount", number);
    number = r10_cursor(&recorder, 0, NULL, 0, 0, ((uint64_t)1 << 48) - 1, &cursor);
    if (number != R10_OK && number != R10_BAD_FILE)
        return refused("cursor", number);
    if (number == R10_BAD_FILE && r10_fault(&recorder, &found) != R10_OK)
        return refused("fault", number);
    r10_close(&recorder);
    if (number == R10_OK)
        printf("none\n");
    else if (found.fault == R10_FAULT_RULE)
        printf("%" PRIu64 " Rule %u\n", found.at, found.rule);
    else
        printf("%" PRIu64 " %s\n", found.at, r10_fault_name(found.fault));
    return number != R10_OK;
}
