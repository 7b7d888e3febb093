/* SPDX-License-Identifier: MIT
 * Prints what `msat-descriptor derive DESCRIPTOR INDEX COUNT` prints, by calls of the library: some indices a call, each as it is there.
 * Usage: derive DESCRIPTOR INDEX COUNT */
#include <msat.h>
#include <stdio.h>
#include <stdlib.h>
#include <string.h>

enum { PART = 50 };

/* Words after one another, each with its NUL, in a buffer that has room for them. */
static size_t join(char *joined, const char *descriptor, unsigned long index, unsigned long count) {
    size_t length = (size_t)sprintf(joined, "derive") + 1;
    length += (size_t)sprintf(joined + length, "%s", descriptor) + 1;
    length += (size_t)sprintf(joined + length, "%lu", index) + 1;
    return length + (size_t)sprintf(joined + length, "%lu", count) + 1;
}

int main(int argc, char **argv) {
    if (argc != 4) {
        fprintf(stderr, "usage: derive DESCRIPTOR INDEX COUNT\n");
        return MSAT_USAGE;
    }
    unsigned long index = strtoul(argv[2], NULL, 10), end = index + strtoul(argv[3], NULL, 10);
    size_t room = 1 << 16, needed = 0;
    char *words = malloc(strlen(argv[1]) + 64), *report = calloc(room, 1);
    uint32_t code = words && report ? MSAT_DONE : MSAT_NO_MEMORY;
    while (code == MSAT_DONE && index < end) {
        unsigned long count = end - index < PART ? end - index : PART;
        size_t length = join(words, argv[1], index, count);
        code = msat_descriptor_answer(4, words, length, NULL, 0, report, room, &needed);
        if (needed > room) { /* it didn't fit */
            free(report);
            room = needed;
            report = calloc(room, 1);
            if (!report)
                return MSAT_NO_MEMORY;
            continue;
        }
        if (code != MSAT_NO_MEMORY && code != MSAT_UNREADABLE)
            fwrite(report, 1, needed, stdout);
        index += count;
    }
    free(words);
    free(report);
    return (int)code;
}
