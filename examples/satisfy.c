/* SPDX-License-Identifier: MIT
 * Prints what `msat satisfy TEXT` prints for an asset file, by a call of the library.
 * Usage: satisfy TEXT ASSET-FILE */
#include <msat.h>
#include <stdio.h>
#include <stdlib.h>
#include <string.h>

/* All bytes of a file, and how many these are, or NULL. */
static char *read_file(const char *name, size_t *length) {
    FILE *file = fopen(name, "rb");
    if (!file)
        return NULL;
    size_t room = 1 << 21; /* a longer file is refused anyway */
    char *bytes = malloc(room);
    *length = bytes ? fread(bytes, 1, room, file) : 0;
    fclose(file);
    return bytes;
}

/* Words after one another, each with its NUL, in one buffer. */
static char *join(size_t count, const char *const *words, size_t *length) {
    *length = 0;
    for (size_t i = 0; i < count; i++)
        *length += strlen(words[i]) + 1;
    char *joined = malloc(*length), *next = joined;
    for (size_t i = 0; joined && i < count; i++) {
        size_t size = strlen(words[i]) + 1;
        memcpy(next, words[i], size);
        next += size;
    }
    return joined;
}

int main(int argc, char **argv) {
    if (argc != 3) {
        fprintf(stderr, "usage: satisfy TEXT ASSET-FILE\n");
        return 1;
    }
    size_t words_len, source_len, needed = 0, room = 4096;
    const char *const words[] = {"satisfy", argv[1]};
    char *joined = join(2, words, &words_len);
    char *source = read_file(argv[2], &source_len);
    char *report = malloc(room);
    if (!joined || !source || !report) {
        fprintf(stderr, "satisfy: no file, or no memory\n");
        return 1;
    }
    uint32_t code = msat_answer(2, joined, words_len, source, source_len, report, room, &needed);
    if (needed > room) { /* it didn't fit */
        room = needed;
        report = realloc(report, room);
        if (!report)
            return MSAT_NO_MEMORY;
        code = msat_answer(2, joined, words_len, source, source_len, report, room, &needed);
    }
    if (code != MSAT_NO_MEMORY && code != MSAT_UNREADABLE)
        fwrite(report, 1, needed, stdout);
    free(report);
    free(source);
    free(joined);
    return (int)code;
}
