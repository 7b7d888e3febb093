/* Puts inputs to a harness one after the other, without libFuzzer: all files that are named. Prints how many there were. */
#include <stdint.h>
#include <stdio.h>
#include <stdlib.h>
#include <unistd.h>

extern int LLVMFuzzerTestOneInput(const uint8_t *data, size_t size);

int main(int count, char **files) {
    static uint8_t data[1 << 24];
    alarm(600);
    for (int i = 1; i < count; i++) {
        FILE *from = fopen(files[i], "rb");
        if (!from) return fprintf(stderr, "replay: no file %s\n", files[i]), 1;
        size_t size = fread(data, 1, sizeof data, from);
        fclose(from);
        LLVMFuzzerTestOneInput(data, size);
    }
    return printf("%d inputs\n", count - 1), 0;
}
