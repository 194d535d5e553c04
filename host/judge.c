/* Reads a session file and prints the number of its verdict or of its fault. */
#include "lovagetower.h"

#include <stdio.h>

/* One byte more than the longest session: a longer file is refused without reading it to its end. */
enum { SPACE = 16385 };

int main(int argc, char **argv) {
    static uint8_t bytes[SPACE];
    FILE *file = argc == 2 ? fopen(argv[1], "rb") : NULL;
    if (file == NULL) {
        fprintf(stderr, "usage: judge FILE\n");
        return 2;
    }
    size_t length = fread(bytes, 1, SPACE, file);
    int failed = ferror(file);
    fclose(file);
    if (failed) {
        fprintf(stderr, "judge: cannot read %s\n", argv[1]);
        return 2;
    }
    printf("%u\n", (unsigned)lovagetower_judge(bytes, length));
    return 0;
}
