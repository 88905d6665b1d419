/* The drill program over the plain engine: what the benchmark compares `drill` with, line by line and in
 * instructions. Nothing is proved of it. */
#include "plain_engine.h"

#include <stdio.h>

#define LONGEST 65536

int main(void) {
    static uint8_t file[LONGEST + 1], lines[10 * LONGEST + 100];
    size_t size = fread(file, 1, sizeof file, stdin), length = 0;
    plain_print(file, size, lines, sizeof lines, &length);
    fwrite(lines, 1, length, stdout);
    return 0;
}
