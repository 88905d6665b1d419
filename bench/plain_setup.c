/* The program `setup` (L14) over the plain engine, standard input alone: what tests compare `setup` with, byte by byte. Nothing
 * is proved of it. */
#include "plain_engine.h"

#include <stdio.h>

#define WORDS 1024
#define NUMBERS 224
#define LONGEST 65536

int main(void) {
    static uint8_t file[LONGEST + 1], setup[8 * WORDS], answers[1];
    static uint16_t words[WORDS]; /* as at reset, and so are the records */
    static int64_t records[NUMBERS];
    size_t size = fread(file, 1, sizeof file, stdin), length = 0, count, refused;
    if (size > LONGEST) {
        fputs("setup: too long\n", stderr);
        return 0;
    }
    plain_run(file, size, words, WORDS, records, NUMBERS, answers, 0, &count, &refused);
    plain_setup(words, WORDS, setup, sizeof setup, &length);
    fwrite(setup, 1, length, stdout);
    return 0;
}
