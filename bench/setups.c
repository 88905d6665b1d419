/* One memory written as a setup file N times: `setups N MEMORY` prints the file's records and a sum of its bytes, and the
 * nanoseconds a call. MEMORY is `sparse`, three loops as X1 leaves its own; `profiles`, sixteen loops with all their settings and a
 * table each; or `all`, no word 0. Compiled with -DPLAIN it calls the plain engine, else the archive; all else is the same. */
#include "kexbardi.h"
#include "plain_engine.h"

#include <stdio.h>
#include <stdlib.h>
#include <string.h>
#include <time.h>

#ifdef PLAIN
#define SETUP plain_setup
#else
#define SETUP kexbardi_setup
#endif

static uint16_t words[KEXBARDI_WORDS];
static uint8_t out[KEXBARDI_SETUP_ROOM];

/* loop A of X1, as its samples leave it: words 3, 4 and 6 are not 0, and not handed on */
static void settle(unsigned loop) {
    static const uint16_t of_x1[][2] = {{KEXBARDI_SETPOINT, 1500}, {KEXBARDI_PV, 1000}, {KEXBARDI_BIAS, 2100}, {KEXBARDI_OUTPUT, 3100},
        {KEXBARDI_STATUS, KEXBARDI_S_AUTOMATIC}, {KEXBARDI_PERIOD, KEXBARDI_BCD(100)}, {KEXBARDI_GAIN, KEXBARDI_BCD(200)},
        {KEXBARDI_RESET, KEXBARDI_BCD(1000)}, {KEXBARDI_OUTPUT_HIGH, KEXBARDI_FULL_12}};
    for (unsigned n = 0; n < sizeof of_x1 / sizeof *of_x1; n++) words[KEXBARDI_ADDRESS(loop, of_x1[n][0])] = of_x1[n][1];
}

/* every setting of W2 */
static void settle_whole(unsigned loop) {
    static const uint16_t limits[] = {100, 200, 3000, 3500, 400, 600, 99, 10, 20}; /* low-low to deadband */
    uint16_t *w = words + KEXBARDI_ADDRESS(loop, 0);
    settle(loop);
    w[KEXBARDI_MODE_1] = KEXBARDI_M1_PROFILE | KEXBARDI_M1_PV_ALARMS;
    w[KEXBARDI_MODE_2] = KEXBARDI_M2_FIFTEEN_BITS;
    w[KEXBARDI_RATE] = KEXBARDI_BCD(25);
    memcpy(w + KEXBARDI_LOW_LOW, limits, sizeof limits);
    w[KEXBARDI_OUTPUT_LOW] = 50;
    w[KEXBARDI_POINTER] = 1023;
    w[KEXBARDI_PROFILE_FLAGS] = KEXBARDI_P_START;
    w[KEXBARDI_PROFILE_TABLE] = (uint16_t)(KEXBARDI_TABLE_FIRST + KEXBARDI_TABLE_WORDS * (loop - 1));
}

/* its 32 words, none of them 0 */
static void fill_table(unsigned loop) {
    uint16_t *table = words + words[KEXBARDI_ADDRESS(loop, KEXBARDI_PROFILE_TABLE)];
    for (unsigned n = 1; n <= KEXBARDI_SEGMENTS; n += 2) {
        uint16_t *ramp = table + KEXBARDI_SEGMENT(n), *soak = table + KEXBARDI_SEGMENT(n + 1);
        ramp[KEXBARDI_END] = (uint16_t)(100 * n);
        ramp[KEXBARDI_SLOPE] = KEXBARDI_BCD(150);
        soak[KEXBARDI_DURATION] = KEXBARDI_BCD(15);
        soak[KEXBARDI_DEVIATION] = 30;
    }
}

static int make_words(const char *memory) {
    if (strcmp(memory, "sparse") == 0) {
        for (unsigned loop = 1; loop <= 3; loop++) settle(loop);
    } else if (strcmp(memory, "profiles") == 0) {
        for (unsigned loop = 1; loop <= KEXBARDI_LOOPS; loop++) settle_whole(loop), fill_table(loop);
    } else if (strcmp(memory, "all") == 0) {
        for (unsigned n = 0; n < KEXBARDI_WORDS; n++) words[n] = (uint16_t)(n + 1);
    } else {
        return 0;
    }
    return 1;
}

int main(int count, char **args) {
    if (count != 3 || !make_words(args[2])) {
        fprintf(stderr, "usage: setups N sparse|profiles|all\n");
        return 2;
    }
    unsigned long calls = strtoul(args[1], NULL, 10), refused = 0, sum = 0;
    size_t length = 0;
    clock_t start = clock();
    for (unsigned long n = 0; n < calls; n++) refused += SETUP(words, KEXBARDI_WORDS, out, sizeof out, &length) != 0;
    double seconds = (double)(clock() - start) / CLOCKS_PER_SEC;
    for (size_t n = 0; n < sizeof out; n++) sum = sum * 31 + out[n]; /* the whole room: as much work where no call was made */
    printf("%lu records, sum %lu\n", (unsigned long)length / 8, sum);
    if (calls) printf("%.0f\n", 1e9 * seconds / (double)calls);
    return refused != 0;
}
