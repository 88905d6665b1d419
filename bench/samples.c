/* One engine sampled N times: `samples N` prints how many samples were refused, a sum over all lines, and the
 * nanoseconds a sample; `samples N profile` does so with a profile on every loop, whose ramp moves at each sample,
 * and `samples N root` with the root on in every loop, where it is on in three of the sixteen else.
 * Compiled with -DPLAIN it runs the plain engine, else the archive; all else is the same. Raw PVs are made before
 * the first sample, so that a run with N = 0 has all of the work but the samples. */
#include "kexbardi.h"
#include "plain_engine.h"

#include <stdio.h>
#include <stdlib.h>
#include <string.h>
#include <time.h>

#ifdef PLAIN
#define RESET plain_reset
#define STORE plain_store
#define SAMPLE plain_sample
#else
#define RESET kexbardi_reset
#define STORE kexbardi_store
#define SAMPLE kexbardi_sample
#endif

#define RAWS 16384 /* a multiple of 16: a loop's raw PVs stay its own */
#define STEP 100   /* ten-thousandths of a count that a ramp of slope 0.01 moves in a period of 1.00 s */

static uint16_t words[KEXBARDI_WORDS], raws[RAWS];
static int64_t records[KEXBARDI_NUMBERS];
static uint16_t line[KEXBARDI_LINE_WORDS];
static unsigned refused;

static void store(unsigned address, unsigned value) {
    refused += STORE(words, KEXBARDI_WORDS, records, KEXBARDI_NUMBERS, (uint16_t)address, (uint16_t)value) != 0;
}

static unsigned bcd(unsigned n) { return n / 1000 % 10 << 12 | n / 100 % 10 << 8 | n / 10 % 10 << 4 | n % 10; }

static const unsigned mode_2s[] = {0, 2, 512}, full_scales[] = {4095, 32767, 65535};

/* every mode, position and velocity, the formats, root, alarms on: the full file of files.c */
static void settle(unsigned loop) {
    unsigned base = KEXBARDI_ADDRESS(loop, 0), full = full_scales[loop % 3];
    store(base + KEXBARDI_MODE_1, 1u << loop % 3 | (loop % 4 == 0 ? 32 : 0) | (loop % 5 == 0 ? 64 : 0) | 0x7000);
    store(base + KEXBARDI_MODE_2, mode_2s[loop % 3]);
    store(base + KEXBARDI_SETPOINT, full / 2);
    store(base + KEXBARDI_OUTPUT, full / 3);
    store(base + KEXBARDI_PERIOD, bcd(100));
    store(base + KEXBARDI_GAIN, bcd(40 + 10 * loop));
    store(base + KEXBARDI_RESET, bcd(1000 + loop));
    store(base + KEXBARDI_RATE, bcd(loop % 2 * 25));
    for (unsigned n = 0; n < 4; n++) store(base + KEXBARDI_LOW_LOW + n, full / 5 * (n + 1));
    store(base + KEXBARDI_YELLOW, full / 10);
    store(base + KEXBARDI_RED, full / 5);
    store(base + KEXBARDI_CHANGE, full / 6);
    store(base + KEXBARDI_HYSTERESIS, 10);
    store(base + KEXBARDI_OUTPUT_HIGH, full);
    store(base + KEXBARDI_POINTER, 600);
}

static void sample(unsigned loop, unsigned raw) {
    refused += SAMPLE(words, KEXBARDI_WORDS, records, KEXBARDI_NUMBERS, loop, raw, line) != 0;
}

/* ramps over the whole scale, up and down: 409,500 samples of a loop in 12 bits, more in the others */
static void fill_table(unsigned table, unsigned full) {
    for (unsigned n = 1; n <= KEXBARDI_SEGMENTS; n += 2) {
        unsigned ramp = table + KEXBARDI_SEGMENT(n), soak = table + KEXBARDI_SEGMENT(n + 1);
        store(ramp + KEXBARDI_END, n % 4 == 1 ? full : 0);
        store(ramp + KEXBARDI_SLOPE, bcd(1));
        store(soak + KEXBARDI_DURATION, bcd(n));
        store(soak + KEXBARDI_DEVIATION, full / 10);
    }
}

/* Started in Manual from a setpoint of 0. Then the mode that the loop has without a profile, but Automatic for
 * Cascade, where a profile waits (G3); a running one is not forced at the entry (G11). */
static void start_profile(unsigned loop) {
    unsigned base = KEXBARDI_ADDRESS(loop, 0), table = KEXBARDI_TABLE_FIRST + KEXBARDI_TABLE_WORDS * (loop - 1);
    unsigned mode_1 = (words[base + KEXBARDI_MODE_1] & ~(unsigned)KEXBARDI_M1_REQUESTS) | KEXBARDI_M1_PROFILE;
    fill_table(table, full_scales[loop % 3]);
    store(base + KEXBARDI_MODE_1, mode_1 | KEXBARDI_M1_MANUAL);
    store(base + KEXBARDI_SETPOINT, 0);
    store(base + KEXBARDI_PROFILE_TABLE, table);
    store(base + KEXBARDI_PROFILE_FLAGS, KEXBARDI_P_START);
    sample(loop, 0);
    store(base + KEXBARDI_MODE_1, mode_1 | (loop % 3 == 0 ? KEXBARDI_M1_MANUAL : KEXBARDI_M1_AUTOMATIC));
}

/* whether every ramp moved at each of its loop's samples, and still runs */
static int all_moved(unsigned long samples) {
    for (unsigned loop = 1; loop <= KEXBARDI_LOOPS; loop++) {
        const int64_t *record = records + KEXBARDI_FIELDS * (loop - 1);
        unsigned long own = (samples + KEXBARDI_LOOPS - loop) / KEXBARDI_LOOPS;
        int64_t at = 10000 * (int64_t)words[KEXBARDI_ADDRESS(loop, KEXBARDI_SETPOINT)] + record[KEXBARDI_FIELD_FRACTION];
        if (record[KEXBARDI_FIELD_SEGMENT] != 1 || at != (int64_t)(STEP * own)) return 0;
    }
    return 1;
}

static void take_root(unsigned loop) {
    unsigned address = KEXBARDI_ADDRESS(loop, KEXBARDI_MODE_1);
    store(address, words[address] | KEXBARDI_M1_ROOT);
}

static void make_raws(void) {
    uint64_t seed = 88172645463325252ull;
    for (unsigned n = 0; n < RAWS; n++) {
        seed ^= seed << 13, seed ^= seed >> 7, seed ^= seed << 17;
        raws[n] = (uint16_t)((seed >> 20) % (full_scales[(n % KEXBARDI_LOOPS + 1) % 3] + 1));
    }
}

int main(int count, char **args) {
    unsigned long samples = count >= 2 ? strtoul(args[1], NULL, 10) : 0, sum = 0;
    int profile = count == 3 && strcmp(args[2], "profile") == 0, root = count == 3 && strcmp(args[2], "root") == 0;
    refused += RESET(words, KEXBARDI_WORDS, records, KEXBARDI_NUMBERS) != 0;
    for (unsigned loop = 1; loop <= KEXBARDI_LOOPS; loop++) settle(loop);
    store(600, 2000);
    for (unsigned loop = 1; profile && loop <= KEXBARDI_LOOPS; loop++) start_profile(loop);
    for (unsigned loop = 1; root && loop <= KEXBARDI_LOOPS; loop++) take_root(loop);
    make_raws();
    clock_t start = clock();
    for (unsigned long n = 0; n < samples; n++) {
        sample((unsigned)(n % KEXBARDI_LOOPS) + 1, raws[n % RAWS]);
        sum = sum * 31 + line[2] + line[3];
    }
    double seconds = (double)(clock() - start) / CLOCKS_PER_SEC;
    printf("%u refused, sum %lu\n", refused, sum);
    if (profile && !all_moved(samples)) {
        printf("a ramp stands still\n");
        return 1;
    }
    if (samples) printf("%.1f\n", 1e9 * seconds / (double)samples);
    return refused != 0;
}
