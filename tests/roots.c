/* The root of the PV (A1) at every raw PV of the three formats, 102,400 samples. Each PV is less than a half from the exact root,
 * which is said in whole numbers, without a root. None is above full scale or below the one before it; 0 gives 0, and full scale
 * itself. How many go up and down, and what all PVs come to, is held to what exact arithmetic gives. In the common subset of C99
 * and C++11; it links the archive alone:
 *   gcc -std=c99 -Itarget/kexbardi/include tests/roots.c target/kexbardi/lib/libkexbardi.a
 *   g++ -x c++ -std=c++11 -Itarget/kexbardi/include tests/roots.c -x none target/kexbardi/lib/libkexbardi.a */
#include "kexbardi.h"

#include <stdio.h>
#include <string.h>

#define OUTPUT 2000 /* it stays, in Manual */

/* A format and, of its raw PVs from 0 to full scale, how many PVs are above the root, below it and on it, how many products of
 * raw PV and full scale are r x r + r, the last that goes down to r, and the total of the PVs. */
struct format {
    const char *name;
    unsigned loop, mode_2;
    uint64_t full, up, down, exact, near_half, total;
};

/* The totals of the exact roots stand beside; behind them what roots rounded down would come to. */
static const struct format formats[] = {
    {"12 bits", 1, 0, 4095, 2078, 2014, 4, 15, 11181338u},                              /* 11,181,384.2; 11,179,260 */
    {"15 bits", 8, KEXBARDI_M2_FIFTEEN_BITS, 32767, 16410, 16356, 2, 7, 715800540u},    /* 715,800,538.6; 715,784,130 */
    {"16 bits", 16, KEXBARDI_M2_SIXTEEN_BITS, 65535, 32810, 32724, 2, 15, 2863256754u}, /* 2,863,256,864.3; 2,863,223,944 */
};

/* what there is to count over the samples of a format */
struct found {
    uint64_t refused, elsewhere, others, far, above, falling, up, down, exact, near_half, total;
};

static uint16_t words[KEXBARDI_WORDS], line[KEXBARDI_LINE_WORDS];
static int64_t records[KEXBARDI_NUMBERS];
static struct found found;
static unsigned passed, failed;
static const char *test = "";

static void equals(const char *what, uint64_t is, uint64_t expected) {
    if (is != expected)
        printf("tests/roots: %s: %s is %llu, not %llu\n", test, what, (unsigned long long)is, (unsigned long long)expected);
    if (is == expected) passed++;
    else failed++;
}

static uint16_t *word(unsigned loop, unsigned offset) { return words + KEXBARDI_ADDRESS(loop, offset); }

static uint8_t sample(unsigned loop, uint64_t raw) {
    return kexbardi_sample(words, KEXBARDI_WORDS, records, KEXBARDI_NUMBERS, loop, raw, line);
}

/* A desk at reset but for the loop, in Manual with the root. */
static void begin(const struct format *f) {
    test = f->name;
    memset(words, 0, sizeof words);
    memset(records, 0, sizeof records);
    memset(&found, 0, sizeof found);
    *word(f->loop, KEXBARDI_MODE_1) = KEXBARDI_M1_MANUAL | KEXBARDI_M1_ROOT;
    *word(f->loop, KEXBARDI_MODE_2) = (uint16_t)f->mode_2;
    *word(f->loop, KEXBARDI_OUTPUT) = OUTPUT;
    *word(f->loop, KEXBARDI_PERIOD) = KEXBARDI_BCD(100);
    *word(f->loop, KEXBARDI_GAIN) = KEXBARDI_BCD(100);
    *word(f->loop, KEXBARDI_RESET) = KEXBARDI_BCD(1000);
    *word(f->loop, KEXBARDI_OUTPUT_HIGH) = (uint16_t)f->full;
}

/* |p - root of v| is below a half where 2 p - 1 is below twice the root, and 2 p + 1 above it: squared, no root is left. */
static int is_nearest(uint64_t p, uint64_t v) {
    return 4 * v < (2 * p + 1) * (2 * p + 1) && (p == 0 || (2 * p - 1) * (2 * p - 1) < 4 * v);
}

/* Answers the PV of a raw PV; `last` is the one before it. */
static uint64_t take(const struct format *f, uint64_t raw, uint64_t last) {
    memset(line, 0xA5, sizeof line);
    found.refused += sample(f->loop, raw) != 0;
    uint64_t p = line[KEXBARDI_LINE_PV], v = raw * f->full;
    const int64_t *record = records + KEXBARDI_FIELDS * (f->loop - 1);
    found.elsewhere += *word(f->loop, KEXBARDI_PV) != p || record[KEXBARDI_FIELD_LAST_PV] != (int64_t)p;
    found.others += line[KEXBARDI_LINE_SETPOINT] != 0 || line[KEXBARDI_LINE_OUTPUT] != OUTPUT
        || line[KEXBARDI_LINE_STATUS] != KEXBARDI_S_MANUAL;
    found.far += !is_nearest(p, v);
    found.above += p > f->full;
    found.falling += p < last;
    found.up += p * p > v;
    found.down += p * p < v;
    found.exact += p * p == v;
    found.near_half += v > 0 && v == p * p + p;
    found.total += p;
    return p;
}

static void every_raw_pv(const struct format *f) {
    begin(f);
    uint64_t first = take(f, 0, 0), last = first;
    for (uint64_t raw = 1; raw <= f->full; raw++) last = take(f, raw, last);
    equals("samples that were refused", found.refused, 0);
    equals("PVs that are others in word 3 or in the record", found.elsewhere, 0);
    equals("lines whose setpoint, output or status changed", found.others, 0);
    equals("PVs a half or more from the root", found.far, 0);
    equals("PVs above full scale", found.above, 0);
    equals("PVs below the one before", found.falling, 0);
    equals("the PV of 0", first, 0);
    equals("the PV of full scale", last, f->full);
    equals("PVs above the root", found.up, f->up);
    equals("PVs below the root", found.down, f->down);
    equals("PVs on the root", found.exact, f->exact);
    equals("products that are r x r + r", found.near_half, f->near_half);
    equals("the total of the PVs", found.total, f->total);

    /* N9: the next raw PV is above full scale, and the PV stays. */
    equals("above full scale", sample(f->loop, f->full + 1), 9);
    equals("the PV behind the refusal", *word(f->loop, KEXBARDI_PV), f->full);
}

int main(void) {
    for (unsigned n = 0; n < sizeof formats / sizeof *formats; n++) every_raw_pv(&formats[n]);
    printf("%u passed, %u failed\n", passed, failed);
    return failed != 0;
}
