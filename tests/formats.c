/* Counts of the input in counts of the output (M7), at every count of the nine pairs of formats, as PV and as setpoint: 614,400 samples
 * in Manual. The error from 0 to a count is that count converted: within half a count of v x G / F, which is said in whole numbers,
 * never above G, never below the one before it; 0 gives 0, and F gives G. PV and setpoint are shown as they are. How many go up and
 * down, and what all errors come to, is held to what exact arithmetic gives. In the common subset of C99 and C++11; it links the
 * archive alone:
 *   gcc -std=c99 -Itarget/kexbardi/include tests/formats.c target/kexbardi/lib/libkexbardi.a
 *   g++ -x c++ -std=c++11 -Itarget/kexbardi/include tests/formats.c -x none target/kexbardi/lib/libkexbardi.a */
#include "kexbardi.h"

#include <stdio.h>
#include <string.h>

/* A pair of formats and, of the counts from 0 to F, how many are converted to more than v x G / F, to less and to just that, and the
 * total. */
struct pair {
    const char *name;
    unsigned loop, mode_2;
    uint64_t from, to, up, down, exact, total;
};

#define M2(bits) (KEXBARDI_M2_OUTPUT_FORMAT | (bits))
#define IN_15 KEXBARDI_M2_FIFTEEN_BITS
#define IN_16 KEXBARDI_M2_SIXTEEN_BITS
#define OUT_15 KEXBARDI_M2_OUTPUT_FIFTEEN_BITS
#define OUT_16 KEXBARDI_M2_OUTPUT_SIXTEEN_BITS
static const struct pair pairs[] = {
    {"12 bits in, 12 out", 1, M2(0), 4095, 4095, 0, 0, 4096, 8386560u},
    {"12 bits in, 15 out", 2, M2(OUT_15), 4095, 32767, 2044, 2044, 8, 67106816u},
    {"12 bits in, 16 out", 3, M2(OUT_16), 4095, 65535, 2040, 2040, 16, 134215680u},
    {"15 bits in, 12 out", 4, M2(IN_15), 32767, 4095, 16380, 16380, 8, 67092480u},
    {"15 bits in, 15 out", 5, M2(IN_15 | OUT_15), 32767, 32767, 0, 0, 32768, 536854528u},
    {"15 bits in, 16 out", 13, M2(IN_15 | OUT_16), 32767, 65535, 16383, 16383, 2, 1073725440u},
    {"16 bits in, 12 out", 14, M2(IN_16), 65535, 4095, 32760, 32760, 16, 134184960u},
    {"16 bits in, 15 out", 15, M2(IN_16 | OUT_15), 65535, 32767, 32767, 32767, 2, 1073709056u},
    {"16 bits in, 16 out", 16, M2(IN_16 | OUT_16), 65535, 65535, 0, 0, 65536, 2147450880u},
};

/* what there is to count over the samples of a pair */
struct found {
    uint64_t refused, changed, other, far, above, falling, up, down, exact, total;
};

static uint16_t words[KEXBARDI_WORDS], line[KEXBARDI_LINE_WORDS];
static int64_t records[KEXBARDI_NUMBERS];
static struct found found;
static unsigned passed, failed;
static const char *test = "";

static void equals(const char *what, uint64_t is, uint64_t expected) {
    if (is != expected)
        printf("tests/formats: %s: %s is %llu, not %llu\n", test, what, (unsigned long long)is, (unsigned long long)expected);
    if (is == expected) passed++;
    else failed++;
}

static uint16_t *word(unsigned loop, unsigned offset) { return words + KEXBARDI_ADDRESS(loop, offset); }

/* A desk at reset but for the loop, in Manual, its high output limit at G. */
static void begin(const struct pair *p) {
    test = p->name;
    memset(words, 0, sizeof words);
    memset(records, 0, sizeof records);
    memset(&found, 0, sizeof found);
    *word(p->loop, KEXBARDI_MODE_2) = (uint16_t)p->mode_2;
    *word(p->loop, KEXBARDI_PERIOD) = KEXBARDI_BCD(100);
    *word(p->loop, KEXBARDI_RESET) = KEXBARDI_BCD(1000);
    *word(p->loop, KEXBARDI_OUTPUT_HIGH) = (uint16_t)p->to;
}

/* The error of a sample; 0 where it was refused. */
static int64_t error_of(const struct pair *p, uint64_t setpoint, uint64_t raw) {
    *word(p->loop, KEXBARDI_SETPOINT) = (uint16_t)setpoint;
    if (kexbardi_sample(words, KEXBARDI_WORDS, records, KEXBARDI_NUMBERS, p->loop, raw, line)) {
        found.refused++;
        return 0;
    }
    found.changed += line[KEXBARDI_LINE_SETPOINT] != setpoint || line[KEXBARDI_LINE_PV] != raw;
    return records[KEXBARDI_FIELDS * (p->loop - 1) + KEXBARDI_FIELD_ERROR];
}

/* Answers what v is converted to; `last` is that of the count before it. */
static uint64_t take(const struct pair *p, uint64_t v, uint64_t last) {
    int64_t error = error_of(p, v, 0);
    found.other += error_of(p, 0, v) != -error;
    uint64_t r = (uint64_t)error, exact = 2 * v * p->to, is = 2 * p->from * r;
    found.far += is > exact + p->from || exact > is + p->from;
    found.above += r > p->to;
    found.falling += r < last;
    found.up += is > exact;
    found.down += is < exact;
    found.exact += is == exact;
    found.total += r;
    return r;
}

static void every_count(const struct pair *p) {
    begin(p);
    equals("the input's full scale", KEXBARDI_FULL_SCALE(p->mode_2), p->from);
    equals("the output's full scale", KEXBARDI_OUTPUT_FULL_SCALE(p->mode_2), p->to);
    uint64_t first = take(p, 0, 0), last = first;
    for (uint64_t v = 1; v <= p->from; v++) last = take(p, v, last);
    equals("samples that were refused", found.refused, 0);
    equals("lines with another setpoint or PV", found.changed, 0);
    equals("PVs that are converted to another count than the setpoint", found.other, 0);
    equals("counts more than a half away", found.far, 0);
    equals("counts above the output's full scale", found.above, 0);
    equals("counts below the one before", found.falling, 0);
    equals("0", first, 0);
    equals("full scale", last, p->to);
    equals("counts that went up", found.up, p->up);
    equals("counts that went down", found.down, p->down);
    equals("counts on v x G / F", found.exact, p->exact);
    equals("the total", found.total, p->total);
}

int main(void) {
    for (unsigned n = 0; n < sizeof pairs / sizeof *pairs; n++) every_count(&pairs[n]);
    printf("%u passed, %u failed\n", passed, failed);
    return failed != 0;
}
