/* The forecast of a profile (G12) beside counted samples: `forecast [TABLES]`. On that many random tables it is the number of
 * samples until bit 4 of word 27 comes on, and each sample lowers it by one; a hold, a command and Cascade leave it. The longest
 * profile has its number at once, and every refusal leaves the count as it was. No forecast changes a word or a number. In the
 * common subset of C99 and C++11; it links the archive alone:
 *   gcc -std=c99 -Itarget/kexbardi/include tests/forecast.c target/kexbardi/lib/libkexbardi.a
 *   g++ -x c++ -std=c++11 -Itarget/kexbardi/include tests/forecast.c -x none target/kexbardi/lib/libkexbardi.a */
#include "kexbardi.h"

#include <stdio.h>
#include <stdlib.h>
#include <string.h>
#include <time.h>

#define SPARE 8 /* elements behind the lent memory, for lengths that are too great */
#define UNTOUCHED 0xA5A5A5A5A5A5A5A5u
#define LONGEST 2000 /* more samples than a random table's profile takes */

struct desk {
    uint16_t words[KEXBARDI_WORDS + SPARE];
    int64_t records[KEXBARDI_NUMBERS + SPARE];
};

static struct desk desk, before;
static uint64_t seed = 88172645463325252u;
static unsigned passed, failed;
static const char *test = "";

static void equals(const char *what, uint64_t is, uint64_t expected) {
    if (is != expected)
        printf("tests/forecast: %s: %s is %llu, not %llu\n", test, what, (unsigned long long)is, (unsigned long long)expected);
    if (is == expected) passed++;
    else failed++;
}

/* 0 to below - 1 */
static unsigned any(unsigned below) {
    seed ^= seed << 13, seed ^= seed >> 7, seed ^= seed << 17;
    return (unsigned)(seed >> 20) % below;
}

static uint16_t *word(unsigned loop, unsigned offset) { return desk.words + KEXBARDI_ADDRESS(loop, offset); }

static int64_t *field(unsigned loop, unsigned n) { return desk.records + KEXBARDI_FIELDS * (loop - 1) + n; }

/* the second word of a segment is 1 further */
static uint16_t *segment(unsigned loop, unsigned n) { return desk.words + *word(loop, KEXBARDI_PROFILE_TABLE) + KEXBARDI_SEGMENT(n); }

/* Answer and count; whatever the answer, no word and no number changes. */
static uint8_t forecast_of(size_t words_length, size_t records_length, uint64_t loop, uint64_t *samples) {
    memcpy(&before, &desk, sizeof desk);
    uint8_t answer = kexbardi_forecast(desk.words, words_length, desk.records, records_length, loop, samples);
    if (memcmp(&before, &desk, sizeof desk) != 0) equals("words and numbers changed", 1, 0);
    return answer;
}

/* the count of a forecast that has to be accepted */
static uint64_t forecast(unsigned loop) {
    uint64_t samples = UNTOUCHED;
    uint8_t answer = forecast_of(KEXBARDI_WORDS, KEXBARDI_NUMBERS, loop, &samples);
    if (answer != 0) equals("forecast answers", answer, 0);
    return samples;
}

static uint8_t sample(unsigned loop, unsigned raw) {
    uint16_t line[4];
    return kexbardi_sample(desk.words, KEXBARDI_WORDS, desk.records, KEXBARDI_NUMBERS, loop, raw, line);
}

/* A desk at reset but for one loop, in Manual and with a table that is all zeros. */
static void begin(const char *name, unsigned loop, unsigned mode_2, unsigned period) {
    test = name;
    memset(&desk, 0, sizeof desk);
    *word(loop, KEXBARDI_MODE_1) = KEXBARDI_M1_PROFILE;
    *word(loop, KEXBARDI_MODE_2) = (uint16_t)mode_2;
    *word(loop, KEXBARDI_PERIOD) = KEXBARDI_BCD(period);
    *word(loop, KEXBARDI_GAIN) = KEXBARDI_BCD(100);
    *word(loop, KEXBARDI_RESET) = KEXBARDI_BCD(1000);
    *word(loop, KEXBARDI_OUTPUT_HIGH) = KEXBARDI_FULL_SCALE(mode_2);
    *word(loop, KEXBARDI_PROFILE_TABLE) = KEXBARDI_TABLE_FIRST;
}

static void ramp(unsigned loop, unsigned n, unsigned end, unsigned slope) {
    segment(loop, n)[KEXBARDI_END] = (uint16_t)end;
    segment(loop, n)[KEXBARDI_SLOPE] = KEXBARDI_BCD(slope);
}

static void soak(unsigned loop, unsigned n, unsigned duration) { segment(loop, n)[KEXBARDI_DURATION] = KEXBARDI_BCD(duration); }

static void start(unsigned loop) {
    *word(loop, KEXBARDI_PROFILE_FLAGS) = KEXBARDI_P_START;
    equals("the sample with Start", sample(loop, 0), 0);
}

/* ---- random tables */

/* One number out of a few kinds: none, a few, up to most. */
static unsigned some(unsigned most) {
    unsigned kind = any(4);
    return kind == 0 ? 0 : any(kind == 1 ? 4 : most + 1);
}

/* Segments of at most some 60 samples each, the first from the present setpoint: a ramp's end lies that many steps away, a
 * duration is that many periods. Once in 40 a slope is 0. */
static void fill_table(unsigned loop, unsigned full, unsigned period) {
    unsigned setpoint = *word(loop, KEXBARDI_SETPOINT);
    for (unsigned n = 1; n <= KEXBARDI_SEGMENTS; n += 2) {
        unsigned slope = any(40) == 0 ? 0 : 1 + any(any(2) ? 9999 : 200);
        unsigned way = (unsigned)((uint64_t)slope * period * some(50) / 10000);
        if (any(2)) setpoint = setpoint > way ? setpoint - way : 0;
        else setpoint = setpoint + way < full ? setpoint + way : full;
        ramp(loop, n, setpoint, slope);
        soak(loop, n + 1, period * some(60) / 600);
        segment(loop, n + 1)[KEXBARDI_DEVIATION] = (uint16_t)some(full);
    }
}

/* In Manual, in Automatic from the start with the PV at the setpoint, or in Automatic by an entry while the profile runs. */
static void set_mode(unsigned loop, unsigned kind) {
    static const unsigned bits[] = {KEXBARDI_M1_BUMPLESS_II, KEXBARDI_M1_VELOCITY, KEXBARDI_M1_ROOT | KEXBARDI_M1_SQUARED, 0};
    if (kind > 0) *word(loop, KEXBARDI_MODE_1) |= (uint16_t)(KEXBARDI_M1_AUTOMATIC | bits[any(4)]);
}

/* accepted samples, and what the forecast is behind them */
static void unmoved(const char *what, unsigned loop, unsigned full, unsigned samples, uint64_t expected) {
    unsigned refused = 0;
    for (; samples > 0; samples--) refused += sample(loop, any(full + 1)) != 0;
    equals("samples that were refused", refused, 0);
    equals(what, forecast(loop), expected);
}

/* What leaves the forecast: waiting commands, Cascade with the setpoint that there is, a hold, a refused sample. */
static void interrupt(unsigned loop, unsigned full) {
    uint16_t *flags = word(loop, KEXBARDI_PROFILE_FLAGS), *mode_1 = word(loop, KEXBARDI_MODE_1);
    unsigned mode = 1u << *field(loop, KEXBARDI_FIELD_MODE);
    uint64_t expected = forecast(loop);
    *flags ^= (uint16_t)any(65536);
    equals("with commands waiting", forecast(loop), expected);
    /* from Automatic with Bumpless II, for a transfer would move the setpoint */
    if (mode == KEXBARDI_M1_AUTOMATIC) *mode_1 = (uint16_t)((*mode_1 & ~(unsigned)KEXBARDI_M1_VELOCITY) | KEXBARDI_M1_BUMPLESS_II);
    *mode_1 |= KEXBARDI_M1_CASCADE;
    *word(loop, KEXBARDI_POINTER) = (uint16_t)KEXBARDI_ADDRESS(loop, KEXBARDI_SETPOINT);
    unmoved("in Cascade", loop, full, 1 + any(3), expected);
    *mode_1 = (uint16_t)((*mode_1 & ~(unsigned)KEXBARDI_M1_VELOCITY) | mode | KEXBARDI_M1_BUMPLESS_II);
    *flags = (uint16_t)(KEXBARDI_P_HOLD | any(2) * KEXBARDI_P_RESUME | any(2) * KEXBARDI_P_JOG);
    unmoved("in a hold", loop, full, 1 + any(5), expected);
    equals("above full scale", sample(loop, full + 1), 9);
    *flags |= KEXBARDI_P_RESUME;
    unmoved("after the hold", loop, full, 1, expected);
}

/* Answers how many accepted samples it takes until bit 4 comes on; each lowers the forecast by one. */
static uint64_t count_down(unsigned loop, unsigned full, uint64_t expected, int interrupted) {
    uint64_t count = 0, refused = 0, wrong = 0;
    while (!(*word(loop, KEXBARDI_PROFILE_FLAGS) & KEXBARDI_P_COMPLETE) && count < LONGEST) {
        if (interrupted && count > 0 && any(100) == 0) interrupt(loop, full);
        refused += sample(loop, any(full + 1)) != 0;
        count++;
        wrong += forecast(loop) + count != expected;
    }
    equals("samples that were refused", refused, 0);
    equals("samples that did not lower it by one", wrong, 0);
    return count;
}

static void random_table(void) {
    static const unsigned mode_2s[] = {0, KEXBARDI_M2_FIFTEEN_BITS, KEXBARDI_M2_SIXTEEN_BITS};
    unsigned loop = 1 + any(KEXBARDI_LOOPS), mode_2 = mode_2s[any(3)], full = KEXBARDI_FULL_SCALE(mode_2), kind = any(3);
    unsigned period = 5 + any(any(2) ? 9995 : 200);
    begin("random table", loop, mode_2, period);
    *word(loop, KEXBARDI_SETPOINT) = (uint16_t)any(full + 1);
    *word(loop, KEXBARDI_PROFILE_TABLE) = (uint16_t)(KEXBARDI_TABLE_FIRST + any(KEXBARDI_TABLE_LAST - KEXBARDI_TABLE_FIRST + 1));
    *word(loop, KEXBARDI_PROFILE_FLAGS) = KEXBARDI_P_START;
    fill_table(loop, full, period);
    equals("before the start", forecast(loop), 0);
    if (kind == 1) *word(loop, KEXBARDI_MODE_1) |= KEXBARDI_M1_AUTOMATIC;
    equals("the sample with Start", sample(loop, *word(loop, KEXBARDI_SETPOINT)), 0);
    set_mode(loop, kind);
    uint64_t expected = forecast(loop);
    equals("the length is bounded", expected >= 1 && expected < LONGEST, 1);
    equals("counted samples", count_down(loop, full, expected, any(2) == 0), expected);
    equals("no profile behind it", forecast(loop), 0);
    equals("its segment", KEXBARDI_P_SEGMENT(*word(loop, KEXBARDI_PROFILE_FLAGS)), 0);
}

/* ---- lengths worked out by hand */

/* A ramp of slope 0.01 with a period of 0.05 s moves 1 x 5 ten-thousandths of a count at a sample. Over 65,535 counts that is
 * 655,350,000/5 = 131,070,000 samples, eight times 1,048,560,000. A soak of 999.9 minutes is 9,999 x 600 = 5,999,400 hundredths
 * of a second, 1,199,880 samples of 5, eight times 9,599,040. Together 1,058,159,040. */
static void longest(void) {
    const unsigned loop = 16;
    begin("longest profile", loop, KEXBARDI_M2_SIXTEEN_BITS, 5);
    *word(loop, KEXBARDI_PROFILE_TABLE) = KEXBARDI_TABLE_LAST;
    for (unsigned n = 1; n <= KEXBARDI_SEGMENTS; n += 2) ramp(loop, n, n % 4 == 1 ? 65535 : 0, 1), soak(loop, n + 1, 9999);
    start(loop);
    clock_t began = clock();
    for (int n = 0; n < 1000; n++)
        if (forecast(loop) != 1058159040u) equals("one of many", 0, 1);
    equals("a thousand of them in a second", clock() - began < CLOCKS_PER_SEC, 1);
    equals("from setpoint 0", forecast(loop), 1058159040u);
    equals("a sample", sample(loop, 0), 0);
    equals("after a sample", forecast(loop), 1058159039u);
    equals("a sample", sample(loop, 0), 0);
    equals("after two", forecast(loop), 1058159038u);

    /* From 65,535 and 9,999 parts down to 0: 655,359,999/5, rounded up 131,072,000, which is 2,000 more than the other ramps. */
    for (unsigned n = 1; n <= KEXBARDI_SEGMENTS; n += 2) ramp(loop, n, n % 4 == 1 ? 0 : 65535, 1);
    *word(loop, KEXBARDI_SETPOINT) = 65535;
    *field(loop, KEXBARDI_FIELD_FRACTION) = 9999;
    equals("from 65,535.9999", forecast(loop), 1058161040u);

    /* From the last ramp and its soak alone, 131,070,000 + 1,199,880; and from the soak, with all but its last sample done. */
    *field(loop, KEXBARDI_FIELD_SEGMENT) = 15;
    *word(loop, KEXBARDI_SETPOINT) = 0;
    *field(loop, KEXBARDI_FIELD_FRACTION) = 0;
    equals("from segment 15", forecast(loop), 132269880u);
    *field(loop, KEXBARDI_FIELD_SEGMENT) = 16;
    equals("from segment 16", forecast(loop), 1199880u);
    *field(loop, KEXBARDI_FIELD_TIME) = 5999390;
    equals("two samples of it left", forecast(loop), 2);
    *field(loop, KEXBARDI_FIELD_TIME) = 5999391;
    equals("9 hundredths left", forecast(loop), 2);
    *field(loop, KEXBARDI_FIELD_TIME) = 5999395;
    equals("5 hundredths left", forecast(loop), 1);
    *field(loop, KEXBARDI_FIELD_TIME) = 6000000;
    equals("more than its time", forecast(loop), 1);
}

/* Every segment lasts at least one sample: sixteen where no ramp has a way to go and no soak a duration; a slope of 0 ends the
 * profile in one. */
static void shortest(void) {
    begin("shortest profile", 1, 0, 100);
    for (unsigned n = 1; n <= KEXBARDI_SEGMENTS; n += 2) ramp(1, n, 0, 1);
    start(1);
    equals("sixteen samples", forecast(1), 16);
    equals("counted", count_down(1, 4095, 16, 0), 16);
    start(1);
    segment(1, 5)[KEXBARDI_SLOPE] = 0;
    equals("a slope of 0 in segment 5", forecast(1), 5);
    segment(1, 1)[KEXBARDI_SLOPE] = 0;
    equals("a slope of 0 in segment 1", forecast(1), 1);
    equals("counted", count_down(1, 4095, 1, 0), 1);
}

/* From 0 to 100 by 30.00 x 1.00 s: 4 samples (30, 60, 90, 100). 0.1 minute is 6 samples of 1.00 s. From 100 to 90 by 2.50: 4.
 * Then a soak of 0, one sample, and a slope of 0, one sample: 16 in all. */
static void by_hand(void) {
    begin("by hand", 2, 0, 100);
    ramp(2, 1, 100, 3000), soak(2, 2, 1), ramp(2, 3, 90, 250);
    start(2);
    equals("the sum", forecast(2), 16);
    equals("counted", count_down(2, 4095, 16, 0), 16);
    equals("the setpoint", *word(2, KEXBARDI_SETPOINT), 90);

    /* A jog leaves the setpoint where it is: from 30 the soak takes its 6, and down from 30 to 20, 4, 1, 1. */
    begin("by hand, with a jog", 2, 0, 100);
    ramp(2, 1, 100, 3000), soak(2, 2, 1), ramp(2, 3, 20, 250);
    start(2);
    equals("a sample", sample(2, 0), 0);
    *word(2, KEXBARDI_PROFILE_FLAGS) |= KEXBARDI_P_JOG;
    equals("the jog still waits: 3 for the ramp, 6, 32 from 100 to 20, 1, 1", forecast(2), 43);
    equals("a sample", sample(2, 0), 0);
    equals("it is obeyed", forecast(2), 12);

    /* In Cascade word 2 may stand above full scale: 65,535 down to 20 by 2.50, 26,206 samples, and 6, 1, 1 about it. */
    *word(2, KEXBARDI_SETPOINT) = 65535;
    uint64_t samples = UNTOUCHED;
    equals("in Manual it is refused", forecast_of(KEXBARDI_WORDS, KEXBARDI_NUMBERS, 2, &samples), 14);
    equals("the count", samples, UNTOUCHED);
    *word(2, KEXBARDI_MODE_1) |= KEXBARDI_M1_CASCADE;
    equals("in Cascade", forecast(2), 26214);
}

/* ---- no profile, and refusals */

/* loop 3 with a profile that runs: 16 samples remain */
static void begin_running(const char *name) {
    begin(name, 3, 0, 100);
    for (unsigned n = 1; n <= KEXBARDI_SEGMENTS; n += 2) ramp(3, n, 0, 1);
    start(3);
    equals("it runs", forecast(3), 16);
}

static void none(void) {
    static const uint16_t bad[] = {0, 511, 993, 1023, 1024, 65535};
    begin_running("no profile");
    *word(3, KEXBARDI_MODE_1) = 0;
    segment(3, 1)[KEXBARDI_SLOPE] = 0xFFFF;
    equals("bit 11 off, and its table is not tested", forecast(3), 0);
    for (unsigned n = 0; n < sizeof bad / sizeof *bad; n++) {
        begin_running("bad pointer");
        segment(3, 1)[KEXBARDI_SLOPE] = 0xFFFF;
        *word(3, KEXBARDI_PROFILE_TABLE) = bad[n];
        equals("the count", forecast(3), 0);
    }
    begin_running("segment 0");
    *field(3, KEXBARDI_FIELD_SEGMENT) = 0;
    *field(3, KEXBARDI_FIELD_HOLD) = *field(3, KEXBARDI_FIELD_COMPLETE) = 1;
    equals("the count", forecast(3), 0);
}

/* The desk as it stands is refused with a number; the count stays, whatever it was. */
static void refuses(const char *what, size_t words_length, size_t records_length, uint64_t loop, uint8_t number) {
    uint64_t samples = UNTOUCHED;
    equals(what, forecast_of(words_length, records_length, loop, &samples), number);
    equals("the count behind a refusal", samples, UNTOUCHED);
}

static void wrong_calls(void) {
    static const size_t lengths[] = {0, 1, 1023, 1025, 1032}, numbers[] = {0, 1, 14, 128, 208, 223, 225, 232};
    static const uint64_t loops[] = {0, 17, 32, 255, 256, 257, 259, 65539, (uint64_t)1 << 32 | 3, (uint64_t)-1};
    begin_running("lengths and loops");
    for (unsigned n = 0; n < sizeof lengths / sizeof *lengths; n++) refuses("words", lengths[n], KEXBARDI_NUMBERS, 3, 5);
    for (unsigned n = 0; n < sizeof numbers / sizeof *numbers; n++) refuses("numbers", KEXBARDI_WORDS, numbers[n], 3, 5);
    for (unsigned n = 0; n < sizeof loops / sizeof *loops; n++) refuses("loop", KEXBARDI_WORDS, KEXBARDI_NUMBERS, loops[n], 4);
    refuses("lengths before the loop", 1023, KEXBARDI_NUMBERS, 17, 5);
    refuses("a loop that is all zeros", KEXBARDI_WORDS, KEXBARDI_NUMBERS, 4, 12);
}

static void wrong_records(void) {
    static const int64_t ranges[KEXBARDI_FIELDS][2] = {{0, 2}, {-((int64_t)1 << 52), (int64_t)1 << 52}, {0, 65535 * (int64_t)262144},
        {0, 65535}, {0, 65535}, {-65535, 65535}, {0, 1}, {0, 1}, {0, 16}, {0, 1}, {0, 1}, {0, 9999}, {0, 6000000}, {0, 1}};
    for (unsigned n = 0; n < KEXBARDI_FIELDS; n++)
        for (unsigned end = 0; end < 2; end++) {
            begin_running("numbers out of range");
            *field(3, n) = ranges[n][end];
            forecast(3);
            *field(3, n) += end ? 1 : -1;
            *word(3, KEXBARDI_GAIN) = 0xFFFF;
            refuses("just outside, before a digit", KEXBARDI_WORDS, KEXBARDI_NUMBERS, 3, 5);
            *field(3, n) = end ? INT64_MAX : INT64_MIN;
            refuses("far outside", KEXBARDI_WORDS, KEXBARDI_NUMBERS, 3, 5);
        }
}

/* the address of a word, what makes it wrong, and the last value that is right */
static void refuses_word(const char *what, uint16_t *at, unsigned right, unsigned wrong, uint8_t number) {
    *at = (uint16_t)right;
    forecast(3);
    *at = (uint16_t)wrong;
    refuses(what, KEXBARDI_WORDS, KEXBARDI_NUMBERS, 3, number);
}

static void wrong_digits(void) {
    static const unsigned wrong[] = {0x100A, 0x10A0, 0x1A00, 0xA000, 0xFFFF};
    for (unsigned n = 0; n < 5; n++) {
        for (unsigned offset = KEXBARDI_PERIOD; offset <= KEXBARDI_RATE; offset++) {
            begin_running("digits");
            refuses_word("period to rate", word(3, offset), 0x9999, wrong[n], 7);
        }
        for (unsigned k = 1; k <= KEXBARDI_SEGMENTS; k++) {
            begin_running("digits of a table");
            refuses_word("slope or duration", segment(3, k) + k % 2, 0x9999, wrong[n], 7);
            segment(3, 15)[KEXBARDI_END] = 0xFFFF;
            refuses("before an end above full scale", KEXBARDI_WORDS, KEXBARDI_NUMBERS, 3, 7);
        }
    }
    begin_running("a deviation has no digits");
    for (unsigned k = 2; k <= KEXBARDI_SEGMENTS; k += 2) segment(3, k)[KEXBARDI_DEVIATION] = 0xFFFF;
    equals("the count", forecast(3), 16);
}

/* a word of loop 3 by its offset, or one of no loop by its address */
static uint16_t *word_at(unsigned offset) { return offset < KEXBARDI_LOOP_WORDS ? word(3, offset) : desk.words + offset; }

/* A word of loop 3, or 700, to which its pointer leads: the last value that is right, the first that is wrong, bits of mode 1 that are
 * on, and the modes in which it is refused. */
struct wrong_word {
    const char *name;
    uint16_t offset, right, wrong, mode_1, requests;
    uint8_t number;
};

enum { OUTSIDE = KEXBARDI_M1_MANUAL | KEXBARDI_M1_AUTOMATIC, IN_CASCADE = KEXBARDI_M1_CASCADE, IN_ALL = OUTSIDE | IN_CASCADE };
static const struct wrong_word wrong_words[] = {
    {"bit 9", KEXBARDI_MODE_1, 0x0400, 0x0200, 0, IN_ALL, 8},
    {"velocity with Bumpless II", KEXBARDI_MODE_1, 0, KEXBARDI_M1_BUMPLESS_II, KEXBARDI_M1_VELOCITY, IN_ALL, 8},
    {"mode 2", KEXBARDI_MODE_2, 0x0100, 0x0001, 0, IN_ALL, 8},
    {"mode 2 without bit 10", KEXBARDI_MODE_2, 0x3400, 0x1000, 0, IN_ALL, 8},
    {"hysteresis of PV alarms", KEXBARDI_HYSTERESIS, 1, 0, KEXBARDI_M1_PV_ALARMS, IN_ALL, 8},
    {"hysteresis of PV alarms", KEXBARDI_HYSTERESIS, 200, 201, KEXBARDI_M1_PV_ALARMS, IN_ALL, 8},
    {"hysteresis of deviation alarms", KEXBARDI_HYSTERESIS, 1, 0, KEXBARDI_M1_DEVIATION_ALARMS, IN_ALL, 8},
    {"hysteresis of deviation alarms", KEXBARDI_HYSTERESIS, 200, 201, KEXBARDI_M1_DEVIATION_ALARMS, IN_ALL, 8},
    {"period", KEXBARDI_PERIOD, 0x0005, 0x0004, 0, IN_ALL, 12},
    {"reset", KEXBARDI_RESET, 0x0001, 0, 0, IN_ALL, 12},
    {"low limit", KEXBARDI_OUTPUT_LOW, 4095, 4096, 0, IN_ALL, 13},
    {"high limit", KEXBARDI_OUTPUT_HIGH, 4095, 4096, 0, IN_ALL, 13},
    {"setpoint", KEXBARDI_SETPOINT, 4095, 4096, 0, OUTSIDE, 14},
    {"pointer", KEXBARDI_POINTER, 1023, 1024, 0, IN_CASCADE, 14},
    {"word at the pointer", 700, 4095, 4096, 0, IN_CASCADE, 14},
};

static void wrong_settings(void) {
    for (unsigned k = 1; k <= KEXBARDI_SEGMENTS; k += 2) {
        begin_running("ends");
        refuses_word("an end above full scale", segment(3, k), 4095, 4096, 8);
        *word(3, KEXBARDI_MODE_1) |= KEXBARDI_M1_CASCADE;
        refuses("in Cascade too", KEXBARDI_WORDS, KEXBARDI_NUMBERS, 3, 8);
        *field(3, KEXBARDI_FIELD_SEGMENT) = 0;
        refuses("and where no profile runs", KEXBARDI_WORDS, KEXBARDI_NUMBERS, 3, 8);
    }
    for (unsigned n = 0; n < sizeof wrong_words / sizeof *wrong_words; n++) {
        const struct wrong_word *w = &wrong_words[n];
        for (unsigned request = KEXBARDI_M1_MANUAL; request <= KEXBARDI_M1_CASCADE; request *= 2) {
            if (!(w->requests & request)) continue;
            begin_running("settings");
            *word(3, KEXBARDI_MODE_1) |= (uint16_t)(w->mode_1 | request);
            *word(3, KEXBARDI_HYSTERESIS) = 10, *word(3, KEXBARDI_POINTER) = 700;
            unsigned others = w->offset == KEXBARDI_MODE_1 ? *word(3, KEXBARDI_MODE_1) : 0;
            refuses_word(w->name, word_at(w->offset), w->right | others, w->wrong | others, w->number);
        }
    }
}

/* A word for each number, the one that is tested last first: each is told while those before it stay wrong. The table stands at 512,
 * and the pointer leads to 700. */
struct fault {
    uint16_t offset, wrong;
    uint8_t number;
};

static const struct fault chains[2][5] = {
    {{700, 4096, 14}, {KEXBARDI_OUTPUT_HIGH, 4096, 13}, {KEXBARDI_RESET, 0, 12}, {512 + KEXBARDI_END, 4096, 8}, {513, 0x000A, 7}},
    {{KEXBARDI_POINTER, 1024, 14}, {KEXBARDI_OUTPUT_LOW, 4096, 13}, {KEXBARDI_PERIOD, 4, 12}, {KEXBARDI_HYSTERESIS, 0, 8},
        {KEXBARDI_RATE, 0x000A, 7}},
};

/* in Cascade by way of Manual, so no transfer; with a profile that runs, and with none */
static void first_of_several(void) {
    for (unsigned n = 0; n < 4; n++) {
        begin_running("first of several");
        *word(3, KEXBARDI_MODE_1) |= KEXBARDI_M1_CASCADE | KEXBARDI_M1_PV_ALARMS;
        *word(3, KEXBARDI_POINTER) = 700, *word(3, KEXBARDI_HYSTERESIS) = 10;
        if (n >= 2) *field(3, KEXBARDI_FIELD_SEGMENT) = 0;
        equals("none is wrong", forecast(3), n < 2 ? 16 : 0);
        for (unsigned k = 0; k < 5; k++) {
            const struct fault *fault = &chains[n % 2][k];
            *word_at(fault->offset) = fault->wrong;
            refuses("the first that holds", KEXBARDI_WORDS, KEXBARDI_NUMBERS, 3, fault->number);
        }
    }
}

/* Loop 3 in Automatic with Cascade requested and Bumpless I: a forecast takes 0 for p. Loop 4's limits are 0 and 0. */
static void begin_transfer(void) {
    begin_running("a transfer");
    *field(3, KEXBARDI_FIELD_MODE) = KEXBARDI_AUTOMATIC;
    *word(3, KEXBARDI_MODE_1) |= KEXBARDI_M1_CASCADE;
    *word(3, KEXBARDI_POINTER) = (uint16_t)KEXBARDI_ADDRESS(4, KEXBARDI_OUTPUT);
    equals("to loop 4", forecast(3), 16);
}

static void wrong_transfers(void) {
    static const unsigned pointers[] = {0, 4, 6, 69, 100, 102, 511, 512, 517, 1023}; /* 69 is its own output, 101 that of loop 4 */
    for (unsigned n = 0; n < sizeof pointers / sizeof *pointers; n++) {
        begin_transfer();
        refuses_word("a pointer to no other output", word(3, KEXBARDI_POINTER), 101, pointers[n], 11);
        *word(3, KEXBARDI_MODE_1) |= KEXBARDI_M1_BUMPLESS_II;
        equals("Bumpless II", forecast(3), 16);
        *word(3, KEXBARDI_MODE_1) = KEXBARDI_M1_PROFILE | KEXBARDI_M1_CASCADE;
        *field(3, KEXBARDI_FIELD_SEGMENT) = 0;
        refuses("where no profile runs", KEXBARDI_WORDS, KEXBARDI_NUMBERS, 3, 11);
        *field(3, KEXBARDI_FIELD_MODE) = KEXBARDI_CASCADE;
        equals("no change", forecast(3), 0);
    }
    begin_transfer();
    *word(3, KEXBARDI_POINTER) = 700, desk.words[700] = 4096;
    refuses("a setpoint before a pointer to no output", KEXBARDI_WORDS, KEXBARDI_NUMBERS, 3, 14);
    desk.words[700] = 4095;
    refuses("the pointer alone", KEXBARDI_WORDS, KEXBARDI_NUMBERS, 3, 11);
    begin_transfer();
    refuses_word("0 below the low limit", word(4, KEXBARDI_OUTPUT_LOW), 0, 1, 11);
    *word(4, KEXBARDI_OUTPUT_HIGH) = 4095;
    refuses("whatever the high one", KEXBARDI_WORDS, KEXBARDI_NUMBERS, 3, 11);
    *word(4, KEXBARDI_OUTPUT) = 4096;
    refuses("a setpoint before it", KEXBARDI_WORDS, KEXBARDI_NUMBERS, 3, 14);
    *word(3, KEXBARDI_PERIOD) = 0x0004;
    refuses("a time before both", KEXBARDI_WORDS, KEXBARDI_NUMBERS, 3, 12);
    *word(3, KEXBARDI_RATE) = 0x000A;
    refuses("a digit before them", KEXBARDI_WORDS, KEXBARDI_NUMBERS, 3, 7);
}

int main(int count, char **args) {
    unsigned long tables = count == 2 ? strtoul(args[1], NULL, 10) : 1000;
    for (; tables > 0; tables--) random_table();
    longest();
    shortest();
    by_hand();
    none();
    wrong_calls();
    wrong_records();
    wrong_digits();
    wrong_settings();
    first_of_several();
    wrong_transfers();
    printf("%u passed, %u failed\n", passed, failed);
    return failed != 0;
}
