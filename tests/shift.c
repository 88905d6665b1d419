/* A whole shift on the archive and on the plain engine: sixteen loops, 20 samples a second each, eight hours.
 * Every loop is closed over a small process, and an instructor changes setpoints, gains and modes. Some loops follow
 * profiles of half an hour and more, which the instructor starts, holds, resumes and jogs. In Cascade the loops with
 * Bumpless I follow another loop's output, which from Automatic is a transfer. Nine loops have an output format of their own, every
 * pair of formats one of them. It links the archive and bench/plain_engine.c:
 *   gcc -O2 -std=c99 -Itarget/kexbardi/include -Ibench tests/shift.c bench/plain_engine.c target/kexbardi/lib/libkexbardi.a */
#include "kexbardi.h"
#include "plain_engine.h"

#include <stdio.h>
#include <stdlib.h>
#include <string.h>

#define SAMPLES (16L * 20 * 3600 * 8)
#define PARTS 1024 /* a process's level is in 1/1,024 of a count */
#define MASTER 600 /* the word that the loops with Bumpless II follow in Cascade; in no table of those below */

struct desk {
    uint16_t words[KEXBARDI_WORDS];
    int64_t records[KEXBARDI_NUMBERS];
    uint16_t line[4];
};

/* a first-order lag from the output to the raw PV, from one full scale to the other */
struct process {
    int64_t level;
    int lag, reverse, full, out_full;
};

static struct desk ours, plain;
static struct process processes[KEXBARDI_LOOPS];
static uint64_t seed = 88172645463325252ull;
static long completed[KEXBARDI_LOOPS], in_segment[KEXBARDI_SEGMENTS + 1], transfers[KEXBARDI_LOOPS], by_mark[KEXBARDI_LOOPS];

/* 0 to below - 1 */
static unsigned any(unsigned below) {
    seed ^= seed << 13, seed ^= seed >> 7, seed ^= seed << 17;
    return (unsigned)(seed >> 20) % below;
}

static unsigned bcd(unsigned n) { return n / 1000 % 10 << 12 | n / 100 % 10 << 8 | n / 10 % 10 << 4 | n % 10; }

static void fail(long at, const char *what) {
    printf("sample %ld: %s\n", at, what);
    exit(1);
}

static void store(unsigned address, unsigned value) {
    uint8_t a = kexbardi_store(ours.words, KEXBARDI_WORDS, ours.records, KEXBARDI_NUMBERS, address, (uint16_t)value);
    uint8_t b = plain_store(plain.words, KEXBARDI_WORDS, plain.records, KEXBARDI_NUMBERS, address, (uint16_t)value);
    if (a != 0 || b != 0) fail(0, "a store is refused");
}

/* the loops with a profile: every format and form, both kinds of Bumpless, freeze, deadband and reverse */
static int has_profile(unsigned loop) { return loop % 4 == 2 || loop == 9 || loop == 16; }

static int has_bumpless_2(unsigned loop) { return loop % 4 == 1; }

/* the formats, 0, 1 and 2 for 12, 15 and 16 bits: the nine pairs in loops 8 to 16 */
static const unsigned full_scales[] = {KEXBARDI_FULL_12, KEXBARDI_FULL_15, KEXBARDI_FULL_16};

static unsigned input_format(unsigned loop) { return loop % 3; }

static int has_output_format(unsigned loop) { return loop >= 8; }

static unsigned output_format(unsigned loop) { return has_output_format(loop) ? loop / 3 % 3 : input_format(loop); }

static unsigned mode_2(unsigned loop) {
    static const unsigned inputs[] = {0, KEXBARDI_M2_FIFTEEN_BITS, KEXBARDI_M2_SIXTEEN_BITS};
    static const unsigned outputs[] = {0, KEXBARDI_M2_OUTPUT_FIFTEEN_BITS, KEXBARDI_M2_OUTPUT_SIXTEEN_BITS};
    unsigned word = inputs[input_format(loop)];
    return has_output_format(loop) ? word | KEXBARDI_M2_OUTPUT_FORMAT | outputs[output_format(loop)] : word;
}

/* the loop whose output a loop with Bumpless I follows: the next one whose output has the format of this loop's input */
static unsigned major_of(unsigned loop) {
    unsigned major = loop;
    do major = major % KEXBARDI_LOOPS + 1;
    while (output_format(major) != input_format(loop));
    return major;
}

/* mode 1: a request, alarms watched, and what this loop is for its whole life */
static unsigned mode_1(unsigned loop, unsigned request) {
    unsigned always = 0x7000;
    if (has_profile(loop)) always |= KEXBARDI_M1_PROFILE;
    if (processes[loop - 1].reverse) always |= 1 << 4;
    if (loop % 4 == 0) always |= 1 << 5;
    else if (has_bumpless_2(loop)) always |= 1 << 3;
    if (loop % 5 == 0) always |= 1 << 8;
    if (loop % 6 == 0) always |= 1 << 10;
    if (loop == 7) always |= 1 << 7;
    if (loop == 11) always |= 1 << 6;
    return always | 1u << request;
}

/* A setpoint between a quarter and three quarters of full scale. */
static unsigned setpoint(unsigned full) { return full / 4 + any(full / 2); }

/* Ramps of 0.1 % of full scale a second between setpoints, soaks of half a minute to three minutes. */
static void fill_table(unsigned table, unsigned full) {
    for (unsigned n = 1; n <= KEXBARDI_SEGMENTS; n += 2) {
        unsigned ramp = table + KEXBARDI_SEGMENT(n), soak = table + KEXBARDI_SEGMENT(n + 1);
        store(ramp + KEXBARDI_END, setpoint(full));
        store(ramp + KEXBARDI_SLOPE, bcd(full / 10));
        store(soak + KEXBARDI_DURATION, bcd(5 + any(26)));
        store(soak + KEXBARDI_DEVIATION, full / 200);
    }
}

static void settle(unsigned loop) {
    unsigned base = KEXBARDI_ADDRESS(loop, 0), full = full_scales[input_format(loop)], out_full = full_scales[output_format(loop)];
    struct process *process = &processes[loop - 1];
    process->level = 0;
    process->lag = 40 + 10 * (int)loop;
    process->reverse = loop % 7 == 0;
    process->full = (int)full;
    process->out_full = (int)out_full;
    store(base + KEXBARDI_MODE_2, mode_2(loop));
    store(base + KEXBARDI_SETPOINT, setpoint(full));
    store(base + KEXBARDI_OUTPUT, out_full / 3);
    store(base + KEXBARDI_PERIOD, bcd(5));
    store(base + KEXBARDI_GAIN, bcd(50 + 10 * loop));
    store(base + KEXBARDI_RESET, bcd(loop == 13 ? 9999 : 200 + 50 * loop));
    store(base + KEXBARDI_RATE, bcd(loop % 3 == 0 ? 25 : 0));
    for (unsigned n = 0; n < 4; n++) store(base + KEXBARDI_LOW_LOW + n, full / 5 * (n + 1));
    store(base + KEXBARDI_YELLOW, full / 20);
    store(base + KEXBARDI_RED, full / 10);
    store(base + KEXBARDI_CHANGE, full / 200);
    store(base + KEXBARDI_HYSTERESIS, 10);
    store(base + KEXBARDI_DEADBAND, full / 500);
    store(base + KEXBARDI_OUTPUT_LOW, loop % 2 * out_full / 20);
    store(base + KEXBARDI_OUTPUT_HIGH, out_full - loop % 2 * out_full / 20);
    store(base + KEXBARDI_POINTER, has_bumpless_2(loop) ? MASTER : KEXBARDI_ADDRESS(major_of(loop), KEXBARDI_OUTPUT));
    store(base + KEXBARDI_MODE_1, mode_1(loop, 1));
    if (has_profile(loop)) {
        store(base + KEXBARDI_PROFILE_TABLE, KEXBARDI_TABLE_FIRST + KEXBARDI_TABLE_WORDS * (loop - 1));
        fill_table(KEXBARDI_TABLE_FIRST + KEXBARDI_TABLE_WORDS * (loop - 1), full);
        store(base + KEXBARDI_PROFILE_FLAGS, KEXBARDI_P_START);
    }
}

/* The raw PV after a twentieth of a second: the lag, and noise of a few counts. */
static uint16_t measure(unsigned loop) {
    struct process *process = &processes[loop - 1];
    int64_t out = ours.words[KEXBARDI_ADDRESS(loop, KEXBARDI_OUTPUT)], valve = process->reverse ? process->out_full - out : out;
    process->level += (valve * PARTS * process->full / process->out_full - process->level) / process->lag;
    int64_t raw = process->level / PARTS + (int64_t)any(9) - 4;
    return (uint16_t)(raw < 0 ? 0 : raw > process->full ? process->full : raw);
}

/* A profile that has ended gets new ends and durations and is started again; a held one goes on. */
static void command(unsigned loop) {
    unsigned base = KEXBARDI_ADDRESS(loop, 0), flags = ours.words[base + KEXBARDI_PROFILE_FLAGS];
    if (KEXBARDI_P_SEGMENT(flags) == 0) {
        fill_table(ours.words[base + KEXBARDI_PROFILE_TABLE], (unsigned)processes[loop - 1].full);
        store(base + KEXBARDI_PROFILE_FLAGS, KEXBARDI_P_START);
    } else if (flags & KEXBARDI_P_HELD) {
        store(base + KEXBARDI_PROFILE_FLAGS, KEXBARDI_P_RESUME);
    } else if (any(3) == 0) {
        store(base + KEXBARDI_PROFILE_FLAGS, any(2) ? KEXBARDI_P_HOLD : KEXBARDI_P_JOG);
    }
}

/* Whether the PV is well inside the major loop's output limits, which are of the same scale: then a transfer is not refused. */
static int may_follow(unsigned loop) {
    int full = processes[loop - 1].full, pv = ours.words[KEXBARDI_ADDRESS(loop, KEXBARDI_PV)];
    return pv > full / 8 && pv < full - full / 8;
}

/* Once in about five minutes of a loop: a setpoint, a gain, a mode, an output by hand, and a profile's command. */
static void instruct(unsigned loop) {
    unsigned base = KEXBARDI_ADDRESS(loop, 0), full = (unsigned)processes[loop - 1].full, word = ours.words[base + KEXBARDI_MODE_1];
    unsigned out_full = (unsigned)processes[loop - 1].out_full;
    switch (any(9)) {
    case 0: case 1: store(base + KEXBARDI_SETPOINT, setpoint(full)); break;
    case 2: store(base + KEXBARDI_GAIN, bcd(20 + any(200))); break;
    case 3: store(base + KEXBARDI_MODE_1, word | 1), store(base + KEXBARDI_OUTPUT, any(out_full + 1)); break;
    case 4: case 5: store(base + KEXBARDI_MODE_1, word | 2); break;
    case 6: case 7: if (may_follow(loop)) store(base + KEXBARDI_MODE_1, word | 4); break;
    default: store(MASTER, setpoint(4095)); break;
    }
    if (has_profile(loop)) command(loop);
}

static void compare(long at) {
    if (memcmp(ours.words, plain.words, sizeof ours.words) != 0) fail(at, "the words differ");
    if (memcmp(ours.records, plain.records, sizeof ours.records) != 0) fail(at, "the records differ");
    for (unsigned loop = 1; loop <= KEXBARDI_LOOPS; loop++) {
        uint64_t a = 0, b = 0;
        uint8_t refusal = kexbardi_forecast(ours.words, KEXBARDI_WORDS, ours.records, KEXBARDI_NUMBERS, loop, &a);
        if (refusal != plain_forecast(plain.words, KEXBARDI_WORDS, plain.records, KEXBARDI_NUMBERS, loop, &b) || a != b)
            fail(at, "the forecasts differ");
        if (refusal != 0) fail(at, "a forecast is refused");
        int running = ours.records[KEXBARDI_FIELDS * (loop - 1) + KEXBARDI_FIELD_SEGMENT] > 0;
        if ((a > 0) != running) fail(at, "a forecast and no profile, or a profile and no forecast");
    }
}

/* Before a sample: whether it is a transfer, and whether it is an entry by the mark alone. */
static void count_cascade(unsigned loop) {
    const int64_t *record = ours.records + KEXBARDI_FIELDS * (loop - 1);
    unsigned word = ours.words[KEXBARDI_ADDRESS(loop, KEXBARDI_MODE_1)];
    if (record[KEXBARDI_FIELD_MODE] == KEXBARDI_MANUAL || word & KEXBARDI_M1_MANUAL) return;
    by_mark[loop - 1] += record[KEXBARDI_FIELD_MARK] == 1;
    transfers[loop - 1] += record[KEXBARDI_FIELD_MODE] == KEXBARDI_AUTOMATIC && !has_bumpless_2(loop)
        && (word & KEXBARDI_M1_REQUESTS) == KEXBARDI_M1_CASCADE;
}

static void sample(long at, unsigned loop) {
    uint16_t raw = measure(loop);
    count_cascade(loop);
    const uint16_t *flags = ours.words + KEXBARDI_ADDRESS(loop, KEXBARDI_PROFILE_FLAGS);
    unsigned before = KEXBARDI_P_SEGMENT(*flags);
    uint8_t a = kexbardi_sample(ours.words, KEXBARDI_WORDS, ours.records, KEXBARDI_NUMBERS, loop, raw, ours.line);
    uint8_t b = plain_sample(plain.words, KEXBARDI_WORDS, plain.records, KEXBARDI_NUMBERS, loop, raw, plain.line);
    if (a != b) fail(at, "the answers differ");
    if (a != 0) fail(at, "both refuse");
    if (memcmp(ours.line, plain.line, sizeof ours.line) != 0) fail(at, "the lines differ");
    in_segment[KEXBARDI_P_SEGMENT(*flags)]++;
    completed[loop - 1] += before > 0 && *flags & KEXBARDI_P_COMPLETE;
}

/* Every profile came to its end at least once, and every segment had its time. */
static void check_profiles(void) {
    long all = 0;
    for (unsigned loop = 1; loop <= KEXBARDI_LOOPS; loop++) {
        all += completed[loop - 1];
        if (has_profile(loop) != (completed[loop - 1] > 0)) fail(SAMPLES, "the profiles do not come to their end");
    }
    for (unsigned n = 1; n <= KEXBARDI_SEGMENTS; n++)
        if (in_segment[n] == 0) fail(SAMPLES, "a segment is never reached");
    printf("%ld profiles completed\n", all);
}

/* Every loop with Bumpless I made a transfer, and every loop that one of them follows had an entry by its mark. */
static void check_cascades(void) {
    long all = 0, entries = 0;
    for (unsigned loop = 1; loop <= KEXBARDI_LOOPS; loop++) {
        all += transfers[loop - 1];
        entries += by_mark[loop - 1];
        if (has_bumpless_2(loop) != (transfers[loop - 1] == 0)) fail(SAMPLES, "a loop makes no transfer");
        if (!has_bumpless_2(loop) && by_mark[major_of(loop) - 1] == 0) fail(SAMPLES, "a loop has no entry by its mark");
    }
    printf("%ld transfers, %ld entries by a mark alone\n", all, entries);
}

int main(void) {
    long near = 0;
    memset(&ours, 0xa5, sizeof ours);
    memset(&plain, 0x5a, sizeof plain);
    if (kexbardi_reset(ours.words, KEXBARDI_WORDS, ours.records, KEXBARDI_NUMBERS) != 0) fail(0, "the reset is refused");
    plain_reset(plain.words, KEXBARDI_WORDS, plain.records, KEXBARDI_NUMBERS);
    for (unsigned loop = 1; loop <= KEXBARDI_LOOPS; loop++) settle(loop);
    store(MASTER, 2000);
    for (long at = 0; at < SAMPLES; at++) {
        unsigned loop = (unsigned)(at % KEXBARDI_LOOPS) + 1;
        if (any(6000) == 0) instruct(loop);
        sample(at + 1, loop);
        near += abs(ours.line[KEXBARDI_LINE_SETPOINT] - ours.line[KEXBARDI_LINE_PV]) <= processes[loop - 1].full / 100;
        if (at % 1000 == 999) compare(at + 1);
    }
    compare(SAMPLES);
    check_profiles();
    check_cascades();
    printf("%ld samples within 1 %% of the setpoint\n", near);
    if (near < SAMPLES / 2) fail(SAMPLES, "the loops do not control");
    printf("%ld samples: equal\n", SAMPLES);
    return 0;
}
