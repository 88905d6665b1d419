/* Every function of kexbardi.h, but kexbardi_setup, which tests/setup.c calls, with good input and with each kind of
 * bad input, in the common subset of C99 and C++11; it links the archive alone:
 *   gcc -std=c99 -Itarget/kexbardi/include tests/calls.c target/kexbardi/lib/libkexbardi.a
 *   g++ -x c++ -std=c++11 -Itarget/kexbardi/include tests/calls.c -x none target/kexbardi/lib/libkexbardi.a
 * All lent memory lies between guard zones. After a refusal it must be what it was, byte for byte, zones
 * included; after an accepted call only what the header names may have changed. */
#include "kexbardi.h"

#include <stdio.h>
#include <string.h>

#define GUARD 32 /* elements before and behind each lent piece; a length that is too great reaches into them */
#define ANSWERS 64
#define LONGEST 65537

/* what is lent, each piece in the middle of an array */
struct lent {
    int64_t records[GUARD + KEXBARDI_NUMBERS + GUARD], fields[GUARD + KEXBARDI_FIELDS + GUARD];
    uint64_t samples[GUARD + 1 + GUARD];
    size_t count[GUARD + 1 + GUARD], refused[GUARD + 1 + GUARD], length[GUARD + 1 + GUARD];
    uint16_t words[GUARD + KEXBARDI_WORDS + GUARD], line[GUARD + 4 + GUARD];
    uint8_t answers[GUARD + ANSWERS + GUARD], file[GUARD + 512 + GUARD];
};

static struct lent lent, before;
static uint16_t *const words = lent.words + GUARD, *const line = lent.line + GUARD;
static int64_t *const records = lent.records + GUARD, *const fields = lent.fields + GUARD;
static uint8_t *const answers = lent.answers + GUARD, *const file = lent.file + GUARD;
static size_t *const count = lent.count + GUARD, *const refused = lent.refused + GUARD, *const text_length = lent.length + GUARD;
static uint64_t *const samples = lent.samples + GUARD; /* of a forecast */
static size_t size; /* of the file */

/* the text of a print, with its zones, and a copy; the longest file and one byte more */
static uint8_t out[GUARD + KEXBARDI_PRINT_ROOM(LONGEST) + GUARD], out_before[sizeof out], long_file[LONGEST];

static unsigned passed, failed;
static const char *test = "";

static void check(const char *what, int holds) {
    if (holds) passed++;
    else failed++, printf("tests/calls: %s: %s\n", test, what);
}

static void equals(const char *what, int64_t is, int64_t expected) {
    if (is != expected) printf("tests/calls: %s: %s is %lld, not %lld\n", test, what, (long long)is, (long long)expected);
    if (is == expected) passed++;
    else failed++;
}

/* ---- calls that watch the lent memory */

static void keep(void) { memcpy(&before, &lent, sizeof lent); }

/* A part of the lent memory that the call was free to write. */
static void free_to_write(const void *part, size_t bytes) {
    size_t at = (size_t)((const char *)part - (const char *)&lent);
    memcpy((char *)&before + at, part, bytes);
}

static void nothing_else_changed(uint8_t answer) {
    check(answer ? "a refusal leaves all memory as it was" : "nothing else is written", memcmp(&before, &lent, sizeof lent) == 0);
}

static uint8_t reset_of(size_t words_length, size_t records_length) {
    keep();
    uint8_t answer = kexbardi_reset(words, words_length, records, records_length);
    if (answer == 0) {
        memset(before.words + GUARD, 0, KEXBARDI_WORDS * sizeof *words);
        memset(before.records + GUARD, 0, KEXBARDI_NUMBERS * sizeof *records);
    }
    nothing_else_changed(answer);
    return answer;
}

static uint8_t store_of(size_t words_length, size_t records_length, uint64_t address, unsigned value) {
    keep();
    uint8_t answer = kexbardi_store(words, words_length, records, records_length, address, (uint16_t)value);
    if (answer == 0 && address < KEXBARDI_WORDS) before.words[GUARD + address] = (uint16_t)value;
    nothing_else_changed(answer);
    return answer;
}

/* What an accepted sample does to words 27 and 29, `was` before it and `now` after: in Cascade nothing, and nothing to
 * the record's five numbers of a profile; else word 29 is by G2, and word 27 is 0 (G4) or says what the record does (G10). */
static void profile_words(uint16_t *was, const uint16_t *now, const int64_t *old, const int64_t *r) {
    const unsigned on = was[0] & 2048, table = was[28];
    if (r[0] == 2) {
        check("the profile waits in Cascade", memcmp(old + 8, r + 8, 5 * sizeof *r) == 0);
        return;
    }
    was[29] = (uint16_t)(!on ? 0 : table < 512 ? 1 : table > 992 ? 2 : 0);
    if (on && was[29] == 0) was[27] = (uint16_t)(256 * r[8] + 64 * r[9] + 16 * r[10] + (now[27] & 32));
    else was[27] = 0, check("no profile", r[8] == 0 && r[9] == 0 && r[10] == 0 && old[11] == r[11] && old[12] == r[12]);
}

/* What it does to another loop, `was` and `old` before it, `now` and `r` after: nothing but at a transfer (A13), and then word 5 is
 * p and the mark 1. Its own mark stays in Manual, else it is 0. */
static void transfer_words(const uint16_t *was, const uint16_t *now, const int64_t *old, const int64_t *r) {
    equals("the mark", r[13], r[0] == 0 ? old[13] : 0);
    if (old[0] != 1 || r[0] != 2 || was[0] & 8) return;
    check("a transfer to a word 5", was[26] < 512 && was[26] % 32 == 5);
    if (was[26] >= 512) return;
    before.words[GUARD + was[26]] = now[3];
    before.records[GUARD + 14 * (was[26] / 32) + 13] = 1;
}

static uint8_t sample_of(size_t words_length, size_t records_length, uint64_t loop, uint64_t raw) {
    keep();
    uint8_t answer = kexbardi_sample(words, words_length, records, records_length, loop, raw, line);
    if (answer == 0 && loop >= 1 && loop <= KEXBARDI_LOOPS) {
        const size_t table = KEXBARDI_ADDRESS(loop, 0), place = KEXBARDI_FIELDS * (loop - 1);
        const uint16_t *w = words + table;
        profile_words(before.words + GUARD + table, w, before.records + GUARD + place, records + place);
        transfer_words(before.words + GUARD + table, w, before.records + GUARD + place, records + place);
        before.words[GUARD + table] &= 0xfff8; /* the request bits are cleared, the others stay */
        free_to_write(w + 2, 5 * sizeof *w);
        free_to_write(records + place, KEXBARDI_FIELDS * sizeof *records);
        free_to_write(line, 4 * sizeof *line);
        check("the line is words 2, 3, 5 and 6", line[0] == w[2] && line[1] == w[3] && line[2] == w[5] && line[3] == w[6]);
    }
    nothing_else_changed(answer);
    return answer;
}

static uint8_t record_of(size_t records_length, uint64_t loop) {
    keep();
    uint8_t answer = kexbardi_record(records, records_length, loop, fields);
    if (answer == 0 && loop >= 1 && loop <= KEXBARDI_LOOPS)
        memcpy(before.fields + GUARD, records + KEXBARDI_FIELDS * (loop - 1), KEXBARDI_FIELDS * sizeof *fields);
    nothing_else_changed(answer);
    return answer;
}

/* A forecast; and what a sample with raw PV 0 answers to the same memory, on a copy: the refusal is one (G12). */
static uint8_t forecast_of(size_t words_length, size_t records_length, uint64_t loop) {
    static uint16_t words_copy[KEXBARDI_WORDS + GUARD], line_copy[4];
    static int64_t records_copy[KEXBARDI_NUMBERS + GUARD];
    keep();
    uint8_t answer = kexbardi_forecast(words, words_length, records, records_length, loop, samples);
    if (answer == 0) free_to_write(samples, sizeof *samples);
    nothing_else_changed(answer);
    memcpy(words_copy, words, sizeof words_copy);
    memcpy(records_copy, records, sizeof records_copy);
    equals("the forecast's answer, as of a sample", answer,
        kexbardi_sample(words_copy, words_length, records_copy, records_length, loop, 0, line_copy));
    return answer;
}

static uint8_t run_of(size_t words_length, size_t records_length, size_t room) {
    keep();
    uint8_t answer = kexbardi_run(file, size, words, words_length, records, records_length, answers, room, count, refused);
    if (answer == 0) {
        free_to_write(words, KEXBARDI_WORDS * sizeof *words);
        free_to_write(records, KEXBARDI_NUMBERS * sizeof *records);
        free_to_write(answers, *count < room ? *count : room);
        free_to_write(count, sizeof *count);
        free_to_write(refused, sizeof *refused);
    }
    nothing_else_changed(answer);
    return answer;
}

/* A print into the middle of `out`; the file is not part of the watched memory where it is a long one. */
static uint8_t print_of(const uint8_t *from, size_t bytes, size_t room) {
    keep();
    memcpy(out_before, out, sizeof out);
    uint8_t answer = kexbardi_print(from, bytes, out + GUARD, room, text_length);
    if (answer == 0) {
        free_to_write(text_length, sizeof *text_length);
        memcpy(out_before + GUARD, out + GUARD, *text_length <= room ? *text_length : room);
    }
    nothing_else_changed(answer);
    check(answer ? "the text's memory stays" : "bytes around and behind the text stay", memcmp(out, out_before, sizeof out) == 0);
    return answer;
}

static uint8_t reset(void) { return reset_of(KEXBARDI_WORDS, KEXBARDI_NUMBERS); }

static uint8_t store(uint64_t address, unsigned value) { return store_of(KEXBARDI_WORDS, KEXBARDI_NUMBERS, address, value); }

static uint8_t sample(uint64_t loop, uint64_t raw) { return sample_of(KEXBARDI_WORDS, KEXBARDI_NUMBERS, loop, raw); }

static uint8_t record(uint64_t loop) { return record_of(KEXBARDI_NUMBERS, loop); }

static uint8_t forecast(uint64_t loop) { return forecast_of(KEXBARDI_WORDS, KEXBARDI_NUMBERS, loop); }

static uint8_t run(size_t room) { return run_of(KEXBARDI_WORDS, KEXBARDI_NUMBERS, room); }

/* ---- the bytes of a drill file */

static void byte(unsigned value) { file[size++] = (uint8_t)value; }

static void pair(unsigned value) { byte(value & 255), byte(value >> 8); }

static void file_store(unsigned address, unsigned value) { pair(6), pair(1), pair(address), pair(value); }

static void file_sample(unsigned loop, unsigned raw) { pair(5), pair(2), byte(loop), pair(raw); }

/* ---- loop A */

static const uint16_t loop_a_stores[6][2] = {{5, 2000}, {25, 4095}, {7, 256}, {8, 512}, {9, 4096}, {0, 2}};

static void file_loop_a(void) {
    for (int n = 0; n < 6; n++) file_store(loop_a_stores[n][0], loop_a_stores[n][1]);
}

/* a desk at reset with loop A's settings in one of its loops */
static void settle(unsigned loop) {
    for (unsigned n = 0; n < 6; n++)
        equals("a store of loop A", store(KEXBARDI_ADDRESS(loop, loop_a_stores[n][0]), loop_a_stores[n][1]), 0);
}

static void begin(const char *name) {
    test = name;
    memset(&lent, 0xa5, sizeof lent);
    memset(out, 0xa5, sizeof out);
    size = 0;
    equals("reset", reset(), 0);
}

static void begin_loop_a(const char *name) {
    begin(name);
    settle(1);
}

/* Loop A with a profile whose table stands at 512, about to enter Automatic and to start it: up to 1,010 by 3.00 a second,
 * 0.2 minutes within 40, down to 1,000 by 2.50, 0.1 minutes. Segment 5 has slope 0. */
static const uint16_t profile_stores[][2] = {{512, 1010}, {513, 0x0300}, {514, 0x0002}, {515, 40}, {516, 1000}, {517, 0x0250},
    {518, 0x0001}, {28, 512}, {0, 2 | 2048}, {27, 1}};

static void begin_profile(const char *name) {
    begin_loop_a(name);
    for (size_t n = 0; n < sizeof profile_stores / sizeof *profile_stores; n++)
        equals("a store of the profile", store(profile_stores[n][0], profile_stores[n][1]), 0);
}

static void check_line(unsigned setpoint, unsigned pv, unsigned output, unsigned status) {
    equals("setpoint", line[KEXBARDI_LINE_SETPOINT], setpoint);
    equals("PV", line[KEXBARDI_LINE_PV], pv);
    equals("output", line[KEXBARDI_LINE_OUTPUT], output);
    equals("status", line[KEXBARDI_LINE_STATUS], status);
}

#define UNITS(counts) ((int64_t)262144 * (counts))

/* The record of a loop that has no profile and no mark; bias and output are in units. */
static void check_record(unsigned loop, int64_t mode, int64_t bias, int64_t output, int64_t last, int64_t prior, int64_t error,
    int64_t velocity, int64_t sampled) {
    equals("record", record(loop), 0);
    equals("mode", fields[KEXBARDI_FIELD_MODE], mode);
    equals("carried bias", fields[KEXBARDI_FIELD_BIAS], bias);
    equals("carried output", fields[KEXBARDI_FIELD_OUTPUT], output);
    equals("last PV", fields[KEXBARDI_FIELD_LAST_PV], last);
    equals("PV before it", fields[KEXBARDI_FIELD_PRIOR_PV], prior);
    equals("last error", fields[KEXBARDI_FIELD_ERROR], error);
    equals("velocity", fields[KEXBARDI_FIELD_VELOCITY], velocity);
    equals("sampled", fields[KEXBARDI_FIELD_SAMPLED], sampled);
    for (int n = KEXBARDI_FIELD_SEGMENT; n < KEXBARDI_FIELDS; n++) equals("a number of the profile, or the mark", fields[n], 0);
}

static void check_worked_loop(unsigned loop) {
    settle(loop);
    equals("line 7", sample(loop, 1000), 0);
    check_line(1000, 1000, 2000, 0x0002);
    equals("bias", words[KEXBARDI_ADDRESS(loop, KEXBARDI_BIAS)], 2000);
    check_record(loop, 1, UNITS(2000), UNITS(2000), 1000, 1000, 0, 0, 1);
    equals("line 8", store(KEXBARDI_ADDRESS(loop, KEXBARDI_SETPOINT), 1500), 0);
    equals("line 9", sample(loop, 1000), 0);
    check_line(1500, 1000, 3100, 0x0002);
    equals("bias", words[KEXBARDI_ADDRESS(loop, KEXBARDI_BIAS)], 2100);
    check_record(loop, 1, UNITS(2100), UNITS(3100), 1000, 1000, 500, 0, 1);
    equals("line 10", sample(17, 0), 4);
}

static void worked_loop(void) {
    for (unsigned loop = 1; loop <= KEXBARDI_LOOPS; loop++) {
        begin("worked loop");
        check_worked_loop(loop);
    }
}

/* ---- X1 to X3: loop A with mode 1 at store 6, stores before line 9, then the raw PVs from line 9 on */

struct worked {
    const char *name;
    uint16_t mode_1, stores[3][2], raws[3];
    int samples, output, bias, status; /* -1: X2 and X3 do not say */
};

#define SAME {601, 0} /* a store that changes no setting */
static const struct worked starred_cases[] = {
    {"line 9", 2, {SAME, SAME, SAME}, {1000, 0, 0}, 1, 3100, 2100, 0x0002},
    {"then PV 0", 2, {SAME, SAME, SAME}, {1000, 0, 0}, 2, 4095, 1095, 0x0802},
    {"then PV 1500", 2, {SAME, SAME, SAME}, {1000, 0, 1500}, 3, 1095, -1, -1},
    {"the last with freeze", 2, {{0, 1024}, SAME, SAME}, {1000, 0, 1500}, 3, 2100, -1, -1},
    {"reset 9999", 2, {{9, 0x9999}, SAME, SAME}, {1000, 0, 0}, 1, 3000, -1, -1},
    {"gain 0", 2, {{8, 0}, SAME, SAME}, {1000, 0, 0}, 1, 2050, -1, -1},
    {"reverse", 2, {{0, 16}, SAME, SAME}, {1000, 0, 0}, 1, 900, -1, -1},
    {"squared", 2, {{0, 128}, SAME, SAME}, {1000, 0, 0}, 1, 2134, -1, -1},
    {"deadband 501", 2, {{0, 256}, {19, 501}, SAME}, {1000, 0, 0}, 1, 2000, -1, -1},
    {"deadband 500", 2, {{0, 256}, {19, 500}, SAME}, {1000, 0, 0}, 1, 3100, -1, -1},
    {"velocity before line 7", 34, {SAME, SAME, SAME}, {1000, 0, 0}, 1, 3100, -1, -1},
    {"rate 1.00, PV 1010", 2, {{10, 256}, SAME, SAME}, {1010, 0, 0}, 1, 3058, -1, -1},
};

/* more of the kind, worked by hand from A1 to A11 */
static const struct worked further_cases[] = {
    {"reset in minutes", 2, {{1, 16}, SAME, SAME}, {1000, 0, 0}, 1, 3002, 2002, 0x0002},
    {"at the low limit", 2, {{0, 16}, SAME, SAME}, {0, 0, 0}, 1, 0, 3000, 0x0802},
    {"bias below 0", 2, {{2, 3000}, SAME, SAME}, {0, 0, 0}, 1, 4095, 0, 0x0802},
    {"bias above full scale", 2, {{0, 16}, {2, 3000}, {25, 3000}}, {0, 0, 0}, 1, 0, 4095, 0x0802},
    {"velocity with rate", 34, {{10, 256}, SAME, SAME}, {1010, 1030, 0}, 2, 3092, 0, 0x0002},
    {"an entry by velocity", 2, {{0, 32}, SAME, SAME}, {1000, 0, 0}, 1, 2000, 2000, 0x0002},
    {"squared, outside the deadband", 2, {{0, 128 | 256}, {19, 100}, SAME}, {1000, 0, 0}, 1, 2134, -1, -1},
    {"Manual", 2, {{0, 1}, {25, 1500}, SAME}, {1000, 0, 0}, 1, 1500, 2000, 0x0001},
    {"half a count goes up", 2, {{8, 0x0050}, {9, 0x9999}, {2, 1001}}, {1000, 0, 0}, 1, 2001, 2000, 0x0002},
    {"rate of change, not at first", 2 | 16384, {SAME, SAME, SAME}, {1001, 0, 0}, 1, 3098, -1, 0x0202},
    /* e = 600: 2,000 + 120 + 1,200 + 200 is above 3,000; the bias is 3,000 - (1,200 + 200), not with the rate term's sign turned */
    {"rate term at the limit", 2, {{10, 256}, {25, 3000}, SAME}, {900, 0, 0}, 1, 3000, 1600, 0x0802},
    /* e = 500 reversed: 2,000 - 100 - 1,000 is below 1,000; the bias is 1,000 + 1,000 */
    {"below the low limit", 2, {{0, 16}, {24, 1000}, SAME}, {1000, 0, 0}, 1, 1000, 2000, 0x0802},
    /* 0.10 minutes are 6 s: I = 2 x 500/6 = 166.67 */
    {"reset 0.10 minutes", 2, {{1, 16}, {9, 0x0010}, SAME}, {1000, 0, 0}, 1, 3167, 2167, 0x0002},
    /* e = 400: 2,000 + 80 + 800 less D = 2 x 10 x 100 */
    {"rate 10.00, PV 1100", 2, {{10, 0x1000}, SAME, SAME}, {1100, 0, 0}, 1, 880, 2080, 0x0002},
    /* no P; I = 1 x 500/1 */
    {"gain 0, reset 1.00", 2, {{8, 0}, {9, 0x0100}, SAME}, {1000, 0, 0}, 1, 2500, 2500, 0x0002},
};

static void worked_case(const struct worked *c) {
    begin_loop_a(c->name);
    equals("mode 1", store(0, c->mode_1), 0);
    equals("line 7", sample(1, 1000), 0);
    check_line(1000, 1000, 2000, 0x0002);
    equals("line 8", store(2, 1500), 0);
    for (int k = 0; k < 3; k++) equals("setting", store(c->stores[k][0], c->stores[k][1]), 0);
    for (int k = 0; k < c->samples; k++) equals("sample", sample(1, c->raws[k]), 0);
    equals("output", line[KEXBARDI_LINE_OUTPUT], c->output);
    if (c->bias >= 0) equals("bias", words[KEXBARDI_BIAS], c->bias);
    if (c->status >= 0) equals("status", line[KEXBARDI_LINE_STATUS], c->status);
}

static void worked_cases(void) {
    for (size_t n = 0; n < sizeof starred_cases / sizeof *starred_cases; n++) worked_case(&starred_cases[n]);
    for (size_t n = 0; n < sizeof further_cases / sizeof *further_cases; n++) worked_case(&further_cases[n]);
}

/* An alarm's bit as the raw PV crosses its limit and comes back through the hysteresis. */
static void check_alarm(const char *name, unsigned watched, unsigned bit, const uint16_t raws[4]) {
    begin_loop_a(name);
    store(KEXBARDI_LOW_LOW, 500), store(KEXBARDI_LOW, 1000), store(KEXBARDI_HIGH, 3000), store(KEXBARDI_HIGH_HIGH, 4000);
    store(KEXBARDI_YELLOW, 100), store(KEXBARDI_RED, 200), store(KEXBARDI_HYSTERESIS, 10);
    store(0, 2 | watched);
    equals("entry", sample(1, 1500), 0);
    equals("all quiet", line[KEXBARDI_LINE_STATUS], 0x0002);
    for (int n = 0; n < 4; n++) {
        equals("sample", sample(1, raws[n]), 0);
        equals("alarm", line[KEXBARDI_LINE_STATUS] & bit, n == 1 || n == 2 ? (int64_t)bit : 0);
    }
}

static void alarms(void) {
    static const uint16_t low_low[] = {500, 499, 509, 510}, low[] = {1000, 999, 1009, 1010}, high[] = {3000, 3001, 2991, 2990},
                          high_high[] = {4000, 4001, 3991, 3990}, yellow[] = {1400, 1399, 1409, 1410}, red[] = {1700, 1701, 1691, 1690};
    check_alarm("low-low", 4096, 8, low_low);
    check_alarm("low", 4096, 16, low);
    check_alarm("high", 4096, 32, high);
    check_alarm("high-high", 4096, 64, high_high);
    check_alarm("yellow", 8192, 128, yellow);
    check_alarm("red", 8192, 256, red);
    begin_loop_a("root");
    store(0, 2 | 64);
    equals("sample", sample(1, 1000), 0);
    equals("root of 1,000 in 12 bits", line[KEXBARDI_LINE_PV], 2024); /* 4,095,000; 2,023 x 2,023 + 2,023 = 4,094,552 */
    equals("sample", sample(1, 4095), 0);
    equals("root of 4,095", line[KEXBARDI_LINE_PV], 4095);
    equals("sample", sample(1, 4094), 0);
    equals("root of 4,094", line[KEXBARDI_LINE_PV], 4094); /* 4,094 x 4,095 = 4,094 x 4,094 + 4,094, the last that goes down */
    equals("sample", sample(1, 1), 0);
    equals("root of 1", line[KEXBARDI_LINE_PV], 64); /* 4,095; 63 x 63 + 63 = 4,032 */
    equals("sample", sample(1, 2), 0);
    equals("root of 2", line[KEXBARDI_LINE_PV], 90); /* 8,190 = 90 x 90 + 90 */
    equals("sample", sample(1, 0), 0);
    equals("root of 0", line[KEXBARDI_LINE_PV], 0);
}

/* T3. Bit 10 in Manual, PV 1,000, with the limits 100, 200, 3,000, 3,500, deviation 100, 200 and hysteresis 10, one of
 * them changed so that two are equal. */
static void limits_equal(unsigned offset, unsigned value, unsigned watched, unsigned status) {
    static const uint16_t limits[7] = {100, 200, 3000, 3500, 100, 200, 0};
    begin_loop_a("limits out of order");
    for (unsigned n = 0; n < 7; n++) store(KEXBARDI_LOW_LOW + n, limits[n]);
    store(KEXBARDI_HYSTERESIS, 10), store(offset, value), store(KEXBARDI_MODE_1, 1 | watched);
    equals("sample", sample(1, 1000), 0);
    equals("status", line[KEXBARDI_LINE_STATUS], status);
}

static void limits_out_of_order(void) {
    limits_equal(601, 0, 4096 | 8192, 0x0001); /* none of them */
    limits_equal(KEXBARDI_LOW_LOW, 200, 4096, 0x0401);
    limits_equal(KEXBARDI_LOW, 3000, 4096, 0x0411); /* and below low */
    limits_equal(KEXBARDI_HIGH_HIGH, 3000, 4096, 0x0401);
    limits_equal(KEXBARDI_LOW_LOW, 200, 8192, 0x0001);
    limits_equal(KEXBARDI_RED, 100, 8192, 0x0401);
    limits_equal(KEXBARDI_YELLOW, 10, 8192, 0x0401); /* equal to the hysteresis */
    limits_equal(KEXBARDI_RED, 100, 4096, 0x0001);
}

/* ---- cascade */

static void cascade(void) {
    static const uint16_t pointers[] = {600, 512, 1023, 33, 34, 35, 2, 5, 26, 7};
    for (size_t n = 0; n < sizeof pointers / sizeof *pointers; n++) {
        begin_loop_a("cascade");
        store(0, 4), store(26, pointers[n]);
        if (pointers[n] > 32) words[pointers[n]] = 1234;
        uint16_t pointed = words[pointers[n]];
        equals("sample", sample(1, 1000), 0);
        equals("the word pointed to is the setpoint", line[KEXBARDI_LINE_SETPOINT], pointed);
        equals("mode", records[KEXBARDI_FIELD_MODE], 2);
    }
    begin_loop_a("cascade: what is not allowed");
    store(0, 4), store(26, 1024);
    equals("pointer 1,024", sample(1, 1000), 14);
    store(1, 512);
    for (unsigned pointer = 1024; pointer < 1024 + GUARD; pointer++) {
        store(26, pointer);
        equals("pointer above 1,023, 16 bits", sample(1, 1000), 14);
    }
    store(1, 0), store(26, 600), store(600, 4096);
    equals("word above full scale", sample(1, 1000), 14);
    store(600, 4095), store(2, 4096);
    equals("word 2 does not count", sample(1, 1000), 0);
    equals("setpoint", line[KEXBARDI_LINE_SETPOINT], 4095);
    store(600, 77);
    equals("no request keeps Cascade", sample(1, 1000), 0);
    equals("the word as it stands now", line[KEXBARDI_LINE_SETPOINT], 77);
}

/* ---- refusals of a direct call */

/* Every call on a desk whose memory does not have its lengths: 5, whatever else is wrong. */
static void wrong_lengths(size_t words_length, size_t records_length) {
    equals("reset", reset_of(words_length, records_length), 5);
    equals("store", store_of(words_length, records_length, 2, 1500), 5);
    equals("store: 5 before 6", store_of(words_length, records_length, 3, 1500), 5);
    equals("store: 5 before 6", store_of(words_length, records_length, 1024, 1500), 5);
    equals("sample", sample_of(words_length, records_length, 1, 1000), 5);
    equals("sample: 5 before 4", sample_of(words_length, records_length, 17, 1000), 5);
    equals("sample: 5 before 4", sample_of(words_length, records_length, 0, 1000), 5);
    equals("forecast", forecast_of(words_length, records_length, 1), 5);
    equals("forecast: 5 before 4", forecast_of(words_length, records_length, 17), 5);
    size = 0;
    equals("run: an empty file", run_of(words_length, records_length, ANSWERS), 5);
    file_sample(1, 1000);
    equals("run: one sample", run_of(words_length, records_length, ANSWERS), 5);
    memset(file, 0xff, size = 512);
    equals("run: a cut record", run_of(words_length, records_length, ANSWERS), 5);
    if (records_length == KEXBARDI_NUMBERS) return;
    equals("record", record_of(records_length, 1), 5);
    equals("record: 5 before 4", record_of(records_length, 17), 5);
    equals("record: 5 before 4", record_of(records_length, 0), 5);
}

static void lengths(void) {
    static const size_t word_counts[] = {1024, 0, 1, 224, 512, 1023, 1025, 1024 + GUARD},
                        number_counts[] = {224, 0, 14, 128, 208, 223, 225, 224 + GUARD};
    begin_profile("lengths");
    equals("sample", sample(1, 1000), 0);
    for (int n = 0; n < 8; n++)
        for (int m = 0; m < 8; m++)
            if (n > 0 || m > 0) wrong_lengths(word_counts[n], number_counts[m]);
    equals("the right lengths", sample_of(word_counts[0], number_counts[0], 1, 1000), 0);
    equals("the right lengths", forecast_of(word_counts[0], number_counts[0], 1), 0);
}

/* What can be wrong with one sample of loop A, in the order of testing: 1,023 words lent, no such loop, a number of the record out of
 * range, a digit above 9, a mode bit, hysteresis or table end, a time, an output limit, the setpoint, the raw PV, a transfer to no
 * output. */
enum fault { WORDS, LOOP, RECORD, DIGIT, SETTING, TIMES, LIMITS, SETPOINT, RAW, TRANSFER, FAULTS };
static const uint8_t fault_numbers[FAULTS + 1] = {KEXBARDI_MEMORY, KEXBARDI_LOOP, KEXBARDI_MEMORY, KEXBARDI_DIGIT, KEXBARDI_SETTING,
    KEXBARDI_SETTING_TIMES, KEXBARDI_SETTING_LIMITS, KEXBARDI_SETTING_SETPOINT, KEXBARDI_ABOVE, KEXBARDI_TRANSFER, KEXBARDI_ACCEPTED};

static int has(unsigned faults, enum fault fault) { return (faults >> fault & 1) != 0; }

/* the number of the first */
static uint8_t first_of(unsigned faults) {
    unsigned first = 0;
    while (first < FAULTS && !(faults >> first & 1)) first++;
    return fault_numbers[first];
}

/* A word of loop 1 or of its table that makes a number hold; each of a number's is taken in some of the turns. */
static const uint16_t wrong_digits[2][2] = {{KEXBARDI_GAIN, 0x000a}, {512 + KEXBARDI_SLOPE, 0x000a}};
static const uint16_t wrong_settings[5][2] = {{KEXBARDI_MODE_1, 512}, {KEXBARDI_MODE_2, 1}, {KEXBARDI_MODE_2, 0x1000},
    {KEXBARDI_HYSTERESIS, 0}, {512 + KEXBARDI_END, 4096}};
static const uint16_t wrong_times[2][2] = {{KEXBARDI_PERIOD, 4}, {KEXBARDI_RESET, 0}};
static const uint16_t wrong_limits[2][2] = {{KEXBARDI_OUTPUT_LOW, 4096}, {KEXBARDI_OUTPUT_HIGH, 4096}};

static void write_wrong(const uint16_t wrong[2]) {
    if (wrong[0] == KEXBARDI_MODE_1) words[KEXBARDI_MODE_1] |= wrong[1];
    else words[wrong[0]] = wrong[1];
}

/* Loop A in Automatic, all alarms watched, with a table, about to stay there or to change to Manual or Cascade, with these faults. */
static void order_words(unsigned turn, unsigned faults, unsigned request) {
    const unsigned pointer = KEXBARDI_ADDRESS(2, has(faults, TRANSFER) ? KEXBARDI_BIAS : KEXBARDI_OUTPUT);
    words[KEXBARDI_MODE_1] = (uint16_t)(0x7800 | request), words[KEXBARDI_HYSTERESIS] = 10, words[KEXBARDI_PROFILE_TABLE] = 512;
    words[KEXBARDI_POINTER] = (uint16_t)pointer, words[KEXBARDI_ADDRESS(2, KEXBARDI_OUTPUT_HIGH)] = 4095;
    if (has(faults, RECORD)) memset(records, 0xff, KEXBARDI_NUMBERS * sizeof *records);
    if (has(faults, DIGIT)) write_wrong(wrong_digits[turn / 3 % 2]);
    if (has(faults, SETTING)) write_wrong(wrong_settings[turn % 5]);
    if (has(faults, TIMES)) write_wrong(wrong_times[turn % 2]);
    if (has(faults, LIMITS)) write_wrong(wrong_limits[turn / 2 % 2]);
    if (!has(faults, SETPOINT)) return;
    if (request != 4) words[KEXBARDI_SETPOINT] = 4096;
    else if (turn % 2) words[pointer] = 4096;
    else words[KEXBARDI_POINTER] = 1024;
}

/* A sample, a forecast, which has no raw PV, and a sample in a file: each answers the first fault. */
static void order_of(unsigned faults) {
    const struct lent kept = lent;
    const size_t length = has(faults, WORDS) ? 1023 : 1024;
    const unsigned loop = has(faults, LOOP) ? 17 : 1, raw = has(faults, RAW) ? 4096 : 1000;
    equals("forecast", forecast_of(length, 224, loop), first_of(faults & ~(1u << RAW)));
    equals("sample", sample_of(length, 224, loop, raw), first_of(faults));
    lent = kept;
    size = 0, file_sample(loop, raw);
    equals("run", run_of(length, 224, ANSWERS), has(faults, WORDS) ? 5 : 0);
    if (!has(faults, WORDS)) equals("a sample in a file", answers[0], first_of(faults));
}

/* All sums of the faults in each mode; outside Cascade without the last, and 11 is never the answer. */
static void order(void) {
    static const unsigned requests[3] = {1, 2, 4};
    for (unsigned turn = 0; turn < 15; turn++) {
        begin_loop_a("order of refusals");
        equals("entry", sample(1, 1000), 0);
        const struct lent kept = lent;
        const unsigned request = requests[turn % 3], sums = 1u << (request == 4 ? FAULTS : TRANSFER);
        for (unsigned faults = 0; faults < sums; faults++) {
            lent = kept;
            order_words(turn, faults, request);
            order_of(faults);
        }
    }
}

static void loops(void) {
    static const uint64_t none[] = {0, 17, 18, 32, 128, 240, 255, 256, 257, (uint64_t)-1};
    begin_loop_a("no such loop");
    for (size_t n = 0; n < sizeof none / sizeof *none; n++) {
        equals("sample", sample(none[n], 1000), 4);
        equals("record", record(none[n]), 4);
        equals("forecast", forecast(none[n]), 4);
        memset(records, 0xff, KEXBARDI_NUMBERS * sizeof *records);
        equals("sample: no record is read", sample(none[n], 1000), 4);
        equals("record: no record is read", record(none[n]), 4);
        equals("forecast: no record is read", forecast(none[n]), 4);
        reset();
    }
    begin("records at reset");
    for (unsigned loop = 1; loop <= KEXBARDI_LOOPS; loop++) {
        equals("record", record(loop), 0);
        for (int n = 0; n < KEXBARDI_FIELDS; n++) equals("a number", fields[n], 0);
    }
}

static int engines_own(unsigned address) {
    unsigned at = address % KEXBARDI_LOOP_WORDS;
    return address < 512 && (at == KEXBARDI_PV || at == KEXBARDI_BIAS || at == KEXBARDI_STATUS || at == KEXBARDI_PROFILE_FAULT);
}

static void stores(void) {
    static const uint64_t far_off[] = {1024, 1025, 1056, 2048, 4095, 32767, 32768, 65535, 65536};
    begin("stores");
    for (unsigned address = 0; address < KEXBARDI_WORDS; address++)
        equals("store", store(address, 40000 + address), engines_own(address) ? KEXBARDI_STORE : KEXBARDI_ACCEPTED);
    for (unsigned address = 0; address < KEXBARDI_WORDS; address++)
        equals("word", words[address], engines_own(address) ? 0 : 40000 + address);
    for (size_t n = 0; n < sizeof far_off / sizeof *far_off; n++) equals("above 1,023", store(far_off[n], 7), 6);
}

/* 7: each digit of words 7 to 10; 8, 12, 13 and 14: each setting; 9: a raw PV above each full scale */
static void digits(void) {
    begin_loop_a("digits");
    for (unsigned word = KEXBARDI_PERIOD; word <= KEXBARDI_RATE; word++)
        for (unsigned shift = 0; shift < 16; shift += 4)
            for (unsigned digit = 10; digit < 16; digit++) {
                uint16_t good = words[word];
                words[word] = (uint16_t)((0x9999 & ~(15u << shift)) | digit << shift);
                equals("a digit above 9", sample(1, 1000), 7);
                equals("forecast", forecast(1), 7);
                words[word] = good;
            }
    words[KEXBARDI_GAIN] = 0x9999, words[KEXBARDI_RATE] = 0x9999;
    equals("all digits 9", sample(1, 1000), 0);
}

/* Loop A with mode 1, without its request, and three stores: what a sample answers in some modes or in all. */
enum { IN_MANUAL = 1, IN_AUTOMATIC = 2, IN_CASCADE = 4, OUTSIDE = IN_MANUAL | IN_AUTOMATIC, IN_ALL = OUTSIDE | IN_CASCADE };
struct setting {
    const char *name;
    uint16_t mode_1, stores[3][2], answer, modes;
};

/* N8; a table at 512, whose words are 0 */
static const struct setting settings_8[] = {
    {"velocity with Bumpless II", 8 | 32, {SAME, SAME, SAME}, 8, IN_ALL}, {"velocity", 32, {SAME, SAME, SAME}, 0, IN_ALL},
    {"Bumpless II", 8, {SAME, SAME, SAME}, 0, IN_ALL}, {"mode 1 bit 9", 512, {SAME, SAME, SAME}, 8, IN_ALL},
    {"mode 1 bit 10", 1024, {SAME, SAME, SAME}, 0, IN_ALL}, {"mode 1 bit 11", 2048, {SAME, SAME, SAME}, 0, IN_ALL},
    {"mode 1 bit 15", 32768, {SAME, SAME, SAME}, 0, IN_ALL}, {"mode 1 bits 9 and 11", 512 | 2048, {SAME, SAME, SAME}, 8, IN_ALL},
    {"mode 2 bits 1, 4, 8, 9", 0, {{1, 0x0312}, SAME, SAME}, 0, IN_ALL}, {"mode 2 bit 0", 0, {{1, 0x0001}, SAME, SAME}, 8, IN_ALL},
    {"mode 2 bit 2", 0, {{1, 0x0004}, SAME, SAME}, 8, IN_ALL}, {"mode 2 bit 15", 0, {{1, 0x8000}, SAME, SAME}, 8, IN_ALL},
    {"mode 2 bits 10, 12, 13", 0, {{1, 0x3400}, SAME, SAME}, 0, IN_ALL}, {"mode 2 bit 11", 0, {{1, 0x0c00}, SAME, SAME}, 8, IN_ALL},
    {"mode 2 bit 12 alone", 0, {{1, 0x1000}, SAME, SAME}, 8, IN_ALL},
    {"mode 2 bit 13 alone", 0, {{1, 0x2000}, SAME, SAME}, 8, IN_ALL},
    {"hysteresis 0, not watched", 16384, {{18, 0}, SAME, SAME}, 0, IN_ALL},
    {"hysteresis 65,535, not watched", 16384, {{18, 65535}, SAME, SAME}, 0, IN_ALL},
    {"hysteresis 0, PV", 4096, {{18, 0}, SAME, SAME}, 8, IN_ALL}, {"hysteresis 1, PV", 4096, {{18, 1}, SAME, SAME}, 0, IN_ALL},
    {"hysteresis 200, PV", 4096, {{18, 200}, SAME, SAME}, 0, IN_ALL},
    {"hysteresis 201, PV", 4096, {{18, 201}, SAME, SAME}, 8, IN_ALL},
    {"hysteresis 0, deviation", 8192, {{18, 0}, SAME, SAME}, 8, IN_ALL},
    {"hysteresis 1, deviation", 8192, {{18, 1}, SAME, SAME}, 0, IN_ALL},
    {"hysteresis 200, deviation", 8192, {{18, 200}, SAME, SAME}, 0, IN_ALL},
    {"hysteresis 201, deviation", 8192, {{18, 201}, SAME, SAME}, 8, IN_ALL},
    {"end at full scale", 2048, {{28, 512}, {512, 4095}, SAME}, 0, IN_ALL},
    {"end above full scale", 2048, {{28, 512}, {512, 4096}, SAME}, 8, IN_ALL},
    {"end above, the last", 2048, {{28, 512}, {540, 4096}, SAME}, 8, IN_ALL},
    {"end above, bit 11 off", 0, {{28, 512}, {512, 4096}, SAME}, 0, IN_ALL},
    {"end above, a fault", 2048, {{28, 511}, {512, 4096}, {511, 4096}}, 0, IN_ALL},
    {"end 4,096 in 15 bits", 2048, {{28, 512}, {512, 4096}, {1, 2}}, 0, IN_ALL},
    {"end 4,096, 16 bits out", 2048, {{28, 512}, {512, 4096}, {1, 0x2400}}, 8, IN_ALL},
};

/* N12 */
static const struct setting settings_12[] = {
    {"period 0", 0, {{7, 0}, SAME, SAME}, 12, IN_ALL}, {"period 0.04 s", 0, {{7, 4}, SAME, SAME}, 12, IN_ALL},
    {"period 0.05 s", 0, {{7, 5}, SAME, SAME}, 0, IN_ALL}, {"period 99.99 s", 0, {{7, 0x9999}, SAME, SAME}, 0, IN_ALL},
    {"reset 0", 0, {{9, 0}, SAME, SAME}, 12, IN_ALL}, {"reset 0.01", 0, {{9, 1}, SAME, SAME}, 0, IN_ALL},
    {"reset 0 in minutes", 0, {{9, 0}, {1, 16}, SAME}, 12, IN_ALL}, {"reset 0.01 minutes", 0, {{9, 1}, {1, 16}, SAME}, 0, IN_ALL},
    {"reset off", 0, {{9, 0x9999}, SAME, SAME}, 0, IN_ALL}, {"reset 0 in velocity form", 32, {{9, 0}, SAME, SAME}, 12, IN_ALL},
    {"gain and rate 0", 0, {{8, 0}, {10, 0}, SAME}, 0, IN_ALL},
};

/* N13: in counts of the output */
static const struct setting settings_13[] = {
    {"low above high", 0, {{24, 2001}, {25, 2000}, SAME}, 13, IN_ALL},
    {"low equals high", 0, {{24, 2000}, {25, 2000}, SAME}, 0, IN_ALL},
    {"low above 0", 0, {{24, 1}, {25, 0}, SAME}, 13, IN_ALL}, {"both 0", 0, {{24, 0}, {25, 0}, SAME}, 0, IN_ALL},
    {"high above full scale", 0, {{25, 4096}, SAME, SAME}, 13, IN_ALL}, {"both above", 0, {{24, 4096}, {25, 4096}, SAME}, 13, IN_ALL},
    {"both at full scale", 0, {{24, 4095}, {25, 4095}, SAME}, 0, IN_ALL},
    {"high 32,767 in 15 bits", 0, {{25, 32767}, {1, 2}, SAME}, 0, IN_ALL},
    {"high 32,768 in 15 bits", 0, {{25, 32768}, {1, 2}, SAME}, 13, IN_ALL},
    {"high 65,535 in 16 bits", 0, {{25, 65535}, {1, 512}, SAME}, 0, IN_ALL},
    {"high 4,095, 12 bits out of 16", 0, {{25, 4095}, {1, 0x0600}, SAME}, 0, IN_ALL},
    {"high 4,096, 12 bits out of 16", 0, {{25, 4096}, {1, 0x0600}, SAME}, 13, IN_ALL},
    {"high 32,767, 15 bits out of 12", 0, {{25, 32767}, {1, 0x1400}, SAME}, 0, IN_ALL},
    {"high 32,768, 15 bits out of 12", 0, {{25, 32768}, {1, 0x1400}, SAME}, 13, IN_ALL},
    {"high 65,535, 16 bits out of 12", 0, {{25, 65535}, {1, 0x2400}, SAME}, 0, IN_ALL},
};

/* N14: in counts of the input. Word 2 counts outside Cascade, pointer and the word there in Cascade. */
static const struct setting settings_14[] = {
    {"setpoint at full scale", 0, {{2, 4095}, SAME, SAME}, 0, IN_ALL}, {"setpoint above", 0, {{2, 4096}, SAME, SAME}, 14, OUTSIDE},
    {"setpoint above, in Cascade", 0, {{2, 4096}, SAME, SAME}, 0, IN_CASCADE},
    {"setpoint above, Bumpless II", 8, {{2, 4096}, SAME, SAME}, 14, OUTSIDE},
    {"setpoint 32,767 in 15 bits", 0, {{2, 32767}, {1, 2}, SAME}, 0, IN_ALL},
    {"setpoint 32,768 in 15 bits", 0, {{2, 32768}, {1, 2}, SAME}, 14, OUTSIDE},
    {"setpoint 65,535 in 16 bits", 0, {{2, 65535}, {1, 512}, SAME}, 0, IN_ALL},
    {"setpoint 4,096, 16 bits out", 0, {{2, 4096}, {1, 0x2400}, SAME}, 14, OUTSIDE},
    {"setpoint 65,535, 12 bits out of 16", 0, {{2, 65535}, {1, 0x0600}, SAME}, 0, IN_ALL},
    {"pointer 1,023", 0, {{26, 1023}, SAME, SAME}, 0, IN_ALL}, {"pointer 1,024", 0, {{26, 1024}, SAME, SAME}, 14, IN_CASCADE},
    {"pointer 1,024, not in Cascade", 0, {{26, 1024}, SAME, SAME}, 0, OUTSIDE},
    {"pointer 65,535 in 16 bits", 0, {{26, 65535}, {1, 512}, SAME}, 14, IN_CASCADE},
    {"followed at full scale", 0, {{600, 4095}, SAME, SAME}, 0, IN_ALL},
    {"followed above", 0, {{600, 4096}, SAME, SAME}, 14, IN_CASCADE},
    {"followed above, not in Cascade", 0, {{600, 4096}, SAME, SAME}, 0, OUTSIDE},
    {"followed 32,768 in 15 bits", 0, {{600, 32768}, {1, 2}, SAME}, 14, IN_CASCADE},
    {"followed 65,535 in 16 bits", 0, {{600, 65535}, {1, 512}, SAME}, 0, IN_ALL},
    {"followed 4,096, 16 bits out", 0, {{600, 4096}, {1, 0x2400}, SAME}, 14, IN_CASCADE},
    {"followed above, in word 2 itself", 0, {{26, 2}, {2, 4096}, SAME}, 14, IN_ALL},
};

/* one number before the other, where both hold; O3 */
static const struct setting settings_at_once[] = {
    {"7 before 8", 512, {{8, 10}, SAME, SAME}, 7, IN_ALL}, {"7 before 12", 0, {{8, 10}, {9, 0}, SAME}, 7, IN_ALL},
    {"velocity with Bumpless II before 12", 8 | 32, {{9, 0}, SAME, SAME}, 8, IN_ALL},
    {"hysteresis before 12", 4096, {{7, 0}, SAME, SAME}, 8, IN_ALL},
    {"a table's end before 12", 2048, {{28, 512}, {512, 4096}, {7, 4}}, 8, IN_ALL},
    {"12 before 13", 0, {{9, 0}, {25, 4096}, SAME}, 12, IN_ALL},
    {"12 before 13 and 14", 0, {{7, 4}, {24, 4096}, {2, 4096}}, 12, IN_ALL},
    {"13 before 14", 0, {{25, 4096}, {2, 4096}, SAME}, 13, IN_ALL},
    {"13 before a pointer", 0, {{24, 4096}, {26, 1024}, SAME}, 13, IN_ALL},
};

/* The text ends with these lines. */
static void text_ends(const char *expected) {
    const size_t length = strlen(expected);
    check("the last lines", *text_length >= length && memcmp(out + GUARD + *text_length - length, expected, length) == 0);
}

/* Six stores of loop A, the pointer, three of the setting, and mode 1: the twelfth record is the sample. */
static void setting_in_file(const struct setting *c, unsigned request) {
    char lines[64];
    begin(c->name);
    file_loop_a(), file_store(26, 600);
    for (int k = 0; k < 3; k++) file_store(c->stores[k][0], c->stores[k][1]);
    file_store(0, c->mode_1 | request), file_sample(1, 1000);
    equals("run", run(ANSWERS), 0);
    equals("records", (int64_t)*count, 12);
    equals("refused", (int64_t)*refused, c->answer != 0);
    equals("a sample in a file", answers[11], c->answer);
    equals("print", print_of(file, size, KEXBARDI_PRINT_ROOM(size)), 0);
    sprintf(lines, "\n12 refused %u\n12 records, 1 refused\n", c->answer);
    text_ends(c->answer ? lines : "\n12 records, 0 refused\n");
}

static void setting_in_mode(const struct setting *c, unsigned request) {
    begin_loop_a(c->name);
    store(26, 600);
    for (int k = 0; k < 3; k++) store(c->stores[k][0], c->stores[k][1]);
    store(0, c->mode_1 | request);
    equals("forecast", forecast(1), c->answer);
    equals("sample", sample(1, 1000), c->answer);
    setting_in_file(c, request);
}

static void try_settings(const struct setting *settings, size_t how_many) {
    for (size_t n = 0; n < how_many; n++)
        for (unsigned request = IN_MANUAL; request <= IN_CASCADE; request *= 2)
            if (settings[n].modes & request) setting_in_mode(&settings[n], request);
}

static void settings_refused(void) {
    try_settings(settings_8, sizeof settings_8 / sizeof *settings_8);
    try_settings(settings_12, sizeof settings_12 / sizeof *settings_12);
    try_settings(settings_13, sizeof settings_13 / sizeof *settings_13);
    try_settings(settings_14, sizeof settings_14 / sizeof *settings_14);
    try_settings(settings_at_once, sizeof settings_at_once / sizeof *settings_at_once);
    /* M2: every word of mode 2. Bits 0, 2, 3, 5 to 7, 11, 14 and 15 have to be off, and without bit 10 also 12 and 13. */
    begin_loop_a("mode 2");
    unsigned wrong = 0, accepted = 0;
    for (unsigned mode_2 = 0; mode_2 < 65536; mode_2++) {
        store(1, mode_2);
        int refused = (mode_2 & 0xC8ED) != 0 || ((mode_2 & 0x0400) == 0 && (mode_2 & 0x3000) != 0);
        wrong += sample(1, 1000) != (refused ? 8 : 0);
        accepted += !refused;
    }
    equals("words with another answer", wrong, 0);
    equals("words that are accepted", accepted, 16 + 64); /* bits 1, 4, 8 and 9; these with 10, 12 and 13 */
    begin("from reset");
    equals("sample", sample(1, 0), 12);
    equals("forecast", forecast(1), 12);
}

static void raw_above(void) {
    static const uint16_t mode_2s[] = {0, 2}, full_scales[] = {4095, 32767};
    static const uint16_t before_9[][4] = {/* address, wrong, right, number */
        {8, 0x000a, 0x0200, 7}, {0, 2 | 512, 2, 8}, {7, 4, 0x0100, 12}, {9, 0, 0x1000, 12}, {24, 4096, 0, 13}, {2, 65535, 0, 14}};
    for (int n = 0; n < 2; n++) {
        begin_loop_a("raw PV above full scale");
        store(1, mode_2s[n]);
        equals("one above", sample(1, full_scales[n] + 1u), 9);
        equals("65,535", sample(1, 65535), 9);
        for (size_t k = 0; k < sizeof before_9 / sizeof *before_9; k++) {
            store(before_9[k][0], before_9[k][1]);
            equals("a number before 9", sample(1, 65535), before_9[k][3]);
            store(before_9[k][0], before_9[k][2]);
        }
        equals("all mended", sample(1, 65535), 9);
        equals("full scale", sample(1, full_scales[n]), 0);
    }
    begin_loop_a("16 bits");
    store(1, 512);
    equals("65,535", sample(1, 65535), 0);
}

/* Numbers that need more bits than a loop, an address or a raw PV has; the lowest bits of most name one that there is. */
static const uint64_t wide_loops[] = {257, 65537, ((uint64_t)1 << 32) + 1, (uint64_t)-15, (uint64_t)-1},
                      wide_addresses[] = {65536 + 5, ((uint64_t)1 << 32) + 5, (uint64_t)-1},
                      wide_raws[] = {65536, 65536 + 1000, ((uint64_t)1 << 32) + 1000, (uint64_t)-1};

static void wide_loop(uint64_t loop) {
    equals("sample", sample(loop, 1000), 4);
    equals("record", record(loop), 4);
    equals("forecast", forecast(loop), 4);
    equals("sample: 5 before 4", sample_of(1023, 224, loop, 1000), 5);
    equals("record: 5 before 4", record_of(223, loop), 5);
    equals("forecast: 5 before 4", forecast_of(1023, 224, loop), 5);
    for (int n = 0; n < 4; n++) equals("4 before 9", sample(loop, wide_raws[n]), 4);
}

static void wide_raw(uint64_t raw) {
    const struct lent kept = lent;
    equals("sample", sample(1, raw), 9);
    equals("no such loop", sample(17, raw), 4);
    equals("1,023 words", sample_of(1023, 224, 1, raw), 5);
    words[KEXBARDI_OUTPUT_LOW] = 65535;
    equals("13 before 9", sample(1, raw), 13);
    words[KEXBARDI_RESET] = 0;
    equals("12 before 13 and 9", sample(1, raw), 12);
    words[KEXBARDI_GAIN] = 0x000a;
    equals("7 before them", sample(1, raw), 7);
    lent = kept;
}

static void wide(void) {
    static const uint16_t mode_2s[] = {0, 2, 512};
    begin_loop_a("a loop of many bits");
    equals("loop 1", sample(1, 1000), 0);
    for (int n = 0; n < 5; n++) wide_loop(wide_loops[n]);
    begin_loop_a("an address of many bits");
    for (int n = 0; n < 3; n++) {
        equals("store", store(wide_addresses[n], 7), 6);
        equals("5 before 6", store_of(1024, 223, wide_addresses[n], 7), 5);
    }
    for (int m = 0; m < 3; m++) {
        begin_loop_a("a raw PV of many bits");
        store(1, mode_2s[m]);
        for (int n = 0; n < 4; n++) wide_raw(wide_raws[n]);
        equals("1,000", sample(1, 1000), 0);
    }
}

/* ---- profiles */

/* The segments' samples: 4 of 3.00 for 10 counts, 12 of 1 s for 0.2 minutes, 4 of 2.50 for 10, 6 for 0.1 minutes, and 1 that
 * meets slope 0. */
enum { RAMP_1 = 4, SOAK_2 = 12, RAMP_3 = 4, SOAK_4 = 6, WHOLE = RAMP_1 + SOAK_2 + RAMP_3 + SOAK_4 + 1 };

static void forecast_is(uint64_t loop, int64_t number) {
    equals("forecast", forecast(loop), 0);
    equals("samples", (int64_t)*samples, number);
}

/* One sample with PV 1,000: the setpoint, word 27, and the forecast behind it. */
static void profile_sample(unsigned setpoint, unsigned flags, int64_t left) {
    equals("sample", sample(1, 1000), 0);
    equals("setpoint", line[KEXBARDI_LINE_SETPOINT], setpoint);
    equals("word 27", words[KEXBARDI_PROFILE_FLAGS], flags);
    forecast_is(1, left);
}

static void check_profile(int64_t segment, int64_t hold, int64_t complete, int64_t fraction, int64_t time) {
    equals("record", record(1), 0);
    equals("segment", fields[KEXBARDI_FIELD_SEGMENT], segment);
    equals("hold", fields[KEXBARDI_FIELD_HOLD], hold);
    equals("complete", fields[KEXBARDI_FIELD_COMPLETE], complete);
    equals("fraction", fields[KEXBARDI_FIELD_FRACTION], fraction);
    equals("time", fields[KEXBARDI_FIELD_TIME], time);
}

/* From Start to its end, with a forecast before and after each sample. */
static void profile_run(void) {
    static const uint16_t up[RAMP_1] = {1003, 1006, 1009, 1010}, down[RAMP_3] = {1007, 1005, 1002, 1000};
    int64_t left = WHOLE;
    begin_profile("a profile");
    forecast_is(1, 0); /* Start waits */
    profile_sample(1000, 0x0100, left);
    for (int n = 0; n < RAMP_1; n++) profile_sample(up[n], n < RAMP_1 - 1 ? 0x0100 : 0x0200, --left);
    for (int n = 0; n < SOAK_2; n++) profile_sample(1010, n < SOAK_2 - 1 ? 0x0200 : 0x0300, --left);
    for (int n = 0; n < RAMP_3; n++) {
        profile_sample(down[n], n < RAMP_3 - 1 ? 0x0300 : 0x0400, --left);
        check_profile(n < RAMP_3 - 1 ? 3 : 4, 0, 0, n % 2 ? 0 : 5000, 0);
    }
    for (int n = 0; n < SOAK_4; n++) profile_sample(1000, n < SOAK_4 - 1 ? 0x0400 : 0x0500, --left);
    profile_sample(1000, 0x0010, --left);
    equals("all samples", left, 0);
    check_profile(0, 0, 1, 0, 0);
    profile_sample(1000, 0x0010, 0);
    store(0, 0);
    profile_sample(1000, 0x0000, 0);
}

/* What a command, a hold and Cascade do to the forecast: nothing but what has moved already. */
static void profile_commands(void) {
    begin_profile("commands");
    profile_sample(1000, 0x0100, WHOLE);
    store(27, 2);
    forecast_is(1, WHOLE);
    profile_sample(1000, 0x0140, WHOLE);
    profile_sample(1000, 0x0140, WHOLE);
    store(27, 4);
    profile_sample(1000, 0x0100, WHOLE);
    profile_sample(1003, 0x0100, WHOLE - 1);
    store(27, 8);
    forecast_is(1, WHOLE - 1);
    profile_sample(1003, 0x0200, SOAK_2 + 2 + SOAK_4 + 1); /* 3 counts down by 2.50 */
    for (int n = 1; n <= 5; n++) profile_sample(1003, 0x0200, SOAK_2 - n + 2 + SOAK_4 + 1);
    check_profile(2, 0, 0, 0, 500);
    store(27, 0xfff2); /* the upper bits are not read */
    profile_sample(1003, 0x0240, SOAK_2 - 5 + 2 + SOAK_4 + 1);
    check_profile(2, 1, 0, 0, 500);

    /* Cascade by Bumpless II: 800 counts up by 2.50; a command waits there, with bit 11 off too */
    store(0, 4 | 8 | 2048), store(26, 600), store(600, 200), store(27, 4);
    profile_sample(200, 0x0004, SOAK_2 - 5 + 320 + SOAK_4 + 1);
    store(0, 0);
    profile_sample(200, 0x0004, 0);
    check_profile(2, 1, 0, 0, 500);
    store(0, 2 | 2048);
    profile_sample(200, 0x0220, SOAK_2 - 5 + 320 + SOAK_4 + 1); /* 800 apart, and 40 allowed */
    check_profile(2, 0, 0, 0, 500);
    words[KEXBARDI_MODE_1] = 4 | 8 | 2048, words[KEXBARDI_SETPOINT] = 5000; /* above full scale, in Cascade alone */
    records[KEXBARDI_FIELD_SEGMENT] = 1;
    forecast_is(1, 1330 + SOAK_2 + RAMP_3 + SOAK_4 + 1);
    words[KEXBARDI_MODE_1] = 2 | 2048;
    equals("outside Cascade", forecast(1), 14);
}

/* One sample of the profile above, from a record of the caller's own making: mode 1, word 27, word 2 and PV, the record's
 * five numbers of the profile; then word 2, word 27 and the five numbers behind it. The carried mode is Automatic, or Manual where Automatic is
 * requested. */
struct step {
    const char *name;
    uint16_t mode_1, command, setpoint, pv;
    int64_t five[5];
    uint16_t moved, flags;
    int64_t left[5];
};

static const struct step steps[] = {
    {"a ramp counts no time", 2048, 0, 1000, 1000, {1, 0, 0, 0, 777}, 1003, 0x0100, {1, 0, 0, 0, 777}},
    {"a ramp's end", 2048, 0, 1009, 1000, {1, 0, 0, 5000, 777}, 1010, 0x0200, {2, 0, 0, 0, 0}},
    {"a ramp at its end", 2048, 0, 1000, 1000, {3, 0, 0, 0, 9}, 1000, 0x0400, {4, 0, 0, 0, 0}},
    {"a fraction above its end", 2048, 0, 1000, 1000, {3, 0, 0, 1, 9}, 1000, 0x0400, {4, 0, 0, 0, 0}},
    {"down to a fraction", 2048, 0, 1010, 1000, {3, 0, 0, 1, 0}, 1007, 0x0300, {3, 0, 0, 5001, 0}},
    {"the highest time", 2048, 0, 1000, 1000, {2, 0, 0, 7, 6000000}, 1000, 0x0300, {3, 0, 0, 7, 0}},
    {"a duration covered", 2048, 0, 1000, 1000, {2, 0, 0, 7, 1100}, 1000, 0x0300, {3, 0, 0, 7, 0}},
    {"a hundredth short", 2048, 0, 1000, 1000, {2, 0, 0, 7, 1099}, 1000, 0x0200, {2, 0, 0, 7, 1199}},
    {"the end of segment 16", 2048, 0, 1000, 1000, {16, 0, 0, 77, 400}, 1000, 0x0010, {0, 0, 1, 77, 0}},
    {"slope 0", 2048, 0, 1000, 1000, {5, 0, 0, 77, 300}, 1000, 0x0010, {0, 0, 1, 77, 0}},
    {"slope 0, held", 2048, 0, 1000, 1000, {5, 1, 0, 77, 300}, 1000, 0x0540, {5, 1, 0, 77, 300}},
    {"slope 0, Jog", 2048, 8, 1000, 1000, {5, 0, 0, 77, 300}, 1000, 0x0600, {6, 0, 0, 77, 0}},
    {"Jog in a soak", 2048, 8, 1000, 1000, {2, 0, 0, 77, 500}, 1000, 0x0300, {3, 0, 0, 77, 0}},
    {"Jog in segment 16, held", 2048, 8, 1000, 1000, {16, 1, 0, 77, 500}, 1000, 0x0010, {0, 0, 1, 77, 0}},
    {"Start after the end", 2048, 1, 1000, 1000, {0, 0, 1, 77, 9}, 1000, 0x0100, {1, 0, 0, 0, 0}},
    {"Hold without a profile", 2048, 2, 1000, 1000, {0, 0, 1, 77, 9}, 1000, 0x0010, {0, 0, 1, 77, 9}},
    {"Resume without a profile", 2048, 4, 1000, 1000, {0, 0, 1, 77, 9}, 1000, 0x0010, {0, 0, 1, 77, 9}},
    {"Jog without a profile", 2048, 8, 1000, 1000, {0, 0, 1, 77, 9}, 1000, 0x0010, {0, 0, 1, 77, 9}},
    {"Resume without a hold", 2048, 4, 1000, 1000, {3, 0, 0, 0, 9}, 1000, 0x0300, {3, 0, 0, 0, 9}},
    {"Start before the others", 2048, 15, 1000, 1000, {3, 1, 0, 77, 9}, 1000, 0x0100, {1, 0, 0, 0, 0}},
    {"Hold before Resume and Jog", 2048, 14, 1000, 1000, {3, 0, 0, 77, 9}, 1000, 0x0340, {3, 1, 0, 77, 9}},
    {"Resume before Jog", 2048, 12, 1000, 1000, {3, 1, 0, 77, 9}, 1000, 0x0300, {3, 0, 0, 77, 9}},
    {"bits 4 to 15 of word 27", 2048, 0xfff0, 1000, 1000, {2, 1, 0, 77, 9}, 1000, 0x0240, {2, 1, 0, 77, 9}},
    {"40 apart", 2048, 0, 1000, 1040, {2, 1, 0, 77, 9}, 1000, 0x0240, {2, 1, 0, 77, 9}},
    {"41 apart, held", 2048, 0, 1000, 1041, {2, 1, 0, 77, 9}, 1000, 0x0260, {2, 1, 0, 77, 9}},
    {"far apart in a ramp", 2048, 0, 1000, 100, {1, 0, 0, 0, 9}, 1003, 0x0100, {1, 0, 0, 0, 9}},
    {"bit 11 off", 0, 1, 1000, 1000, {3, 1, 1, 77, 9}, 1000, 0x0000, {0, 0, 0, 77, 9}},
    {"an entry with a profile", 2 | 2048, 0, 1000, 900, {1, 0, 0, 0, 9}, 1003, 0x0100, {1, 0, 0, 0, 9}},
    {"an entry with a held one", 2 | 2048, 0, 1000, 900, {1, 1, 0, 77, 9}, 1000, 0x0140, {1, 1, 0, 77, 9}},
    {"an entry with none", 2 | 2048, 0, 1000, 900, {0, 0, 1, 77, 9}, 900, 0x0010, {0, 0, 1, 77, 9}},
    {"an entry and Start", 2 | 2048, 1, 1000, 900, {0, 0, 0, 77, 9}, 900, 0x0100, {1, 0, 0, 0, 0}},
    {"an entry and Start again", 2 | 2048, 1, 1000, 900, {3, 0, 0, 77, 9}, 1000, 0x0100, {1, 0, 0, 0, 0}},
    {"an entry, bit 11 off", 2, 0, 1000, 900, {1, 0, 0, 77, 9}, 900, 0x0000, {0, 0, 0, 77, 9}},
};

static void profile_steps(void) {
    for (size_t n = 0; n < sizeof steps / sizeof *steps; n++) {
        const struct step *c = &steps[n];
        begin_profile(c->name);
        words[KEXBARDI_MODE_1] = c->mode_1, words[KEXBARDI_PROFILE_FLAGS] = c->command, words[KEXBARDI_SETPOINT] = c->setpoint;
        words[KEXBARDI_PROFILE_FAULT] = 2; /* an address that was mended since */
        records[KEXBARDI_FIELD_MODE] = c->mode_1 & 2 ? 0 : 1, records[KEXBARDI_FIELD_SAMPLED] = 1;
        memcpy(records + KEXBARDI_FIELD_SEGMENT, c->five, sizeof c->five);
        equals("sample", sample(1, c->pv), 0);
        equals("setpoint", words[KEXBARDI_SETPOINT], c->moved);
        equals("word 27", words[KEXBARDI_PROFILE_FLAGS], c->flags);
        check_profile(c->left[0], c->left[1], c->left[2], c->left[3], c->left[4]);
        equals("last error", fields[KEXBARDI_FIELD_ERROR], (int64_t)c->moved - c->pv); /* of the setpoint that has moved */
    }
}

/* Where no profile runs the forecast is 0. */
static void no_profile(void) {
    begin_profile("no profile");
    profile_sample(1000, 0x0100, WHOLE);
    const struct lent kept = lent;
    words[KEXBARDI_MODE_1] = 0;
    forecast_is(1, 0);
    profile_sample(1000, 0x0000, 0);
    lent = kept;
    words[KEXBARDI_PROFILE_TABLE] = 511;
    forecast_is(1, 0);
    profile_sample(1000, 0x0000, 0);
    equals("word 29", words[KEXBARDI_PROFILE_FAULT], KEXBARDI_FAULT_BELOW);
    lent = kept;
    words[KEXBARDI_PROFILE_TABLE] = 993;
    forecast_is(1, 0);
    profile_sample(1000, 0x0000, 0);
    equals("word 29", words[KEXBARDI_PROFILE_FAULT], KEXBARDI_FAULT_ABOVE);
    lent = kept;
    records[KEXBARDI_FIELD_SEGMENT] = 0;
    forecast_is(1, 0);
}

/* 16 bits, periods of 0.05 s, slopes of 0.01: 65,535 counts are 131,070,000 samples. With soaks of 999.9 minutes, 1,199,880
 * samples each, eight times up or down: computed at once. */
static void longest_profile(void) {
    begin_loop_a("the longest profile");
    store(1, 512), store(7, 0x0005), store(0, 1 | 2048), store(28, 992), store(27, 1);
    for (unsigned n = 0; n < 8; n++) {
        store(992 + 4 * n, n % 2 ? 0 : 65535), store(993 + 4 * n, 0x0001);
        store(994 + 4 * n, 0x9999), store(995 + 4 * n, 65535);
    }
    equals("start", sample(1, 0), 0);
    forecast_is(1, INT64_C(8) * (131070000 + 1199880));
    for (int n = 0; n < 3; n++) equals("sample", sample(1, 0), 0);
    check_profile(1, 0, 0, 15, 0);
    forecast_is(1, INT64_C(8) * (131070000 + 1199880) - 3);
}

/* N7, N8: every word of a table that a sample reads, in each mode, whether a profile runs or not; and none where bit 11 is
 * off or the address is a fault. A ramp's slope and a soak's duration are BCD; a deviation may be anything. */
static void table_word(unsigned table, unsigned at, unsigned mode_1) {
    const unsigned address = table + at, kind = at % 4;
    const uint16_t good = words[address];
    const int there = (mode_1 & 2048) && table >= 512 && table <= 992;
    const struct lent kept = lent;
    words[KEXBARDI_MODE_1] = (uint16_t)mode_1, words[KEXBARDI_PROFILE_TABLE] = (uint16_t)table;
    const struct lent set_up = lent;
    for (unsigned bad = 0; bad < 4; bad++) {
        words[address] = (uint16_t)(10u << 4 * bad);
        uint8_t answer = there && (kind == 1 || kind == 2) ? 7 : there && kind == 0 && words[address] > 4095 ? 8 : 0;
        equals("forecast, 10 as a digit", forecast(1), answer);
        equals("sample, 10 as a digit", sample(1, 1000), answer);
        lent = set_up;
    }
    words[address] = kind == 0 ? 4095 : 0x9999;
    equals("forecast, the highest", forecast(1), 0);
    words[address] = 4096; /* 10.00, or 100.0 minutes */
    equals("forecast, above full scale", forecast(1), there && kind == 0 ? 8 : 0);
    words[KEXBARDI_RESET] = 0;
    equals("forecast, 8 before 12", forecast(1), there && kind == 0 ? 8 : 12);
    equals("sample, 8 before 12", sample(1, 1000), there && kind == 0 ? 8 : 12);
    words[KEXBARDI_GAIN] = 0x000a;
    equals("forecast, 7 before 8", forecast(1), 7);
    lent = kept;
    equals("the word", words[address], good);
}

static void table_words(void) {
    static const uint16_t tables[] = {512, 700, 991, 992, 511}, modes[] = {1, 2, 4, 1 | 2048, 2 | 2048, 4 | 2048};
    for (size_t n = 0; n < sizeof tables / sizeof *tables; n++)
        for (int m = 0; m < 6; m++) {
            begin_loop_a("words of a table");
            store(26, 45); /* of loop 2, and 0 */
            for (unsigned at = tables[n] == 511; at < 32; at++) table_word(tables[n], at, modes[m]);
        }
}

/* ---- records of the caller's own making: what no drill file can show */

/* Loop A as an accepted sample leaves it, but for its record, which is lent; bias and output are in units. */
static void begin_lent(const char *name, int64_t mode, int64_t bias, int64_t output, int64_t last, int64_t prior, int64_t error,
    int64_t velocity, int64_t sampled) {
    begin_loop_a(name);
    words[KEXBARDI_MODE_1] = 0, words[KEXBARDI_SETPOINT] = 1000;
    records[0] = mode, records[1] = bias, records[2] = output, records[3] = last, records[4] = prior, records[5] = error;
    records[6] = velocity, records[7] = sampled;
}

/* Automatic, sampled, both PVs 1,000. The setpoint is 1,000, so e = 0 and every term is 0: the output is the bias, 0.
 * That is the low limit, but p = s, so bit 11 is off. */
static void begin_at_rest(int64_t output, int64_t error) {
    begin_lent("a lent record at an end of its ranges", 1, 0, output, 1000, 1000, error, 0, 1);
    words[KEXBARDI_PERIOD] = 0x0005;
}

static void accepted_at_rest(int64_t output, int64_t error) {
    begin_at_rest(output, error);
    equals("sample", sample(1, 1000), 0);
    check_line(1000, 1000, 0, 0x0002);
    equals("bias", words[KEXBARDI_BIAS], 0);
    check_record(1, 1, 0, 0, 1000, 1000, 0, 0, 1);
}

/* P19. A loop with the root as 4.0.0 left it, which rounded down: steady at raw PV 1,000, setpoint and both PVs 2,023. Gain 2.00,
 * rate time 10.00 s, period 0.20 s. */
static void begin_saved(const char *name) {
    begin_lent(name, 1, UNITS(2000), UNITS(2000), 2023, 2023, 0, 0, 1);
    words[KEXBARDI_MODE_1] = KEXBARDI_M1_ROOT, words[KEXBARDI_SETPOINT] = 2023;
    words[KEXBARDI_PERIOD] = 0x0020, words[KEXBARDI_RATE] = 0x1000;
}

static void saved_by_4_0_0(void) {
    begin_saved("saved by 4.0.0, and gone on with");
    equals("first sample", sample(1, 1000), 0);
    check_line(2023, 2024, 1898, 0x0002); /* e = -1, D = 100: 2,000 - 0.04 - 2 - 100 */
    equals("second sample", sample(1, 1000), 0);
    check_line(2023, 2024, 1998, 0x0002); /* D = 0: 1,999.96 - 0.04 - 2 */

    begin_saved("saved by 4.0.0, and begun anew");
    words[KEXBARDI_MODE_1] |= KEXBARDI_M1_MANUAL;
    equals("Manual", sample(1, 1000), 0);
    check_line(2023, 2024, 2000, 0x0001);
    words[KEXBARDI_MODE_1] |= KEXBARDI_M1_AUTOMATIC;
    for (int n = 0; n < 3; n++) {
        equals("Automatic", sample(1, 1000), 0);
        check_line(2024, 2024, 2000, 0x0002);
    }
}

static void lent_ends(void) {
    begin_at_rest(0, 65536);
    equals("error 65,536", sample(1, 1000), 5);
    begin_at_rest(0, -65536);
    equals("error -65,536", sample(1, 1000), 5);
    accepted_at_rest(0, 65535);
    accepted_at_rest(0, -65535);
    begin_at_rest(-1, 0);
    equals("output -1, no such loop", sample(17, 1000), 4);
    equals("output -1", sample(1, 1000), 5);
    begin_at_rest(INT64_C(17179607041), 0);
    equals("output 17,179,607,041", sample(1, 1000), 5);
    accepted_at_rest(INT64_C(17179607040), 0);

    /* velocity from that output: 65,535 counts and no term, brought to the high limit; p = s, so bit 11 is off */
    begin_lent("velocity from the highest output", 1, UNITS(-7), INT64_C(17179607040), 1000, 1000, 0, 1, 1);
    words[KEXBARDI_MODE_1] = 32;
    equals("sample", sample(1, 1000), 0);
    check_line(1000, 1000, 4095, 0x0002);
    equals("bias", words[KEXBARDI_BIAS], 0);
    check_record(1, 1, UNITS(-7), UNITS(4095), 1000, 1000, 0, 1, 1);

    /* velocity from error -65,535, gain 2.00: P = 2 x (1,000 + 65,535) = 133,070 and I = 2 x 1,000/10 = 200, far above */
    begin_lent("velocity from the lowest error", 1, 0, UNITS(100), 0, 0, -65535, 1, 1);
    words[KEXBARDI_MODE_1] = 32;
    equals("sample", sample(1, 0), 0);
    check_line(1000, 0, 4095, 0x0802);
    check_record(1, 1, 0, UNITS(4095), 0, 0, 1000, 1, 1);
}

/* P5. Automatic or Cascade is carried but no sample was accepted: no entry, so the setpoint stays and bias and
 * output are the carried ones; the terms take p for both last PVs and e for the last error. Setpoint 1,200 and
 * p 1,000: e = 200, P = 2.00 x 200 = 400, I = 2.00 x 1.00 x 200/10.00 = 40, and D = 0 though the rate is 1.00. */
static void begin_unsampled(const char *name, int64_t mode, int64_t velocity) {
    begin_lent(name, mode, UNITS(500), UNITS(700), 3000, 100, 65535, velocity, 0);
    words[KEXBARDI_SETPOINT] = 1200, words[KEXBARDI_RATE] = 0x0100;
}

static void first_samples(void) {
    /* 500 + 40 + 400; with last PV 3,000, D = 2 x (1,000 - 3,000) and the output 4,095; as an entry, 2,000 */
    begin_unsampled("first sample in Automatic", 1, 0);
    equals("sample", sample(1, 1000), 0);
    check_line(1200, 1000, 940, 0x0002);
    equals("bias", words[KEXBARDI_BIAS], 540);
    check_record(1, 1, UNITS(540), UNITS(940), 1000, 1000, 200, 0, 1);

    /* the same setpoint by the pointer, word 2 aside */
    begin_unsampled("first sample in Cascade", 2, 0);
    words[KEXBARDI_SETPOINT] = 9999, words[KEXBARDI_POINTER] = 600, words[600] = 1200;
    equals("sample", sample(1, 1000), 0);
    check_line(1200, 1000, 940, 0x0004);
    check_record(1, 2, UNITS(540), UNITS(940), 1000, 1000, 200, 0, 1);

    /* P of e - e = 0 and D of p - 2p + p = 0, so 700 + 40; the bias stays, and word 4 with it */
    begin_unsampled("first sample in velocity form", 1, 1);
    words[KEXBARDI_MODE_1] = 32, words[KEXBARDI_BIAS] = 123;
    equals("sample", sample(1, 1000), 0);
    check_line(1200, 1000, 740, 0x0002);
    equals("bias", words[KEXBARDI_BIAS], 123);
    check_record(1, 1, UNITS(500), UNITS(740), 1000, 1000, 200, 1, 1);

    /* P4: the algorithm is compared all the same. An entry: bias and output are word 5, s becomes p */
    begin_unsampled("velocity carried, position set", 1, 1);
    equals("sample", sample(1, 1000), 0);
    check_line(1000, 1000, 2000, 0x0002);
    equals("bias", words[KEXBARDI_BIAS], 2000);
    check_record(1, 1, UNITS(2000), UNITS(2000), 1000, 1000, 0, 0, 1);

    begin_unsampled("position carried, velocity set", 1, 0);
    words[KEXBARDI_MODE_1] = 32, words[KEXBARDI_BIAS] = 123;
    equals("sample", sample(1, 1000), 0);
    check_line(1000, 1000, 2000, 0x0002);
    equals("bias", words[KEXBARDI_BIAS], 123);
    check_record(1, 1, UNITS(2000), UNITS(2000), 1000, 1000, 0, 1, 1);
}

/* Bit 9: PV 1,000 after 3,000 exceeds a rate of change of 1,999, not of 2,000; and none at the first accepted sample. */
static void change_alarm(int sampled, unsigned limit, unsigned status) {
    begin_lent("rate of change", 0, 0, 0, 3000, 3000, 0, 0, sampled);
    words[KEXBARDI_MODE_1] = 16384, words[KEXBARDI_CHANGE] = (uint16_t)limit;
    equals("sample", sample(1, 1000), 0);
    check_line(1000, 1000, 2000, status);
    check_record(1, 0, 0, 0, 1000, sampled ? 3000 : 1000, 0, 0, 1);
}

static void change_alarms(void) {
    change_alarm(1, 1999, 0x0201);
    change_alarm(1, 2000, 0x0001);
    change_alarm(0, 1999, 0x0001);
}

/* P8, P14. A sample in Manual with setpoint 1,500 and high limit 2,500, after one in Automatic that carried bias and
 * output 2,000 and PV 1,000: word 5, 3,000 by hand, is brought to 2,500; word 4, bias and output stay; PV, error and
 * algorithm are recorded. */
static void in_manual(const char *name, unsigned bits, unsigned deadband, unsigned pv, int64_t error) {
    begin_loop_a(name);
    equals("entry", sample(1, 1000), 0);
    words[KEXBARDI_MODE_1] = (uint16_t)(1 | bits), words[KEXBARDI_SETPOINT] = 1500, words[KEXBARDI_DEADBAND] = (uint16_t)deadband;
    words[KEXBARDI_OUTPUT] = 3000, words[KEXBARDI_OUTPUT_HIGH] = 2500;
    equals("sample", sample(1, pv), 0);
    check_line(1500, pv, 2500, 0x0001);
    equals("bias", words[KEXBARDI_BIAS], 2000);
    check_record(1, 0, UNITS(2000), UNITS(2000), pv, 1000, error, bits >> 5 & 1, 1);
}

static void manual(void) {
    in_manual("Manual", 0, 0, 1200, 300);
    in_manual("Manual, velocity", 32, 0, 1200, 300);
    in_manual("Manual, squared", 128, 0, 1200, 21);             /* 300 x 300/4,095 = 21.98, toward zero */
    in_manual("Manual, squared below 0", 128, 0, 1800, -21);
    in_manual("Manual, inside the deadband", 256, 301, 1200, 0);
    in_manual("Manual, at the deadband", 256, 300, 1200, 300);
    in_manual("Manual, both", 128 | 256, 100, 1200, 21);        /* 300 is not below 100, though 21 is */

    /* word 5, 2,000, is brought up to 2,100; no limit touches what is carried, -5 and 65,535 with full scale 4,095 */
    begin_lent("Manual, far off", 0, UNITS(-5), UNITS(65535), 60000, 50000, 7, 1, 1);
    words[KEXBARDI_BIAS] = 123, words[KEXBARDI_OUTPUT_LOW] = 2100;
    equals("sample", sample(1, 1100), 0);
    check_line(1000, 1100, 2100, 0x0001);
    equals("bias", words[KEXBARDI_BIAS], 123);
    check_record(1, 0, UNITS(-5), UNITS(65535), 1100, 60000, -100, 0, 1);
}

/* T1. The first sample of a loop, word 6 written from outside: an alarm that was on there is held. */
static void first_held(const char *name, unsigned mode_1, unsigned stored, unsigned pv, unsigned status) {
    begin_loop_a(name);
    store(KEXBARDI_LOW_LOW, 100), store(KEXBARDI_LOW, 200), store(KEXBARDI_HIGH, 3000), store(KEXBARDI_HIGH_HIGH, 3500);
    store(KEXBARDI_YELLOW, 100), store(KEXBARDI_RED, 200), store(KEXBARDI_HYSTERESIS, 10), store(KEXBARDI_SETPOINT, 1000);
    store(KEXBARDI_MODE_1, mode_1);
    words[KEXBARDI_STATUS] = (uint16_t)stored;
    equals("sample", sample(1, pv), 0);
    equals("status", words[KEXBARDI_STATUS], status);
}

static void held_at_first(void) {
    const unsigned pv = 1 | 4096, deviation = 2 | 8 | 8192; /* in Manual; in Automatic with the setpoint kept */
    first_held("high, was off", pv, 0x0000, 2991, 0x0001);
    first_held("high, was on", pv, 0x0020, 2991, 0x0021);           /* 2,991 > 3,000 - 10 */
    first_held("high, was on, cleared", pv, 0x0020, 2990, 0x0001);
    first_held("high-high, was on", pv, 0x0040, 3491, 0x0061);      /* above high as well */
    first_held("low, was on", pv, 0x0010, 209, 0x0011);             /* 209 < 200 + 10 */
    first_held("low, was on, cleared", pv, 0x0010, 210, 0x0001);
    first_held("low-low, was on", pv, 0x0008, 109, 0x0019);         /* below low as well */
    first_held("low-low, was off", pv, 0x0010, 109, 0x0011);
    first_held("yellow, was off", deviation, 0x0000, 1091, 0x0002);
    first_held("yellow, was on", deviation, 0x0080, 1091, 0x0082);  /* 91 > 100 - 10 */
    first_held("yellow, was on, cleared", deviation, 0x0080, 1090, 0x0002);
    first_held("red, was on", deviation, 0x0100, 1191, 0x0182);     /* above yellow as well */
    first_held("deviation in Manual", 1 | 8192, 0xffff, 1191, 0x0001);
    first_held("nothing watched", 1, 0xffff, 1191, 0x0001);
    first_held("all on before, all quiet", pv | 8192, 0xffff, 1000, 0x0001);

    /* Hysteresis 200 above the high limit, 50: 0 > 50 - 200 holds the alarm until word 6 is written as 0. Bit 10 is on, for
     * low-low and low are 0 both. */
    begin_loop_a("hysteresis above the limit");
    store(KEXBARDI_HIGH, 50), store(KEXBARDI_HIGH_HIGH, 60), store(KEXBARDI_HYSTERESIS, 200), store(KEXBARDI_MODE_1, pv);
    equals("sample", sample(1, 51), 0);
    check_line(0, 51, 2000, 0x0421);
    equals("sample", sample(1, 0), 0);
    check_line(0, 0, 2000, 0x0421);
    words[KEXBARDI_STATUS] = 0;
    equals("sample", sample(1, 0), 0);
    check_line(0, 0, 2000, 0x0401);
}

/* A10. One position sample in Automatic, e = setpoint - 1,000 with P = 2e and I = e/5; bias as lent, the carried
 * bias and output afterwards in units. Bit 11 is on where the output ends at a limit and e is not 0. */
static void bias_word(const char *name, unsigned bits, int64_t lent_bias, unsigned setpoint, unsigned word, unsigned output_word,
    int64_t bias, int64_t output, unsigned status) {
    begin_lent(name, 1, lent_bias, 0, 1000, 1000, 0, 0, 1);
    words[KEXBARDI_MODE_1] = (uint16_t)bits, words[KEXBARDI_SETPOINT] = (uint16_t)setpoint;
    equals("sample", sample(1, 1000), 0);
    check_line(setpoint, 1000, output_word, status);
    equals("bias", words[KEXBARDI_BIAS], word);
    check_record(1, 1, bias, output, 1000, 1000, setpoint - (int64_t)1000, 0, 1);
}

static void bias_words(void) {
    const int64_t most = (int64_t)1 << 52, half = 131072;
    /* e = -900, P = -1,800, I = -180: trial 5,500 - 180 = 5,320, output 3,520 */
    bias_word("bias above full scale", 0, UNITS(5500), 100, 4095, 3520, UNITS(5320), UNITS(3520), 0x0002);
    /* e = 1,000, P = 2,000, I = 200: trial -500 + 200 = -300, output 1,700 */
    bias_word("bias below 0", 0, UNITS(-500), 2000, 0, 1700, UNITS(-300), UNITS(1700), 0x0002);
    /* e = -900: trial 6,075 - 180 = 5,895, and 5,895 - 1,800 is the limit itself, so the bias becomes the trial */
    bias_word("output at the limit", 0, UNITS(6075), 100, 4095, 4095, UNITS(5895), UNITS(4095), 0x0802);
    /* one unit more is outside: the bias becomes 4,095 + 1,800, or with freeze stays as lent */
    bias_word("a unit above", 0, UNITS(6075) + 1, 100, 4095, 4095, UNITS(5895), UNITS(4095), 0x0802);
    bias_word("a unit above, freeze", 1024, UNITS(6075) + 1, 100, 4095, 4095, UNITS(6075) + 1, UNITS(4095), 0x0802);
    /* e = 0: the output is the bias, and both words are its nearest count, halves up */
    const int64_t near = UNITS(4094) + half;
    bias_word("half a count", 0, near, 1000, 4095, 4095, near, near, 0x0002);
    bias_word("a unit below half", 0, near - 1, 1000, 4094, 4094, near - 1, near - 1, 0x0002);
    bias_word("half a count above 0", 0, half, 1000, 1, 1, half, half, 0x0002);
    bias_word("a unit below that", 0, half - 1, 1000, 0, 0, half - 1, half - 1, 0x0002);
    /* e = 0 and the ends of the range: the output is a limit; the bias becomes the limit, or with freeze stays */
    bias_word("highest bias", 0, most, 1000, 4095, 4095, UNITS(4095), UNITS(4095), 0x0002);
    bias_word("highest bias, freeze", 1024, most, 1000, 4095, 4095, most, UNITS(4095), 0x0002);
    bias_word("lowest bias", 0, -most, 1000, 0, 0, 0, 0, 0x0002);
    bias_word("lowest bias, freeze", 1024, -most, 1000, 0, 0, -most, 0, 0x0002);

    /* the full scale of 15 bits: the same bias is a word as it is */
    begin_lent("bias in 15 bits", 1, UNITS(5500), 0, 1000, 1000, 0, 0, 1);
    words[KEXBARDI_MODE_2] = 2, words[KEXBARDI_SETPOINT] = 100;
    equals("sample", sample(1, 1000), 0);
    check_line(100, 1000, 3520, 0x0002);
    equals("bias", words[KEXBARDI_BIAS], 5320);

    /* 16 bits, frozen above full scale */
    begin_lent("bias in 16 bits", 1, UNITS(70000), 0, 1000, 1000, 0, 0, 1);
    words[KEXBARDI_MODE_1] = 1024, words[KEXBARDI_MODE_2] = 512;
    equals("sample", sample(1, 1000), 0);
    check_line(1000, 1000, 4095, 0x0002);
    equals("bias", words[KEXBARDI_BIAS], 65535);

    /* reset 9999: e = 500 moves the bias by no unit */
    begin_lent("no reset", 1, UNITS(2000), 0, 1000, 1000, 0, 0, 1);
    words[KEXBARDI_RESET] = 0x9999, words[KEXBARDI_SETPOINT] = 1500;
    equals("sample", sample(1, 1000), 0);
    check_record(1, 1, UNITS(2000), UNITS(3000), 1000, 1000, 500, 0, 1);
}

/* ---- transfers (A13) */

#define MARK(loop) records[KEXBARDI_FIELDS * ((loop) - 1) + KEXBARDI_FIELD_MARK]

static uint16_t *word_of(unsigned loop, unsigned offset) { return words + KEXBARDI_ADDRESS(loop, offset); }

/* Two loops A in Automatic: the major one with PV 1,000 and setpoint 1,100, output 2,220 and bias 2,020; the minor one, whose
 * pointer leads to its output, with PV 1,500 and setpoint 1,600, output and bias the same. Cascade is requested there. */
static void begin_pair(const char *name, unsigned minor, unsigned major) {
    begin(name);
    settle(minor), settle(major);
    store(KEXBARDI_ADDRESS(minor, KEXBARDI_POINTER), KEXBARDI_ADDRESS(major, KEXBARDI_OUTPUT));
    equals("the major loop's entry", sample(major, 1000), 0);
    equals("the minor loop's entry", sample(minor, 1500), 0);
    store(KEXBARDI_ADDRESS(major, KEXBARDI_SETPOINT), 1100), store(KEXBARDI_ADDRESS(minor, KEXBARDI_SETPOINT), 1600);
    equals("the major loop", sample(major, 1000), 0);
    check_line(1100, 1000, 2220, 0x0002);
    equals("the minor loop", sample(minor, 1500), 0);
    check_line(1600, 1500, 2220, 0x0002);
    store(KEXBARDI_ADDRESS(minor, KEXBARDI_MODE_1), 4);
}

/* The minor loop's sample is refused with 11, and then its forecast, whose p is 0, as a sample is; no memory changes. */
static void transfer_refused(const char *what, unsigned minor, uint64_t raw) {
    equals(what, sample(minor, raw), KEXBARDI_TRANSFER);
    equals("the request stands", *word_of(minor, KEXBARDI_MODE_1) & 7, 4);
    forecast(minor);
}

/* All memory beside a transfer of loop 3 to loop 7: both loops' words that no rule names, all other words and all other numbers
 * are garbage and stay, those of the major loop's record too. PV 1,510, e = 0: the output is the bias, 2,020. */
static void transfer_memory(void) {
    const unsigned minor = 3, major = 7;
    static struct lent expected;
    begin_pair("a transfer's memory", minor, major);
    for (unsigned address = 0; address < KEXBARDI_WORDS; address++)
        if (address / 32 != minor - 1 && address != 32 * (major - 1) + 24 && address != 32 * (major - 1) + 25)
            words[address] = (uint16_t)(0xa000 + address);
    *word_of(major, KEXBARDI_OUTPUT) = 4095; /* not above full scale, though it is written over */
    *word_of(minor, KEXBARDI_PROFILE_FLAGS) = 0x1234, *word_of(minor, KEXBARDI_PROFILE_FAULT) = 77;
    for (unsigned n = 0; n < KEXBARDI_NUMBERS; n++)
        if (n / 14 != minor - 1) records[n] = INT64_MIN + n;
    MARK(major) = -7;
    *word_of(minor, KEXBARDI_MODE_1) = 0x8004; /* bit 15 stays */

    expected = lent;
    uint16_t *w = expected.words + GUARD + 32 * (minor - 1);
    const int64_t record_after[14] = {2, UNITS(2020), UNITS(2020), 1510, 1500, 0, 0, 1, 0, 0, 0, 0, 0, 0};
    const uint16_t line_after[4] = {1510, 1510, 2020, 0x0004};
    w[0] = 0x8000, w[2] = 1510, w[3] = 1510, w[4] = 2020, w[5] = 2020, w[6] = 0x0004;
    expected.words[GUARD + 32 * (major - 1) + 5] = 1510;
    memcpy(expected.records + GUARD + 14 * (minor - 1), record_after, sizeof record_after);
    expected.records[GUARD + 14 * (major - 1) + 13] = 1;
    memcpy(expected.line + GUARD, line_after, sizeof line_after);
    equals("sample", sample(minor, 1510), 0);
    check("every word, number and the line", memcmp(&lent, &expected, sizeof lent) == 0);
    equals("the major loop's record is no better for it", record(major), 5);

    /* two causes of 11 on the same memory: every byte stays */
    *word_of(minor, KEXBARDI_MODE_1) = 4, records[14 * (minor - 1)] = 1, MARK(major) = -7;
    *word_of(major, KEXBARDI_OUTPUT_LOW) = 1511;
    transfer_refused("p below the low limit", minor, 1510);
    equals("the mark", MARK(major), -7);
    *word_of(minor, KEXBARDI_POINTER) = (uint16_t)KEXBARDI_ADDRESS(minor, KEXBARDI_SETPOINT);
    transfer_refused("its own setpoint", minor, 1510);
}

/* Velocity form: word 4 stays, and the carried bias. The error falls from 100 to 0: 2,220 - 200. */
static void transfer_in_velocity(void) {
    begin("a transfer in velocity form");
    settle(1), settle(2);
    store(0, 2 | 32), store(26, 37);
    equals("entry", sample(1, 1500), 0);
    store(2, 1600);
    equals("sample", sample(1, 1500), 0);
    check_line(1600, 1500, 2220, 0x0002);
    store(0, 4 | 32), words[KEXBARDI_BIAS] = 123;
    equals("transfer", sample(1, 1500), 0);
    check_line(1500, 1500, 2020, 0x0004);
    equals("word 4", words[KEXBARDI_BIAS], 123);
    check_record(1, 2, UNITS(2000), UNITS(2020), 1500, 1500, 0, 1, 1);
    equals("loop 2's output", words[37], 1500);
    equals("record", record(2), 0);
    equals("loop 2's mark", fields[KEXBARDI_FIELD_MARK], 1);
}

/* p by the root, 2,024 of raw PV 1,000: it is what the limits are for, and what is written. Loop 2 is the minor one. */
static void transfer_of_a_root(void) {
    begin("a transfer with the root");
    settle(1), settle(2);
    store(32, 2 | 64), store(58, 5);
    equals("entry", sample(2, 1000), 0);
    check_line(2024, 2024, 2000, 0x0002);
    store(32, 4 | 64), store(24, 900), store(25, 2023);
    transfer_refused("p above the high limit", 2, 1000);
    store(24, 2024), store(25, 2024);
    equals("p at both", sample(2, 1000), 0);
    check_line(2024, 2024, 2000, 0x0004);
    equals("loop 1's output", words[5], 2024);
}

/* A transfer with a change of form is an entry too: from word 5, 700, and word 4 stays. */
static void transfer_by_form(void) {
    begin_pair("a transfer with a change of form", 2, 1);
    *word_of(2, KEXBARDI_OUTPUT) = 700, *word_of(2, KEXBARDI_MODE_1) = 4 | 32;
    equals("transfer", sample(2, 1510), 0);
    check_line(1510, 1510, 700, 0x0004);
    equals("word 4", *word_of(2, KEXBARDI_BIAS), 2020);
    check_record(2, 2, UNITS(700), UNITS(700), 1510, 1500, 0, 1, 1);
    equals("loop 1's output", words[5], 1510);
    equals("loop 1's mark", MARK(1), 1);
}

/* The word at the pointer is tested as it stands (N14); what it held has no other part: alarms see s at p. */
static void transfer_pointed(void) {
    begin_pair("the word at the pointer", 2, 1);
    *word_of(2, KEXBARDI_MODE_1) = 4 | 8192;
    *word_of(2, KEXBARDI_YELLOW) = 50, *word_of(2, KEXBARDI_RED) = 99, *word_of(2, KEXBARDI_HYSTERESIS) = 10;
    words[5] = 4096;
    equals("above full scale", sample(2, 1510), 14);
    words[5] = 4095;
    equals("at full scale", sample(2, 1510), 0);
    check_line(1510, 1510, 2020, 0x0004);
}

/* Every loop to every other is accepted, and to itself refused. Behind it the major loop goes on from 1,510: e = 100, P = 200,
 * I = 20, and the setpoint stays. */
static void transfer_pairs(void) {
    for (unsigned minor = 1; minor <= KEXBARDI_LOOPS; minor++)
        for (unsigned major = 1; major <= KEXBARDI_LOOPS; major++) {
            if (minor == major) continue;
            begin_pair("a pair of loops", minor, major);
            *word_of(minor, KEXBARDI_POINTER) = (uint16_t)KEXBARDI_ADDRESS(minor, KEXBARDI_OUTPUT);
            transfer_refused("its own output", minor, 1510);
            *word_of(minor, KEXBARDI_POINTER) = (uint16_t)KEXBARDI_ADDRESS(major, KEXBARDI_OUTPUT);
            equals("transfer", sample(minor, 1510), 0);
            check_line(1510, 1510, 2020, 0x0004);
            equals("the major loop's output", *word_of(major, KEXBARDI_OUTPUT), 1510);
            equals("the major loop's mark", MARK(major), 1);
            check_record(minor, 2, UNITS(2020), UNITS(2020), 1510, 1500, 0, 0, 1);
            equals("the major loop", sample(major, 1000), 0);
            check_line(1100, 1000, 1730, 0x0002);
            check_record(major, 1, UNITS(1530), UNITS(1730), 1000, 1000, 100, 0, 1);
            equals("the minor loop follows", sample(minor, 1730), 0);
            check_line(1730, 1730, 2020, 0x0004);
            equals("no mark", MARK(major), 0);
        }
}

/* Every address as the pointer of a loop, each behind limits that p lies in: the fifteen outputs of the others, and no more. */
static void transfer_pointers(void) {
    static const unsigned minors[] = {1, 2, 9, 16};
    for (int k = 0; k < 4; k++) {
        unsigned accepted = 0;
        begin_pair("every address", minors[k], minors[k] % 16 + 1);
        for (unsigned table = 0; table < KEXBARDI_WORDS; table += 32) words[table + 24] = 0, words[table + 25] = 4095;
        *word_of(minors[k], KEXBARDI_MODE_2) = 512; /* no word is above full scale */
        const struct lent kept = lent;
        for (unsigned pointer = 0; pointer < 1100; pointer++) {
            const int output = pointer < 512 && pointer % 32 == 5 && pointer / 32 != minors[k] - 1;
            *word_of(minors[k], KEXBARDI_POINTER) = (uint16_t)pointer;
            const uint8_t answer = sample(minors[k], 1510);
            equals("sample", answer, output ? 0 : pointer < 1024 ? 11 : 14);
            accepted += answer == 0;
            lent = kept;
        }
        equals("outputs of other loops", accepted, 15);
    }
}

/* p against the major loop's limits as plain words, in 16 bits; the word at the pointer is 0, the minor loop's limits 0 and 0. */
static void transfer_limits(void) {
    static const uint16_t edges[] = {0, 1, 2, 1000, 4095, 4096, 32767, 32768, 32769, 65534, 65535};
    const size_t count_of = sizeof edges / sizeof *edges;
    begin_pair("p and the limits", 2, 1);
    *word_of(2, KEXBARDI_MODE_2) = 512, *word_of(1, KEXBARDI_OUTPUT) = 0;
    *word_of(2, KEXBARDI_OUTPUT_LOW) = 0, *word_of(2, KEXBARDI_OUTPUT_HIGH) = 0;
    const struct lent kept = lent;
    for (size_t low = 0; low < count_of; low++)
        for (size_t high = 0; high < count_of; high++)
            for (size_t p = 0; p < count_of; p++) {
                *word_of(1, KEXBARDI_OUTPUT_LOW) = edges[low], *word_of(1, KEXBARDI_OUTPUT_HIGH) = edges[high];
                const int inside = low <= p && p <= high;
                equals("sample", sample(2, edges[p]), inside ? 0 : 11);
                equals("the major loop's output", *word_of(1, KEXBARDI_OUTPUT), inside ? edges[p] : 0);
                equals("its mark", MARK(1), inside);
                lent = kept;
            }
}

/* The causes of 11, each alone: without it the same sample is accepted. And what is no transfer, with all of them. */
static void transfer_causes(void) {
    static const uint16_t pointers[] = {0, 1, 4, 6, 31, 37, 32 + 4, 32 + 6, 64 + 21, 511, 512, 517, 549, 1023};
    begin_pair("causes of 11", 2, 1);
    words[536] = 0, words[537] = 4095; /* the limits of a loop 17, were there one */
    const struct lent kept = lent;
    for (size_t n = 0; n < sizeof pointers / sizeof *pointers; n++) {
        *word_of(2, KEXBARDI_POINTER) = pointers[n];
        transfer_refused("the pointer", 2, 1510);
        *word_of(2, KEXBARDI_POINTER) = 5;
        equals("mended", sample(2, 1510), 0);
        lent = kept;
    }
    words[24] = 1511;
    transfer_refused("p one below the low limit", 2, 1510);
    words[24] = 1510;
    equals("p at the low limit", sample(2, 1510), 0);
    lent = kept;
    words[25] = 1509;
    transfer_refused("p one above the high limit", 2, 1510);
    words[25] = 1510;
    equals("p at the high limit", sample(2, 1510), 0);
    lent = kept;
    words[24] = 1511, words[25] = 1509;
    transfer_refused("limits in the wrong order", 2, 1510);

    /* no transfer: the limits do not matter, and of the major loop nothing changes */
    *word_of(2, KEXBARDI_MODE_1) = 4 | 8;
    equals("Bumpless II", sample(2, 1510), 0);
    equals("setpoint", line[KEXBARDI_LINE_SETPOINT], 2220);
    *word_of(2, KEXBARDI_MODE_1) = 4;
    equals("from Cascade", sample(2, 1510), 0);
    *word_of(2, KEXBARDI_MODE_1) = 1;
    equals("Manual", sample(2, 1510), 0);
    *word_of(2, KEXBARDI_MODE_1) = 4;
    equals("from Manual", sample(2, 1510), 0);
    equals("setpoint", line[KEXBARDI_LINE_SETPOINT], 2220);
    *word_of(2, KEXBARDI_MODE_1) = 2;
    equals("to Automatic", sample(2, 1510), 0);
    *word_of(2, KEXBARDI_MODE_1) = 6;
    equals("the lower request", sample(2, 1510), 0);
    equals("the major loop's mark", MARK(1), 0);
    *word_of(2, KEXBARDI_MODE_1) = 4;
    transfer_refused("from Automatic again", 2, 1510);
}

/* One sample of loop A that carries a mark, word 5 2,000, bias 500 and output 700: e = 200 by setpoint 1,200 and p 1,000, P = 400,
 * I = 40, no D though rate and last PV would give one; 600 holds 1,200 too. */
struct marked {
    const char *name;
    int64_t mode, velocity;
    uint16_t mode_1, setpoint, output, status;
    int64_t bias, carried, mark;
};

static const struct marked marked_samples[] = {
    {"in Automatic", 1, 0, 0, 1200, 2440, 0x0002, UNITS(2040), UNITS(2440), 0},
    {"in Automatic, Bumpless II", 1, 0, 8, 1200, 2440, 0x0002, UNITS(2040), UNITS(2440), 0},
    {"in Automatic, requested again", 1, 0, 2, 1200, 2440, 0x0002, UNITS(2040), UNITS(2440), 0},
    {"in Cascade", 2, 0, 0, 1200, 2440, 0x0004, UNITS(2040), UNITS(2440), 0},
    {"to Cascade, Bumpless II", 1, 0, 4 | 8, 1200, 2440, 0x0004, UNITS(2040), UNITS(2440), 0},
    {"from Cascade to Automatic", 2, 0, 2, 1200, 2440, 0x0002, UNITS(2040), UNITS(2440), 0},
    {"in velocity form", 1, 1, 32, 1200, 2040, 0x0002, UNITS(2000), UNITS(2040), 0},
    {"to velocity form", 1, 0, 32, 1000, 2000, 0x0002, UNITS(2000), UNITS(2000), 0},
    {"to position form", 1, 1, 0, 1000, 2000, 0x0002, UNITS(2000), UNITS(2000), 0},
    {"to position form, Bumpless II", 1, 1, 8, 1200, 2440, 0x0002, UNITS(2040), UNITS(2440), 0},
    {"to velocity form in Cascade", 2, 0, 32, 1200, 2040, 0x0004, UNITS(2000), UNITS(2040), 0},
    {"from Manual", 0, 0, 2, 1000, 2000, 0x0002, UNITS(2000), UNITS(2000), 0},
    {"from Manual, Bumpless II", 0, 0, 2 | 8, 1200, 2440, 0x0002, UNITS(2040), UNITS(2440), 0},
    {"from Manual to Cascade", 0, 0, 4, 1200, 2440, 0x0004, UNITS(2040), UNITS(2440), 0},
    {"in Manual", 0, 0, 0, 1200, 2000, 0x0001, UNITS(500), UNITS(700), 1},
    {"to Manual", 1, 0, 1, 1200, 2000, 0x0001, UNITS(500), UNITS(700), 1},
    {"to Manual from Cascade, by form", 2, 0, 1 | 32, 1200, 2000, 0x0001, UNITS(500), UNITS(700), 1},
};

static void marks(void) {
    for (size_t n = 0; n < sizeof marked_samples / sizeof *marked_samples; n++) {
        const struct marked *c = &marked_samples[n];
        begin_lent(c->name, c->mode, UNITS(500), UNITS(700), 3000, 100, 65535, c->velocity, 1);
        MARK(1) = 1;
        words[KEXBARDI_MODE_1] = c->mode_1, words[KEXBARDI_SETPOINT] = 1200, words[KEXBARDI_RATE] = 0x0100;
        words[KEXBARDI_POINTER] = 600, words[600] = 1200;
        equals("sample", sample(1, 1000), 0);
        check_line(c->setpoint, 1000, c->output, c->status);
        equals("record", record(1), 0);
        equals("carried bias", fields[KEXBARDI_FIELD_BIAS], c->bias);
        equals("carried output", fields[KEXBARDI_FIELD_OUTPUT], c->carried);
        equals("PV before it", fields[KEXBARDI_FIELD_PRIOR_PV], 3000);
        equals("last error", fields[KEXBARDI_FIELD_ERROR], c->setpoint - 1000);
        equals("mark", fields[KEXBARDI_FIELD_MARK], c->mark);
    }

    /* a transfer of a loop that has a mark is an entry of it: from word 5, and its mark goes to the other */
    begin_pair("a mark handed on", 2, 1);
    MARK(2) = 1, *word_of(2, KEXBARDI_OUTPUT) = 700;
    equals("transfer", sample(2, 1510), 0);
    check_line(1510, 1510, 700, 0x0004);
    check_record(2, 2, UNITS(700), UNITS(700), 1510, 1500, 0, 0, 1);
    equals("the major loop's mark", MARK(1), 1);
    equals("entry", sample(1, 1000), 0);
    check_line(1100, 1000, 1730, 0x0002);
}

/* The mark stands through samples in Manual and refused ones of its loop, through the minor loop's samples, and another transfer
 * to it; then one entry takes it off. */
static void mark_kept(void) {
    begin_pair("a mark is kept", 2, 1);
    settle(3), store(KEXBARDI_ADDRESS(3, KEXBARDI_POINTER), 5);
    equals("entry of loop 3", sample(3, 1700), 0);
    equals("transfer", sample(2, 1510), 0);
    store(0, 1);
    for (int n = 0; n < 3; n++) {
        equals("Manual", sample(1, 1000), 0);
        check_line(1100, 1000, 1510, 0x0001);
        equals("mark", MARK(1), 1);
    }
    equals("above full scale", sample(1, 4096), 9);
    words[KEXBARDI_GAIN] = 0x000a;
    equals("a digit", sample(1, 1000), 7);
    words[KEXBARDI_GAIN] = 0x0200, words[KEXBARDI_MODE_1] = 512;
    equals("a mode bit", sample(1, 1000), 8);
    words[KEXBARDI_MODE_1] = 0, words[KEXBARDI_RESET] = 0;
    equals("a time", sample(1, 1000), 12);
    words[KEXBARDI_RESET] = 0x1000, words[KEXBARDI_OUTPUT_LOW] = 4096;
    equals("a limit", sample(1, 1000), 13);
    words[KEXBARDI_OUTPUT_LOW] = 0, words[KEXBARDI_SETPOINT] = 4096;
    equals("a setpoint", sample(1, 1000), 14);
    words[KEXBARDI_SETPOINT] = 1100, records[KEXBARDI_FIELD_ERROR] = 65536;
    equals("a number out of range", sample(1, 1000), 5);
    records[KEXBARDI_FIELD_ERROR] = 0;
    equals("the minor loop", sample(2, 1510), 0);
    equals("mark", MARK(1), 1);
    store(KEXBARDI_ADDRESS(3, KEXBARDI_MODE_1), 4);
    equals("transfer of loop 3", sample(3, 1700), 0);
    equals("mark", MARK(1), 1);
    equals("Manual", sample(1, 1000), 0);
    check_line(1100, 1000, 1700, 0x0001);
    store(0, 2 | 8);
    equals("Automatic, Bumpless II", sample(1, 1000), 0);
    check_line(1100, 1000, 1920, 0x0002); /* 1,700 + 20 + 200 */
    equals("mark", MARK(1), 0);
    equals("Automatic goes on", sample(1, 1000), 0);
    check_line(1100, 1000, 1940, 0x0002); /* 1,720 + 20 + 200 */
    store(KEXBARDI_ADDRESS(3, KEXBARDI_MODE_1), 2), sample(3, 1700);
    store(KEXBARDI_ADDRESS(3, KEXBARDI_MODE_1), 4), sample(3, 1700);
    equals("marked again", MARK(1), 1);
    equals("reset", reset(), 0);
    equals("no mark at reset", MARK(1), 0);
}

/* A desk saved between the transfer and the major loop's entry, and loaded: it goes on as the first does. */
static void mark_saved(void) {
    static uint16_t saved_words[KEXBARDI_WORDS];
    static int64_t saved_records[KEXBARDI_NUMBERS];
    static struct lent first;
    static const uint16_t raws[] = {1000, 990, 1020};
    begin_pair("a save with a mark", 2, 1);
    equals("transfer", sample(2, 1510), 0);
    memcpy(saved_words, words, sizeof saved_words);
    memcpy(saved_records, records, sizeof saved_records);
    for (int n = 0; n < 3; n++) sample(1, raws[n]), sample(2, raws[n] + 500);
    first = lent;
    begin("a save with a mark, loaded");
    memcpy(words, saved_words, sizeof saved_words);
    memcpy(records, saved_records, sizeof saved_records);
    equals("record", record(1), 0);
    equals("mark", fields[KEXBARDI_FIELD_MARK], 1);
    equals("entry", sample(1, raws[0]), 0);
    check_line(1100, 1000, 1730, 0x0002); /* 1,510 + 20 + 200; with the mark lost, 2,240 */
    sample(2, raws[0] + 500);
    for (int n = 1; n < 3; n++) sample(1, raws[n]), sample(2, raws[n] + 500);
    check("words", memcmp(words, first.words + GUARD, KEXBARDI_WORDS * sizeof *words) == 0);
    check("records", memcmp(records, first.records + GUARD, KEXBARDI_NUMBERS * sizeof *records) == 0);
}

/* Q9: a transfer on two desks that agree on the minor loop, the major loop's two limits and nothing else. */
static void transfer_depends(void) {
    static struct lent first;
    for (unsigned turn = 0; turn < 4; turn++) {
        const unsigned minor = 5, major = 12, raw = turn == 1 ? 1399 : turn == 2 ? 1601 : 1510;
        begin_pair("what a transfer depends on", minor, major);
        *word_of(major, KEXBARDI_OUTPUT_LOW) = turn == 3 ? 1601 : 1400, *word_of(major, KEXBARDI_OUTPUT_HIGH) = 1600;
        const struct lent kept = lent;
        const uint8_t answer = sample(minor, raw);
        equals("sample", answer, turn == 0 ? 0 : 11);
        first = lent, lent = kept;
        for (unsigned n = 0; n < KEXBARDI_WORDS; n++)
            if (n / 32 != minor - 1 && n != 32 * (major - 1) + 24 && n != 32 * (major - 1) + 25) words[n] = (uint16_t)(4095 - n);
        for (unsigned n = 0; n < KEXBARDI_NUMBERS; n++)
            if (n / 14 != minor - 1) records[n] = INT64_MAX - n;
        equals("the answer", sample(minor, raw), answer);
        check("line", memcmp(lent.line, first.line, sizeof lent.line) == 0);
        check("words of the loop",
            memcmp(word_of(minor, 0), first.words + GUARD + KEXBARDI_ADDRESS(minor, 0), 32 * sizeof *words) == 0);
        check("its record", memcmp(records + 14 * (minor - 1), first.records + GUARD + 14 * (minor - 1), 14 * sizeof *records) == 0);
        if (answer == 0) equals("the major loop's output", *word_of(major, KEXBARDI_OUTPUT), 1510);
        if (answer == 0) equals("the major loop's mark", MARK(major), 1);
    }
}

/* A forecast with the change waiting takes raw PV 0 for p: refused where the major loop's low limit is above it, with a profile and
 * without. Nothing is written in any case. */
static void transfer_forecasts(void) {
    begin_profile("a forecast of a transfer");
    settle(2);
    profile_sample(1000, 0x0100, WHOLE);
    store(0, 4 | 2048), store(26, 37), store(32 + 24, 1);
    equals("p below 1", forecast(1), 11);
    store(32 + 24, 0);
    forecast_is(1, WHOLE);
    equals("no mark", MARK(2), 0);
    equals("loop 2's output", words[37], 2000);
    store(0, 4), store(32 + 24, 1);
    equals("p below 1, no profile", forecast(1), 11);
    store(32 + 24, 0);
    forecast_is(1, 0);
    store(32 + 24, 1), store(0, 4 | 8 | 2048);
    forecast_is(1, WHOLE); /* Bumpless II */
    store(0, 4 | 2048), store(26, 5);
    equals("its own output", forecast(1), 11);
    store(26, 600);
    equals("no output", forecast(1), 11);
    store(600, 4096);
    equals("14 before 11", forecast(1), 14);
    store(24, 4096);
    equals("13 before 14", forecast(1), 13);
    store(9, 0);
    equals("12 before 13", forecast(1), 12);
    store(1, 1);
    equals("8 before 12", forecast(1), 8);
    store(9, 0x000a);
    equals("7 before 8", forecast(1), 7);
    store(9, 0x1000), store(1, 0), store(24, 0), store(600, 0), store(26, 37), store(32 + 24, 0);
    equals("transfer", sample(1, 1500), 0);
    forecast_is(1, 164 + SOAK_2 + RAMP_3 + SOAK_4 + 1); /* Cascade now: 490 counts down from 1,500 by 3.00 */
    store(26, 600);
    forecast_is(1, 164 + SOAK_2 + RAMP_3 + SOAK_4 + 1); /* no change waits */
}

/* ---- records of garbage */

static const int64_t ranges[KEXBARDI_FIELDS][2] = {{0, 2}, {-((int64_t)1 << 52), (int64_t)1 << 52}, {0, 65535 * (int64_t)262144},
    {0, 65535}, {0, 65535}, {-65535, 65535}, {0, 1}, {0, 1}, {0, 16}, {0, 1}, {0, 1}, {0, 9999}, {0, 6000000}, {0, 1}};

/* One number of a loop's record takes a value out of its range: every call that reads the record is refused, and every
 * number stays. */
static void number_refused(unsigned loop) {
    const struct lent kept = lent;
    equals("record", record(loop), 5);
    equals("sample", sample(loop, 1000), 5);
    equals("forecast", forecast(loop), 5);
    words[KEXBARDI_ADDRESS(loop, KEXBARDI_GAIN)] = 0xffff;
    equals("5 before 7, 8 and 9", sample(loop, 65535), 5);
    equals("forecast: 5 before 7", forecast(loop), 5);
    size = 0, file_sample(loop, 1000), file_store(700, 9);
    equals("run", run(ANSWERS), 0);
    equals("a sample in a file", answers[0], 5);
    equals("the reading goes on", answers[1], 0);
    check("all numbers stay", memcmp(records, kept.records + GUARD, KEXBARDI_NUMBERS * sizeof *records) == 0);
    equals("a store", store(KEXBARDI_ADDRESS(loop, KEXBARDI_SETPOINT), 7), 0);
}

static void number_at(unsigned loop, int field, int64_t value) {
    const struct lent kept = lent;
    records[KEXBARDI_FIELDS * (loop - 1) + (unsigned)field] = value;
    if (value < ranges[field][0] || value > ranges[field][1])
        number_refused(loop);
    else {
        equals("record", record(loop), 0);
        equals("a number as it stands", fields[field], value);
        equals("forecast", forecast(loop), 0);
        equals("sample", sample(loop, 1000), 0);
        equals("record afterwards", record(loop), 0);
    }
    lent = kept;
}

/* The records of all other loops are garbage, and stay so. */
static void garbage_numbers(void) {
    static const unsigned loops[] = {1, 3, 9, 16};
    for (int k = 0; k < 4; k++) {
        begin("a number at the ends of its range");
        settle(loops[k]);
        memset(records, 0xa5, KEXBARDI_NUMBERS * sizeof *records);
        memset(records + KEXBARDI_FIELDS * (loops[k] - 1), 0, KEXBARDI_FIELDS * sizeof *records);
        equals("sample", sample(loops[k], 1000), 0);
        for (int field = 0; field < KEXBARDI_FIELDS; field++) {
            const int64_t low = ranges[field][0], high = ranges[field][1], far_off = (int64_t)1 << 32, farther = (int64_t)1 << 62;
            const int64_t values[] = {low, high, low - 1, high + 1, high + 2, -high - 2, high + 256, high + 65536, high + far_off,
                low - far_off, (int64_t)1 << 53, farther, -farther, INT64_MIN, INT64_MIN + 1, INT64_MAX, INT64_MAX - 1};
            for (size_t n = 0; n < sizeof values / sizeof *values; n++) number_at(loops[k], field, values[n]);
        }
    }
}

/* The record of the sampled loop counts, and no other. */
static void garbage_neighbour(void) {
    begin("a number out of range in another loop");
    settle(2), settle(3);
    records[2 * KEXBARDI_FIELDS + KEXBARDI_FIELD_ERROR] = 65536;
    equals("loop 3", sample(3, 1000), 5);
    equals("forecast of loop 3", forecast(3), 5);
    equals("loop 2", sample(2, 1000), 0);
    equals("forecast of loop 2", forecast(2), 0);
    equals("record 2", record(2), 0);
    size = 0, file_sample(3, 1000), file_sample(2, 1000), file_sample(4, 1000);
    equals("run", run(ANSWERS), 0);
    equals("loop 3 in a file", answers[0], 5);
    equals("loop 2 in a file", answers[1], 0);
    equals("loop 4 in a file", answers[2], 12);
    equals("it stays", records[2 * KEXBARDI_FIELDS + KEXBARDI_FIELD_ERROR], 65536);
}

static void garbage_desks(void) {
    static const int fills[] = {0xff, 0xa5, 0x80, 0x7f, 0x01, 0x55};
    for (size_t n = 0; n < sizeof fills / sizeof *fills; n++) {
        begin("records of garbage");
        for (unsigned loop = 1; loop <= KEXBARDI_LOOPS; loop++) settle(loop);
        memset(records, fills[n], KEXBARDI_NUMBERS * sizeof *records);
        for (unsigned loop = 1; loop <= KEXBARDI_LOOPS; loop++) {
            equals("record", record(loop), 5);
            equals("sample", sample(loop, 1000), 5);
        }
        memset(words, fills[n], KEXBARDI_WORDS * sizeof *words);
        for (unsigned loop = 0; loop < 256; loop++) equals("all of garbage", sample(loop, 1000), loop >= 1 && loop <= 16 ? 5 : 4);
        memset(records, 0, KEXBARDI_NUMBERS * sizeof *records);
        for (unsigned loop = 1; loop <= KEXBARDI_LOOPS; loop++) check("words of garbage are refused", sample(loop, 1000) >= 7);
        equals("store", store(2, 9), 0);
        equals("reset", reset(), 0);
    }
}

/* ---- loops alike */

/* Thirteen samples of a loop in every mode and form, with alarms and a profile, a store before each; the lines go to
 * `lines`. None is a transfer, which asks for another loop (Q9). */
static void same_calls(unsigned loop, uint16_t lines[13][4]) {
    static const uint16_t calls[13][3] = {/* offset, value, raw PV */
        {KEXBARDI_RATE, 0x0050, 1000}, {KEXBARDI_SETPOINT, 1500, 1010}, {KEXBARDI_MODE_1, 0x7000 | 4 | 8, 1100},
        {KEXBARDI_MODE_1, 0x7000 | 32, 1200}, {KEXBARDI_SETPOINT, 900, 1300}, {KEXBARDI_MODE_1, 0x7000 | 1, 3000},
        {KEXBARDI_OUTPUT, 700, 2900}, {KEXBARDI_MODE_1, 0x7000 | 2 | 8 | 16, 2500}, {KEXBARDI_GAIN, 0x0033, 0},
        {KEXBARDI_MODE_1, 0x7800 | 8 | 16, 100}, {KEXBARDI_PROFILE_FLAGS, 1, 150}, {KEXBARDI_CHANGE, 20, 200},
        {KEXBARDI_PROFILE_FLAGS, 8, 250}};
    settle(loop);
    for (unsigned n = 0; n < 4; n++) store(KEXBARDI_ADDRESS(loop, KEXBARDI_LOW_LOW + n), 800 * (n + 1));
    store(KEXBARDI_ADDRESS(loop, KEXBARDI_YELLOW), 100), store(KEXBARDI_ADDRESS(loop, KEXBARDI_RED), 300);
    store(KEXBARDI_ADDRESS(loop, KEXBARDI_HYSTERESIS), 10), store(KEXBARDI_ADDRESS(loop, KEXBARDI_CHANGE), 50);
    store(KEXBARDI_ADDRESS(loop, KEXBARDI_POINTER), 600), store(600, 1234);
    store(KEXBARDI_ADDRESS(loop, KEXBARDI_PROFILE_TABLE), 700), store(700, 4000), store(701, 0x1234), store(702, 3), store(703, 9);
    for (int n = 0; n < 13; n++) {
        equals("store", store(KEXBARDI_ADDRESS(loop, calls[n][0]), calls[n][1]), 0);
        equals("sample", sample(loop, calls[n][2]), 0);
        memcpy(lines[n], line, 4 * sizeof *line);
    }
}

/* Every loop gives the lines, words and record of loop 1, and loop 1 is not touched meanwhile. */
static void alike(void) {
    static uint16_t first[13][4], lines[13][4];
    begin("loops alike");
    same_calls(1, first);
    forecast_is(1, 18 + 1); /* 0.3 minutes, and slope 0 */
    for (unsigned loop = 2; loop <= KEXBARDI_LOOPS; loop++) {
        same_calls(loop, lines);
        forecast_is(loop, 18 + 1);
        check("lines", memcmp(lines, first, sizeof first) == 0);
        check("words", memcmp(words + KEXBARDI_ADDRESS(loop, 0), words, KEXBARDI_LOOP_WORDS * sizeof *words) == 0);
        check("record", memcmp(records + KEXBARDI_FIELDS * (loop - 1), records, KEXBARDI_FIELDS * sizeof *records) == 0);
    }
}

/* ---- two desks */

static void two_desks(void) {
    static struct lent first, second, alone;
    static const uint16_t raws[] = {1000, 900, 1300, 4095, 0, 2222};
    begin_loop_a("two desks");
    first = lent;
    for (int n = 0; n < 6; n++) sample(1, raws[n]), store(2, 1500 + (unsigned)n);
    alone = lent;
    lent = first;
    settle(2), store(8, 0x0777), store(0, 4), store(26, 600);
    second = lent;
    lent = first;
    for (int n = 0; n < 6; n++) {
        equals("first", sample(1, raws[n]), 0);
        store(2, 1500 + (unsigned)n);
        first = lent, lent = second;
        equals("second", sample(1, raws[5 - n]), 0);
        equals("second", sample(2, raws[n]), 0);
        second = lent, lent = first;
    }
    check("the first is what it is alone", memcmp(&lent, &alone, sizeof lent) == 0);
}

/* ---- files */

static const char worked_lines[] =
    "1 set 5 2000\n2 set 25 4095\n3 set 7 256\n4 set 8 512\n5 set 9 4096\n6 set 0 2\n"
    "7 loop 1 sp 1000 pv 1000 out 2000 word 0002\n8 set 2 1500\n9 loop 1 sp 1500 pv 1000 out 3100 word 0002\n"
    "10 refused 4\n10 records, 1 refused\n";

static void file_worked(void) {
    file_loop_a();
    file_sample(1, 1000);
    file_store(2, 1500);
    file_sample(1, 1000);
    file_sample(17, 0);
}

/* The file is run with room for every answer; each is a character from '0' on, so 11 to 14 are ';', '<', '=' and '>'. */
static void check_run(const char *expected) {
    size_t refusals = 0, records_read = strlen(expected);
    equals("run", run(ANSWERS), 0);
    equals("count", (int64_t)*count, (int64_t)records_read);
    for (size_t n = 0; n < records_read && n < ANSWERS; n++) {
        equals("answer", answers[n], expected[n] - '0');
        refusals += expected[n] != '0';
    }
    equals("refused", (int64_t)*refused, (int64_t)refusals);
}

static void check_text(const char *expected) {
    equals("print", print_of(file, size, KEXBARDI_PRINT_ROOM(size)), 0);
    equals("length", (int64_t)*text_length, (int64_t)strlen(expected));
    check("the text", memcmp(out + GUARD, expected, strlen(expected)) == 0);
}

static void worked_file(void) {
    static struct lent direct;
    begin("worked loop by calls");
    check_worked_loop(1);
    direct = lent;
    begin("worked loop by a file");
    file_worked();
    check_run("0000000004");
    check("words as by calls", memcmp(words, direct.words + GUARD, KEXBARDI_WORDS * sizeof *words) == 0);
    check("records as by calls", memcmp(records, direct.records + GUARD, KEXBARDI_NUMBERS * sizeof *records) == 0);
    check_text(worked_lines);
}

/* By a file: a drum-level pair, and a transfer that is refused first. */
static void transfer_file(void) {
    static const unsigned tables[] = {0, 32};
    begin("a transfer in a file");
    for (int k = 0; k < 2; k++)
        for (int n = 0; n < 6; n++) file_store(tables[k] + loop_a_stores[n][0], loop_a_stores[n][1]);
    file_sample(1, 2048), file_sample(2, 1500), file_store(32, 4), file_sample(2, 1500);
    file_store(58, 5), file_sample(2, 1500), file_sample(1, 2048), file_sample(2, 1500);
    const size_t whole = size;
    check_run("000000000000000;0000");
    equals("loop 1's output", words[5], 1500);
    equals("loop 2's output", words[37], 2000);
    equals("the mark is off", MARK(1), 0);
    equals("reset", reset(), 0);
    size = whole - 7 - 7; /* without the last two samples */
    check_run("000000000000000;00");
    equals("the mark is on", MARK(1), 1);
}

/* What the file's bytes mean: 1, 2 and 3 only a file can meet. */
static void file_refusals(void) {
    begin("rows of the table");
    file_sample(1, 0);
    file_store(0, 512), file_sample(1, 0);
    file_store(8, 10), file_sample(1, 0);
    pair(2), pair(99);
    pair(3), pair(2), byte(1);
    file_sample(17, 0);
    file_store(3, 5);
    file_loop_a(), file_sample(1, 4096);
    file_store(2, 4096), file_sample(1, 4096);
    file_store(24, 4096), file_sample(1, 4096);
    file_store(2, 0), file_store(24, 0);
    file_sample(1, 1000), file_store(0, 4), file_sample(1, 1000); /* the pointer is 0 */
    pair(6), byte(1);
    check_run("<0807234600000090>0=0000;1");
    equals("a time", answers[0], KEXBARDI_SETTING_TIMES);
    equals("a mode bit", answers[2], KEXBARDI_SETTING);
    equals("a record of no kind", answers[5], KEXBARDI_KIND);
    equals("a length that is not the kind's", answers[6], KEXBARDI_LENGTH);
    equals("a setpoint", answers[17], KEXBARDI_SETTING_SETPOINT);
    equals("a limit", answers[19], KEXBARDI_SETTING_LIMITS);
    equals("a transfer to no output", answers[24], KEXBARDI_TRANSFER);
    equals("a record cut", answers[25], KEXBARDI_CUT);
    check_text("1 refused 12\n2 set 0 512\n3 refused 8\n4 set 8 10\n5 refused 7\n6 refused 2\n7 refused 3\n8 refused 4\n9 refused 6\n"
        "10 set 5 2000\n11 set 25 4095\n12 set 7 256\n13 set 8 512\n14 set 9 4096\n15 set 0 2\n16 refused 9\n17 set 2 4096\n"
        "18 refused 14\n19 set 24 4096\n20 refused 13\n21 set 2 0\n22 set 24 0\n23 loop 1 sp 1000 pv 1000 out 2000 word 0002\n"
        "24 set 0 4\n25 refused 11\n26 refused 1\n26 records, 12 refused\n");
    begin("a record that is none, in a file");
    settle(1), settle(2);
    records[KEXBARDI_FIELD_MODE] = 3;
    file_sample(1, 1000), file_sample(2, 1000), file_sample(1, 65535), file_store(2, 1), file_sample(1, 1000);
    check_run("50505");
    equals("it stays", records[KEXBARDI_FIELD_MODE], 3);
}

struct bytes {
    const char *name;
    size_t length;
    uint8_t bytes[16];
    const char *answers;
};

static const struct bytes small_files[] = {
    {"empty", 0, {0}, ""}, {"one byte", 1, {6}, "1"}, {"a length alone", 2, {6, 0}, "1"}, {"a zero length", 2, {0, 0}, "2"},
    {"short lengths", 8, {0, 0, 1, 0, 255, 0, 0, 0}, "2221"}, {"a kind of one byte", 5, {1, 0, 1, 0, 0}, "22"},
    {"kind 0", 4, {2, 0, 0, 0}, "2"}, {"kind 3", 4, {2, 0, 3, 0}, "2"},
    {"kind 257", 4, {2, 0, 1, 1}, "2"}, {"a store of length 5", 7, {5, 0, 1, 0, 0, 0, 0}, "3"},
    {"a store of length 7", 9, {7, 0, 1, 0, 0, 0, 0, 0, 0}, "3"}, {"a sample of length 6", 8, {6, 0, 2, 0, 1, 0, 0, 0}, "3"},
    {"a sample of length 2", 4, {2, 0, 2, 0}, "3"}, {"a store cut", 7, {6, 0, 1, 0, 2, 0, 9}, "1"},
    {"a sample cut", 6, {5, 0, 2, 0, 1, 0}, "1"}, {"length 65,535", 4, {255, 255, 2, 0}, "1"},
    {"a store, a byte left", 9, {6, 0, 1, 0, 2, 0, 9, 0, 5}, "01"}, {"store to 1,024", 8, {6, 0, 1, 0, 0, 4, 1, 0}, "6"},
    {"loop 0", 7, {5, 0, 2, 0, 0, 1, 0}, "4"}, {"loop 255", 7, {5, 0, 2, 0, 255, 1, 0}, "4"},
};

static void small(void) {
    for (size_t n = 0; n < sizeof small_files / sizeof *small_files; n++) {
        begin(small_files[n].name);
        memcpy(file, small_files[n].bytes, size = small_files[n].length);
        check_run(small_files[n].answers);
        equals("print", print_of(file, size, KEXBARDI_PRINT_ROOM(size)), 0);
        equals("it ends with a newline", out[GUARD + *text_length - 1], '\n');
    }
    begin("empty file");
    check_text("0 records, 0 refused\n");
}

static void answers_room(void) {
    for (size_t room = 0; room <= 11; room++) {
        begin("room for answers");
        file_worked();
        equals("run", run(room), 0);
        equals("count", (int64_t)*count, 10);
        equals("refused", (int64_t)*refused, 1);
        for (size_t n = 0; n < room && n < 10; n++) equals("answer", answers[n], n == 9 ? 4 : 0);
    }
}

static void print_room(void) {
    begin("room for the text");
    file_worked();
    equals("none", print_of(file, size, 0), 5);
    equals("as much as the text", print_of(file, size, strlen(worked_lines)), 5);
    equals("a byte short", print_of(file, size, KEXBARDI_PRINT_ROOM(size) - 1), 5);
    equals("a byte more", print_of(file, size, KEXBARDI_PRINT_ROOM(size) + 1), 0);
    check_text(worked_lines);
    size = 0;
    equals("empty file, a byte short", print_of(file, 0, KEXBARDI_PRINT_ROOM(0) - 1), 5);
    check_text("0 records, 0 refused\n");
}

/* 32,768 records of length 0, each refused with 2 */
static void check_longest_text(void) {
    static char expected[32];
    size_t at = GUARD;
    int same = 1;
    for (unsigned n = 1; n <= 32768; n++) {
        int length = sprintf(expected, "%u refused 2\n", n);
        same &= memcmp(out + at, expected, (size_t)length) == 0;
        at += (size_t)length;
    }
    check("a line for each record", same);
    check("the last line", memcmp(out + at, "32768 records, 32768 refused\n", 29) == 0);
    equals("length", (int64_t)*text_length, (int64_t)(at - GUARD + 29));
}

static void long_files(void) {
    begin("65,536 bytes");
    equals("a byte short", print_of(long_file, 65536, KEXBARDI_PRINT_ROOM(65536) - 1), 5);
    equals("print", print_of(long_file, 65536, KEXBARDI_PRINT_ROOM(65536)), 0);
    check_longest_text();
    begin("65,537 bytes");
    equals("8 bytes of room", print_of(long_file, 65537, 8), 5);
    equals("no room", print_of(long_file, 65537, 0), 5);
    equals("9 bytes of room", print_of(long_file, 65537, 9), 0);
    equals("length", (int64_t)*text_length, 9);
    check("too long", memcmp(out + GUARD, "too long\n", 9) == 0);
    keep();
    uint8_t answer = kexbardi_run(long_file, 65537, words, KEXBARDI_WORDS, records, KEXBARDI_NUMBERS, answers, 0, count, refused);
    equals("run takes any length", answer, 0);
    equals("count", (int64_t)*count, 32769);
    equals("refused", (int64_t)*refused, 32769);
    free_to_write(count, sizeof *count), free_to_write(refused, sizeof *refused);
    nothing_else_changed(0);
}

int main(void) {
    test = "version";
    equals("the archive's", kexbardi_version(), KEXBARDI_VERSION);
    worked_loop();
    worked_cases();
    alarms();
    limits_out_of_order();
    cascade();
    lengths();
    order();
    loops();
    stores();
    digits();
    settings_refused();
    raw_above();
    wide();
    profile_run();
    profile_commands();
    profile_steps();
    no_profile();
    longest_profile();
    table_words();
    lent_ends();
    saved_by_4_0_0();
    first_samples();
    change_alarms();
    manual();
    held_at_first();
    bias_words();
    transfer_memory();
    transfer_in_velocity();
    transfer_of_a_root();
    transfer_by_form();
    transfer_pointed();
    transfer_pairs();
    transfer_pointers();
    transfer_limits();
    transfer_causes();
    marks();
    mark_kept();
    mark_saved();
    transfer_depends();
    transfer_forecasts();
    garbage_numbers();
    garbage_neighbour();
    garbage_desks();
    alike();
    two_desks();
    worked_file();
    transfer_file();
    file_refusals();
    small();
    answers_room();
    print_room();
    long_files();
    printf("%u passed, %u failed\n", passed, failed);
    return failed != 0;
}
