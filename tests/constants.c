/* Every constant and macro of kexbardi.h, used as a desk maker's program uses it: what the engine does with it
 * shows whether it has its value. In the common subset of C99 and C++11; it links the archive alone:
 *   gcc -std=c99 -Itarget/kexbardi/include tests/constants.c target/kexbardi/lib/libkexbardi.a
 * What is expected is worked out by hand from docs/MANUAL.md, whose rules are cited, and stands here in plain
 * numbers. Loops are set up in plain numbers too, so that a test takes from the header only what it is about,
 * and two constants that are wrong alike are told. tests/constants runs this with each constant changed. */
#include "kexbardi.h"

#include <stdio.h>
#include <stdlib.h>
#include <string.h>

/* What is lent, of plain sizes and larger than a desk, so that a constant that is too great stays inside. */
static uint16_t words[4096], line[64];
static int64_t records[1024], fields[64];
static uint8_t answers[64], long_file[150000], out[2000000];
static size_t count, refused, text_length;
static uint64_t left; /* samples, of a forecast */

static unsigned passed, failed;
static const char *test = "";

static void equals(const char *what, int64_t is, int64_t expected) {
    if (is != expected) printf("tests/constants: %s: %s is %lld, not %lld\n", test, what, (long long)is, (long long)expected);
    if (is == expected) passed++;
    else failed++;
}

static void check(const char *what, int holds) {
    if (!holds) printf("tests/constants: %s: %s\n", test, what);
    if (holds) passed++;
    else failed++;
}

/* ---- a desk and loop A, in plain numbers */

static uint8_t store(uint64_t address, unsigned value) {
    return kexbardi_store(words, 1024, records, 224, address, (uint16_t)value);
}

static uint8_t sample(uint64_t loop, uint64_t raw) { return kexbardi_sample(words, 1024, records, 224, loop, raw, line); }

/* A word of the desk; -1 where the address has none. */
static int64_t word(int64_t address) { return address >= 0 && address < 1024 ? words[address] : -1; }

static void begin(const char *name) {
    test = name;
    memset(words, 0xa5, sizeof words);
    memset(records, 0xa5, sizeof records);
    memset(line, 0xa5, sizeof line);
    memset(fields, 0xa5, sizeof fields);
    equals("reset", kexbardi_reset(words, 1024, records, 224), 0);
}

/* A store that has to be accepted. */
static void put(uint64_t address, unsigned value) { equals("a store", store(address, value), 0); }

/* A word of loop 1 by the header's name for it. */
static void set(enum kexbardi_word offset, unsigned value) { put(KEXBARDI_ADDRESS(1, offset), value); }

/* X1, stores 1 to 6, into the table that begins at an address. */
static void settle(uint64_t table) {
    static const uint16_t stores[6][2] = {{5, 2000}, {25, 4095}, {7, 0x0100}, {8, 0x0200}, {9, 0x1000}, {0, 0x0002}};
    for (int n = 0; n < 6; n++) put(table + stores[n][0], stores[n][1]);
}

static void begin_loop_a(const char *name) {
    begin(name);
    settle(0);
}

/* X1 up to line 8: Automatic, PV 1,000, setpoint 1,500. A sample with PV 1,000 is line 9, output 3,100. */
static void begin_line_9(const char *name) {
    begin_loop_a(name);
    equals("line 7", sample(1, 1000), 0);
    put(2, 1500);
}

/* Alarm limits and the words of mode 1's other bits: without effect while those bits are off. The pointer leads to the output of
 * loop 2, whose high limit is 4,095. */
static void put_limits(void) {
    static const uint16_t stores[][2] = {{11, 100}, {12, 200}, {13, 3000}, {14, 3500}, {15, 400}, {16, 600}, {17, 99}, {18, 10},
        {19, 501}, {26, 37}, {37, 1234}, {57, 4095}};
    for (size_t n = 0; n < sizeof stores / sizeof *stores; n++) put(stores[n][0], stores[n][1]);
}

static void sampled(uint64_t raw, unsigned setpoint, unsigned pv, unsigned output, unsigned status) {
    equals("sample", sample(1, raw), 0);
    equals("setpoint", line[0], setpoint);
    equals("PV", line[1], pv);
    equals("output", line[2], output);
    equals("status", line[3], status);
}

/* The status word alone, for samples whose output does not matter. */
static void status_of(uint64_t raw, unsigned status) {
    equals("sample", sample(1, raw), 0);
    equals("status", line[3], status);
}

static void take_record(void) { equals("record", kexbardi_record(records, 224, 1, fields), 0); }

/* ---- versions */

/* Header and archive are of one version, 5.2.0 or later: it has refusals 12 to 14. Saves of 5.0.0 and later may be loaded: the engine
 * has no say in it. */
static void versions(void) {
    test = "versions";
    equals("KEXBARDI_VERSION", KEXBARDI_VERSION, kexbardi_version());
    check("a version that has all refusals", KEXBARDI_VERSION >= 50200);
    equals("KEXBARDI_OLDEST_SAVE", KEXBARDI_OLDEST_SAVE, 50000);
    check("the oldest save is not above the version", KEXBARDI_OLDEST_SAVE <= KEXBARDI_VERSION);
    equals("the major number of 3.0.0", KEXBARDI_MAJOR(30000), 3);
    equals("the major number of 3.99.99", KEXBARDI_MAJOR(39999), 3);
    equals("the major number of a sum", KEXBARDI_MAJOR(20000 + 10000), 3);
    equals("the major number in a quotient", 100 / KEXBARDI_MAJOR(30000), 33);
}

/* ---- the desk */

/* W1, N5, N6: the words have this length and no other; the last address is one below it. */
static void desk_words(void) {
    begin("KEXBARDI_WORDS");
    equals("the length", kexbardi_reset(words, KEXBARDI_WORDS, records, 224), 0);
    equals("one less", kexbardi_reset(words, KEXBARDI_WORDS - 1, records, 224), 5);
    equals("one more", kexbardi_reset(words, KEXBARDI_WORDS + 1, records, 224), 5);
    equals("store in the last word", store(KEXBARDI_WORDS - 1, 77), 0);
    equals("word 1,023", word(1023), 77);
    equals("store behind it", store(KEXBARDI_WORDS, 77), 6);
}

/* H4, N5: the records have this length and no other, sixteen of fourteen numbers. */
static void desk_numbers(void) {
    begin("KEXBARDI_NUMBERS");
    equals("the length", kexbardi_reset(words, 1024, records, KEXBARDI_NUMBERS), 0);
    equals("one less", kexbardi_reset(words, 1024, records, KEXBARDI_NUMBERS - 1), 5);
    equals("one more", kexbardi_reset(words, 1024, records, KEXBARDI_NUMBERS + 1), 5);
    equals("record", kexbardi_record(records, KEXBARDI_NUMBERS, 16, fields), 0);
    equals("a record of each loop", KEXBARDI_NUMBERS, KEXBARDI_LOOPS * KEXBARDI_FIELDS);
}

/* N4: the last loop works, and there is none behind it. */
static void loops(void) {
    begin("KEXBARDI_LOOPS");
    settle(480); /* 32 x 15 */
    equals("the last loop", sample(KEXBARDI_LOOPS, 1000), 0);
    equals("its PV", word(483), 1000);
    equals("its record", kexbardi_record(records, 224, KEXBARDI_LOOPS, fields), 0);
    equals("the one behind it", sample(KEXBARDI_LOOPS + 1, 1000), 4);
    equals("the record behind it", kexbardi_record(records, 224, KEXBARDI_LOOPS + 1, fields), 4);
}

/* W1, N6: word 3 of each table is the engine's, and so are no words behind the tables. */
static void loop_words(void) {
    begin("KEXBARDI_LOOP_WORDS");
    for (unsigned table = 0; table < 16; table++) equals("store of a PV", store(table * KEXBARDI_LOOP_WORDS + 3, 5), 6);
    equals("store behind the tables", store(16 * KEXBARDI_LOOP_WORDS + 3, 5), 0);
    settle(32);
    equals("loop 2", sample(2, 1000), 0);
    equals("its PV", word(KEXBARDI_LOOP_WORDS + 3), 1000);
}

/* H1, H4, Q4: the record of loop 2 begins behind this many numbers, and this many are copied out. */
static void record_numbers(void) {
    begin("KEXBARDI_FIELDS");
    settle(32);
    equals("loop 2", sample(2, 1000), 0);
    equals("its last PV", records[KEXBARDI_FIELDS + 3], 1000);
    records[27] = 1; /* 14 + 13, the mark of loop 2 */
    fields[KEXBARDI_FIELDS - 1] = fields[KEXBARDI_FIELDS] = -77;
    equals("record", kexbardi_record(records, 224, 2, fields), 0);
    equals("the last number", fields[KEXBARDI_FIELDS - 1], 1);
    equals("the one behind it", fields[KEXBARDI_FIELDS], -77);
}

/* W1: 32 x (k - 1) + n; arguments may be expressions, and so may what the macro stands in. */
static const char address_34[KEXBARDI_ADDRESS(2, 2)] = "";

static void addresses(void) {
    const int second = 1;
    test = "KEXBARDI_ADDRESS";
    equals("in a constant expression", (int64_t)sizeof address_34, 34);
    equals("the first word", KEXBARDI_ADDRESS(1, 0), 0);
    equals("loop 1", KEXBARDI_ADDRESS(1, 26), 26);
    equals("loop 2", KEXBARDI_ADDRESS(2, 0), 32);
    equals("the last word of loop 16", KEXBARDI_ADDRESS(16, 31), 511);
    equals("a sum for the loop", KEXBARDI_ADDRESS(1 + 1, 2), 34);
    equals("a choice for the loop", KEXBARDI_ADDRESS(second ? 2 : 3, 2), 34);
    equals("a choice for the word", KEXBARDI_ADDRESS(2, second ? 2 : 3), 34);
    equals("in a product", 2 * KEXBARDI_ADDRESS(2, 2), 68);
    equals("in a difference", 100 - KEXBARDI_ADDRESS(2, 2), 66);
}

/* Q9, X1: every loop set up by its addresses is loop A. */
static void addresses_of_loops(void) {
    begin("KEXBARDI_ADDRESS of each loop");
    for (uint64_t loop = 1; loop <= 16; loop++) {
        settle(KEXBARDI_ADDRESS(loop, 0));
        equals("line 7", sample(loop, 1000), 0);
        put(KEXBARDI_ADDRESS(loop, 2), 1500);
        equals("line 9", sample(loop, 1000), 0);
        equals("output", line[2], 3100);
        equals("word 5", words[KEXBARDI_ADDRESS(loop, 5)], 3100);
    }
}

/* ---- the words of a loop */

struct changed {
    const char *name;
    enum kexbardi_word offset;
    uint16_t value, raw, output;
};

/* X1, X3: one word is changed before line 9. With e = 1,500 - PV: 2,000 + P + I - D, P = gain x e,
 * I = gain x period / reset x e, D = gain x rate / period x (PV - 1,000). */
static const struct changed changed_words[] = {
    {"KEXBARDI_MODE_1", KEXBARDI_MODE_1, 0x0010, 1000, 900},          /* reverse: 2,000 - 1,000 - 100 */
    {"KEXBARDI_MODE_2", KEXBARDI_MODE_2, 0x0010, 1000, 3002},         /* reset in minutes: I = 2 x 1/600 x 500 = 1.67 */
    {"KEXBARDI_SETPOINT", KEXBARDI_SETPOINT, 1600, 1000, 3320},       /* 2,000 + 2 x 600 + 2/10 x 600 */
    {"KEXBARDI_PERIOD", KEXBARDI_PERIOD, 0x0200, 1000, 3200},         /* I = 2 x 2/10 x 500 = 200 */
    {"KEXBARDI_GAIN", KEXBARDI_GAIN, 0x0300, 1000, 3650},             /* 2,000 + 3 x 500 + 3/10 x 500 */
    {"KEXBARDI_RESET", KEXBARDI_RESET, 0x0400, 1000, 3250},           /* I = 2/4 x 500 = 250 */
    {"KEXBARDI_RATE", KEXBARDI_RATE, 0x0100, 1010, 3058},             /* 2,000 + 980 + 98, D = 2 x 10 */
    {"KEXBARDI_OUTPUT_LOW", KEXBARDI_OUTPUT_LOW, 3200, 1000, 3200},   /* above 3,100 */
    {"KEXBARDI_OUTPUT_HIGH", KEXBARDI_OUTPUT_HIGH, 3000, 1000, 3000}, /* below 3,100 */
};

static void changed_at_line_9(void) {
    for (size_t n = 0; n < sizeof changed_words / sizeof *changed_words; n++) {
        const struct changed *c = &changed_words[n];
        begin_line_9(c->name);
        set(c->offset, c->value);
        equals("sample", sample(1, c->raw), 0);
        equals("output", line[2], c->output);
    }
}

/* A12, X1, X2: what line 9 leaves in the words, and N6: three of them cannot be stored. */
static void written_words(void) {
    begin_line_9("words that a sample writes");
    put(0, 0x8000); /* bit 15 is ignored and stays (M1) */
    equals("line 9", sample(1, 1000), 0);
    equals("KEXBARDI_MODE_1", word(KEXBARDI_ADDRESS(1, KEXBARDI_MODE_1)), 0x8000);
    equals("KEXBARDI_SETPOINT", word(KEXBARDI_ADDRESS(1, KEXBARDI_SETPOINT)), 1500);
    equals("KEXBARDI_PV", word(KEXBARDI_ADDRESS(1, KEXBARDI_PV)), 1000);
    equals("KEXBARDI_BIAS", word(KEXBARDI_ADDRESS(1, KEXBARDI_BIAS)), 2100);
    equals("KEXBARDI_OUTPUT", word(KEXBARDI_ADDRESS(1, KEXBARDI_OUTPUT)), 3100);
    equals("KEXBARDI_STATUS", word(KEXBARDI_ADDRESS(1, KEXBARDI_STATUS)), 0x0002);
    equals("store of KEXBARDI_PV", store(KEXBARDI_ADDRESS(1, KEXBARDI_PV), 5), 6);
    equals("store of KEXBARDI_BIAS", store(KEXBARDI_ADDRESS(1, KEXBARDI_BIAS), 5), 6);
    equals("store of KEXBARDI_STATUS", store(KEXBARDI_ADDRESS(1, KEXBARDI_STATUS), 5), 6);
}

/* M4: in Manual the output is the one that was stored. */
static void output_word(void) {
    begin_loop_a("KEXBARDI_OUTPUT");
    put(0, 0x0001);
    set(KEXBARDI_OUTPUT, 1234);
    sampled(1000, 0, 1000, 1234, 0x0001);
}

/* A5, X3: an error of 500 is smaller than a deadband of 501, not than one of 500. */
static void deadband_word(void) {
    begin_line_9("KEXBARDI_DEADBAND");
    put(0, 0x0100);
    set(KEXBARDI_DEADBAND, 501);
    sampled(1000, 1500, 1000, 2000, 0x0002);
    set(KEXBARDI_DEADBAND, 500);
    sampled(1000, 1500, 1000, 3100, 0x0002);
}

/* A3: in Cascade the setpoint is the word at the pointer, 1,234: 2,000 + 2 x 234 + 0.2 x 234 = 2,514.8. */
static void pointer_word(void) {
    begin_loop_a("KEXBARDI_POINTER");
    put(0, 0x0004);
    put(600, 1234);
    set(KEXBARDI_POINTER, 600);
    sampled(1000, 1234, 1000, 2515, 0x0004);
}

/* ---- alarms */

struct alarm {
    const char *name;
    uint16_t mode_1;
    enum kexbardi_word offset;
    uint16_t limit, quiet_pv, quiet, loud_pv, loud;
    enum kexbardi_status bit;
};

/* B2, B4, with the limits 100, 200, 3,000, 3,500 and 400, 600, one of which is stored anew: a PV at the limit and
 * one beyond it, and the status words. PV alarms in Manual; deviation alarms in Automatic, where Bumpless II keeps
 * the setpoint 2,000, and the output stays inside its limits. */
static const struct alarm alarms[] = {
    {"KEXBARDI_LOW_LOW", 0x1000, KEXBARDI_LOW_LOW, 150, 150, 0x0011, 149, 0x0019, KEXBARDI_S_LOW_LOW}, /* both below low */
    {"KEXBARDI_LOW", 0x1000, KEXBARDI_LOW, 250, 250, 0x0001, 249, 0x0011, KEXBARDI_S_LOW},
    {"KEXBARDI_HIGH", 0x1000, KEXBARDI_HIGH, 2900, 2900, 0x0001, 2901, 0x0021, KEXBARDI_S_HIGH},
    {"KEXBARDI_HIGH_HIGH", 0x1000, KEXBARDI_HIGH_HIGH, 3400, 3400, 0x0021, 3401, 0x0061, KEXBARDI_S_HIGH_HIGH}, /* above high */
    {"KEXBARDI_YELLOW", 0x200a, KEXBARDI_YELLOW, 300, 2300, 0x0002, 2301, 0x0082, KEXBARDI_S_YELLOW},
    {"KEXBARDI_RED", 0x200a, KEXBARDI_RED, 500, 2500, 0x0082, 2501, 0x0182, KEXBARDI_S_RED}, /* both above yellow */
};

static void limit_alarms(void) {
    for (size_t n = 0; n < sizeof alarms / sizeof *alarms; n++) {
        const struct alarm *a = &alarms[n];
        begin_loop_a(a->name);
        put_limits();
        put(0, a->mode_1);
        put(2, 2000);
        set(a->offset, a->limit);
        status_of(a->quiet_pv, a->quiet);
        equals("its bit while quiet", line[3] & a->bit, 0);
        status_of(a->loud_pv, a->loud);
        equals("its bit is what has come", a->loud ^ a->quiet, a->bit);
    }
}

/* B5: 300 is not more than the limit of 300, and 301 is; at the first sample there is no change. */
static void change_alarm(void) {
    begin_loop_a("KEXBARDI_CHANGE and KEXBARDI_S_RATE");
    put(0, KEXBARDI_M1_RATE_ALARM);
    set(KEXBARDI_CHANGE, 300);
    status_of(1000, 0x0001);
    status_of(1300, 0x0001);
    equals("its bit while quiet", line[3] & KEXBARDI_S_RATE, 0);
    status_of(1601, 0x0201);
    equals("its bit is what has come", line[3] ^ 0x0001, KEXBARDI_S_RATE);
    status_of(1601, 0x0001);
}

/* B3: above 3,000 the alarm comes; 2,981 + 20 is larger than 3,000, and 2,980 + 20 is not. */
static void hysteresis_word(void) {
    begin_loop_a("KEXBARDI_HYSTERESIS");
    put_limits();
    put(0, 0x1000);
    set(KEXBARDI_HYSTERESIS, 20);
    status_of(3001, 0x0021);
    status_of(2981, 0x0021);
    status_of(2980, 0x0001);
}

/* B6: limits of low-low and low that are equal. */
static void alarm_settings(void) {
    begin_loop_a("KEXBARDI_S_ALARM_SETTINGS");
    put_limits();
    put(0, 0x1000);
    status_of(1000, 0x0001);
    equals("its bit while the limits rise", line[3] & KEXBARDI_S_ALARM_SETTINGS, 0);
    put(11, 200);
    status_of(1000, 0x0401);
    equals("its bit is what has come", line[3] ^ 0x0001, KEXBARDI_S_ALARM_SETTINGS);
}

/* B7, X2: after line 9 PV 0 drives the output to its limit. */
static void at_limit(void) {
    begin_line_9("KEXBARDI_S_AT_LIMIT");
    sampled(1000, 1500, 1000, 3100, 0x0002);
    equals("its bit inside the limits", line[3] & KEXBARDI_S_AT_LIMIT, 0);
    sampled(0, 1500, 0, 4095, 0x0802);
    equals("its bit is what has come", line[3] ^ 0x0002, KEXBARDI_S_AT_LIMIT);
}

/* ---- modes */

/* A2, B1, H1: a request, the whole status word and the mode in the record. */
static void mode(enum kexbardi_mode_1 request, unsigned bit, enum kexbardi_status status, enum kexbardi_mode carried,
    int64_t number) {
    put(0, request);
    equals("mode 1 as it is stored", word(0), bit);
    status_of(1000, bit);
    equals("the status by its constant", line[3], status);
    equals("mode 1 afterwards", word(0), 0);
    take_record();
    equals("the carried mode", fields[0], number);
    equals("the carried mode by its constant", fields[0], carried);
}

static void modes(void) {
    begin_loop_a("modes");
    put_limits();
    mode(KEXBARDI_M1_CASCADE, 0x0004, KEXBARDI_S_CASCADE, KEXBARDI_CASCADE, 2);
    mode(KEXBARDI_M1_AUTOMATIC, 0x0002, KEXBARDI_S_AUTOMATIC, KEXBARDI_AUTOMATIC, 1);
    mode(KEXBARDI_M1_MANUAL, 0x0001, KEXBARDI_S_MANUAL, KEXBARDI_MANUAL, 0);
}

struct bit {
    const char *name;
    enum kexbardi_mode_1 bit;
    uint16_t mask, raw, setpoint, pv, output, status;
};

/* M1, X3: a bit of mode 1 alone is stored before line 9. What the sample gives, with the limits above:
 * MANUAL         the output stays 2,000
 * CASCADE        a transfer: the setpoint becomes the PV, and the output is the bias, 2,000
 * VELOCITY       the form changes, an entry: the setpoint becomes the PV and the output stays
 * ROOT           PV 2,024, e = 1,500 - 2,024 = -524: 2,000 - 1,048 - 104.8
 * SQUARED        e = 250,000/4,095 = 61: 2,000 + 122 + 12.2
 * DEADBAND       501, so e = 0
 * PV_ALARMS      PV 150 is below low: e = 1,350, 2,000 + 2,700 is above 4,095, at the limit
 * DEVIATION      500 is above 400
 * RATE_ALARM     100 is above 99: e = 400, 2,000 + 800 + 80
 * Freeze, Bumpless II and, without a table, the profile change nothing here; they have tests of their own. */
static const struct bit bits[] = {
    {"KEXBARDI_M1_MANUAL", KEXBARDI_M1_MANUAL, 0x0001, 1000, 1500, 1000, 2000, 0x0001},
    {"KEXBARDI_M1_AUTOMATIC", KEXBARDI_M1_AUTOMATIC, 0x0002, 1000, 1500, 1000, 3100, 0x0002},
    {"KEXBARDI_M1_CASCADE", KEXBARDI_M1_CASCADE, 0x0004, 1000, 1000, 1000, 2000, 0x0004},
    {"KEXBARDI_M1_BUMPLESS_II", KEXBARDI_M1_BUMPLESS_II, 0x0008, 1000, 1500, 1000, 3100, 0x0002},
    {"KEXBARDI_M1_REVERSE", KEXBARDI_M1_REVERSE, 0x0010, 1000, 1500, 1000, 900, 0x0002},
    {"KEXBARDI_M1_VELOCITY", KEXBARDI_M1_VELOCITY, 0x0020, 1000, 1000, 1000, 2000, 0x0002},
    {"KEXBARDI_M1_ROOT", KEXBARDI_M1_ROOT, 0x0040, 1000, 1500, 2024, 847, 0x0002},
    {"KEXBARDI_M1_SQUARED", KEXBARDI_M1_SQUARED, 0x0080, 1000, 1500, 1000, 2134, 0x0002},
    {"KEXBARDI_M1_DEADBAND", KEXBARDI_M1_DEADBAND, 0x0100, 1000, 1500, 1000, 2000, 0x0002},
    {"KEXBARDI_M1_FREEZE", KEXBARDI_M1_FREEZE, 0x0400, 1000, 1500, 1000, 3100, 0x0002},
    {"KEXBARDI_M1_PROFILE", KEXBARDI_M1_PROFILE, 0x0800, 1000, 1500, 1000, 3100, 0x0002},
    {"KEXBARDI_M1_PV_ALARMS", KEXBARDI_M1_PV_ALARMS, 0x1000, 150, 1500, 150, 4095, 0x0812},
    {"KEXBARDI_M1_DEVIATION_ALARMS", KEXBARDI_M1_DEVIATION_ALARMS, 0x2000, 1000, 1500, 1000, 3100, 0x0082},
    {"KEXBARDI_M1_RATE_ALARM", KEXBARDI_M1_RATE_ALARM, 0x4000, 1100, 1500, 1100, 2880, 0x0202},
};

static void mode_1_bits(void) {
    for (size_t n = 0; n < sizeof bits / sizeof *bits; n++) {
        const struct bit *b = &bits[n];
        begin_line_9(b->name);
        put_limits();
        put(0, b->bit);
        equals("mode 1 as it is stored", word(0), b->mask);
        sampled(b->raw, b->setpoint, b->pv, b->output, b->status);
        equals("mode 1 afterwards", word(0), b->mask & ~7);
    }
}

/* A4: an entry to Automatic with setpoint 1,200 and PV 1,000. Bumpless I makes it 1,000; Bumpless II keeps it, and
 * e = 200 gives 2,000 + 400 + 40. */
static void bumpless(void) {
    begin_loop_a("KEXBARDI_M1_BUMPLESS_II");
    put(2, 1200);
    sampled(1000, 1000, 1000, 2000, 0x0002);
    begin_loop_a("KEXBARDI_M1_BUMPLESS_II");
    put(2, 1200);
    put(0, KEXBARDI_M1_AUTOMATIC | KEXBARDI_M1_BUMPLESS_II);
    sampled(1000, 1200, 1000, 2440, 0x0002);
    equals("mode 1 afterwards", word(0), 0x0008);
}

/* A13: from line 9 to Cascade, the pointer at loop 2's output, 1,234. Bumpless I makes setpoint and output 1,000; Bumpless II keeps
 * both, and e = 234 gives 2,000 + 468 + 46.8. */
static void bumpless_transfer(void) {
    begin_line_9("KEXBARDI_M1_BUMPLESS_II, to Cascade");
    put_limits(), put(0, KEXBARDI_M1_CASCADE);
    sampled(1000, 1000, 1000, 2000, 0x0004);
    equals("loop 2's output", word(37), 1000);
    begin_line_9("KEXBARDI_M1_BUMPLESS_II, to Cascade");
    put_limits(), put(0, KEXBARDI_M1_CASCADE | KEXBARDI_M1_BUMPLESS_II);
    sampled(1000, 1234, 1000, 2515, 0x0004);
    equals("loop 2's output", word(37), 1234);
}

/* A8, X2: line 9, then PV 0 and PV 1,500. The bias comes down to 1,095 at the limit; with freeze it stays 2,100. */
static void freeze(unsigned mode_1, unsigned output) {
    begin_line_9("KEXBARDI_M1_FREEZE");
    sampled(1000, 1500, 1000, 3100, 0x0002);
    put(0, mode_1);
    sampled(0, 1500, 0, 4095, 0x0802);
    sampled(1500, 1500, 1500, output, 0x0002);
}

static void freezes(void) {
    freeze(0, 1095);
    freeze(KEXBARDI_M1_FREEZE, 2100);
}

/* A9, X3: velocity form from the entry on. The output is that of line 9, and word 4 stays 0. */
static void velocity(void) {
    begin_loop_a("KEXBARDI_M1_VELOCITY");
    put(0, KEXBARDI_M1_AUTOMATIC | KEXBARDI_M1_VELOCITY);
    sampled(1000, 1000, 1000, 2000, 0x0002);
    put(2, 1500);
    sampled(1000, 1500, 1000, 3100, 0x0002);
    equals("word 4", word(4), 0);
    take_record();
    equals("KEXBARDI_FIELD_VELOCITY", fields[KEXBARDI_FIELD_VELOCITY], 1);
}

/* M2, A7: 10.00 minutes are 600 s, and I = 2 x 500/600 = 1.67. */
static void reset_minutes(void) {
    begin_line_9("KEXBARDI_M2_RESET_MINUTES");
    put(1, KEXBARDI_M2_RESET_MINUTES);
    equals("mode 2", word(1), 0x0010);
    sampled(1000, 1500, 1000, 3002, 0x0002);
}

/* M3, N9: a raw PV at full scale is accepted, and one above it refused; that there is none in 16 bits is for
 * tests/calls.c to test. A5: full scale squared is full scale, and of no other number this is so. */
static void format(const char *name, unsigned mode_2, unsigned bits_of_mode_2, unsigned full, unsigned highest) {
    begin_loop_a(name);
    put(1, mode_2);
    equals("mode 2", word(1), bits_of_mode_2);
    equals("full scale", full, highest);
    equals("a PV of full scale", sample(1, full), 0);
    equals("PV", line[1], highest);
    if (highest < 65535) equals("a PV above it", sample(1, full + 1), 9);
    put(0, 0x0081); /* Manual, error squared */
    put(2, full);
    equals("a setpoint of full scale", sample(1, 0), 0);
    take_record();
    equals("the error squared", fields[5], full);
}

static void formats(void) {
    format("KEXBARDI_FULL_12", 0, 0x0000, KEXBARDI_FULL_12, 4095);
    format("KEXBARDI_FULL_15", KEXBARDI_M2_FIFTEEN_BITS, 0x0002, KEXBARDI_FULL_15, 32767);
    format("KEXBARDI_FULL_16", KEXBARDI_M2_SIXTEEN_BITS, 0x0200, KEXBARDI_FULL_16, 65535);
    format("16 bits prevail", KEXBARDI_M2_FIFTEEN_BITS | KEXBARDI_M2_SIXTEEN_BITS, 0x0202, KEXBARDI_FULL_16, 65535);
}

/* M3, N13: a high limit at the output's full scale is accepted, and one above it refused. A5: the error from PV 0 to setpoint 4,095,
 * the input's full scale, is the output's. */
static void output_format(const char *name, unsigned mode_2, unsigned bits_of_mode_2, unsigned highest) {
    begin_loop_a(name);
    put(1, mode_2);
    equals("mode 2", word(1), bits_of_mode_2);
    put(0, 0x0001);
    put(2, 4095);
    put(25, highest);
    equals("a limit at full scale", sample(1, 0), 0);
    take_record();
    equals("the error", fields[5], highest);
    if (highest == 65535) return;
    put(25, highest + 1);
    equals("a limit above it", sample(1, 0), 13);
}

static void output_formats(void) {
    const unsigned own = KEXBARDI_M2_OUTPUT_FORMAT, fifteen = KEXBARDI_M2_OUTPUT_FIFTEEN_BITS, sixteen = KEXBARDI_M2_OUTPUT_SIXTEEN_BITS;
    output_format("KEXBARDI_M2_OUTPUT_FORMAT", own, 0x0400, 4095);
    output_format("KEXBARDI_M2_OUTPUT_FIFTEEN_BITS", own | fifteen, 0x1400, 32767);
    output_format("KEXBARDI_M2_OUTPUT_SIXTEEN_BITS", own | sixteen, 0x2400, 65535);
    output_format("16 bits of the output prevail", own | fifteen | sixteen, 0x3400, 65535);
    put(1, sixteen);
    equals("the last two without OUTPUT_FORMAT", sample(1, 0), 8);
}

/* ---- profiles */

/* Loop A in Manual with setpoint 1,000 and bit 11, its period 1.00 s, and a table at an address, in plain numbers: up to
 * 1,010 by 2.50 a second, 0.1 minutes within 40, down to 1,000 by 4.00, 0.2 minutes. */
static void begin_table(const char *name, unsigned table) {
    static const uint16_t ramps_and_soaks[8] = {1010, 0x0250, 0x0001, 40, 1000, 0x0400, 0x0002, 0};
    begin_loop_a(name);
    put(0, 0x0801), put(2, 1000), put(28, table);
    for (unsigned n = 0; n < 8; n++) put(table + n, ramps_and_soaks[n]);
}

/* A sample with PV 1,000, the setpoint and word 27 behind it. */
static void moved(unsigned setpoint, unsigned flags) {
    equals("sample", sample(1, 1000), 0);
    equals("setpoint", word(2), setpoint);
    equals("word 27", word(27), flags);
}

/* The same table, and the profile is started. */
static void begin_profile(const char *name) {
    begin_table(name, 512);
    put(27, 0x0001);
    moved(1000, 0x0100);
}

/* G5, G9: on to a segment, by Jog. */
static void jog_to(unsigned segment) {
    for (unsigned n = 2; n <= segment; n++) {
        put(27, 0x0008);
        moved(1000, 256 * n);
    }
}

/* W2, G2 to G4: the three words of a loop, and the bit. */
static void profile_words(void) {
    begin_table("KEXBARDI_PROFILE_FLAGS", 512);
    set(KEXBARDI_PROFILE_FLAGS, 0x0001);
    moved(1000, 0x0100);
    equals("the word", word(KEXBARDI_ADDRESS(1, KEXBARDI_PROFILE_FLAGS)), 0x0100);
    moved(1002, 0x0100);
    begin_table("KEXBARDI_PROFILE_TABLE", 700);
    put(28, 0);
    set(KEXBARDI_PROFILE_TABLE, 700);
    put(27, 0x0001);
    moved(1000, 0x0100);
    moved(1002, 0x0100);
    begin_table("KEXBARDI_PROFILE_FAULT", 512);
    put(28, 511);
    moved(1000, 0x0000);
    equals("the word", word(KEXBARDI_ADDRESS(1, KEXBARDI_PROFILE_FAULT)), 1);
    equals("a store of it", store(KEXBARDI_ADDRESS(1, KEXBARDI_PROFILE_FAULT), 0), 6);
    begin_table("KEXBARDI_M1_PROFILE", 512);
    put(0, KEXBARDI_M1_PROFILE);
    put(27, 0x0001);
    moved(1000, 0x0100);
    moved(1002, 0x0100);
    put(0, 0x0c00 & ~KEXBARDI_M1_PROFILE); /* freeze is left */
    moved(1002, 0x0000);
    equals("mode 1", word(0), 0x0400);
}

/* G2: the lowest and the highest address of a table, and the faults of those beyond. */
static void table_at(const char *name, unsigned address, int64_t fault) {
    begin_table(name, 512);
    put(28, address);
    equals("sample", sample(1, 1000), 0);
    equals("word 29", word(29), fault);
}

static void table_addresses(void) {
    table_at("KEXBARDI_TABLE_FIRST", KEXBARDI_TABLE_FIRST, 0);
    table_at("one below KEXBARDI_TABLE_FIRST", KEXBARDI_TABLE_FIRST - 1, 1);
    table_at("KEXBARDI_TABLE_LAST", KEXBARDI_TABLE_LAST, 0);
    table_at("one above KEXBARDI_TABLE_LAST", KEXBARDI_TABLE_LAST + 1, 2);
    table_at("KEXBARDI_FAULT_BELOW", 511, KEXBARDI_FAULT_BELOW);
    table_at("KEXBARDI_FAULT_ABOVE", 993, KEXBARDI_FAULT_ABOVE);
    equals("the last table ends with the words", KEXBARDI_TABLE_LAST + KEXBARDI_TABLE_WORDS, 1024);
}

/* G1, G10: the last word of a table is the deviation of segment 16, whose duration, 0.1 minutes, stands before it. Of the
 * next table, full of what is no BCD, no word is read. */
static void table_words(void) {
    begin_profile("KEXBARDI_TABLE_WORDS");
    put(542, 0x0001);
    put(512 + KEXBARDI_TABLE_WORDS - 1, 9);
    for (unsigned n = 0; n < 32; n++) put(512 + KEXBARDI_TABLE_WORDS + n, 0xffff);
    jog_to(16);
    equals("PV 1,009", sample(1, 1009), 0);
    equals("word 27", word(27), 0x1000);
    equals("PV 1,010", sample(1, 1010), 0);
    equals("word 27", word(27), 0x1020);
}

/* G9: so many segments, and a Jog in the last completes the profile. */
static void segments(void) {
    begin_profile("KEXBARDI_SEGMENTS");
    jog_to(KEXBARDI_SEGMENTS);
    take_record();
    equals("the segment", fields[8], 16);
    put(27, 0x0008);
    moved(1000, 0x0010);
    equals("two words for each", 2 * KEXBARDI_SEGMENTS, 32);
}

/* G1: 2 x (n - 1); the argument may be an expression, and so may what the macro stands in. */
static const char place_4[KEXBARDI_SEGMENT(3)] = "";

static void segment_places(void) {
    const int third = 1;
    test = "KEXBARDI_SEGMENT";
    equals("in a constant expression", (int64_t)sizeof place_4, 4);
    equals("1", KEXBARDI_SEGMENT(1), 0);
    equals("2", KEXBARDI_SEGMENT(2), 2);
    equals("16", KEXBARDI_SEGMENT(16), 30);
    equals("of a sum", KEXBARDI_SEGMENT(1 + 2), 4);
    equals("of a choice", KEXBARDI_SEGMENT(third ? 3 : 4), 4);
    equals("in a quotient", 100 / KEXBARDI_SEGMENT(3), 25);
    equals("in a difference", 100 - KEXBARDI_SEGMENT(3), 96);
}

/* G7, G8: the words of a ramp and a soak at their places in an empty table. Segment 1 takes 4 samples, segment 2 lasts 6. */
static void segment_words(void) {
    begin_loop_a("a ramp and a soak");
    put(0, 0x0801), put(2, 1000), put(28, 512), put(27, 0x0001);
    put(512 + KEXBARDI_END, 1010);
    put(512 + KEXBARDI_SLOPE, 0x0250);
    put(514 + KEXBARDI_DURATION, 0x0001);
    put(514 + KEXBARDI_DEVIATION, 9);
    equals("KEXBARDI_END", word(512), 1010);
    equals("KEXBARDI_SLOPE", word(513), 0x0250);
    equals("KEXBARDI_DURATION", word(514), 1);
    equals("KEXBARDI_DEVIATION", word(515), 9);
    moved(1000, 0x0100);
    moved(1002, 0x0100);
    moved(1005, 0x0100);
    moved(1007, 0x0100);
    moved(1010, 0x0220);
    for (int n = 0; n < 5; n++) moved(1010, 0x0220);
    moved(1010, 0x0300);
    moved(1010, 0x0010); /* its slope is 0 */

    /* the same for segments 15 and 16 */
    begin_profile("KEXBARDI_SEGMENT of the last two");
    put(512 + KEXBARDI_SEGMENT(15) + KEXBARDI_END, 1005);
    put(512 + KEXBARDI_SEGMENT(15) + KEXBARDI_SLOPE, 0x0300);
    put(512 + KEXBARDI_SEGMENT(16) + KEXBARDI_DURATION, 0x0001);
    put(512 + KEXBARDI_SEGMENT(16) + KEXBARDI_DEVIATION, 4);
    jog_to(15);
    moved(1003, 0x0f00);
    moved(1005, 0x1020);
    for (int n = 0; n < 5; n++) moved(1005, 0x1020);
    moved(1005, 0x0010);
}

struct command {
    const char *name;
    enum kexbardi_profile_flags bit;
    uint16_t mask, held_before, flags, next_setpoint, next_flags;
};

/* G5, G6: a command to a profile that is in segment 1 at 1,002.5, not held or held; word 27 after it, and what the sample
 * behind it does. */
static const struct command commands[] = {
    {"KEXBARDI_P_START", KEXBARDI_P_START, 0x0001, 0, 0x0100, 1004, 0x0100}, /* the fraction is gone: 1,002 + 2.5 */
    {"KEXBARDI_P_START, held", KEXBARDI_P_START, 0x0001, 1, 0x0100, 1004, 0x0100},
    {"KEXBARDI_P_HOLD", KEXBARDI_P_HOLD, 0x0002, 0, 0x0140, 1002, 0x0140},
    {"KEXBARDI_P_RESUME", KEXBARDI_P_RESUME, 0x0004, 1, 0x0100, 1005, 0x0100},
    {"KEXBARDI_P_JOG", KEXBARDI_P_JOG, 0x0008, 0, 0x0200, 1002, 0x0200},
    {"KEXBARDI_P_JOG, held", KEXBARDI_P_JOG, 0x0008, 1, 0x0240, 1002, 0x0240},
};

static void profile_commands(void) {
    for (size_t n = 0; n < sizeof commands / sizeof *commands; n++) {
        const struct command *c = &commands[n];
        begin_profile(c->name);
        moved(1002, 0x0100);
        if (c->held_before) put(27, 0x0002), moved(1002, 0x0140);
        set(KEXBARDI_PROFILE_FLAGS, c->bit);
        equals("word 27 as it is stored", word(27), c->mask);
        moved(1002, c->flags);
        moved(c->next_setpoint, c->next_flags);
    }
}

/* G10: each of the three bits is what comes into word 27. */
static void profile_flags(void) {
    begin_profile("KEXBARDI_P_HELD");
    put(27, 0x0002);
    moved(1000, 0x0140);
    equals("its bit is what has come", 0x0100 ^ word(27), KEXBARDI_P_HELD);
    begin_profile("KEXBARDI_P_DEVIATION");
    jog_to(2);
    equals("PV 960", sample(1, 960), 0);
    equals("word 27", word(27), 0x0200);
    equals("PV 959", sample(1, 959), 0);
    equals("word 27", word(27), 0x0220);
    equals("its bit is what has come", 0x0200 ^ word(27), KEXBARDI_P_DEVIATION);
    begin_profile("KEXBARDI_P_COMPLETE");
    jog_to(5);
    moved(1000, 0x0010);
    equals("its bit alone is on", word(27), KEXBARDI_P_COMPLETE);
}

/* G10: the segment is the upper byte; the argument may be an expression, and the macro stand in one. */
static void segment_of_flags(void) {
    const int16_t garbage = -1;
    const unsigned base = 0x0200;
    begin_profile("KEXBARDI_P_SEGMENT");
    for (unsigned n = 1; n <= 16; n++) {
        if (n > 1) put(27, 0x0008), moved(1000, 256 * n);
        equals("the segment", KEXBARDI_P_SEGMENT(words[27]), n);
    }
    put(27, 0x0008);
    moved(1000, 0x0010);
    equals("no segment", KEXBARDI_P_SEGMENT(words[27]), 0);
    equals("with all flags", KEXBARDI_P_SEGMENT(0x0fff), 15);
    equals("with none", KEXBARDI_P_SEGMENT(0x1000), 16);
    equals("of a sum", KEXBARDI_P_SEGMENT(base + 0x0100), 3);
    equals("of two bits", KEXBARDI_P_SEGMENT(base | 0x0100), 3);
    equals("in a quotient", 100 / KEXBARDI_P_SEGMENT(0x0300), 33);
    equals("of a signed word", KEXBARDI_P_SEGMENT(garbage), 255);
}

/* H1: the five numbers of the profile, all different. 1,002.5 and Jog, three seconds of the soak, Hold. */
static void profile_fields(void) {
    begin_profile("the profile's numbers");
    moved(1002, 0x0100);
    put(27, 0x0008);
    moved(1002, 0x0200);
    for (int n = 0; n < 3; n++) moved(1002, 0x0200);
    put(27, 0x0002);
    moved(1002, 0x0240);
    take_record();
    equals("KEXBARDI_FIELD_SEGMENT", fields[KEXBARDI_FIELD_SEGMENT], 2);
    equals("KEXBARDI_FIELD_HOLD", fields[KEXBARDI_FIELD_HOLD], 1);
    equals("KEXBARDI_FIELD_COMPLETE", fields[KEXBARDI_FIELD_COMPLETE], 0);
    equals("KEXBARDI_FIELD_FRACTION", fields[KEXBARDI_FIELD_FRACTION], 5000);
    equals("KEXBARDI_FIELD_TIME", fields[KEXBARDI_FIELD_TIME], 300);
    for (int n = 3; n <= 16; n++) put(27, 0x0008), moved(1002, 256 * (unsigned)n + 64);
    put(27, 0x0008);
    moved(1002, 0x0010);
    take_record();
    equals("KEXBARDI_FIELD_SEGMENT at the end", fields[KEXBARDI_FIELD_SEGMENT], 0);
    equals("KEXBARDI_FIELD_HOLD at the end", fields[KEXBARDI_FIELD_HOLD], 0);
    equals("KEXBARDI_FIELD_COMPLETE at the end", fields[KEXBARDI_FIELD_COMPLETE], 1);
}

/* ---- line and record */

/* Cascade to the setpoint 1,500 from output 2,000. PV 1,000: P = 1,000 and I = 100, so the bias is 2,100. PV 1,100,
 * e = 400: P = 800 and I = 80, so the bias is 2,180 and the output 2,980. */
static void begin_cascade(const char *name) {
    begin_loop_a(name);
    put(0, 0x0004), put(26, 600), put(600, 1500);
    sampled(1000, 1500, 1000, 3100, 0x0004);
    sampled(1100, 1500, 1100, 2980, 0x0004);
}

/* Q3: four different numbers. */
static void line_indices(void) {
    begin_cascade("the line");
    equals("KEXBARDI_LINE_SETPOINT", line[KEXBARDI_LINE_SETPOINT], 1500);
    equals("KEXBARDI_LINE_PV", line[KEXBARDI_LINE_PV], 1100);
    equals("KEXBARDI_LINE_OUTPUT", line[KEXBARDI_LINE_OUTPUT], 2980);
    equals("KEXBARDI_LINE_STATUS", line[KEXBARDI_LINE_STATUS], 0x0004);
}

/* Q3: a sample writes so many words to its line, and none behind them. */
static void line_words(void) {
    uint16_t room[8];
    begin_loop_a("KEXBARDI_LINE_WORDS");
    for (int n = 0; n < 8; n++) room[n] = 0xa5a5;
    equals("sample", kexbardi_sample(words, 1024, records, 224, 1, 1000, room), 0);
    equals("the last word of the line", room[KEXBARDI_LINE_WORDS - 1], 0x0002);
    equals("the word behind it", room[KEXBARDI_LINE_WORDS], 0xa5a5);
}

/* W1, N6: from here on every word may be stored; the last loop's word 29 is three words before. */
static void free_words(void) {
    begin("KEXBARDI_FIRST_FREE");
    equals("word 29 of loop 16", store(KEXBARDI_FIRST_FREE - 3, 1), 6);
    equals("word 3 of loop 16", store(KEXBARDI_FIRST_FREE - 29, 1), 6);
    put(KEXBARDI_FIRST_FREE, 1);
    put(KEXBARDI_FIRST_FREE + 3, 1);
}

/* M3: the full scales of a mode 2 word; the argument may be an expression, and the macro stand in one. */
static void full_scales(void) {
    test = "KEXBARDI_FULL_SCALE";
    equals("12 bits", KEXBARDI_FULL_SCALE(0x0110), 4095);
    equals("15 bits", KEXBARDI_FULL_SCALE(0x0012), 32767);
    equals("16 bits", KEXBARDI_FULL_SCALE(0x0200), 65535);
    equals("both bits", KEXBARDI_FULL_SCALE(0x0202), 65535);
    equals("of two bits", KEXBARDI_FULL_SCALE(0x0010 | 0x0100), 4095);
    equals("in a difference", KEXBARDI_FULL_SCALE(0x0200) - 1, 65534);
    equals("whatever the output has", KEXBARDI_FULL_SCALE(0x2402), 32767);

    test = "KEXBARDI_OUTPUT_FULL_SCALE";
    equals("of the input, 12 bits", KEXBARDI_OUTPUT_FULL_SCALE(0x0110), 4095);
    equals("of the input, 15 bits", KEXBARDI_OUTPUT_FULL_SCALE(0x0012), 32767);
    equals("of the input, 16 bits", KEXBARDI_OUTPUT_FULL_SCALE(0x0202), 65535);
    equals("its own, 12 bits", KEXBARDI_OUTPUT_FULL_SCALE(0x0600), 4095);
    equals("its own, 15 bits", KEXBARDI_OUTPUT_FULL_SCALE(0x1600), 32767);
    equals("its own, 16 bits", KEXBARDI_OUTPUT_FULL_SCALE(0x2402), 65535);
    equals("its own, both bits", KEXBARDI_OUTPUT_FULL_SCALE(0x3400), 65535);
    equals("of two bits", KEXBARDI_OUTPUT_FULL_SCALE(0x0400 | 0x1000), 32767);
    equals("of two bits of the input", KEXBARDI_OUTPUT_FULL_SCALE(0x0010 | 0x0002), 32767);
    equals("of bit 10 and another", KEXBARDI_OUTPUT_FULL_SCALE(0x0400 | 0x0010), 4095);
    equals("in a difference", KEXBARDI_OUTPUT_FULL_SCALE(0x1400) - 1, 32766);
}

/* A2: the requests are what a sample clears of word 0. B2 to B5: the seven alarms. */
static void masks(void) {
    begin_loop_a("KEXBARDI_M1_REQUESTS");
    put(0, 0x410f);
    equals("sample", sample(1, 1000), 0);
    equals("word 0", words[0], 0x4108);
    equals("what is left of it", 0x410f & ~KEXBARDI_M1_REQUESTS, 0x4108);
    test = "KEXBARDI_S_ALARMS";
    equals("low-low to rate", KEXBARDI_S_ALARMS, 0x03f8);
    equals("each of them", KEXBARDI_S_ALARMS,
        KEXBARDI_S_LOW_LOW | KEXBARDI_S_LOW | KEXBARDI_S_HIGH | KEXBARDI_S_HIGH_HIGH | KEXBARDI_S_YELLOW | KEXBARDI_S_RED | KEXBARDI_S_RATE);
}

/* H1: the first eight numbers, all different. In units: 2,180 x 262,144 and 2,980 x 262,144. */
static void field_indices(void) {
    begin_cascade("the record");
    take_record();
    equals("KEXBARDI_FIELD_MODE", fields[KEXBARDI_FIELD_MODE], 2);
    equals("KEXBARDI_FIELD_BIAS", fields[KEXBARDI_FIELD_BIAS], 571473920);
    equals("KEXBARDI_FIELD_OUTPUT", fields[KEXBARDI_FIELD_OUTPUT], 781189120);
    equals("KEXBARDI_FIELD_LAST_PV", fields[KEXBARDI_FIELD_LAST_PV], 1100);
    equals("KEXBARDI_FIELD_PRIOR_PV", fields[KEXBARDI_FIELD_PRIOR_PV], 1000);
    equals("KEXBARDI_FIELD_ERROR", fields[KEXBARDI_FIELD_ERROR], 400);
    equals("KEXBARDI_FIELD_VELOCITY", fields[KEXBARDI_FIELD_VELOCITY], 0);
    equals("KEXBARDI_FIELD_SAMPLED", fields[KEXBARDI_FIELD_SAMPLED], 1);
}

/* A13, H1: a transfer of loop 1 to loop 2, which was never sampled: of its fourteen numbers the mark alone is not 0. Its own sample
 * in Automatic takes it off. */
static void mark(void) {
    begin_line_9("KEXBARDI_FIELD_MARK");
    settle(32);
    put(26, 37), put(0, 0x0004);
    equals("before", records[14 + KEXBARDI_FIELD_MARK], 0);
    sampled(1000, 1000, 1000, 2000, 0x0004);
    equals("record", kexbardi_record(records, 224, 2, fields), 0);
    equals("KEXBARDI_FIELD_MARK", fields[KEXBARDI_FIELD_MARK], 1);
    equals("loop 2", sample(2, 1000), 0);
    equals("record", kexbardi_record(records, 224, 2, fields), 0);
    equals("KEXBARDI_FIELD_MARK afterwards", fields[KEXBARDI_FIELD_MARK], 0);
}

/* H3: before the first sample the record says so. */
static void unsampled(void) {
    begin_loop_a("KEXBARDI_FIELD_SAMPLED");
    take_record();
    equals("before the first sample", fields[KEXBARDI_FIELD_SAMPLED], 0);
}

/* H2: carried output and bias, in units, are words 5 and 4. */
static void units(void) {
    begin_cascade("KEXBARDI_UNITS");
    take_record();
    equals("the output in counts", fields[2] / KEXBARDI_UNITS, 2980);
    equals("no unit is left over", fields[2] % KEXBARDI_UNITS, 0);
    equals("the bias in units", fields[1], (int64_t)2180 * KEXBARDI_UNITS);
}

/* A7, A10: gain 0.50, no reset, e = 1: the output is 2,000 and half a count, and word 5 is the count above. */
static void half_a_count(void) {
    begin_line_9("KEXBARDI_UNITS, half a count");
    put(2, 1001), put(8, 0x0050), put(9, 0x9999);
    sampled(1000, 1001, 1000, 2001, 0x0002);
    take_record();
    equals("the output in half counts", 2 * fields[2], (int64_t)4001 * KEXBARDI_UNITS);
}

/* ---- BCD */

/* A7, X3: with it line 9 has no reset action, to the unit. */
static void reset_off(void) {
    begin_line_9("KEXBARDI_RESET_OFF");
    set(KEXBARDI_RESET, KEXBARDI_RESET_OFF);
    equals("word 9", word(9), 0x9999);
    sampled(1000, 1500, 1000, 3000, 0x0002);
    take_record();
    equals("the bias in units", fields[1], 524288000); /* 2,000 x 262,144 */
}

/* W3, in constant expressions too. */
enum { two = KEXBARDI_BCD(200), two_in_hundredths = KEXBARDI_HUNDREDTHS(0x0200) };
static const uint16_t table_of_words[] = {KEXBARDI_BCD(0), KEXBARDI_BCD(1234)};

static void bcd(void) {
    test = "KEXBARDI_BCD";
    equals("0", KEXBARDI_BCD(0), 0x0000);
    equals("1", KEXBARDI_BCD(1), 0x0001);
    equals("200", KEXBARDI_BCD(200), 0x0200);
    equals("1234", KEXBARDI_BCD(1234), 0x1234);
    equals("9999", KEXBARDI_BCD(9999), 0x9999);
    equals("in an enumeration", two, 0x0200);
    equals("in a table", table_of_words[1], 0x1234);
    equals("a word", (int64_t)sizeof KEXBARDI_BCD(200), 2);
}

/* W3: the word of a value in hand, rounded to hundredths; 0xFFFF for what four digits cannot hold. */
static void bcd_of_a_value(void) {
    const double base = 10, none = 0.0;
    static const uint16_t gain = KEXBARDI_BCD_OF(2.00);
    test = "KEXBARDI_BCD_OF";
    equals("2.00", gain, 0x0200);
    equals("an integer", KEXBARDI_BCD_OF(2), 0x0200);
    equals("0", KEXBARDI_BCD_OF(0), 0x0000);
    equals("0.5", KEXBARDI_BCD_OF(0.5), 0x0050);
    equals("0.294", KEXBARDI_BCD_OF(0.294), 0x0029);
    equals("0.2951", KEXBARDI_BCD_OF(0.2951), 0x0030);
    equals("0.29", KEXBARDI_BCD_OF(0.29), 0x0029); /* 100 times it is a little less than 29 */
    equals("99.99", KEXBARDI_BCD_OF(99.99), 0x9999);
    equals("99.9945", KEXBARDI_BCD_OF(99.9945), 0x9999);
    equals("99.9955", KEXBARDI_BCD_OF(99.9955), 0xffff);
    equals("100.5", KEXBARDI_BCD_OF(100.5), 0xffff);
    equals("-0.004", KEXBARDI_BCD_OF(-0.004), 0xffff);
    equals("-1", KEXBARDI_BCD_OF(-1), 0xffff);
    equals("1e30", KEXBARDI_BCD_OF(base * 1e29), 0xffff);
    equals("no number", KEXBARDI_BCD_OF(none / none), 0xffff);
    equals("a sum", KEXBARDI_BCD_OF(base + 2.34), 0x1234);
    equals("a choice", KEXBARDI_BCD_OF(base > 9 ? 12.34 : 99.99), 0x1234);
    equals("a word", (int64_t)sizeof KEXBARDI_BCD_OF(2.00), 2);
}

/* The digits alone, which the two macros share. */
static void bcd_digits(void) {
    const unsigned base = 1000;
    test = "KEXBARDI_BCD_DIGITS";
    equals("1234", (int64_t)KEXBARDI_BCD_DIGITS(1234), 0x1234);
    equals("a sum", (int64_t)KEXBARDI_BCD_DIGITS(base + 234), 0x1234);
    equals("a choice", (int64_t)KEXBARDI_BCD_DIGITS(base > 999 ? 1234 : 9999), 0x1234);
    equals("in a product", (int64_t)(2 * KEXBARDI_BCD_DIGITS(1234)), 0x2468);
}

/* The header: what is above 9999 or negative becomes 0xFFFF, however wide it is. */
static void bcd_of_no_word(void) {
    const int negative = -1;
    const uint64_t wide = UINT64_C(4294967496); /* 200 more than 32 bits hold */
    test = "KEXBARDI_BCD of what has no word";
    equals("10000", KEXBARDI_BCD(10000), 0xffff);
    equals("-1", KEXBARDI_BCD(-1), 0xffff);
    equals("a negative variable", KEXBARDI_BCD(negative), 0xffff);
    equals("65736", KEXBARDI_BCD(65736), 0xffff); /* 200 more than a word holds */
    equals("4294967496", KEXBARDI_BCD(wide), 0xffff);
}

/* The argument may be an expression, and the macro stand in one. */
static void bcd_in_expressions(void) {
    const unsigned base = 1000;
    test = "KEXBARDI_BCD and KEXBARDI_HUNDREDTHS in expressions";
    equals("BCD of a sum", KEXBARDI_BCD(base + 234), 0x1234);
    equals("BCD of a choice", KEXBARDI_BCD(base > 999 ? 1234 : 9999), 0x1234);
    equals("HUNDREDTHS of a sum", KEXBARDI_HUNDREDTHS(base + 3660), 1234); /* 4,660 is 0x1234 */
    equals("HUNDREDTHS of a choice", KEXBARDI_HUNDREDTHS(base > 999 ? 0x1234 : 0), 1234);
    equals("HUNDREDTHS in a product", 2 * KEXBARDI_HUNDREDTHS(0x1234), 2468);
    equals("HUNDREDTHS in a difference", 10000 - KEXBARDI_HUNDREDTHS(0x1234), 8766);
    equals("HUNDREDTHS in an enumeration", two_in_hundredths, 200);
}

/* A word that went through a signed variable, where 0x9999 is -26,215; and one that is no BCD, whose four digits count
 * as they are: 15 x 1,111, more than any BCD word is. */
static void hundredths_of_other_words(void) {
    const int16_t word_of_9999 = -26215;
    test = "KEXBARDI_HUNDREDTHS of other words";
    equals("a signed word", KEXBARDI_HUNDREDTHS(word_of_9999), 9999);
    equals("a word that is no BCD", KEXBARDI_HUNDREDTHS(0xffff), 16665);
}

/* A number of hundredths whose word has, in hexadecimal, its decimal digits, and comes back. */
static int comes_back(int n) {
    char digits[16];
    sprintf(digits, "%d", n);
    return KEXBARDI_BCD(n) == strtol(digits, NULL, 16) && KEXBARDI_HUNDREDTHS(KEXBARDI_BCD(n)) == n;
}

static void round_trip(void) {
    int n = 0;
    test = "KEXBARDI_BCD and back";
    while (n <= 9999 && comes_back(n)) n++;
    equals("the first that does not come back", n, 10000);
}

/* W3, N7: the gain 2.00 as a BCD word gives line 9; the plain number 200 is refused, and what has no word too. */
static void bcd_in_a_loop(void) {
    begin_line_9("KEXBARDI_BCD as a gain");
    put(8, 200);
    equals("the number 200", sample(1, 1000), 7);
    put(8, KEXBARDI_BCD(10000));
    equals("a gain that has no word", sample(1, 1000), 7);
    put(8, KEXBARDI_BCD(200));
    sampled(1000, 1500, 1000, 3100, 0x0002);
    equals("the gain in hundredths", KEXBARDI_HUNDREDTHS(words[8]), 200);
}

/* ---- refusals */

/* Q1 to Q6, Q11, Q12: every call answers with it. */
static void accepted(void) {
    static const uint8_t file[] = {0x06, 0x00, 0x01, 0x00, 0x05, 0x00, 0xd0, 0x07};
    begin_loop_a("KEXBARDI_ACCEPTED");
    equals("reset", kexbardi_reset(words, 1024, records, 224), KEXBARDI_ACCEPTED);
    settle(0);
    equals("store", store(2, 1500), KEXBARDI_ACCEPTED);
    equals("sample", sample(1, 1000), KEXBARDI_ACCEPTED);
    equals("record", kexbardi_record(records, 224, 1, fields), KEXBARDI_ACCEPTED);
    equals("forecast", kexbardi_forecast(words, 1024, records, 224, 1, &left), KEXBARDI_ACCEPTED);
    equals("run", kexbardi_run(file, 8, words, 1024, records, 224, answers, 64, &count, &refused), KEXBARDI_ACCEPTED);
    equals("its store", answers[0], KEXBARDI_ACCEPTED);
    equals("print", kexbardi_print(file, 8, out, 180, &text_length), KEXBARDI_ACCEPTED);
    equals("setup", kexbardi_setup(words, 1024, out, 7680, &text_length), KEXBARDI_ACCEPTED);
}

struct row {
    const char *name;
    size_t length;
    uint8_t file[8], number;
    enum kexbardi_refusal refusal;
};

/* Section 5: the examples of the table that are one record, carried out from reset. */
static const struct row rows[] = {
    {"KEXBARDI_CUT", 3, {0x06, 0x00, 0x01}, 1, KEXBARDI_CUT},
    {"KEXBARDI_KIND", 4, {0x02, 0x00, 0x63, 0x00}, 2, KEXBARDI_KIND},
    {"KEXBARDI_LENGTH", 5, {0x03, 0x00, 0x02, 0x00, 0x01}, 3, KEXBARDI_LENGTH},
    {"KEXBARDI_LOOP", 7, {0x05, 0x00, 0x02, 0x00, 0x11, 0x00, 0x00}, 4, KEXBARDI_LOOP},
    {"KEXBARDI_STORE", 8, {0x06, 0x00, 0x01, 0x00, 0x03, 0x00, 0x05, 0x00}, 6, KEXBARDI_STORE},
    {"KEXBARDI_SETTING_TIMES", 7, {0x05, 0x00, 0x02, 0x00, 0x01, 0x00, 0x00}, 12, KEXBARDI_SETTING_TIMES},
};

static void refused_in_files(void) {
    for (size_t n = 0; n < sizeof rows / sizeof *rows; n++) {
        const struct row *r = &rows[n];
        begin(r->name);
        equals("run", kexbardi_run(r->file, r->length, words, 1024, records, 224, answers, 64, &count, &refused), 0);
        equals("count", (int64_t)count, 1);
        equals("refused", (int64_t)refused, 1);
        equals("the answer", answers[0], r->number);
        equals("the answer by its constant", answers[0], r->refusal);
    }
}

/* N4 to N7 and N9, by calls; 5 in each of its three cases. */
static void refused_calls(void) {
    begin("KEXBARDI_SETTING_TIMES, from reset");
    equals("sample", sample(1, 0), KEXBARDI_SETTING_TIMES);
    begin_loop_a("refused calls");
    equals("loop 17", sample(17, 1000), KEXBARDI_LOOP);
    equals("loop 0", kexbardi_record(records, 224, 0, fields), KEXBARDI_LOOP);
    equals("address 3", store(3, 5), KEXBARDI_STORE);
    equals("address 1,024", store(1024, 5), KEXBARDI_STORE);
    equals("raw PV 4,096", sample(1, 4096), KEXBARDI_ABOVE);
    equals("raw PV 4,096 in plain numbers", sample(1, 4096), 9);
    put(8, 0x000a);
    equals("a digit", sample(1, 1000), KEXBARDI_DIGIT);
    equals("a digit in plain numbers", sample(1, 1000), 7);
}

struct wrong {
    const char *name;
    uint16_t stores[2][2], number;
    enum kexbardi_refusal refusal;
};

/* N8, N12, N13, N14: loop A with one setting that is wrong, in each way a number has; 601 is no setting. */
static const struct wrong wrong_settings[] = {
    {"KEXBARDI_SETTING, bit 9", {{0, 0x0202}, {601, 0}}, 8, KEXBARDI_SETTING},
    {"KEXBARDI_SETTING, velocity with Bumpless II", {{0, 0x002a}, {601, 0}}, 8, KEXBARDI_SETTING},
    {"KEXBARDI_SETTING, mode 2", {{1, 0x0001}, {601, 0}}, 8, KEXBARDI_SETTING},
    {"KEXBARDI_SETTING, hysteresis", {{0, 0x1002}, {18, 201}}, 8, KEXBARDI_SETTING},
    {"KEXBARDI_SETTING, an end, with bit 11 and table 512", {{512, 4096}, {601, 0}}, 8, KEXBARDI_SETTING},
    {"KEXBARDI_SETTING_TIMES, period", {{7, 0x0004}, {601, 0}}, 12, KEXBARDI_SETTING_TIMES},
    {"KEXBARDI_SETTING_TIMES, reset", {{9, 0}, {601, 0}}, 12, KEXBARDI_SETTING_TIMES},
    {"KEXBARDI_SETTING_LIMITS, low", {{24, 2001}, {25, 2000}}, 13, KEXBARDI_SETTING_LIMITS},
    {"KEXBARDI_SETTING_LIMITS, high", {{25, 4096}, {601, 0}}, 13, KEXBARDI_SETTING_LIMITS},
    {"KEXBARDI_SETTING_SETPOINT, word 2", {{2, 4096}, {601, 0}}, 14, KEXBARDI_SETTING_SETPOINT},
    {"KEXBARDI_SETTING_SETPOINT, pointer", {{0, 0x0004}, {26, 1024}}, 14, KEXBARDI_SETTING_SETPOINT},
    {"KEXBARDI_SETTING_SETPOINT, word there", {{0, 0x0004}, {600, 4096}}, 14, KEXBARDI_SETTING_SETPOINT},
};

static void refused_settings(void) {
    for (size_t n = 0; n < sizeof wrong_settings / sizeof *wrong_settings; n++) {
        const struct wrong *w = &wrong_settings[n];
        begin_loop_a(w->name);
        put(0, 0x0802), put(28, 512), put(26, 600);
        equals("before", kexbardi_forecast(words, 1024, records, 224, 1, &left), 0);
        for (int k = 0; k < 2; k++) put(w->stores[k][0], w->stores[k][1]);
        equals("sample", sample(1, 1000), w->number);
        equals("sample by its constant", sample(1, 1000), w->refusal);
        equals("forecast by its constant", kexbardi_forecast(words, 1024, records, 224, 1, &left), w->refusal);
    }
}

static void refused_memory(void) {
    begin_loop_a("KEXBARDI_MEMORY");
    equals("1,023 words", kexbardi_reset(words, 1023, records, 224), KEXBARDI_MEMORY);
    equals("1,023 words in plain numbers", kexbardi_reset(words, 1023, records, 224), 5);
    equals("no room", kexbardi_print(answers, 0, out, 0, &text_length), KEXBARDI_MEMORY);
    equals("a setup of 1,023 words", kexbardi_setup(words, 1023, out, 7680, &text_length), KEXBARDI_MEMORY);
    records[0] = 3; /* there are modes 0, 1 and 2 */
    equals("a mode out of range", sample(1, 1000), KEXBARDI_MEMORY);
}

/* N10: loop A before its samples, words 0, 5, 7, 8, 9 and 25, is six records of eight bytes. */
static void refused_room(void) {
    begin_loop_a("KEXBARDI_ROOM");
    equals("47 bytes", kexbardi_setup(words, 1024, out, 47, &text_length), KEXBARDI_ROOM);
    equals("47 bytes in plain numbers", kexbardi_setup(words, 1024, out, 47, &text_length), 10);
    equals("48 bytes", kexbardi_setup(words, 1024, out, 48, &text_length), 0);
    equals("its length", (int64_t)text_length, 48);
}

/* N11: X1's line 7, then Cascade with the pointer at 0; and with it at loop 2's output, whose limits are 0 and 0. */
static void refused_transfer(void) {
    begin_loop_a("KEXBARDI_TRANSFER");
    equals("line 7", sample(1, 1000), 0);
    put(0, 0x0004);
    equals("no output", sample(1, 1000), KEXBARDI_TRANSFER);
    equals("no output in plain numbers", sample(1, 1000), 11);
    put(26, 37);
    equals("outside the limits", sample(1, 1000), KEXBARDI_TRANSFER);
    equals("inside them", sample(1, 0), 0);
}

/* ---- setups */

/* Q12: this room is enough for the largest file, 1,024 words without 64, and a byte less is not. */
static void setup_room(void) {
    static const uint8_t last_record[] = {0x06, 0x00, 0x01, 0x00, 0xff, 0x03, 0xa5, 0xa5};
    test = "KEXBARDI_SETUP_ROOM";
    memset(words, 0xa5, sizeof words);
    equals("a byte less", kexbardi_setup(words, 1024, out, KEXBARDI_SETUP_ROOM - 1, &text_length), 10);
    equals("the room", kexbardi_setup(words, 1024, out, KEXBARDI_SETUP_ROOM, &text_length), 0);
    equals("its length", (int64_t)text_length, 7680);
    check("its last record", memcmp(out + 7672, last_record, sizeof last_record) == 0);
}

/* ---- prints */

/* X1: loop A as a file, 77 bytes, and its lines. */
static const uint8_t loop_a_file[] = {
    0x06, 0x00, 0x01, 0x00, 0x05, 0x00, 0xd0, 0x07, 0x06, 0x00, 0x01, 0x00, 0x19, 0x00, 0xff, 0x0f,
    0x06, 0x00, 0x01, 0x00, 0x07, 0x00, 0x00, 0x01, 0x06, 0x00, 0x01, 0x00, 0x08, 0x00, 0x00, 0x02,
    0x06, 0x00, 0x01, 0x00, 0x09, 0x00, 0x00, 0x10, 0x06, 0x00, 0x01, 0x00, 0x00, 0x00, 0x02, 0x00,
    0x05, 0x00, 0x02, 0x00, 0x01, 0xe8, 0x03, 0x06, 0x00, 0x01, 0x00, 0x02, 0x00, 0xdc, 0x05,
    0x05, 0x00, 0x02, 0x00, 0x01, 0xe8, 0x03, 0x05, 0x00, 0x02, 0x00, 0x11, 0x00, 0x00};
static const char loop_a_lines[] =
    "1 set 5 2000\n2 set 25 4095\n3 set 7 256\n4 set 8 512\n5 set 9 4096\n6 set 0 2\n"
    "7 loop 1 sp 1000 pv 1000 out 2000 word 0002\n8 set 2 1500\n9 loop 1 sp 1500 pv 1000 out 3100 word 0002\n"
    "10 refused 4\n10 records, 1 refused\n";
static uint8_t room_of_loop_a[KEXBARDI_PRINT_ROOM(77)]; /* in a constant expression */

static void text_is(const uint8_t *text, const char *expected) {
    equals("its length", (int64_t)text_length, (int64_t)strlen(expected));
    check("the text", memcmp(text, expected, strlen(expected)) == 0);
}

/* Q6: this room is enough, and a byte less is not. */
static void print_room(void) {
    test = "KEXBARDI_PRINT_ROOM";
    equals("an empty file, a byte less", kexbardi_print(loop_a_file, 0, out, KEXBARDI_PRINT_ROOM(0) - 1, &text_length), 5);
    equals("an empty file", kexbardi_print(loop_a_file, 0, out, KEXBARDI_PRINT_ROOM(0), &text_length), 0);
    text_is(out, "0 records, 0 refused\n");
    equals("loop A, a byte less", kexbardi_print(loop_a_file, 77, out, KEXBARDI_PRINT_ROOM(77) - 1, &text_length), 5);
    equals("loop A", kexbardi_print(loop_a_file, 77, room_of_loop_a, sizeof room_of_loop_a, &text_length), 0);
    text_is(room_of_loop_a, loop_a_lines);
}

/* Q6: ten bytes for each byte and 100 more, also above 32 bits; argument and surroundings may be expressions. */
static void print_room_values(void) {
    const int bytes = 500000000;
    test = "KEXBARDI_PRINT_ROOM in plain numbers";
    equals("0", KEXBARDI_PRINT_ROOM(0), 100);
    equals("77", KEXBARDI_PRINT_ROOM(77), 870);
    equals("1,000", KEXBARDI_PRINT_ROOM(1000), 10100);
    equals("500,000,000", (int64_t)KEXBARDI_PRINT_ROOM(bytes), INT64_C(5000000100));
    equals("a sum", KEXBARDI_PRINT_ROOM(70 + 7), 870);
    equals("in a product", 2 * KEXBARDI_PRINT_ROOM(77), 1740);
}

/* The text of a file of zero bytes ends with this line. */
static void last_line_is(const char *expected) {
    size_t length = strlen(expected);
    check("the last line", text_length > length && memcmp(out + text_length - length, expected, length) == 0);
}

/* L1, L6, L11: the longest file is printed, here 32,768 records without a kind; of one byte more the text is `too long`. */
static void longest(void) {
    test = "KEXBARDI_LONGEST";
    const size_t room = KEXBARDI_PRINT_ROOM(KEXBARDI_LONGEST);
    equals("the longest file", kexbardi_print(long_file, KEXBARDI_LONGEST, out, room, &text_length), 0);
    last_line_is("\n32768 refused 2\n32768 records, 32768 refused\n");
    equals("a byte more, 8 bytes of room", kexbardi_print(long_file, KEXBARDI_LONGEST + 1, out, 8, &text_length), 5);
    equals("a byte more", kexbardi_print(long_file, KEXBARDI_LONGEST + 1, out, 9, &text_length), 0);
    text_is(out, "too long\n");
}

int main(void) {
    versions();
    desk_words();
    desk_numbers();
    loops();
    loop_words();
    record_numbers();
    addresses();
    addresses_of_loops();
    changed_at_line_9();
    written_words();
    output_word();
    deadband_word();
    pointer_word();
    limit_alarms();
    change_alarm();
    hysteresis_word();
    alarm_settings();
    at_limit();
    modes();
    mode_1_bits();
    bumpless();
    bumpless_transfer();
    freezes();
    velocity();
    reset_minutes();
    formats();
    output_formats();
    profile_words();
    table_addresses();
    table_words();
    segments();
    segment_places();
    segment_words();
    profile_commands();
    profile_flags();
    segment_of_flags();
    profile_fields();
    full_scales();
    masks();
    line_indices();
    line_words();
    free_words();
    field_indices();
    mark();
    unsampled();
    units();
    half_a_count();
    reset_off();
    bcd();
    bcd_of_a_value();
    bcd_digits();
    bcd_of_no_word();
    bcd_in_expressions();
    hundredths_of_other_words();
    round_trip();
    bcd_in_a_loop();
    accepted();
    refused_in_files();
    refused_calls();
    refused_settings();
    refused_memory();
    refused_room();
    refused_transfer();
    setup_room();
    print_room();
    print_room_values();
    longest();
    printf("%u passed, %u failed\n", passed, failed);
    return failed != 0;
}
