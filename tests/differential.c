/* The archive beside the plain engine, call by call: `differential CALLS SEED` makes that many random calls
 * on two desks and compares answers and all memory after each; the answers to samples and forecasts also with what is wrong with
 * the words, by a list of its own. It links the archive and bench/plain_engine.c:
 *   gcc -O2 -std=c99 -Itarget/kexbardi/include -Ibench tests/differential.c bench/plain_engine.c target/kexbardi/lib/libkexbardi.a */
#include "kexbardi.h"
#include "plain_engine.h"

#include <stdio.h>
#include <stdlib.h>
#include <string.h>

#define SPARE 8 /* elements behind a desk's memory, for lengths that are too great */
#define LONGEST 2000
#define ANSWERS 400
#define HIGHEST KEXBARDI_SETTING_SETPOINT /* of the refusals */

/* what one engine works on */
struct desk {
    uint16_t words[KEXBARDI_WORDS + SPARE];
    int64_t records[KEXBARDI_NUMBERS + SPARE], fields[KEXBARDI_FIELDS];
    uint16_t line[4];
    uint8_t answers[ANSWERS], text[KEXBARDI_PRINT_ROOM(LONGEST)];
    size_t count, refused, length;
    uint64_t samples;
};

static struct desk ours, plain;
static uint64_t seed;
static unsigned long calls, wanted, accepted, refusals[HIGHEST + 1], setup_refusals[HIGHEST + 1];
static unsigned long wide_refusals[HIGHEST + 1]; /* of calls with a number that an 8- or 16-bit parameter would cut */
static uint8_t file[LONGEST];
static size_t size;

/* What an accepted sample can exercise, counted where it makes a difference to the result. */
enum feature {
    MANUAL, AUTOMATIC, CASCADE, POSITION, VELOCITY, BITS_12, BITS_15, BITS_16, FREEZE, ROOT_DOWN, ROOT_UP, ROOT_NEAR_HALF, SQUARED,
    DEADBAND, REVERSE, RESET_9999, MINUTES, RATE, BUMPLESS_II, INSIDE,
    START, RESTART, HOLD, RESUME, JOG, JOG_HELD, JOG_LAST, NO_EFFECT, SEVERAL,
    UP, DOWN, FRACTION, EXACT, OVERSHOT, ALREADY_THERE, SLOPE_0_FIRST, SLOPE_0_LATER, SOAKS, SOAK_ENDS, DURATION_0, COMPLETES,
    HELD_RAMP, HELD_SOAK, HELD_NOTHING, DEVIATES, JUST_ALLOWED, NO_DEVIATION, IN_MANUAL, WAITS, TAKEN_OFF, POINTER_LOST, BELOW, ABOVE,
    FIRST_TABLE, LAST_TABLE, OVERLAP, ENTRY_RUNNING, ENTRY_START,
    TRANSFERS, TO_MANUAL, TO_AUTOMATIC, TO_CASCADE, TO_VELOCITY, TO_FREEZE, TO_MARKED, TO_SPOILT, TO_SPOILT_MARK, AT_LOW, AT_HIGH,
    OF_VELOCITY, OF_CHANGED_FORM, OF_ROOT, OF_RUNNING, OF_MARKED, NONE_BY_II, NONE_FROM_MANUAL, NONE_IN_CASCADE,
    MARK_ALONE, MARK_KEEPS_SETPOINT, MARK_RUNNING, MARK_IN_CASCADE, MARK_IN_VELOCITY, MARK_AND_FREEZE, MARK_AND_LIMIT, MARK_FROM_MANUAL,
    MARK_AND_FORM, MARK_IN_MANUAL,
    LAST_CAPPED, PRIOR_CAPPED, LAST_KEPT, ERROR_KEPT, CONVERTED_DIFFERS, CONVERTED_AGREE, INSIDE_BY_INPUT, OUTSIDE_BY_INPUT,
    AT_DEADBAND, SQUARED_BY_OUTPUT, BIAS_BY_OUTPUT, HIGH_BETWEEN, LOW_BETWEEN, PV_ABOVE_OUTPUT, SIXTEEN_OVER_FIFTEEN,
    NEW_INPUT, NEW_OUTPUT, OWN_ON, OWN_OFF, NEW_IN_VELOCITY, NEW_AT_ENTRY, FOLLOWS_WIDER, FOLLOWS_NARROWER, TO_OTHER_SCALE, FEATURES
};
static const char *const feature_names[FEATURES] = {"Manual", "Automatic", "Cascade", "position", "velocity", "12 bits", "15 bits",
    "16 bits", "freeze at a limit", "root down", "root up", "root at r x r + r", "squared", "inside the deadband", "reverse",
    "reset 9999", "minutes", "rate", "Bumpless II", "output inside its limits",
    "Start", "Start of a running profile", "Hold", "Resume", "Jog", "Jog of a held profile", "Jog of segment 16",
    "command without effect", "several commands",
    "ramp up", "ramp down", "fraction alone moves", "end reached exactly", "end overshot", "already at the end", "slope 0 first",
    "slope 0 later", "soak goes on", "soak ends", "duration 0", "segment 16 ends",
    "held in a ramp", "held in a soak", "held and no profile", "soak deviation", "at the soak deviation", "deviation 0",
    "profile in Manual", "profile waits in Cascade", "bit 11 taken off in a run", "pointer lost in a run", "pointer below",
    "pointer above", "table at 512", "table at 992", "table across others", "entry while running", "entry with Start waiting",
    "transfer", "transfer to Manual", "transfer to Automatic", "transfer to Cascade", "transfer to velocity form", "transfer to freeze",
    "transfer to a marked loop", "transfer to a record out of range", "transfer to a mark out of range", "transfer at the low limit",
    "transfer at the high limit",
    "transfer in velocity form", "transfer with another form", "transfer with the root", "transfer while a profile runs",
    "transfer of a marked loop", "Automatic to Cascade by Bumpless II", "Manual to Cascade", "Cascade asked for in Cascade",
    "entry by the mark alone", "the mark forces no setpoint", "the mark while a profile runs", "the mark in Cascade",
    "the mark in velocity form", "the mark with freeze", "the mark and an output outside its limits", "the mark and from Manual",
    "the mark and another form", "the mark kept in Manual",
    "last PV capped", "PV before the last capped", "last PV above full scale and no output format",
    "last error above the output's scale", "error of converted numbers", "at a limit and only converted numbers agree",
    "inside the deadband by input counts alone", "outside the deadband by input counts alone", "at the deadband with an output format",
    "squared by the output's scale", "bias word by the output's scale", "high limit above the input's scale",
    "low limit above the input's scale",
    "PV above the output's scale", "output bits 12 and 13",
    "another input format in a run", "another output format in a run", "an output format put on in a run",
    "an output format taken off in a run", "another format in velocity form", "another format at an entry",
    "Cascade from a wider output", "Cascade from a narrower output", "transfer to another scale"};
static unsigned long features[FEATURES], segments[KEXBARDI_SEGMENTS + 1]; /* samples that moved in a segment */

#define FORMATS 3 /* M3 */
static const unsigned full_scales[FORMATS] = {KEXBARDI_FULL_12, KEXBARDI_FULL_15, KEXBARDI_FULL_16}, widths[FORMATS] = {12, 15, 16};
static unsigned long pairs[FORMATS][FORMATS]; /* accepted outside Manual with an output format, by input and output */

#define NO_FORMAT 0x8000 /* no accepted sample can have it */
static unsigned last_mode_2s[KEXBARDI_LOOPS]; /* of each loop's last accepted sample; NO_FORMAT after a file or a reset */

/* what forecasts answer, why transfers are refused, with the root off where p counts, and what is refused by one scale where the
 * other would allow it */
enum reached {
    SOME, NONE, FAR, WHILE_HELD, WITH_COMMAND, IN_CASCADE, ABOVE_FULL,
    OWN_OUTPUT, BESIDE_OUTPUT, UPPER_OUTPUT, NO_OUTPUT, LOW, JUST_LOW, HIGH, JUST_HIGH, BY_ROOT, MARK_STAYS,
    FORECAST_POINTER, FORECAST_LIMIT, FORECAST_TRANSFER, BY_FILE,
    LIMIT_BY_OUTPUT, SETPOINT_BY_INPUT, FOLLOWED_BY_INPUT, END_BY_INPUT, RAW_BY_INPUT, REACHED
};
static const char *const reached_names[REACHED] = {
    "forecast above 0", "forecast 0", "forecast above a million", "forecast in a hold", "forecast with a command waiting",
    "forecast in Cascade", "forecast from a setpoint above full scale",
    "refused with 11 for the own output", "refused with 11 for a word next to an output", "refused with 11 for 512 above an output",
    "refused with 11 for another word", "refused with 11 for the low limit", "refused with 11 for one count below",
    "refused with 11 for the high limit", "refused with 11 for one count above", "refused with 11 with the root on",
    "mark kept by a refused sample",
    "forecast refused with 11 for the pointer", "forecast refused with 11 for the low limit", "forecast with a transfer waiting",
    "mark set by a file",
    "refused with 13 for a limit above the output's scale and not the input's",
    "refused with 14 for a setpoint above the input's scale and not the output's",
    "refused with 14 for a word that is followed above the input's scale and not the output's",
    "refused with 8 for a ramp's end above the input's scale and not the output's",
    "refused with 9 above the input's scale and not the output's"};
static unsigned long reached[REACHED], forecast_refusals[HIGHEST + 1], file_refusals[HIGHEST + 1], printed[HIGHEST + 1];

/* What can be wrong where loop and record are good, with the number that tells it. */
enum cause {
    DIGIT, TABLE_DIGIT,
    VELOCITY_WITH_II, BIT_9, UNUSED_BIT, BIT_11, OUTPUT_BITS, PV_HYSTERESIS, DEVIATION_HYSTERESIS, TABLE_END,
    PERIOD, RESET_TIME, LOW_ABOVE_HIGH, HIGH_ABOVE_SCALE, SETPOINT_ABOVE, POINTER_ABOVE, FOLLOWED_ABOVE,
    RAW_ABOVE, NO_MAJOR, OUTSIDE_MAJOR, CAUSES
};
static const struct {
    uint8_t number;
    const char *name;
} causes[CAUSES] = {{7, "a digit"}, {7, "a digit of the table"},
    {8, "velocity with Bumpless II"}, {8, "bit 9 of mode 1"}, {8, "a bit of mode 2 that has no use"}, {8, "bit 11 of mode 2"},
    {8, "bits 12 and 13 of mode 2 without bit 10"}, {8, "the hysteresis of PV alarms"}, {8, "the hysteresis of deviation alarms"},
    {8, "a ramp's end"},
    {12, "the period"}, {12, "the reset time"}, {13, "a low limit above the high one"}, {13, "a high limit above the scale"},
    {14, "the setpoint"}, {14, "the pointer"}, {14, "the word that is followed"},
    {9, "the raw PV"}, {11, "a pointer to no other output"}, {11, "a PV outside the major loop's limits"}};

#define ORDER 7 /* of testing, behind 5 */
static const uint8_t order[ORDER] = {7, 8, 12, 13, 14, 9, 11};

/* how often one cause alone was wrong, and how often the first number was the answer where the second held too */
struct wrongs {
    unsigned long alone[CAUSES], before[ORDER][ORDER];
};
static struct wrongs of_samples, of_forecasts;

/* 0 to below - 1 */
static unsigned any(unsigned below) {
    seed ^= seed << 13, seed ^= seed >> 7, seed ^= seed << 17;
    return (unsigned)(seed >> 20) % below;
}

static int once_in(unsigned odds) { return any(odds) == 0; }

static int64_t any64(void) {
    uint64_t high = any(65536), middle = any(65536), low = any(65536);
    return (int64_t)(high << 47 | middle << 31 | low << 15 | any(32768)) * (once_in(2) ? 1 : -1);
}

static void differ(const char *call, const char *what) {
    printf("call %lu, %s: %s differ\n", calls, call, what);
    exit(1);
}

/* every word and number that differs */
static void differ_at(const char *call) {
    for (unsigned n = 0; n < KEXBARDI_WORDS; n++)
        if (ours.words[n] != plain.words[n]) printf("address %u: %u, plain engine %u\n", n, ours.words[n], plain.words[n]);
    for (unsigned n = 0; n < KEXBARDI_NUMBERS; n++)
        if (ours.records[n] != plain.records[n])
            printf("loop %u, number %u: %lld, plain engine %lld\n", n / KEXBARDI_FIELDS + 1, n % KEXBARDI_FIELDS,
                (long long)ours.records[n], (long long)plain.records[n]);
    differ(call, "words or records");
}

/* after every call: both answers, and both desks whole */
static void compare(const char *call, uint8_t a, uint8_t b) {
    calls++;
    if (a != b) {
        printf("call %lu, %s: answers %u, plain engine %u\n", calls, call, a, b);
        exit(1);
    }
    if (a > HIGHEST) differ(call, "numbers of refusals");
    refusals[a]++;
    if (memcmp(ours.words, plain.words, sizeof ours.words) != 0) differ_at(call);
    if (memcmp(ours.records, plain.records, sizeof ours.records) != 0) differ_at(call);
    if (memcmp(ours.line, plain.line, sizeof ours.line) != 0) differ(call, "lines");
}

/* A length that is right but once in 500. */
static size_t length_of(size_t right) {
    static const int off[] = {-1, 1, SPARE, -100};
    if (any(500)) return right;
    return once_in(5) ? 0 : right + (size_t)off[any(4)];
}

/* The number, or once in 300 one that needs more than these bits, mostly with the same lowest bits. */
static uint64_t widened(uint64_t number, unsigned bits) {
    if (any(300)) return number;
    return once_in(4) ? (uint64_t)any64() : number + ((uint64_t)(1 + any(255)) << (bits + any(56 - bits)));
}

static void store(unsigned number, unsigned value) {
    uint64_t address = widened(number, 16);
    size_t words = length_of(KEXBARDI_WORDS), records = length_of(KEXBARDI_NUMBERS);
    uint8_t a = kexbardi_store(ours.words, words, ours.records, records, address, (uint16_t)value);
    compare("store", a, plain_store(plain.words, words, plain.records, records, address, (uint16_t)value));
    wide_refusals[a] += address > 65535;
}

/* The instructor's hand: a word written without a call. */
static void write_word(unsigned address, unsigned value) { ours.words[address] = plain.words[address] = (uint16_t)value; }

static void write_number(unsigned at, int64_t value) { ours.records[at] = plain.records[at] = value; }

static void byte(unsigned value) {
    if (size < LONGEST) file[size++] = (uint8_t)value;
}

static void pair(unsigned value) { byte(value & 255), byte(value >> 8); }

static void file_store(unsigned address, unsigned value) { pair(6), pair(1), pair(address), pair(value); }

static void file_sample(unsigned loop, unsigned raw) { pair(5), pair(2), byte(loop), pair(raw); }

static unsigned bcd(unsigned n) { return n / 1000 % 10 << 12 | n / 100 % 10 << 8 | n / 10 % 10 << 4 | n % 10; }

/* mode 1 with one request, the profile two times in three and each other bit once in four; bit 9 is refused, so it stays 0 */
static unsigned mode_1(void) {
    unsigned word = 1u << (any(4) ? 1 + any(2) : 0) | (any(3) ? KEXBARDI_M1_PROFILE : 0);
    for (unsigned n = 4; n < 16; n++)
        if (n != 9 && n != 11 && once_in(4)) word |= 1u << n;
    return word & 32 || any(3) ? word : word | 8;
}

/* 0, 1 and 2 for 12, 15 and 16 bits */
static unsigned input_format(unsigned mode_2) {
    return mode_2 & KEXBARDI_M2_SIXTEEN_BITS ? 2 : mode_2 & KEXBARDI_M2_FIFTEEN_BITS ? 1 : 0;
}

static unsigned output_format(unsigned mode_2) {
    if (!(mode_2 & KEXBARDI_M2_OUTPUT_FORMAT)) return input_format(mode_2);
    return mode_2 & KEXBARDI_M2_OUTPUT_SIXTEEN_BITS ? 2 : mode_2 & KEXBARDI_M2_OUTPUT_FIFTEEN_BITS ? 1 : 0;
}

/* of the input */
static unsigned full_scale(unsigned mode_2) { return full_scales[input_format(mode_2)]; }

static unsigned output_scale(unsigned mode_2) { return full_scales[output_format(mode_2)]; }

/* any format of the input; the 16-bit one with the 15-bit one's bit too, now and then */
static unsigned any_input(void) {
    static const unsigned bits[] = {0, 0, KEXBARDI_M2_FIFTEEN_BITS, KEXBARDI_M2_FIFTEEN_BITS, KEXBARDI_M2_SIXTEEN_BITS,
        KEXBARDI_M2_SIXTEEN_BITS | KEXBARDI_M2_FIFTEEN_BITS};
    return bits[any(6)];
}

/* an output format of its own, any of the three */
static unsigned any_output(void) {
    static const unsigned bits[] = {0, 0, KEXBARDI_M2_OUTPUT_FIFTEEN_BITS, KEXBARDI_M2_OUTPUT_FIFTEEN_BITS,
        KEXBARDI_M2_OUTPUT_SIXTEEN_BITS, KEXBARDI_M2_OUTPUT_SIXTEEN_BITS | KEXBARDI_M2_OUTPUT_FIFTEEN_BITS};
    return KEXBARDI_M2_OUTPUT_FORMAT | bits[any(6)];
}

/* mode 2 that is accepted: half of the time with an output format; minutes or the ignored bit 8 now and then */
static unsigned mode_2(void) {
    static const unsigned others[] = {0, 0, KEXBARDI_M2_RESET_MINUTES, 256};
    return any_input() | others[any(4)] | (any(2) ? any_output() : 0);
}

typedef void writer(unsigned address, unsigned value);

static unsigned output_of(unsigned loop) { return KEXBARDI_ADDRESS(loop, KEXBARDI_OUTPUT); }

/* the output word of any loop but this */
static unsigned other_output(unsigned loop) { return output_of(1 + (loop + any(KEXBARDI_LOOPS - 1)) % KEXBARDI_LOOPS); }

/* Mostly another loop's output word or word 600; else the own one, one next to an output or 512 above one, or any. */
static unsigned pointer(unsigned loop) {
    switch (any(16)) {
    case 0: return output_of(loop);
    case 1: return other_output(loop) - 1 + 2 * any(2);
    case 2: return 512 + other_output(loop);
    case 3: return any(4) ? any(1024) : 1024 + (any(4) ? other_output(loop) : any(64512));
    case 4: case 5: case 6: return 600;
    default: return other_output(loop);
    }
}

/* the loop whose output word a loop's pointer names, other than the loop; or 0 (A13) */
static unsigned major_of(unsigned loop, const uint16_t *w) {
    unsigned major = w[KEXBARDI_POINTER] / KEXBARDI_LOOP_WORDS + 1;
    return major <= KEXBARDI_LOOPS && major != loop && w[KEXBARDI_POINTER] == output_of(major) ? major : 0;
}

static int is_transfer(const uint16_t *w, const int64_t *record) {
    return record[KEXBARDI_FIELD_MODE] == KEXBARDI_AUTOMATIC && (w[0] & KEXBARDI_M1_REQUESTS) == KEXBARDI_M1_CASCADE
        && !(w[0] & KEXBARDI_M1_BUMPLESS_II);
}

static int good_address(unsigned table) { return table >= KEXBARDI_TABLE_FIRST && table <= KEXBARDI_TABLE_LAST; }

/* Mostly a table of the loop's own, which begins and ends where its neighbours' do; else one that lies across others, or an
 * address at or beyond the ends. */
static unsigned table_address(unsigned loop) {
    static const unsigned ends[] = {0, 511, 512, 992, 993, 1023, 1024, 65535};
    if (any(10)) return KEXBARDI_TABLE_FIRST + (any(5) ? KEXBARDI_TABLE_WORDS * (loop - 1) : 4 * any(121));
    return any(4) ? ends[any(8)] : KEXBARDI_TABLE_FIRST + any(481);
}

/* a slope or duration, digits good but once in 1,000 */
static unsigned digits(unsigned n) { return any(1000) ? bcd(n > 9999 ? 9999 : n) : any(65536); }

/* A table whose profile, begun at a setpoint, has segments of a few samples: ends lie as many steps apart, and durations are as
 * many periods. */
static void fill_table(writer *write, unsigned table, unsigned full, unsigned period, unsigned setpoint) {
    for (unsigned n = 1; n <= KEXBARDI_SEGMENTS; n += 2) {
        unsigned ramp = table + KEXBARDI_SEGMENT(n), soak = table + KEXBARDI_SEGMENT(n + 1);
        unsigned slope = once_in(30) ? 0 : once_in(3) ? 100 + 100 * any(99) : any(any(2) ? 10000 : 100);
        unsigned way = slope * period * any(4) / 10000 + any(3);
        setpoint = once_in(2) ? (setpoint > way ? setpoint - way : 0) : (setpoint + way < full ? setpoint + way : full);
        write(ramp + KEXBARDI_END, any(300) ? setpoint : any(65536));
        write(ramp + KEXBARDI_SLOPE, digits(slope));
        write(soak + KEXBARDI_DURATION, digits(period * any(4) / 600 + once_in(8)));
        write(soak + KEXBARDI_DEVIATION, any(3) ? any(30) : any(2) * any(full + 1));
    }
}

/* Stores are calls, and a table is 32 of them, so most of a desk's tables are written by hand. */
static writer *table_writer(writer *write) { return write == store && any(4) ? write_word : write; }

static void settle_profile(writer *write, unsigned loop, unsigned full, unsigned period, unsigned setpoint) {
    unsigned base = KEXBARDI_ADDRESS(loop, 0), table = table_address(loop);
    write(base + KEXBARDI_PROFILE_TABLE, table);
    write(base + KEXBARDI_PROFILE_FLAGS, any(3) ? KEXBARDI_P_START : any(65536));
    if (good_address(table)) fill_table(table_writer(write), table, full, period, setpoint);
}

/* output limits within a scale; the low one mostly in its lower half */
static void settle_limits(writer *write, unsigned base, unsigned full) {
    unsigned low = any(2) * any(once_in(8) ? full + 1 : full / 2 + 1);
    write(base + KEXBARDI_OUTPUT_LOW, low);
    write(base + KEXBARDI_OUTPUT_HIGH, low + any(full - low + 1));
}

/* a loop set up so that its samples are accepted */
static unsigned settle(writer *write, unsigned loop) {
    unsigned base = KEXBARDI_ADDRESS(loop, 0), formats = mode_2(), full = full_scale(formats), out_full = output_scale(formats);
    unsigned setpoint = any(full + 1), period = once_in(3) ? 100 + 100 * any(99) : 5 + any(any(2) ? 9995 : 100);
    write(base + KEXBARDI_MODE_1, mode_1());
    write(base + KEXBARDI_MODE_2, formats);
    write(base + KEXBARDI_SETPOINT, setpoint);
    write(base + KEXBARDI_OUTPUT, any(65536));
    write(base + KEXBARDI_PERIOD, bcd(period));
    write(base + KEXBARDI_GAIN, bcd(any(3) ? any(200) : any(10000)));
    write(base + KEXBARDI_RESET, bcd(any(4) ? 1 + any(9999) : 9999));
    write(base + KEXBARDI_RATE, bcd(any(2) * any(any(2) ? 100 : 10000)));
    for (unsigned n = 0; n < 4; n++) write(base + KEXBARDI_LOW_LOW + n, full / 5 * (n + 1) + any(full / 8));
    write(base + KEXBARDI_YELLOW, any(full / 4));
    write(base + KEXBARDI_RED, any(full / 2));
    write(base + KEXBARDI_CHANGE, any(full / 8));
    write(base + KEXBARDI_HYSTERESIS, 1 + any(200));
    write(base + KEXBARDI_DEADBAND, any(full / 8));
    settle_limits(write, base, out_full);
    write(base + KEXBARDI_POINTER, pointer(loop));
    settle_profile(write, loop, full, period, setpoint);
    return full;
}

/* a setting at the edge of what is allowed, on either side */
static void change_to_edge(writer *write, unsigned base, unsigned full) {
    static const unsigned refused_bits[] = {512, 512, 40};
    unsigned formats = ours.words[base + KEXBARDI_MODE_2];
    switch (any(9)) {
    case 0: write(base + KEXBARDI_PERIOD, 3 + any(4)); break;
    case 1: write(base + KEXBARDI_RESET, any(2)); break;
    case 2: write(base + KEXBARDI_HYSTERESIS, any(2) ? any(2) : 199 + any(4)); break;
    case 3: write(base + KEXBARDI_POINTER, 1022 + any(4)); break;
    case 4: write(base + KEXBARDI_SETPOINT, full + any(2)); break;
    case 5: write(base + KEXBARDI_OUTPUT_HIGH, output_scale(formats) + any(2)); break;
    case 6: write(base + KEXBARDI_MODE_1, mode_1() | refused_bits[any(3)]); break;
    case 7: write(base + KEXBARDI_MODE_2, formats ^ 1u << any(16)); break;
    default: write(base + KEXBARDI_OUTPUT_LOW, ours.words[base + KEXBARDI_OUTPUT_HIGH] + any(2)); break;
    }
}

/* One of bits 10 to 13 of mode 2 put on or off; or a word that is within the scale that is not its own: a setpoint up to the
 * output's, or a limit up to the input's. */
static void change_scale(writer *write, unsigned base, unsigned full) {
    unsigned formats = ours.words[base + KEXBARDI_MODE_2], out_full = output_scale(formats);
    if (once_in(3)) write(base + KEXBARDI_MODE_2, formats ^ 1u << (10 + any(4)));
    else if (full < out_full) write(base + KEXBARDI_SETPOINT, full + (once_in(4) ? any(2) : any(out_full - full + 1)));
    else write(base + KEXBARDI_OUTPUT_HIGH, out_full + any(full - out_full + 1));
}

/* one command or several, and bits that are never read; more often one that ends a hold or the last segment */
static unsigned command(unsigned loop) {
    const int64_t *record = ours.records + KEXBARDI_FIELDS * (loop - 1);
    unsigned one = 1u << any(4), others = any(2) * any(4096) << 4;
    if (record[KEXBARDI_FIELD_HOLD] == 1 && once_in(2)) one = KEXBARDI_P_RESUME;
    if (record[KEXBARDI_FIELD_SEGMENT] == KEXBARDI_SEGMENTS && once_in(2)) one = KEXBARDI_P_JOG;
    return (once_in(4) ? any(16) : one) | others;
}

/* a word of the loop's table: a slope or a duration of 0, a digit or an end at the edge of what is allowed, or anything; or a
 * ramp that takes long */
static void change_table(writer *write, unsigned table, unsigned full) {
    static const unsigned edges[] = {0x9999, 0x000A, 0x00A0, 0x0A00, 0xA000};
    unsigned ramp = table + 4 * any(8), soak = ramp + 2;
    switch (any(8)) {
    case 0: write(ramp + KEXBARDI_SLOPE, any(2) * bcd(any(10000))); break;
    case 1: write(soak + KEXBARDI_DURATION, any(2) * bcd(any(20))); break;
    case 2: write(once_in(2) ? ramp + KEXBARDI_SLOPE : soak + KEXBARDI_DURATION, edges[any(5)]); break;
    case 3: write(ramp + KEXBARDI_END, full + any(2)); break;
    case 4: write(soak + KEXBARDI_DEVIATION, any(2) * any(full + 1)); break;
    case 5: case 6: write(ramp + KEXBARDI_SLOPE, 1 + any(3)), write(ramp + KEXBARDI_END, any(2) * full); break;
    default: write(ramp + any(4), any(2) ? any(4096) : any(65536)); break;
    }
}

/* something of the profile changed: commands mostly, else its switch, pointer or table */
static void change_profile(writer *write, unsigned loop) {
    unsigned base = KEXBARDI_ADDRESS(loop, 0), table = ours.words[base + KEXBARDI_PROFILE_TABLE];
    unsigned full = full_scale(ours.words[base + KEXBARDI_MODE_2]), setpoint = ours.words[base + KEXBARDI_SETPOINT];
    switch (any(12)) {
    case 0: write(base + KEXBARDI_MODE_1, ours.words[base + KEXBARDI_MODE_1] ^ KEXBARDI_M1_PROFILE); break;
    case 1: write(base + KEXBARDI_PROFILE_TABLE, table_address(loop)); break;
    case 2: if (good_address(table)) fill_table(table_writer(write), table, full, 5 + any(9995), setpoint); break;
    case 3: case 4: if (good_address(table)) change_table(write, table, full); break;
    default: write(base + KEXBARDI_PROFILE_FLAGS, command(loop)); break;
    }
}

/* Another format of input or output, or one of the output put on or taken off. Setpoint, limits and table are brought to the new
 * scales, mostly; the record is not, so that its PVs may be above them. */
static void change_format(writer *write, unsigned loop) {
    const unsigned inputs = KEXBARDI_M2_FIFTEEN_BITS | KEXBARDI_M2_SIXTEEN_BITS;
    const unsigned outputs = KEXBARDI_M2_OUTPUT_FORMAT | KEXBARDI_M2_OUTPUT_FIFTEEN_BITS | KEXBARDI_M2_OUTPUT_SIXTEEN_BITS;
    unsigned base = KEXBARDI_ADDRESS(loop, 0), formats = ours.words[base + KEXBARDI_MODE_2];
    unsigned table = ours.words[base + KEXBARDI_PROFILE_TABLE], setpoint = ours.words[base + KEXBARDI_SETPOINT];
    if (any(3)) formats = (formats & ~inputs) | any_input();
    if (any(3)) formats = (formats & ~outputs) | (any(2) ? any_output() : 0);
    write(base + KEXBARDI_MODE_2, formats);
    if (once_in(20)) return;
    unsigned full = full_scale(formats), out_full = output_scale(formats);
    if (setpoint > full) write(base + KEXBARDI_SETPOINT, setpoint = any(full + 1));
    if (ours.words[base + KEXBARDI_OUTPUT_HIGH] > out_full || once_in(4)) settle_limits(write, base, out_full);
    if (ours.words[base + KEXBARDI_MODE_1] & KEXBARDI_M1_PROFILE && good_address(table))
        fill_table(table_writer(write), table, full, 5 + any(9995), setpoint);
}

/* a deadband next to how far setpoint and PV are apart now, in counts of the input or of the output; or any */
static unsigned deadband(const uint16_t *w, unsigned full) {
    unsigned apart = (unsigned)abs(w[KEXBARDI_SETPOINT] - w[KEXBARDI_PV]), near = apart;
    if (any(2)) return any(full + 1);
    if (any(2)) near = (unsigned)((uint64_t)apart * output_scale(w[KEXBARDI_MODE_2]) / full);
    return (near > 0 ? near - 1 : 0) + any(3);
}

/* a setting changed, now and then to what is refused */
static void change(writer *write, unsigned loop) {
    unsigned base = KEXBARDI_ADDRESS(loop, 0), full = full_scale(ours.words[base + KEXBARDI_MODE_2]);
    switch (any(29)) {
    case 0: write(base + any(32), any(65536)); break;
    case 1: write(any(1100), any(65536)); break;
    case 2: case 3: case 4: write(base + KEXBARDI_SETPOINT, any(full + 1)); break;
    case 5: write(base + KEXBARDI_OUTPUT, any(65536)); break;
    case 6: case 7: write(base + KEXBARDI_PERIOD + any(4), bcd(5 + any(9995))); break;
    case 8: case 9: write(600, any(4096)); break;
    case 10: write(base + KEXBARDI_DEADBAND, deadband(ours.words + base, full)); break;
    case 11: write(base + KEXBARDI_LOW_LOW + any(7), any(full + 1)); break;
    case 12: change_to_edge(write, base, full); break;
    case 13: case 14: write(base + KEXBARDI_MODE_1, (ours.words[base + KEXBARDI_MODE_1] & ~7u) | 1u << any(3)); break;
    case 15: case 16: case 17: case 18: case 19: change_profile(write, loop); break;
    case 20: write(base + KEXBARDI_POINTER, pointer(loop)); break;
    case 21: case 22: case 23: change_format(write, loop); break;
    case 24: case 25: change_scale(write, base, full); break;
    default: write(base + KEXBARDI_MODE_1, mode_1()); break;
    }
}

/* numbers in range: all of them, or one */
static void write_record(unsigned loop) {
    unsigned at = KEXBARDI_FIELDS * (loop - 1), only = any(2 * KEXBARDI_FIELDS);
    const int64_t most_bias = (int64_t)1 << 52, most_output = 65535 * (int64_t)262144;
    const int64_t numbers[KEXBARDI_FIELDS] = {any(3),
        once_in(4) ? most_bias - any(3) : once_in(3) ? any(3) - most_bias : any64() % most_bias,
        once_in(4) ? most_output - any(3) : llabs(any64() % most_output),
        any(65536), any(65536), (int64_t)any(131071) - 65535, any(2), any(2),
        any(2) ? 16 * any(2) : 1 + any(16), any(2), once_in(4), once_in(4) ? 9999 * any(2) : any(10000),
        once_in(4) ? 6000000 * any(2) : any(any(2) ? 20000 : 6000001), any(2)};
    for (unsigned n = 0; n < KEXBARDI_FIELDS; n++)
        if (n == only || only >= KEXBARDI_FIELDS) write_number(at + n, numbers[n]);
}

/* one number far outside or just outside its range, or any number */
static void spoil_record(unsigned loop) {
    static const int64_t near[KEXBARDI_FIELDS][2] = {{-1, 3}, {-((int64_t)1 << 52) - 1, ((int64_t)1 << 52) + 1},
        {-1, 65535 * (int64_t)262144 + 1}, {-1, 65536}, {-1, 65536}, {-65536, 65536}, {-1, 2}, {-1, 2}, {-1, 17}, {-1, 2}, {-1, 2},
        {-1, 10000}, {-1, 6000001}, {-1, 2}};
    unsigned field = any(KEXBARDI_FIELDS), at = KEXBARDI_FIELDS * (loop - 1) + field;
    if (once_in(2)) write_number(at, near[field][any(2)]);
    else write_number(at, once_in(3) ? INT64_MIN : once_in(3) ? INT64_MAX : any64());
}

static unsigned when(int is_so, enum cause cause) { return is_so ? 1u << cause : 0; }

static int has_wrong_digit(unsigned word) {
    for (; word > 0; word >>= 4)
        if ((word & 15) > 9) return 1;
    return 0;
}

/* A1: the least p with p x (p + 1) at least the product, which is the nearest to its root */
static uint64_t nearest_root(uint64_t product) {
    uint64_t p = 65535;
    for (uint64_t step = 32768; step > 0; step /= 2)
        if (p >= step && (p - step) * (p - step + 1) >= product) p -= step;
    return p;
}

static int64_t mode_of(unsigned mode_1, const int64_t *record) {
    if (mode_1 & KEXBARDI_M1_MANUAL) return KEXBARDI_MANUAL;
    if (mode_1 & KEXBARDI_M1_AUTOMATIC) return KEXBARDI_AUTOMATIC;
    return mode_1 & KEXBARDI_M1_CASCADE ? KEXBARDI_CASCADE : record[KEXBARDI_FIELD_MODE];
}

/* N7, N8 of a table */
static unsigned wrong_in_table(const uint16_t *table, unsigned full) {
    unsigned wrong = 0;
    for (unsigned n = 1; n <= KEXBARDI_SEGMENTS; n += 2) {
        const uint16_t *ramp = table + KEXBARDI_SEGMENT(n), *soak = table + KEXBARDI_SEGMENT(n + 1);
        wrong |= when(has_wrong_digit(ramp[KEXBARDI_SLOPE]) || has_wrong_digit(soak[KEXBARDI_DURATION]), TABLE_DIGIT);
        wrong |= when(ramp[KEXBARDI_END] > full, TABLE_END);
    }
    return wrong;
}

/* N8, without a table */
static unsigned wrong_bits(const uint16_t *w) {
    unsigned m = w[KEXBARDI_MODE_1], formats = w[KEXBARDI_MODE_2], h = w[KEXBARDI_HYSTERESIS];
    const unsigned outputs = KEXBARDI_M2_OUTPUT_FIFTEEN_BITS | KEXBARDI_M2_OUTPUT_SIXTEEN_BITS, unused = 0xC0ED;
    return when(m & KEXBARDI_M1_VELOCITY && m & KEXBARDI_M1_BUMPLESS_II, VELOCITY_WITH_II) | when(m & 1u << 9, BIT_9)
        | when(formats & unused, UNUSED_BIT) | when(formats & 1u << 11, BIT_11)
        | when(formats & outputs && !(formats & KEXBARDI_M2_OUTPUT_FORMAT), OUTPUT_BITS)
        | when(m & KEXBARDI_M1_PV_ALARMS && (h == 0 || h > 200), PV_HYSTERESIS)
        | when(m & KEXBARDI_M1_DEVIATION_ALARMS && (h == 0 || h > 200), DEVIATION_HYSTERESIS);
}

/* N12, N13, N14 */
static unsigned wrong_numbers(const uint16_t *w, const int64_t *record) {
    unsigned full = full_scale(w[KEXBARDI_MODE_2]), pointer = w[KEXBARDI_POINTER], high = w[KEXBARDI_OUTPUT_HIGH];
    unsigned wrong = when(w[KEXBARDI_PERIOD] < 0x0005, PERIOD) | when(w[KEXBARDI_RESET] == 0, RESET_TIME)
        | when(w[KEXBARDI_OUTPUT_LOW] > high, LOW_ABOVE_HIGH) | when(high > output_scale(w[KEXBARDI_MODE_2]), HIGH_ABOVE_SCALE);
    if (mode_of(w[0], record) != KEXBARDI_CASCADE) return wrong | when(w[KEXBARDI_SETPOINT] > full, SETPOINT_ABOVE);
    if (pointer >= KEXBARDI_WORDS) return wrong | when(1, POINTER_ABOVE);
    return wrong | when(ours.words[pointer] > full, FOLLOWED_ABOVE);
}

/* N11, of a transfer */
static unsigned wrong_transfer(unsigned loop, const uint16_t *w, uint64_t raw) {
    unsigned major = major_of(loop, w);
    if (major == 0) return when(1, NO_MAJOR);
    const uint16_t *limits = ours.words + KEXBARDI_ADDRESS(major, KEXBARDI_OUTPUT_LOW);
    uint64_t p = w[0] & KEXBARDI_M1_ROOT && raw <= 65535 ? nearest_root(raw * full_scale(w[KEXBARDI_MODE_2])) : raw;
    return when(p < limits[0] || p > limits[1], OUTSIDE_MAJOR);
}

/* All that is wrong where a loop would be sampled with a raw PV, whose record is in range. */
static unsigned wrong_with(unsigned loop, uint64_t raw) {
    const uint16_t *w = ours.words + KEXBARDI_ADDRESS(loop, 0);
    const int64_t *record = ours.records + KEXBARDI_FIELDS * (loop - 1);
    unsigned full = full_scale(w[KEXBARDI_MODE_2]), wrong = wrong_bits(w) | wrong_numbers(w, record) | when(raw > full, RAW_ABOVE);
    for (unsigned n = KEXBARDI_PERIOD; n <= KEXBARDI_RATE; n++) wrong |= when(has_wrong_digit(w[n]), DIGIT);
    if (w[0] & KEXBARDI_M1_PROFILE && good_address(w[KEXBARDI_PROFILE_TABLE]))
        wrong |= wrong_in_table(ours.words + w[KEXBARDI_PROFILE_TABLE], full);
    return is_transfer(w, record) ? wrong | wrong_transfer(loop, w, raw) : wrong;
}

static int holds(unsigned wrong, uint8_t number) {
    for (unsigned n = 0; n < CAUSES; n++)
        if (wrong >> n & 1 && causes[n].number == number) return 1;
    return 0;
}

/* The answer has to be the first number that holds. */
static void count_wrongs(const char *call, uint8_t answer, unsigned wrong, struct wrongs *wrongs) {
    unsigned first = 0;
    while (first < ORDER && !holds(wrong, order[first])) first++;
    if (answer != (first < ORDER ? order[first] : 0)) differ(call, "the answer and what is wrong");
    for (unsigned n = 0; n < CAUSES; n++) wrongs->alone[n] += wrong == 1u << n;
    for (unsigned n = first + 1; n < ORDER; n++) wrongs->before[first][n] += holds(wrong, order[n]);
}

/* A1, with the root on: the PV below the exact root or above it, and at r x r + r, the last product that goes down */
static void count_root(uint64_t raw, unsigned full, uint64_t pv) {
    uint64_t v = raw * full;
    features[ROOT_DOWN] += pv * pv < v;
    features[ROOT_UP] += pv * pv > v;
    features[ROOT_NEAR_HALF] += v > 0 && v == pv * pv + pv;
}

static void count_features(unsigned mode_1, const uint16_t *w, const int64_t *record, unsigned setpoint, unsigned pv, uint64_t raw) {
    int working = record[KEXBARDI_FIELD_MODE] != 0, velocity = (mode_1 & 32) != 0, error = working && record[KEXBARDI_FIELD_ERROR] != 0;
    int64_t output = record[KEXBARDI_FIELD_OUTPUT];
    int at_limit = output == (int64_t)w[24] * 262144 || output == (int64_t)w[25] * 262144;
    features[record[KEXBARDI_FIELD_MODE]]++;
    features[POSITION] += working && !velocity;
    features[VELOCITY] += working && velocity;
    features[BITS_12 + input_format(w[1])]++;
    features[FREEZE] += working && !velocity && mode_1 & 1024 && at_limit;
    if (mode_1 & 64) count_root(raw, full_scale(w[1]), pv);
    features[SQUARED] += error && mode_1 & 128;
    features[DEADBAND] += working && mode_1 & 256 && !error && setpoint != pv;
    features[REVERSE] += error && mode_1 & 16;
    features[RESET_9999] += error && w[9] == 0x9999;
    features[MINUTES] += error && w[9] != 0x9999 && w[1] & 16;
    features[RATE] += working && w[10] != 0;
    features[BUMPLESS_II] += working && mode_1 & 8;
    features[INSIDE] += working && !at_limit;
}

/* a loop's words and record as they stood before a sample; and the output and record of its major loop, where there is one */
struct former {
    unsigned major;
    uint16_t words[KEXBARDI_LOOP_WORDS], output;
    int64_t record[KEXBARDI_FIELDS], major_record[KEXBARDI_FIELDS];
};

static void take_former(struct former *former, unsigned loop) {
    memcpy(former->words, ours.words + KEXBARDI_ADDRESS(loop, 0), sizeof former->words);
    memcpy(former->record, ours.records + KEXBARDI_FIELDS * (loop - 1), sizeof former->record);
    former->major = major_of(loop, former->words);
    unsigned of = former->major ? former->major : loop;
    former->output = ours.words[output_of(of)];
    memcpy(former->major_record, ours.records + KEXBARDI_FIELDS * (of - 1), sizeof former->major_record);
}

static void count_command(const struct former *former, unsigned commands) {
    int64_t segment = former->record[KEXBARDI_FIELD_SEGMENT], held = former->record[KEXBARDI_FIELD_HOLD];
    unsigned lowest = commands & -commands;
    features[SEVERAL] += commands != lowest;
    if (lowest == KEXBARDI_P_START) features[segment > 0 ? RESTART : START]++;
    else if (segment == 0 || (lowest == KEXBARDI_P_RESUME && !held)) features[NO_EFFECT]++;
    else if (lowest == KEXBARDI_P_HOLD) features[HOLD]++;
    else if (lowest == KEXBARDI_P_RESUME) features[RESUME]++;
    else features[segment == KEXBARDI_SEGMENTS ? JOG_LAST : held ? JOG_HELD : JOG]++;
}

static void count_ramp(const struct former *former, const uint16_t *ramp, unsigned setpoint) {
    int64_t at = 10000 * (int64_t)former->words[KEXBARDI_SETPOINT] + former->record[KEXBARDI_FIELD_FRACTION];
    int64_t end = 10000 * (int64_t)ramp[KEXBARDI_END], way = llabs(end - at);
    int64_t step = (int64_t)KEXBARDI_HUNDREDTHS(ramp[KEXBARDI_SLOPE]) * KEXBARDI_HUNDREDTHS(former->words[KEXBARDI_PERIOD]);
    if (step == 0) features[former->record[KEXBARDI_FIELD_SEGMENT] == 1 ? SLOPE_0_FIRST : SLOPE_0_LATER]++;
    else if (way <= step) features[way == 0 ? ALREADY_THERE : way == step ? EXACT : OVERSHOT]++;
    else features[setpoint == former->words[KEXBARDI_SETPOINT] ? FRACTION : at < end ? UP : DOWN]++;
}

static void count_soak(const struct former *former, const uint16_t *soak) {
    int64_t time = former->record[KEXBARDI_FIELD_TIME] + KEXBARDI_HUNDREDTHS(former->words[KEXBARDI_PERIOD]);
    unsigned duration = KEXBARDI_HUNDREDTHS(soak[KEXBARDI_DURATION]);
    int ends = time >= 600 * (int64_t)duration;
    features[duration == 0 ? DURATION_0 : ends ? SOAK_ENDS : SOAKS]++;
    features[COMPLETES] += ends && former->record[KEXBARDI_FIELD_SEGMENT] == KEXBARDI_SEGMENTS;
}

/* with a table, outside Cascade */
static void count_profile(const struct former *former, const uint16_t *w, const uint16_t *table) {
    unsigned commands = former->words[KEXBARDI_PROFILE_FLAGS] & 15, flags = w[KEXBARDI_PROFILE_FLAGS];
    unsigned after = KEXBARDI_P_SEGMENT(flags);
    int64_t segment = former->record[KEXBARDI_FIELD_SEGMENT], held = former->record[KEXBARDI_FIELD_HOLD];
    if (commands) count_command(former, commands);
    else if (held) features[segment == 0 ? HELD_NOTHING : segment % 2 ? HELD_RAMP : HELD_SOAK]++;
    else if (segment > 0) {
        segments[segment]++;
        if (segment % 2) count_ramp(former, table + KEXBARDI_SEGMENT(segment), w[KEXBARDI_SETPOINT]);
        else count_soak(former, table + KEXBARDI_SEGMENT(segment));
    }
    if (after > 0 && after % 2 == 0) {
        int deviation = table[KEXBARDI_SEGMENT(after) + KEXBARDI_DEVIATION], apart = abs(w[KEXBARDI_SETPOINT] - w[KEXBARDI_PV]);
        features[DEVIATES] += (flags & KEXBARDI_P_DEVIATION) != 0;
        features[JUST_ALLOWED] += apart == deviation && deviation > 0;
        features[NO_DEVIATION] += apart > deviation && deviation == 0;
    }
    features[IN_MANUAL] += segment > 0 && w[KEXBARDI_STATUS] & KEXBARDI_S_MANUAL;
    features[FIRST_TABLE] += w[KEXBARDI_PROFILE_TABLE] == 512;
    features[LAST_TABLE] += w[KEXBARDI_PROFILE_TABLE] == 992;
    features[OVERLAP] += w[KEXBARDI_PROFILE_TABLE] % KEXBARDI_TABLE_WORDS != 0;
}

/* an entry to Automatic with Bumpless I */
static void count_entry(const struct former *former, const uint16_t *w) {
    int velocity = (w[0] & KEXBARDI_M1_VELOCITY) != 0, running = former->record[KEXBARDI_FIELD_SEGMENT] > 0;
    if (former->record[KEXBARDI_FIELD_MODE] != KEXBARDI_MANUAL && former->record[KEXBARDI_FIELD_VELOCITY] == velocity) return;
    features[ENTRY_RUNNING] += running && former->words[KEXBARDI_SETPOINT] != w[KEXBARDI_PV];
    features[ENTRY_START] += !running && former->words[KEXBARDI_PROFILE_FLAGS] & KEXBARDI_P_START;
}

static void count_profile_features(const struct former *former, const uint16_t *w) {
    unsigned table = w[KEXBARDI_PROFILE_TABLE], status = w[KEXBARDI_STATUS];
    int on = (w[0] & KEXBARDI_M1_PROFILE) != 0, has_table = on && good_address(table);
    int running = former->record[KEXBARDI_FIELD_SEGMENT] > 0;
    if (status & KEXBARDI_S_CASCADE) {
        features[WAITS] += running && has_table;
        return;
    }
    features[TAKEN_OFF] += running && !on;
    features[POINTER_LOST] += running && on && !has_table;
    features[BELOW] += w[KEXBARDI_PROFILE_FAULT] == KEXBARDI_FAULT_BELOW;
    features[ABOVE] += w[KEXBARDI_PROFILE_FAULT] == KEXBARDI_FAULT_ABOVE;
    if (!has_table) return;
    count_profile(former, w, ours.words + table);
    if (status & KEXBARDI_S_AUTOMATIC && !(w[0] & KEXBARDI_M1_BUMPLESS_II)) count_entry(former, w);
}

static int is_running(const struct former *former) {
    return former->record[KEXBARDI_FIELD_SEGMENT] > 0 && former->words[0] & KEXBARDI_M1_PROFILE
        && good_address(former->words[KEXBARDI_PROFILE_TABLE]);
}

static int other_form(const struct former *former) {
    return former->record[KEXBARDI_FIELD_VELOCITY] != ((former->words[0] & KEXBARDI_M1_VELOCITY) != 0);
}

/* the mark of a loop as it stands */
static int64_t mark_of(unsigned loop) { return ours.records[KEXBARDI_FIELDS * (loop - 1) + KEXBARDI_FIELD_MARK]; }

/* an accepted transfer that has moved the major loop's output */
static void count_transfer(const struct former *former, unsigned p) {
    const uint16_t *major = ours.words + KEXBARDI_ADDRESS(former->major, 0);
    int64_t mode = former->major_record[KEXBARDI_FIELD_MODE], mark = former->major_record[KEXBARDI_FIELD_MARK];
    int64_t fields[KEXBARDI_FIELDS];
    features[TRANSFERS] += major[KEXBARDI_OUTPUT] == p && mark_of(former->major) == 1;
    if (mode >= KEXBARDI_MANUAL && mode <= KEXBARDI_CASCADE) features[TO_MANUAL + mode]++;
    features[TO_VELOCITY] += (major[0] & KEXBARDI_M1_VELOCITY) != 0;
    features[TO_FREEZE] += (major[0] & KEXBARDI_M1_FREEZE) != 0;
    features[TO_MARKED] += mark == 1;
    features[TO_SPOILT] += plain_record(plain.records, KEXBARDI_NUMBERS, former->major, fields) == 5;
    features[TO_SPOILT_MARK] += mark < 0 || mark > 1;
    features[AT_LOW] += p == major[KEXBARDI_OUTPUT_LOW];
    features[AT_HIGH] += p == major[KEXBARDI_OUTPUT_HIGH];
    features[OF_VELOCITY] += (former->words[0] & KEXBARDI_M1_VELOCITY) != 0;
    features[OF_CHANGED_FORM] += other_form(former);
    features[OF_ROOT] += (former->words[0] & KEXBARDI_M1_ROOT) != 0;
    features[OF_RUNNING] += is_running(former);
    features[OF_MARKED] += former->record[KEXBARDI_FIELD_MARK] == 1;
}

/* in Cascade, the major loop's output not p: no transfer */
static void count_no_transfer(const struct former *former) {
    int64_t mode = former->record[KEXBARDI_FIELD_MODE];
    features[NONE_BY_II] += mode == KEXBARDI_AUTOMATIC;
    if (former->words[0] & KEXBARDI_M1_BUMPLESS_II) return;
    features[NONE_FROM_MANUAL] += mode == KEXBARDI_MANUAL;
    features[NONE_IN_CASCADE] += mode == KEXBARDI_CASCADE && former->words[0] & KEXBARDI_M1_CASCADE;
}

/* an accepted sample of a marked loop; the mark alone counts where the output was another */
static void count_mark(const struct former *former, const uint16_t *w, int64_t mark) {
    unsigned mode_1 = former->words[0], output = former->words[KEXBARDI_OUTPUT], status = w[KEXBARDI_STATUS];
    int from_manual = former->record[KEXBARDI_FIELD_MODE] == KEXBARDI_MANUAL, form = other_form(former), running = is_running(former);
    features[MARK_IN_MANUAL] += status & KEXBARDI_S_MANUAL && mark == 1;
    if (status & KEXBARDI_S_MANUAL) return;
    features[MARK_FROM_MANUAL] += from_manual;
    features[MARK_AND_FORM] += form && !from_manual;
    if (from_manual || form || former->record[KEXBARDI_FIELD_OUTPUT] == (int64_t)output * KEXBARDI_UNITS) return;
    features[MARK_ALONE] += mark == 0;
    features[MARK_RUNNING] += running && status & KEXBARDI_S_AUTOMATIC;
    features[MARK_KEEPS_SETPOINT] += !running && status & KEXBARDI_S_AUTOMATIC && !(mode_1 & KEXBARDI_M1_BUMPLESS_II)
        && w[KEXBARDI_SETPOINT] != w[KEXBARDI_PV];
    features[MARK_IN_CASCADE] += (status & KEXBARDI_S_CASCADE) != 0;
    features[MARK_IN_VELOCITY] += (mode_1 & KEXBARDI_M1_VELOCITY) != 0;
    features[MARK_AND_FREEZE] += (mode_1 & KEXBARDI_M1_FREEZE) != 0;
    features[MARK_AND_LIMIT] += output < w[KEXBARDI_OUTPUT_LOW] || output > w[KEXBARDI_OUTPUT_HIGH];
}

static void count_cascade_features(unsigned loop, const struct former *former, const uint16_t *w) {
    if (former->major && former->output != w[KEXBARDI_PV]) {
        if (is_transfer(former->words, former->record)) count_transfer(former, w[KEXBARDI_PV]);
        else if (w[KEXBARDI_STATUS] & KEXBARDI_S_CASCADE) count_no_transfer(former);
    }
    if (former->record[KEXBARDI_FIELD_MARK] == 1) count_mark(former, w, mark_of(loop));
}

/* M7, by exact arithmetic and without the cap: the nearest of v x to / from, a half up */
static int64_t uncapped(int64_t v, int64_t from, int64_t to) { return (2 * v * to + from) / (2 * from); }

static int64_t converted(int64_t v, int64_t from, int64_t to) { return uncapped(v, from, to) < to ? uncapped(v, from, to) : to; }

static int is_entry(const struct former *former) {
    return former->record[KEXBARDI_FIELD_MODE] == KEXBARDI_MANUAL || other_form(former) || former->record[KEXBARDI_FIELD_MARK] == 1;
}

/* what the terms compare with (A6), from another format: last PVs above full scale, an error above the output's */
static void count_past(const struct former *former, const uint16_t *w, int64_t full, int64_t out_full) {
    int64_t last = former->record[KEXBARDI_FIELD_LAST_PV], prior = former->record[KEXBARDI_FIELD_PRIOR_PV];
    if (is_entry(former) || !former->record[KEXBARDI_FIELD_SAMPLED]) return;
    features[ERROR_KEPT] += w[0] & KEXBARDI_M1_VELOCITY && w[KEXBARDI_GAIN] && llabs(former->record[KEXBARDI_FIELD_ERROR]) > out_full;
    if (w[KEXBARDI_RATE] == 0) return;
    if (w[KEXBARDI_MODE_2] & KEXBARDI_M2_OUTPUT_FORMAT) {
        features[LAST_CAPPED] += uncapped(last, full, out_full) > out_full;
        features[PRIOR_CAPPED] += w[0] & KEXBARDI_M1_VELOCITY && uncapped(prior, full, out_full) > out_full;
    } else {
        features[LAST_KEPT] += last > full;
    }
}

/* outside Manual, with an output format: where counts of the input and of the output lead to different results */
static void count_converted(const uint16_t *w, const int64_t *record, int64_t full, int64_t out_full) {
    int64_t s = w[KEXBARDI_SETPOINT], p = w[KEXBARDI_PV], apart = llabs(s - p), most = full < out_full ? full : out_full;
    int64_t error = llabs(converted(s, full, out_full) - converted(p, full, out_full)), square = error * error;
    int64_t counted = w[0] & KEXBARDI_M1_SQUARED ? square / out_full : error, band = w[KEXBARDI_DEADBAND];
    int has_band = w[0] & KEXBARDI_M1_DEADBAND && counted > 0;
    features[CONVERTED_DIFFERS] += error != apart;
    features[CONVERTED_AGREE] += error == 0 && w[KEXBARDI_STATUS] & KEXBARDI_S_AT_LIMIT;
    features[INSIDE_BY_INPUT] += has_band && apart < band && error >= band;
    features[OUTSIDE_BY_INPUT] += has_band && apart >= band && error < band;
    features[AT_DEADBAND] += has_band && apart == band;
    features[SQUARED_BY_OUTPUT] += w[0] & KEXBARDI_M1_SQUARED && record[KEXBARDI_FIELD_ERROR] != 0 && square / full != counted;
    features[BIAS_BY_OUTPUT] += full != out_full && !(w[0] & KEXBARDI_M1_VELOCITY)
        && record[KEXBARDI_FIELD_BIAS] > most * KEXBARDI_UNITS;
    features[HIGH_BETWEEN] += w[KEXBARDI_OUTPUT_HIGH] > full;
    features[LOW_BETWEEN] += w[KEXBARDI_OUTPUT_LOW] > full;
    features[PV_ABOVE_OUTPUT] += p > out_full;
}

/* outside Manual: whether a format is another than at the loop's last accepted sample */
static void count_new_format(const struct former *former, const uint16_t *w, unsigned last_mode_2) {
    unsigned formats = w[KEXBARDI_MODE_2], own = formats & KEXBARDI_M2_OUTPUT_FORMAT, had = last_mode_2 & KEXBARDI_M2_OUTPUT_FORMAT;
    int input = input_format(formats) != input_format(last_mode_2), output = output_format(formats) != output_format(last_mode_2);
    if (last_mode_2 == NO_FORMAT) return;
    features[NEW_AT_ENTRY] += (input || output) && is_entry(former);
    if (is_entry(former)) return;
    features[NEW_INPUT] += input && own && had;
    features[NEW_OUTPUT] += output && own && had;
    features[OWN_ON] += own && !had;
    features[OWN_OFF] += !own && had;
    features[NEW_IN_VELOCITY] += (input || output) && own && w[0] & KEXBARDI_M1_VELOCITY;
}

/* in Cascade behind another loop's output: by the scale of that, and that of the own input */
static void count_followed(const struct former *former, unsigned formats) {
    unsigned major = output_scale(ours.words[KEXBARDI_ADDRESS(former->major, KEXBARDI_MODE_2)]), full = full_scale(formats);
    features[FOLLOWS_WIDER] += major > full;
    features[FOLLOWS_NARROWER] += major < full;
    features[TO_OTHER_SCALE] += major != full && is_transfer(former->words, former->record);
}

static void count_format_features(const struct former *former, const uint16_t *w, const int64_t *record, unsigned last_mode_2) {
    unsigned formats = w[KEXBARDI_MODE_2], input = input_format(formats), output = output_format(formats);
    if (w[KEXBARDI_STATUS] & KEXBARDI_S_MANUAL) return;
    count_past(former, w, full_scales[input], full_scales[output]);
    count_new_format(former, w, last_mode_2);
    if (former->major && w[KEXBARDI_STATUS] & KEXBARDI_S_CASCADE) count_followed(former, formats);
    if (!(formats & KEXBARDI_M2_OUTPUT_FORMAT)) return;
    pairs[input][output]++;
    count_converted(w, record, full_scales[input], full_scales[output]);
    features[SIXTEEN_OVER_FIFTEEN] += formats & KEXBARDI_M2_OUTPUT_SIXTEEN_BITS && formats & KEXBARDI_M2_OUTPUT_FIFTEEN_BITS;
}

/* why the pointer of a transfer that was refused with 11 is wrong */
static enum reached wrong_pointer(unsigned loop, unsigned pointer) {
    unsigned at = pointer % KEXBARDI_LOOP_WORDS;
    if (pointer == output_of(loop)) return OWN_OUTPUT;
    if (pointer >= 512) return at == KEXBARDI_OUTPUT ? UPPER_OUTPUT : NO_OUTPUT;
    return at == KEXBARDI_OUTPUT - 1 || at == KEXBARDI_OUTPUT + 1 ? BESIDE_OUTPUT : NO_OUTPUT;
}

/* A transfer that was refused with 11. */
static void count_transfer_refusal(unsigned loop, const struct former *former, uint64_t raw) {
    const uint16_t *major = ours.words + (former->major ? KEXBARDI_ADDRESS(former->major, 0) : 0);
    uint64_t low = major[KEXBARDI_OUTPUT_LOW], high = major[KEXBARDI_OUTPUT_HIGH];
    if (!former->major) reached[wrong_pointer(loop, former->words[KEXBARDI_POINTER])]++;
    else if (former->words[0] & KEXBARDI_M1_ROOT) reached[BY_ROOT]++;
    else {
        reached[LOW] += raw < low;
        reached[JUST_LOW] += raw + 1 == low;
        reached[HIGH] += raw > high;
        reached[JUST_HIGH] += raw == high + 1;
    }
}

/* of a table's ramps */
static unsigned highest_end(unsigned table) {
    unsigned highest = 0;
    for (unsigned n = 1; n <= KEXBARDI_SEGMENTS; n += 2) {
        unsigned end = ours.words[table + KEXBARDI_SEGMENT(n) + KEXBARDI_END];
        if (end > highest) highest = end;
    }
    return highest;
}

/* A sample that was refused for one cause alone: whether its number is within the scale that is not its own. */
static void count_scale_refusal(const uint16_t *w, unsigned wrong, uint64_t raw) {
    unsigned full = full_scale(w[KEXBARDI_MODE_2]), out_full = output_scale(w[KEXBARDI_MODE_2]);
    reached[LIMIT_BY_OUTPUT] += wrong == 1u << HIGH_ABOVE_SCALE && w[KEXBARDI_OUTPUT_HIGH] <= full;
    reached[SETPOINT_BY_INPUT] += wrong == 1u << SETPOINT_ABOVE && w[KEXBARDI_SETPOINT] <= out_full;
    reached[FOLLOWED_BY_INPUT] += wrong == 1u << FOLLOWED_ABOVE && ours.words[w[KEXBARDI_POINTER]] <= out_full;
    reached[END_BY_INPUT] += wrong == 1u << TABLE_END && highest_end(w[KEXBARDI_PROFILE_TABLE]) <= out_full;
    reached[RAW_BY_INPUT] += wrong == 1u << RAW_ABOVE && raw <= out_full;
}

/* Raw PVs whose root lies next to r + 1/2 (A1): two whose product with full scale is r x r + r, two with the least above one. */
static unsigned raw_near_half(unsigned full) {
    static const unsigned raws_12[] = {2, 4094, 27, 1987}, raws_15[] = {368, 32766, 703, 16549}, raws_16[] = {630, 65534, 1516, 47116};
    return (full == 65535 ? raws_16 : full == 32767 ? raws_15 : raws_12)[any(4)];
}

/* A raw PV for a transfer: p is one of the major loop's output limits, next to it, between the two, or above full scale. With the
 * root on p lies near these. */
static unsigned raw_for_transfer(const uint16_t *w, const uint16_t *major, int full) {
    int low = major[KEXBARDI_OUTPUT_LOW], high = major[KEXBARDI_OUTPUT_HIGH], p = low + (int)any((unsigned)abs(high - low) + 1);
    if (once_in(30)) return (unsigned)full + 1;
    if (once_in(4)) p = any(2) ? high + (int)any(2) : low - (int)any(2);
    p = p < 0 ? 0 : p > full ? full : p;
    return w[0] & KEXBARDI_M1_ROOT ? (unsigned)p * (unsigned)p / (unsigned)full : (unsigned)p;
}

/* A raw PV as far from the setpoint as the deadband, or a count nearer or farther, in counts of the input or of the output. */
static int raw_at_deadband(const uint16_t *w, int full) {
    int apart = w[KEXBARDI_DEADBAND] + (int)any(3) - 1;
    if (once_in(4)) apart = (int)((int64_t)apart * full / (int64_t)output_scale(w[KEXBARDI_MODE_2]));
    return w[KEXBARDI_SETPOINT] < apart || any(2) ? w[KEXBARDI_SETPOINT] + apart : w[KEXBARDI_SETPOINT] - apart;
}

/* The next raw PV: mostly on its way to the setpoint, else any; with the root on now and then one whose root lies next to
 * r + 1/2; with the deadband on one that lies at it; rarely above full scale. Where a transfer waits, mostly one for it. */
static unsigned raw_pv(const uint16_t *w, const struct former *former) {
    int full = (int)full_scale(w[1]), raw = w[3] + (w[2] - w[3]) / 4 + (int)any(41) - 20;
    if (former->major && is_transfer(w, former->record) && any(8))
        return raw_for_transfer(w, ours.words + KEXBARDI_ADDRESS(former->major, 0), full);
    if (once_in(100)) return any(2) ? any(65536) : (unsigned)full + any(2);
    if (w[0] & KEXBARDI_M1_ROOT && once_in(10)) return raw_near_half((unsigned)full);
    if (once_in(6)) return any((unsigned)full + 1);
    if (once_in(6)) raw = w[2] + (int)any(61) - 30;
    if (w[0] & KEXBARDI_M1_DEADBAND && once_in(6)) raw = raw_at_deadband(w, full);
    return (unsigned)(raw < 0 ? 0 : raw > full ? full : raw);
}

/* An accepted sample, the words behind it. */
static void count_accepted(unsigned loop, const struct former *former, const uint16_t *w, uint64_t raw) {
    const int64_t *record = ours.records + KEXBARDI_FIELDS * (loop - 1);
    accepted++;
    count_features(former->words[0], w, record, ours.line[KEXBARDI_LINE_SETPOINT], ours.line[KEXBARDI_LINE_PV], raw);
    count_profile_features(former, w);
    count_cascade_features(loop, former, w);
    count_format_features(former, w, record, last_mode_2s[loop - 1]);
    last_mode_2s[loop - 1] = w[KEXBARDI_MODE_2];
}

/* Answers the refusal. */
static uint8_t sample_with(uint64_t loop, uint64_t raw) {
    unsigned known = (unsigned)((loop - 1) % KEXBARDI_LOOPS) + 1, wrong = wrong_with(known, raw);
    const uint16_t *w = ours.words + KEXBARDI_ADDRESS(known, 0);
    struct former former;
    take_former(&former, known);
    size_t words = length_of(KEXBARDI_WORDS), records = length_of(KEXBARDI_NUMBERS);
    uint8_t a = kexbardi_sample(ours.words, words, ours.records, records, loop, raw, ours.line);
    compare("sample", a, plain_sample(plain.words, words, plain.records, records, loop, raw, plain.line));
    wide_refusals[a] += loop > 255 || raw > 65535;
    if (a == 4 || a == 5) return a;
    count_wrongs("sample", a, wrong, &of_samples);
    if (a == 0) count_accepted(known, &former, w, raw);
    else reached[MARK_STAYS] += mark_of(known) == 1, count_scale_refusal(w, wrong, raw);
    if (a == 11) count_transfer_refusal(known, &former, raw);
    return a;
}

static uint8_t sample(unsigned number) {
    uint64_t loop = widened(number, 8);
    unsigned known = (unsigned)((loop - 1) % KEXBARDI_LOOPS) + 1;
    struct former former;
    take_former(&former, known);
    return sample_with(loop, widened(raw_pv(ours.words + KEXBARDI_ADDRESS(known, 0), &former), 16));
}

/* A forecast that was accepted: from what state. */
static void count_forecast(const uint16_t *w, const int64_t *record) {
    reached[ours.samples ? SOME : NONE]++;
    reached[FORECAST_TRANSFER] += is_transfer(w, record);
    if (ours.samples == 0) return;
    reached[FAR] += ours.samples > 1000000;
    reached[WHILE_HELD] += record[KEXBARDI_FIELD_HOLD] == 1;
    reached[WITH_COMMAND] += (w[KEXBARDI_PROFILE_FLAGS] & 15) != 0;
    reached[IN_CASCADE] += record[KEXBARDI_FIELD_MODE] == KEXBARDI_CASCADE && !(w[0] & KEXBARDI_M1_REQUESTS);
    reached[ABOVE_FULL] += w[KEXBARDI_SETPOINT] > full_scale(w[KEXBARDI_MODE_2]);
}

static void forecast(unsigned number) {
    uint64_t loop = widened(number, 8);
    int64_t before = any64();
    size_t words = length_of(KEXBARDI_WORDS), records = length_of(KEXBARDI_NUMBERS);
    ours.samples = plain.samples = (uint64_t)before;
    uint8_t a = kexbardi_forecast(ours.words, words, ours.records, records, loop, &ours.samples);
    compare("forecast", a, plain_forecast(plain.words, words, plain.records, records, loop, &plain.samples));
    wide_refusals[a] += loop > 255;
    forecast_refusals[a]++;
    if (ours.samples != plain.samples) differ("forecast", "counts");
    if (a != 0 && ours.samples != (uint64_t)before) differ("forecast", "counts before and behind a refusal");
    if (a == 4 || a == 5) return;
    const uint16_t *w = ours.words + KEXBARDI_ADDRESS(loop, 0);
    count_wrongs("forecast", a, wrong_with((unsigned)loop, 0), &of_forecasts);
    if (a == 0) count_forecast(w, ours.records + KEXBARDI_FIELDS * (loop - 1));
    if (a == 11) reached[major_of((unsigned)loop, w) ? FORECAST_LIMIT : FORECAST_POINTER]++;
}

static void record(unsigned number) {
    uint64_t loop = widened(number, 8);
    size_t records = length_of(KEXBARDI_NUMBERS);
    uint8_t a = kexbardi_record(ours.records, records, loop, ours.fields);
    compare("record", a, plain_record(plain.records, records, loop, plain.fields));
    wide_refusals[a] += loop > 255;
    if (memcmp(ours.fields, plain.fields, sizeof ours.fields) != 0) differ("record", "fields");
}

/* Automatic, and then Cascade asked for, mostly with Bumpless I */
static void file_transfer(unsigned loop, unsigned full) {
    unsigned mode_1 = KEXBARDI_ADDRESS(loop, KEXBARDI_MODE_1), others = any(2) * KEXBARDI_M1_ROOT | once_in(4) * KEXBARDI_M1_BUMPLESS_II;
    file_store(mode_1, KEXBARDI_M1_AUTOMATIC | others), file_sample(loop, any(full + 1));
    file_store(mode_1, KEXBARDI_M1_CASCADE | others), file_sample(loop, any(full + 1));
}

/* A setting that is refused and a sample; the setting mended and another, now and then with the highest raw PV. */
static void file_fault(unsigned loop) {
    static const uint16_t faults[][3] = {/* offset, wrong, right */
        {KEXBARDI_GAIN, 0x000A, 0x0010}, {KEXBARDI_MODE_1, 0x0202, 0x0002}, {KEXBARDI_PERIOD, 0x0004, 0x0005}, {KEXBARDI_RESET, 0, 1},
        {KEXBARDI_OUTPUT_LOW, 65535, 0}, {KEXBARDI_SETPOINT, 65535, 0}, {KEXBARDI_POINTER, 1024, 600}};
    const uint16_t *fault = faults[any(sizeof faults / sizeof *faults)];
    file_store(KEXBARDI_ADDRESS(loop, fault[0]), fault[1]), file_sample(loop, any(4096));
    file_store(KEXBARDI_ADDRESS(loop, fault[0]), fault[2]), file_sample(loop, once_in(4) ? 65535 : any(4096));
}

/* samples, changed settings and odd records; now and then damaged or cut */
static void fill_file(unsigned loop, unsigned full) {
    for (unsigned left = any(40); left > 0; left--) {
        unsigned length = any(10);
        if (once_in(10)) file_transfer(loop, full);
        else if (once_in(10)) file_fault(loop);
        else if (any(6)) file_sample(once_in(20) ? any(256) : once_in(3) ? 1 + any(16) : loop, any(full + 1));
        else if (any(4)) change(file_store, loop);
        else for (pair(length); length > 0; length--) byte(once_in(3) ? 1 + any(2) : any(2) * any(17));
    }
    if (once_in(4) && size > 0)
        for (unsigned n = any(8); n > 0; n--) file[any((unsigned)size)] = (uint8_t)any(256);
    if (once_in(4)) size = any((unsigned)size + 1);
}

/* whether a loop has a mark now, and had none in these records */
static int is_marked(const int64_t *before) {
    for (unsigned n = KEXBARDI_FIELD_MARK; n < KEXBARDI_NUMBERS; n += KEXBARDI_FIELDS)
        if (before[n] == 0 && ours.records[n] == 1) return 1;
    return 0;
}

static void forget_formats(void) {
    for (unsigned n = 0; n < KEXBARDI_LOOPS; n++) last_mode_2s[n] = NO_FORMAT;
}

static void run(unsigned loop) {
    int64_t before[KEXBARDI_NUMBERS];
    size_t words = length_of(KEXBARDI_WORDS), records = length_of(KEXBARDI_NUMBERS), room = once_in(4) ? any(20) : ANSWERS;
    size = 0;
    fill_file(loop, full_scale(ours.words[KEXBARDI_ADDRESS(loop, KEXBARDI_MODE_2)]));
    memcpy(before, ours.records, sizeof before);
    uint8_t a = kexbardi_run(file, size, ours.words, words, ours.records, records, ours.answers, room, &ours.count, &ours.refused);
    compare("run", a, plain_run(file, size, plain.words, words, plain.records, records, plain.answers, room, &plain.count, &plain.refused));
    if (ours.count != plain.count || ours.refused != plain.refused) differ("run", "counts");
    if (memcmp(ours.answers, plain.answers, sizeof ours.answers) != 0) differ("run", "answers to records");
    for (size_t n = 0; a == 0 && n < room && n < ours.count; n++)
        if (ours.answers[n] > 0 && ours.answers[n] <= HIGHEST) refusals[ours.answers[n]]++, file_refusals[ours.answers[n]]++;
    reached[BY_FILE] += is_marked(before);
    forget_formats();
}

/* how many lines of the text say that a record was refused with a number */
static unsigned long lines_with(unsigned number) {
    char words[32];
    size_t length = (size_t)sprintf(words, " refused %u\n", number);
    unsigned long lines = 0;
    for (size_t n = 0; n + length <= ours.length; n++) lines += memcmp(ours.text + n, words, length) == 0;
    return lines;
}

static void print(void) {
    static const uint8_t too_long[65537] = {0};
    int is_long = once_in(20);
    size = 0;
    settle(file_store, 3);
    unsigned full = settle(file_store, 2);
    if (any(3)) file_store(KEXBARDI_ADDRESS(2, KEXBARDI_POINTER), output_of(3));
    fill_file(2, full);
    const uint8_t *from = is_long ? too_long : file;
    size_t bytes = is_long ? sizeof too_long : size, room = is_long ? 8 + any(3) : KEXBARDI_PRINT_ROOM(size) - once_in(10);
    uint8_t a = kexbardi_print(from, bytes, ours.text, room, &ours.length);
    compare("print", a, plain_print(from, bytes, plain.text, room, &plain.length));
    if (ours.length != plain.length || memcmp(ours.text, plain.text, sizeof ours.text) != 0) differ("print", "texts");
    for (unsigned n = 1; a == 0 && n <= HIGHEST; n++) printed[n] += lines_with(n);
}

/* The length of the words is wrong more often than in other calls, of which there are more. */
static void setup_of(size_t room) {
    size_t words = any(20) ? length_of(KEXBARDI_WORDS) : KEXBARDI_WORDS - 1 + 2 * any(2);
    uint8_t a = kexbardi_setup(ours.words, words, ours.text, room, &ours.length);
    compare("setup", a, plain_setup(plain.words, words, plain.text, room, &plain.length));
    setup_refusals[a]++;
    if (ours.length != plain.length || memcmp(ours.text, plain.text, sizeof ours.text) != 0) differ("setup", "files");
}

/* The setup of the desk as it stands: in room that is enough, then in as much as that call has told, or a byte less. */
static void setup(void) {
    setup_of(any(4) ? KEXBARDI_SETUP_ROOM : any(KEXBARDI_SETUP_ROOM));
    if (ours.length > 0 && ours.length <= KEXBARDI_SETUP_ROOM) setup_of(ours.length - once_in(2));
}

static void reset(void) {
    size_t words = length_of(KEXBARDI_WORDS), records = length_of(KEXBARDI_NUMBERS);
    uint8_t a = kexbardi_reset(ours.words, words, ours.records, records);
    compare("reset", a, plain_reset(plain.words, words, plain.records, records));
    forget_formats();
}

/* Once in a while from a setpoint that only Cascade allows. */
static void any_forecast(unsigned loop) {
    unsigned mode_1 = KEXBARDI_ADDRESS(loop, KEXBARDI_MODE_1);
    if (once_in(4)) {
        write_word(KEXBARDI_ADDRESS(loop, KEXBARDI_SETPOINT), any(65536));
        write_word(mode_1, (ours.words[mode_1] & ~(unsigned)KEXBARDI_M1_REQUESTS) | KEXBARDI_M1_CASCADE);
    }
    forecast(once_in(20) ? any(256) : loop);
}

/* A profile in one go: a loop set up with a good table, started in Manual or Automatic, and sampled until it completes or for long
 * enough, with a hand on it now and then. */
static void run_profile(unsigned loop) {
    unsigned base = KEXBARDI_ADDRESS(loop, 0), table = KEXBARDI_TABLE_FIRST + KEXBARDI_TABLE_WORDS * (loop - 1);
    unsigned full = settle(write_word, loop), request = any(3) ? KEXBARDI_M1_MANUAL : KEXBARDI_M1_AUTOMATIC;
    write_word(base + KEXBARDI_MODE_1, (mode_1() & ~(unsigned)KEXBARDI_M1_REQUESTS) | KEXBARDI_M1_PROFILE | request);
    write_word(base + KEXBARDI_PROFILE_TABLE, table);
    write_word(base + KEXBARDI_PROFILE_FLAGS, KEXBARDI_P_START);
    unsigned period = KEXBARDI_HUNDREDTHS(ours.words[base + KEXBARDI_PERIOD]);
    fill_table(write_word, table, full, period, ours.words[base + KEXBARDI_SETPOINT]);
    for (unsigned left = 30 + any(50); left > 0; left--) {
        if (once_in(16)) change_profile(write_word, loop);
        if (once_in(25)) write_word(base + KEXBARDI_MODE_1, ours.words[base + KEXBARDI_MODE_1] | 1u << any(3));
        if (sample(loop) == 5) write_record(loop);
        if (once_in(2)) forecast(loop);
        if (ours.words[base + KEXBARDI_PROFILE_FLAGS] & KEXBARDI_P_COMPLETE && any(4)) break;
    }
}

/* After a transfer that was refused: another pointer, wider limits of the major loop, Bumpless II, or Cascade no longer asked for. */
static void mend_transfer(unsigned loop) {
    unsigned base = KEXBARDI_ADDRESS(loop, 0), mode_1 = ours.words[base + KEXBARDI_MODE_1], major = major_of(loop, ours.words + base);
    if (once_in(8)) write_word(base + KEXBARDI_MODE_1, mode_1 & ~(unsigned)KEXBARDI_M1_REQUESTS);
    else if (once_in(8)) write_word(base + KEXBARDI_MODE_1, (mode_1 & ~(unsigned)KEXBARDI_M1_VELOCITY) | KEXBARDI_M1_BUMPLESS_II);
    else if (major == 0) write_word(base + KEXBARDI_POINTER, other_output(loop));
    else {
        write_word(KEXBARDI_ADDRESS(major, KEXBARDI_OUTPUT_LOW), any(100));
        write_word(KEXBARDI_ADDRESS(major, KEXBARDI_OUTPUT_HIGH), output_scale(ours.words[KEXBARDI_ADDRESS(major, KEXBARDI_MODE_2)]));
    }
}

/* After a refusal a loop is soon set up again, so that most samples are accepted. */
static void mend(unsigned loop, uint8_t answer) {
    if (answer == 0 || any(3)) return;
    if (answer == 5) write_record(loop);
    if (answer == 7 || answer == 8 || answer >= 12) settle(once_in(2) ? store : write_word, loop), write_word(600, any(4096));
    if (answer == 11) mend_transfer(loop);
}

static void ask_for(unsigned loop, unsigned request) {
    unsigned mode_1 = KEXBARDI_ADDRESS(loop, KEXBARDI_MODE_1);
    write_word(mode_1, (ours.words[mode_1] & ~(unsigned)KEXBARDI_M1_REQUESTS) | request);
}

/* A hand on a loop of a cascade: form or Bumpless, output, mark, pointer, or a mode asked for. */
static void change_cascade(unsigned loop) {
    static const int64_t marks[] = {0, 1, 1, 1, 2, -1};
    unsigned base = KEXBARDI_ADDRESS(loop, 0), mode_1 = ours.words[base + KEXBARDI_MODE_1];
    switch (any(8)) {
    case 0: write_word(base + KEXBARDI_MODE_1, (mode_1 & ~(unsigned)KEXBARDI_M1_BUMPLESS_II) ^ KEXBARDI_M1_VELOCITY); break;
    case 1: write_word(base + KEXBARDI_MODE_1, (mode_1 & ~(unsigned)KEXBARDI_M1_VELOCITY) ^ KEXBARDI_M1_BUMPLESS_II); break;
    case 2: write_word(base + KEXBARDI_OUTPUT, any(2) ? any(4096) : any(65536)); break;
    case 3: write_number(KEXBARDI_FIELDS * (loop - 1) + KEXBARDI_FIELD_MARK, marks[any(6)]); break;
    case 4: write_word(base + KEXBARDI_POINTER, pointer(loop)); break;
    default: ask_for(loop, 1u << any(3)); break;
    }
}

/* Automatic, and then Cascade asked for; between the two now and then a hand on either loop, or a forecast. */
static void try_transfer(unsigned loop) {
    ask_for(loop, KEXBARDI_M1_AUTOMATIC);
    mend(loop, sample(loop));
    unsigned major = major_of(loop, ours.words + KEXBARDI_ADDRESS(loop, 0));
    if (major && once_in(2)) change_cascade(major);
    if (once_in(4)) change_cascade(loop);
    ask_for(loop, KEXBARDI_M1_CASCADE);
    if (once_in(4)) forecast(loop);
    mend(loop, sample(loop));
}

/* Three loops in one go, a chain or two minor loops of one major. Most have an input of 16 bits, so that they can follow any output;
 * in the end they are set up again. */
static void run_cascade(unsigned first) {
    unsigned loops[3], apart = 1 + any(7), chain = any(2);
    for (unsigned n = 0; n < 3; n++) {
        loops[n] = 1 + (first - 1 + n * apart) % KEXBARDI_LOOPS;
        settle(write_word, loops[n]);
        unsigned mode_2 = KEXBARDI_ADDRESS(loops[n], KEXBARDI_MODE_2);
        if (any(4)) write_word(mode_2, ours.words[mode_2] | KEXBARDI_M2_SIXTEEN_BITS);
    }
    write_word(KEXBARDI_ADDRESS(loops[0], KEXBARDI_POINTER), output_of(loops[1]));
    write_word(KEXBARDI_ADDRESS(loops[chain ? 1 : 2], KEXBARDI_POINTER), output_of(loops[chain ? 2 : 1]));
    for (unsigned left = 10 + any(30); left > 0; left--) {
        unsigned loop = loops[any(3)];
        if (once_in(4)) change_cascade(loop);
        if (once_in(4)) try_transfer(loop);
        else mend(loop, sample(loop));
    }
    for (unsigned n = 0; n < 3; n++) settle(write_word, loops[n]);
}

/* A loop in one go that works on while its formats change. */
static void run_formats(unsigned loop) {
    unsigned base = KEXBARDI_ADDRESS(loop, 0);
    settle(write_word, loop);
    ask_for(loop, KEXBARDI_M1_AUTOMATIC);
    for (unsigned left = 10 + any(20); left > 0; left--) {
        if (once_in(3)) change_format(write_word, loop);
        if (once_in(4)) write_word(base + KEXBARDI_SETPOINT, any(full_scale(ours.words[base + KEXBARDI_MODE_2]) + 1));
        mend(loop, sample(loop));
    }
}

static void put_on(unsigned address, unsigned bits) { write_word(address, ours.words[address] | bits); }

/* what is below or above 1 to 200 */
static unsigned wrong_hysteresis(void) { return any(2) ? 201 + any(any(2) ? 2 : 65335) : 0; }

/* a bit that has no use, or bit 11, or 12 or 13 without bit 10 */
static void spoil_mode_2(unsigned address, enum cause cause) {
    static const unsigned unused[] = {0, 2, 3, 5, 6, 7, 14, 15};
    unsigned own = KEXBARDI_M2_OUTPUT_FORMAT;
    if (cause == OUTPUT_BITS) write_word(address, (ours.words[address] & ~own) | 1u << (12 + any(2)));
    else put_on(address, 1u << (cause == BIT_11 ? 11 : unused[any(8)]));
}

/* N7, N8 */
static void spoil_bits(unsigned loop, enum cause cause) {
    unsigned base = KEXBARDI_ADDRESS(loop, 0), table = ours.words[base + KEXBARDI_PROFILE_TABLE], digit = 10u << 4 * any(4);
    unsigned full = full_scale(ours.words[base + KEXBARDI_MODE_2]);
    if (cause == TABLE_DIGIT || cause == TABLE_END) put_on(base + KEXBARDI_MODE_1, KEXBARDI_M1_PROFILE);
    switch (cause) {
    case DIGIT: write_word(base + KEXBARDI_PERIOD + any(4), digit); break;
    case TABLE_DIGIT: if (good_address(table)) write_word(table + 4 * any(8) + 1 + any(2), digit); break;
    case TABLE_END: if (good_address(table)) write_word(table + 4 * any(8), full + 1); break;
    case VELOCITY_WITH_II: put_on(base + KEXBARDI_MODE_1, KEXBARDI_M1_VELOCITY | KEXBARDI_M1_BUMPLESS_II); break;
    case BIT_9: put_on(base + KEXBARDI_MODE_1, 1u << 9); break;
    case PV_HYSTERESIS: put_on(base + KEXBARDI_MODE_1, KEXBARDI_M1_PV_ALARMS); break;
    case DEVIATION_HYSTERESIS: put_on(base + KEXBARDI_MODE_1, KEXBARDI_M1_DEVIATION_ALARMS); break;
    default: spoil_mode_2(base + KEXBARDI_MODE_2, cause); break;
    }
    if (cause == PV_HYSTERESIS || cause == DEVIATION_HYSTERESIS) write_word(base + KEXBARDI_HYSTERESIS, wrong_hysteresis());
}

/* N12, N13, N14, N11, at the edge mostly */
static void spoil_numbers(unsigned loop, enum cause cause) {
    unsigned base = KEXBARDI_ADDRESS(loop, 0), formats = ours.words[base + KEXBARDI_MODE_2], full = full_scale(formats);
    unsigned high = ours.words[base + KEXBARDI_OUTPUT_HIGH], followed = ours.words[base + KEXBARDI_POINTER];
    unsigned major = major_of(loop, ours.words + base);
    if (cause == SETPOINT_ABOVE) ask_for(loop, 1u << any(2));
    if (cause == POINTER_ABOVE || cause == FOLLOWED_ABOVE) ask_for(loop, KEXBARDI_M1_CASCADE);
    switch (cause) {
    case PERIOD: write_word(base + KEXBARDI_PERIOD, any(5)); break;
    case RESET_TIME: write_word(base + KEXBARDI_RESET, 0); break;
    case LOW_ABOVE_HIGH: write_word(base + KEXBARDI_OUTPUT_LOW, high + 1); break;
    case HIGH_ABOVE_SCALE: write_word(base + KEXBARDI_OUTPUT_HIGH, output_scale(formats) + 1); break;
    case SETPOINT_ABOVE: write_word(base + KEXBARDI_SETPOINT, full + 1); break;
    case POINTER_ABOVE: write_word(base + KEXBARDI_POINTER, 1024 + any(any(2) ? 2 : 64512)); break;
    case FOLLOWED_ABOVE: if (followed < KEXBARDI_WORDS) write_word(followed, full + 1); break;
    case NO_MAJOR: write_word(base + KEXBARDI_POINTER, any(2) ? 600 : output_of(loop)); break;
    case OUTSIDE_MAJOR: if (major) write_word(KEXBARDI_ADDRESS(major, KEXBARDI_OUTPUT_LOW), 65535); break;
    default: break;
    }
}

/* A sample and a forecast of a loop with one thing wrong, or with two or three; half of the time where a transfer waits. */
static void try_faults(unsigned loop) {
    unsigned base = KEXBARDI_ADDRESS(loop, 0), full = settle(write_word, loop), above = 0;
    write_word(600, any(full + 1));
    write_number(KEXBARDI_FIELDS * (loop - 1) + KEXBARDI_FIELD_MODE, any(3));
    if (once_in(2)) {
        write_number(KEXBARDI_FIELDS * (loop - 1) + KEXBARDI_FIELD_MODE, KEXBARDI_AUTOMATIC);
        write_word(base + KEXBARDI_MODE_1, ours.words[base + KEXBARDI_MODE_1] & ~(unsigned)KEXBARDI_M1_BUMPLESS_II);
        ask_for(loop, KEXBARDI_M1_CASCADE);
    }
    for (unsigned left = 1 + any(3); left > 0; left--) {
        enum cause cause = (enum cause)any(CAUSES);
        above |= cause == RAW_ABOVE;
        if (cause <= TABLE_END) spoil_bits(loop, cause);
        else spoil_numbers(loop, cause);
    }
    if (once_in(2)) forecast(loop);
    full = full_scale(ours.words[base + KEXBARDI_MODE_2]);
    if (sample_with(loop, above ? full + 1 + any(2) * any(65536) : any(full + 1)) == 5) write_record(loop);
}

static void run_faults(unsigned loop) {
    for (unsigned left = 5 + any(20); left > 0; left--) try_faults(loop);
    settle(write_word, loop);
}

/* A sample, now and then with a command. */
static void sample_and_mend(unsigned loop) {
    if (once_in(16)) write_word(KEXBARDI_ADDRESS(loop, KEXBARDI_PROFILE_FLAGS), command(loop));
    mend(loop, sample(loop));
}

static void turn(void) {
    unsigned loop = 1 + any(16), kind = any(10000);
    if (kind < 8130) sample_and_mend(loop);
    else if (kind < 8170) run_faults(loop);
    else if (kind < 8220) run_profile(loop);
    else if (kind < 8270) run_cascade(loop);
    else if (kind < 8300) run_formats(loop);
    else if (kind < 8500) any_forecast(loop);
    else if (kind < 9000) change(store, loop);
    else if (kind < 9200) record(once_in(10) ? any(256) : loop);
    else if (kind < 9400) run(loop);
    else if (kind < 9450) sample(once_in(2) ? 0 : 17 + any(239));
    else if (kind < 9500) settle(store, loop);
    else if (kind < 9800) write_word(KEXBARDI_ADDRESS(loop, any(10) ? 2 + any(5) : any(32)), any(4096));
    else if (kind < 9900) write_record(loop);
    else if (kind < 9950) spoil_record(loop);
    else if (kind < 9980) print();
    else if (kind < 9998) setup();
    else reset();
}

/* Each cause alone, and each two numbers at once, but for those of one number; answers how many never happened. */
static int report_wrongs(const char *call, const struct wrongs *wrongs, uint8_t without) {
    int missing = 0;
    for (unsigned n = 0; n < CAUSES; n++) {
        if (causes[n].number == without) continue;
        printf("%srefused with %u for %s alone: %lu\n", call, causes[n].number, causes[n].name, wrongs->alone[n]);
        missing += wrongs->alone[n] == 0;
    }
    for (unsigned n = 0; n < ORDER; n++)
        for (unsigned m = n + 1; m < ORDER; m++) {
            if (order[n] == without || order[m] == without) continue;
            printf("%srefused with %u before %u: %lu\n", call, order[n], order[m], wrongs->before[n][m]);
            missing += wrongs->before[n][m] == 0;
        }
    return missing;
}

/* The same numbers as answers to samples in a file, and in its lines. */
static int report_files(void) {
    int missing = 0;
    for (unsigned n = 0; n < ORDER; n++) {
        printf("refused with %u in a file: %lu, printed: %lu\n", order[n], file_refusals[order[n]], printed[order[n]]);
        missing += (file_refusals[order[n]] == 0) + (printed[order[n]] == 0);
    }
    return missing;
}

static int report(void) {
    static const int wide[] = {4, 6, 9}, of_forecast[] = {4, 5, 7, 8, 12, 13, 14, 11}, of_setup[] = {0, 5, 10};
    int missing = 0;
    printf("%lu calls, %lu samples accepted\n", calls, accepted);
    for (int n = 1; n <= HIGHEST; n++) printf("refused with %d: %lu\n", n, refusals[n]), missing += refusals[n] == 0;
    for (int n = 0; n < 3; n++)
        printf("refused with %d by a wide number: %lu\n", wide[n], wide_refusals[wide[n]]), missing += wide_refusals[wide[n]] == 0;
    for (int n = 0; n < FEATURES; n++) printf("accepted, %s: %lu\n", feature_names[n], features[n]), missing += features[n] == 0;
    for (int n = 1; n <= KEXBARDI_SEGMENTS; n++) printf("accepted, moved in segment %d: %lu\n", n, segments[n]), missing += segments[n] == 0;
    for (int in = 0; in < FORMATS; in++)
        for (int out = 0; out < FORMATS; out++) {
            printf("accepted, %u bits in and %u out: %lu\n", widths[in], widths[out], pairs[in][out]);
            missing += pairs[in][out] == 0;
        }
    for (int n = 0; n < REACHED; n++) printf("%s: %lu\n", reached_names[n], reached[n]), missing += reached[n] == 0;
    for (int n = 0; n < 8; n++) {
        printf("forecast refused with %d: %lu\n", of_forecast[n], forecast_refusals[of_forecast[n]]);
        missing += forecast_refusals[of_forecast[n]] == 0;
    }
    missing += report_wrongs("", &of_samples, 0) + report_wrongs("forecast ", &of_forecasts, 9) + report_files();
    for (int n = 0; n < 3; n++)
        printf("setup answered with %d: %lu\n", of_setup[n], setup_refusals[of_setup[n]]), missing += setup_refusals[of_setup[n]] == 0;
    if (missing) printf("%d of these never happened\n", missing);
    else printf("%lu calls: equal\n", calls);
    return missing != 0;
}

int main(int count, char **args) {
    if (count != 3) {
        fprintf(stderr, "usage: differential CALLS SEED\n");
        return 2;
    }
    wanted = strtoul(args[1], NULL, 10);
    seed = 88172645463325252ull + 7919ull * strtoul(args[2], NULL, 10);
    for (int warm = 0; warm < 20; warm++) any(2);
    memset(&ours, 0xa5, sizeof ours);
    memcpy(&plain, &ours, sizeof plain);
    reset();
    for (unsigned loop = 1; loop <= KEXBARDI_LOOPS; loop++) settle(store, loop);
    while (calls < wanted) turn();
    return report();
}
