/* The engine in plain C, by the steps A1 to A13 and the profile's rules G1 to G12 of docs/MANUAL.md and apart from the Rattle
 * sources: one sample, a profile's forecast, stores, a drill file carried out and its lines, and words written as a drill file. It
 * keeps no state of its own. Nothing is proved of it. */
#include "plain_engine.h"

#include <string.h>

#define WORDS 1024
#define LOOPS 16
#define LOOP_WORDS 32
#define FIELDS 14
#define NUMBERS (LOOPS * FIELDS)
#define UNIT 262144
#define OUTPUT 5 /* the output's place in a loop's words (W2) */
#define TABLE_FIRST 512 /* the lowest and highest address of a profile's table (G2) */
#define TABLE_LAST 992
#define SEGMENTS 16
#define SEGMENT_WORDS 2
#define TABLE_WORDS (SEGMENTS * SEGMENT_WORDS)
#define PARTS 10000 /* parts of a count, which a setpoint's fraction counts (G7) */
#define LONGEST 65536
#define STORE_BYTES 8 /* a store's record in a file: length, kind, address, value (L2, L3) */

enum mode { MANUAL, AUTOMATIC, CASCADE };

/* a record's fourteen numbers (H1) */
struct carried {
    int64_t mode, bias, output, last, prior, error, velocity, sampled, segment, hold, complete, fraction, time, mark;
};

/* what judging has found for the steps: period, gain, reset and rate in hundredths; the full scales of input and output (M3); the
 * table is null where there is no profile (G4) */
struct reading {
    int tuning[4];
    unsigned in_full, out_full;
    enum mode mode;
    const uint16_t *table;
};

struct terms {
    int64_t p, i, d;
};

static int bit(unsigned word, int n) { return word >> n & 1; }

static int64_t clamp(int64_t x, int64_t low, int64_t high) { return x < low ? low : x > high ? high : x; }

static int64_t distance(int64_t a, int64_t b) { return a < b ? b - a : a - b; }

/* A7: to the nearest, a half away from zero */
static int64_t nearest(int64_t x, int64_t by) { return x < 0 ? -((-2 * x + by) / (2 * by)) : (2 * x + by) / (2 * by); }

/* A10: units in the nearest count, a half up; units are never below 0 here */
static uint16_t counts(int64_t units) { return (uint16_t)((units + UNIT / 2) / UNIT); }

/* W3: four decimal digits */
static int bcd(unsigned word) { return (int)(1000 * (word >> 12) + 100 * (word >> 8 & 15) + 10 * (word >> 4 & 15) + (word & 15)); }

/* N7: not 0 where a digit is above 9; its bit of 8 is on then, and that of 4 or of 2 */
static unsigned wrong_digits(unsigned word) { return word & (word << 1 | word << 2) & 0x8888; }

/* A1: the nearest whole number to the root of v, which is at most 65,535 x 65,535. r is the root rounded down; where v is above
 * r x r + r the root is above r + 1/2, and it is never on it. */
static uint32_t root(uint32_t v) {
    uint32_t r = 0;
    for (uint32_t step = 32768; step > 0; step /= 2) {
        uint32_t t = r + step;
        if (t * t <= v) r = t;
    }
    return v - r * r > r ? r + 1 : r;
}

/* M3 */
static unsigned full_scale(int fifteen, int sixteen) { return sixteen ? 65535 : fifteen ? 32767 : 4095; }

static unsigned input_scale(unsigned mode2) { return full_scale(bit(mode2, 1), bit(mode2, 9)); }

/* M2: bit 10, an output format of its own */
static int own_format(unsigned mode2) { return bit(mode2, 10); }

/* N8: bit 11 is never allowed, 12 and 13 are beside 10 */
static int bits_refused(unsigned mode2) { return mode2 & ~0x312u && (!own_format(mode2) || mode2 & ~0x3712u); }

/* M7, with an output format of its own: the nearest of v x G / F, a half up, all of it below 2^32. Only a last PV from another
 * format can be above F, and it counts as F does. */
static int64_t converted(int64_t v, uint32_t from, uint32_t to) { return v >= from ? to : ((uint32_t)v * to + from / 2) / from; }

static enum mode mode_of(unsigned mode1, enum mode former) {
    return bit(mode1, 0) ? MANUAL : bit(mode1, 1) ? AUTOMATIC : bit(mode1, 2) ? CASCADE : former;
}

static int out_of_range(const struct carried *c) {
    const int64_t most = (int64_t)1 << 52;
    return c->mode < MANUAL || c->mode > CASCADE || c->velocity < 0 || c->velocity > 1 || c->sampled < 0 || c->sampled > 1
        || c->bias < -most || c->bias > most || c->output < 0 || c->output > (int64_t)65535 * UNIT || c->last < 0 || c->last > 65535
        || c->prior < 0 || c->prior > 65535 || c->error < -65535 || c->error > 65535 || c->segment < 0 || c->segment > SEGMENTS
        || c->hold < 0 || c->hold > 1 || c->complete < 0 || c->complete > 1 || c->fraction < 0 || c->fraction >= PARTS
        || c->time < 0 || c->time > 6000000 || c->mark < 0 || c->mark > 1;
}

/* G2, G4 */
static const uint16_t *table_of(const uint16_t *words, const uint16_t *w) {
    return bit(w[0], 11) && w[28] >= TABLE_FIRST && w[28] <= TABLE_LAST ? words + w[28] : NULL;
}

/* What a table is refused with: 7 for a digit of a slope or a duration (N7), 8 for a ramp's end (N8), or 0. */
static uint8_t table_refusal(const uint16_t *table, unsigned full) {
    unsigned wrong = 0, above = 0;
    for (int n = 0; n < TABLE_WORDS; n += 2 * SEGMENT_WORDS) {
        above |= table[n] > full;
        wrong |= wrong_digits(table[n + 1]) | wrong_digits(table[n + 2]);
    }
    return wrong ? 7 : above ? 8 : 0;
}

/* N8, but for a table's ends: bits of either mode, and a hysteresis that alarms would go by */
static int setting_refused(const uint16_t *w) {
    unsigned m = w[0];
    if ((bit(m, 5) && bit(m, 3)) || bit(m, 9) || bits_refused(w[1])) return 1;
    return (bit(m, 12) || bit(m, 13)) && (w[18] < 1 || w[18] > 200);
}

/* N12: hundredths of a second, and of a second or a minute */
static int times_refused(const struct reading *r) { return r->tuning[0] < 5 || r->tuning[2] == 0; }

/* N13, in counts of the output */
static int limits_refused(const uint16_t *w, const struct reading *r) { return w[24] > w[25] || w[25] > r->out_full; }

/* N14, in counts of the input */
static int setpoint_refused(const uint16_t *words, const uint16_t *w, const struct reading *r) {
    if (r->mode != CASCADE) return w[2] > r->in_full;
    return w[26] > 1023 || words[w[26]] > r->in_full;
}

/* N5 of the record, N7, N8, N12, N13, N14, N9: the first that holds, or 0 and the reading */
static inline uint8_t judge(const uint16_t *words, const uint16_t *w, const struct carried *c, uint64_t raw, struct reading *r) {
    if (out_of_range(c)) return 5;
    for (int n = 0; n < 4; n++) {
        if (wrong_digits(w[7 + n])) return 7;
        r->tuning[n] = bcd(w[7 + n]);
    }
    r->in_full = input_scale(w[1]);
    r->out_full = own_format(w[1]) ? full_scale(bit(w[1], 12), bit(w[1], 13)) : r->in_full;
    r->mode = mode_of(w[0], (enum mode)c->mode);
    r->table = table_of(words, w);
    uint8_t refusal = r->table ? table_refusal(r->table, r->in_full) : 0;
    if (refusal) return refusal;
    if (setting_refused(w)) return 8;
    if (times_refused(r)) return 12;
    if (limits_refused(w, r)) return 13;
    if (setpoint_refused(words, w, r)) return 14;
    return raw > r->in_full ? 9 : 0;
}

/* A13 */
static int is_transfer(const uint16_t *w, const struct carried *c, enum mode mode) {
    return mode == CASCADE && c->mode == AUTOMATIC && !bit(w[0], 3);
}

/* N11, of a transfer: the pointer is no other loop's output word, or p is outside that loop's output limits */
static int transfer_refused(const uint16_t *words, const uint16_t *w, int p) {
    unsigned at = w[26];
    if (at >= LOOPS * LOOP_WORDS || at % LOOP_WORDS != OUTPUT || words + at == w + OUTPUT) return 1;
    const uint16_t *major = words + (at - OUTPUT);
    return p < major[24] || p > major[25];
}

/* whether a profile runs, held or not */
static int runs(const struct carried *c, const uint16_t *table) { return table && c->segment > 0; }

/* G9 */
static void complete(struct carried *c) {
    c->segment = c->hold = c->time = 0;
    c->complete = 1;
}

/* G9: to the next segment; the end of the sixteenth is the profile's */
static void hand_over(struct carried *c) {
    if (c->segment == SEGMENTS) {
        complete(c);
    } else {
        c->segment++;
        c->time = 0;
    }
}

/* G5: the lowest of bits 0 to 3, one of which is on; all but Start are for a profile that runs */
static void obey(struct carried *c, unsigned commands) {
    if (bit(commands, 0)) {
        c->segment = 1;
        c->hold = c->complete = c->fraction = c->time = 0;
    } else if (c->segment > 0) {
        if (bit(commands, 1)) c->hold = 1;
        else if (bit(commands, 2)) c->hold = 0;
        else hand_over(c);
    }
}

/* where segment n of a table begins (G1) */
static const uint16_t *segment(const uint16_t *table, int64_t n) { return table + SEGMENT_WORDS * (n - 1); }

static int is_ramp(int64_t n) { return n % 2; }

/* G7: setpoint and fraction, in parts, go toward the end by a step; the setpoint that this leaves */
static int ramp(struct carried *c, const uint16_t *words, int period, int s) {
    uint32_t at = (uint32_t)s * PARTS + (uint32_t)c->fraction, end = (uint32_t)words[0] * PARTS;
    uint32_t step = (uint32_t)(bcd(words[1]) * period);
    if (step == 0) {
        complete(c);
        return s;
    }
    if (at < end) at = end - at > step ? at + step : end;
    else at = at - end > step ? at - step : end;
    c->fraction = at % PARTS;
    if (at == end) hand_over(c);
    return (int)(at / PARTS);
}

/* tenths of a minute in hundredths of a second */
static int64_t soak_time(unsigned duration) { return 600 * (int64_t)bcd(duration); }

/* G8 */
static void soak(struct carried *c, const uint16_t *words, int period) {
    c->time += period;
    if (c->time >= soak_time(words[0])) hand_over(c);
}

/* G10 */
static unsigned flags(const struct carried *c, const uint16_t *table, int s, int p) {
    int deviates = 0;
    if (c->segment > 0 && !is_ramp(c->segment)) {
        unsigned most = segment(table, c->segment)[1];
        deviates = most != 0 && distance(s, p) > most;
    }
    return (unsigned)(c->segment << 8 | c->hold << 6 | deviates << 5 | c->complete << 4);
}

/* G5 to G10, a table at hand, outside Cascade: the setpoint that the profile leaves */
static int profile(uint16_t *w, struct carried *c, const uint16_t *table, int period, int s, int p) {
    if (w[27] & 15) obey(c, w[27]);
    else if (c->segment > 0 && !c->hold) {
        const uint16_t *words = segment(table, c->segment);
        if (is_ramp(c->segment)) s = ramp(c, words, period, s);
        else soak(c, words, period);
    }
    w[27] = (uint16_t)flags(c, table, s, p);
    w[29] = 0;
    return s;
}

/* G4, outside Cascade */
static void no_profile(uint16_t *w, struct carried *c) {
    w[27] = 0;
    w[29] = !bit(w[0], 11) ? 0 : w[28] < TABLE_FIRST ? 1 : 2;
    c->segment = c->hold = c->complete = 0;
}

/* how many steps make up a way, and one where there is none left to go */
static uint64_t samples_of(int64_t way, int64_t step) { return way <= step ? 1 : (uint64_t)((way + step - 1) / step); }

/* G12: samples from a segment on, its setpoint in parts and its time; each segment's by a division */
static uint64_t remaining(const uint16_t *table, int period, int64_t n, int64_t at, int64_t time) {
    uint64_t samples = 0;
    for (; n <= SEGMENTS; n++) {
        const uint16_t *words = segment(table, n);
        if (is_ramp(n)) {
            int64_t end = (int64_t)words[0] * PARTS, step = (int64_t)bcd(words[1]) * period;
            if (step == 0) return samples + 1;
            samples += samples_of(distance(at, end), step);
            at = end;
        } else {
            samples += samples_of(soak_time(words[0]) - time, period);
        }
        time = 0;
    }
    return samples;
}

/* A7 */
static struct terms terms_of(const uint16_t *w, const int *tuning, int64_t ep, int64_t ei, int64_t change) {
    int64_t period = tuning[0], gain = tuning[1], reset = tuning[2], rate = tuning[3], c = gain ? gain : 100;
    struct terms t;
    t.p = nearest(gain * ep * UNIT, 100);
    t.i = reset == 9999 ? 0 : nearest(c * period * ei * UNIT, 100 * (bit(w[1], 4) ? 60 * reset : reset));
    t.d = nearest(c * rate * change * UNIT, 100 * period);
    if (bit(w[0], 4)) t.p = -t.p, t.i = -t.i, t.d = -t.d;
    return t;
}

static int above(int on, int x, int limit, int hysteresis) { return x > limit || (on && x > limit - hysteresis); }

static int below(int on, int x, int limit, int hysteresis) { return x < limit || (on && x < limit + hysteresis); }

static unsigned status(const uint16_t *w, const struct carried *c, enum mode mode, int s, int p, int out) {
    unsigned m = w[0], old = w[6], word = 1u << mode;
    int h = w[18], apart = (int)distance(s, p);
    if (bit(m, 12)) {
        word |= below(bit(old, 3), p, w[11], h) << 3 | below(bit(old, 4), p, w[12], h) << 4;
        word |= above(bit(old, 5), p, w[13], h) << 5 | above(bit(old, 6), p, w[14], h) << 6;
        if (!(w[11] < w[12] && w[12] < w[13] && w[13] < w[14])) word |= 1 << 10;
    }
    if (bit(m, 13)) {
        if (mode != MANUAL) word |= above(bit(old, 7), apart, w[15], h) << 7 | above(bit(old, 8), apart, w[16], h) << 8;
        if (!(w[15] < w[16] && h < w[15])) word |= 1 << 10;
    }
    if (bit(m, 14) && c->sampled && distance(p, c->last) > w[17]) word |= 1 << 9;
    if (mode != MANUAL && (out == w[24] || out == w[25]) && p != s) word |= 1 << 11;
    return word;
}

static uint8_t sample(uint16_t *words, struct carried *records, uint64_t loop, uint64_t raw, uint16_t line[4]) {
    if (loop < 1 || loop > LOOPS) return 4;
    struct carried *c = &records[loop - 1];
    uint16_t *w = words + LOOP_WORDS * (loop - 1);
    struct reading r;
    uint8_t refusal = judge(words, w, c, raw, &r);
    if (refusal) return refusal;

    unsigned measured = (unsigned)raw;
    enum mode mode = r.mode;
    int p = (int)(bit(w[0], 6) ? root(measured * r.in_full) : measured);
    if (is_transfer(w, c, mode)) {
        if (transfer_refused(words, w, p)) return 11;
        words[w[26]] = (uint16_t)p; /* so s is p */
        records[w[26] / LOOP_WORDS].mark = 1;
    }
    int s = mode == CASCADE ? words[w[26]] : w[2];
    int velocity = bit(w[0], 5);
    int change = c->mode == MANUAL || c->velocity != velocity;
    int entry = mode != MANUAL && (change || c->mark);
    int64_t low = (int64_t)w[24] * UNIT, high = (int64_t)w[25] * UNIT;
    uint16_t out = (uint16_t)clamp(w[OUTPUT], w[24], w[25]), bias_word = w[4];
    int64_t bias = c->bias, output = c->output;
    if (entry) {
        bias = output = (int64_t)out * UNIT;
        if (change && mode == AUTOMATIC && !bit(w[0], 3) && !runs(c, r.table)) s = p; /* G11 */
        c->mark = 0;
    }
    if (mode != CASCADE) {
        if (r.table) s = profile(w, c, r.table, r.tuning[0], s, p);
        else no_profile(w, c);
    }
    int fresh = entry || !c->sampled;
    int64_t e = s - p, pv = p, last = fresh ? p : c->last, prior = fresh ? p : c->prior;
    if (own_format(w[1])) {
        unsigned from = r.in_full, to = r.out_full;
        pv = converted(p, from, to), last = converted(last, from, to), prior = converted(prior, from, to);
        e = converted(s, from, to) - pv;
    }
    if (bit(w[0], 7)) e = e * distance(e, 0) / (int64_t)r.out_full;
    if (bit(w[0], 8) && distance(s, p) < w[19]) e = 0; /* A5: the deadband is in counts of the input */
    int64_t last_error = fresh ? e : c->error; /* as it was computed, whatever the formats were then */

    if (mode != MANUAL && velocity) {
        struct terms t = terms_of(w, r.tuning, e - last_error, e, pv - 2 * last + prior);
        output = clamp(output + t.p + t.i - t.d, low, high);
        out = counts(output);
    } else if (mode != MANUAL) {
        struct terms t = terms_of(w, r.tuning, e, e, pv - last);
        int64_t m = t.p - t.d + bias + t.i;
        output = clamp(m, low, high);
        if (m == output) bias += t.i;
        else if (!bit(w[0], 10)) bias = output - (t.p - t.d);
        out = counts(output);
        bias_word = counts(clamp(bias, 0, (int64_t)r.out_full * UNIT));
    }
    unsigned word = status(w, c, mode, s, p, out); /* of s, p and the last PV in counts of the input */
    w[0] &= ~7u;
    w[2] = (uint16_t)s;
    w[3] = (uint16_t)p;
    w[4] = bias_word;
    w[OUTPUT] = out;
    w[6] = (uint16_t)word;
    c->mode = mode;
    c->bias = bias;
    c->output = output;
    c->prior = c->sampled ? c->last : p;
    c->last = p;
    c->error = e;
    c->velocity = velocity;
    c->sampled = 1;
    line[0] = w[2], line[1] = w[3], line[2] = w[OUTPUT], line[3] = w[6];
    return 0;
}

static uint8_t forecast(const uint16_t *words, const struct carried *records, uint64_t loop, uint64_t *samples) {
    if (loop < 1 || loop > LOOPS) return 4;
    const struct carried *c = &records[loop - 1];
    const uint16_t *w = words + LOOP_WORDS * (loop - 1);
    struct reading r;
    uint8_t refusal = judge(words, w, c, 0, &r);
    if (refusal) return refusal;
    if (is_transfer(w, c, r.mode) && transfer_refused(words, w, 0)) return 11; /* the root of 0 is 0 */
    *samples = runs(c, r.table) ? remaining(r.table, r.tuning[0], c->segment, (int64_t)w[2] * PARTS + c->fraction, c->time) : 0;
    return 0;
}

/* W2: words 3, 4, 6 and 29 of the loops, which no store reaches */
static int for_samples_alone(uint64_t address) {
    uint64_t at = address % LOOP_WORDS;
    return address < LOOPS * LOOP_WORDS && (at == 3 || at == 4 || at == 6 || at == 29);
}

static uint8_t store(uint16_t *words, uint64_t address, unsigned value) {
    if (address >= WORDS || for_samples_alone(address)) return 6;
    words[address] = (uint16_t)value;
    return 0;
}

static unsigned pair(const uint8_t *at) { return at[0] | (unsigned)at[1] << 8; }

/* The record at the start of what is left of a file, at least one byte; `taken` is how many bytes it has. */
static uint8_t carry_out(const uint8_t *at, size_t left, uint16_t *words, struct carried *records, uint16_t line[4], size_t *taken) {
    *taken = left;
    if (left < 2) return 1;
    unsigned length = pair(at);
    if (left - 2 < length) return 1;
    *taken = 2 + length;
    unsigned kind = length < 2 ? 0 : pair(at + 2);
    if (kind == 2) return length == 5 ? sample(words, records, at[4], pair(at + 5), line) : 3;
    if (kind == 1) return length == 6 ? store(words, pair(at + 4), pair(at + 6)) : 3;
    return 2;
}

/* L13: whether a setup has a store of this word */
static int handed_on(const uint16_t *words, unsigned address) { return words[address] != 0 && !for_samples_alone(address); }

static uint8_t *put_pair(uint8_t *to, unsigned value) {
    *to++ = (uint8_t)value;
    *to++ = (uint8_t)(value >> 8);
    return to;
}

/* L3 */
static uint8_t *put_store(uint8_t *to, unsigned address, unsigned value) {
    return put_pair(put_pair(put_pair(put_pair(to, 6), 1), address), value);
}

static uint8_t *text(uint8_t *to, const char *from) {
    while (*from) *to++ = (uint8_t)*from++;
    return to;
}

static uint8_t *number(uint8_t *to, unsigned n) {
    uint8_t digits[10];
    int m = 0;
    do digits[m++] = (uint8_t)('0' + n % 10);
    while (n /= 10);
    while (m) *to++ = digits[--m];
    return to;
}

static uint8_t *hex(uint8_t *to, unsigned word) {
    for (int shift = 12; shift >= 0; shift -= 4) *to++ = (uint8_t)"0123456789ABCDEF"[word >> shift & 15];
    return to;
}

/* A record's line after its number. */
static uint8_t *said(uint8_t *to, uint8_t refusal, const uint8_t *record, const uint16_t line[4]) {
    if (refusal) return number(text(to, " refused "), refusal);
    if (record[2] == 1) return number(text(number(text(to, " set "), pair(record + 4)), " "), pair(record + 6));
    to = number(text(to, " loop "), record[4]);
    to = number(text(to, " sp "), line[0]);
    to = number(text(to, " pv "), line[1]);
    to = number(text(to, " out "), line[2]);
    return hex(text(to, " word "), line[3]);
}

uint8_t plain_reset(uint16_t *words, size_t words_length, int64_t *records, size_t records_length) {
    if (words_length != WORDS || records_length != NUMBERS) return 5;
    memset(words, 0, WORDS * sizeof *words);
    memset(records, 0, NUMBERS * sizeof *records);
    return 0;
}

uint8_t plain_store(uint16_t *words, size_t words_length, int64_t *records, size_t records_length, uint64_t address,
    uint16_t value) {
    (void)records; /* a store looks at no record */
    if (words_length != WORDS || records_length != NUMBERS) return 5;
    return store(words, address, value);
}

uint8_t plain_sample(uint16_t *words, size_t words_length, int64_t *records, size_t records_length, uint64_t loop, uint64_t raw,
    uint16_t line[4]) {
    if (words_length != WORDS || records_length != NUMBERS) return 5;
    return sample(words, (struct carried *)records, loop, raw, line);
}

uint8_t plain_forecast(const uint16_t *words, size_t words_length, const int64_t *records, size_t records_length, uint64_t loop,
    uint64_t *samples) {
    if (words_length != WORDS || records_length != NUMBERS) return 5;
    return forecast(words, (const struct carried *)records, loop, samples);
}

uint8_t plain_record(const int64_t *records, size_t records_length, uint64_t loop, int64_t fields[14]) {
    if (records_length != NUMBERS) return 5;
    if (loop < 1 || loop > LOOPS) return 4;
    const struct carried *c = (const struct carried *)records + (loop - 1);
    if (out_of_range(c)) return 5;
    memcpy(fields, c, sizeof *c);
    return 0;
}

uint8_t plain_run(const uint8_t *file, size_t file_length, uint16_t *words, size_t words_length, int64_t *records,
    size_t records_length, uint8_t *answers, size_t answers_length, size_t *count, size_t *refused) {
    if (words_length != WORDS || records_length != NUMBERS) return 5;
    size_t carried = 0, refusals = 0, taken;
    uint16_t line[4];
    for (size_t at = 0; at < file_length; at += taken) {
        uint8_t answer = carry_out(file + at, file_length - at, words, (struct carried *)records, line, &taken);
        if (carried < answers_length) answers[carried] = answer;
        carried++;
        refusals += answer != 0;
    }
    *count = carried;
    *refused = refusals;
    return 0;
}

uint8_t plain_print(const uint8_t *file, size_t file_length, uint8_t *out, size_t out_length, size_t *length) {
    if (out_length < (file_length > LONGEST ? 9 : 10 * file_length + 100)) return 5;
    uint16_t words[WORDS] = {0}, line[4];
    struct carried records[LOOPS] = {{0}};
    unsigned count = 0, refused = 0;
    uint8_t *to = out;
    size_t taken;
    for (size_t at = 0; at < file_length && file_length <= LONGEST; at += taken) {
        uint8_t answer = carry_out(file + at, file_length - at, words, records, line, &taken);
        to = text(said(number(to, ++count), answer, file + at, line), "\n");
        refused += answer != 0;
    }
    to = file_length > LONGEST ? text(to, "too long\n") : text(number(text(number(to, count), " records, "), refused), " refused\n");
    *length = (size_t)(to - out);
    return 0;
}

uint8_t plain_setup(const uint16_t *words, size_t words_length, uint8_t *out, size_t out_length, size_t *length) {
    if (words_length != WORDS) return 5;
    size_t size = 0;
    for (unsigned address = 0; address < WORDS; address++)
        if (handed_on(words, address)) size += STORE_BYTES;
    if (out_length < size) return 10;
    for (unsigned address = 0; address < WORDS; address++)
        if (handed_on(words, address)) out = put_store(out, address, words[address]);
    *length = size;
    return 0;
}
