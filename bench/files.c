/* Drill files for the benchmark and its comparison: `files full` writes one of 65,536 bytes, sixteen loops
   sampled round robin; `files N` writes the N-th of any number of random files, some of them damaged. */
#include <stdint.h>
#include <stdio.h>
#include <stdlib.h>
#include <string.h>

#define LONGEST 65536

static uint8_t file[2 * LONGEST];
static unsigned size;
static uint64_t seed;

/* 0 to below - 1 */
static unsigned any(unsigned below) {
    seed ^= seed << 13, seed ^= seed >> 7, seed ^= seed << 17;
    return (unsigned)(seed >> 20) % below;
}

static void byte(unsigned value) { file[size++] = (uint8_t)value; }

static void pair(unsigned value) { byte(value & 255), byte(value >> 8); }

static void store(unsigned address, unsigned value) { pair(6), pair(1), pair(address), pair(value); }

static void sample(unsigned k, unsigned raw) { pair(5), pair(2), byte(k), pair(raw); }

static unsigned bcd(unsigned n) { return n / 1000 % 10 << 12 | n / 100 % 10 << 8 | n / 10 % 10 << 4 | n % 10; }

/* each of some bits set once in `odds` */
static unsigned bits(const char *which, unsigned odds) {
    unsigned word = 0;
    for (; *which; which++)
        if (any(odds) == 0) word |= 1u << (*which - 'a');
    return word;
}

/* mode 1 with one request; bit 9 is refused, and bit 11 is for samples.c, which runs profiles: both stay 0 */
static unsigned mode1(void) {
    unsigned word = 1u << (any(4) ? 1 + any(2) : 0) | bits("efghikmnop", 4);
    return word & 32 ? word : word | bits("d", 3);
}

static const unsigned mode2s[] = {0, 2, 512, 530, 16, 256}, full_scales[] = {4095, 32767, 65535, 65535, 4095, 4095};

/* word 600, the output of a loop up to this one or the next, or any word */
static unsigned pointer(unsigned k) { return any(2) ? 32 * any(k + 1) % 512 + 5 : any(2) ? 600 : any(1024); }

static unsigned settle(unsigned k) {
    unsigned base = 32 * (k - 1), format = any(6), full = full_scales[format], low = any(2) * any(full / 2 + 1);
    store(base, mode1());
    store(base + 1, mode2s[format]);
    store(base + 2, any(full + 1));
    store(base + 5, any(65536));
    store(base + 7, bcd(any(2) ? 5 + any(9995) : 100));
    store(base + 8, bcd(any(3) ? any(300) : any(10000)));
    store(base + 9, bcd(any(4) ? 1 + any(9999) : 9999));
    store(base + 10, bcd(any(2) * any(any(2) ? 100 : 10000)));
    for (unsigned n = 0; n < 4; n++) store(base + 11 + n, full / 5 * (n + 1) + any(full / 8));
    store(base + 15, any(full / 4));
    store(base + 16, any(full / 2));
    store(base + 17, any(full / 8));
    store(base + 18, 1 + any(200));
    store(base + 19, any(full / 8));
    store(base + 24, low);
    store(base + 25, low + any(full - low + 1));
    store(base + 26, pointer(k));
    return full;
}

/* most of these are refused, for their kind or their length */
static void odd_record(unsigned length) {
    pair(length);
    for (unsigned n = 0; n < length; n++) byte(n == 0 ? any(4) : any(2) * any(17));
}

static void change(unsigned k, unsigned full) {
    unsigned base = 32 * (k - 1);
    switch (any(9)) {
    case 0: store(base, mode1()); break;
    case 1: store(base + 2, any(full + 1)); break;
    case 2: store(base + 5, any(65536)); break;
    case 3: store(base + 7 + any(4), bcd(5 + any(9995))); break;
    case 4: store(base + any(32), any(65536)); break;
    case 5: store(any(1100), any(65536)); break;
    case 6: store(600, any(4096)); break;
    case 7: sample(any(20), any(65536)); break;
    default: odd_record(any(10)); break;
    }
}

static void damage(void) {
    for (unsigned n = any(8); n > 0; n--) file[any(size)] = (uint8_t)any(256);
    if (any(2)) size = any(size + 1);
}

static void random_file(unsigned n) {
    unsigned full[17], loops = 1 + any(16), records = any(400);
    if (n % 16 == 0) {
        for (unsigned left = any(2000); left > 0; left--) byte(any(any(2) ? 3 : 256));
        return;
    }
    for (unsigned k = 1; k <= loops; k++) full[k] = settle(k);
    store(600, any(4096));
    while (records-- > 0) {
        unsigned k = 1 + any(loops);
        if (any(5)) sample(k, any(full[k] + 1));
        else change(k, full[k]);
    }
    if (n % 4 == 0) damage();
}

/* position and velocity, every mode, the formats, alarms on: no record of it is refused */
static void full_file(void) {
    for (unsigned k = 1; k <= 16; k++) {
        unsigned base = 32 * (k - 1), full = full_scales[k % 3];
        store(base, 1u << k % 3 | (k % 4 == 0 ? 32 : 0) | (k % 5 == 0 ? 64 : 0) | 0x7000);
        store(base + 1, mode2s[k % 3]);
        store(base + 2, full / 2);
        store(base + 5, full / 3);
        store(base + 7, bcd(100)), store(base + 8, bcd(40 + 10 * k));
        store(base + 9, bcd(1000 + k)), store(base + 10, bcd(k % 2 * 25));
        for (unsigned n = 0; n < 4; n++) store(base + 11 + n, full / 5 * (n + 1));
        store(base + 15, full / 10), store(base + 16, full / 5), store(base + 17, full / 6);
        store(base + 18, 10), store(base + 25, full), store(base + 26, 600);
    }
    store(600, 2000);
    while ((LONGEST - size) % 7) store(601, 0);
    for (unsigned k = 0; size < LONGEST; k = (k + 1) % 16) sample(k + 1, any(full_scales[(k + 1) % 3] + 1));
}

int main(int count, char **args) {
    if (count != 2) return 1;
    unsigned n = (unsigned)atoi(args[1]);
    seed = 88172645463325252ull + 7919ull * n;
    for (int warm = 0; warm < 20; warm++) any(2);
    if (strcmp(args[1], "full") == 0) full_file();
    else random_file(n);
    fwrite(file, 1, size, stdout);
    return 0;
}
