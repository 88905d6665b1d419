/* A ramp/soak profile through the C interface: an oven on loop 1 that heats up, soaks, cools down and soaks again.
 * The oven is simulated. It prints how many samples the profile will take, a line where its segment changes, and
 * how many it took.
 * In the package's folder:  cc -std=c99 -Iinclude examples/profile.c lib/libkexbardi.a */
#include "kexbardi.h"

#include <stdio.h>
#include <stdlib.h>

#define LOOP 1
#define TABLE KEXBARDI_TABLE_FIRST /* where its table stands; the next would be KEXBARDI_TABLE_WORDS further on */

static uint16_t words[KEXBARDI_WORDS];
static int64_t records[KEXBARDI_NUMBERS];

/* Here every call has to be accepted; a desk would show the number and go on. */
static void accepted(const char *call, uint8_t answer) {
    if (answer == KEXBARDI_ACCEPTED) return;
    fprintf(stderr, "%s is refused with %u\n", call, answer);
    exit(1);
}

static void store(unsigned address, uint16_t value) {
    accepted("store", kexbardi_store(words, KEXBARDI_WORDS, records, KEXBARDI_NUMBERS, address, value));
}

static void set(unsigned offset, uint16_t value) { store(KEXBARDI_ADDRESS(LOOP, offset), value); }

static void ramp(unsigned segment, unsigned end, double slope) {
    store(TABLE + KEXBARDI_SEGMENT(segment) + KEXBARDI_END, (uint16_t)end);
    store(TABLE + KEXBARDI_SEGMENT(segment) + KEXBARDI_SLOPE, KEXBARDI_BCD_OF(slope)); /* counts a second */
}

static void soak(unsigned segment, unsigned tenths, unsigned deviation) {
    store(TABLE + KEXBARDI_SEGMENT(segment) + KEXBARDI_DURATION, KEXBARDI_BCD(tenths)); /* tenths of a minute */
    store(TABLE + KEXBARDI_SEGMENT(segment) + KEXBARDI_DEVIATION, (uint16_t)deviation);
}

static unsigned long long forecast(void) {
    uint64_t samples;
    accepted("forecast", kexbardi_forecast(words, KEXBARDI_WORDS, records, KEXBARDI_NUMBERS, LOOP, &samples));
    return samples;
}

static void set_up(void) {
    accepted("reset", kexbardi_reset(words, KEXBARDI_WORDS, records, KEXBARDI_NUMBERS));
    set(KEXBARDI_OUTPUT, 200); /* what keeps the oven where it is now */
    set(KEXBARDI_OUTPUT_HIGH, KEXBARDI_FULL_12);
    set(KEXBARDI_PERIOD, KEXBARDI_BCD_OF(1.00));
    set(KEXBARDI_GAIN, KEXBARDI_BCD_OF(4.00));
    set(KEXBARDI_RESET, KEXBARDI_BCD_OF(20.00));

    ramp(1, 1400, 12.50);
    soak(2, 5, 20); /* 0.5 minutes, within 20 counts */
    ramp(3, 800, 17.00);
    soak(4, 3, 20); /* 0.3 minutes */
    /* All other words of the table are 0, and segment 5, a ramp of slope 0, ends the profile. */
    set(KEXBARDI_PROFILE_TABLE, TABLE);
    set(KEXBARDI_MODE_1, KEXBARDI_M1_AUTOMATIC | KEXBARDI_M1_PROFILE);
    set(KEXBARDI_PROFILE_FLAGS, KEXBARDI_P_START);
}

int main(void) {
    const uint16_t *flags = &words[KEXBARDI_ADDRESS(LOOP, KEXBARDI_PROFILE_FLAGS)];
    long heat = 200 * 100; /* of the oven, in hundredths of a count */
    unsigned second = 0, segment = 0;

    if (KEXBARDI_MAJOR(kexbardi_version()) != KEXBARDI_MAJOR(KEXBARDI_VERSION)) {
        fprintf(stderr, "kexbardi.h and the library are of different major versions\n");
        return 1;
    }
    set_up();
    while (!(*flags & KEXBARDI_P_COMPLETE)) {
        uint16_t line[KEXBARDI_LINE_WORDS];
        uint64_t raw = (uint64_t)heat / 100;
        accepted("sample", kexbardi_sample(words, KEXBARDI_WORDS, records, KEXBARDI_NUMBERS, LOOP, raw, line));
        /* The first sample enters Automatic, where the setpoint becomes the PV, and starts the profile from there. */
        if (second == 0) printf("forecast %llu samples\n", forecast());
        if (segment != (unsigned)KEXBARDI_P_SEGMENT(*flags)) {
            segment = (unsigned)KEXBARDI_P_SEGMENT(*flags);
            printf("%u s segment %u sp %u pv %u out %u flags %04X\n", second, segment, line[KEXBARDI_LINE_SETPOINT],
                line[KEXBARDI_LINE_PV], line[KEXBARDI_LINE_OUTPUT], *flags);
        }
        /* In a second the oven comes a twentieth nearer to where its heater would bring it. */
        heat += (100L * line[KEXBARDI_LINE_OUTPUT] - heat) / 20;
        second++;
    }
    printf("complete after %u samples, forecast %llu\n", second - 1, forecast()); /* the one that started it not counted */
    return 0;
}
