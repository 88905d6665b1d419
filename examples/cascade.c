/* A cascade through the C interface: loop 1 keeps the level of a boiler's drum, loop 2 the flow of its feed water, and Cascade is
 * chosen for the flow while both run. The PVs are given. It prints both loops after each second: the valve, which is the flow's
 * output, does not move as Cascade is chosen, and then follows the level.
 * In the package's folder:  cc -std=c99 -Iinclude examples/cascade.c lib/libkexbardi.a */
#include "kexbardi.h"

#include <stdio.h>
#include <stdlib.h>

enum { LEVEL = 1, FLOW = 2, SECONDS = 7 };

static uint16_t words[KEXBARDI_WORDS];
static int64_t records[KEXBARDI_NUMBERS];

/* Here every call has to be accepted; a desk would show the number and go on. */
static void accepted(const char *call, uint8_t answer) {
    if (answer == KEXBARDI_ACCEPTED) return;
    fprintf(stderr, "%s is refused with %u\n", call, answer);
    exit(1);
}

static void set(unsigned loop, unsigned offset, unsigned value) {
    accepted("store", kexbardi_store(words, KEXBARDI_WORDS, records, KEXBARDI_NUMBERS, KEXBARDI_ADDRESS(loop, offset), (uint16_t)value));
}

static void sample(unsigned loop, unsigned raw) {
    uint16_t line[KEXBARDI_LINE_WORDS];
    accepted("sample", kexbardi_sample(words, KEXBARDI_WORDS, records, KEXBARDI_NUMBERS, loop, raw, line));
}

static void set_up(unsigned loop, unsigned output) {
    set(loop, KEXBARDI_OUTPUT, output);
    set(loop, KEXBARDI_OUTPUT_HIGH, KEXBARDI_FULL_12);
    set(loop, KEXBARDI_PERIOD, KEXBARDI_BCD_OF(1.00));
    set(loop, KEXBARDI_GAIN, KEXBARDI_BCD_OF(2.00));
    set(loop, KEXBARDI_RESET, KEXBARDI_BCD_OF(10.00));
    set(loop, KEXBARDI_MODE_1, KEXBARDI_M1_AUTOMATIC);
}

/* The words, not the lines of the samples: the flow's sample may write the level's output. */
static void show(const char *name, unsigned loop) {
    const uint16_t *w = words + KEXBARDI_ADDRESS(loop, 0);
    printf(" %s sp %u pv %u out %u", name, w[KEXBARDI_SETPOINT], w[KEXBARDI_PV], w[KEXBARDI_OUTPUT]);
}

int main(void) {
    static const uint16_t levels[SECONDS] = {2048, 2048, 2048, 2048, 2038, 2038, 2048};
    static const uint16_t flows[SECONDS] = {1500, 1500, 1500, 1500, 1500, 1510, 1520};

    if (KEXBARDI_MAJOR(kexbardi_version()) != KEXBARDI_MAJOR(KEXBARDI_VERSION)) {
        fprintf(stderr, "kexbardi.h and the library are of different major versions\n");
        return 1;
    }
    accepted("reset", kexbardi_reset(words, KEXBARDI_WORDS, records, KEXBARDI_NUMBERS));
    set_up(LEVEL, 2200); /* nothing follows this output yet */
    set_up(FLOW, 1800);  /* the valve */
    set(FLOW, KEXBARDI_POINTER, KEXBARDI_ADDRESS(LEVEL, KEXBARDI_OUTPUT));
    for (unsigned second = 0; second < SECONDS; second++) {
        /* With Bumpless I the level's output becomes the flow, and the level goes on from there. A pointer to no other loop's output,
         * or a flow outside the level's output limits, would be refused with KEXBARDI_TRANSFER. */
        if (second == 2) set(FLOW, KEXBARDI_MODE_1, KEXBARDI_M1_CASCADE);
        sample(LEVEL, levels[second]); /* the major loop first, so that the flow follows it at once */
        sample(FLOW, flows[second]);
        printf("%u s", second);
        show("level", LEVEL);
        show("flow", FLOW);
        printf("\n");
    }
    return 0;
}
