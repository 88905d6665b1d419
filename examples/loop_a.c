/* Loop A through the C interface: a desk of sixteen loops, six stores that set loop 1 up, two samples, and a
 * sample that is refused. It prints what the program `drill` prints of examples/loop-a.drill.
 * In the package's folder:  cc -std=c99 -Iinclude examples/loop_a.c lib/libkexbardi.a */
#include "kexbardi.h"

#include <stdio.h>

/* A desk is two pieces of memory that the program lends to each call. */
static uint16_t words[KEXBARDI_WORDS];
static int64_t records[KEXBARDI_NUMBERS];
static unsigned calls, refusals;

/* The answer 0 says that the call was carried out; any other number is a refusal, and nothing has changed. */
static int refused(uint8_t answer) {
    calls++;
    if (answer == KEXBARDI_ACCEPTED) return 0;
    refusals++;
    printf("%u refused %u\n", calls, answer);
    return 1;
}

static void store(unsigned address, uint16_t value) {
    if (refused(kexbardi_store(words, KEXBARDI_WORDS, records, KEXBARDI_NUMBERS, address, value))) return;
    printf("%u set %u %u\n", calls, address, value);
}

static void sample(unsigned loop, unsigned raw) {
    uint16_t line[KEXBARDI_LINE_WORDS];
    if (refused(kexbardi_sample(words, KEXBARDI_WORDS, records, KEXBARDI_NUMBERS, loop, raw, line))) return;
    printf("%u loop %u sp %u pv %u out %u word %04X\n", calls, loop, line[KEXBARDI_LINE_SETPOINT], line[KEXBARDI_LINE_PV],
        line[KEXBARDI_LINE_OUTPUT], line[KEXBARDI_LINE_STATUS]);
}

int main(void) {
    /* Header and library have to be of one major version: else layouts and parameters differ. */
    if (KEXBARDI_MAJOR(kexbardi_version()) != KEXBARDI_MAJOR(KEXBARDI_VERSION)) {
        fprintf(stderr, "kexbardi.h and the library are of different major versions\n");
        return 1;
    }
    if (kexbardi_reset(words, KEXBARDI_WORDS, records, KEXBARDI_NUMBERS) != KEXBARDI_ACCEPTED) return 1;

    store(KEXBARDI_ADDRESS(1, KEXBARDI_OUTPUT), 2000); /* where the output stands as the loop is taken over */
    store(KEXBARDI_ADDRESS(1, KEXBARDI_OUTPUT_HIGH), KEXBARDI_FULL_12);
    store(KEXBARDI_ADDRESS(1, KEXBARDI_PERIOD), KEXBARDI_BCD(100)); /* 1.00 s is the BCD word 0x0100 */
    store(KEXBARDI_ADDRESS(1, KEXBARDI_GAIN), KEXBARDI_BCD(200));   /* 2.00 */
    store(KEXBARDI_ADDRESS(1, KEXBARDI_RESET), KEXBARDI_BCD(1000)); /* 10.00 s */
    store(KEXBARDI_ADDRESS(1, KEXBARDI_MODE_1), KEXBARDI_M1_AUTOMATIC); /* Automatic is requested */

    sample(1, 1000); /* enters Automatic: the setpoint becomes the PV */
    store(KEXBARDI_ADDRESS(1, KEXBARDI_SETPOINT), 1500);
    sample(1, 1000); /* 2,000 + 2.00 x 500, and 100 by reset */
    sample(17, 0); /* no such loop */
    printf("%u records, %u refused\n", calls, refusals);
    return 0;
}
