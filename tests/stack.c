/* How deep the stack of each function of kexbardi.h is, measured: `stack FILE..`, with drill files to run and print. Each call
 * is made on a stack of its own that is painted first; the lowest byte that has changed after the call tells how deep it went.
 * It prints a line for each function, its name and its greatest depth in bytes: from the return address, which counts, down.
 *   gcc -std=c99 -Itarget/kexbardi/include tests/stack.c target/kexbardi/lib/libkexbardi.a */
#include "kexbardi.h"

#include <stdio.h>
#include <stdlib.h>
#include <string.h>

#define PAINTED 32768 /* bytes of the stack; a call that comes near its end is a failure */
#define SPARE 4096
#define ARGUMENTS 10
#define PUSHED 32 /* bytes of the last four arguments, which stand above the return address */

/* Calls a function on another stack, whose end is `top`, with ten arguments: nothing else is written there before the call. */
uint64_t call_on(uint8_t *top, void (*function)(void), const uint64_t arguments[ARGUMENTS]);
__asm__(".text\n"
        ".type call_on, @function\n"
        "call_on:\n"
        "    push %rbp\n"
        "    push %rbx\n"
        "    mov %rsp, %rbp\n"
        "    mov %rdi, %rsp\n"
        "    mov %rsi, %r11\n"
        "    mov %rdx, %rbx\n"
        "    push 72(%rbx)\n"
        "    push 64(%rbx)\n"
        "    push 56(%rbx)\n"
        "    push 48(%rbx)\n"
        "    mov 40(%rbx), %r9\n"
        "    mov 32(%rbx), %r8\n"
        "    mov 24(%rbx), %rcx\n"
        "    mov 16(%rbx), %rdx\n"
        "    mov 8(%rbx), %rsi\n"
        "    mov (%rbx), %rdi\n"
        "    call *%r11\n"
        "    mov %rbp, %rsp\n"
        "    pop %rbx\n"
        "    pop %rbp\n"
        "    ret\n"
        ".size call_on, . - call_on\n"
        /* The library's memset, with no stack but its return address: what another takes is not the library's. */
        ".globl memset\n"
        ".type memset, @function\n"
        "memset:\n"
        "    mov %rdi, %r8\n"
        "    mov %esi, %eax\n"
        "    mov %rdx, %rcx\n"
        "    rep stosb\n"
        "    mov %r8, %rax\n"
        "    ret\n"
        ".size memset, . - memset\n");

#define FUNCTION(name) {#name, (void (*)(void))name, 0}
enum { VERSION, RESET, STORE, SAMPLE, RECORD, FORECAST, RUN, PRINT, SETUP, FUNCTIONS };
static struct {
    const char *name;
    void (*function)(void);
    size_t deepest;
} functions[FUNCTIONS] = {
    FUNCTION(kexbardi_version), FUNCTION(kexbardi_reset), FUNCTION(kexbardi_store), FUNCTION(kexbardi_sample), FUNCTION(kexbardi_record),
    FUNCTION(kexbardi_forecast), FUNCTION(kexbardi_run), FUNCTION(kexbardi_print), FUNCTION(kexbardi_setup),
};

static struct desk {
    uint16_t words[KEXBARDI_WORDS];
    int64_t records[KEXBARDI_NUMBERS];
} desk;
static uint8_t painted[PAINTED] __attribute__((aligned(16)));
static uint8_t file[KEXBARDI_LONGEST + 1], out[KEXBARDI_PRINT_ROOM(KEXBARDI_LONGEST)], answers[64];
static uint16_t line[KEXBARDI_LINE_WORDS];
static int64_t fields[KEXBARDI_FIELDS];
static uint64_t samples;
static size_t size, count, refused, length; /* of the file; and what functions write */
static uint64_t seed = 88172645463325252u;

static void failed(const char *what, const char *name) {
    fprintf(stderr, "tests/stack: %s: %s\n", name, what);
    exit(1);
}

/* 0 to below - 1 */
static unsigned any(unsigned below) {
    seed ^= seed << 13, seed ^= seed >> 7, seed ^= seed << 17;
    return (unsigned)(seed >> 20) % below;
}

/* Twice from the same desk, over two colours: no byte can be written in both. */
static unsigned called(int which, const uint64_t *arguments) {
    struct desk before = desk;
    uint64_t answer = 0;
    for (unsigned colour = 0x5A; colour <= 0xA5; colour += 0xA5 - 0x5A) {
        size_t at = 0;
        desk = before;
        memset(painted, (int)colour, PAINTED);
        answer = call_on(painted + PAINTED, functions[which].function, arguments);
        while (at < PAINTED && painted[at] == colour) at++;
        if (at < SPARE || at > PAINTED - PUSHED - 8) failed("nothing was measured", functions[which].name);
        if (functions[which].deepest < PAINTED - PUSHED - at) functions[which].deepest = PAINTED - PUSHED - at;
    }
    return (uint8_t)answer;
}

#define AT(memory) ((uint64_t)(uintptr_t)(memory))
#define CALL(which, ...) called(which, (const uint64_t[ARGUMENTS]){__VA_ARGS__})
#define DESK AT(desk.words), KEXBARDI_WORDS, AT(desk.records), KEXBARDI_NUMBERS
#define SHORT AT(desk.words), KEXBARDI_WORDS - 1, AT(desk.records), KEXBARDI_NUMBERS

static void answers_with(unsigned expected, unsigned answer, const char *name) {
    if (answer != expected) failed("another answer than was meant", name);
}

static void set(unsigned loop, unsigned offset, unsigned value) { desk.words[KEXBARDI_ADDRESS(loop, offset)] = (uint16_t)value; }

static unsigned sample(uint64_t loop, uint64_t raw) { return CALL(SAMPLE, DESK, loop, raw, AT(line)); }

/* ---- a desk with a loop, and a profile of eight ramps and eight soaks */

static void begin(unsigned mode_1, unsigned mode_2) {
    const unsigned full = KEXBARDI_FULL_SCALE(mode_2);
    memset(&desk, 0, sizeof desk);
    set(1, KEXBARDI_MODE_1, mode_1);
    set(1, KEXBARDI_MODE_2, mode_2);
    set(1, KEXBARDI_OUTPUT_HIGH, full);
    set(1, KEXBARDI_PERIOD, KEXBARDI_BCD(100));
    set(1, KEXBARDI_GAIN, KEXBARDI_BCD(9999));
    set(1, KEXBARDI_RESET, KEXBARDI_BCD(700));
    set(1, KEXBARDI_RATE, KEXBARDI_BCD(300));
    set(1, KEXBARDI_LOW, full / 4);
    set(1, KEXBARDI_HIGH, full / 2);
    set(1, KEXBARDI_HIGH_HIGH, full);
    set(1, KEXBARDI_YELLOW, 10);
    set(1, KEXBARDI_RED, 20);
    set(1, KEXBARDI_HYSTERESIS, 2);
    set(1, KEXBARDI_DEADBAND, 3);
    set(1, KEXBARDI_POINTER, 1000);
    desk.words[1000] = (uint16_t)(full / 3);
    set(1, KEXBARDI_PROFILE_TABLE, KEXBARDI_TABLE_FIRST);
    for (unsigned n = 1; n <= KEXBARDI_SEGMENTS; n += 2) {
        uint16_t *segment = desk.words + KEXBARDI_TABLE_FIRST + KEXBARDI_SEGMENT(n);
        segment[KEXBARDI_END] = (uint16_t)(n % 4 == 1 ? full - n : n);
        segment[KEXBARDI_SLOPE] = KEXBARDI_BCD(1234);
        segment[2 + KEXBARDI_DURATION] = KEXBARDI_BCD(5);
        segment[2 + KEXBARDI_DEVIATION] = 7;
    }
}

/* Every mode, form and option with every other, and the profile's commands. */
static void all_samples(void) {
    static const unsigned options[] = {KEXBARDI_M1_VELOCITY, KEXBARDI_M1_ROOT, KEXBARDI_M1_SQUARED, KEXBARDI_M1_DEADBAND,
        KEXBARDI_M1_FREEZE, KEXBARDI_M1_PROFILE, KEXBARDI_M1_BUMPLESS_II, KEXBARDI_M1_REVERSE,
        KEXBARDI_M1_PV_ALARMS | KEXBARDI_M1_DEVIATION_ALARMS | KEXBARDI_M1_RATE_ALARM};
    static const unsigned formats[] = {0, KEXBARDI_M2_FIFTEEN_BITS, KEXBARDI_M2_SIXTEEN_BITS};
    for (unsigned chosen = 0; chosen < 512; chosen++)
        for (unsigned request = KEXBARDI_M1_MANUAL; request <= KEXBARDI_M1_CASCADE; request *= 2) {
            unsigned mode_1 = request, mode_2 = formats[chosen % 3];
            for (unsigned n = 0; n < 9; n++) mode_1 |= chosen >> n & 1 ? options[n] : 0;
            /* the one pair that no loop may have (N8) */
            if (mode_1 & KEXBARDI_M1_VELOCITY && mode_1 & KEXBARDI_M1_BUMPLESS_II) continue;
            begin(mode_1, mode_2);
            for (unsigned turn = 0; turn < 4; turn++) {
                set(1, KEXBARDI_PROFILE_FLAGS, turn == 0 ? KEXBARDI_P_START : turn == 2 ? 1u << any(4) : 0);
                answers_with(0, sample(1, any(KEXBARDI_FULL_SCALE(mode_2) + 1)), "kexbardi_sample");
            }
        }
}

/* From Automatic to Cascade, to the output of loop 2, and its own sample; every option but Bumpless II, which makes it no transfer. */
static void transfers(void) {
    static const unsigned options[] = {KEXBARDI_M1_VELOCITY, KEXBARDI_M1_ROOT, KEXBARDI_M1_SQUARED, KEXBARDI_M1_DEADBAND,
        KEXBARDI_M1_FREEZE, KEXBARDI_M1_PROFILE, KEXBARDI_M1_REVERSE,
        KEXBARDI_M1_PV_ALARMS | KEXBARDI_M1_DEVIATION_ALARMS | KEXBARDI_M1_RATE_ALARM};
    static const unsigned formats[] = {0, KEXBARDI_M2_FIFTEEN_BITS, KEXBARDI_M2_SIXTEEN_BITS};
    for (unsigned chosen = 0; chosen < 256; chosen++) {
        unsigned mode_1 = 0, mode_2 = formats[chosen % 3], full = KEXBARDI_FULL_SCALE(mode_2);
        for (unsigned n = 0; n < 8; n++) mode_1 |= chosen >> n & 1 ? options[n] : 0;
        begin(mode_1 | KEXBARDI_M1_AUTOMATIC, mode_2);
        memcpy(desk.words + KEXBARDI_ADDRESS(2, 0), desk.words, KEXBARDI_LOOP_WORDS * sizeof *desk.words);
        set(1, KEXBARDI_POINTER, KEXBARDI_ADDRESS(2, KEXBARDI_OUTPUT));
        answers_with(0, sample(1, any(full + 1)), "kexbardi_sample");
        answers_with(0, sample(2, any(full + 1)), "kexbardi_sample");
        set(1, KEXBARDI_MODE_1, mode_1 | KEXBARDI_M1_CASCADE);
        answers_with(0, sample(1, any(full + 1)), "kexbardi_sample");
        answers_with(0, sample(2, any(full + 1)), "kexbardi_sample");
    }
}

static void refused_samples(void) {
    begin(KEXBARDI_M1_AUTOMATIC, 0);
    answers_with(0, sample(1, 0), "kexbardi_sample");
    set(1, KEXBARDI_MODE_1, KEXBARDI_M1_CASCADE);
    answers_with(KEXBARDI_TRANSFER, sample(1, 0), "kexbardi_sample");
    answers_with(KEXBARDI_TRANSFER, CALL(FORECAST, DESK, 1, AT(&samples)), "kexbardi_forecast");
    set(1, KEXBARDI_POINTER, KEXBARDI_ADDRESS(2, KEXBARDI_OUTPUT));
    answers_with(KEXBARDI_TRANSFER, sample(1, 1), "kexbardi_sample");
    begin(KEXBARDI_M1_AUTOMATIC | KEXBARDI_M1_PROFILE, 0);
    answers_with(KEXBARDI_MEMORY, CALL(SAMPLE, SHORT, 1, 0, AT(line)), "kexbardi_sample");
    answers_with(KEXBARDI_LOOP, sample(17, 0), "kexbardi_sample");
    answers_with(KEXBARDI_ABOVE, sample(1, 4096), "kexbardi_sample");
    set(1, KEXBARDI_SETPOINT, 4096);
    answers_with(KEXBARDI_SETTING_SETPOINT, sample(1, 0), "kexbardi_sample");
    set(1, KEXBARDI_OUTPUT_LOW, 4096);
    answers_with(KEXBARDI_SETTING_LIMITS, sample(1, 0), "kexbardi_sample");
    set(1, KEXBARDI_PERIOD, KEXBARDI_BCD(4));
    answers_with(KEXBARDI_SETTING_TIMES, sample(1, 0), "kexbardi_sample");
    answers_with(KEXBARDI_SETTING_TIMES, CALL(FORECAST, DESK, 1, AT(&samples)), "kexbardi_forecast");
    set(1, KEXBARDI_MODE_2, 1);
    answers_with(KEXBARDI_SETTING, sample(1, 0), "kexbardi_sample");
    desk.words[KEXBARDI_TABLE_FIRST + KEXBARDI_SLOPE] = 0x000A;
    answers_with(KEXBARDI_DIGIT, sample(1, 0), "kexbardi_sample");
    desk.records[KEXBARDI_FIELD_TIME] = -1;
    answers_with(KEXBARDI_MEMORY, sample(1, 0), "kexbardi_sample");
    answers_with(KEXBARDI_MEMORY, CALL(RECORD, AT(desk.records), KEXBARDI_NUMBERS, 1, AT(fields)), "kexbardi_record");
    answers_with(KEXBARDI_MEMORY, CALL(FORECAST, DESK, 1, AT(&samples)), "kexbardi_forecast");
}

/* From the profile's start, and behind each sample until it is complete. */
static void forecasts(void) {
    begin(KEXBARDI_M1_AUTOMATIC | KEXBARDI_M1_BUMPLESS_II | KEXBARDI_M1_PROFILE, 0);
    answers_with(0, CALL(FORECAST, DESK, 1, AT(&samples)), "kexbardi_forecast");
    set(1, KEXBARDI_PROFILE_FLAGS, KEXBARDI_P_START);
    answers_with(0, sample(1, 0), "kexbardi_sample");
    answers_with(0, CALL(FORECAST, DESK, 1, AT(&samples)), "kexbardi_forecast");
    if (samples < 1000) failed("the profile is shorter than was meant", "kexbardi_forecast");
    while (samples > 0) {
        sample(1, any(4096));
        answers_with(0, CALL(FORECAST, DESK, 1, AT(&samples)), "kexbardi_forecast");
    }
    answers_with(KEXBARDI_LOOP, CALL(FORECAST, DESK, 0, AT(&samples)), "kexbardi_forecast");
}

/* ---- the others */

static void small_calls(void) {
    begin(0, 0);
    CALL(VERSION, 0);
    answers_with(0, CALL(RECORD, AT(desk.records), KEXBARDI_NUMBERS, 16, AT(fields)), "kexbardi_record");
    answers_with(KEXBARDI_LOOP, CALL(RECORD, AT(desk.records), KEXBARDI_NUMBERS, 0, AT(fields)), "kexbardi_record");
    answers_with(0, CALL(STORE, DESK, 1023, 1), "kexbardi_store");
    answers_with(KEXBARDI_STORE, CALL(STORE, DESK, KEXBARDI_PV, 1), "kexbardi_store");
    answers_with(KEXBARDI_MEMORY, CALL(RESET, SHORT), "kexbardi_reset");
    answers_with(0, CALL(RESET, DESK), "kexbardi_reset");
}

static void run_and_print(void) {
    memset(&desk, 0, sizeof desk);
    answers_with(0, CALL(RUN, AT(file), size, DESK, AT(answers), sizeof answers, AT(&count), AT(&refused)), "kexbardi_run");
    answers_with(0, CALL(PRINT, AT(file), size, AT(out), sizeof out, AT(&length)), "kexbardi_print");
    answers_with(0, CALL(SETUP, AT(desk.words), KEXBARDI_WORDS, AT(out), sizeof out, AT(&length)), "kexbardi_setup");
}

static void add(unsigned n, const unsigned *bytes) {
    while (n-- > 0) file[size++] = (uint8_t)*bytes++;
}

/* A file of the desk's words and then samples, all of it, and cut and damaged. */
static void files(unsigned mode_1) {
    begin(mode_1, 0);
    set(1, KEXBARDI_PROFILE_FLAGS, KEXBARDI_P_START);
    answers_with(0, CALL(SETUP, AT(desk.words), KEXBARDI_WORDS, AT(file), sizeof file, AT(&length)), "kexbardi_setup");
    size = length;
    for (unsigned n = 0; n < 20; n++) add(7, (const unsigned[]){5, 0, 2, 0, 1, any(256), any(17)});
    run_and_print();
    for (unsigned n = 0; n < 20; n++) file[any((unsigned)size)] = (uint8_t)any(256), run_and_print();
    for (size -= any(30); size > 40; size -= 40) run_and_print();
    answers_with(KEXBARDI_MEMORY, CALL(RUN, AT(file), size, SHORT, AT(answers), sizeof answers, AT(&count), AT(&refused)), "kexbardi_run");
    answers_with(KEXBARDI_MEMORY, CALL(PRINT, AT(file), size, AT(out), 10 * size, AT(&length)), "kexbardi_print");
    answers_with(KEXBARDI_ROOM, CALL(SETUP, AT(desk.words), KEXBARDI_WORDS, AT(out), 1, AT(&length)), "kexbardi_setup");
    answers_with(0, CALL(PRINT, AT(file), sizeof file, AT(out), sizeof out, AT(&length)), "kexbardi_print");
}

static void read_file(const char *name) {
    FILE *from = fopen(name, "rb");
    if (from == NULL) failed("cannot be read", name);
    size = fread(file, 1, sizeof file, from);
    fclose(from);
    run_and_print();
}

int main(int arguments, char **names) {
    all_samples();
    transfers();
    refused_samples();
    forecasts();
    small_calls();
    for (unsigned request = KEXBARDI_M1_MANUAL; request <= KEXBARDI_M1_CASCADE; request *= 2)
        for (unsigned root = 0; root <= KEXBARDI_M1_ROOT; root += KEXBARDI_M1_ROOT)
            files(request | root | KEXBARDI_M1_PROFILE), files(request | root | KEXBARDI_M1_VELOCITY | KEXBARDI_M1_SQUARED);
    for (int n = 1; n < arguments; n++) read_file(names[n]);
    for (unsigned n = 0; n < FUNCTIONS; n++) printf("%s %zu\n", functions[n].name, functions[n].deepest);
    return 0;
}
