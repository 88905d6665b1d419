/* Words written as a drill file (Q12, L13): `setup [MEMORIES]`. Each call is held to a file that stands here by hand, or that this
 * test makes of the same words, and to the plain engine's call: answer, length, every byte of the room and around it, and the words,
 * which stay. Tried are each word alone, words by hand, the worked loop, that many random memories of each of five densities, every
 * room about a file's length, and wrong lengths. A random memory's file, run from reset, gives its words back; it stays where the
 * words that samples alone write change, and becomes another where any one other word does. In the common subset of C99 and C++11;
 * it links the archive and the plain engine, which is C alone:
 *   gcc -std=c99 -Itarget/kexbardi/include -Ibench tests/setup.c bench/plain_engine.c target/kexbardi/lib/libkexbardi.a
 *   gcc -std=c99 -c bench/plain_engine.c
 *   g++ -x c++ -std=c++11 -Itarget/kexbardi/include -Ibench tests/setup.c -x none plain_engine.o target/kexbardi/lib/libkexbardi.a */
#include "kexbardi.h"
#include "plain_engine.h"

#include <stdio.h>
#include <stdlib.h>
#include <string.h>

#define SPARE 16     /* words behind the memory, for lengths that are too great */
#define EDGE 13      /* bytes before and behind the room, which begins at an odd address */
#define RECORD 8     /* bytes of a store in a file */
#define LARGEST 8192 /* the largest room that is lent */
#define UNTOUCHED 0xA5A5A5A5u

struct file {
    size_t length;
    uint8_t bytes[LARGEST];
};

/* what a call may write, the room with its surroundings */
struct lent {
    size_t length;
    uint8_t bytes[EDGE + LARGEST + EDGE];
};

static uint16_t words[KEXBARDI_WORDS + SPARE];
static int64_t records[KEXBARDI_NUMBERS];
static uint8_t left_out[KEXBARDI_WORDS]; /* 1 for the 64 words of samples alone */
static struct file expected;             /* the file of the words */
static struct lent ours, plain;
static uint64_t seed = 88172645463325252u;
static unsigned passed, failed;
static const char *test = "";

static void equals(const char *what, uint64_t is, uint64_t should) {
    if (is != should)
        printf("tests/setup: %s: %s is %llu, not %llu\n", test, what, (unsigned long long)is, (unsigned long long)should);
    if (is == should) passed++;
    else failed++;
}

/* Two pieces of memory are the same, or the first byte that is not is named. */
static void same(const char *what, const void *is, const void *should, size_t bytes) {
    const uint8_t *a = (const uint8_t *)is, *b = (const uint8_t *)should;
    size_t at = 0;
    while (at < bytes && a[at] == b[at]) at++;
    if (at < bytes) printf("tests/setup: %s: %s: byte %u is %02X, not %02X\n", test, what, (unsigned)at, a[at], b[at]);
    if (at == bytes) passed++;
    else failed++;
}

/* 0 to below - 1 */
static unsigned any(unsigned below) {
    seed ^= seed << 13, seed ^= seed >> 7, seed ^= seed << 17;
    return (unsigned)(seed >> 20) % below;
}

/* W2: words 3, 4, 6 and 29 of the sixteen loops */
static void mark_left_out(void) {
    for (unsigned table = 0; table < 512; table += 32)
        left_out[table + 3] = left_out[table + 4] = left_out[table + 6] = left_out[table + 29] = 1;
}

static void begin(const char *name) {
    test = name;
    memset(words, 0, sizeof words);
}

/* ---- what is expected */

static void add_record(const uint8_t record[RECORD]) {
    memcpy(expected.bytes + expected.length, record, RECORD);
    expected.length += RECORD;
}

/* L13: the file of the words as they stand */
static void expect_words(void) {
    expected.length = 0;
    for (unsigned address = 0; address < KEXBARDI_WORDS; address++) {
        const unsigned value = words[address];
        const uint8_t record[RECORD] = {6, 0, 1, 0, (uint8_t)(address % 256), (uint8_t)(address / 256), (uint8_t)(value % 256),
            (uint8_t)(value / 256)};
        if (value != 0 && !left_out[address]) add_record(record);
    }
}

static uint64_t words_handed_on(void) {
    uint64_t count = 0;
    for (unsigned address = 0; address < KEXBARDI_WORDS; address++) count += words[address] != 0 && !left_out[address];
    return count;
}

/* ---- calls */

/* A call on the words as they stand, and the same of the plain engine. Where it is accepted the expected file and its length are
 * written, else nothing; all other memory stays. */
static void setup(const char *what, size_t words_length, size_t room, uint8_t answer) {
    static uint16_t words_before[KEXBARDI_WORDS + SPARE];
    static struct lent after;
    memset(after.bytes, (int)any(256), sizeof after.bytes);
    after.length = UNTOUCHED;
    ours = plain = after;
    memcpy(words_before, words, sizeof words);
    equals(what, kexbardi_setup(words, words_length, ours.bytes + EDGE, room, &ours.length), answer);
    equals("the plain engine's answer", plain_setup(words, words_length, plain.bytes + EDGE, room, &plain.length), answer);
    if (answer == 0) {
        memcpy(after.bytes + EDGE, expected.bytes, expected.length);
        after.length = expected.length;
    }
    equals("the length", ours.length, after.length);
    equals("the plain engine's length", plain.length, after.length);
    same("the lent bytes, the room from 13 on", ours.bytes, after.bytes, sizeof after.bytes);
    same("the plain engine's lent bytes", plain.bytes, after.bytes, sizeof after.bytes);
    same("the words", words, words_before, sizeof words);
}

/* The words have the expected file, in much room and in as much as it needs; a byte less is refused (N10). */
static void has_file(void) {
    setup("the answer in much room", KEXBARDI_WORDS, LARGEST, 0);
    setup("the answer in just enough room", KEXBARDI_WORDS, expected.length, 0);
    if (expected.length > 0) setup("the answer in a byte less", KEXBARDI_WORDS, expected.length - 1, 10);
}

/* The file that the last call wrote; an empty one where it was refused. */
static struct file written(void) {
    struct file file = {0, {0}};
    if (ours.length <= LARGEST) file.length = ours.length, memcpy(file.bytes, ours.bytes + EDGE, ours.length);
    return file;
}

/* ---- single words */

static void each_word_alone(void) {
    static char name[64];
    unsigned empty = 0;
    for (unsigned address = 0; address < KEXBARDI_WORDS; address++) {
        snprintf(name, sizeof name, "address %u alone", address);
        begin(name);
        words[address] = (uint16_t)(1 + any(65535));
        expect_words();
        has_file();
        setup("the answer in room for one record", KEXBARDI_WORDS, RECORD, 0);
        equals("the length", ours.length, left_out[address] ? 0 : RECORD);
        empty += ours.length == 0;
    }
    test = "each word alone";
    equals("the number of empty files", empty, 64);
}

struct number {
    unsigned number;
    uint8_t low, high;
};

/* 255, 256 and 511 are words 31, 0 and 31 of loops; 515 is no word of a loop */
static const struct number some_addresses[] = {{0, 0x00, 0x00}, {28, 0x1C, 0x00}, {255, 0xFF, 0x00}, {256, 0x00, 0x01},
    {511, 0xFF, 0x01}, {512, 0x00, 0x02}, {515, 0x03, 0x02}, {1023, 0xFF, 0x03}};
static const struct number some_values[] = {{0x0001, 0x01, 0x00}, {0x00FF, 0xFF, 0x00}, {0x0100, 0x00, 0x01}, {0x1234, 0x34, 0x12},
    {0xFFFF, 0xFF, 0xFF}};

/* both bytes of address and value */
static void exact_bytes(void) {
    for (unsigned m = 0; m < sizeof some_addresses / sizeof *some_addresses; m++)
        for (unsigned n = 0; n < sizeof some_values / sizeof *some_values; n++) {
            const struct number *a = &some_addresses[m], *v = &some_values[n];
            const uint8_t record[RECORD] = {0x06, 0x00, 0x01, 0x00, a->low, a->high, v->low, v->high};
            begin("exact bytes");
            words[a->number] = (uint16_t)v->number;
            expected.length = 0;
            add_record(record);
            has_file();
        }
}

/* A word and its record, by hand. */
struct store {
    uint16_t address, value;
    uint8_t record[RECORD];
};

/* The words have these values, and these records are their file. */
static void has_stores(const struct store *stores, unsigned count) {
    expected.length = 0;
    for (unsigned n = 0; n < count; n++) {
        equals("the word", words[stores[n].address], stores[n].value);
        add_record(stores[n].record);
    }
    has_file();
}

/* Requests and commands that wait, where a profile stands, and in the free half the places that no loop has there. */
static const struct store handed_on[] = {
    {0, 0x0007, {0x06, 0x00, 0x01, 0x00, 0x00, 0x00, 0x07, 0x00}},    /* loop 1: Manual, Automatic and Cascade requested */
    {27, 0x000F, {0x06, 0x00, 0x01, 0x00, 0x1B, 0x00, 0x0F, 0x00}},   /* Start, Hold, Resume, Jog */
    {32, 0x0802, {0x06, 0x00, 0x01, 0x00, 0x20, 0x00, 0x02, 0x08}},   /* loop 2: a profile, and Automatic requested */
    {59, 0x0300, {0x06, 0x00, 0x01, 0x00, 0x3B, 0x00, 0x00, 0x03}},   /* segment 3, no command */
    {480, 0x0004, {0x06, 0x00, 0x01, 0x00, 0xE0, 0x01, 0x04, 0x00}},  /* loop 16: Cascade requested */
    {507, 0x1048, {0x06, 0x00, 0x01, 0x00, 0xFB, 0x01, 0x48, 0x10}},  /* segment 16, held, Jog */
    {515, 0x0001, {0x06, 0x00, 0x01, 0x00, 0x03, 0x02, 0x01, 0x00}},  /* 512 and 3, 4, 6, 29 */
    {516, 0x0002, {0x06, 0x00, 0x01, 0x00, 0x04, 0x02, 0x02, 0x00}},
    {518, 0x0003, {0x06, 0x00, 0x01, 0x00, 0x06, 0x02, 0x03, 0x00}},
    {541, 0x0004, {0x06, 0x00, 0x01, 0x00, 0x1D, 0x02, 0x04, 0x00}},
    {995, 0x0005, {0x06, 0x00, 0x01, 0x00, 0xE3, 0x03, 0x05, 0x00}},  /* 992 and 3, 4, 6, 29 */
    {996, 0x0006, {0x06, 0x00, 0x01, 0x00, 0xE4, 0x03, 0x06, 0x00}},
    {998, 0x0007, {0x06, 0x00, 0x01, 0x00, 0xE6, 0x03, 0x07, 0x00}},
    {1021, 0x0008, {0x06, 0x00, 0x01, 0x00, 0xFD, 0x03, 0x08, 0x00}},
};

static void words_like_any_other(void) {
    const unsigned count = sizeof handed_on / sizeof *handed_on;
    begin("requests, commands and the free half");
    for (unsigned n = 0; n < count; n++) words[handed_on[n].address] = handed_on[n].value;
    for (unsigned loop = 0; loop < 16; loop++) /* PV, bias, status and fault are there, and are not handed on */
        words[32 * loop + 3] = words[32 * loop + 4] = words[32 * loop + 6] = words[32 * loop + 29] = 2;
    has_stores(handed_on, count);
}

/* ---- random memories */

/* one byte of a word alone counts too */
static unsigned any_value(void) {
    const unsigned kind = any(4);
    return kind == 0 ? 1 + any(255) : kind == 1 ? 256 * (1 + any(255)) : 1 + any(65535);
}

/* The written file carried out from reset, on memory that held other things: its words come back, the others and all numbers are 0,
 * and the words that came back have the same file. */
static void runs_back(void) {
    static uint16_t should[KEXBARDI_WORDS + SPARE], kept[KEXBARDI_WORDS + SPARE];
    static int64_t zeros[KEXBARDI_NUMBERS];
    static uint8_t answers[LARGEST / RECORD], accepted[LARGEST / RECORD];
    size_t count = UNTOUCHED, refused = UNTOUCHED;
    const struct file file = written();
    memcpy(kept, words, sizeof words);
    memset(should, 0xA5, sizeof should);
    for (unsigned address = 0; address < KEXBARDI_WORDS; address++) should[address] = left_out[address] ? 0 : words[address];
    memset(words, 0xA5, sizeof words);
    memset(records, 0xA5, sizeof records);
    memset(answers, 0xA5, sizeof answers);
    equals("reset", kexbardi_reset(words, KEXBARDI_WORDS, records, KEXBARDI_NUMBERS), 0);
    equals("run", kexbardi_run(file.bytes, file.length, words, KEXBARDI_WORDS, records, KEXBARDI_NUMBERS, answers, sizeof answers,
        &count, &refused), 0);
    equals("the number of records", count, expected.length / RECORD);
    equals("the number of refused records", refused, 0);
    same("the answers to the records", answers, accepted, expected.length / RECORD);
    same("the words that came back", words, should, sizeof words);
    same("the numbers", records, zeros, sizeof records);
    setup("the answer of the words that came back", KEXBARDI_WORDS, LARGEST, 0);
    memcpy(words, kept, sizeof words);
}

static void other_words_of_samples(void) {
    for (unsigned address = 0; address < KEXBARDI_WORDS; address++)
        if (left_out[address]) words[address] = (uint16_t)any(65536);
    setup("the answer with other words of samples", KEXBARDI_WORDS, LARGEST, 0);
}

/* Each word that can be handed on changed alone, now and then to 0: the file is that of the changed words, and not the former. */
static void other_files(void) {
    static struct file former;
    unsigned refused = 0, alike = 0, wrong = 0;
    former = expected;
    for (unsigned address = 0; address < KEXBARDI_WORDS; address++) {
        if (left_out[address]) continue;
        const uint16_t was = words[address];
        words[address] = (uint16_t)(was != 0 && any(3) == 0 ? 0 : was ^ (1 + any(65535)));
        expect_words();
        refused += kexbardi_setup(words, KEXBARDI_WORDS, ours.bytes + EDGE, LARGEST, &ours.length) != 0;
        const uint8_t *is = ours.bytes + EDGE;
        alike += ours.length == former.length && memcmp(is, former.bytes, former.length) == 0;
        wrong += ours.length != expected.length || memcmp(is, expected.bytes, expected.length) != 0;
        words[address] = was;
    }
    equals("the number of changed memories that are refused", refused, 0);
    equals("the number of changed words that leave the file as it was", alike, 0);
    equals("the number of changed words with a wrong file", wrong, 0);
}

/* so many words of 1,024 are not 0 */
static void random_memory(unsigned many) {
    static char name[64];
    snprintf(name, sizeof name, "%u words of 1,024, from seed %llu", many, (unsigned long long)seed);
    begin(name);
    for (unsigned address = 0; address < KEXBARDI_WORDS; address++)
        words[address] = (uint16_t)(any(1024) < many ? any_value() : 0);
    expect_words();
    has_file();
    setup("the answer in the room that is always enough", KEXBARDI_WORDS, KEXBARDI_SETUP_ROOM, 0);
    equals("the length, of the words counted", ours.length, RECORD * words_handed_on());
    runs_back();
    other_words_of_samples();
    other_files();
}

/* ---- room and lengths */

/* three words that are handed on, 24 bytes, and two that are not */
static void begin_three(const char *name) {
    begin(name);
    words[31] = 31, words[32] = 0x3232, words[1000] = 0x1000;
    words[3] = words[36] = 4; /* a PV, a bias */
    expect_words();
    equals("the expected length", expected.length, 24);
}

static void rooms(void) {
    begin_three("room");
    for (size_t room = 0; room < 24; room++) setup("the answer in less room", KEXBARDI_WORDS, room, 10);
    for (size_t room = 24; room < 48; room++) setup("the answer in enough room", KEXBARDI_WORDS, room, 0);
}

/* 5 is tested before 10 */
static void lengths(void) {
    static const size_t wrong[] = {0, 1, 32, 512, 1023, 1025, 1040}, some_rooms[] = {0, 23, 24, LARGEST};
    begin_three("words of a wrong length");
    for (unsigned m = 0; m < sizeof wrong / sizeof *wrong; m++)
        for (unsigned n = 0; n < sizeof some_rooms / sizeof *some_rooms; n++) setup("the answer", wrong[m], some_rooms[n], 5);
    begin("words of a wrong length, all 0");
    setup("the answer to 1,023", 1023, 0, 5);
    setup("the answer to 1,025", 1025, 0, 5);
}

static void empty_files(void) {
    begin("words that are all 0");
    expected.length = 0;
    has_file();
    runs_back();
    for (unsigned address = 0; address < KEXBARDI_WORDS; address++) words[address] = (uint16_t)(left_out[address] ? 0xFFFF : 0);
    test = "words of samples alone";
    has_file();
    runs_back();
}

static void all_words(void) {
    begin("all words 0xFFFF");
    memset(words, 0xFF, sizeof words);
    expect_words();
    equals("the expected length", expected.length, 7680);
    equals("KEXBARDI_SETUP_ROOM", KEXBARDI_SETUP_ROOM, 7680);
    setup("the answer in a byte less than KEXBARDI_SETUP_ROOM", KEXBARDI_WORDS, KEXBARDI_SETUP_ROOM - 1, 10);
    setup("the answer in KEXBARDI_SETUP_ROOM", KEXBARDI_WORDS, KEXBARDI_SETUP_ROOM, 0);
    runs_back();
}

/* ---- the worked loop, X1 */

#define LOOP_A_STORES 48 /* bytes of records 1 to 6 */
static const uint8_t loop_a[] = {
    0x06, 0x00, 0x01, 0x00, 0x05, 0x00, 0xD0, 0x07, 0x06, 0x00, 0x01, 0x00, 0x19, 0x00, 0xFF, 0x0F,
    0x06, 0x00, 0x01, 0x00, 0x07, 0x00, 0x00, 0x01, 0x06, 0x00, 0x01, 0x00, 0x08, 0x00, 0x00, 0x02,
    0x06, 0x00, 0x01, 0x00, 0x09, 0x00, 0x00, 0x10, 0x06, 0x00, 0x01, 0x00, 0x00, 0x00, 0x02, 0x00,
    0x05, 0x00, 0x02, 0x00, 0x01, 0xE8, 0x03, 0x06, 0x00, 0x01, 0x00, 0x02, 0x00, 0xDC, 0x05,
    0x05, 0x00, 0x02, 0x00, 0x01, 0xE8, 0x03, 0x05, 0x00, 0x02, 0x00, 0x11, 0x00, 0x00};

/* Behind record 10. PV 1,000, bias 2,100 and status 0002 stand in words 3, 4 and 6, and are left out. Word 0 is 0: it was 2,
 * Automatic requested, and the sample of record 7 turned the request off (A2). Words 27 and 29 are 0 (G4). */
static const struct store worked[] = {
    {2, 1500, {0x06, 0x00, 0x01, 0x00, 0x02, 0x00, 0xDC, 0x05}},    /* as stored by record 8 */
    {5, 3100, {0x06, 0x00, 0x01, 0x00, 0x05, 0x00, 0x1C, 0x0C}},    /* the output of record 9 */
    {7, 0x0100, {0x06, 0x00, 0x01, 0x00, 0x07, 0x00, 0x00, 0x01}},  /* 1.00 s */
    {8, 0x0200, {0x06, 0x00, 0x01, 0x00, 0x08, 0x00, 0x00, 0x02}},  /* 2.00 */
    {9, 0x1000, {0x06, 0x00, 0x01, 0x00, 0x09, 0x00, 0x00, 0x10}},  /* 10.00 s */
    {25, 4095, {0x06, 0x00, 0x01, 0x00, 0x19, 0x00, 0xFF, 0x0F}},
};
static const char worked_lines[] = "1 set 2 1500\n2 set 5 3100\n3 set 7 256\n4 set 8 512\n5 set 9 4096\n6 set 25 4095\n"
    "6 records, 0 refused\n";

/* The same behind record 6: the request waits. */
static const struct store as_built[] = {
    {0, 2, {0x06, 0x00, 0x01, 0x00, 0x00, 0x00, 0x02, 0x00}},
    {5, 2000, {0x06, 0x00, 0x01, 0x00, 0x05, 0x00, 0xD0, 0x07}},
    {7, 0x0100, {0x06, 0x00, 0x01, 0x00, 0x07, 0x00, 0x00, 0x01}},
    {8, 0x0200, {0x06, 0x00, 0x01, 0x00, 0x08, 0x00, 0x00, 0x02}},
    {9, 0x1000, {0x06, 0x00, 0x01, 0x00, 0x09, 0x00, 0x00, 0x10}},
    {25, 4095, {0x06, 0x00, 0x01, 0x00, 0x19, 0x00, 0xFF, 0x0F}},
};
/* Records 7 to 10 behind it do what they do in X1. */
static const char as_built_lines[] = "1 set 0 2\n2 set 5 2000\n3 set 7 256\n4 set 8 512\n5 set 9 4096\n6 set 25 4095\n"
    "7 loop 1 sp 1000 pv 1000 out 2000 word 0002\n8 set 2 1500\n9 loop 1 sp 1500 pv 1000 out 3100 word 0002\n10 refused 4\n"
    "10 records, 1 refused\n";

/* The words as the first bytes of loop A leave them, from reset. */
static void run_loop_a(size_t bytes, size_t refusals) {
    uint8_t answers[10];
    size_t count, refused = UNTOUCHED;
    equals("reset", kexbardi_reset(words, KEXBARDI_WORDS, records, KEXBARDI_NUMBERS), 0);
    equals("run", kexbardi_run(loop_a, bytes, words, KEXBARDI_WORDS, records, KEXBARDI_NUMBERS, answers, 10, &count, &refused), 0);
    equals("the number of refused records", refused, refusals);
}

static void prints(const struct file *file, const char *lines) {
    static uint8_t text[KEXBARDI_PRINT_ROOM(LARGEST)];
    size_t length = UNTOUCHED;
    equals("print", kexbardi_print(file->bytes, file->length, text, sizeof text, &length), 0);
    equals("the length of the lines", length, strlen(lines));
    same("the lines", text, lines, strlen(lines));
}

static void worked_loop(void) {
    begin("the worked loop");
    run_loop_a(sizeof loop_a, 1);
    equals("word 0", words[0], 0);
    equals("word 3", words[3], 1000);
    equals("word 4", words[4], 2100);
    equals("word 6", words[6], 2);
    has_stores(worked, sizeof worked / sizeof *worked);
    setup("the answer", KEXBARDI_WORDS, 48, 0);
    const struct file file = written();
    prints(&file, worked_lines);
    runs_back();
}

static void worked_loop_as_built(void) {
    const size_t rest = sizeof loop_a - LOOP_A_STORES;
    begin("the worked loop before its samples");
    run_loop_a(LOOP_A_STORES, 0);
    has_stores(as_built, sizeof as_built / sizeof *as_built);
    setup("the answer", KEXBARDI_WORDS, 48, 0);
    struct file file = written();
    runs_back();
    if (file.length + rest <= LARGEST) memcpy(file.bytes + file.length, loop_a + LOOP_A_STORES, rest), file.length += rest;
    prints(&file, as_built_lines);
}

int main(int count, char **args) {
    static const unsigned densities[] = {3, 60, 512, 1000, 1024};
    unsigned long memories = count == 2 ? strtoul(args[1], NULL, 10) : 20;
    mark_left_out();
    each_word_alone();
    exact_bytes();
    words_like_any_other();
    for (; memories > 0; memories--)
        for (unsigned n = 0; n < sizeof densities / sizeof *densities; n++) random_memory(densities[n]);
    rooms();
    lengths();
    empty_files();
    all_words();
    worked_loop();
    worked_loop_as_built();
    printf("%u passed, %u failed\n", passed, failed);
    return failed != 0;
}
