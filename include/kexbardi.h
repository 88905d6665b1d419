/* Kexbardi: sixteen PID loops with the behaviour of the D4-454 controller, as a part to link.
 *
 * Every function works on memory that the caller lends, allocates nothing and keeps nothing between
 * calls, so any number of desks can run side by side, each in a thread of its own.
 *
 * A desk is two pieces of memory:
 *   words    KEXBARDI_WORDS words of 16 bits: 32 words for each loop, then free words, among them the tables of
 *            ramp/soak profiles
 *   records  KEXBARDI_NUMBERS numbers of 64 bits: what each loop carries from sample to sample
 * Between calls the caller may read and write the words, and save, load or copy both.
 *
 * Every function but kexbardi_version answers 0, or the number of the refusal (enum kexbardi_refusal).
 * A refusal leaves all lent memory as it was.
 *
 * The caller sees to it that
 *   - a pointer is not null (where the length is 0 too: pass the address of anything), is aligned for its
 *     type, and points to as many elements as the length after it says, or as the array's size in the
 *     declaration says;
 *   - memory that a function writes does not overlap any other memory lent to the same call;
 *   - no other thread uses that memory during the call.
 * Nothing else is asked: words, records and files may hold anything.
 *
 * Loop, address and raw PV are 64 bits wide, so that no integer of a C program is cut on its way in: loop
 * 257 is refused with 4, address 66,000 with 6, raw PV 70,000 with 9, and so is -1. A value that is stored
 * is a word of 16 bits: the C compiler cuts a wider one before the call, silently unless -Wconversion is on.
 *
 * MANUAL.md, packaged beside this header's folder, has the rules that are cited here by their numbers (W1,
 * A4, N8); INTEGRATION.md there is about linking. For x86-64 Linux, C99 or later and C++. */
#ifndef KEXBARDI_H
#define KEXBARDI_H

#include <stddef.h>
#include <stdint.h>

#ifdef __cplusplus
extern "C" {
#endif

/* The version: major, minor, patch as MMmmpp, written in when the part is packaged. CHANGELOG.md says what a
 * change of each means. */
#define KEXBARDI_VERSION @VERSION@
#define KEXBARDI_MAJOR(version) ((version) / 10000)

/* Desks that were saved with any version from this one up to kexbardi_version() may be loaded. Older ones have
 * shorter records: CHANGELOG.md says how they are carried over. */
#define KEXBARDI_OLDEST_SAVE 50000

/* ---- the words (W1, W2) */

#define KEXBARDI_LOOPS 16
#define KEXBARDI_WORDS 1024     /* length of the words */
#define KEXBARDI_LOOP_WORDS 32  /* words of each loop */
#define KEXBARDI_FIRST_FREE 512 /* words from here to 1,023 belong to no loop; profile tables stand here */

/* The address of a loop's word; loops count from 1, `offset` is one of those below. Nothing is tested here: a loop
 * above 16 gives a free word, and a store there is accepted. */
#define KEXBARDI_ADDRESS(loop, offset) (KEXBARDI_LOOP_WORDS * ((loop) - 1) + (offset))

enum kexbardi_word {
    KEXBARDI_MODE_1 = 0,      /* bits KEXBARDI_M1_.. */
    KEXBARDI_MODE_2 = 1,      /* bits KEXBARDI_M2_.. */
    KEXBARDI_SETPOINT = 2,
    KEXBARDI_PV = 3,          /* for samples: not stored */
    KEXBARDI_BIAS = 4,        /* for samples: not stored */
    KEXBARDI_OUTPUT = 5,
    KEXBARDI_STATUS = 6,      /* bits KEXBARDI_S_..; for samples: not stored */
    KEXBARDI_PERIOD = 7,      /* BCD, hundredths of a second */
    KEXBARDI_GAIN = 8,        /* BCD, hundredths */
    KEXBARDI_RESET = 9,       /* BCD, hundredths of a second, or of a minute; or KEXBARDI_RESET_OFF */
    KEXBARDI_RATE = 10,       /* BCD, hundredths of a second */
    KEXBARDI_LOW_LOW = 11,
    KEXBARDI_LOW = 12,
    KEXBARDI_HIGH = 13,
    KEXBARDI_HIGH_HIGH = 14,
    KEXBARDI_YELLOW = 15,     /* deviation */
    KEXBARDI_RED = 16,        /* deviation */
    KEXBARDI_CHANGE = 17,     /* rate of change of the PV */
    KEXBARDI_HYSTERESIS = 18,
    KEXBARDI_DEADBAND = 19,   /* of the error */
    KEXBARDI_OUTPUT_LOW = 24,
    KEXBARDI_OUTPUT_HIGH = 25,
    KEXBARDI_POINTER = 26,    /* the address of the setpoint in Cascade */
    KEXBARDI_PROFILE_FLAGS = 27, /* bits KEXBARDI_P_.. */
    KEXBARDI_PROFILE_TABLE = 28, /* the address of the profile's table */
    KEXBARDI_PROFILE_FAULT = 29  /* enum kexbardi_fault; for samples: not stored */
};

/* BCD (W3): period, gain, reset, rate and a ramp's slope are four decimal digits, one in each four bits, and
 * count hundredths. 2.00 is 200 hundredths and the word 0x0200; the plain number 200 is 0x00C8, whose C is no
 * digit, and a sample with it is refused with 7. A soak's duration counts tenths: see KEXBARDI_DURATION.
 * KEXBARDI_BCD takes whole hundredths, an integer: KEXBARDI_BCD(200) is 0x0200. KEXBARDI_BCD_OF takes the value
 * itself, as a double or an integer, and rounds it: KEXBARDI_BCD_OF(2.00) is 0x0200. What four digits cannot
 * hold (negative, above 99.99, no number) becomes 0xFFFF, which is refused with 7 as well. The arguments are
 * evaluated more than once. */
#define KEXBARDI_BCD(hundredths) \
    ((uint16_t)((uint64_t)(hundredths) > 9999 ? 0xFFFF : KEXBARDI_BCD_DIGITS(hundredths)))
#define KEXBARDI_BCD_OF(value) \
    ((uint16_t)((double)(value) >= 0 && (double)(value) < 99.995 \
        ? KEXBARDI_BCD_DIGITS((double)(value) * 100 + 0.5) : 0xFFFF))

/* The digits alone, of 0 to 9999 hundredths: for the two above. */
#define KEXBARDI_BCD_DIGITS(hundredths) \
    ((uint64_t)(hundredths) / 1000 * 4096 + (uint64_t)(hundredths) / 100 % 10 * 256 \
        + (uint64_t)(hundredths) / 10 % 10 * 16 + (uint64_t)(hundredths) % 10)

/* And back, of a word whose digits are decimal: KEXBARDI_HUNDREDTHS(0x0200) is 200. */
#define KEXBARDI_HUNDREDTHS(word) \
    ((uint16_t)(word) / 4096 * 1000 + (uint16_t)(word) / 256 % 16 * 100 \
        + (uint16_t)(word) / 16 % 16 * 10 + (uint16_t)(word) % 16)

#define KEXBARDI_RESET_OFF 0x9999 /* the reset time that stands for no reset action (A7) */

/* Mode 1, word 0 (M1). Bit 9 has to be off (refusal 8); bit 15 is ignored. */
enum kexbardi_mode_1 {
    KEXBARDI_M1_MANUAL = 0x0001,           /* requests: the next sample obeys the lowest and clears all three */
    KEXBARDI_M1_AUTOMATIC = 0x0002,
    KEXBARDI_M1_CASCADE = 0x0004,
    KEXBARDI_M1_BUMPLESS_II = 0x0008,      /* off: Bumpless I, the setpoint becomes the PV at an entry to Automatic,
                                              unless a profile runs (A4, G11) or a mark alone makes the entry
                                              (A13), and from Automatic to Cascade the
                                              setpoint and the major loop's output become the PV (A13) */
    KEXBARDI_M1_REVERSE = 0x0010,          /* the output rises with the PV; off: it falls as the PV rises (M1) */
    KEXBARDI_M1_VELOCITY = 0x0020,         /* velocity form; off: position form */
    KEXBARDI_M1_ROOT = 0x0040,             /* the PV is the root of raw PV x input's full scale, to the nearest count (A1) */
    KEXBARDI_M1_SQUARED = 0x0080,          /* error squared */
    KEXBARDI_M1_DEADBAND = 0x0100,         /* error deadband of KEXBARDI_DEADBAND */
    KEXBARDI_M1_FREEZE = 0x0400,           /* the bias is frozen while the output would pass a limit */
    KEXBARDI_M1_PROFILE = 0x0800,          /* the loop has a ramp/soak profile; off: none, and outside Cascade one ends */
    KEXBARDI_M1_PV_ALARMS = 0x1000,        /* low-low, low, high, high-high */
    KEXBARDI_M1_DEVIATION_ALARMS = 0x2000, /* yellow, red */
    KEXBARDI_M1_RATE_ALARM = 0x4000        /* change of the PV */
};
#define KEXBARDI_M1_REQUESTS 0x0007        /* the three requests */

/* Mode 2, word 1 (M2). Bit 8 is ignored; all others have to be off, and the last two without OUTPUT_FORMAT too
 * (refusal 8). */
enum kexbardi_mode_2 {
    KEXBARDI_M2_FIFTEEN_BITS = 0x0002,     /* of the input, and without OUTPUT_FORMAT of the output */
    KEXBARDI_M2_RESET_MINUTES = 0x0010,
    KEXBARDI_M2_SIXTEEN_BITS = 0x0200,     /* prevails over FIFTEEN_BITS; with neither, 12 bits */
    KEXBARDI_M2_OUTPUT_FORMAT = 0x0400,    /* the output has a format of its own, by the two below; off: the format above
                                              is that of both. On, PVs and setpoint are converted to counts of the
                                              output for error and rate (M7) */
    KEXBARDI_M2_OUTPUT_FIFTEEN_BITS = 0x1000,
    KEXBARDI_M2_OUTPUT_SIXTEEN_BITS = 0x2000 /* prevails over OUTPUT_FIFTEEN_BITS; with neither, 12 bits */
};

/* The full scales of the three formats; and of a mode 2 word that of the input, for raw PV, setpoint and ramp ends, and
 * that of the output, for the output limits (M3). */
#define KEXBARDI_FULL_12 4095
#define KEXBARDI_FULL_15 32767
#define KEXBARDI_FULL_16 65535
#define KEXBARDI_FULL_SCALE(word) \
    ((word) & KEXBARDI_M2_SIXTEEN_BITS ? KEXBARDI_FULL_16 \
        : (word) & KEXBARDI_M2_FIFTEEN_BITS ? KEXBARDI_FULL_15 : KEXBARDI_FULL_12)
#define KEXBARDI_OUTPUT_FULL_SCALE(word) \
    (!((word) & KEXBARDI_M2_OUTPUT_FORMAT) ? KEXBARDI_FULL_SCALE(word) \
        : (word) & KEXBARDI_M2_OUTPUT_SIXTEEN_BITS ? KEXBARDI_FULL_16 \
        : (word) & KEXBARDI_M2_OUTPUT_FIFTEEN_BITS ? KEXBARDI_FULL_15 : KEXBARDI_FULL_12)

/* Status, word 6 (section 7 of MANUAL.md). */
enum kexbardi_status {
    KEXBARDI_S_MANUAL = 0x0001,
    KEXBARDI_S_AUTOMATIC = 0x0002,
    KEXBARDI_S_CASCADE = 0x0004,
    KEXBARDI_S_LOW_LOW = 0x0008,
    KEXBARDI_S_LOW = 0x0010,
    KEXBARDI_S_HIGH = 0x0020,
    KEXBARDI_S_HIGH_HIGH = 0x0040,
    KEXBARDI_S_YELLOW = 0x0080,
    KEXBARDI_S_RED = 0x0100,
    KEXBARDI_S_RATE = 0x0200,              /* the PV changed by more than KEXBARDI_CHANGE */
    KEXBARDI_S_ALARM_SETTINGS = 0x0400,    /* alarm limits that contradict each other (B6) */
    KEXBARDI_S_AT_LIMIT = 0x0800           /* the output is at a limit and the PV is not at the setpoint (B7) */
};
#define KEXBARDI_S_ALARMS 0x03F8           /* the seven alarms, from low-low to rate */

/* ---- ramp/soak profiles (G1 to G12)
 *
 * A profile has up to sixteen segments: odd ones are ramps, which move the setpoint to an end value, even ones soaks,
 * which keep it for a duration. With KEXBARDI_M1_PROFILE on, each accepted sample of the loop moves a started profile on
 * by one period, in Manual too; in Cascade it waits (G3). */

/* The table (G1): KEXBARDI_TABLE_WORDS words from the address in KEXBARDI_PROFILE_TABLE on, two for each segment.
 * Loops may share a table, and no sample writes one. */
#define KEXBARDI_TABLE_FIRST 512 /* the lowest address of a table, and the highest; another is a fault (G2) */
#define KEXBARDI_TABLE_LAST 992
#define KEXBARDI_TABLE_WORDS 32
#define KEXBARDI_SEGMENTS 16

/* The place of segment n, 1 to 16, in its table; the words of a ramp or a soak count from there: in a table at 512
 * the slope of segment 3 is word 512 + KEXBARDI_SEGMENT(3) + KEXBARDI_SLOPE. Nothing is tested here. */
#define KEXBARDI_SEGMENT(n) (2 * ((n) - 1))

enum kexbardi_ramp {
    KEXBARDI_END = 0,      /* the setpoint at its end: binary, up to the input's full scale (refusal 8) */
    KEXBARDI_SLOPE = 1     /* BCD, hundredths of a count a second, up or down as the end lies; 0 ends the profile */
};
enum kexbardi_soak {
    KEXBARDI_DURATION = 0, /* BCD, tenths of a minute: KEXBARDI_BCD(15) is 1.5 minutes */
    KEXBARDI_DEVIATION = 1 /* how far PV and setpoint may be apart: binary; 0 for any distance (G10) */
};

/* Profile flags, word 27 (G5, G10). The first four are commands. The next accepted sample outside Cascade clears
 * them, and with KEXBARDI_M1_PROFILE on and a good table address it obeys the lowest; the others are lost. All other
 * bits are written by samples and never read, so a command may be stored alone, or or-ed into the word. */
enum kexbardi_profile_flags {
    KEXBARDI_P_START = 0x0001,     /* segment 1, from the setpoint as it stands; begins a running profile anew, too */
    KEXBARDI_P_HOLD = 0x0002,      /* the profile stands still and counts no time */
    KEXBARDI_P_RESUME = 0x0004,    /* a held profile goes on */
    KEXBARDI_P_JOG = 0x0008,       /* the next segment, setpoint and hold as they stand; in 16 the profile completes */
    KEXBARDI_P_COMPLETE = 0x0010,  /* the profile came to its end */
    KEXBARDI_P_DEVIATION = 0x0020, /* in a soak: PV and setpoint are farther apart than its KEXBARDI_DEVIATION */
    KEXBARDI_P_HELD = 0x0040       /* the profile is held */
};

/* The segment in a word 27: 1 to 16, or 0 for none; in Cascade as it last stood. */
#define KEXBARDI_P_SEGMENT(word) ((uint16_t)(word) / 256)

/* Profile fault, word 29 (G2), as of the last accepted sample outside Cascade: 0, or with KEXBARDI_M1_PROFILE on what is
 * wrong with the table's address. There is no profile then, and one that ran has ended (G4). */
enum kexbardi_fault {
    KEXBARDI_FAULT_BELOW = 1, /* below KEXBARDI_TABLE_FIRST */
    KEXBARDI_FAULT_ABOVE = 2  /* above KEXBARDI_TABLE_LAST */
};

/* ---- the records (H1 to H5) */

#define KEXBARDI_FIELDS 14     /* numbers of each record */
#define KEXBARDI_NUMBERS 224   /* length of the records: 16 of 14 numbers, loop 1 first */
#define KEXBARDI_UNITS 262144  /* units of a count: bias and output are carried in units */

/* The numbers of a record, in order, and the lowest and highest that each may be. At reset all fourteen are 0.
 *
 *                 lowest                    highest
 *   mode          0                         2                       one of enum kexbardi_mode
 *   bias          -4,503,599,627,370,496    4,503,599,627,370,496   2^52 units
 *   output        0                         17,179,607,040          65,535 counts
 *   last PV       0                         65,535
 *   PV before it  0                         65,535                  both in counts of the input
 *   last error    -65,535                   65,535                  in counts of the output
 *   velocity      0                         1                       the form of mode 1 then: 0 position, 1 velocity
 *   sampled       0                         1                       1 once a sample of the loop was accepted
 *   segment       0                         16                      of the profile; 0 for none
 *   hold          0                         1                       1 while the profile is held
 *   complete      0                         1                       1 once the profile came to its end
 *   fraction      0                         9,999                   of the setpoint, ten-thousandths of a count
 *   time          0                         6,000,000               of the soak so far, hundredths of a second
 *   mark          0                         1                       1 from another loop's transfer to this one to the
 *                                                                   next accepted sample outside Manual (A13)
 *
 * A record with a number outside these is refused with 5, and all fourteen numbers stay as they are. */
enum kexbardi_field {
    KEXBARDI_FIELD_MODE = 0,
    KEXBARDI_FIELD_BIAS = 1,
    KEXBARDI_FIELD_OUTPUT = 2,
    KEXBARDI_FIELD_LAST_PV = 3,
    KEXBARDI_FIELD_PRIOR_PV = 4,
    KEXBARDI_FIELD_ERROR = 5,
    KEXBARDI_FIELD_VELOCITY = 6,
    KEXBARDI_FIELD_SAMPLED = 7,
    KEXBARDI_FIELD_SEGMENT = 8,
    KEXBARDI_FIELD_HOLD = 9,
    KEXBARDI_FIELD_COMPLETE = 10,
    KEXBARDI_FIELD_FRACTION = 11,
    KEXBARDI_FIELD_TIME = 12,
    KEXBARDI_FIELD_MARK = 13
};

enum kexbardi_mode { KEXBARDI_MANUAL = 0, KEXBARDI_AUTOMATIC = 1, KEXBARDI_CASCADE = 2 };

/* ---- the refusals (N1 to N14), but for 10 by the numbers that instructors know from drill files
 *
 * Each has the words that cause it, and what the instructor does. A sample tests 7, 8, 12, 13, 14, 9 and 11 in this order (O3),
 * a forecast all but 9; the first that holds is the answer, so behind a cause that is put right another may stand. */

enum kexbardi_refusal {
    KEXBARDI_ACCEPTED = 0,
    KEXBARDI_CUT = 1,      /* file: it ends inside a record, which is its last. Get the file again */
    KEXBARDI_KIND = 2,     /* file: a record of no kind, or of one that is unknown. Mend the program that made it */
    KEXBARDI_LENGTH = 3,   /* file: a record whose length its kind does not have. The same */
    KEXBARDI_LOOP = 4,     /* no loop of that number. Take one from 1 to 16 */
    KEXBARDI_MEMORY = 5,   /* the lent memory does not have its length; of kexbardi_print: the room is too short. Mend the
                              program. Or a number of the loop's record is out of range. Load another save, reset the
                              desk, or zero that record */
    KEXBARDI_STORE = 6,    /* store: the address is above 1,023, or is word 3, 4, 6 or 29 of a loop. Store elsewhere */
    KEXBARDI_DIGIT = 7,    /* sample, forecast: word 7, 8, 9 or 10, period, gain, reset and rate, has a digit above 9; or,
                              with KEXBARDI_M1_PROFILE on and a good address in word 28, a slope or duration of the table.
                              Write BCD, or take the profile's bit off, which ends a running profile */
    KEXBARDI_SETTING = 8,  /* sample, forecast: word 0 has KEXBARDI_M1_VELOCITY with KEXBARDI_M1_BUMPLESS_II, or bit 9. Take
                              one of the two off, or bit 9.
                              Word 1 has a bit other than 1, 4, 8, 9, 10, 12 and 13, or bit 12 or 13 without
                              KEXBARDI_M2_OUTPUT_FORMAT, bit 10. Take it off, or put bit 10 on.
                              Word 18, the hysteresis, is not 1 to 200 while KEXBARDI_M1_PV_ALARMS or
                              KEXBARDI_M1_DEVIATION_ALARMS is on. Set it, or take the alarms off.
                              With KEXBARDI_M1_PROFILE on and a good address in word 28, a ramp of the table ends above the
                              input's full scale. Lower that end, or give word 1 the input's format, or take the
                              profile's bit off, which ends a running profile */
    KEXBARDI_ABOVE = 9,    /* sample: the raw PV is above the input's full scale, by word 1. Bring transmitter and word 1
                              together */
    KEXBARDI_ROOM = 10,    /* kexbardi_setup: the room is shorter than the file. Lend KEXBARDI_SETUP_ROOM bytes */
    KEXBARDI_TRANSFER = 11, /* sample, forecast: from Automatic to Cascade with Bumpless I, and word 26, the pointer, is no
                              other loop's output word, or the PV (of a forecast: 0) is below word 24 or above word 25
                              of that loop. Point there; bring the PV inside those limits, or widen them, up to that
                              loop's own full scale; or go by way of Manual */
    KEXBARDI_SETTING_TIMES = 12,   /* sample, forecast: word 7, the period, is below 0.05 s, or word 9, the reset time, is 0.
                              Set both: at reset they are 0. For no reset action store KEXBARDI_RESET_OFF */
    KEXBARDI_SETTING_LIMITS = 13,  /* sample, forecast: word 24, the low output limit, is above word 25, the high one, or
                              word 25 above KEXBARDI_OUTPUT_FULL_SCALE of word 1. Bring the high one down to that, or
                              give word 1 the output's format; then the low one down to the high one */
    KEXBARDI_SETTING_SETPOINT = 14 /* sample, forecast: outside Cascade word 2, the setpoint, is above
                              KEXBARDI_FULL_SCALE of word 1. Lower it. In Cascade word 26, the pointer, is above 1,023, or
                              the word that it names is above that full scale. Point elsewhere, or bring that word down,
                              of a loop's output by that loop's high output limit; or choose another mode. Or give word 1
                              the input's format. A request that waits counts already: with Cascade requested it is
                              Cascade here, whatever the status shows */
};

/* ---- the functions (Q1 to Q13) */

/* KEXBARDI_VERSION as the library was built with it. A program must not use a library whose major number is not
 * its header's: layouts and parameters differ. One that wants the very answers it was tested with compares the
 * whole number. */
uint32_t kexbardi_version(void);

/* Words and records as at reset: all words 0, all numbers 0.
 * Answers 5 where words_length is not 1,024 or records_length is not 224; else 0. */
uint8_t kexbardi_reset(uint16_t *words, size_t words_length, int64_t *records, size_t records_length);

/* Stores a value at an address of the words. The desk is lent whole; no record is looked at or changed.
 * Answers 5 where words_length is not 1,024 or records_length is not 224; 6 where the address is above 1,023
 * or one that is not the caller's to store (offset 3, 4, 6 or 29 of a loop); else 0, and that one word has the
 * value. */
uint8_t kexbardi_store(uint16_t *words, size_t words_length, int64_t *records, size_t records_length,
    uint64_t address, uint16_t value);

/* What kexbardi_sample writes to its line: what the program `drill` prints of a sample. */
#define KEXBARDI_LINE_WORDS 4
enum kexbardi_line {
    KEXBARDI_LINE_SETPOINT = 0,
    KEXBARDI_LINE_PV = 1,
    KEXBARDI_LINE_OUTPUT = 2,
    KEXBARDI_LINE_STATUS = 3
};

/* One sample of a loop, 1 to 16, with a raw PV (A1 to A13).
 * Answers the first of these that holds: 5 for words_length not 1,024 or records_length not 224; 4 for no
 * such loop; 5 where a number of the loop's record is out of range; 7, 8, 12, 13, 14, 9, 11. Else 0: words 0, 2, 3, 5
 * and 6 of the loop, word 4 too in position form outside Manual, words 27 and 29 too outside Cascade, its record and
 * the line are written, and nothing else but at a transfer, from Automatic to Cascade with Bumpless I: then the PV
 * is written to the output word that the pointer names, and 1 to that loop's KEXBARDI_FIELD_MARK (A13). Other
 * loops' records are not looked at, and may hold anything. */
uint8_t kexbardi_sample(uint16_t *words, size_t words_length, int64_t *records, size_t records_length,
    uint64_t loop, uint64_t raw, uint16_t line[4]);

/* The numbers of a loop's record copied out as they stand, if all are in range: the way to test a desk that
 * was loaded.
 * Answers 5 where records_length is not 224; 4 for no such loop; 5 where a number of the record is out of
 * range; else 0, and `fields` has the fourteen numbers. */
uint8_t kexbardi_record(const int64_t *records, size_t records_length, uint64_t loop, int64_t fields[14]);

/* How many samples of a loop its profile takes from here to its end, the one that completes it included (G12): for a
 * lesson's clock. Words and record count as they stand; a hold, Cascade and waiting commands are left out. 0 where no
 * profile runs: KEXBARDI_M1_PROFILE off, a table address that is a fault, segment 0 in the record. It is computed at
 * once, however long the profile is.
 * Answers what kexbardi_sample answers to raw PV 0: 5 for words_length not 1,024 or records_length not 224; 4 for no
 * such loop; 5 where a number of the loop's record is out of range; 7, 8, 12, 13, 14, 11; `samples` stays then. Else 0,
 * and `samples` has the number. Words and records stay in any case. */
uint8_t kexbardi_forecast(const uint16_t *words, size_t words_length, const int64_t *records, size_t records_length,
    uint64_t loop, uint64_t *samples);

/* A whole drill file (L1 to L8), of any length, carried out on the words and records.
 * Answers 5 where words_length is not 1,024 or records_length is not 224; nothing is read then, and nothing
 * written, not into `answers` either. Else 0: each record of the file is carried out or refused, `count` says
 * how many there were and `refused` how many of them were refused, and the answer to each (0 or its number)
 * goes into `answers` in order, as many as fit. A sample of a loop whose record has a number out of range is
 * refused with 5 as in kexbardi_sample: all fourteen numbers stay, and the reading goes on. */
uint8_t kexbardi_run(const uint8_t *file, size_t file_length, uint16_t *words, size_t words_length, int64_t *records,
    size_t records_length, uint8_t *answers, size_t answers_length, size_t *count, size_t *refused);

/* Room that is enough for what kexbardi_print writes of a file of a length. */
#define KEXBARDI_PRINT_ROOM(file_length) (10 * (size_t)(file_length) + 100)

/* The longest file that kexbardi_print and the program `drill` print; of a longer one the text is `too long`. */
#define KEXBARDI_LONGEST 65536

/* What the program `drill` prints of a file (L9 to L11), carried out from reset on words of its own: a line
 * for each record and a last line, or `too long` where the file is above KEXBARDI_LONGEST bytes. It ends with
 * a line feed; no zero byte follows.
 * Answers 5 where out_length is below KEXBARDI_PRINT_ROOM (9 for a file that is too long); else 0: the text
 * stands at the start of `out`, and `length` is its length. Bytes behind it stay. */
uint8_t kexbardi_print(const uint8_t *file, size_t file_length, uint8_t *out, size_t out_length, size_t *length);

/* Room that is enough for the setup file of any words: 960 of them can be handed on, by a record of eight bytes each. */
#define KEXBARDI_SETUP_ROOM 7680

/* The words written as a drill file that rebuilds them from reset (L13): a store for each word that is not 0, in the
 * order of their addresses, without words 3, 4, 6 and 29 of the loops. Requests and commands that wait are words like
 * any other; what the loops carry is not handed on, so rebuilt from the file each loop is in Manual.
 * Answers 5 where words_length is not 1,024; 10 where out_length is below the file's length; nothing is written then,
 * `length` neither. Else 0: the file stands at the start of `out`, and `length` is its length; bytes behind it stay.
 * KEXBARDI_SETUP_ROOM bytes are always enough. The file of words that are all 0 is empty: its length is 0, and a room of
 * 0 bytes is enough for it. */
uint8_t kexbardi_setup(const uint16_t *words, size_t words_length, uint8_t *out, size_t out_length, size_t *length);

#ifdef __cplusplus
}
#endif

#endif
