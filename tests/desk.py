"""A desk in Python, by ctypes alone: python3 tests/desk.py LIBRARY HEADER

It loads the shared library, holds its version and its sizes to the header's, tries the refusals 4, 5, 6, 8, 10, 11 and 12 to 14 by
the header's numbers, runs loop A and writes its setup file, then runs a profile beside its forecast, and a drum-level pair into
Cascade. It prints what the program `drill` prints of examples/loop-a.drill, and fails where a call answers otherwise than the
header says.
"""

import ctypes
import re
import sys
from ctypes import c_int64, c_size_t, c_uint8, c_uint16, c_uint32, c_uint64

library = ctypes.CDLL(sys.argv[1])
with open(sys.argv[2], encoding="ascii") as header:
    text = header.read()
defined = {name: int(value) for name, value in re.findall(r"^#define KEXBARDI_(\w+) (\d+)\b", text, re.M)}
refusals = {name: int(value) for name, value in re.findall(r"^    KEXBARDI_(SETTING\w*) = (\d+)", text, re.M)}

Words = c_uint16 * 1024
Records = c_int64 * 224
Line = c_uint16 * 4
Fields = c_int64 * 14
Samples = c_uint64 * 1
File = c_uint8 * 7680
Length = c_size_t * 1
DESK = [ctypes.POINTER(c_uint16), c_size_t, ctypes.POINTER(c_int64), c_size_t]


def function(name, answer, *parameters):
    found = getattr(library, name)
    found.restype = answer
    found.argtypes = parameters
    return found


version_of = function("kexbardi_version", c_uint32)
reset = function("kexbardi_reset", c_uint8, *DESK)
store = function("kexbardi_store", c_uint8, *DESK, c_uint64, c_uint16)
sample = function("kexbardi_sample", c_uint8, *DESK, c_uint64, c_uint64, ctypes.POINTER(c_uint16))
record = function("kexbardi_record", c_uint8, ctypes.POINTER(c_int64), c_size_t, c_uint64, ctypes.POINTER(c_int64))
forecast = function("kexbardi_forecast", c_uint8, *DESK, c_uint64, ctypes.POINTER(c_uint64))
OUT = [ctypes.POINTER(c_uint8), c_size_t, ctypes.POINTER(c_size_t)]
setup = function("kexbardi_setup", c_uint8, ctypes.POINTER(c_uint16), c_size_t, *OUT)

words, records, line, fields, samples = Words(), Records(), Line(), Fields(), Samples(77)
file, length = File(*[77] * 7680), Length(77)
all_lent = (words, records, line, fields, samples, file, length)
desk = (words, len(words), records, len(records))


def holds(what, found, expected):
    if found != expected:
        sys.exit(f"tests/desk.py: {what}: {found}, not {expected}")


def refused(number, call, *arguments):
    """A refusal has its number, and leaves all lent memory as it was."""
    before = [bytes(lent) for lent in all_lent]
    numbers = [argument for argument in arguments if isinstance(argument, int)]
    holds(f"{call.__name__}, {numbers}", call(*arguments), number)
    holds("memory after a refusal", [bytes(lent) for lent in all_lent], before)


holds("the version", version_of(), defined["VERSION"])
sizes = [len(words), len(records), len(line), len(fields), len(file)]
holds("the header's sizes", [defined[name] for name in ("WORDS", "NUMBERS", "LINE_WORDS", "FIELDS", "SETUP_ROOM")], sizes)
for at in range(len(words)):
    words[at] = at
for at in range(len(records)):
    records[at] = -at
holds("reset", reset(*desk), 0)
holds("the desk after reset", (any(words), any(records)), (False, False))

for loop in (0, 17, 255, 257, 2**64 - 15):
    refused(4, sample, *desk, loop, 0, line)
    refused(4, record, records, len(records), loop, fields)
    refused(4, forecast, *desk, loop, samples)
refused(5, reset, words, 1023, records, 224)
refused(5, store, words, 1024, records, 223, 5, 2000)
refused(5, sample, words, 1024, records, 225, 1, 0, line)
refused(5, forecast, words, 1024, records, 208, 1, samples)
for at, above in ((7, 2), (8, 17), (12, 6000001), (13, 2)):
    records[at] = above
    refused(5, sample, *desk, 1, 0, line)
    refused(5, record, records, len(records), 1, fields)
    refused(5, forecast, *desk, 1, samples)
    records[at] = 0
holds("the settings' refusals", refusals, {"SETTING": 8, "SETTING_TIMES": 12, "SETTING_LIMITS": 13, "SETTING_SETPOINT": 14})
refused(12, forecast, *desk, 1, samples)
refused(12, sample, *desk, 1, 0, line)
for address in (3, 4, 6, 29, 1024, 65535, 65541, 2**64 - 1):
    refused(6, store, *desk, address, 1)

STORES = [(5, 2000), (25, 4095), (7, 0x0100), (8, 0x0200), (9, 0x1000), (0, 2)]
CALLS = [(store, *pair) for pair in STORES] + [(sample, 1, 1000), (store, 2, 1500), (sample, 1, 1000), (sample, 17, 0)]

# One setting after the other made wrong on loop A: each is told though the ones before it are wrong still.
for address, value in STORES:
    words[address] = value
for address, wrong, number in ((2, 4096, 14), (25, 4096, 13), (9, 0, 12), (1, 1, 8), (8, 10, 7)):
    words[address] = wrong
    refused(number, sample, *desk, 1, 4096, line)
    refused(number, forecast, *desk, 1, samples)
holds("reset", reset(*desk), 0)

refused_records = 0
for number, (call, first, second) in enumerate(CALLS, 1):
    answer = call(*desk, first, second, line) if call is sample else call(*desk, first, second)
    if answer:
        refused_records += 1
        print(f"{number} refused {answer}")
    elif call is store:
        print(f"{number} set {first} {second}")
    else:
        print(f"{number} loop {first} sp {line[0]} pv {line[1]} out {line[2]} word {line[3]:04X}")
print(f"{len(CALLS)} records, {refused_records} refused")
holds("the record", record(records, len(records), 1, fields), 0)
holds("a sampled loop in Automatic", (fields[0], fields[7]), (1, 1))

# Its words as a drill file (L13): words 2, 5, 7, 8, 9 and 25, 48 bytes. What stands behind them stays.
STORED = [(2, 1500), (5, 3100), (7, 0x0100), (8, 0x0200), (9, 0x1000), (25, 4095)]
expected = b"".join(b"\6\0\1\0" + address.to_bytes(2, "little") + value.to_bytes(2, "little") for address, value in STORED)
refused(5, setup, words, 1023, file, len(file), length)
refused(10, setup, words, 1024, file, 47, length)
holds("setup", (setup(words, len(words), file, len(file), length), length[0]), (0, 48))
holds("the setup file", bytes(file), expected + bytes([77]) * 7632)

# A profile of loop A, its table at 700: from 1,500 down to 1,490 by 3.00 a second and 0.1 minutes there. It takes 4 samples and
# 6, and one more, for the next ramp has slope 0.
for address, value in [(700, 1490), (701, 0x0300), (702, 0x0001), (28, 700), (0, 0x0800), (27, 1)]:
    holds("a store of the profile", store(*desk, address, value), 0)
holds("the sample that starts it", (sample(*desk, 1, 1000, line), line[0], words[27]), (0, 1500, 0x0100))
shown = []
for remain in range(11, 0, -1):
    holds("the forecast", (forecast(*desk, 1, samples), samples[0]), (0, remain))
    holds("a sample of the profile", sample(*desk, 1, 1000, line), 0)
    shown.append((line[0], words[27]))
expected = [(1497, 0x0100), (1494, 0x0100), (1491, 0x0100)] + [(1490, 0x0200)] * 6 + [(1490, 0x0300), (1490, 0x0010)]
holds("the setpoints and word 27", shown, expected)
holds("the forecast at the end", (forecast(*desk, 1, samples), samples[0]), (0, 0))
holds("the record", record(records, len(records), 1, fields), 0)
holds("a complete profile", fields[8:], [0, 0, 1, 0, 0, 0])

# A drum-level pair: loop 1 the level, loop 2 the flow, both at their setpoints. Cascade does not move the valve, 2,000; the level's
# output becomes the flow, 1,500. It goes on from there: a level 50 below its setpoint adds 2.00 x 50, and 10 by reset.
holds("reset", reset(*desk), 0)
for table in (0, 32):
    for address, value in STORES:
        holds("a store of a pair", store(*desk, table + address, value), 0)
holds("the level", (sample(*desk, 1, 2048, line), *line), (0, 2048, 2048, 2000, 0x0002))
holds("the flow", (sample(*desk, 2, 1500, line), *line), (0, 1500, 1500, 2000, 0x0002))
holds("Cascade is requested", store(*desk, 32, 4), 0)
refused(11, sample, *desk, 2, 1500, line)
refused(11, forecast, *desk, 2, samples)
holds("the pointer", store(*desk, 58, 5), 0)
holds("the transfer", (sample(*desk, 2, 1500, line), *line), (0, 1500, 1500, 2000, 0x0004))
holds("the level's output and mark", (words[5], records[13]), (1500, 1))
holds("the record", (record(records, len(records), 1, fields), fields[13]), (0, 1))
holds("the level goes on", (sample(*desk, 1, 1998, line), *line), (0, 2048, 1998, 1610, 0x0002))
holds("its mark is off", records[13], 0)
holds("the flow follows", (sample(*desk, 2, 1610, line), *line), (0, 1610, 1610, 2000, 0x0004))
