"""Which functions a compiled library's functions reach, and how much stack they take, by its machine code alone.

    python3 call_graph.py [--list] LIBRARY [NAME..]

LIBRARY is an archive, an object or a shared library for x86-64 Linux; NAME.. are the functions to begin at: all global ones
(of a shared library all exported ones) if none is named. It needs python3 and `objdump` of binutils. A line for each name:

    NAME: 2 functions, no self-call, 368 bytes of stack[, calls memset]

and beneath it, indented, what speaks against the name, if anything. Its own line then has `no bound of stack`, and either
`self-call`, where there is a cycle, or `self-calls not known`.

    cycle: a -> b -> a, 48 bytes a turn     each call that lies on a cycle is in one of those told, a shortest one
    indirect: a at 1f: call *%rax           a call or jump to what no instruction names; a jump table too, on purpose
    outside: a at 1f: malloc                a function that is neither in the library nor memcpy nor memset
    stack: a at 1f: and $-16,%rsp           the stack pointer cannot be followed: alloca, alignment, paths that differ
    unknown: a at 1f: syscall               whatever else cannot be followed, or is not known here

With --list the functions reached follow, each as `reached: NAME`. The exit status is 0 where nothing is told against any
name, 1 where something is, and 2 for wrong use or a library that cannot be read.

A function is what stands between two symbols. Every path through it is followed, and from it every direct call and jump: a
jump to another function is a tail call, one to its own start a loop unless it goes by the function's name. The stack is the
greatest over all paths: from the return address that the call of NAME pushes down to the stack pointer at its lowest, or to
the lowest byte below it that an operand names. All 128 bytes of the red zone count where an operand has an index, or where an
address is taken from the stack pointer. Not in it are what memcpy and memset take themselves, and arguments that NAME's caller
pushes.

Taken for granted is what holds of code that compilers make: no return address is overwritten, nothing is used below the red
zone, a relocation leaves the instruction that it is, and nothing else is put in the place of a function that the library has
(by a program with a function of the same name, where the library's is weak or is exported and called by its name).
"""

import os
import re
import subprocess
import sys
from collections import Counter
from itertools import takewhile

OUTSIDE = {"memcpy", "memset"}
RED_ZONE = 128  # bytes below the stack pointer that a function may use
PREFIXES = set("bnd notrack lock rep repz repnz data16 addr32 cs ds es ss fs gs".split())
# What goes on to the next instruction, and moves the stack pointer only where an operand says so. All others are told.
PLAIN = re.compile(
    r"mov\w*|cmov\w+|set\w+|(lea|add|sub|adc|sbb|inc|dec|neg|not|and|or|xor|test|cmp|i?mul|i?div|sh[lr]d?|sa[lr]|ro[lr]|rc[lr]"
    r"|bt[crs]?|xchg|xadd|cmpxchg|stos|nop)[bwlq]?|bs[fr]|bswap|([lt]z|pop)cnt|c[wlq]t[ldoq]|endbr64|p(?!ush|op)\w+|cvt\w+|\w+[ps][sd]")
JUMP = re.compile(r"j(mpq?|n?[abglosp]|n?[abgl]?e|[er]cxz)|loop(n?e)?")
SYMBOL = re.compile(r"([0-9a-f]{16}) (.{7}) (\S+)\t[0-9a-f]+ +(?:\.(?:hidden|protected|internal) )?(.*)")
HEADING = re.compile(r"In archive .*:|Sections:|Idx Name .*| *\d+ \S+ +[0-9a-f]{8} .*|(DYNAMIC )?SYMBOL TABLE:|no symbols")
EIGHT_BYTES = re.compile(r"%r([abcd]x|[sd]i|[sb]p|\d+)|\$.*|[^%]*\(.*\)")  # operands of a push or pop


class Unreadable(Exception):
    """A library that is of no use, or a name that is not in it."""


class Fault(Exception):
    """What speaks against an instruction: the kind, and what to tell in place of its text, if anything."""


class Function:
    def __init__(self):
        self.calls = {}  # place of a function that it calls: how far down that begins
        self.outside = set()  # names
        self.deepest = 0  # how far down it reaches itself
        self.addressed = False  # whether it may name any byte of the red zone
        self.faults = set()


class Library:
    """Its code by places: (member, section, address). In a shared library the section is left out."""

    def __init__(self, path):
        self.shared = is_shared(path)
        self.code = {}  # place: text, relocations, place of its function, next place
        self.names, self.kinds = {}, {}  # of functions, and the flags of their symbols, by places
        self.stubs = {}  # place: the name that it leads to, in a shared library
        self.symbols = {}  # (member, name): places, and None where the member has it from elsewhere
        self.globals = {}  # name: places
        self.members, self.section, self.within, self.last = [], "", None, None
        for line in disassembly(path, self.shared):
            self.read(line)
        self.alike = Counter(name for place, name in self.names.items() if place in self.code)
        self.functions = {}

    def place(self, address):
        return len(self.members), "" if self.shared else self.section, int(address, 16)

    def read(self, line):
        if found := re.fullmatch(r"(.*): +file format (.*)", line):
            if found[2] != "elf64-x86-64":
                raise Unreadable(f"{found[1]} is of the format {found[2]}, not elf64-x86-64")
            self.members.append(found[1])
            self.section = ""
        elif found := re.fullmatch(r"Disassembly of section (.*):", line):
            self.section, self.within, self.last = found[1], None, None
        elif not self.section and (found := SYMBOL.fullmatch(line)):
            self.add_symbol(*found.groups())
        elif found := re.fullmatch(r"([0-9a-f]{16}) <(.*)>:", line):
            self.within = self.place(found[1])
            self.names[self.within] = found[2]
            if self.section.startswith(".plt") and found[2].endswith("@plt"):
                self.stubs[self.within] = found[2].split("@")[0]
        elif found := re.fullmatch(r" *([0-9a-f]+):\t(.*)", line):
            self.add_instruction(self.place(found[1]), *found[2].split("\t"))
        elif re.match(r" *\d+ \.gcc_except_table", line):
            raise Unreadable(f"{self.members[-1]} has exception tables, whose paths are not followed")
        elif line and not HEADING.fullmatch(line):
            raise Unreadable(f"objdump prints a line of no known form: {line}")

    def add_symbol(self, address, flags, section, name):
        dynamic = "D" in flags
        name = name.split()[-1] if dynamic else name  # a version may stand before it
        place = None if section == "*UND*" else (len(self.members), "" if self.shared else section, int(address, 16))
        self.symbols.setdefault((len(self.members), name), set()).add(place)
        if place is None or "d" in flags or section in ("*ABS*", "*COM*"):
            return
        self.names.setdefault(place, name)
        self.kinds[place] = self.kinds.get(place, "") + flags
        if (flags[0] in "gu" or flags[1] == "w") and dynamic == self.shared:
            self.globals.setdefault(name, set()).add(place)

    def add_instruction(self, place, text, *relocations):
        if place in self.code:
            raise Unreadable(f"{self.members[-1]} has two sections {self.section}")
        if place in self.names:
            self.within = place
        if self.last:
            self.code[self.last][3] = place
        self.code[place] = [" ".join(text.split(" # ")[0].split()), relocations, self.within, None]
        self.last = place

    def owner(self, place):
        return self.code[place][2] if place in self.code else None

    def find(self, member, name):
        """What a member means by a name: a place, or the name itself where the library does not have it."""
        places, others = self.symbols.get((member, name), {None}), self.globals.get(name, set())
        if places == {None} or not places.isdisjoint(others):
            places = others or {name}
        if len(places) > 1:
            raise Fault("unknown", f"{name}, which is there {len(places)} times")
        return next(iter(places))

    def begin(self, name):
        """The place of a function named by the user."""
        places = self.globals.get(name) or set().union(*(some for (_, other), some in self.symbols.items() if other == name))
        places = {place for place in places if self.is_function(place)}
        if len(places) != 1:
            raise Unreadable(f"{name} is there {len(places)} times" if places else f"there is no function {name}")
        return places.pop()

    def is_function(self, place):
        return place in self.code or not {"F", "i"}.isdisjoint(self.kinds.get(place, ""))

    def tell(self, place):
        """A function's name, and where it stands if others have that name too."""
        name = self.names[place]
        where = f"{place[2]:x}" if self.shared else self.members[place[0] - 1]
        return name if self.alike[name] < 2 else f"{name} ({where})"

    def function(self, place):
        if place not in self.functions:
            self.functions[place] = follow(self, place)
        return self.functions[place]


def is_shared(path):
    try:
        with open(path, "rb") as file:
            start = file.read(18)
    except OSError as error:
        raise Unreadable(error.strerror) from error
    if start[:8] in (b"!<arch>\n", b"!<thin>\n"):
        return False
    if start[:4] != b"\x7fELF" or start[16:] not in (b"\1\0", b"\3\0"):
        raise Unreadable("it is neither an archive nor an object nor a shared library")
    return start[16:] == b"\3\0"


def disassembly(path, shared):
    # Without -z a row of zeroes would be left out.
    options = ["-w", "-z", "-h", "-d", "-t", "--no-show-raw-insn"] + (["-T", "-R"] if shared else ["-r"])
    try:
        done = subprocess.run(["objdump", *options, "--", path], env={**os.environ, "LC_ALL": "C"}, capture_output=True,
                              encoding="utf-8", errors="backslashreplace")
    except OSError as error:
        raise Unreadable(f"objdump: {error.strerror}") from error
    if done.returncode != 0 or done.stderr:
        raise Unreadable(done.stderr.strip() or "objdump fails")
    return done.stdout.splitlines()


# ---- one function


def follow(library, start):
    """A function along all its paths, with the depth of the stack before each instruction."""
    function, depths, waiting = Function(), {}, [(start, start, 0)]

    def fault(place, kind, told):
        function.faults.add(f"{kind}: {library.tell(start)} at {place[2]:x}: {told}")

    if "i" in library.kinds.get(start, ""):
        fault(start, "indirect", "which function it is, is chosen when the library is loaded")
    if "O" in library.kinds.get(start, ""):
        fault(start, "unknown", "data among the code")
    while waiting:
        before, place, depth = waiting.pop()
        if library.owner(place) != start:
            fault(before, "unknown", "the function ends here, and not by a return")
            continue
        if place in depths:
            if depths[place] != depth:
                fault(place, "stack", f"{depths[place]} bytes on one path, {depth} on another")
            continue
        depths[place] = depth
        function.deepest = max(function.deepest, depth)
        try:
            following = step(library, function, start, place, depth)
        except Fault as found:
            text, _, _, after = library.code[place]
            kind, *told = found.args
            fault(place, kind, told[0] if told else text)
            # What comes next is read too, unless the stack's depth there is not known.
            following = [] if kind == "stack" or re.search(r"\b(jmp|ret)", text) else [(after, depth)]
        waiting += [(place, *path) for path in following]
    if function.addressed:
        function.deepest = max(function.deepest, max(depths.values()) + RED_ZONE)
    return function


def parts(text):
    """An instruction's prefixes, its word and its operands."""
    prefixes = list(takewhile(PREFIXES.__contains__, text.split()))
    word, _, operands = " ".join(text.split()[len(prefixes):]).partition(" ")
    return set(prefixes), word.split(",")[0], re.split(r",(?![^(]*\))", operands) if operands else []


def step(library, function, start, place, depth):
    """What an instruction adds to its function; the places that may come next, each with the depth there."""
    text, relocations, _, after = library.code[place]
    prefixes, word, operands = parts(text)
    if relocations and "%rsp" in text:
        raise Fault("stack", f"{text} {' '.join(relocations)}")  # a number that the link writes
    for displacement, index in re.findall(r"(-0x[0-9a-f]+)?\(%rsp(,?)", text):
        function.deepest = max(function.deepest, depth - int(displacement or "0", 16))
        function.addressed |= bool(index) or word == "lea" and operands[-1] != "%rsp"
    function.addressed |= "%rsp" in operands[:-1] or operands == ["%rsp"]
    if word in ("call", "callq") or JUMP.fullmatch(word):
        if operands and operands[0].startswith("*"):
            raise Fault("indirect")
        if prefixes - {"bnd", "notrack"}:
            raise Fault("unknown")
        going_on = [] if word in ("jmp", "jmpq") else [(after, depth)]
        target, is_named = destination(library, place, ",".join(operands))
        if JUMP.fullmatch(word) and library.owner(target) == start and not (is_named and target == start):
            return going_on + [(target, depth)]
        if JUMP.fullmatch(word) and depth:
            raise Fault("stack", f"{text} with {depth} bytes left")
        enter(library, function, text, target, depth if JUMP.fullmatch(word) else depth + 8)
        return going_on
    if word in ("ret", "retq", "ud2"):
        if operands or prefixes - {"bnd", "rep", "repz"}:
            raise Fault("unknown")
        if depth and word != "ud2":
            raise Fault("stack", f"{text} with {depth} bytes left")
        return []
    return [(after, moved(prefixes, word, operands, depth))]


def enter(library, function, text, target, depth):
    """A call, or a jump to another function: that one begins so far down."""
    if isinstance(target, str):
        if target not in OUTSIDE:
            raise Fault("outside", target)
        function.outside.add(target)
        function.deepest = max(function.deepest, depth)
    elif library.owner(target) != target:
        raise Fault("unknown", f"{text}, where no function begins")
    else:
        function.calls[target] = max(depth, function.calls.get(target, 0))


def destination(library, place, operand):
    """Where a call or jump goes: a place, or the name of a function that the library does not have; whether it goes by a name."""
    member, section, _ = place
    text, relocations, _, _ = library.code[place]
    if not (shown := re.fullmatch(r"(?:0x)?([0-9a-f]+)(?: <.*>)?", operand)):
        raise Fault("unknown")
    address = int(shown[1], 16)
    if not relocations:
        target = member, section, address
        return (library.find(member, library.stubs[target]), True) if target in library.stubs else (target, False)
    # Where it is and its type, then symbol and addend. It has to be the last four bytes, which are 0 until the link.
    at = f"{address - 4:x}: R_X86_64_"
    if len(relocations) != 2 or relocations[0] not in (at + "PC32", at + "PLT32"):
        raise Fault("unknown", f"{text} {' '.join(relocations)}")
    name, addend = re.fullmatch(r"(.*?)([+-]0x[0-9a-f]+)?", relocations[1]).groups()
    beyond = int(addend or "0", 16) + 4
    target = library.find(member, name)
    if isinstance(target, str):
        return target if beyond == 0 else relocations[1], True
    return (*target[:2], target[2] + beyond), True


def moved(prefixes, word, operands, depth):
    """The depth behind an instruction that is no call, jump or return."""
    last = operands[-1] if operands else ""
    if any(re.search(r"%(e?sp|spl)\b", operand) for operand in operands):
        raise Fault("stack")
    if word in ("push", "pushq", "pop", "popq") and not prefixes and EIGHT_BYTES.fullmatch(last):
        change = 8 if word.startswith("push") else -8
        moves = word.startswith("pop") and last == "%rsp"
    elif PLAIN.fullmatch(word):
        change = 0
        moves = last == "%rsp" and word not in ("cmp", "test") or "%rsp" in operands and word in ("xchg", "xadd")
        written = re.fullmatch(r"(0x[0-9a-f]+)?\(%rsp\)", last)
        if written and depth <= int(written[1] or "0", 16) < depth + 8:
            raise Fault("stack")  # over the return address
    else:
        raise Fault("unknown")
    number = re.fullmatch(r"\$(0x[0-9a-f]+)" if word != "lea" else r"(-?0x[0-9a-f]+)\(%rsp\)", operands[0]) if moves else None
    if number and word in ("add", "sub", "lea"):
        signed = (int(number[1], 16) + 2**63) % 2**64 - 2**63
        change = signed if word == "sub" else -signed
    elif moves:
        raise Fault("stack")
    if depth + change < 0:
        raise Fault("stack")
    return depth + change


# ---- all that a name reaches


def reach(library, start):
    reached, waiting = {}, [start]
    while waiting:
        place = waiting.pop()
        if place not in reached:
            reached[place] = library.function(place)
            waiting += reached[place].calls
    return reached


def bounds(reached):
    """How far down each function reaches with all that it calls; those that reach a cycle are left out."""
    down = {}
    while ready := [place for place, function in reached.items() if place not in down and function.calls.keys() <= down.keys()]:
        for place in ready:
            function = reached[place]
            down[place] = max([function.deepest] + [begins + down[called] for called, begins in function.calls.items()])
    return down


def way(functions, start, end):
    """A shortest way by calls, both ends included; none where there is none."""
    ways, waiting = {start: [start]}, [start]
    while waiting and end not in ways:
        place = waiting.pop(0)
        for called in functions[place].calls:
            if called in functions and called not in ways:
                ways[called] = ways[place] + [called]
                waiting.append(called)
    return ways.get(end, [])


def cycles(library, functions):
    """For each call that lies on a cycle a shortest one with it, from the first of its names on."""
    told = set()
    for caller, function in functions.items():
        for called in function.calls.keys() & functions.keys():
            if circle := way(functions, called, caller):
                first = min(range(len(circle)), key=lambda at: library.tell(circle[at]))
                circle = circle[first:] + circle[:first + 1]
                turn = sum(functions[one].calls[other] for one, other in zip(circle, circle[1:]))
                told.add(f"cycle: {' -> '.join(map(library.tell, circle))}, {turn} bytes a turn")
    return told


def report(library, name, listing):
    """Prints what there is to tell of a name. Whether anything speaks against it."""
    start = library.begin(name)
    reached = reach(library, start)
    down = bounds(reached)
    circles = cycles(library, {place: function for place, function in reached.items() if place not in down})
    faults = circles.union(*(function.faults for function in reached.values()))
    outside = sorted(set().union(*(function.outside for function in reached.values())))
    print(f"{name}: {len(reached)} function{'s' if len(reached) > 1 else ''}",
          "self-call" if circles else "self-calls not known" if faults else "no self-call",
          "no bound of stack" if faults else f"{down[start] + 8} bytes of stack",
          *["calls " + " and ".join(outside)] if outside else [], sep=", ")
    for fault in sorted(faults):
        print(f"    {fault}")
    if listing:
        for told in sorted(map(library.tell, reached)):
            print(f"    reached: {told}")
    return bool(faults)


def main(arguments):
    listing = arguments[:1] == ["--list"]
    path, *names = arguments[listing:] or ["-"]
    if path.startswith("-"):
        print(__doc__, file=sys.stderr)
        return 2
    try:
        library = Library(path)
        names = names or [name for name, places in library.globals.items() if any(map(library.is_function, places))]
        if not names:
            raise Unreadable("it has no function to begin at")
        for name in names:
            library.begin(name)
        return int(any([report(library, name, listing) for name in sorted(set(names))]))
    except Unreadable as error:
        print(f"call_graph.py: {path}: {error}", file=sys.stderr)
        return 2


if __name__ == "__main__":
    sys.exit(main(sys.argv[1:]))
