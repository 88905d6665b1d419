"""The call graph of the source, before the compiler inlines anything: python3 tests/source_calls.py FOLDER NAME

`rt check --generated FOLDER`, run in a crate's folder, writes the crate as the prover takes it. A function has a file of its own,
Rattle-CRATE-proofs/MODULE/../FUNCTION/Code/Mir.antt, or ../+CYCLE/Code/+FUNCTION.antt where it stands on a cycle of calls; its
`use` lines name the functions that it speaks of, and `Syntax.call` is a direct call. FOLDER is to have every crate that is
reached. NAME is a function's whole name (`numbers::roots::root`), or its crate and its last part (`kexbardi_c::kexbardi_sample`).
The names of the functions reached are printed, sorted, one a line; then `cycle: a -> b -> a`, for each call that lies on a cycle
a shortest one with it; then `fault: ..` for a call that names no function, or none that is there, for a call through a pointer
or a vtable, and for a function's name that stands anywhere but in a call. The exit status is 0 without cycle and fault, 1 with
one, 2 for wrong use or a text that cannot be read.

A call at a bound is followed to the method that the caller handed for it, as a generic function runs it. A function of the
kit's library (LIBRARY) may call back all that it is handed, closures and methods of an `impl`, so its caller is taken to call
each of these itself. What the library's functions call among themselves is not in FOLDER: the walk of the code has it.
"""

import pathlib
import re
import sys

# The kit's library, by the names of its crates.
LIBRARY = {"core", "std"}
# Its functions that call nothing of what they are handed. This one answers (0, None), and an iterator hands itself to it.
CALL_NOTHING = {"std::iter::Iterator::size_hint"}
MOST = 200  # times that a function is followed, each with other methods for its bounds


class Unreadable(Exception):
    pass


# A function's name as a file has it: `use Rattle.numbers.proofs.units.Symbol as Symbol'`.
NAMED = re.compile(r"^use Rattle\.(?:[^\s.]+\.below\.)?([^\s.]+)\.(?:proofs|specs\.contracts)\.(\S+)\.(Symbol|Key)(?: as (\S+))?$")
WORD = re.compile(r'"[^"]*"|[(),]|[^\s(),"]+')
# What leads to code in another way than a direct call.
LEADS = re.compile(r"\bSyntax\.(call_v|fn_addr|vtable|method|forked|awaited|prim)\b")


def whole_name(folder, file):
    """The function whose code a file has, as crate::module::function; none where it has no function's."""
    library, *modules = file.relative_to(folder).parts
    crate = re.fullmatch(r"Rattle-(\w+)-proofs", library)
    if not crate:
        return None
    if modules[-2:] == ["Code", "Mir.antt"]:
        return "::".join([crate[1], *modules[:-2]])
    if modules[-2:-1] == ["Code"] and modules[-3].startswith("+") and modules[-1].startswith("+"):
        return "::".join([crate[1], *modules[:-3], *modules[-1][1:-len(".antt")].split("-")])
    return None


def definitions(folder):
    """The functions' texts by their names."""
    found = {}
    for file in sorted(folder.rglob("*.antt")):
        if name := whole_name(folder, file):
            if name in found:
                raise Unreadable(f"{name} is there twice")
            found[name] = file.read_text(encoding="utf-8")
    return found


def found_as(name, functions):
    """A function by the name that other crates have for it: a library passes it on without its modules. A closure's has `fn`."""
    if name in functions:
        return name
    crate, _, path = name.partition("::")
    fitting = [it for it in functions if it.startswith(f"{crate}::") and it.endswith(f"::{path}") and "fn" not in it.split("::")]
    if len(fitting) > 1:
        raise Unreadable(f"{name} may be any of {', '.join(fitting)}")
    return fitting[0] if fitting else None


def term(words, at):
    """The term that begins there: a word, or the list of what its parentheses hold. And the place behind it."""
    opened = [[]]
    while True:
        if words[at] == "(":
            opened.append([])
        else:
            done = opened.pop() if words[at] == ")" else words[at]
            opened[-1].append(done)
        at += 1
        if len(opened) == 1:
            return opened[0][0], at


def first_word(of):
    while isinstance(of, list):
        of = of[0] if of else ""
    return of


def pair(of):
    """The two terms of `(a, b)`, as a text has it in one line or with a comma behind each."""
    parts = [[]]
    for word in of:
        if word == ",":
            parts.append([])
        else:
            parts[-1].append(word)
    first, second = [part[0] if len(part) == 1 else part for part in parts if part]
    return first, second


def dictionary(of):
    """What is handed for a bound: an `impl` as its methods' names and what it is handed for bounds of its own, else the bound's number."""
    if of[0] == "Syntax.given":
        return int(of[1])
    head, names, _, handed = of
    names = tuple(items(names, "List.◌∷◌", "List.[]"))
    if head != "Syntax.impl" or not all(re.fullmatch(r'"\w[^"]*"', str(name)) for name in names):
        raise ValueError
    return tuple(name.strip('"') for name in names), dictionaries(handed)


def dictionaries(of):
    return tuple(dictionary(one) for one in items(of, "Syntax.dcons", "Syntax.dnil"))


def items(of, cons, none):
    while of != none:
        head, one, of = of
        if head != cons:
            raise ValueError
        yield one


def callee(of, named):
    """What a call names, and what it hands for bounds: a function's name, or a dictionary and the number of its method."""
    handed = ()
    if isinstance(of, list):
        *of, arguments = of
        handed = dictionaries(pair(arguments)[1])
        if of[0] == "Syntax.method":
            return (dictionary(of[1]), int(of[2])), handed
        of, = of
    alias, _, part = of.rpartition(".")
    if part != "name":
        raise ValueError
    return named[alias], handed


def calls_of(text):
    """The calls of a text, how many bounds it has, and what cannot be followed in it."""
    calls, faults, named, lines = [], [], {}, []
    for line in text.splitlines():
        if match := NAMED.match(line):
            crate, path, kind, alias = match.groups()
            named[alias or kind] = "::".join([crate, *path.split(".")])
        elif not line.startswith(("use ", "--")):
            lines.append(line)
    words = WORD.findall("\n".join(lines))
    at = 0
    while at < len(words):
        word, at = words[at], at + 1
        if word == "Syntax.call":
            of, at = term(words, at)
            try:
                calls.append(callee(of, named))
            except (ValueError, KeyError, IndexError, TypeError):
                faults.append(f"a call that names no function of the program: {first_word(of)}")
        elif word.rpartition(".")[0] in named:
            faults.append(f"{named[word.rpartition('.')[0]]} stands outside a call")
        elif word.startswith('"'):
            faults.append(f"{word} stands outside a call")
        elif LEADS.search(word):
            faults.append(f"a call that is not direct: {word}")
    bounds = re.search(r"^ *givens = (\d+);$", text, re.MULTILINE)
    return calls, int(bounds[1]) if bounds else 0, faults


def way(calls, start, end):
    """A shortest way by calls, both ends included; none where there is none."""
    ways, waiting = {start: [start]}, [start]
    while waiting and end not in ways:
        name = waiting.pop(0)
        for called in sorted(calls[name]):
            if called not in ways:
                ways[called] = ways[name] + [called]
                waiting.append(called)
    return ways.get(end, [])


def cycles(calls):
    told = set()
    for caller in calls:
        for called in calls[caller]:
            if turn := way(calls, called, caller):
                first = turn.index(min(turn))
                told.add("cycle: " + " -> ".join(turn[first:] + turn[:first + 1]))
    return sorted(told)


def put_in(one, handed):
    """A dictionary, with what the function is handed in place of its bounds."""
    return handed[one] if isinstance(one, int) else (one[0], tuple(put_in(it, handed) for it in one[1]))


def all_in(handed):
    for one in handed:
        yield one
        yield from all_in(one[1])


def trait_of(one):
    return [name.rpartition("::")[2] for name in one[0]]


class Walk:
    """The functions' calls. A function is followed once for all that it is handed for its bounds, and again for other methods."""

    def __init__(self, functions):
        self.functions, self.texts, self.calls, self.faults, self.followed = functions, {}, {}, set(), {}

    def text(self, name):
        if name not in self.texts:
            self.texts[name] = calls_of(self.functions[name])
        return self.texts[name]

    def run(self, start):
        waiting = [(start, ())]
        while waiting:
            name, handed = waiting.pop()
            followed = self.followed.setdefault(name, set())
            if handed in followed:
                continue
            followed.add(handed)
            if len(followed) > MOST:
                raise Unreadable(f"{name} is handed ever new methods")
            self.faults |= {(name, fault) for fault in self.text(name)[2]}
            reached = set(self.called_by(name, handed))
            self.calls.setdefault(name, set()).update(called for called, _ in reached)
            waiting += reached

    def called_by(self, name, handed):
        """What a function calls where it is handed that, with what it hands on."""
        for what, more in self.text(name)[0]:
            try:
                more = tuple(put_in(one, handed) for one in more)
                if isinstance(what, tuple):
                    (methods, own), number = put_in(what[0], handed), what[1]
                    # One without names is the library's choice among what it was handed.
                    what, more = methods[number] if methods else "core::", own + more
            except IndexError:
                self.faults.add((name, "a call at a bound that it does not have"))
                continue
            if found := found_as(what, self.functions):
                yield found, more
            elif what.partition("::")[0] not in LIBRARY:
                self.faults.add((name, f"a call of a function that is not there: {what}"))
            elif what not in CALL_NOTHING:
                yield from self.called_back(name, more)

    def called_back(self, caller, handed):
        """What the library may call of what it is handed. For a bound of a method it may hand on what is of another trait."""
        every = list(all_in(handed))
        for one in every:
            for method in one[0]:
                if found := found_as(method, self.functions):
                    others = tuple(other for other in every if trait_of(other) != trait_of(one))
                    missing = self.text(found)[1] - len(one[1])
                    yield found, one[1] + (((), others),) * missing
                elif method.partition("::")[0] not in LIBRARY:
                    self.faults.add((caller, f"a function that is not there is handed on: {method}"))


def walk(folder, name):
    """Prints what a function reaches. The exit status."""
    functions = definitions(folder)
    start = found_as(name, functions)
    if not start:
        raise Unreadable(f"there is no function {name}")
    walked = Walk(functions)
    walked.run(start)
    told = cycles(walked.calls) + sorted(f"fault: {name}: {fault}" for name, fault in walked.faults)
    print(*sorted(walked.calls), *told, sep="\n")
    return 1 if told else 0


def main(arguments):
    if len(arguments) != 2:
        print(__doc__, file=sys.stderr)
        return 2
    try:
        return walk(pathlib.Path(arguments[0]), arguments[1])
    except (OSError, UnicodeDecodeError, Unreadable) as error:
        print(f"tests/source_calls.py: {error}", file=sys.stderr)
        return 2


if __name__ == "__main__":
    sys.exit(main(sys.argv[1:]))
