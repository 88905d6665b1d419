#!/usr/bin/env python3
"""Respells this repository's own definitions and lemmas in snake case, by tools/respelled.tsv beside this file. It was run once, behind the
toolchain's port.py, when the repository was brought to the present Rattle (docs/PORT.md).

In a function's proof (proofs/F/..) a name behind a dot is a label that the checker makes, unless it is a field of a record of specs/ or
proofs/: labels stay. In a comment of a definition or a proof a name with a dash is respelled between backticks alone.
Functions of src/, strings, inputs and outputs keep their names; wrong versions (must-fail/) are brought over by hand.
"""

import os
import re

HERE = os.path.dirname(os.path.abspath(__file__))
TABLE = dict(line.rstrip("\n").split("\t") for line in open(os.path.join(HERE, "respelled.tsv"), encoding="utf-8"))
TOKEN = re.compile(r'--[^\n]*|"(?:[^"\\]|\\.)*"|[^\s(){}.;,@"«»\[\]\\`]+|[.]|\s+|.')
RUST = re.compile(r'//[^\n]*|"(?:[^"\\]|\\.)*"|[^\s(){}.;,@"\[\]&*:!?<>]+|\s+|.')
FIELD = re.compile(r"^ +(?:pub )?(\S+) : ")
# A definition of `desk/proofs/Tables` that would have the name of `carried/specs/Layout.numbersOf`.
ALONE = {"crates/desk/proofs/Tables.antt": {"numbers_of": "with_numbers"}}


def files(root, end):
    for folder, folders, names in os.walk(os.path.join(root, "crates")):
        folders[:] = sorted(it for it in folders if it != "out")
        for name in sorted(names):
            if name.endswith(end):
                yield os.path.join(folder, name)


def fields(root):
    found = set()
    for path in files(root, ".antt"):
        if not re.search(r"/proofs/.+/", path):
            for line in open(path, encoding="utf-8"):
                m = FIELD.match(line)
                if m:
                    found.add(m[1])
    return found


def comment(text, dashed):
    def one(m):
        return TABLE.get(m[0], m[0]) if dashed or "-" not in m[0] else m[0]

    if dashed:
        return re.sub(r"[^\s(){}.;,`]+", one, text)
    parts = text.split("`")
    for i, part in enumerate(parts):
        parts[i] = comment(part, True) if i % 2 else re.sub(r"[^\s(){}.;,`]+", one, part)
    return "`".join(parts)


def turned(text, rust, labelled, own, alone):
    out, before = [], ""
    for m in (RUST if rust else TOKEN).finditer(text):
        it = m[0]
        if it.startswith("//" if rust else "--"):
            it = comment(it, False)
        elif it in alone:
            it = alone[it]
        elif it in TABLE:
            head = re.search(r"([^\s(){};,]+)\.$", before)
            is_label = labelled and before.endswith(".") and it not in own
            if is_label and head and re.match(r"Rattle\.|[A-Z]", head[1]):
                is_label = False
            if before.endswith("«") or not is_label:
                it = TABLE[it]
        out.append(it)
        before = (before + it)[-200:]
    return "".join(out)


def main():
    root = os.getcwd()
    own = fields(root)
    changed = 0
    for rust, end in ((False, ".antt"), (True, ".rt")):
        for path in files(root, end):
            name = os.path.relpath(path, root)
            text = open(path, encoding="utf-8").read()
            labelled = bool(re.search(r"/proofs/.+/", "/" + name))
            now = turned(text, rust, labelled, own, ALONE.get(name, {}))
            if now != text:
                open(path, "w", encoding="utf-8").write(now)
                changed += 1
    print(f"respelled in {changed} files")


if __name__ == "__main__":
    main()
