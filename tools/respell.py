#!/usr/bin/env python3
"""Brings this repository's own definitions and lemmas to the spelling of today's Rattle.

usage: python3 tools/respell.py [--dry]     at the top, once, after the toolchain's port.py

Definitions and lemmas go to snake case and facts to camel case, in the proof language's files, in the clauses of the code
and, between back quotes, in README and docs/. Names of functions, strings of the code, inputs, outputs and must-fail edits stay
as they are.
"""

import os
import re
import sys

# Names of the older spelling that the toolchain's script turned because a library had the same; docs/ still has them.
TURNED = """all-hold atOnce below-end by-kind by-tests bytes-drop bytes-rest bytes-take bytesOf digits-are first-byte frame-is
frameOf front-bytes gathered-none given-is gives-none goes-on high-digit laid-out len-is lineOf low-digit no-kind no-more
no-payload none-of numberOf odd-even offsetOf one-list parts-held parts-more placeOf plus-none put-holds read-more reads-none
said-of same-end short-back signed-high signed-low size-is size-of spelled-none suc-one table-is then-by then-ok three-back
told-none took-more two-at two-back typeBy typeOf written-one""".split()

# New names that would fall together with another one.
APART = {"signedHigh": "high_byte_of", "judged-whole": "judged_whole_lem", "verdict-of": "verdict_passed"}

# Names bound within a proof.
LOCAL = ["one-is", "none-new", "f-is"]

WORD = re.compile(r"[^\W]['\w-]*", re.UNICODE)
SIGNED = re.compile(r"^\s*(?:pub |abbrev |unfoldable )*([^\s:(){}]+)((?: [^\s:(){}]+)*) : (.*)")
TYPED = re.compile(r"^\s*(?:pub |abbrev |unfoldable )*(?:record|data) ([^\s:(){}]+)")


def files(root, endings):
    for folder, dirs, names in os.walk(os.path.join(root, "crates")):
        dirs[:] = sorted(d for d in dirs if d != "out")
        for name in sorted(names):
            if name.endswith(endings):
                yield os.path.join(folder, name)


def snake(name):
    name = name.replace("-", "_")
    name = re.sub(r"(?<=[a-z0-9])([A-Z])", lambda m: "_" + m.group(1).lower(), name)
    return name


def respelled(name):
    if name in APART:
        return APART[name]
    if name[0].isupper():
        return "".join(p[0].upper() + p[1:] for p in name.split("-"))
    return snake(name)


def owned(root):
    """The repository's own names, and those of them that stand behind a dot: fields and constructors."""
    names, fields = set(), set()
    for path in files(root, ".antt"):
        inside = False
        for line in open(path, encoding="utf-8"):
            if TYPED.match(line):
                names.add(TYPED.match(line).group(1))
                inside = True
                continue
            found = SIGNED.match(line)
            if not found:
                if line.strip() and not line.startswith(" "):
                    inside = False
                continue
            if found.group(3).startswith(("goal.", "need.")) or re.match(r"(invariant|decreases)-", found.group(1)):
                continue
            indented = line.startswith(" ")
            for name in [found.group(1), *found.group(2).split()]:
                names.add(name)
                if inside and indented:
                    fields.add(name)
            if not indented:
                inside = False
    return names, fields


def turned(text, renames, fields, code):
    """One line with the names renamed. In code, strings and the hyphenated words of comments stay."""
    out, at, quoted = [], 0, False
    is_use = re.match(r"\s*(?:ghost )?use ", text)
    comment = text.find("//") if code else text.find("-- ")
    for m in WORD.finditer(text):
        out.append(text[at : m.start()])
        quoted ^= text[at : m.start()].count('"') % 2 == 1
        word, at = m.group(0), m.end()
        new = renames.get(word)
        if new is None or (code and quoted):
            new = word
        elif text[m.start() - 1 : m.start()] == "." and word not in fields and not is_use:
            new = word
        elif comment >= 0 and m.start() > comment and code and "-" in word:
            new = word
        out.append(new)
    return "".join(out) + text[at:]


def main(argv):
    root = os.getcwd()
    names, fields = owned(root)
    renames = {n: respelled(n) for n in names if respelled(n) != n}
    renames |= {n: snake(n) for n in LOCAL}
    taken = {}
    for old, new in renames.items():
        if (new in names and new not in renames) or new in taken:
            print(f"falls together: {old} and {taken.get(new, new)} as {new}")
        taken[new] = old
    for path in files(root, ".antt"):
        for line in open(path, encoding="utf-8"):
            m = re.match(r"use (?:Rattle\.std|borrow|native|Prim|lib)\S*\.\{(.*)\}", line)
            for name in m.group(1).split(", ") if m else []:
                if name in taken:
                    print(f"a library's: {taken[name]} as {name} in {path}")
    if "--dry" in argv:
        return
    for path in files(root, (".antt", ".rt")):
        with open(path, encoding="utf-8") as f:
            old = f.read().split("\n")
        new = [turned(line, renames, fields, path.endswith(".rt")) for line in old]
        if new != old:
            with open(path, "w", encoding="utf-8") as f:
                f.write("\n".join(new))
    pages = [os.path.join(root, "README.md")]
    pages += [os.path.join(root, "docs", p) for p in sorted(os.listdir(os.path.join(root, "docs"))) if p != "PORT.md"]
    known = renames | {n: snake(n) for n in TURNED}
    for path in pages:
        with open(path, encoding="utf-8") as f:
            old = f.read()
        new = re.sub(r"`([^\s`]+)`", lambda m: "`" + known.get(m.group(1), m.group(1)) + "`", old)
        if new != old:
            with open(path, "w", encoding="utf-8") as f:
                f.write(new)


main(sys.argv[1:])
