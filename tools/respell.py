#!/usr/bin/env python3
"""Turns the repository's own definitions, lemmas, fields and variables from camel case to snake case, as today's Rattle spells them.

usage: python3 tools/respell.py [--list]     at the top of the repository, once, after the kit's port.py

In a name the parts that a dash joins are turned each by itself: `takeEnd-missing` becomes `take_end-missing`. Types,
modules and functions of src/ keep their names, and so do strings. `--list` prints what would be turned and writes nothing.
It turns crates/ (but for the programs' inputs and outputs) and the names that README and docs/ put between backquotes.
"""

import glob
import re
import sys

WORD = re.compile(r"(?<!\w)[A-Za-z_][\w'?!]*(?:-[\w'?!]+)*")
STRING_OR_WORD = re.compile(r'"(?:[^"\\\n]|\\.)*"|' + WORD.pattern)
CAMEL = re.compile(r"(?<=[a-z0-9])([A-Z]+)(?![a-z])|(?<=[a-z0-9])([A-Z])")
# What stands for bytes, or is hexadecimal digits, and no word; and a word of VRML97.
KEEP = re.compile(r"^coordIndex$|^x[0-9][A-F]$|^x[0-9][0-9A-Fa-f]N+$|^x[0-9A-F]{4}$|^(?=.*[0-9])[0-9a-fA-F]+$")
# A fact, which is spelled as a type.
FACTS = {"noPlace": "NoPlace"}
# Names of one file that would fall together with others.
APART = {"crates/undo_compare/proofs/Threes.antt": {"after_first": "follows-first", "after-second": "follows-second", "after_last": "follows-last"}}


def snake(name):
    parts = []
    for part in name.split("-"):
        if part[:1].islower():
            part = CAMEL.sub(lambda m: "_" + (m.group(1) or m.group(2)).lower(), part)
        parts.append(part)
    return "-".join(parts)


def turned(word):
    return FACTS.get(word) or (word if KEEP.match(word) else snake(word))


def sources():
    for ending in ("antt", "rt", "edit"):
        yield from sorted(p for p in glob.glob(f"crates/**/*.{ending}", recursive=True) if "/out/" not in p)


def pages():
    return ["README.md"] + sorted(glob.glob("docs/**/*.md", recursive=True))


def main():
    said = "--list" in sys.argv[1:]
    texts = {}
    words = set()
    for path in sources():
        with open(path, encoding="utf-8") as f:
            texts[path] = f.read()
        words.update(WORD.findall(texts[path]))
    names = {w: turned(w) for w in words if turned(w) != w}
    together = sorted((w, n) for w, n in names.items() if n in words)
    by_new = {}
    for w, n in names.items():
        by_new.setdefault(n, []).append(w)
    if said:
        for w, n in sorted(names.items()):
            print(w, n)
        print("falls together with a name that stands:", together)
        print("fall together:", [ws for ws in by_new.values() if len(ws) > 1])
        return
    for path, text in texts.items():
        own = names | APART.get(path, {})
        new = STRING_OR_WORD.sub(lambda m: own.get(m.group(0), m.group(0)), text)
        if new != text:
            with open(path, "w", encoding="utf-8") as f:
                f.write(new)
    for path in pages():
        with open(path, encoding="utf-8") as f:
            text = f.read()
        new = re.sub(r"`[^`\n]*`", lambda q: WORD.sub(lambda m: names.get(m.group(0), m.group(0)), q.group(0)), text)
        if new != text:
            with open(path, "w", encoding="utf-8") as f:
                f.write(new)


main()
