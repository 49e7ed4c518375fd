#!/usr/bin/env python3
"""Brings the names of this repository's own definitions and lemmas to today's spelling: types in camel case, all else in snake case.

usage: spell-names.py TOP     (run once, after the toolchain's port.py; a second run changes nothing)

A name is one that an .antt file of specs/ or proofs/ declares and that has a dash in it. It turns wherever it stands as a whole word in code
(.antt, .rt, .edit), and in the code spans of pages (.md). Names of Rust's functions, strings and comments stay as they are.
Two names would fall together: FIXED gives one of them another.
"""
import os
import re
import sys

FIXED = {"First-bad": "IsFirstBad"}  # answers has a FirstBad already
NAME = r"[A-Za-z][A-Za-z0-9]*(?:-[A-Za-z0-9_]+)+'*"
DECLARED = re.compile(
    r"^[ ]*(?:(?:abbrev|pub|unfoldable|pattern|record|data) )*(%s) (?:\{[^\n]*\} |\([^\n]*\) )*:(?!\s*goal\.)" % NAME, re.M
)
WORD = re.compile(r"(?<![\w'-])%s(?![\w'-])" % NAME)
QUIET = re.compile(r'--[^\n]*|//[^\n]*|"(?:[^"\\\n]|\\.)*"')


def spelled(name):
    if name in FIXED:
        return FIXED[name]
    if name[0].isupper():
        return "".join(part[0].upper() + part[1:] for part in name.split("-"))
    return name.replace("-", "_")


def files(top):
    for folder, folders, names in os.walk(top):
        folders[:] = sorted(f for f in folders if f not in (".git", "out", "target"))
        for name in sorted(names):
            if name.endswith((".antt", ".rt", ".edit", ".md")):
                yield os.path.join(folder, name)


def turned(text, names):
    return WORD.sub(lambda m: spelled(m[0]) if m[0] in names else m[0], text)


def code(text, names):
    out, at = [], 0
    for quiet in QUIET.finditer(text):
        out += [turned(text[at : quiet.start()], names), quiet[0]]
        at = quiet.end()
    return "".join(out) + turned(text[at:], names)


def page(text, names):
    return re.sub(r"`[^`\n]+`", lambda m: turned(m[0], names), text)


def main(top):
    names = set()
    for path in files(top):
        if path.endswith(".antt"):
            names |= set(DECLARED.findall(open(path).read()))
    changed = 0
    for path in files(top):
        old = open(path).read()
        new = page(old, names) if path.endswith(".md") else code(old, names)
        if new != old:
            open(path, "w").write(new)
            changed += 1
    print(f"{len(names)} names, {changed} files")


main(sys.argv[1] if len(sys.argv) > 1 else ".")
