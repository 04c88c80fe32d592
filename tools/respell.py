#!/usr/bin/env python3
"""Brings this repository's own definitions and lemmas to the spelling of today's Rattle. Usage: python3 tools/respell.py [ROOT]

Run once, after the toolchain's own script. Types and facts are in camel case, all else in snake case; a dash stays in a
lemma that joins two names, as in `length-gather`. Goals keep the names that the check gives them. Functions of src/,
strings, comments, inputs, outputs and must-fail edits are not touched.
"""
import pathlib
import re
import sys

ROOT = pathlib.Path(sys.argv[1] if len(sys.argv) > 1 else ".").resolve()
WORD = re.compile(r"[^\s(){}\[\];,.\"`«»]+")
HEAD = re.compile(r"^(\s*)((?:(?:abbrev|unfoldable|record|data|ruleset|pub|mutual)\s+)*)([^\s(){}\[\];,.]+)\s*(.*)$")
GOAL = re.compile(r":\s*(goal|need|given)\.")
DEFINES = re.compile(r"\b(abbrev|unfoldable|record|data|ruleset)\b")
# names of the library that a lemma's name may join
LIBRARY = {"length", "take", "drop", "append", "map", "set", "replicate", "nth", "lookup", "min", "max", "sum"}


def antt():
    return sorted(ROOT.glob("crates/*/specs/**/*.antt")) + sorted(ROOT.glob("crates/*/proofs/**/*.antt"))


def dashed(word):
    return ("-" in word or "′" in word) and re.search(r"\w", word) is not None


def found():
    """The dashed names that the repository defines, each with whether it is a definition; and the definitions without a dash."""
    names, plain, goals = {}, set(), set()
    for path in antt():
        for line in path.read_text().splitlines():
            if line.lstrip().startswith(("--", "use ")):
                continue
            m = HEAD.match(line)
            if not m:
                continue
            indent, mods, name, rest = m.groups()
            defines = bool(DEFINES.search(mods))
            if defines and not dashed(name):
                plain.add(name)
            if not dashed(name):
                continue
            if GOAL.search(rest):
                goals.add(name)
            elif defines or rest.startswith(":") or (mods and ":" in rest):
                names[name] = names.get(name, False) or defines
    return {n: d for n, d in names.items() if n not in goals}, plain


def snake(word):
    return word.replace("-", "_").replace("′", "'")


def respelled():
    names, plain = found()
    known = plain | LIBRARY | {snake(n) for n, defines in names.items() if defines}
    to = {}
    for name, defines in sorted(names.items()):
        if name[0].isupper():
            to[name] = "".join(w[:1].upper() + w[1:] for w in name.replace("′", "'").split("-"))
        else:
            to[name] = snake(name)
            for at, c in enumerate(name):
                left, right = snake(name[:at]), snake(name[at + 1 :])
                if c == "-" and not defines and left in known and right in known:
                    to[name] = left + "-" + right
    return to


def turn(text, to):
    return WORD.sub(lambda m: to.get(m[0], m[0]), text)


def outside_strings(line, to):
    parts = re.split(r'("(?:\\.|[^"\\])*")', line)
    return "".join(p if i % 2 else turn(p, to) for i, p in enumerate(parts))


def main():
    to = respelled()
    paths = antt() + sorted(ROOT.glob("crates/*/src/**/*.rt"))
    changed = 0
    for path in paths:
        old = path.read_text()
        comment = "//" if path.suffix == ".rt" else "--"
        new = "".join(l if l.lstrip().startswith(comment) else outside_strings(l, to) for l in old.splitlines(keepends=True))
        if new != old:
            path.write_text(new)
            changed += 1
    for old, new in to.items():
        print(old, new)
    seen = {}
    for old, new in to.items():
        if new in seen:
            print(f"fall together: {seen[new]} {old} {new}")
        seen[new] = old
    print(f"{len(to)} names, {changed} files", file=sys.stderr)


main()
