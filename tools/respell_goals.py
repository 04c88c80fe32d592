#!/usr/bin/env python3
"""Writes names of the source as the source spells them, and the check's own words in today's spelling, in what the proof
files cite of the check: goals, steps and places. Usage: python3 tools/respell_goals.py [ROOT]

`c.if-not-may-follow` becomes `c.if-not-may_follow`, `returns-in-default-arrange` `returns-in_default-arrange`. Run it once, after
tools/respell.py. What it misses the check names.
"""
import pathlib
import re
import sys

ROOT = pathlib.Path(sys.argv[1] if len(sys.argv) > 1 else ".").resolve()
WORD = re.compile(r"[^\s(){}\[\];,.\"`«»]+")
OWN = re.compile(
    r"(?<![^-+])(overflow-(?:add|sub|mul|shl|shr|cast|step)|nonzero-(?:div|rem)|(?:offset|slice)-bounds|(?:invariant|shape)-of|type-inv"
    r"|well-formed|[iI]n-(?:default|ok|err|rest)|yielded-by)(?![^-+])"
)
KEEP = re.compile(r"^(loop|if|then|else|returns)-")


def names_of_source():
    found = set()
    for path in ROOT.glob("crates/*/src/**/*.rt"):
        for word in re.findall(r"[A-Za-z][A-Za-z0-9_]*", path.read_text()):
            if "_" in word and not word.startswith("_"):
                found.add(word)
    found |= {"copy_from_slice", "from_residual", "as_mut_slice"}
    return {w.replace("_", "-"): w for w in found}


def finder(names):
    longest = sorted(names, key=len, reverse=True)
    return re.compile(r"(?<![^-+])(" + "|".join(map(re.escape, longest)) + r")(?![^-+])")


def turned(word, names, find):
    if "-" not in word:
        return word
    old = None
    while old != word:
        old = word
        word = find.sub(lambda m: names[m[1]], word)
    return OWN.sub(lambda m: m[1].replace("-", "_"), word)


def lemmas(text):
    """What a file imports from elsewhere than the check's modules, and what it defines that is no goal."""
    kept = set()
    for line in text.splitlines():
        m = re.match(r"\s*(?:pub )?use ([^{]*)\{([^}]*)\}", line)
        if m and not re.search(r"\.(Goals|Given|Lts)\b", m[1]):
            kept |= {w.strip() for w in re.split(r",| as ", m[2])}
        d = re.match(r"^\s*(?:(?:pub|abbrev|unfoldable)\s+)*([^\s(){}.;,]+)\s*:", line)
        if d and not re.search(r":\s*(goal|need|given)\.", line):
            kept.add(d[1])
    return kept


def main():
    names = names_of_source()
    find = finder(names)
    count = 0
    for path in sorted(ROOT.glob("crates/*/proofs/*/**/*.antt")):
        text = path.read_text()
        kept = lemmas(text)
        lines = []
        for line in text.splitlines(keepends=True):
            outside = re.match(r"\s*(?:pub )?use ", line) and not re.search(r"\.(Goals|Given|Lts)\b", line)
            if outside or line.lstrip().startswith("--"):
                lines.append(line)
                continue
            out, at = [], 0
            for m in WORD.finditer(line):
                behind_dot = line[: m.start()].endswith(".")
                out.append(line[at : m.start()])
                word = m[0]
                out.append(word if word in kept and not behind_dot else turned(word, names, find))
                at = m.end()
            out.append(line[at:])
            lines.append("".join(out))
        new = "".join(lines)
        if new != text:
            path.write_text(new)
            count += 1
    print(f"{count} files")


main()
