#!/usr/bin/env python3
"""Lists places of src/ that older forms stand in, by the points of docs/DESIGN-PASS.md.

    python3 tools/places.py [POINT ..]     each place of these points (of all: their numbers)
"""
import glob
import re
import sys
from collections import defaultdict


def functions(text):
    """Each function's name, line, signature and body (None where a trait only declares it)."""
    for m in re.finditer(r'\bfn (\w+)', text):
        start = text.rfind('\n', 0, m.start()) + 1
        if '//' in text[start:m.start()]:
            continue
        depth, i = 0, m.end()
        sign = None
        while i < len(text):
            c = text[i]
            if c in '([':
                depth += 1
            elif c in ')]':
                depth -= 1
            elif depth == 0 and (c == ';' or text.startswith('\n{', i) or text.startswith(' {\n', i)):
                sign = text[m.start():i]
                break
            i += 1
        if sign is None:
            continue
        head = re.split(r'\n\s*(?:requires|ensures|where)\b', sign)[0]
        body = None
        if text[i] != ';':
            j = text.index('{', i)
            depth, k = 0, j
            while k < len(text):
                if text[k] == '{':
                    depth += 1
                elif text[k] == '}':
                    depth -= 1
                    if depth == 0:
                        break
                k += 1
            body = text[j:k + 1]
        yield m.group(1), text.count('\n', 0, m.start()) + 1, re.sub(r'\s+', ' ', head), sign, body


def lines(pattern, files, leave=None):
    for path, text in files:
        for n, line in enumerate(text.split('\n'), 1):
            if re.match(r'\s*(//|ghost use|use |requires|ensures)', line):
                continue
            if re.search(pattern, line) and not (leave and re.search(leave, line)):
                yield f'{path}:{n}: {line.strip()}'


def parameters(head):
    inner = head[head.index('(') + 1:head.rindex(')')] if '->' not in head else head[head.index('(') + 1:head[:head.rindex('->')].rindex(')')]
    return [p.strip() for p in re.split(r',(?![^<(\[]*[>)\]])', inner) if p.strip()]


def places(files):
    found = defaultdict(list)
    clauses = defaultdict(list)
    groups = defaultdict(list)
    for path, text in files:
        for name, line, head, sign, body in functions(text):
            where = f'{path}:{line}: fn {name}'
            answer = head.rsplit('->', 1)[1].strip() if '->' in head else ''
            if re.match(r'(bool|Option<\(\)>)', answer) and '&mut' in head:
                found['1a a flag beside what the call changes'].append(f'{where} -> {answer}')
            if body:
                for m in re.finditer(r'\n( *)for [^\n]* \{\n(.*?)\n\1\}', body, re.S):
                    if re.search(r'return (true|false|Some\(|None)', m.group(2)) and m.group(2).count('\n') <= 4:
                        at = line + sign.count('\n') + body.count('\n', 0, m.start()) + 1
                        found['3b a loop that searches or tests'].append(f'{path}:{at}: in fn {name}')
            for m in re.finditer(r'(?:requires|ensures)\*?(?: \w+)? \{(.*)\}', sign):
                whole = m.group(0)
                if whole.startswith('requires'):
                    for part in re.split(r' × ', m.group(1)):
                        clauses[re.sub(r'[()]', '', part).strip()].append(where)
                else:
                    for part in re.findall(r'^\s*(\S+\.sound \S+) →', m.group(1)):
                        clauses['premise ' + re.sub(r'\.(old|now)', '', part)].append(where)
            own = [re.sub(r'\s', '', p) for p in parameters(head)]
            names = tuple(sorted(p.split(':')[0] for p in own if ':' in p))
            if len(own) >= 5:
                groups[names].append(where)
                found['5b five parameters or more'].append(f'{where}({", ".join(names)})')
    for clause, at in sorted(clauses.items()):
        if len(at) >= 3:
            found['5a a fact in the contracts of three functions or more'].append(f'{clause}: {len(at)} functions, as {at[0]}')
    found['1b own enums, to be read'] = list(lines(r'^\s*(pub )?enum \w', files))
    found['1c numbers for kinds or refusals'] = list(lines(r'\b(code|kind): \d|Wrong\(\d|Wrong\(u8|Refused\(u8\)|Unstored\(u8\)|kind == \d|function: bool|code == \d', files))
    found['3a an index or a count by hand'] = list(lines(r'\bwhile \b|\bfor \w+ in [\w.()]*\.\.|[+-]= 1;|saturating_add\(1\)', files))
    found['4a comparisons and copies by hand'] = list(lines(r'impl.*\b(PartialEq|Eq|PartialOrd|Ord|Clone)\b.* for|fn (same|same_bytes|alike|are_equal|copy_from|spells)\b', files))
    found['4b conversions by hand'] = list(lines(r'\bas (u8|u16|u32|u64|i32|i64|usize|char)\b|[*/%] (256|65536)\b|=> Some\((\w+)\),$|if b \{ 1 \} else \{ 0 \}', files))
    found['6 a length beside a buffer, parallel arrays'] = list(lines(r'^\s*(pub(\(crate\))? )?(count|rows|end|length): usize,|^\s*(pub(\(crate\))? )?\w+: \[\w+; \d+\],', files))
    found['7 a chain that chooses by words'] = list(lines(r'if (\w+(\[\.\.\])?) == (b?"[\w+-]+"(\[\.\.\])?) \{', files))
    return found


def main():
    files = [(p, open(p).read()) for p in sorted(glob.glob('crates/*/src/**/*.rt', recursive=True))]
    found = places(files)
    wanted = sys.argv[1:]
    for point in sorted(found):
        print(f'{point}: {len(found[point])}')
        if any(point.startswith(w) for w in wanted):
            for place in found[point]:
                print('   ', place)


main()
