#!/usr/bin/env python3
"""places.py [POINT]: lists the places of src/ that docs/DESIGN-PASS.md counts, point by point, with a count at the end of each."""
import collections
import glob
import itertools
import os
import re
import sys

TOP = os.path.dirname(os.path.dirname(os.path.abspath(__file__)))


def sources():
    for file in sorted(glob.glob(f"{TOP}/crates/*/src/**/*.rt", recursive=True)):
        with open(file) as it:
            yield os.path.relpath(file, f"{TOP}/crates"), it.read()


def functions():
    """Each function as its file, its name, its parameters, and its text from the word fn to the end of its body."""
    for file, text in sources():
        for found in re.finditer(r"^[ ]*(?:pub(?:\(crate\))? )?(?:unsafe )?(?:extern \"C\" )?fn (\w+)[^(\n]*\(", text, re.M):
            i, depth = found.end(), 1
            while depth:
                depth += {"(": 1, ")": -1}.get(text[i], 0)
                i += 1
            params = re.split(r",(?![^\[(<]*[\])>])", text[found.end() : i - 1])
            start = re.search(r"^([ ]*)\{|\{$", text[i:], re.M)
            end = text.find("\n" + re.match(r"[ ]*", found.group(0)).group(0) + "}", i + start.start()) if start else i
            yield file, found.group(1), [" ".join(it.split()) for it in params if ":" in it], text[i:end], text[i + start.end() : end]


def types(word):
    for file, text in sources():
        for found in re.finditer(rf"^(?:pub(?:\(crate\))? )?{word} (\w+)[^\n]*\{{\n(.*?)^\}}", text, re.M | re.S):
            cases = [it.strip().rstrip(",") for it in found.group(2).split("\n")]
            yield file, found.group(1), [it for it in cases if it and not it.startswith(("//", "#", "ghost"))]


def of_option_or_result():
    """An enum of a case with a value, and of one with nothing or with what went wrong."""
    for file, name, cases in types("enum"):
        plain = [it for it in cases if "(" not in it]
        refused = [it for it in cases if re.match(r"(Refused|Failed|TooLong|TooManyRows)\(", it)]
        if len(plain) < len(cases) and (plain or refused) and name != "Refusal":
            yield f"{file} enum {name}: {', '.join(cases)}"


def flags():
    for file, name, fields in types("struct"):
        if any(it.endswith(": bool") for it in fields) and len(fields) > 1:
            yield f"{file} struct {name}: {', '.join(fields)}"


def numbers_for_none():
    """A comment that gives a number the meaning of nothing."""
    for file, text in sources():
        for line in text.split("\n"):
            if re.search(r"//.*(\b0 (where|if|without|for none|of none)|or 0\b|NO_ROW|NO_ID|0: none|0 there)", line):
                yield f"{file} {line.strip()}"


def twins():
    alike = collections.defaultdict(list)
    for file, name, params, _, body in functions():
        lines = [it for it in body.split("\n") if it.strip() and not it.strip().startswith("//")]
        if len(lines) >= 3:
            alike[re.sub(r"\d+", "0", re.sub(r"[A-Za-z_]\w*", "x", "\n".join(lines)))].append(f"{file} {name}")
    for places in alike.values():
        if len(places) > 1:
            yield " ~ ".join(places)


def loops():
    for file, name, _, _, body in functions():
        for found in re.finditer(r"^([ ]*)while ([^\n]*) \{\n(.*?)^\1\}", body, re.M | re.S):
            if re.search(r"^\s*\w+ [+-]= 1;", found.group(3), re.M):
                yield f"{file} {name}: while {found.group(2)}"


def by_hand():
    """A body that is one match of constants, and equality or order by a name."""
    for file, name, _, _, body in functions():
        arms = re.findall(r"=> ([^\n]*),\n", body)
        one = re.match(r"\s*match [^\n]*\{\n(?:[^\n]*=> [\w:.\"']+,\n)+\s*\}\s*$", body + "\n")
        if name != "from" and (one and len(arms) > 1) or re.match(r"(same|equal|is_same|before|compare|less)(_|$)", name):
            yield f"{file} {name}"


def together():
    """Three or more parameters that the same three or more functions take."""
    takers = collections.defaultdict(set)
    for file, name, params, _, _ in functions():
        for n in (3, 4, 5):
            for group in itertools.combinations(sorted(set(params)), n) if len(params) <= 12 else []:
                takers[group].add(f"{file} {name}")
    kept = []
    for group, places in sorted(takers.items(), key=lambda it: (-len(it[1]) * (len(it[0]) - 1), -len(it[0]), it[0])):
        if len(places) >= 3 and not any(len(set(group) & set(it)) >= 2 for it in kept):
            kept.append(group)
            yield f"{len(places)} functions: {', '.join(group)}"


def buffers():
    for file, name, fields in types("struct"):
        if any(re.search(r": \[", it) for it in fields) and any(re.match(r"(pub )?(len|length|count)\b", it) for it in fields):
            yield f"{file} struct {name}"
    for file, name, params, _, _ in functions():
        slices = [it for it in params if re.search(r": &(mut )?\[", it)]
        if len(slices) > 1 and any(re.match(r"(n|count|rows|len): usize", it) for it in params):
            yield f"{file} {name}: {', '.join(it.split(':')[0] for it in slices)} of one length"


def switches():
    for file, name, params, _, _ in functions():
        for it in params:
            if re.search(r": bool$|: (Call|Question|Showing|Side|Scale)$", it):
                yield f"{file} {name}: {it}"


def plain_answers():
    for file in sorted(glob.glob(f"{TOP}/crates/*/proofs/**/Answers.antt", recursive=True)):
        with open(file) as it:
            for found in re.finditer(r"^(\S+) c(?: \S+)* = (tt|search rules)$", it.read(), re.M):
                yield f"{os.path.relpath(file, TOP)} {found.group(1)}"


def repeated_lets():
    """A `let` with its type that more than one answer of a function writes: a lemma would say it once."""
    for file in sorted(glob.glob(f"{TOP}/crates/*/proofs/**/Answers.antt", recursive=True)):
        with open(file) as it:
            lines = collections.Counter(line.strip() for line in it if re.match(r"\s+let [\w\-]+ : ", line))
        for line, times in lines.items():
            if times > 1:
                yield from [f"{os.path.relpath(file, TOP)} {line.split(' : ')[0]}"] * times


POINTS = {
    "1": [of_option_or_result, flags, numbers_for_none],
    "2": [twins],
    "3": [loops],
    "4": [by_hand],
    "5": [together],
    "6": [buffers],
    "7": [switches],
    "8": [plain_answers, repeated_lets],
}

for point, counts in POINTS.items():
    if len(sys.argv) < 2 or point in sys.argv[1:]:
        for count in counts:
            places = list(count())
            if len(sys.argv) > 1:
                print("\n".join(places))
            print(f"{point} {count.__name__}: {len(places)}")
