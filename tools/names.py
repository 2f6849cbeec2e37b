#!/usr/bin/env python3
"""Spells the names that this repository's antt declares as today's Rattle does: definitions, lemmas, fields and constructors in
snake case, a prime as an apostrophe. Types and modules, in camel case, stay, and so do names that Rattle makes.

usage: tools/names.py [--dry]     at the top of the repository

It turns whole words in .antt, .rt, .edit and .md files. Where a new name would meet another in some file, it stays and is printed.
"""
import collections
import os
import re
import subprocess
import sys

WORD = re.compile(r"[^\s(){}.;,@\"«»`\[\]]+")
DECLARATION = re.compile(
    r"^ *(?:(?:abbrev|unfoldable|pub|private|instance|irreducible|opaque) +)*([^\s(){}.;,@\"«»:]+)((?: +[({][^(){}]*[)}])*) +:(?= )", re.M)
SKIP = re.compile(r"^ *(?:pub +)*(?:use|ghost use|record|data|mod|open|unfolding)\b")
MADE = re.compile(r"(?:^|/)proofs/(?:.*/)?[^/]+/(?:Proof|Answers|Invariants)\.antt$")
# quoted texts stay
OUTSIDE = re.compile(r'"(?:\\.|[^"\\\n])*"|[^"]+|"')
# other names where the new spelling has a meaning already
OTHER = {}
OTHER_FILE = os.path.join(os.path.dirname(os.path.abspath(__file__)), "names.txt")


def snake(name):
    name = name.replace("′", "'")
    name = re.sub(r"(?<=[a-z0-9])([A-Z])(?=[a-z]|$)", lambda m: "_" + m[1].lower(), name)
    name = re.sub(r"(?<=[a-z0-9])([A-Z])", lambda m: "_" + m[1], name)
    return re.sub(r"(?<=\w)-(?=\w)", "_", name)


def meets(f, t, new):
    """Whether the file has the new name already, as something that the old one is not: a function of Rust may be called as its definition."""
    name = re.escape(new)
    if f.endswith(".rt"):
        return re.search(rf"(?<![\w:]){name}: |\b(?:let|let mut|for) {name}\b", t)
    return re.search(rf"(?<![^\s(){{}};,@])(?<!proofs\.){name}(?![^\s(){{}};,@])(?! *=(?!=))", t)


def of_libraries(t, own):
    """The names that a file imports from modules that aren't this repository's."""
    names = set()
    for path, group in re.findall(r"\buse ([^\s;{]+?)\.\{([^}]*)\}", t):
        steps = path.split(".")
        if not (steps[0] == "package" or steps[0] == "Rattle" and steps[1] in own):
            names.update(x.strip() for x in group.split(","))
    return names


def main():
    dry = "--dry" in sys.argv
    if os.path.exists(OTHER_FILE):
        for line in open(OTHER_FILE, encoding="utf-8"):
            if line.strip() and not line.startswith("#"):
                old, new = line.split()
                OTHER[old] = new
    tracked = subprocess.run(["git", "ls-files"], capture_output=True, text=True, check=True).stdout.split("\n")
    antt = [f for f in tracked if f.endswith(".antt") and os.path.exists(f)]
    rt = [f for f in tracked if f.endswith(".rt") and os.path.exists(f)]
    md = [f for f in tracked if f.endswith(".md") and os.path.exists(f) and not f.startswith("docs/PORT")]
    edits = [f for f in tracked if f.endswith(".edit") and os.path.exists(f)]
    text = {f: open(f, encoding="utf-8").read() for f in antt + rt + md + edits}
    declared = {}
    for f in antt:
        if MADE.search(f):
            continue
        for line in text[f].split("\n"):
            if SKIP.match(line) or line.lstrip().startswith("--"):
                continue
            m = DECLARATION.match(line)
            if not m:
                continue
            name = m[1]
            if not re.match(r"[a-z]", name) or name in ("forall",):
                continue
            new = OTHER.get(name, snake(name))
            if new != name:
                declared.setdefault(name, new)
    words = {f: collections.Counter(WORD.findall(t)) for f, t in text.items()}
    made = set()
    for f in antt:
        made.update(re.findall(r"(?:tie|goal)\.([^\s(){}.;,@\"«»]+)", text[f]))
    table = {}
    for old, new in sorted(declared.items()):
        users = [f for f in antt + rt if old in words[f]]
        clash = [f for f in users if meets(f, text[f], new)]
        if old in made:
            print("made by Rattle too:", old)
        if clash:
            print("clash:", old, new, len(clash), "of", len(users), clash[:3])
            continue
        table[old] = new
    # a lemma that would have its function's name
    taken = {new for old, new in table.items() if "-" not in old}
    for old, new in table.items():
        if "-" in old and new in taken:
            table[old] = new + "_lem"
    several = collections.defaultdict(list)
    for old, new in table.items():
        several[new].append(old)
    for new, olds in several.items():
        if len(olds) > 1:
            both = [f for f in text if sum(o in words[f] for o in olds) > 1]
            print("fall together:", new, olds, both[:3])
    print(len(table), "names")
    if dry:
        return
    # pages and edits may have names that are spelled anew everywhere else already
    now = set(table.values())
    for f in antt:
        now.update(m[1] for m in DECLARATION.finditer(text[f]))
    for f in md + edits:
        for old in words[f]:
            if re.match(r"[a-z]", old) and old not in table and old not in now and snake(old) != old and snake(old) in now:
                table[old] = snake(old)
    own = set(os.listdir("crates"))
    n = 0
    for f, t in text.items():
        theirs = of_libraries(t, own) if f.endswith((".antt", ".rt")) else ()
        if f.endswith(".md"):
            out = re.sub(r"`[^`\n]+`", lambda m: WORD.sub(lambda w: table.get(w[0], w[0]), m[0]), t)
        else:
            out = OUTSIDE.sub(lambda m: m[0] if m[0][0] == '"' else WORD.sub(lambda w: w[0] if w[0] in theirs else table.get(w[0], w[0]), m[0]), t)
        if out != t:
            open(f, "w", encoding="utf-8").write(out)
            n += 1
    print(n, "files")


main()
