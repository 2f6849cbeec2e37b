#!/usr/bin/env python3
"""Lists must-fail edits that no longer fit the text: whose file is gone, or whose 'old:' doesn't stand in it exactly once.

usage: tools/edits.py     at the top of the repository; it ends with how many there are
"""
import glob
import os

bad = 0
for edit in sorted(glob.glob("crates/*/must-fail/*.edit")):
    crate = os.path.dirname(os.path.dirname(edit))
    file, old, texts = None, None, {}
    for line in open(edit, encoding="utf-8").read().split("\n"):
        if line.startswith("file:"):
            file = os.path.join(crate, line[5:].strip())
            if file not in texts:
                texts[file] = open(file, encoding="utf-8").read() if os.path.exists(file) else None
        elif line.startswith("old:"):
            old = line[5:]
        elif line.startswith("new:"):
            if texts[file] is None:
                print(edit, "no file", file)
                bad += 1
            elif texts[file].count(old) != 1:
                print(edit, texts[file].count(old), "times in", file, ":", old)
                bad += 1
            else:
                # further pairs apply to what the earlier ones made
                texts[file] = texts[file].replace(old, line[5:])
print(bad, "bad")
