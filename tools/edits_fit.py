#!/usr/bin/env python3
"""Says which must-fail edits no longer fit their files: an old text has to stand exactly once, counted after the pairs before it."""
import glob
import os
import sys

bad = 0
for edit in sorted(glob.glob("crates/*/must-fail/*.edit")):
    crate = edit.split("/must-fail/")[0]
    texts, name, old = {}, None, None
    for line in open(edit, encoding="utf-8").read().splitlines():
        if line.startswith("file: "):
            name = line[6:]
            path = os.path.join(crate, name)
            texts.setdefault(name, open(path, encoding="utf-8").read() if os.path.exists(path) else "")
        elif line.startswith("old: "):
            old = line[5:]
        elif line.startswith("new: "):
            count = texts[name].count(old)
            if count != 1:
                print(f"{edit}: {count} times in {name}: {old}")
                bad += 1
            texts[name] = texts[name].replace(old, line[5:])
sys.exit(1 if bad else 0)
