#!/usr/bin/env python3
"""Lists the must-fail edits that can't be applied: a file that isn't there, or an `old:` text that is not in it exactly once.

usage: python3 tools/edits.py [CRATE..]    at the top of the repository; status 1 where there are any
"""
import glob
import os
import sys


def read(path):
    with open(path, encoding="utf-8") as it:
        return it.read()


failing = 0
named = sys.argv[1:] or ["*"]
for edit in sorted(it for crate in named for it in glob.glob(f"crates/{crate}/must-fail/*.edit")):
    base = edit.partition("/must-fail/")[0]
    path, old, texts = "", "", {}
    for line in read(edit).split("\n"):
        if line.startswith("file: "):
            path = line[len("file: ") :].strip()
        elif line.startswith("old: "):
            old = line[len("old: ") :]
        elif line.startswith("new:"):
            new = line[len("new:") :].removeprefix(" ")
            if path not in texts:
                texts[path] = read(f"{base}/{path}") if os.path.isfile(f"{base}/{path}") else None
            if texts[path] is None:
                failing += 1
                print(f"{edit}: there is no file {path}")
                continue
            count = texts[path].count(old)
            if count != 1:
                failing += 1
                print(f"{edit}: in {path} {count} times: {old}")
            texts[path] = texts[path].replace(old, new)
print(f"edits: {failing} texts to mend")
sys.exit(1 if failing else 0)
