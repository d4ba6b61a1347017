#!/usr/bin/env python3
"""Moves theorems of a crate from specs/ to proofs/, where an edit of a definition can't make the definitions' own files unreadable.

usage: python3 tools/move_laws.py CRATE [MODULE..]    at the top of the repository

It moves each file of specs/ whose name ends in Laws, and the named modules, as Winners.SameWinner or the folder Examples. The files are moved
as they are; the paths that name them are turned in all crates, as Rattle.CRATE.specs.M to Rattle.CRATE.proofs.M, and so are the `mod` lines.
It refuses where a file that stays names one that moves.
"""
import glob
import os
import re
import sys

crate, named = sys.argv[1], sys.argv[2:]
base = f"crates/{crate}"


def read(path):
    with open(path, encoding="utf-8") as it:
        return it.read()


def write(path, text):
    os.makedirs(os.path.dirname(path), exist_ok=True)
    with open(path, "w", encoding="utf-8") as it:
        it.write(text)


modules = {}
for path in sorted(glob.glob(f"{base}/specs/**/*.antt", recursive=True)):
    modules[path[len(f"{base}/specs/") : -5].replace("/", ".")] = path
nodes = {it for it in modules if os.path.isdir(f"{base}/specs/{it.replace('.', '/')}")}
moved = {it for it in modules if it.endswith("Laws") or any(it == n or it.startswith(f"{n}.") for n in named)} - {"Lib"}
moved -= {it for it in nodes if not any(it == n or it.startswith(f"{n}.") for n in named)}
for name, path in modules.items():
    if name not in moved and name not in nodes and name != "Lib":
        for m in moved:
            if re.search(rf"\bRattle\.{crate}\.specs\.{re.escape(m)}\b(?!\.[A-Z]\w*\.)", read(path)):
                sys.exit(f"move_laws: {name} stays and names {m}")


def parent_of(name):
    return name.rpartition(".")[0]


def node_path(side, parent):
    return f"{base}/{side}/{parent.replace('.', '/')}.antt" if parent else f"{base}/{side}/Lib.antt"


for name in sorted(moved):
    parent, leaf = parent_of(name), name.rpartition(".")[2]
    if parent not in moved or not parent:
        node = node_path("specs", parent)
        text = read(node)
        write(node, re.sub(rf"^(pub )?mod {leaf}\n", "", text, flags=re.M))
        target = node_path("proofs", parent)
        if not os.path.exists(target):
            write(target, "-- Laws; their definitions stand in specs.\n" if parent else "-- Laws of the crate's definitions, for its own proofs and those of the crates above.\n")
        write(target, read(target) + f"pub mod {leaf}\n")
        while parent:
            above, leaf = parent_of(parent), parent.rpartition(".")[2]
            target = node_path("proofs", above)
            if not os.path.exists(target):
                write(target, "-- Laws of the crate's definitions, for its own proofs and those of the crates above.\n")
            if not re.search(rf"^pub mod {leaf}$", read(target), re.M):
                write(target, read(target) + f"pub mod {leaf}\n")
            parent = above
    new = modules[name].replace(f"{base}/specs/", f"{base}/proofs/", 1)
    if name in nodes:
        text = read(modules[name])
        os.remove(modules[name])
        write(new, text)
    else:
        os.makedirs(os.path.dirname(new), exist_ok=True)
        os.rename(modules[name], new)
for folder, _, _ in sorted(os.walk(f"{base}/specs"), reverse=True):
    if not os.listdir(folder):
        os.rmdir(folder)
names = "|".join(sorted(map(re.escape, moved), key=len, reverse=True))
path_of = re.compile(rf"\bRattle\.{crate}\.specs\.({names})(?![\w'])")
for path in glob.glob("crates/*/specs/**/*.antt", recursive=True) + glob.glob("crates/*/proofs/**/*.antt", recursive=True) + glob.glob("crates/*/src/**/*.rt", recursive=True):
    text = read(path)
    made = path_of.sub(rf"Rattle.{crate}.proofs.\1", text)
    if made != text:
        write(path, made)
print(f"move_laws: {crate}: {len(moved)} modules")
