#!/usr/bin/env python3
"""Brings the repository's own definitions and lemmas to the spelling of today's Rattle: words in snake case, modules in upper camel case.

usage: python3 tools/respell.py [--check]    at the top of a repository that the kit's port.py has turned

Words: each name that a file of specs/ or proofs/ declares, but for the answers and the last line of a Proof.antt, which Rattle names. A dash
becomes `_`, and so does a capital behind a small letter, as in `class_of`; a name that begins with a capital keeps its capitals. Modules: the
folders of specs/ that begin with a small letter. It turns whole words of .antt and .rt files, in clauses and `ghost use` lines, and in the
code spans of comments and pages; a name that a library declares too stays in a file that imports it from there. --check writes nothing.
Names that fall together are printed in lines that begin `clash:`.
Where a lemma would get its function's name, it gets `_lem` behind it.
"""
import collections
import glob
import os
import re
import sys

WORD = re.compile(r"[^\s(){}\[\].;,@\"«»`|:/]+")
DECLARED = re.compile(
    r"^\s*(?:(?:pub|abbrev|unfoldable|private|open) )*(?:(?:record|data) )?([^\s(){}.;,@\"«»:]+)(?: \{[^{}\n]*\}| \([^()\n]*\))* :(?: |$)(.*)"
)
USE = re.compile(r"^\s*(?:pub |ghost )*use ([^\s;{]+?)\.?\{([^}]*)\}", re.M)
PAGES = ["README.md", "CONTRIBUTING.md", "CHANGELOG.md", *sorted(glob.glob("docs/**/*.md", recursive=True)), ".ci/imports", ".ci/selftest"]


def read(path):
    with open(path, encoding="utf-8") as it:
        return it.read()


# Lemmas that port.py has spelled like a definition of another spelling.
FIRST = {it: f"{it}_lem" for it in ("same_class", "place_at", "pair_is", "pairs_of", "target_at", "carried_plan")}
# Lemmas that would get the name of a library's function.
LIBRARY = {"bit-or": "bit_or_lem", "bit-and": "bit_and_lem"}


def respelled(name):
    if not name[0].isupper():
        name = re.sub(r"(?<=[a-z0-9])[A-Z]", lambda m: "_" + m[0].lower(), name)
    return name.replace("-", "_")


def antt_files():
    return sorted(glob.glob("crates/*/specs/**/*.antt", recursive=True) + glob.glob("crates/*/proofs/**/*.antt", recursive=True))


def declared():
    found = set()
    for path in antt_files():
        is_proof = path.endswith("/Proof.antt")
        for line in read(path).split("\n"):
            at = DECLARED.match(line)
            if not at or line.lstrip().startswith("--"):
                continue
            name, kind = at[1], at[2]
            if is_proof and (name.endswith("-spec") or re.match(r"\(?tie\.", kind) or line[0].isspace()):
                continue
            found.add(name)
    return found


def modules():
    """The folders of specs/ whose names begin with a small letter."""
    found = {}
    for path in sorted(glob.glob("crates/*/specs/*/")):
        crate, folder = path.split("/")[1], path.split("/")[3]
        if folder[0].islower():
            found[crate, folder] = folder[0].upper() + folder[1:]
    return found


def in_words(text, table):
    return WORD.sub(lambda m: table.get(m[0], m[0]), text)


def in_spans(text, table):
    return re.sub(r"`[^`\n]+`", lambda m: in_words(m[0], table), text)


def in_comment(text, table):
    camel = {old: new for old, new in table.items() if "-" not in old and not old.islower()}
    return in_spans(in_words(text, camel), table)


def of_antt(text, table):
    lines = []
    for line in text.split("\n"):
        code, mark, comment = line, "", ""
        at = re.search(r"(?:^|\s)--(?=\s|$)", line)
        if at:
            code, comment = line[: at.start()], line[at.start() :]
        lines.append(in_words(code, table) + in_comment(comment, table))
    return "\n".join(lines)


CLAUSE = re.compile(r"\b(?:requires|ensures|ghost)\b\*?(?:\s+\w+)?\s*:?\s*=?\s*\{")


def of_rt(text, table):
    """Clauses, `ghost use` items and code spans of comments."""
    spans = [m.span() for m in re.finditer(r"ghost use [^;]*;", text)]
    for m in CLAUSE.finditer(text):
        depth, end = 1, m.end()
        while depth and end < len(text):
            depth += {"{": 1, "}": -1}.get(text[end], 0)
            end += 1
        spans.append((m.end(), end))
    spans.sort()
    out, last = [], 0
    for start, end in spans:
        if start < last:
            continue
        out.append(re.sub(r"//[^\n]*", lambda m: in_comment(m[0], table), text[last:start]))
        out.append(in_words(text[start:end], table))
        last = end
    out.append(re.sub(r"//[^\n]*", lambda m: in_comment(m[0], table), text[last:]))
    return "".join(out)


def of_page(text, table):
    out = []
    for i, part in enumerate(re.split(r"(^```[^\n]*\n.*?^```)", text, flags=re.M | re.S)):
        out.append(in_words(part, table) if i % 2 else in_spans(part, table))
    return "".join(out)


def with_modules(text, crate, folders):
    for (owner, old), new in folders.items():
        text = re.sub(rf"\b(Rattle\.{owner}\.specs\.){old}\b", rf"\g<1>{new}", text)
        text = re.sub(rf"\b({owner}\.specs\.){old}\b", rf"\g<1>{new}", text)
        text = re.sub(rf"\b({owner}/(?:specs/)?){old}(?=/)", rf"\g<1>{new}", text)
        if crate == owner:
            text = re.sub(rf"\b(mod ){old}$", rf"\g<1>{new}", text, flags=re.M)
            text = re.sub(rf"^(file: specs/){old}(?=/)", rf"\g<1>{new}", text, flags=re.M)
    return text


def spellings(names):
    """The new spelling of each name that changes. A lemma that would get its function's name gets `_lem` behind it."""
    table = {it: respelled(it) for it in names if respelled(it) != it}
    new_of_camel = {new for old, new in table.items() if "-" not in old}
    for old, new in table.items():
        if "-" in old and (new in new_of_camel or new in names):
            table[old] = f"{new}_lem"
    return {old: LIBRARY.get(old, new) for old, new in table.items()}


def lemmas_first(text):
    return re.sub(r"(?<![\w.'-])(\w+)(?![\w.'-])", lambda m: FIRST.get(m[0], m[0]), text)


def main():
    writes = "--check" not in sys.argv
    table = spellings(declared())
    folders = modules()
    by_new = collections.defaultdict(set)
    for old, new in table.items():
        by_new[new].add(old)
    rts = sorted(glob.glob("crates/*/src/**/*.rt", recursive=True))
    texts = {it: read(it) for it in [*antt_files(), *rts, *PAGES] if os.path.isfile(it)}
    for path, text in texts.items():
        if path.endswith(".antt"):
            text = lemmas_first(text)
        mine = table
        foreign = set()
        for use in USE.finditer(text):
            if not re.match(r"Rattle\.(?!std\b|core\b)", use[1]):
                foreign |= {it.strip().split(" as ")[0] for it in use[2].split(",")}
        taken = foreign & table.keys()
        if taken:
            mine = {old: new for old, new in table.items() if old not in taken}
            print(f"kept: {path}: {' '.join(sorted(taken))}")
        words = set(WORD.findall(text))
        if path.startswith("crates/"):
            for new in {mine[it] for it in words if it in mine}:
                olds = {it for it in by_new[new] if it in words}
                if len(olds) > 1 or new in words:
                    print(f"clash: {path}: {' '.join(sorted(olds))} -> {new}{' (there already)' if new in words else ''}")
        turn = of_antt if path.endswith(".antt") else of_rt if path.endswith(".rt") else of_page
        if path.startswith(".ci/"):
            turn = in_words
        made = turn(text, mine)
        crate = path.split("/")[1] if path.startswith("crates/") else None
        made = with_modules(made, crate, folders)
        if writes and made != texts[path]:
            with open(path, "w", encoding="utf-8") as it:
                it.write(made)
    if writes:
        for (crate, old), new in folders.items():
            os.rename(f"crates/{crate}/specs/{old}", f"crates/{crate}/specs/{new}")
            if os.path.isfile(f"crates/{crate}/specs/{old}.antt"):
                os.rename(f"crates/{crate}/specs/{old}.antt", f"crates/{crate}/specs/{new}.antt")
    print(f"respell: {len(table)} names, {len(folders)} modules")


main()
