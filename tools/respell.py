#!/usr/bin/env python3
"""Brings the repository's own definitions, laws and record fields to today's spelling: words of terms and laws in snake case (`beAt` is `be_at`, the law
`beAt-one` is `be_at-one`); types and modules stay in camel case. It runs once, at the top of the repository, after the kit's port.py.

usage: tools/respell.py [--check]

A name counts as the repository's own where a file of specs/ or proofs/ declares it. Functions of src/, exported C names, strings, inputs and outputs keep
their names. --check writes nothing and lists what would change, and every pair of names that would fall together in one file.
"""

import collections
import glob
import re
import sys

WORD = r"[^\W\d][\w'-]*"
DECLARED = re.compile(rf"\s*(?:(?:abbrev|unfoldable|pub|private|record|data|field|let|in|module|elim)\s+)*\(?({WORD})\s*:\s")
BOUND = re.compile(rf"[({{]((?:{WORD} )+):")
CAMEL = re.compile(r"[a-z][\w'-]*")
# Laws that would fall together with a definition: such a law is named with `_lem` behind it.
LAWS = ["of_row", "rows_in", "rows_ok", "cells_fit", "goes_on", "kept_of", "in_place"]


def is_camel(name):
    return bool(CAMEL.fullmatch(name)) and bool(re.search(r"[a-z0-9][A-Z]", name))


def snake(name):
    """Each part between dashes that begins in lower case; a part that names a type stays."""
    parts = []
    for part in name.split("-"):
        if re.match(r"[a-z]", part):
            part = re.sub(r"([a-z0-9])([A-Z])", lambda m: m[1] + "_" + m[2].lower(), part)
        parts.append(part)
    return "-".join(parts)


def code_of(line):
    at = line.find("--")
    return line if at < 0 else line[:at]


def antt_files():
    found = []
    for crate in sorted(glob.glob("crates/*")):
        for top in ("specs", "proofs"):
            found += sorted(glob.glob(f"{crate}/{top}/**/*.antt", recursive=True))
    return found


def own_names(files):
    names = set()
    for path in files:
        with open(path, encoding="utf-8") as f:
            for line in f:
                code = code_of(line)
                m = DECLARED.match(code)
                if m:
                    names.add(m[1])
                for m in BOUND.finditer(code):
                    names.update(m[1].split())
    return {n for n in names if is_camel(n)}


def tokens(text, names, turn):
    return re.sub(rf"(?<![\w'-]){WORD}", lambda m: turn[m[0]] if m[0] in names else m[0], text)


def turn_rt(text, names, turn):
    """Outside string literals; a comment may name a definition."""
    out = []
    for line in text.split("\n"):
        parts = re.split(r'("(?:[^"\\]|\\.)*")', line) if "//" not in line else [line]
        out.append("".join(p if p.startswith('"') and len(parts) > 1 else tokens(p, names, turn) for p in parts))
    return "\n".join(out)


def laws_apart(text):
    for law in LAWS:
        text = re.sub(rf"(?<![\w'.-]){law}(?![\w'-])", law + "_lem", text)
    return text


def same_file(files, names, turn):
    clashes = []
    back = collections.defaultdict(set)
    for n in names:
        back[turn[n]].add(n)
    for path in files:
        with open(path, encoding="utf-8") as f:
            text = "\n".join(code_of(l) for l in f)
        here = set(re.findall(rf"(?<![\w'.-]){WORD}", text))
        for new, olds in back.items():
            both = (olds & here) | ({new} & here)
            if len(both) > 1:
                clashes.append((path, sorted(both)))
    return clashes


def hidden(names, turn):
    """Parameters of functions that would hide a word that the function's clauses cite."""
    new = {turn[n]: n for n in names}
    for path in sorted(glob.glob("crates/*/src/**/*.rt", recursive=True)):
        with open(path, encoding="utf-8") as f:
            text = f.read()
        for m in re.finditer(r"\bfn \w+[^(]*\(([^)]*)\)(.*?)\n\}", text, re.S):
            for p in re.findall(r"(\w+)\s*:", m[1]):
                clauses = m[2].split("\n{")[0]
                if p in new and re.search(rf"(?<![\w'-]){new[p]}(?![\w'-])", clauses):
                    yield path, p, new[p]


def main(argv):
    check = argv == ["--check"]
    if argv and not check:
        print(__doc__)
        return 2
    files = antt_files()
    names = own_names(files)
    turn = {n: snake(n) for n in names}
    by_new = collections.defaultdict(set)
    for n in names:
        by_new[turn[n]].add(n)
    for new, olds in sorted(by_new.items()):
        if len(olds) > 1:
            print(f"look: {sorted(olds)} fall together in {new}")
    for path, both in same_file(files, names, turn):
        print(f"look: {path}: {both} fall together")
    for path, parameter, word in hidden(names, turn):
        print(f"look: {path}: the parameter {parameter} hides {word}")
    changed = 0
    others = sorted(glob.glob("crates/*/src/**/*.rt", recursive=True)) + sorted(glob.glob("docs/*.md")) + ["README.md"]
    for path in files + others:
        with open(path, encoding="utf-8", newline="") as f:
            text = f.read()
        new = text
        if "/proofs/" in path and path.endswith(".antt"):
            new = laws_apart(new)
        new = turn_rt(new, names, turn) if path.endswith(".rt") else tokens(new, names, turn)
        if new != text:
            changed += 1
            if not check:
                with open(path, "w", encoding="utf-8", newline="") as f:
                    f.write(new)
    print(f"{len(names)} names, {changed} files {'would change' if check else 'changed'}")
    return 0


if __name__ == "__main__":
    raise SystemExit(main(sys.argv[1:]))
