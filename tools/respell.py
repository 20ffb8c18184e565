#!/usr/bin/env python3
"""Brings the repository's own definitions and lemmas to snake case: `shared-front` becomes `shared_front`.

usage: tools/respell.py [FOLDER]     FOLDER is the top of the repository; without it, the folder that holds tools/

A name is the repository's own if a file of specs/ or proofs/ declares it. A file that imports the same name from a library keeps it. Words of comments keep
their spelling but for what stands in backticks, as do strings, the papers and docs/PORT.md. The script refuses to run where two names of one file
would become one.
"""

import os
import re
import sys

WORD = re.compile(r"[^\s(){}\[\];,.:\"«»`|]+")
DECLARED = re.compile(r"^\s*(?:(?:unfoldable|abbrev|pub|open|data|record|ruleset)\s+)*([^\s:(){}\[\];,.\"]+)\s+(?:\{[^}]*\}\s*|\([^)]*\)\s*)*:\s")
RULESET = re.compile(r"^\s*(?:pub )?ruleset\s+(\S+)\s*=")
BOUND = re.compile(r"(?<![\w'.-])[a-z][\w']*(?:-[\w']+)+(?![\w'+-])")
# What port.py took for words of the library.
GARBLED = {"Told-blocks": "told_blocks", "Chain-laws": "chain_laws", "Free-moved": "free_moved"}
LIBRARIES = {"Rattle", "Prim", "mathlib", "native", "lib", "borrow", "denote", "specs"}
USE = re.compile(r"^(?:ghost )?use\s+([^{;]*?)\.?\{(.*?)\}", re.M | re.S)


def files(root):
    """The sources of all crates: (path, kind), where kind is 'antt', 'proof' (a proof of one function) or 'rt'."""
    for folder, dirs, names in os.walk(os.path.join(root, "crates")):
        dirs[:] = sorted(d for d in dirs if d not in ("out", "must-fail"))
        for name in sorted(names):
            path = os.path.join(folder, name)
            if name.endswith(".rt"):
                yield path, "rt"
            elif name.endswith(".antt"):
                inner = os.path.relpath(folder, os.path.join(root, "crates")).split(os.sep)
                yield path, "proof" if inner[1] == "proofs" and len(inner) > 2 else "antt"


def crates(root):
    return set(os.listdir(os.path.join(root, "crates")))


def read(path):
    with open(path, encoding="utf-8") as f:
        return f.read()


def code_of(line, mark):
    """A line's code and its comment."""
    at = line.find(mark)
    return (line, "") if at < 0 else (line[:at], line[at:])


def declared(text):
    """The names that a file declares or binds: definitions, fields, constructors, rulesets, helpers and variables."""
    found = set()
    for line in text.split("\n"):
        code = code_of(line, "--")[0]
        for pattern in (DECLARED, RULESET):
            m = pattern.match(code)
            if m:
                found.add(m.group(1))
        if not line.startswith("use "):
            found |= set(BOUND.findall(code))
    return found


def imported(text, own_crates):
    """The names that a file imports from libraries."""
    found = set()
    for path, names in USE.findall(text):
        parts = path.strip().split(".")
        if parts[0] in LIBRARIES and not (parts[0] == "Rattle" and len(parts) > 1 and parts[1] in own_crates):
            found |= {n.strip() for n in names.replace("\n", " ").split(",")}
    return found


def plain(name):
    return GARBLED.get(name) or re.sub(r"(?<=[\w'])-(?=[\w'])", "_", name)


def turned(text, own, kept):
    return WORD.sub(lambda m: plain(m.group(0)) if m.group(0) in own and m.group(0) not in kept else m.group(0), text)


def ticked(text, own, kept):
    """Only what stands in backticks."""
    return re.sub(r"`[^`\n]*`", lambda m: turned(m.group(0), own, kept), text)


def turn(text, mark, own, kept):
    lines = []
    for line in text.split("\n"):
        code, comment = code_of(line, mark)
        pieces = code.split('"')
        code = '"'.join(p if i % 2 else turned(p, own, kept) for i, p in enumerate(pieces))
        lines.append(code + ticked(comment, own, kept))
    return "\n".join(lines)


def main():
    root = sys.argv[1] if len(sys.argv) > 1 else os.path.join(os.path.dirname(os.path.abspath(__file__)), "..")
    own_crates = crates(root)
    every = list(files(root))
    names, homes = set(), {}
    for path, kind in every:
        if kind == "antt":
            for name in declared(read(path)) - imported(read(path), own_crates):
                names.add(name)
                homes.setdefault(name, set()).add(os.path.relpath(path, root))
    own = {n for n in names if plain(n) != n} | set(GARBLED)
    clash = sorted(n for n in own if plain(n) in names and homes.get(n, set()) & homes[plain(n)])
    if clash:
        print("two names of one file would become one:", *clash, sep="\n  ")
        raise SystemExit(1)
    for path, kind in every:
        text = read(path)
        new = turn(text, "//" if kind == "rt" else "--", own, imported(text, own_crates))
        if new != text:
            with open(path, "w", encoding="utf-8") as f:
                f.write(new)
    for folder in ("docs", "."):
        for name in sorted(os.listdir(os.path.join(root, folder))):
            path = os.path.join(root, folder, name)
            if name.endswith(".md") and not name.startswith("PORT"):
                text = read(path)
                new = ticked(text, own, set())
                if new != text:
                    with open(path, "w", encoding="utf-8") as f:
                        f.write(new)


if __name__ == "__main__":
    main()
