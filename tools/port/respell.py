#!/usr/bin/env python3
"""Turns the repository's own names from dashes to underscores, in every .rt and .antt file below crates/.

A name is the repository's own where a file of specs/ or proofs/ declares it, or binds it, and the file does not import it from the library.
Names that the library imports into a file keep their spelling there. In proofs/F/ only names that specs/ or proofs/ declare are turned,
since the others are made by the toolchain.

usage: python3 tools/port/respell.py [--list] [ROOT]
"""

import collections
import glob
import os
import re
import sys

TOKEN = re.compile(r"[^\s(){}\[\].,;:\"`]+")
DASHED = re.compile(r"\w-\w|[\w'’?!]-\w")
OWN = r"(?:def|law|theory|codec|record|log|area|tree|sound|call|face|try)_\w+|console|donzhikar"


def read(p):
    with open(p, encoding="utf-8") as f:
        return f.read()


def is_dashed(x):
    return bool(re.search(r"[^\s→]-[^\s>]", x)) and any(c.isalpha() for c in x)


def declared(text):
    code = re.sub(r"--.*", "", text)
    for m in re.finditer(r"(?m)^\s*(?:unfoldable |abbrev |pub )*([^\s(){}\[\].,;:\"]+(?: [^\s(){}\[\].,;:\"=]+)*) :(?=\s)", code):
        yield from m.group(1).split()
    for m in re.finditer(r"(?m)^\s*(?:pub )?(?:record|data|abbrev|mutual)?\s*(?:pub )?(?:record|data)\s+([^\s(){}\[\].,;:\"]+)", code):
        yield m.group(1)
    for m in re.finditer(r"(?m)^\s*abbrev (?:pub )?([^\s(){}\[\].,;:\"{]+)", code):
        yield m.group(1)
    for m in re.finditer(r"(?m)^\s*(?:unfoldable |pub )+([^\s(){}\[\].,;:\"{]+) ?\{", code):
        yield m.group(1)


def library(text):
    """The names that a file imports from outside the repository."""
    names = set()
    for m in re.finditer(r"use ((?:[^\s{};]|\.)+?)\.\{([^}]*)\}", text):
        if not re.match(r"Rattle\.(?:" + OWN + r")\b", m.group(1)):
            for it in m.group(2).split(","):
                names.update(it.split())
    return names


def is_function_proof(p):
    return bool(re.search(r"/proofs/.+/", p))


def main():
    args = [a for a in sys.argv[1:] if a != "--list"]
    root = args[0] if args else "."
    antt = sorted(glob.glob(f"{root}/crates/*/specs/**/*.antt", recursive=True) + glob.glob(f"{root}/crates/*/proofs/**/*.antt", recursive=True))
    rt = sorted(glob.glob(f"{root}/crates/*/src/**/*.rt", recursive=True))
    texts = {p: read(p) for p in antt + rt}
    own = set()
    for p in antt:
        if not is_function_proof(p):
            own.update(x for x in declared(texts[p]) if is_dashed(x))
    std = set()
    for p in antt + rt:
        std |= library(texts[p])
    # What a file of specs/ binds itself, as a variable or a local definition.
    local = {}
    for p in antt:
        if not is_function_proof(p):
            code = re.sub(r"--.*", "", texts[p])
            local[p] = {x for x in TOKEN.findall(code) if is_dashed(x) and x not in own and x not in std}
    if "--list" in sys.argv:
        print("own", len(own), "std", len([x for x in std if is_dashed(x)]), "both", sorted(x for x in own & std))
        print("local", collections.Counter(x for s in local.values() for x in s).most_common())
    changed = 0
    for p, t in texts.items():
        lib = library(t)
        names = (own | local.get(p, set())) - lib

        def turn(m, names=names):
            x = m.group(0)
            return x.replace("-", "_") if x in names else x

        if p.endswith(".antt"):
            lines = []
            for line in t.split("\n"):
                code, dash, comment = line.partition("--")
                code = TOKEN.sub(turn, code)
                if dash:
                    comment = re.sub(r"`[^`]*`", lambda m: TOKEN.sub(turn, m.group(0)), comment)
                lines.append(code + dash + comment)
            new = "\n".join(lines)
        else:
            new = clauses(t, turn)
        if new != t:
            changed += 1
            if "--list" not in sys.argv:
                with open(p, "w", encoding="utf-8") as f:
                    f.write(new)
    print(f"respell: {changed} files, {len(own)} names of the repository")


def clauses(t, turn):
    """The ghost parts of a .rt file: ghost use items, clauses, and names between backquotes in comments."""
    lines = []
    inside = 0
    for line in t.split("\n"):
        code, slashes, comment = line.partition("//")
        if re.match(r"\s*(pub )?ghost ", code) or re.match(r"\s*(requires|ensures|ghost)\b", code) or inside:
            depth = code.count("{") - code.count("}")
            code = TOKEN.sub(turn, code)
            inside = max(0, inside + depth)
        if slashes:
            comment = re.sub(r"`[^`]*`", lambda m: TOKEN.sub(turn, m.group(0)), comment)
        lines.append(code + slashes + comment)
    return "\n".join(lines)


if __name__ == "__main__":
    main()
