#!/usr/bin/env python3
"""Brings this repository's own definitions and lemmas to snake case, and its own types to upper camel case.

usage: python3 tools/snake_names.py        once, at the top, right after the kit's own script has turned the spelling

Own names are those that a file of specs/, a file of lemmas or a proof declares, and those bound there. Names of the kit's
library, names that the check makes of the code, functions of src/, strings and comments of code stay as they are.
"""

import os
import re
import sys

TOKEN = re.compile(r"[A-Za-z_][A-Za-z0-9_']*(?:-[A-Za-z0-9_']+)+(?![A-Za-z0-9_'?])")
DECLARED = re.compile(
    r"^\s*(?:(?:abbrev|pub|unfoldable|opaque)\s+)*(?:record\s+)?([^\s:(){},.=|;λ]+)"
    r"(?:\s+(?:\{[^}]*\}|\([^)]*\)))*\s*:(?:\s|$)(.*)"
)
KIT = re.compile(r"use (?:Rattle\.std|lib|native|mathlib|Prim)\.[^{}\n]*\{([^}]*)\}")
SPECIAL = {f"{c}?": f"is_{c.lower()}" for c in "NGXFLH"}
SPECIAL |= {"x_fits": "XFits", "feed-fits": "FeedFits"}


def texts(root, end):
    for folder, dirs, names in os.walk(os.path.join(root, "crates")):
        dirs[:] = sorted(d for d in dirs if d not in ("out", "target"))
        for name in sorted(names):
            if name.endswith(end):
                yield os.path.join(folder, name)


def read(path):
    with open(path, encoding="utf-8") as f:
        return f.read()


def is_answer(path):
    return "/proofs/" in path and os.path.basename(path) in ("Answers.antt", "Invariants.antt", "Proof.antt")


def plain(text):
    return re.sub(r"--(?=\s|$).*", "", text)


def own_names(root):
    declared, bound, kit, made = set(), set(), set(), set()
    for path in texts(root, ".antt"):
        text = plain(read(path))
        for names in KIT.findall(text):
            kit |= set(TOKEN.findall(names))
        for line in text.split("\n"):
            m = DECLARED.match(line)
            if m and not m[2].startswith("goal."):
                declared |= set(TOKEN.findall(m[1]))
            elif m:
                made.add(m[1])
        if not is_answer(path):
            bound |= set(TOKEN.findall(text))
    return (declared | bound) - kit, kit, made


def new(name):
    if name in SPECIAL:
        return SPECIAL[name]
    out = name.replace("-", "_")
    return out[0].lower() + out[1:] if re.match(r"[A-Z]_", out) else out


def main(root):
    own, kit, made = own_names(root)
    used = set()
    for path in texts(root, (".antt", ".rt")):
        used |= set(re.findall(r"[A-Za-z_][A-Za-z0-9_']*", re.sub(TOKEN, " ", plain(read(path)))))
    for name in sorted(own):
        if new(name) in used:
            print(f"falls together: {name} and {new(name)}")
    special = re.compile(r"(?<![A-Za-z0-9_'-])(?:[NGXFLH]\?|x_fits|feed-fits)(?![A-Za-z0-9_'-])")

    def turned(piece, answers):
        def one(m):
            name = m[0]
            if name not in own:
                return name
            # after a dot in an answer a name is one that the check made, unless no goal could have it
            before = piece[: m.start()]
            if answers and re.search(r"(?:goal|\bc|\bl)(?:\.[A-Za-z0-9_'-]+)*\.$", before) and not re.search(r"(?:^|\W)use [^\n]*$", before):
                return name
            if answers and name in made:
                print(f"look: {name} is made and own")
                return name
            return new(name)

        return special.sub(lambda m: SPECIAL[m[0]], TOKEN.sub(one, piece))

    for path in texts(root, ".antt"):
        text = read(path)
        after = "\n".join(turned(line, is_answer(path)) for line in text.split("\n"))
        if after != text:
            with open(path, "w", encoding="utf-8") as f:
                f.write(after)
    # in code: clauses and imports alone, and no strings, comments or characters
    apart = re.compile(r'("(?:\\.|[^"\\])*"|//[^\n]*|b?\'(?:\\.|[^\'\\\n])\')')
    for path in texts(root, ".rt"):
        text = read(path)
        pieces = apart.split(text)
        after = "".join(p if i % 2 else turned(p, False) for i, p in enumerate(pieces))
        if after != text:
            with open(path, "w", encoding="utf-8") as f:
                f.write(after)


if __name__ == "__main__":
    main(sys.argv[1] if len(sys.argv) > 1 else ".")
