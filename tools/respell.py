#!/usr/bin/env python3
"""Brings this repository's own definitions and lemmas to the spelling of today's Rattle: words in snake case.

usage: python3 tools/respell.py [--dry]     at the top of the repository, once, after port.py

Every name that an .antt file of specs/ or proofs/ declares (Proof.antt files aside, whose names the check makes) and that holds a dash or a capital
inside goes to snake case, wherever it stands as a name of its own: in .antt and .rt files, in edits, and in the pages between backticks. Names that a
file takes from the kit stay. Names that would fall together are told apart by OTHERS.
"""
import collections
import glob
import os
import re
import sys

NAME = r"[A-Za-zℓλκᵢ₀-₉_'ℕℤ◌][\w'₀-₉ℕℤℓ◌]*(?:-[\w'₀-₉ℕℤℓ◌]+)*"
TOKEN = re.compile(NAME)
DECLARED = re.compile(r"^[ ]*(?:unfoldable |abbrev )*(?:pub )?([a-z][\w'₀-₉]*(?:-[\w'₀-₉]+)*)(?: \{[^}]*\})?(?: \([^)]*\))* :[ \n]", re.M)

# Lemmas and examples that would have the name of a definition, which keeps it: they end in `_lem`, and one in a word of its own.
SAME = "case-n first-unknown frame-notice fresh-notice fresh-verdict kept-cell plan-notice post-notice print-notice read-notice refusal-text row-headroom scenario-n sends-four slacks-notice whole-frame write-notice is-number"
OTHERS = {n: n.replace("-", "_") + "_lem" for n in SAME.split()}
# The same of names that had today's spelling already, by file.
THERE = {
    "crates/file_writer/proofs/Examples.antt": {"two_bytes": "two_bytes_lem", "four_bytes": "four_bytes_lem"},
    "crates/matrix_text/proofs/Examples.antt": {"first_above": "first_cell_above"},
}


def snake(name):
    name = re.sub(r"([a-z0-9])([A-Z])", lambda m: m.group(1) + "_" + m.group(2).lower(), name)
    return name.replace("-", "_")


def antt():
    return sorted(p for p in glob.glob("crates/*/specs/**/*.antt", recursive=True) + glob.glob("crates/*/proofs/**/*.antt", recursive=True))


def read(p):
    with open(p, encoding="utf-8") as f:
        return f.read()


def names():
    found = {}
    for p in antt():
        if os.path.basename(p) in ("Proof.antt", "Answers.antt", "Invariants.antt"):
            continue
        for m in DECLARED.finditer(read(p)):
            n = m.group(1)
            if snake(n) != n:
                found.setdefault(n, OTHERS.get(n, snake(n)))
    return found


def from_kit(text, crates):
    """Names that a file imports from elsewhere than a crate of the repository."""
    kit = set()
    for m in re.finditer(r"^(?:ghost )?use ([^;\n{]*)(?:\{([^}]*)\})?", text, re.M):
        head = m.group(1).strip().split(".")
        own = head[0] == "Rattle" and len(head) > 1 and head[1] in crates
        if not own and m.group(2):
            kit |= {x.strip().split(" as ")[-1] for x in m.group(2).split(",")}
    return kit


def respelled(text, table, keep):
    return TOKEN.sub(lambda m: m.group(0) if m.group(0) in keep else table.get(m.group(0), m.group(0)), text)


def main():
    dry = "--dry" in sys.argv
    crates = {l.split(":")[0].split()[0] for l in read("crates.txt").splitlines() if ":" in l and not l.startswith("#")}
    table = names()
    back = collections.defaultdict(set)
    for n, s in table.items():
        back[s].add(n)
    for s, ns in sorted(back.items()):
        if len(ns) > 1:
            print(f"fall together: {sorted(ns)} as {s}")
    files = antt() + sorted(glob.glob("crates/*/src/**/*.rt", recursive=True)) + sorted(glob.glob("crates/*/must-fail/*.edit") + glob.glob("edits/**/*.edit", recursive=True))
    for p in files:
        text = read(p)
        keep = from_kit(text, crates)
        tokens = set(TOKEN.findall(text))
        for n in sorted(tokens & set(table)):
            if n in keep:
                print(f"{p}: {n} is the kit's and stays")
            elif table[n] in tokens:
                print(f"{p}: {n} becomes {table[n]}, which stands there already")
        new = respelled(respelled(text, THERE.get(p, {}), set()), table, keep)
        if new != text and not dry:
            with open(p, "w", encoding="utf-8") as f:
                f.write(new)
    for p in sorted(glob.glob("*.md") + glob.glob("docs/**/*.md", recursive=True) + glob.glob("rust/**/*.md", recursive=True)):
        text = read(p)
        new = re.sub(r"`[^`\n]*`", lambda m: respelled(m.group(0), table, set()), text)
        if new != text and not dry:
            with open(p, "w", encoding="utf-8") as f:
                f.write(new)
    print(f"respelled {len(table)} names")


main()
