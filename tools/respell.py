#!/usr/bin/env python3
"""Brings the definitions and lemmas of this repository to the language's spelling: words in snake case, joined by underscores.

usage: tools/respell.py [--dry]     at the top of the repository, once, after the library's own script has run

Names of the library, of Rust functions and types, and what the check itself makes keep their spelling. Where a lemma would have a
definition's name, it gets the ending _lem.
"""

import glob
import re
import sys

WORD = r"[^\s(){}\[\]:.,;λ⌜⌝]+"
DECLARED = re.compile(r"^\s*(?:(?:pub|abbrev|unfoldable) )*(" + WORD + r")(?: .*?)? : (.*)$")
STARTED = re.compile(r"^\s*(?:(?:pub|abbrev|unfoldable) )*(" + WORD + r") :$")
LOCAL = re.compile(r"\blet (" + WORD + r") ")
IMPORT = re.compile(r"use ([^{}\s]+?)\.?(?:\{([^}]*)\}| as (" + WORD + r"))?\s*;?\s*$", re.M)
TOKEN = re.compile(r"[A-Za-zα-ωΑ-Ω_⊎≤≢][\w\u2080-\u2089'′⊎≢≡≤→∸⁻¹*+-]*")


def files(ending):
    return sorted(p for p in glob.glob("crates/**/*" + ending, recursive=True) if "/out/" not in p)


def respelled(name):
    name = re.sub(r"([a-z0-9])([A-Z])", lambda m: m.group(1) + "_" + m.group(2).lower(), name)
    return name.replace("-", "_").replace("′", "'")


def collect():
    own, library = {}, set()
    for path in files(".antt"):
        with open(path, encoding="utf-8") as f:
            text = f.read()
        for m in IMPORT.finditer(text):
            if not m.group(1).startswith("Rattle.") or m.group(1).startswith("Rattle.std"):
                library.update(w.strip().split(" as ")[0] for w in (m.group(2) or "").split(","))
        for line in text.splitlines():
            if line.lstrip().startswith(("--", "use ", "module ")):
                continue
            for m in LOCAL.finditer(line):
                own.setdefault(m.group(1), 2)
            m = DECLARED.match(line)
            if m and m.group(1) not in ("let", "in", "record", "data", "|", "→", "×"):
                if not m.group(2).startswith(("tie.", "goal.", "statement")):
                    own[m.group(1)] = min(own.get(m.group(1), 3), 1 if "-" in m.group(1) else 0)
            m = STARTED.match(line)
            if m:
                own[m.group(1)] = min(own.get(m.group(1), 3), 1)
    return own, library


def chosen(own, library):
    taken = {n for n in own if respelled(n) == n} | library
    names = {}
    for name in sorted(own, key=lambda n: (own[n], n)):
        to = respelled(name)
        if to == name or name in library or (not re.match(r"[a-z]", name) and "-" not in name):
            continue
        if to in taken - library and "-" not in name and to not in names.values():
            names[to] = to + "_lem"
            taken.add(to + "_lem")
        else:
            while to in taken:
                to += "_lem"
        taken.add(to)
        names[name] = to
    return names


def turn(text, names):
    """The text with its names turned; a Rust function's name in a path stays."""

    def one(m):
        in_path = text.endswith((".proofs.", ".declared."), 0, m.start())
        return m.group(0) if in_path else names.get(m.group(0), m.group(0))

    return TOKEN.sub(one, text)


def turn_rust(text, names):
    """Ghost lines and clauses alone: a clause is what stands between a function's head and its body, or a ghost field."""
    out, ghost = [], False
    for line in text.splitlines(keepends=True):
        word = line.lstrip()
        if word.startswith(("ghost ", "requires", "ensures")):
            ghost = True
        elif word.startswith(("{", "}", "//", "fn ", "pub ", "use ", "let ")) or not word.strip():
            ghost = False
        out.append(turn(line, names) if ghost or word.startswith("#[tactic") else line)
    return "".join(out)


def main(dry):
    own, library = collect()
    names = chosen(own, library)
    if dry:
        for name, to in sorted(names.items()):
            print(name, to)
        return
    for path in files(".antt") + files(".rt") + files(".edit"):
        with open(path, encoding="utf-8") as f:
            old = f.read()
        if path.endswith(".rt"):
            new = turn_rust(old, names)
        elif path.endswith(".edit"):
            new = "".join(turn(l, names) if l.startswith(("old:", "new:")) else l for l in old.splitlines(keepends=True))
        else:
            new = turn(old, names)
        if new != old:
            with open(path, "w", encoding="utf-8") as f:
                f.write(new)


main("--dry" in sys.argv[1:])
