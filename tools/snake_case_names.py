#!/usr/bin/env python3
"""Spells this repository's own definitions, lemmas and fields in snake case, as port.py spells the library's.

usage: python3 tools/snake_case_names.py        at the top, once, right after /opt/rattle/port/port.py

A name counts where it stands in an .antt file or in a clause: each part of it (parts are joined by '-' or an arrow) that is written
in camel case with a small first letter, as `floorDiv` or `maxTerm-is`, becomes `floor_div`, `max_term-is`. Types, modules and what
Rust's side calls its own stay. Pages and must-fail edits follow. Names that would fall together with another are in ASIDE and LEMMAS.
"""

import os
import re
import sys

NAME = re.compile(r"[^\s(){}.;,@\"«»\[\]]+")
PART = re.compile(r"(?<![A-Za-z0-9_])[a-z](?:[a-z0-9]|_(?![A-Z]))*(?:[A-Z](?:[a-z0-9]|_(?![A-Z]))*)+(?![A-Za-z0-9_])")
# A definition that a parameter of the same spelling would hide in a clause.
ASIDE = {"rhsWord": "rhs_word_of"}
# A lemma, or a local fact, that a definition would fall together with: in these files it gets `_lem`.
LEMMAS = {
    "by_row": ["crates/call_laws/proofs/RestAnswer.antt"],
    "is_ours": ["crates/prepared_model/proofs/OursLaws.antt"],
    "row_at": ["crates/sparse_layout/proofs/SparseTripLaws.antt"],
    "row_fits": ["crates/ties/proofs/TiedRowsLaws.antt"],
    "row_moved": ["crates/demands/proofs/Demand2.antt"],
    "same_end": ["crates/demands/proofs/Demand3.antt"],
    "too_long": ["crates/intake/proofs/CheckLaws.antt"],
}
PAGES = ["README.md", "CONTRIBUTING.md", "docs/ARCHITECTURE.md", "docs/COMMAND.md", "docs/DECISIONS.md", "docs/GLOSSARY.md"]
PAGES += ["docs/INTEGRATION.md", "docs/PERFORMANCE.md", "docs/TRACEABILITY.md", "docs/WORKED.md"]


def read(path):
    with open(path, encoding="utf-8") as f:
        return f.read()


def files(*ends):
    for folder, below, names in os.walk("crates"):
        below[:] = sorted(d for d in below if d != "out")
        yield from (os.path.join(folder, n) for n in sorted(names) if n.endswith(ends))


def snake(part):
    return ASIDE.get(part) or re.sub(r"[A-Z]", lambda m: "_" + m[0].lower(), part)


def cited(text):
    """What a file brings in, by module: names that are another's stay that one's."""
    return {m[1]: set(re.findall(NAME, m[2])) for m in re.finditer(r"(?m)^(?:pub )?use (Rattle\.\S+)\.\{([^}]*)\}", text)}


def main():
    if not os.path.isdir("crates"):
        sys.exit(__doc__)
    known = set()
    for path in files(".antt", ".rt"):
        text = re.sub(r"//.*" if path.endswith(".rt") else r"--.*", "", read(path))
        for word in NAME.findall(text):
            known.update(PART.findall(word))
    # Lemmas first, while the definitions have their old spelling.
    homes = {"Rattle." + p[len("crates/") : -len(".antt")].replace("/", "."): n for n, ps in LEMMAS.items() for p in ps}
    for path in files(".antt"):
        text = read(path)
        theirs = {n for n, ps in LEMMAS.items() if path in ps}
        theirs |= {n for m, names in cited(text).items() for n in names if homes.get(m) == n}
        now = text
        for name in theirs:
            # A label of a record, or a field, is no lemma.
            now = re.sub(r"(?<![^\s(){};,@«»\[\]])" + name + r"(?![^\s(){};,@«»\[\]])(?! = )", name + "_lem", now)
        if now != text:
            with open(path, "w", encoding="utf-8") as f:
                f.write(now)
    turn = lambda m: snake(m[0]) if m[0] in known else m[0]
    for path in [*files(".antt", ".rt", ".edit"), *(p for p in PAGES if os.path.isfile(p))]:
        text = read(path)
        now = PART.sub(turn, text)
        if now != text:
            with open(path, "w", encoding="utf-8") as f:
                f.write(now)


if __name__ == "__main__":
    main()
