#!/usr/bin/env python3
"""Bring this repository's own words to the spelling of today's Rattle: snake case.

Run once, at the top, behind the kit's port.py:

    python3 tools/respell.py

A name that a file of specs/ or a lemma file of proofs/ declares and that has hyphens gets underscores in their place,
wherever it stands: in specs/, proofs/, clauses, must-fail edits, and in the pages where it stands in back quotes. Names that the
libraries declare keep their spelling, and so do the functions of src/, strings, inputs and outputs. A name that would
fall together with another one stops the script before anything is written.

Each struct and enum that port.py gave `Drop` was copied freely before: it derives `Clone` and `Copy`.
"""
import glob
import os
import re
import sys

WORD = re.compile(r"(?<![\w'◌-])([a-z][A-Za-z0-9_']*(?:-[A-Za-z0-9_']+)+)(?![\w'◌-])")
DECLARED = re.compile(
    r"^\s*(?:(?:pub|abbrev|unfoldable|data|record|ruleset)\s+)*((?:[^\s(){}.;:,λ]+\s+)+?)(?::|\()\s"
)
IMPORT = re.compile(r"^\s*(?:ghost |pub )*use ([^\n{;]+)\{([^}]*)\}", re.M)


def read(path):
    with open(path, encoding="utf-8") as file:
        return file.read()


def files(*patterns):
    found = []
    for pattern in patterns:
        found += glob.glob(pattern, recursive=True)
    return sorted(f for f in found if os.path.isfile(f) and "/out/" not in f)


def declared(paths):
    """The names that these files declare, each with the files that do."""
    names = {}
    for path in paths:
        for line in read(path).splitlines():
            start = line.lstrip()
            if start.startswith("--") or start.startswith("use ") or start.startswith("pub use "):
                continue
            match = DECLARED.match(line)
            if match:
                for name in match.group(1).split():
                    names.setdefault(name, set()).add(path)
    return names


def imported(paths):
    """The names that these files take from a library that is not this repository's."""
    names = set()
    for path in paths:
        for match in IMPORT.finditer(read(path)):
            crate = re.match(r"Rattle\.(\w+)", match.group(1))
            if not (crate and os.path.isdir(os.path.join("crates", crate.group(1)))):
                names |= set(re.split(r"[,\s]+", match.group(2)))
    return names


def main():
    proofs = files("crates/*/specs/**/*.antt", "crates/*/proofs/**/*.antt")
    lemmas = [f for f in proofs if os.path.basename(f) != "Proof.antt"]
    code = files("crates/*/src/**/*.rt")
    edits = files("crates/*/must-fail/**/*")
    pages = files("README.md", "docs/**/*.md", "model/*.md")
    own = declared(lemmas)
    library = imported(proofs)
    turned = {n: n.replace("-", "_") for n in own if WORD.fullmatch(n) and n not in library}
    together = [n for n, new in turned.items() if new in own or new in library]
    if together or len(set(turned.values())) != len(turned):
        sys.exit("respell: these fall together with another name: " + ", ".join(sorted(together)))

    def turn(text):
        return WORD.sub(lambda m: turned.get(m.group(1), m.group(1)), text)

    def quoted(text):
        return re.sub(r"`[^`\n]*`", lambda m: turn(m.group(0)), text)

    changed = 0
    for path in proofs + code + edits + pages:
        old = read(path)
        new = quoted(old) if path in pages else turn(old)
        if path in code:
            new = re.sub(r"^#\[derive\(Drop\)\]$", "#[derive(Clone, Copy)]", new, flags=re.M)
        if new != old:
            changed += 1
            with open(path, "w", encoding="utf-8") as file:
                file.write(new)
    print(f"respell: {len(turned)} names, {changed} files")


main()
