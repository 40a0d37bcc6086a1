#!/usr/bin/env python3
"""Brings the definitions and lemmas of specs/ and proofs/ to snake case, and their types to camel case.

usage: python3 tools/snake_case.py        at the top of the repository, once, right after the kit's port.py

`added-row` and `addedRow` become `added_row`, `Row-within` becomes `RowWithin`. Functions of src/, exported C
names, strings, inputs and outputs keep their names. A name that a file has from the library
stays there. Names that would fall together have another name in the table below, and what still would is said.
"""

import os
import re
import sys

WORD = r"[^\W\d][\w'-]*"
DECLARED = re.compile(rf"^\s*(?:(?:pub|abbrev|unfoldable|record|data|instance)\s+)*({WORD})\s*(?:\(|\{{|:|where\b|$)", re.M)
FIELD = re.compile(rf"^\s+(?:pub\s+)?({WORD})\s*:\s", re.M)
TOKEN = re.compile(r"«?[^\W\d][\w'-]*»?|[^\w]", re.U)
# Names that would fall together with another in a file, and what they are called instead.
OTHER = {
    "bit-xor": "bit_of_xor",
    "bit-and": "bit_of_and",
    "bit-of": "bit_linear",
    "byte-at": "byte_of_digest",
    "place-of": "place_of_lem",
    "column-bits": "column_bits_lem",
    "column-place": "column_place_lem",
    "seals-to": "seals_to_lem",
    "shuffle-from": "shuffle_from_lem",
    "layerCode": "code_of_layer",
    "partCode": "code_of_part",
    "seedAt": "seed_of",
    "supportOf": "support_of_seed",
    "nextWord": "word_after",
    "thetaAt": "theta_lane",
    "rhoAt": "rho_lane",
    "piAt": "pi_lane",
    "chiAt": "chi_lane",
    "errorVector": "error_vector_of",
    "goesOn": "digest_from",
    "lowBit": "number_bit",
    "Key-equation": "SolvesKeyEquation",
    "Rest-zeros": "HasRestZeros",
    "Square-root": "SquareRootValue",
    "Right-key": "RightKeyLaw",
    "Same-answers": "SameAnswersLaw",
}
KEEP = {"where", "let", "in", "module", "use", "mod", "rw", "elim", "record", "pub", "unfolding", "open"}


def files(root, kinds):
    for folder, dirs, names in os.walk(os.path.join(root, "crates")):
        dirs[:] = sorted(d for d in dirs if d not in ("out", ".git"))
        for name in sorted(names):
            if name.endswith(kinds):
                yield os.path.join(folder, name)


def own(path):
    """A file whose names are ours: of specs/, or a lemma file of proofs/ and not a function's goals."""
    base = os.path.basename(path)
    return path.endswith(".antt") and base not in ("Answers.antt", "Invariants.antt", "Proof.antt", "Lib.antt")


def imported(text, crates):
    """The names that a file has from the library: they stay."""
    found = set()
    for m in re.finditer(r"use ([\w.]+)\.\{([^}]*)\}", text):
        parts = m.group(1).split(".")
        if parts[0] != "Rattle" or len(parts) < 2 or parts[1] not in crates:
            found |= {it.strip().split(" as ")[-1].strip() for it in m.group(2).split(",")}
    return found


def turned(name):
    if name in OTHER:
        return OTHER[name]
    if name[0].isupper():
        if "-" not in name:
            return name
        return "".join(part[:1].upper() + part[1:] for part in name.split("-"))
    name = name.replace("-", "_")
    return re.sub(r"(?<=[a-z0-9])([A-Z])", lambda m: "_" + m.group(1).lower(), name)


def main(root):
    names = set()
    text = {}
    for path in files(root, (".antt", ".rt")):
        with open(path, encoding="utf-8") as f:
            text[path] = f.read()
        if own(path):
            for line in text[path].splitlines():
                if line.lstrip().startswith("--"):
                    continue
                for pattern in (DECLARED, FIELD):
                    m = pattern.match(line)
                    if m and m.group(1) not in KEEP:
                        names.add(m.group(1))
    new = {n: turned(n) for n in names if turned(n) != n}
    by = {}
    for n, t in new.items():
        by.setdefault(t, set()).add(n)
    for t, ns in sorted(by.items()):
        if len(ns) > 1 or t in names:
            print(f"falls together: {sorted(ns)} -> {t}{' (declared too)' if t in names else ''}")
    crates = set(os.listdir(os.path.join(root, "crates")))
    stay = {path: imported(s, crates) for path, s in text.items()}
    for path, s in text.items():
        tokens = {t.group(0) for t in re.finditer(rf"{WORD}", s)}
        for n, t in new.items():
            if n in tokens and t in tokens and n not in stay[path]:
                print(f"both in {os.path.relpath(path, root)}: {n} and {t}")
    if "--dry" in sys.argv:
        print(len(new), "names")
        return
    for path, s in text.items():
        own_names = {n: t for n, t in new.items() if n not in stay[path]}
        out = re.sub(rf"(?<![\w'«-]){WORD}", lambda m: own_names.get(m.group(0), m.group(0)), s)
        if out != s:
            with open(path, "w", encoding="utf-8") as f:
                f.write(out)
    with open(os.path.join(root, "tools", "renamed.txt"), "w", encoding="utf-8") as f:
        for n in sorted(new):
            f.write(f"{n} {new[n]}\n")
    print(len(new), "names")


main(os.path.abspath("."))
