#!/usr/bin/env python3
"""Gives names from the source their spelling in the functions' proof files: `c.add-multiple` becomes `c.add_multiple`.

usage: python3 tools/source_names.py        at the top of the repository, after tools/snake_case.py
"""

import os
import re

KEPT = {"in_default", "in_ok", "in_err", "overflow_add", "overflow_sub", "overflow_mul", "type_inv", "slice_bounds", "bounds_check", "div_zero", "shift_bounds", "other_after", "other_len", "from_residual"}


def files(kinds):
    for folder, dirs, names in os.walk("crates"):
        dirs[:] = sorted(d for d in dirs if d not in ("out", ".git"))
        for name in sorted(names):
            if name.endswith(kinds):
                yield os.path.join(folder, name)


def main():
    words = set(KEPT)
    for path in files(".rt"):
        with open(path, encoding="utf-8") as f:
            text = re.sub(r"//.*", "", f.read())
        words |= set(re.findall(r"(?<![\w-])[a-z][a-z0-9]*(?:_[a-z0-9]+)+(?![\w-])", text))
    turned = sorted(((w.replace("_", "-"), w) for w in words), key=lambda p: -len(p[0]))

    def token(m):
        t = m.group(0)
        if "-" not in t:
            return t
        for a, b in turned:
            t = re.sub(rf"(?<![\w]){re.escape(a)}(?![\w])", b, t)
        return t

    for path in files(("Answers.antt", "Invariants.antt")):
        with open(path, encoding="utf-8") as f:
            text = f.read()
        lines = text.split("\n")
        had = set()
        for l in lines:
            m = re.match(r"use [\w.+]+\.\{([^}]*)\}", l)
            if m and not re.match(r"use Rattle\.\w+\.proofs\.[\w.+]+\.(Goals|Given)\.\{", l):
                had |= {x.strip() for x in m.group(1).split(",")}
        out = []
        for l in lines:
            if l.startswith("use ") and ".Goals.{" not in l and ".Given.{" not in l:
                out.append(l)
                continue
            out.append(re.sub(r"(?<![\w'-])[A-Za-z][\w'-]*", lambda m: m.group(0) if m.group(0) in had and l[m.start() - 1:m.start()] != "." else token(m), l))
        new = "\n".join(out)
        if new != text:
            with open(path, "w", encoding="utf-8") as f:
                f.write(new)
            print(path)


main()
