#!/usr/bin/env python3
"""Spells this repository's own definitions, lemmas, fields and constructors as today's Rattle does: words in snake case, `'` for a prime.

usage: tools/respell.py            at the top of the repository, once, right after /opt/rattle/port/port.py

A name is turned where specs/ or proofs/ declares or binds it. Names of the kit (what a `use` line brings from a library that is not of
this repository), names that Rattle makes (behind `tie.`) and everything in src/ but ghost text keep their spelling. It stops, and writes
nothing, where two names would fall together. code/specs/Contracts.antt, whose name is now that of a module that Rattle makes, becomes
Promises.antt.
"""

import os
import re
import sys

ROOT = os.path.join(os.getcwd(), "crates")
TOKEN = re.compile(r"(?<![\w'′◌-])[^\W\d][\w'′]*(?:-[\w'′]+)+(?![\w'′-])|(?<![\w'′◌-])[^\W\d][\w']*′[\w'′]*(?![\w'′-])")
USE = re.compile(r"(?m)^\s*(?:pub\s+)?use\s+([^\s{;]+?)(?:\.\{([^}]*)\}|\s+as\s+\S+)?\s*$")
OWN = set(os.listdir(ROOT))


def files():
    for folder, dirs, names in os.walk(ROOT):
        dirs[:] = sorted(d for d in dirs if d not in ("out", "must-fail"))
        for n in sorted(names):
            if n.endswith((".antt", ".rt")):
                yield os.path.join(folder, n)


def is_walk(path):
    return path.endswith("/Proof.antt")


def bare(text, mark):
    return re.sub(mark + r"[^\n]*", "", text)


def kit_names(text):
    """What a file's `use` lines bring from libraries that are not of this repository."""
    found = set()
    for m in USE.finditer(text):
        path = m[1].split(".")
        if path[0] == "Rattle" and len(path) > 1 and path[1] in OWN:
            continue
        for n in (m[2] or "").split(","):
            found |= set(n.split())
    return found


# Own names that would fall together with one of the kit's.
APART = {"bit-xor": "bit_of_xor", "bit-and": "bit_of_and"}


def turned(name):
    return APART.get(name) or name.replace("-", "_").replace("′", "'")


def main():
    own, plain = set(), set()
    for p in files():
        text = bare(open(p, encoding="utf-8").read(), "//" if p.endswith(".rt") else "--")
        kit = kit_names(text)
        if p.endswith(".antt") and not is_walk(p):
            own |= {m[0] for m in TOKEN.finditer(text) if m[0] not in kit}
        plain |= set(re.findall(r"[^\W\d][\w']*", text))
    fall = {}
    for n in own:
        fall.setdefault(turned(n), set()).add(n)
    bad = [k for k, v in fall.items() if len(v) > 1]
    for p in files():
        if p.endswith(".antt"):
            text = bare(open(p, encoding="utf-8").read(), "--")
            kit = kit_names(text)
            bad += [turned(m[0]) for m in TOKEN.finditer(text) if m[0] in own and m[0] not in kit and turned(m[0]) in kit]
    if bad:
        print("respell: names fall together: " + ", ".join(sorted(bad)), file=sys.stderr)
        return 1
    for k in sorted(set(fall) & plain):
        print("look: " + k + " stands in some file beside " + ", ".join(fall[k]))
    count = 0
    old = os.path.join(ROOT, "code", "specs", "Contracts.antt")
    if os.path.exists(old):
        os.rename(old, old.replace("Contracts", "Promises"))
    for p in files():
        text = open(p, encoding="utf-8").read()
        kit = kit_names(bare(text, "--")) if p.endswith(".antt") else set()

        def one(m):
            before = text[max(0, m.start() - 4):m.start()]
            if m[0] not in own or m[0] in kit or before == "tie.":
                return m[0]
            return turned(m[0])

        new = TOKEN.sub(one, text).replace("code.specs.Contracts", "code.specs.Promises")
        if p.endswith("/code/specs/Lib.antt"):
            new = new.replace("pub mod Contracts", "pub mod Promises")
        if new != text:
            count += 1
            with open(p, "w", encoding="utf-8") as f:
                f.write(new)
    print(f"respell: {len(own)} names, {count} files")
    return 0


if __name__ == "__main__":
    raise SystemExit(main())
