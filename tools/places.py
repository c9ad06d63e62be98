#!/usr/bin/env python3
"""Counts the places in crates/*/src that docs/DESIGN-PASS.md is about, point by point, and lists them.

    tools/places.py [--list] [POINT..]

What a text search can't tell (twins, a switch on a step) is counted there by reading.
"""
import glob
import re
import sys

ROOT = __file__.rsplit("/", 2)[0]
HEAD = re.compile(r'^( *)(?:pub )?(?:extern "C" )?fn (\w+)(?:<[^(]*>)?\(', re.M)


def functions(text):
    """(name, signature with contract, body) of each function of a file."""
    starts = [m.start() for m in HEAD.finditer(text)] + [len(text)]
    for at, end in zip(starts, starts[1:]):
        part = text[at:end]
        indent, name = HEAD.match(part).group(1, 2)
        opening = re.search(rf"(?m)^{indent}\{{$|\) (?:-> [^\n]* )?\{{$", part)
        cut = opening.start() if opening else len(part)
        close = re.search(rf"(?m)^{indent}\}}$", part[cut:])
        yield name, part[:cut], part[cut : cut + close.end()] if close else part[cut:]


def bare(text):
    return re.sub(r"//[^\n]*", "", text)


FILES = sorted(glob.glob(f"{ROOT}/crates/*/src/**/*.rt", recursive=True))
SOURCES = {file.split("/crates/")[1].replace("/src/lib.rt", "").replace("/src/", "/"): open(file).read() for file in FILES}
FUNCTIONS = [(crate, *it) for crate, text in SOURCES.items() for it in functions(text)]


def enums_like_option():
    """An enum with an empty variant and one with a value, and no other: Option's shape; or two with values: Result's."""
    for crate, text in SOURCES.items():
        for name, body in re.findall(r"\benum (\w+)(?:<[^{]*>)? \{(.*?)\n\}", bare(text), re.S):
            variants = [it.strip() for it in re.split(r",\s*(?![^(]*\))", body) if it.strip()]
            if len(variants) == 2 and any("(" in it for it in variants):
                yield f"{crate}: enum {name}"


def flags_with_values():
    """A struct with a bool beside other fields."""
    for crate, text in SOURCES.items():
        for name, body in re.findall(r"\bstruct (\w+)(?:<[^{]*>)? \{(.*?)\n\}", bare(text), re.S):
            fields = re.findall(r"(\w+): ([^,\n]+)", re.sub(r"(?:pub )?ghost [^\n]*", "", body))
            yield from (f"{crate}: {name}.{field}" for field, kind in fields if kind == "bool" and len(fields) > 1)


def numbers_for_sets():
    """A parameter whose clause says that it is below 2, and a literal 0 or 1 handed on for a set is counted with its function."""
    for crate, name, head, _ in FUNCTIONS:
        for parameter in re.findall(r"\{ (\w+) < 2 \}", head):
            if re.search(rf"\b{parameter}: usize", head):
                yield f"{crate}: {name}({parameter})"


def numbers_for_refusals():
    """A refusal made or tested as a number."""
    for crate, name, _, body in FUNCTIONS:
        found = re.findall(r"plain_answer\(\d+|\.(?:number|answer) [!=]= 0|\bnothing\(\d+|\brefused\((?:\d+|number)|answer: \d+", bare(body))
        yield from (f"{crate}: {name}: {it}" for it in found)


def numbers_for_nothing():
    """A number that stands for none, or for more than one: read off the comments above functions and types, and NONE."""
    words = r"0 for (?:none|no extra)|and 0 where it breaks|or NONE|else NONE|the length where there is none|Past all, where there is none|16, if|Past every track|past the set's tracks has none"
    for crate, text in SOURCES.items():
        yield from (f"{crate}: {it}" for it in re.findall(rf"// [^\n]*(?:{words})[^\n]*", text))


def counted_loops():
    """A `while` in code."""
    for crate, name, _, body in FUNCTIONS:
        yield from (f"{crate}: {name}: {it}" for it in re.findall(r"while [^\n]*", bare(body)))


def conversions():
    """A function that turns one value into another, or prints one, and could be From, TryFrom, Display or a derive: by name and shape."""
    for crate, name, head, _ in FUNCTIONS:
        if re.match(r"(?:extra_number|for_c|read_cell|number|line|pair_of|index|plain_answer|nothing|refused)$", name):
            yield f"{crate}: {name}"


def clauses(head):
    return {re.sub(r"\b(?:old|new|now)\b", "_", it) for it in re.findall(r"\{ (.*) \}$", head, re.M)}


def repeated_facts():
    """A fact that stands in the `requires` of three or more functions of a crate."""
    seen = {}
    for crate, name, head, _ in FUNCTIONS:
        for it in re.findall(r"^ *requires (?:\w+ )?\{ (.*) \}$", head, re.M):
            seen.setdefault((crate, re.sub(r"\b(?:old|now)\b", "_", it)), []).append(name)
    yield from (f"{crate}: {fact}: {len(names)}" for (crate, fact), names in sorted(seen.items()) if len(names) > 2)


def travelling_parameters():
    """Three or more parameters, by name and type, that stand together in three or more functions of a crate: the largest such groups."""
    groups = {}
    for crate, name, head, _ in FUNCTIONS:
        inside = re.search(r"\((.*?)\)(?: ->|\s*\n|\s*$)", head, re.S)
        got = frozenset(re.findall(r"(\w+: [^,()]+?)(?=,|$)", re.sub(r"\s+", " ", inside.group(1)))) if inside else frozenset()
        if len(got) > 2:
            groups.setdefault(crate, []).append(got)
    for crate, all_of in groups.items():
        meets = {a & b for a in all_of for b in all_of if len(a & b) > 2}
        often = {m for m in meets if sum(m <= it for it in all_of) > 2}
        for m in sorted(often - {m for m in often if any(m < o for o in often)}, key=sorted):
            yield f"{crate}: {', '.join(sorted(m))}: {sum(m <= it for it in all_of)}"


def rooms():
    """A fixed buffer of which a part is used."""
    for crate, name, _, body in FUNCTIONS:
        made = re.findall(r"let mut (\w+) = \[[^;\]]+; [^\]]+\]", bare(body))
        yield from (f"{crate}: {name}: {it}" for it in made if re.search(rf"&(?:mut )?{it}\[[^\]]*\.\.[^\]]*\]", body))


def tables_of_functions():
    """A function pointer or a dyn value."""
    for crate, text in SOURCES.items():
        yield from (f"{crate}: {it}" for it in re.findall(r"[^\n]*(?:\bdyn |: fn\()[^\n]*", bare(text)))


POINTS = {
    "1": [enums_like_option, flags_with_values, numbers_for_sets, numbers_for_refusals, numbers_for_nothing],
    "3": [counted_loops],
    "4": [conversions],
    "5": [repeated_facts, travelling_parameters],
    "6": [rooms],
    "7": [tables_of_functions],
}

if __name__ == "__main__":
    words = [it for it in sys.argv[1:] if it != "--list"]
    for point, finders in POINTS.items():
        if words and point not in words:
            continue
        for finder in finders:
            places = list(finder())
            print(f"{point} {finder.__name__}: {len(places)}")
            if "--list" in sys.argv:
                print(*[f"    {it}" for it in places], sep="\n")
