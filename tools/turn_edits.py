#!/usr/bin/env python3
"""Brings the must-fail edits (crates/*/must-fail/*.edit) of the older Rattle over to today's spelling.

usage: tools/turn_edits.py [--write] [CRATE..]      at the top of the repository

It always takes the edits, and the files that they change, as they stood in the last commit of the old form (LANDED), so it can be run
again whenever a file has moved on. Each `old:` is looked up in that commit's file; that file is aligned, line by line, with today's;
`old:` and `new:` are turned by the same rules; and the turned `old:` must stand in today's file once, on the line that answers the one
it stood on. An edit of which that does not hold is printed, with both lines, and left alone: it is brought over by hand. Comments stay.
A `use` line is another matter, as many of them became one: there the names that `new:` adds are added to the line that has them now.
With --write the edits are written, else it only says which could be turned. Edits that were brought over by hand are listed in BY_HAND:
they are not written, and only their `old:` is looked for.
"""

import difflib
import os
import re
import subprocess
import sys

LANDED = "2cf03e1"
MOVED = {"crates/code/specs/Contracts.antt": "crates/code/specs/Promises.antt"}
WORDS = {"getD": "get_or", "decLe": "dec_le", "bit-xor": "bit_of_xor", "bit-and": "bit_of_and"}
BY_HAND = set()


def landed(path):
    return subprocess.run(["git", "show", LANDED + ":" + path], check=True, capture_output=True).stdout.decode()


def turned(text, is_spec):
    """The text in today's spelling: names in snake case, operators, projections. Code of src/ keeps its spelling."""
    if not is_spec:
        return text
    text = re.sub(r"(?<![\w◌])_([^\s\w,.{}()]+)_(?![\w◌])", r"◌\1◌", text)
    text = re.sub(r"[^\W\d][\w'′]*(?:-[\w'′]+)*", lambda m: WORDS.get(m[0]) or m[0].replace("-", "_").replace("′", "'"), text)
    text = re.sub(r"\(([\w']+) \.([\w']+)\)", r"\1.\2", text)
    return re.sub(r"(?<=[\w')]) \.([\w']+)", r".\1", text)


def partners(old, new):
    """For each line of `old` the number of the line of `new` that answers it."""
    flat = [[re.sub(r"[\s()]+", " ", x).strip() for x in side] for side in (old, new)]
    found = {}
    for kind, a, b, c, d in difflib.SequenceMatcher(None, *flat, autojunk=False).get_opcodes():
        if kind == "equal":
            found.update(zip(range(a, b), range(c, d)))
        elif kind == "replace":
            for i in range(a, b):
                near = max(range(c, d), key=lambda j: difflib.SequenceMatcher(None, flat[0][i], flat[1][j]).ratio())
                found[i] = near
    return found


def names(line):
    return [n for n in re.split(r"[\s,]+", line[line.index("{") + 1:line.rindex("}")]) if n]


def imports(old, new, today):
    """The `use` line that has the names of `old` now, and what it becomes where `new` adds some."""
    added = [n for n in names(new) if n not in names(old)]
    for line in today:
        if line.startswith("use ") and line.rstrip().endswith("}") and set(names(old)) <= set(names(line)):
            head = line[:line.index("{") + 1]
            return head, head + "".join(n + "," for n in added if n not in names(line))
    return None


def turn(path):
    """The edit's text of today, or a complaint."""
    crate = path.split("/")[1]
    out, file, was, now = [], None, None, None
    lines = landed(path).split("\n")
    for i, line in enumerate(lines):
        if line.startswith("file: "):
            name = "crates/" + crate + "/" + line[6:].strip()
            file = MOVED.get(name, name)
            is_spec = not file.endswith(".rt")
            was, now = landed(name), open(file, encoding="utf-8").read()
            out.append("file: " + file.split("/", 2)[2])
        elif line.startswith("old: "):
            old, new = line[5:], lines[i + 1][5:]
            assert lines[i + 1].startswith("new: ") and was.count(old) == 1, path
            o, n = turned(old, is_spec), turned(new, is_spec)
            k = was[:was.index(old)].count("\n")
            if old.startswith("use "):
                pair = imports(o, n, now.split("\n"))
                if not pair:
                    return None, f"no line has the names of: {old}"
                o, n = pair
                if o == n:
                    return None, f"nothing to add: {old}"
            else:
                j = partners(turned(was, is_spec).split("\n"), now.split("\n")).get(k)
                there = now.split("\n")[j] if j is not None else "(no line)"
                if now.count(o) != 1 or o not in there:
                    return None, f"{now.count(o)} times: {o}\n    was  {was.split(chr(10))[k].strip()}\n    now  {there.strip()}"
            if now.count(o) != 1:
                return None, f"{now.count(o)} times: {o}"
            out += ["old: " + o, "new: " + n]
            was, now = was.replace(old, new), now.replace(o, n)
        elif not line.startswith("new: "):
            out.append(line)
    return "\n".join(out), None


def main():
    write = "--write" in sys.argv
    only = [a for a in sys.argv[1:] if a != "--write"]
    done = same = 0
    left = []
    edits = subprocess.run(["git", "ls-tree", "-r", "--name-only", LANDED, "crates"], check=True, capture_output=True).stdout.decode()
    for path in edits.split("\n"):
        if not path.endswith(".edit") or only and path.split("/")[1] not in only:
            continue
        if path in BY_HAND:
            left.append(path + ": by hand")
            continue
        text, why = turn(path)
        if why:
            left.append(path + ": " + why)
            continue
        done += 1
        same += text == landed(path)
        if write and open(path, encoding="utf-8").read() != text:
            with open(path, "w", encoding="utf-8") as f:
                f.write(text)
    print("\n".join(left + [f"{done} turned, {same} of them need no change, {len(left)} left"]))
    return 0


if __name__ == "__main__":
    raise SystemExit(main())
