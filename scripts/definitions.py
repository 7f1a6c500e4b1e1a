#!/usr/bin/env python3
"""Writes docs/DEFINITIONS.md from the comments of specs/: each definition with what its own comment says.

usage: scripts/definitions.py [--check]      (at the top of the repository)

With --check it writes nothing, and ends with 1 where the file is not what it would write.
"""
import os
import re
import sys

PATH = "docs/DEFINITIONS.md"
HEAD = """# Definitions

The definitions that contracts cite, crate by crate, lowest first. Each is described by its own comment in `specs/`; this page
is made from these comments by `scripts/definitions.py`, so change the comment and run it again.
"""
DEFINITION = re.compile(r"(?:unfoldable |abbrev )*pub (?:abbrev |unfoldable )*(?:record |data )?([^\s:({]+)")


def sentence(comment):
    text = " ".join(line[2:].strip() for line in comment)
    return text[:1].upper() + text[1:].rstrip(".") + "." if text else ""


def definitions(lines):
    """The definitions in order, each with its comment, and the names of those that have none."""
    described, bare, above = {}, [], []
    for line in lines:
        if line.startswith("--"):
            above.append(line)
            continue
        found = DEFINITION.match(line)
        if found and above:
            described[found[1]] = sentence(above)
        elif found and found[1] not in described and found[1] not in bare:
            bare.append(found[1])
        above = []
    return described, bare


def page(path):
    lines = open(path, encoding="utf-8").read().split("\n")
    head = []
    while lines and lines[0].startswith("--"):
        head.append(lines.pop(0))
    while lines and not lines[0].strip():
        lines.pop(0)
    return sentence(head), *definitions(lines)


def crates():
    for line in open("crates.txt", encoding="utf-8"):
        if re.match(r"[a-z]", line):
            yield line.split(":")[0].split()[0]


def files_in(folder):
    """The files of definitions in a folder and the folders below it, by name; those that only name others are left out."""
    found = []
    for at, _, names in os.walk(folder):
        found += [os.path.relpath(f"{at}/{it}", folder) for it in names if it.endswith(".antt")]
    return sorted(it for it in found if it != "Lib.antt" and not os.path.isdir(f"{folder}/{it[:-5]}"))


def text():
    out = [HEAD]
    for crate in crates():
        folder = f"crates/{crate}/specs"
        files = files_in(folder)
        if not files:
            continue
        out.append(f"## {crate}\n")
        for name in files:
            head, described, bare = page(f"{folder}/{name}")
            out.append(f"**`{name[:-5]}`**: {head}\n")
            out += [f"- `{it}`: {comment}" for it, comment in described.items()]
            out += [f"- {', '.join(f'`{it}`' for it in bare)}"] if bare else []
            out += [""] if described or bare else []
    return "\n".join(out).rstrip("\n") + "\n"


def main():
    made = text()
    if "--check" in sys.argv:
        if open(PATH, encoding="utf-8").read() != made:
            print(f"{PATH} is not what scripts/definitions.py makes of specs/")
            return 1
        return 0
    open(PATH, "w", encoding="utf-8").write(made)
    return 0


if __name__ == "__main__":
    sys.exit(main())
