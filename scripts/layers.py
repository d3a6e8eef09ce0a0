#!/usr/bin/env python3
"""Prints the layers of the program's crates, the top first: a crate uses only crates in rows below its own.

scripts/layers.py prints them; scripts/layers.py --check compares them with the picture in docs/ARCHITECTURE.md,
scripts/layers.py --write puts them there.
"""
import pathlib
import re
import sys
import textwrap

ROOT = pathlib.Path(__file__).resolve().parent.parent
PAGE = ROOT / "docs/ARCHITECTURE.md"
PICTURE = re.compile(r"(?<=```text layers\n).*?(?=```)", re.S)
WIDTH = 100


def chain():
    """The crates of the program with the libraries that each uses, as crates.txt has them above its tests."""
    lines = (ROOT / "crates.txt").read_text().split("# Tests")[0].splitlines()
    rows = (line.partition(":") for line in lines if line and not line.startswith("#"))
    return {name.split()[0]: uses.split() for name, _, uses in rows}


def height(crate, crates):
    """How many crates stand below this one, one on the other."""
    return max((height(it, crates) + 1 for it in crates[crate] if it in crates), default=0)


def picture():
    crates = chain()
    rows = {}
    for crate in crates:
        rows.setdefault(height(crate, crates), []).append(crate)
    lines = []
    for row in sorted(rows, reverse=True):
        head = f"{row + 1:2}  "
        lines += textwrap.wrap("  ".join(rows[row]), WIDTH, initial_indent=head, subsequent_indent=" " * len(head))
    return "\n".join(lines) + "\n"


def main(words):
    if not words:
        print(picture(), end="")
        return 0
    page = PAGE.read_text()
    drawn = PICTURE.sub(lambda _: picture(), page)
    if words == ["--write"]:
        PAGE.write_text(drawn)
        return 0
    if drawn != page or not PICTURE.search(page):
        print("the picture in docs/ARCHITECTURE.md is not what crates.txt says: scripts/layers.py --write")
        return 1
    return 0


if __name__ == "__main__":
    sys.exit(main(sys.argv[1:]))
