#!/usr/bin/env python3
"""Prints how long the proofs of a crate took: its most expensive functions, and the most expensive parts of their proofs. It goes by the times at which the check wrote what
it keeps, so the check must have been one from nothing and with one job: remove crates/CRATE/out/incremental, then `RT_JOBS=1 scripts/check_one.sh CRATE`.

scripts/proof_times.py CRATE [ROWS], as in: scripts/proof_times.py hfs_model_tests 20
"""
import collections
import os
import re
import sys

ROOT = os.path.realpath(os.path.join(os.path.dirname(__file__), ".."))
# Longer than any part takes: between two files that far apart the machine did something else.
PAUSE = 300


def parts(crate):
    """The seconds of each part, by the function and the part's name; a part ends when its file is written."""
    written = []
    for folder, _, names in os.walk(f"{ROOT}/crates/{crate}/out/incremental"):
        for name in names:
            if name.endswith(".oantt") and not name.endswith(".decls.oantt"):
                written.append((os.stat(f"{folder}/{name}").st_mtime, name))
    written.sort()
    for (before, _), (after, name) in zip(written, written[1:]):
        place = re.sub(f"^Rattle-{crate}-(proofs\\.)?|\\.oantt$", "", name)
        if after - before < PAUSE:
            yield after - before, place.rpartition(".")[0], place.rpartition(".")[2]


def main(crate, rows="15"):
    functions, kinds = collections.Counter(), collections.Counter()
    for seconds, function, part in parts(crate):
        functions[function] += seconds
        kinds[part] += seconds
    print(f"{sum(kinds.values()):.0f} s in all")
    for name, seconds in functions.most_common(int(rows)):
        print(f"{seconds:7.1f}  {name}")
    print("by the kind of part:", ", ".join(f"{name} {seconds:.0f}" for name, seconds in kinds.most_common(6)))


if __name__ == "__main__":
    main(*sys.argv[1:])
