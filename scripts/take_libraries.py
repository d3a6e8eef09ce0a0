#!/usr/bin/env python3
"""Takes the libraries that a run of `rt ci`, ended or still going on, has proved in another checkout of this machine: those whose
sources, and all of whose libraries' sources, are the same here. They are taken by hard links, and get the mark by which `rt` and
`scripts/check_one.sh` know them. It is for the time while proofs are written; `rt ci` trusts none of it. It may be called again and again
while that run goes on. It uses names of the kit's own scripts (rt and rtlib), which may change.

scripts/take_libraries.py CHECKOUT [LOG], as in: scripts/take_libraries.py ../base ../gate.log
LOG is what that run prints; without it, each library that is there is taken as complete.
"""
import filecmp
import functools
import os
import re
import shutil
import sys

from build_libraries import load_rt

PARTS = ("src", "specs", "proofs")


def files_below(folder):
    return sorted(os.path.relpath(f"{at}/{name}", folder) for at, _, names in os.walk(folder) for name in names)


def are_same(here, there):
    """Whether both crates have the same sources."""
    for part in PARTS:
        names = files_below(f"{here}/{part}")
        if names != files_below(f"{there}/{part}"):
            return False
        if filecmp.cmpfiles(f"{here}/{part}", f"{there}/{part}", names, shallow=False)[0] != names:
            return False
    return True


def main(checkout, log=None):
    root = os.path.realpath(os.path.join(os.path.dirname(__file__), ".."))
    os.chdir(root)
    rt = load_rt()
    rt.rtlib.Crate.stamp = functools.lru_cache(None)(rt.rtlib.Crate.stamp)
    below = functools.lru_cache(None)(rt.rtlib.Crate.below)
    rt.rtlib.Crate.below = lambda crate: [*below(crate)]
    crates = rt.rtlib.crates_below(root)
    proved = {it.name for it in crates}
    if log:
        with open(log, encoding="utf-8", errors="replace") as said:
            proved = set(re.findall(r"(?m)^rt: (\w+) (?:proved$|is kept: )", said.read()))
    same, taken, here = {}, [], 0
    for crate in sorted(crates, key=lambda it: len(it.below())):
        there = f"{checkout}/crates/{crate.name}"
        same[crate.name] = all(same[it.name] for it in crate.below()) and are_same(crate.folder, there)
        rlib = f"{there}/out/rlib"
        if not same[crate.name] or crate.name not in proved or not os.path.isdir(f"{rlib}/{crate.name}.rlib"):
            continue
        if crate.is_built():
            here += 1
            continue
        to = f"{crate.folder}/out/rlib"
        shutil.rmtree(to, ignore_errors=True)
        shutil.copytree(rlib, to, copy_function=os.link)
        if os.path.exists(f"{to}/stamp"):
            os.remove(f"{to}/stamp")
        with open(f"{to}/stamp", "w", encoding="utf-8") as it:
            it.write(crate.stamp())
        taken.append(crate.name)
    print("taken:", *taken, f"({here} were here)")
    return 0


if __name__ == "__main__":
    sys.exit(main(*sys.argv[1:]))
