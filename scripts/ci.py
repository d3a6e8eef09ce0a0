#!/usr/bin/env python3
"""Runs `rt ci`, the kit's own gate, with several jobs for a proof that many others wait for: the chain of crates is long, and with a job
each most processors are idle at its end. What passes is kept, so that it isn't proved again on this machine. Later kits keep it by
themselves (where `rt` has `share_work`).

Kit 13b begins from nothing each time, and takes a library's sum anew for each way through crates.txt that leads to it: 1.6 million
sums here, some three hours, whatever is proved. Here each sum is taken once, as nothing may be edited while a gate runs, and a proof
that passed on this machine isn't done again while all that it is made from is the same: the kit, HANDLES, the crate's line and files,
and each library below it, sources and built form. What is kept lies in ${XDG_CACHE_HOME:-$HOME/.cache}/foyersage/proved by hard
links, two results of each proof at most; nothing is kept where that folder can't be written or 15 GB aren't free. Programs and tests
run each time. --anew takes nothing that was kept. It uses names of the kit's own scripts (rt and rtlib), which may change.

scripts/ci.py [--anew]
"""
import functools
import hashlib
import os
import shutil
import sys
import threading
from concurrent.futures import FIRST_COMPLETED, ThreadPoolExecutor, wait
from pathlib import Path

from build_libraries import load_rt

FREE = 15 * 1024 ** 3
MOST_OF_A_PROOF = 2
MOST_JOBS = 4


class Kept:
    """Results of proofs, each a folder NAME/KEY that holds what the crate's out/ had of it."""

    def __init__(self, is_anew):
        cache = Path(os.environ.get("XDG_CACHE_HOME") or Path.home() / ".cache")
        self.folder, self.is_anew = cache / "foyersage" / "proved", is_anew

    def key(self, crate, tests):
        """A sum of all that a proof of the crate, or of its tests, is made from; None where a library below isn't built."""
        whole = hashlib.sha256(repr((crate.stamp(), crate.of_kit, crate.allowed, tests)).encode())
        for path in (sys.modules["rt_script"].__file__, sys.modules["rtlib"].__file__, __file__):
            whole.update(Path(path).read_bytes())
        for library in crate.below():
            built = Path(library.rlib) / "format"
            if not built.is_file():
                return None
            whole.update(built.read_bytes())
        return whole.hexdigest()

    def take(self, crate, tests, key):
        """Whether the result was kept; it is laid into the crate's out/ then."""
        kept = self.folder / name_of(crate, tests) / key
        if self.is_anew or not (kept / "whole").is_file():
            return False
        os.utime(kept)
        for part in (kept / "out").iterdir():
            lay(part, Path(crate.folder) / "out" / part.name)
        return True

    def keep(self, crate, tests, key):
        proofs = self.folder / name_of(crate, tests)
        new = proofs / f"new-{os.getpid()}-{threading.get_ident()}"
        try:
            (new / "out").mkdir(parents=True)
            if shutil.disk_usage(new).free < FREE:
                raise OSError
            for part in made_by(crate, tests):
                lay(part, new / "out" / part.name)
            (new / "whole").touch()
            shutil.rmtree(proofs / key, ignore_errors=True)
            new.rename(proofs / key)
            others = sorted((it for it in proofs.iterdir() if not it.name.startswith("new-")), key=lambda it: -it.stat().st_mtime)
            for old in others[MOST_OF_A_PROOF:]:
                shutil.rmtree(old, ignore_errors=True)
        except OSError:
            shutil.rmtree(new, ignore_errors=True)


def name_of(crate, tests):
    return f"{crate.name}-tests" if tests else crate.name


def made_by(crate, tests):
    """What a proof leaves in the crate's out/: a library, the programs of both compilers, or the tests."""
    out = Path(crate.folder) / "out"
    if tests:
        return [it for it in [out / f"{crate.name}_tests"] if it.is_file()]
    if crate.is_program:
        return [it for it in (out / crate.name, out / f"{crate.name}.by-rattle") if it.is_file()]
    return [out / "rlib"]


def lay(part, to):
    """Lays a file or a folder there by hard links, or as a copy on another file system."""
    shutil.rmtree(to, ignore_errors=True)
    to.unlink(missing_ok=True)
    to.parent.mkdir(parents=True, exist_ok=True)
    if part.is_dir():
        shutil.copytree(part, to, copy_function=link)
    else:
        link(part, to)


def link(part, to):
    try:
        os.link(part, to)
    except OSError:
        shutil.copy2(part, to)


def work_behind(tasks):
    """The lines of the longest chain that begins with each task, where a task stands behind those that it waits for."""
    lines = {it: 0 for it in tasks}
    for key in reversed([*tasks]):
        lines[key] += tasks[key][1]
        for it in tasks[key][0]:
            lines[it] = max(lines[it], lines[key])
    return lines


def in_lanes(tasks):
    """Runs tasks as `rt` does, each once those that it waits for have ended, the longest chain first, and returns what each gave. But a
    proof gets as many of the lanes as its chain is of all the lines that are left, and those that nobody else could take."""
    lanes = int(os.environ.get("RT_JOBS") or os.cpu_count())
    behind = work_behind(tasks)
    left, running, given = sorted(tasks, key=lambda it: -behind[it]), {}, {}
    with ThreadPoolExecutor(lanes) as pool:
        while left or running:
            ready = [it for it in left if all(below in given for below in tasks[it][0])]
            lines = 1 + sum(tasks[it][1] for it in left) + sum(tasks[it][1] for it, _ in running.values())
            for at, key in enumerate(ready):
                idle = lanes - sum(jobs for _, jobs in running.values())
                if idle < 1:
                    break
                jobs = 1 if key[1] not in ("proof", "tests") else min(MOST_JOBS, max(1, -(-lanes * behind[key] // lines), idle // (len(ready) - at)))
                left.remove(key)
                running[pool.submit(tasks[key][3], given, jobs)] = key, jobs
            for it in wait(running, return_when=FIRST_COMPLETED).done:
                given[running.pop(it)[0]] = it.result()
    return given


def main(*words):
    rt = load_rt()
    rt.in_lanes = in_lanes
    if hasattr(rt, "share_work"):
        return rt.main(["ci", *words])
    kept, prove = Kept("--anew" in words), rt.Crate.ci
    rt.rtlib.Crate.stamp = functools.lru_cache(None)(rt.rtlib.Crate.stamp)
    below = functools.lru_cache(None)(rt.rtlib.Crate.below)
    rt.rtlib.Crate.below = lambda crate: [*below(crate)]

    def ci(crate, flags, tests):
        key = kept.key(crate, tests)
        if key and kept.take(crate, tests, key):
            rt.say(f"{name_of(crate, tests)} is kept: this machine has passed it", crate.out)
            return 0
        status = prove(crate, flags, tests)
        if key and not status:
            kept.keep(crate, tests, key)
        return status

    rt.Crate.ci = ci
    return rt.main(["ci"])


if __name__ == "__main__":
    sys.exit(main(*sys.argv[1:]))
