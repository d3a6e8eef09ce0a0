#!/usr/bin/env python3
"""Builds the libraries of these crates, and all below them, as `rt` keeps them, so that `rt` and `scripts/check_one.sh` take
them: up to LANES at once, each with JOBS jobs; with --below those below them alone. `rt lib` does the same one after the other.
As `rt` does, it takes from other checkouts on this machine what was built there of the same text. Each library's sources are
summed once, so nothing may be edited meanwhile. It uses names of the kit's own scripts (rt and rtlib), which may change.

scripts/build_libraries.py [--below] LANES JOBS CRATE.. , as in: scripts/build_libraries.py 2 3 hfs_shared hfs_commands
"""
import functools
import importlib.machinery
import importlib.util
import os
import sys
import tempfile
import time
from concurrent.futures import FIRST_COMPLETED, ThreadPoolExecutor, wait

sys.dont_write_bytecode = True


def load_rt():
    loader = importlib.machinery.SourceFileLoader("rt_script", "/opt/rattle/bin/rt")
    module = importlib.util.module_from_spec(importlib.util.spec_from_loader("rt_script", loader))
    sys.modules["rt_script"] = module
    loader.exec_module(module)
    return module


def chain_lengths(left):
    """How many crates, at most, wait for each of these in a row."""
    lengths = {it: 1 for it in left}
    for it in reversed(left):
        for dep in it.below():
            if dep in lengths:
                lengths[dep] = max(lengths[dep], lengths[it] + 1)
    return lengths


def build(left, built, lanes, jobs):
    """Builds the libraries, each once those below it are built, and those first for which the most wait. Returns those that
    were not built."""
    order, running, failed = chain_lengths(left), {}, []
    with ThreadPoolExecutor(lanes) as pool:
        while True:
            ready = [it for it in left if all(dep in built for dep in it.below())]
            for it in sorted(ready, key=lambda it: -order[it])[: lanes - len(running)]:
                left.remove(it)
                it.out = tempfile.TemporaryFile("w+", errors="replace")
                running[pool.submit(it.build_rlib, ["--jobs", jobs], False)] = it, time.time()
            if not running:
                return failed + left
            for future in wait(running, return_when=FIRST_COMPLETED).done:
                it, start = running.pop(future)
                is_built = future.result() == 0
                print(it.name, "built" if is_built else "NOT BUILT", f"in {time.time() - start:.0f} s", flush=True)
                if is_built:
                    built.add(it)
                else:
                    it.out.seek(0)
                    print(it.out.read(), end="", flush=True)
                    failed.append(it)


def main(*words):
    is_below, (lanes, jobs, *names) = words[0] == "--below", [it for it in words if it != "--below"]
    root = os.path.realpath(os.path.join(os.path.dirname(__file__), ".."))
    os.chdir(root)
    rt = load_rt()
    if hasattr(rt, "share_work"):
        rt.share_work(True)
    rt.rtlib.Crate.stamp = functools.lru_cache(None)(rt.rtlib.Crate.stamp)
    below = functools.lru_cache(None)(rt.rtlib.Crate.below)
    rt.rtlib.Crate.below = lambda crate: [*below(crate)]
    crates = {it.name: it for it in rt.rtlib.crates_below(root)}
    lacking = [it for it in names if it not in crates]
    if lacking:
        print("no crate:", *lacking, file=sys.stderr)
        return 2
    rt.rtlib.guarded()
    wanted = []
    for name in names:
        wanted += [it for it in [*crates[name].below(), *[crates[name]] * (not is_below)] if it not in wanted]
    _held = rt.rtlib.lock(wanted)
    built = {it for it in wanted if it.is_built()}
    return 1 if build([it for it in wanted if it not in built], built, int(lanes), jobs) else 0


if __name__ == "__main__":
    sys.exit(main(*sys.argv[1:]))
