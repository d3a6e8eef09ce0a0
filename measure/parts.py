#!/usr/bin/env python3
"""Runs `rt ci` from nothing in a repository and prints how much processor time each part of it took (measure/gate.sh says more).
Kits whose `rt ci` keeps what it passed are given `--anew`; the others know no such word, and begin from nothing each time.

Each command that rt starts is one task: which part it belongs to is read off its words and its folder, and its time, with that of
all that it starts, off /proc, four times a second; so of a command's last quarter of a second some may be missing, and the line
`rt itself` has what is missing too. The sum of all lines is what the system counts for the whole run.

measure/parts.py REPOSITORY LOG UNIT
"""
import collections
import os
import re
import resource
import subprocess
import sys
import time

PAUSE = 0.25
TICK = os.sysconf("SC_CLK_TCK")
PARTS = [
    "libraries",
    "programs",
    "tests: libraries and programs",
    "tests: the tests",
    "tests and programs run",
    "second proofs",
    "second proofs looked at again",
    "wrong bodies",
    "wrong bodies once more, from nothing",
]


def crates_of(root):
    """The crates above the line of tests in crates.txt, and those below it."""
    above, below, names = [], [], None
    for line in open(f"{root}/crates.txt", encoding="utf-8"):
        names = below if line.startswith("# Tests") or names is below else above
        if found := re.match(r"(\w+)[ :]", line):
            names.append(found[1])
    return above, below


def processes():
    """Of each process its parent, when it began, and the seconds that it and those of its children that have ended took."""
    found = {}
    for name in os.listdir("/proc"):
        if name.isdigit():
            try:
                with open(f"/proc/{name}/stat", encoding="utf-8", errors="replace") as it:
                    fields = it.read().rpartition(")")[2].split()
            except OSError:
                continue
            found[int(name)] = int(fields[1]), fields[19], sum(map(int, fields[11:15])) / TICK
    return found


def words_of(pid):
    try:
        with open(f"/proc/{pid}/cmdline", encoding="utf-8", errors="replace") as it:
            return it.read().split("\0"), os.readlink(f"/proc/{pid}/cwd")
    except OSError:
        return [], ""


class Parts:
    """The tasks of a run, each with its part, its crate and its seconds."""

    def __init__(self, root):
        self.above, self.below = crates_of(root)
        self.root, self.tasks, self.seeds = root, {}, set()

    def is_program(self, crate):
        return os.path.exists(f"{self.root}/crates/{crate}/src/main.rt")

    def part_of(self, pid):
        """The part and the crate of a command that rt started, or None while it isn't to be told yet."""
        words, folder = words_of(pid)
        if not words or words[0].endswith(("python3", "python")) or "-ISc" in words:
            return None
        if not words[0].endswith(("/rattle", "/rattle-link")):
            return ("tests and programs run", "") if "rt-run-" in " ".join(words) + folder else None
        if "--crate-name" not in words:
            return self.of_crate(os.path.basename(folder), words)
        crate = words[words.index("--crate-name") + 1]
        if "/rt-edit-" not in folder:
            return self.of_crate(crate, words)
        over = words[words.index("--incremental") + 1] if "--incremental" in words else ""
        if not over:
            return "wrong bodies once more, from nothing", crate
        if not over.endswith("/seed"):
            return "wrong bodies", crate
        is_first = over not in self.seeds
        self.seeds.add(over)
        return "second proofs" if is_first else "second proofs looked at again", crate

    def of_crate(self, crate, words):
        if "--test" in words:
            return "tests: the tests", crate
        if crate in self.below:
            return "tests: libraries and programs", crate
        return "programs" if self.is_program(crate) else "libraries", crate

    def look(self, top):
        """Takes down what the commands that the process `top` started have used until now."""
        found = processes()
        children = collections.defaultdict(list)
        for pid, (parent, _, _) in found.items():
            children[parent].append(pid)
        for pid in children[top]:
            key, seconds, left = (pid, found[pid][1]), 0, [pid]
            while left:
                it = left.pop()
                seconds, left = seconds + found[it][2], left + children[it]
            part = self.tasks.get(key, (None,))[0] or self.part_of(pid)
            self.tasks[key] = part, max(seconds, self.tasks.get(key, (None, 0))[1])

    def by_part(self):
        sums = collections.Counter()
        for part, seconds in self.tasks.values():
            if part:
                sums[part[0]] += seconds
        return sums

    def by_crate(self):
        sums = collections.defaultdict(collections.Counter)
        for part, seconds in self.tasks.values():
            if part:
                sums[part[1]][part[0]] += seconds
        return sums


def words_of_a_run_from_nothing():
    told = subprocess.run(["rt", "help"], stdout=subprocess.PIPE, stderr=subprocess.STDOUT, text=True)
    return ["rt", "ci", *(["--anew"] if "--anew" in told.stdout else [])]


def row(seconds, unit):
    return f"{seconds / 60:8.1f}" + (f"{seconds / unit:8.2f}" if unit else "")


def main(root, log, unit):
    parts, unit, start = Parts(root), float(unit), time.time()
    with open(log, "w", encoding="utf-8") as said:
        ran = subprocess.Popen(words_of_a_run_from_nothing(), cwd=root, stdin=subprocess.DEVNULL, stdout=said, stderr=subprocess.STDOUT)
        while ran.poll() is None:
            parts.look(ran.pid)
            time.sleep(PAUSE)
    clock, used = time.time() - start, resource.getrusage(resource.RUSAGE_CHILDREN)
    whole, sums = used.ru_utime + used.ru_stime, parts.by_part()
    print("processor time, in minutes" + (f" and in units of {unit} s" if unit else ""))
    for part in PARTS:
        print(row(sums[part], unit), "", part)
    print(row(whole - sum(sums.values()), unit), "", "rt itself")
    print(row(whole, unit), "", "in all")
    print(f"{clock / 60:8.1f}  minutes on the clock, with RT_JOBS={os.environ.get('RT_JOBS', '')} on {os.cpu_count()} processors")
    print("\neach crate's, in seconds: its proof, its tests, its second proof (with the look at it), its wrong bodies")
    for crate, of in parts.by_crate().items():
        own = of["libraries"] + of["programs"] + of["tests: libraries and programs"]
        seeds = of["second proofs"] + of["second proofs looked at again"]
        bodies = of["wrong bodies"] + of["wrong bodies once more, from nothing"]
        if crate:
            print(f"{own:8.0f}{of['tests: the tests']:8.0f}{seeds:8.0f}{bodies:8.0f}  {crate}")
    with open(log, encoding="utf-8") as said:
        print("\n" + (said.read().rstrip().split("\n") or [""])[-1])
    return ran.returncode


if __name__ == "__main__":
    sys.exit(main(*sys.argv[1:]))
