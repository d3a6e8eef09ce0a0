#!/usr/bin/env python3
"""Viewers next to a worker that makes worked lists of changes: on new volumes and on one with a file in four extents, names in their order,
nested folders, items that are made, deleted, moved, set and locked, full catalogs, forks that are written, and 450 changes of 300 files.
For each list, and for each of its beginnings, a viewer asks every call that it may make, for the IDs and the names of the list, many times
over. Each answer must be that of the volume after some of the changes, and after no fewer than the answer before; and the last ones must be those after all
of them. If a viewer ended before the worker it is run again, and asks longer each time.

tests/viewers.py      runs $HFS_TOOL, or the program as it is built in crates/hfs_tool/out
"""
import gzip
import sys
import tempfile
from concurrent.futures import ThreadPoolExecutor
from pathlib import Path

from driver.calls import Answer, Call, read_answers, script_of
from driver.programs import ROOT, Program, built
from driver.wanted import Difference, ensure

NOW = 9
# How many lines a viewer has at least, in so many rounds or more; and how often it is run where it ends before the worker, with as many
# rounds more each time.
LINES, ROUNDS, RUNS = 8_000, 16, 20
NAMES = ['a', 'b', 'd', 'f', 'g', 'x', 'y', 'z', 'A', '{', 'one', 'two', 'a longer name than before']
SIXTEEN, MANY = '000102030405060708090a0b0c0d0e0f', '000102030405060708090a0b0c0d0e0f101112131415161718191a1b1c1d1e1f'
SEVENS = '07' * 16
# Each list with the number of nodes of a new volume's catalog, and how many changes it has. Slashes part the calls, spaces their fields.
LISTS = [
    # folders in one another, a file that is locked, set, found by its ID, renamed, moved and deleted
    (40, 20, 'mkdir 2 x/mkdir 16 y/mkdir 17 z/move 2 x 18/move 2 x 17/move 2 x 16/move 16 y 2/create 16 f/delete 2 x/lock 16 f/delete 16 f/'
             f'rename 16 f g/unlock 16 f/newid 16 f/setfinfo 16 f {SIXTEEN}/rename 16 f g/move 16 g 2/dropid 19/delete 2 g/delete 2 x'),
    # names: their order, equal ones, and those that are none
    (40, 11, f'create 2 {{/create 2 _x/create 2 B/create 2 a/create 2 A/create 2 a:b/create 2 /move 2 a 2/create 2 {"n" * 31}/create 2 {"n" * 32}/'
             f'setinfo 2 a 1 2 3 {MANY}'),
    # items that come and go: names that are there, folders that hold something or are gone, a name that is none
    (40, 10, 'create 2 b/mkdir 2 A/create 2 a/create 17 b/delete 2 a/delete 17 B/delete 2 a/delete 2 a/create 2 x:y/create 17 c'),
    # items that move and are named: in the other case, as they are, into their own offspring, and as others are
    (40, 12, 'mkdir 2 one/mkdir 16 two/create 17 f/rename 17 F G/rename 17 g g/move 17 g 2/move 2 one 17/move 16 two 2/move 2 one 17/'
             'rename 2 g TWO/move 2 g 16/rename 16 G a_longer_name_than_before'),
    # items that are set, locked, and found by their IDs, each also where it can't be
    (40, 15, f'create 2 f/mkdir 2 d/setfinfo 2 f {SEVENS}/setfinfo 2 d {SEVENS}/setinfo 2 d 1 2 3 {SEVENS * 2}/lock 2 f/setinfo 2 f 1 2 3 {SEVENS * 2}/'
             f'unlock 2 f/setinfo 2 f 1 2 3 {SEVENS * 2}/newid 2 f/newid 2 f/newid 2 d/dropid 16/dropid 16/dropid 17'),
    # a catalog that is full behind the fourth file
    (4, 8, 'create 2 a/create 2 b/create 2 c/create 2 d/rename 2 a A/rename 2 A z/create 2 e/newid 2 b'),
    # a folder for which nodes are wanting, and a file for which they suffice
    (6, 2, 'mkdir 2 d/create 2 f'),
    # forks that get bytes and zeros around those that are asked for, lose them, and are gone; want of blocks
    (40, 14, f'create 2 f/write 2 f data 0 {"61" * 1600}/seteof 2 f data 2100/write 2 f data 1531 626364/write 2 f res 0 {"65" * 1531}/'
             f'seteof 2 f data 1535/write 2 f data 1535 {"66" * 400}/seteof 2 f data 8193/rename 2 f g/write 2 g res 1531 67/create 2 f/'
             f'write 2 f data 0 {"68" * 2000}/write 2 f data 1600 /delete 2 g'),
]
# A file with a fork, which is locked, renamed and deleted.
ONE_FILE = (4, 'lock 2 f/unlock 2 f/rename 2 f g/delete 2 g')
# The same, when it is written over the end of a block, cut, made longer, and renamed.
WRITTEN_FILE = (6, 'write 2 f data 1534 61626364/seteof 2 f data 1600/seteof 2 f data 2031/write 2 f data 2031 65/write 2 f res 0 66/rename 2 f g')


def calls_of(text: str) -> list[Call]:
    return [Call.of(*(field.replace('_longer_name_than_', ' longer name than ') for field in line.split(' '))) for line in text.split('/')]


def asking() -> list[Call]:
    """The calls that a viewer may make for the folders 1, 2, 16, 17 and 18."""
    calls = []
    for folder in (1, 2, 16, 17, 18):
        calls += [Call.of('dirinfo', folder), Call.of('list', folder), *(Call.of('indexed', folder, at) for at in range(5))]
        calls += [Call.of('info', folder, name) for name in NAMES]
        calls += [Call.of('read', folder, name, fork, 1530, 500) for name in 'fg' for fork in ('data', 'res')]
    return calls


class Trial:
    """An image, its changes, and what is asked."""

    def __init__(self, tool: Program, folder: Path, image: bytes, changes: list[Call], asked: list[Call]):
        self.tool, self.changes, self.asked, self.answers = tool, changes, asked, 0
        self.image, self.script = folder / 'image', folder / 'script'
        self.image.write_bytes(image)
        self.rows = self.volume_rows()

    def run(self, script: str) -> list[Answer]:
        self.script.write_text(script, 'latin-1')
        return read_answers(self.tool.text('run', self.image, self.script, '--now', NOW))

    def volume_rows(self) -> list[list[str]]:
        """What the volume answers before the changes and behind each of them."""
        script = script_of(self.asked) + ''.join(call.line() + script_of(self.asked) for call in self.changes)
        told, size = [it.told for it in self.run(script)], len(self.asked)
        return [told[at:at + size] for at in range(0, len(told), size + 1)]

    def is_followed(self, count: int, times: int) -> bool:
        """Lets a viewer ask, so many times as long as at first, beside a worker that makes the first changes. Whether its last answers are
        those behind all of them."""
        rounds = times * (max(ROUNDS, LINES // len(self.asked)) if count > 20 else ROUNDS)
        answers = self.run(script_of(self.changes[:count]) + script_of(self.asked * rounds, 'v1'))[count:]
        self.answers += len(answers)
        least = 0
        for number, answer in enumerate(answers):
            place = number % len(self.asked)
            at = next((it for it in range(least, count + 1) if self.rows[it][place] == answer.told), None)
            ensure(at is not None, f'behind {least} of {count} changes or more {self.asked[place]} is answered {answer.told!r}')
            least = at
        return [it.told for it in answers[-len(self.asked):]] == self.rows[count]

    def follow(self, count: int) -> None:
        ensure(any(self.is_followed(count, times) for times in range(1, RUNS + 1)), f'in {RUNS} runs no viewer has seen all of {count} changes')


def new_volume(tool: Program, folder: Path, blocks: int, nodes: int) -> bytes:
    path = folder / 'new'
    tool.text('new', path, 'D', blocks, nodes, 2)
    return path.read_bytes()


def many() -> list[Call]:
    """300 files, of which every other one is deleted."""
    return [Call.of('create', 2, f'f{it:03}') for it in range(1, 301)] + [Call.of('delete', 2, f'f{it:03}') for it in range(1, 300, 2)]


def trials(tool: Program):
    """Each list: its image, its changes, what is asked, and how many of the changes are made."""
    with tempfile.TemporaryDirectory() as name:
        folder = Path(name)
        for nodes, count, text in LISTS:
            calls = calls_of(text)
            ensure(len(calls) == count, f'{len(calls)} calls in place of {count}')
            yield new_volume(tool, folder, 64, nodes), calls, asking(), range(count + 1)
        one_file = gzip.decompress((ROOT / 'tests' / 'volumes' / 'small' / 'one-file.img.gz').read_bytes())
        for count, text in (ONE_FILE, WRITTEN_FILE):
            yield one_file, calls_of(text), asking(), range(count + 1)
        asked = [Call.of('indexed', 2, 150), Call.of('indexed', 2, 151), Call.of('dirinfo', 2), Call.of('info', 2, 'f299'), Call.of('info', 2, 'f300')]
        yield new_volume(tool, folder, 1600, 1000), many(), asked, range(50, 451, 50)


def tried(tool: Program, image: bytes, changes: list[Call], asked: list[Call], counts) -> int:
    """How many answers viewers got."""
    with tempfile.TemporaryDirectory() as name:
        trial = Trial(tool, Path(name), image, changes, asked)
        for count in counts:
            trial.follow(count)
        return trial.answers


def main() -> int:
    tool = Program('hfs_tool', built('hfs_tool'))
    try:
        jobs = list(trials(tool))
        with ThreadPoolExecutor(4) as pool:
            answers = sum(pool.map(lambda job: tried(tool, *job), jobs))
    except Difference as differs:
        print(f'viewers: {differs}')
        return 1
    print(f'{len(jobs)} lists, {sum(len(job[3]) for job in jobs)} beginnings of them, {answers} answers to viewers beside a worker: as the volume has them')
    return 0


if __name__ == '__main__':
    sys.exit(main())
