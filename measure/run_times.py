#!/usr/bin/env python3
"""How long calls take in `hfs_tool run`: of workers under the lock, and of viewers, whom rows answer.

measure/run_times.py calls [IMAGE]   SetFInfo, Create, Delete and CatMove by a worker, and saving;
                                     without IMAGE on a volume of 1,800 items that it makes, in 6 MB
measure/run_times.py rows [IMAGE]    look-ups, lists and children by place, by a viewer and by a
                                     worker; without IMAGE on one of 60,000 items
measure/run_times.py shared          calls of 1, 2, 4 and 8 workers; lists of 1, 2, 4 and 8 viewers,
                                     alone and next to a worker that writes

A script is run some times, and one without its lines as often: the middle of the first less the
middle of the second, and the best less the best, for each call. So it has what a call costs with its
line that is read and its answer that is printed, and nothing of what it takes to load, check and
share the volume. Of one worker or viewer it is processor time, of several the clock. The volume
needs free nodes in its catalog.
"""
import argparse
import os
import resource
import subprocess
import sys
import tempfile
import time
from dataclasses import dataclass
from pathlib import Path
from typing import Iterable, Optional

ROOT = Path(__file__).resolve().parents[1]
sys.path.insert(0, str(ROOT / 'tests'))

from driver.calls import Call, script_of  # noqa: E402
from driver.programs import built  # noqa: E402

RUNS = 7
ROOT_ID, FIRST_FREE = 2, 16
# How far one look-up is from the one before it, in items.
STEP = 7_919
LOOK_UPS = 60_000
# How many calls there are at least of what is measured.
ENOUGH = 10_000
# As many catalog nodes as a new volume may have.
MOST_NODES = 2_048


@dataclass(frozen=True)
class Item:
    """An item as `list` tells of it."""
    kind: str
    id: int
    parent: int
    name: str


@dataclass
class Runs:
    """The program on a volume, and a folder for the files that it reads and writes."""
    tool: Path
    folder: Path
    image: Path
    # Whether the clock is looked at, and not the processor time, which others disturb less.
    is_on_clock: bool = False

    def now(self) -> float:
        if self.is_on_clock:
            return time.perf_counter()
        spent = resource.getrusage(resource.RUSAGE_CHILDREN)
        return spent.ru_utime + spent.ru_stime

    def once(self, script: Path, *words) -> float:
        """How many seconds a run of a script takes."""
        begin = self.now()
        subprocess.run([self.tool, 'run', self.image, script, *words], stdout=subprocess.DEVNULL, check=True)
        return self.now() - begin

    def spent(self, text: str, *words) -> tuple[float, float]:
        """The middle and the best of some runs of a script."""
        script = self.folder / 'script'
        script.write_text(text, encoding='latin-1')
        times = sorted(self.once(script, *words) for _ in range(RUNS))
        return times[RUNS // 2], times[0]

    def report(self, what: str, text: str, count: int, beside: str = '') -> None:
        """Prints what a call takes of a script with so many beside those of another script, which
        it begins with."""
        self.ensure_done(text)
        without, most = self.spent(beside), self.spent(text)
        middle, best = ((a - b) / max(count, 1) * 1e6 for a, b in zip(most, without))
        print(f'{what}: {middle:.2f} µs each in the middle, {best:.2f} at best ({count})', flush=True)

    def ensure_done(self, text: str) -> None:
        """Ends the script where a call is refused."""
        script = self.folder / 'script'
        script.write_text(text, encoding='latin-1')
        told = subprocess.run([self.tool, 'run', self.image, script], stdout=subprocess.PIPE, check=True).stdout.decode('latin-1')
        refused = next((it for it in told.split('\n') if it and it[0] != '\t' and it.split('\t')[2] != '0'), None)
        if refused:
            raise SystemExit(f'a call is answered {refused}')

    def items(self) -> list[Item]:
        """All items but the root, folder by folder."""
        found, waiting = [], [ROOT_ID]
        while waiting:
            script = self.folder / 'script'
            script.write_text(script_of(Call.of('list', it) for it in waiting), encoding='ascii')
            told = subprocess.run([self.tool, 'run', self.image, script], stdout=subprocess.PIPE, check=True).stdout.decode('latin-1')
            fields = [line[1:].split(' ', 11) for line in told.split('\n') if line.startswith('\t')]
            level = [Item(it[0], int(it[1]), int(it[2]), it[11]) for it in fields]
            found += level
            waiting = [it.id for it in level if it.kind == 'd']
        return found


def files_in(folders: Iterable[int], count: int, word: str) -> list[Call]:
    return [Call.of(word, folder, f'new file {it}') for folder in folders for it in range(count)]


def measure_calls(runs: Runs) -> None:
    """Measures changes of one worker, and saving."""
    items = runs.items()
    folders = [it.id for it in items if it.kind == 'd']
    print(f'{len(items)} items in {runs.image.stat().st_size / 1e6:.1f} MB')
    settings = [Call.of('setfinfo', it.parent, it.name, '07' * 16) for it in items if it.kind == 'f']
    settings *= 1 + ENOUGH // len(settings)
    both = [call for word in ('create', 'delete') for call in files_in(folders, 5, word)]
    both *= 1 + ENOUGH // len(both)
    runs.report('SetFInfo', script_of(settings), len(settings))
    runs.report('Create and Delete, the mean of both', script_of(both), len(both))
    runs.report('SetFInfo behind these', script_of(both + settings), len(settings), script_of(both))
    measure_moves(runs, max(it.id for it in items) + 1)
    script = runs.folder / 'nothing'
    script.write_text('')
    saved = min(runs.once(script, '--out', runs.folder / 'saved') for _ in range(RUNS)) - min(runs.once(script) for _ in range(RUNS))
    print(f'saved, beside a run that does not: {saved * 1e3:.1f} ms')


def measure_moves(runs: Runs, next_id: int, rounds: int = ENOUGH // 2) -> None:
    """Measures moves of a folder into one of the root, into one 100 deep and one 200 deep, and
    back."""
    chain = [Call.of('mkdir', ROOT_ID if it == 0 else next_id + it - 1, 'deep') for it in range(200)]
    chain.append(Call.of('mkdir', ROOT_ID, 'moving'))
    for depth in (1, 100, 200):
        into = next_id + depth - 1
        moves = [Call.of('move', ROOT_ID, 'moving', into), Call.of('move', into, 'moving', ROOT_ID)] * rounds
        runs.report(f'CatMove into a folder {depth} deep, and back', script_of(chain + moves), len(moves), script_of(chain))


def measure_rows(runs: Runs) -> None:
    """Measures reading calls of a viewer and of a worker."""
    items = runs.items()
    folders = [ROOT_ID, *(it.id for it in items if it.kind == 'd')]
    print(f'{len(items)} items in {runs.image.stat().st_size / 1e6:.1f} MB')
    near, far = ([Call.of('info', it.parent, it.name) for it in (items[k * step % len(items)] for k in range(LOOK_UPS))] for step in (1, STEP))
    lists = [Call.of('list', it) for it in folders]
    last = [it for it in items if it.parent == items[-1].parent]
    indexed = [Call.of('indexed', items[-1].parent, it + 1) for it in range(len(last))] * (1 + ENOUGH // len(last))
    for who, name in (('v1', 'a viewer, of rows'), ('1', 'a worker, of the volume')):
        print(name)
        runs.report('  look-up by name', script_of(far, who), len(far))
        runs.report('  look-up by name, one item after the other', script_of(near, who), len(near))
        runs.report('  List, an item', script_of(lists, who), len(items))
        runs.report(f'  GetIndexed in a folder of {len(last)}', script_of(indexed, who), len(indexed))


def measure_shared(runs: Runs, calls: int = 16_000, lists: int = 400) -> None:
    """Measures workers and viewers side by side."""
    items = runs.items()
    files = [it for it in items if it.kind == 'f']
    folders = sorted({it.parent for it in files})
    for workers in (1, 2, 4, 8):
        lines = [Call.of('lock' if it % 2 == 0 else 'unlock', files[it % len(files)].parent, files[it % len(files)].name) for it in range(calls)]
        text = ''.join(script_of(lines[who - 1::workers], who) for who in range(1, workers + 1))
        runs.report(f'a call through the lock, {workers} workers', text, calls, f'{workers}\tdirinfo\t2\n')
    writing = script_of(Call.of('lock', it.parent, it.name) for it in files * 3)
    for viewers in (1, 2, 4, 8):
        asked = [Call.of('list', folders[it % len(folders)]) for it in range(lists)]
        count = viewers * lists * len(files) // len(folders)
        text = ''.join(script_of(asked, f'v{who}') for who in range(1, viewers + 1))
        runs.report(f'an item of the lists of {viewers} viewers', text, count, f'v{viewers}\tdirinfo\t2\n')
        runs.report(f'an item of the lists of {viewers} viewers beside a worker', writing + text, count, writing + f'v{viewers}\tdirinfo\t2\n')


def made_volume(tool: Path, folder: Path, folders: int, files: int) -> Path:
    """A new volume of 6 MB with so many folders in its root, each with so many files, and room for
    more."""
    image, script = folder / 'image', folder / 'script'
    subprocess.run([tool, 'new', image, 'Many', '12288', str(MOST_NODES), '4'], check=True)
    calls = [Call.of('mkdir', ROOT_ID, f'Folder {it:03}') for it in range(folders)]
    calls += [Call.of('create', FIRST_FREE + it, f'Letter of day {k:03}') for it in range(folders) for k in range(files)]
    script.write_text(script_of(calls), encoding='ascii')
    subprocess.run([tool, 'run', image, script, '--out', image], stdout=subprocess.DEVNULL, check=True)
    return image


def laid_volume(folder: Path, items: int, megabytes: int) -> Path:
    """A volume of so many items, with no free node."""
    image = folder / 'image'
    subprocess.run([sys.executable, ROOT / 'tests' / 'slow_volumes.py', 'plain', str(items), str(megabytes), image], stdout=subprocess.DEVNULL, check=True)
    return image


def measured_calls(tool: Path, folder: Path, image: Optional[Path]) -> None:
    measure_calls(Runs(tool, folder, image or made_volume(tool, folder, 60, 29)))


def measured_rows(tool: Path, folder: Path, image: Optional[Path]) -> None:
    measure_rows(Runs(tool, folder, image or laid_volume(folder, 60_000, 30)))


def measured_shared(tool: Path, folder: Path, image: Optional[Path]) -> None:
    measure_shared(Runs(tool, folder, image or made_volume(tool, folder, 20, 150), True))


MEASURED = {'calls': measured_calls, 'rows': measured_rows, 'shared': measured_shared}


def main() -> None:
    parser = argparse.ArgumentParser(description=__doc__.split('\n')[0])
    parser.add_argument('what', choices=MEASURED)
    parser.add_argument('image', type=Path, nargs='?')
    words = parser.parse_args()
    tool = Path(os.environ.get('HFS_TOOL') or built('hfs_tool'))
    with tempfile.TemporaryDirectory() as work:
        MEASURED[words.what](tool, Path(work), words.image)


if __name__ == '__main__':
    main()
