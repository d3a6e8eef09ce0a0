#!/usr/bin/env python3
"""Makes random lists of calls on volumes, by hfs_tool as each compiler builds it and by hfs_plain: on new volumes with catalogs of
few nodes, some of them locked, and on volumes of other programs. Each code of each call is answered then. And 200 folders, each in
the one before it, are moved about in the same way. The image is saved and mounted again after every few calls. At the end it prints how
many calls there were, or the first that is answered differently.

tests/call_runs.py [--lists N] [--calls N] [--seed WORD] [--kept FOLDER]
"""
import argparse
import random
import sys
import time
from pathlib import Path

from driver.calls import Call
from driver.disk import Bench, Disk, finished, opened_bench
from driver.drawing import ROOT_ID, Drawing, parts
from driver.image import MDB
from driver.programs import REAL_VOLUMES, found_programs
from driver.wanted import ensure

# How many nodes the catalogs of the new volumes have.
NODES = (4, 5, 6, 7, 8, 10, 13, 17, 24, 40)
# The sound volumes of other programs.
REAL = ('hfsutils-800k', 'hfsutils-1440k-names', 'genisoimage-locked')
# After how many calls the image is saved and mounted again.
SIZES = (1, 10, 50, 50, 100)
LOCKS = {0: '0180', 1: '8100', 2: '8180'}
# The codes of each call, as docs/CALLS.md lists them, but for -33, for which a folder must have 65,535 children.
LOCKED = '-44 -46'
CODES = {
    'dirinfo': '0 -120', 'info': '0 -37 -120 -43', 'indexed': '0 -50 -120 -43', 'list': '0 -120',
    'read': '0 -50 -37 -120 -43 -39', 'create': f'0 {LOCKED} -37 -120 -48 -34', 'mkdir': f'0 {LOCKED} -37 -120 -48 -34',
    'delete': f'0 {LOCKED} -37 -120 -43 -47 -45', 'rename': f'0 {LOCKED} -37 -120 -43 -45 -48 -34',
    'move': f'0 {LOCKED} -37 -120 -43 -122 -48 -34', 'setfinfo': f'0 {LOCKED} -37 -120 -43 -45',
    'setinfo': f'0 {LOCKED} -37 -120 -43 -45', 'lock': f'0 {LOCKED} -37 -120 -43', 'unlock': f'0 {LOCKED} -37 -120 -43',
    'newid': f'0 {LOCKED} -37 -120 -43 -1302 -1301 -34', 'dropid': f'0 {LOCKED} -1302 -1300', 'resolve': '0 -1302 -1300',
    'seteof': f'0 -50 {LOCKED} -37 -120 -43 -45 -34', 'write': f'0 -50 {LOCKED} -37 -120 -43 -45 -39 -34',
}
LISTED = {(word, code) for word, row in CODES.items() for code in row.split()}
# How many lists are drawn for each number of nodes, and how many calls a list has. With fewer not each code is answered.
LISTS, CALLS = 20, 200
# How many folders lie in one another, and the ID of the first.
FOLDERS, FIRST = 200, 16
DUPLICATE, BAD_MOVE = '-48\t-', '-122\t-'

Codes = set[tuple[str, str]]


def unlocked(content: bytes) -> bytes:
    """The image without its locks."""
    attributes = int.from_bytes(content[MDB + 10:MDB + 12], 'big') & 0x7F7F
    return content[:MDB + 10] + attributes.to_bytes(2, 'big') + content[MDB + 12:]


def with_attributes(content: bytes, digits: str) -> bytes:
    return content[:MDB + 10] + bytes.fromhex(digits) + content[MDB + 12:]


def draw_list(disk: Disk, draw: random.Random, count: int, codes: Codes) -> None:
    """Makes a drawn list of calls, and notes their codes."""
    drawing = Drawing(draw, disk.state)
    for turn, size in enumerate(parts(draw, count, SIZES)):
        calls = drawing.calls(size)
        answers = disk.make(calls, draw.choice((turn, draw.randrange(1 << 32))))
        codes.update((call.word, answer.code) for call, answer in zip(calls, answers))
        drawing.tell(disk.state)
    disk.bench.counts.lists += 1


def draw_on_new(bench: Bench, given, codes: Codes) -> None:
    """Makes the drawn lists on new volumes."""
    for nodes in NODES:
        content = bench.new_volume(64, nodes)
        for number in range(given.lists):
            draw = random.Random(f'{given.seed} {nodes} {number}')
            locks = LOCKS.get(draw.randrange(24))
            disk = Disk(bench, with_attributes(content, locks) if locks else content)
            draw_list(disk, draw, given.calls, codes)
        print(f'{nodes} nodes: {given.lists} lists of {given.calls} calls, answered alike', flush=True)


def draw_on_real(bench: Bench, given, codes: Codes) -> None:
    """Makes drawn lists on the volumes of other programs."""
    for name in REAL:
        content = (REAL_VOLUMES / f'{name}.img').read_bytes()
        for image in dict.fromkeys((content, unlocked(content))):
            draw_list(Disk(bench, image), random.Random(f'{given.seed} {name}'), given.calls, codes)
        print(f'{name}: a list of {given.calls} calls, answered alike', flush=True)


def ensure_listed(codes: Codes) -> None:
    """A difference where a call was answered a code that it has not."""
    ensure(codes <= LISTED, f'answered, and not listed: {sorted(codes - LISTED)}')


def ensure_all(codes: Codes) -> None:
    """A difference where a call was never answered one of its codes."""
    ensure(codes >= LISTED, f'never answered: {sorted(LISTED - codes)}')
    print('each code of each call was answered', flush=True)


def name_of(number: int) -> str:
    return f'{number:03}'


def folder_of(number: int) -> int:
    """The ID of a folder; the root's for the one before the first."""
    return FIRST + number if number >= 0 else ROOT_ID


def moving(number: int, folder: int, new: int) -> Call:
    return Call.of('move', folder, name_of(number), new)


def make_all(disk: Disk, calls: list[Call], told: list[str], now: int) -> None:
    """Makes calls that are answered so."""
    answers = [answer.told for answer in disk.make_in_parts(calls, len(calls) // 2 + 1, now)]
    ensure(answers == told, f'at the moment {now} another answer is given')


def move_about(bench: Bench) -> None:
    """Makes folders, each in the one before it, and moves them about, as the ID and the code of each call say."""
    every = range(FOLDERS)
    disk = Disk(bench, bench.new_volume(512, 400, 1))
    make_all(disk, [Call.of('mkdir', folder_of(it - 1), name_of(it)) for it in every], [f'0\tid {folder_of(it)}' for it in every], 1)
    # none goes into the last one, which lies in each of them
    make_all(disk, [moving(it, folder_of(it - 1), folder_of(FOLDERS - 1)) for it in every], [BAD_MOVE] * FOLDERS, 2)
    # each goes into the root, with all that lie in it; the first is there
    make_all(disk, [moving(it, folder_of(it - 1), ROOT_ID) for it in every], [DUPLICATE] + ['0\t-'] * (FOLDERS - 1), 3)
    # each but the last goes into the one behind it, and the last, in which all others are then, goes into none
    make_all(disk, [moving(it, ROOT_ID, folder_of(it + 1)) for it in every[:-1]], ['0\t-'] * (FOLDERS - 1), 4)
    make_all(disk, [moving(FOLDERS - 1, ROOT_ID, folder_of(it)) for it in every], [BAD_MOVE] * FOLDERS, 5)
    print(f'{FOLDERS} folders in one another moved about, answered alike', flush=True)
    bench.counts.lists += 1


def main() -> None:
    words = argparse.ArgumentParser(description='Makes drawn lists of calls.')
    words.add_argument('--lists', type=int, default=LISTS, help='how many lists are drawn for each number of nodes')
    words.add_argument('--calls', type=int, default=CALLS, help='how many calls a list has')
    words.add_argument('--seed', default='1', help='what the lists are drawn by')
    words.add_argument('--kept', type=Path, default=Path('call_runs.kept'), help='where the files of what differs are kept')
    given = words.parse_args()
    started, codes = time.monotonic(), set()
    with opened_bench(found_programs(), given.kept) as bench:
        draw_on_new(bench, given, codes)
        draw_on_real(bench, given, codes)
        ensure_listed(codes)
        if given.lists * given.calls >= LISTS * CALLS:
            ensure_all(codes)
        move_about(bench)
        finished('drawn lists', bench, started)


if __name__ == '__main__':
    sys.exit(main())
