#!/usr/bin/env python3
"""Hostile volumes, by each build of hfs_tool next to hfs_plain.

tests/hostile.py [--values N] [--step N] [--whole] [--turn N] [--kept FOLDER]

Tried are small volumes with each byte of what describes them set to other values, or cut to
each length; a catalog as deep as one may be; folders in a ring; index keys that are lower than they
need be, at each level; a file in 60,000 extents.

Each word ends, by no signal and within its processor time; `check`, `ls`, `cat` and `run` print the
same fault; and where `check` says sound, each call of one script of all calls is answered as
hfs_plain answers it, and what is saved then is sound.

Of the four values of each byte (0, $7F, $FF and one more than it is) N are tried, from another one
on at each byte: in the turns 0 to 3 each byte gets each of them. Of bytes among zeros, which are
mostly in nodes and blocks that nothing uses, each eighth is tried. Of the lengths those near each
block are tried and each Nth one between. With --whole all bytes, values and lengths are.

It prints how many images and calls there were. At a difference it ends with 1 and leaves
the image and the scripts of it.
"""
import argparse
import time
from dataclasses import dataclass
from functools import lru_cache
from pathlib import Path
from typing import Iterator, Optional

import hostile_images
from driver.calls import Call, script_of
from driver.disk import Bench, Disk, opened_bench
from driver.image import BLOCK
from driver.programs import found_programs
from driver.wanted import ensure
from hostile_images import ROOT
from many_images import NOW, Calls, Job, attempt_by_pool

# Where what describes a small volume begins and ends: the master directory block, the bitmap, two
# nodes of the extents tree and six of the catalog, in blocks 2 to 11.
FIRST, END = 2 * BLOCK, 12 * BLOCK
VALUES = 4
# Of the bytes of pieces of that length that hold nothing each so manieth is tried.
PIECE, FREE_STEP = 32, 8
# IDs of folders and files in the volumes that are changed, and IDs that no item has.
IDS = (0, ROOT, 16, 17, 99)
NAMES = ('f', 'd', 'D')
FINDER = '0123456789abcdef' * 4


def reading_calls() -> Iterator[Call]:
    """Each call that reads, of each ID and name."""
    for number in IDS:
        yield from (Call.of('dirinfo', number), Call.of('indexed', number, 1), Call.of('list', number), Call.of('resolve', number))
        for name in NAMES:
            yield Call.of('info', number, name)
            for fork in ('data', 'res'):
                yield Call.of('read', number, name, fork, 0, 65_536)
    yield Call.of('read', 16, 'f', 'data', 1_000, 800)


def changing_calls() -> Iterator[Call]:
    """Each call that changes, of items that come with them and of those that are there."""
    for number, name in ((ROOT, 'n'), (16, 'f'), (ROOT, 'f'), (ROOT, 'd')):
        if name == 'n':
            yield Call.of('create', number, name)
        yield Call.of('setfinfo', number, name, FINDER[:32])
        yield Call.of('setinfo', number, name, 5, 6, 7, FINDER)
        yield from (Call.of(word, number, name) for word in ('lock', 'delete', 'unlock', 'newid', 'info'))
        yield Call.of('rename', number, name, name.upper())
        yield Call.of('rename', number, name, name * 9)
        yield Call.of('move', number, name * 9, 16 if number == ROOT else ROOT)
    yield from (Call.of('mkdir', ROOT, 'new folder'), Call.of('list', ROOT), Call.of('list', 16))
    yield from (Call.of('dropid', number) for number in IDS)
    for number in (ROOT, 16):
        yield from (Call.of('delete', number, name) for name in ('n' * 9, 'f' * 9, 'd' * 9, 'f', 'd', 'n', 'new folder'))
    yield from (Call.of('list', ROOT), Call.of('list', 16))


CALLS = Calls(tuple([*reading_calls(), *changing_calls()]), tuple(it for it in reading_calls() if it.word != 'resolve'))


# ---- one byte, one length

@dataclass(frozen=True)
class Byte:
    """A volume with another byte in a place."""
    volume: str
    place: int
    value: int

    def content(self) -> bytes:
        content = bytearray(base_of(self.volume))
        content[self.place] = self.value
        return bytes(content)

    def wanted(self) -> Optional[str]:
        return None

    def base(self) -> Optional[bytes]:
        return base_of(self.volume)


@dataclass(frozen=True)
class Length:
    """A new volume cut to a length: it has 64 blocks, and its allocation blocks end before the last
    two."""
    length: int

    def content(self) -> bytes:
        return base_of('new')[:self.length]

    def wanted(self) -> Optional[str]:
        if self.length < 3 * BLOCK:
            return 'image too short\n'
        return 'bad master directory block M4 (-60)\n' if self.length < 62 * BLOCK else ''

    def base(self) -> Optional[bytes]:
        return None


BASES = {'new': hostile_images.new_volume, 'cut': hostile_images.cut_file, 'two levels': hostile_images.two_levels}


@lru_cache(None)
def base_of(volume: str) -> bytes:
    return bytes(BASES[volume]())


def places_of(content: bytes, step: int) -> Iterator[int]:
    """The bytes of what describes a volume; of a piece that holds nothing each so manieth."""
    for piece in range(FIRST, END, PIECE):
        yield from range(piece, piece + PIECE, 1 if any(content[piece:piece + PIECE]) else step)


def byte_jobs(volume: str, values: int, turn: int, step: int = FREE_STEP) -> Iterator[Byte]:
    """Other values for each byte of what describes a volume."""
    content = base_of(volume)
    for place in places_of(content, step):
        old = content[place]
        four = (0, 0x7F, 0xFF, (old + 1) % 256)
        chosen = {four[(place + turn + it) % VALUES] for it in range(values)} - {old}
        yield from (Byte(volume, place, value) for value in sorted(chosen or {(old + 1) % 256}))


def length_jobs(step: int, turn: int) -> Iterator[Length]:
    """The lengths near each block, and each of so many between them."""
    whole = len(base_of('new'))
    near = {block + it for block in range(0, whole + 1, BLOCK) for it in (-1, 0, 1)}
    yield from (Length(it) for it in sorted((near | set(range(turn % step, whole + 1, step))) & set(range(whole + 1))))


# ---- single volumes

def ensure_refused(bench: Bench, content: bytes, fault: str, what: str) -> None:
    """Each build refuses an image for this fault."""
    image, calls = bench.lay('image', content), bench.lay('script', script_of(CALLS.every))
    for tool in bench.programs.tools:
        for words in (('check', image), ('run', image, calls), ('ls', image)):
            told = tool.run(*words)
            wanted = f'refused {fault}\n' if words[0] == 'check' else f'{fault}\n'
            ensure((told.status, told.text) == (2, wanted), f'{tool.name} {words[0]} of {what}: {told}')
            bench.counts.runs += 1


def try_deep(bench: Bench) -> None:
    """A catalog of 16 levels is taken, and one of 17 is refused."""
    Disk(bench, bytes(hostile_images.deep(16))).make(CALLS.every, NOW)
    ensure_refused(bench, bytes(hostile_images.deep(17)), 'check C4 at 0', 'a catalog of 17 levels')


def try_ring(bench: Bench) -> None:
    """A ring is refused at the first record of its folders, behind those of the volume's root and
    the first thread."""
    ensure_refused(bench, bytes(hostile_images.ring()), 'check C8 at 3', 'a ring of folders')


def try_lowered(bench: Bench, files: int = 300) -> None:
    """In a catalog of four levels or more with lowered index keys files go; and files come between
    the others, and then all go. Each tenth time the image is saved and mounted again. The files are
    made with names that fall, which leaves nodes half full."""
    nodes = 600
    disk = Disk(bench, bench.new_volume(1_024, nodes))
    names = [f'{it:04}' for it in range(2 * files)]
    disk.make([Call.of('create', ROOT, it) for it in reversed(names[::2])], NOW)
    content = bytearray(disk.image.content)
    height = hostile_images.lower_index_keys(content, nodes)
    ensure(height > 3, f'{height} levels')
    for rounds in ((('delete', names[::2]), ), (('create', names[1::2]), ('delete', names))):
        disk = Disk(bench, bytes(content))
        for word, chosen in rounds:
            answers = disk.make_in_parts([Call.of(word, ROOT, it) for it in chosen], 10, NOW)
            ensure(all(it.is_done for it in answers), f'a {word} is refused')


def try_extents(bench: Bench) -> None:
    """A file in 60,000 extents is read at its end and deleted, and its blocks are free then. Where
    the extents lie over each other, their block is named."""
    disk = Disk(bench, bytes(hostile_images.many_extents(True)))
    calls = [Call.of('read', ROOT, 'f', 'data', 59_999 * BLOCK, 4), Call.of('delete', ROOT, 'f')]
    told = [it.told for it in disk.make(calls, NOW)]
    ensure(told == ['0\tbytes 01020300', '0\t-'], f'the file is read and deleted so: {told}')
    ensure(disk.image.free_blocks == 64_510, f'{disk.image.free_blocks} free blocks')
    ensure_refused(bench, bytes(hostile_images.many_extents(False)), 'check C12 at 65513', 'a block of many owners')


SINGLE = {'a catalog of 16 levels': try_deep, 'a ring of nine folders': try_ring,
          'a catalog with lower index keys at each level': try_lowered,
          'a file in 60,000 extents, and with these over each other': try_extents}


def jobs_of(words: argparse.Namespace) -> list[Job]:
    values, step, free_step = (VALUES, 1, 1) if words.whole else (words.values, words.step, FREE_STEP)
    jobs: list[Job] = [it for volume in ('cut', 'two levels') for it in byte_jobs(volume, values, words.turn, free_step)]
    return jobs + list(length_jobs(step, words.turn))


def main() -> None:
    parser = argparse.ArgumentParser(description=__doc__.split('\n')[0])
    parser.add_argument('--values', type=int, default=2, help='how many of four values each byte gets (2)')
    parser.add_argument('--step', type=int, default=64, help='each how manieth length is tried beside those near blocks (64)')
    parser.add_argument('--whole', action='store_true', help='all values of each byte, and all lengths')
    parser.add_argument('--turn', type=int, default=0, help='from which of the four values on (0)')
    parser.add_argument('--kept', type=Path, default=Path('hostile.kept'), help='the folder in which the files of a difference are left')
    words = parser.parse_args()
    started = time.monotonic()
    with opened_bench(found_programs(), words.kept) as bench:
        counts = attempt_by_pool(bench, CALLS, jobs_of(words))
        for attempt in SINGLE.values():
            attempt(bench)
    print(f'hostile volumes: {counts.images} with another byte or cut, {counts.taken} of them taken, with {counts.answers} answers, '
          f'{counts.compared} of them compared with those of hfs_plain, and {counts.saved} saved images checked; {counts.runs} runs of programs '
          f'in {counts.seconds:.0f} s of processor time; {"; ".join(SINGLE)}: {bench.counts}; all in {time.monotonic() - started:.0f} s')


if __name__ == '__main__':
    main()
