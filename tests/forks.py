#!/usr/bin/env python3
"""Calls that write forks, next to a second implementation of docs/CALLS.md in Python (driver/forks.py), which says of each call what it
answers, and of the volume after it which blocks each fork has, where its extents are, and what each byte of each block is. Random lists
of calls on volumes with scattered free blocks that have bytes, with allocation blocks of one to four blocks, and with files that have more
blocks than bytes: each call by itself, and all at once, by the image's path and from a pipe. What is saved is checked; hfsutils, if it is
installed, copies each file off it with the same bytes, and fsck.hfs finds nothing that it didn't find before. Then floppies that hfsutils left full of
gaps, and goes on with; volumes of other programs; several workers at once; a floppy in pieces; and two forks in 60,000 extents.

tests/forks.py [--lists N] [--calls N] [--seed WORD] [--kept FOLDER]
"""
import argparse
import os
import random
import re
import shutil
import subprocess
import sys
import tempfile
import time
from collections import Counter
from concurrent.futures import ThreadPoolExecutor
from dataclasses import dataclass
from pathlib import Path

from driver.calls import Call, read_answers, script_of
from driver.forks import FORKS, TOO_MANY, Forks
from driver.image import BLOCK, MDB, Image
from driver.keeping import ensure_kept
from driver.programs import REAL_VOLUMES, Program, Programs, found_programs
from driver.wanted import Difference, ensure
import slow_volumes

NAMES = ('a', 'b', 'c', 'D e', 'f')
CHECKED = ('files', 'folders', 'free')
WORDS = {'write': 12, 'seteof': 8, 'create': 4, 'delete': 1, 'read': 3, 'lock': 1, 'unlock': 2, 'mkdir': 1}
NOW = 3_000_000_000
# Sound volumes of other programs.
REAL = ('hfsutils-800k', 'hfsutils-1440k-names', 'genisoimage-locked')


@dataclass(frozen=True)
class Shape:
    """A new volume: blocks of 512 bytes, nodes of both trees, how many of them an allocation block has, and of how many free blocks one is marked."""
    blocks: int
    nodes: int
    extents_nodes: int
    factor: int
    marked: float


SHAPES = (Shape(120, 8, 4, 1, 0.5), Shape(200, 8, 6, 1, 0.1), Shape(400, 8, 4, 2, 0.4), Shape(64, 12, 2, 1, 0), Shape(900, 8, 8, 4, 0.5),
          Shape(500, 6, 3, 1, 0.6))


def put(content: bytearray, at: int, number: int, width: int) -> None:
    content[at:at + width] = number.to_bytes(width, 'big')


def in_larger_blocks(content: bytes, factor: int) -> bytes:
    """A new volume with allocation blocks of so many blocks in the place of one. Each tree's nodes are a multiple of that."""
    laid, old = bytearray(content), Image(content)
    owned = sum(int.from_bytes(content[MDB + at + 2:MDB + at + 4], 'big') for at in (134, 150)) // factor
    put(laid, MDB + 18, old.block_count // factor, 2)
    put(laid, MDB + 20, factor * BLOCK, 4)
    put(laid, MDB + 34, old.block_count // factor - owned, 2)
    for at in (134, 150):
        for place in (MDB + at, MDB + at + 2):
            put(laid, place, int.from_bytes(content[place:place + 2], 'big') // factor, 2)
    bits = (1 << owned) - 1 << 8 * BLOCK - owned
    start = old.bitmap_start * BLOCK
    laid[start:start + BLOCK] = bits.to_bytes(BLOCK, 'big')
    # the alternate, which fsck.hfs believes
    laid[-2 * BLOCK:-BLOCK] = laid[MDB:MDB + BLOCK]
    return bytes(laid)


def scattered(content: bytes, draw: random.Random, part: float) -> bytes:
    """A volume in which this part of the free blocks is marked, though nobody owns them, and the free ones have bytes."""
    laid, image, free = bytearray(content), Image(content), 0
    for block in range(image.block_count):
        place, bit = image.bitmap_start * BLOCK + block // 8, 0x80 >> block % 8
        if laid[place] & bit:
            continue
        if draw.random() < part:
            laid[place] |= bit
        else:
            free += 1
        at = (image.allocation_start + block * image.factor) * BLOCK
        laid[at:at + image.factor * BLOCK] = draw.randbytes(image.factor * BLOCK)
    put(laid, MDB + 34, free, 2)
    return bytes(laid)


def with_surplus(content: bytes, draw: random.Random) -> bytes:
    """A volume of which some forks have fewer bytes than their blocks have room for, as other programs leave them."""
    laid, image = bytearray(content), Image(content)
    for number in image.catalog.leaves():
        node, at = image.catalog.node(number), image.catalog.blocks[number] * BLOCK
        for first in node.places[:-1]:
            body = first + 1 + node.content[first] + (1 + node.content[first]) % 2
            if node.content[body] == 2 and draw.random() < 0.7:
                for place in (26, 36):
                    length = int.from_bytes(node.content[body + place:body + place + 4], 'big')
                    put(laid, at + body + place, draw.randrange(length + 1), 4)
    return bytes(laid)


class Table:
    """The programs, a folder of their own for the files of one list, and how many calls were made, and forks copied off by hfsutils."""

    def __init__(self, programs: Programs, folder: Path):
        self.programs, self.folder = programs, folder
        self.calls, self.copied = 0, 0

    def lay(self, name: str, content) -> Path:
        path = self.folder / name
        path.write_bytes(content if isinstance(content, bytes) else content.encode('latin-1'))
        return path

    def new_volume(self, shape: Shape, draw: random.Random) -> bytes:
        path = self.folder / 'new'
        self.programs.tool.text('new', path, '--now', NOW, '--', 'A disk', shape.blocks, shape.nodes, shape.extents_nodes)
        content = path.read_bytes()
        return scattered(in_larger_blocks(content, shape.factor) if shape.factor > 1 else content, draw, shape.marked)

    def run(self, program: Program, content: bytes, script: str, now: int, piped: bool = False) -> tuple[list[str], bytes]:
        """The answers to a script, and the image that is saved."""
        image, saved = self.lay('image', content), self.folder / 'saved'
        words = ['run', '/dev/stdin' if piped else image, self.lay('script', script), '--now', now, '--out', saved]
        ran = program.run(*words, given=content if piped else None)
        ensure(ran.status == 0, f'{program.name} ends with {ran.status}: {ran.text[:200]}')
        return ran.text, saved.read_bytes()

    def ensure_sound(self, content: bytes, forks: Forks) -> None:
        """A difference where `check` finds an image not sound, or counts otherwise."""
        lines = self.programs.tool.text('check', self.lay('checked', content)).split('\n')
        ensure(lines[0] == 'sound', f'check says {lines[0]}')
        report = dict(line.split(' ') for line in lines[1:-1])
        files = sum(bool(item.forks) for item in forks.items.values())
        wanted = {'files': files, 'folders': len(forks.items) - files - 1, 'free': forks.free}
        ensure({it: int(report[it]) for it in wanted} == wanted, f'check tells {report}, wanted {wanted}')


def drawn_call(draw: random.Random, forks: Forks) -> Call:
    """A call on one of a few names, most of which stand for a file."""
    word, name, folder = draw.choices(list(WORDS), list(WORDS.values()))[0], draw.choice(NAMES), 2 if draw.random() < 0.95 else draw.choice((9, 16))
    name = draw.choice((name, name, name, name.upper()))
    item = forks.items.get((folder, name.upper()))
    if word == 'mkdir':
        return Call.of(word, folder, draw.choice((name, 'folder', 'x:y')))
    if word in ('create', 'delete', 'lock', 'unlock'):
        return Call.of(word, folder, name)
    fork = draw.choice(('data', 'data', 'res'))
    length = item.forks[fork].length if item and item.forks else 0
    size = forks.size
    near = draw.choice((0, 1, length, length, length + 1, length + draw.randrange(3 * size), draw.randrange(length + 1), length // size * size,
                        draw.randrange(12) * size, draw.randrange(60) * size))
    if word == 'seteof':
        return Call.of(word, folder, name, fork, draw.choice((near, near, near, near, (1 << 31) - 1, 1 << 31)))
    if word == 'read':
        return Call.of(word, folder, name, fork, draw.choice((0, near)), draw.choice((length, 65_536, 3, 65_537)))
    count = draw.choice((0, 1, 5, size - 1, size, size + 1, draw.randrange(5 * size), draw.randrange(40 * size)))
    return Call.of(word, folder, name, fork, min(near, length) if draw.random() < 0.9 else near, draw.randbytes(min(count, 65_536)).hex())


def make_one_by_one(table: Table, content: bytes, now: int, calls) -> tuple[list[Call], list[str], bytes]:
    """Makes calls one by one, each of which is drawn when the volume before it is known. The calls, what they are answered, and the last image."""
    forks, made, told = Forks(content), [], []
    for draw in calls:
        image, call = Image(content), draw(forks)
        wanted = forks.make(call, image.extents_tree, now)
        text, saved = table.run(table.programs.tool, content, call.line(), now)
        answer = read_answers(text)[0]
        if call.word in ('create', 'mkdir') and answer.is_wanting:
            forks = Forks(content)
            wanted = answer.told
        made, told = made + [call], told + [answer.told]
        where = f'call {len(made)}, {str(call)[:200]}'
        ensure(answer.told == wanted, f'{where}: answered {answer.told[:200]!r}, wanted {wanted[:200]!r}')
        try:
            forks.ensure(Image(saved))
            ensure_kept(image, Image(saved), True)
        except Difference as difference:
            raise Difference(f'{where}: {difference}') from None
        content = saved
        table.calls += 1
    table.ensure_sound(content, forks)
    return made, told, content


def make_at_once(table: Table, content: bytes, now: int, calls: list[Call], told: list[str], wanted: bytes) -> None:
    """Makes the same calls by one script, by each program, by the image's path and out of a pipe: the same answers, and the same image."""
    for program in table.programs.tools:
        for piped in (False, True):
            text, saved = table.run(program, content, script_of(calls), now, piped)
            how = f'{program.name}, all at once, {"out of a pipe" if piped else "by path"}'
            ensure([it.told for it in read_answers(text)] == told, f'{how}: other answers')
            ensure(saved == wanted, f'{how}: another image')


def drawn_list(table: Table, shape: Shape, draw: random.Random, count: int) -> None:
    """Makes a drawn list of calls, each by itself, and then all at once, by path and by pipe."""
    content = table.new_volume(shape, draw)
    for half in range(2):
        if half:
            content = with_surplus(content, draw)
        table.ensure_sound(content, Forks(content))
        made, told, saved = make_one_by_one(table, content, 1000 + half, count // 2 * [lambda forks: drawn_call(draw, forks)])
        make_at_once(table, content, 1000 + half, made, told, saved)
        ensure_copied(table, saved, Forks(saved))
        ensure_no_new_faults(table, content, saved)
        content = saved


# Beside other programs.

def hfs(home: Path, *words) -> None:
    ran = subprocess.run([str(it) for it in words], env={'PATH': os.environ['PATH'], 'HOME': str(home)}, stdin=subprocess.DEVNULL,
                         stdout=subprocess.PIPE, stderr=subprocess.STDOUT, text=True)
    ensure(ran.returncode == 0, f'{" ".join(map(str, words))}: {ran.stdout}')


def ensure_copied(table: Table, content: bytes, forks: Forks, names=None) -> None:
    """A difference where hfsutils copies other bytes off a volume, of these files of the root or of all. It takes no volume of less than 800 KB, so
    that zeros are laid behind."""
    if not shutil.which('hcopy'):
        return
    copy = table.folder / 'copy'
    hfs(table.folder, 'hmount', table.lay('copied', content.ljust(819_200, b'\0')))
    for (folder, name), item in forks.items.items():
        if folder != 2 or not item.forks or names is not None and name not in names:
            continue
        data, resource = (forks.bytes_of(item.forks[it]) for it in FORKS)
        hfs(table.folder, 'hcopy', '-r', f':{name}', copy)
        ensure(copy.read_bytes() == data, f'hcopy -r of {name} has other bytes')
        hfs(table.folder, 'hcopy', '-m', f':{name}', copy)
        binary, at = copy.read_bytes(), 128 + -(-len(data) // 128) * 128
        ensure(binary[128:128 + len(data)] == data, f'hcopy -m of {name} has another data fork')
        ensure(binary[at:at + len(resource)] == resource, f'hcopy -m of {name} has another resource fork')
        table.copied += 2
    hfs(table.folder, 'humount')


def is_last_block_owned(content: bytes) -> bool:
    image = Image(content)
    return any(image.block_count - 1 in blocks for blocks in image.file_blocks.values())


def faults_of(table: Table, content: bytes) -> Counter:
    """What fsck.hfs finds wrong with an image. Of the nodes that hfsutils gave back as they were it names the first alone."""
    words = ['fsck.hfs', '-fn', table.lay('looked', content)]
    told = subprocess.run(words, stdin=subprocess.DEVNULL, stdout=subprocess.PIPE, stderr=subprocess.STDOUT).stdout.decode('latin-1')
    ensure('** Checking volume information.' in told, f'fsck.hfs ends early: {told[-200:]}')
    lines = [it for it in told.split('\n') if it[:1] == ' ' and 'Executing' not in it and 'The volume name' not in it]
    return Counter(re.sub('^( *Unused node is not erased).*', r'\1', it) for it in lines)


def ensure_no_new_faults(table: Table, before: bytes, after: bytes) -> None:
    """A difference where fsck.hfs finds more wrong with an image than with the one before it. A fork that has the volume's last block is wrong to
    it, also where hfsutils alone wrote it, and then its blocks are nobody's: of such volumes that is left out."""
    if not shutil.which('fsck.hfs'):
        return
    came = (faults_of(table, after) - faults_of(table, before)).elements()
    if is_last_block_owned(before) or is_last_block_owned(after):
        came = (it for it in came if not re.match(' *(Invalid extent entry|Incorrect block count for file|Volume bitmap needs minor repair)', it))
    came = list(came)
    ensure(not came, f'fsck.hfs finds what it did not before: {came[:3]}')


def floppy_in_gaps(table: Table, draw: random.Random, count: int) -> bytes:
    """A floppy that hfsutils filled with so many files of one block each, of which it deleted every other, and one that takes what is left."""
    path, home = table.lay('floppy', bytes(819_200)), table.folder
    hfs(home, 'hformat', '-l', 'In gaps', path)
    sources = [table.lay(f'n{it}', draw.randbytes(BLOCK)) for it in range(count)]
    hfs(home, 'hmount', path)
    hfs(home, 'hcopy', '-r', *sources, ':')
    hfs(home, 'humount')
    left = Image(path.read_bytes()).free_blocks * BLOCK
    hfs(home, 'hmount', path)
    hfs(home, 'hcopy', '-r', table.lay('large', draw.randbytes(left)), ':')
    hfs(home, 'hdel', *(f':{it.name}' for it in sources[::2]))
    hfs(home, 'humount')
    return path.read_bytes()


def call_in_gaps(draw: random.Random, forks: Forks) -> Call:
    """A call on one of four files that makes its fork some blocks longer, or sometimes writes over it or cuts it."""
    name, fork, size = draw.choice(('a', 'b', 'n1', 'n3')), draw.choice(FORKS), forks.size
    item = forks.items.get((2, name.upper()))
    if not item:
        return Call.of('create', 2, name)
    length = item.forks[fork].length
    kind = draw.random()
    if kind < 0.6:
        return Call.of('write', 2, name, fork, length, draw.randbytes(draw.randrange(8 * size)).hex())
    if kind < 0.75:
        return Call.of('seteof', 2, name, fork, length + draw.randrange(8 * size))
    if kind < 0.95:
        return Call.of('write', 2, name, fork, draw.randrange(length + 1), draw.randbytes(draw.randrange(3 * size)).hex())
    return Call.of('seteof', 2, name, fork, draw.randrange(length + 1))


def go_on(table: Table, content: bytes, draw: random.Random) -> None:
    """Has hfsutils delete a file that calls wrote, and copy two others onto the volume: all others keep their bytes, and `check` finds it sound."""
    path, home, old = table.lay('gone on', content), table.folder, Forks(content)
    sources = [table.lay(f'new {it}', draw.randbytes(1 + draw.randrange(9000))) for it in range(2)]
    hfs(home, 'hmount', path)
    hfs(home, 'hdel', ':a')
    hfs(home, 'hcopy', '-r', *sources, ':')
    hfs(home, 'humount')
    now = Forks(path.read_bytes())
    table.ensure_sound(path.read_bytes(), now)
    for place, item in old.items.items():
        for fork in item.forks if place != (2, 'A') else ():
            ensure(now.bytes_of(now.items[place].forks[fork]) == old.bytes_of(item.forks[fork]), f'hfsutils leaves {place} {fork} with other bytes')
    for source in sources:
        found = now.items[2, source.name.upper()].forks['data']
        ensure(now.bytes_of(found) == source.read_bytes(), f'hfsutils lays {source.name} otherwise')


def in_gaps(table: Table, draw: random.Random, files: int, count: int) -> None:
    """A floppy of hfsutils with single free blocks, on which files are written that take them, so that records of the extents tree come and go."""
    if not shutil.which('hformat'):
        return
    content = floppy_in_gaps(table, draw, files)
    made, told, saved = make_one_by_one(table, content, 7, count * [lambda forks: call_in_gaps(draw, forks)])
    ensure(Image(saved).extents_tree.records > 30, 'few records of extents came')
    make_at_once(table, content, 7, made, told, saved)
    ensure_copied(table, saved, Forks(saved), {'A', 'B', 'LARGE', *(f'N{it}' for it in range(40))})
    ensure_no_new_faults(table, content, saved)
    go_on(table, saved, draw)


def on_real_volume(table: Table, path: Path, draw: random.Random, count: int) -> None:
    """A volume of another program, whose forks are written and given other lengths, and files that come to it."""
    content = path.read_bytes()
    places = [it for it, item in Forks(content).items.items() if item.forks]

    def drawn(forks: Forks) -> Call:
        """A call on a file that was there, or that comes to the root."""
        folder, name = draw.choice(places + 9 * [(2, 'of this script')])
        item, fork = forks.items.get((folder, name.upper())), draw.choice(FORKS)
        if not item:
            return Call.of('create', folder, name)
        if item.locked and draw.random() < 0.7:
            return Call.of('unlock', folder, name)
        length = item.forks[fork].length
        if draw.random() < 0.5:
            return Call.of('seteof', folder, name, fork, draw.randrange(2 * length + 3000))
        return Call.of('write', folder, name, fork, draw.randrange(length + 1), draw.randbytes(draw.randrange(5000)).hex())

    made, told, saved = make_one_by_one(table, content, 9, count * [drawn])
    make_at_once(table, content, 9, made, told, saved)
    ensure_copied(table, saved, Forks(saved))
    ensure_no_new_faults(table, content, saved)


# Several workers, each with a file of its own.

def draw_workers(table: Table, draw: random.Random, workers: int, count: int) -> None:
    """Workers write forks at once, beside two viewers. Each is answered as if it were alone, and each fork gets its bytes."""
    content, tool = table.new_volume(Shape(6000, 40, 60, 1, 0.2), draw), table.programs.tool
    text, content = table.run(tool, content, script_of(Call.of('create', 2, f'w{it}') for it in range(1, workers + 1)), 1)
    alone, parts = Forks(content), {}
    tree = Image(content).extents_tree
    told = {}
    for worker in range(1, workers + 1):
        parts[worker], told[worker] = [], []
        for _ in range(count):
            fork, length = draw.choice(FORKS), draw.randrange(9000)
            had = alone.items[2, f'W{worker}'].forks[fork].length
            at = draw.randrange(had + 1)
            call = draw.choice((Call.of('seteof', 2, f'w{worker}', fork, length), Call.of('read', 2, f'w{worker}', fork, at, 2000),
                                Call.of('write', 2, f'w{worker}', fork, at, draw.randbytes(draw.randrange(3000)).hex())))
            parts[worker].append(call)
            told[worker].append(alone.make(call, tree, 2))
    lines = [call.line(worker) for worker, calls in parts.items() for call in calls]
    order = [worker for worker, calls in parts.items() for _ in calls]
    draw.shuffle(order)
    following = {worker: iter(calls) for worker, calls in parts.items()}
    views = [Call.of('read', 2, f'w{1 + it % workers}', FORKS[it % 2], 0, 4000).line(f'v{1 + it % 2}') for it in range(len(lines))]
    script = ''.join(next(following[worker]).line(worker) + view for worker, view in zip(order, views))
    text, saved = table.run(tool, content, script, 2)
    for worker in parts:
        found = [it.told for it in read_answers(text) if it.who == str(worker)]
        ensure(found == told[worker], f'worker {worker} is answered otherwise than alone')
    forks = Forks(saved)
    table.ensure_sound(saved, forks)
    for place, item in alone.items.items():
        for name, fork in item.forks.items():
            ensure(forks.bytes_of(forks.items[place].forks[name]) == alone.bytes_of(fork), f'{place} {name} has other bytes')
    ensure_copied(table, saved, forks)
    table.calls += len(lines)


# Forks in many extents.

def one_by_one(content: bytes, odd: int) -> bytes:
    """The volume with every other of the blocks that no tree or file has free, and the others marked."""
    laid, image = bytearray(content), Image(content)
    owned = {it for blocks in image.file_blocks.values() for it in blocks}
    owned |= {(it - image.allocation_start) // image.factor for tree in (image.extents_tree, image.catalog) for it in tree.blocks}
    bits = bytearray(image.bitmap)
    for block in range(image.block_count):
        bit = 0x80 >> block % 8
        bits[block // 8] = bits[block // 8] & ~bit if block not in owned and block % 2 == odd else bits[block // 8] | bit
    laid[image.bitmap_start * BLOCK:image.bitmap_start * BLOCK + len(bits)] = bits
    put(laid, MDB + 34, sum(block not in owned and block % 2 == odd for block in range(image.block_count)), 2)
    return bytes(laid)


def fill_by_steps(table: Table, content: bytes, name: str, fork: str, count: int) -> bytes:
    """Makes a fork of so many blocks of which each lies by itself, by calls that each want few records of the extents tree."""
    steps = list(range(30, count, 30)) + [count]
    calls = [Call.of('seteof', 2, name, fork, it * BLOCK) for it in steps]
    calls += [Call.of('write', 2, name, fork, it * BLOCK - 3, '616263646566') for it in (1, count // 2, count - 1)]
    calls += [Call.of('read', 2, name, fork, it * BLOCK - 4, 8) for it in (1, count // 2, count - 1)]
    text, saved = table.run(table.programs.tool, content, script_of(calls), 3)
    told = [it.told for it in read_answers(text)]
    ensure(told == ['0\t-'] * (len(calls) - 3) + ['0\tbytes 0061626364656600'] * 3, f'{name} {fork} in {count} extents is answered otherwise')
    table.calls += len(calls)
    return saved


def in_pieces(table: Table, blocks: int, nodes: int, count: int) -> None:
    """Two forks of one file, each in so many extents of one block."""
    path, tool = table.folder / 'new', table.programs.tool
    tool.text('new', path, 'D', blocks, 8, nodes)
    _, content = table.run(tool, path.read_bytes(), Call.of('create', 2, 'a').line(), 1)
    first = one_by_one(content, 0)
    for odd, fork in enumerate(FORKS):
        content = fill_by_steps(table, one_by_one(content, odd), 'a', fork, count)
    forks = Forks(content)
    table.ensure_sound(content, forks)
    for odd, fork in enumerate(FORKS):
        found = forks.items[2, 'A'].forks[fork]
        ensure(len([it for it in found.places if it[1]]) == count, f'the fork has other extents than {count} of one block')
        ensure(found.blocks == sorted(found.blocks) and all(it % 2 == odd for it in found.blocks), 'other blocks came')
        wanted = bytearray(count * BLOCK)
        for it in (1, count // 2, count - 1):
            wanted[it * BLOCK - 3:it * BLOCK + 3] = b'abcdef'
        ensure(forks.bytes_of(found) == wanted, 'the fork has other bytes')
    ensure_copied(table, content, forks)
    ensure_no_new_faults(table, first, content)
    _, content = table.run(tool, content, script_of([Call.of('seteof', 2, 'a', 'data', BLOCK), Call.of('delete', 2, 'a')]), 4)
    tree = Image(content).extents_tree
    ensure((tree.depth, tree.free) == (0, nodes - len(tree.map_nodes)), 'the extents tree is not empty')


@dataclass(frozen=True)
class Plenty:
    """An extents tree with nodes for all that comes."""
    depth: int = 1
    records: int = 0
    free: int = TOO_MANY


def in_many_extents(table: Table, count: int, megabytes: int) -> None:
    """Two files in so many extents together, to which more come, each of one block, and which are written, cut and deleted."""
    path, size = table.folder / 'laid', count // 2 * BLOCK
    volume = slow_volumes.Volume(megabytes)
    slow_volumes.cut_two_files(volume, count)
    volume.write(path)
    content = one_by_one(path.read_bytes(), 0)
    grown = [Call.of('seteof', 2, 'a', 'data', size + 14 * BLOCK), Call.of('write', 2, 'b', 'data', size - 5, 'ab' * 5000),
             Call.of('write', 2, 'a', 'data', size // 2 - 3, 'cd' * 5000), Call.of('seteof', 2, 'b', 'data', size + 30 * BLOCK - 1),
             Call.of('read', 2, 'a', 'data', size // 2 - 9, 6000), Call.of('read', 2, 'b', 'data', size - 99, 6000)]
    cut = [Call.of('seteof', 2, 'a', 'data', size // 2), Call.of('write', 2, 'a', 'data', size // 2, 'ef' * 600), Call.of('delete', 2, 'b'),
           Call.of('seteof', 2, 'a', 'data', 1)]
    forks = Forks(content)
    for calls in (grown, cut):
        told = [forks.make(call, Plenty(), 5) for call in calls]
        images = []
        for piped in (False, True):
            text, saved = table.run(table.programs.tool, content, script_of(calls), 5, piped)
            ensure([it.told for it in read_answers(text)] == told, f'{count} extents are answered otherwise')
            images.append(saved)
        ensure(images[1] == images[0], f'{count} extents: by path and out of a pipe other images')
        ensure_no_new_faults(table, content, images[1])
        content = images[1]
        forks.ensure(Image(content))
        table.ensure_sound(content, forks)
        ensure_copied(table, content, forks)
        table.calls += 2 * len(calls)


def trials(given):
    """What is tried: a name, and what does it at a table."""
    yield '60,000 extents', lambda table: in_many_extents(table, 60_000, 31)
    yield 'a floppy in pieces', lambda table: in_pieces(table, 1600, 200, 600)
    yield 'a floppy in gaps', lambda table: in_gaps(table, random.Random(f'{given.seed} in gaps'), 500, 70)
    for name in REAL:
        yield name, lambda table, name=name: on_real_volume(table, REAL_VOLUMES / f'{name}.img', random.Random(f'{given.seed} on {name}'), 24)
    for number in range(3):
        yield f'workers {number}', lambda table, number=number: draw_workers(table, random.Random(f'{given.seed} of {number}'), 2 + 3 * number, 60)
    for number in range(given.lists):
        shape = SHAPES[number % len(SHAPES)]
        yield f'list {number}, {shape}', lambda table, number=number, shape=shape: drawn_list(
            table, shape, random.Random(f'{given.seed} {number}'), given.calls)


def tried(given, name: str, trial) -> tuple[int, int]:
    """Tries one thing. How many calls it had, and how many forks were copied off."""
    with tempfile.TemporaryDirectory(dir='/dev/shm' if Path('/dev/shm').is_dir() else None) as folder:
        table = Table(given.programs, Path(folder))
        try:
            trial(table)
        except Difference as difference:
            shutil.rmtree(given.kept, ignore_errors=True)
            shutil.copytree(folder, given.kept)
            raise Difference(f'{name}: {difference}') from None
        return table.calls, table.copied


def main() -> int:
    words = argparse.ArgumentParser(description='Makes drawn lists of calls that write forks.')
    words.add_argument('--lists', type=int, default=24, help='how many lists are drawn')
    words.add_argument('--calls', type=int, default=60, help='how many calls a list has')
    words.add_argument('--seed', default='1', help='what the lists are drawn by')
    words.add_argument('--kept', type=Path, default=Path('forks.kept'), help='where the files of what differs are kept')
    given = words.parse_args()
    given.programs, started = found_programs(), time.monotonic()
    try:
        with ThreadPoolExecutor(4) as pool:
            counts = list(pool.map(lambda it: tried(given, *it), trials(given)))
    except Difference as difference:
        print(f'{difference}\nwhat the program read and wrote then is in {given.kept}')
        return 1
    for missing in ('hcopy', 'fsck.hfs'):
        if not shutil.which(missing):
            print(f'{missing} is not installed: left out')
    calls, copied = (sum(it) for it in zip(*counts))
    print(f'{given.lists} drawn lists and {len(counts) - given.lists} others, {calls} calls, {copied} forks copied off: as the rules say, '
          f'in {time.monotonic() - started:.0f} s')
    return 0


if __name__ == '__main__':
    sys.exit(main())
