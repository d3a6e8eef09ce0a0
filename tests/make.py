#!/usr/bin/env python3
"""Tests that `make` does what its rules say: the name, the size and the trees of the new volume, what is put on it, and what is printed of what can't be. The
rules are written again in Python, over those that tests/put.py has of what is put; FILE is to be the volume that `new` and the calls of `run` make by
them. Names, sizes and the least sizes are by hand as well. Then disks that are taken apart: of disks of other programs, and of
random ones (driver/filling.py), `take`, `make` and `take` give the same payload, and a table that differs only in IDs and the root's row. What
`rescue` takes off a disk with names that no sound one has is put on a disk by `--rename`. hfsutils copies all off what was made; files of unar and hfsutils
are put on it. FILE where one exists, full disks, few open files, and runs that are killed: FILE is the old one or whole.

tests/make.py [--folders N] [--disks N] [--damaged N] [--bags N] [--seed WORD] [--large] [FOLDER..]      runs $HFS_TOOL, or the program as it is built in crates/hfs_tool/out

The images of FOLDERs are taken apart and made again, too. --large makes a volume of 2 GB, and one of 100,000 files. It prints how many volumes were
made; at a difference it says which, and ends with status 1. What isn't installed is skipped and named.
"""
import argparse
import os
import random
import re
import resource
import shutil
import signal
import subprocess
import sys
import time
from dataclasses import dataclass, field
from pathlib import Path
from typing import Optional

from driver.filling import EXTENTS_NODES, Filling, volume_name
from driver.image import BLOCK, Image
from driver.programs import REAL_VOLUMES, ended_at_terminal
from driver.putting import ROOT, Disk, Placed
from driver.sources import (DATES, FINDER, FOLDER, LONGEST, RESOURCE, CannotRead, Item, NotText, Walk, apple_double, is_bag, is_name_letter, last_part, letters_of, mac_binary,
                            read_mac_binary, seen)
from driver.wanted import Difference, agrees_in_a_folder, ensure
from forks import ensure_no_new_faults, in_larger_blocks, scattered
from put import FINDER_BYTES, NOW, YEAR_2000, Bench, Dated, Fifo, Link, Options, double, first_difference, first_place, hfs, lay, manifest_of, path_text, unpacked_by_unar

MOST_BLOCKS = 4_194_304
OLD = b'the old file'
SECOND = 10**9


# ---- how large a volume is

def factor(blocks: int) -> int:
    """How many blocks an allocation block has: the least number for which there are at most 65,535."""
    return next(k for k in range(1, 66) if blocks // k <= 65_535)


def allocation_blocks(blocks: int) -> int:
    """How many lie behind two boot blocks, the master directory block and the bitmap, and before the last two blocks."""
    k = factor(blocks)
    bitmap = -(-(blocks // k) // (8 * BLOCK))
    return max(0, blocks - 2 - 1 - bitmap - 2) // k


def key_length(name: int) -> int:
    """A key of a leaf: two bytes, its parent, and its name behind a byte, filled to an even number."""
    return 2 + 4 + 1 + name + (7 + name) % 2


def catalog_nodes(root: int, items: list[Item]) -> int:
    """A quarter more than leaves half full and their index, and the header node and the map nodes beside these."""
    folders = [root] + [len(it.name) for it in items if it.is_folder]
    bytes_all = sum(key_length(it) + 70 + 2 + key_length(0) + 46 + 2 for it in folders)
    bytes_all += sum(key_length(len(it.name)) + 102 + 2 for it in items if not it.is_folder)
    level = -(-bytes_all // 248)
    nodes = level
    while level > 1:
        level = -(-level // 5)
        nodes += level
    wanted = 1 + -(-5 * nodes // 4)
    count = wanted
    while count - max(0, -(-(count - 2_048) // 3_936)) < wanted:
        count += 1
    return count


def blocks_of_trees(nodes: int, size: int) -> int:
    """The blocks of the extents file and the catalog."""
    return -(-EXTENTS_NODES // size) + -(-nodes // size)


def least(first: int, nodes: int, items: list[Item]) -> Optional[int]:
    """The least number of blocks from this one on that holds all, looked for from the one on that has as many blocks as are wanted."""
    lengths = [fork.length for it in items for fork in it.forks]
    for size in range(1, 66):
        wanted = blocks_of_trees(nodes, size) + sum(-(-it // (size * BLOCK)) for it in lengths)
        for blocks in range(max(first, 65_536 * (size - 1), wanted * size), min(65_536 * size, MOST_BLOCKS + 1)):
            if allocation_blocks(blocks) >= wanted:
                return blocks
    return None


def chosen(nodes: int, items: list[Item]) -> Optional[int]:
    bare = least(1, nodes, items)
    return None if bare is None else least(max(-(-11 * bare // 10), bare + 200), nodes, items)


def typed_blocks(text: str) -> Optional[int]:
    """A size that is typed."""
    text = text.removeprefix('+')
    digits, unit = (text[:-1], 'KMG'.index(text[-1]) + 1) if text[-1:] and text[-1] in 'KMG' else (text, 0)
    size = int(digits) * 1024**unit if digits.isdecimal() and digits.isascii() else 0
    return size // BLOCK if size % BLOCK == 0 and 65_536 <= size <= BLOCK * MOST_BLOCKS else None


# ---- its name

def plain_letters(text: str) -> list[int]:
    """The letters that plain text says: a backslash and two lower-case digits are a byte."""
    letters, at = [], 0
    while at < len(text):
        digits = text[at + 1:at + 3]
        if text[at] == '\\' and len(digits) == 2 and set(digits) <= set('0123456789abcdef'):
            letters.append(int(digits, 16))
            at += 3
        else:
            letters.append(ord(text[at]) if text[at].isascii() else 0)
            at += 1
    return letters


def told_name(bag: str) -> Optional[str]:
    """What a bag tells of its disk."""
    info = Path(bag, 'bag-info.txt')
    if not (is_bag(bag) and info.is_file()):
        return None
    lines = info.read_bytes().decode('utf-8').split('\n')
    return next((it.split(': ', 1)[1].removesuffix('\r') for it in lines if it.startswith('External-Identifier: ')), None)


def name_by(sources, typed: Optional[str]) -> Optional[str]:
    """The volume's name, where it gets one."""
    letters = []
    if typed is not None:
        letters = list(typed.encode())
    elif len(sources) == 1:
        told, part = told_name(sources[0]), last_part(sources[0])
        if told is not None:
            letters = plain_letters(told)
        else:
            own = seen(sources[0], follow=True)
            letters = letters_of(part) if part and own and own.kind == FOLDER else []
            if own is None:
                raise CannotRead(sources[0])
    return bytes(letters).decode() if 1 <= len(letters) <= 27 and all(map(is_name_letter, letters)) else None


# ---- what is made

@dataclass
class Making:
    """What is asked for: the words, and what they mean."""
    sources: list[str]
    name: Optional[str] = None
    size: Optional[str] = None
    how: Options = field(default_factory=Options)

    @property
    def words(self) -> list[str]:
        return [*self.sources, *self.how.words, *([] if self.name is None else [f'--name={self.name}']), *([] if self.size is None else [f'--size={self.size}'])]

    @property
    def items(self) -> list[Item]:
        """What comes: of one folder that is no bag what lies in it."""
        walk, only = Walk(self.how.macbinary, self.how.rename), self.sources[0] if len(self.sources) == 1 else None
        own = seen(only, follow=True) if only else None
        if own and own.kind == FOLDER and not is_bag(only):
            walk.add(list(walk.inside(only, None)))
            return walk.items
        return walk.over(self.sources)


@dataclass(frozen=True)
class Made:
    """What is to come of it: the status, what is told, and then FILE, with its catalog's nodes and how often these were doubled."""
    status: int
    text: str
    image: Optional[bytes] = None
    nodes: int = 0
    doubled: int = 0


class Table:
    """A bench of `put`, what was made on it, and how often a catalog was planned again."""

    def __init__(self, bench: Bench, is_large: bool):
        self.bench, self.is_large, self.empty = bench, is_large, Disk.of(bench.new(200))
        self.made, self.doubled, self.returned = 0, 0, 0

    # ---- by the rules

    def wanted(self, asked: Making) -> Made:
        unread, name = None, None
        try:
            name = name_by(asked.sources, asked.name)
        except CannotRead as fault:
            unread = fault
        if name is None and unread is None:
            return Made(2, 'bad name\n')
        if asked.size is not None and typed_blocks(asked.size) is None:
            return Made(2, 'bad size\n')
        try:
            items = asked.items
        except CannotRead as fault:
            return Made(4, f'cannot read {path_text(str(fault))}\n')
        except NotText as fault:
            return Made(3, f'cannot put {path_text(str(fault))}: a name in it is not UTF-8\n')
        refused = Placed.on(self.empty, items, ROOT, False).refused
        if refused:
            lines = [f'cannot put {path_text(it.told)}: {it.why}\n' for it in refused]
            return Made(3, ''.join(lines[:100]) + (f'and {len(lines) - 100} more\n' if len(lines) > 100 else ''))
        return self.planned(asked, name, items)

    def planned(self, asked: Making, name: str, items: list[Item]) -> Made:
        """The volume with all on it; planned again with twice the catalog, while that has too few nodes."""
        nodes, doubled = catalog_nodes(len(name), items), 0
        while True:
            blocks = chosen(nodes, items) if asked.size is None else typed_blocks(asked.size)
            if blocks is None or allocation_blocks(blocks) < blocks_of_trees(nodes, factor(blocks)):
                return Made(2, 'no room\n')
            self.bench.text('new', 'new', '--now', NOW, '--', name, blocks, nodes, EXTENTS_NODES)
            placed = Placed.on(Disk.of(Path('new').read_bytes()), items, ROOT, False)
            calls = placed.calls()
            answers, saved = self.bench.made(Path('new').read_bytes(), [call for call, _ in calls], NOW)
            told = next(((answer.value, item) for answer, (_, item) in zip(answers, calls) if not answer.is_done), None)
            if told is None:
                return Made(0, placed.lines.replace('put', 'made', 1), saved, nodes, doubled)
            if not told[0].startswith('full'):
                return Made(3, f'cannot put {path_text(told[1].path)}: room {placed.disk.image.free_blocks} {placed.wanted_blocks}\n')
            nodes, doubled = 2 * nodes, doubled + 1

    # ---- by the program

    def make(self, asked: Making, *more) -> tuple[int, str]:
        self.bench.out.unlink(missing_ok=True)
        found = self.bench.run('make', self.bench.out, *asked.words, '--now', NOW, *more)
        self.made += found[0] == 0
        ensure(self.bench.out.exists() == (found[0] == 0) and not list(Path().glob('*.new')), f'{asked.words}: {found}, and what is left')
        return found

    def makes(self, what: str, asked: Making) -> Made:
        """Wants what the rules say, and all of it back."""
        wanted, found = self.wanted(asked), self.make(asked)
        ensure(found == (wanted.status, wanted.text), f'{what}: {found[0]}, {first_difference(found[1], wanted.text)}')
        if wanted.image is not None:
            out = self.bench.out.read_bytes()
            ensure(out == wanted.image, f'{what}: FILE is not what the calls make of the new volume, from byte {first_place(out, wanted.image)}')
            ensure(self.bench.text('check', self.bench.out).startswith('sound\n'), f'{what} is not sound')
            self.doubled += wanted.doubled > 0
        return wanted

    def tells(self, what: str, asked: Making, status: int, text: str) -> None:
        """Wants this by hand; the rules say the same."""
        wanted, found = self.wanted(asked), self.make(asked)
        ensure(found == (status, text), f'{what}: {found}')
        ensure((wanted.status, wanted.text) == (status, text), f'{what}: the rules say {wanted.status}, {wanted.text!r}')

    def name_made(self) -> str:
        return volume_name(self.bench.out.read_bytes())

    # ---- a disk taken apart and made again

    def returns(self, what: str, image: Path, *more) -> None:
        """Takes a volume apart and makes one of the bag: its table but for IDs and the root's row, and the same payload."""
        bench, bags, out = self.bench, (Path('first bag'), Path('second bag')), self.bench.out
        for bag in bags:
            shutil.rmtree(bag, ignore_errors=True)
        bench.text('take', image, bags[0])
        status, text = self.make(Making([str(bags[0])]), *more)
        ensure(status == 0, f'{what}: {status}, {text}')
        ensure(self.name_made() == volume_name(image.read_bytes()), f'{what}: the name of the disk that is made again')
        ensure(bench.text('check', out).startswith('sound\n'), f'{what}: the disk that is made again is not sound')
        bench.text('take', out, bags[1])
        ensure(manifest_of(bags[0]) == manifest_of(bags[1]), f'{what}: the payload of the disk that is made again')
        ensure(self.rows_without_ids(image) == self.rows_without_ids(out), f'{what}: the table of the disk that is made again')
        self.returned += 1

    def rows_without_ids(self, image: Path) -> list[dict]:
        rows = list(self.bench.rows(image).values())
        return [{key: it for key, it in row.items() if key not in ('id', 'parent', 'file_id')} for row in rows[1:]]


# ---- by hand

# What is typed, how many blocks that is, and how many are free: 6 are around the allocation blocks, 7 where the bitmap has two; 8 nodes, 5, and the file's block.
SIZES = (('65536', 128, 108), ('+64K', 128, 108), ('64K', 128, 108), ('800K', 1_600, 1_580), ('1440K', 2_880, 2_860), ('1000K', 2_000, 1_980), ('1M', 2_048, 2_028),
         ('102400', 200, 180), ('4M', 8_192, 8_171), ('00070656', 138, 118))
BAD_SIZES = ('', '0', 'K', '+', '++1M', '65535', '65537', '65024', '63K', '100000', '2147484160', '2049M', '3G', '1k', '1.5M', '-1M', '1MK', '1 M', ' 1M', '1M ', '0x10000', '64KB', '\u0661M',
             '99999999999999999999', '18446744073709551616', '18014398509481985K', '4294967297G')
# The length of a file's fork, where there is one, and its name: how many blocks the volume has that is as large as it must be, how many bytes an
# allocation block, and how many of these are free.
LEAST = (
    # 8 nodes and 3, and 6 blocks around them, are the least that holds all: 17; 200 more
    ('nothing comes', None, '', 217, 512, 200),
    # a second leaf and one above both, so 5 nodes; the file's block
    ('five bytes', 5, 'f', 220, 512, 200),
    # 6 + 8 + 5 + 3,907 = 3,926, and a tenth more; the bitmap gets its second block
    ('two million bytes', 2_000_000, 'n' * 31, 4_319, 512, 392),
    # 20 + 8 + 5 + 60,000 = 60,033, and a tenth more are too many blocks of 512 bytes; of 1,024 they are 4, 3 and 30,000 of 33,011
    ('60,000 blocks', 30_720_000, 'f', 66_037, 1_024, 3_004),
)
# The longest fork that a volume of 2 GB holds beside a tenth of it: 64,624 blocks of 59 * 512 bytes. With one more the least volume has 3,813,014 blocks.
MOST_BYTES = 64_624 * 59 * BLOCK
BAD_NAMES = ('', 'n' * 28, 'a:b', 'a`b', 'a\x1fb', 'a\x7f', 'Caf\u00e9', '\u2603')
GOOD_NAMES = ('n', 'n' * 27, ' ', '=41', 'a/b', '\\5c', '~', '--name')
# Names of folders, and those of the volumes that they give.
FOLDERS = (('Disk', 'Disk'), ('a=2Fb', 'a/b'), ('=41b', 'Ab'), ('n' * 27, 'n' * 27), ('x=3', 'x=3'), ('=2E', '.'), ('.hidden', '.hidden'), ('a.img', 'a.img'), ('=6E' * 27, 'n' * 27),
           ('n' * 28, None), ('a=3Ab', None), ('Caf\u00e9', None), ('a:b', None), ('=6E' * 28, None), ('=00', None), ('tab\there', None))
# What a bag's description tells, and the names that this gives; none where it is no name.
IDENTIFIERS = (('External-Identifier: My Floppy\n', 'My Floppy'), ('External-Identifier: a\\5cb\\1f', None), ('External-Identifier: a\\5cb\n', 'a\\b'),
               ('Bag-Software-Agent: x\nExternal-Identifier: second\nExternal-Identifier: third\n', 'second'), ('External-Identifier: =41\n', '=41'),
               ('External-Identifier: ' + 'n' * 27 + '\n', 'n' * 27), ('External-Identifier: ' + 'n' * 28 + '\n', None), ('External-Identifier: \n', None),
               ('External-Identifier: \\5C\n', '\\5C'), ('External-Identifier: Caf\u00e9\n', None), ('External-Identifier: a:b\n', None),
               ('External-Identifier: with a return\r\n', 'with a return'), ('external-identifier: x\n', 'a bag'), ('External-Identifier:x\n', 'a bag'), ('', 'a bag'), (None, 'a bag'))


def of_names(table: Table) -> None:
    """The name by the option, by what a bag tells, and by the last part of a folder's path."""
    lay('inner', {'f': b'hello'})
    for name in GOOD_NAMES:
        ensure(table.makes(f'--name {name}', Making(['inner'], name)).status == 0 and table.name_made() == name, f'--name {name}: {table.name_made()!r}')
    for name in BAD_NAMES:
        table.tells(f'--name {name!r}', Making(['inner'], name, '1'), 2, 'bad name\n')
    for path, name in FOLDERS:
        lay(path, {'f': b'hello'})
        wanted = table.makes(f'the folder {path}', Making([path]))
        ensure((wanted.status, table.name_made() if wanted.image else None) == (0 if name else 2, name), f'the name of {path}')
        ensure(table.makes(f'the folder {path}, renamed', Making([path], how=Options(rename=True))).status == wanted.status, f'the name of {path} by --rename')
    lay('link to a folder', Link('a=2Fb'))
    for source, name in (('Disk/', 'Disk'), ('Disk//', 'Disk'), ('./Disk/.', 'Disk'), ('inner/../Disk', 'Disk'), ('link to a folder', 'link to a folder')):
        ensure(table.makes(source, Making([source])).status == 0 and table.name_made() == name, f'the name of {source}')
    for source in ('.', '..', 'Disk/..', '/'):
        ensure(table.make(Making([source])) == (2, 'bad name\n'), f'the name of {source}')
    lay('a bag', {'bagit.txt': b'', 'data': {'f': b'hello'}})
    for text, name in IDENTIFIERS:
        Path('a bag/bag-info.txt').write_bytes(text.encode()) if text is not None else Path('a bag/bag-info.txt').unlink()
        wanted = table.makes(f'a bag with {text!r}', Making(['a bag']))
        ensure((wanted.status, table.name_made() if wanted.image else None) == (0 if name else 2, name), f'the name of a bag with {text!r}')
    Path('a bag/bag-info.txt').write_bytes(b'External-Identifier: \xff\n')
    ensure(table.make(Making(['a bag'])) == (2, 'bad name\n'), 'a name that is not UTF-8')
    ensure(table.makes('a bag whose name is given', Making(['a bag'], 'Given')).status == 0 and table.name_made() == 'Given', 'a bag whose name is given')
    lay('no bag', {'bagit.txt': b'', 'bag-info.txt': b'External-Identifier: x\n'})
    ensure(table.makes('a folder that is no bag', Making(['no bag'])).status == 0 and table.name_made() == 'no bag', 'a folder that is no bag')


def of_what_comes(table: Table) -> None:
    """Of one folder what lies in it; of a bag what lies in its data; of more than one each by its name."""
    lay('comes', {'.DS_Store': b'x', 'a': b'1', '._a': double(), 'sub': {'b': Dated(b'22', 5 * SECOND)}, '._sub': double(), '._alone': double()})
    lay('other', {'c': b'333'})
    lay('bagged', {'bagit.txt': b'', 'data': {'d': b'4444', 'e': {}}})
    lay('holder', {'bag': {'bagit.txt': b'', 'data': {'g': b'5'}}})
    for sources, names in ((['comes'], ['a', 'alone', 'sub']), (['comes/'], ['a', 'alone', 'sub']), (['bagged'], ['d', 'e']), (['bagged/data'], ['d', 'e']), (['holder'], ['bag']),
                           (['comes', 'other'], ['comes', 'other']), (['comes/a'], ['a']), (['comes/a', 'bagged', 'other'], ['a', 'd', 'e', 'other']), (['comes/._alone'], ['alone'])):
        ensure(table.makes(f'{sources}', Making(sources, 'Disk')).status == 0, f'{sources}')
        ensure([it.split('\t')[4] for it in table.bench.text('ls', 'out').splitlines()] == names, f'what comes of {sources}')
    ensure(table.make(Making(['comes', 'other'], 'Disk'))[1] == 'made\nfiles 4\nfolders 3\nbytes 12\nfree 200\n', 'what is told, by hand')
    for sources in (['comes', 'other'], ['comes/a'], ['comes', 'comes/'], ['bagged', 'bagged'], ['comes/._alone']):
        table.tells(f'{sources} without a name', Making(sources), 2, 'bad name\n')
    os.chdir('comes')
    try:
        ensure(table.bench.run('make', '../out', '.', '--name', 'Here')[1].startswith('made\nfiles 3\nfolders 1\n'), 'the folder that is worked in')
        ensure(table.bench.run('make', '../none', '.', 'a', '--name', 'Here') == (3, 'cannot put .: name\n'), 'the folder that is worked in among others')
    finally:
        os.chdir('..')
    lay('nothing', {})
    table.makes('an empty folder', Making(['nothing']))
    lay('binaries', {'1.bin': mac_binary(b'A name', FINDER_BYTES[:16], b'D' * 70_000, b'R' * 50_000, True, (1, 2)), '2': b'no binary', '._1.bin': b'passed over'})
    for macbinary in (True, False):
        how = Options(macbinary=macbinary)
        table.makes(f'MacBinary, {macbinary}', Making(['binaries'], how=how))
        table.makes(f'a MacBinary file, {macbinary}', Making(['binaries/1.bin'], 'Disk', how=how))
    ensure(table.make(Making(['binaries/1.bin'], 'Disk', how=Options(macbinary=True)))[0] == 0, 'a MacBinary file')
    row = table.bench.text('items', 'out').splitlines()[1].split('\t')
    ensure(row[:9] + row[13:15] == ['Disk:A name', 'file', '16', '2', 'TEXT', 'ttxt', '4101', 'yes', 'no', '70000', '50000'], f'a MacBinary file: {row}')
    lay('odd', {'x:y': b'1', 'caf\u00e9': {'n' * 32: b''}, 'x_y': b'2'})
    table.tells('odd names', Making(['odd']), 3, 'cannot put odd/caf\u00e9: name\ncannot put odd/x:y: name\n')
    table.tells('odd names, renamed', Making(['odd'], how=Options(rename=True)), 3, 'cannot put odd/x_y: two of one name\n')
    os.unlink('odd/x_y')
    ensure(table.makes('odd names, renamed', Making(['odd'], how=Options(rename=True))).status == 0, 'odd names, renamed')
    ensure([it.split('\t')[0] for it in table.bench.text('items', 'out').splitlines()] == ['odd', 'odd:caf_', f'odd:caf_:{"n" * 31}', 'odd:x_y'], 'odd names, renamed')


def of_sizes(table: Table) -> None:
    """Sizes that are typed, and the least ones, worked out by hand."""
    lay('sized', {'f': b'hello'})
    for text, blocks, free in SIZES:
        wanted = table.makes(f'--size {text}', Making(['sized'], size=text))
        ensure(len(wanted.image) == blocks * BLOCK and wanted.text == f'made\nfiles 1\nfolders 0\nbytes 5\nfree {free}\n', f'--size {text}')
    for text in BAD_SIZES:
        table.tells(f'--size {text!r}', Making(['sized'], size=text), 2, 'bad size\n')
    for what, length, name, blocks, size, free in LEAST:
        lay(what, {} if length is None else {name: length})
        asked = Making([what], 'Disk')
        ensure(table.make(asked) == (0, f'made\nfiles {int(length is not None)}\nfolders 0\nbytes {length or 0}\nfree {free}\n'), what)
        image = Image(table.bench.out.read_bytes())
        ensure((len(image.content), image.field(20, 4)) == (blocks * BLOCK, size), f'{what}: {len(image.content) // BLOCK} blocks of which {image.field(20, 4)} bytes are one')
        ensure(chosen(catalog_nodes(4, asked.items), asked.items) == blocks, f'{what} by the rules')
    lay('full', {'f': 109 * BLOCK})
    table.makes('all blocks of 64 KB', Making(['full'], size='64K'))
    ensure(table.make(Making(['full'], size='64K'))[1].endswith('free 0\n'), 'all blocks of 64 KB')
    os.truncate('full/f', 109 * BLOCK + 1)
    table.tells('one block more', Making(['full'], size='64K'), 3, 'cannot put full/f: room 109 110\n')
    os.truncate('full/f', MOST_BYTES + 1)
    table.tells('a byte more than 2 GB hold', Making(['full']), 2, 'no room\n')
    if table.is_large:
        os.truncate('full/f', MOST_BYTES)
        ensure(table.make(Making(['full'])) == (0, f'made\nfiles 1\nfolders 0\nbytes {MOST_BYTES}\nfree 5956\n'), 'as many bytes as 2 GB hold')
        ensure(table.bench.out.stat().st_size == 4_194_251 * BLOCK, 'the size for as many bytes as 2 GB hold')
    os.truncate('full/f', LONGEST)
    table.tells('the longest fork', Making(['full']), 2, 'no room\n')
    ensure(table.make(Making(['full'], size='2G')) == (3, 'cannot put full/f: room 64525 64528\n'), 'the longest fork on 2 GB')
    lay('trees', {f'file number {it}': b'' for it in range(400)})
    table.tells('trees without room', Making(['trees'], size='64K'), 2, 'no room\n')


def of_faults(table: Table) -> None:
    """Which fault is told of several; nothing is written then, and FILE stays as it was."""
    bench = table.bench
    lay('faults', {'x:y': b'', 'fine': b'1'})
    lay('raw', {'in': {b'\xff': b''}})
    lay('large', {'x:y': b'', 'f': LONGEST})
    lay('sums', {'bagit.txt': b'', 'data': {'a': b'hello'}, 'manifest-sha256.txt': f'{"0" * 64}  data/a\n'.encode()})
    lay('wide', {'f': 110 * BLOCK})
    lay('wide sums', {'bagit.txt': b'', 'data': {'a': 110 * BLOCK}, 'manifest-sha256.txt': f'{"0" * 64}  data/a\n'.encode()})
    for asked, status, text in (
            (Making(['none'], 'n' * 28, '1'), 2, 'bad name\n'), (Making(['none', 'raw']), 2, 'bad name\n'), (Making(['none'], size='1'), 2, 'bad size\n'),
            (Making(['none'], 'D', '1'), 2, 'bad size\n'), (Making(['none']), 4, 'cannot read none\n'), (Making(['faults', 'none'], 'D'), 4, 'cannot read none\n'),
            (Making(['faults/fine/x'], 'D'), 4, 'cannot read faults/fine/x\n'), (Making(['raw']), 3, 'cannot put raw/in: a name in it is not UTF-8\n'),
            (Making(['none', 'raw/in'], 'D'), 4, 'cannot read none\n'), (Making(['large']), 3, 'cannot put large/x:y: name\n'),
            (Making(['large'], size='64K'), 3, 'cannot put large/x:y: name\n'), (Making(['large'], how=Options(rename=True)), 2, 'no room\n'),
            (Making(['wide'], size='64K'), 3, 'cannot put wide/f: room 109 110\n'), (Making(['sums']), 3, 'cannot put sums/data/a: digest\n'),
            (Making(['sums', 'faults'], 'D'), 3, 'cannot put faults/x:y: name\n'), (Making(['sums', 'large/f'], 'D'), 2, 'no room\n'),
            (Making(['wide sums'], 'Disk', '64K'), 3, 'cannot put wide sums/data/a: room 109 110\n')):
        bench.out.write_bytes(OLD)
        found = bench.run('make', bench.out, *asked.words)
        ensure(found == (status, text) and bench.out.read_bytes() == OLD, f'{asked.words}: {found}')
        if 'digest' not in text:
            table.tells(f'{asked.words}', asked, status, text)
    lay('two', {'a': b'', 'A': {}, 'l': Link('a'), 'p': Fifo(), '._l': b'no', 'b': b'', '._b': b'no', 'c': LONGEST + 1})
    table.tells('what can not be put', Making(['two']), 3, ''.join(f'cannot put two/{it}\n' for it in (
        'a: two of one name', '._b: not AppleDouble', 'c: too large', 'l: not a file', 'p: not a file')))
    lay('many', {f'{it:03}:': b'' for it in range(103)})
    table.tells('103 lines', Making(['many']), 3, ''.join(f'cannot put many/{it:03}:: name\n' for it in range(100)) + 'and 3 more\n')
    lay('fine', {'f': b'1'})
    for out in ('none/out', 'fine', 'fine/f/out'):
        ensure(bench.run('make', out, 'fine') == (4, f'cannot write {out}\n'), f'FILE {out}')
        ensure(bench.run('make', out, 'faults') == (3, 'cannot put faults/x:y: name\n'), f'FILE {out} behind all else')
    bench.out.write_bytes(OLD)
    for words in (['make'], ['make', 'out'], ['make', 'out', 'fine', '--size'], ['make', 'out', 'fine', '--now', 'x'], ['make', 'out', 'fine', '--now', '4294967296'],
                  ['make', 'out', 'fine', '--volume', '1'], ['make', 'out', 'fine', '--replace'], ['make', 'out', 'fine', '--to', ':'], ['make', 'out', b'\xff']):
        ran = subprocess.run([bench.tool.path, *words], stdin=subprocess.DEVNULL, capture_output=True, timeout=60)
        ensure((ran.returncode, ran.stderr) == (1, b'') and ran.stdout and bench.out.read_bytes() == OLD, f'{words}: {ran}')


def of_moments(table: Table) -> None:
    """`--now` is the moment of the volume and of all changes; left out it is the clock's."""
    lay('moments', {'f': Dated(b'1', YEAR_2000 * SECOND), 'sub': Dated({}, 0)})
    bench = table.bench
    for words, least_moment, most in ((['--now', '7'], 7, 7), (['--now', '4294967295'], 4_294_967_295, 4_294_967_295), ([], int(time.time()), None)):
        bench.text('make', 'dated', 'moments', *words)
        most = most or int(time.time()) + 1
        shift = 0 if words else 2_082_844_800
        fields = dict(it.split(' ', 1) for it in bench.text('info', 'dated').splitlines())
        ensure(all(least_moment <= int(fields[it]) - shift <= most for it in ('drCrDate', 'drLsMod')), f'the moment of {words}: {fields}')
    dates = [it.split('\t')[9:12] for it in bench.text('items', 'dated').splitlines()[1:]]
    ensure(dates == [['2000-01-01T00:00:00'] * 2 + [''], ['1970-01-01T00:00:00'] * 2 + ['']], f'the dates of what came: {dates}')


# ---- trees of any size

def of_large_trees(table: Table) -> None:
    """Catalogs with map nodes, of many items; and more than once planned."""
    count = 0
    os.mkdir('crowd')
    for number in range(20):
        os.mkdir(f'crowd/folder {number:02}')
        for count in range(count + 1, count + 401):
            with open(f'crowd/folder {number:02}/a file of a longer name {count:05}', 'wb') as file:
                file.write(b'x' * (count % 3 == 0))
    wanted = table.makes('8,000 files', Making(['crowd']))
    image = Image(wanted.image)
    # 8,000 files of 142 bytes, 21 folders of 140 or a little more: 4,593 leaves, and a quarter more with their index: more than 2,048 and 3,936 nodes
    ensure(wanted.doubled == 0 and len(image.catalog.map_nodes) == 3, f'8,000 files: {image.catalog.count} nodes, {len(image.catalog.map_nodes) - 1} map nodes')
    ensure(wanted.text.startswith('made\nfiles 8000\nfolders 20\nbytes 2666\n'), wanted.text)
    paths = [it.split('\t')[0].split(':')[-1] for it in table.bench.text('items', 'out').splitlines()]
    ensure(sorted(paths) == sorted(['crowd', *(it.name for it in Path('crowd').rglob('*'))]), 'the items of 8,000 files')
    shutil.rmtree('crowd')


def of_twice_the_catalog(table: Table) -> None:
    """A folder in a folder, so that the nodes of the first plan are too few: twice as many are planned."""
    lay('twice', {'a': {'b': {'c': {'d': b'1'}}}})
    wanted = table.makes('twice the catalog', Making(['twice']))
    ensure(wanted.doubled > 0, 'the first catalog suffices')
    # with more nodes the file has no room any more
    for count in range(wanted.nodes // 2, wanted.nodes + 1):
        os.truncate('twice/a/b/c/d', (122 - EXTENTS_NODES - count) * BLOCK)
        found = table.makes(f'twice the catalog beside {count} free blocks', Making(['twice'], size='64K'))
        ensure((found.status == 0) == (count == wanted.nodes), f'twice the catalog beside {count} free blocks: {found.text}')


# ---- drawn folders

def draw_folder(draw: random.Random, folder: Path) -> None:
    """A folder with folders and files in it, mostly small, some with AppleDouble files beside them."""
    folders = [folder]
    folder.mkdir()
    for number in range(draw.choice((0, 1, 3, 10, 60, 150))):
        name = ''.join(draw.choice('abcXYZ 019') for _ in range(draw.randint(1, 24))).strip() + f'x{number}'
        above = draw.choice(folders)
        path = above / name
        if draw.random() < 0.3:
            path.mkdir()
            folders.append(path)
        else:
            path.write_bytes(draw.randbytes(draw.choice((0, 1, 511, 512, 513, draw.randint(0, 5_000), draw.randint(0, 90_000)))))
        if draw.random() < 0.3:
            (above / f'._{name}').write_bytes(apple_double((FINDER, draw.randbytes(32)), (RESOURCE, draw.randbytes(draw.randint(0, 3_000))), (DATES, draw.randbytes(16))))
        os.utime(path, ns=(0, draw.randrange(1 << 32) * SECOND))


def of_drawn_folders(table: Table, seed: str, count: int) -> None:
    """Drawn folders, whose volumes have the sizes and trees of the rules, and all that lay in them."""
    for number in range(count):
        draw, folder = random.Random(f'{seed} folder {number}'), Path(f'drawn {number}')
        draw_folder(draw, folder)
        what = f'folder {number} of seed {seed}'
        size = draw.choice((None, None, None, '8M', '65K', '200K'))
        wanted = table.makes(what, Making([str(folder)], size=size))
        if wanted.image is not None:
            image, size = Image(wanted.image), factor(len(wanted.image) // BLOCK) * BLOCK
            ensure(image.field(20, 4) == size and image.field(130, 4) == -(-EXTENTS_NODES * BLOCK // size) * size, f'{what}: the allocation blocks')
            ensure(image.field(146, 4) == -(-wanted.nodes * BLOCK // size) * size, f'{what}: the catalog')
            ensure_no_new_faults(table.bench, table.bench.new(200), wanted.image)
        shutil.rmtree(folder)


# ---- disks taken apart and made again

def of_disks(table: Table, folders) -> None:
    """Disks of other programs: of each that is sound comes one of the same name with all that is on it; the others by `rescue` and --rename."""
    bench = table.bench
    for image in sorted(it for folder in folders for it in Path(folder).resolve().rglob('*.img')):
        if bench.run('check', image)[1].startswith('sound\n'):
            if len(volume_name(image.read_bytes())) <= 27:
                table.returns(image.name, image)
        else:
            is_rescued(table, image)


def is_rescued(table: Table, image: Path) -> None:
    """Takes off what remains of a disk, and makes a sound one of it, with the same forks and facts under names that it can have."""
    bench, bag = table.bench, Path('rescued')
    shutil.rmtree(bag, ignore_errors=True)
    if bench.run('rescue', image, bag)[0] not in (0, 3):
        return
    asked = Making([str(bag)], 'Rescued', how=Options(rename=True))
    wanted = table.makes(f'{image.name}, rescued', asked)
    if wanted.status == 0:
        bench.ensure_forks(f'{image.name}, rescued', Placed.on(table.empty, asked.items, ROOT, False))
    else:
        ensure(wanted.text.endswith(': two of one name\n'), f'{image.name}, rescued: {wanted.text}')


def of_damaged_disks(table: Table, seed: str, count: int) -> None:
    """Disks some blocks of which have other bytes, whole or cut off: what remains of each comes back by --rename."""
    whole = (REAL_VOLUMES / 'hfsutils-800k.img').read_bytes()
    for number in range(count):
        draw, content = random.Random(f'{seed} damage {number}'), bytearray(whole)
        for _ in range(draw.randint(1, 4)):
            at = draw.randrange(60) * BLOCK
            content[at:at + BLOCK] = draw.choice((bytes(BLOCK), draw.randbytes(BLOCK)))
        Path('damaged.img').write_bytes(content[:draw.choice((len(content), 50_000))])
        is_rescued(table, Path('damaged.img'))


def of_drawn_disks(table: Table, seed: str, count: int) -> None:
    """Disks that are drawn: names, dates, Finder bytes, forks, locks and threads, in larger allocation blocks and between marked ones."""
    for number in range(count):
        filling = Filling.drawn(f'{seed} disk {number}')
        image = table.bench.new(filling.blocks, filling.nodes, 40)
        Path('new').write_bytes(image)
        table.bench.text('new', 'new', '--now', filling.draw.randrange(1 << 32), '--', filling.name, filling.blocks, filling.nodes, 40)
        image, larger = Path('new').read_bytes(), filling.draw.choice((1, 1, 2, 4))
        image = in_larger_blocks(image, larger) if larger > 1 else image
        disk = Path('drawn.img')
        disk.write_bytes(table.bench.changed(scattered(image, filling.draw, filling.draw.choice((0, 0.1, 0.3))), filling.calls, filling.draw.randrange(1 << 32)))
        table.returns(f'disk {number} of seed {seed}', disk)


def of_changed_bags(table: Table, seed: str, count: int) -> None:
    """Bags with some bytes changed, cut or doubled in their tags, their tables and their AppleDouble files: a sound volume comes of each, or nothing."""
    bench = table.bench
    bench.text('take', REAL_VOLUMES / 'hfsutils-800k.img', 'whole bag')
    files = sorted(it for it in Path('whole bag').rglob('*') if it.is_file() and (it.parent.name == 'whole bag' or it.name.startswith('._')))
    endings = set()
    for number in range(count):
        draw = random.Random(f'{seed} bag {number}')
        shutil.rmtree('bag', ignore_errors=True)
        shutil.copytree('whole bag', 'bag')
        path = Path('bag', draw.choice(files).relative_to('whole bag'))
        path.write_bytes(changed_bytes(draw, path.read_bytes()))
        bench.out.unlink(missing_ok=True)
        status, text = bench.run('make', bench.out, 'bag', '--name', 'D', '--now', NOW)
        ensure(status in (0, 3) and (status == 0) == bench.out.exists() and text, f'bag {number} of seed {seed}, {path}: {status}, {text}')
        ensure(status == 3 or bench.text('check', bench.out).startswith('sound\n'), f'bag {number} of seed {seed}, {path}: the volume is not sound')
        endings.add(text.split('\n')[0].rpartition(': ')[2])
    ensure(count < 30 or {'made', 'digest'} <= endings, f'what changed bags give: {endings}')


def changed_bytes(draw: random.Random, content: bytes) -> bytes:
    content = bytearray(content)
    for _ in range(draw.choice((1, 1, 3))):
        at, kind = draw.randrange(len(content) + 1), draw.randrange(4)
        if kind == 0:
            content[at:at + 1] = bytes([draw.randrange(256)])
        elif kind == 1:
            del content[at:at + draw.choice((1, 40, len(content)))]
        elif kind == 2:
            content[at:at] = draw.choice((b'"', b'\n', b'\r\n', b',', b'\0', b'\xff', b'999999999999999999999', bytes(3000)))
        else:
            content[at:at] = content[draw.randrange(len(content) + 1):][:draw.choice((1, 200, 5000))]
    return bytes(content)


# ---- other programs

def of_hfsutils(table: Table) -> None:
    """hfsutils lists what was made, copies all of it off, and goes on with the volume; its MacBinary files come in."""
    if not shutil.which('hcopy'):
        table.bench.skipped.append('hfsutils')
        return
    dates = apple_double((FINDER, FINDER_BYTES), (RESOURCE, b'R' * 70_000), (DATES, bytes.fromhex('0000000000000001fffffffe00000000')))
    lay('Peers', {'large': Dated(b'L' * 100_000, YEAR_2000 * SECOND), '._large': dates, 'sub': Dated({f'file {it}': os.urandom(it * 997) for it in range(30)}, YEAR_2000 * SECOND),
                  'empty': Dated(b'', 0), '._empty': double()})
    # hfsutils mounts nothing smaller than 800 KB
    asked = Making(['Peers'], size='800K')
    table.makes('for hfsutils', asked)
    Path('peer.img').write_bytes(table.bench.out.read_bytes())
    mounted = hfs('hmount', 'peer.img')
    ensure("Volume name is \"Peers\"" in mounted, f'hmount: {mounted}')
    listed = [' '.join(it.split()) for it in hfs('hls', '-la').splitlines()]
    ensure(listed == ['fi TEXT/ttxt 3 0 Jan 1 1970 empty', 'fi TEXT/ttxt 70000 100000 Jan 1 2000 large', 'd 30 items Jan 1 2000 sub'], f'hls -la: {listed}')
    Path('copied').mkdir()
    for item in asked.items:
        if not item.is_folder:
            place = item.path.removeprefix('Peers').replace('/', ':')
            hfs('hcopy', '-m', place, 'copied/binary')
            known = read_mac_binary('copied/binary')
            ensure((known.name, known.finder[:10], known.dates[:2], known.data.read(), known.resource.read())
                   == (item.name, item.finder[:10], item.dates[:2], item.data.read(), item.resource.read()), f'hcopy -m of {place}')
            hfs('hcopy', '-r', place, 'copied/data')
            ensure(Path('copied/data').read_bytes() == item.data.read(), f'hcopy -r of {place}')
    hfs('hcopy', '-m', ':large', 'copied/large.bin')
    hfs('hdel', ':large')
    hfs('hcopy', '-m', 'copied/large.bin', ':sub:')
    hfs('humount')
    ensure(table.bench.text('check', 'peer.img').startswith('sound\n'), 'a volume with which hfsutils went on')
    table.returns('a volume with which hfsutils went on', Path('peer.img'))
    ensure(table.makes('MacBinary of hfsutils', Making(['copied/large.bin'], 'Disk', how=Options(macbinary=True))).text.split()[6] == '170000', 'MacBinary of hfsutils')


def of_unar(table: Table) -> None:
    """Folders that unar unpacked, and a MacBinary file of the first kind, which is a file like others."""
    for archive in unpacked_by_unar(table.bench.skipped):
        table.makes(f'{archive} by unar', Making(['Unpacked']))
        row = table.bench.text('items', 'out').splitlines()[1].split('\t')
        ensure((row[0], row[4:6], row[13:15]) == ('Unpacked:packed', ['TEXT', 'ttxt'], ['700', '300']), f'{archive} by unar: {row}')
    if Path('hexbin').exists():
        asked = Making(['hexbin/packed.bin'], 'Disk', how=Options(macbinary=True))
        ensure(table.makes('MacBinary of macutils', asked).text.startswith('made\nfiles 1\nfolders 0\nbytes 1280\n'), 'MacBinary of macutils')


# ---- the files themselves

def of_own_files(table: Table) -> None:
    """FILE in a folder that comes, and FILE that is a source: what stood there comes."""
    bench = table.bench
    lay('own', {'a': b'1' * 600, '._a': double(), 'old': b'x'})
    for name in ('old', 'a', 'new'):
        had = Path('own', name).read_bytes() if name != 'new' else None
        wanted = table.makes(f'behind own/{name}', Making(['own'])).image
        ensure(bench.run('make', f'own/{name}', 'own', '--now', NOW)[0] == 0 and Path('own', name).read_bytes() == wanted, f'FILE is own/{name}')
        Path('own', name).write_bytes(had) if had is not None else os.unlink('own/new')
    shutil.copy('own/a', 'copy')
    wanted = table.makes('one file', Making(['copy'], 'Disk')).image
    ensure(bench.run('make', 'copy', 'copy', '--name', 'Disk', '--now', NOW)[0] == 0 and Path('copy').read_bytes() == wanted, 'FILE is the source')
    ensure(bench.run('make', '/dev/full', 'own') == (4, 'cannot write /dev/full\n'), 'a device that takes nothing')


def of_full_disks(table: Table) -> None:
    """A disk that is full, and one that takes no larger file: FILE stays as it was, and nothing is left beside it."""
    bench = table.bench
    lay('half', {str(it): os.urandom(100_000) for it in range(10)})
    words = [bench.tool.path, 'make', 'room/out', 'half']
    os.mkdir('room')
    is_mounted = subprocess.run(['mount', '-t', 'tmpfs', '-o', 'size=600k', 'tmpfs', 'room'], capture_output=True).returncode == 0
    try:
        Path('room/out').write_bytes(OLD)
        limits = [lambda: resource.setrlimit(resource.RLIMIT_FSIZE, (1 << 19, 1 << 19))] + [None] * is_mounted
        for limit in limits:
            ran = subprocess.run(words, stdin=subprocess.DEVNULL, capture_output=True, text=True, preexec_fn=limit, restore_signals=False)
            ensure((ran.returncode, ran.stdout, ran.stderr) == (4, 'cannot write room/out\n', ''), f'a full disk: {ran}')
            ensure(os.listdir('room') == ['out'] and Path('room/out').read_bytes() == OLD, 'FILE on a full disk')
            bench.runs += 1
    finally:
        if is_mounted:
            subprocess.run(['umount', 'room'], check=True)
        else:
            bench.skipped.append('a full disk')


def of_kills(table: Table) -> None:
    """Runs that are killed: FILE is the old one or whole. And few files that may be open."""
    lay('slow', {str(it): os.urandom(1 << 20) for it in range(16)})
    words, out, ended = [table.bench.tool.path, 'make', 'killed', 'slow', '--now', str(NOW)], Path('killed'), set()
    began = time.monotonic()
    subprocess.run(words, check=True, stdout=subprocess.DEVNULL, preexec_fn=lambda: resource.setrlimit(resource.RLIMIT_NOFILE, (9, 9)))
    took, wanted = time.monotonic() - began, out.read_bytes()
    for step in range(12):
        out.write_bytes(OLD)
        run = subprocess.Popen(words, stdin=subprocess.DEVNULL, stdout=subprocess.PIPE, text=True)
        time.sleep(took * step / 9)
        run.kill()
        text, found = run.communicate()[0], out.read_bytes()
        ensure(found in (OLD, wanted) and (found == wanted or not text), f'a run that is killed leaves a part, and tells {text!r}')
        ended.add(found == wanted)
        for left in Path().glob('*.new'):
            left.unlink()
    ensure(False in ended, 'no run is killed before it ends')
    table.bench.runs += 13


def of_terminals(table: Table) -> None:
    """At a terminal one line says how far the run is; it is written over, and taken away at the end."""
    status, _, said = ended_at_terminal(table.bench.tool.path, ['make', table.bench.out, 'slow'])
    shown = re.findall(r'\r([^\r\x1b]*)\x1b\[K', said.decode())
    size = table.bench.out.stat().st_size
    ensure(status == 0 and shown == [*(f'{it} of {size} bytes' for it in range(1 << 22, size, 1 << 22)), ''], f'what is told at a terminal: {said[:300]!r}')


# ---- all

def of_very_large(table: Table) -> None:
    """A hundred thousand files, in folders of a hundred, of a byte each where they fit the first 32 MB, and so not the size behind it."""
    for number in range(100_000):
        path = Path('very', f'folder {number // 100:04}', f'f{number:05}')
        if number % 100 == 0:
            path.parent.mkdir(parents=True)
        path.write_bytes(b'x' * (number % 4 == 0))
    wanted = table.makes('100,000 files', Making(['very']))
    ensure(wanted.text.startswith('made\nfiles 100000\nfolders 1000\nbytes 25000\n'), f'100,000 files: {wanted.text}')


def try_all(table: Table, given: argparse.Namespace) -> None:
    for part in (of_names, of_what_comes, of_sizes, of_faults, of_moments, of_large_trees, of_twice_the_catalog, of_hfsutils, of_unar, of_own_files, of_full_disks, of_kills, of_terminals):
        part(table)
    of_disks(table, [REAL_VOLUMES, *given.images])
    of_drawn_folders(table, given.seed, given.folders)
    of_drawn_disks(table, given.seed, given.disks)
    of_damaged_disks(table, given.seed, given.damaged)
    of_changed_bags(table, given.seed, given.bags)
    if table.is_large:
        of_very_large(table)


def main() -> int:
    parser = argparse.ArgumentParser(description=__doc__, formatter_class=argparse.RawDescriptionHelpFormatter)
    parser.add_argument('--folders', type=int, default=20, help='how many drawn folders')
    parser.add_argument('--disks', type=int, default=25, help='how many drawn disks')
    parser.add_argument('--damaged', type=int, default=6, help='how many disks with blocks damaged')
    parser.add_argument('--bags', type=int, default=30, help='how many bags with bytes changed')
    parser.add_argument('--seed', default='make')
    parser.add_argument('--large', action='store_true', help='also 2 GB, and 100,000 files')
    parser.add_argument('images', nargs='*', metavar='FOLDER', type=Path, help='folders of images that are taken apart and made again, too')
    given = parser.parse_args()
    given.images = [it.resolve() for it in given.images]
    sys.setrecursionlimit(10_000)
    bench, started, tables = Bench(), time.monotonic(), []

    def run() -> None:
        tables.append(Table(bench, given.large))
        try_all(tables[0], given)

    if not agrees_in_a_folder('make', run):
        return 1
    table = tables[0]
    bench.skipped += [] if shutil.which('fsck.hfs') else ['fsck.hfs']
    left_out = f'; left out: {", ".join(bench.skipped)}' if bench.skipped else ''
    print(f'{table.made} volumes made in {bench.runs} runs, {table.doubled} of them planned again, {table.returned} disks that came back, '
          f'in {time.monotonic() - started:.0f} s{left_out}')
    return 0


if __name__ == '__main__':
    sys.exit(main())
