#!/usr/bin/env python3
"""How many files are taken off damaged volumes, by `rescue` and by hcopy of hfsutils: ten damages of five volumes that hfsutils and
genisoimage made, three of tests/volumes and two that are made here.

tests/rescue_counts.py [--model] [--each]      runs $HFS_TOOL, or the program as it is built in crates/hfs_tool/out

For each damage a row: the files of the sound volumes; of those that `rescue` brings how many are right at their own paths (both
forks, byte for byte), right elsewhere, reported as damaged, reported as whole with wrong bytes, and how many are gone; `others` are old files
that were deleted. Then how many hcopy copies right, how many with wrong bytes and status 0, how many not, and how often it runs on
(more than two seconds), is ended by a signal, or refuses the whole volume. A block of the data that other bytes lie in can't be
noticed by any program, since HFS has no sums of it.
With --model the model in tests/remains runs in the program's place; with --each there is a row for each volume too. It needs
hfsutils and genisoimage, takes minutes, and is part of no gate.
"""
import argparse
import os
import random
import shutil
import signal
import subprocess
import sys
import tempfile
from collections import Counter
from dataclasses import dataclass
from pathlib import Path

from catalog_records import FILE, Catalog
from driver.image import Extent
from remains.bag import Remains, Source
from remains.blocks import BLOCK, decode, number
from remains.places import host_name
from remains.runs import TOOL, found_in, remove

HERE = Path(__file__).resolve().parent
DOUBLE_HEAD = 82
HCOPY_SECONDS = 2
# After so many runs of hcopy that ran on, no more files of an image are asked for.
MOST_HANGS = 3
COLUMNS = ['files', 'right', 'elsewhere', 'told damaged', 'whole, but wrong', 'gone', 'others', 'hcopy right', 'wrong', 'not', 'runs on', 'signals', 'refused']


@dataclass(frozen=True)
class File:
    """A file of a sound volume: the names down to it, and both forks."""
    id: int
    names: tuple[bytes, ...]
    data: bytes
    resource: bytes

    @property
    def path(self) -> str:
        return '/'.join(map(host_name, self.names))


def files_of(image: bytes) -> list[File]:
    catalog = Catalog(image)

    def names(record):
        above = () if record.parent == 2 else names(catalog.by_id[record.parent])
        return (*above, record.name)

    return [File(it.id, names(it), *catalog.forks(it)) for it in catalog.files]


# ---- volumes

def by_hfsutils(folder: Path) -> bytes:
    """A floppy on which files came and went, so that forks lie in pieces, with 90 files in folders."""
    image, home, chance = folder / 'floppy.img', {**os.environ, 'HOME': str(folder)}, random.Random(1)
    image.write_bytes(bytes(1_440 * 1_024))

    def do(*words):
        subprocess.run([str(it) for it in words], env=home, check=True, cwd=folder, stdout=subprocess.DEVNULL)

    do('hformat', '-l', 'Pieces', image)
    do('hmount', image)
    for n in range(6):
        do('hmkdir', f':Folder {n}')
    kept = []
    for n in range(150):
        (folder / 'bytes').write_bytes(random.Random(n).randbytes(chance.randrange(14_000)))
        path = f':Folder {n % 6}:file {n:03}' if n % 5 else f':file {n:03}'
        do('hcopy', '-r', 'bytes', path)
        kept.append(path)
        if len(kept) > 60 and n % 5 < 3:
            do('hdel', kept.pop(chance.randrange(len(kept))))
    do('humount')
    return image.read_bytes()


def by_genisoimage(folder: Path) -> bytes:
    """The HFS volume of a disc: 120 files of up to 40,000 bytes."""
    tree, chance = folder / 'tree', random.Random(2)
    for n in range(120):
        above = tree / f'Part {n % 7}' / f'Chapter {n % 3}'
        above.mkdir(parents=True, exist_ok=True)
        (above / f'Page {n}').write_bytes(random.Random(1_000 + n).randbytes(chance.randrange(40_000)))
    subprocess.run(['genisoimage', '-quiet', '-hfs', '-V', 'Disc', '-o', folder / 'disc.iso', tree], check=True, stdout=subprocess.DEVNULL, stderr=subprocess.DEVNULL)
    return (folder / 'disc.iso').read_bytes()


# ---- damages

class Damages:
    """A sound volume, and where the parts of it lie that are damaged."""

    def __init__(self, image: bytes):
        self.image, self.catalog = image, Catalog(image)
        tree = self.catalog.image.catalog
        self.header, self.nodes = tree.blocks[0], tree
        self.leaves = list(tree.leaves())
        self.middle = tree.blocks[self.leaves[len(self.leaves) // 2]]

    def other(self, *changes: tuple[int, bytes]) -> bytes:
        content = bytearray(self.image)
        for at, value in changes:
            content[at:at + len(value)] = value
        return bytes(content)

    def all(self):
        image, tree = self.catalog.image, self.nodes
        yield 'a wrong count', self.other((2 * BLOCK + 84, (number(self.image, 2 * BLOCK + 84, 4) + 1).to_bytes(4, 'big')))
        yield 'a bullet in a name', self.other((self.name_place(), b'\xa5'))
        yield 'no directory in block 2', self.other((2 * BLOCK, bytes(BLOCK)))
        yield 'no header node of the catalog', self.other((self.header * BLOCK, bytes(BLOCK)))
        yield 'no root node of the catalog', self.other((tree.blocks[tree.root] * BLOCK, bytes(BLOCK)))
        yield 'a leaf is lost', self.other((self.middle * BLOCK, bytes(BLOCK)))
        yield 'a leaf leads to itself', self.other((self.middle * BLOCK, self.leaves[len(self.leaves) // 2].to_bytes(4, 'big')))
        yield 'no extents tree', self.other((image.extents_tree.blocks[0] * BLOCK, bytes(2 * BLOCK)))
        yield 'the last quarter is cut off', self.image[:len(self.image) * 3 // 4 // BLOCK * BLOCK]
        used = sorted({it for blocks in image.file_blocks.values() for it in blocks})
        lost = used[len(used) // 3:len(used) // 3 + 6]
        yield 'six blocks of files with other bytes', self.other(*((block * BLOCK, b'\xf6' * BLOCK) for block in image.logical([Extent(it, 1) for it in lost])))

    def name_place(self) -> int:
        """The first character of a name, that of the file in the middle of the catalog."""
        middle = self.catalog.files[len(self.catalog.files) // 2]
        key = bytes([6 + len(middle.name), 0]) + middle.parent.to_bytes(4, 'big') + bytes([len(middle.name)]) + middle.name
        blocks = [self.nodes.blocks[it] for it in self.leaves]
        records = [record for block in blocks for record in decode(self.image[block * BLOCK:(block + 1) * BLOCK]).records]
        record = next(it for it in records if it[1:len(key)] == key[1:] and it[-102] == FILE)
        return self.image.index(record) + 7


# ---- what comes off

def rescued(image: bytes, folder: Path, by_model: bool) -> tuple[list[list[str]], dict]:
    """The lines of the items, and the files of the payload."""
    if by_model:
        wanted = Remains(image).rescued(Source('refused\n'))
        return [line.split('\t') for line in wanted.lines.splitlines()], {it.path: it.content for it in wanted.written}
    path, bag = folder / 'image', folder / 'bag'
    path.write_bytes(image)
    run = subprocess.run([TOOL, 'rescue', path, bag], capture_output=True, timeout=600)
    if run.returncode not in (0, 3):
        return [], {}
    found = found_in(bag)
    remove(bag)
    return [line.split('\t') for line in found['rescue.tsv'].decode().splitlines()], found


def count_rescued(counts: Counter, files: list[File], lines: list[list[str]], written: dict) -> None:
    by_id: dict[int, list[list[str]]] = {}
    for line in lines:
        if line[3] != '-':
            by_id.setdefault(int(line[2]), []).append(line)
    counts['others'] += sum(map(len, by_id.values())) - sum(len(by_id.get(file.id, [])) for file in files)
    for file in files:
        found = set()
        for path, _, _, data, resource in by_id.get(file.id, []):
            folder, slash, entry = path.rpartition('/')
            double = written.get(f'data/{folder}{slash}._{entry}', b'')
            is_right = (written.get(f'data/{path}'), double[DOUBLE_HEAD:]) == (file.data, file.resource)
            is_told = (data, resource) != ('whole', 'whole')
            found.add('told damaged' if is_told else 'whole, but wrong' if not is_right else 'right' if path == file.path else 'elsewhere')
        counts[next((it for it in ('right', 'elsewhere', 'whole, but wrong', 'told damaged') if it in found), 'gone')] += 1


def count_copied(counts: Counter, files: list[File], image: bytes, folder: Path) -> None:
    """What hcopy copies of a volume."""
    home = {**os.environ, 'HOME': str(folder)}
    path, copy = folder / 'image', folder / 'copy.bin'
    path.write_bytes(image)
    try:
        mounted = subprocess.run(['hmount', path], env=home, capture_output=True, timeout=HCOPY_SECONDS).returncode
    except subprocess.TimeoutExpired:
        mounted = 1
    if mounted:
        counts['refused'] += 1
        counts['not'] += len(files)
        return
    hangs = 0
    for file in files:
        copy.unlink(missing_ok=True)
        name = b':' + b':'.join(file.names)
        escaped = b''.join(b'\\' + bytes([it]) if it in b'*?[]{}\\' else bytes([it]) for it in name)
        if hangs == MOST_HANGS:
            counts['not'] += 1
            continue
        try:
            status = subprocess.run([b'hcopy', b'-m', escaped, os.fsencode(copy)], env=home, capture_output=True, timeout=HCOPY_SECONDS).returncode
        except subprocess.TimeoutExpired:
            hangs += 1
            counts['runs on'] += 1
            counts['not'] += 1
            continue
        counts['signals'] += status in (-signal.SIGSEGV, -signal.SIGABRT, -signal.SIGBUS, -signal.SIGFPE)
        content = copy.read_bytes() if status == 0 and copy.exists() else b''
        if not content:
            counts['not'] += 1
            continue
        length = number(content, 83, 4)
        start = 128 + -(-length // 128) * 128
        forks = content[128:128 + length], content[start:start + number(content, 87, 4)]
        counts['hcopy right' if forks == (file.data, file.resource) else 'wrong'] += 1
    subprocess.run(['humount'], env=home, capture_output=True)


def row(what: str, counts: Counter) -> str:
    return f'| {what} | ' + ' | '.join(str(counts[it]) for it in COLUMNS) + ' |'


def main() -> int:
    parser = argparse.ArgumentParser(description=__doc__, formatter_class=argparse.RawDescriptionHelpFormatter)
    parser.add_argument('--model', action='store_true', help='the model in the place of the program')
    parser.add_argument('--each', action='store_true', help='a row for each volume')
    words = parser.parse_args()
    lacking = [it for it in ('hmount', 'genisoimage') if not shutil.which(it)]
    if lacking or not words.model and not Path(TOOL).is_file():
        print(f'{lacking or TOOL} is not there')
        return 1
    with tempfile.TemporaryDirectory() as name:
        folder = Path(name)
        volumes = {it: (HERE / 'volumes' / f'{it}.img').read_bytes() for it in ('hfsutils-800k', 'hfsutils-1440k-names', 'genisoimage-locked')}
        volumes |= {'a floppy in pieces': by_hfsutils(folder), 'a disc': by_genisoimage(folder)}
        rows: dict[str, Counter] = {}
        for volume, image in volumes.items():
            files = files_of(image)
            for what, damaged in [('none', image), *Damages(image).all()]:
                counts = Counter(files=len(files))
                count_rescued(counts, files, *rescued(damaged, folder, words.model))
                count_copied(counts, files, damaged, folder)
                rows.setdefault(what, Counter()).update(counts)
                if words.each:
                    print(row(f'{volume}: {what}', counts), flush=True)
        print('\n'.join(['| damage | ' + ' | '.join(COLUMNS) + ' |', '|---|' + '---:|' * len(COLUMNS)]))
        for what, counts in rows.items():
            print(row(what, counts))
        print(row('all ten', sum((counts for what, counts in rows.items() if what != 'none'), Counter())))
    return 0


if __name__ == '__main__':
    sys.exit(main())
