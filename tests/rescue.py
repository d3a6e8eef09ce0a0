#!/usr/bin/env python3
"""What `rescue` takes off damaged images, compared with a model of its rules in tests/remains, which shares no line with the program:
for each image the status, the lines printed, and each folder and file of the bag with its bytes, by the image's path and from a
pipe, and with `--list`.

The images: worked examples whose lines are here, written by hand; images for one rule each, with rows by hand; the damages
of tests/damaged.sh, of tests/volumes/images.txt, of tests/hostile_images.py; the volumes in tests/volumes, sound (when the payload
is that of `take`) and inside other files; images that claim much more than they hold, within bounds of time and text; and images
changed at random. Also: folders that are there already, or can't be written, or have no room, words that are refused, and each step of
writing and each reading that fails, which strace does. And the memory that large images take, by their paths.

tests/rescue.py [--seconds N] [--seed N] [--large] [--all] [--only WORD]      runs $HFS_TOOL, or the program as it is built in crates/hfs_tool/out

Images are changed at random for N seconds. With --large the images that claim much are as large as they were made for, else
small ones. It prints what it counted; at a difference it says which, leaves the image in rescue.kept, and ends with status 1.
"""
import argparse
import csv
import gzip
import io
import math
import os
import re
import resource
import shutil
import subprocess
import sys
import tempfile
import time
from pathlib import Path
from typing import Optional

import hostile_images
from driver.wanted import Difference, ensure
from images import SMALL, edited
from remains import bombs, cases, chance
from remains.bag import Remains, Source
from remains.runs import PIPE, TOOL, Bench, ensure_info, found_in, remove, same_text
from volumes import WRAPPINGS, entry, in_disk_copy
from volumes import content as looked_into
from volumes import found as volumes_in

HERE = Path(__file__).resolve().parent
VOLUMES = HERE / 'volumes'
BLOCK = 512
# The bytes of a large image.
LARGE = 200 << 20
# How many times slower than usual the program may be: one that was built without optimizing is.
SLOWNESS = float(os.environ.get('RESCUE_SLOWNESS') or 1)
# The processor time that an image which claims much may take, for each megabyte of it and of what is written.
SECONDS_FOR_ALL, SECONDS_FOR_MEGABYTE = 0.5, 0.5


def with_bytes(image: bytes, *changes: tuple[int, bytes]) -> bytes:
    """An image with other bytes at these places."""
    content = bytearray(image)
    for at, value in changes:
        content[at:at + len(value)] = value
    return bytes(content)


def small_volume(name: str) -> bytes:
    return gzip.decompress((VOLUMES / 'small' / f'{SMALL.get(name, name)}.img.gz').read_bytes())


def made(bench: Bench, nodes: int, calls: str) -> bytes:
    """A new volume of 64 blocks, after these calls."""
    image, script = bench.folder / 'made', bench.folder / 'calls'
    same_text(bench.told('new', image, 'D', 64, nodes, 2), (0, b''), 'new')
    if calls:
        script.write_text(''.join(f'1\t{it}\n' for it in calls.split(';')), 'ascii')
        status, text = bench.told('run', image, script, '--out', image)
        ensure(status == 0 and all(line.split(b'\t')[2] == b'0' for line in text.splitlines()), f'the calls of a new volume: {text!r}')
        script.unlink()
    content = image.read_bytes()
    image.unlink()
    return content


def place_of(image: bytes, record: bytes, first_block: int = 4) -> int:
    """Where the one record with these bytes stands."""
    place = image.index(record, first_block * BLOCK)
    ensure(image.find(record, place + 1) < 0, f'{record!r} stands there twice')
    return place


def key(parent: int, name: bytes) -> bytes:
    return bytes([6 + len(name), 0]) + parent.to_bytes(4, 'big') + bytes([len(name)]) + name


# ---- worked examples

def worked(bench: Bench):
    """Images with what is printed of them, and the lines of their items."""
    laid = small_volume('OneFile')
    two = made(bench, 6, 'create\t2\ta;create\t2\tb')
    yield ('a name in two cases', with_bytes(two, (place_of(two, key(2, b'b')) + 7, b'A')), None, 0,
           'refused check C8 at 3|directory 2|files 2|folders 0|bytes 164|whole 2|damaged 0',
           '\t0\t2\t-\t-\na\t1\t16\twhole\twhole\nA=r2\t2\t17\twhole\twhole\n')
    yield ('no directory in block 2', with_bytes(laid, (2 * BLOCK, bytes(BLOCK))), None, 0,
           'refused not an HFS volume (-57)|directory 62|files 1|folders 0|bytes 2082|whole 1|damaged 0',
           '\t0\t2\t-\t-\nf\t1\t16\twhole\twhole\n')
    beyond = bytes.fromhex('fff00006 00000000 00000000')
    yield ('a catalog beyond the volume', with_bytes(laid, (2 * BLOCK + 150, beyond), (62 * BLOCK + 150, beyond)), None, 3,
           'refused check C4 at 0|directory 2|files 1|folders 0|bytes 2082|whole 1|damaged 0',
           '\t0\t2\t-\t-\n=old/f\t1\t16\twhole\twhole\n')
    yield ('no extents tree, and no header node of the catalog', with_bytes(laid, (4 * BLOCK, bytes(3 * BLOCK))), None, 3,
           'refused check C3 at 0|directory 2 unsure|files 1|folders 0|bytes 1618|whole 0|damaged 1',
           '\t0\t2\t-\t-\nf\t1\t16\tcut 1536\twhole\n')
    yield ('cut to 20 blocks', laid[:20 * BLOCK], None, 3,
           'refused bad master directory block M4 (-60)|directory 2|files 1|folders 0|bytes 2082|whole 0|damaged 1',
           '\t0\t2\t-\t-\nf\t1\t16\tmissing 464\twhole\n')
    yield ('a block twice', with_bytes(laid, (place_of(laid, bytes.fromhex('0010 0001 00000000 00000000')), b'\0\x0e')), None, 3,
           'refused check C12 at 14|directory 2|files 1|folders 0|bytes 2082|whole 0|damaged 1',
           '\t0\t2\t-\t-\nf\t1\t16\tshared\twhole\n')
    yield ('a limit', laid, 1_999, 3, 'sound|directory 2|files 1|folders 0|bytes 82|whole 0|damaged 1', '\t0\t2\t-\t-\nf\t1\t16\tleft\twhole\n')
    yield ('a limit that is enough', laid, 2_000, 0, 'sound|directory 2|files 1|folders 0|bytes 2082|whole 1|damaged 0', '\t0\t2\t-\t-\nf\t1\t16\twhole\twhole\n')
    old = hostile_images.node(hostile_images.LEAF, 1, [hostile_images.file(2, 'h', 30, 100, [(10, 1)])])
    yield ('a leaf that is not in use', with_bytes(laid, (6 * BLOCK + 14 + 6, b'\0\0\0\4'), (8 * BLOCK, old)), None, 3,
           'refused check C4 at 0|directory 2|files 2|folders 0|bytes 2264|whole 1|damaged 1',
           '\t0\t2\t-\t-\nf\t1\t16\twhole\twhole\n=old/h\t2\t30\tshared\twhole\n')
    deep = made(bench, 40, 'mkdir\t2\tx;mkdir\t16\ty;mkdir\t17\tz;create\t18\tf;create\t2\tg')
    yield ('a ring of folders', with_bytes(deep, (place_of(deep, key(2, b'x')) + 2, b'\0\0\0\x11')), None, 0,
           'refused check C8 at 3|directory 2|files 2|folders 3|bytes 410|whole 2|damaged 0',
           '\t0\t2\t-\t-\ng\t1\t20\twhole\twhole\n=lost/17/x\t2\t16\t-\t-\n=lost/16/y\t3\t17\t-\t-\n=lost/17/z\t4\t18\t-\t-\n=lost/17/z/f\t5\t19\twhole\twhole\n')
    yield ('a record of no kind', with_bytes(deep, (place_of(deep, key(16, b'y')) + 8, b'\x09')), None, 3,
           'refused check C5 at 5|directory 2|files 2|folders 2|bytes 328|whole 2|damaged 0',
           '\t0\t2\t-\t-\ng\t1\t20\twhole\twhole\nx\t2\t16\t-\t-\nx/y/z\t3\t18\t-\t-\nx/y/z/f\t4\t19\twhole\twhole\n')


# The Mac paths of their items, in order.
MAC_PATHS = {
    'a name in two cases': ['D', 'D:a', 'D:A'],
    'no directory in block 2': ['D', 'D:f'],
    'a catalog beyond the volume': ['D', ''],
    'a leaf that is not in use': ['D', 'D:f', ''],
    'a ring of folders': ['D', 'D:g', '', '', '', ''],
    'a record of no kind': ['D', 'D:g', 'D:x', 'D:x:y:z', 'D:x:y:z:f'],
}


def ensure_table(table: str, lines: str, paths: Optional[list[str]], what: str) -> None:
    """Each row has at its end the path of its line of rescue.tsv, and at its beginning the Mac path, where that is told here."""
    rows = list(csv.reader(io.StringIO(table, newline=''), strict=True))
    ensure(rows[0][0] == 'path' and rows[0][-1] == 'bag_path', f'{what}: the head of items.csv')
    ensure([row[-1] for row in rows[1:]] == [line.split('\t')[0] for line in lines.splitlines()], f'{what}: the paths below data in items.csv')
    ensure(paths is None or [row[0] for row in rows[1:]] == paths, f'{what}: the Mac paths are {[row[0] for row in rows[1:]]}')


def try_worked(bench: Bench) -> None:
    for what, image, limit, status, printed, lines in worked(bench):
        wanted = bench.attempt(image, what, limit=limit)
        text = printed.replace('|', '\n') + '\n'
        ensure((wanted.status, wanted.printed, wanted.lines) == (status, text, lines), f'{what}: the model tells {wanted.status} {wanted.listed!r}')
        files = {it.path: it.content for it in wanted.written}
        ensure_table(files['items.csv'].decode(), lines, MAC_PATHS.get(what), what)
        if what == 'cut to 20 blocks':
            ensure(files['data/f'][-464:] == bytes(464) and any(files['data/f'][-465:]), 'zeros for a block that is missing')
        if what == 'a limit':
            ensure('data/f' not in files and len(files['data/._f']) == 82, 'a fork that is left')
        if what == 'a record of no kind':
            ensure('data/x/y' in files and 'data/x/._y' not in files, 'a folder that a thread alone names')
        if what == 'no directory in block 2':
            told = files['volume.txt'].decode()
            ensure(told.startswith('drSigWord 4244\n') and told.endswith('\nrefused not an HFS volume (-57)\n'), 'volume.txt')
        bench.attempt(image, what, bags='f', lists='', limit=limit, has_digest=False)


def ways(number: int) -> tuple[str, str]:
    """How the bag of an image is made, by its path, of which is read what is needed, and out of a pipe, which is held; and how it is listed: by
    turns."""
    return ('fp', 'f' if number % 2 else 'p')


def try_cases(bench: Bench) -> None:
    """An image for each rule, with rows by hand."""
    for number, it in enumerate(cases.all_cases()):
        wanted = bench.attempt(it.image, it.name, *ways(number), limit=it.limit)
        paths = {written.path for written in wanted.written}
        lines = ''.join(row.replace('|', '\t') + '\n' for row in it.rows)
        ensure(wanted.lines == lines, f'{it.name}: the model tells {wanted.lines!r}')
        ensure(wanted.printed.split('\n')[1] == it.directory and it.status in (None, wanted.status), f'{it.name}: the model tells {wanted.status} {wanted.printed!r}')
        if it.mac_paths:
            table = next(written.content for written in wanted.written if written.path == 'items.csv')
            ensure_table(table.decode(), lines, it.mac_paths, it.name)
        ensure(all(f'data/{path}' in paths for path in it.folders) and not any(f'data/{path}' in paths for path in it.absent), f'{it.name}: other folders')


# ---- damages

def shell_damages():
    """The damages of tests/damaged.sh: a place in the floppy's catalog, and bytes."""
    text = (HERE / 'damaged.sh').read_text()
    value = lambda words: sum(math.prod(map(int, it.split('*'))) for it in words.split('+'))
    catalog = value(re.search(r'^catalog=\$\(\((.*?)\)\)', text, re.M)[1])
    for what, place, content in re.findall(r"^tell '(.*)' (?:\$\(\((.*?)\)\)|0) '(.*)'", text, re.M):
        yield what, catalog + value(place or '0'), bytes(int(it, 8) for it in content.split('\\')[1:])


def try_damages(bench: Bench) -> None:
    floppy = (VOLUMES / 'hfsutils-800k.img').read_bytes()
    for what, place, content in shell_damages():
        bench.attempt(with_bytes(floppy, (place, content)), f'damaged.sh: {what}')
    for name in sorted(it.name for it in VOLUMES.glob('*.img')):
        content = (VOLUMES / name).read_bytes()
        wanted = bench.attempt(content, name, bags='f' if 'names' in name else 'fp')
        ensure(wanted.printed.endswith('damaged 0\n'), f'{name}: {wanted.printed!r}')
        ensure_info(content[1024:1536])
    for name in ('new_volume', 'cut_file', 'two_levels', 'ring'):
        bench.attempt(getattr(hostile_images, name)(), f'hostile images: {name}')
    for levels in (16, 17):
        bench.attempt(hostile_images.deep(levels), f'hostile images: {levels} levels')


def try_listed(bench: Bench) -> None:
    """The images of tests/volumes/images.txt."""
    bases = {name: small_volume(name) for name in SMALL} | {'New': made(bench, 6, ''), 'Nothing': b''}
    for number, line in enumerate((VOLUMES / 'images.txt').read_text('ascii').splitlines(), 1):
        word, _, behind = line.partition(' ')
        if not line or line.startswith('#') or word == 'test':
            continue
        if word == 'volume':
            about, edits = behind.split(';')
            name, base = about.split(' ')
            bases[name] = edited(bases[base], edits)
            continue
        about, edits, _ = (part.strip(' ') for part in line.split(';', 2))
        bench.attempt(edited(bases[about.split(' ')[-1]], edits), f'images.txt, line {number}', *ways(number))


# ---- laws and words

def try_sound(bench: Bench) -> None:
    """Of sound images the payload is that of `take`."""
    images = {name: small_volume(name) for name in SMALL} | {it.name: it.read_bytes() for it in VOLUMES.glob('*.img') if not it.name.startswith('refused')}
    images['items'] = made(bench, 40, 'mkdir\t2\ta/b;create\t16\t.x;create\t2\tA,"b\\;create\t2\tcon.c;newid\t2\tA,"b\\;setinfo\t2\tcon.c\t1\t3029529600\t4294967295\t'
                           + '0123456789abcdef' * 4)
    for name, content in images.items():
        path, taken, rescued = (bench.folder / it for it in ('image', 'taken', 'rescued'))
        path.write_bytes(content)
        ensure(bench.told('take', path, taken)[0] == 0 and bench.told('rescue', path, rescued)[0] == 0, f'{name} is not taken, or not whole')
        ensure(found_in(taken / 'data') == found_in(rescued / 'data'), f'{name}: take and rescue differ')
        written = {f'data/{it}' for it in found_in(rescued / 'data')} | {'data'}
        remains = Remains(content)
        ensure(written == {it.path for it in remains.payload.written}, f'{name}: the model differs from take')
        for it in (path, taken, rescued):
            remove(it)
    bench.counts.sound = len(images)


def try_volumes(bench: Bench) -> None:
    """A volume inside another file is read as the bytes that are cut out; one that holds no volume, too."""
    laid = small_volume('OneFile')
    lost = with_bytes(laid, (2 * BLOCK, bytes(BLOCK)))
    for n, content in enumerate([*(wrap(laid) for _, wrap in WRAPPINGS), in_disk_copy(lost), bytes(BLOCK) + entry(1, 2, 64, b'Apple_HFS') + lost]):
        path = bench.folder / f'file {n}'
        path.write_bytes(content)
        for number, (_, start, size, _) in enumerate(volumes_in(content), 1):
            with bench.watching(path):
                try_volume(bench, path, number, content, looked_into(content)[0][start:start + size])
            bench.counts.images += 1
        same_text(bench.told('rescue', path, bench.folder / 'bag', '--volume', 9), (2, b'no volume 9\n'), 'a volume that there is not')
        path.unlink()


def try_volume(bench: Bench, path: Path, number: int, content: bytes, volume: bytes) -> None:
    """The volume of that number in a file."""
    bag, remains, what = bench.folder / 'bag', Remains(volume), f'volume {number} of {path.name}'
    remove(bag)
    fields = bench.told('volumes', path)[1].decode().splitlines()[number - 1].split('\t')
    line, checked = ' '.join(fields), bench.told('check', path, '--volume', number)[1].decode()
    for source, given in ((path, None), (PIPE, content)):
        wanted = remains.rescued(Source(checked, Path(source).name, line))
        errors = f'{source}: the sum of the disk copy is wrong\n' if 'sum wrong' in fields else ''
        same_text(bench.told('rescue', source, '--list', '--volume', number, given=given, errors=errors), (wanted.status, wanted.listed.encode()), what)
        same_text(bench.told('rescue', source, bag, '--volume', number, given=given, errors=errors), (wanted.status, wanted.printed.encode()), what)
        bench.compare_bag(bag, wanted, what)
        remove(bag)


def is_refused(*words) -> None:
    """Words that no run takes: status 1, and nothing but the reason, on standard error."""
    run = subprocess.run([TOOL, 'rescue', *map(str, words)], stdin=subprocess.DEVNULL, capture_output=True, timeout=600)
    ensure(run.returncode == 1, f'rescue {words} ends with {run.returncode}: {run.stdout!r}')


def try_words(bench: Bench) -> None:
    here = bench.folder / 'here'
    here.mkdir()
    (here / 'P').write_bytes(small_volume('OneFile'))
    (here / 'none').write_bytes(bytes(4_096))
    for words in ((), ('P', ), ('P', 'out', '--list'), ('P', '--list', '--no-digest'), ('P', 'out', '--limit', '-1'), ('P', 'out', '--limit', 'x'),
                  ('P', 'out', '--limit', 2 ** 64), ('P', 'out', '--limit'), ('P', 'out', 'more'), ('P', 'out', '--volume', '-1')):
        is_refused(*words)

    def want(status: int, text: str, *words) -> None:
        before = sorted(it.name for it in here.iterdir())
        same_text(bench.told('rescue', *words, cwd=here), (status, text.encode()), f'rescue {words}')
        ensure(sorted(it.name for it in here.iterdir()) == before, f'rescue {words} leaves something')

    (here / 'folder').mkdir()
    (here / 'file').write_bytes(b'')
    (here / 'link').symlink_to('nothing')
    for name in ('folder', 'file', 'link'):
        want(4, f'{name} is there already\n', 'P', name)
        want(2, 'not an HFS volume (-57)\n', 'none', name)
        want(2, 'no volume 2\n', 'P', name, '--volume', 2)
    want(4, 'folder is there already\n', 'P', 'folder//')
    want(4, '/ is there already\n', 'P', '///')
    want(2, 'not an HFS volume (-57)\n', 'none', '--list')
    want(2, 'no volume 2\n', 'P', '--list', '--volume', 2)
    with open(here / 'large', 'wb') as file:
        file.truncate(2 ** 31 + 1)
    want(2, 'image too large\n', 'large', '--list')
    (here / 'large').unlink()
    want(4, 'cannot read absent\n', 'absent', 'out')
    want(4, 'cannot read absent\n', 'absent', '--list')
    want(4, 'cannot read folder\n', 'folder', 'out')
    want(2, 'image too short\n', '/dev/null', 'out')
    want(4, 'cannot write lacking/out.0.new\n', 'P', 'lacking/out')
    for length in (0, 1, 1_535):
        (here / 'none').write_bytes(bytes(length))
        want(2, 'image too short\n', 'none', 'out')
    (here / 'out.0.new').mkdir()
    left = 'out.0.new is there, left by a run that was stopped\n'
    ensure(bench.told('rescue', 'P', 'out', cwd=here, errors=left)[0] == 0 and sorted(it.name for it in here.glob('out*')) == ['out', 'out.0.new'], 'a name that is taken beside the bag')
    try_unwritable(bench, here)
    try_full(bench, here)


def try_unwritable(bench: Bench, here: Path) -> None:
    if os.geteuid() or not shutil.which('setpriv'):
        bench.counts.skipped.append('a folder without leave')
        return
    closed = here / 'closed'
    closed.mkdir(mode=0o555)
    bench.folder.chmod(0o755)
    nobody = ['setpriv', '--reuid=65534', '--regid=65534', '--clear-groups']
    run = subprocess.run([*nobody, TOOL, 'rescue', here / 'P', closed / 'bag'], capture_output=True, text=True, timeout=600)
    ensure((run.returncode, run.stdout) == (4, f'cannot write {closed}/bag.0.new\n') and not list(closed.iterdir()), f'a folder without leave: {run}')


def try_full(bench: Bench, here: Path) -> None:
    """A device without room: the path that failed is told, and nothing is left."""
    disk, image = here / 'disk', here / 'names'
    disk.mkdir()
    content = (VOLUMES / 'hfsutils-1440k-names.img').read_bytes()
    image.write_bytes(content)
    paths = {f'cannot write {disk}/bag.0.new/{it.path}\n' for it in Remains(content).rescued(Source('sound')).written}
    for size in ('64k', '400k', '1200k'):
        if subprocess.run(['mount', '-t', 'tmpfs', '-o', f'size={size}', 'tmpfs', disk], capture_output=True).returncode:
            bench.counts.skipped.append('a full device')
            return
        try:
            status, text = bench.told('rescue', image, disk / 'bag')
            ensure(status == 4 and text.decode() in paths and not list(disk.iterdir()), f'a full device: {status} {text!r}')
        finally:
            subprocess.run(['umount', disk], check=True)


def try_failing(bench: Bench) -> None:
    """Each step of writing and each reading of an image fails once: its path is told, and nothing is left."""
    if not shutil.which('strace') or subprocess.run(['strace', '-o', '/dev/null', 'true'], capture_output=True).returncode:
        bench.counts.skipped.append('steps that fail')
        return
    deep = made(bench, 40, 'mkdir\t2\tx;mkdir\t16\ty;create\t17\tf;create\t2\tg')
    for content in (small_volume('OneFile'), with_bytes(deep, (place_of(deep, key(16, b'y')) + 8, b'\x09'))):
        Failing(bench, content).try_all()


class Failing:
    """Runs on an image in which calls of the system fail, which strace makes them do."""

    def __init__(self, bench: Bench, content: bytes):
        self.bench, self.here = bench, bench.folder / 'failing'
        self.here.mkdir(exist_ok=True)
        self.image, self.bag = self.here / 'image', self.here / 'bag'
        self.image.write_bytes(content)
        self.whole = Remains(content).rescued(Source(bench.checked(self.image), 'image'))

    def run(self, calls: str, how: str, path: Optional[Path] = None) -> tuple[int, str]:
        words = ['strace', '-f', '-qq', '-o', self.here / 'calls', *(('-P', path) if path else ()), '-e', f'trace={calls}', '-e', f'inject={calls}:{how}']
        ran = subprocess.run([*words, TOOL, 'rescue', self.image, self.bag], capture_output=True, text=True, timeout=600)
        left = sorted(it.name for it in self.here.iterdir() if it.name not in ('image', 'calls'))
        ensure(left == ['bag'] * (ran.returncode in (0, 3)), f'{calls} of {path} fail: {left} is left')
        remove(self.bag)
        return ran.returncode, ran.stdout

    def want(self, wanted: tuple[int, str], calls: str, how: str, path: Optional[Path] = None) -> None:
        found = self.run(calls, how, path)
        ensure(found == wanted, f'{calls} of {path} fail: {found} in place of {wanted}')
        self.bench.counts.failed += 1

    def try_all(self) -> None:
        wanted = self.whole.status, self.whole.printed
        self.want(wanted, '?utimensat,?futimesat,?utime,?utimes', 'error=EPERM')
        steps = [(Path(f'{self.bag}.0.new'), None), *((Path(f'{self.bag}.0.new') / it.path, it.content) for it in self.whole.written)]
        for path, content in steps:
            self.want((4, f'cannot write {path}\n'), '?mkdir,?mkdirat' if content is None else '?open,?openat,?creat', 'error=ENOSPC', path)
            if content:
                self.want((4, f'cannot write {path}\n'), '?write,?writev,?pwrite64', 'error=ENOSPC', path)
        self.want((4, f'cannot write {self.bag}\n'), '?rename,?renameat,?renameat2', 'error=EIO')
        number = 1
        while (found := self.run('?read,?pread64,?readv,?preadv', f'error=EIO:when={number}', self.image)) != wanted:
            ensure(found == (4, f'cannot read {self.image}\n'), f'reading {number} of the image fails: {found}')
            self.bench.counts.failed += 1
            number += 1
        ensure(number > 1, 'no reading of the image fails')


# ---- memory

# Runs words, and tells the most memory that they took: in a process of its own, since what a process has before it runs them counts as theirs.
LAUNCHED = 'import resource, subprocess, sys; ran = subprocess.run(sys.argv[1:]); print(resource.getrusage(resource.RUSAGE_CHILDREN).ru_maxrss, file=sys.stderr); sys.exit(ran.returncode)'


def measured(*words) -> tuple[int, str, int]:
    """The status of a run, what it prints, and the most memory that it takes, in MB."""
    run = subprocess.run([sys.executable, '-c', LAUNCHED, TOOL, *map(str, words)], stdin=subprocess.DEVNULL, capture_output=True, text=True, timeout=600)
    return run.returncode, run.stdout, int(run.stderr) // 1_024


def try_memory(bench: Bench) -> None:
    """Of a large image in a file what is needed is read: of a sound one, of one that is refused for a name alone, of one whose catalog doesn't pass
    its check but has its records, and where the copy of the directory serves; without a header of the catalog it is loaded whole. Each bag is that of
    the image out of a pipe."""
    image, script = bench.folder / 'large', bench.folder / 'calls'
    same_text(bench.told('new', image, 'D', LARGE // BLOCK, 64, 8), (0, b''), 'a large volume')
    script.write_text('1\tcreate\t2\tsome\n1\tmkdir\t2\tmore\n1\tcreate\t17\tother\n', 'ascii')
    status, text = bench.told('run', image, script, '--out', image)
    ensure(status == 0 and all(line.split(b'\t')[2] == b'0' for line in text.splitlines()), f'the calls of a large volume: {text!r}')
    with image.open('rb') as file:
        front = file.read(16 << 20)
    name = place_of(front, key(2, b'some')) + 7
    trees = [it for it in range(0, len(front), BLOCK) if front[it + 8:it + 12] == b'\1\0\0\3']
    ensure(len(trees) == 2, 'the header nodes of a large volume')
    few, many = 40, LARGE >> 19
    for what, place, value, fault, most in (('a large image', 0, front[:1], 'sound\n', few), ('a name', name, b'\r', 'refused check C7 at ', few),
                                            ('a count of records', trees[1] + 0x23, b'\x63', 'refused check ', few),
                                            ('no directory', 1_024, b'\0', 'refused not an HFS volume', few),
                                            ('no header', trees[1], bytes(BLOCK), 'refused check C4 at 0\n', many)):
        before = front[place:place + len(value)]
        lay(image, place, value)
        try_large(bench, image, what, fault, most)
        lay(image, place, before)
        bench.counts.images += 1
    image.unlink()


def lay(image: Path, place: int, value: bytes) -> None:
    """Writes bytes into an image."""
    with image.open('r+b') as file:
        file.seek(place)
        file.write(value)


def try_large(bench: Bench, image: Path, what: str, fault: str, most: int) -> None:
    """A large image by its path, within so many MB, and out of a pipe."""
    bag = bench.folder / 'bag'
    status, text, memory = measured('rescue', image, bag, '--no-digest')
    ensure(text.startswith(fault) and status in (0, 3), f'{what}: {status} {text!r}')
    ensure(memory <= most, f'{what}: {memory} MB of memory, where {most} are enough')
    found = found_in(bag)
    remove(bag)
    with image.open('rb') as file:
        same_text(bench.told('rescue', PIPE, bag, '--no-digest', given=file.read()), (status, text.encode()), f'{what} out of a pipe')
    piped = found_in(bag)
    remove(bag)
    for it in (found, piped):
        for tag in ('bag-info.txt', 'tagmanifest-sha256.txt'):
            del it[tag]
    ensure(found == piped and len(found) > 8, f'{what}: another bag out of a pipe')


# ---- bounds and chance

def processor_time() -> float:
    used = resource.getrusage(resource.RUSAGE_CHILDREN)
    return used.ru_utime + used.ru_stime


def try_bombs(bench: Bench, is_large: bool) -> None:
    """Images that claim much are done in the time of what they are, and of what is written."""
    for what, image in bombs.all_bombs(is_large):
        path = bench.folder / 'image'
        path.write_bytes(image)
        with bench.watching(path):
            try_bomb(bench, path, image, what)
        bench.counts.images += 1


def try_bomb(bench: Bench, path: Path, image: bytes, what: str) -> None:
    bag, wanted = bench.folder / 'bag', Remains(image).rescued(Source(bench.checked(path), path.name))
    remove(bag)
    bench.ensure_bounds(image, wanted, what)
    size = (len(image) + len(wanted.lines.encode()) + sum(BLOCK + len(it.content or b'') for it in wanted.written)) / (1 << 20)
    allowed = SLOWNESS * (SECONDS_FOR_ALL + SECONDS_FOR_MEGABYTE * size)
    for words, given, text in (((path, '--list'), None, wanted.listed), ((PIPE, '--list'), image, wanted.listed), ((path, bag), None, wanted.printed)):
        begin = processor_time()
        found = bench.told('rescue', *words, given=given)
        used = processor_time() - begin
        same_text(found, (wanted.status, text.encode()), what)
        ensure(used <= allowed, f'{what}: {used:.1f} s of processor time, where {allowed:.1f} s are enough for {size:.1f} MB')
        bench.counts.slowest = max(bench.counts.slowest, (used / allowed, f'{what}: {used:.2f} s for {size:.1f} MB'))
    bench.compare_bag(bag, wanted, what)


def try_chance(bench: Bench, seed: int, seconds: float) -> None:
    """Images changed by chance, each from the seed and its number."""
    bases = [small_volume(name) for name in SMALL] + [bytes(hostile_images.two_levels()), bytes(hostile_images.cut_file()), (VOLUMES / 'hfsutils-800k.img').read_bytes()]
    bases += [it.image for n, it in enumerate(cases.all_cases()) if n % 5 == 0]
    end, number = time.monotonic() + seconds, 0
    while time.monotonic() < end:
        number += 1
        image, limit = chance.changed(bases, seed, number)
        bench.attempt(image, f'seed {seed}, image {number}', *ways(number), limit=limit, has_digest=number % 5 > 0)
    bench.counts.changed = number


PARTS = ('worked', 'cases', 'damages', 'listed', 'sound', 'volumes', 'words', 'failing', 'memory', 'bombs', 'chance')


def main() -> int:
    parser = argparse.ArgumentParser(description=__doc__, formatter_class=argparse.RawDescriptionHelpFormatter)
    parser.add_argument('--seconds', type=float, default=20, help='for how many seconds images are changed by chance (20)')
    parser.add_argument('--seed', type=int, default=1, help='from which number chance is drawn (1)')
    parser.add_argument('--large', action='store_true', help='images that claim much are large')
    parser.add_argument('--only', choices=PARTS, action='append', help='this part alone')
    parser.add_argument('--all', action='store_true', help='goes on behind an image that differs')
    parser.add_argument('--kept', type=Path, default=Path('rescue.kept'), help='the folder in which the image of a difference is left')
    words = parser.parse_args()
    if not Path(TOOL).is_file():
        print(f'{TOOL} is not built')
        return 1
    begin = time.monotonic()
    with tempfile.TemporaryDirectory() as folder:
        bench = Bench(Path(folder), words.kept if words.all else None)
        doing = {'worked': lambda: try_worked(bench), 'cases': lambda: try_cases(bench), 'damages': lambda: try_damages(bench), 'listed': lambda: try_listed(bench),
                 'sound': lambda: try_sound(bench), 'volumes': lambda: try_volumes(bench), 'words': lambda: try_words(bench), 'failing': lambda: try_failing(bench),
                 'memory': lambda: try_memory(bench), 'bombs': lambda: try_bombs(bench, words.large), 'chance': lambda: try_chance(bench, words.seed, words.seconds)}
        for part in words.only or PARTS:
            try:
                doing[part]()
            except Difference as differs:
                print(f'what remains differs, {part}: {differs}')
                bench.keep(words.kept)
                return 1
    memory = resource.getrusage(resource.RUSAGE_CHILDREN).ru_maxrss // 1_024
    print(f'{bench.counts} in {time.monotonic() - begin:.0f} s, with at most {memory} MB{f"; {bench.differences} differ" * (bench.differences > 0)}')
    return 1 if bench.differences else 0


if __name__ == '__main__':
    sys.exit(main())
