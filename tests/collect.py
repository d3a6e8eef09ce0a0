#!/usr/bin/env python3
"""Collections in one database, as hfs_collect makes them, compared with other programs: sqlite3 reads each
database (its own check of the file, keys, the tables' text), and each row is compared with what
`items`, `volumes`, `info`, `ls` and `cat` print of the image and with sums by hashlib; of a refused
volume with what `rescue` lists and the bag that it writes, for each damage of tests/damaged.sh and
tests/volumes/images.txt, and with rows by hand. Then databases
that sqlite3 made, with the same tables, other tables and more tables; databases that are damaged,
locked, read-only or no databases; devices that are full; images that can't be read, also in the
middle, that are the database itself, that have two paths or odd names; memory that is refused; runs
that are killed at random moments; comparisons; and many images in one run.

tests/collect.py [--images N] [--kills N] [--seed N]    runs $HFS_COLLECT and $HFS_TOOL, or the programs as they are built

It prints what was compared; at a difference it says which and ends with status 1. What needs root, a
C compiler or the program sqlite3 is left out where it is missing, and named.
"""
import argparse
import csv
import hashlib
import io
import os
import random
import re
import resource
import shutil
import signal
import sqlite3
import struct
import subprocess
import sys
import tempfile
import time
from datetime import datetime, timedelta
from pathlib import Path
from urllib.parse import quote

from driver.programs import built
from driver.wanted import Difference, ensure, ensure_same
from images import SMALL, edited
from remains.cases import all_cases
from remains.runs import Bench
from rescue import shell_damages, small_volume as small_file, with_bytes, worked
from volumes import content as looked_into, in_disk_copy, in_map, in_macbinary, in_sectors

HERE = Path(__file__).resolve().parent
TOOL = str(built('hfs_tool'))
COLLECT = str(built('hfs_collect'))
VOLUMES = HERE / 'volumes'
P6 = '8a87ab0d0aabcd89bc3175134dae1fbd9e84c136bc25c294375b54fecd06434f'
PROGRAM = 'hfs_collect 1.0.0'
TABLES = [
    'CREATE TABLE image (id INTEGER PRIMARY KEY, path TEXT NOT NULL UNIQUE, bytes INTEGER NOT NULL, sha256 TEXT, program TEXT NOT NULL)',
    'CREATE TABLE volume (id INTEGER PRIMARY KEY, image INTEGER NOT NULL REFERENCES image (id) ON DELETE CASCADE, number INTEGER NOT NULL, how TEXT NOT NULL, '
    'first_byte INTEGER NOT NULL, bytes INTEGER NOT NULL, name TEXT, created TEXT, modified TEXT, backup TEXT, blocks INTEGER, block_bytes INTEGER, '
    'free_blocks INTEGER, verdict TEXT NOT NULL, UNIQUE (image, number))',
    'CREATE TABLE item (id INTEGER PRIMARY KEY, volume INTEGER NOT NULL REFERENCES volume (id) ON DELETE CASCADE, number INTEGER NOT NULL, path TEXT, '
    'bag_path TEXT NOT NULL, kind TEXT NOT NULL, cnid INTEGER NOT NULL, parent INTEGER NOT NULL, type TEXT, creator TEXT, flags TEXT NOT NULL, locked INTEGER, '
    'file_id INTEGER, created TEXT, modified TEXT, backup TEXT, items INTEGER, data_bytes INTEGER, resource_bytes INTEGER, finder TEXT NOT NULL, '
    'data_sha256 TEXT, resource_sha256 TEXT, data_verdict TEXT, resource_verdict TEXT, UNIQUE (volume, number))',
    'CREATE INDEX item_data ON item (data_sha256)',
    'CREATE INDEX item_resource ON item (resource_sha256)',
]
ITEM_COLUMNS = ('number path bag_path kind cnid parent type creator flags locked file_id created modified backup items data_bytes resource_bytes finder '
                'data_sha256 resource_sha256 data_verdict resource_verdict').split()
SHARED_COLUMNS = 'path kind id parent type creator flags locked file_id created modified backup items data_bytes resource_bytes finder'.split()
NUMBERS = {'id', 'parent', 'items', 'data_bytes', 'resource_bytes'}
WHOLE = 'whole'
NOBODY = 65534
DEVICE_NAMES = {'CON', 'PRN', 'AUX', 'NUL'} | {f'{name}{n}' for name in ('COM', 'LPT') for n in range(1, 10)}

# A library that stands before the C library's: it refuses reads of one block of one file, and one call that asks for memory.
REFUSE = r'''
#define _GNU_SOURCE
#include <dlfcn.h>
#include <errno.h>
#include <stdlib.h>
#include <sys/stat.h>
#include <unistd.h>

extern void *__libc_malloc(size_t);
extern void *__libc_calloc(size_t, size_t);
extern void *__libc_realloc(void *, size_t);
extern void *__libc_memalign(size_t, size_t);

static long calls;

static long number_of(const char *name) {
    const char *text = getenv(name);
    return text ? atol(text) : 0;
}

static int is_refused(int file, off_t place, size_t count) {
    struct stat found;
    if (place < 0 || fstat(file, &found) != 0 || (long)found.st_ino != number_of("REFUSED_FILE")) return 0;
    off_t first = 512 * (off_t)number_of("REFUSED_BLOCK");
    return place < first + 512 && first < place + (off_t)count;
}

ssize_t read(int file, void *into, size_t count) {
    ssize_t (*next)(int, void *, size_t) = dlsym(RTLD_NEXT, "read");
    if (is_refused(file, lseek(file, 0, SEEK_CUR), count)) { errno = EIO; return -1; }
    return next(file, into, count);
}

ssize_t pread(int file, void *into, size_t count, off_t place) {
    ssize_t (*next)(int, void *, size_t, off_t) = dlsym(RTLD_NEXT, "pread");
    if (is_refused(file, place, count)) { errno = EIO; return -1; }
    return next(file, into, count, place);
}

static int refuses(void) {
    static long wanted = -1;
    if (wanted < 0) wanted = number_of("REFUSED_CALL");
    if (++calls != wanted) return 0;
    errno = ENOMEM;
    return 1;
}

void *malloc(size_t n) { return refuses() ? NULL : __libc_malloc(n); }
void *calloc(size_t n, size_t m) { return refuses() ? NULL : __libc_calloc(n, m); }
void *realloc(void *p, size_t n) { return refuses() ? NULL : __libc_realloc(p, n); }
void *aligned_alloc(size_t a, size_t n) { return refuses() ? NULL : __libc_memalign(a, n); }

int posix_memalign(void **p, size_t a, size_t n) {
    if (refuses()) return 12;
    *p = __libc_memalign(a, n);
    return *p ? 0 : 12;
}
'''


def shown(path):
    """A path as it is printed."""
    return ''.join(f'\\{ord(it):02x}' if it < ' ' or it in '\x7f\\' else it for it in path)


def called(*words):
    """The program that words are for, and its words: `collect` stands for hfs_collect, every other word is one of hfs_tool."""
    return [COLLECT, *map(str, words[1:])] if words[0] == 'collect' else [TOOL, *map(str, words)]


class Place:
    """A folder in which the programs are run."""

    def __init__(self, folder):
        self.folder = Path(folder)
        self.counts = {'databases': 0, 'rows': 0, 'faults': 0}

    def run(self, *words, errors='', **how):
        """The status of the words, and what they print; on standard error this."""
        how = {**({} if 'input' in how else {'stdin': subprocess.DEVNULL}), 'timeout': 300, 'cwd': self.folder, **how}
        ran = subprocess.run(called(*words), stdout=subprocess.PIPE, stderr=subprocess.PIPE, **how)
        ensure(ran.stderr.decode('utf-8') == errors, f'{words} writes to standard error: {ran.stderr[:500]!r}')
        return ran.returncode, ran.stdout.decode('utf-8')

    def done(self, *words, **how):
        """What the words print, which end with status 0."""
        status, text = self.run(*words, **how)
        ensure(status == 0, f'{words} ends with {status}: {text[-300:]!r}')
        return text

    def wants(self, status, text, *words, **how):
        found = self.run(*words, **how)
        ensure(found == (status, text), f'{words} ends with {found[0]} and prints {found[1][-600:]!r}, and not {status} and {text[-600:]!r}')

    def file(self, name, content):
        path = self.folder / name
        path.write_bytes(content)
        return path

    def names(self):
        return sorted(os.listdir(self.folder))

    def refuses(self, what, status, text, *words, database='c.db', **how):
        """Wants that the words are refused so, and that no file comes, goes or changes."""
        def state():
            found = {}
            for path in sorted(self.folder.iterdir()):
                if path.is_file() and not path.is_fifo():
                    found[path.name] = path.read_bytes()
                else:
                    found[path.name] = None
            return found
        before = state()
        found = self.run(*words, **how)
        ensure(found == (status, text), f'{what}: {words} ends with {found[0]} and prints {found[1]!r}, and not {status} and {text!r}')
        after = state()
        ensure(list(before) == list(after), f'{what}: files {sorted(set(before) ^ set(after))} come or go')
        for name in before:
            ensure(before[name] == after[name], f'{what}: {name} changed')
        self.counts['faults'] += 1


# ---- what the other words tell of an image

def facts_of(place, image, number):
    """The fields of a volume's directory."""
    return dict(line.split(' ', 1) for line in place.done('info', image, '--volume', number).splitlines())


def moment(date):
    return (datetime(1904, 1, 1) + timedelta(seconds=int(date))).isoformat() if int(date) else None


def host_name(name):
    """The name of an item in a file system of any kind, by the characters of Mac OS Roman."""
    told = ''.join(f'={it.encode("mac_roman")[0]:02X}' if it < ' ' or it in '\x7f%=/\\:*?"<>|' else it for it in name)
    if not name:
        return '='
    if name[-1] in '. ':
        told = told[:-1] + f'={ord(name[-1]):02X}'
    if name[0] == '.' and len(name) > 1:
        told = '=2E' + told[1:]
    if name.split('.')[0].upper() in DEVICE_NAMES:
        told = f'={ord(name[0]):02X}' + told[1:]
    return told


def characters(text):
    """The characters of a plain text."""
    return re.sub(r'\\([0-9a-f]{2})', lambda it: chr(int(it[1], 16)), text)


def sha256(content):
    return hashlib.sha256(content).hexdigest()


def fork_of(place, image, number, path, *words):
    """The bytes of a fork."""
    ran = subprocess.run([TOOL, 'cat', str(image), '--path', path, *words, '--volume', str(number)], stdin=subprocess.DEVNULL, capture_output=True,
                         cwd=place.folder, timeout=600)
    ensure(ran.returncode == 0 and not ran.stderr, f'cat of {path} in {image} ends with {ran.returncode}')
    return ran.stdout


def item_rows(place, image, number, has_digests):
    """The rows of a sound volume's items, by `items` and `cat`."""
    text = place.done('items', image, '--volume', number, '--format', 'csv')
    rows = []
    for n, fields in enumerate(csv.DictReader(io.StringIO(text, newline=''), strict=True)):
        told = {}
        for column in SHARED_COLUMNS:
            value = fields[column]
            if value == '':
                told[column] = None
            elif column in NUMBERS:
                told[column] = int(value)
            elif column in ('locked', 'file_id'):
                told[column] = {'yes': 1, 'no': 0}[value]
            else:
                told[column] = value
        told['number'], told['cnid'] = n, told.pop('id')
        told['bag_path'] = '/'.join(host_name(characters(name)) for name in told['path'].split(':')[1:])
        is_file = told['kind'] == 'file'
        for column, length, words in (('data', 'data_bytes', []), ('resource', 'resource_bytes', ['--resource'])):
            told[f'{column}_verdict'] = WHOLE if is_file else None
            told[f'{column}_sha256'] = None
            if is_file and has_digests:
                content = fork_of(place, image, number, told['path'], *words) if told[length] else b''
                told[f'{column}_sha256'] = sha256(content)
        rows.append(tuple(told[column] for column in ITEM_COLUMNS))
    return rows


def resources_in(content):
    """The resource fork in an AppleDouble file."""
    return content[82:82 + int.from_bytes(content[46:50], 'big')]


def remaining_row(bag, fields, line, has_digests):
    """The row of an item that remains, by its line of the bag's table, and that of what remains of it."""
    path, number, cnid, *verdicts = line.split('\t')
    ensure((path, cnid) == (fields['bag_path'], fields['id']), f'{path} stands beside {fields["bag_path"]} in a bag')
    ensure((fields['path'] == '') == path.startswith(('=old/', '=lost/')), f'{path} has the Mac path {fields["path"]}')
    told = {column: int(fields[column]) if column in NUMBERS and fields[column] else fields[column] or None for column in SHARED_COLUMNS}
    is_file = told['kind'] == 'file'
    told.update(number=int(number), path=fields['path'] or None, bag_path=path, cnid=int(cnid), locked={'yes': 1, 'no': 0, '': None}[fields['locked']])
    above, name = os.path.split(path)
    for column, verdict in zip(('data', 'resource'), verdicts):
        told[f'{column}_verdict'] = verdict if is_file else None
        told[f'{column}_sha256'] = None
        if is_file and has_digests and verdict != 'left':
            content = (bag / 'data' / path).read_bytes() if column == 'data' else resources_in((bag / 'data' / above / f'._{name}').read_bytes())
            told[f'{column}_sha256'] = sha256(content)
    ensure(told['items'] is None and told['file_id'] is None, f'{path} has items or a file ID')
    return tuple(told[column] for column in ITEM_COLUMNS)


def remains_of(place, image, words, has_digests):
    """The directory that `rescue` finds in an image, and the rows of what remains of its items, by its list and by the bag that it writes; None where it finds none."""
    status, listed = place.run('rescue', image, '--list', *words)
    if status == 2:
        return None
    with tempfile.TemporaryDirectory() as folder:
        bag = Path(folder) / 'bag'
        ensure(place.run('rescue', image, bag, *words, '--no-digest')[0] == status, f'a bag of {image}')
        lines = (bag / 'rescue.tsv').read_text('utf-8')
        ensure(listed.startswith(lines), f'the list and the bag of {image}')
        with open(bag / 'items.csv', newline='', encoding='utf-8') as table:
            fields = list(csv.DictReader(table, strict=True))
        ensure(lines.count('\n') == len(fields), f'both tables of {image}')
        rows = [remaining_row(bag, *it, has_digests) for it in zip(fields, lines.splitlines())]
        facts = dict(line.split(' ', 1) for line in (bag / 'volume.txt').read_text('utf-8').splitlines()[:30])
        name = re.search('^External-Identifier: (.*)$', (bag / 'bag-info.txt').read_text('utf-8'), re.M)[1]
    return (name or None, *(moment(facts[it]) for it in ('drCrDate', 'drLsMod', 'drVolBkUp')), *(int(facts[it]) for it in ('drNmAlBlks', 'drAlBlkSiz', 'drFreeBks'))), rows


def volume_rows(place, image, has_digests):
    """The rows of the volumes of an image, or of the one that is lost in it, each with those of its items."""
    status, text = place.run('volumes', image)
    rows = []
    for line in text.splitlines() if status == 0 else []:
        number, how, first, length, name, *told = line.split('\t')
        how = ', '.join([how, *(it for it in told if it == 'sum wrong' or it.startswith('other mode '))])
        status, told = place.run('ls', image, '--volume', number)
        if status == 0:
            facts = facts_of(place, image, number)
            head = [name or None, *(moment(facts[it]) for it in ('drCrDate', 'drLsMod', 'drVolBkUp')), *(int(facts[it]) for it in ('drNmAlBlks', 'drAlBlkSiz', 'drFreeBks'))]
            rows.append(((int(number), how, int(first), int(length), *head, 'sound'), item_rows(place, image, number, has_digests)))
        else:
            head, items = remains_of(place, image, ['--volume', number], has_digests) or ([None] * 7, [])
            rows.append(((int(number), how, int(first), int(length), *head, told.splitlines()[0]), items))
    remains = None if rows else remains_of(place, image, [], has_digests)
    if remains:
        fault = place.run('ls', image)[1].splitlines()[0]
        data, others = looked_into(image.read_bytes())
        rows.append(((0, f'lost, other mode {others}' if others else 'lost', 0, len(data), *remains[0], fault), remains[1]))
    return rows


def image_rows(place, image, has_digests=True):
    """All that a database is to have of an image: its own row and those of its volumes."""
    content = (place.folder / image).read_bytes()
    where = place.folder / image
    return (str(image), len(content), sha256(content) if has_digests else None, PROGRAM), volume_rows(place, where, has_digests)


def line_of(rows):
    """The line that is printed of an image with these rows."""
    (path, *_), volumes = rows
    refused = sum(row[-1] != 'sound' for row, _ in volumes)
    files = [item for _, items in volumes for item in items if item[ITEM_COLUMNS.index('kind')] == 'file']
    damaged = sum(item[-2:] != (WHOLE, WHOLE) for item in files)
    return f'{shown(path)}\tvolumes {len(volumes)}\trefused {refused}\tfiles {len(files)}\tdamaged {damaged}\n'


# ---- what a database has

def opened(path):
    """A database by sqlite3, which makes no file beside it."""
    return sqlite3.connect(f'file:{quote(str(path))}?mode=ro&immutable=1', uri=True)


def held(place, name='c.db', is_sound=True):
    """What a database has: the rows of each image by its path."""
    with tempfile.TemporaryDirectory() as folder:
        copy = Path(folder) / 'copy.db'
        shutil.copyfile(place.folder / name, copy)
        log = place.folder / f'{name}-wal'
        if log.exists():
            shutil.copyfile(log, Path(folder) / 'copy.db-wal')
        database = sqlite3.connect(copy)
        if is_sound:
            ensure(database.execute('PRAGMA integrity_check').fetchall() == [('ok',)], f'{name}: the file is not sound')
            ensure(database.execute('PRAGMA foreign_key_check').fetchall() == [], f'{name}: a row belongs to none')
        found = {}
        for image, *row in database.execute('SELECT id, path, bytes, sha256, program FROM image ORDER BY id').fetchall():
            volumes = []
            for volume, *values in database.execute('SELECT id, number, how, first_byte, bytes, name, created, modified, backup, blocks, block_bytes, free_blocks, '
                                                    'verdict FROM volume WHERE image = ? ORDER BY id', (image,)).fetchall():
                items = database.execute(f'SELECT {", ".join(ITEM_COLUMNS)} FROM item WHERE volume = ? ORDER BY id', (volume,)).fetchall()
                volumes.append((tuple(values), items))
            found[row[0]] = (tuple(row), volumes)
        counts = [database.execute(f'SELECT count(*) FROM {table}').fetchone()[0] for table in ('volume', 'item')]
        database.close()
    ensure(counts == [sum(len(volumes) for _, volumes in found.values()), sum(len(items) for _, volumes in found.values() for _, items in volumes)],
           f'{name}: rows that belong to no image')
    place.counts['databases'] += 1
    place.counts['rows'] += sum(counts) + len(found)
    return found


def holds(place, wanted, name='c.db'):
    """Wants these rows of these images, in this order, and no other; and that the file alone has them."""
    found = held(place, name)
    ensure(list(found) == [rows[0][0] for rows in wanted], f'{name} has the images {list(found)}')
    for rows in wanted:
        path = rows[0][0]
        ensure(found[path][0] == rows[0], f'{name}, {path}: {found[path][0]} in place of {rows[0]}')
        ensure_same([row for row, _ in found[path][1]], [row for row, _ in rows[1]], f'{name}, the volumes of {path}')
        for n, ((_, items), (_, wanted_items)) in enumerate(zip(found[path][1], rows[1]), 1):
            ensure_same(items, wanted_items, f'{name}, the items of volume {n} of {path}')
    for end in ('wal', 'shm', 'journal'):
        ensure(not (place.folder / f'{name}-{end}').exists(), f'{name}-{end} is left beside {name}')


def schema_of(path):
    database = opened(path)
    rows = [row[0] for row in database.execute('SELECT sql FROM sqlite_schema WHERE sql IS NOT NULL ORDER BY rowid')]
    database.close()
    return rows


def table_lines(path, table):
    """The rows of a table with bars between, as sqlite3 prints them."""
    database = opened(path)
    lines = ['|'.join('' if it is None else str(it) for it in row) for row in database.execute(f'SELECT * FROM {table} ORDER BY id')]
    database.close()
    return lines


# ---- the parts

def small_volume(place, name='p6.img'):
    place.done('new', name, 'D', 64, 6, 2)
    return (place.folder / name).read_bytes()


def named_volume(place, name, title, calls, blocks=64, nodes=20):
    """A new volume, after these calls of one worker."""
    place.done('new', name, title, blocks, nodes, 2)
    place.file('calls', ''.join(f'1\t{call}\n' for call in calls).encode('mac_roman'))
    text = place.done('run', name, 'calls', '--now', 3029529600, '--out', name)
    refused = [line for line in text.splitlines() if re.match(r'1\t\d+\t-', line)]
    ensure(not refused, f'the calls of {name}: {refused[:1]}')
    (place.folder / 'calls').unlink()


def worked_example(place):
    """A new volume by hand, twice, compared, with a count changed, and collected then."""
    content = small_volume(place)
    ensure(sha256(content) == P6, 'the small volume')
    line = 'p6.img\tvolumes 1\trefused 0\tfiles 0\tdamaged 0\n'
    zeros = '0' * 64
    for _ in range(2):
        place.wants(0, line, 'collect', 'c.db', 'p6.img')
        ensure(place.names() == ['c.db', 'p6.img'], f'the folder has {place.names()}')
        ensure(table_lines(place.folder / 'c.db', 'image') == [f'1|p6.img|32768|{P6}|hfs_collect 1.0.0'], 'the row of the image')
        ensure(table_lines(place.folder / 'c.db', 'volume') == ['1|1|1|bare|0|32768|D||||58|512|50|sound'], 'the row of the volume')
        ensure(table_lines(place.folder / 'c.db', 'item') == [f'1|1|0|D||folder|2|1|||0000||||||0|||{zeros}||||'], 'the row of the item')
    ensure(schema_of(place.folder / 'c.db') == TABLES, 'the text of the tables')
    if shutil.which('sqlite3'):
        text = subprocess.run(['sqlite3', 'c.db', '.schema'], cwd=place.folder, capture_output=True, text=True, check=True).stdout
        ensure(text == ''.join(f'{table};\n' for table in TABLES), f'.schema prints {text}')
    place.wants(0, 'same\tp6.img\n', 'collect', 'c.db', '--compare')
    place.wants(0, 'same\tp6.img\n', 'collect', 'c.db', '--compare', 'p6.img')
    place.file('p6.img', content[:1024 + 87] + b'\1' + content[1024 + 88:])
    place.refuses('a changed image', 3, 'changed\tp6.img\n', 'collect', 'c.db', '--compare')
    place.wants(0, 'p6.img\tvolumes 1\trefused 1\tfiles 0\tdamaged 0\n', 'collect', 'c.db', 'p6.img')
    ensure(table_lines(place.folder / 'c.db', 'image')[0].startswith('1|p6.img|32768|'), 'the row of the changed image')
    ensure(table_lines(place.folder / 'c.db', 'volume') == ['1|1|1|bare|0|32768|D||||58|512|50|check C10 at 3'], 'the row of the refused volume')
    ensure(table_lines(place.folder / 'c.db', 'item') == [f'1|1|0|D||folder|2|1|||0000|||||||||{zeros}||||'], 'the row of its root')
    holds(place, [image_rows(place, 'p6.img')])


def cut_dumps(place):
    """Partitions that begin behind the file's end have rows of no bytes, and what lies before comes."""
    def entry(count, first, blocks):
        return (b'PM\0\0' + struct.pack('>III', count, first, blocks)).ljust(48, b'\0') + b'Apple_HFS'.ljust(464, b'\0')
    content = small_volume(place)
    place.file('map.img', bytes(512) + entry(1, 9, 1))
    ensure(os.path.getsize(place.folder / 'map.img') == 1024, 'the smallest dump')
    place.file('cut.img', bytes(512) + entry(2, 3, 64) + entry(2, 67, 64) + content)
    place.file('far.img', bytes(512) + entry(3, 4, 64) + entry(3, 4294967295, 4294967295) + entry(3, 67, 1) + content[:-1536])
    place.wants(0, 'map.img\tvolumes 1\trefused 1\tfiles 0\tdamaged 0\ncut.img\tvolumes 2\trefused 1\tfiles 0\tdamaged 0\n'
                'far.img\tvolumes 3\trefused 3\tfiles 0\tdamaged 0\np6.img\tvolumes 1\trefused 0\tfiles 0\tdamaged 0\n',
                'collect', 'c.db', 'map.img', 'cut.img', 'far.img', 'p6.img')
    ensure(table_lines(place.folder / 'c.db', 'volume') == [
        '1|1|1|partition|4608|0||||||||image too short',
        '2|2|1|partition|1536|32768|D||||58|512|50|sound', '3|2|2|partition|34304|0||||||||image too short',
        '4|3|1|partition|2048|31232|D||||58|512|50|bad master directory block M4 (-60)',
        '5|3|2|partition|2199023255040|0||||||||image too short', '6|3|3|partition|34304|0||||||||image too short',
        '7|4|1|bare|0|32768|D||||58|512|50|sound'], f'the rows of cut dumps: {table_lines(place.folder / "c.db", "volume")}')


def raw_sectors(place):
    """Rows of raw CD sectors by hand: the image's are those of the file, the volume's those of the user data."""
    content = small_volume(place)
    disc = in_map(content, 2048, behind=bytes(2048))
    lost = with_bytes(small_file('OneFile'), (1024, bytes(512)))
    files = {'mode-1.bin': in_sectors(content), 'mode-2.bin': in_sectors(content, 2), 'audio-behind.bin': in_sectors(content + bytes(3 * 2048), 1, (16, 17, 18)),
             'audio-within.bin': in_sectors(content, 1, (1,)), 'map.bin': in_sectors(disc), 'map-audio.bin': in_sectors(disc, 2, (5, 80)),
             'lost.bin': in_sectors(lost, 2), 'lost-audio.bin': in_sectors(lost + bytes(2048), 1, (16,)), 'none.bin': in_sectors(bytes(4096)),
             'cut.bin': in_sectors(content)[:-1], 'audio-first.bin': in_sectors(content, 1, (0,)), 'copy.bin': in_sectors(in_disk_copy(content))}
    for name, data in files.items():
        place.file(name, data)
    place.done('collect', 'c.db', *files)
    found = held(place)
    for name, data in files.items():
        ensure(found[name][0] == (name, len(data), sha256(data), PROGRAM), f'the row of {name}: {found[name][0]}')
    sound = ('D', None, None, None, 58, 512, 50, 'sound')
    wanted = {'mode-1.bin': (1, 'raw 2352 bare', 0, 32768, *sound), 'mode-2.bin': (1, 'raw 2352 bare', 0, 32768, *sound),
              'audio-behind.bin': (1, 'raw 2352 bare, other mode 3', 0, 38912, *sound), 'map.bin': (1, 'raw 2352 partition', 131072, 32768, *sound),
              'map-audio.bin': (1, 'raw 2352 partition, other mode 2', 131072, 32768, *sound)}
    for name, row in wanted.items():
        ensure([it for it, _ in found[name][1]] == [row], f'the volumes of {name}: {[it for it, _ in found[name][1]]}')
        ensure(len(found[name][1][0][1]) == 1, f'the items of {name}')
    volumes = {name: [row[:4] + row[-1:] for row, _ in found[name][1]] for name in files}
    ensure(volumes['audio-within.bin'][0][:4] == (1, 'raw 2352 bare, other mode 1', 0, 32768) and volumes['audio-within.bin'][0][-1] != 'sound', f'audio within: {volumes["audio-within.bin"]}')
    fault = 'not an HFS volume (-57)'
    ensure(volumes['lost.bin'] == [(0, 'lost', 0, len(lost), fault)] and volumes['lost-audio.bin'] == [(0, 'lost, other mode 1', 0, len(lost) + 2048, fault)], f'lost: {volumes}')
    for name in ('none.bin', 'cut.bin', 'audio-first.bin', 'copy.bin'):
        ensure(found[name][1] == [], f'{name} has volumes: {volumes[name]}')
    # The items of a volume are the same by the raw file and by itself.
    floppy = (VOLUMES / 'hfsutils-800k.img').read_bytes()
    place.file('floppy.img', floppy)
    places = {'floppy.bin': in_sectors(floppy), 'floppy-2.bin': in_sectors(floppy + bytes(4096), 2, (len(floppy) // 2048 + 1,)), 'floppy-map.bin': in_sectors(in_map(floppy, 512, behind=bytes(512)), 2)}
    for name, data in places.items():
        place.file(name, data)
    rows = [image_rows(place, name) for name in ('floppy.img', *places)]
    for row in rows[1:]:
        ensure(row[1][0][1] == rows[0][1][0][1] and row[1][0][0][4:] == rows[0][1][0][0][4:], f'{row[0][0]} has other rows than the volume itself')
    place.wants(0, ''.join(map(line_of, rows)), 'collect', 'f.db', 'floppy.img', *places)
    holds(place, rows, 'f.db')
    # A sector that is no user data any more, and the digest of the file: it is changed.
    place.file('floppy.bin', places['floppy.bin'][:-1] + b'\0')
    place.wants(3, ''.join(f'{"changed" if name == "floppy.bin" else "same"}\t{name}\n' for name in sorted(('floppy.img', *places))), 'collect', 'f.db', '--compare')


def wrapped_volumes(place):
    """Files in which volumes lie in each way."""
    content = small_volume(place, 'bare.img')
    floppy = (VOLUMES / 'hfsutils-800k.img').read_bytes()
    names = []
    for name, data in {'map.img': in_map(floppy, 512), 'large-map.img': in_map(content, 2048, behind=b'more'), 'copy.img': in_disk_copy(floppy),
                       'wrong-sum.img': in_disk_copy(content, 1), 'fork.bin': in_macbinary(floppy, resource=b'RES'), 'copy.bin': in_macbinary(in_disk_copy(content)),
                       'no-volume.img': in_map(bytes(4096), 512), 'empty.img': b'', 'text.img': b'no disk\n' * 900, 'short.img': content[:1535],
                       'cut.img': content[:1536], 'raw.bin': in_sectors(floppy), 'raw-2.bin': in_sectors(content + bytes(6144), 2, (17, 18)),
                       'raw-map.bin': in_sectors(in_map(floppy, 512)), 'raw-audio.bin': in_sectors(in_map(content, 2048, behind=bytes(2048)), 1, (2, 80)),
                       'raw-none.bin': in_sectors(in_disk_copy(content)), 'raw-cut.bin': in_sectors(content)[:-1]}.items():
        place.file(name, data)
        names.append(name)
    return names + ['bare.img']


def rows_beside_words(place):
    """Each row beside what the other words tell, with and without digests."""
    for image in VOLUMES.glob('*.img'):
        shutil.copyfile(image, place.folder / image.name)
    named_volume(place, 'named.img', 'A "q" \\ %', ['mkdir\t2\ta/b', 'create\t16\t.x', 'create\t2\tA,"b\\', 'create\t2\tcon.c', "create\t2\tit's", 'create\t2\t= %',
                                                    'create\t2\tend.', 'create\t2\tLF\\0a', 'create\t2\tNUL', 'create\t2\t*?<>|'])
    names = [*sorted(path.name for path in VOLUMES.glob('*.img')), 'named.img', *wrapped_volumes(place)]
    for database, words in (('c.db', []), ('n.db', ['--no-digest'])):
        rows = [image_rows(place, name, not words) for name in names]
        place.wants(0, ''.join(map(line_of, rows)), 'collect', database, *names, *words, errors='wrong-sum.img: the sum of the disk copy is wrong\n')
        holds(place, rows, database)
        ensure(schema_of(place.folder / database) == TABLES, 'the text of the tables')
    place.wants(0, ''.join(f'same\t{name}\n' for name in sorted(names)), 'collect', 'c.db', '--compare')
    place.wants(0, ''.join(f'same length\t{name}\n' for name in sorted(names)), 'collect', 'n.db', '--compare')
    # Again, without digests: the rows get the new values.
    rows = [image_rows(place, name, name not in names[:3]) for name in names]
    place.wants(0, ''.join(map(line_of, rows[:3])), 'collect', 'c.db', *names[:3], '--no-digest')
    holds(place, rows)


def listed_images(bases):
    """The images of tests/volumes/images.txt."""
    for number, line in enumerate((VOLUMES / 'images.txt').read_text('ascii').splitlines(), 1):
        word, _, behind = line.partition(' ')
        if word == 'volume':
            about, edits = behind.split(';')
            name, base = about.split(' ')
            bases[name] = edited(bases[base], edits)
        elif line and not line.startswith('#') and word != 'test':
            about, edits, _ = (part.strip(' ') for part in line.split(';', 2))
            yield f'line {number}', edited(bases[about.split(' ')[-1]], edits)


def damaged_images(place):
    """Images of refused volumes, each damage of tests/damaged.sh and tests/volumes/images.txt among them: what each is, by its file's name; and the rows that a hand wrote."""
    bench = Bench(place.folder / 'bench')
    bench.folder.mkdir(exist_ok=True)
    images, by_hand = {}, {}
    for what, image, limit, _, printed, lines in worked(bench):
        if limit is None:
            images[what], by_hand[what] = image, lines
    for it in all_cases():
        if it.limit is None:
            images[f'case: {it.name}'], by_hand[f'case: {it.name}'] = it.image, ''.join(row.replace('|', '\t') + '\n' for row in it.rows)
    floppy = (VOLUMES / 'hfsutils-800k.img').read_bytes()
    for what, at, content in shell_damages():
        images[f'damaged.sh: {what}'] = with_bytes(floppy, (at, content))
    images.update(listed_images({name: small_file(name) for name in SMALL} | {'New': small_volume(place, 'new.img'), 'Nothing': b''}))
    lost = with_bytes(small_file('OneFile'), (1024, bytes(512)))
    images.update({'lost': lost, 'lost in a map': in_map(lost, 512), 'lost in a copy': in_disk_copy(lost), 'cut in a map': in_map(floppy[:300_000], 512),
                   'two in a map': b'ER' + in_map(with_bytes(floppy, (1024 + 87, b'\xff')), 512)[2:], 'lost behind text': b'no disk\n' * 64 + lost,
                   'lost in sectors': in_sectors(lost), 'lost in sectors with audio': in_sectors(lost + bytes(2048), 2, (16,)), 'audio in a floppy': in_sectors(floppy, 1, (3, 30, 200)),
                   'audio in a map': in_sectors(in_map(floppy, 2048), 2, (67, 90)), 'no partition in sectors': in_sectors(in_map(lost, 512), 1, (12,))})
    names = {}
    for n, (what, content) in enumerate(images.items()):
        names[f'{n:04}.img'] = what
        place.file(f'{n:04}.img', content)
    shutil.rmtree(bench.folder)
    return names, by_hand


def damaged_disks(place):
    """Rows of refused volumes: those that a hand wrote, and each damage of tests/damaged.sh and tests/volumes/images.txt, beside what `rescue` lists and writes."""
    names, by_hand = damaged_images(place)
    floppy, lost = (VOLUMES / 'hfsutils-800k.img').read_bytes(), with_bytes(small_file('OneFile'), (1024, bytes(512)))
    for database, words in (('c.db', []), ('n.db', ['--no-digest'])):
        rows = [image_rows(place, name, not words) for name in names]
        found = place.done('collect', database, *names, *words)
        for name, row, line in zip(names, rows, found.splitlines(keepends=True)):
            ensure(line == line_of(row), f'{names[name]}: {line!r} in place of {line_of(row)!r}')
        holds(place, rows, database)
    held_rows = held(place)
    for name, what in names.items():
        if what in by_hand and [row[-1] for row, _ in held_rows[name][1]] != ['sound']:
            items = [dict(zip(ITEM_COLUMNS, item)) for _, items in held_rows[name][1] for item in items]
            told = ''.join(f'{it["bag_path"]}\t{it["number"]}\t{it["cnid"]}\t{it["data_verdict"] or "-"}\t{it["resource_verdict"] or "-"}\n' for it in items)
            ensure(told == by_hand[what], f'{what}: the rows are {told!r}')
    # Of the volume that is lost one row, of a map's as it lies there.
    for what, wanted in {'lost': [(0, 'lost', 0, len(lost))], 'lost in a map': [(1, 'partition', 32768, len(lost))], 'lost in a copy': [(1, 'disk copy', 84, len(lost))],
                         'lost in sectors': [(0, 'lost', 0, len(lost))], 'lost in sectors with audio': [(0, 'lost, other mode 1', 0, len(lost) + 2048)]}.items():
        name = next(name for name in names if names[name] == what)
        volumes = held_rows[name][1]
        ensure([row[:4] for row, _ in volumes] == wanted and volumes[0][0][-1] == 'not an HFS volume (-57)', f'{what}: the volumes are {volumes}')
        item = dict(zip(ITEM_COLUMNS, volumes[0][1][-1]))
        ensure(item['bag_path'] == 'f' and item['data_sha256'] == sha256(bytes(k % 251 for k in range(2000))) and item['resource_sha256'] == sha256(b''), f'{what}: {item}')
    place.wants(0, ''.join(f'same\t{name}\n' for name in names), 'collect', 'c.db', '--compare')
    # Mended, or damaged, the old rows go.
    place.file('0000.img', floppy)
    place.file('0001.img', b'no disk\n' * 900)
    changed = [image_rows(place, name) for name in ('0000.img', '0001.img')]
    place.wants(0, ''.join(map(line_of, changed)), 'collect', 'c.db', '0000.img', '0001.img')
    found = held(place)
    ensure([found[name] for name in ('0000.img', '0001.img')] == changed and all(found[name] == held_rows[name] for name in list(names)[2:]), 'rows of images that changed')


def odd_paths(place):
    """The same image by two paths, and paths with quotation marks, line feeds and other characters."""
    content = small_volume(place)
    names = ['p6.img', './p6.img', 'a"b\'c\nd.img', '-- "; DROP TABLE item; --', "it's é — \\ 100%.img", '?1', '.sqlite']
    for name in names[2:]:
        place.file(name, content)
    rows = [image_rows(place, name) for name in names]
    rows[1] = (('./p6.img', *rows[1][0][1:]), rows[1][1])
    place.wants(0, ''.join(map(line_of, rows)), 'collect', 'c.db', '--', *names)
    holds(place, rows)
    place.wants(0, ''.join(f'same\t{shown(name)}\n' for name in sorted(names, key=os.fsencode)), 'collect', 'c.db', '--compare')
    # A database with an odd name, and one by a link.
    odd = 'c "d\'e\nf?#%.db'
    place.wants(0, line_of(rows[0]), 'collect', odd, 'p6.img')
    holds(place, rows[:1], odd)
    (place.folder / 'link.db').symlink_to('c.db')
    place.wants(0, 'same\tp6.img\n', 'collect', 'link.db', '--compare', 'p6.img')
    place.wants(0, line_of(rows[0]), 'collect', 'link.db', 'p6.img')
    holds(place, rows)
    ensure((place.folder / 'link.db').is_symlink() and 'link.db-wal' not in place.names(), 'a database by a link')


def comparisons(place):
    """Each answer of a comparison, and its statuses."""
    content = small_volume(place)
    names = ['same.img', 'longer.img', 'other.img', 'gone.img', 'folder.img']
    for name in names:
        place.file(name, content)
    place.done('collect', 'c.db', *names)
    place.done('collect', 'n.db', '--no-digest', *names)
    place.file('new.img', content)
    place.file('longer.img', content + b'\0')
    place.file('other.img', content[:-1] + b'\1')
    (place.folder / 'gone.img').unlink()
    (place.folder / 'folder.img').unlink()
    (place.folder / 'folder.img').mkdir()
    told = {'same.img': 'same', 'longer.img': 'changed', 'other.img': 'changed', 'gone.img': 'missing', 'folder.img': 'missing', 'new.img': 'new', 'none.img': 'missing',
            'c.db': 'missing'}
    for database, change in (('c.db', {}), ('n.db', {'same.img': 'same length', 'other.img': 'same length', 'c.db': 'new'})):
        told = {**told, **change}
        for name, word in told.items():
            place.refuses(f'{name} compared', 3 if word in ('missing', 'changed') else 0, f'{word}\t{name}\n', 'collect', database, '--compare', name)
        place.refuses('many compared', 3, ''.join(f'{told[name]}\t{name}\n' for name in (*names, 'new.img', 'same.img')),
                      'collect', database, '--compare', *names, 'new.img', 'same.img')
        place.refuses('all compared', 3, ''.join(f'{told[name]}\t{name}\n' for name in sorted(names)), 'collect', database, '--compare')
    place.done('collect', 'one.db', 'same.img')
    place.refuses('nothing changed', 0, 'same\tsame.img\n', 'collect', 'one.db', '--compare')
    place.refuses('words behind', 0, 'new\tnew.img\n', 'collect', '--compare', 'one.db', 'new.img')
    # An image that is longer than its database's row has it, without a digest.
    place.refuses('no image', 4, 'cannot open none.db\n', 'collect', 'none.db', '--compare')
    place.file('empty.db', b'')
    place.refuses('an empty database', 4, 'cannot open empty.db\n', 'collect', 'empty.db', '--compare')
    database = sqlite3.connect(place.folder / 'other.db')
    database.execute('CREATE TABLE note (text TEXT)')
    database.commit()
    database.close()
    place.refuses('no tables', 4, 'cannot open other.db\n', 'collect', 'other.db', '--compare', 'same.img')


def refused_words(place):
    small_volume(place)
    for words in ([], ['c.db'], ['c.db', '--no-digest'], ['--compare'], ['c.db', '--compare', '--no-digest'], ['c.db', 'p6.img', '--compare', '--no-digest'],
                  ['c.db', 'p6.img', '--volume', '1'], ['c.db', 'p6.img', '--digest']):
        status, text = place.run('collect', *words)
        ensure(status == 1 and text, f'collect {words} ends with {status}')
        ensure(place.names() == ['p6.img'], f'collect {words} leaves {place.names()}')
    ensure('--compare' in place.done('collect', '--help'), 'the help')
    # Of hfs_tool it is no word, whatever stands behind it.
    for words in ([], ['c.db'], ['c.db', 'p6.img'], ['c.db', '--compare'], ['--help'], ['--none', '']):
        ran = subprocess.run([TOOL, 'collect', *words], stdin=subprocess.DEVNULL, capture_output=True, text=True, cwd=place.folder, timeout=60)
        found = (ran.returncode, ran.stdout, ran.stderr)
        ensure(found == (1, 'collect is a program of its own: hfs_collect\n', ''), f'hfs_tool collect {words}: {found}')
        ensure(place.names() == ['p6.img'], f'hfs_tool collect {words} leaves {place.names()}')


def made_by_sqlite(place):
    """Databases that sqlite3 made, with the same tables and with a keeper's own beside them."""
    small_volume(place)
    rows = [image_rows(place, 'p6.img')]
    line = line_of(rows[0])
    notes = ['CREATE TABLE note (image INTEGER REFERENCES image (id), text TEXT)', 'CREATE VIEW damaged AS SELECT image.path, verdict FROM volume JOIN image ON image.id = volume.image',
             'CREATE INDEX item_creator ON item (creator)', 'CREATE TABLE shelf (id INTEGER PRIMARY KEY, name TEXT UNIQUE)']
    for name, pragmas, own in (('plain', [], []), ('wal', ['journal_mode = WAL'], []), ('small', ['page_size = 512'], []), ('large', ['page_size = 65536'], []),
                               ('kept', [], notes), ('version', ['user_version = 7', 'application_id = 99'], notes)):
        path = place.folder / f'{name}.db'
        database = sqlite3.connect(path)
        for pragma in pragmas:
            database.execute(f'PRAGMA {pragma}').fetchall()
        for text in (*TABLES, *own):
            database.execute(text.replace('CREATE TABLE', 'create table') if name == 'small' else text)
        if own:
            database.execute("INSERT INTO shelf (name) VALUES ('left'), ('right')")
            database.execute("INSERT INTO note VALUES (NULL, 'a keeper''s')")
        database.commit()
        database.close()
        for _ in range(2):
            place.wants(0, line, 'collect', path.name, 'p6.img')
            holds(place, rows, path.name)
        ensure(schema_of(path) == [*TABLES, *own], f'the tables of {name}: {schema_of(path)}')
        if own:
            database = sqlite3.connect(path)
            ensure(database.execute('SELECT id, name FROM shelf').fetchall() == [(1, 'left'), (2, 'right')], 'a table of the keeper')
            ensure(database.execute('SELECT * FROM note').fetchall() == [(None, "a keeper's")], 'a note of the keeper')
            ensure(database.execute('SELECT * FROM damaged').fetchall() == [('p6.img', 'sound')], 'a view of the keeper')
            # A note that is tied to the image stays tied to it, when the image is collected once more.
            database.execute("INSERT INTO note SELECT id, 'tied' FROM image")
            database.commit()
            database.close()
            place.wants(0, line, 'collect', path.name, 'p6.img')
            database = opened(path)
            ensure(database.execute('SELECT * FROM note').fetchall() == [(None, "a keeper's"), (1, 'tied')], 'a note that is tied to an image')
            database.close()
    # Only other tables: those of a collection come beside them.
    database = sqlite3.connect(place.folder / 'notes.db')
    database.execute(notes[3])
    database.execute("INSERT INTO shelf (name) VALUES ('left')")
    database.commit()
    database.close()
    place.wants(0, line, 'collect', 'notes.db', 'p6.img')
    holds(place, rows, 'notes.db')
    ensure(schema_of(place.folder / 'notes.db') == [notes[3], *TABLES], 'tables beside others')
    # sqlite3 writes between two runs.
    database = sqlite3.connect(place.folder / 'notes.db')
    database.execute('PRAGMA foreign_keys = ON')
    database.execute("INSERT INTO shelf (name) VALUES ('more')")
    database.execute('DELETE FROM image')
    database.commit()
    database.close()
    place.wants(0, line, 'collect', 'notes.db', 'p6.img')
    place.file('zero.db', b'')
    place.wants(0, line, 'collect', 'zero.db', 'p6.img')
    holds(place, rows, 'zero.db')


def other_tables(place):
    """Databases in which one of the five is missing, or has another text."""
    small_volume(place)
    order = [0, 1, 2, 3, 4]
    changes = {0: ('program TEXT NOT NULL', 'program TEXT'), 1: ('verdict TEXT NOT NULL', 'verdict  TEXT NOT NULL'), 2: ('parent INTEGER', 'parent INT'),
               3: ('(data_sha256)', '(data_sha256, id)'), 4: ('item_resource ON', 'item_resource  ON')}
    cases = [(f'{n} missing', [TABLES[k] for k in order if k != n and not (n == 2 and k > 2)]) for n in order]
    cases += [(f'{n} of another text', [TABLES[k].replace(*changes[n]) if k == n else TABLES[k] for k in order]) for n in order]
    cases += [('a table of its own named item', ['CREATE TABLE item (name TEXT)']), ('one in capitals', ['CREATE TABLE "IMAGE" (name TEXT)']),
              ('a view named volume', ['CREATE VIEW volume AS SELECT 1 AS one']), ('the first alone', TABLES[:1])]
    for what, texts in cases:
        path = place.folder / 'c.db'
        path.unlink(missing_ok=True)
        database = sqlite3.connect(path)
        for text in texts:
            database.execute(text)
        database.commit()
        database.close()
        place.refuses(what, 4, 'cannot open c.db\n', 'collect', 'c.db', 'p6.img')
        place.refuses(what, 4, 'cannot open c.db\n', 'collect', 'c.db', '--compare')


def damaged_databases(place):
    """Files that are no database, or a damaged one."""
    small_volume(place)
    image = 'hfsutils-800k.img'
    shutil.copyfile(VOLUMES / image, place.folder / image)
    place.done('collect', 'good.db', image, 'p6.img')
    content = (place.folder / 'good.db').read_bytes()
    size = int.from_bytes(content[16:18], 'big')
    pages = len(content) // size
    cases = {'text': b'no database\n' * 500, 'one byte': b'S', 'a zero': b'\0', 'a few bytes': b'SQLite format 3\0', 'a text with S': b'SQL is no database\n' * 500,
             'another beginning': b'T' + content[1:], 'a page cut': content[:-size], 'half of it': content[:len(content) // 2 // size * size],
             'half a page': content[:-size // 2], 'an image': (place.folder / image).read_bytes(), 'zeros': bytes(8192),
             'another format': content[:18] + b'\3\3' + content[20:], 'another page size': content[:16] + b'\2\1' + content[18:]}
    for page in range(pages):
        kind = page * size + (100 if page == 0 else 0)
        if content[kind] in (2, 5, 10, 13):
            cases[f'another kind of page {page}'] = content[:kind] + b'\7' + content[kind + 1:]
            cases[f'other places in page {page}'] = content[:kind + 8] + b'\xff\xff' + content[kind + 10:]
    # The row of the image has another path than the index of paths.
    path = content.index(b'p6.img8') if b'p6.img8' in content else content.index(b'p6.img')
    cases['a path that its index has not'] = content[:path] + b'q' + content[path + 1:]
    for what, data in cases.items():
        place.file('c.db', data)
        place.refuses(what, 4, 'cannot open c.db\n', 'collect', 'c.db', 'p6.img')
        place.refuses(what, 4, 'cannot open c.db\n', 'collect', 'c.db', '--compare')
    # A row that belongs to none, which sqlite3 takes where it isn't told to look.
    shutil.copyfile(place.folder / 'good.db', place.folder / 'c.db')
    database = sqlite3.connect(place.folder / 'c.db')
    database.execute('PRAGMA journal_mode = DELETE')
    database.execute('DELETE FROM image WHERE id = 1')
    database.commit()
    database.close()
    place.refuses('rows that belong to none', 4, 'cannot open c.db\n', 'collect', 'c.db', 'p6.img')
    (place.folder / 'c.db').unlink()
    # Names that are no files.
    for name in (':memory:', 'file:c.db', 'file:c.db?mode=memory', 'none/c.db', '.', '/', '', '/dev/null', '/dev/full'):
        place.refuses(f'the name {name!r}', 4, f'cannot open {name}\n', 'collect', name, 'p6.img')
        place.refuses(f'the name {name!r}', 4, f'cannot open {name}\n', 'collect', name, '--compare')
    # Also where a file has such a name, a database or any other.
    for name in (':memory:', 'file:', 'file:c.db'):
        for data in (content, b'', b'any bytes' * 100):
            place.file(name, data)
            place.refuses(f'the name {name!r} of a file', 4, f'cannot open {name}\n', 'collect', name, 'p6.img')
            place.refuses(f'the name {name!r} of a file', 4, f'cannot open {name}\n', 'collect', name, '--compare')
        (place.folder / name).unlink()
    for name in ('memory', ':memory', 'file', 'xfile:c.db'):
        place.wants(0, 'p6.img\tvolumes 1\trefused 0\tfiles 0\tdamaged 0\n', 'collect', name, 'p6.img')
        (place.folder / name).unlink()
    (place.folder / 'lost.db').symlink_to('none/c.db')
    place.refuses('a link to nothing', 4, 'cannot open lost.db\n', 'collect', 'lost.db', 'p6.img')


def other_programs(place):
    """Databases that another program reads or writes."""
    small_volume(place)
    place.file('more.img', (place.folder / 'p6.img').read_bytes())
    place.done('collect', 'c.db', 'p6.img')
    for mode in ('WAL', 'DELETE'):
        database = sqlite3.connect(place.folder / 'c.db', isolation_level=None)
        database.execute(f'PRAGMA journal_mode = {mode}').fetchall()
        for begin in (['BEGIN IMMEDIATE', "UPDATE image SET program = 'x'"], ['BEGIN', 'SELECT * FROM image']):
            for text in begin:
                database.execute(text).fetchall()
            place.wants(4, 'cannot open c.db\n', 'collect', 'c.db', 'more.img')
            place.wants(4, 'cannot open c.db\n', 'collect', 'c.db', '--compare')
            database.execute('ROLLBACK')
        database.close()
        ensure(list(held(place)) == ['p6.img'], 'a database that was open elsewhere')
    # What another program left in its log when it was killed comes first.
    left = subprocess.run([sys.executable, '-c', "import os, sqlite3; d = sqlite3.connect('c.db', isolation_level=None); d.execute('PRAGMA journal_mode = WAL').fetchall(); "
                           "d.execute('CREATE TABLE note (text TEXT)'); d.execute(\"INSERT INTO note VALUES ('kept')\"); os._exit(0)"], cwd=place.folder, check=True)
    ensure(left.returncode == 0 and 'c.db-wal' in place.names(), 'no log was left')
    place.wants(0, 'more.img\tvolumes 1\trefused 0\tfiles 0\tdamaged 0\n', 'collect', 'c.db', 'more.img')
    holds(place, [image_rows(place, 'p6.img'), image_rows(place, 'more.img')])
    database = opened(place.folder / 'c.db')
    ensure(database.execute('SELECT text FROM note').fetchall() == [('kept',)], 'what another program left in its log')
    database.close()
    # A journal that only sqlite3 can play back.
    place.file('c.db-journal', b'\xd9\xd5\x05\xf9\x20\xa1\x63\xd7' + bytes(504))
    place.refuses('a journal', 4, 'cannot open c.db\n', 'collect', 'c.db', 'p6.img')
    (place.folder / 'c.db-journal').unlink()
    # A second name of the file, beside which another log would stand.
    os.link(place.folder / 'c.db', place.folder / 'second.db')
    place.refuses('a file with two names', 4, 'cannot open c.db\n', 'collect', 'c.db', 'p6.img')


def read_only(place):
    """A database that this user may not write, and a folder that he may not write."""
    small_volume(place)
    place.done('collect', 'c.db', 'p6.img')
    how = {}
    if os.geteuid() == 0:
        how = {'user': NOBODY, 'group': NOBODY}
    os.chmod(place.folder / 'c.db', 0o444)
    place.refuses('a file to be read alone', 4, 'cannot open c.db\n', 'collect', 'c.db', 'p6.img', **how)
    place.refuses('a file to be read alone', 4, 'cannot open c.db\n', 'collect', 'c.db', '--compare', **how)
    os.chmod(place.folder / 'c.db', 0o666)
    os.chmod(place.folder, 0o555)
    place.refuses('a folder to be read alone', 4, 'cannot open c.db\n', 'collect', 'c.db', 'p6.img', **how)
    place.refuses('a folder to be read alone', 4, 'cannot open d.db\n', 'collect', 'd.db', 'p6.img', **how)
    os.chmod(place.folder, 0o755)


def full_device(place, folder, how, what):
    """Images on the way into a database on a device that has no more room: those before the fault stay, and the next run goes on."""
    named_volume(place, 'big.img', 'Big', [f'create\t2\t{"n" * 20}{n:04}' for n in range(300)], blocks=600, nodes=260)
    big = (place.folder / 'big.img').read_bytes()
    names = []
    for n in range(12):
        place.file(f'{n}.img', big)
        names.append(f'{n}.img')
    database = Path(folder) / 'c.db'
    status, text = place.run('collect', database, *names, **how)
    lines = text.splitlines(keepends=True)
    ensure(status == 4 and lines and lines[-1] == f'cannot write {database}\n', f'{what} ends with {status}: {text[-200:]!r}')
    rows = [image_rows(place, name, True) for name in names[:1]] * len(lines[:-1])
    wanted = [((name, *rows[0][0][1:]), rows[0][1]) for name in names[:len(lines) - 1]] if rows else []
    ensure(lines[:-1] == [line_of(row) for row in wanted], f'{what} prints {text[-400:]!r}')
    other = Place(folder)
    found = held(other, 'c.db')
    ensure(list(found) == [row[0][0] for row in wanted] and all(found[row[0][0]] == row for row in wanted), f'{what}: the database has the images {list(found)}')
    ensure(wanted, f'{what}: not one image was collected')
    return database, names, wanted


def full_devices(place, left_out):
    def limited():
        resource.setrlimit(resource.RLIMIT_FSIZE, (600_000, 600_000))
    with tempfile.TemporaryDirectory() as folder:
        database, names, wanted = full_device(place, folder, {'preexec_fn': limited, 'restore_signals': False}, 'a limit of the size of files')
        text = place.done('collect', database, *names)
        ensure(text.count('\n') == len(names), 'a run behind one that met a limit')
        found = held(Place(folder), 'c.db')
        ensure(list(found) == names and sorted(os.listdir(folder)) == ['c.db'], 'all images behind a limit')
    if os.geteuid() == 0:
        with tempfile.TemporaryDirectory() as folder:
            if subprocess.run(['mount', '-t', 'tmpfs', '-o', 'size=1200k', 'tmpfs', folder], capture_output=True).returncode:
                left_out.append('a full device')
                return
            try:
                database, names, wanted = full_device(place, folder, {}, 'a full device')
                ensure(sorted(os.listdir(folder)) in (['c.db'], ['c.db', 'c.db-wal']), f'a full device has {os.listdir(folder)}')
                # Once there is room, the next run goes on: the commit that failed left nothing under way.
                subprocess.run(['mount', '-o', 'remount,size=40m', folder], check=True)
                text = place.done('collect', database, *names)
                ensure(text.count('\n') == len(names), 'a run behind one that met a full device')
                found = held(Place(folder), 'c.db')
                ensure(list(found) == names and all(row[1] == found[names[0]][1] for row in found.values()), 'all images behind a full device')
                ensure(sorted(os.listdir(folder)) == ['c.db'], f'a run with room again leaves {os.listdir(folder)}')
                # No room at all, on a device of its own.
                subprocess.run(['umount', folder], check=True)
                subprocess.run(['mount', '-t', 'tmpfs', '-o', 'size=64k', 'tmpfs', folder], check=True)
                with open(Path(folder) / 'fill', 'wb', buffering=0) as fill:
                    try:
                        for _ in range(10_000):
                            fill.write(bytes(4096))
                    except OSError:
                        pass
                database = Path(folder) / 'c.db'
                status, text = place.run('collect', database, 'big.img')
                ensure(status == 4 and text in (f'cannot write {database}\n', f'cannot open {database}\n'), f'a device without room: {status}, {text!r}')
                ensure(os.listdir(folder) == ['fill'], f'a device without room has {os.listdir(folder)}')
            finally:
                subprocess.run(['umount', folder], check=True)
    else:
        left_out.append('a full device')


def few_files(place):
    """Few files that may be open: the database is made and closed, or nothing is left of it; one that is there stays as it is."""
    content = small_volume(place)
    place.done('collect', 'there.db', 'p6.img')
    kept, rows = (place.folder / 'there.db').read_bytes(), image_rows(place, 'p6.img')
    place.file('more.img', content)
    made = set()
    for most in range(4, 14):
        how = {'preexec_fn': lambda: resource.setrlimit(resource.RLIMIT_NOFILE, (most, most))}
        status, text = place.run('collect', 'new.db', 'p6.img', **how)
        names = sorted(it for it in place.names() if it.startswith('new.db'))
        if text.startswith('cannot open'):
            ensure((status, text, names) == (4, 'cannot open new.db\n', []), f'{most} open files: {status}, {text!r}, {names}')
        else:
            ensure((status, text) in ((0, line_of(rows)), (4, 'cannot read p6.img\n')) and names == ['new.db'], f'{most} open files: {status}, {text!r}, {names}')
            holds(place, [rows] if status == 0 else [], 'new.db')
            made.add(most)
            (place.folder / 'new.db').unlink()
        status, text = place.run('collect', 'there.db', 'none.img', **how)
        ensure(status == 4 and text in ('cannot open there.db\n', 'cannot read none.img\n'), f'{most} open files: {status}, {text!r}')
        ensure(sorted(it for it in place.names() if it.startswith('there.db')) == ['there.db'], f'{most} open files leave {place.names()}')
        ensure(text != 'cannot open there.db\n' or (place.folder / 'there.db').read_bytes() == kept, f'{most} open files change a database')
    ensure(4 not in made and 13 in made, f'databases with these numbers of open files: {sorted(made)}')


def unread_images(place):
    """Images that can't be read: their rows stay, and the next image comes."""
    content = small_volume(place)
    place.file('gone.img', content)
    place.done('collect', 'c.db', 'gone.img', 'p6.img')
    kept = image_rows(place, 'gone.img')
    (place.folder / 'gone.img').unlink()
    (place.folder / 'folder').mkdir()
    rows = image_rows(place, 'p6.img')
    for name in ('gone.img', 'none.img', 'folder', 'none/none', ''):
        place.wants(4, f'cannot read {name}\n' + line_of(rows), 'collect', 'c.db', name, 'p6.img')
        place.wants(4, line_of(rows) + f'cannot read {name}\n', 'collect', 'c.db', 'p6.img', name)
    holds(place, [kept, rows])
    # The database itself, by each of its names.
    (place.folder / 'link').symlink_to('c.db')
    for name in ('c.db', './c.db', str(place.folder / 'c.db'), 'link', 'c.db-wal', './c.db-wal', 'c.db-journal', 'c.db-shm'):
        place.wants(4, f'cannot read {name}\n' + line_of(rows), 'collect', 'c.db', name, 'p6.img')
        place.wants(3, f'missing\t{name}\n', 'collect', 'c.db', '--compare', name)
    place.wants(4, 'cannot read new.db\ncannot read new.db-wal\n', 'collect', 'new.db', 'new.db', 'new.db-wal')
    holds(place, [], 'new.db')
    holds(place, [kept, rows])


def piped_images(place):
    """Images out of pipes: the same rows as by their paths, but for the path; so are comparisons. What comes later takes the rows' place."""
    content = small_volume(place)
    floppy = small_file('OneFile')
    files = {'p6.img': content, 'one.img': floppy, 'map.img': in_map(content, 512), 'refused.img': with_bytes(content, (1024 + 87, b'\xff')), 'disk.bin': in_sectors(content),
             'copy.img': in_disk_copy(content), 'lost.img': with_bytes(floppy, (1024, bytes(512))), 'zeros.img': bytes(70000), 'empty.img': b''}
    for name, data in files.items():
        place.file(name, data)
        for digests in ([], ['--no-digest']):
            rows = image_rows(place, name, not digests)
            piped = (('/dev/stdin', *rows[0][1:]), rows[1])
            how = {'errors': '/dev/stdin: the sum of the disk copy is wrong\n'} if any('sum wrong' in row[1] for row, _ in rows[1]) else {}
            place.wants(0, line_of(piped), 'collect', 'c.db', '/dev/stdin', *digests, input=data, **how)
            holds(place, [piped])
        place.wants(0, 'same length\t/dev/stdin\n', 'collect', 'c.db', '--compare', input=data)
        place.wants(3, 'changed\t/dev/stdin\n', 'collect', 'c.db', '--compare', '/dev/stdin', input=data + b'x')
    place.done('collect', 'c.db', '/dev/stdin', input=content)
    place.wants(0, 'same\t/dev/stdin\n', 'collect', 'c.db', '--compare', '/dev/stdin', input=content)
    place.wants(3, 'changed\t/dev/stdin\n', 'collect', 'c.db', '--compare', '/dev/stdin', input=content[:-1] + b'x')
    # A named pipe, and beside it an image by its path.
    os.mkfifo(place.folder / 'pipe')
    writer = subprocess.Popen(['sh', '-c', 'cat one.img > pipe'], cwd=place.folder)
    rows = image_rows(place, 'one.img')
    piped = (('pipe', *rows[0][1:]), rows[1])
    reader = subprocess.Popen(called('collect', 'new.db', 'pipe', 'p6.img'), stdin=subprocess.DEVNULL, stdout=subprocess.PIPE, cwd=place.folder)
    writer.wait(timeout=300)
    told = reader.communicate(timeout=300)[0].decode()
    others = image_rows(place, 'p6.img')
    ensure((reader.returncode, told) == (0, line_of(piped) + line_of(others)), f'a named pipe: {reader.returncode}, {told!r}')
    holds(place, [piped, others], 'new.db')


def broken_reads(place, library):
    """Reads that fail in the middle of an image: its rows stay."""
    name = 'one.img'
    import gzip
    content = gzip.decompress((VOLUMES / 'small' / 'one-file.img.gz').read_bytes())
    place.file(name, content)
    small_volume(place)
    place.done('collect', 'c.db', name, 'p6.img')
    rows = [image_rows(place, name), image_rows(place, 'p6.img')]
    place.file(name, content[:2000] + b'x' + content[2001:])
    inode = os.stat(place.folder / name).st_ino
    for block in (0, 2, 6, 14, 20, len(content) // 512 - 1):
        how = {'env': {**os.environ, 'LD_PRELOAD': str(library), 'REFUSED_FILE': str(inode), 'REFUSED_BLOCK': str(block)}}
        place.wants(4, f'cannot read {name}\n' + line_of(rows[1]), 'collect', 'c.db', name, 'p6.img', **how)
        place.wants(3, f'missing\t{name}\nsame\tp6.img\n', 'collect', 'c.db', '--compare', **how)
        holds(place, rows)
    # One that the database has no digest of, or no row, is missing where it can't be read.
    place.file('other.img', content)
    place.done('collect', 'n.db', name, '--no-digest')
    for other in (name, 'other.img'):
        found = os.stat(place.folder / other).st_ino
        how = {'env': {**os.environ, 'LD_PRELOAD': str(library), 'REFUSED_FILE': str(found), 'REFUSED_BLOCK': '0'}}
        place.wants(3, f'missing\t{other}\n', 'collect', 'n.db', '--compare', other, **how)
    place.wants(0, f'same length\t{name}\nnew\tother.img\n', 'collect', 'n.db', '--compare', name, 'other.img')
    # A volume that is refused is read whole, without digests too.
    place.file('lost.img', with_bytes(content, (1024, bytes(512))))
    place.done('collect', 'c.db', 'lost.img')
    rows.append(image_rows(place, 'lost.img'))
    inode, other = os.stat(place.folder / 'lost.img').st_ino, inode
    for block in (0, 2, 14, 40):
        how = {'env': {**os.environ, 'LD_PRELOAD': str(library), 'REFUSED_FILE': str(inode), 'REFUSED_BLOCK': str(block)}}
        place.wants(4, f'cannot read lost.img\n' + line_of(rows[1]), 'collect', 'c.db', 'lost.img', 'p6.img', *(['--no-digest'] if block == 40 else []), **how)
        rows[1] = image_rows(place, 'p6.img', block != 40)
        holds(place, rows)
    inode = other
    # Without digests a block that nothing lies in isn't read; one of the catalog is.
    how = {'env': {**os.environ, 'LD_PRELOAD': str(library), 'REFUSED_FILE': str(inode), 'REFUSED_BLOCK': '2'}}
    place.wants(4, f'cannot read {name}\n', 'collect', 'c.db', name, '--no-digest', **how)
    holds(place, rows)


def refused_memory(place, library, step, edits=()):
    """Each so many-th call that asks for memory is refused: the image is as before, or whole."""
    image = 'hfsutils-800k.img'
    place.file(image, with_bytes((VOLUMES / image).read_bytes(), *edits))
    (place.folder / 'c.db').unlink(missing_ok=True)
    small_volume(place)
    place.done('collect', 'c.db', 'p6.img')
    before = (place.folder / 'c.db').read_bytes()
    rows = [image_rows(place, 'p6.img'), image_rows(place, image)]
    told = (0, line_of(rows[1]))
    call, refused, whole = 1, 0, 0
    while whole < 3:
        place.file('c.db', before)
        how = {'env': {**os.environ, 'LD_PRELOAD': str(library), 'REFUSED_CALL': str(call)}}
        found = place.run('collect', 'c.db', image, **how)
        if found == told:
            holds(place, rows)
            whole += 1
        else:
            # Where the words themselves can't be taken in, they are told to be no text.
            ensure(found in ((5, 'out of memory\n'), (5, told[1] + 'out of memory\n'), (1, 'the words are not text\n')), f'call {call} for memory refused: {found}')
            whole = 0
            has = list(held(place))
            ensure(has == ['p6.img'] or found[0] == 5 and found[1] != 'out of memory\n' and has == ['p6.img', image], f'call {call} for memory refused: the database has {has}')
            refused += 1
            log = place.folder / 'c.db-wal'
            if log.exists():
                log.unlink()
        call += step
    return refused


def killed(place, count, seed):
    """Runs that are killed: each image is as before or whole, and the next run goes on."""
    chance = random.Random(seed)
    names = []
    for n in range(12):
        named_volume(place, f'{n:02}.img', f'Disk {n}', [f'create\t2\tfile {k}' for k in range(20 + n)], nodes=30)
        names.append(f'{n:02}.img')
    began = time.time()
    place.done('collect', 'c.db', *names, '--no-digest')
    before = {name: image_rows(place, name, False) for name in names}
    kept = (place.folder / 'c.db').read_bytes()
    after = {name: image_rows(place, name) for name in names}
    began = time.time()
    place.done('collect', 'c.db', *names)
    length = time.time() - began
    seen = {'before': 0, 'whole': 0}
    for _ in range(count):
        for end in ('wal', 'shm'):
            (place.folder / f'c.db-{end}').unlink(missing_ok=True)
        place.file('c.db', kept)
        run = subprocess.Popen(called('collect', 'c.db', *names), cwd=place.folder, stdout=subprocess.DEVNULL, stdin=subprocess.DEVNULL)
        time.sleep(chance.uniform(0, length))
        run.send_signal(signal.SIGKILL)
        run.wait()
        found = held(place)
        ensure(list(found) == names, f'a run that was killed: the database has {list(found)}')
        for name in names:
            ensure(found[name] in (before[name], after[name]), f'a run that was killed: {name} is neither as before nor whole')
            seen['before' if found[name] == before[name] else 'whole'] += 1
        place.done('collect', 'c.db', *names)
        holds(place, [after[name] for name in names])
    # The first run of all.
    for _ in range(count):
        for end in ('', '-wal', '-shm'):
            (place.folder / f'c.db{end}').unlink(missing_ok=True)
        run = subprocess.Popen(called('collect', 'c.db', *names), cwd=place.folder, stdout=subprocess.DEVNULL, stdin=subprocess.DEVNULL)
        time.sleep(chance.uniform(0, length))
        run.send_signal(signal.SIGKILL)
        run.wait()
        place.done('collect', 'c.db', *names)
        holds(place, [after[name] for name in names])
    return seen


def many_images(place, count):
    """Many images in one run."""
    content = small_volume(place)
    names = [f'{n:05}.img' for n in range(count)]
    for n, name in enumerate(names):
        place.file(name, content[:-8] + n.to_bytes(8, 'big'))
    began = time.time()
    text = place.done('collect', 'c.db', *names)
    first = time.time() - began
    ensure(text == ''.join(f'{name}\tvolumes 1\trefused 0\tfiles 0\tdamaged 0\n' for name in names), 'the lines of many images')
    found = held(place)
    ensure(list(found) == names and all(len(volumes) == 1 and len(volumes[0][1]) == 1 for _, volumes in found.values()), 'the rows of many images')
    ensure(all(row[2] == sha256(content[:-8] + n.to_bytes(8, 'big')) for n, (row, _) in enumerate(found.values())), 'the digests of many images')
    place.wants(0, ''.join(f'same\t{name}\n' for name in names), 'collect', 'c.db', '--compare')
    began = time.time()
    ensure(place.done('collect', 'c.db', *names) == text, 'many images a second time')
    ensure(place.names() == [*names, 'c.db', 'p6.img'], 'what many images leave')
    return first, time.time() - began


def full_output(place):
    """A device for what is printed that is full: what was collected stays."""
    small_volume(place)
    with open('/dev/full', 'wb') as full:
        ran = subprocess.run(called('collect', 'c.db', 'p6.img'), stdout=full, stderr=subprocess.PIPE, cwd=place.folder, timeout=600)
    ensure((ran.returncode, ran.stderr) == (4, b''), f'collect on a full device ends with {ran.returncode}')
    holds(place, [image_rows(place, 'p6.img')])


def terminal(place):
    """How far a run is stands on standard error, where that is a terminal."""
    small_volume(place)
    place.file('more.img', (place.folder / 'p6.img').read_bytes())
    ours, theirs = os.openpty()
    ran = subprocess.run(called('collect', 'c.db', 'p6.img', 'more.img', 'none.img'), stdin=subprocess.DEVNULL, stdout=subprocess.PIPE, stderr=theirs, cwd=place.folder,
                         timeout=600)
    os.close(theirs)
    told = b''
    try:
        while True:
            piece = os.read(ours, 4096)
            if not piece:
                break
            told += piece
    except OSError:
        pass
    os.close(ours)
    ensure(ran.returncode == 4, f'a run at a terminal ends with {ran.returncode}')
    length = (place.folder / 'p6.img').stat().st_size
    line = '\r{} of 3 images: {}, 0 bytes read, of {}\x1b[K\r\x1b[K'
    wanted = line.format(1, 'p6.img', length) + line.format(2, 'more.img', length) + 'none.img: there is no such file\n'
    ensure(told.replace(b'\r\n', b'\n') == wanted.encode(), f'a terminal is told {told!r}')


# ---- what runs them

def beside(place, part, behind):
    """A part, with this done behind each comparison of a database with the rows that it is to have."""
    global holds
    compared = holds

    def holds_and(where, wanted, name='c.db'):
        compared(where, wanted, name)
        behind(where, wanted, name)
    holds = holds_and
    try:
        part(place)
    finally:
        holds = compared


def refusing_library(top, left_out):
    """The library that refuses reads and memory, or None without a C compiler, which is then told."""
    if not shutil.which('cc'):
        left_out.append('reads and memory that are refused, for want of a C compiler')
        return None
    source, library = Path(top) / 'refuse.c', Path(top) / 'refuse.so'
    source.write_text(REFUSE)
    subprocess.run(['cc', '-shared', '-fPIC', '-O1', '-o', library, source, '-ldl'], check=True)
    return library


def counts_of(parts, top, only, what):
    """Each part, or the one of this name, in a folder of its own; what all of them counted."""
    counts = {}
    for name, part in parts:
        if only and name != only:
            continue
        folder = Path(top) / name
        folder.mkdir()
        place = Place(folder)
        began = time.time()
        try:
            part(place)
        except Difference as differs:
            sys.exit(f'{what}, {name}: {differs}')
        if only or os.environ.get('COLLECT_TIMES'):
            print(f'{name}: {time.time() - began:.1f} s')
        for kind, count in place.counts.items():
            counts[kind] = counts.get(kind, 0) + count
        os.chmod(folder, 0o755)
        shutil.rmtree(folder)
    return counts


def main():
    parser = argparse.ArgumentParser(description=__doc__, formatter_class=argparse.RawDescriptionHelpFormatter)
    parser.add_argument('--images', type=int, default=100, help='how many images are in the large run')
    parser.add_argument('--kills', type=int, default=10, help='how many runs of each kind are killed')
    parser.add_argument('--seed', type=int, default=1)
    parser.add_argument('--memory-step', type=int, default=97, help='each so many-th call for memory is refused')
    parser.add_argument('--only', help='only the part of this name')
    words = parser.parse_args()
    left_out, told = [], []
    if not shutil.which('sqlite3'):
        left_out.append('.schema of sqlite3')
    with tempfile.TemporaryDirectory() as top:
        os.chmod(top, 0o755)
        library = refusing_library(top, left_out)
        parts = [worked_example, cut_dumps, raw_sectors, rows_beside_words, damaged_disks, odd_paths, comparisons, refused_words, made_by_sqlite, other_tables, damaged_databases, other_programs, read_only,
                 few_files, unread_images, piped_images, full_output, terminal]
        parts = [(part.__name__, part) for part in parts]
        parts.append(('full_devices', lambda place: full_devices(place, left_out)))
        if library:
            parts.append(('broken_reads', lambda place: broken_reads(place, library)))
            parts.append(('refused_memory', lambda place: told.append('{} calls for memory refused'.format(
                refused_memory(place, library, words.memory_step) + refused_memory(place, library, words.memory_step, [(1024 + 87, b'\xff')])))))
        parts.append(('killed', lambda place: told.append('killed: {before} images as before, {whole} whole'.format(**killed(place, words.kills, words.seed)))))
        parts.append(('many_images', lambda place: told.append('{} images: {:.1f} s, again {:.1f} s'.format(words.images, *many_images(place, words.images)))))
        counts = counts_of(parts, top, words.only, 'collect differs')
    print(f"collections agree: {counts['databases']} databases with {counts['rows']} rows, {counts['faults']} refusals that leave all as it was; {'; '.join(told)}")
    if left_out:
        print(f'left out: {", ".join(left_out)}')


if __name__ == '__main__':
    main()
