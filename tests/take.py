#!/usr/bin/env python3
"""Disks that are taken apart: what `take` writes, compared with rows by hand, sums that sha256sum checks,
a reader of bags that knows RFC 8493 alone (tests/bags.py), the lists that libhfs made of volumes in
tests/volumes, the forks that hfsutils copies off volumes that it makes here, and unar, which reads
the AppleDouble files. Host names are spelled here by the rules, without any of the project's code.

Also: deeply nested folders, names of every character that a name may have, many items,
volumes inside other files, images from pipes; a folder that is there already, a link, a full disk,
a folder without permission, reads that fail in the middle, output that nobody takes, and runs that are
killed: the folder is a whole bag, or not there. And what a run prints at a terminal.

tests/take.py [--items N] [--kept FOLDER]      runs $HFS_TOOL, or the program as it is built in crates/hfs_tool/out

It prints how many bags there were and what they held; at a difference it says which and ends with
status 1. What isn't installed is skipped and named.
"""
import argparse
import csv
import gzip
import hashlib
import io
import os
import re
import resource
import shutil
import signal
import struct
import subprocess
import sys
import tempfile
import time
from pathlib import Path

import broken_off
import slow_volumes
from bags import NoBag, read_bag
from driver.programs import built, ended, ended_at_terminal
from driver.wanted import Difference, ensure, ensure_same

HERE = Path(__file__).resolve().parent
TOOL = str(built('hfs_tool'))
VOLUMES = HERE / 'volumes'
BLOCK = 512
# Seconds from the clock of the Macintosh to that of Unix.
UNIX = 2_082_844_800
# The sums of the lists of libhfs: FNV-1a of 64 bits from a basis of their own.
BASIS, PRIME = 0x14650FB0739D0383, 0x100000001B3
HEAD = bytes.fromhex('00051607' + '00020000' + '00' * 16 + '0002' + '00000009' + '00000032' + '00000020' + '00000002' + '00000052')
TAGS = ['manifest-sha256.txt', 'items.csv', 'volume.txt', 'bag-info.txt', 'bagit.txt', 'tagmanifest-sha256.txt']
DEVICES = {'CON', 'PRN', 'AUX', 'NUL', *(f'{it}{n}' for it in ('COM', 'LPT') for n in range(1, 10))}
# When a folder is made, an image is cut; behind its first opening a path gets another file; no thread is begun.
TIMELESS = r'''
#include <errno.h>
#include <time.h>

/* No file's times can be set. */
int futimens(int file, const struct timespec times[2]) {
    (void)file, (void)times;
    errno = EPERM;
    return -1;
}
'''
CHANGE = r'''
#define _GNU_SOURCE
#include <dlfcn.h>
#include <errno.h>
#include <fcntl.h>
#include <pthread.h>
#include <stdarg.h>
#include <stdio.h>
#include <stdlib.h>
#include <string.h>
#include <sys/stat.h>
#include <unistd.h>

int mkdir(const char *path, mode_t mode) {
    int (*next)(const char *, mode_t) = dlsym(RTLD_NEXT, "mkdir");
    const char *image = getenv("CUT_IMAGE");
    if (image && truncate(image, atoll(getenv("CUT_BYTES"))) != 0) abort();
    return next(path, mode);
}

int open(const char *path, int how, ...) {
    int (*next)(const char *, int, ...) = dlsym(RTLD_NEXT, "open");
    const char *replaced = getenv("REPLACED");
    va_list rest;
    va_start(rest, how);
    int file = next(path, how, how & O_CREAT ? va_arg(rest, int) : 0);
    va_end(rest);
    if (replaced && !strcmp(path, replaced)) rename(getenv("OTHER"), replaced);
    return file;
}

int pthread_create(pthread_t *made, const pthread_attr_t *how, void *(*begin)(void *), void *given) {
    int (*next)(pthread_t *, const pthread_attr_t *, void *(*)(void *), void *) = dlsym(RTLD_NEXT, "pthread_create");
    return getenv("NO_THREADS") ? EAGAIN : next(made, how, begin, given);
}
'''


def told(*words, given=None, cwd=None, errors='', **how):
    """The status of the words, and what they print; on standard error this."""
    status, printed, said = ended(TOOL, words, given, cwd=cwd, **how)
    ensure(said.decode('utf-8') == errors, f'{words} writes to standard error: {said[:300]!r}')
    return status, printed.decode('utf-8')


def fnv(content):
    total = BASIS
    for byte in content:
        total = (total ^ byte) * PRIME & (1 << 64) - 1
    return total


def host_name(name):
    """How a name of these bytes is called on any file system."""
    if not name:
        return '='
    text = ''
    is_device = name.split(b'.')[0].decode('latin-1').upper() in DEVICES
    for n, byte in enumerate(name):
        escaped = byte < 0x20 or byte == 0x7F or byte in b'%=/\\:*?"<>|'
        escaped |= n == 0 and (byte == 0x2E or is_device)
        escaped |= n == len(name) - 1 and byte in b'. '
        text += f'={byte:02X}' if escaped else bytes([byte]).decode('mac_roman')
    return text


class Bags:
    """Bags that were made, and what they held."""

    def __init__(self, folder):
        self.folder = folder
        self.count, self.files, self.bytes, self.skipped = 0, 0, 0, []

    def place(self, name):
        path = self.folder / name
        if path.exists():
            shutil.rmtree(path)
        return path

    # ---- images

    def new(self, name, blocks, nodes, extents, calls='', now=0, title='D'):
        """A new volume, after these calls of the first worker, a line each."""
        image = self.folder / f'{name}.img'
        status, text = told('new', image, title, blocks, nodes, extents)
        ensure(status == 0, f'new ends with {status}: {text!r}')
        return self.changed(image, calls, now) if calls else image

    def changed(self, image, calls, now=0):
        script = self.folder / 'calls'
        script.write_text(''.join(f'1\t{line}\n' for line in calls.splitlines()), 'latin-1')
        status, text = told('run', image, script, '--now', now, '--out', image)
        refused = [line for line in text.splitlines() if line.split('\t')[2] != '0']
        ensure(status == 0 and not refused, f'run of {image.name} ends with {status}: {refused[:1]}')
        return image

    # ---- bags

    def taken(self, image, name, *words, given=None, like=None):
        """The bag that is made of an image, which every reader takes; `like` is what it tells of the image."""
        bag = self.place(name)
        status, text = told('take', image, bag, *words, given=given)
        ensure(status == 0, f'take of {image} ends with {status}: {text!r}')
        return self.whole(bag, text, Path(like or image), words, given)

    def whole(self, bag, text, image, words, given=None):
        ensure(not list(bag.parent.glob(f'{bag.name}.*.new')), f'{bag.name} leaves something beside it')
        try:
            files, size, tags = read_bag(bag)
        except NoBag as wrong:
            raise Difference(f'{bag.name} is no whole bag: {wrong}') from None
        for sums in ('manifest-sha256.txt', 'tagmanifest-sha256.txt'):
            if (bag / sums).stat().st_size:
                run = subprocess.run(['sha256sum', '-c', '--quiet', '--strict', sums], cwd=bag, capture_output=True, text=True, timeout=600)
                ensure(run.returncode == 0, f'sha256sum of {bag.name}: {run.stdout} {run.stderr}')
        rows = list(csv.DictReader(io.StringIO((bag / 'items.csv').read_bytes().decode('utf-8'), newline='')))
        folders = sum(row['kind'] == 'folder' for row in rows) - 1
        items = len(rows) - 1
        ensure(text == f'taken\nfiles {items - folders}\nfolders {folders}\nbytes {size}\n', f'{bag.name}: take prints {text!r}')
        ensure(files == 2 * items - folders, f'{bag.name} has {files} files of {items} items')
        self.compare_payload(bag, rows)
        self.compare_tags(bag, image, words, tags, given, rows)
        self.count += 1
        self.files += files
        self.bytes += size
        return bag

    def compare_payload(self, bag, rows):
        """Each item has what the table tells of it, and nothing else is there."""
        wanted = {bag / 'data'}
        places = {int(rows[0]['id']): bag / 'data'}
        for row in rows[1:]:
            above = places[int(row['parent'])]
            name = host_name(last_name(row['path']))
            place, double = above / name, above / f'._{name}'
            finder = bytes.fromhex(row['finder'])
            resource = int(row['resource_bytes'] or 0)
            content = double.read_bytes()
            ensure(content[:82] == HEAD + struct.pack('>I', resource) + finder, f'the head of {double}')
            ensure(len(content) == 82 + resource, f'the resource fork of {double} has {len(content) - 82} bytes')
            wanted |= {place, double}
            if row['kind'] == 'folder':
                ensure(place.is_dir(), f'{place} is no folder')
                places[int(row['id'])] = place
            else:
                ensure(place.stat().st_size == int(row['data_bytes']), f'{place} has {place.stat().st_size} bytes')
                compare_time(place, row['modified'])
        found = {path for path in [bag / 'data', *(bag / 'data').rglob('*')]}
        ensure(found == wanted, f'{bag.name} has more or less: {sorted(map(str, found ^ wanted))[:3]}')

    def compare_tags(self, bag, image, words, tags, given, rows):
        """The table and the lines are those of the other words; bag-info tells of the image."""
        volume = words[words.index('--volume'):][:2] if '--volume' in words else ()
        source = image if given is None else '/dev/stdin'
        table = told('items', source, '--format', 'csv', *volume, given=given)[1].split('\r\n')
        found = (bag / 'items.csv').read_bytes().decode('utf-8').split('\r\n')
        ends = ['bag_path', *(quoted(host_path(row['path'])) for row in rows)]
        ensure_same(found, [*(f'{line},{end}' for line, end in zip(table, ends)), ''], f'{bag.name}: items.csv')
        info, check = told('info', source, *volume, given=given)[1], told('check', source, *volume, given=given)[1]
        ensure((bag / 'volume.txt').read_text('utf-8') == info + check, f'{bag.name}: volume.txt')
        labels = [label for label, _ in tags]
        wanted = ['External-Identifier', 'Bag-Software-Agent', 'Source-Image', *(['Source-Volume', 'Source-Volume-Bytes'] if volume else ['Source-Bytes']),
                  *([] if '--no-digest' in words else ['Source-Volume-SHA256' if volume else 'Source-SHA256']), 'Payload-Oxum']
        ensure(labels == wanted, f'{bag.name}: bag-info.txt has {labels}')
        found = dict(tags)
        ensure(found['Bag-Software-Agent'] == 'hfs_tool 1.0.0', found['Bag-Software-Agent'])
        if not volume:
            content = image.read_bytes() if given is None else given
            ensure(found['Source-Bytes'] == str(len(content)), f'{bag.name}: Source-Bytes {found["Source-Bytes"]}')
            if '--no-digest' not in words:
                ensure(found['Source-SHA256'] == hashlib.sha256(content).hexdigest(), f'{bag.name}: the digest of the image')


def bytes_of(name):
    """The bytes of a name of the table."""
    return re.sub(r'\\([0-9a-f]{2})', lambda it: chr(int(it[1], 16)), name).encode('mac_roman')


def last_name(path):
    """The bytes of the last name of a path of the table."""
    return bytes_of(path.rsplit(':', 1)[-1])


def host_path(path):
    """Where what has this path of the table lies below the payload."""
    return '/'.join(host_name(bytes_of(name)) for name in path.split(':')[1:])


def quoted(field):
    """A field of CSV."""
    doubled = field.replace('"', '""')
    return f'"{doubled}"' if ',' in field or '"' in field else field


def compare_time(place, modified):
    """The data fork has the item's date, from 1970 on."""
    if modified and modified >= '1970':
        seconds = place.stat().st_mtime_ns / 1e9
        wanted = time.strftime('%Y-%m-%dT%H:%M:%S', time.gmtime(seconds))
        ensure(wanted == modified, f'the time of {place} is {wanted} in place of {modified}')


# ---- rows by hand

def laid_volume(bags):
    image = bags.folder / 'laid.img'
    image.write_bytes(gzip.decompress((VOLUMES / 'small' / 'one-file.img.gz').read_bytes()))
    return image


def full_file(bags):
    """The laid volume with a type, dates, a lock, and a resource fork that is laid by hand."""
    image = bags.folder / 'full.img'
    image.write_bytes(laid_volume(bags).read_bytes())
    finder = '54455854747478744101010203040506101112131415161718191a1b1c1d1e1f'
    bags.changed(image, f'setinfo\t2\tf\t3029529600\t4294967295\t1\t{finder}\nlock\t2\tf')
    content = bytearray(image.read_bytes())
    record = content.index(b'TEXTttxt') - 4
    content[record + 36:record + 44] = (3).to_bytes(4, 'big') + BLOCK.to_bytes(4, 'big')
    content[record + 86:record + 90] = bytes((0, 20, 0, 1))
    bitmap = BLOCK * int.from_bytes(content[1038:1040], 'big')
    content[bitmap + 2] |= 0x80 >> 4
    content[1058:1060] = (45).to_bytes(2, 'big')
    first = int.from_bytes(content[1052:1054], 'big')
    content[BLOCK * (first + 20):BLOCK * (first + 20) + 3] = b'RES'
    image.write_bytes(content)
    return image


def some_items(bags):
    return bags.new('some', 64, 40, 2, 'mkdir\t2\ta/b\ncreate\t16\t.x\ncreate\t2\tA,"b\\\ncreate\t2\tcon.c\nnewid\t2\tA,"b\\')


def compare_by_hand(bags):
    new = bags.new('p6', 64, 6, 2)
    bag = bags.taken(new, 'empty')
    digest = '8a87ab0d0aabcd89bc3175134dae1fbd9e84c136bc25c294375b54fecd06434f'
    ensure((bag / 'bag-info.txt').read_text() == f'External-Identifier: D\nBag-Software-Agent: hfs_tool 1.0.0\nSource-Image: p6.img\nSource-Bytes: 32768\n'
           f'Source-SHA256: {digest}\nPayload-Oxum: 0.0\n', 'bag-info.txt of an empty volume')
    ensure((bag / 'tagmanifest-sha256.txt').read_text() == '''\
1712ecfb074bf29c4188ad3421032509159a09739fd604f8fe57038b4ddefcc9  bagit.txt
25908ea7bcfd3f1edfe47f49d456e2d39c4b0da4eaec3933fbff6a60260f0bd0  bag-info.txt
3b444b7c99ecf9106fbdb72b2593b4be261c8959bf5aa2c051110eeb8a1834ca  items.csv
394bb9e565db12dadd8d5c9a4dbf837167280a9038b0cc6019c63459c6867177  volume.txt
e3b0c44298fc1c149afbf4c8996fb92427ae41e4649b934ca495991b7852b855  manifest-sha256.txt
''', 'tagmanifest-sha256.txt of an empty volume')
    ensure((bag / 'manifest-sha256.txt').read_bytes() == b'' and not list((bag / 'data').iterdir()), 'the payload of an empty volume')

    bag = bags.taken(laid_volume(bags), 'one')
    ensure((bag / 'manifest-sha256.txt').read_text() == '63d8d35920be456776a35578ade76725c687821ad55d4bb950225fed2d33e6cb  data/f\n'
           'fe7bb90ab0bfe272e941f759f06f952253e28d0c053387f7991c1c2a6804f100  data/._f\n', 'the manifest of one file')
    ensure((bag / 'data/._f').read_bytes() == HEAD + bytes(36), 'the AppleDouble file of one file')
    ensure('Payload-Oxum: 2082.2\n' in (bag / 'bag-info.txt').read_text(), 'the sums of one file')

    bag = bags.taken(full_file(bags), 'full')
    wanted = HEAD + bytes.fromhex('00000003' '54455854' '74747874' '41010102' '03040506' '10111213' '14151617' '18191a1b' '1c1d1e1f' '524553')
    ensure((bag / 'data/._f').read_bytes() == wanted, 'the AppleDouble file of a file with both forks')

    bag = bags.taken(some_items(bags), 'some')
    names = [line.split('  ', 1)[1] for line in (bag / 'manifest-sha256.txt').read_text('utf-8').splitlines()]
    ensure_same(names, ['data/A,=22b=5C', 'data/._A,=22b=5C', 'data/._a=2Fb', 'data/a=2Fb/=2Ex', 'data/a=2Fb/._=2Ex', 'data/=63on.c', 'data/._=63on.c'], 'the order of the manifest')
    ensure(all((bag / name).read_bytes() == HEAD + bytes(36) for name in names if '._' in name), 'an AppleDouble file of a new item')
    ensure('Payload-Oxum: 328.7\n' in (bag / 'bag-info.txt').read_text(), 'the sums of some items')
    compare_order(bags)


def compare_order(bags):
    """What is made comes in the order of the table, and then the tag files."""
    if not shutil.which('strace'):
        bags.skipped.append('strace')
        return
    bag, log = bags.place('traced'), bags.folder / 'trace'
    run = subprocess.run(['strace', '-f', '-qq', '-e', 'trace=mkdir,mkdirat,openat,open,rename,renameat,renameat2', '-o', log, TOOL, 'take', bags.folder / 'some.img', bag],
                         capture_output=True, timeout=600)
    if run.returncode:
        bags.skipped.append('strace')
        return
    made = []
    for line in log.read_text('utf-8', 'replace').splitlines():
        found = re.search(r'traced\.0\.new(?:/([^"]*))?"', line)
        if found and 'O_DIRECTORY' not in line and not line.rstrip().endswith('ENOENT (No such file or directory)'):
            text = (found[1] or '').encode('latin-1').decode('unicode_escape')
            made.append(text)
    wanted = ['', 'data', 'data/A,=22b=5C', 'data/._A,=22b=5C', 'data/._a=2Fb', 'data/a=2Fb', 'data/a=2Fb/=2Ex', 'data/a=2Fb/._=2Ex', 'data/=63on.c', 'data/._=63on.c', *TAGS, '']
    ensure_same(made, wanted, 'the order of writing')


def parted(bags, image):
    """A file with a partition map in which the volume lies, and a partition without one."""
    def entry(first, count, kind):
        return (b'PM\0\0' + struct.pack('>III', 3, first, count)).ljust(48, b'\0') + kind.ljust(32, b'\0') + bytes(BLOCK - 80)
    file = bags.folder / 'F'
    file.write_bytes(bytes(BLOCK) + entry(1, 3, b'Apple_partition_map') + entry(4, 64, b'Apple_HFS') + entry(68, 9, b'apple_hfs') + image.read_bytes() + bytes(3 * BLOCK))
    return file


def compare_volumes(bags):
    new = bags.folder / 'p6.img'
    file = parted(bags, new)
    bag = bags.taken(file, 'inside', '--volume', '1', '--no-digest')
    lines = (bag / 'bag-info.txt').read_text().splitlines()
    ensure_same(lines, ['External-Identifier: D', 'Bag-Software-Agent: hfs_tool 1.0.0', 'Source-Image: F', 'Source-Volume: 1 partition 2048 32768 D', 'Source-Volume-Bytes: 32768',
                        'Payload-Oxum: 0.0'], 'bag-info.txt of a volume inside')
    bag = bags.taken(file, 'inside', '--volume', '1')
    ensure(f'Source-Volume-SHA256: {hashlib.sha256(new.read_bytes()).hexdigest()}\n' in (bag / 'bag-info.txt').read_text(), 'the digest of a volume inside')
    # the only volume inside is taken without a number, and told with it
    chosen = bags.place('chosen')
    ensure(told('take', file, chosen) == (0, 'taken\nfiles 0\nfolders 0\nbytes 0\n'), 'the only volume inside')
    ensure(subprocess.run(['diff', '-r', bag, chosen], capture_output=True).returncode == 0, 'the only volume inside, with a number and without')
    for total, word in (('e9841951', 'right'), ('e9841950', 'wrong')):
        copy = bags.folder / 'copy.dc42'
        copy.write_bytes(b'\1D' + bytes(62) + bytes.fromhex(f'0000800000000000{total}0000000003220100') + new.read_bytes())
        for words in ((), ('--volume', '1')):
            place = bags.place('copied')
            run = subprocess.run([TOOL, 'take', copy, place, '--no-digest', *words], stdin=subprocess.DEVNULL, capture_output=True, text=True)
            ensure(run.returncode == 0 and run.stdout == 'taken\nfiles 0\nfolders 0\nbytes 0\n', f'a disk copy is not taken: {run.stdout}')
            ensure(run.stderr == ('' if word == 'right' else f'{copy}: the sum of the disk copy is wrong\n'), f'sum {word}: {run.stderr!r}')
            ensure_same((place / 'bag-info.txt').read_text().splitlines(),
                        ['External-Identifier: D', 'Bag-Software-Agent: hfs_tool 1.0.0', 'Source-Image: copy.dc42', f'Source-Volume: 1 disk copy 84 32768 D sum {word}',
                         'Source-Volume-Bytes: 32768', 'Payload-Oxum: 0.0'], 'bag-info.txt of a disk copy')
    full = bags.folder / 'full.img'
    alone, inside = bags.taken(full, 'alone'), bags.taken(parted(bags, full), 'inside', '--volume', '1')
    ensure(subprocess.run(['diff', '-r', '-x', 'bag-info.txt', '-x', 'tagmanifest-sha256.txt', alone, inside], capture_output=True).returncode == 0, 'a volume inside')
    content = full.read_bytes()
    bag = bags.taken('/dev/stdin', 'piped', given=content, like='/dev/stdin')
    ensure(subprocess.run(['diff', '-r', '-x', 'bag-info.txt', '-x', 'tagmanifest-sha256.txt', alone, bag], capture_output=True).returncode == 0, 'an image out of a pipe')
    ensure('Source-Image: stdin\n' in (bag / 'bag-info.txt').read_text(), 'the name of a pipe')
    odd = bags.folder / 'a\tb\\c.img'
    odd.write_bytes(new.read_bytes() + b'more')
    bag = bags.taken(odd, 'odd')
    ensure(r'Source-Image: a\09b\5cc.img' in (bag / 'bag-info.txt').read_text(), 'the name of an image')
    twice = bags.place('twice')
    told('take', full, twice)
    ensure(subprocess.run(['diff', '-r', '-x', 'bag-info.txt', '-x', 'tagmanifest-sha256.txt', alone, twice], capture_output=True).returncode == 0, 'a second run')


def compare_refused(bags):
    """What can't be taken is told so, and nothing is written."""
    here = bags.folder / 'refused'
    here.mkdir()
    new = bags.folder / 'p6.img'
    (here / 'P').write_bytes(new.read_bytes())
    content = bytearray(new.read_bytes())
    content[BLOCK * 2 + 87] = 1
    (here / 'miscounted').write_bytes(content)

    def wants(status, text, *words, errors=''):
        before = sorted(path.name for path in here.iterdir())
        found = told('take', *words, cwd=here, errors=errors)
        ensure(found == (status, text), f'take {words}: {found} in place of {(status, text)}')
        ensure(sorted(path.name for path in here.iterdir()) == before, f'take {words} leaves something')

    (here / 'folder').mkdir()
    (here / 'file').write_bytes(b'kept')
    (here / 'link').symlink_to('nothing')
    (here / 'out').symlink_to('folder')
    for name in ('folder', 'file', 'link', 'out'):
        wants(4, f'{name} is there already\n', 'P', name)
        wants(4, f'{name} is there already\n', 'P', f'{name}//')
        wants(2, 'check C10 at 3\n', 'miscounted', name)
        wants(2, 'no volume 2\n', 'P', name, '--volume', '2')
    wants(4, '/ is there already\n', 'P', '///')
    wants(4, 'cannot write none/bag.0.new\n', 'P', 'none/bag')
    wants(4, 'cannot write file/bag.0.new\n', 'P', 'file/bag')
    wants(4, 'cannot read none\n', 'none', 'bag')
    wants(4, 'a\\0ab is there already\n', 'P', 'a\nb') if (here / 'a\nb').mkdir() is None else None
    for name, text in {'short': (b'', 'image too short\n'), 'zeros': (bytes(32768), 'not an HFS volume (-57)\n')}.items():
        (here / name).write_bytes(text[0])
        wants(2, text[1], name, 'bag')
    ensure(subprocess.run([TOOL, 'take', here / 'P'], capture_output=True, timeout=60).returncode == 1, 'a word too few')
    ensure((here / 'file').read_bytes() == b'kept' and os.readlink(here / 'link') == 'nothing' and not list((here / 'folder').iterdir()), 'what was there is kept')
    (here / 'bag.0.new').mkdir()
    (here / 'bag.0.new' / 'kept').write_bytes(b'')
    left = '{}.0.new is there, left by a run that was stopped\n'
    wants(2, 'check C10 at 3\n', 'miscounted', 'bag', errors=left.format('bag'))
    ensure(told('take', 'P', 'bag', cwd=here, errors=left.format('bag'))[0] == 0 and (here / 'bag.0.new' / 'kept').exists() and not (here / 'bag.1.new').exists(), 'a name that is taken')
    for n in range(1, 100):
        (here / f'no.{n}.new').mkdir()
    (here / 'no.0.new').write_bytes(b'')
    wants(4, 'cannot write no\n', 'P', 'no', errors=left.format('no'))
    compare_faults(bags, here)


def compare_faults(bags, here):
    """Faults in the middle: what was written is taken away, and the first path that failed is told."""
    full = bags.folder / 'full.img'
    if os.geteuid() == 0 and shutil.which('setpriv'):
        closed = here / 'closed'
        closed.mkdir(mode=0o555)
        nobody = ['setpriv', '--reuid=65534', '--regid=65534', '--clear-groups']
        bags.folder.chmod(0o755)
        run = subprocess.run([*nobody, TOOL, 'take', full, closed / 'bag'], capture_output=True, text=True, timeout=60)
        ensure((run.returncode, run.stdout) == (4, f'cannot write {closed}/bag.0.new\n') and not list(closed.iterdir()), f'a folder without leave: {run}')
    else:
        bags.skipped.append('a folder without leave')
    large = bags.folder / 'large.img'
    slow = subprocess.run([sys.executable, '-c', f'''
import sys; sys.path.insert(0, {str(HERE)!r})
import slow_volumes
volume = slow_volumes.Volume(1)
volume.file(slow_volumes.ROOT, 'a', slow_volumes.FIRST_FREE, 300_000)
volume.file(slow_volumes.ROOT, 'b', slow_volumes.FIRST_FREE + 1, 300_000)
volume.write({str(large)!r})
'''], capture_output=True, text=True)
    ensure(slow.returncode == 0, f'no large volume: {slow.stderr}')
    disk = here / 'disk'
    disk.mkdir()
    if subprocess.run(['mount', '-t', 'tmpfs', '-o', 'size=400k', 'tmpfs', disk], capture_output=True).returncode == 0:
        try:
            status, text = told('take', large, disk / 'bag', '--no-digest')
            ensure((status, text) == (4, f'cannot write {disk}/bag.0.new/data/b\n') and not list(disk.iterdir()), f'a full disk: {status} {text!r}')
        finally:
            subprocess.run(['umount', disk])
    else:
        bags.skipped.append('a full disk')
    bags.taken(large, 'large', '--no-digest')
    with open('/dev/full', 'wb') as nobody:
        status = subprocess.run([TOOL, 'take', full, here / 'unheard'], stdout=nobody, stderr=subprocess.DEVNULL, timeout=60).returncode
    ensure(status == 4, f'output that nobody takes: {status}')
    read_bag(here / 'unheard')
    compare_few_files(bags, full, here)
    compare_unread(bags, here)
    compare_changed(bags, here)
    compare_timeless(bags, here)
    compare_killed(bags, large, here)


def compare_few_files(bags, image, here):
    """Few files that may be open: the bag is whole, or nothing is left of it."""
    whole = set()
    for most in range(4, 12):
        for word in ('take', 'rescue'):
            bag = here / f'few-{word}-{most}'
            run = subprocess.run([TOOL, word, image, bag], stdin=subprocess.DEVNULL, capture_output=True, text=True, timeout=60,
                                 preexec_fn=lambda: resource.setrlimit(resource.RLIMIT_NOFILE, (most, most)))
            ensure(run.returncode in (0, 4), f'{word} with {most} files ends with {run.returncode}: {run.stdout} {run.stderr}')
            ensure(not list(here.glob('few-*.new')), f'{word} with {most} files leaves something: {run.stdout}')
            ensure(bag.exists() == (run.returncode == 0), f'{word} with {most} files: {run.stdout}')
            if bag.exists():
                whole.add(most)
                read_bag(bag)
    ensure(4 not in whole and 11 in whole, f'bags with these numbers of open files: {sorted(whole)}')


def compare_unread(bags, here):
    """Reads that fail: of the blocks of the one file, and with the digest of any block."""
    if not shutil.which('cc'):
        bags.skipped.append('reads that fail')
        return
    source, library = bags.folder / 'refuse.c', bags.folder / 'refuse.so'
    source.write_text(broken_off.REFUSE)
    subprocess.run(['cc', '-shared', '-fPIC', '-O1', '-o', library, source, '-ldl'], check=True)
    image = laid_volume(bags)
    for block, words, status in [(2, (), 4), *((it, ('--no-digest',), 4) for it in broken_off.BLOCKS), (15, (), 4), (15, ('--no-digest',), 0)]:
        bag = here / f'unread-{block}{len(words)}'
        how = {**os.environ, 'LD_PRELOAD': str(library), 'REFUSED_BLOCK': str(block)}
        run = subprocess.run([TOOL, 'take', image, bag, *words], stdin=subprocess.DEVNULL, stdout=subprocess.PIPE, env=how, text=True, timeout=60)
        ensure(run.returncode == status and (status == 0 or run.stdout == f'cannot read {image}\n'), f'block {block} is refused: {run}')
        ensure(bag.exists() == (status == 0) and not list(here.glob('unread-*.new')), f'block {block} is refused, and something is left')


def compare_changed(bags, here):
    """The image's digest, which is made beside the payload: of an image that is cut meanwhile behind the last block of a fork, of one whose path
    another file gets as soon as it is opened, and where no thread can be begun."""
    if not shutil.which('cc'):
        bags.skipped.append('images that change')
        return
    source, library = bags.folder / 'change.c', bags.folder / 'change.so'
    source.write_text(CHANGE)
    subprocess.run(['cc', '-shared', '-fPIC', '-O1', '-o', library, source, '-ldl'], check=True)
    image, other = here / 'changed.img', here / 'other.img'
    content = laid_volume(bags).read_bytes()
    digest = f'Source-SHA256: {hashlib.sha256(content).hexdigest()}\n'

    def taken(name, *words, **how):
        bag = here / f'changed-{name}'
        image.write_bytes(content)
        other.write_bytes(bytes(len(content)))
        run = subprocess.run([TOOL, 'take', image, bag, *words], stdin=subprocess.DEVNULL, stdout=subprocess.PIPE, text=True, timeout=60,
                             env={**os.environ, 'LD_PRELOAD': str(library), **how})
        return bag, run

    cut = {'CUT_IMAGE': str(image), 'CUT_BYTES': str(24 * BLOCK)}
    bag, run = taken('cut', **cut)
    ensure((run.returncode, run.stdout) == (4, f'cannot read {image}\n') and not list(here.glob('changed-*')), f'an image that is cut: {run}')
    bag, run = taken('cut', '--no-digest', **cut)
    ensure(run.returncode == 0 and image.stat().st_size == 24 * BLOCK, f'an image that is cut, without its digest: {run}')
    bag, run = taken('replaced', REPLACED=str(image), OTHER=str(other))
    ensure(run.returncode == 0 and not other.exists() and digest in (bag / 'bag-info.txt').read_text(), f'an image whose path another file gets: {run}')
    bag, run = taken('alone', NO_THREADS='1')
    ensure(run.returncode == 0 and digest in (bag / 'bag-info.txt').read_text(), f'no thread can be begun: {run}')
    read_bag(bag)


def compare_timeless(bags, here):
    """A file system that keeps no times: the bag is whole all the same, and its files have the times at which they were written."""
    if not shutil.which('cc'):
        bags.skipped.append('a file system without times')
        return
    source, library = bags.folder / 'timeless.c', bags.folder / 'timeless.so'
    source.write_text(TIMELESS)
    subprocess.run(['cc', '-shared', '-fPIC', '-O1', '-o', library, source], check=True)
    image, began, found = VOLUMES / 'hfsutils-800k.img', int(time.time()), []
    for name, how in ('timed', {}), ('timeless', {'LD_PRELOAD': str(library)}):
        bag = here / name
        run = subprocess.run([TOOL, 'take', image, bag], stdin=subprocess.DEVNULL, stdout=subprocess.PIPE, env={**os.environ, **how}, text=True, timeout=60)
        ensure(run.returncode == 0, f'{name}: {run}')
        found.append((run.stdout, read_bag(bag)[:2], int((bag / 'data' / 'Games' / 'm0').stat().st_mtime)))
    (timed, payload, set_at), (timeless, kept, written_at) = found
    ensure((timed, payload) == (timeless, kept), f'where no times can be set: {timeless}')
    ensure(set_at < began <= written_at, f'where no times can be set: {set_at}, {written_at}')


def compare_killed(bags, image, here):
    """Runs that are killed: the folder is a whole bag or not there."""
    ended = set()
    for n in range(40):
        bag = here / f'killed-{n}'
        run = subprocess.Popen([TOOL, 'take', image, bag], stdout=subprocess.PIPE, stderr=subprocess.DEVNULL)
        time.sleep(0.004 * n)
        run.send_signal(signal.SIGKILL)
        text = run.communicate()[0].decode()
        ended.add(bag.exists())
        if bag.exists():
            try:
                read_bag(bag)
            except NoBag as wrong:
                raise Difference(f'a bag of a run that was killed: {wrong}') from None
        ensure(bag.exists() or not text, 'a bag that is told of and not there')
        for path in here.glob(f'killed-{n}*'):
            shutil.rmtree(path)


# ---- volumes of other programs

def compare_lists(bags):
    """The forks of the volumes in tests/volumes, against the sums that libhfs made of them."""
    for listed in sorted(VOLUMES.glob('*.list')):
        bag = bags.taken(listed.with_suffix('.img'), listed.stem)
        places, waiting = {2: bag / 'data'}, [line.split('\t') for line in listed.read_text('latin-1').splitlines()]
        while waiting:
            known = [it for it in waiting if int(it[2]) in places]
            ensure(known, f'{listed.name}: folders that nothing leads to')
            waiting = [it for it in waiting if int(it[2]) not in places]
            for fields in known:
                own = re.sub(r'\\([0-9a-f]{2})', lambda it: chr(int(it[1], 16)), fields[-1]).encode('latin-1')
                above, name = places[int(fields[2])], host_name(own)
                if fields[0] == 'd':
                    ensure((above / name).is_dir(), f'{above / name} is no folder')
                    places[int(fields[1])] = above / name
                    continue
                data, double = (above / name).read_bytes(), (above / f'._{name}').read_bytes()
                ensure(f'{fnv(data):016x}' == fields[5], f'the data fork of {above / name}')
                ensure(f'{fnv(double[82:]):016x}' == fields[6], f'the resource fork of {above / name}')
                ensure(double[50:58].hex() == fields[7].replace('/', ''), f'the type of {above / name}')


def compare_peers(bags):
    """Forks that hfsutils put on a volume, against what it copies off."""
    if not shutil.which('hformat'):
        bags.skipped.append('hfsutils')
        return
    home = bags.folder / 'home'
    home.mkdir()
    environment = {**os.environ, 'HOME': str(home)}

    def do(*words):
        subprocess.run([str(it) for it in words], env=environment, check=True, stdout=subprocess.DEVNULL, stderr=subprocess.DEVNULL, cwd=home)

    image = home / 'peer.img'
    with open(image, 'wb') as file:
        file.truncate(8 << 20)
    do('hformat', '-l', 'Peer', image)
    do('hmount', image)
    for n in range(30):
        (home / 'bytes').write_bytes(bytes((k * n) % 251 for k in range(n * 4001 % 200_000)))
        above = f':folder {n % 5}:' if n % 3 else ':'
        if n % 3 and n < 15:
            subprocess.run(['hmkdir', f':folder {n % 5}'], env=environment, capture_output=True)
        do('hcopy', '-r', 'bytes', f'{above}file {n}')
    do('humount')
    bag = bags.taken(image, 'peer')
    do('hmount', image)
    count = 0
    for path in sorted((bag / 'data').rglob('*')):
        if path.is_file() and not path.name.startswith('._'):
            inside = ':' + ':'.join(path.relative_to(bag / 'data').parts)
            do('hcopy', '-r', inside, home / 'back')
            ensure((home / 'back').read_bytes() == path.read_bytes(), f'{path} beside hcopy')
            count += 1
    do('humount')
    ensure(count == 30, f'hfsutils put 30 files on a volume, and {count} came')


def compare_unar(bags):
    """unar joins an AppleDouble file to its data fork, as lsar tells of it."""
    if not shutil.which('lsar') or not shutil.which('unar'):
        bags.skipped.append('unar')
        return
    bag = bags.taken(bags.folder / 'full.img', 'joined')
    both = bags.folder / 'both.tar'
    subprocess.run(['tar', 'cf', both, 'f', '._f'], cwd=bag / 'data', check=True)
    text = subprocess.run(['lsar', '-L', both], capture_output=True, text=True, check=True).stdout
    ensure('Finder info:' in text and '54455854 74747874 41010102 03040506 10111213 14151617 18191a1b 1c1d1e1f' in text, 'the Finder bytes of lsar')
    ensure(re.search('Length of embedded data: *3$', text, re.M), 'the resource fork of lsar')
    out = bags.folder / 'unpacked'
    subprocess.run(['unar', '-q', '-k', 'hidden', '-o', out, both], check=True, capture_output=True)
    double = next(out.rglob('._f'))
    ensure(double.read_bytes() == (bag / 'data/._f').read_bytes(), 'an AppleDouble file through unar')


# ---- names, depth and number

def compare_names(bags):
    """Each character that a name may have: first, last, and between others; and what some hosts keep."""
    letters = [chr(it) for it in range(32, 127) if chr(it) not in ':`']
    names = {f'{it}.' for it in letters} | {f'x{it}' for it in letters} | {f'a{it}b' for it in letters} | set(letters)
    names |= {'con', 'Aux.c', 'nul.', 'com1', 'LPT9.x.y', 'com0', 'com10', 'cons', 'x.con', 'con ', '..', '...', '/' * 31, '50% =\\', '-n', '._x', '=', '=41', '%41'}
    unique = {}
    for name in sorted(names):
        unique.setdefault(name.upper(), name)
    calls = '\n'.join(f'create\t2\t{name}' for name in unique.values())
    bag = bags.taken(bags.new('names', 2000, 400, 4, calls), 'names')
    found = {path.name for path in (bag / 'data').iterdir() if not path.name.startswith('._')}
    ensure(found == {host_name(name.encode()) for name in unique.values()}, 'the names of every character')
    ensure(len({name.upper() for name in found}) == len(unique), 'names that differ in case alone')


def compare_deep(bags, depth):
    calls, above, number = [], 2, 16
    for n in range(depth):
        calls += [f'mkdir\t{above}\tm{n:03}', f'create\t{above}\ta', f'create\t{above}\tz']
        above, number = number, number + 3
    bag = bags.taken(bags.new('deep', 4000, 2048, 4, '\n'.join(calls)), 'deep')
    place = bag / 'data'
    for n in range(depth):
        place /= f'm{n:03}'
    ensure(place.is_dir() and not list(place.iterdir()), 'the folder that lies deepest')


def compare_too_deep(bags):
    """Paths that are longer than the system takes: nothing is left."""
    calls, above = [], 2
    for n in range(180):
        calls.append(f'mkdir\t{above}\t{"x" * 28}{n:03}')
        above = 16 + n
    image = bags.new('too-deep', 4000, 2048, 4, '\n'.join(calls))
    bag = bags.place('too-deep')
    status, text = told('take', image, bag)
    ensure(status == 4 and text.startswith(f'cannot write {bag}.0.new/data/'), f'paths that are too long: {status} {text[:80]!r}')
    ensure(not bag.exists() and not list(bag.parent.glob('too-deep.*.new')), 'paths that are too long leave something')


COUNT_OPENED = r'''
#define _GNU_SOURCE
#include <dlfcn.h>
#include <fcntl.h>
#include <stdarg.h>
#include <stdlib.h>
#include <sys/syscall.h>
#include <unistd.h>

/* A byte for each file that is opened. */
static int counted = -1;

__attribute__((constructor)) static void begin(void) {
    counted = syscall(SYS_openat, AT_FDCWD, getenv("OPENED_FILES"), O_WRONLY | O_CREAT | O_APPEND, 0600);
}

int open(const char *path, int how, ...) {
    va_list rest;
    va_start(rest, how);
    mode_t mode = va_arg(rest, int);
    va_end(rest);
    int (*next)(const char *, int, ...) = dlsym(RTLD_NEXT, "open");
    if (write(counted, "x", 1) != 1) abort();
    return next(path, how, mode);
}

int openat(int folder, const char *path, int how, ...) {
    va_list rest;
    va_start(rest, how);
    mode_t mode = va_arg(rest, int);
    va_end(rest);
    int (*next)(int, const char *, int, ...) = dlsym(RTLD_NEXT, "openat");
    if (write(counted, "x", 1) != 1) abort();
    return next(folder, path, how, mode);
}
'''


def compare_half_removed(bags):
    """Half a bag of folders in one another goes in as many steps as it has folders and files."""
    calls, above = [], 2
    for n in range(2100):
        calls += [f'mkdir\t{above}\tm'] + ([f'create\t{above}\ta'] if n % 100 == 0 else [])
        above = 16 + n + (n + 99) // 100
    image = bags.new('half', 4000, 2048, 4, '\n'.join(calls))
    bag, how = bags.place('half'), {}
    counted = bags.folder / 'opened.txt'
    if shutil.which('cc'):
        source, library = bags.folder / 'opened.c', bags.folder / 'opened.so'
        source.write_text(COUNT_OPENED)
        subprocess.run(['cc', '-shared', '-fPIC', '-O1', '-o', library, source, '-ldl'], check=True)
        how = {'env': {**os.environ, 'LD_PRELOAD': str(library), 'OPENED_FILES': str(counted)}}
    else:
        bags.skipped.append('how many files are opened')
    status, text = told('take', image, bag, '--no-digest', **how)
    ensure(status == 4 and text.startswith(f'cannot write {bag}.0.new/data/m/m/'), f'folders too deep in one another: {status} {text[:80]!r}')
    ensure(not bag.exists() and not list(bag.parent.glob('half.*.new')), 'folders too deep in one another leave something')
    depth = text.count('/m')
    if how:
        number = counted.stat().st_size
        ensure(depth < number < 8 * depth, f'{number} files are opened for {depth} folders')


def compare_many(bags, items):
    """A volume of 20 MB or more with so many files in folders, laid by a program of its own."""
    image = bags.folder / 'many.img'
    volume = slow_volumes.Volume(20 + items // 500)
    folders = max(1, items // 600)
    for n in range(folders):
        volume.folder(slow_volumes.ROOT, f'd{n:03}', slow_volumes.FIRST_FREE + n)
    for n in range(items):
        above = slow_volumes.FIRST_FREE + n % folders
        length = n * 37 % 1_400
        blocks = volume.file(above, f'f{n:05}', slow_volumes.FIRST_FREE + folders + n, length)
        if length:
            volume.bytes_at[blocks[0][0]] = (f'{n} ' * 100).encode()[:min(length, BLOCK * volume.block)]
    volume.write(str(image))
    bag = bags.taken(image, 'many', '--no-digest')
    ensure((bag / 'data/d000/f00000').read_bytes() == b'', 'the first of many files')
    compare_progress(bags, image, items + folders)
    return image


def compare_progress(bags, image, items):
    """At a terminal one line, written over after each hundred items, and taken away at the end."""
    status, _, said = ended_at_terminal(TOOL, ['take', image, bags.place('seen'), '--no-digest'])
    ensure(status == 0, 'a run at a terminal')
    shown = re.findall(r'\r(?:(\d+) of (\d+) items; of the last 0 of \d+ bytes)?\x1b\[K', said.decode())
    ensure_same(shown, [(str(n), str(items)) for n in range(100, items + 1, 100)] + [('', '')], 'what is told at a terminal')


def main():
    parser = argparse.ArgumentParser(description=__doc__, formatter_class=argparse.RawDescriptionHelpFormatter)
    parser.add_argument('--items', type=int, default=1_200, help='how many files the large volume has')
    parser.add_argument('--deep', type=int, default=200, help='how many folders lie in one another')
    parser.add_argument('--kept', help='a folder that keeps the large volume')
    words = parser.parse_args()
    with tempfile.TemporaryDirectory() as folder:
        bags = Bags(Path(folder))
        try:
            compare_by_hand(bags)
            compare_volumes(bags)
            compare_refused(bags)
            compare_lists(bags)
            compare_peers(bags)
            compare_unar(bags)
            compare_names(bags)
            compare_deep(bags, words.deep)
            compare_too_deep(bags)
            compare_half_removed(bags)
            image = compare_many(bags, words.items)
            if words.kept:
                shutil.copy(image, words.kept)
        except Difference as differs:
            print(f'the bags differ: {differs}')
            return 1
        left_out = f'; left out: {", ".join(bags.skipped)}' if bags.skipped else ''
        print(f'{bags.count} bags, {bags.files} files, {bags.bytes} bytes{left_out}')
    return 0


if __name__ == '__main__':
    sys.exit(main())
