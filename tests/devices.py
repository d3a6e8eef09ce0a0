#!/usr/bin/env python3
"""Devices that fail, and devices that give and take a byte at a time; and which blocks of an image
are read. A library that is loaded before the C library comes before each read and write of
hfs_tool, and writes down what is read. All that is expected is written by hand: the blocks of the
small volumes are those of volumes/images.txt. It prints how many runs there were.

tests/devices.py      runs $HFS_TOOL, or the program as it is built in crates/hfs_tool/out
"""
import gzip
import os
import shutil
import subprocess
import sys
import tempfile
from concurrent.futures import ThreadPoolExecutor
from dataclasses import dataclass, field
from pathlib import Path

from driver.programs import built
from driver.wanted import Difference, ensure

HERE = Path(__file__).resolve().parent
TOOL = str(built('hfs_tool'))
BLOCK = 512
# The fork of the small volume's file, 2,000 bytes in four blocks that lie apart.
FORK, FORK_BLOCKS = bytes(k % 251 for k in range(2000)), [14, 16, 18, 20]
# What the checks read of that volume: the master directory block and its alternate, the bitmap, both nodes of the extents tree, and
# of the catalog the two nodes that are in use.
NEEDED = [2, 3, 4, 5, 6, 7, 62]
# What calls read and write: its free nodes, too.
WORKING = [2, 3, 4, 5, 6, 7, 8, 9, 10, 11, 62]
# The most bytes of a script.
SCRIPT_LIMIT = 16_777_216
LIBRARY = r'''
#define _GNU_SOURCE
#include <dlfcn.h>
#include <errno.h>
#include <stdio.h>
#include <stdlib.h>
#include <sys/stat.h>
#include <sys/uio.h>
#include <unistd.h>

/* How many bytes the devices gave and took, and how often the image was read. */
static long given, taken, reads;

static long number(const char *name, long other) {
    const char *text = getenv(name);
    return text ? atol(text) : other;
}

/* What is told of a read, in a line of the file that LOG names. */
static void tell(const char *what, long place, long count) {
    char line[64];
    int log = number("LOG", -1);
    if (log < 0) return;
    ssize_t (*next)(int, const void *, size_t) = dlsym(RTLD_NEXT, "write");
    next(log, line, snprintf(line, sizeof line, "%s %ld %ld\n", what, place, count));
}

/* Whether a file is the image, by its number; and whether it is a device: standard input, or what is no regular file. */
static int is_image(int file) {
    struct stat found;
    return fstat(file, &found) == 0 && (long)found.st_ino == number("IMAGE", -1);
}

static int is_device(int file) {
    struct stat found;
    return file == 0 || (fstat(file, &found) == 0 && !S_ISREG(found.st_mode));
}

/* Whether a read of the image fails: all behind so many. */
static int is_refused(int file, off_t place, size_t count) {
    if (place < 0 || !is_image(file)) return 0;
    if (reads++ >= number("READS", 1L << 40)) {
        errno = EIO;
        return 1;
    }
    tell("read", place, count);
    return 0;
}

ssize_t read(int file, void *into, size_t count) {
    ssize_t (*next)(int, void *, size_t) = dlsym(RTLD_NEXT, "read");
    if (is_refused(file, lseek(file, 0, SEEK_CUR), count)) return -1;
    if (!is_device(file)) return next(file, into, count);
    if (given >= number("GIVES", 1L << 40)) {
        errno = EIO;
        return -1;
    }
    long most = number("GIVES", 1L << 40) - given;
    if (getenv("SLOWLY")) most = 1;
    ssize_t got = next(file, into, (long)count < most ? count : (size_t)most);
    if (got > 0) given += got;
    tell("given", 0, got);
    return got;
}

ssize_t pread(int file, void *into, size_t count, off_t place) {
    ssize_t (*next)(int, void *, size_t, off_t) = dlsym(RTLD_NEXT, "pread");
    if (is_refused(file, place, count)) return -1;
    return next(file, into, count, place);
}

/* A byte at a time goes to standard output where TAKES says how many it takes; then it fails, or takes none where it ENDS. */
ssize_t write(int file, const void *from, size_t count) {
    ssize_t (*next)(int, const void *, size_t) = dlsym(RTLD_NEXT, "write");
    if (file != 1 || !getenv("TAKES") || count == 0) return next(file, from, count);
    if (taken >= number("TAKES", 0)) {
        errno = EIO;
        return getenv("ENDS") ? 0 : -1;
    }
    taken++;
    return next(file, from, 1);
}

ssize_t writev(int file, const struct iovec *parts, int count) {
    ssize_t (*next)(int, const struct iovec *, int) = dlsym(RTLD_NEXT, "writev");
    if (file != 1 || !getenv("TAKES")) return next(file, parts, count);
    for (int at = 0; at < count; at++)
        if (parts[at].iov_len > 0) return write(file, parts[at].iov_base, parts[at].iov_len);
    return 0;
}
'''


@dataclass
class Ran:
    """How a run ended, what it printed and told, and what was read of the image and of devices."""
    status: int
    printed: bytes
    errors: bytes
    reads: list = field(default_factory=list)
    given: int = 0

    @property
    def ending(self):
        return self.status, self.printed, self.errors

    @property
    def blocks(self):
        """The numbers of the blocks that were read, once each."""
        return sorted({block for place, count in self.reads for block in range(place // BLOCK, (place + count + BLOCK - 1) // BLOCK)})


class Bench:
    """The library, a folder for images, and how many runs there were."""

    def __init__(self, folder):
        self.folder, self.runs = folder, 0
        source, self.library = folder / 'devices.c', folder / 'devices.so'
        source.write_text(LIBRARY)
        subprocess.run(['cc', '-shared', '-fPIC', '-O1', '-o', self.library, source, '-ldl'], check=True)

    def lay(self, name, content):
        path = self.folder / name
        path.write_bytes(content)
        return path

    def run(self, words, given=None, image=None, **limits):
        """A run of the words: on standard input an open file, or these bytes out of a pipe; of the image each read is written down."""
        how = {**os.environ, 'LD_PRELOAD': str(self.library), **{name: str(it) for name, it in limits.items()}}
        if image:
            how['IMAGE'] = str(os.stat(image).st_ino)
        fed = {'input': given} if isinstance(given, bytes) else {'stdin': given or subprocess.DEVNULL}
        with tempfile.TemporaryFile() as log:
            how['LOG'] = str(log.fileno())
            ran = subprocess.run([TOOL, *map(str, words)], stdout=subprocess.PIPE, stderr=subprocess.PIPE, env=how, timeout=120, pass_fds=[log.fileno()], **fed)
            log.seek(0)
            lines = [line.split() for line in log.read().decode().splitlines()]
        self.runs += 1
        reads = [(int(place), int(count)) for what, place, count in lines if what == 'read']
        return Ran(ran.returncode, ran.stdout, ran.stderr, reads, sum(max(int(count), 0) for what, _, count in lines if what == 'given'))

    def want(self, what, wanted, words, given=None, image=None, **limits):
        """Wants this status, these bytes on standard output, and these on standard error."""
        ran = self.run(words, given, image, **limits)
        if ran.ending != wanted:
            raise Difference(f'{what}: {ran.status}, prints {ran.printed[:200]!r}, tells {ran.errors[:200]!r}')
        return ran

    def want_all(self, jobs):
        """Wants all of these, four at a time."""
        with ThreadPoolExecutor(4) as pool:
            for _ in pool.map(lambda job: job(), jobs):
                pass


def edited(image, *edits):
    """The image with other bytes in these places."""
    image = bytearray(image)
    for at, byte in edits:
        image[at] = byte
    return bytes(image)


# ---- what `info` and `cat` read and print

def head_by_bytes(bench, image):
    """`info` reads 1,536 bytes, and nothing behind them, however they come; where a read fails before, nothing is printed; and where a
    write fails, or takes none, the first bytes stay."""
    head = bench.lay('head', image[:1536] + bytes(range(100)))
    lines = bench.run(['info', head]).printed
    ensure(lines.count(b'\n') == 30, f'info prints {lines!r}')
    for slowly in ({}, {'SLOWLY': 'yes'}):
        with open(head, 'rb') as file:
            bench.want('info', (0, lines, b''), [], file, **slowly)
            ensure(os.lseek(file.fileno(), 0, os.SEEK_CUR) == 1536, 'info reads another number of bytes')

    def unread(count):
        with open(head, 'rb') as file:
            bench.want(f'info, {count} bytes read', (4, b'cannot read stdin\n', b''), [], file, GIVES=count)

    def unwritten(count, **how):
        bench.want(f'info, {count} bytes written {how}', (4, lines[:count], b''), ['info', head], TAKES=count, **how)

    bench.want_all(lambda count=count: unread(count) for count in range(1536))
    bench.want_all(lambda count=count: unwritten(count) for count in range(len(lines)))
    bench.want_all(lambda count=count: unwritten(count, ENDS='yes') for count in range(len(lines)))
    bench.want('info, all written', (0, lines, b''), ['info', head], TAKES=len(lines))


def forks_by_bytes(bench, image):
    """The fork goes out a byte at a time, also of an image that is loaded; where a write fails the first bytes stay, and nothing is told."""
    path = bench.lay('image', image)
    for count in (0, 1, 1999):
        for words, given in ((['cat', path, 2, 'f'], None), (['cat', '/dev/stdin', 2, 'f'], image)):
            bench.want(f'cat, {count} bytes written', (4, FORK[:count], b''), words, given, TAKES=count)
            bench.want(f'cat, {count} bytes taken', (4, FORK[:count], b''), words, given, TAKES=count, ENDS='yes')
            bench.want('cat, all written', (0, FORK, b''), words, given, TAKES=2000)


# ---- what is loaded

def images_out_of_pipes(bench, image):
    """An image out of a pipe is loaded to its last byte, however it comes, and written as it was; where a read fails, that is told."""
    script, out = bench.lay('nothing', b''), bench.folder / 'out'
    for count in (len(image), 65_535, 65_536, 65_537, 200_000):
        content = image + bytes(k % 251 for k in range(count - len(image)))
        for slowly in ({}, {'SLOWLY': 'yes'}):
            ran = bench.want(f'run of {count} bytes', (0, b'', b''), ['run', '/dev/stdin', script, '--out', out], content, **slowly)
            ensure(ran.given == count and out.read_bytes() == content, f'{count} bytes out of a pipe are written otherwise')
    for count in (0, 1, 1535):
        bench.want(f'check of {count} bytes', (2, b'refused image too short\n', b''), ['check', '/dev/stdin'], image[:count], SLOWLY='yes')
    counts = {*range(0, 4_097, 16), *(block + it for block in range(0, len(image), BLOCK) for it in (0, 1, 511))}
    told = (4, b'cannot read /dev/stdin\n', b'')
    bench.want_all(lambda count=count: bench.want(f'check, {count} bytes read', told, ['check', '/dev/stdin'], image, GIVES=count) for count in sorted(counts))


def scripts_out_of_devices(bench, image):
    """A script is read to one byte behind its limit and no further; where a read fails before, that is told."""
    path = bench.lay('image', image)
    with open('/dev/zero', 'rb') as endless:
        ran = bench.want('a script that never ends', (2, b'script too large\n', b''), ['run', path, '/dev/stdin'], endless)
    ensure(ran.given == SCRIPT_LIMIT + 1, f'{ran.given} bytes of a script that never ends are read')
    zeros = bytes(SCRIPT_LIMIT + 1)
    bench.want('a script at the limit', (2, b'script line 1\n', b''), ['run', path, '/dev/stdin'], zeros[1:])
    bench.want('a script one byte behind it', (2, b'script too large\n', b''), ['run', path, '/dev/stdin'], zeros)
    text, told = b'1\tlist\t2\n' * 500, (4, b'cannot read /dev/stdin\n', b'')
    for count in (0, 1, 9, 4_095, 4_096, 4_097, 4_500):
        bench.want(f'a script, {count} bytes read', told, ['run', path, '/dev/stdin'], text, GIVES=count)
    answers = bench.run(['run', path, bench.lay('script', text)]).printed
    bench.want('a script a byte at a time', (0, answers, b''), ['run', path, '/dev/stdin'], text, SLOWLY='yes')


# ---- which blocks are read

def want_blocks(bench, what, image, words, blocks):
    """Wants that a word reads these blocks of an image; the word stands before the image's path, and its other words behind it."""
    path = bench.lay(f'image {what}', image)
    ran = bench.run([words[0], path, *words[1:]], image=path)
    ensure(ran.blocks == blocks, f'{what}: {words[0]} reads the blocks {ran.blocks}')
    path.unlink()
    return ran


def needed_blocks(bench, image):
    """`check` reads what the checks need, and nothing behind what is wrong, and before that the file's first three blocks, where it sees
    whether the file is a bare volume; `ls` and `cat` no more than that and the fork; `run`, which looks for none, the free nodes, too."""
    nothing, looked = bench.lay('nothing', b''), [0, 1]
    want_blocks(bench, 'sound', image, ['check'], looked + NEEDED)
    want_blocks(bench, 'sound', image, ['ls'], looked + NEEDED)
    want_blocks(bench, 'sound', image, ['check', '--volume', 0], NEEDED)
    want_blocks(bench, 'sound', image, ['cat', 2, 'f'], sorted(looked + NEEDED + FORK_BLOCKS))
    want_blocks(bench, 'sound', image, ['run', nothing], WORKING)
    # the nodes 2 to 5 of the catalog, in blocks 8 to 11, are not marked: each sixteenth byte of them is changed once
    def unmarked(at):
        want_blocks(bench, f'byte {at}', edited(image, (at, 255 - image[at])), ['check'], looked + NEEDED)

    bench.want_all(lambda at=at: unmarked(at) for at in range(8 * BLOCK, 12 * BLOCK, 16))
    # the header node of the catalog leads to block 11, which is no map node, and then one that leads to itself: it is read once, and
    # nothing behind it
    no_map = edited(image, (3_075, 5))
    ring = edited(no_map, (5_635, 5), (5_640, 2), (5_643, 1), (6_141, 250), (6_140, 1), (6_143, 14))
    for what, content in (('no map node', no_map), ('a ring of map nodes', ring)):
        want_blocks(bench, what, content, ['check'], looked + [2, 3, 4, 5, 6, 11, 62])
    # behind a wrong header node no other node of its tree, and no catalog behind a wrong extents tree; and nothing behind a wrong signature
    want_blocks(bench, 'a wrong header node', edited(image, (2_056, 9)), ['check'], looked + [2, 3, 4, 62])
    # what is no bare volume may have a map of partitions, in block 1, or behind 2,048 bytes in block 4
    want_blocks(bench, 'a wrong signature', edited(image, (1_024, 0)), ['check'], looked + [2, 4])
    want_blocks(bench, 'a wrong signature', edited(image, (1_024, 0)), ['check', '--volume', 0], [2])


def needed_rescues(bench, image):
    """`rescue --list` of a sound volume reads what `check` does; of one that is refused both places of the directory and both trees'
    files, too, and the whole image only where no record of the catalog is there, or no directory. No other reads a block of a fork."""
    two_levels = gzip.decompress((HERE / 'volumes' / 'small' / 'two-levels.img.gz').read_bytes())
    without = lambda *blocks: b''.join(bytes(BLOCK) if n in blocks else image[BLOCK * n:BLOCK * (n + 1)] for n in range(64))
    trees, whole = [0, 1] + WORKING, list(range(64))
    for what, content, blocks in (('a sound volume', image, [0, 1] + NEEDED), ('a name with a bullet', edited(image, (7 * BLOCK + 153, 0xA5)), trees),
                                  ('a leaf that is lost beside another', edited(two_levels, (8 * BLOCK + 8, 7)), trees),
                                  ('the only leaf is lost', edited(image, (7 * BLOCK + 8, 7)), whole),
                                  ('block 2 is lost', without(2), [it for it in trees if it != 3]), ('no directory', without(2, 62), whole)):
        want_blocks(bench, what, content, ['rescue', '--list'], blocks)


def failing_reads(bench, image):
    """Each read of the image fails in turn: before the last needed one nothing is told but that; a list needs no more, and of a fork what
    was read of it stays."""
    path = bench.lay('image', image)
    told = f'cannot read {path}\n'.encode()
    needed = len(bench.run(['check', path], image=path).reads)
    for count in range(needed):
        for words in (['check', path], ['ls', path], ['cat', path, 2, 'f']):
            bench.want(f'{words[0]}, {count} reads', (4, told, b''), words, image=path, READS=count)
    for count in range(needed, needed + 4):
        ensure(bench.run(['check', path], image=path, READS=count).status == 0, f'check with {count} reads')
        ensure(bench.run(['ls', path], image=path, READS=count).status == 0, f'ls with {count} reads')
        part = FORK[:BLOCK * (count - needed)]
        wanted = (4, part, told) if part else (4, told, b'')
        bench.want(f'cat, {count} reads', wanted, ['cat', path, 2, 'f'], image=path, READS=count)
    bench.want('cat with all reads', (0, FORK, b''), ['cat', path, 2, 'f'], image=path, READS=needed + 4)


def failing_repairs(bench, image):
    """A repair reads block 2, the bitmap, the extents tree at once and the catalog at once, and then the whole image; where one of
    these reads fails nothing is written."""
    path = bench.lay('wrong', edited(image, (1_111, 7)) + bytes(range(100)))
    mended, told = bench.folder / 'mended', f'cannot read {path}\n'.encode()
    ran = bench.want('repair', (0, b'fixed drFilCnt 7 1\nsound\n', b''), ['repair', path, mended], image=path)
    first = [(2 * BLOCK, BLOCK), (3 * BLOCK, BLOCK), (4 * BLOCK, 2 * BLOCK), (6 * BLOCK, 6 * BLOCK)]
    ensure(ran.reads[:4] == first, f'repair reads {ran.reads[:4]}')
    ensure(mended.read_bytes() == edited(image, (1_111, 1)) + bytes(range(100)), 'the mended image')
    mended.unlink()
    for count in range(len(ran.reads)):
        bench.want(f'repair, {count} reads', (4, told, b''), ['repair', path, mended], image=path, READS=count)
        ensure(not [it for it in os.listdir(bench.folder) if it.startswith('mended')], f'repair, {count} reads: a file is left')


# ---- images that are written in pieces

def patched_pieces(bench):
    """A volume whose catalog begins in block 2,046: an image is written in pieces of 1 MB, and blocks change on both sides of the first
    one's end. All others, and 100 bytes behind the last block, stay; and where a read fails, nothing is written."""
    path, out = bench.folder / 'long', bench.folder / 'patched'
    bench.want('new', (0, b'', b''), ['new', path, 'D', 8_000, 20, 2_041])
    path.write_bytes(path.read_bytes() + bytes(range(100)))
    old = path.read_bytes()
    # four files have no room in one leaf beside the root's records
    script = bench.lay('creating', b''.join(b'1\tcreate\t2\t%s\n' % name for name in (b'a', b'b', b'c', b'd')))
    answers = b''.join(b'1\t%d\t0\tid %d\n' % (number, 15 + number) for number in range(1, 5))
    ran = bench.want('run', (0, answers, b''), ['run', path, script, '--now', 7, '--out', out], image=path)
    new = out.read_bytes()
    changed = [at // BLOCK for at in range(0, len(old), BLOCK) if old[at:at + BLOCK] != new[at:at + BLOCK]]
    ensure(len(new) == len(old) and changed == [2, 2_046, 2_047, 2_048, 2_049], f'the blocks {changed} are changed')
    bench.want('run out of a pipe', (0, answers, b''), ['run', '/dev/stdin', script, '--now', 7, '--out', out], old)
    ensure(out.read_bytes() == new, 'out of a pipe another image is written')
    out.unlink()
    for count in range(len(ran.reads)):
        bench.want(f'run, {count} reads', (4, f'cannot read {path}\n'.encode(), b''), ['run', path, script, '--now', 7, '--out', out], image=path, READS=count)
        ensure(not [it for it in os.listdir(bench.folder) if it.startswith('patched')], f'run, {count} reads: a file is left')


def written_pieces(bench):
    """A fork of 2,149 blocks that comes to blocks 33 to 2,181, on both sides of the first piece's end: zeros in place of what was there, but for
    65,536 bytes. All other blocks of forks and all free ones stay, and what is behind the last block; and where a read fails, nothing is written."""
    path, out = bench.folder / 'free', bench.folder / 'lengthened'
    bench.want('new', (0, b'', b''), ['new', path, 'D', 8_000, 20, 8])
    old = bytearray(path.read_bytes() + bytes(range(100)))
    old[33 * BLOCK:7_998 * BLOCK] = (bytes(range(1, 256)) * 16_000)[:7_965 * BLOCK]
    path.write_bytes(old)
    lines = [b'create\t2\ta', b'seteof\t2\ta\tdata\t1100000', b'write\t2\ta\tdata\t1000000\t' + b'5a' * 65_536]
    script = bench.lay('lengthening', b''.join(b'1\t%s\n' % line for line in lines))
    answers = b'1\t1\t0\tid 16\n1\t2\t0\t-\n1\t3\t0\t-\n'
    ran = bench.want('run', (0, answers, b''), ['run', path, script, '--now', 7, '--out', out], image=path)
    wanted = bytearray(old)
    wanted[33 * BLOCK:2_182 * BLOCK] = bytes(1_000_000) + b'Z' * 65_536 + bytes(2_149 * BLOCK - 1_065_536)
    new = out.read_bytes()
    # block 2, the bitmap's first block, and of the catalog, behind the 8 nodes of the extents tree, its header node and its leaf
    changed = [at // BLOCK for at in range(0, len(old), BLOCK) if wanted[at:at + BLOCK] != new[at:at + BLOCK]]
    ensure(len(new) == len(old) and changed == [2, 3, 13, 14], f'beside the fork the blocks {changed} are changed')
    bench.want('run out of a pipe', (0, answers, b''), ['run', '/dev/stdin', script, '--now', 7, '--out', out], bytes(old))
    ensure(out.read_bytes() == new, 'out of a pipe another image is written')
    out.unlink()
    for count in range(len(ran.reads)):
        told = f'cannot read {path}\n'.encode()
        bench.want(f'run, {count} reads', (4, told, b''), ['run', path, script, '--now', 7, '--out', out], image=path, READS=count)
        ensure(not [it for it in os.listdir(bench.folder) if it.startswith('lengthened')], f'run, {count} reads: a file is left')


def main():
    if not shutil.which('cc'):
        print('no C compiler: devices that fail are left out')
        return
    image = gzip.decompress((HERE / 'volumes' / 'small' / 'one-file.img.gz').read_bytes())
    with tempfile.TemporaryDirectory() as folder:
        bench = Bench(Path(folder))
        try:
            for part in (head_by_bytes, forks_by_bytes, images_out_of_pipes, scripts_out_of_devices, needed_blocks, needed_rescues, failing_reads,
                         failing_repairs):
                part(bench, image)
            patched_pieces(bench)
            written_pieces(bench)
        except Difference as differs:
            sys.exit(f'devices: {differs}')
    print(f'{bench.runs} runs on devices that fail, or are slow, or are watched: as written')


if __name__ == '__main__':
    main()
