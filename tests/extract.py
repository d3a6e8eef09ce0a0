#!/usr/bin/env python3
"""Tests that the file which `extract` makes has the bytes of the volume, each once and in order, or isn't there: volumes wrapped in
each way, by their numbers and without, by paths and from pipes; no volume, several, ranges that hold none; names that are taken,
folders without permission, devices that are full, reads that fail after each piece, runs that are killed; what is read, and in which
pieces; little memory. Where a volume lies is found by `volumes.py`, without any of the project's code.

tests/extract.py [--whole]      runs $HFS_TOOL, or the program as it is built in crates/hfs_tool/out; --whole writes 2 GB, too
"""
import os
import random
import resource
import shutil
import signal
import subprocess
import sys
import tempfile
import time
from pathlib import Path

from driver.programs import built, ended
from driver.wanted import Difference, ensure
from volumes import WRAPPINGS, content, entry, found, in_disk_copy, in_macbinary, in_map

HERE = Path(__file__).resolve().parent
TOOL = str(built('hfs_tool'))
PIECE = 65_536
SUM = 'the sum of the disk copy is wrong'
LEFT = 'is there, left by a run that was stopped'
# Stands before the C library: reads of the file with the number FILE fail behind so many; what is read of it is written down; and before
# a file is given to the device another is made with the name MADE.
LIBRARY = r'''
#define _GNU_SOURCE
#include <dlfcn.h>
#include <errno.h>
#include <fcntl.h>
#include <stdio.h>
#include <stdlib.h>
#include <sys/stat.h>
#include <unistd.h>

static long reads;

static long number(const char *name, long other) {
    const char *text = getenv(name);
    return text ? atol(text) : other;
}

ssize_t read(int file, void *into, size_t count) {
    ssize_t (*next)(int, void *, size_t) = dlsym(RTLD_NEXT, "read");
    ssize_t (*out)(int, const void *, size_t) = dlsym(RTLD_NEXT, "write");
    struct stat found;
    char line[64];
    if (fstat(file, &found) != 0 || (long)found.st_ino != number("FILE", -1)) return next(file, into, count);
    if (reads++ >= number("READS", 1L << 40)) {
        errno = EIO;
        return -1;
    }
    if (number("LOG", -1) >= 0)
        out(number("LOG", -1), line, snprintf(line, sizeof line, "%ld %ld\n", (long)lseek(file, 0, SEEK_CUR), (long)count));
    return next(file, into, count);
}

int fsync(int file) {
    int (*next)(int) = dlsym(RTLD_NEXT, "fsync");
    if (getenv("MADE")) close(open(getenv("MADE"), O_WRONLY | O_CREAT | O_EXCL, 0600));
    return next(file);
}
'''
runs = 0


def run(words, given=None, **how):
    """How a run of the words ends, what it prints, and what it tells."""
    global runs
    runs += 1
    status, printed, told = ended(TOOL, words, given, **how)
    return status, printed.decode(), told.decode()


def want(what, wanted, words, given=None, **how):
    ran = run(words, given, **how)
    if ran != wanted:
        raise Difference(f'{what}: {ran}, and not {wanted}')


def made(count, told=''):
    return 0, f'extracted\nbytes {count}\n', told


class Bench:
    """A folder, and a file in it that is made again and again."""

    def __init__(self, folder):
        self.folder, self.out = folder, folder / 'out.img'

    def lay(self, name, content):
        path = self.folder / name
        path.write_bytes(content)
        return path

    def is_bare(self, what):
        """Wants that nothing was made."""
        ensure(not os.path.lexists(self.out), f'{what}: the file is there')
        ensure(not list(self.folder.glob('*.new')), f'{what}: a file is left')

    def gives(self, what, wanted, words, given=None, told='', **how):
        """Wants these bytes as the file."""
        want(what, made(len(wanted), told), words, given, **how)
        ensure(self.out.read_bytes() == wanted, f'{what}: the bytes are others')
        self.out.unlink()
        self.is_bare(what)

    def refuses(self, what, status, text, words, given=None, **how):
        """Wants that nothing is made, and this told."""
        want(what, (status, f'{text}\n', ''), words, given, **how)
        self.is_bare(what)


# ---- the bytes

def wrapped(bench, volume, name):
    """A volume in each wrapping, by its number and without."""
    for what, wrap in WRAPPINGS:
        data = wrap(volume)
        path = bench.lay('file', data)
        ranges = found(data)
        for n, (how, start, size, total) in enumerate(ranges, 1):
            told = f'{path}: {SUM}\n' if what.endswith('another sum') else ''
            part = content(data)[0][start:start + size]
            bench.gives(f'{name} {what}, volume {n}', part, ['extract', path, bench.out, '--volume', n], told=told)
            bench.gives(f'{name} {what}, piped, volume {n}', part, ['extract', '/dev/stdin', bench.out, '--volume', n], data,
                        told=told.replace(str(path), '/dev/stdin'))
            if len(ranges) == 1:
                bench.gives(f'{name} {what}', part, ['extract', path, bench.out], told=told)
        bench.gives(f'{name} {what} as it is', data, ['extract', path, bench.out, '--volume', '0'])
        bench.refuses(f'{name} {what}, another volume', 2, f'no volume {len(ranges) + 1}', ['extract', path, bench.out, '--volume', len(ranges) + 1])


def lengths(bench, small):
    """A bare volume of each length about a piece, and of an odd one."""
    for count in (1536, 1537, 32768, PIECE - 1, PIECE, PIECE + 1, 2 * PIECE, 3 * PIECE + 777):
        data = (small + random.Random(count).randbytes(count))[:count]
        bench.gives(f'{count} bytes', data, ['extract', bench.lay('file', data), bench.out])
        bench.gives(f'{count} bytes out of a pipe', data, ['extract', '/dev/stdin', bench.out], data)
        wrapped_data = in_macbinary(data, b'second', b'RES')
        bench.gives(f'{count} bytes in MacBinary', data, ['extract', bench.lay('file', wrapped_data), bench.out])


def by_hand(bench, small):
    """Where the bytes lie is written here."""
    disk = b''.ljust(512, b'\0') + entry(2, 3, 64, b'Apple_HFS') + entry(2, 67, 5, b'Apple_HFS') + small + bytes(range(256)) * 10
    path = bench.lay('file', disk)
    bench.gives('the first partition', disk[1536:34304], ['extract', path, bench.out, '--volume', '1'])
    bench.gives('the only one that holds a volume', disk[1536:34304], ['extract', path, bench.out])
    bench.gives('one that holds none', disk[34304:], ['extract', path, bench.out, '--volume', '2'])
    copy = in_disk_copy(small)
    bench.gives('a disk copy', copy[84:], ['extract', bench.lay('file', copy), bench.out])
    bench.gives('MacBinary', small, ['extract', bench.lay('file', in_macbinary(small, resource=b'RES')), bench.out])
    cut = bench.lay('file', disk[:30000])
    bench.gives('a partition that the end of the file cuts', disk[1536:30000], ['extract', cut, bench.out])
    link = bench.folder / 'link'
    link.symlink_to(bench.lay('file', small))
    bench.gives('a link to a file', small, ['extract', link, bench.out])
    # The program's other words take the file that is made for the bare volume that it is.
    want('extract', made(len(small)), ['extract', bench.lay('file', disk), bench.out])
    ensure(run(['check', bench.out])[0] == 0, 'the volume is not sound')
    bench.out.unlink()


def far(bench, small):
    """A partition behind 4 GB of a file."""
    path = bench.folder / 'far'
    with open(path, 'wb') as file:
        file.write(bytes(512) + entry(1, 9_000_000, 64, b'Apple_HFS'))
        file.seek(9_000_000 * 512)
        file.write(small)
    bench.gives('a partition behind 4 GB', small, ['extract', path, bench.out])
    path.unlink()


def more_than_2_gb(bench, small, is_whole):
    """A range of more than 2 GB has no limit but the device, and little memory is taken."""
    path, count = bench.folder / 'long', 2 ** 31 + 512
    with open(path, 'wb') as file:
        file.write(bytes(512) + entry(1, 2, count // 512, b'Apple_HFS') + small)
        file.truncate(1024 + count)

    def little():
        resource.setrlimit(resource.RLIMIT_AS, (1 << 28, 1 << 28))

    def little_and_short():
        little()
        signal.signal(signal.SIGXFSZ, signal.SIG_IGN)
        resource.setrlimit(resource.RLIMIT_FSIZE, (3_000_000, 3_000_000))

    bench.refuses('2 GB on a full device', 4, f'cannot write {bench.out}', ['extract', path, bench.out], preexec_fn=little_and_short)
    if is_whole:
        want('2 GB', made(count), ['extract', path, bench.out], preexec_fn=little)
        with open(bench.out, 'rb') as file:
            ensure(file.read(len(small)) == small and bench.out.stat().st_size == count, 'the bytes of 2 GB are others')
        bench.out.unlink()
    path.unlink()


# ---- what is refused

def volumes(bench, small):
    """No volume, several, none of that number."""
    two = in_map(small, 512)[:512] + entry(2, 8, 64, b'Apple_HFS') + entry(2, 72, 64, b'Apple_HFS')
    two = bench.lay('file', two.ljust(8 * 512, b'\0') + small + small)
    bench.refuses('two volumes', 2, '2 volumes lie inside; name one by --volume', ['extract', two, bench.out])
    bench.refuses('a third', 2, 'no volume 3', ['extract', two, bench.out, '--volume', '3'])
    bench.gives('the second', small, ['extract', two, bench.out, '--volume', '2'])
    for what, data in (('a picture', b'GIF89a' + bytes(5000)), ('a short file', b'BD' * 700), ('no bytes', b'')):
        bench.refuses(what, 2, 'no HFS volume', ['extract', bench.lay('file', data), bench.out])
        bench.refuses(f'{what} out of a pipe', 2, 'no HFS volume', ['extract', '/dev/stdin', bench.out], data)
        bench.gives(f'{what} as it is', data, ['extract', bench.lay('file', data), bench.out, '--volume', '0'])
    bench.refuses('a map out of a pipe', 2, 'no HFS volume', ['extract', '/dev/stdin', bench.out], in_map(small, 512))
    bench.refuses('a range without a volume', 2, 'no HFS volume', ['extract', bench.lay('file', in_map(bytes(4096), 512)), bench.out])
    for words in (['extract'], ['extract', two], ['extract', two, bench.out, 'more'], ['extract', two, bench.out, '--volume', 'x'],
                  ['extract', two, bench.out, '--volume', '4294967296'], ['extract', two, bench.out, '--volume']):
        ensure(run(words)[0] == 1, f'{words} are not refused')
        bench.is_bare(str(words))


def unread(bench, small):
    missing = bench.folder / 'missing'
    bench.refuses('no file', 4, f'cannot read {missing}', ['extract', missing, bench.out])
    bench.refuses('a folder', 4, f'cannot read {bench.folder}', ['extract', bench.folder, bench.out])
    path = bench.lay('file', small)
    # The image can't be read is told before the name that is taken.
    bench.out.write_bytes(b'there')
    want('both', (4, f'cannot read {missing}\n', ''), ['extract', missing, bench.out])
    want('a name that is taken', (4, f'{bench.out} is there already\n', ''), ['extract', path, bench.out])
    ensure(bench.out.read_bytes() == b'there', 'a file was written over')
    bench.out.unlink()


def taken(bench, small):
    """Names that something has: nothing is written over, and nothing is made beside it."""
    path, old = bench.lay('file', small), b'what was there'
    for what, lay in (('a file', lambda: bench.out.write_bytes(old)), ('a folder', bench.out.mkdir), ('a link to nothing', lambda: bench.out.symlink_to('nothing')),
                      ('a link to a file', lambda: bench.out.symlink_to(bench.lay('other', old))), ('a link to a folder', lambda: bench.out.symlink_to('.')),
                      ('a pipe', lambda: os.mkfifo(bench.out))):
        lay()
        before = os.lstat(bench.out)
        want(what, (4, f'{bench.out} is there already\n', ''), ['extract', path, bench.out])
        after = os.lstat(bench.out)
        ensure((before.st_ino, before.st_mode, before.st_size, before.st_mtime_ns) == (after.st_ino, after.st_mode, after.st_size, after.st_mtime_ns), what)
        bench.out.rmdir() if bench.out.is_dir() and not bench.out.is_symlink() else bench.out.unlink()
        bench.is_bare(what)
    ensure((bench.folder / 'other').read_bytes() == old and not (bench.folder / 'nothing').exists(), 'what links lead to is as it was')
    want('the file itself', (4, f'{path} is there already\n', ''), ['extract', path, path])
    ensure(path.read_bytes() == small, 'the file itself was written over')
    want('a device', (4, '/dev/null is there already\n', ''), ['extract', path, '/dev/null'])
    inside = bench.folder / 'no folder' / 'out.img'
    bench.refuses('no folder', 4, f'cannot write {inside}', ['extract', path, inside])
    behind = path / 'out.img'
    bench.refuses('a file for a folder', 4, f'cannot write {behind}', ['extract', path, behind])
    bench.refuses('a name that is too long', 4, f'cannot write {bench.folder}/{"x" * 255}', ['extract', path, bench.folder / ('x' * 255)])
    shown = f'{bench.folder}/a\\09b'
    (bench.folder / 'a\tb').write_bytes(old)
    want('a name with a tab', (4, f'{shown} is there already\n', ''), ['extract', path, bench.folder / 'a\tb'])


def leave_alone(bench, small):
    """A folder that can't be written, by a plain user; and who may read the file that is made."""
    path = bench.lay('file', small)
    path.chmod(0o644)
    shut = bench.folder / 'shut'
    shut.mkdir(mode=0o555)
    how = {'user': 65534, 'group': 65534, 'extra_groups': []} if os.getuid() == 0 else {}
    bench.refuses('a folder without leave', 4, f'cannot write {shut / "out.img"}', ['extract', path, shut / 'out.img'], **how)
    shut.rmdir()
    want('a mask', made(len(small)), ['extract', path, bench.out], preexec_fn=lambda: os.umask(0o027))
    ensure(bench.out.stat().st_mode & 0o777 == 0o640, 'the mode is not that of the mask')
    bench.out.unlink()


def full(bench, small):
    """A device that is full behind each number of bytes, by a limit on what a file may have."""
    data = (small + random.Random(5).randbytes(2 * PIECE))[:2 * PIECE]
    path = bench.lay('file', data)
    for most in (0, 1, 511, PIECE - 1, PIECE, PIECE + 1, 2 * PIECE - 1):
        def short(most=most):
            signal.signal(signal.SIGXFSZ, signal.SIG_IGN)
            resource.setrlimit(resource.RLIMIT_FSIZE, (most, most))

        bench.refuses(f'room for {most} bytes', 4, f'cannot write {bench.out}', ['extract', path, bench.out], preexec_fn=short)
    bench.gives('room for all', data, ['extract', path, bench.out])
    if os.getuid() == 0:
        disk = bench.folder / 'disk'
        disk.mkdir()
        if subprocess.run(['mount', '-t', 'tmpfs', '-o', 'size=64k', 'none', disk], capture_output=True).returncode == 0:
            try:
                want('a full disk', (4, f'cannot write {disk / "out.img"}\n', ''), ['extract', path, disk / 'out.img'])
                ensure(not list(disk.iterdir()), 'something is left on a full disk')
            finally:
                subprocess.run(['umount', disk], check=True)
        disk.rmdir()


def printed(bench, small):
    """Standard output that fails: the file is whole, since it was made before."""
    path = bench.lay('file', small)
    with open('/dev/full', 'wb') as device:
        ran = subprocess.run([TOOL, 'extract', path, bench.out], stdout=device, stderr=subprocess.PIPE)
    ensure((ran.returncode, ran.stderr) == (4, b'') and bench.out.read_bytes() == small, 'standard output that fails')
    bench.out.unlink()


# ---- in the middle

def failing(bench, small):
    """What is read, in which pieces; and a read that fails behind each of them."""
    if not shutil.which('cc'):
        return 'reads that fail'
    source, library = bench.lay('extract.c', LIBRARY.encode()), bench.folder / 'extract.so'
    subprocess.run(['cc', '-shared', '-fPIC', '-O1', '-o', library, source, '-ldl'], check=True)
    data = (small + random.Random(7).randbytes(4 * PIECE))[:3 * PIECE + 1000]
    path = bench.lay('file', in_map(data, 512))
    kept = data.ljust(-(-len(data) // 512) * 512, b'\0')
    how = {**os.environ, 'LD_PRELOAD': str(library), 'FILE': str(path.stat().st_ino)}
    with tempfile.TemporaryFile() as log:
        bench.gives('all reads', kept, ['extract', path, bench.out], env={**how, 'LOG': str(log.fileno())}, pass_fds=[log.fileno()])
        log.seek(0)
        reads = [tuple(map(int, line.split())) for line in log.read().decode().splitlines()]
    start, behind = 64 * 512, 64 * 512 + len(kept)
    pieces = [(at, min(PIECE, behind - at)) for at in range(start, behind, PIECE)]
    ensure(reads[-len(pieces):] == pieces, f'the pieces are {reads[-len(pieces):]}, and not {pieces}')
    ensure(sum(count for _, count in reads[:-len(pieces)]) < 40_000, f'{reads[:-len(pieces)]} are read to find the volume')
    for count in range(len(reads)):
        bench.refuses(f'{count} reads', 4, f'cannot read {path}', ['extract', path, bench.out], env={**how, 'READS': str(count)})
    # Somebody makes a file of that name in the last moment.
    want('a name that is taken meanwhile', (4, f'{bench.out} is there already\n', ''), ['extract', path, bench.out], env={**how, 'MADE': str(bench.out)})
    ensure(bench.out.read_bytes() == b'' and not list(bench.folder.glob('*.new')), 'a file that was made meanwhile')
    bench.out.unlink()
    return None


def killed(bench, small, chance):
    """Runs that are killed: the file is whole or isn't there; what is left beside it is told, and stays."""
    data = small + chance.randbytes(24_000_000)
    path = bench.lay('file', data)
    stopped = 0
    for turn in range(40):
        begun = subprocess.Popen([TOOL, 'extract', path, bench.out], stdout=subprocess.DEVNULL, stderr=subprocess.DEVNULL)
        time.sleep(chance.random() * 0.06)
        begun.send_signal(signal.SIGKILL)
        begun.wait()
        if bench.out.exists():
            ensure(bench.out.read_bytes() == data, 'a file that is there is not whole')
            bench.out.unlink()
        else:
            stopped += bool(list(bench.folder.glob('*.new')))
        for left in bench.folder.glob('*.new'):
            ensure(left.name == 'out.img.0.new' and data.startswith(left.read_bytes()), 'what is left is no beginning')
            left.unlink()
    left = bench.folder / 'out.img.0.new'
    left.write_bytes(b'left')
    want('a file that is left', made(len(data), f'{left} {LEFT}\n'), ['extract', path, bench.out])
    ensure(left.read_bytes() == b'left' and bench.out.read_bytes() == data, 'a file that is left')
    want('a name that is taken beside one that is left', (4, f'{bench.out} is there already\n', ''), ['extract', path, bench.out])
    bench.out.unlink()
    for n in range(100):
        (bench.folder / f'out.img.{n}.new').write_bytes(b'left')
    want('all names are taken', (4, f'cannot write {bench.out}\n', f'{left} {LEFT}\n'), ['extract', path, bench.out])
    for n in range(100):
        (bench.folder / f'out.img.{n}.new').unlink()
    bench.is_bare('all names are taken')
    return stopped


def main():
    is_whole = sys.argv[1:] == ['--whole']
    chance = random.Random(1)
    with tempfile.TemporaryDirectory() as name:
        folder = Path(name).resolve()
        folder.chmod(0o755)
        bench = Bench(folder)
        small = folder / 'small.img'
        subprocess.run([TOOL, 'new', small, 'D', '64', '6', '2'], check=True)
        small = small.read_bytes()
        try:
            wrapped(bench, small, 'a small volume')
            for image in sorted((HERE / 'volumes').glob('*.img')):
                wrapped(bench, image.read_bytes(), image.name)
            for part in (lengths, by_hand, far, volumes, unread, taken, leave_alone, full, printed):
                part(bench, small)
            more_than_2_gb(bench, small, is_whole)
            skipped = failing(bench, small)
            stopped = killed(bench, small, chance)
        except Difference as differs:
            sys.exit(f'extract differs: {differs}')
    print(f'{runs} runs of extract: whole or not there; of 40 that were killed {stopped} left a part beside it' + (f', skipped: {skipped}' if skipped else ''))


if __name__ == '__main__':
    main()
