#!/usr/bin/env python3
"""Reads that fail while `cat` writes: a library that is loaded before the C library refuses each
read of one block of an image. The fork of the image's one file has four blocks that are apart, so
each is read by itself. Before the first byte the fault is printed instead of the fork; after it what
was read stays, nothing follows it, and the fault goes to standard error.

tests/broken_off.py      runs $HFS_TOOL, or the program as it is built in crates/hfs_tool/out
"""
import gzip
import os
import shutil
import subprocess
import sys
import tempfile
from pathlib import Path

from driver.programs import built

HERE = Path(__file__).resolve().parent
TOOL = str(built('hfs_tool'))
IMAGE = HERE / 'volumes' / 'small' / 'one-file.img.gz'
BLOCK, LENGTH = 512, 2000
BLOCKS = (14, 16, 18, 20)
REFUSE = r'''
#define _GNU_SOURCE
#include <dlfcn.h>
#include <errno.h>
#include <stdlib.h>
#include <sys/stat.h>
#include <unistd.h>

/* Whether these bytes of a regular file have one of the block that is refused. */
static int is_refused(int file, off_t place, size_t count) {
    const char *block = getenv("REFUSED_BLOCK");
    struct stat found;
    if (!block || place < 0 || fstat(file, &found) != 0 || !S_ISREG(found.st_mode)) return 0;
    off_t first = 512 * atoll(block);
    return place < first + 512 && first < place + (off_t)count;
}

ssize_t read(int file, void *into, size_t count) {
    ssize_t (*next)(int, void *, size_t) = dlsym(RTLD_NEXT, "read");
    if (is_refused(file, lseek(file, 0, SEEK_CUR), count)) {
        errno = EIO;
        return -1;
    }
    return next(file, into, count);
}

ssize_t pread(int file, void *into, size_t count, off_t place) {
    ssize_t (*next)(int, void *, size_t, off_t) = dlsym(RTLD_NEXT, "pread");
    if (is_refused(file, place, count)) {
        errno = EIO;
        return -1;
    }
    return next(file, into, count, place);
}
'''


def main():
    if not shutil.which('cc'):
        print('no C compiler: reads that fail are left out')
        return
    with tempfile.TemporaryDirectory() as folder:
        folder = Path(folder)
        image, source, library = folder / 'one.img', folder / 'refuse.c', folder / 'refuse.so'
        image.write_bytes(gzip.decompress(IMAGE.read_bytes()))
        source.write_text(REFUSE)
        subprocess.run(['cc', '-shared', '-fPIC', '-O1', '-o', library, source, '-ldl'], check=True)
        bytes_of = image.read_bytes()
        fork = b''.join(bytes_of[BLOCK * n:BLOCK * (n + 1)] for n in BLOCKS)[:LENGTH]
        told = f'cannot read {image}\n'.encode()

        def run(words, block):
            """The status of the words, and what they print and tell, where a block is refused."""
            how = {**os.environ, 'LD_PRELOAD': str(library), 'REFUSED_BLOCK': str(block)}
            found = subprocess.run([TOOL, *words], stdin=subprocess.DEVNULL, stdout=subprocess.PIPE, stderr=subprocess.PIPE, env=how, timeout=60)
            return found.returncode, found.stdout, found.stderr

        count = 0
        for words in (['cat', str(image), '2', 'f'], ['cat', str(image), '--path', ':f'], ['cat', str(image), '2', 'f', '--volume', '1']):
            cases = [(2, (4, told, b'')), (BLOCKS[0], (4, told, b'')), (15, (0, fork, b''))]
            cases += [(n, (4, fork[:BLOCK * k], told)) for k, n in enumerate(BLOCKS) if k]
            for block, wanted in cases:
                found = run(words, block)
                if found != wanted:
                    sys.exit(f'broken_off: {words}, block {block} refused: {found[0]}, {len(found[1])} bytes, tells {found[2]!r}; wanted {wanted[0]}, {len(wanted[1])} bytes, {wanted[2]!r}')
                count += 1
        for block, status in ((2, 4), (14, 0)):
            found = run(['check', str(image)], block)
            if found[0] != status or status and found[1] != told:
                sys.exit(f'broken_off: check, block {block} refused: {found}')
            count += 1
    print(f'{count} runs in which a block is refused: before the first byte and behind it as written')


if __name__ == '__main__':
    main()
