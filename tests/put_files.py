#!/usr/bin/env python3
"""What `put`, and partly `make`, does about files and devices: sources that change, vanish or can't be read while FILE is written, full disks, few open files, runs that are
killed, output that nobody takes, memory, and what is printed at a terminal. FILE is the old one or whole, and nothing is left next to it. A library
that is loaded before the C library changes the sources; it needs a C compiler.

tests/put_files.py      runs $HFS_TOOL, or the program as it is built in crates/hfs_tool/out

It prints how many runs there were; at a difference it says which, and ends with status 1. What can't be tried here is skipped and named.
"""
import os
import re
import resource
import shutil
import signal
import subprocess
import sys
import time
from pathlib import Path

import devices
from driver.programs import MEASURED, ended_at_terminal
from driver.sources import FINDER, RESOURCE, apple_double, mac_binary
from driver.wanted import agrees_in_a_folder, ensure
from put import FINDER_BYTES, NOW, Bench, Options, lay

OLD = b'the old file'
# A source is changed when FILE's new file is made, or at one of the writes into it; or when it is looked at for the first time, or once more.
CHANGES = r'''
#define _GNU_SOURCE
#include <dlfcn.h>
#include <fcntl.h>
#include <stdarg.h>
#include <stdio.h>
#include <stdlib.h>
#include <string.h>
#include <sys/stat.h>
#include <sys/uio.h>
#include <unistd.h>

static int made = -1;
static long writes, looks;

static void change(void) {
    const char *source = getenv("SOURCE"), *how = getenv("CHANGE");
    struct stat was;
    if (stat(source, &was)) abort();
    if (!strcmp(how, "cut") && truncate(source, was.st_size / 2)) abort();
    if (!strcmp(how, "longer") && truncate(source, was.st_size + 1)) abort();
    if (!strcmp(how, "gone") && rename(source, getenv("ELSEWHERE"))) abort();
    if (!strcmp(how, "touched")) {
        struct timespec times[2] = {was.st_atim, was.st_mtim};
        times[1].tv_sec += 1;
        if (utimensat(AT_FDCWD, source, times, 0)) abort();
    }
    if (!strcmp(how, "link") && (unlink(source) || symlink("/dev/null", source))) abort();
    if (!strcmp(how, "folder") && (unlink(source) || mkdir(source, 0777))) abort();
}

static void opened(int file, const char *path, int how) {
    if (file < 0 || !(how & O_CREAT) || !strstr(path, ".new")) return;
    made = file;
    if (!getenv("WRITES") && !getenv("LOOKS")) change();
}

int open(const char *path, int how, ...) {
    va_list rest;
    va_start(rest, how);
    mode_t mode = va_arg(rest, int);
    va_end(rest);
    int (*next)(const char *, int, ...) = dlsym(RTLD_NEXT, "open"), file = next(path, how, mode);
    opened(file, path, how);
    return file;
}

int openat(int folder, const char *path, int how, ...) {
    va_list rest;
    va_start(rest, how);
    mode_t mode = va_arg(rest, int);
    va_end(rest);
    int (*next)(int, const char *, int, ...) = dlsym(RTLD_NEXT, "openat"), file = next(folder, path, how, mode);
    opened(file, path, how);
    return file;
}

int statx(int folder, const char *restrict path, int flags, unsigned mask, struct statx *restrict into) {
    int (*next)(int, const char *, int, unsigned, struct statx *) = dlsym(RTLD_NEXT, "statx");
    if (getenv("LOOKS") && !strcmp(path, getenv("SOURCE")) && ++looks == atol(getenv("LOOKS"))) change();
    return next(folder, path, flags, mask, into);
}

static void wrote(int file) {
    if (file == made && getenv("WRITES") && ++writes == atol(getenv("WRITES"))) change();
}

ssize_t write(int file, const void *from, size_t count) {
    ssize_t (*next)(int, const void *, size_t) = dlsym(RTLD_NEXT, "write");
    wrote(file);
    return next(file, from, count);
}

ssize_t pwrite(int file, const void *from, size_t count, off_t place) {
    ssize_t (*next)(int, const void *, size_t, off_t) = dlsym(RTLD_NEXT, "pwrite");
    wrote(file);
    return next(file, from, count, place);
}

ssize_t writev(int file, const struct iovec *parts, int count) {
    ssize_t (*next)(int, const struct iovec *, int) = dlsym(RTLD_NEXT, "writev");
    wrote(file);
    return next(file, parts, count);
}
'''


def library(name: str, source: str) -> Path:
    """A library that is loaded before the C library."""
    Path(f'{name}.c').write_text(source)
    subprocess.run(['cc', '-shared', '-fPIC', '-O1', '-o', f'{name}.so', f'{name}.c', '-ldl'], check=True)
    return Path(f'{name}.so').resolve()


class Files:
    """A volume, a tree that is put on it, and what FILE is then."""

    def __init__(self, bench: Bench):
        self.bench = bench
        lay('files', {'large': b'L' * 300_000, '._large': apple_double((FINDER, FINDER_BYTES), (RESOURCE, b'R' * 200_000)), 'empty': b'',
                      'binary': mac_binary(b'From a binary', FINDER_BYTES[:16], b'D' * 100_000, b'S' * 100_000), 'sub': {'last': b'end'}})
        self.disk = bench.new(4000)
        self.saved = bench.puts('as it is', self.disk, ['files'], Options(macbinary=True))
        self.words = ['put', bench.image, 'files', '--out', bench.out, '--now', NOW, '--macbinary']

    def run(self, words=None, old: bytes = OLD, **how) -> tuple[int, str, str]:
        """A run of the words, where FILE was there before."""
        self.bench.image.write_bytes(self.disk)
        self.bench.out.write_bytes(old)
        self.bench.runs += 1
        ran = subprocess.run([self.bench.tool.path, *map(str, words or self.words)], stdin=subprocess.DEVNULL, stdout=subprocess.PIPE, stderr=subprocess.PIPE, timeout=120,
                             text=True, **how)
        ensure(not list(Path().rglob('*.new')), f'a file is left: {ran}')
        return ran.returncode, ran.stdout, ran.stderr

    def is_old_or_whole(self, what: str) -> bool:
        found = self.bench.out.read_bytes()
        ensure(found in (OLD, self.saved), f'{what}: FILE is a part')
        return found == self.saved

    def fails(self, what: str, text: str, **how) -> None:
        found = self.run(**how)
        ensure(found == (4, text, '') and not self.is_old_or_whole(what), f'{what}: {found}')


def changed(files: Files, source: str, how: str, words=None, **when) -> tuple[int, str, str]:
    """A run beside which a source is changed in this way; the tree is as it was then."""
    shutil.copytree('files', 'kept', symlinks=True, copy_function=shutil.copy2)
    os.mkdir('elsewhere')
    found = files.run(words, env={**os.environ, 'LD_PRELOAD': str(Path('changes.so').resolve()), 'SOURCE': source, 'CHANGE': how, 'ELSEWHERE': 'elsewhere/it', **when})
    for folder in ('files', 'elsewhere'):
        shutil.rmtree(folder)
    os.rename('kept', 'files')
    return found


def of_changes(files: Files) -> None:
    """Each source is changed in each way, at the beginning and in the middle: it is told, and FILE stays as it was."""
    library('changes', CHANGES)
    for number, how in enumerate(('cut', 'longer', 'gone', 'touched', 'link', 'folder')):
        for name in ('large', '._large', 'binary', 'empty', 'sub/last'):
            if (name, how) == ('empty', 'cut'):
                continue
            for writes in ({}, {'WRITES': '1'}, {'WRITES': '3'})[:1 + (number + len(name)) % 3]:
                what, source = f'{name}, {how} {writes}', f'files/{name}'
                found = changed(files, source, how, **writes)
                ensure(found == (4, f'cannot read {source}\n', '') and not files.is_old_or_whole(what), f'{what}: {found}')
    for name in ('large', '._large', 'binary', 'sub/last', 'sub'):
        # gone before it is looked at, and before the look behind that; where there is none, it stays
        for looks in ('1', '2'):
            what, source = f'{name}, gone at look {looks}', f'files/{name}'
            found = changed(files, source, 'gone', LOOKS=looks)
            is_whole = files.is_old_or_whole(what)
            ensure(found == (4, f'cannot read {source}\n', '') and not is_whole or (looks, found[0]) == ('2', 0) and is_whole, f'{what}: {found}')
    ensure(files.run()[0] == 0 and files.is_old_or_whole('the same tree'), 'the tree is as it was')


def of_made(files: Files) -> None:
    """The same of `make`, at the beginning and in the middle; and reads that fail."""
    words, put = ['make', files.bench.out, 'files', '--now', NOW, '--macbinary'], files.saved
    ensure(files.run(words)[0] == 0, 'make of the tree')
    files.saved = files.bench.out.read_bytes()
    for how in ('cut', 'longer', 'gone', 'touched'):
        for name in ('large', '._large', 'binary', 'sub/last'):
            for when in ({}, {'WRITES': '2'}):
                what, source = f'make: {name}, {how} {when}', f'files/{name}'
                found = changed(files, source, how, words, **when)
                ensure(found == (4, f'cannot read {source}\n', '') and not files.is_old_or_whole(what), f'{what}: {found}')
    for reads in (0, 1, 2):
        how = {**os.environ, 'LD_PRELOAD': str(library('reads', devices.LIBRARY)), 'IMAGE': str(os.stat('files/large').st_ino), 'READS': str(reads)}
        found = files.run(words, env=how)
        is_whole = files.is_old_or_whole(f'make: large behind {reads} reads')
        ensure(found == (4, 'cannot read files/large\n', '') and not is_whole or reads and found[0] == 0 and is_whole, f'make: large behind {reads} reads: {found}')
    files.saved = put


def of_reads(files: Files) -> None:
    """Reads that fail: of each source, while it is looked at and later, and of IMAGE."""
    loaded = library('reads', devices.LIBRARY)
    for source in ('files/large', 'files/._large', 'files/binary', 'files/sub/last'):
        reads = 0
        while True:
            how = {**os.environ, 'LD_PRELOAD': str(loaded), 'IMAGE': str(os.stat(source).st_ino), 'READS': str(reads)}
            found = files.run(env=how)
            if found[0] == 0:
                break
            ensure(found == (4, f'cannot read {source}\n', '') and not files.is_old_or_whole(source), f'{source} behind {reads} reads: {found}')
            reads = reads * 3 // 2 + 1
        ensure(reads > 0 and files.is_old_or_whole(source), f'{source} is not read')
    files.run()
    for reads in (0, 3, 20, 40):
        files.bench.image.write_bytes(files.disk)
        how = {**os.environ, 'LD_PRELOAD': str(loaded), 'IMAGE': str(os.stat(files.bench.image).st_ino), 'READS': str(reads)}
        found = files.run(env=how)
        ensure(found[:2] in ((4, f'cannot read {files.bench.image}\n'), (0, found[1])), f'IMAGE behind {reads} reads: {found}')
        ensure(found[0] == (4 if reads < 4 else found[0]) and files.is_old_or_whole('IMAGE') == (found[0] == 0), f'IMAGE behind {reads} reads: {found}')


def of_permissions(files: Files) -> None:
    """A plain user reads neither a folder nor a file without a permission, and is told so before anything that can't be put."""
    if os.geteuid() != 0 or not shutil.which('setpriv'):
        files.bench.skipped.append('a plain user')
        return
    lay('closed', {'a:': b'', 'folder': {'in it': {'x': b''}}, 'file': b'x', '._double': b'x', 'listed': {'in it': {'x': b'x'}}})
    modes = {'closed/folder/in it': 0, 'closed/file': 0, 'closed/._double': 0, 'closed/listed/in it': 0o444}
    for path, mode in modes.items():
        os.chmod(path, mode)
    os.chmod('.', 0o777)
    nobody = ['setpriv', '--reuid=65534', '--regid=65534', '--clear-groups']
    shutil.copy(files.bench.tool.path, 'tool')
    for source, told in (('closed', '/._double'), ('closed/folder', '/in it'), ('closed/folder/in it', '/bagit.txt'), ('closed/file', ''), ('closed/listed', '/in it/x')):
        ran = subprocess.run([*nobody, './tool', 'put', 'image', source, '--out', 'none'], stdin=subprocess.DEVNULL, capture_output=True, text=True, timeout=60)
        ensure((ran.returncode, ran.stdout, ran.stderr) == (4, f'cannot read {source}{told}\n', '') and not Path('none').exists(), f'{source} by a plain user: {ran}')
    for path in modes:
        os.chmod(path, 0o755)


def of_full_disks(files: Files) -> None:
    """A disk that is full, one that takes no larger file, a device that takes nothing; and nobody who takes what is told."""
    Path('disk').mkdir()
    if subprocess.run(['mount', '-t', 'tmpfs', '-o', 'size=600k', 'tmpfs', 'disk'], capture_output=True).returncode == 0:
        try:
            words = [*files.words[:4], 'disk/out', *files.words[5:]]
            Path('disk/out').write_bytes(OLD)
            found = files.run(words)
            ensure(found == (4, 'cannot write disk/out\n', '') and os.listdir('disk') == ['out'] and Path('disk/out').read_bytes() == OLD, f'a full disk: {found}')
        finally:
            subprocess.run(['umount', 'disk'], check=True)
    else:
        files.bench.skipped.append('a full disk')

    def smaller():
        signal.signal(signal.SIGXFSZ, signal.SIG_IGN)
        resource.setrlimit(resource.RLIMIT_FSIZE, (1 << 20, 1 << 20))

    files.fails('no larger file', f'cannot write {files.bench.out}\n', preexec_fn=smaller)
    found = files.run([*files.words[:4], '/dev/full', *files.words[5:]])
    ensure(found == (4, 'cannot write /dev/full\n', ''), f'a device that takes nothing: {found}')
    with open('/dev/full', 'wb') as nobody:
        ended = subprocess.run([files.bench.tool.path, *map(str, files.words)], stdin=subprocess.DEVNULL, stdout=nobody, timeout=60).returncode
    ensure(ended == 4 and files.is_old_or_whole('nobody takes what is told'), f'nobody takes what is told: {ended}')


def of_few_files(files: Files) -> None:
    """Few files that may be open: nine suffice, however many files come."""
    lay('many', {f'{it:03}': b'x' for it in range(100)} | {f'._{it:03}': apple_double((RESOURCE, b'R')) for it in range(100)})
    wanted = files.bench.puts('many files', files.disk, ['many'])
    whole = set()
    for most in range(4, 10):
        words = ['put', files.bench.image, 'many', '--out', files.bench.out, '--now', NOW]
        status, text, errors = files.run(words, preexec_fn=lambda: resource.setrlimit(resource.RLIMIT_NOFILE, (most, most)))
        found = files.bench.out.read_bytes()
        ensure(status in (0, 4) and (found == wanted) == (status == 0) and found in (OLD, wanted) and not errors, f'{most} open files: {status} {text}')
        whole |= {most} if status == 0 else set()
    ensure(4 not in whole and 9 in whole, f'FILE is written with these numbers of open files: {sorted(whole)}')


def of_kills(files: Files) -> None:
    """Runs that are killed: FILE is the old one or whole."""
    lay('slow', {str(it): os.urandom(1 << 20) for it in range(24)})
    disk = files.bench.new(60_000)
    wanted = files.bench.puts('24 MB', disk, ['slow'])
    began = time.monotonic()
    words = list(map(str, ['put', files.bench.image, 'slow', '--out', files.bench.out, '--now', NOW]))
    subprocess.run([files.bench.tool.path, *words], check=True, stdout=subprocess.DEVNULL)
    took, ended = time.monotonic() - began, set()
    for step in range(16):
        files.bench.out.write_bytes(OLD)
        run = subprocess.Popen([files.bench.tool.path, *words], stdin=subprocess.DEVNULL, stdout=subprocess.PIPE, text=True)
        time.sleep(took * step / 12)
        run.kill()
        text, found = run.communicate()[0], files.bench.out.read_bytes()
        ensure(found in (OLD, wanted) and (found == wanted or not text), f'a run that is killed leaves a part, and tells {text!r}')
        ended.add(found == wanted)
        for left in Path().glob('*.new'):
            left.unlink()
    ensure(False in ended, 'no run is killed before it ends')
    files.bench.runs += 16


def of_memory(files: Files) -> None:
    """What a large file takes, and what many small ones do."""
    lay('sparse', 200_000_000)
    lay('small ones', {f'folder {it // 100}': {f'{it}': b'x' for it in range(it, it + 100)} for it in range(0, 3000, 100)})
    for source, items, blocks, nodes in (('sparse', 1, 420_000, 40), ('small ones', 3030, 20_000, 1000)):
        files.disk = files.bench.new(blocks, nodes)
        files.bench.image.write_bytes(files.disk)
        words = [sys.executable, '-c', MEASURED, files.bench.tool.path, 'put', files.bench.image, source, '--out', files.bench.out]
        status, memory = map(int, subprocess.run(words, stdin=subprocess.DEVNULL, stdout=subprocess.PIPE, check=True, timeout=120).stdout.split()[-2:])
        ensure(status == 0 and memory < 16_384 + items, f'{source}: {status}, {memory} KB')
        files.bench.runs += 1


def of_terminals(files: Files) -> None:
    """At a terminal one line says how far the run is; it is written over, and taken away at the end."""
    words = ['put', files.bench.image, 'small ones', '--out', files.bench.out]
    status, _, said = ended_at_terminal(files.bench.tool.path, words)
    shown = re.findall(r'\r([^\r\x1b]*)\x1b\[K', said.decode())
    ensure(status == 0 and shown and shown[-1] == '' and all(shown[:-1]), f'what is told at a terminal: {said[:300]!r}')


def try_all(bench: Bench) -> None:
    files = Files(bench)
    if shutil.which('cc'):
        for part in (of_changes, of_made, of_reads):
            part(files)
    else:
        bench.skipped.append('sources that change, and reads that fail')
    for part in (of_permissions, of_full_disks, of_few_files, of_kills, of_memory, of_terminals):
        part(files)


def main() -> int:
    bench, started = Bench(), time.monotonic()
    if not agrees_in_a_folder('put', lambda: try_all(bench)):
        return 1
    left_out = f'; left out: {", ".join(bench.skipped)}' if bench.skipped else ''
    print(f'{bench.runs} runs beside sources that change and disks that fail, in {time.monotonic() - started:.0f} s{left_out}')
    return 0


if __name__ == '__main__':
    sys.exit(main())
