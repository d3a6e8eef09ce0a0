#!/usr/bin/env python3
"""Tests that after `run` and `repair` with `--volume N` FILE is IMAGE with the bytes of the volume replaced, and the sum of a disk copy made
anew, and no other byte changed. What the volume is to be is given by the word on the volume alone, without `--volume`; what is around it,
and the sum, by Python, without any of the project's code. By paths and from pipes; what is refused, and in which order; a file of
more than 4 GB.

tests/inside.py      runs $HFS_TOOL, or the program as it is built in crates/hfs_tool/out
"""
import os
import resource
import subprocess
import sys
import tempfile
from pathlib import Path

from driver.programs import built, ended
from driver.wanted import Difference, ensure
from volumes import WRAPPINGS, content, entry, found, in_disk_copy, in_macbinary, in_map, in_sectors, turned_sum

TOOL = str(built('hfs_tool'))
SCRIPT = b'1\tcreate\t2\tnew file\n1\twrite\t2\tnew file\tdata\t0\t616263\n1\tmkdir\t2\tnew folder\n'
runs = 0


def run(words, given=None, **how):
    """How a run of the words ends, and what it prints."""
    global runs
    runs += 1
    status, printed, told = ended(TOOL, words, given, **how)
    ensure(not told, f'{words} writes {told[:200]}')
    return status, printed


def with_volume(data, start, size, how, volume):
    """The file with this volume in place of its bytes from `start` on, and the sum of a disk copy in its header."""
    ensure(len(volume) == size, 'the changed volume has another length')
    made = bytearray(data)
    made[start:start + size] = volume
    if how == 'disk copy':
        made[start - 12:start - 8] = turned_sum(volume).to_bytes(4, 'big')
    return bytes(made)


class Bench:
    """A folder with a script, and a word on an image in it."""

    def __init__(self, folder):
        self.folder, self.out = folder, folder / 'out.img'
        self.script = self.lay('script', SCRIPT)

    def lay(self, name, data):
        path = self.folder / name
        path.write_bytes(data)
        return path

    def words(self, word, image, out, *more):
        """The words that change an image."""
        return ['run', image, self.script, '--now', '3000000000', '--out', out, *more] if word == 'run' else ['repair', image, out, *more]

    def alone(self, word, volume):
        """What the word tells of a volume alone, and what it makes of it; None where it makes nothing."""
        self.out.unlink(missing_ok=True)
        told = run(self.words(word, self.lay('alone', volume), self.out))
        return told, self.out.read_bytes() if self.out.exists() else None

    def gives(self, what, word, data, number, told, wanted):
        """Wants that the word tells this of a volume in a file, and makes these bytes of it: by its path, out of a pipe, and in its own place."""
        path = self.lay('image', data)
        for how, image, out, given in (('', path, self.out, None), (', piped', '/dev/stdin', self.out, data), (', in place', path, path, None)):
            self.out.unlink(missing_ok=True)
            ensure(run(self.words(word, image, out, '--volume', number), given) == told, f'{what}{how}: {word} tells otherwise')
            if wanted is None:
                ensure(not self.out.exists() and path.read_bytes() == data, f'{what}{how}: {word} writes a file')
            else:
                ensure(Path(out).read_bytes() == wanted, f'{what}{how}: {word} makes other bytes')
        ensure(not list(self.folder.glob('*.new')), f'{what}: {word} leaves a file')

    def changes(self, what, data, number, place):
        """Wants that both words change this volume in the file, and nothing else."""
        how, start, size, _ = place
        for word in ('run', 'repair'):
            told, volume = self.alone(word, data[start:start + size])
            self.gives(what, word, data, number, told, None if volume is None else with_volume(data, start, size, how, volume))

    def refuses(self, what, data, number, text):
        """Wants that both words refuse it with this text, and write nothing."""
        for word in ('run', 'repair'):
            self.gives(what, word, data, number, (2, text.encode() + b'\n'), None)


# ---- the bytes

def wrapped(bench, volume, name):
    """A volume in each wrapping, by its number, and as it is."""
    for what, wrap in WRAPPINGS:
        data = wrap(volume)
        ranges = found(data)
        for n, place in enumerate(ranges, 1):
            if content(data)[1] is not None:
                bench.refuses(f'{name} {what}', data, n, 'not written here')
            elif place[0] == 'disk copy' and turned_sum(data[place[1]:place[1] + place[2]]) != place[3]:
                bench.refuses(f'{name} {what}', data, n, 'sum wrong')
            else:
                bench.changes(f'{name} {what}', data, n, place)
        bench.refuses(f'{name} {what}, another volume', data, len(ranges) + 1, f'no volume {len(ranges) + 1}')
        as_it_is(bench, f'{name} {what}', data)


def as_it_is(bench, what, data):
    """By the number 0 each word does what it does without one."""
    path = bench.lay('image', data)
    for word in ('run', 'repair'):
        made = []
        for more in ((), ('--volume', '0')):
            bench.out.unlink(missing_ok=True)
            told = run(bench.words(word, path, bench.out, *more))
            made.append((told, bench.out.read_bytes() if bench.out.exists() else None))
        ensure(made[0] == made[1], f'{what}: {word} of volume 0')


def by_hand(bench, small):
    """Two volumes in one map with other bytes about them: where they lie, and what is changed, is written here."""
    wrong = bytearray(small)
    wrong[1108:1112] = b'\0\0\0\1'
    disk = b''.ljust(512, b'D') + entry(2, 4, 64, b'Apple_HFS') + entry(2, 70, 64, b'Apple_HFS')
    disk = disk.ljust(4 * 512, b'a') + small + bytes(range(256)) * 4 + bytes(wrong) + b'behind the last block'
    told, changed = bench.alone('run', small)
    ensure(told[0] == 0 and changed != small, 'the script changes nothing')
    bench.gives('the first of two', 'run', disk, 1, told, disk[:2048] + changed + disk[34816:])
    bench.gives('the second of two', 'repair', disk, 2, (0, b'fixed drFilCnt 1 0\nsound\n'), disk[:35840] + small + disk[68608:])
    fault = run(['check', bench.lay('alone', bytes(wrong))])
    ensure(fault[0] == 2, 'the second volume is sound')
    bench.gives('a refused volume', 'run', disk, 2, (2, fault[1].removeprefix(b'refused ')), None)
    copy = in_disk_copy(bytes(wrong))
    bench.gives('a disk copy', 'repair', copy, 1, (0, b'fixed drFilCnt 1 0\nsound\n'),
                copy[:72] + turned_sum(small).to_bytes(4, 'big') + copy[76:84] + small)
    tagged = copy + b'tags of a disk copy'
    bench.gives('a disk copy with bytes behind its data', 'repair', tagged, 1, (0, b'fixed drFilCnt 1 0\nsound\n'),
                copy[:72] + turned_sum(small).to_bytes(4, 'big') + copy[76:84] + small + b'tags of a disk copy')
    odd = in_macbinary(small + b'x', resource=b'RES')
    told, changed = bench.alone('run', small + b'x')
    bench.gives('an odd length', 'run', odd, 1, told, odd[:128] + changed + odd[128 + len(changed):])
    pieces(bench, small)


def pieces(bench, small):
    """Volumes of more than a piece of what is read at once, at places that are no blocks' beginnings."""
    large = bench.folder / 'large.img'
    subprocess.run([TOOL, 'new', large, 'L', '6000'], check=True)
    large = large.read_bytes()
    for what, wrap in WRAPPINGS[1:8]:
        data = wrap(large)
        for n, place in enumerate(found(data), 1):
            if not what.endswith('another sum'):
                bench.changes(f'3 MB {what}', data, n, place)


# ---- what is told, and in which order

def order(bench, small):
    """No volume of that number, then the sum, then the script's fault and the image's, as without a number."""
    bad = small[:1024] + b'XX' + small[1026:]
    copy = in_disk_copy(bad, 1)
    bench.refuses('no volume before the sum', copy, 2, 'no volume 2')
    bench.refuses('the sum before the fault', copy, 1, 'sum wrong')
    broken = bench.lay('broken', b'no line\n')
    path = bench.lay('image', in_disk_copy(small, 1))
    ensure(run(['run', path, broken, '--volume', '1']) == (2, b'sum wrong\n'), 'the sum before the script')
    path = bench.lay('image', in_disk_copy(bad))
    ensure(run(['run', path, broken, '--volume', '1']) == (2, b'script line 1\n'), 'the script before a refused image, as without a number')
    ensure(run(['run', path, bench.folder / 'none', '--volume', '2']) == (2, b'no volume 2\n'), 'no volume before the script')
    raw = in_sectors(in_map(small, 512))
    bench.refuses('raw sectors', raw, 1, 'not written here')
    bench.refuses('raw sectors without that volume', raw, 2, 'no volume 2')
    missing = bench.folder / 'missing'
    for word in ('run', 'repair'):
        ensure(run(bench.words(word, missing, bench.out, '--volume', '1')) == (4, f'cannot read {missing}\n'.encode()), 'no file')
        ensure(run(bench.words(word, path, bench.out, '--volume', 'x'))[0] == 1, 'no number')
    data = in_map(small, 512)
    path = bench.lay('image', data)
    ensure(run(['run', path, bench.script, '--now', '3000000000', '--volume', '1']) == bench.alone('run', small)[0] and path.read_bytes() == data,
           'a run without a file')


def far(bench, small):
    """A volume behind 4 GB of a file, and 1 GB behind it: holes stay holes, and little memory is taken."""
    path, place, behind = bench.folder / 'far', 9_000_000 * 512, 1 << 30
    with open(path, 'wb') as file:
        file.write(bytes(512) + entry(1, 9_000_000, 64, b'Apple_HFS'))
        file.seek(place)
        file.write(small)
        file.truncate(place + len(small) + behind)
        file.seek(-3, os.SEEK_END)
        file.write(b'end')
    told, changed = bench.alone('run', small)

    def little():
        resource.setrlimit(resource.RLIMIT_AS, (1 << 28, 1 << 28))

    bench.out.unlink(missing_ok=True)
    ensure(run(bench.words('run', path, bench.out, '--volume', '1'), preexec_fn=little) == told, 'a volume behind 4 GB')
    with open(bench.out, 'rb') as file:
        ensure(file.read(1024) == bytes(512) + entry(1, 9_000_000, 64, b'Apple_HFS'), 'the beginning of 5 GB')
        file.seek(place - 512)
        ensure(file.read(len(small) + 1024) == bytes(512) + changed + bytes(512), 'the volume in 5 GB')
        ensure(file.seek(-3, os.SEEK_END) == place + len(small) + behind - 3 and file.read() == b'end', 'the end of 5 GB')
    ensure(bench.out.stat().st_blocks * 512 < 1 << 24, 'the holes of 5 GB are filled')
    path.unlink()
    bench.out.unlink()


def main():
    with tempfile.TemporaryDirectory() as name:
        bench = Bench(Path(name).resolve())
        small = bench.folder / 'small.img'
        subprocess.run([TOOL, 'new', small, 'D', '64', '6', '2'], check=True)
        small = small.read_bytes()
        try:
            wrapped(bench, small, 'a small volume')
            for image in sorted((Path(__file__).resolve().parent / 'volumes').glob('*.img')):
                wrapped(bench, image.read_bytes(), image.name)
            for part in (by_hand, order, far):
                part(bench, small)
        except Difference as differs:
            sys.exit(f'inside differs: {differs}')
    print(f'{runs} runs of run and repair on volumes in files, without them, or refused: no other byte is changed')


if __name__ == '__main__':
    main()
