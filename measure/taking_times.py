#!/usr/bin/env python3
"""How long `take` takes, on a RAM disk, of volumes that hfsutils fills.

measure/taking_times.py files         5,800 small files in 200 folders on 20 MB, compared with `cp -a` of the bag and `hcopy -r` folder by folder
measure/taking_times.py fork [MB]     a fork of 500 MB, or of so many, compared with `dd` of it and then sha256sum of what was written

Each runs seven times, the fork's three times, in turns; the least time is printed, with the seconds in
the program and in the system of that run.
"""
import os
import resource
import shutil
import subprocess
import sys
import tempfile
import time
from pathlib import Path

ROOT = Path(__file__).resolve().parents[1]
TOOL = os.environ.get('HFS_TOOL') or str(ROOT / 'crates' / 'hfs_tool' / 'out' / 'hfs_tool')
QUIET = {'stdin': subprocess.DEVNULL, 'stdout': subprocess.DEVNULL, 'stderr': subprocess.DEVNULL, 'check': True}


def do(*words):
    subprocess.run([str(it) for it in words], **QUIET)


def best(runs, jobs):
    """The least time of each of these jobs, which take turns, with what its processes took; each makes a folder, which goes before the next."""
    least = {}
    for _ in range(runs):
        for name, job, made in jobs:
            shutil.rmtree(made, ignore_errors=True)
            before, began = resource.getrusage(resource.RUSAGE_CHILDREN), time.time()
            job()
            took, after = time.time() - began, resource.getrusage(resource.RUSAGE_CHILDREN)
            least[name] = min(least.get(name, (9e9,)), (took, after.ru_utime - before.ru_utime, after.ru_stime - before.ru_stime))
    for name, (took, own, system) in least.items():
        print(f'{name}: {took:.3f} s (program {own:.3f}, system {system:.3f})')
    return {name: it[0] for name, it in least.items()}


def files(folder):
    image, bag, beside, copied, copy = (folder / it for it in ('many.img', 'kept', 'bag', 'copied', 'hcopy'))
    do('sh', ROOT / 'measure' / 'make_volume.sh', image)
    do(TOOL, 'take', image, bag, '--no-digest')
    folders = [f'Folder-{n:03}' for n in range(1, 201)]

    def copied_off():
        copy.mkdir()
        for it in folders:
            (copy / it).mkdir()
            do('hcopy', '-r', f':{it}:*', copy / it)
    do('hmount', image)
    took = best(7, [('take --no-digest', lambda: do(TOOL, 'take', image, beside, '--no-digest'), beside), ('take', lambda: do(TOOL, 'take', image, beside), beside),
                    ('cp -a', lambda: do('cp', '-a', bag, copied), copied), ('hcopy -r', copied_off, copy)])
    print(f"of cp -a {took['take --no-digest'] / took['cp -a']:.2f}, of hcopy -r {took['take --no-digest'] / took['hcopy -r']:.2f}")


def fork(folder, size):
    image, content, bag, written = (folder / it for it in ('large.img', 'content', 'bag', 'written'))
    with open(content, 'wb') as file:
        for _ in range(size):
            file.write(os.urandom(1 << 20))
    with open(image, 'wb') as file:
        file.truncate(size * 105 // 100 << 20)
    do('hformat', '-l', 'Large', image)
    do('hcopy', '-r', content, ':large')
    do('humount')

    def by_hand():
        written.mkdir()
        do('dd', f'if={content}', f'of={written / "fork"}', 'bs=64K')
        do('sha256sum', written / 'fork')
    took = best(3, [('take --no-digest', lambda: do(TOOL, 'take', image, bag, '--no-digest'), bag), ('take', lambda: do(TOOL, 'take', image, bag), bag),
                    ('dd, sha256sum', by_hand, written)])
    print(f"with the digest {took['take'] / took['take --no-digest']:.2f} times, of dd and sha256sum {took['take --no-digest'] / took['dd, sha256sum']:.2f}")


def main():
    with tempfile.TemporaryDirectory(dir='/dev/shm') as folder:
        os.environ['HOME'] = folder
        if sys.argv[1] == 'files':
            files(Path(folder))
        else:
            fork(Path(folder), int(sys.argv[2]) if len(sys.argv) > 2 else 500)


main()
