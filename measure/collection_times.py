#!/usr/bin/env python3
"""How long hfs_collect takes, and how much memory.

measure/collection_times.py floppies [COUNT]   so many floppies of 800 KB with 60 files each, 100 if none are named: hfs_collect, and its
                                               word `rows`, compared with `items` and sha256sum of each image and of each fork of its files
measure/collection_times.py processes [COUNT]  as many floppies, 400 if none are named: `rows` by four processes compared with one, five
                                               times in turn, and the middle one is printed
measure/collection_times.py items [COUNT]      one volume of so many items, 60,000 if none are named: time and memory
measure/collection_times.py rows [COUNT]       a database of so many rows, 1,000,000 if none are named: hfs_collect --compare of
                                               one image compared with sqlite3's PRAGMA quick_check

Each runs three times, and the best is printed. Every other floppy is a copy of
tests/volumes/hfsutils-800k.img, and those between have 57 empty files; sha256sum gets files of 4,000
bytes in place of forks.
"""
import os
import resource
import shutil
import sqlite3
import subprocess
import sys
import tempfile
import time
from pathlib import Path

ROOT = Path(__file__).resolve().parents[1]
TOOL = os.environ.get('HFS_TOOL') or str(ROOT / 'crates' / 'hfs_tool' / 'out' / 'hfs_tool')
COLLECT = os.environ.get('HFS_COLLECT') or str(ROOT / 'crates' / 'hfs_collect' / 'out' / 'hfs_collect')
RUNS = 3


def done(*words, program=TOOL):
    return subprocess.run([program, *map(str, words)], stdin=subprocess.DEVNULL, stdout=subprocess.PIPE, check=True).stdout


def collect(*words):
    return done(*words, program=COLLECT)


def best(*jobs):
    """The least time of each of these jobs, which take turns."""
    least = [float('inf')] * len(jobs)
    for _ in range(RUNS):
        for n, job in enumerate(jobs):
            began = time.time()
            job()
            least[n] = min(least[n], time.time() - began)
    return least


def volume(path, files, folders, blocks, nodes):
    """A new volume with so many files in each of so many folders."""
    done('new', path, 'D', blocks, nodes, 4)
    calls = [f'1\tmkdir\t2\td{n}' for n in range(folders)]
    calls += [f'1\tcreate\t{16 + n}\tfile {k}' for n in range(folders) for k in range(files)]
    script = path.with_suffix('.calls')
    script.write_text(''.join(line + '\n' for line in calls))
    done('run', path, script, '--out', path)
    script.unlink()


def disks(folder, count):
    """So many images of floppies."""
    shutil.copyfile(ROOT / 'tests/volumes/hfsutils-800k.img', folder / 'first.img')
    volume(folder / 'second.img', 57, 1, 1600, 80)
    images = []
    for n in range(count):
        image = folder / f'{n:03}.img'
        shutil.copyfile(folder / ('first.img', 'second.img')[n % 2], image)
        images.append(image)
    return images


def floppies(folder, count):
    images = disks(folder, count)
    forks = [folder / f'fork {n}' for n in range(7 * count // 2 * 2)]
    content = os.urandom(4_000)
    for fork in forks:
        fork.write_bytes(content)

    def collected():
        (folder / 'c.db').unlink(missing_ok=True)
        collect(folder / 'c.db', *images)

    def apart():
        for image in images:
            done('items', image)
        subprocess.run(['sha256sum', *images, *forks], stdout=subprocess.DEVNULL, check=True)
    one, text, other = best(collected, lambda: collect('rows', *images), apart)
    print(f'{count} floppies: collect {one:.2f} s, rows {text:.2f} s, items and sha256sum {other:.2f} s, {one / other:.2f} and {text / other:.2f} times')


def processes(folder, count):
    images = disks(folder, count)
    (folder / 'images').write_bytes(b'\0'.join(os.fsencode(it) for it in images))

    def took(processes, each):
        began = time.time()
        subprocess.run(f'xargs -0 -n {each} -P {processes} -a images sh -c \'"$0" rows "$@" > "rows.$$.jsonl"\' {COLLECT}', shell=True, cwd=folder, check=True)
        for path in folder.glob('rows.*'):
            path.unlink()
        return time.time() - began
    both = sorted((took(1, count), took(4, max(1, count // 16))) for _ in range(5))
    middle = sorted(one / four for one, four in both)[2]
    print(f'{count} floppies: one process {sorted(one for one, _ in both)[2]:.2f} s, four {sorted(four for _, four in both)[2]:.2f} s, {middle:.2f} times as fast')


def items(folder, count):
    subprocess.run([sys.executable, ROOT / 'tests' / 'slow_volumes.py', 'one_folder', str(count), '20', folder / 'many.img'], check=True)

    def collected():
        (folder / 'c.db').unlink(missing_ok=True)
        collect(folder / 'c.db', folder / 'many.img')
    (one,) = best(collected)
    memory = resource.getrusage(resource.RUSAGE_CHILDREN).ru_maxrss / 1024
    print(f'{count} items: {one:.2f} s, at most {memory:.0f} MB in any program that was run, {os.path.getsize(folder / "c.db") / 1e6:.1f} MB on the disk')


def rows(folder, count):
    done('new', folder / 'one.img', 'D', 64, 6, 2)
    collect(folder / 'c.db', folder / 'one.img')
    database = sqlite3.connect(folder / 'c.db')
    columns = 'volume, number, path, bag_path, kind, cnid, parent, flags, finder, data_sha256, resource_sha256'
    database.execute(f"WITH RECURSIVE n (k) AS (SELECT 1 UNION ALL SELECT k + 1 FROM n WHERE k < {count}) INSERT INTO item ({columns}) "
                     "SELECT 1, k, 'D:folder:file ' || k, 'folder/file ' || k, 'file', k, 2, '0000', hex(zeroblob(32)), lower(hex(randomblob(32))), lower(hex(randomblob(32))) FROM n")
    database.commit()
    database.close()
    one, other = best(lambda: collect(folder / 'c.db', '--compare', folder / 'one.img'),
                      lambda: subprocess.run(['sqlite3', folder / 'c.db', 'PRAGMA quick_check'], stdout=subprocess.DEVNULL, check=True))
    print(f'{count} rows: opening {one:.2f} s, quick_check {other:.2f} s, {one / other:.2f} times')


def main():
    kinds = {'floppies': (floppies, 100), 'processes': (processes, 400), 'items': (items, 60_000), 'rows': (rows, 1_000_000)}
    measure, count = kinds[sys.argv[1]]
    with tempfile.TemporaryDirectory() as folder:
        measure(Path(folder), int(sys.argv[2]) if len(sys.argv) > 2 else count)


main()
