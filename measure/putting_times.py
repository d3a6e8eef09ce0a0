#!/usr/bin/env python3
"""How long `put` and `make` take, on a RAM disk, and their most memory.

measure/putting_times.py files [BYTES] 5,800 files of 3,500 bytes, or of so many, in 200 folders, compared with `cp -a` of these and of the image of 24 MB, and
                                       `hcopy -r` folder by folder; a disk made of them, compared with `cp -a` of them
measure/putting_times.py fork [MB]     a file of 500 MB, or of so many, compared with `cp` of it
measure/putting_times.py small [MB]    a small file on a volume of 2,000 MB, or of so many, without holes, compared with one Create by `run --out`
measure/putting_times.py many [N]      100,000 empty files, or so many, in folders of 100, put and made: processor time and memory

Each runs seven times, a large one three times, in turns; the least time is printed, by the clock and of the processor.
"""
import os
import resource
import shutil
import subprocess
import sys
import tempfile
import time
from pathlib import Path

ROOT = Path(__file__).resolve().parents[1]
TOOL = os.environ.get('HFS_TOOL') or str(ROOT / 'crates' / 'hfs_tool' / 'out' / 'hfs_tool')
sys.path.insert(0, str(ROOT / 'tests'))
from driver.programs import MEASURED  # noqa: E402

QUIET = {'stdin': subprocess.DEVNULL, 'stdout': subprocess.DEVNULL, 'stderr': subprocess.DEVNULL}


def do(*words) -> None:
    """Runs these words."""
    status = subprocess.run([str(it) for it in words], **QUIET).returncode
    if status != 0:
        sys.exit(f'{words} ends with {status}')


def memory(*words) -> str:
    """What these words take of memory at most. A program's counts as much as what begins it, so that is little."""
    ran = subprocess.run([sys.executable, '-S', '-E', '-c', MEASURED, *map(str, words)], stdin=subprocess.DEVNULL, stdout=subprocess.PIPE, check=True, text=True)
    return f'{int(ran.stdout.split()[-1]) / 1024:.1f} MB'


def best(runs: int, jobs):
    """The least time of each of these jobs, which take turns, by the clock and of the processor; each makes a file or a folder, which goes before
    the next."""
    least = {}
    for _ in range(runs):
        for name, job, made in jobs:
            shutil.rmtree(made, ignore_errors=True) if made.is_dir() else made.unlink(missing_ok=True)
            before, began = resource.getrusage(resource.RUSAGE_CHILDREN), time.time()
            job()
            took, after = time.time() - began, resource.getrusage(resource.RUSAGE_CHILDREN)
            spent = after.ru_utime - before.ru_utime, after.ru_stime - before.ru_stime
            clock, processor = least.get(name, (9e9, (9e9,)))
            least[name] = min(clock, took), min(processor, spent, key=sum)
    for name, (took, (own, system)) in least.items():
        print(f'{name}: {took:.3f} s; of the processor {own + system:.3f} (program {own:.3f}, system {system:.3f})', flush=True)
    return least


def compare(least, ours: str, *others: str) -> None:
    """Prints how much more one takes than others, by the clock and of the processor."""
    for other in others:
        if other in least:
            (took, spent), (beside, beside_spent) = least[ours], least[other]
            print(f'{ours} to {other}: {took / beside:.2f} by the clock, {sum(spent) / sum(beside_spent):.2f} of the processor', flush=True)


def put(image: Path, source: Path, out: Path):
    """The job that puts a source on an image."""
    return lambda: do(TOOL, 'put', image, source, '--out', out)


def make(source: Path, out: Path, *words):
    """The job that makes a disk of a source."""
    return lambda: do(TOOL, 'make', out, source, *words)


def files(folder: Path, size: int) -> None:
    image, bag, tree, empty, out, copied, peer = (folder / it for it in ('many.img', 'bag', 'tree', 'empty.img', 'out', 'copied', 'peer.img'))
    do('sh', ROOT / 'measure' / 'make_volume.sh', image)
    do(TOOL, 'take', image, bag, '--no-digest')
    os.rename(bag / 'data', tree)
    for path in [it for it in tree.rglob('*') if it.is_file()]:
        path.unlink() if path.name.startswith('._') else path.write_bytes(os.urandom(size))
    do(TOOL, 'new', empty, 'Empty', 49_152, 6000, 40)
    names = sorted(it.name for it in tree.iterdir())

    def copied_on() -> None:
        shutil.copy(empty, peer)
        do('hmount', peer)
        for it in names:
            do('hmkdir', f':{it}')
            do('hcopy', '-r', *sorted((tree / it).iterdir()), f':{it}:')
        do('humount')

    def copied_both() -> None:
        copied.mkdir()
        do('cp', '-a', tree, empty, copied)

    def copied_files() -> None:
        do('cp', '-a', tree, copied)

    least = best(7, [('put', put(empty, tree, out), out), ('cp -a of both', copied_both, copied), ('make', make(tree, out), out), ('cp -a', copied_files, copied),
                     *([('hcopy -r', copied_on, peer)] if shutil.which('hcopy') else [])])
    compare(least, 'put', 'cp -a of both', 'hcopy -r')
    compare(least, 'make', 'cp -a', 'hcopy -r')
    print(f'put {memory(TOOL, "put", empty, tree, "--out", out)}, make {memory(TOOL, "make", out, tree)}')


def fork(folder: Path, size: int) -> None:
    content, image, out, copied = (folder / it for it in ('content', 'image', 'out', 'copied'))
    with open(content, 'wb') as file:
        for _ in range(size):
            file.write(os.urandom(1 << 20))
    do(TOOL, 'new', image, 'Large', size * 2150 + 2000)
    compare(best(3, [('put', put(image, content, out), out), ('cp', lambda: do('cp', content, copied), copied), ('make', make(content, out, '--name', 'Large'), out)]), 'put', 'cp')
    print(f'put {memory(TOOL, "put", image, content, "--out", out)}, make {memory(TOOL, "make", out, content, "--name", "Large")}')


def small(folder: Path, size: int) -> None:
    image, source, script, out = (folder / it for it in ('image', 'source', 'script', 'out'))
    do(TOOL, 'new', image, 'Large', size * 2048)
    with open(image, 'r+b') as file:
        # of the free blocks none stays a hole
        for at in range(4 << 20, size << 20, 1 << 20):
            file.seek(at)
            file.write(b'x' * (1 << 20))
    source.write_bytes(b'a small file')
    script.write_text('1\tcreate\t2\tsource\n')
    compare(best(3, [('put', put(image, source, out), out), ('run --out', lambda: do(TOOL, 'run', image, script, '--out', out), out)]), 'put', 'run --out')
    print(f'put {memory(TOOL, "put", image, source, "--out", out)}')


def many(folder: Path, count: int) -> None:
    tree, image, out = (folder / it for it in ('tree', 'image', 'out'))
    for number in range(count):
        path = tree / f'folder {number // 100:05}' / f'file {number:06}'
        if number % 100 == 0:
            path.parent.mkdir(parents=True)
        path.touch()
    do(TOOL, 'new', image, 'Many', 400_000, 65_000, 8)
    best(3, [('put', put(image, tree, out), out), ('make', make(tree, out), out)])
    print(f'put {memory(TOOL, "put", image, tree, "--out", out)}, make {memory(TOOL, "make", out, tree)}')


def main() -> None:
    words = dict(enumerate(sys.argv))
    with tempfile.TemporaryDirectory(dir='/dev/shm') as name:
        folder = Path(name)
        os.environ['HOME'] = name
        match words.get(1):
            case 'files':
                files(folder, int(words.get(2, 3500)))
            case 'fork':
                fork(folder, int(words.get(2, 500)))
            case 'small':
                small(folder, int(words.get(2, 2000)))
            case 'many':
                many(folder, int(words.get(2, 100_000)))
            case _:
                sys.exit(__doc__)


main()
