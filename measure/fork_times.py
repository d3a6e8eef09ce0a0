#!/usr/bin/env python3
"""Calls that write forks, by `run` of a new volume on a RAM disk: processor time and most memory of 1,024 bytes written so many times in a row,
of 65,536 bytes, also with a viewer, and of a fork of 500 MB without a byte. Each time is the best of three, with the line read and answered.

measure/fork_times.py          runs $HFS_TOOL, or the program as it is built in crates/hfs_tool/out
measure/fork_times.py counts   by callgrind of valgrind: how many instructions a call takes, without its line and its answer, as the difference of two
                               runs of so many calls and of twice as many; also on forks in many extents, and of Creates. HFS_TOOL names a program
                               built with --without-tests (scripts/unproved_program.py), which has the names that callgrind needs
"""
import os
import re
import subprocess
import sys
import tempfile
from itertools import chain
from pathlib import Path

HERE = Path(__file__).resolve().parent
TOOL = os.environ.get('HFS_TOOL') or HERE.parent / 'crates' / 'hfs_tool' / 'out' / 'hfs_tool'


def cost(words) -> tuple[float, float]:
    """The seconds of processor time that a program takes, and its most memory in MB."""
    ran = subprocess.Popen(words, stdout=subprocess.DEVNULL)
    _, status, used = os.wait4(ran.pid, 0)
    if status != 0:
        sys.exit(f'{words} ends with {status}')
    return used.ru_utime + used.ru_stime, used.ru_maxrss / 1024


def tell(what: str, image: Path, lines) -> None:
    """Runs a script, which makes a file first, and prints what it costs."""
    script = image.with_name('script')
    # piece by piece: the most memory of what is run is no less than that of this program
    with script.open('w') as file:
        file.write('1\tcreate\t2\ta\n')
        file.writelines(lines)
    seconds, memory = min(cost([TOOL, 'run', image, script]) for _ in range(3))
    print(f'{what}: {1000 * seconds:.0f} ms, {memory:.1f} MB', flush=True)


def writes(count: int, size: int):
    return (f'1\twrite\t2\ta\tdata\t{it * size}\t{"61" * size}\n' for it in range(count))


# The C library copies by vectors, as each byte that it copies by `rep movsb` would count as an instruction.
BY_VECTORS = {**os.environ, 'GLIBC_TUNABLES': 'glibc.cpu.x86_rep_movsb_threshold=1000000000:glibc.cpu.x86_rep_stosb_threshold=1000000000'}


def instructions(image: Path, lines) -> int:
    """How many instructions the callers of a script take, all of whose calls are answered 0."""
    script = image.with_name('script')
    script.write_text(''.join(lines))
    words = ['valgrind', '--tool=callgrind', '--callgrind-out-file=/dev/null', '--toggle-collect=std::thread::fork::chunks_from*']
    ran = subprocess.run([*words, TOOL, 'run', image, script], stdout=subprocess.PIPE, stderr=subprocess.PIPE, text=True, check=True, env=BY_VECTORS)
    if any(line[:1] != '\t' and line.split('\t')[2] != '0' for line in ran.stdout.splitlines()):
        sys.exit('a call is refused')
    return int(re.search(r'Collected : (\d+)', ran.stderr).group(1))


def tell_count(what: str, image: Path, line_of, count: int, before=()) -> None:
    """Prints how many instructions a call takes, by its line."""
    once, twice = (instructions(image, [*before, *map(line_of, range(count * times))]) for times in (1, 2))
    print(f'{what}: {(twice - once) / count:,.0f} instructions', flush=True)


def count_calls(folder: Path) -> None:
    """Creates, writes behind a fork's end and over its bytes, and reads by a worker, in a new volume of 33 MB."""
    image, made = folder / 'image', ['1\tcreate\t2\ta\n']
    subprocess.run([TOOL, 'new', image, 'D', '12288', '2000', '8'], check=True)
    tell_count('a Create, names that rise', image, lambda k: f'1\tcreate\t2\tname {k:05}\n', 1000)
    subprocess.run([TOOL, 'new', image, 'D', '65000', '40', '8'], check=True)
    for size in (0, 512, 4096, 65_536):
        tell_count(f'{size:,} bytes written behind the end', image, lambda k: f'1\twrite\t2\ta\tdata\t{k * size}\t{"61" * size}\n', 60, made)
    tell_count('65,536 bytes written over', image, lambda k: f'1\twrite\t2\ta\tdata\t0\t{"61" * 65_536}\n', 60, made)
    written = made + list(writes(60, 65_536))
    tell_count('65,536 bytes read by the worker that wrote them', image, lambda k: f'1\tread\t2\ta\tdata\t{k % 60 * 65_536}\t65536\n', 60, written)
    (folder / 'script').write_text(''.join(written))
    subprocess.run([TOOL, 'run', image, folder / 'script', '--out', image], stdout=subprocess.DEVNULL, check=True)
    for who in ('1', 'v1'):
        tell_count(f'65,536 bytes read by {who}, which were there', image, lambda k: f'{who}\tread\t2\ta\tdata\t{k % 60 * 65_536}\t65536\n', 60)


def count_in_extents(folder: Path, count: int) -> None:
    """Calls on a fork in so many extents, in a volume of 31 MB whose free blocks lie one by one."""
    # here alone, as what these take would count as memory of what is run
    sys.path.insert(0, str(HERE.parent / 'tests'))
    import forks
    import slow_volumes
    path, end = folder / 'image', count * 512
    volume = slow_volumes.Volume(31)
    slow_volumes.cut_two_files(volume, 2 * count)
    volume.write(path)
    path.write_bytes(forks.one_by_one(path.read_bytes(), 0))
    what = f'of a fork in {count:,} extents'
    tell_count(f'512 bytes {what}, read', path, lambda k: f'1\tread\t2\ta\tdata\t{end // 2}\t512\n', 4)
    tell_count(f'512 bytes {what}, written over', path, lambda k: f'1\twrite\t2\ta\tdata\t{end // 2}\t{"61" * 512}\n', 4)
    tell_count(f'512 bytes {what}, written behind the end', path, lambda k: f'1\twrite\t2\ta\tdata\t{end + 512 * k}\t{"61" * 512}\n', 4)


def count_all() -> None:
    with tempfile.TemporaryDirectory(dir='/dev/shm') as folder:
        count_calls(Path(folder))
        for count in (30, 3000, 30_000):
            count_in_extents(Path(folder), count)


def main() -> None:
    if sys.argv[1:] == ['counts']:
        count_all()
        return
    with tempfile.TemporaryDirectory(dir='/dev/shm') as folder:
        image = Path(folder) / 'image'
        for blocks in (65_000, 1_100_000):
            subprocess.run([TOOL, 'new', image, 'D', str(blocks), '40', '8'], check=True)
            if blocks == 65_000:
                for count in (0, 1000, 2000, 4000, 7900):
                    tell(f'{count} times 1,024 bytes', image, writes(count, 1024))
                for count in (0, 31, 62, 124):
                    tell(f'{count} times 65,536 bytes', image, writes(count, 65_536))
                tell('124 times 65,536 bytes, and a viewer', image, chain(writes(124, 65_536), ['v1\tlist\t2\n']))
            else:
                tell('a fork of 500 MB without a byte', image, ['1\tseteof\t2\ta\tdata\t500000000\n'])


if __name__ == '__main__':
    main()
