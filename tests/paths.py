#!/usr/bin/env python3
"""Items by their paths: `ls` and `cat` with `--path` on a volume made by hand and on the volumes in
tests/volumes, for each item that their table lists. What a path leads to is printed as by the
item's IDs and name, by its path and from a pipe; paths that lead nowhere, through a file or from
another volume's name are refused by the codes that were written by hand.

tests/paths.py      runs $HFS_TOOL, or the program as it is built in crates/hfs_tool/out
"""
import gzip
import re
import sys
import tempfile
from pathlib import Path

from driver.programs import built, ended

HERE = Path(__file__).resolve().parent
TOOL = str(built('hfs_tool'))
VOLUMES = HERE / 'volumes'
SCRIPT = b'1\tmkdir\t2\tGames\n1\tcreate\t16\tm0\n1\tmkdir\t16\tOld\n1\tcreate\t18\ta\\b\n1\tcreate\t2\t-x\n1\tcreate\t2\t A~\n'
LISTED = b'f\t21\t0\t0\t A~\nf\t20\t0\t0\t-x\nd\t16\t2\t0\tGames\n'
# A path of the volume D that the script fills, and what `ls` prints and ends with.
LISTS = [
    (':', 0, LISTED),
    ('D', 0, LISTED),
    ('d', 0, LISTED),
    ('\\44', 0, LISTED),
    ('D:Games', 0, b'f\t17\t0\t0\tm0\nd\t18\t1\t0\tOld\n'),
    (':Games', 0, b'f\t17\t0\t0\tm0\nd\t18\t1\t0\tOld\n'),
    ('d:gAMES:oLD', 0, b'f\t19\t0\t0\ta\\b\n'),
    (':G\\61mes:\\4fld', 0, b'f\t19\t0\t0\ta\\b\n'),
    (':G\\61mes:\\4Fld', 0, b'f\t19\t0\t0\ta\\b\n'),
    ('D:Games:m0', 3, b'code -120\n'),
    (':Games:m0:x', 3, b'code -120\n'),
    ('', 3, b'code -43\n'),
    ('D:', 3, b'code -43\n'),
    ('::', 3, b'code -43\n'),
    (':Games:', 3, b'code -43\n'),
    (':Games::m0', 3, b'code -43\n'),
    ('E', 3, b'code -43\n'),
    ('E:Games', 3, b'code -43\n'),
    ('Games', 3, b'code -43\n'),
    (':Game', 3, b'code -43\n'),
    (':D:Games', 3, b'code -43\n'),
    (':Games\\', 3, b'code -43\n'),
    (':Games\\6', 3, b'code -43\n'),
    (':G\\6gmes', 3, b'code -43\n'),
    ('D\\3aGames', 3, b'code -43\n'),
    (':G\u00e4mes', 3, b'code -43\n'),
    (':' + 'x' * 31, 3, b'code -43\n'),
    (':' + 'x' * 32, 3, b'code -43\n'),
    (':' + ':'.join(['Games'] * 5000), 3, b'code -43\n'),
]
# A path of the same, and what `cat` prints and ends with.
FORKS = [
    (':Games:m0', 0, b''),
    ('D:Games:Old:a\\5cb', 0, b''),
    (':-x', 0, b''),
    (': A~', 0, b''),
    ('D', 3, b'code -43\n'),
    (':', 3, b'code -43\n'),
    (':Games', 3, b'code -43\n'),
    (':Games:m1', 3, b'code -43\n'),
    (':Games:m0:x', 3, b'code -120\n'),
    ('E:Games:m0', 3, b'code -43\n'),
    (':Games:Old:a\\b', 3, b'code -43\n'),
]


def told(*words, given=None):
    """The status of the words, and what they print."""
    return ended(TOOL, words, given)[:2]


def want(found, wanted, words):
    if found != wanted:
        sys.exit(f'paths: {words} ends with {found[0]}, prints {found[1][:200]!r} in place of {wanted[0]}, {wanted[1][:200]!r}')


def want_each_way(image, words, wanted):
    """Wants this of words on an image by its path, as its first volume, and out of a pipe."""
    word, behind = words[0], words[1:]
    want(told(word, image, *behind), wanted, words)
    want(told(word, image, *behind, '--volume', 1), wanted, (*words, '--volume', 1))
    want(told(word, '/dev/stdin', *behind, given=image.read_bytes()), wanted, (*words, 'out of a pipe'))


def by_hand(folder):
    """Paths whose answers a hand wrote."""
    image, script = folder / 'hand.img', folder / 'script'
    script.write_bytes(SCRIPT)
    want(told('new', image, 'D', 400, 12, 2), (0, b''), 'new')
    status, _ = told('run', image, script, '--out', image)
    want((status, b''), (0, b''), 'run')
    for path, *wanted in LISTS:
        want_each_way(image, ('ls', f'--path={path}'), tuple(wanted))
    for path, *wanted in FORKS:
        for fork in ((), ('--resource',)):
            want_each_way(image, ('cat', f'--path={path}', *fork), tuple(wanted))
        if wanted[0]:
            want_each_way(image, ('cat', f'--path={path}', '--macbinary'), tuple(wanted))
    for words in (('ls', image, 2, '--path', ':'), ('cat', image, 2, 'm0', '--path', ':m0'), ('cat', image, 2, '--path', ':m0'), ('cat', image), ('ls', image, '--path')):
        want((told(*words)[0], b''), (1, b''), words)
    image.write_bytes(image.read_bytes()[:1000])
    want(told('ls', image, '--path', ':'), (2, b'image too short\n'), 'ls of a cut image')
    want(told('cat', image, '--path', ':x'), (2, b'image too short\n'), 'cat of a cut image')
    return len(LISTS) + len(FORKS)


def of_items(image):
    """For each item of a sound volume, its path and its name with and without escapes."""
    if told('check', image)[0]:
        return
    _, table = told('items', image)
    for line in table.decode('utf-8').splitlines():
        path, kind, item, parent = line.split('\t')[:4]
        name = re.sub(r'\\(..)', lambda it: chr(int(it[1], 16)), path.split(':')[-1])
        yield path, kind, item, parent, name


def swapped(path):
    """The path with letters of the other case, but for those of escapes."""
    return ''.join(part if part.startswith('\\') else part.swapcase() for part in re.split(r'(\\..)', path))


def as_by_ids(image):
    """Each item of a volume by its path, beside what is printed by its IDs and name."""
    count = 0
    for path, kind, item, parent, name in of_items(image):
        texts = (path, swapped(path), path[path.index(':'):] if ':' in path else ':')
        if kind == 'folder':
            by_id = told('ls', image, item)
            for text in texts:
                want(told('ls', image, '--path', text), by_id, (image.name, 'ls', text))
            want(told('cat', image, '--path', path), (3, b'code -43\n'), (image.name, 'cat', path))
        else:
            for text, fork in zip(texts, ((), ('--resource',), ('--macbinary',))):
                by_name = told('cat', image, *fork, parent, '--', name)
                want(told('cat', image, *fork, '--path', text), by_name, (image.name, 'cat', text, *fork))
            want(told('ls', image, '--path', path), (3, b'code -120\n'), (image.name, 'ls', path))
        count += 1
    return count


def main():
    with tempfile.TemporaryDirectory() as folder:
        folder = Path(folder)
        hand, items, volumes = by_hand(folder), 0, 0
        for packed in sorted([*VOLUMES.glob('*.img'), *VOLUMES.glob('small/*.img.gz')]):
            image, content = folder / f'taken-{packed.stem}', packed.read_bytes()
            image.write_bytes(gzip.decompress(content) if packed.suffix == '.gz' else content)
            if found := as_by_ids(image):
                items, volumes = items + found, volumes + 1
    print(f'{hand} paths by hand, {items} items of {volumes} volumes by their paths: all as by IDs and names')


main()
