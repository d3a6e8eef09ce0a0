#!/usr/bin/env python3
"""What `items`, `page`, `ls --path` and `cat --path` print of images that are refused, compared with the model of what `rescue` finds in tests/remains,
which shares no line with the program: the table in its three formats, the rows of folders, both forks of files by their paths, the
page with each item once and what is said of its forks, the status, and after them the image's fault on standard error; by the image's path and from a pipe. Of an image in which nothing is found,
the refusal alone. The images are those of tests/rescue.py, of which some have their rows by hand there, and volumes inside other files.
And what the other words answer of a refused image.

tests/refused_disks.py      runs $HFS_TOOL, or the program as it is built in crates/hfs_tool/out
"""
import csv
import json
import sys
import tempfile
import time
from pathlib import Path
from typing import Optional

import rescue
from driver.programs import ended
from driver.wanted import Difference, ensure
from remains.bag import COLUMNS, Remains, Rescued, Source, finder_of, plain, quoted, row_of
from remains.places import Item
from remains.runs import PATIENCE, PIPE, TOOL, Bench
from remains_pages import want_remains
from volumes import WRAPPINGS
from volumes import found as volumes_in

# How many folders and files of an image are asked for by their paths.
MOST_PATHS = 10
NUMBERS = ('id', 'parent', 'data_bytes', 'resource_bytes')
FLAGS = {'yes': True, 'no': False, '': None}


def ran(*words, given: Optional[bytes] = None) -> tuple[int, bytes, bytes]:
    """The status of the words, what they print, and what they write to standard error."""
    return ended(TOOL, words, given, PATIENCE)


def same(found: tuple[int, bytes, bytes], wanted: tuple[int, bytes, bytes], what: str) -> None:
    if found == wanted:
        return
    for one, other in zip(found[1].split(b'\n'), wanted[1].split(b'\n')):
        ensure(one == other, f'{what}: {one[:300]!r} in place of {other[:300]!r}')
    raise Difference(f'{what}: ends with {found[0]} and {found[2][:200]!r} in place of {wanted[0]} and {wanted[2][:200]!r}, {len(found[1])} bytes of {len(wanted[1])}')


class Shown:
    """What is to be shown of an image of which something remains."""

    def __init__(self, remains: Remains, checked: str):
        self.remains = remains
        self.status = remains.rescued(Source(checked)).status
        self.errors = (checked.splitlines()[0].removeprefix('refused ') + '\n').encode()

    def names(self, item: Item) -> list[bytes]:
        """The names that lead to an item, from the root's down; none where it is old or lost."""
        return [] if item.names is None else [self.remains.root_name, *item.names]

    def path(self, item: Item) -> str:
        return ':'.join(map(plain, self.names(item)))

    def fields(self, item: Item) -> list[str]:
        """The fields of its row, without the path below a bag's payload."""
        return next(csv.reader([row_of(item, self.remains.root_name)], strict=True))[:-1]

    def tabbed(self, item: Item) -> str:
        return '\t'.join(self.fields(item)) + '\n'

    def object(self, item: Item) -> str:
        told = {}
        for name, field in zip(COLUMNS, self.fields(item)):
            told[name] = (int(field) if field else None) if name in NUMBERS else FLAGS[field] if name == 'locked' else field or None
        told['path'] = ':'.join(it.decode('mac_roman') for it in self.names(item)) if self.names(item) else None
        if not item.is_folder:
            told['type'], told['creator'] = (finder_of(item)[at:at + 4].decode('mac_roman') for at in (0, 4))
        return json.dumps(told, ensure_ascii=False, separators=(',', ':')) + '\n'

    def table(self, how: str) -> bytes:
        items = self.remains.items
        if how == 'csv':
            return (','.join(COLUMNS[:-1]) + '\r\n' + ''.join(','.join(map(quoted, self.fields(it))) + '\r\n' for it in items)).encode()
        return ''.join((self.tabbed if how == 'tab' else self.object)(it) for it in items).encode()

    def folder(self, path: str) -> tuple[int, bytes]:
        """The status and the rows of the folder that the first item with a path is."""
        at = next((it for it in self.remains.items if path and self.path(it) == path), None)
        if at is None or not at.is_folder:
            return 3, b'code -43\n' if at is None else b'code -120\n'
        first = next((it for it in self.remains.items if it.is_folder and it.id == at.id and (at.id != 2 or it.parent == 1)), None)
        inside = [it for it in self.remains.items if first is at and it.parent == at.id and it.names]
        return self.status, ''.join(map(self.tabbed, inside)).encode()

    def fork(self, path: str, which: int) -> tuple[int, bytes]:
        """The status and the bytes of a fork of the file that the first item with a path is."""
        at = next((it for it in self.remains.items if path and self.path(it) == path), None)
        if at is None or at.is_folder:
            return 3, b'code -43\n'
        fork = self.remains.forks[at.number][which]
        return 0 if fork.verdict == 'whole' else 3, fork.bytes


class Refused(Bench):
    """A folder in which images that are refused are shown."""

    shown = tables = pages = paths = nothing = 0

    def attempt(self, content: bytes, what: str, bags: str = 'fp', lists: str = 'fp', limit: Optional[int] = None, has_digest: bool = True) -> Rescued:
        """Wants of the program what the model tells of an image. Gives what `rescue` prints of it by the model."""
        content = bytes(content)
        self.number += 1
        image = self.folder / f'image-{self.number}'
        image.write_bytes(content)
        checked, remains = self.checked(image), Remains(content)
        self.show(image, content, remains, checked, what)
        image.unlink()
        return Remains(content, limit).rescued(Source(checked, image.name, None, has_digest))

    def show(self, image: Path, content: bytes, remains: Remains, checked: str, what: str, words: tuple = ()) -> None:
        if checked.startswith('sound'):
            return
        self.shown += 1
        ways = ((image, None), (PIPE, content))
        if remains.directory is None:
            self.nothing += 1
            for source, given in ways:
                for asked in (('items', source), ('ls', source, '--path', ':'), ('cat', source, '--path', ':x')):
                    same(ran(*asked, *words, given=given), (2, checked.removeprefix('refused ').encode(), b''), f'{what}: {asked}')
            status, page, errors = ran('page', image, *words)
            ensure(status == 2 and b'<h1>Refused</h1>' in page and not errors, f'{what}: the page of nothing ends with {status}')
            return
        shown = Shown(remains, checked)
        for n, how in enumerate(('tab', 'csv', 'json')):
            source, given = ways[(self.number + n) % 2]
            same(ran('items', source, '--format', how, *words, given=given), (shown.status, shown.table(how), shown.errors), f'{what}: items --format {how}')
            self.tables += 1
        self.show_page(image, content, shown, what, words)
        self.show_paths(image, content, shown, what, words)

    def show_page(self, image: Path, content: bytes, shown: Shown, what: str, words: tuple) -> None:
        """Wants of the page of an image each item once, with what is said of its forks."""
        source, given, name = ((image, None, image.name), (PIPE, content, 'stdin'))[self.number % 2]
        status, page, errors = ran('page', source, *words, given=given)
        ensure((status, errors) == (shown.status, shown.errors), f'{what}: page ends with {status} and {errors[:200]!r}')
        try:
            want_remains(page, name, shown.remains, shown.errors.decode().removesuffix('\n'))
        except Difference as differs:
            raise Difference(f'{what}: on the page {differs}') from differs
        self.pages += 1

    def show_paths(self, image: Path, content: bytes, shown: Shown, what: str, words: tuple) -> None:
        items = shown.remains.items
        for it in [*(it for it in items if it.is_folder)][:MOST_PATHS] + [it for it in items if not it.is_folder][:2]:
            path = shown.path(it)
            if '\0' not in path and path:
                source, given = ((image, None), (PIPE, content))[self.paths % 2]
                same(ran('ls', source, f'--path={path}', *words, given=given), (*shown.folder(path), shown.errors), f'{what}: ls {path!r}')
                self.paths += 1
        for it in [*(it for it in items if not it.is_folder)][-MOST_PATHS:] + [it for it in items if it.is_folder][:2]:
            path = shown.path(it)
            for which, fork in enumerate(((), ('--resource', ))):
                if path:
                    source, given = ((image, None), (PIPE, content))[self.paths % 2]
                    same(ran('cat', source, f'--path={path}', *fork, *words, given=given), (*shown.fork(path, which), shown.errors), f'{what}: cat {path!r} {fork}')
                    self.paths += 1
        for path in (':no such item', shown.path(items[0]) + ':' if items else 'x', plain(items[-1].name) if items else 'y'):
            same(ran('cat', image, f'--path={path}', *words), (*shown.fork(path, 0), shown.errors), f'{what}: cat {path!r}')


def try_volumes(bench: Refused) -> None:
    """A refused volume inside another file is shown as its bytes by themselves."""
    laid = rescue.small_volume('OneFile')
    named = rescue.with_bytes(laid, (rescue.place_of(laid, rescue.key(2, b'f')) + 7, b'\x8e'))
    for _, wrap in WRAPPINGS:
        content = wrap(named)
        path = bench.folder / 'file'
        path.write_bytes(content)
        for number, (_, start, size, _) in enumerate(volumes_in(content), 1):
            volume = rescue.looked_into(content)[0][start:start + size]
            checked = bench.told('check', path, '--volume', number)[1].decode()
            bench.show(path, content, Remains(volume), checked, f'volume {number}', ('--volume', number))
        path.unlink()


def try_others(bench: Refused) -> None:
    """What the other words answer of an image with a name that isn't taken, as before."""
    laid = rescue.small_volume('OneFile')
    image, bag = bench.folder / 'named', bench.folder / 'bag'
    image.write_bytes(rescue.with_bytes(laid, (rescue.place_of(laid, rescue.key(2, b'f')) + 7, b'\x8e')))
    script = bench.folder / 'script'
    script.write_text('1\tlist\t2\n')
    line = b'check C7 at 2\n'
    for words in (('ls', image), ('ls', image, 2), ('cat', image, 2, 'f'), ('cat', image, '--path', 'D:\u00e9', '--macbinary'), ('run', image, script), ('take', image, bag)):
        same(ran(*words), (2, line, b''), f'{words[0]} of a refused image')
    for words in (('check', image), ('repair', image, bag)):
        same(ran(*words), (2, b'refused ' + line, b''), f'{words[0]} of a refused image')
    ensure(not bag.exists(), 'a refused image is taken')
    ensure(ran('info', image)[0] == 0, 'info of a refused image')
    image.unlink()


PARTS = {'worked': rescue.try_worked, 'cases': rescue.try_cases, 'damages': rescue.try_damages, 'listed': rescue.try_listed, 'volumes': try_volumes, 'others': try_others}


def main() -> int:
    if not Path(TOOL).is_file():
        print(f'{TOOL} is not built')
        return 1
    begin = time.monotonic()
    with tempfile.TemporaryDirectory() as folder:
        bench = Refused(Path(folder))
        for part in sys.argv[1:] or PARTS:
            try:
                PARTS[part](bench)
            except Difference as differs:
                print(f'what is shown of a refused disk differs, {part}: {differs}')
                bench.keep(Path('rescue.kept'))
                return 1
    print(f'{bench.shown} refused images ({bench.nothing} in which nothing is found), {bench.tables} tables, {bench.pages} pages and {bench.paths} paths are shown as they are to be, in {time.monotonic() - begin:.0f} s')
    return 0


if __name__ == '__main__':
    sys.exit(main())
