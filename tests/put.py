#!/usr/bin/env python3
"""Tests that `put` does what its rules say: which items folders and files make, under which names, with which facts and forks; what is printed of those
that can't be put; and that nothing is written then. The rules are written again in Python (driver/sources.py, driver/putting.py), and what FILE is to be
is what `run` makes by the calls that they give. By hand on small trees and volumes, and of random trees on random volumes; volumes of other
programs, and in other files; a disk taken apart and put together again. What was put is read back by `items`, `take` and `check`, and by hfsutils and
fsck.hfs if these are installed; AppleDouble and MacBinary files of hfsutils and unar are put. Then sources that change or can't be read while
they are written, full disks, few open files, and runs that are killed: FILE is the old one or whole.

tests/put.py [--lists N] [--seed WORD] [--large]      runs $HFS_TOOL, or the program as it is built in crates/hfs_tool/out

It prints how many runs there were; at a difference it says which, and ends with status 1. What isn't installed is skipped and named.
"""
import argparse
import csv
import io
import os
import random
import shutil
import socket
import subprocess
import sys
import time
from dataclasses import dataclass
from pathlib import Path

from driver.calls import FOLDER_FULL, Answer, Call, read_answers, script_of
from driver.image import MDB, Image
from driver.programs import MEASURED, REAL_VOLUMES, Program, built
from driver.putting import Disk, Placed
from driver.sources import DATES, FINDER, LONGEST, RESOURCE, CannotRead, NotText, Walk, apple_double, letters_of, mac_binary, read_mac_binary
from driver.wanted import agrees_in_a_folder, ensure
from forks import Shape, ensure_no_new_faults, in_larger_blocks, scattered
from inside import with_volume
from volumes import WRAPPINGS, content, found, turned_sum

NOW = 3_000_000_000
# The most bytes of a script.
SCRIPT_LIMIT = 16_777_216
# The Finder bytes of an item by hand, and those of a MacBinary file, which has the first half of them.
FINDER_BYTES = bytes.fromhex('54455854747478744101010203040506101112131415161718191a1b1c1d1e1f')
# The year 2000, by the clock of Unix.
YEAR_2000 = 946_684_800
ZEROS = '00' * 32
SECOND = 10**9


@dataclass(frozen=True)
class Link:
    """A link on the host, and where it leads to."""
    to: str


class Fifo:
    """A pipe on the host that has a name."""


@dataclass(frozen=True)
class Dated:
    """What lies on the host, with its time in nanoseconds since 1970."""
    what: object
    time: int


def lay(path, what) -> None:
    """Lays what is to come on the host: bytes, or a length of zeros, are a file, names with what has them a folder."""
    path = Path(os.fsdecode(path))
    if isinstance(what, Dated):
        lay(path, what.what)
        os.utime(path, ns=(what.time, what.time), follow_symlinks=False)
    elif isinstance(what, dict):
        path.mkdir()
        for name, one in what.items():
            lay(path / os.fsdecode(name), one)
    elif isinstance(what, Link):
        path.symlink_to(what.to)
    elif isinstance(what, Fifo):
        os.mkfifo(path)
    elif isinstance(what, int):
        with open(path, 'wb') as file:
            file.truncate(what)
    else:
        path.write_bytes(what)


def double(finder: bytes = FINDER_BYTES, resource: bytes = b'RES') -> bytes:
    """An AppleDouble file as `take` lays them out."""
    return apple_double((FINDER, finder), (RESOURCE, resource))


def path_text(path: str) -> str:
    """A path as it is printed."""
    return ''.join(f'\\{it:02x}' if it < 32 or it in (92, 127) else chr(it) for it in path.encode()).encode('latin-1').decode()


@dataclass
class Options:
    """How a list is put: the words, and what they mean."""
    to: str = ''
    target: int = 2
    macbinary: bool = False
    replace: bool = False
    rename: bool = False

    @property
    def words(self) -> list[str]:
        flags = [f'--{it}' for it in ('macbinary', 'replace', 'rename') if getattr(self, it)]
        return flags + (['--to', self.to] if self.to else [])


def why_refused(answer: Answer, placed: Placed) -> str:
    """Why the first call that is refused is. Nothing is told of the items after its own."""
    if not answer.is_wanting:
        return f'code {answer.code}'
    return answer.value if answer.value.startswith('full') else f'room {placed.disk.image.free_blocks} {placed.wanted_blocks}'


class Bench:
    """A folder of its own, in which the program runs, and how much was tried."""

    def __init__(self):
        self.tool = Program('hfs_tool', built('hfs_tool'))
        self.runs, self.came, self.skipped = 0, 0, []
        self.image, self.out, self.script = Path('image'), Path('out'), Path('script')

    # ---- runs

    def run(self, *words, given=None) -> tuple[int, str]:
        """How the program ends, and what it prints."""
        self.runs += 1
        ran = self.tool.run(*words, given=given)
        return ran.status, ran.text.encode('latin-1').decode()

    def text(self, *words) -> str:
        status, text = self.run(*words)
        ensure(status == 0, f'{words} ends with {status}: {text[:200]}')
        return text

    def new(self, blocks: int, nodes: int = 40, extents: int = 4, calls=(), name: str = 'D') -> bytes:
        """A new volume, behind these calls."""
        path = Path('new')
        self.text('new', path, '--now', 0, '--', name, blocks, nodes, extents)
        return self.changed(path.read_bytes(), calls) if calls else path.read_bytes()

    def changed(self, image: bytes, calls, now: int = 0) -> bytes:
        """A volume behind calls that are all accepted."""
        answers, saved = self.made(image, calls, now)
        ensure(all(it.is_done for it in answers), f'a call is refused: {[it.told for it in answers if not it.is_done][:1]}')
        return saved

    def made(self, image: bytes, calls, now: int):
        """The answers to calls, by as many scripts as they take, and the volume behind them."""
        made, answers, lines = Path('made'), [], [script_of([it]) for it in calls]
        made.write_bytes(image)
        while lines or not answers:
            size, count = 0, 0
            while count < len(lines) and size + len(lines[count]) <= SCRIPT_LIMIT:
                size, count = size + len(lines[count]), count + 1
            self.script.write_text(''.join(lines[:count]), 'latin-1')
            answers += read_answers(self.text('run', made, self.script, '--now', now, '--out', made))
            lines = lines[count:]
            if not calls:
                break
        return answers, made.read_bytes()

    def lay(self, name: str, content: bytes) -> Path:
        path = Path(name)
        path.write_bytes(content)
        return path

    def rows(self, path) -> dict[str, dict]:
        table = list(csv.DictReader(io.StringIO(self.text('items', path, '--format', 'csv'), newline='')))
        rows = {row['path']: row for row in table}
        ensure(len(rows) == len(table), 'two rows of one path')
        return rows

    # ---- what is wanted

    def wanted(self, image: bytes, sources, how: Options):
        """What is told of a list, how the program ends, and then the list with its places and the image, where it is put."""
        try:
            items = Walk(how.macbinary, how.rename).over(sources)
        except CannotRead as fault:
            return 4, f'cannot read {path_text(str(fault))}\n', None, None
        except NotText as fault:
            return 3, f'cannot put {path_text(str(fault))}: a name in it is not UTF-8\n', None, None
        placed = Placed.on(Disk.of(image), items, how.target, how.replace)
        if placed.refused:
            lines = [f'cannot put {path_text(it.told)}: {it.why}\n' for it in placed.refused]
            more = [f'and {len(lines) - 100} more\n'] if len(lines) > 100 else []
            return 3, ''.join(lines[:100] + more), None, None
        calls = placed.calls()
        answers, saved = self.made(image, [call for call, _ in calls], NOW)
        for answer, (_, item) in zip(answers, calls):
            if not answer.is_done:
                ensure(answer.is_wanting or answer.code == str(FOLDER_FULL), f'{item.path}: {answer.told}')
                return 3, f'cannot put {path_text(item.path)}: {why_refused(answer, placed)}\n', None, None
        return 0, placed.lines, placed, saved

    def puts(self, what: str, image: bytes, sources, how: Options = Options()) -> bytes:
        """Wants of a list on a volume what the rules say. The volume behind it: the old one where nothing is put."""
        status, text, placed, saved = self.wanted(image, sources, how)
        found = self.put(image, sources, how)
        ensure(found == (status, text), f'{what}: {found[0]}, {first_difference(found[1], text)}')
        ensure(self.image.read_bytes() == image, f'{what}: IMAGE is changed')
        if placed is None:
            ensure(not self.out.exists(), f'{what}: FILE is written')
            return image
        self.ensure_put(what, image, placed, saved)
        return saved

    def put(self, image: bytes, sources, how: Options, *more) -> tuple[int, str]:
        self.image.write_bytes(image)
        self.out.unlink(missing_ok=True)
        found = self.run('put', self.image, *sources, '--out', self.out, '--now', NOW, *how.words, *more)
        ensure(not list(Path().glob('*.new')), 'put leaves a file')
        return found

    def tells(self, what: str, image: bytes, sources, lines: str, how: Options = Options(), status: int = 3) -> None:
        """Wants these lines, which are by hand, and nothing written; the rules say the same."""
        ensure(self.wanted(image, sources, how)[:2] == (status, lines), f'{what}: the rules say {self.wanted(image, sources, how)[1]!r}')
        self.puts(what, image, sources, how)

    def ensure_put(self, what: str, image: bytes, placed: Placed, saved: bytes) -> None:
        """Wants that FILE is what the calls make, and that all comes back from it."""
        out = self.out.read_bytes()
        ensure(out == saved, f'{what}: FILE differs from what the calls make, from byte {first_place(out, saved)}')
        report = dict(line.split(' ') for line in self.text('check', self.out).splitlines()[1:])
        rows, wanted = self.rows(self.out), placed.rows_after(self.rows(self.image), NOW)
        for path in {**wanted, **rows}:
            ensure(rows.get(path) == wanted.get(path), f'{what}: the row of {path} is {rows.get(path)}, wanted {wanted.get(path)}')
        kinds = [row['kind'] for row in wanted.values()]
        ensure((report['files'], report['folders']) == (str(kinds.count('file')), str(kinds.count('folder') - 1)), f'{what}: check counts {report}')
        ensure(report['free'] == placed.lines.split()[-1], f'{what}: check finds {report["free"]} free blocks')
        self.ensure_forks(what, placed)
        ensure_no_new_faults(self, image, saved)
        self.came += len(placed.items)

    def ensure_forks(self, what: str, placed: Placed) -> None:
        """Wants that `take` takes off each file the forks that came."""
        bag = Path('taken')
        shutil.rmtree(bag, ignore_errors=True)
        self.text('take', self.out, bag, '--no-digest')
        with open(bag / 'items.csv', encoding='utf-8', newline='') as file:
            places = {row['id']: bag / 'data' / row['bag_path'] for row in csv.DictReader(file)}
        for number, item in zip(placed.numbers(), placed.items):
            if not item.is_folder:
                path = places[str(number)]
                ensure(path.read_bytes() == item.data.read(), f'{what}: the data fork of {item.path}')
                ensure(path.with_name(f'._{path.name}').read_bytes()[82:] == item.resource.read(), f'{what}: the resource fork of {item.path}')


def first_difference(told: str, wanted: str) -> str:
    for one, other in zip(told.splitlines(), wanted.splitlines()):
        if one != other:
            return f'{one!r} in place of {other!r}'
    return f'{len(told.splitlines())} lines in place of {len(wanted.splitlines())}'


def first_place(one: bytes, other: bytes) -> int:
    return next((at for at, (a, b) in enumerate(zip(one, other)) if a != b), min(len(one), len(other)))


# ---- by hand

def line(*fields) -> str:
    return '\t'.join(map(str, fields)) + '\n'


def by_hand(bench: Bench) -> None:
    """A small tree on a small volume: each line and each byte is written here."""
    lay('tree', {'.DS_Store': b'x', '._.DS_Store': b'y', 'a': Dated(b'hello', YEAR_2000 * SECOND + SECOND - 1), '._a': double(),
                 'sub': {'=2Ex': Dated(b'', 0)}, '._sub': double(b'\1' * 32, b'')})
    os.utime('tree/sub', ns=(-1, -1))
    os.utime('tree', ns=(SECOND, SECOND))
    small = bench.new(64, 40, 2)
    bench.puts('a tree by hand', small, ['tree'])
    ensure(bench.put(small, ['tree'], Options()) == (0, 'put\nfiles 2\nfolders 2\nbytes 8\nfree 14\n'), 'what is told by hand')
    first, second, before = '1970-01-01T00:00:01', '2000-01-01T00:00:00', '1969-12-31T23:59:59'
    ensure(bench.text('items', 'out') == ''.join((
        line('D', 'folder', 2, 1, '', '', '0000', '', '', '', '1999-01-24T05:20:00', '', 1, '', '', ZEROS),
        line('D:tree', 'folder', 16, 2, '', '', '0000', '', '', first, first, '', 2, '', '', ZEROS),
        line('D:tree:a', 'file', 17, 16, 'TEXT', 'ttxt', '4101', 'no', 'no', second, second, '', '', 5, 3, FINDER_BYTES.hex()),
        line('D:tree:sub', 'folder', 18, 16, '', '', '0101', '', '', before, before, '', 1, '', '', '01' * 32),
        line('D:tree:sub:.x', 'file', 19, 18, *2 * [r'\00\00\00\00'], '0000', 'no', 'no', *2 * ['1970-01-01T00:00:00'], '', '', 0, 0, ZEROS))),
        'the table by hand')
    ensure(bench.text('cat', 'out', 16, 'a') + bench.text('cat', 'out', 16, 'a', '--resource') == 'helloRES', 'both forks by hand')
    out = Path('out').read_bytes()
    # the blocks that come first are 42 and 43, behind the six of the volume's beginning
    ensure(out[46 * 512:48 * 512] == b'hello'.ljust(512, b'\0') + b'RES'.ljust(512, b'\0'), 'the blocks of both forks by hand')
    ensure(bench.put(small, ['tree/a', 'tree/sub'], Options()) == (0, 'put\nfiles 2\nfolders 1\nbytes 8\nfree 14\n'), 'a file and a folder as sources')
    bench.puts('a file and a folder as sources', small, ['tree/a', 'tree/sub/'])
    ensure(bench.put(small, ['tree/sub/=2Ex'], Options()) == (0, 'put\nfiles 1\nfolders 0\nbytes 0\nfree 16\n'), 'an empty file as a source')
    bench.image.write_bytes(small)
    ensure(bench.run('put', '/dev/stdin', 'tree', '--out', 'piped', '--now', NOW, given=small)[0] == 0 and Path('piped').read_bytes() == out,
           'an image out of a pipe')


GOOD_DOUBLES = {
    'as take lays it': double(),
    'of macOS': apple_double((FINDER, FINDER_BYTES + bytes(3728)), (RESOURCE, b'This resource fork intentionally left blank'), filler=b'Mac OS X        '),
    'of Netatalk': apple_double((3, b'name'), (4, b''), (DATES, bytes.fromhex('ffffffff7fffffff8000000000000000')), (FINDER, FINDER_BYTES), (10, bytes(4)),
                                (RESOURCE, b'R' * 700), gap=90),
    'dates alone': apple_double((DATES, bytes.fromhex('0000000000000001800000007fffffff'))),
    'dates before 2000': apple_double((DATES, b'\x80\0\0\1' * 4)),
    'dates behind the last': apple_double((DATES, b'\x7f\xff\xff\xff' * 4)),
    'half of the dates': apple_double((DATES, bytes(15))),
    'a type alone': apple_double((FINDER, b'TEXT')),
    # as vfs_fruit of Samba 4.17 laid it
    'of Samba': apple_double((RESOURCE, b'RES'), (FINDER, FINDER_BYTES), filler=b'Netatalk        ', laid=[1, 0]),
    'parts that are there twice': apple_double((FINDER, FINDER_BYTES), (FINDER, bytes(32)), (RESOURCE, b'1'), (RESOURCE, b'22')),
    'no parts': apple_double(),
    'a resource fork alone': apple_double((RESOURCE, b'R' * 70_000)),
}
BAD_DOUBLES = {
    'of no bytes': b'', 'of another number': b'\1' + double()[1:], 'of AppleSingle': double()[:3] + b'\0' + double()[4:],
    'of version 1': double()[:5] + b'\1' + double()[6:], 'cut in a part': double()[:-1], 'cut in the head': double()[:25],
    'of more parts': double()[:25] + b'\7' + double()[26:50],
}


def of_doubles(bench: Bench) -> None:
    """AppleDouble files of several layouts, beside a file, beside a folder, and by themselves; and what isn't one."""
    disk = bench.new(1600)
    for name, content in GOOD_DOUBLES.items():
        lay(f'good {name}', {'file': b'bytes', '._file': content, 'folder': {}, '._folder': content, '._alone': Dated(content, 5 * SECOND)})
        bench.puts(f'AppleDouble {name}', disk, [f'good {name}'])
        bench.puts(f'AppleDouble {name}, as sources', disk, [f'good {name}/._alone', f'good {name}/file', f'good {name}/folder'])
    for name, content in BAD_DOUBLES.items():
        lay(f'bad {name}', {'file': b'bytes', '._file': content, 'folder': {'x:y': b''}, '._folder': content, '._alone': content})
        lines = ''.join(f'cannot put bad {name}/._{it}: not AppleDouble\n' for it in ('alone', 'file', 'folder'))
        bench.tells(f'AppleDouble {name}', disk, [f'bad {name}'], lines)
        bench.tells(f'AppleDouble {name}, as a source', disk, [f'bad {name}/file'], f'cannot put bad {name}/._file: not AppleDouble\n')
    lay('no doubles', {'a': b'', '._a': {}, '._b': Link('a'), 'c': b'', '._c': Fifo()})
    bench.tells('what is no file', disk, ['no doubles'], ''.join(f'cannot put no doubles/._{it}: not AppleDouble\n' for it in 'abc'))
    lay('._lost', double())
    bench.tells('a source that is not there', disk, ['lost'], 'cannot read lost\n', status=4)


def of_mac_binary(bench: Bench) -> None:
    """MacBinary files, which are taken apart where that is asked for; and what isn't one."""
    disk, info, both = bench.new(1600), FINDER_BYTES[:16], (b'D' * 1000, b'R' * 129)
    whole = mac_binary(b'A name', info, *both, locked=True, dates=(1, 4_294_967_295))
    good = {'whole.bin': whole, 'third': mac_binary(b'III', info, *both, version=130), 'header': mac_binary(b'second', info, *both, second=b'2' * 200),
            'empty': mac_binary(b'empty', bytes(16)), 'data': mac_binary(b'data', info, b'D' * 128), 'resource': mac_binary(b'resource', info, b'', b'R')}
    bad = {'longer': whole + bytes(128), 'cut': whole[:-128], 'check': whole[:126].replace(b'name', b'Name') + whole[126:], 'first': b'\1' + whole[1:],
           'version': mac_binary(b'I', info, *both, version=128), 'short': whole[:127], 'no name': mac_binary(b'', info, *both)}
    lay('binaries', good | bad | {'._data': b'not AppleDouble', '._check': double(), '._third': double()})
    for macbinary in (True, False):
        how = Options(macbinary=macbinary)
        bench.puts(f'MacBinary, {macbinary}', disk, ['binaries'], how)
        for name in (*good, *bad):
            bench.puts(f'MacBinary {name}, {macbinary}', disk, [f'binaries/{name}'], how)
    status, _ = bench.put(disk, ['binaries/whole.bin'], Options(macbinary=True))
    ensure(status == 0 and bench.text('items', 'out').splitlines()[1] == line(
        'D:A name', 'file', 16, 2, 'TEXT', 'ttxt', '4101', 'yes', 'no', '1904-01-01T00:00:01', '2040-02-06T06:28:15', '', '', 1000, 129,
        FINDER_BYTES[:16].hex() + '00' * 16)[:-1], 'a MacBinary file by hand')
    lay('named binaries', {'1': mac_binary(b'x:y', info), '2': mac_binary(b'n' * 32, info), '3': mac_binary(b'=41', info), '4': mac_binary(b'a\x8e', info)})
    bench.tells('names of MacBinary files', disk, ['named binaries'], ''.join(f'cannot put named binaries/{it}: name\n' for it in '124'), Options(macbinary=True))
    bench.puts('names of MacBinary files, changed', disk, ['named binaries'], Options(macbinary=True, rename=True))


NAMES = {
    # on the host, and on the disk; none where it is no item name, with the one that it gets by --rename
    'plain': 'plain', '=41': 'A', '=2Ex': '.x', '=2F=5C=22': '/\\"', 'con.c': 'con.c', '=63on': 'con', 'e=20': 'e ', '=3D=3': '==3', '=2f': '=2f', '=G1': '=G1',
    '=': '=', '50=25': '50%', ' ': ' ', '~': '~', 'n' * 31: 'n' * 31, '=6E' * 31: 'N' * 31, "A,b'?*<>|&;$(x)": "A,b'?*<>|&;$(x)",
}
NO_NAMES = {
    'x:y': 'x_y', 'x=3Ay': 'x_Y', 'a`b': 'a_b', 'é': '_', 'n=8E': 'n_', '☃ and 雪': '_ and _', 'tab\there': 'tab_here', 'back=7F': 'back_', 'o' * 32: 'o' * 31,
    '=00': '_', 'line\nfeed': 'line_feed', '=6F' * 32: 'o' * 31, 'e\u0301': 'e_', 'p' * 31 + ':': 'p' * 31,
}


def of_names(bench: Bench) -> None:
    """Names on the host and on the disk; which of two is told; and the order in which they come."""
    disk = bench.new(1600)
    lay('names', {name: b'' for name in NAMES if name != '=6E' * 31})
    bench.puts('names', disk, ['names'])
    names = [it.split('\t')[-1] for it in bench.text('ls', 'out', 16).splitlines()]
    ensure(sorted(names) == sorted(NAMES[it] for it in NAMES if it != '=6E' * 31), f'names by hand: {names}')
    lay('no names', {name: b'' for name in NO_NAMES})
    order = sorted(NO_NAMES, key=lambda it: it.encode())
    bench.tells('no names', disk, ['no names'], ''.join(f'cannot put no names/{path_text(it)}: name\n' for it in order))
    for name, wanted in NO_NAMES.items():
        source = f'no names/{name}'
        bench.tells(f'no name: {name}', disk, [source], f'cannot put {path_text(source)}: name\n')
        bench.puts(f'no name, changed: {name}', disk, [source], Options(rename=True))
        ensure(bench.text('ls', 'out').split('\t')[-1] == wanted.replace('_Y', '_y') + '\n', f'the name of {name} by --rename')
    lay('twins', {'A': b'1', 'a': b'2', 'ab': {}, 'a=62': b'3', 'é': b'4', 'ü': b'5', 'q' * 31: b'', 'q' * 32: b'', 'Z': Fifo(), 'z': b''})
    bench.tells('twins', disk, ['twins'], '\n'.join(f'cannot put twins/{it}' for it in (
        'Z: not a file', 'a: two of one name', 'ab: two of one name', f'{"q" * 32}: name', 'z: two of one name', 'é: name', 'ü: name')) + '\n')
    bench.tells('twins, changed', disk, ['twins'], '\n'.join(f'cannot put twins/{it}' for it in (
        'Z: not a file', 'a: two of one name', 'ab: two of one name', f'{"q" * 32}: two of one name', 'z: two of one name', 'ü: two of one name')) + '\n', Options(rename=True))
    lay('one', {'x': b'1'})
    lay('two', {'X': b'2'})
    bench.tells('sources of one name', disk, ['one/x', 'two/X', 'one'], 'cannot put two/X: two of one name\n')
    lay('order', {'b': b'', 'C': {'z': b'', 'a': b''}, '=64': b'', 'B~': {}, '._a!': double(), '._b': double()})
    bench.puts('the order of what comes', disk, ['order', 'one/x'])
    paths = sorted((int(it.split('\t')[2]), it.split('\t')[0]) for it in bench.text('items', 'out').splitlines()[1:])
    ensure([path for _, path in paths] == ['D:order', 'D:order:d', 'D:order:B~', 'D:order:C', 'D:order:C:a', 'D:order:C:z', 'D:order:a!', 'D:order:b', 'D:x'],
           f'the order of what comes, by hand: {paths}')


def of_each_byte(bench: Bench) -> None:
    """Names with each byte, spelled by digits and as a character, and by itself, which isn't UTF-8."""
    disk = bench.new(1600)
    lay('bytes', {f'{it:03}={it:02X}': b'' for it in range(256)})
    lay('characters', {f'{it:03}{bytes([it]).decode("mac_roman")}': b'' for it in range(1, 256) if it != ord('/')})
    named = [it for it in range(32, 127) if it not in b':`']
    for folder, spelled in (('bytes', lambda it: f'{it:03}={it:02X}'), ('characters', lambda it: f'{it:03}{bytes([it]).decode("mac_roman")}')):
        others = [it for it in range(folder == 'characters', 256) if it not in named]
        lines = [f'cannot put {folder}/{path_text(spelled(it))}: name\n' for it in others]
        bench.tells(f'names of each byte in {folder}', disk, [folder], ''.join(lines[:100]) + f'and {len(lines) - 100} more\n')
        bench.puts(f'names of each byte in {folder}, changed', disk, [folder], Options(rename=True))
        bench.puts(f'names of each byte in {folder} that are some', disk, [f'{folder}/{spelled(it)}' for it in named if (folder, it) != ('characters', ord('/'))])
    for it in range(128, 256, 9):
        os.mkdir('raw byte')
        lay(os.fsencode('raw byte/') + bytes([it]), b'')
        found = bench.put(disk, ['raw byte'], Options(rename=True))
        ensure(found == (3, 'cannot put raw byte: a name in it is not UTF-8\n') and not bench.out.exists(), f'the byte {it} in a name: {found}')
        shutil.rmtree('raw byte')


def of_reasons(bench: Bench) -> None:
    """Each reason why an item can't be put, the first of several, and at most a hundred lines."""
    disk = bench.new(1600, calls=[Call.of('mkdir', 2, 'w'), Call.of('create', 16, 'old'), Call.of('create', 2, 'f'), Call.of('lock', 2, 'f'), Call.of('mkdir', 2, 'd'),
                                  Call.of('mkdir', 16, 'in')])
    large = double()[:46] + (1 << 31).to_bytes(4, 'big') + bytes(32)
    lay('w', {'A': b'', 'a': b'', 'b': b'', '._b': b'no', 'bad=00': {'x:y': b''}, 'c': Fifo(), 'e': Link('A'), 'g': LONGEST + 1, 'h': b'', '._h': large,
              'in': {'x:y': b'', 'new': b''}, 'na=3Ame': b'', 'old': b'', 'x:y': Fifo(), '._x:y': b'no', 'z:z': LONGEST + 1, '._z:z': b'no', 'zz:': b'', '._zz:': b'no',
              'link': Link('in'), 'nothing': Link('nowhere')})
    os.truncate('w/._h', 82 + (1 << 31))
    with socket.socket(socket.AF_UNIX) as server:
        server.bind('w/socket')
    bench.tells('each reason', disk, ['w'], '\n'.join(f'cannot put w/{it}' for it in (
        'a: two of one name', '._b: not AppleDouble', 'bad=00: name', 'c: not a file', 'e: not a file', 'g: too large', 'h: too large', 'in/x:y: name', 'link: not a file',
        'na=3Ame: name', 'nothing: not a file', 'old: code -48', 'socket: not a file', 'x:y: not a file', 'z:z: too large', '._zz:: not AppleDouble')) + '\n')
    for source in ('.', '..', '/', 'w/..', 'w/in/../..'):
        bench.tells(f'{source} as a source', disk, [source], f'cannot put {source}: name\n')
    bench.tells('a device as a source', disk, ['/dev/null', 'w/c'], 'cannot put /dev/null: not a file\ncannot put w/c: not a file\n')
    for source in ('w/e', 'w/link'):
        bench.puts(f'a link as a source: {source}', disk, [source], Options(rename=True))
    lay('kinds', {'f': {'x:y': b''}, 'd': b'', 'F': b''})
    for replaces in (False, True):
        how = Options(replace=replaces)
        bench.tells('a folder in the place of a file', disk, ['kinds/f', 'kinds/d'], 'cannot put kinds/f: code -48\ncannot put kinds/d: code -48\n', how)
    bench.tells('a file in the place of a file', disk, ['kinds/F'], 'cannot put kinds/F: code -48\n')
    bench.puts('a locked file that is replaced', disk, ['kinds/F'], Options(replace=True))
    ensure(bench.text('ls', 'out').splitlines()[1].split('\t')[-1] == 'F', 'the name of a file that is replaced')
    for count, more in ((99, ''), (100, ''), (101, 'and 1 more\n'), (250, 'and 150 more\n')):
        lay(f'm{count}', {f'{it:03}:': b'' for it in range(count)})
        lines = ''.join(f'cannot put m{count}/{it:03}:: name\n' for it in range(min(count, 100)))
        bench.tells(f'{count} lines', disk, [f'm{count}'], lines + more)
    for place in ('raw', 'raw/in', 'raw/in/no:name'):
        lay(place, {})
    lay(b'raw/in/\xff', b'')
    bench.tells('a name that is not UTF-8', disk, ['w', 'raw'], 'cannot put raw/in: a name in it is not UTF-8\n')
    bench.tells('a name that is not UTF-8, in a source', disk, ['raw/in'], 'cannot put raw/in: a name in it is not UTF-8\n')
    bench.tells('a source that is not there', disk, ['w/x:y', 'w/none', 'raw'], 'cannot read w/none\n', status=4)
    bench.tells('a source that is in a file', disk, ['w/A/x'], 'cannot read w/A/x\n', status=4)


# ---- places on the volume

def of_places(bench: Bench) -> None:
    """`--to`, folders that are there, files that are replaced, and locked volumes."""
    calls = [Call.of('mkdir', 2, 'sub'), Call.of('mkdir', 16, 'In It'), Call.of('setinfo', 16, 'In It', 1, 2, 3, 'ab' * 32), Call.of('create', 17, 'a'),
             Call.of('write', 17, 'a', 'data', 0, '61' * 600), Call.of('create', 17, 'b'), Call.of('lock', 17, 'b'), Call.of('create', 2, 'f')]
    disk = bench.new(1600, calls=calls)
    lay('in it', {'A': b'new', 'B': b'', '._B': double(), 'c': {'d': b''}})
    lay('free', {'x': b'1', 'y': {'z': b'2'}})
    for text, number in ((':sub', 16), ('D:sub', 16), (':SUB:in it', 17), (':', 2), ('D', 2)):
        bench.puts(f'--to {text}', disk, ['free'], Options(to=text, target=number))
    for text, code in ((':none', -43), (':sub:none', -43), ('E:sub', -43), (':f', -120), (':f:x', -120), (':none:x', -43)):
        bench.image.write_bytes(disk)
        for sources in (['free'], ['free/x', 'w']):
            found = bench.put(disk, sources, Options(to=text))
            ensure(found == (3, f'code {code}\n') and not bench.out.exists(), f'--to {text}: {found}')
            ensure(bench.run('ls', bench.image, '--path', text)[1] == f'code {code}\n' or text == ':f', f'ls --path {text}')
    bench.puts('a folder that is there', disk, ['in it'], Options(to=':sub', target=16, replace=True))
    bench.tells('files that are there', disk, ['in it'], 'cannot put in it/A: code -48\ncannot put in it/B: code -48\n', Options(to=':sub', target=16))
    rows = bench.rows('image')
    ensure(bench.put(disk, ['in it'], Options(to=':sub', replace=True))[0] == 0, 'a folder that is there')
    after = bench.rows('out')
    ensure({it: after['D:sub:In It'][it] for it in ('created', 'backup', 'finder')} == {it: rows['D:sub:In It'][it] for it in ('created', 'backup', 'finder')}
           and 'D:sub:in it' not in after and after['D:sub:In It:B']['locked'] == 'no' and after['D:sub:In It:A']['data_bytes'] == '3', 'what a folder keeps, by hand')
    for bits, code in ((0x0080, -44), (0x8000, -46), (0x8080, -44)):
        locked = bytearray(disk)
        locked[MDB + 10:MDB + 12] = (int.from_bytes(disk[MDB + 10:MDB + 12], 'big') | bits).to_bytes(2, 'big')
        for sources in (['free'], ['free/y', 'in it', 'w']):
            found = bench.put(bytes(locked), sources, Options())
            ensure(found == (3, f'cannot put {sources[0]}: code {code}\n') and not bench.out.exists(), f'a locked volume: {found}')


def to_the_end(content: bytes) -> bytes:
    """A new volume whose allocation blocks reach its last block, so that one lies under the alternate master directory block."""
    image, more = bytearray(content), 2
    for at in (18, 34):
        place = slice(MDB + at, MDB + at + 2)
        image[place] = (int.from_bytes(image[place], 'big') + more).to_bytes(2, 'big')
    return bytes(image)


def of_room(bench: Bench) -> None:
    """Want of blocks and of nodes: the numbers by hand, and nothing is written."""
    small = bench.new(64, 40, 2)
    lay('room', {'a': 8192, 'b': 1, 'c': b'', '._c': double()})
    bench.puts('all free blocks', small, ['room/a'])
    bench.tells('one block more', small, ['room/a', 'room/b'], 'cannot put room/b: room 16 17\n')
    bench.tells('three blocks more', small, ['room/b', 'room/c', 'room/a'], 'cannot put room/a: room 16 18\n')
    full = bench.changed(small, [Call.of('create', 2, 'a'), Call.of('seteof', 2, 'a', 'data', 8192)])
    bench.puts('a file of all blocks is replaced', full, ['room/a'], Options(replace=True))
    bench.tells('replaced by more', full, ['room/a', 'room/b'], 'cannot put room/b: room 0 17\n', Options(replace=True))
    under = to_the_end(small)
    lay('under', {'a': b'1' * 18 * 512})
    bench.puts('blocks under the alternate', under, ['under/a'])
    bench.tells('blocks under the alternate, and one more', under, ['room/b', 'under/a'], 'cannot put under/a: room 18 19\n')
    few = bench.new(400, 4, 2)
    lay('nodes', {f'{it:02}{"n" * 29}': b'' for it in range(40)})
    bench.puts('more items than the catalog has room for', few, ['nodes'])
    ensure(bench.put(few, ['nodes'], Options())[1].split(': ')[1][:5] == 'full ', 'want of nodes')
    last = bytearray(small)
    last[MDB + 30:MDB + 34] = 0xFFFF_FFFE.to_bytes(4, 'big')
    bench.puts('the last ID', bytes(last), ['room/b'])
    bench.tells('more items than IDs', bytes(last), ['room/b', 'room/c', 'under/a'], 'cannot put room/c: code -33\n')
    pieces = scattered(bench.new(1600, 40, 2), random.Random('pieces'), 0.5)
    lay('pieced', 600 * 512)
    bench.puts('more pieces than the extents tree has room for', pieces, ['pieced'])
    ensure(bench.put(pieces, ['pieced'], Options())[1].startswith('cannot put pieced: full '), 'want of nodes of the extents tree')


# ---- drawn trees on drawn volumes

SHAPES = (Shape(64, 40, 2, 1, 0), Shape(400, 40, 8, 1, 0.4), Shape(1600, 60, 12, 1, 0.3), Shape(1600, 60, 12, 4, 0.2), Shape(6000, 96, 24, 2, 0.3), Shape(6000, 96, 24, 8, 0.5))
DRAWN = [*NAMES, 'a', 'A', 'ab', 'a=62', 'b', 'Read Me', 'READ ME', 'c', 'd', 'f1', 'f2', 'sub', 'Sub 2', 'x.bin', '=2Ex']
STANDING = ('a', 'B', 'Sub', 'c', 'D', 'Plain', 'f1', 'From a binary', 'Read Me', '.x', 'x.bin', 'AB')
LENGTHS = (0, 0, 1, 3, 511, 512, 513, 1000, 2048, 5000, 65_535, 65_536, 65_537, 140_000)


class Drawing:
    """Draws what lies on a host; the same seed draws the same. Now and then something that can't be put, where that is wanted."""

    def __init__(self, draw: random.Random, faulty: float):
        self.draw, self.faulty = draw, faulty

    def bytes(self) -> bytes:
        return self.draw.randbytes(self.draw.choice(LENGTHS[:self.draw.choice((6, 9, 14))]))

    def time(self) -> int:
        return self.draw.choice((0, -1, SECOND - 1, YEAR_2000 * SECOND, self.draw.randrange(-2_000_000_000, 1 << 32) * SECOND + self.draw.randrange(SECOND)))

    def double(self) -> bytes:
        if self.draw.random() < self.faulty:
            return self.draw.choice(list(BAD_DOUBLES.values()))
        if self.draw.random() < 0.2:
            return self.draw.choice(list(GOOD_DOUBLES.values()))
        parts = [(FINDER, self.draw.randbytes(32)), (RESOURCE, self.bytes()), (DATES, self.draw.randbytes(16))]
        return apple_double(*self.draw.sample(parts, self.draw.randrange(1, 4)))

    def binary(self) -> bytes:
        draw = self.draw
        name = draw.choice((b'x:y', b'a\x8e')) if draw.random() < self.faulty else draw.choice((b'From a binary', b'b', b'x.bin'))
        return mac_binary(name, draw.randbytes(16), self.bytes(), self.bytes(), draw.random() < 0.3, (draw.randrange(1 << 32), draw.randrange(1 << 32)),
                          draw.choice((b'', b'2' * 40)), draw.choice((129, 130)))

    def faults(self):
        return self.draw.choice((Fifo(), Link('a'), Link('nowhere'), LONGEST + 1))

    def folder(self, depth: int) -> dict:
        names, laid = self.draw.sample(DRAWN, self.draw.randrange(7)), {}
        if self.draw.random() < self.faulty:
            names.append(self.draw.choice(list(NO_NAMES)))
        if self.faulty == 0:
            names = list({self.key(it): it for it in names}.values())
        for name in names:
            kind = self.draw.choice(('file', 'file', 'file', 'folder', 'binary', 'double'))
            if kind != 'double':
                what = self.folder(depth - 1) if kind == 'folder' and depth else self.binary() if kind == 'binary' else self.bytes()
                laid[name] = Dated(self.faults() if self.draw.random() < self.faulty / 3 else what, self.time())
            if kind == 'double' or self.draw.random() < 0.5:
                laid[f'._{name}'] = Dated(self.double(), self.time())
        if self.draw.random() < 0.2:
            laid |= {'.DS_Store': b'looks', '._.DS_Store': b'more'}
        return laid

    @staticmethod
    def key(name: str) -> str:
        return bytes(letters_of(name)).decode('latin-1').upper()

    def disk(self, bench: Bench) -> bytes:
        """A volume with some items that have the names of what may come."""
        shape, draw = self.draw.choice(SHAPES), self.draw
        content = bench.new(shape.blocks, shape.nodes, shape.extents_nodes, name=draw.choice(('D', 'A disk', 'Back\\slash')))
        content = scattered(in_larger_blocks(content, shape.factor) if shape.factor > 1 else content, draw, shape.marked)
        calls, folders, names, number = [], [2], set(), 16
        for name in ('tree', 'Tree', 'alone', *draw.choices(STANDING, k=draw.randrange(25))):
            folder = draw.choice(folders)
            if draw.random() < 0.4 or (folder, name.upper()) in names:
                continue
            names.add((folder, name.upper()))
            if draw.random() < (0.8 if name == 'tree' else 0.15):
                calls.append(Call.of('mkdir', folder, name))
                folders.append(number)
            else:
                calls += [Call.of('create', folder, name), Call.of('write', folder, name, 'data', 0, draw.randbytes(draw.randrange(700)).hex())]
                calls += [Call.of('lock', folder, name)] if draw.random() < 0.3 else []
            number += 1
        return bench.changed(content, calls) if calls else content


def of_drawn(bench: Bench, seed: str, lists: int) -> None:
    """Drawn trees on drawn volumes; each that was put is taken off again and put on an empty volume."""
    for number in range(lists):
        draw = random.Random(f'{seed} {number}')
        drawing = Drawing(draw, draw.choice((0, 0, 0, 0.05, 0.3)))
        what, folder = f'list {number} of seed {seed}', f'drawn {number}'
        disk = drawing.disk(bench)
        lay(folder, {'tree': drawing.folder(3), 'more': drawing.folder(1), 'alone': drawing.bytes(), '._alone': double()})
        sources = draw.sample([f'{folder}/tree', f'{folder}/more', f'{folder}/alone'], draw.randrange(1, 4))
        bench.image.write_bytes(disk)
        standing = [(path, int(row['id'])) for path, row in bench.rows(bench.image).items() if row['kind'] == 'folder']
        how = Options(macbinary=draw.random() < 0.5, replace=draw.random() < 0.7, rename=draw.random() < 0.4)
        if draw.random() < 0.3 and len(standing) > 1:
            how.to, how.target = draw.choice(standing)
        saved = bench.puts(what, disk, sources, how)
        if saved != disk and number % 4 == 0:
            returns(bench, what, saved)
        shutil.rmtree(folder)


# ---- a disk taken apart and put together again

def manifest_of(bag: Path) -> str:
    return (bag / 'manifest-sha256.txt').read_text('utf-8')


def returns(bench: Bench, what: str, image: bytes) -> None:
    """Takes a volume apart and puts the bag on an empty one of its size: its table but for IDs and the root's row, and the same payload."""
    first, second, disk = Path('first bag'), Path('second bag'), Image(image)
    for bag in first, second:
        shutil.rmtree(bag, ignore_errors=True)
    bench.image.write_bytes(image)
    name = bench.text('info', bench.image).split('drVN ')[1].split('\n')[0]
    rows = bench.rows(bench.image)
    bench.text('take', bench.image, first)
    empty = bench.new(len(image) // 512 + 400, 4 * len(rows) // 3 + 40, disk.extents_tree.count + 40, name=name.replace('\\5c', '\\'))
    bench.puts(f'{what}, put together again', empty, [first])
    bench.text('take', bench.out, second)
    ensure(manifest_of(first) == manifest_of(second), f'{what}: the payload of a disk that is put together again')
    free_of_ids = [[{key: it for key, it in row.items() if key not in ('id', 'parent', 'file_id')} for row in list(table.values())[1:]]
                   for table in (rows, bench.rows(bench.out))]
    ensure(free_of_ids[0] == free_of_ids[1], f'{what}: the table of a disk that is put together again')


def of_real_volumes(bench: Bench) -> None:
    """Volumes of other programs: taken apart and put together again, and a tree is put on each."""
    lay('real', {'a': b'1' * 3000, '._a': double(), 'sub': {'b': b'', '._c': double()}, 'System Folder': {'d': b'2'}})
    for image in sorted(REAL_VOLUMES.glob('*.img')):
        content = image.read_bytes()
        if image.name.startswith('refused'):
            bench.image.write_bytes(content)
            fault = bench.run('ls', bench.image)
            ensure(fault[0] == 2 and bench.put(content, ['real'], Options()) == fault and not bench.out.exists(), f'{image.name} is put on')
            continue
        returns(bench, image.name, content)
        locked = Image(content).field(10, 2) & 0x8080
        if locked:
            ensure(bench.put(content, ['real'], Options()) == (3, f'cannot put real: code {-44 if locked & 0x80 else -46}\n'), f'{image.name} is locked')
        else:
            bench.puts(image.name, content, ['real', 'real/System Folder'])


# ---- bags

def of_bags(bench: Bench) -> None:
    """A bag by hand: what its table tells of locks and dates goes before all else, and each file is what its manifest says."""
    disk = bench.new(1600)
    head = 'path,kind,id,parent,type,creator,flags,locked,file_id,created,modified,backup,items,data_bytes,resource_bytes,finder,bag_path\r\n'
    table = head + ''.join(f'{",".join(it)}\r\n' for it in (
        ('D', 'folder', '2', '1', '', '', '0000', '', '', '', '', '', '2', '', '', ZEROS, ''),
        ('D:a', 'file', '16', '2', 'TEXT', 'ttxt', '0000', 'yes', 'no', '1904-01-01T00:00:01', '2000-02-29T00:00:00', '2040-02-06T06:28:15', '', '5', '3', ZEROS, 'a'),
        ('"D:s,1"', 'folder', '17', '2', '', '', '0000', '', '', '', '1904-02-29T00:00:00', '', '1', '', '', ZEROS, '"s,1"'),
        ('"D:s,1:/"', 'file', '18', '17', '', '', '0000', 'no', 'no', '', '', '', '', '0', '0', ZEROS, '"s,1/=2F"')))
    payload = {'a': b'hello', '._a': apple_double((FINDER, FINDER_BYTES), (RESOURCE, b'RES'), (DATES, bytes(16))), 's,1': {'=2F': b'', '._=2F': double(bytes(32), b'')},
               '._s,1': double(resource=b''), 'untold': Dated(b'x', 0)}
    lay('bag', {'bagit.txt': b'', 'data': payload, 'items.csv': table.encode(), 'other': b'stays behind'})
    bench.puts('a bag by hand', disk, ['bag'])
    ensure(bench.put(disk, ['bag'], Options()) == (0, 'put\nfiles 3\nfolders 1\nbytes 9\nfree ' + str(Image(disk).free_blocks - 3) + '\n'), 'a bag by hand')
    found = [(it.split('\t')[0], *it.split('\t')[7:8], *it.split('\t')[9:12]) for it in bench.text('items', 'out').splitlines()[1:]]
    ensure(found == [('D:a', 'yes', '1904-01-01T00:00:01', '2000-02-29T00:00:00', '2040-02-06T06:28:15'), ('D:s,1', '', '', '1904-02-29T00:00:00', ''),
                     ('D:s,1:/', 'no', '', '', ''), ('D:untold', 'no', *2 * ['1970-01-01T00:00:00'], '')], f'a bag by hand: {found}')
    bench.puts('a bag among others', disk, ['bag/data', 'bag', 'bag/items.csv'])
    bench.tells('a bag that is there already', bench.changed(disk, [Call.of('create', 2, 'a')]), ['bag'], 'cannot put bag/data/a: code -48\n')
    lay('no bag', {'bagit.txt': {}, 'data': {'a': b''}})
    lay('no bag either', {'bagit.txt': b'', 'data': b''})
    bench.puts('folders that are no bags', disk, ['no bag', 'no bag either'])
    of_digests(bench, disk)


def of_digests(bench: Bench, disk: bytes) -> None:
    """A bag whose files aren't what its manifest says: the first in the order of the walk is told alone, and behind all else."""
    lay('sums', {'bagit.txt': b'', 'data': {'a': b'hello', '._a': double(), 'b': {'c': b'1', '._c': double()}, '._b': double(), 'x': b'', 'untold': b''}})
    files = ('a', '._a', 'b/c', 'b/._c', '._b', 'x')
    right = {it: subprocess.run(['sha256sum', f'sums/data/{it}'], stdout=subprocess.PIPE, check=True, text=True).stdout.split()[0] for it in files}

    def manifest(wrong=(), change=str):
        Path('sums/manifest-sha256.txt').write_text(''.join(f'{change(right[it][::-1] if it in wrong else right[it])}  data/{it}\n' for it in files))

    for change in (str, str.upper):
        manifest(change=change)
        bench.puts('a bag with digests', disk, ['sums'])
    for wrong, first in ((('a',), 'a'), (('._a',), '._a'), (('b/c', 'x'), 'b/c'), (('b/._c',), 'b/._c'), (('._b',), '._b'), (('x',), 'x'), (files, 'a')):
        manifest(wrong)
        ensure(bench.put(disk, ['sums'], Options()) == (3, f'cannot put sums/data/{first}: digest\n') and not bench.out.exists(), f'the digests of {wrong}')
    lay('sums/data/x:y', b'')
    ensure(bench.put(disk, ['sums'], Options()) == (3, 'cannot put sums/data/x:y: name\n'), 'a digest behind all else')


# ---- volumes in other files

def of_volumes_inside(bench: Bench) -> None:
    """`--volume N`: no other byte of the file is changed, but the sum of a disk copy."""
    lay('inside', {'a': b'1' * 3000, '._a': double()})
    small = bench.new(64, 40, 2)
    for what, wrap in WRAPPINGS:
        data = wrap(small)
        ranges = found(data)
        for number, (kind, start, size, told) in enumerate(ranges, 1):
            if content(data)[1] is not None:
                wanted, image = (2, 'not written here\n'), None
            elif kind == 'disk copy' and turned_sum(data[start:start + size]) != told:
                wanted, image = (2, 'sum wrong\n'), None
            else:
                volume = bench.puts(what, data[start:start + size], ['inside'])
                wanted, image = bench.put(data[start:start + size], ['inside'], Options()), with_volume(data, start, size, kind, volume)
            ensure(bench.put(data, ['inside'], Options(), '--volume', number) == wanted, f'volume {number} of {what}')
            ensure((bench.out.read_bytes() if bench.out.exists() else None) == (image if wanted[0] == 0 else None), f'the bytes of volume {number} of {what}')
        for sources in (['inside'], ['none']):
            ensure(bench.put(data, sources, Options(), '--volume', len(ranges) + 1) == (2, f'no volume {len(ranges) + 1}\n'), f'another volume of {what}')
        whole = bench.put(data, ['inside'], Options())
        ensure(bench.put(data, ['inside'], Options(), '--volume', 0) == whole, f'{what} as it is')


# ---- other programs

def hfs(*words) -> str:
    ran = subprocess.run([str(it) for it in words], env={'PATH': os.environ['PATH'], 'HOME': os.getcwd(), 'TZ': 'UTC'}, stdin=subprocess.DEVNULL,
                         stdout=subprocess.PIPE, stderr=subprocess.STDOUT)
    text = ran.stdout.decode('latin-1')
    ensure(ran.returncode == 0, f'{" ".join(map(str, words))}: {text}')
    return text


def of_hfsutils(bench: Bench) -> None:
    """hfsutils shows and copies off what came, and goes on with the volume; its MacBinary files come in."""
    if not shutil.which('hcopy'):
        bench.skipped.append('hfsutils')
        return
    dates = apple_double((FINDER, FINDER_BYTES), (RESOURCE, b'R' * 70_000), (DATES, bytes.fromhex('0000000000000001fffffffe00000000')))
    lay('peers', {'large': Dated(b'L' * 100_000, YEAR_2000 * SECOND), '._large': dates, 'sub': {f'file {it}': os.urandom(it * 997) for it in range(40)}, 'empty': b'', '._empty': double()})
    bench.puts('for hfsutils', bench.new(4000, 80, 8), ['peers'])
    Path('peer.img').write_bytes(bench.out.read_bytes())
    hfs('hmount', 'peer.img')
    listed = hfs('hls', '-la', ':peers')
    ensure('fi TEXT/ttxt     70000    100000 Jan  1  2000 large\n' in listed, f'hls -l: {listed}')
    Path('copied').mkdir()
    for item in Walk().over(['peers']):
        if not item.is_folder:
            place = ':' + item.path.replace('/', ':')
            hfs('hcopy', '-m', place, 'copied/binary')
            known = read_mac_binary('copied/binary')
            ensure((known.name, known.finder[:10], known.dates[:2], known.data.read(), known.resource.read())
                   == (item.name, item.finder[:10], item.dates[:2], item.data.read(), item.resource.read()), f'hcopy -m of {place}')
            hfs('hcopy', '-r', place, 'copied/data')
            ensure(Path('copied/data').read_bytes() == item.data.read(), f'hcopy -r of {place}')
    hfs('hcopy', '-m', ':peers:large', 'copied/large.bin')
    hfs('hdel', ':peers:large')
    hfs('hcopy', '-m', 'copied/large.bin', ':peers:sub:')
    hfs('humount')
    ensure(bench.text('check', 'peer.img').startswith('sound\n'), 'a volume with which hfsutils went on')
    bench.puts('MacBinary of hfsutils', bench.new(1600), ['copied/large.bin'], Options(macbinary=True))
    ensure(bench.text('items', 'out').splitlines()[1].split('\t')[:15] == [
        'D:large', 'file', '16', '2', 'TEXT', 'ttxt', '4101', 'no', 'no', '2000-01-01T00:00:00', '2000-01-01T00:00:01', '', '', '100000', '70000'],
        'a MacBinary file of hfsutils')


def unpacked_by_unar(skipped: list[str]):
    """Folders that unar unpacked, each behind the other under one name: of a MacBinary file, and of one of the first kind that macutils made."""
    if not shutil.which('unar'):
        skipped.append('unar')
        return
    lay('packed.bin', mac_binary(b'packed', FINDER_BYTES[:16], b'D' * 700, b'R' * 300))
    archives, quiet = ['packed.bin'], {'stdin': subprocess.DEVNULL, 'stderr': subprocess.DEVNULL, 'check': True}
    if shutil.which('binhex') and shutil.which('hexbin'):
        os.mkdir('hexbin')
        with open('hexbin/packed.hqx', 'wb') as file:
            subprocess.run(['binhex', 'packed.bin'], stdout=file, **quiet)
        subprocess.run(['hexbin', 'packed.hqx'], cwd='hexbin', stdout=subprocess.DEVNULL, **quiet)
        archives.append('hexbin/packed.bin')
    else:
        skipped.append('macutils')
    for archive in archives:
        shutil.rmtree('Unpacked', ignore_errors=True)
        subprocess.run(['unar', '-q', '-k', 'hidden', '-D', '-o', 'Unpacked', archive], stdout=subprocess.DEVNULL, **quiet)
        yield archive


def of_unar(bench: Bench) -> None:
    """AppleDouble files as unar lays them; a MacBinary file of the first kind is a file like others."""
    disk = bench.new(1600)
    for archive in unpacked_by_unar(bench.skipped):
        bench.puts(f'{archive} by unar', disk, ['Unpacked'])
        row = bench.text('items', 'out').splitlines()[2].split('\t')
        ensure((row[0], row[4:6], row[13:15]) == ('D:Unpacked:packed', ['TEXT', 'ttxt'], ['700', '300']), f'{archive} by unar: {row}')
    if Path('hexbin').exists():
        ensure(bench.put(disk, ['hexbin/packed.bin'], Options(macbinary=True))[1].startswith('put\nfiles 1\nfolders 0\nbytes 1280\n'), 'MacBinary of macutils')


# ---- the files themselves

def of_own_files(bench: Bench) -> None:
    """FILE that is IMAGE, or lies in a folder that comes, or is a file that comes; IMAGE that comes itself."""
    small, large = bench.new(64, 40, 2), bench.new(800)
    lay('own', {'a': b'1' * 600, '._a': double(), 'image': small, 'old': b'x'})
    wanted = bench.puts('with an image in it', large, ['own'])
    bench.image.write_bytes(large)
    ensure(bench.run('put', bench.image, 'own', '--out', bench.image, '--now', NOW)[0] == 0 and bench.image.read_bytes() == wanted, 'FILE is IMAGE')
    bench.image.write_bytes(large)
    for name in ('old', 'a', 'image'):
        came = Path('own', name).read_bytes()
        ensure(bench.run('put', bench.image, 'own', '--out', f'own/{name}', '--now', NOW)[0] == 0 and Path('own', name).read_bytes() == wanted,
               f'FILE is own/{name}')
        times = os.stat(f'own/{name}')
        Path('own', name).write_bytes(came)
        wanted = bench.puts(f'behind own/{name}, of {times.st_size} bytes', large, ['own'])
        bench.image.write_bytes(large)
    ensure(bench.run('put', bench.image, 'own', '--out', 'own/new', '--now', NOW)[0] == 0 and Path('own/new').read_bytes() == wanted, 'FILE in a source')
    os.unlink('own/new')
    ensure(bench.run('put', 'own/image', 'own/a', '--out', 'own/image', '--now', NOW)[0] == 0, 'FILE is IMAGE in a source')


def of_faults(bench: Bench) -> None:
    """Which fault is told of several, and words that are refused."""
    small = bench.new(64, 40, 2)
    lay('faulty', {'x:y': b''})
    for name, image, fault in (('none', None, (4, 'cannot read {}\n')), ('short', b'', (2, 'image too short\n')), ('zeros', bytes(4096), (2, 'not an HFS volume (-57)\n')),
                               ('C4', small[:3072] + b'\0\0\0\1' + small[3076:], None)):
        path = Path(f'{name}.img')
        if image is not None:
            path.write_bytes(image)
        wanted = fault or bench.run('ls', path)
        for sources in (['faulty'], ['nothing']):
            ensure(bench.run('put', path, *sources, '--out', 'out', '--to', ':none') == (wanted[0], wanted[1].format(path)), f'{name} before all else')
    bench.image.write_bytes(small)
    ensure(bench.run('put', bench.image, 'faulty', 'nothing', '--out', 'out', '--to', ':none') == (4, 'cannot read nothing\n'), 'a source before --to')
    ensure(bench.run('put', bench.image, 'faulty', '--out', 'out', '--to', ':none') == (3, 'code -43\n'), '--to before the items')
    lay('fine', b'1')
    for out in ('none/out', 'faulty', 'fine/out'):
        ensure(bench.run('put', bench.image, 'fine', '--out', out, '--now', 0) == (4, f'cannot write {out}\n'), f'FILE {out}')
    lay('kept.img', b'kept')
    os.chmod('kept.img', 0o444)
    ensure(bench.run('put', bench.image, 'fine', '--out', 'kept.img') == (4, 'cannot write kept.img\n') and Path('kept.img').read_bytes() == b'kept', 'write protection')
    for words in (['put', 'image', '--out', 'out'], ['put', 'image', 'fine'], ['put'], ['put', 'image', 'fine', '--out', 'out', '--now', 'x'],
                  ['put', 'image', 'fine', '--out', 'out', '--volume', '-1'], ['put', 'image', b'\xff', '--out', 'out']):
        ran = subprocess.run([bench.tool.path, *words], stdin=subprocess.DEVNULL, stdout=subprocess.PIPE, stderr=subprocess.PIPE, timeout=60)
        ensure((ran.returncode, ran.stderr) == (1, b'') and ran.stdout, f'{words}: {ran}')
    ensure(not list(Path().glob('*.new')), 'a fault leaves a file')
    bench.runs += 6
    began = int(time.time())
    bench.text('put', bench.image, 'fine', '--out', 'out')
    moment = dict(it.split(' ', 1) for it in bench.text('info', 'out').splitlines())['drLsMod']
    ensure(began <= int(moment) - 2_082_844_800 <= time.time(), 'the moment by the clock')


def of_depth(bench: Bench, depth: int) -> None:
    """Folders in one another, as many as a path has room for, and more."""
    os.mkdir('deep')
    folder, made = os.open('deep', os.O_RDONLY), 0
    for made in range(2100):
        os.mkdir('m', dir_fd=folder)
        if made == depth:
            with open(os.open('file', os.O_WRONLY | os.O_CREAT, dir_fd=folder), 'wb') as file:
                file.write(b'deep')
        inner = os.open('m', os.O_RDONLY, dir_fd=folder)
        os.close(folder)
        folder = inner
    os.close(folder)
    disk = bench.new(4000, 2500, 4)
    bench.puts('folders too deep in one another', disk, ['deep'])
    subprocess.run(['rm', '-rf', 'deep'], check=True)
    path = Path('deep', *['m'] * depth)
    path.mkdir(parents=True)
    (path / 'file').write_bytes(b'deep')
    bench.puts('folders deep in one another', disk, ['deep'])


def of_very_many(bench: Bench, count: int = 100_000) -> None:
    """A hundred thousand files in folders of a hundred; and a folder with more than it can have."""
    for number in range(0, count, 100):
        lay(f'crowd {number // 100:04}', {f'file {it:06}': b'x' * (it % 50 == 0) for it in range(number, number + 100)})
    folders = sorted(map(str, Path().glob('crowd *')))
    bench.image.write_bytes(bench.new(70_000, 60_000))
    words = [bench.tool.path, 'put', bench.image, *folders, '--out', bench.out, '--now', str(NOW)]
    ran = subprocess.run([sys.executable, '-c', MEASURED, *words], stdin=subprocess.DEVNULL, stdout=subprocess.PIPE, check=True, text=True)
    *told, ended = ran.stdout.splitlines()
    status, memory = map(int, ended.split())
    ensure(status == 0 and told[:4] == ['put', f'files {count}', f'folders {count // 100}', f'bytes {count // 50}'], f'{count} files: {ran.stdout[:200]}')
    ensure(memory < 16_384 + count + count // 100, f'{count} files take {memory} KB')
    report = dict(it.split(' ') for it in bench.text('check', bench.out).splitlines()[1:])
    ensure((report['files'], report['folders'], f'free {report["free"]}') == (str(count), str(count // 100), told[4]), f'{count} files: {report}')
    paths = sorted(it.split('\t')[0].replace(':', '/') for it in bench.text('items', bench.out).splitlines()[1:])
    ensure(paths == sorted(f'D/{it}' for folder in folders for it in (folder, *map(str, Path(folder).iterdir()))), f'the paths of {count} files')
    # a folder has 65,535 items at most
    lay('overfull', {f'{it:05}': b'' for it in range(65_538)})
    image = bench.image.read_bytes()
    ensure(bench.put(image, ['overfull'], Options()) == (3, 'cannot put overfull/65535: code -33\n') and not bench.out.exists(), 'a folder of 65,538 files')
    for number in range(65_535, 65_538):
        os.unlink(f'overfull/{number}')
    ensure(bench.put(image, ['overfull'], Options())[1].startswith('put\nfiles 65535\nfolders 1\nbytes 0\n'), 'a folder of 65,535 files')


def try_all(bench: Bench, given: argparse.Namespace) -> None:
    for part in (by_hand, of_doubles, of_mac_binary, of_names, of_each_byte, of_reasons, of_places, of_room, of_bags, of_volumes_inside, of_real_volumes, of_own_files, of_faults,
                 of_hfsutils, of_unar, lambda it: of_depth(it, 200), lambda it: of_drawn(it, given.seed, given.lists)):
        part(bench)
    if given.large:
        of_very_many(bench)


def main() -> int:
    parser = argparse.ArgumentParser(description=__doc__, formatter_class=argparse.RawDescriptionHelpFormatter)
    parser.add_argument('--lists', type=int, default=60, help='how many drawn trees')
    parser.add_argument('--seed', default='put')
    parser.add_argument('--large', action='store_true', help='also 100,000 files')
    given = parser.parse_args()
    sys.setrecursionlimit(10_000)
    bench, started = Bench(), time.monotonic()
    if not agrees_in_a_folder('put', lambda: try_all(bench, given)):
        return 1
    bench.skipped += [] if shutil.which('fsck.hfs') else ['fsck.hfs']
    left_out = f'; left out: {", ".join(bench.skipped)}' if bench.skipped else ''
    print(f'{bench.runs} runs, {bench.came} items put and read back, in {time.monotonic() - started:.0f} s{left_out}')
    return 0


if __name__ == '__main__':
    sys.exit(main())
