#!/usr/bin/env python3
"""The table of a volume's items, as `items` prints it, compared with rows by hand, the lists that libhfs
made of volumes in tests/volumes, and what hfsutils lists of volumes that it and genisoimage make
here. The CSV is read back by Python's csv, the JSON by its json and written again, line for line
next to the rows with tabs. A volume of many items and one of deeply nested folders are filled
by `run`. Each image is read by its path and from a pipe; images that are refused are reported as `ls`
reports them.

tests/items.py [--items N] [--deep N]      runs $HFS_TOOL, or the program as it is built in crates/hfs_tool/out

It prints how many tables there were; at a difference it says which and ends with status 1. Without
hfsutils it leaves their volumes out, and says so.
"""
import argparse
import csv
import gzip
import io
import json
import os
import re
import shutil
import subprocess
import sys
import tempfile
from datetime import datetime, timedelta
from pathlib import Path

from driver.programs import built, ended
from driver.wanted import Difference, ensure, ensure_same

HERE = Path(__file__).resolve().parent
TOOL = str(built('hfs_tool'))
VOLUMES = HERE / 'volumes'
COLUMNS = ['path', 'kind', 'id', 'parent', 'type', 'creator', 'flags', 'locked', 'file_id', 'created', 'modified', 'backup', 'items', 'data_bytes',
           'resource_bytes', 'finder']
TEXTS = ('path', 'type', 'creator')
NUMBERS = ('id', 'parent', 'items', 'data_bytes', 'resource_bytes')
BLOCK = 512
# Seconds from the clock of the Macintosh to that of Unix.
UNIX = 2_082_844_800
NO_FINDER = '0' * 64
NO_TYPE = r'\00\00\00\00'


def told(*words, given=None, errors=b''):
    """The status of the words, and what they print; on standard error this."""
    status, printed, said = ended(TOOL, words, given)
    ensure(said == errors, f'{words} writes to standard error: {said!r}')
    return status, printed


def moment(date):
    """A date of the Macintosh, of 0 none."""
    return (datetime(1904, 1, 1) + timedelta(seconds=date)).isoformat() if date else ''


def plain(text):
    """Characters as they stand in the tables."""
    return ''.join(f'\\{ord(it):02x}' if it < ' ' or it in '\x7f\\' else it for it in text)


def fields_of(line):
    """What an object of JSON has in the fields of the other formats."""
    fields = []
    for column, value in line.items():
        if value is None:
            fields.append('')
        elif column in ('locked', 'file_id'):
            ensure(value is True or value is False, f'{column} is {value!r}')
            fields.append('yes' if value else 'no')
        elif column in NUMBERS:
            ensure(type(value) is int, f'{column} is {value!r}')
            fields.append(str(value))
        else:
            fields.append(plain(value) if column in TEXTS else value)
    return fields


class Tables:
    """Tables that were compared, and how many rows they had."""

    def __init__(self, folder):
        self.folder = folder
        self.count, self.rows = 0, 0

    def printed(self, image, *words):
        """What `items` prints of an image, by its path and out of a pipe."""
        status, text = told('items', image, *words)
        ensure(status == 0, f'items of {image.name} ends with {status}: {text[:200]!r}')
        ensure(told('items', '/dev/stdin', *words, given=image.read_bytes()) == (status, text), f'items of {image.name} {words} prints another thing out of a pipe')
        return text.decode('utf-8')

    def rows_of(self, image):
        """The rows of an image, which are the same in all three formats."""
        text = self.printed(image)
        ensure(text == self.printed(image, '--format', 'tab'), f'{image.name}: another table with --format tab')
        ensure(text.endswith('\n'), f'{image.name}: no line feed at the end')
        rows = [line.split('\t') for line in text[:-1].split('\n')]

        read = list(csv.reader(io.StringIO(self.printed(image, '--format', 'csv'), newline=''), strict=True))
        ensure(read[0] == COLUMNS, f'{image.name}: the head is {read[0]}')
        ensure_same(read[1:], rows, f'{image.name} as CSV')

        lines = self.printed(image, '--format', 'json').split('\n')
        ensure(lines.pop() == '', f'{image.name} as JSON: no line feed at the end')
        objects = [json.loads(line) for line in lines]
        ensure_same([json.dumps(it, ensure_ascii=False, separators=(',', ':')) for it in objects], lines, f'{image.name} as JSON, written again')
        ensure(all(list(it) == COLUMNS for it in objects), f'{image.name} as JSON has other members')
        ensure_same([fields_of(it) for it in objects], rows, f'{image.name} as JSON')

        self.count += 1
        self.rows += len(rows)
        return rows

    def want(self, image, rows):
        ensure_same(self.rows_of(image), rows, image.name)

    # ---- images

    def new(self, name, blocks, nodes, extents, calls='', now=0, title='D'):
        """A new volume, after these calls of the first worker, a line each."""
        image = self.folder / f'{name}.img'
        status, text = told('new', image, title, blocks, nodes, extents)
        ensure(status == 0, f'new ends with {status}: {text!r}')
        return self.changed(image, calls, now) if calls else image

    def changed(self, image, calls, now=0):
        """An image after these calls, each of which is accepted."""
        script = self.folder / 'calls'
        script.write_text(''.join(f'1\t{line}\n' for line in calls.splitlines()), 'latin-1')
        status, text = told('run', image, script, '--now', now, '--out', image)
        refused = [line for line in text.decode('latin-1').splitlines() if line.split('\t')[2] != '0']
        ensure(status == 0 and not refused, f'run of {image.name} ends with {status}: {refused[:1]}')
        return image


# ---- rows by hand

def folder_row(path, number, parent, items, dates=('', '', '')):
    return [path, 'folder', str(number), str(parent), '', '', '0000', '', '', *dates, str(items), '', '', NO_FINDER]


def file_row(path, number, parent, has_id='no'):
    return [path, 'file', str(number), str(parent), NO_TYPE, NO_TYPE, '0000', 'no', has_id, '', '', '', '', '0', '0', NO_FINDER]


def compare_by_hand(tables):
    new = tables.new('p6', 64, 6, 2)
    tables.want(new, [folder_row('D', 2, 1, 0)])
    ensure(tables.printed(new) == f'D\tfolder\t2\t1\t\t\t0000\t\t\t\t\t\t0\t\t\t{NO_FINDER}\n', 'a new volume with tabs')
    ensure(tables.printed(new, '--format', 'csv')
           == f'{",".join(COLUMNS)}\r\nD,folder,2,1,,,0000,,,,,,0,,,{NO_FINDER}\r\n', 'a new volume as CSV')
    ensure(tables.printed(new, '--format', 'json')
           == '{"path":"D","kind":"folder","id":2,"parent":1,"type":null,"creator":null,"flags":"0000","locked":null,"file_id":null,"created":null,'
           f'"modified":null,"backup":null,"items":0,"data_bytes":null,"resource_bytes":null,"finder":"{NO_FINDER}"}}\n', 'a new volume as JSON')

    some = tables.new('some', 64, 40, 2, 'mkdir\t2\ta/b\ncreate\t16\t.x\ncreate\t2\tA,"b\\\ncreate\t2\tcon.c\nnewid\t2\tA,"b\\')
    tables.want(some, [folder_row('D', 2, 1, 3), file_row(r'D:A,"b\5c', 18, 2, 'yes'), folder_row('D:a/b', 16, 2, 1), file_row('D:a/b:.x', 17, 16),
                       file_row('D:con.c', 19, 2)])
    lines = tables.printed(some, '--format', 'csv').split('\r\n')
    ensure(lines[2] == rf'"D:A,""b\5c",file,18,2,{NO_TYPE},{NO_TYPE},0000,no,yes,,,,,0,0,{NO_FINDER}', f'quoted as CSV: {lines[2]}')
    lines = tables.printed(some, '--format', 'json').split('\n')
    ensure(lines[1].startswith(r'{"path":"D:A,\"b\\","kind":"file","id":18,"parent":2,"type":"\u0000\u0000\u0000\u0000","creator":"\u0000\u0000\u0000\u0000",'
                               '"flags":"0000","locked":false,"file_id":true'), f'escaped as JSON: {lines[1]}')
    compare_file(tables)
    compare_moments(tables)


# Dates and their moments, by hand.
MOMENTS = [(0, ''), (1, '1904-01-01T00:00:01'), (5_097_600, '1904-02-29T00:00:00'), (5_184_000, '1904-03-01T00:00:00'), (31_622_399, '1904-12-31T23:59:59'),
           (3_029_529_600, '2000-01-01T00:00:00'), (3_034_627_200, '2000-02-29T00:00:00'), (4_294_967_295, '2040-02-06T06:28:15')]


def compare_moments(tables):
    """Each of three dates of a file, and of a folder."""
    calls = 'create\t2\tf\nmkdir\t2\tg'
    for (one, first), (two, second), (three, third) in zip(MOMENTS, MOMENTS[1:] + MOMENTS[:1], MOMENTS[2:] + MOMENTS[:2]):
        dates = f'{one}\t{two}\t{three}\t{NO_FINDER}'
        image = tables.new('moments', 64, 40, 2, f'{calls}\nsetinfo\t2\tf\t{dates}\nsetinfo\t2\tg\t{dates}')
        found = [row[9:12] for row in tables.rows_of(image)[1:]]
        ensure(found == [[first, second, third]] * 2, f'the moments of {one}, {two} and {three}: {found}')


def compare_file(tables):
    """A file with a type, dates, a lock and both forks, of which the resource fork is laid by hand."""
    image = tables.folder / 'file.img'
    image.write_bytes(gzip.decompress((VOLUMES / 'small' / 'one-file.img.gz').read_bytes()))
    finder = '54455854747478744101010203040506101112131415161718191a1b1c1d1e1f'
    tables.changed(image, f'setinfo\t2\tf\t3029529600\t4294967295\t1\t{finder}\nlock\t2\tf')
    content = bytearray(image.read_bytes())
    record = content.index(b'TEXTttxt') - 4
    content[record + 36:record + 44] = (3).to_bytes(4, 'big') + BLOCK.to_bytes(4, 'big')
    content[record + 86:record + 90] = bytes((0, 20, 0, 1))
    bitmap = BLOCK * int.from_bytes(content[1038:1040], 'big')
    content[bitmap + 2] |= 0x80 >> 4
    content[1058:1060] = (45).to_bytes(2, 'big')
    first = int.from_bytes(content[1052:1054], 'big')
    content[BLOCK * (first + 20):BLOCK * (first + 20) + 3] = b'RES'
    image.write_bytes(content)
    row = ['D:f', 'file', '16', '2', 'TEXT', 'ttxt', '4101', 'yes', 'no', '2000-01-01T00:00:00', '2040-02-06T06:28:15', '1904-01-01T00:00:01', '', '2000', '3', finder]
    rows = tables.rows_of(image)
    ensure_same(rows[1:], [row], image.name)


def compare_refused(tables):
    """An image that is refused, and in which nothing is found, or can't be read, is told of as `ls` tells of it; so are words."""
    new = (tables.folder / 'p6.img').read_bytes()
    for name, content in {'short': new[:1535], 'empty': b'', 'zeros': bytes(32768)}.items():
        image = tables.folder / f'{name}.img'
        image.write_bytes(content)
        for given, path in ((None, image), (content, '/dev/stdin')):
            wanted = told('ls', path, given=given)
            ensure(wanted[0] == 2, f'ls of {name} ends with {wanted[0]}')
            for words in ((), ('--format', 'csv'), ('--format', 'json')):
                found = told('items', path, *words, given=given)
                ensure(found == wanted, f'items of {name} ends with {found} in place of {wanted}')
    absent = tables.folder / 'absent.img'
    ensure(told('items', absent) == (4, f'cannot read {absent}\n'.encode()), 'items of a file that is not there')
    ensure(subprocess.run([TOOL, 'items', tables.folder / 'p6.img', '--format', 'xml'], capture_output=True, timeout=60).returncode == 1, 'a format that there is not')
    with open('/dev/full', 'wb') as full:
        ran = subprocess.run([TOOL, 'items', tables.folder / 'some.img'], stdout=full, stderr=subprocess.PIPE, timeout=60)
    ensure((ran.returncode, ran.stderr) == (4, b''), f'items on a full device ends with {ran.returncode}')


# ---- volumes of other programs

def path_of(above, name):
    return f'{above}:{plain(name)}'


def compare_lists(tables):
    """The rows of the volumes in tests/volumes, against the lists that libhfs made of them."""
    for listed in sorted(VOLUMES.glob('*.list')):
        children = {}
        for line in listed.read_text('latin-1').splitlines():
            fields = line.split('\t')
            children.setdefault(int(fields[2]), []).append(fields)
        rows = tables.rows_of(listed.with_suffix('.img'))
        ensure(rows[0][1:4] == ['folder', '2', '1'], f'{listed.name}: the root is {rows[0]}')
        wanted, waiting = [], [(rows[0][0], iter(children[2]))]
        while waiting:
            above, left = waiting[-1]
            fields = next(left, None)
            if fields is None:
                waiting.pop()
                continue
            path = path_of(above, re.sub(r'\\([0-9a-f]{2})', lambda it: chr(int(it[1], 16)), fields[-1]))
            dates = [moment(int(it) + UNIX) for it in fields[8:11]]
            if fields[0] == 'd':
                wanted.append([path, 'folder', *fields[1:3], '', '', '', *dates, fields[3], '', ''])
                waiting.append((path, iter(children.get(int(fields[1]), []))))
            else:
                codes = [plain(bytes.fromhex(it).decode('mac_roman')) for it in fields[7].split('/')]
                wanted.append([path, 'file', *fields[1:3], *codes, 'yes' if fields[0] == 'F' else 'no', *dates, '', *fields[3:5]])
        ensure_same([row[:6] + row[7:8] + row[9:15] for row in rows[1:]], wanted, listed.name)


LINE = re.compile(r' *(\d+) (?:(d) +(\d+) items? +|([fF])i? +(.{4})/(.{4}) +(\d+) +(\d+) )[A-Z].{11} (.*)')


def listed_by_peer(image, home):
    """What hls lists of an image: path, kind, ID, type, creator, lock, items and lengths, in the order of the table."""
    environment = {**os.environ, 'HOME': str(home)}
    title = subprocess.run(['hmount', image], env=environment, check=True, capture_output=True, text=True).stdout.split('"')[1]
    text = subprocess.run(['hls', '-ilaR'], env=environment, check=True, capture_output=True, text=True).stdout
    subprocess.run(['humount'], env=environment, check=True)
    lists, folder = {}, ':'
    for line in text.splitlines():
        found = LINE.fullmatch(line)
        if found:
            lists.setdefault(folder, []).append(found.groups())
        elif line:
            folder = line
            ensure(folder.startswith(':') and folder.endswith(':'), f'hls prints {line!r}')
    rows, waiting = [], [(title, ':', iter(lists.get(':', [])))]
    while waiting:
        above, folder, left = waiting[-1]
        fields = next(left, None)
        if fields is None:
            waiting.pop()
            continue
        number, is_folder, items, lock, kind, creator, resource, length, name = fields
        path = path_of(above, name)
        if is_folder:
            rows.append([path, 'folder', number, '', '', '', items, '', ''])
            inside = f'{folder}{name}:'
            waiting.append((path, inside, iter(lists.get(inside, []))))
        else:
            rows.append([path, 'file', number, plain(kind), plain(creator), 'yes' if lock == 'F' else 'no', '', length, resource])
    return title, rows


def peers_volumes(folder):
    """Volumes that hfsutils and genisoimage make: their names."""
    environment = {**os.environ, 'HOME': str(folder)}
    (folder / 'bytes').write_bytes(bytes(range(256)) * 40)

    def do(*words):
        subprocess.run([str(it) for it in words], env=environment, check=True, stdout=subprocess.DEVNULL, stderr=subprocess.DEVNULL, cwd=folder)

    def made(name, title, kilobytes, fill):
        with open(folder / f'{name}.img', 'wb') as image:
            image.truncate(1024 * kilobytes)
        do('hformat', '-l', title, f'{name}.img')
        do('hmount', f'{name}.img')
        fill()
        do('humount')
        return name

    def put(path):
        do('hcopy', '-r', 'bytes', path)

    def flat():
        for n in range(40):
            put(f':{"aBcDeFgH"[n % 8]}{n * 7 % 40} {"x" * (n % 20)}')

    def deep():
        above = ':'
        for n in range(24):
            above = f'{above}level {n}:'
            do('hmkdir', above)
            put(f'{above}file {n}')
            put(f'{above}A file before')

    def wide():
        for n in range(12):
            do('hmkdir', f':folder {n}')
            for k in range(5):
                put(f':folder {n}:{"Zyxwv"[k]} {n * k}')

    def typed():
        for name, words in {'text': ('-t', 'TEXT', '-c', 'ttxt'), 'a, "quoted" one': ('-t', 'a,b"', '-c', '\\x y'), 'locked': ('+l',), 'hidden': ('+i',)}.items():
            put(f':{name}')
            do('hattrib', *words, f':{name}')
        do('hmkdir', ':Empty', ':b')
        put(':b:C')
        do('hrename', ':b:C', ':b:moved')

    names = [made('empty', 'Nothing', 800, lambda: None), made('flat', 'Flat', 1440, flat), made('deep', 'Deep', 1440, deep), made('wide', 'Wide', 2800, wide),
             made('typed', 'Typed & told', 800, typed)]
    if shutil.which('genisoimage'):
        tree = folder / 'tree'
        for n in range(6):
            (tree / f'Folder {n}' / 'inner').mkdir(parents=True)
            (tree / f'Folder {n}' / f'Text {n}.txt').write_bytes(b'text' * n)
            (tree / f'Folder {n}' / 'inner' / 'Data').write_bytes(bytes(1000 * n))
        do('genisoimage', '-quiet', '-hfs', '-hfs-volid', 'Hybrid', '-o', 'hybrid.img', 'tree')
        do('genisoimage', '-quiet', '-hfs', '-hfs-volid', 'Locked one', '-hfs-creator', 'Xmpl', '-hfs-type', 'BINA', '-o', 'codes.img', 'tree/Folder 3')
        names += ['hybrid', 'codes']
    return names


def compare_peers(tables):
    if not shutil.which('hformat'):
        print('left out: hfsutils is not installed')
        return
    folder = tables.folder / 'peers'
    folder.mkdir()
    for name in peers_volumes(folder):
        image = folder / f'{name}.img'
        title, wanted = listed_by_peer(image, folder)
        rows = tables.rows_of(image)
        ensure(rows[0][:4] == [plain(title), 'folder', '2', '1'], f'{name}: the root is {rows[0]}')
        ensure_same([row[:3] + row[4:6] + row[7:8] + row[12:15] for row in rows[1:]], wanted, name)


# ---- large volumes

def compare_many(tables, items):
    """A volume of so many items, files in folders, made in an order that isn't that of their names."""
    width = 1000
    folders = max(1, items // (width + 1))
    calls = [f'mkdir\t2\td{n * 7 % folders if folders % 7 else n:03}' for n in range(folders)]
    numbers = {line.split('\t')[2]: 16 + n for n, line in enumerate(calls)}
    ensure(len(numbers) == folders, 'two folders with one name')
    files, number = {}, 16 + folders
    for name, above in numbers.items():
        for n in range(width):
            own = f'f{n * 241 % 1009:04}'
            calls.append(f'create\t{above}\t{own}')
            files.setdefault(name, {})[own] = number
            number += 1
    image = tables.new('many', 4000, 2048, 4, '\n'.join(calls))
    wanted = [folder_row('D', 2, 1, folders)]
    for name in sorted(numbers):
        wanted.append(folder_row(f'D:{name}', numbers[name], 2, width))
        wanted += [file_row(f'D:{name}:{own}', files[name][own], numbers[name]) for own in sorted(files[name])]
    tables.want(image, wanted)
    return image


def compare_deep(tables, depth):
    """Folders in one another, each with a file behind the folder in it and one before."""
    calls, wanted, behind, path = [], [], [], 'D'
    above, number = 2, 16
    for n in range(depth):
        calls += [f'mkdir\t{above}\tm{n:03}', f'create\t{above}\ta', f'create\t{above}\tz']
        wanted += [folder_row(path, above, calls_parent(n), 3), file_row(f'{path}:a', number + 1, above)]
        behind.append(file_row(f'{path}:z', number + 2, above))
        path, above, number = f'{path}:m{n:03}', number, number + 3
    wanted.append(folder_row(path, above, calls_parent(depth), 0))
    image = tables.new('in-one-another', 4000, 2048, 4, '\n'.join(calls))
    tables.want(image, wanted + behind[::-1])


def calls_parent(n):
    """The ID of the folder above the n-th of those in one another; each call makes one ID more."""
    return (1, 2)[n] if n < 2 else 16 + 3 * (n - 2)


def main():
    parser = argparse.ArgumentParser(description=__doc__, formatter_class=argparse.RawDescriptionHelpFormatter)
    parser.add_argument('--items', type=int, default=3_000, help='how many items the large volume has, at most 4,000')
    parser.add_argument('--deep', type=int, default=200, help='how many folders lie in one another')
    parser.add_argument('--kept', help='a folder that keeps the large volume')
    words = parser.parse_args()
    with tempfile.TemporaryDirectory() as folder:
        tables = Tables(Path(folder))
        try:
            compare_by_hand(tables)
            compare_refused(tables)
            compare_lists(tables)
            compare_peers(tables)
            compare_deep(tables, words.deep)
            image = compare_many(tables, words.items)
            if words.kept:
                shutil.copy(image, words.kept)
        except Difference as differs:
            print(f'the tables differ: {differs}')
            return 1
        print(f'{tables.count} tables, {tables.rows} rows')
    return 0


if __name__ == '__main__':
    sys.exit(main())
