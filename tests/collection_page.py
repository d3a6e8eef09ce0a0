#!/usr/bin/env python3
"""The page that `hfs_collect page` prints of a collection, read by Python's html.parser as tests/page.py reads pages, compared with what
sqlite3 prints of the same database, and with lines by hand: each volume's line once, in the order of paths and numbers, with
its image, name, files, damaged ones, free space, dates and verdict; the 1,000 digests that are on the most volumes, counted here in
Python from all forks; links below a URL; names, paths and verdicts that are made of markup; values that aren't texts, or aren't
UTF-8; the database stays byte for byte as it was. Databases are those that `hfs_collect` makes of tests/volumes, and some that
Python's sqlite3 fills. A line of a volume has at most 600 bytes.

tests/collection_page.py [--volumes N]      runs $HFS_COLLECT and $HFS_TOOL, or the programs as they are built

It prints what was compared; at a difference it says which and ends with status 1.
"""
import argparse
import hashlib
import random
import re
import sqlite3
import subprocess
import sys
import tempfile
import time
from collections import defaultdict
from pathlib import Path
from urllib.parse import quote

from collect import TABLES
from driver.programs import built
from driver.wanted import Difference, ensure, ensure_same
from page import Document
from volumes import entry

COLLECT = str(built('hfs_collect'))
VOLUMES = Path(__file__).resolve().parent / 'volumes'
VERSION = subprocess.run([COLLECT, '--version'], capture_output=True, timeout=60, text=True).stdout.strip()
MOST_BYTES, MOST_CONTENTS, LIST = 600, 1_000, 100
VOLUME_COLUMNS = 'image number how first_byte bytes name created modified backup blocks block_bytes free_blocks verdict'.split()
ITEM_COLUMNS = ('volume number path bag_path kind cnid parent type creator flags locked file_id created modified backup items data_bytes resource_bytes finder '
                'data_sha256 resource_sha256 data_verdict resource_verdict').split()
HOSTILE = ['<b>bold</b>', '</script><script>alert(1)</script>', '"onmouseover="alert(1)', "'", '&amp;&lt;', '&#60;', '<!--', ']]>', 'tab\there', 'line\nfeed', '\x01\x7f',
           'caf\u00e9 \u2022 \U0001f4be', 'javascript:alert(1)', '//example.org/x', '../../etc', ' ', '%41', '</li></ul>', '<', '=1+1']


# ---- databases

def database(path):
    """A database with the tables of a collection, and no rows."""
    path.unlink(missing_ok=True)
    made = sqlite3.connect(path)
    made.execute('PRAGMA journal_mode = WAL')
    for text in TABLES:
        made.execute(text)
    return made


def put_image(made, path):
    return made.execute('INSERT INTO image (path, bytes, sha256, program) VALUES (?, 819200, NULL, ?)', (path, 'hfs_collect 1.0.0')).lastrowid


def put(made, table, columns, row):
    return made.execute(f'INSERT INTO {table} ({", ".join(columns)}) VALUES ({", ".join("?" * len(columns))})', [row[it] for it in columns]).lastrowid


def put_volume(made, image, number=1, **row):
    base = dict(image=image, number=number, how='bare', first_byte=0, bytes=819200, name='Disk', created='1994-03-14T09:26:53', modified='1995-01-02T00:00:00', backup=None,
                blocks=1594, block_bytes=512, free_blocks=1499, verdict='sound')
    return put(made, 'volume', VOLUME_COLUMNS, {**base, **row})


def put_item(made, volume, number, **row):
    base = dict(volume=volume, number=number, path=f'Disk:f{number}', bag_path=f'f{number}', kind='file', cnid=16 + number, parent=2, type='TEXT', creator='ttxt', flags='0000',
                locked=0, file_id=0, created=None, modified=None, backup=None, items=None, data_bytes=10, resource_bytes=0, finder='00' * 32, data_sha256=None,
                resource_sha256=None, data_verdict='whole', resource_verdict='whole')
    return put(made, 'item', ITEM_COLUMNS, {**base, **row})


def closed(made):
    """The database's file holds all that was put, as hfs_collect leaves one."""
    made.commit()
    made.execute('PRAGMA wal_checkpoint(TRUNCATE)')
    made.close()


def large(path, volumes):
    """A collection of so many volumes with three files each, one of which many have."""
    chance = random.Random(1)
    made = database(path)
    for n in range(volumes):
        volume = put_volume(made, put_image(made, f'images/shelf {n // 100:03}/Disk number {n:05}.img'), name=f'Volume {n}', free_blocks=chance.randrange(1594),
                            verdict='sound' if n % 10 else 'check C7 at 4')
        for k in range(3):
            content = f'{chance.randrange(2_000)}' if k else f'own {n}'
            put_item(made, volume, k, path=f'Volume {n}:f{k}', data_sha256=sha256(content.encode()), data_verdict='whole' if n % 50 else 'missing 3')
    closed(made)


def sha256(content):
    return hashlib.sha256(content).hexdigest()


# ---- what a page is to say

def text(value):
    """A text, and nothing of any other value; bytes that are no UTF-8 as a reader shows them."""
    return value.decode('utf-8', 'replace') if isinstance(value, bytes) else ''


def size(count):
    """A number of bytes in KB below 1 MB, and else in MB, to the nearest."""
    return f'{(count + 512) // 1024} KB' if count < 1 << 20 else f'{(count + (1 << 19)) // (1 << 20)} MB'


def rows_of(path, words):
    """Rows of a database, texts as bytes and all other values as others."""
    asked = sqlite3.connect(f'{path.resolve().as_uri()}?mode=ro&immutable=1', uri=True)
    asked.text_factory = bytes
    rows = [[(it,) if isinstance(it, bytes) and kind == b'blob' else it for it, kind in zip(row[::2], row[1::2])] for row in asked.execute(words)]
    asked.close()
    return [[None if isinstance(it, tuple) else it for it in row] for row in rows]


def asked(path, table, columns, order):
    return rows_of(path, f'SELECT {", ".join(f"{it}, typeof({it})" for it in columns)} FROM {table} ORDER BY {order}')


def volumes_of(path):
    """The page's path, and the texts of each volume's line, by all rows of the three tables."""
    images = {row[0]: row[1] for row in asked(path, 'image', ['id', 'path'], 'id')}
    several, files, damaged = defaultdict(int), defaultdict(int), defaultdict(int)
    for volume, kind, data, resource in asked(path, 'item', ['volume', 'kind', 'data_verdict', 'resource_verdict'], 'id'):
        files[volume] += kind == b'file'
        damaged[volume] += any(it is not None and it != b'whole' for it in (data, resource))
    rows = asked(path, 'volume', ['id', 'image', 'number', 'name', 'created', 'modified', 'block_bytes', 'free_blocks', 'verdict'], 'id')
    for row in rows:
        several[row[1]] += 1
    for number, image, volume, name, created, modified, block_bytes, free, verdict in sorted(rows, key=lambda it: (images[it[1]], it[2])):
        page = images[image] + (b'' if several[image] == 1 else b'.%d' % volume) + b'.html'
        yield page, [text(images[image]), text(name), f'files {files[number]}', f'damaged {damaged[number]}' if damaged[number] else '',
                     '' if free is None or block_bytes is None else f'free {size(free * block_bytes)}',
                     *(f'{label} {text(it)[:10]}' if isinstance(it, bytes) else '' for label, it in (('created', created), ('modified', modified))), text(verdict)]


def contents_of(path):
    """The texts of each content's line: the digests that lie on most volumes, counted from all forks that have a byte."""
    on, paths, lengths = defaultdict(set), defaultdict(list), defaultdict(list)
    for volume, mac, bag, *forks in asked(path, 'item', ['volume', 'path', 'bag_path', 'data_bytes', 'data_sha256', 'resource_bytes', 'resource_sha256'], 'id'):
        for length, digest in (forks[:2], forks[2:]):
            if length and digest is not None:
                on[digest].add(volume)
                paths[digest].append(bag if mac is None else mac)
                lengths[digest].append(length)
    found = sorted((it for it in on if len(on[it]) > 1), key=lambda it: (-len(on[it]), it))
    return [[text(min(paths[it])), f'volumes {len(on[it])}', f'{min(lengths[it])} bytes', text(it)] for it in found[:MOST_CONTENTS]]


# ---- what it says

def by_id(document, tag, name):
    found, = [it for it in document.top.all(tag) if it.attributes.get('id') == name]
    return found


def texts_in(line):
    """The link of a line, where it is one, and its texts."""
    name, *spans = line.elements
    ensure(line.tag == 'li' and not line.attributes and name.tag == 'b' and all(it.tag == 'span' and not it.elements for it in spans), f'a line of {[it.tag for it in line.elements]}')
    ensure(line.parts == line.elements, f'text between the parts of {name.text!r}')
    link = name.elements[0] if name.elements else None
    ensure(link is None or link.tag == 'a' and list(link.attributes) == ['href'] and name.parts == [link], f'{name.text!r} has {link}')
    return link and link.attributes['href'], [name.text, *(it.text for it in spans)]


class Pages:
    """Pages that were compared, and how many lines they had."""

    def __init__(self, folder):
        self.folder = folder
        self.count, self.volumes, self.contents, self.faults = 0, 0, 0, 0

    def run(self, *words, **how):
        return subprocess.run([COLLECT, *map(str, words)], cwd=self.folder, stdin=subprocess.DEVNULL, **{'capture_output': True, 'timeout': 600, **how})

    def printed(self, path, *words):
        """What `page` prints of a database, which stays as it was."""
        before, names = path.read_bytes(), sorted(self.folder.iterdir())
        ran = self.run('page', path.name, *words)
        ensure((ran.returncode, ran.stderr) == (0, b''), f'page of {path.name} ends with {ran.returncode}: {ran.stdout[-200:]!r} {ran.stderr[:200]!r}')
        ensure(path.read_bytes() == before and sorted(self.folder.iterdir()) == names, f'page changes {path.name}, or leaves a file beside it')
        return ran.stdout

    def want(self, path, base=None):
        """The page of a database, which is what it is to be: its lines of volumes and of contents."""
        page = self.printed(path, *([] if base is None else ['--base', base]))
        document = Document(page.decode('utf-8', 'replace'))
        main = document.top.only('main')
        ensure([it.tag for it in main.elements] == ['h1', 'nav', 'section', 'section', 'footer', 'script'], f'{path.name}: the parts')
        ensure(main.only('h1').text == document.top.only('title').text == path.name, f'{path.name} is called {main.only("h1").text!r}')
        ensure(main.only('footer').text == f'Printed by {VERSION}', f'the page says {main.only("footer").text!r}')
        ensure(not re.search(rb'(?:src|href)="(?!#|data:,")', page) or base is not None, f'{path.name} asks for something')
        lists = by_id(document, 'div', 'volumes').elements
        lines = [line for one in lists for line in one.elements]
        ensure(all(it.tag == 'ul' for it in lists) and [len(it.elements) for it in lists[:-1]] == [LIST] * (len(lists) - 1) and len(lists[-1].elements) <= LIST,
               f'{path.name}: lists of {[len(it.elements) for it in lists]} lines')
        wanted = list(volumes_of(path))
        found = [texts_in(it) for it in lines]
        ensure_same([texts for _, texts in found], [texts for _, texts in wanted], f'{path.name}, the volumes')
        slash = '' if not base or base.endswith('/') else '/'
        links = [None if base is None else base + slash + quote(it, safe='/-._~') for it, _ in wanted]
        ensure_same([link for link, _ in found], links, f'{path.name}, the links')
        contents = [texts_in(it) for it in by_id(document, 'section', 'contents').only('ul').elements]
        ensure_same([texts for _, texts in contents], contents_of(path), f'{path.name}, the contents')
        ensure(all(link is None for link, _ in contents), 'a content is a link')
        self.count, self.volumes, self.contents = self.count + 1, self.volumes + len(lines), self.contents + len(contents)
        return page

    def refuses(self, status, said, *words, **how):
        names = {it: it.read_bytes() for it in self.folder.iterdir() if it.is_file()}
        ran = self.run(*words, **how)
        ensure((ran.returncode, (ran.stdout or b'').decode(), ran.stderr) == (status, said, b''), f'{words} ends with {ran.returncode} and prints {ran.stdout!r}')
        ensure({it: it.read_bytes() for it in self.folder.iterdir() if it.is_file()} == names, f'{words} changes a file')
        self.faults += 1


def by_hand(pages):
    """The lines of a few disks, word for word."""
    made = database(pages.folder / 'hand.db')
    first, second = put_image(made, 'b/two.img'), put_image(made, 'a <1>.img')
    one = put_volume(made, first, 1, name='One & only', free_blocks=3, block_bytes=512, created=None)
    put_volume(made, first, 2, name='', blocks=None, free_blocks=None, block_bytes=None, modified=None, verdict='check C7 at 4')
    other = put_volume(made, second, 1, name='"Quoted"', free_blocks=4_000, block_bytes=16_384)
    shared = sha256(b'shared')
    put_item(made, one, 0, kind='folder', data_bytes=None, resource_bytes=None, data_verdict=None, resource_verdict=None)
    put_item(made, one, 1, path='One:z', data_bytes=7, data_sha256=shared)
    put_item(made, one, 2, data_verdict='cut 3', resource_verdict='shared')
    put_item(made, other, 1, path=None, bag_path='=lost/5/a', data_bytes=0, data_sha256=sha256(b''), resource_bytes=7, resource_sha256=shared, resource_verdict='missing 1')
    closed(made)
    page = pages.want(pages.folder / 'hand.db', 'pages').decode()
    lines = re.findall('<li>.*</li>', page)
    ensure_same(lines, [
        '<li><b><a href="pages/a%20%3C1%3E.img.html">a &lt;1&gt;.img</a></b><span>&quot;Quoted&quot;</span><span>files 1</span><span>damaged 1</span><span>free 63 MB</span>'
        '<span>created 1994-03-14</span><span>modified 1995-01-02</span><span>sound</span></li>',
        '<li><b><a href="pages/b/two.img.1.html">b/two.img</a></b><span>One &amp; only</span><span>files 2</span><span>damaged 1</span><span>free 2 KB</span>'
        '<span></span><span>modified 1995-01-02</span><span>sound</span></li>',
        '<li><b><a href="pages/b/two.img.2.html">b/two.img</a></b><span></span><span>files 0</span><span></span><span></span>'
        '<span>created 1994-03-14</span><span></span><span>check C7 at 4</span></li>',
        f'<li><b>=lost/5/a</b><span>volumes 2</span><span>7 bytes</span><span>{shared}</span></li>'], 'lines by hand')


def collected(pages):
    """Databases that hfs_collect makes: of all volumes, sound and refused, and of two in one file; of no image."""
    names = []
    for image in sorted(VOLUMES.glob('*.img')):
        (pages.folder / image.name).write_bytes(image.read_bytes())
        names.append(image.name)
    (pages.folder / 'two.img').write_bytes(twice((VOLUMES / 'hfsutils-800k.img').read_bytes()))
    ensure(pages.run('all.db', *names, 'two.img').returncode == 0, 'the volumes are not collected')
    pages.want(pages.folder / 'all.db')
    pages.want(pages.folder / 'all.db', 'https://example.org/disks/')
    ensure(pages.run('none.db', 'missing.img').returncode == 4, 'a database of no image')
    pages.want(pages.folder / 'none.db')
    pages.want(pages.folder / 'none.db', '')


def twice(volume):
    """A disk with the volume in two partitions."""
    blocks = len(volume) // 512
    return (b'ER'.ljust(512, b'\0') + entry(2, 64, blocks, b'Apple_HFS', 512) + entry(2, 64 + blocks, blocks, b'Apple_HFS', 512)).ljust(64 * 512, b'\0') + volume * 2


def hostile(pages):
    """Texts of markup in each place, values that are no texts, and texts that are no UTF-8."""
    path = pages.folder / 'hostile.db'
    made = database(path)
    digest = sha256(b'x')
    for n, name in enumerate(HOSTILE):
        image = put_image(made, name)
        for number in range(1, 2 + n % 2):
            volume = put_volume(made, image, number, name=name, created=name, modified=name, verdict=name)
            put_item(made, volume, 0, path=name, bag_path=name, kind=name, data_sha256=name, data_verdict=name)
            put_item(made, volume, 1, path=name, bag_path=name, data_sha256=digest)
    image = put_image(made, 'values')
    put_volume(made, image, 1, name=b'<b>blob</b>', created=7, modified=1.5, verdict=b'<i>')
    volume = put_volume(made, image, 2, name=None, created=None, modified=None, free_blocks=None)
    put_item(made, volume, 0, path=None, bag_path='&bag', data_sha256=digest)
    made.execute("INSERT INTO image (path, bytes, program) VALUES (CAST(x'ff3c623e80' AS TEXT), 1, '')")
    put_volume(made, made.execute('SELECT max(id) FROM image').fetchone()[0], 1, name='last')
    closed(made)
    for base in (None, '', 'pages', 'a/"b"&<c>', 'http://example.org/?q=', '#'):
        pages.want(path, base)


def most(pages):
    """More digests than a page has, some of which lie on as many volumes as others, in data forks, in resource forks and in both."""
    path = pages.folder / 'most.db'
    made = database(path)
    chance = random.Random(2)
    numbers = [0] * 12
    volumes = [put_volume(made, put_image(made, f'{n}.img')) for n in range(12)]
    for n in range(1_400):
        for volume in chance.sample(range(12), 1 + n % 4):
            digest = sha256(b'%d' % n)
            in_data, numbers[volume] = chance.random() < 0.7, numbers[volume] + 1
            own = {'data_sha256': digest, 'data_bytes': 1 + n} if in_data else {'data_bytes': 0, 'data_sha256': sha256(b''), 'resource_sha256': digest, 'resource_bytes': 1 + n}
            put_item(made, volumes[volume], numbers[volume], path=chance.choice([None, f'D:{chance.randrange(99)}']), **own)
    for volume in volumes[:5]:
        put_item(made, volume, 9_999, data_bytes=0, data_sha256=sha256(b''))
        put_item(made, volume, 9_998, data_bytes=None, data_sha256=sha256(b'none'))
    closed(made)
    pages.want(path)
    ensure(pages.contents and len(contents_of(path)) == MOST_CONTENTS, 'there are not enough digests')


def many(pages, count):
    """Many volumes: how many bytes a line has, and how long the page takes."""
    path = pages.folder / 'many.db'
    large(path, count)
    none = database(pages.folder / 'empty.db')
    closed(none)
    least = len(pages.printed(pages.folder / 'empty.db'))
    began = time.time()
    page = pages.printed(path, '--base', 'https://example.org/pages')
    took = time.time() - began
    pages.want(path, 'https://example.org/pages')
    behind = page[page.index(b'<section id="contents"'):]
    each = (len(page) - least - len(behind)) / count
    ensure(each <= MOST_BYTES, f'a volume has {each:.0f} bytes')
    return f'{count} volumes of {each:.0f} bytes each in {took:.1f} s'


def faults(pages):
    """Words, databases and devices that are refused: nothing comes, goes or changes."""
    path = pages.folder / 'hand.db'
    for base in ('javascript:alert(1)', 'ftp://example.org/', 'data:text/html,x', 'a:b'):
        pages.refuses(1, '--base wants a URL that begins with http: or https:, or is relative\n', 'page', path.name, '--base', base)
    pages.refuses(4, 'cannot open missing.db\n', 'page', 'missing.db')
    (pages.folder / 'text.db').write_text('no database\n' * 99)
    pages.refuses(4, 'cannot open text.db\n', 'page', 'text.db')
    other = sqlite3.connect(pages.folder / 'other.db')
    other.execute('CREATE TABLE note (text)')
    other.close()
    pages.refuses(4, 'cannot open other.db\n', 'page', 'other.db')
    pages.refuses(4, 'cannot open :memory:\n', 'page', ':memory:')
    with open('/dev/full', 'wb') as full:
        ran = pages.run('page', path.name, capture_output=False, stdout=full, stderr=subprocess.PIPE)
    ensure((ran.returncode, ran.stderr) == (4, b''), f'page on a full device ends with {ran.returncode}')
    for words in (['page'], ['page', 'a.db', 'b.db'], ['page', 'a.db', '--compare'], ['page', 'a.db', '--base']):
        ran = pages.run(*words)
        ensure(ran.returncode == 1, f'{words} ends with {ran.returncode}')
        pages.faults += 1
    # A database of the word's name is given by a path.
    (pages.folder / 'page').write_bytes(path.read_bytes())
    ensure(pages.run('./page', '--compare', 'none.img').returncode == 3, 'a database that is called page')
    pages.want(pages.folder / 'page')


def main():
    parser = argparse.ArgumentParser(description=__doc__, formatter_class=argparse.RawDescriptionHelpFormatter)
    parser.add_argument('--volumes', type=int, default=1_000, help='how many volumes the large collection has')
    words = parser.parse_args()
    with tempfile.TemporaryDirectory() as folder:
        pages = Pages(Path(folder))
        try:
            by_hand(pages)
            collected(pages)
            hostile(pages)
            most(pages)
            faults(pages)
            told = many(pages, words.volumes)
        except Difference as differs:
            print(f'a page of a collection differs: {differs}')
            return 1
    print(f'pages of collections agree: {pages.count} pages with {pages.volumes} volumes and {pages.contents} contents, {pages.faults} refusals; {told}')
    return 0


if __name__ == '__main__':
    sys.exit(main())
