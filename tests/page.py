#!/usr/bin/env python3
"""Reads the pages that `page` prints by Python's html.parser, which here refuses markup that isn't whole, and compares what
they say with what is read from the bytes of each image without any of the project's code: the list of what the volume is, the
class and the title of each cell of the picture, the extents of all files, and the items, which are those of `items` in their
order, each with its ID. Volumes are those in
tests/volumes, some with each part of a disk that are made here, and some that are filled by `run`: one with every printable
character in its names, one of deeply nested folders, and a large one, whose page has at most 480 bytes for an item
besides its name. Each page is asked for by the image's path, from a pipe, and as a volume in another file; images that
are refused have a page of their own. Links lead to the files of the bag that `take` makes; digests are hashlib's.

tests/page.py [--items N] [--kept FOLDER]      runs $HFS_TOOL, or the program as it is built in crates/hfs_tool/out

It prints how many pages there were; at a difference it says which and ends with status 1.
"""
import argparse
import csv
import gzip
import hashlib
import io
import re
import subprocess
import sys
import tempfile
from collections import Counter
from dataclasses import dataclass, field
from decimal import ROUND_HALF_UP, Decimal
from html.parser import HTMLParser
from pathlib import Path
from urllib.parse import quote, unquote

from catalog_records import Catalog
from driver.image import DATA_FORK, MDB, RESOURCE_FORK, extents_at
from driver.wanted import Difference, ensure, ensure_same
from hostile_images import (EXTENTS_KEY_LENGTH, FIRST_FREE, LEAF, ROOT, Plan, Tree, extent_bytes, extents_key, folder, many_extents, new_volume, node,
                            one_leaf, thread)
from hostile_images import file as file_record
from items import TOOL, moment, plain, told
from slow_volumes import Volume, cut_files
from slow_volumes import plain as plain_volume
from volumes import in_disk_copy, in_map

VERSION = subprocess.run([TOOL, '--version'], capture_output=True, timeout=60, text=True).stdout.strip()
VOLUMES = Path(__file__).resolve().parent / 'volumes'
MOST_CELLS, COLUMNS, MOST_OPEN = 4_096, 64, 100
PARTS = ['bad blocks', 'extents tree', 'catalog', 'later extent', 'first extent', 'marked, and nobody has it', 'free']
BAD, EXTENTS, CATALOG, LATER, FIRST, STRAY, FREE = range(7)
BAD_FILE, CATALOG_FILE = 5, 4
REFERENCES = {'amp': '&', 'lt': '<', 'gt': '>', 'quot': '"', '39': "'"}
# Elements that have no end, and those whose text is no markup.
VOID, RAW = ('meta', 'link', 'input'), ('style', 'script')


# ---- a document

@dataclass
class Element:
    """An element: its tag, its attributes, and what lies in it, texts and elements."""
    tag: str
    attributes: dict
    parts: list = field(default_factory=list)

    @property
    def elements(self):
        return [it for it in self.parts if isinstance(it, Element)]

    @property
    def text(self):
        return ''.join(it if isinstance(it, str) else it.text for it in self.parts)

    def all(self, tag):
        """All elements with this tag below this one, in their order."""
        found, waiting = [], [self]
        while waiting:
            one = waiting.pop()
            found += [one] if one.tag == tag else []
            waiting += reversed(one.elements)
        return found

    def only(self, tag):
        found = self.all(tag)
        ensure(len(found) == 1, f'{len(found)} elements {tag}')
        return found[0]


class Document(HTMLParser):
    """The elements of a page. Each one that begins ends where it is to; texts have no character of markup, and of the
    references those five alone."""

    def __init__(self, text):
        super().__init__(convert_charrefs=False)
        self.top, self.open, self.declarations = Element('', {}), [], []
        self.open.append(self.top)
        self.feed(text)
        self.close()
        ensure(self.open == [self.top], f'{self.open[-1].tag} has no end')
        ensure(self.declarations == ['DOCTYPE html'], f'declarations {self.declarations}')

    def handle_starttag(self, tag, attributes):
        names = [name for name, _ in attributes]
        ensure(len(set(names)) == len(names), f'{tag} has {names}')
        element = Element(tag, dict(attributes))
        self.open[-1].parts.append(element)
        if tag not in VOID:
            self.open.append(element)

    def handle_endtag(self, tag):
        ensure(self.open[-1].tag == tag, f'the end of {tag} in {self.open[-1].tag}')
        self.open.pop()

    def add(self, text):
        parts = self.open[-1].parts
        if parts and isinstance(parts[-1], str):
            parts[-1] += text
        else:
            parts.append(text)

    def handle_data(self, data):
        ensure(self.open[-1].tag in RAW or not set(data) & set('<>&'), f'a text {data!r} in {self.open[-1].tag}')
        self.add(data)

    def handle_entityref(self, name):
        ensure(name in REFERENCES, f'&{name};')
        self.add(REFERENCES[name])

    def handle_charref(self, name):
        self.handle_entityref(name)

    def handle_decl(self, decl):
        self.declarations.append(decl)

    def handle_startendtag(self, tag, attributes):
        raise Difference(f'<{tag}/>')

    def handle_comment(self, data):
        raise Difference(f'a comment {data!r}')

    def handle_pi(self, data):
        raise Difference(f'<?{data}')

    def unknown_decl(self, data):
        raise Difference(f'<![{data}')


# ---- what a page is to say

def characters(raw):
    """A name as text."""
    return plain(raw.decode('mac_roman'))


def size(count):
    """A number of bytes in the unit that suits, to the nearest tenth."""
    if count < 1024:
        return f'{count} B'
    unit, name = (1024, 'KB') if count < 1024 * 1024 else (1024 * 1024, 'MB')
    tenths = (Decimal(count) / unit).quantize(Decimal('0.1'), ROUND_HALF_UP)
    return f'{tenths}'.removesuffix('.0') + f' {name}'


def day_and_time(date):
    """A moment as it stands on a page."""
    return date.replace('T', ' ')


def facts_of(catalog, image):
    """The list of what the volume of an image is."""
    mdb = catalog.image.field

    def sized(count):
        return f'{size(count)} ({count} bytes)'

    return [['Check', 'sound'], ['Image', image.name], ['Length', sized(len(catalog.image.content) // 512 * 512)], ['Free', sized(mdb(34, 2) * mdb(20, 4))],
            *([label, day_and_time(moment(mdb(at, 4)))] for label, at in (('Created', 2), ('Modified', 6), ('Backup', 64))),
            ['Files', str(mdb(84, 4))], ['Folders', str(mdb(88, 4))],
            ['Allocation blocks', str(mdb(18, 2))], ['Bytes of each block', str(mdb(20, 4))], ['Free blocks', str(mdb(34, 2))]]


def extents_of(catalog):
    """The extents of all files that have a block: the file's ID, the first block, and how many there are."""
    for file in catalog.files:
        for place, fork in ((74, DATA_FORK), (86, RESOURCE_FORK)):
            for extent in extents_at(file.body, place) + catalog.image.overflow.get((file.id, fork), []):
                if extent.count:
                    yield [file.id, extent.first, extent.count]


def uses_of(catalog):
    """What each allocation block is: its part, and whose it is."""
    image = catalog.image
    uses = [(STRAY if image.bitmap[it // 8] & 0x80 >> it % 8 else FREE, '') for it in range(image.block_count)]

    def hold(extents, part, whose=''):
        for extent in extents:
            for block in extent.blocks:
                ensure(uses[block][0] == STRAY, f'block {block} has two owners')
                uses[block] = part, whose

    hold(image.overflow.get((BAD_FILE, DATA_FORK), []) + image.overflow.get((BAD_FILE, RESOURCE_FORK), []), BAD)
    hold(extents_at(image.content, MDB + 134), EXTENTS)
    hold(extents_at(image.content, MDB + 150) + image.overflow.get((CATALOG_FILE, DATA_FORK), []), CATALOG)
    for file in catalog.files:
        for place, fork, label in ((74, DATA_FORK, 'data'), (86, RESOURCE_FORK, 'resource')):
            extents = extents_at(file.body, place) + image.overflow.get((file.id, fork), [])
            whose = f', {label} fork of {characters(file.name)}'
            hold(extents[:1], FIRST, whose)
            hold(extents[1:], LATER, whose)
    return uses


def cells_of(catalog):
    """The class and the title of each cell: of the parts of its blocks the first, and the first block of that part."""
    uses = uses_of(catalog)
    width = max(1, -(-len(uses) // MOST_CELLS))
    for first in range(0, len(uses), width):
        part, whose = min(uses[first:first + width], key=lambda it: it[0])
        last = min(first + width, len(uses)) - 1
        blocks = f'Block {first}' if first == last else f'Blocks {first} to {last}'
        yield [f'p{part}', f'{blocks}: {PARTS[part]}{whose}']


def items_of(image):
    """What the page is to say of each item, by its row in the table of `items`: its path, its ID, and the texts beside its name."""
    status, text = told('items', image, '--format', 'csv')
    ensure(status == 0, f'items of {image.name} ends with {status}')
    for row in csv.DictReader(io.StringIO(text.decode('utf-8'), newline=''), strict=True):
        modified = [f'{day_and_time(row["modified"])}\n(modified)'] if row['modified'] else []
        if row['kind'] == 'folder':
            texts = ['1 item' if row['items'] == '1' else f'{row["items"]} items', 'folder', *modified]
        else:
            both = int(row['data_bytes']) + int(row['resource_bytes'])
            texts = [f'{size(both)}\n(data fork {row["data_bytes"]} bytes, resource fork {row["resource_bytes"]} bytes)',
                     f'{row["type"]} {row["creator"]}\n(type, creator)', *modified]
        yield [row['path'], row['id'], texts]


# ---- what it says

def cells_in(document):
    """The class and the title of each cell, each of which has its own square."""
    picture, = [it for it in document.top.all('svg') if it.attributes.get('id') == 'picture']
    rects = picture.all('rect')
    ensure(rects == picture.elements, 'the picture has other parts')
    ensure(picture.attributes['viewbox'] == f'0 0 {COLUMNS} {-(-len(rects) // COLUMNS)}', f'the picture is {picture.attributes}')
    for place, rect in enumerate(rects):
        at = {'x': str(place % COLUMNS), 'y': str(place // COLUMNS), 'width': '1', 'height': '1'}
        ensure({**rect.attributes, 'class': ''} == {**at, 'class': ''}, f'cell {place} is {rect.attributes}')
        yield [rect.attributes['class'], rect.only('title').text]


def item_in(element):
    """The name of an item and the texts beside it."""
    name, *spans = element.elements
    ensure(name.tag == 'b' and all(it.tag == 'span' for it in spans), f'an item of {[it.tag for it in element.elements]}')
    ensure(element.parts == element.elements, f'text between the parts of {name.text!r}')
    return name.text, [it.text for it in spans]


def extents_in(document):
    """The extents of files, as the page lists them for its script."""
    places, = [it for it in document.top.all('p') if it.attributes.get('id') == 'extents']
    ensure(set(places.attributes) == {'id', 'hidden'} and not places.elements, 'the extents are seen')
    ensure(re.fullmatch(r'( \d+:\d+\+\d+)*', places.text), f'the extents are {places.text[:40]!r}')
    return [[int(number) for number in re.split('[:+]', it)] for it in places.text.split()]


def items_list(document):
    lists = [it for it in document.top.all('ul') if it.attributes.get('id') == 'items']
    ensure(len(lists) == 1, f'{len(lists)} lists of items')
    return lists[0]


def rows_in(document):
    """The path of each item, as far as elements lie in one another, its ID, and the texts beside its name."""
    waiting = [('', 0, iter(items_list(document).elements))]
    while waiting:
        above, depth, left = waiting[-1]
        line = next(left, None)
        if line is None:
            waiting.pop()
            continue
        ensure(line.tag == 'li' and list(line.attributes) == ['id'] and line.attributes['id'][0] == 'i', f'{line.tag} {line.attributes} among the items')
        number = line.attributes['id'][1:]
        if line.elements[0].tag != 'details':
            name, texts = item_in(line)
            yield [above + name, number, texts]
            continue
        ensure(len(line.elements) == 1, 'something beside a folder')
        summary, inside = line.elements[0].elements
        ensure(summary.tag == 'summary' and inside.tag == 'ul', f'a folder of {summary.tag} and {inside.tag}')
        ensure(('open' in line.elements[0].attributes) == (depth == 0 and len(inside.elements) <= 1_000), f'a folder at depth {depth} is open or closed')
        name, texts = item_in(summary)
        yield [above + name, number, texts]
        waiting.append((f'{above}{name}:', depth + 1, iter(inside.elements)))


def renamed(page, name, other):
    """A page with another name of its image."""
    row = '<dt>Image</dt><dd>%s</dd>'
    ensure(page.count((row % name).encode()) == 1, f'the page names no {name}')
    return page.replace((row % name).encode(), (row % other).encode())


class Pages:
    """Pages that were compared, how many items and cells they had, and how often each part."""

    def __init__(self, folder):
        self.folder = folder
        self.count, self.items, self.parts = 0, 0, Counter()

    def printed(self, image, status=0, errors=b''):
        """What `page` prints of an image, by its path and out of a pipe; on standard error this."""
        page = told('page', image, errors=errors)
        ensure(page[0] == status, f'page of {image.name} ends with {page[0]}')
        piped = told('page', '/dev/stdin', given=image.read_bytes(), errors=errors)
        ensure((piped[0], renamed(piped[1], 'stdin', image.name)) == page, f'page of {image.name} is another one out of a pipe')
        return page[1]

    def want(self, image, are_deep=False):
        """The page of an image, which is what it is to be. Folders that are deep in one another stand flat from a depth on."""
        page = self.printed(image)
        document, catalog = Document(page.decode('utf-8')), Catalog(image.read_bytes())
        self.want_dress(document, characters(image.read_bytes()[MDB + 37:][:image.read_bytes()[MDB + 36]]))

        rows = [[it.text for it in row.elements] for row in document.top.only('dl').elements]
        ensure_same(rows, facts_of(catalog, image), f'{image.name}, what the volume is')
        ensure([it.tag for it in document.top.only('main').elements] == ['h1', 'nav', 'dl', 'section', 'section', 'footer', 'script'], f'{image.name}: the parts')

        cells = list(cells_in(document))
        ensure_same(cells, list(cells_of(catalog)), f'{image.name}, the picture')
        ensure_same(extents_in(document), list(extents_of(catalog)), f'{image.name}, the extents')
        rows = list(rows_in(document))
        wanted = [[self.flat(path) if are_deep else path, number, texts] for path, number, texts in items_of(image)]
        ensure_same(rows, wanted, f'{image.name}, the items')
        self.count += 1
        self.items += len(rows)
        self.parts.update(it[0] for it in cells)
        return page, rows

    @staticmethod
    def flat(path):
        """The path that an item has on a page: what lies in more than so many folders lies in the last of these."""
        names = path.split(':')
        return ':'.join(names[:MOST_OPEN] + names[MOST_OPEN:][-1:])

    @staticmethod
    def want_dress(document, title):
        """What holds of each page, whatever the volume: its headings, and that it asks for nothing."""
        top = document.top.only('html')
        ensure(top.attributes == {'lang': 'en'} and top.only('head').only('title').text == title == top.only('h1').text, f'the title is {top.only("h1").text!r}')
        texts = [value for it in top.all('link') + top.all('meta') + top.all('input') for value in it.attributes.values()]
        texts += [it.text for tag in RAW for it in top.all(tag)]
        ensure(not any(re.search(r'//|url\((?!#)|@import|fetch|XMLHttp', it or '') for it in texts), 'the page may ask for something')
        names = [it.attributes['id'] for it in every(top) if 'id' in it.attributes]
        ensure(len(set(names)) == len(names), 'two elements have one id')
        ensure(top.only('footer').text == f'Printed by {VERSION}', f'the page says {top.only("footer").text!r}')
        ensure(all(set(it.attributes) <= {'id', 'class', 'lang', 'charset', 'name', 'content', 'http-equiv', 'rel', 'href', 'role', 'aria-label', 'aria-hidden',
                                          'viewbox', 'x', 'y', 'width', 'height', 'd', 'patternunits', 'for', 'type', 'autocomplete', 'hidden', 'open'}
                   for it in every(top)), 'an attribute that no page has')
        links = [it.attributes.get('href') for it in every(top) if 'href' in it.attributes]
        ensure(sorted(links) in (['data:,'], ['#blocks', '#list', 'data:,']), f'links to {links}')
        ensure(all(it[1:] in names for it in links if it[0] == '#'), 'a link to nowhere')

    def image(self, name, content):
        image = self.folder / f'{name}.img'
        image.write_bytes(content)
        return image

    def changed(self, name, content, calls, now=0):
        """An image after these calls of the first worker, each of which is accepted."""
        image, script = self.image(name, content), self.folder / 'calls'
        script.write_text(''.join(f'1\t{it}\n' for it in calls), 'latin-1')
        status, text = told('run', image, script, '--now', now, '--out', image)
        refused = [line for line in text.decode('latin-1').splitlines() if line.split('\t')[2] != '0']
        ensure(status == 0 and not refused, f'run of {name} ends with {status}: {refused[:1]}')
        return image


def every(element):
    """This element and all below it."""
    waiting = [element]
    while waiting:
        one = waiting.pop()
        yield one
        waiting += one.elements


# ---- volumes

def every_part():
    """A volume with blocks of each part: bad ones, two trees, two files in several extents that go on in the extents tree, of
    which the second begins with an extent of no block, and blocks that are marked and nobody's."""
    def laid_file(name, number, data, resource):
        record = bytearray(file_record(ROOT, name, number, 512 * sum(it[1] for it in data), data))
        body = len(record) - 102
        record[body + 36:body + 44] = (512 * 6).to_bytes(4, 'big') * 2
        record[body + 86:body + 98] = extent_bytes(resource)
        return bytes(record)

    records = [folder(1, 'D', ROOT, 2), thread(ROOT, 1, 'D'),
               laid_file('<a&b>', 16, [(10, 2), (13, 1), (15, 1)], [(40, 2), (43, 1), (45, 1)]),
               laid_file('g"h\'', 17, [(0, 0), (20, 2), (23, 1)], [(30, 6)])]
    overflow = [extents_key(0, 5, 0) + extent_bytes([(50, 2), (53, 1)]), extents_key(255, 16, 4) + extent_bytes([(47, 2)])]
    owned = [10, 11, 13, 15, 40, 41, 43, 45, 47, 48, 20, 21, 23, *range(30, 36), 50, 51, 53]
    plan = Plan(next_id=18, root_files=2, files=2, owned=owned + [25, 26, 55])
    extents = Tree(EXTENTS_KEY_LENGTH, 2, 2, 1, 1, len(overflow), 1, 1)
    return plan.image(one_leaf(6, len(records)), {1: node(LEAF, 1, records)}, extents, {1: node(LEAF, 1, overflow)}).content


def compare_laid(pages):
    pages.want(pages.image('new', new_volume()))
    pages.want(pages.image('parts', every_part()))
    ensure(all(pages.parts[f'p{it}'] for it in range(7)), f'a part is on no page: {pages.parts}')
    for count in (40, 4_100, 12_345):
        pages.want(pages.image('extents', many_extents(True, count)))


def compare_others(pages):
    """Volumes of other programs."""
    for image in sorted(VOLUMES.glob('*.img')):
        if not image.name.startswith('refused'):
            pages.want(image)
    for packed in sorted(VOLUMES.glob('small/*.gz')):
        pages.want(pages.image(packed.name.split('.')[0], gzip.decompress(packed.read_bytes())))


def compare_names(pages):
    """Names with each character that a name may have, in files and folders, with markup among them, and types of any byte."""
    letters = [chr(it) for it in range(32, 127) if chr(it) not in ':`']
    names = [f'{one}{one}x{one}' for one in letters if not one.islower()] + ['<b>bold</b>', '</li></ul>', '&amp;', '&lt;script&gt;', '"><script>', "' onclick='", '<!--', '-->',
                                                                           '&#39;', ']]>', '&', 'a&b;c', '</title>', '</summary>', '<br/>', '<?php']
    calls = [f'{"mkdir" if n % 3 else "create"}\t2\t{name}' for n, name in enumerate(names)]
    kinds = ['"<&>\'"<&', 'a\tb\0\x7f\\ c', bytes(range(128, 136)).decode('latin-1'), bytes(range(248, 256)).decode('latin-1')]
    for n, kind in enumerate(kinds):
        calls += [f'create\t2\tkind {n}', f'setinfo\t2\tkind {n}\t{n}\t3029529600\t4294967295\t{kind.encode("latin-1").hex() + "00" * 24}']
    status, text = told('new', pages.folder / 'names.img', '</h1>&"\'<i>', 800, 200, 4, '--now', 3_786_912_000)
    ensure(status == 0, f'new ends with {status}: {text}')
    _, rows = pages.want(pages.changed('names', (pages.folder / 'names.img').read_bytes(), calls, 3_786_912_000))
    ensure(len(rows) == len(names) + len(kinds) + 1, f'{len(rows)} items')


def compare_deep(pages):
    """Folders in one another, each with a file before and one behind the folder in it."""
    calls, above, number = [], ROOT, FIRST_FREE
    for n in range(130):
        calls += [f'mkdir\t{above}\tm{n}', f'create\t{above}\ta{n}', f'create\t{above}\tz{n}']
        above, number = number, number + 3
    pages.want(pages.changed('deep', new_volume(4_000, 2_048, 4), calls), are_deep=True)


def compare_many(pages, count):
    """A volume of so many items in folders, and one of files in pieces: their pages are short, beside the names."""
    volume = Volume(10 + count // 1_000)
    plain_volume(volume, count)
    volume.write(pages.folder / 'many.img')
    page, rows = pages.want(pages.folder / 'many.img')
    ensure(len(rows) == 1 + count, f'{len(rows)} items')
    names = sum(len(path.rpartition(':')[2]) for path, _, _ in rows)
    items = page.index(b'<section id="blocks">') - page.index(b'<ul id="items">') + page.index(b'<p id="chosen">') - page.index(b'<p id="extents"')
    ensure(items - names <= 480 * len(rows), f'{items} bytes for {len(rows)} items and their extents, whose names have {names}')

    volume = Volume(10)
    cut_files(volume, min(count, 1_000))
    volume.write(pages.folder / 'pieces.img')
    pages.want(pages.folder / 'pieces.img')
    return (items - names) / len(rows)


def compare_ways(pages):
    """A page by --volume is that of the bytes by themselves; words, faults and full devices."""
    volume = (VOLUMES / 'hfsutils-800k.img').read_bytes()
    wanted = told('page', VOLUMES / 'hfsutils-800k.img')
    for name, content in {'map': in_map(volume, 512), 'copy': in_disk_copy(volume)}.items():
        image = pages.image(name, content)
        for ways, given in (((image,), None), (('/dev/stdin',), content)):
            status, page = told('page', *ways, '--volume', 1, given=given)
            page = renamed(page, 'stdin' if given else image.name, 'hfsutils-800k.img')
            ensure((status, page) == wanted, f'page of a volume in a {name}, {"out of a pipe" if given else "by its path"}')
        ensure(told('page', image, '--volume', 2) == (2, b'no volume 2\n') == told('page', image, '--volume', 2), f'page of volume 2 of a {name}')
    absent = pages.folder / 'absent.img'
    ensure(told('page', absent) == (4, f'cannot read {absent}\n'.encode()), 'page of a file that is not there')
    for words in ((), (absent, '--format', 'csv'), (absent, absent)):
        ensure(subprocess.run([TOOL, 'page', *words], capture_output=True, timeout=60).returncode == 1, f'page {words}')


def compare_refused(pages):
    """The page of a refused image in which nothing is found has the fault, as `ls` tells it, and what it means."""
    new = bytes(new_volume())
    length = 'a volume has at least 1,536 bytes and at most 2,147,483,648'
    cases = {'short': (new[:1535], 'image too short', length), 'empty': (b'', 'image too short', length),
             'zeros': (bytes(32_768), 'not an HFS volume (-57)', 'no HFS volume begins here; hfs_tool volumes FILE looks for one inside, and hfs_tool rescue for what remains of one')}
    for name, (content, fault, meaning) in cases.items():
        image = pages.image(f'refused-{name}', content)
        ensure(told('ls', image) == (2, f'{fault}\n'.encode()), f'ls of {name} prints {told("ls", image)}')
        document = Document(pages.printed(image, 2).decode('utf-8'))
        pages.want_dress(document, 'Refused')
        texts = [it.text for it in document.top.only('main').elements if it.tag != 'dl']
        rows = [[it.text for it in row.elements] for row in document.top.only('dl').elements]
        ensure(texts == ['Refused', fault, meaning, f'Printed by {VERSION}'], f'the page of {name} says {texts}')
        ensure(rows == [['Check', 'refused'], ['Image', image.name]], f'the page of {name} says {rows}')
        pages.count += 1
    with open(pages.folder / 'huge.img', 'wb') as huge:
        huge.truncate(2_147_483_648 + 512)
    document = Document(told('page', pages.folder / 'huge.img')[1].decode('utf-8'))
    ensure([it.text for it in document.top.only('main').elements if it.tag != 'dl'] == ['Refused', 'image too large', length, f'Printed by {VERSION}'],
           'the page of an image that is too large')


def compare_remains(pages):
    """The page of a refused image of which something is found has the fault and what it means too, and the fault stands on standard
    error; what else it has is wanted by refused_disks.py."""
    new = bytes(new_volume())
    damaged = 'the disk is damaged; hfs_tool rescue takes off what is there'
    counts = 'counts are wrong, the files may be whole; hfs_tool repair mends counts, and hfs_tool rescue takes the files off as they are'
    cases = {'cut': (new[:61 * 512], 'bad master directory block M4 (-60)', damaged),
             'miscounted': (new[:MDB + 87] + b'\1' + new[MDB + 88:], 'check C10 at 3', counts),
             'unnamed': ((VOLUMES / 'refused-icon.img').read_bytes(), 'check C7 at 4', 'the disk may be sound: it has a name that this program does not take; hfs_tool rescue takes its files off'),
             'bitmap': (new[:1_536] + b'\0' * 512 + new[2_048:], 'check C12 at 0', damaged)}
    for name, (content, fault, meaning) in cases.items():
        image = pages.image(f'refused-{name}', content)
        page = pages.printed(image, told('rescue', image, '--list')[0], f'{fault}\n'.encode())
        document = Document(page.decode('utf-8'))
        pages.want_dress(document, characters(content[MDB + 37:][:content[MDB + 36]]))
        texts = [it.text for it in document.top.only('main').elements if it.tag == 'p']
        ensure(texts == [fault, meaning], f'the page of {name} says {texts}')
        pages.count += 1


def compare_links(pages):
    """With the URL of a bag each file's name is a link to the file in it, whose path is that which `take` gives it, and nothing else
    changes; URLs with another scheme than http and https are refused."""
    for image in (pages.folder / 'names.img', VOLUMES / 'hfsutils-1440k-names.img', pages.folder / 'parts.img'):
        bag = pages.folder / f'{image.stem}.bag'
        status, text = told('take', image, bag)
        ensure(status == 0, f'take of {image.name} ends with {status}: {text}')
        files = {str(it.relative_to(bag)) for it in (bag / 'data').rglob('*') if it.is_file() and not it.name.startswith('._')}
        plain_page = told('page', image)[1]
        for base, start in (('bag', 'bag/'), ('https://example.org/a b&c/', 'https://example.org/a b&c/'), ('../x?y:z', '../x?y:z/')):
            status, page = told('page', image, '--base', base)
            ensure(status == 0, f'page of {image.name} with links ends with {status}')
            hrefs = [it.attributes['href'] for it in items_list(Document(page.decode('utf-8'))).all('a')]
            ensure(all(it.startswith(start) for it in hrefs), f'the links of {image.name} lead elsewhere than {start}')
            paths = [unquote(it[len(start):]) for it in hrefs]
            ensure_same(sorted(paths), sorted(files), f'{image.name}, the links')
            ensure_same([it[len(start):] for it in hrefs], [quote(it, safe='/-._~') for it in paths], f'{image.name}, how links are written')
            ensure(re.sub(rb'<b><a href="[^"]*">([^<]*)</a></b>', rb'<b>\1</b>', page) == plain_page, f'the page of {image.name} with links is another one')
    for base in ('javascript:alert(1)', 'java\nscript:alert(1)', 'JAVASCRIPT:x', 'ftp://example.org/', 'data:text/html,x', ' javascript:x', 'x:/y', ':', 'HTTP:x'):
        ended = told('page', VOLUMES / 'hfsutils-800k.img', '--base', base)
        ensure(ended == (1, b'--base wants a URL that begins with http: or https:, or is relative\n'), f'page with links to {base!r} ends with {ended}')


def compare_digests(pages):
    """With --digest the page has the digest of the image, or of the volume in it, and nothing else changes."""
    volume = (VOLUMES / 'hfsutils-800k.img').read_bytes()
    within = pages.image('digested', in_map(volume, 512))
    refused = VOLUMES / 'refused-icon.img'
    for image, words, content, errors in ((VOLUMES / 'hfsutils-800k.img', (), volume, b''), (within, ('--volume', 1), volume, b''),
                                          (refused, (), refused.read_bytes(), b'check C7 at 4\n'), (pages.image('odd', volume + b'x'), (), volume + b'x', b'')):
        status, page = told('page', image, *words, '--digest', errors=errors)
        row = f'<div><dt>SHA-256</dt><dd>{hashlib.sha256(content).hexdigest()}</dd></div>\n'.encode()
        plain_page = told('page', image, *words, errors=errors)
        ensure(page.count(row) == 1 and (status, page.replace(row, b'')) == plain_page, f'the page of {image.name} has no digest')
    piped = told('page', '/dev/stdin', '--digest', given=volume)
    ensure((piped[0], renamed(piped[1], 'stdin', 'hfsutils-800k.img')) == told('page', VOLUMES / 'hfsutils-800k.img', '--digest'), 'a digest out of a pipe')


def main():
    parser = argparse.ArgumentParser(description=__doc__, formatter_class=argparse.RawDescriptionHelpFormatter)
    parser.add_argument('--items', type=int, default=6_000, help='how many items the large volume has')
    parser.add_argument('--kept', type=Path, help='a folder that keeps the pages of some volumes')
    words = parser.parse_args()
    with tempfile.TemporaryDirectory() as folder:
        pages = Pages(Path(folder))
        try:
            compare_laid(pages)
            compare_others(pages)
            compare_names(pages)
            compare_deep(pages)
            compare_ways(pages)
            compare_refused(pages)
            compare_remains(pages)
            compare_links(pages)
            compare_digests(pages)
            each = compare_many(pages, words.items)
            if words.kept:
                words.kept.mkdir(parents=True, exist_ok=True)
                kept = [*pages.folder.glob('*.img'), *VOLUMES.glob('*.img')]
                for image in kept:
                    page = subprocess.run([TOOL, 'page', image], stdout=subprocess.PIPE, stderr=subprocess.DEVNULL, timeout=600).stdout
                    (words.kept / f'{image.stem}.html').write_bytes(page)
        except Difference as differs:
            print(f'the pages differ: {differs}')
            return 1
        print(f'{pages.count} pages, {pages.items} items, {sum(pages.parts.values())} cells, {each:.0f} bytes for an item')
    return 0


if __name__ == '__main__':
    sys.exit(main())
