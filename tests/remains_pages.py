"""What the page of a refused image is to say of what remains of it, by the model of tests/remains, and what it says. A script of tests/
imports it: it runs nothing."""
from collections import Counter

from driver.wanted import ensure, ensure_same
from page import EXTENTS, CATALOG, FIRST, FREE, LATER, MOST_CELLS, MOST_OPEN, PARTS, Document, cells_in, day_and_time, extents_in, items_list, size
from remains.bag import COLUMNS, Remains, plain, row_of
from remains.places import ROOT, Item, NamedFolder

LOST, OLD = 'Lost', 'Old'
NOTES = {'named': 'its own record is lost', 'volume': 'the record of the root is lost', LOST: 'the folders in which they lay are not found',
         OLD: 'records that are left behind, as of files that were deleted'}
NOTHING = 'nothing that was found'


class Tree:
    """Where each item and named folder stands on the page: below a folder, or below what the page adds."""

    def __init__(self, remains: Remains):
        self.remains = remains
        self.placed = [*remains.items, *remains.places.named]
        self.root = next((it for it in remains.items if it.is_root), None)
        self.inside = {}
        for it in self.placed:
            if it is not self.root:
                self.inside.setdefault(self.key(self.above(it)), []).append(it)

    @staticmethod
    def key(it):
        return it if isinstance(it, str) else id(it)

    @staticmethod
    def is_old(it) -> bool:
        return isinstance(it, Item) and it.record.is_old

    def own_path(self, it) -> str:
        return it.path[len('=old/'):] if self.is_old(it) else it.path

    def above(self, it):
        """What it stands below: a folder, the root or the volume in its place, or one of the two headings."""
        apart = OLD if self.is_old(it) else LOST
        folder = None if it.parent == ROOT else self.remains.places.folders.get(it.parent)
        if folder is None:
            return (self.root or 'volume') if it.parent == ROOT and not self.is_old(it) else apart
        if not self.own_path(it).startswith(self.own_path(folder) + '/'):
            return apart
        return OLD if self.is_old(it) and not self.is_old(folder) else folder

    def texts(self, it) -> list:
        """The texts of its row: its name and the cells beside it."""
        count = len(self.inside.get(self.key(it), ()))
        items = '1 item' if count == 1 else f'{count} items'
        if isinstance(it, str):
            name = plain(self.remains.directory.name) if it == 'volume' else it
            return [name, items, 'folder', '', NOTES[it]]
        if isinstance(it, NamedFolder):
            return [plain(it.name), items, 'folder', '', NOTES['named']]
        row = dict(zip(COLUMNS, fields_of(it, self.remains.root_name)))
        when = f'{day_and_time(row["modified"])}\n(modified)' if row['modified'] else ''
        if it.is_folder:
            return [plain(it.name), items, 'folder', when]
        both = int(row['data_bytes']) + int(row['resource_bytes'])
        verdicts = self.remains.verdicts(it)
        said = 'both forks whole' if verdicts == ['whole', 'whole'] else 'data fork {}; resource fork {}'.format(*verdicts)
        return [plain(it.name), f'{size(both)}\n(data fork {row["data_bytes"]} bytes, resource fork {row["resource_bytes"]} bytes)',
                f'{row["type"]} {row["creator"]}\n(type, creator)', when, said]

    def rows(self):
        """How deep each row stands, the number of its item if it has one, and its texts, in order."""
        tops = [self.root or 'volume', *(it for it in (LOST, OLD) if it in self.inside)]
        waiting = [(0, it) for it in reversed(tops)]
        while waiting:
            depth, it = waiting.pop()
            yield [min(depth, MOST_OPEN), str(it.number) if isinstance(it, Item) else None, self.texts(it)]
            waiting.extend((depth + 1, inside) for inside in reversed(self.inside.get(self.key(it), ())))


def fields_of(it: Item, root_name: bytes) -> list[str]:
    """The fields of its row in the table of items."""
    import csv
    return next(csv.reader([row_of(it, root_name)], strict=True))[:-1]


def texts_in(element) -> list[str]:
    """The name of an item and the texts beside it."""
    name, *others = element.elements
    ensure([it.tag for it in element.elements] in (['b', *['span'] * 3], ['b', *['span'] * 3, 'em']), f'an item of {[it.tag for it in element.elements]}')
    ensure(element.parts == element.elements, f'text between the parts of {name.text!r}')
    damaged = others[-1].tag == 'em' and others[-1].attributes == {'class': 'damaged'}
    ensure(damaged or all(not it.attributes for it in others), f'attributes beside {name.text!r}')
    ensure(damaged == others[-1].text.startswith('data fork '), f'{others[-1].text!r} is marked, or is not')
    return [name.text, *(it.text for it in others)]


def rows_in(document):
    """How deep each row stands, the number of its item if it has one, and its texts, in order."""
    waiting = [iter(items_list(document).elements)]
    while waiting:
        line = next(waiting[-1], None)
        if line is None:
            waiting.pop()
            continue
        ensure(line.tag == 'li' and list(line.attributes) in ([], ['id']), f'{line.tag} {line.attributes} among the items')
        number = line.attributes.get('id')
        ensure(number is None or number[0] == 'i', f'an item with the ID {number!r}')
        number = number and number[1:]
        if line.elements[0].tag != 'details':
            yield [len(waiting) - 1, number, texts_in(line)]
            continue
        ensure(len(line.elements) == 1, 'something beside a folder')
        summary, inside = line.elements[0].elements
        ensure(summary.tag == 'summary' and inside.tag == 'ul', f'a folder of {summary.tag} and {inside.tag}')
        yield [len(waiting) - 1, number, texts_in(summary)]
        waiting.append(iter(inside.elements))


def pieces_of(blocks) -> list[list[int]]:
    """Blocks that are there as pieces of those that follow one another: first blocks and counts."""
    pieces = []
    for block in blocks:
        if pieces and sum(pieces[-1]) == block and pieces[-1][1] < 65_535:
            pieces[-1][1] += 1
        else:
            pieces.append([block, 1])
    return pieces


def held_by(remains: Remains):
    """The pieces that the trees and the forks have, each with its part, its owner's name and its owner's number."""
    for part, tree in ((EXTENTS, remains.trees.extents), (CATALOG, remains.trees.catalog)):
        for piece in pieces_of(it for it in tree.file.blocks if remains.directory.place(it) is not None):
            yield piece, part, '', None
    for it in remains.items:
        for fork, kind in zip(remains.forks.get(it.number, ()), ('data', 'resource')):
            for place, piece in enumerate(pieces_of(fork.blocks)):
                yield piece, LATER if place else FIRST, f', {kind} fork of {plain(it.name)}', it.number


def cells_of(remains: Remains):
    """The class and the title of each cell of the picture."""
    count = remains.directory.blocks
    uses = [(FREE, '')] * count
    for (first, length), part, whose, _ in reversed(list(held_by(remains))):
        for block in range(first, min(first + length, count)):
            uses[block] = (part, whose)
    width = max(1, -(-count // MOST_CELLS))
    for first in range(0, count, width):
        shown = uses[first:first + width]
        part = min(it[0] for it in shown)
        whose = next(it[1] for it in shown if it[0] == part)
        last = first + len(shown) - 1
        blocks = f'Block {first}' if first == last else f'Blocks {first} to {last}'
        yield [f'p{part}', f'{blocks}: {NOTHING if part == FREE else PARTS[part]}{whose}']


def want_remains(page: bytes, name: str, remains: Remains, fault: str) -> None:
    """Wants of a page that it says of what remains what the model tells."""
    document = Document(page.decode('utf-8'))
    main = document.top.only('main')
    ensure(document.top.only('head').only('title').text == document.top.only('h1').text == plain(remains.directory.name), f'the title is {document.top.only("h1").text!r}')
    ensure([it.tag for it in main.elements] == ['h1', 'p', 'p', 'nav', 'dl', 'section', 'section', 'footer', 'script'], f'the parts are {[it.tag for it in main.elements]}')
    ensure(main.elements[1].text == fault and 'hfs_tool rescue' in main.elements[2].text, f'the page says {main.elements[1].text!r}, {main.elements[2].text!r}')

    rows, wanted = list(rows_in(document)), list(Tree(remains).rows())
    ensure_same(rows, wanted, 'the items')
    numbers = Counter(it[1] for it in rows if it[1] is not None)
    ensure(numbers == Counter(str(it.number) for it in remains.items), 'an item has no row, or two')

    files = [it for it in remains.items if not it.is_folder]
    whole = sum(remains.verdicts(it) == ['whole', 'whole'] for it in files)
    folders = sum(it.is_folder and not it.is_root for it in remains.items)
    facts = [[it.text for it in row.elements] for row in document.top.only('dl').elements]
    ensure_same(facts[:6], [['Check', 'refused'], ['Image', name], ['Files found', str(len(files))], ['Whole', str(whole)], ['Damaged', str(len(files) - whole)],
                            ['Folders found', str(folders)]], 'what was found')
    ensure_same(facts[-2:], [['Allocation blocks', str(remains.directory.blocks)], ['Bytes of each block', str(remains.directory.size)]], 'the blocks')

    ensure_same(list(cells_in(document)), list(cells_of(remains)), 'the picture')
    ensure_same(extents_in(document), [[number, *piece] for piece, _, _, number in held_by(remains) if number is not None], 'the extents')
