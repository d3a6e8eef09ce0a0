"""What is to be answered of a volume, by the bytes of its image: the items as answers have them, and each call that reads."""
from dataclasses import dataclass
from typing import Iterator

from catalog_records import FILE, FILE_THREAD, Catalog, Record
from driver.calls import Call
from driver.image import DATA_FORK, RESOURCE_FORK

# The most bytes that one call reads.
PIECE = 65_536
NOTHING = '-'
FORKS = {'data': DATA_FORK, 'res': RESOURCE_FORK}
NO_ITEM_NAMES = ('', 'x' * 32, 'a:b', '`')
ABSENT_NAME = 'There is no item of such a name'

Question = tuple[Call, str]


def name_of(record: Record) -> str:
    return record.name.decode('ascii')


@dataclass(frozen=True)
class Item:
    """An item as answers tell of it."""
    is_folder: bool
    id: int
    parent: int
    created: int
    modified: int
    backup: int
    is_locked: bool
    has_id: bool
    # The valence of a folder and 0, or the lengths of both forks of a file.
    counts: tuple[int, int]
    finder: bytes
    name: str

    @property
    def text(self) -> str:
        numbers = (self.id, self.parent, self.created, self.modified, self.backup, int(self.is_locked), int(self.has_id), *self.counts)
        return ' '.join(['d' if self.is_folder else 'f', *map(str, numbers), self.finder.hex(), self.name])

    @property
    def info(self) -> str:
        """The code and the value of an answer that tells of the item."""
        return f'0\tinfo {self.text}'


def item_of(catalog: Catalog, record: Record) -> Item:
    """What is told of an item with this record."""
    thread = catalog.threads.get(record.id)
    has_id = thread is not None and thread.kind == FILE_THREAD
    counts = record.lengths if record.kind == FILE else (record.valence, 0)
    return Item(record.is_folder, record.id, record.parent, *record.dates, record.is_locked, has_id, counts, record.finder, name_of(record))


def list_text(catalog: Catalog, children: list[Record]) -> str:
    return ''.join([f'0\tlist {len(children)}', *(f'\n\t{item_of(catalog, it).text}' for it in children)])


def refused(code: int) -> str:
    return f'{code}\t{NOTHING}'


def of_item(catalog: Catalog, item: Record, index: int) -> Iterator[Question]:
    """The calls that tell of a folder's child at that place."""
    told = item_of(catalog, item).info
    yield Call.of('indexed', item.parent, index), told
    yield Call.of('info', item.parent, name_of(item).swapcase()), told
    if item.is_folder:
        yield Call.of('read', item.parent, name_of(item), 'data', 0, 1), refused(-43)
        return
    for fork, place in FORKS.items():
        yield from of_fork(item, fork, catalog.fork(item, place))


def of_fork(file: Record, fork: str, content: bytes) -> Iterator[Question]:
    """The calls that read a fork piece by piece to its end, which the last one meets, and beyond
    it."""
    for offset in range(0, len(content) + 1, PIECE):
        piece = content[offset:offset + PIECE]
        code = 0 if len(piece) == PIECE else -39
        yield Call.of('read', file.parent, name_of(file), fork, offset, PIECE), f'{code}\t{bytes_text(piece)}'
    yield Call.of('read', file.parent, name_of(file), fork, len(content), 0), '0\tbytes'
    yield Call.of('read', file.parent, name_of(file), fork, len(content) + 1, 0), '-39\tbytes'
    yield Call.of('read', file.parent, name_of(file), fork, 0, PIECE + 1), refused(-50)


def bytes_text(content: bytes) -> str:
    return f'bytes {content.hex()}' if content else 'bytes'


def of_folder(catalog: Catalog, folder: Record) -> Iterator[Question]:
    """The calls that tell of a folder and of all that it holds."""
    number, children = folder.id, catalog.children(folder.id)
    yield Call.of('dirinfo', number), item_of(catalog, folder).info
    yield Call.of('list', number), list_text(catalog, children)
    yield Call.of('indexed', number, 0), refused(-50)
    for index, child in enumerate(children, 1):
        yield from of_item(catalog, child, index)
    yield Call.of('indexed', number, len(children) + 1), refused(-43)
    yield Call.of('indexed', number, 4_294_967_295), refused(-43)
    yield Call.of('info', number, ABSENT_NAME), refused(-43)
    yield Call.of('resolve', number), refused(-1302)


def of_no_folder(catalog: Catalog, number: int) -> Iterator[Question]:
    """The calls that tell of an ID that is no folder's."""
    for word, *fields in (('dirinfo', ), ('list', ), ('indexed', 1), ('info', ABSENT_NAME)):
        yield Call.of(word, number, *fields), refused(-120)
    yield Call.of('indexed', number, 0), refused(-50)
    file, thread = catalog.by_id.get(number), catalog.threads.get(number)
    yield Call.of('resolve', number), f'0\tplace {file.parent} {name_of(file)}' if file and thread else refused(-1300)


def questions(catalog: Catalog) -> list[Question]:
    """Each call that reads with what it is to be answered: of each ID from 0 to behind the next
    one, and of each item in both its forks."""
    found = [(Call.of('info', 2, it), refused(-37)) for it in NO_ITEM_NAMES]
    for number in range(catalog.image.next_id + 2):
        item = catalog.by_id.get(number)
        found += of_folder(catalog, item) if item is not None and item.is_folder else of_no_folder(catalog, number)
    return found


def first_difference(asked: list[Question], told: list[str]) -> str:
    """Which call is answered otherwise than it should be, or '' where none is."""
    for (call, wanted), found in zip(asked, told, strict=True):
        if found != wanted:
            return f'{call.line().strip()!r} is answered {found[:300]!r}, where {wanted[:300]!r} is wanted'
    return ''
