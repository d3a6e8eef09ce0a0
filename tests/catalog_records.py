"""The records of a volume's catalog and the forks of its files, read from the bytes of a sound image by the layout of the format."""
from dataclasses import dataclass
from functools import cached_property

from driver.image import DATA_FORK, RESOURCE_FORK, Image, extents_at, number_at

FOLDER, FILE, FOLDER_THREAD, FILE_THREAD = 1, 2, 3, 4
# Where a folder's record and a file's have their ID and the first of their three dates.
IDS = {FOLDER: 6, FILE: 20}
DATES = {FOLDER: 10, FILE: 44}
# Where a file's record has its flags, and the bit that locks it.
FLAGS, LOCKED = 2, 0x01


@dataclass(frozen=True)
class Record:
    """A record of the catalog: its key's parent and name, and its body."""
    parent: int
    name: bytes
    body: bytes

    @property
    def kind(self) -> int:
        return self.body[0]

    @property
    def is_folder(self) -> bool:
        return self.kind == FOLDER

    @property
    def is_item(self) -> bool:
        return self.kind in (FOLDER, FILE)

    @property
    def id(self) -> int:
        """The ID of an item, or that of a thread's item."""
        return number_at(self.body, IDS[self.kind], 4) if self.is_item else self.parent

    @property
    def valence(self) -> int:
        """How many children a folder has."""
        return number_at(self.body, 4, 2)

    @property
    def is_locked(self) -> bool:
        """Whether it is a locked file."""
        return self.kind == FILE and bool(self.body[FLAGS] & LOCKED)

    @property
    def dates(self) -> tuple[int, int, int]:
        """When an item was created, modified and backed up."""
        created, modified, backup = (number_at(self.body, DATES[self.kind] + 4 * it, 4) for it in range(3))
        return created, modified, backup

    @property
    def finder(self) -> bytes:
        """The 32 Finder bytes of an item."""
        return self.body[22:54] if self.is_folder else self.body[4:20] + self.body[56:72]

    @property
    def lengths(self) -> tuple[int, int]:
        """The bytes of a file's data fork and of its resource fork."""
        return number_at(self.body, 26, 4), number_at(self.body, 36, 4)


class Catalog:
    """The catalog of a sound image."""

    def __init__(self, content: bytes):
        self.image = Image(content)

    @cached_property
    def records(self) -> list[Record]:
        """All records, in order."""
        return [Record(number_at(key, 2, 4), key[7:7 + key[6]], body) for key, body in self.image.catalog.entries()]

    @cached_property
    def items(self) -> list[Record]:
        """All items but the root, in order."""
        return [it for it in self.records if it.is_item and it.parent != 1]

    @cached_property
    def root(self) -> Record:
        return next(it for it in self.records if it.is_item and it.parent == 1)

    @cached_property
    def by_id(self) -> dict[int, Record]:
        return {it.id: it for it in [self.root, *self.items]}

    @cached_property
    def threads(self) -> dict[int, Record]:
        """The threads, by the IDs of their items."""
        return {it.parent: it for it in self.records if not it.is_item}

    @property
    def files(self) -> list[Record]:
        return [it for it in self.items if it.kind == FILE]

    @property
    def folders(self) -> list[Record]:
        return [it for it in self.items if it.is_folder]

    def children(self, folder: int) -> list[Record]:
        return [it for it in self.items if it.parent == folder]

    def walked(self) -> list[Record]:
        """All items, folder by folder: those of the root, and behind them those of the folders
        among them, in their order."""
        found, waiting = [], [2]
        while waiting:
            children = self.children(waiting.pop())
            found += children
            waiting += [it.id for it in reversed(children) if it.is_folder]
        return found

    def fork(self, file: Record, fork: int) -> bytes:
        """The bytes of a file's fork."""
        extents = extents_at(file.body, 74 if fork == DATA_FORK else 86) + self.image.overflow.get((file.id, fork), [])
        blocks = self.image.logical(extents)
        content = b''.join(self.image.block(it) for it in blocks)
        return content[:file.lengths[0 if fork == DATA_FORK else 1]]

    def forks(self, file: Record) -> tuple[bytes, bytes]:
        return self.fork(file, DATA_FORK), self.fork(file, RESOURCE_FORK)
