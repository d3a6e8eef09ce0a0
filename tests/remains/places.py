"""The items that remain, and where each is written below the payload's folder."""
from dataclasses import dataclass
from typing import Optional, Union

from remains.blocks import Extents, extents_of, number
from remains.trees import DATA, FOLDER, FOLDER_THREAD, RESOURCE, CatalogRecord

ROOT, ROOTS_PARENT = 2, 1
# The most bytes of a folder's path.
LONGEST = 800
DEVICES = {'CON', 'PRN', 'AUX', 'NUL', *(f'{it}{n}' for it in ('COM', 'LPT') for n in range(1, 10))}
UPPER = {n: n - 32 for n in range(ord('a'), ord('z') + 1)}


def host_name(name: bytes) -> str:
    """How a name is called on any file system."""
    if not name:
        return '='
    text = ''
    is_device = name.split(b'.')[0].decode('latin-1').upper() in DEVICES
    for place, byte in enumerate(name):
        is_first, is_last = place == 0, place == len(name) - 1
        if (byte < 0x20 or byte == 0x7F or byte in b'%=/\\:*?"<>|' or is_first and (is_device or byte == 0x2E)
                or is_last and byte in b'. '):
            text += f'={byte:02X}'
        else:
            text += bytes([byte]).decode('mac_roman')
    return text


@dataclass
class Item:
    """A folder or a file that remains, by its record."""
    number: int
    record: CatalogRecord
    path: str = ''
    is_root: bool = False
    # The names from the payload down to it; none of the root, and None where it is old or lost.
    names: Optional[list[bytes]] = None

    @property
    def is_folder(self) -> bool:
        return self.record.kind == FOLDER

    @property
    def id(self) -> int:
        return self.record.id

    @property
    def parent(self) -> int:
        return self.record.parent

    @property
    def name(self) -> bytes:
        return self.record.name

    @property
    def suffix(self) -> str:
        return f'=r{self.number}'

    @property
    def length(self) -> tuple[int, int]:
        """The logical lengths of a file's forks."""
        return number(self.record.body, 26, 4), number(self.record.body, 36, 4)

    @property
    def extents(self) -> tuple[Extents, Extents]:
        """The extents of a file's forks that its record has."""
        return extents_of(self.record.body[74:86]), extents_of(self.record.body[86:98])


@dataclass
class NamedFolder:
    """A folder that is known by its thread alone."""
    id: int
    parent: int
    name: bytes
    path: str = ''

    @property
    def suffix(self) -> str:
        return f'=t{self.id}'


FORKS = (DATA, RESOURCE)
Placed = Union[Item, NamedFolder]


def items_of(records: list[CatalogRecord]) -> list[Item]:
    """The items: records of folders and files with a name, but for what stands there a second time, and for old ones whose number
    is taken."""
    items, equal, numbers = [], set(), set()
    for it in records:
        if not it.is_item or not it.name:
            continue
        what = (it.parent, it.name, it.body)
        if what in equal or it.is_old and it.id in numbers:
            continue
        equal.add(what)
        numbers.add(it.id)
        items.append(Item(len(items), it))
    root = next((it for it in items if it.is_folder and (it.id, it.parent) == (ROOT, ROOTS_PARENT)), None)
    if root is not None:
        root.is_root = True
    return items


def named_folders(records: list[CatalogRecord], items: list[Item]) -> list[NamedFolder]:
    """The folders that threads alone name, in the order of their records."""
    known = {ROOT, *(it.id for it in items if it.is_folder)}
    found = []
    for it in records:
        if it.kind == FOLDER_THREAD and not it.name and 1 <= it.body[14] <= 31 and it.parent not in known:
            known.add(it.parent)
            found.append(NamedFolder(it.parent, number(it.body, 10, 4), it.body[15:15 + it.body[14]]))
    return found


class Places:
    """Where items and named folders lie: their paths are set."""

    def __init__(self, items: list[Item], named: list[NamedFolder]):
        self.items, self.named = items, named
        # The folder of each number; that of the root is the payload.
        self.folders: dict[int, Placed] = {}
        for it in [*items, *named]:
            if (isinstance(it, NamedFolder) or it.is_folder) and it.id != ROOT:
                self.folders.setdefault(it.id, it)
        self.entries = self.all_entries()
        self.endless = self.endless_folders()
        # The paths of folders, by their numbers, as they count for what lies in them.
        self.paths: dict[int, str] = {ROOT: ''}
        for it in self.folders:
            self.place_chain(it)
        for it in [*items, *named]:
            it.path = self.path_of(it)
        for it in items:
            it.names = self.names_of(it)

    def all_entries(self) -> dict[int, str]:
        """The entry of each, by its identity: two in one folder's number differ in more than the case of letters."""
        taken, entries = set(), {}
        for it in [*self.items, *self.named]:
            own = host_name(it.name)
            key = (it.parent, own.translate(UPPER))
            entries[id(it)] = own + it.suffix if key in taken else own
            taken.add(key)
        return entries

    def endless_folders(self) -> set[int]:
        """The numbers of folders whose chain of parents comes to one of its folders a second time."""
        ends: dict[int, bool] = {}
        for start in self.folders:
            chain, on_chain, at = [], set(), start
            while at in self.folders and at not in ends and at not in on_chain:
                chain.append(at)
                on_chain.add(at)
                at = self.folders[at].parent
            has_end = at not in on_chain and ends.get(at, True)
            ends.update((it, has_end) for it in chain)
        return {it for it, has_end in ends.items() if not has_end}

    def place_chain(self, start: int) -> None:
        """Sets the path of a folder, and before it of those that it lies in."""
        waiting, at = [], start
        while at not in self.paths:
            waiting.append(at)
            parent = self.folders[at].parent
            if at in self.endless or parent != ROOT and parent not in self.folders:
                break
            at = parent
        for it in reversed(waiting):
            folder = self.folders[it]
            lost = f'=lost/{folder.parent}/{self.entries[id(folder)]}'
            if it in self.endless or folder.parent not in self.paths:
                self.paths[it] = lost
                continue
            inside = below(self.paths[folder.parent], self.entries[id(folder)])
            self.paths[it] = inside if len(inside.encode()) <= LONGEST else lost

    def path_of(self, it: Placed) -> str:
        if isinstance(it, Item) and it.is_root:
            return ''
        if it.id in self.folders and self.folders[it.id] is it:
            path = self.paths[it.id]
        elif it.parent in self.paths:
            path = below(self.paths[it.parent], self.entries[id(it)])
        else:
            path = f'=lost/{it.parent}/{self.entries[id(it)]}'
        return f'=old/{path}' if isinstance(it, Item) and it.record.is_old else path

    def names_of(self, it: Item) -> Optional[list[bytes]]:
        if it.is_root or it.path.split('/')[0] in ('=old', '=lost'):
            return [] if it.is_root else None
        names, above = [it.name], it.parent
        while above != ROOT:
            names.insert(0, self.folders[above].name)
            above = self.folders[above].parent
        return names


def below(folder: str, entry: str) -> str:
    return f'{folder}/{entry}' if folder else entry
