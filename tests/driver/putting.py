"""How a list of what is put (driver/sources.py) gets its places on a volume, by which calls, and what the volume's table of items is then: written from the manual's chapter on it and from docs/CALLS.md, without any of the program's code."""
from collections import Counter
from dataclasses import dataclass
from datetime import datetime, timedelta
from typing import Optional

from driver.calls import Call, folded
from driver.image import Image, number_at
from driver.sources import Item

ROOT, PIECE = 2, 65_536
FORKS = ('data', 'res')


@dataclass(frozen=True)
class Standing:
    """An item of the volume."""
    number: int
    is_folder: bool
    locked: bool


@dataclass(frozen=True)
class Disk:
    """A volume as far as its places go: each item by its folder and its name."""
    image: Image
    items: dict[tuple[int, str], Standing]

    @classmethod
    def of(cls, content: bytes) -> 'Disk':
        image, items = Image(content), {}
        for key, body in image.catalog.entries():
            if body[0] in (1, 2):
                number = number_at(body, 6 if body[0] == 1 else 20, 4)
                items[number_at(key, 2, 4), folded(key[7:7 + key[6]].decode('latin-1'))] = Standing(number, body[0] == 1, body[0] == 2 and bool(body[2] & 1))
        return cls(image, items)

    def blocks(self, length: int) -> int:
        return -(-length // (self.image.factor * 512))


@dataclass
class Placed:
    """A list with its places: of each item the item of the volume that has its place, where there is one, and the items that can't come."""
    disk: Disk
    items: list[Item]
    target: int
    there: list[Optional[Standing]]
    refused: list[Item]

    @classmethod
    def on(cls, disk: Disk, items: list[Item], target: int, replaces: bool) -> 'Placed':
        there, refused, below = [], [], set()
        for place, item in enumerate(items):
            above = Standing(target, True, False) if item.parent is None else there[item.parent]
            stands = disk.items.get((above.number, item.key)) if above else None
            there.append(stands)
            if item.parent in below:
                below.add(place)
                continue
            if item.why is None and stands and (stands.is_folder, item.is_folder) != (True, True) and (stands.is_folder or item.is_folder or not replaces):
                item.why = 'code -48'
            if item.why:
                refused.append(item)
                below.add(place)
        return cls(disk, items, target, there, refused)

    def is_kept(self, place: int) -> bool:
        """Whether the item is a folder that is there."""
        return self.items[place].is_folder and self.there[place] is not None

    @property
    def wanted_blocks(self) -> int:
        return sum(self.disk.blocks(fork.length) for item in self.items for fork in item.forks)

    @property
    def blocks_given_back(self) -> int:
        return sum(len(self.disk.image.file_blocks[it.number]) for place, it in enumerate(self.there) if it and not self.items[place].is_folder)

    @property
    def lines(self) -> str:
        """What is told where all was put."""
        files = sum(not item.is_folder for item in self.items)
        made = sum(item.is_folder and not self.is_kept(place) for place, item in enumerate(self.items))
        size = sum(fork.length for item in self.items for fork in item.forks)
        free = self.disk.image.free_blocks - self.wanted_blocks + self.blocks_given_back
        return f'put\nfiles {files}\nfolders {made}\nbytes {size}\nfree {free}\n'

    def numbers(self) -> list[int]:
        """The ID of each item."""
        numbers, next_id = [], self.disk.image.next_id
        for place in range(len(self.items)):
            if self.is_kept(place):
                numbers.append(self.there[place].number)
            else:
                numbers.append(next_id)
                next_id += 1
        return numbers

    def calls(self) -> list[tuple[Call, Item]]:
        """The calls that put the list, each with its item."""
        made, opened, numbers = [], [], self.numbers()

        def folder_of(item):
            return self.target if item.parent is None else numbers[item.parent]

        def leave():
            place = opened.pop()
            if not self.is_kept(place):
                made.append((facts_call(folder_of(self.items[place]), self.items[place]), self.items[place]))

        for place, item in enumerate(self.items):
            while opened and opened[-1] != item.parent:
                leave()
            if item.is_folder:
                opened.append(place)
                if not self.is_kept(place):
                    made.append((Call.of('mkdir', folder_of(item), text_of(item.name)), item))
            else:
                made += [(call, item) for call in file_calls(folder_of(item), item, self.there[place])]
        while opened:
            leave()
        return made

    def rows_after(self, before: dict[str, dict], now: int) -> dict[str, dict]:
        """The rows of the table of items by their paths, of which those of the volume before are told."""
        rows = {path: dict(row) for path, row in before.items()}
        paths = {int(row['id']): path for path, row in rows.items()}
        came, numbers = Counter(), self.numbers()
        for place, item in enumerate(self.items):
            if self.is_kept(place):
                continue
            folder = self.target if item.parent is None else numbers[item.parent]
            if self.there[place] is None:
                came[folder] += 1
            else:
                del rows[paths[self.there[place].number]]
            path = f'{paths[folder]}:{plain(item.name)}'
            paths[numbers[place]] = path
            rows[path] = row_of(item, path, numbers[place], folder)
            if int(folder) not in {numbers[it] for it in range(len(self.items)) if not self.is_kept(it)}:
                rows[paths[folder]]['modified'] = moment(now)
        for folder, count in came.items():
            rows[paths[folder]]['items'] = str(int(rows[paths[folder]]['items']) + count)
        return rows


def text_of(name: bytes) -> str:
    return name.decode('ascii')


def facts_call(folder: int, item: Item) -> Call:
    return Call.of('setinfo', folder, text_of(item.name), *item.dates, item.finder.hex())


def file_calls(folder: int, item: Item, there: Optional[Standing]) -> list[Call]:
    """The calls that put a file, in the place of another where one is there."""
    name, calls = text_of(item.name), []
    if there:
        calls += [Call.of('unlock', folder, name)] if there.locked else []
        calls.append(Call.of('delete', folder, name))
    calls.append(Call.of('create', folder, name))
    calls += [Call.of('seteof', folder, name, fork, span.length) for fork, span in zip(FORKS, item.forks) if span.length]
    for fork, span in zip(FORKS, item.forks):
        content = span.read()
        calls += [Call.of('write', folder, name, fork, at, content[at:at + PIECE].hex()) for at in range(0, len(content), PIECE)]
    calls.append(facts_call(folder, item))
    return calls + ([Call.of('lock', folder, name)] if item.locked else [])


# ---- rows

def plain(text: bytes) -> str:
    """Plain text: a control character and the backslash are a backslash and two digits."""
    return ''.join(f'\\{it:02x}' if it < 32 or it == 127 or it == 92 else bytes([it]).decode('mac_roman') for it in text)


def moment(date: int) -> str:
    return (datetime(1904, 1, 1) + timedelta(seconds=date)).isoformat() if date else ''


def row_of(item: Item, path: str, number: int, folder: int) -> dict[str, str]:
    created, modified, backup = map(moment, item.dates)
    of_file = {'type': plain(item.finder[:4]), 'creator': plain(item.finder[4:8]), 'locked': 'yes' if item.locked else 'no', 'file_id': 'no', 'items': '',
               'data_bytes': str(item.data.length), 'resource_bytes': str(item.resource.length)}
    of_folder = dict.fromkeys(of_file, '') | {'items': '0'}
    return {'path': path, 'kind': 'folder' if item.is_folder else 'file', 'id': str(number), 'parent': str(folder), 'flags': item.finder[8:10].hex(),
            'created': created, 'modified': modified, 'backup': backup, 'finder': item.finder.hex()} | (of_folder if item.is_folder else of_file)
