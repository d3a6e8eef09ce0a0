"""What is put on a disk from folders and files of a host, written from the manual's chapter on it and from docs/FORMATS.md, without any
of the program's code: AppleDouble and MacBinary files, names, the order of what is put, what is kept of each item, and why one can't be put."""
import binascii
import csv
import os
import stat
import struct
from dataclasses import dataclass, field, replace
from datetime import datetime
from typing import Iterator, Optional

from driver.calls import folded

# Seconds from the clock of the Macintosh to that of Unix, and to the year 2000, from which AppleDouble counts.
UNIX, YEAR_2000 = 2_082_844_800, 3_029_529_600
LATEST, LONGEST = (1 << 32) - 1, (1 << 31) - 1
FILE, FOLDER, OTHER = 'file', 'folder', 'other'
APPLE_DOUBLE = bytes.fromhex('0005160700020000')
FINDER, DATES, RESOURCE = 9, 8, 2


class CannotRead(Exception):
    """What has this path can't be read."""


class NotText(Exception):
    """A name in the folder of this path is not UTF-8."""


@dataclass(frozen=True)
class Span:
    """So many bytes of a file, from a place on."""
    path: str = ''
    start: int = 0
    length: int = 0

    def read(self) -> bytes:
        return bytes_at(self.path, self.start, self.length) if self.length else b''


def bytes_at(path: str, start: int, length: int) -> bytes:
    with open(path, 'rb') as file:
        file.seek(start)
        return file.read(length)


# ---- AppleDouble and MacBinary files

@dataclass(frozen=True)
class Known:
    """What a file tells of an item: what the Finder keeps, created, modified and backup where they are told, the lock, and where its forks lie."""
    finder: bytes
    dates: Optional[tuple[int, int, int]]
    resource: Span
    data: Span = Span()
    locked: bool = False
    name: bytes = b''


def apple_double(*parts: tuple[int, bytes], filler: bytes = bytes(16), gap: int = 0, laid: Optional[list[int]] = None) -> bytes:
    """An AppleDouble file of these parts, each its kind and its bytes, in this order, or their bytes in the order of these places."""
    place, places, body = 26 + 12 * len(parts) + gap, {}, bytes(gap)
    for at in laid or range(len(parts)):
        places[at], place, body = place, place + len(parts[at][1]), body + parts[at][1]
    entries = b''.join(struct.pack('>III', kind, places[at], len(content)) for at, (kind, content) in enumerate(parts))
    return APPLE_DOUBLE + filler + struct.pack('>H', len(parts)) + entries + body


def read_apple_double(path: str) -> Optional[Known]:
    size = os.path.getsize(path)
    head = bytes_at(path, 0, 26)
    count = int.from_bytes(head[24:26], 'big')
    if len(head) < 26 or head[:8] != APPLE_DOUBLE or 26 + 12 * count > size:
        return None
    parts = {}
    for entry in struct.iter_unpack('>III', bytes_at(path, 26, 12 * count)):
        if entry[1] + entry[2] > size:
            return None
        parts.setdefault(entry[0], Span(path, *entry[1:]))
    finder, dates = parts.get(FINDER, Span()), parts.get(DATES, Span())
    told = None
    if dates.length >= 16:
        told = tuple(double_date(*it) for it in struct.iter_unpack('>i', replace(dates, length=12).read()))
    return Known(replace(finder, length=min(32, finder.length)).read().ljust(32, b'\0'), told, parts.get(RESOURCE, Span()))


def double_date(seconds: int) -> int:
    """A date of AppleDouble, in seconds from 2000 on or before it; the least number is none."""
    return 0 if seconds == -(1 << 31) else min(seconds + YEAR_2000, LATEST)


def filled(content: bytes) -> bytes:
    return content + bytes(-len(content) % 128)


def mac_binary(name: bytes, info: bytes, data: bytes = b'', resource: bytes = b'', locked: bool = False, dates: tuple[int, int] = (0, 0),
               second: bytes = b'', version: int = 129) -> bytes:
    """A MacBinary II file, or III by the version 130, with a second header where one is given. Its check is that of Python."""
    head = bytearray(128)
    head[1:2 + len(name)] = bytes([len(name)]) + name
    head[65:73], head[73], head[75:81], head[101] = info[:8], info[8], info[10:16], info[9]
    head[81] = locked
    head[83:99] = struct.pack('>IIII', len(data), len(resource), *dates)
    head[120:124] = struct.pack('>HBB', len(second), version, 129)
    head[124:126] = binascii.crc_hqx(bytes(head[:124]), 0).to_bytes(2, 'big')
    return bytes(head) + filled(second) + filled(data) + filled(resource)


def read_mac_binary(path: str) -> Optional[Known]:
    head = bytes_at(path, 0, 128)
    if len(head) < 128 or head[0] or not 1 <= head[1] <= 63 or head[74] or head[82] or not {head[122], head[123]} <= {129, 130}:
        return None
    data, resource, created, modified = struct.unpack('>IIII', head[83:99])
    start = 128 + -(-int.from_bytes(head[120:122], 'big') // 128) * 128
    behind = start + -(-data // 128) * 128
    if binascii.crc_hqx(head[:124], 0) != int.from_bytes(head[124:126], 'big') or os.path.getsize(path) != behind + -(-resource // 128) * 128:
        return None
    info = head[65:74] + head[101:102] + head[75:81]
    return Known(info + bytes(16), (created, modified, 0), Span(path, behind, resource), Span(path, start, data), bool(head[81] & 1),
                 head[2:2 + head[1]])


# ---- names and dates

def is_name_letter(letter: int) -> bool:
    return 32 <= letter <= 126 and letter not in b':`'


def letters_of(text: str) -> list[int]:
    """The letters that a host's name says: `=` and two upper-case digits are a byte, any other character its own byte; 0 where it has none."""
    letters, at = [], 0
    while at < len(text):
        digits = text[at + 1:at + 3]
        if text[at] == '=' and len(digits) == 2 and set(digits) <= set('0123456789ABCDEF'):
            letters.append(int(digits, 16))
            at += 3
            continue
        encoded = text[at].encode('mac_roman', 'replace')
        letters.append(encoded[0] if text[at] == '?' or encoded != b'?' else 0)
        at += 1
    return letters


def item_name(letters, rename: bool) -> Optional[bytes]:
    """The name that an item gets of these letters, where it gets one."""
    if 1 <= len(letters) <= 31 and all(map(is_name_letter, letters)):
        return bytes(letters)
    return bytes(it if is_name_letter(it) else ord('_') for it in letters[:31]) or b'_' if rename else None


def host_date(nanoseconds: int) -> int:
    return max(0, min(nanoseconds // 1_000_000_000 + UNIX, LATEST))


def moment_date(text: str) -> int:
    """The date of a moment in a table; none is 0."""
    return int((datetime.fromisoformat(text) - datetime(1904, 1, 1)).total_seconds()) if text else 0


# ---- what comes

@dataclass(frozen=True)
class Seen:
    """What the system shows of a path."""
    kind: str
    size: int
    modified: int


def seen(path: str, follow: bool = False) -> Optional[Seen]:
    try:
        told = os.stat(path, follow_symlinks=follow)
    except (FileNotFoundError, NotADirectoryError):
        return None
    except OSError:
        raise CannotRead(path) from None
    kind = FILE if stat.S_ISREG(told.st_mode) else FOLDER if stat.S_ISDIR(told.st_mode) else OTHER
    return Seen(kind, told.st_size, host_date(told.st_mtime_ns))


@dataclass
class Item:
    """What is to come: its path on the host, the place in the list of its folder, its name on the disk, and all that is kept of it. Where it can't
    be put, why, and by which path that is told."""
    path: str
    parent: Optional[int]
    is_folder: bool
    name: Optional[bytes]
    finder: bytes
    locked: bool
    dates: tuple[int, int, int]
    data: Span
    resource: Span
    why: Optional[str] = None
    told: str = ''

    @property
    def forks(self) -> tuple[Span, Span]:
        return self.data, self.resource

    @property
    def key(self) -> str:
        """Its name as names are compared; none where it has no name."""
        return folded((self.name or b'').decode('latin-1'))


def entry_path(folder: str, name: str) -> str:
    return folder + name if folder.endswith('/') else f'{folder}/{name}'


def last_part(path: str) -> Optional[str]:
    parts = [it for it in path.split('/') if it not in ('', '.')]
    return parts[-1] if parts and parts[-1] != '..' else None


def double_beside(path: str, name: str) -> str:
    """The path of what belongs by its name to a source."""
    above = os.path.dirname(path.rstrip('/'))
    return entry_path(above, f'._{name}') if above else f'._{name}'


def is_bag(path: str) -> bool:
    tag, data = seen(entry_path(path, 'bagit.txt')), seen(entry_path(path, 'data'))
    return bool(tag and data) and (tag.kind, data.kind) == (FILE, FOLDER)


def bag_table(bag: str) -> dict[str, tuple[bool, tuple[int, int, int]]]:
    """The lock and the dates of each item of a bag, by its path."""
    table, path = {}, entry_path(bag, 'items.csv')
    if seen(path):
        with open(path, encoding='utf-8', newline='') as file:
            for row in csv.DictReader(file):
                dates = tuple(moment_date(row[it]) for it in ('created', 'modified', 'backup'))
                table[entry_path(entry_path(bag, 'data'), row['bag_path'])] = row['locked'] == 'yes', dates
    return table


@dataclass
class Walk:
    """The walk over sources: the list of what comes."""
    macbinary: bool = False
    rename: bool = False
    items: list[Item] = field(default_factory=list)
    table: dict = field(default_factory=dict)

    def over(self, sources) -> list[Item]:
        top = []
        for source in map(str, sources):
            top += self.of_source(source)
        self.add(top)
        return self.items

    def add(self, found: list[Item]) -> None:
        """Adds items of one folder, each with what lies in it behind it."""
        names = set()
        for item in found:
            if item.why is None and item.key in names:
                item.why = 'two of one name'
            names.add(item.key)
        for item in found:
            place = len(self.items)
            self.items.append(item)
            if item.is_folder and item.why is None:
                self.add(list(self.inside(item.path, place)))

    def of_source(self, path: str) -> list[Item]:
        own = seen(path, follow=True)
        if own is None:
            raise CannotRead(path)
        if own.kind == FOLDER and is_bag(path):
            self.table.update(bag_table(path))
            return list(self.inside(entry_path(path, 'data'), None))
        name = last_part(path)
        if name is None:
            item = self.plan(path, None, 'nameless', own, None, '')
            item.name, item.why = None, item.why or 'name'
            return [item]
        if name.startswith('._'):
            return [self.plan(path, None, name[2:], None, own, path)]
        beside = double_beside(path, name)
        return [self.plan(path, None, name, own, seen(beside), beside)]

    def inside(self, folder: str, parent: Optional[int]) -> Iterator[Item]:
        try:
            entries = os.listdir(os.fsencode(folder))
        except OSError:
            raise CannotRead(folder) from None
        owns, doubles = set(), set()
        for entry in entries:
            try:
                name = entry.decode('utf-8')
            except UnicodeDecodeError:
                raise NotText(folder) from None
            (doubles if name.startswith('._') else owns).add(name.removeprefix('._'))
        for name in sorted((owns | doubles) - {'.DS_Store'}, key=lambda it: it.encode('utf-8')):
            path, double = entry_path(folder, name), entry_path(folder, f'._{name}')
            yield self.plan(path, parent, name, seen(path) if name in owns else None, seen(double) if name in doubles else None, double)

    def plan(self, path: str, parent: Optional[int], name: str, own: Optional[Seen], double: Optional[Seen], double_path: str) -> Item:
        """What is planned of an item by what is there of its own, and of what belongs to it by its name."""
        binary = read_mac_binary(path) if self.macbinary and own and own.kind == FILE else None
        known = binary or (read_apple_double(double_path) if double and double.kind == FILE else None)
        modified = (own or double).modified
        is_folder = bool(own) and own.kind == FOLDER
        item = Item(path, parent, is_folder, item_name(list(binary.name) if binary else letters_of(name), self.rename), known.finder if known else bytes(32),
                    bool(known) and known.locked, known.dates if known and known.dates else (modified, modified, 0),
                    binary.data if binary else Span(path, 0, own.size) if own and own.kind == FILE else Span(),
                    known.resource if known and not is_folder else Span(), told=path)
        if path in self.table:
            item.locked, item.dates = self.table[path]
        if own and own.kind == OTHER:
            item.why = 'not a file'
        elif max(item.data.length, item.resource.length) > LONGEST:
            item.why = 'too large'
        elif double and not known:
            item.why, item.told = 'not AppleDouble', double_path
        elif item.name is None:
            item.why = 'name'
        return item
