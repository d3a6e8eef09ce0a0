"""What `rescue` prints of an image, and the list of folders and files that it writes."""
import hashlib
import struct
from dataclasses import dataclass, field
from datetime import datetime, timedelta
from functools import cached_property
from typing import Optional

from remains.blocks import directory_of, number
from remains.forks import Fork, Forks
from remains.places import Item, Places, items_of, named_folders
from remains.trees import Trees

PROGRAM = 'hfs_tool 1.0.0'
# An AppleDouble file up to the length of the resource fork.
DOUBLE = bytes.fromhex('00051607' '00020000' + '00' * 16 + '0002' '00000009' '00000032' '00000020' '00000002' '00000052')
COLUMNS = ['path', 'kind', 'id', 'parent', 'type', 'creator', 'flags', 'locked', 'file_id', 'created', 'modified', 'backup', 'items', 'data_bytes',
           'resource_bytes', 'finder', 'bag_path']
NOT_WHOLE = 3


@dataclass(frozen=True)
class Source:
    """How the image is called in the bag, and what else the bag tells of it. `checked` is what `check` prints of it."""
    checked: str
    name: str = 'image'
    volume: Optional[str] = None
    has_digest: bool = True


@dataclass
class Written:
    """A folder, or a file with its bytes, that is written; its date where it has one."""
    path: str
    content: Optional[bytes] = None
    modified: int = 0


@dataclass
class Rescued:
    """How a run ends, what it prints behind the lines of the items, those lines, and what it writes in order."""
    status: int
    printed: str
    lines: str = ''
    written: list[Written] = field(default_factory=list)

    @property
    def listed(self) -> str:
        """What is printed where items are listed and not written."""
        return self.lines + self.printed


def plain(name: bytes) -> str:
    """The plain text of a name."""
    return ''.join(f'\\{it:02x}' if it < 0x20 or it in (0x7F, 0x5C) else bytes([it]).decode('mac_roman') for it in name)


def moment(date: int) -> str:
    return (datetime(1904, 1, 1) + timedelta(seconds=date)).isoformat() if date else ''


def quoted(text: str) -> str:
    """A field of a table of CSV."""
    doubled = text.replace('"', '""')
    return f'"{doubled}"' if ',' in text or '"' in text else text


def finder_of(item: Item) -> bytes:
    body = item.record.body
    return body[22:54] if item.is_folder else body[4:20] + body[56:72]


def dates_of(item: Item) -> tuple[int, int, int]:
    """Created, modified, backed up."""
    first = 10 if item.is_folder else 44
    return tuple(number(item.record.body, first + it, 4) for it in (0, 4, 8))


def row_of(item: Item, root: bytes) -> str:
    """A line of the table of items; the root is called so."""
    finder = finder_of(item)
    fields = ['' if item.names is None else ':'.join(map(plain, [root, *item.names])), 'folder' if item.is_folder else 'file', str(item.id), str(item.parent)]
    fields += ['', ''] if item.is_folder else [plain(finder[:4]), plain(finder[4:8])]
    fields += [finder[8:10].hex(), '' if item.is_folder else 'yes' if item.record.body[2] & 1 else 'no', '']
    fields += [moment(it) for it in dates_of(item)] + ['']
    fields += ['', ''] if item.is_folder else [str(it) for it in item.length]
    return ','.join(map(quoted, [*fields, finder.hex(), item.path])) + '\r\n'


def info_lines(content: bytes) -> str:
    """The fields of a directory, as `info` tells them."""
    at = lambda place, width: number(content, place, width)
    name = ''.join(chr(it) if 0x20 <= it <= 0x7E and it != 0x5C else f'\\{it:02x}' for it in content[37:37 + min(content[36], 27)])
    record = lambda place: ' '.join(f'{at(place + it, 2)}+{at(place + it + 2, 2)}' for it in (0, 4, 8))
    told = [('drSigWord', f'{at(0, 2):04x}'), ('drCrDate', at(2, 4)), ('drLsMod', at(6, 4)), ('drAtrb', f'{at(10, 2):04x}'), ('drNmFls', at(12, 2)),
            ('drVBMSt', at(14, 2)), ('drAllocPtr', at(16, 2)), ('drNmAlBlks', at(18, 2)), ('drAlBlkSiz', at(20, 4)), ('drClpSiz', at(24, 4)),
            ('drAlBlSt', at(28, 2)), ('drNxtCNID', at(30, 4)), ('drFreeBks', at(34, 2)), ('drVN', name), ('drVolBkUp', at(64, 4)), ('drVSeqNum', at(68, 2)),
            ('drWrCnt', at(70, 4)), ('drXTClpSiz', at(74, 4)), ('drCTClpSiz', at(78, 4)), ('drNmRtDirs', at(82, 2)), ('drFilCnt', at(84, 4)),
            ('drDirCnt', at(88, 4)), ('drFndrInfo', content[92:124].hex()), ('drVCSize', at(124, 2)), ('drVBMCSize', at(126, 2)), ('drCtlCSize', at(128, 2)),
            ('drXTFlSize', at(130, 4)), ('drXTExtRec', record(134)), ('drCTFlSize', at(146, 4)), ('drCTExtRec', record(150))]
    return ''.join(f'{label} {value}\n' for label, value in told)


class Payload:
    """The list of what is written of the items, in order: each folder where it is first wanted."""

    def __init__(self):
        self.written = [Written('data')]
        self.folders = {''}

    def folder(self, path: str) -> None:
        """A folder below the payload's, and before it those that it lies in."""
        missing = []
        while path not in self.folders:
            missing.append(path)
            path = path.rpartition('/')[0]
        for it in reversed(missing):
            self.folders.add(it)
            self.written.append(Written(f'data/{it}'))

    def file(self, path: str, content: bytes, modified: int = 0) -> None:
        self.folder(path.rpartition('/')[0])
        self.written.append(Written(f'data/{path}', content, modified))

    def double(self, path: str, finder: bytes, resource: bytes = b'') -> None:
        """The AppleDouble file beside what lies at a path."""
        folder, slash, entry = path.rpartition('/')
        self.file(f'{folder}{slash}._{entry}', DOUBLE + struct.pack('>I', len(resource)) + finder + resource)

    @property
    def files(self) -> list[Written]:
        return [it for it in self.written if it.content is not None]

    @property
    def bytes(self) -> int:
        return sum(len(it.content) for it in self.files)


def manifest(files: list[Written]) -> bytes:
    return ''.join(f'{hashlib.sha256(it.content).hexdigest()}  {it.path}\n' for it in files).encode()


def payload_of(items: list[Item], places: Places, forks: dict[int, tuple[Fork, Fork]]) -> Payload:
    bag = Payload()
    for it in items:
        if it.is_root:
            continue
        if it.is_folder:
            bag.double(it.path, finder_of(it))
            bag.folder(it.path)
            continue
        data, resource = forks[it.number]
        if data.content is not None:
            bag.file(it.path, data.content, dates_of(it)[1])
        bag.double(it.path, finder_of(it), resource.bytes)
    for it in places.named:
        bag.folder(it.path)
    return bag


class Remains:
    """What remains of an image, with at most so many bytes of forks; four times its length where nothing is said."""

    def __init__(self, image: bytes, limit: Optional[int] = None):
        self.image = image
        self.directory = directory_of(image)
        if self.directory is None:
            return
        self.trees = Trees(self.directory)
        self.items = items_of(self.trees.records)
        self.places = Places(self.items, named_folders(self.trees.records, self.items))
        self.forks = Forks(self.trees, self.items, 4 * len(image) if limit is None else limit).found
        self.payload = payload_of(self.items, self.places, self.forks)

    @cached_property
    def sums(self) -> bytes:
        return manifest(self.payload.files)

    @cached_property
    def digest(self) -> str:
        return hashlib.sha256(self.image).hexdigest()

    def verdicts(self, item: Item) -> list[str]:
        """Those on the forks of an item."""
        return [it.verdict for it in self.forks[item.number]] if item.number in self.forks else ['-', '-']

    @cached_property
    def lines(self) -> str:
        """A line for each item."""
        return ''.join('\t'.join([it.path, str(it.number), str(it.id), *self.verdicts(it)]) + '\n' for it in self.items)

    @cached_property
    def root_name(self) -> bytes:
        """That of the root's item, or where this is lost the directory's."""
        return next((it.name for it in self.items if it.is_root), self.directory.name)

    @cached_property
    def unsure(self) -> str:
        """What is said of a directory by which neither tree begins."""
        return '' if self.directory.catalog_begins or self.directory.extents_begin else ' unsure'

    def tags(self, source: Source) -> list[Written]:
        """The tag files behind the payload."""
        inner = '' if source.volume is None else 'Volume-'
        digest = [f'Source-{inner}SHA256: {self.digest}'] if source.has_digest else []
        where = f'{self.directory.block}{self.unsure}'
        directory = [] if where == '2' else [f'Source-Directory: {where}']
        volume = [] if source.volume is None else [f'Source-Volume: {source.volume}']
        about = [f'External-Identifier: {plain(self.directory.name)}', f'Bag-Software-Agent: {PROGRAM}', f'Source-Image: {source.name}', *volume,
                 *directory, f'Source-{inner}Bytes: {len(self.image)}', *digest, f'Payload-Oxum: {self.payload.bytes}.{len(self.payload.files)}']
        table = ','.join(COLUMNS) + '\r\n' + ''.join(row_of(it, self.root_name) for it in self.items)
        tags = {'manifest-sha256.txt': self.sums, 'items.csv': table.encode(), 'rescue.tsv': self.lines.encode(),
                'volume.txt': (info_lines(self.directory.content) + source.checked).encode(), 'bag-info.txt': ''.join(f'{it}\n' for it in about).encode(),
                'bagit.txt': b'BagIt-Version: 1.0\nTag-File-Character-Encoding: UTF-8\n'}
        order = ['bagit.txt', 'bag-info.txt', 'items.csv', 'rescue.tsv', 'volume.txt', 'manifest-sha256.txt']
        tags['tagmanifest-sha256.txt'] = manifest([Written(it, tags[it]) for it in order])
        return [Written(path, content) for path, content in tags.items()]

    def rescued(self, source: Source) -> Rescued:
        """How a run on the image ends, which is called so."""
        fault = source.checked.splitlines()[0]
        if self.directory is None:
            return Rescued(2, fault.removeprefix('refused ') + '\n')
        folders = sum(it.is_folder and not it.is_root for it in self.items)
        files = [it for it in self.items if not it.is_folder]
        whole = sum(self.verdicts(it) == ['whole', 'whole'] for it in files)
        told = [fault, f'directory {self.directory.block}{self.unsure}', f'files {len(files)}', f'folders {folders}', f'bytes {self.payload.bytes}',
                f'whole {whole}', f'damaged {len(files) - whole}']
        status = 0 if whole == len(files) and self.trees.catalog_passes else NOT_WHOLE
        return Rescued(status, ''.join(f'{it}\n' for it in told), self.lines, self.payload.written + self.tags(source))
