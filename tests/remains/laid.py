"""Images that are made by hand, in which nothing need be right: trees of any nodes, records of any bytes."""
import struct
from typing import Iterable, Optional

from hostile_images import HEADER, INDEX, LEAF, Tree, marks, node
from remains.blocks import BLOCK, Extents

ROOT = 2
MAP = 0x02
# Where the parts of each image here lie.
MDB, BITMAP, FIRST = 2, 3, 4


def key(parent: int, name: bytes, length: Optional[int] = None) -> bytes:
    """The key of a catalog record, filled to an even length."""
    whole = 6 + len(name) if length is None else length
    content = (struct.pack('>BBIB', whole, 0, parent, len(name)) + name).ljust(1 + whole, b'\0')
    return content + bytes(len(content) % 2)


def folder(parent: int, name: bytes, number: int, modified: int = 0, finder: bytes = b'', length: Optional[int] = None) -> bytes:
    body = struct.pack('>BBHHIIII', 1, 0, 0, 0, number, 0, modified, 0) + finder.ljust(32, b'\0') + bytes(16)
    return key(parent, name, length) + body


def file(parent: int, name: bytes, number: int, data: tuple = (0, ()), resource: tuple = (0, ()), modified: int = 0, finder: bytes = b'',
         flags: int = 0x80, length: Optional[int] = None) -> bytes:
    """A file's record with the length and the extents of each fork."""
    finder = finder.ljust(32, b'\0')
    body = struct.pack('>BBBB16sIHIIHIIIII', 2, 0, flags, 0, finder[:16], number, 0, data[0], 0, 0, resource[0], 0, 0, modified, 0)
    body += finder[16:] + bytes(2) + three(data[1]) + three(resource[1]) + bytes(4)
    return key(parent, name, length) + body


def thread(number: int, parent: int, name: bytes, kind: int = 3, own_name: bytes = b'', told: Optional[int] = None) -> bytes:
    """A thread; `told` is the length that its name claims to have."""
    body = struct.pack('>BB8sIB', kind, 0, bytes(8), parent, len(name) if told is None else told) + name.ljust(31, b'\0')[:31]
    return key(number, own_name) + body


def three(extents: Iterable[tuple[int, int]]) -> bytes:
    """An extents record; one that is told as a whole is taken so."""
    return b''.join(struct.pack('>HH', *it) for it in extents).ljust(12, b'\0')


def overflow(file_number: int, fork: int, first: int, extents: Iterable[tuple[int, int]]) -> bytes:
    return struct.pack('>BBIH', 7, fork, file_number, first) + three(extents)


def leaf(records: list[bytes], forward: int = 0, backward: int = 0, height: int = 1) -> bytes:
    return node(LEAF, height, records, forward, backward)


class Laid:
    """A volume of so many blocks of 512 bytes, with allocation blocks of so many of them. The extents tree has its first
    allocation blocks, the catalog those behind them, but where extents are named."""

    def __init__(self, blocks: int = 64, factor: int = 1, extents_nodes: int = 2, catalog_nodes: int = 6, extents: Optional[Extents] = None,
                 catalog: Optional[Extents] = None, start: int = FIRST):
        self.factor, self.start, self.blocks = factor, start, blocks
        self.content = bytearray(BLOCK * blocks)
        own = -(-extents_nodes // factor)
        self.extents_of_trees = {7: extents or [(0, own)], 37: catalog or [(own, -(-catalog_nodes // factor))]}
        self.nodes = {7: extents_nodes, 37: catalog_nodes}
        self.fields = {18: (2, (blocks - 2 - start) // factor), 130: (4, BLOCK * extents_nodes), 146: (4, BLOCK * catalog_nodes)}
        self.name = b'D'
        self.header(7)
        self.header(37)

    def place(self, block: int) -> int:
        """The byte where an allocation block begins."""
        return BLOCK * (self.start + block * self.factor)

    def node_place(self, tree: int, number: int) -> int:
        at = BLOCK * number
        for first, count in self.extents_of_trees[tree]:
            if at < count * self.factor * BLOCK:
                return self.place(first) + at
            at -= count * self.factor * BLOCK
        raise ValueError('no such node')

    def put(self, place: int, content: bytes) -> None:
        """Lays bytes; what lies behind the image's end is lost."""
        content = content[:max(0, len(self.content) - place)]
        self.content[place:place + len(content)] = content

    def node(self, tree: int, number: int, content: bytes) -> None:
        self.put(self.node_place(tree, number), content)

    def block(self, block: int, content: bytes) -> None:
        """Lays the bytes of an allocation block."""
        self.put(self.place(block), content)

    def header(self, tree: int, used: int = 1, **numbers) -> None:
        self.node(tree, 0, Tree(tree, self.nodes[tree], used, **numbers).header_node())

    def leaves(self, tree: int, *leaves: list[bytes]) -> None:
        """Leaves from node 1 on, and behind them the index node that leads to them, as in a tree that is right."""
        count = len(leaves)
        for n, records in enumerate(leaves, 1):
            self.node(tree, n, leaf(records, n + 1 if n < count else 0, n - 1))
        if count > 1:
            keys = [records[0] for records in leaves]
            rows = [(it[:8] if tree == 7 else index_key(it)) + struct.pack('>I', n) for n, it in enumerate(keys, 1)]
            self.node(tree, count + 1, node(INDEX, 2, rows))
        root, depth = (count + 1, 2) if count > 1 else (1, 1)
        self.header(tree, 1 + count + (count > 1), depth=depth, root=root, records=sum(map(len, leaves)), first_leaf=1, last_leaf=count)

    def catalog(self, *records: bytes) -> 'Laid':
        """A catalog of these records behind the root's, as many in a leaf as have room."""
        self.leaves(37, *packed([folder(1, self.name, ROOT), thread(ROOT, 1, self.name), *records]))
        return self

    def damaged(self) -> 'Laid':
        """The count of the catalog's records is wrong, so that its shape is."""
        place = self.node_place(37, 0) + 14 + 6
        self.content[place:place + 4] = b'\0\0\xff\xff'
        return self

    def directory(self) -> bytes:
        content = bytearray(BLOCK)
        content[0:2], content[36:38] = b'BD', bytes([len(self.name)]) + self.name
        fields = {10: (2, 0x0100), 14: (2, BITMAP), 20: (4, BLOCK * self.factor), 24: (4, 4 * BLOCK), 28: (2, self.start), 30: (4, 99), **self.fields}
        for at, (width, value) in fields.items():
            content[at:at + width] = value.to_bytes(width, 'big')
        content[134:146], content[150:162] = three(self.extents_of_trees[7][:3]), three(self.extents_of_trees[37][:3])
        return bytes(content)

    def image(self, at: Iterable[int] = ()) -> bytes:
        """The image; with its directory in the usual blocks, or in those that are named."""
        for block in at or (MDB, self.blocks - 2):
            self.put(BLOCK * block, self.directory())
        return bytes(self.content)


def index_key(record: bytes) -> bytes:
    """The key of a catalog's record, as an index node has it."""
    return b'\x25' + record[1:1 + record[0]].ljust(37, b'\0')[:37]


def packed(records: list[bytes]) -> list[list[bytes]]:
    """Records by leaves, as many in each as have room."""
    rows, room = [[]], BLOCK - 16
    for record in records:
        if len(record) + 2 > room:
            rows.append([])
            room = BLOCK - 16
        rows[-1].append(record)
        room -= len(record) + 2
    return rows


def bits(numbers: Iterable[int]) -> bytes:
    return marks(list(numbers))


def header_node(records: list[bytes], forward: int = 0) -> bytes:
    return node(HEADER, 0, records, forward)


def map_node(records: list[bytes], forward: int = 0) -> bytes:
    return node(MAP, 0, records, forward)
