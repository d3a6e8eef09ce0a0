"""The bytes of a sound volume (docs/FORMATS.md): its fields, the nodes of its trees, and the blocks of its files."""
from dataclasses import dataclass
from functools import cached_property
from typing import Iterator

from driver.calls import Room, folded

BLOCK = 512
MDB = 2 * BLOCK
CATALOG_FILE = 4
DATA_FORK, RESOURCE_FORK = 0x00, 0xFF
# The bits of a block of a bitmap.
BITS = 8 * BLOCK


@dataclass(frozen=True)
class Extent:
    """A run of allocation blocks."""
    first: int
    count: int

    @property
    def blocks(self) -> range:
        return range(self.first, self.first + self.count)


def number_at(content: bytes, at: int, width: int) -> int:
    return int.from_bytes(content[at:at + width], 'big')


def extents_at(content: bytes, at: int) -> list[Extent]:
    """An extent record: three extents, of which those without a block are left out."""
    three = [Extent(number_at(content, it, 2), number_at(content, it + 2, 2)) for it in range(at, at + 12, 4)]
    return [it for it in three if it.count > 0]


@dataclass(frozen=True)
class Node:
    """A node of a tree."""
    content: bytes

    @property
    def forward(self) -> int:
        return number_at(self.content, 0, 4)

    @property
    def is_leaf(self) -> bool:
        return self.content[8] == 0xFF

    @property
    def places(self) -> list[int]:
        """Where each record begins, and where the last one ends."""
        return [number_at(self.content, BLOCK - 2 - 2 * it, 2) for it in range(number_at(self.content, 10, 2) + 1)]

    @property
    def records(self) -> list[bytes]:
        places = self.places
        return [self.content[first:end] for first, end in zip(places, places[1:])]


def split_record(record: bytes) -> tuple[bytes, bytes]:
    """The key of a leaf's record, and the body behind it."""
    length = 1 + record[0]
    return record[:length], record[length + length % 2:]


def catalog_key(record: bytes) -> tuple[int, str]:
    """The parent in the key of a catalog's record, and the name, as names are compared."""
    return number_at(record, 2, 4), folded(record[7:7 + record[6]].decode('latin-1'))


class Tree:
    """A tree in an image: its header record, and its nodes by their numbers."""

    def __init__(self, content: bytes, blocks: list[int]):
        self.content, self.blocks = content, blocks
        header = self.node(0).content
        self.depth, self.root = number_at(header, 14, 2), number_at(header, 16, 4)
        self.records, self.first_leaf = number_at(header, 20, 4), number_at(header, 24, 4)
        self.count, self.free = number_at(header, 36, 4), number_at(header, 40, 4)

    def node(self, number: int) -> Node:
        at = self.blocks[number] * BLOCK
        return Node(self.content[at:at + BLOCK])

    @property
    def room(self) -> Room:
        return Room(self.free, self.depth)

    def leaves(self) -> Iterator[int]:
        """The numbers of the leaves, in order."""
        number = self.first_leaf
        while number:
            yield number
            number = self.node(number).forward

    def entries(self) -> Iterator[tuple[bytes, bytes]]:
        """The keys and bodies of the leaves, in order."""
        for number in self.leaves():
            for record in self.node(number).records:
                yield split_record(record)

    @cached_property
    def level_nodes(self) -> set[int]:
        """The numbers of the nodes of all levels."""
        level, found = [self.root] if self.depth else [], set()
        while level:
            found.update(level)
            below = []
            for node in map(self.node, level):
                if not node.is_leaf:
                    below += [number_at(record, 1 + record[0], 4) for record in node.records]
            level = below
        return found

    @cached_property
    def is_exact(self) -> bool:
        """Whether each key of an index node of a catalog is, in either letter case, the first one of the node that it leads to."""
        nodes = {number: self.node(number) for number in self.level_nodes}
        firsts = {number: catalog_key(node.records[0]) for number, node in nodes.items()}
        return all(catalog_key(record) == firsts[number_at(record, 1 + record[0], 4)]
                   for node in nodes.values() if not node.is_leaf for record in node.records)

    @cached_property
    def map_nodes(self) -> list[int]:
        """The header node and the map nodes, in order."""
        numbers, next_number = [0], self.node(0).forward
        while next_number:
            numbers.append(next_number)
            next_number = self.node(next_number).forward
        return numbers

    @cached_property
    def map_bits(self) -> bytes:
        """The node map."""
        return b''.join(self.node(it).records[0 if it else 2] for it in self.map_nodes)

    @cached_property
    def marked_nodes(self) -> set[int]:
        """The numbers of the nodes that the node map says are in use."""
        return {it for it in range(self.count) if self.map_bits[it // 8] & 0x80 >> it % 8}


class Image:
    """A volume's bytes."""

    def __init__(self, content: bytes):
        self.content = content
        self.bitmap_start, self.block_count = self.field(14, 2), self.field(18, 2)
        self.allocation_start, self.next_id = self.field(28, 2), self.field(30, 4)
        self.factor = self.field(20, 4) // BLOCK
        self.free_blocks = self.field(34, 2)

    def field(self, at: int, width: int) -> int:
        """A number of the master directory block."""
        return number_at(self.content, MDB + at, width)

    def block(self, number: int) -> bytes:
        return self.content[number * BLOCK:(number + 1) * BLOCK]

    def logical(self, extents: list[Extent]) -> list[int]:
        """The logical blocks of these extents, in order."""
        firsts = [self.allocation_start + it * self.factor for extent in extents for it in extent.blocks]
        return [first + it for first in firsts for it in range(self.factor)]

    @property
    def bitmap_blocks(self) -> range:
        return range(self.bitmap_start, self.bitmap_start + (self.block_count + BITS - 1) // BITS)

    @property
    def bitmap(self) -> bytes:
        return self.content[self.bitmap_blocks.start * BLOCK:self.bitmap_blocks.stop * BLOCK]

    @cached_property
    def extents_tree(self) -> Tree:
        return Tree(self.content, self.logical(extents_at(self.content, MDB + 134)))

    @cached_property
    def overflow(self) -> dict[tuple[int, int], list[Extent]]:
        """The extents of each file and fork that stand in the extents tree."""
        found: dict[tuple[int, int], list[Extent]] = {}
        for key, body in self.extents_tree.entries():
            found.setdefault((number_at(key, 2, 4), key[1]), []).extend(extents_at(body, 0))
        return found

    @cached_property
    def catalog(self) -> Tree:
        extents = extents_at(self.content, MDB + 150) + self.overflow.get((CATALOG_FILE, DATA_FORK), [])
        return Tree(self.content, self.logical(extents))

    @cached_property
    def file_blocks(self) -> dict[int, list[int]]:
        """The allocation blocks of both forks of each file, by its ID."""
        found = {}
        for _key, body in self.catalog.entries():
            if body[0] == 2:
                number = number_at(body, 20, 4)
                extents = extents_at(body, 74) + extents_at(body, 86)
                extents += self.overflow.get((number, DATA_FORK), []) + self.overflow.get((number, RESOURCE_FORK), [])
                found[number] = [block for extent in extents for block in extent.blocks]
        return found


def changed_blocks(old: bytes, new: bytes) -> list[int]:
    """The numbers of the blocks that differ."""
    if old == new:
        return []
    return [at // BLOCK for at in range(0, max(len(old), len(new)), BLOCK) if old[at:at + BLOCK] != new[at:at + BLOCK]]
