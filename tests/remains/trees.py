"""Trees that may be damaged: whether one passes its check, which of its nodes are in use, and the records it still gives."""
import struct
from dataclasses import dataclass
from functools import cached_property
from typing import Iterator, Optional

from remains.blocks import BLOCK, HEADER, INDEX, LEAF, MAP, Directory, Extents, Node, TreeFile, decode, extents_of, number

CATALOG_FILE = 4
DATA, RESOURCE = 0x00, 0xFF
DEEPEST = 16
FOLDER, FILE, FOLDER_THREAD, FILE_THREAD = 1, 2, 3, 4
SIZES = {FOLDER: 70, FILE: 102, FOLDER_THREAD: 46, FILE_THREAD: 46}
HEADER_RECORD = 106


def is_marked(bits: bytes, node: int) -> bool:
    return node // 8 < len(bits) and bool(bits[node // 8] & 0x80 >> node % 8)


@dataclass(frozen=True)
class Kind:
    """What the two trees differ in: the length of their keys, and the lengths that records may have."""
    key_length: int

    def is_leaf_record(self, record: bytes) -> bool:
        """Whether it is a key and a body of a length that a leaf may hold."""
        if self.key_length == 7:
            return len(record) == 20 and record[0] == 7
        if len(record) < 8 or not 6 + record[6] <= record[0] <= 37:
            return False
        return len(record) - even(1 + record[0]) in SIZES.values()

    def is_index_record(self, record: bytes) -> bool:
        if self.key_length == 7:
            return len(record) == 12 and record[0] == 7
        return len(record) == 42 and record[0] == 37 and record[6] <= 31

    def child(self, record: bytes) -> int:
        return number(record, len(record) - 4, 4)


def even(length: int) -> int:
    return length + length % 2


EXTENTS_TREE, CATALOG_TREE = Kind(7), Kind(37)


class Tree:
    """A tree in an image: its file, and the size that the directory tells of it."""

    def __init__(self, kind: Kind, directory: Directory, extents: Extents, size: int):
        self.kind, self.directory, self.extents, self.size = kind, directory, extents, size
        self.file = TreeFile(directory, extents)

    # ---- the check

    @cached_property
    def last_level(self) -> Optional[list[Node]]:
        """The leaves in order, where the tree passes its check; else None."""
        if not self.is_in_range:
            return None
        head = self.file.node(0)
        if head is None or head.kind != HEADER or len(head.records) != 3 or len(head.records[0]) < HEADER_RECORD:
            return None
        depth, root, records, first, last, node_size, key_length, nodes, free = struct.unpack('>HIIIIHHII', head.records[0][:30])
        if node_size != BLOCK or key_length != self.kind.key_length or nodes < 1 or nodes * BLOCK > self.size or depth > DEEPEST:
            return None
        maps = self.checked_maps(head, nodes)
        if maps is None:
            return None
        bits = head.records[2] + b''.join(self.file.node(it).records[0] for it in maps)
        if 8 * len(bits) < nodes or not all(is_marked(bits, it) for it in [0, *maps]):
            return None
        levels = self.checked_levels(depth, root, nodes, set(maps), bits)
        if levels is None:
            return None
        leaves = levels[-1] if levels else []
        if (first, last) != ((leaves[0], leaves[-1]) if leaves else (0, 0)) or (not leaves and root):
            return None
        found = [self.file.node(it) for it in leaves]
        if records != sum(len(it.records) for it in found) or free != nodes - count_marked(bits, nodes):
            return None
        if self.kind is EXTENTS_TREE and not self.is_ordered(levels):
            return None
        return found

    @property
    def is_in_range(self) -> bool:
        if not all(first + count <= self.directory.blocks for first, count in self.extents):
            return False
        return sum(count for _, count in self.extents) * self.directory.size >= self.size >= BLOCK

    def checked_maps(self, head: Node, nodes: int) -> Optional[list[int]]:
        """The numbers of the map nodes, where their chain is right."""
        maps, seen, next_number = [], set(), head.forward
        while next_number:
            node = self.file.node(next_number) if next_number < nodes and next_number not in seen else None
            if node is None or node.kind != MAP or not node.records:
                return None
            maps.append(next_number)
            seen.add(next_number)
            next_number = node.forward
        return maps

    def checked_levels(self, depth: int, root: int, nodes: int, maps: set[int], bits: bytes) -> Optional[list[list[int]]]:
        """The numbers of the nodes of each level from the root on, where all are right."""
        levels, level, met = [], [root], set()
        for height in range(depth, 0, -1):
            below = []
            for place, it in enumerate(level):
                node = self.file.node(it) if 1 <= it < nodes and it not in maps and it not in met else None
                if node is None:
                    return None
                met.add(it)
                links = (level[place + 1] if place + 1 < len(level) else 0, level[place - 1] if place else 0)
                is_allowed = self.kind.is_leaf_record if height == 1 else self.kind.is_index_record
                if (node.kind, node.height) != (LEAF if height == 1 else INDEX, height) or (node.forward, node.backward) != links:
                    return None
                if not node.records or not all(map(is_allowed, node.records)) or not is_marked(bits, it):
                    return None
                if height > 1:
                    below += [self.kind.child(record) for record in node.records]
            levels.append(level)
            level = below
        return levels

    def is_ordered(self, levels: list[list[int]]) -> bool:
        """Whether the extents tree's forks are known ones and its keys are in order: those of the leaves rise, and each key of an
        index node parts what lies below it from what lies below the key before."""
        every = [record for level in levels for it in level for record in self.file.node(it).records]
        if any(record[1] not in (DATA, RESOURCE) for record in every):
            return False
        if not levels:
            return True
        bounds: dict[int, tuple] = {}
        before = None
        for it in levels[-1]:
            keys = [extents_key(record) for record in self.file.node(it).records]
            for key in keys:
                if before is not None and key <= before:
                    return False
                before = key
            bounds[it] = keys[0], keys[-1]
        for level in reversed(levels[:-1]):
            for it in level:
                records = self.file.node(it).records
                greatest = None
                for record in records:
                    least, last = bounds[self.kind.child(record)]
                    key = extents_key(record)
                    if key > least or (greatest is not None and key <= greatest):
                        return False
                    greatest = last
                bounds[it] = bounds[self.kind.child(records[0])][0], greatest
        return True

    # ---- what remains

    @cached_property
    def marks(self) -> Optional[bytes]:
        """The node map, where there is one that can be believed: it marks the header node and the last leaf."""
        head = self.file.node(0)
        if head is None or head.kind != HEADER or len(head.records) != 3 or len(head.records[0]) < 18:
            return None
        bits, met, next_number = [head.records[2]], set(), head.forward
        while next_number not in met:
            met.add(next_number)
            node = self.file.node(next_number)
            if node is None or node.kind != MAP or not node.records:
                break
            bits.append(node.records[0])
            next_number = node.forward
        joined = b''.join(bits)
        return joined if is_marked(joined, 0) and is_marked(joined, number(head.records[0], 14, 4)) else None

    def records(self) -> Iterator[tuple[bytes, bool]]:
        """The records of the tree's own nodes, each with whether it is old: of a node that is not in use."""
        if self.last_level is not None:
            yield from ((record, False) for node in self.last_level for record in node.records)
            return
        leaves = [(it, node) for it, node in self.file.nodes() if node.is_lowest]
        for is_old in (False, True):
            for it, node in leaves:
                if (self.marks is not None and not is_marked(self.marks, it)) == is_old:
                    yield from ((record, is_old) for record in node.records)


def count_marked(bits: bytes, nodes: int) -> int:
    """How many of so many nodes are marked."""
    return (int.from_bytes(bits[:-(-nodes // 8)], 'big') >> -nodes % 8).bit_count()


def extents_key(record: bytes) -> tuple[int, int, int]:
    """File, fork, and block within the fork."""
    return number(record, 2, 4), record[1], number(record, 6, 2)


class Overflow:
    """The extents records of a tree: of each file, fork and first block the first one."""

    def __init__(self, tree: Tree):
        self.extents: dict[tuple[int, int, int], Extents] = {}
        for record, _ in tree.records():
            if len(record) == 20 and record[0] == 7:
                self.extents.setdefault(extents_key(record), extents_of(record[8:]))
        self.ends: dict[tuple[int, int, int], int] = {}

    def end(self, file: int, fork: int, begin: int) -> int:
        """How many blocks a fork has whose record gives it so many, by all that goes on behind them."""
        place, behind = begin, []
        while (file, fork, place) not in self.ends:
            behind.append(place)
            count = sum(it for _, it in self.extents.get((file, fork, place), []))
            if count == 0:
                self.ends[file, fork, place] = place
                break
            place += count
        last = self.ends[file, fork, place]
        self.ends.update(((file, fork, it), last) for it in behind)
        return last

    def all_extents(self, file: int, fork: int, first: Extents, wanted: Optional[int] = None) -> Extents:
        """The extents of a fork that begins with these, up to the record by which there are as many blocks as wanted."""
        found, count = list(first), sum(it for _, it in first)
        while wanted is None or count < wanted:
            more = self.extents.get((file, fork, count))
            if not more:
                break
            found += more
            count += sum(it for _, it in more)
        return found


@dataclass(frozen=True)
class CatalogRecord:
    """A record of the catalog: its key and one of the four bodies; old where its node is not in use, or none of the tree."""
    parent: int
    name: bytes
    body: bytes
    is_old: bool

    @property
    def kind(self) -> int:
        return self.body[0]

    @property
    def is_item(self) -> bool:
        return self.kind in (FOLDER, FILE)

    @property
    def id(self) -> int:
        """The number of the item."""
        return number(self.body, 6 if self.kind == FOLDER else 20, 4)


def catalog_record(record: bytes, is_old: bool) -> Optional[CatalogRecord]:
    """What a record tells, where it is one of a catalog."""
    if len(record) < 8 or not 6 <= record[0] <= 37 or 6 + record[6] > record[0]:
        return None
    body = record[even(1 + record[0]):]
    if not body or SIZES.get(body[0]) != len(body):
        return None
    return CatalogRecord(number(record, 2, 4), record[7:7 + record[6]], body, is_old)


class Trees:
    """Both trees of a directory, and the records that they give."""

    def __init__(self, directory: Directory):
        self.directory = directory
        self.extents = Tree(EXTENTS_TREE, directory, directory.extents_extents, directory.extents_size)
        self.overflow = Overflow(self.extents)
        extents = self.overflow.all_extents(CATALOG_FILE, DATA, directory.catalog_extents)
        self.catalog = Tree(CATALOG_TREE, directory, extents, directory.catalog_size)

    @cached_property
    def records(self) -> list[CatalogRecord]:
        """The catalog's records, in order; where the tree has lost some of its nodes, or gives none, then those of other blocks."""
        own = [catalog_record(*it) for it in self.catalog.records()]
        found = [it for it in own if it is not None]
        if self.catalog.last_level is None and (self.catalog.file.bytes_there < self.directory.catalog_size or not found):
            found += self.of_other_blocks()
        return found

    def of_other_blocks(self) -> Iterator[CatalogRecord]:
        """The records of the image's blocks that are no node of the catalog and leaves of catalog records alone."""
        image, own = self.directory.image, set(self.catalog.file.places.values())
        for place in range(3 * BLOCK, len(image) - BLOCK + 1, BLOCK):
            if place in own or image[place + 8:place + 10] != b'\xff\x01':
                continue
            node = decode(image[place:place + BLOCK])
            records = [catalog_record(it, True) for it in node.records] if node else []
            if None not in records:
                yield from records

    @cached_property
    def catalog_passes(self) -> bool:
        """Whether the catalog's shape is right, and each of its records one of the four with a name where there is to be one."""
        if self.catalog.last_level is None:
            return False
        told = [catalog_record(record, False) for record, _ in self.catalog.records()]
        return all(it is not None and bool(it.name) == it.is_item for it in told)
