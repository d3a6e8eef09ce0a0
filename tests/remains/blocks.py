"""An image's directory, its allocation blocks, and the nodes of a tree's file: what is there of each."""
from dataclasses import dataclass
from functools import cached_property
from typing import Iterator, Optional

BLOCK = 512
SIGNATURE = b'BD'
LEAST, MOST = 3 * BLOCK, 2_147_483_648
INDEX, HEADER, MAP, LEAF = 0x00, 0x01, 0x02, 0xFF
# A node's descriptor.
DESCRIPTOR = 14

Extents = list[tuple[int, int]]


def number(content: bytes, at: int, width: int) -> int:
    return int.from_bytes(content[at:at + width], 'big')


def extents_of(content: bytes) -> Extents:
    """First block and count of three extents; those that are empty are skipped."""
    three = [(number(content, at, 2), number(content, at + 2, 2)) for at in (0, 4, 8)]
    return [it for it in three if it[1] > 0]


@dataclass(frozen=True)
class Node:
    """A node that decodes."""
    forward: int
    backward: int
    kind: int
    height: int
    records: tuple[bytes, ...]

    @property
    def is_lowest(self) -> bool:
        """Whether it is a leaf at the height of leaves."""
        return self.kind == LEAF and self.height == 1


def decode(content: bytes) -> Optional[Node]:
    """The node of 512 bytes: its kind is known, and its records follow one another between the descriptor and the row of
    their places."""
    if content[8] not in (INDEX, HEADER, MAP, LEAF):
        return None
    count = number(content, 10, 2)
    row = BLOCK - 2 * (count + 1)
    if row < DESCRIPTOR:
        return None
    places = [number(content, BLOCK - 2 - 2 * it, 2) for it in range(count + 1)]
    if min(places) < DESCRIPTOR or max(places) > row or places != sorted(places):
        return None
    records = tuple(content[begin:end] for begin, end in zip(places, places[1:]))
    return Node(number(content, 0, 4), number(content, 4, 4), content[8], content[9], records)


@dataclass(frozen=True)
class Directory:
    """A block that serves as the volume's directory, in its image."""
    image: bytes
    block: int

    @cached_property
    def content(self) -> bytes:
        return self.image[self.block * BLOCK:(self.block + 1) * BLOCK]

    def field(self, at: int, width: int) -> int:
        return number(self.content, at, width)

    @cached_property
    def blocks(self) -> int:
        """How many allocation blocks the volume has."""
        return self.field(18, 2)

    @cached_property
    def size(self) -> int:
        """The bytes of an allocation block."""
        return self.field(20, 4)

    @cached_property
    def start(self) -> int:
        """The byte where allocation block 0 begins."""
        return BLOCK * self.field(28, 2)

    @property
    def name(self) -> bytes:
        return self.content[37:37 + min(self.content[36], 27)]

    @property
    def extents_size(self) -> int:
        return self.field(130, 4)

    @property
    def extents_extents(self) -> Extents:
        return extents_of(self.content[134:146])

    @property
    def catalog_size(self) -> int:
        return self.field(146, 4)

    @property
    def catalog_extents(self) -> Extents:
        return extents_of(self.content[150:162])

    @property
    def will_do(self) -> bool:
        return self.content[:2] == SIGNATURE and self.blocks >= 1 and self.size >= BLOCK and self.size % BLOCK == 0

    def place(self, block: int) -> Optional[int]:
        """The byte where an allocation block begins, if the block is there: one of the volume's, with all its bytes in the image."""
        begin = self.start + block * self.size
        return begin if block < self.blocks and begin + self.size <= len(self.image) else None

    def begins(self, extents: Extents) -> bool:
        """Whether a tree begins with these extents."""
        place = self.place(extents[0][0]) if extents else None
        head = None if place is None else decode(self.image[place:place + BLOCK])
        return head is not None and head.kind == HEADER

    @cached_property
    def both_begin(self) -> bool:
        return self.catalog_begins and self.extents_begin

    @cached_property
    def catalog_begins(self) -> bool:
        return self.begins(self.catalog_extents)

    @cached_property
    def extents_begin(self) -> bool:
        return self.begins(self.extents_extents)


def directory_of(image: bytes) -> Optional[Directory]:
    """The directory that is taken: block 2 or the block before the last, where both trees begin; else of these and then of all
    from the last on the first whose catalog begins; else the first that will do."""
    if not LEAST <= len(image) <= MOST:
        return None
    count = len(image) // BLOCK
    usual = [2, count - 2]
    others = [it for it in range(count - 1, -1, -1) if it not in usual]
    known = [Directory(image, it) for it in usual + others if image[it * BLOCK:it * BLOCK + 2] == SIGNATURE]
    known = [it for it in known if it.will_do]
    near = [it for it in known if it.block in usual and it.both_begin]
    return next(iter(near + [it for it in known if it.catalog_begins] + known), None)


class TreeFile:
    """The nodes of a tree's file: which are there, by their numbers, and where they lie in the image. A block that comes a
    second time is missing there, as one that isn't in the image."""

    def __init__(self, directory: Directory, extents: Extents):
        self.directory, self.extents = directory, extents
        self.image = directory.image
        self.places: dict[int, int] = {}
        self.blocks: list[int] = []
        seen: set[int] = set()
        first_node, in_block = 0, directory.size // BLOCK
        for first, count in extents:
            for block in range(first, first + count):
                self.blocks.append(block)
                place = directory.place(block)
                if place is not None and block not in seen:
                    seen.add(block)
                    self.places.update((first_node + it, place + it * BLOCK) for it in range(in_block))
                first_node += in_block
        self.decoded: dict[int, Optional[Node]] = {}

    def node(self, node: int) -> Optional[Node]:
        """The node of that number, if it is there and decodes."""
        if node not in self.decoded:
            place = self.places.get(node)
            self.decoded[node] = None if place is None else decode(self.image[place:place + BLOCK])
        return self.decoded[node]

    @property
    def bytes_there(self) -> int:
        return BLOCK * len(self.places)

    def nodes(self) -> Iterator[tuple[int, Node]]:
        """The nodes that decode, in the order of their numbers."""
        for it in sorted(self.places):
            node = self.node(it)
            if node is not None:
                yield it, node
