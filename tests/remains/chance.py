"""Images changed at random: bytes of what describes a volume, whole blocks, single fields of records and nodes, and lengths."""
from random import Random
from typing import Optional

from remains.blocks import BLOCK, LEAF, decode, number

# Numbers that fields get, beside those near what they are.
NUMBERS = (0, 1, 2, 3, 4, 5, 16, 17, 30, 31, 32, 37, 38, 127, 255, 256, 512, 65_535, 65_536, 2_147_483_648, 4_294_967_295)
# Fields of a directory: place and width.
DIRECTORY_FIELDS = ((18, 2), (20, 4), (28, 2), (130, 4), (134, 2), (136, 2), (138, 2), (140, 2), (146, 4), (150, 2), (152, 2), (154, 2), (156, 2), (36, 1))
# Fields of a node and, behind them, of a header record.
NODE_FIELDS = ((0, 4), (4, 4), (8, 1), (9, 1), (10, 2), (510, 2), (508, 2), (506, 2), (504, 2), (14, 2), (16, 4), (20, 4), (24, 4), (28, 4), (32, 2), (34, 2), (36, 4), (40, 4))
# Fields behind the key of a catalog record: of a file's, a folder's and a thread's body.
BODY_FIELDS = ((0, 1), (6, 4), (10, 4), (14, 1), (15, 1), (20, 4), (26, 4), (36, 4), (74, 2), (76, 2), (78, 2), (80, 2), (86, 2), (88, 2))


class Changed:
    """An image that is changed."""

    def __init__(self, image: bytes, random: Random):
        self.image, self.random = bytearray(image), random

    @property
    def blocks(self) -> int:
        return len(self.image) // BLOCK

    def put(self, at: int, content: bytes) -> None:
        if at + len(content) <= len(self.image):
            self.image[at:at + len(content)] = content

    def put_number(self, at: int, width: int) -> None:
        """Another number in a field."""
        old = number(self.image, at, width)
        near = [old + 1, old - 1, old * 2, old // 2, old ^ 1 << self.random.randrange(8 * width)]
        self.put(at, (self.random.choice([*near, self.random.choice(NUMBERS), self.random.randrange(40)]) % (1 << 8 * width)).to_bytes(width, 'big'))

    def nodes(self) -> list[int]:
        """The blocks that decode as nodes of a tree with something in them."""
        found = []
        for block in range(min(self.blocks, 400)):
            content = self.image[block * BLOCK:(block + 1) * BLOCK]
            if any(content[8:14]) and decode(content) is not None:
                found.append(block)
        return found

    def records(self) -> list[tuple[int, int]]:
        """Where the records of leaves begin and end."""
        found = []
        for block in self.nodes():
            content = self.image[block * BLOCK:(block + 1) * BLOCK]
            node = decode(content)
            if node.kind == LEAF:
                places = [block * BLOCK + number(content, 510 - 2 * it, 2) for it in range(len(node.records) + 1)]
                found += zip(places, places[1:])
        return found

    # ---- changes

    def some_byte(self) -> None:
        """A byte of the first blocks, or of any."""
        at = self.random.randrange(min(len(self.image), self.random.choice((16 * BLOCK, len(self.image)))))
        self.image[at] = self.random.choice((0, 1, 255, self.random.randrange(256), self.image[at] ^ 1 << self.random.randrange(8)))

    def directory_field(self) -> None:
        at, width = self.random.choice(DIRECTORY_FIELDS)
        for block in self.random.choice(([2], [2], [self.blocks - 2], [2, self.blocks - 2], [2, self.blocks - 2])):
            self.put_number(block * BLOCK + at, width)

    def node_field(self) -> None:
        nodes = self.nodes()
        if nodes:
            at, width = self.random.choice(NODE_FIELDS)
            self.put_number(self.random.choice(nodes) * BLOCK + at, width)

    def record_field(self) -> None:
        """A field of a record's key or body."""
        records = self.records()
        if not records:
            return
        begin, end = self.random.choice(records)
        length = self.image[begin]
        body = begin + 1 + length + (1 + length) % 2
        fields = [(begin, 1), (begin + 1, 1), (begin + 2, 4), (begin + 6, 1), (begin + 6, 2), (begin + 7, 1), (begin + 8, 2)]
        fields += [(body + at, width) for at, width in BODY_FIELDS]
        at, width = self.random.choice(fields)
        if at + width <= end:
            self.put_number(at, width)

    def equal_fields(self) -> None:
        """A number of one record in another: the parent, the ID, an extent."""
        records = self.records()
        if len(records) > 1:
            (one, end), (other, _) = self.random.sample(records, 2)
            places = [it for it in (2, *(8 + at for at in (6, 20, 10, 74, 26))) if one + it + 4 <= end]
            if places:
                self.put(one + self.random.choice(places), bytes(self.image[other + 2:other + 6] if self.random.random() < 0.5 else self.image[other + 14:other + 18]))

    def block_copied(self) -> None:
        """A block, a node for the most part, over another."""
        nodes = self.nodes() or [2]
        source = self.random.choice(nodes) * BLOCK
        target = self.random.choice([self.random.randrange(self.blocks), self.random.choice(nodes), self.random.randrange(min(40, self.blocks))]) * BLOCK
        self.put(target, bytes(self.image[source:source + BLOCK]))

    def blocks_lost(self) -> None:
        """Zeros, or other bytes, in the place of some blocks."""
        first = self.random.choice([self.random.randrange(min(20, self.blocks)), self.random.randrange(self.blocks)])
        count = min(self.random.choice((1, 1, 2, 5)), self.blocks - first)
        self.put(first * BLOCK, self.random.choice((bytes(count * BLOCK), b'\xf6' * (count * BLOCK), self.random.randbytes(count * BLOCK))))

    def cut(self) -> None:
        """An image that ends before its end, near a block's for the most part."""
        length = self.random.randrange(len(self.image) + 1)
        if self.random.random() < 0.7:
            length = length // BLOCK * BLOCK + self.random.choice((-1, 0, 0, 1))
        del self.image[max(length, 3 * BLOCK):]


def changed(bases: list[bytes], seed: int, number_of_image: int) -> tuple[bytes, Optional[int]]:
    """The image of that number, and the limit that it is read with."""
    random = Random(f'{seed}, {number_of_image}')
    it = Changed(random.choice(bases), random)
    changes = [it.some_byte, it.directory_field, it.node_field, it.node_field, it.record_field, it.record_field, it.record_field, it.equal_fields, it.equal_fields,
               it.block_copied, it.block_copied, it.blocks_lost]
    for _ in range(random.choice((1, 1, 2, 3, 5, 12))):
        random.choice(changes)()
    if random.random() < 0.1:
        it.cut()
    limit = random.choice((0, 1, 82, 512, 2_000, 4 * len(it.image))) if random.random() < 0.15 else None
    return bytes(it.image), limit
