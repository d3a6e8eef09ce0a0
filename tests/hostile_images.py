"""Small volumes and hostile ones, made from the layout of the format and without any of the project's code.

Each function gives the bytes of an image. All volumes are named D and were made at the moment 0.
"""
import struct
from dataclasses import dataclass, field

from slow_volumes import catalog_index_key, catalog_key, extent_bytes, extents_key

BLOCK = 512
ROOT, FIRST_FREE = 2, 16
INDEX, HEADER, LEAF = 0x00, 0x01, 0xFF
CATALOG_KEY_LENGTH, EXTENTS_KEY_LENGTH = 37, 7
# The master directory block and the bitmap of each volume here.
MDB, BITMAP = 2, 3
# Where the trees of a volume of 64 blocks and two extents nodes begin, and its allocation blocks.
EXTENTS, CATALOG, ALLOCATION = 4, 6, 4
NO_EXTENTS = extent_bytes([])


@dataclass
class Image:
    """An image that is laid: its blocks, each of 512 bytes."""
    content: bytearray

    def lay(self, block, place, content):
        """Lays bytes from a place of a block on, which may run into the next ones."""
        begin = block * BLOCK + place
        assert begin + len(content) <= len(self.content), 'outside the image'
        self.content[begin:begin + len(content)] = content

    def number(self, block, place, width):
        begin = block * BLOCK + place
        return int.from_bytes(self.content[begin:begin + width], 'big')

    def lay_all(self, rows):
        for block, place, content in rows:
            self.lay(block, place, bytes(content))


@dataclass
class Tree:
    """The numbers of a tree in its header record."""
    key_length: int
    nodes: int
    used: int
    depth: int = 0
    root: int = 0
    records: int = 0
    first_leaf: int = 0
    last_leaf: int = 0

    def header_node(self):
        record = struct.pack('>HIIIIHHII', self.depth, self.root, self.records, self.first_leaf, self.last_leaf, BLOCK,
                             self.key_length, self.nodes, self.nodes - self.used)
        return node(HEADER, 0, [record.ljust(106, b'\0'), bytes(128), marks(range(self.used)).ljust(256, b'\0')])


@dataclass
class Plan:
    """A volume whose catalog is laid: how large it is, and what its master directory block
    counts."""
    blocks: int = 64
    catalog_nodes: int = 6
    extents_nodes: int = 2
    next_id: int = FIRST_FREE
    root_files: int = 0
    root_folders: int = 0
    files: int = 0
    folders: int = 0
    # Allocation blocks of files, beside those of the two trees.
    owned: list = field(default_factory=list)

    @property
    def bitmap_blocks(self):
        return -(-self.blocks // 4096)

    @property
    def allocation_start(self):
        return BITMAP + self.bitmap_blocks

    @property
    def allocation_blocks(self):
        return self.blocks - 2 - self.allocation_start

    @property
    def used_blocks(self):
        return [*range(self.extents_nodes + self.catalog_nodes), *self.owned]

    def directory_block(self):
        """The master directory block."""
        extents_size, catalog_size = self.extents_nodes * BLOCK, self.catalog_nodes * BLOCK
        free = self.allocation_blocks - len(self.used_blocks)
        head = struct.pack('>2sIIHHHHHIIHIH', b'BD', 0, 0, 0x0100, self.root_files, BITMAP, 0, self.allocation_blocks, BLOCK, 4 * BLOCK,
                           self.allocation_start, self.next_id, free)
        middle = struct.pack('>28sIHIIIHII32sHHH', b'\1D', 0, 0, 0, extents_size, catalog_size, self.root_folders, self.files, self.folders,
                             bytes(32), 0, 0, 0)
        trees = struct.pack('>I12sI12s', extents_size, extent_bytes([(0, self.extents_nodes)]), catalog_size,
                            extent_bytes([(self.extents_nodes, self.catalog_nodes)]))
        return (head + middle + trees).ljust(BLOCK, b'\0')

    def image(self, catalog, nodes, extents=None, extents_nodes=None):
        """The image with these trees: their numbers, and the nodes behind the header node by their
        numbers."""
        image = Image(bytearray(self.blocks * BLOCK))
        directory = self.directory_block()
        image.lay(MDB, 0, directory)
        image.lay(self.blocks - 2, 0, directory)
        image.lay(BITMAP, 0, marks(self.used_blocks))
        trees = [(0, extents or Tree(EXTENTS_KEY_LENGTH, self.extents_nodes, 1), extents_nodes or {}), (self.extents_nodes, catalog, nodes)]
        for first, tree, laid in trees:
            start = self.allocation_start + first
            image.lay(start, 0, tree.header_node())
            for place, content in laid.items():
                image.lay(start + place, 0, content)
        return image


def marks(numbers):
    """Bits that are set at these numbers, the highest of a byte first."""
    bits = bytearray(max(numbers, default=-1) // 8 + 1)
    for n in numbers:
        bits[n // 8] |= 0x80 >> n % 8
    return bytes(bits)


def node(kind, height, records, forward=0, backward=0):
    """A node of these records."""
    offsets = [14]
    for record in records:
        offsets.append(offsets[-1] + len(record))
    head = struct.pack('>IIBBHH', forward, backward, kind, height, len(records), 0)
    tail = b''.join(struct.pack('>H', offset) for offset in reversed(offsets))
    body = head + b''.join(records)
    assert len(body) + len(tail) <= BLOCK, 'the records have no room'
    return body.ljust(BLOCK - len(tail), b'\0') + tail


def folder(parent, name, number, valence):
    """A folder's record."""
    return catalog_key(parent, name) + struct.pack('>BBHHI', 1, 0, 0, valence, number).ljust(70, b'\0')


def file(parent, name, number, length=0, extents=(), flags=0x80):
    """A file's record, with nothing in its resource fork."""
    body = struct.pack('>BBBB16sIHII', 2, 0, flags, 0, bytes(16), number, 0, length, BLOCK * sum(count for _, count in extents))
    return catalog_key(parent, name) + body.ljust(74, b'\0') + extent_bytes(extents) + NO_EXTENTS + bytes(4)


def thread(number, parent, name, kind=3):
    """The thread of an item."""
    raw = name.encode('ascii')
    return catalog_key(number, '') + struct.pack('>BB8sIB', kind, 0, bytes(8), parent, len(raw)) + raw.ljust(31, b'\0')


def child(parent, name, number):
    """A record of an index node."""
    return catalog_index_key(parent, name) + struct.pack('>I', number)


def one_leaf(nodes, records):
    """The numbers of a catalog of one leaf."""
    return Tree(CATALOG_KEY_LENGTH, nodes, 2, 1, 1, records, 1, 1)


def new_volume(blocks=64, catalog_nodes=6, extents_nodes=2):
    """A new volume, whose root is empty."""
    records = [folder(1, 'D', ROOT, 0), thread(ROOT, 1, 'D')]
    return Plan(blocks, catalog_nodes, extents_nodes).image(one_leaf(catalog_nodes, len(records)), {1: node(LEAF, 1, records)}).content


def cut_file():
    """The folder d, and in it the file f with 2,000 bytes in allocation blocks 10, 12 and 14 by its
    record, and in 16 by the extents tree."""
    records = [folder(1, 'D', ROOT, 1), thread(ROOT, 1, 'D'), folder(ROOT, 'd', 16, 1), thread(16, ROOT, 'd'),
               file(16, 'f', 17, 2_000, [(10, 1), (12, 1), (14, 1)])]
    overflow = extents_key(0, 17, 3) + extent_bytes([(16, 1)])
    plan = Plan(next_id=18, root_folders=1, files=1, folders=1, owned=[10, 12, 14, 16])
    extents = Tree(EXTENTS_KEY_LENGTH, 2, 2, 1, 1, 1, 1, 1)
    image = plan.image(one_leaf(6, len(records)), {1: node(LEAF, 1, records)}, extents, {1: node(LEAF, 1, [overflow])})
    for k in range(2_048):
        image.lay(ALLOCATION + 10 + k // BLOCK * 2, k % BLOCK, bytes([k % 251]))
    return image.content


def two_levels():
    """The empty file f in a leaf of its own, below an index node."""
    nodes = {1: node(LEAF, 1, [folder(1, 'D', ROOT, 1), thread(ROOT, 1, 'D')], forward=2),
             2: node(LEAF, 1, [file(ROOT, 'f', 16)], backward=1),
             3: node(INDEX, 2, [child(1, 'D', 1), child(ROOT, 'f', 2)])}
    return Plan(next_id=17, root_files=1, files=1).image(Tree(CATALOG_KEY_LENGTH, 6, 4, 2, 3, 3, 1, 2), nodes).content


def deep(levels):
    """A new volume whose catalog has so many levels: node 1 is the leaf, and each next one stands
    above the one before it."""
    records = [folder(1, 'D', ROOT, 0), thread(ROOT, 1, 'D')]
    nodes = {1: node(LEAF, 1, records)}
    for height in range(2, levels + 1):
        nodes[height] = node(INDEX, height, [child(1, 'D', height - 1)])
    return Plan(catalog_nodes=40).image(Tree(CATALOG_KEY_LENGTH, 40, 1 + levels, levels, levels, len(records), 1, 1), nodes).content


def ring(folders=9):
    """Folders in a ring: each stands in the one before it, and the first in the last. Each has a
    leaf of its own, node 2 and those behind it."""
    ids = list(range(FIRST_FREE, FIRST_FREE + folders))
    leaves = {1: [folder(1, 'D', ROOT, 0), thread(ROOT, 1, 'D')]}
    for place, number in enumerate(ids):
        leaves[2 + place] = [thread(number, ids[place - 1], 'x'), folder(number, 'x', ids[(place + 1) % folders], 1)]
    last = 1 + folders
    nodes = {n: node(LEAF, 1, records, forward=n + 1 if n < last else 0, backward=n - 1) for n, records in leaves.items()}
    nodes[last + 1] = node(INDEX, 2, [child(1, 'D', 1), *(child(number, '', 2 + place) for place, number in enumerate(ids))])
    tree = Tree(CATALOG_KEY_LENGTH, folders + 3, folders + 3, 2, last + 1, 2 + 2 * folders, 1, last)
    return Plan(catalog_nodes=folders + 3, next_id=ids[-1] + 1, folders=folders).image(tree, nodes).content


@dataclass(frozen=True)
class Level:
    """A level of an extents tree: its first node, how many it has, and the records of each."""
    first: int
    height: int
    rows: list

    def nodes(self):
        for place, records in enumerate(self.rows):
            forward = self.first + place + 1 if place + 1 < len(self.rows) else 0
            backward = self.first + place - 1 if place else 0
            yield self.first + place, node(LEAF if self.height == 1 else INDEX, self.height, records, forward, backward)


def rows_of(entries, room):
    return [entries[begin:begin + room] for begin in range(0, len(entries), room)]


def levels_of(records):
    """The levels of an extents tree with these records, the leaves first; 22 records of a leaf fill
    a node, and 35 of an index node."""
    levels = [Level(1, 1, rows_of(records, 22))]
    while len(levels[-1].rows) > 1:
        below = levels[-1]
        children = [row[0][:8] + struct.pack('>I', below.first + place) for place, row in enumerate(below.rows)]
        levels.append(Level(below.first + len(below.rows), below.height + 1, rows_of(children, 35)))
    return levels


def many_extents(are_apart, count=60_000):
    """The file f in so many extents of one block, from the last allocation block downwards, or all
    of them on that one."""
    plan = Plan(65_535, 4, 1_000, next_id=17, root_files=1, files=1)
    last = plan.allocation_blocks - 1
    blocks = [last - n if are_apart else last for n in range(count)]
    plan.owned = [last - n for n in range(count)]
    records = [extents_key(0, 16, n) + extent_bytes([(block, 1) for block in blocks[n:n + 3]]) for n in range(3, count, 3)]
    levels = levels_of(records)
    nodes = {number: content for level in levels for number, content in level.nodes()}
    tree = Tree(EXTENTS_KEY_LENGTH, 1_000, 1 + len(nodes), len(levels), levels[-1].first, len(records), 1, len(levels[0].rows))
    catalog = [folder(1, 'D', ROOT, 1), thread(ROOT, 1, 'D'), file(ROOT, 'f', 16, count * BLOCK, [(block, 1) for block in blocks[:3]])]
    image = plan.image(one_leaf(4, len(catalog)), {1: node(LEAF, 1, catalog)}, tree, nodes)
    image.lay(plan.allocation_start + blocks[-1], 0, b'\1\2\3')
    return image.content


def lower_index_keys(content, catalog_nodes, catalog=CATALOG):
    """Lowers the last character of the name in each index key of a catalog, if it has one. Gives
    the height of its tree."""
    image, height = Image(content), 0
    for block in range(catalog, catalog + catalog_nodes):
        count = image.number(block, 10, 2)
        if image.number(block, 8, 1) != INDEX or not count:
            continue
        height = max(height, image.number(block, 9, 1))
        for place in range(count):
            name = image.number(block, BLOCK - 2 - 2 * place, 2) + 6
            length = image.number(block, name, 1)
            if length:
                image.lay(block, name + length, bytes([image.number(block, name + length, 1) - 1]))
    return height
