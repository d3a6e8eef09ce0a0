#!/usr/bin/env python3
"""Writes sound HFS volumes that are old or hostile, and plain ones of the same size, for measure/slow.sh.

python3 slow_volumes.py KIND COUNT MEGABYTES FILE

All of it is made here from the layout of the format, without any of the project's code. KIND is one of the names in KINDS.
"""
import random
import struct
import sys

NODE = 512
NOW = 3_000_000_000
ROOT, FIRST_FREE = 2, 16
EXTENTS_FILE, CATALOG_FILE = 3, 4


def name_bytes(text, room):
    """A name with its length before it, in so many bytes."""
    raw = text.encode('ascii')
    return (bytes([len(raw)]) + raw).ljust(room, b'\0')


def catalog_key(parent, name):
    """The key of a catalog record, padded to an even length."""
    raw = name.encode('ascii')
    key = struct.pack('>BBIB', 6 + len(raw), 0, parent, len(raw)) + raw
    return key + b'\0' * (len(key) % 2)


def catalog_index_key(parent, name):
    return struct.pack('>BBI', 37, 0, parent) + name_bytes(name, 32)


def extents_key(fork, file, start):
    return struct.pack('>BBIH', 7, fork, file, start)


def extent_bytes(extents):
    """Three extents, the missing ones empty."""
    extents = list(extents) + [(0, 0)] * (3 - len(extents))
    return struct.pack('>6H', *[n for extent in extents for n in extent])


def folder_record(number, valence):
    return struct.pack('>BBHHIIII', 1, 0, 0, valence, number, NOW, NOW, 0) + bytes(48)


def file_record(number, length, physical, extents):
    head = struct.pack('>BBBB16sIHIIHIIIII', 2, 0, 0, 0, bytes(16), number, 0, length, physical, 0, 0, 0, NOW, NOW, 0)
    return head + bytes(16) + struct.pack('>H', 0) + extent_bytes(extents) + extent_bytes([]) + bytes(4)


def thread_record(parent, name):
    return struct.pack('>BB8sI', 3, 0, bytes(8), parent) + name_bytes(name, 32)


class Tree:
    """A tree of nodes, filled from its records, which come in order as (leaf key, index key, body)."""

    def __init__(self, records, key_length, height=0, shuffle=None, fill=NODE):
        self.records, self.key_length, self.fill = records, key_length, fill
        leaves = self.pack([(key + body, index) for key, index, body in records])
        levels = [leaves] if leaves else []
        while levels and len(levels[-1]) > 1:
            levels.append(self.pack([(first, None, place) for place, (first, _) in enumerate(levels[-1])], True))
        while levels and len(levels) < height:
            # each node of the lowest index level gets a node of its own above it, up to the height that is asked for
            self.stretch(levels, height)
        self.levels = levels
        self.place_nodes(shuffle)

    def pack(self, entries, is_index=False):
        """Rows of entries, as many as fit into a node: (index key of the first, entries)."""
        rows, row, used = [], [], 14 + 2
        for entry in entries:
            length = len(entry[0]) + (4 if is_index else 0)
            if row and used + length + 2 > self.fill:
                rows.append(row)
                row, used = [], 14 + 2
            row.append(entry)
            used += length + 2
        if row:
            rows.append(row)
        if is_index:
            return [(row[0][0], [(key, place) for key, _, place in row]) for row in rows]
        return [(row[0][1], [body for body, _ in row]) for row in rows]

    def stretch(self, levels, height):
        """Puts levels of nodes with one child each above the leaves."""
        leaves = levels[0]
        single = [(first, [(first, place)]) for place, (first, _) in enumerate(leaves)]
        if len(levels) == 1:
            levels.append(single)
            return
        for _ in range(height - len(levels)):
            levels.insert(1, single)

    def place_nodes(self, shuffle):
        """Gives each node its number."""
        count = sum(len(level) for level in self.levels)
        maps, total = 0, 1 + count
        while 2048 + maps * 494 * 8 < total:
            maps, total = maps + 1, total + 1
        self.maps, self.used = maps, total
        numbers = list(range(1 + maps, total))
        if shuffle:
            shuffle(numbers)
        numbers = iter(numbers)
        self.numbers = [[next(numbers) for _ in level] for level in self.levels]

    def node(self, forward, backward, kind, height, records):
        body, offsets = b'', [14]
        for record in records:
            body += record
            offsets.append(14 + len(body))
        head = struct.pack('>IIBBHH', forward, backward, kind, height, len(records), 0)
        tail = b''.join(struct.pack('>H', offset) for offset in reversed(offsets))
        return (head + body).ljust(NODE - len(tail), b'\0') + tail

    def nodes(self, total):
        """All nodes of a file of so many."""
        out = [bytes(NODE)] * total
        for above, level in enumerate(self.levels):
            numbers = self.numbers[above]
            for place, (_, entries) in enumerate(level):
                forward = numbers[place + 1] if place + 1 < len(level) else 0
                backward = numbers[place - 1] if place > 0 else 0
                if above == 0:
                    out[numbers[place]] = self.node(forward, backward, 0xFF, 1, entries)
                else:
                    below = self.numbers[above - 1]
                    bodies = [key + struct.pack('>I', below[child]) for key, child in entries]
                    out[numbers[place]] = self.node(forward, backward, 0, above + 1, bodies)
        bits = bytearray((2048 + self.maps * 494 * 8) // 8)
        for n in range(self.used):
            bits[n // 8] |= 0x80 >> n % 8
        for n in range(self.maps):
            part = bytes(bits[256 + 494 * n:256 + 494 * (n + 1)])
            out[1 + n] = self.node(2 + n if n + 1 < self.maps else 0, 0, 2, 0, [part])
        depth = len(self.levels)
        root = self.numbers[-1][0] if depth else 0
        first, last = (self.numbers[0][0], self.numbers[0][-1]) if depth else (0, 0)
        header = struct.pack('>HIIIIHHII', depth, root, len(self.records), first, last, NODE, self.key_length, total, total - self.used) + bytes(76)
        out[0] = self.node(1 if self.maps else 0, 0, 1, 0, [header, bytes(128), bytes(bits[:256])])
        return out


class Volume:
    """A volume of so many megabytes: its items, its blocks and how its trees lie."""

    def __init__(self, megabytes):
        sectors = megabytes * 2048
        self.block = 1
        while sectors // self.block > 65000:
            self.block += 1
        blocks = sectors // self.block
        self.bitmap_sectors = -(-blocks // 4096)
        self.start = 3 + self.bitmap_sectors
        self.blocks = (sectors - self.start - 2) // self.block
        self.sectors = sectors
        self.next_block = 0
        self.items = []  # (parent, name, number, is folder, file's length and extents)
        self.overflow = []  # (fork, file, start, extents)
        self.bytes_at = {}  # what blocks hold, where they hold something
        self.height = 0
        self.shuffle = None
        self.fill = NODE
        self.catalog_layout = whole
        self.catalog_room = 0
        self.extents_room = 0

    def take(self, count):
        first = self.next_block
        self.next_block += count
        assert self.next_block <= self.blocks, 'the volume is full'
        return first

    def lay(self, file, length, layout):
        """Extents for so many bytes; those past the third go to the extents tree. Gives the first three and the whole size."""
        size = self.block * NODE
        count = -(-length // size)
        records = layout(self.take(count), count) if count else [[]]
        start = sum(n for _, n in records[0])
        for record in records[1:]:
            self.overflow.append((0, file, start, record))
            start += sum(n for _, n in record)
        return records[0], [extent for record in records for extent in record], count * size

    def folder(self, parent, name, number):
        self.items.append((parent, name, number, True, 0, [], 0))

    def file(self, parent, name, number, length=0, layout=None):
        first, every, physical = self.lay(number, length, layout or whole)
        self.items.append((parent, name, number, False, length, first, physical))
        return every

    def catalog_records(self):
        valences = {}
        for parent, *_ in self.items:
            valences[parent] = valences.get(parent, 0) + 1
        records = []
        for parent, name, number, is_folder, length, first, physical in self.items + [(1, 'Slow', ROOT, True, 0, [], 0)]:
            # a count that its field can't tell loses its high bits
            body = folder_record(number, valences.get(number, 0) % 65536) if is_folder else file_record(number, length, physical, first)
            records.append((parent, name, body))
            if is_folder:
                records.append((number, '', thread_record(parent, name)))
        records.sort(key=lambda r: (r[0], r[1]))
        return [(catalog_key(parent, name), catalog_index_key(parent, name), body) for parent, name, body in records]

    def tree_file(self, tree, extents, least=0):
        """The bytes of a tree's file by blocks, and the size of the file."""
        per = self.block
        count = max(-(-tree.used // per), least)
        nodes = tree.nodes(count * per)
        places = [first + k for first, n in extents for k in range(n)]
        for place, at in enumerate(places):
            self.bytes_at[at] = b''.join(nodes[place * per:(place + 1) * per])

    def write(self, path):
        catalog = Tree(self.catalog_records(), 37, self.height, self.shuffle, self.fill)
        blocks = max(-(-catalog.used // self.block), self.catalog_room)
        size = self.block * NODE
        first, every, _ = self.lay(CATALOG_FILE, blocks * size, self.catalog_layout)
        self.tree_file(catalog, every, blocks)
        self.overflow.sort(key=lambda r: (r[1], r[0], r[2]))
        records = [(extents_key(*r[:3]), extents_key(*r[:3]), extent_bytes(r[3])) for r in self.overflow]
        extents = Tree(records, 7, 0, self.shuffle)
        room = -(-extents.used // self.block) + self.extents_room
        at = self.take(room)
        self.tree_file(extents, [(at, room)], room)
        folders = [i for i in self.items if i[3]]
        files = [i for i in self.items if not i[3]]
        mdb = struct.pack('>HIIHHHHHIIHIH', 0x4244, NOW, NOW, 0x100, sum(i[0] == ROOT for i in files) % 65536, 3, 0, self.blocks, size,
                          size, self.start, max([FIRST_FREE - 1] + [i[2] for i in self.items]) + 1, self.blocks - self.next_block)
        mdb += name_bytes('Slow', 28) + struct.pack('>IHIII', 0, 0, 1, size, size)
        mdb += struct.pack('>HII', sum(i[0] == ROOT for i in folders), len(files), len(folders)) + bytes(32) + bytes(6)
        mdb += struct.pack('>I', room * size) + extent_bytes([(at, room)]) + struct.pack('>I', blocks * size) + extent_bytes(first)
        assert len(mdb) == 162
        bits = bytearray(self.bitmap_sectors * NODE)
        for n in range(self.next_block):
            bits[n // 8] |= 0x80 >> n % 8
        image = bytearray(self.sectors * NODE)
        image[1024:1024 + 162] = mdb
        image[1536:1536 + len(bits)] = bits
        image[(self.sectors - 2) * NODE:(self.sectors - 2) * NODE + 162] = mdb
        for block, content in self.bytes_at.items():
            begin = self.start * NODE + block * size
            image[begin:begin + len(content)] = content
        with open(path, 'wb') as out:
            out.write(image)


# ---- how extents lie: rows of three, the first row in the file's own record

def whole(first, count):
    return [[(first, count)]]


def rows(extents):
    return [extents[k:k + 3] for k in range(0, len(extents), 3)]


def one_block_each(first, count):
    """The blocks from the last to the first, each an extent."""
    return rows([(first + k, 1) for k in reversed(range(count))])


def one_to_a_record(first, count):
    """One block to each record of the extents tree, with two empty extents behind it."""
    extents = [(first + k, 1) for k in reversed(range(count))]
    return [extents[:3]] + [[extent] for extent in extents[3:]]


# ---- the volumes

def flat(volume, count, numbers):
    """Files in folders of 200."""
    numbers = iter(numbers)
    left, n = count, 0
    while left:
        folder = next(numbers)
        volume.folder(ROOT, 'F%07d' % n, folder)
        n, left = n + 1, left - 1
        for k in range(min(200, left)):
            volume.file(folder, 'D%07d' % k, next(numbers))
        left -= min(200, left)


def plain(volume, count):
    flat(volume, count, range(FIRST_FREE, FIRST_FREE + count))


def shuffled_numbers(volume, count):
    numbers = list(range(FIRST_FREE, FIRST_FREE + count))
    random.Random(1).shuffle(numbers)
    flat(volume, count, numbers)


def falling_numbers(volume, count):
    flat(volume, count, range(FIRST_FREE + count, FIRST_FREE, -1))


def far_numbers(volume, count):
    """IDs that are the same in their low 14 bits, and far apart."""
    flat(volume, count, range(1 << 14, (count + 1) << 14, 1 << 14))


def one_folder(volume, count):
    for k in range(count):
        volume.file(ROOT, 'D%07d' % k, FIRST_FREE + k)


def long_names(volume, count):
    for k in range(count):
        volume.file(ROOT, 'A' * 24 + '%07d' % k, FIRST_FREE + k)


def plain_folders(volume, count):
    """Empty folders, 200 in each of some."""
    number, left = FIRST_FREE, count
    while left:
        parent = number
        volume.folder(ROOT, 'F%07d' % number, parent)
        number, left = number + 1, left - 1
        for k in range(min(200, left)):
            volume.folder(parent, 'D%07d' % k, number)
            number, left = number + 1, left - 1


def deep(volume, count):
    """Each folder in the one before it."""
    parent = ROOT
    for k in range(count):
        volume.folder(parent, 'D%07d' % k, FIRST_FREE + k)
        parent = FIRST_FREE + k


def deep_falling(volume, count):
    """The same, with numbers that fall."""
    parent = ROOT
    for k in range(count):
        volume.folder(parent, 'D%07d' % k, FIRST_FREE + count - k)
        parent = FIRST_FREE + count - k


def tall(volume, count):
    """A catalog tree of eight levels: most index nodes have one child."""
    plain(volume, count)
    volume.height = 8


def taller(volume, count):
    plain(volume, count)
    volume.height = 16


def sparse(volume, count):
    """Nodes with few records each: a leaf has one file, an index node four children."""
    plain(volume, count)
    volume.fill = 200


def cut_catalog(volume, count):
    plain(volume, count)
    volume.catalog_layout = one_block_each


def cut_catalog_shuffled(volume, count):
    """The nodes of the tree anywhere in its file, which lies in extents of one block."""
    plain(volume, count)
    volume.catalog_layout = one_block_each
    volume.shuffle = random.Random(2).shuffle


def cut_catalog_empty(volume, count):
    plain(volume, count)
    volume.catalog_layout = one_to_a_record


def big_file(volume, count, layout):
    volume.file(ROOT, 'BIG', FIRST_FREE, count * volume.block * NODE, layout)


def plain_file(volume, count):
    big_file(volume, count, whole)


def cut_file(volume, count):
    big_file(volume, count, one_block_each)


def cut_file_empty(volume, count):
    big_file(volume, count, one_to_a_record)


def plain_files(volume, count):
    """Files of four blocks."""
    for k in range(count):
        volume.file(ROOT, 'D%07d' % k, FIRST_FREE + k, 4 * volume.block * NODE)


def cut_files(volume, count):
    """Files of four blocks, each block an extent: each has one record in the extents tree."""
    for k in range(count):
        volume.file(ROOT, 'D%07d' % k, FIRST_FREE + k, 4 * volume.block * NODE, one_block_each)


def cut_two_files(volume, count):
    """Two files in so many extents together, and nodes of the extents tree for more."""
    for k, name in enumerate(('a', 'b')):
        volume.file(ROOT, name, FIRST_FREE + k, count // 2 * volume.block * NODE, one_block_each)
    volume.extents_room = 200


KINDS = {make.__name__: make for make in [
    plain, shuffled_numbers, falling_numbers, far_numbers, one_folder, long_names, plain_folders, deep, deep_falling, tall, taller, sparse,
    cut_catalog, cut_catalog_shuffled, cut_catalog_empty, plain_file, cut_file, cut_file_empty, plain_files, cut_files, cut_two_files]}


def main():
    kind, count, megabytes, path = sys.argv[1:]
    volume = Volume(int(megabytes))
    KINDS[kind](volume, int(count))
    volume.write(path)


if __name__ == '__main__':
    main()
