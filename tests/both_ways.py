#!/usr/bin/env python3
"""Tests that `check`, `ls`, `cat` and `repair` print and write the same of an image by its path, of which they read what they need, and from a
pipe, which they load whole: of real volumes and of volumes with a cut catalog, as they are, cut, made longer, with numbers that lead beyond their ends, and with damaged
node maps. If only nodes that no map marks have other bytes, the same must be printed.

python3 both_ways.py TOOL VOLUMES        VOLUMES has real volumes, as *.img
"""
import concurrent.futures
import os
import subprocess
import sys
import tempfile

from driver.programs import ended

HERE = os.path.dirname(os.path.abspath(__file__))
MDB = 1024
# The kinds of volumes that tests/slow_volumes.py lays, and how many items each gets.
LAID = [('plain', 60), ('cut_catalog', 100), ('cut_catalog_shuffled', 300), ('cut_catalog_empty', 100), ('cut_files', 100), ('cut_file_empty', 60)]
# Numbers of the master directory block that say where things lie or how many there are: the place and the bytes of each.
PLACES = [('bitmap', 14, 2), ('blocks', 18, 2), ('block size', 20, 4), ('area', 28, 2), ('extents size', 130, 4), ('catalog size', 146, 4)]
EXTENTS = [(f'{tree} extent {k} {part}', at + 4 * k + shift, 2) for tree, at in (('extents', 134), ('catalog', 150)) for k in range(3)
           for part, shift in (('first', 0), ('count', 2))]


def with_number(image, at, width, number):
    changed = bytearray(image)
    changed[MDB + at:MDB + at + width] = (number % (1 << 8 * width)).to_bytes(width, 'big')
    return bytes(changed)


def lengths(image):
    """The image cut at its beginning and its end, and made longer."""
    top = len(image)
    for length in [1, 511, 512, 1023, 1024, 1025, 1535, 1536, 1537, 2048, 4096, top // 2, top // 2 + 100, top - 1537, top - 1536, top - 1025, top - 1024,
                   top - 1023, top - 513, top - 512, top - 511, top - 1, top + 1, top + 511, top + 512, top + 100000]:
        yield f'of {length} bytes', image[:length].ljust(length, b'\1')


def numbers(image):
    """The image with a number that leads elsewhere or beyond its end."""
    for what, at, width in PLACES + EXTENTS:
        old = int.from_bytes(image[MDB + at:MDB + at + width], 'big')
        for number in [0, old + 1, old - 1, 0xFFFF, 0xFFFFFFFF]:
            yield f'with {what} {number % (1 << 8 * width)}', with_number(image, at, width, number)


def overflow(image):
    """The image with each two bytes of the first leaf of its extents tree changed, where its catalog may go on."""
    start = int.from_bytes(image[MDB + 28:MDB + 30], 'big') * 512
    size = int.from_bytes(image[MDB + 20:MDB + 24], 'big')
    leaf = start + int.from_bytes(image[MDB + 134:MDB + 136], 'big') * size + 512
    for at in [*range(leaf, leaf + 64, 2), *range(leaf + 496, leaf + 512, 2)]:
        for number in (0, 0xFFFF):
            changed = bytearray(image)
            changed[at:at + 2] = number.to_bytes(2, 'big')
            yield f'with {number} at {at}', bytes(changed)


class Tree:
    """A tree of an image, whose file's first extents are taken."""

    def __init__(self, image, extents, length):
        number = lambda at, width: int.from_bytes(image[at:at + width], 'big')
        area, size = number(MDB + 28, 2) * 512, number(MDB + 20, 4)
        self.places = []
        for k in range(3):
            first, count = number(MDB + extents + 4 * k, 2), number(MDB + extents + 4 * k + 2, 2)
            self.places += range(area + first * size, area + (first + count) * size, 512)
        self.places = self.places[:number(MDB + length, 4) // 512]
        head = self.places[0]
        self.record = head + number(head + 510, 2)
        self.map, self.map_end = head + number(head + 506, 2), head + number(head + 504, 2)
        self.nodes, self.root, self.first_leaf = (number(self.record + at, 4) for at in (22, 2, 10))
        self.nodes = min(self.nodes, len(self.places))

    def marked(self, image, n):
        at = self.map + n // 8
        return at >= self.map_end or image[at] >> 7 - n % 8 & 1 == 1


def trees(image):
    return Tree(image, 134, 130), Tree(image, 150, 146)


def put(image, *changes):
    changed = bytearray(image)
    for at, what in changes:
        changed[at:at + len(what)] = what
    return bytes(changed)


def map_node(forward):
    """A map node with all bits set, which leads to another."""
    return forward.to_bytes(4, 'big') + bytes(4) + b'\x02\0\0\x01\0\0' + b'\xff' * 492 + bytes(2) + (506).to_bytes(2, 'big') + (14).to_bytes(2, 'big')


def maps(image):
    """The image with a damaged node map: bits cleared under nodes in use, all bits set or cleared, map nodes in rings and chains, other numbers of nodes."""
    for tree, name in zip(trees(image), ('extents', 'catalog')):
        head = tree.places[0]
        live = [n for n in range(tree.nodes) if tree.marked(image, n) and tree.map + n // 8 < tree.map_end]
        for n in sorted({*live[:8], *live[-8:], *live[::max(1, len(live) // 8)], tree.root, tree.first_leaf} & set(live)):
            at = tree.map + n // 8
            yield f'without the mark of {name} node {n}', put(image, (at, bytes([image[at] & ~(1 << 7 - n % 8)])))
        yield f'with all {name} nodes marked', put(image, (tree.map, b'\xff' * (tree.map_end - tree.map)))
        yield f'with no {name} node marked', put(image, (tree.map, bytes(tree.map_end - tree.map)))
        yield f'with the {name} header alone marked', put(image, (tree.map, b'\x80' + bytes(tree.map_end - tree.map - 1)))
        for count in (0, 1, tree.nodes - 1, tree.nodes + 1, len(tree.places), len(tree.places) + 1, 0xFFFF, 0xFFFFFFFF):
            yield f'with {count} {name} nodes', put(image, (tree.record + 22, (count % (1 << 32)).to_bytes(4, 'big')))
        for n in (1, tree.root, tree.first_leaf, tree.nodes - 1, tree.nodes, 0xFFFFFFFF):
            yield f'with {name} node {n} as a map node', put(image, (head, n.to_bytes(4, 'big')))
        last, before = tree.nodes - 1, tree.nodes - 2
        if before > 1:
            for what, first, second in (('one', 0, 0), ('a ring of one', last, 0), ('two', before, 0), ('a ring of two', before, last), ('one that leads to the header', 0, 0),
                                        ('one that leads to the root', tree.root, 0), ('one that leads beyond', tree.nodes, 0)):
                yield (f'with {what} of {name} map nodes at its end',
                       put(image, (head, last.to_bytes(4, 'big')), (tree.places[last], map_node(first)), (tree.places[before], map_node(second))))


def unmarked(image):
    """The image with other bytes in the nodes that no map marks, where each map has but the header node's bits."""
    changes = []
    for tree in trees(image):
        if any(image[tree.places[0]:tree.places[0] + 4]):
            return
        leaf = image[tree.places[tree.root % len(tree.places)]:][:512]
        for n in range(tree.nodes):
            if not tree.marked(image, n):
                changes.append((tree.places[n], [map_node(n), b'\xff' * 512, bytes(range(256)) * 2, leaf][n % 4]))
    if changes:
        yield 'with other bytes in free nodes', put(image, *changes)


def words_on(tool, path):
    """The words that are tried on an image: of a sound one, some that reach a folder and both forks of a file."""
    words = [['check', path], ['ls', path], ['ls', path, '99999'], ['items', path], ['cat', path, '2', 'no such file']]
    for kind, number, _, length, name in (line.split(b'\t') for line in ended(tool, ['ls', path])[1].split(b'\n') if line.count(b'\t') == 4):
        if kind == b'd':
            words.append(['ls', path, number.decode()])
        elif name.isascii() and not name.startswith(b'-'):
            words += [['cat', path, '2', name.decode()], ['cat', '--resource', path, '2', name.decode()]]
        if len(words) > 8:
            break
    return words


def compare(tool, path, words, image):
    """Whether these words tell the same three ways. A fault that names the file names the other path there."""
    by_path = ended(tool, words)
    other = ['/dev/stdin' if word == path else word for word in words]
    wanted = (by_path[0], by_path[1].replace(path.encode(), b'/dev/stdin'), by_path[2])
    if ended(tool, other, image) != wanted:
        return False
    with open(path, 'rb') as file:
        redirected = subprocess.run([tool, *other], stdin=file, stdout=subprocess.PIPE, stderr=subprocess.PIPE, timeout=60)
    return (redirected.returncode, redirected.stdout, redirected.stderr) == wanted


def counts(image):
    """The image with numbers that are counted told wrong, each alone and all together: in the master directory block and in both trees' header records."""
    places = [(f'{name} wrong', at, width) for name, at, width in (('drNmFls', 12, 2), ('drFreeBks', 34, 2), ('drNmRtDirs', 82, 2), ('drFilCnt', 84, 4), ('drDirCnt', 88, 4))]
    for tree, name in zip(trees(image), ('extents', 'catalog')):
        places += [(f'{name} bthNRecs wrong', tree.record + 6 - MDB, 4), (f'{name} bthFree wrong', tree.record + 26 - MDB, 4)]
    changes = [(MDB + at, b'\7' * width) for _, at, width in places if at >= 0 and MDB + at + width <= len(image)]
    for (what, _, _), change in zip(places, changes):
        yield f'with {what}', put(image, change)
    yield 'with all counts wrong', put(image, *changes)
    yield 'with all counts wrong, and bytes behind its last block', put(image, *changes) + b'\1' * 300


def repaired(tool, path, image):
    """Whether a repair tells and writes the same of an image by its path and out of a pipe. A fault that names the file names the other path there."""
    out = path + '.out'
    told_of = []
    for words, given in ((['repair', path, out], None), (['repair', '/dev/stdin', out], image)):
        if os.path.exists(out):
            os.remove(out)
        run = ended(tool, words, given)
        written = open(out, 'rb').read() if os.path.exists(out) else None
        told_of.append((run[0], run[1].replace(path.encode(), b'/dev/stdin'), run[2], written))
    return told_of[0] == told_of[1]


def volumes_to_try(volumes, path):
    """The volumes of this folder, and volumes with a cut catalog, each by its name."""
    for name in sorted(os.listdir(volumes)):
        if name.endswith('.img'):
            yield name, open(os.path.join(volumes, name), 'rb').read()
    for kind, count in LAID:
        subprocess.run([sys.executable, os.path.join(HERE, 'slow_volumes.py'), kind, str(count), '1', path], check=True, stdout=subprocess.DEVNULL)
        yield kind, open(path, 'rb').read()


def fault_of_free_nodes(tool, path, base):
    """How the volume tells another thing where its free nodes hold other bytes, or None."""
    for how, image in unmarked(base):
        told_of = []
        for bytes_now in (base, image):
            with open(path, 'wb') as file:
                file.write(bytes_now)
            told_of.append([ended(tool, words) for words in words_on(tool, path)])
        if told_of[0] != told_of[1]:
            return f'{how}: another thing is told'
    return None


def tried(tool, name, base):
    """How many images were made of a volume, how many words were compared on them, and the first that differs, or None."""
    images, runs = 0, 0
    with tempfile.TemporaryDirectory() as work:
        path = os.path.join(work, 'image')
        fault = fault_of_free_nodes(tool, path, base)
        if fault:
            return images, runs, f'{name} {fault}'
        for how, image in [('as it is', base), *lengths(base), *numbers(base), *overflow(base), *maps(base), *unmarked(base), *counts(base)]:
            with open(path, 'wb') as file:
                file.write(image)
            images += 1
            if not repaired(tool, path, image):
                return images, runs, f'{name} {how}: repair tells or writes another thing by a path'
            for words in words_on(tool, path):
                runs += 1
                if not compare(tool, path, words, image):
                    return images, runs, f'{name} {how}: {" ".join(words)} tells another thing by a path'
    return images, runs, None


def main():
    tool, volumes = sys.argv[1:]
    with tempfile.TemporaryDirectory() as work:
        bases = list(volumes_to_try(volumes, os.path.join(work, 'image')))
    with concurrent.futures.ProcessPoolExecutor(os.cpu_count()) as pool:
        results = list(pool.map(tried, [tool] * len(bases), *zip(*bases)))
    for _, _, fault in results:
        if fault:
            sys.exit(fault)
    print(f'{sum(it[0] for it in results)} images, {sum(it[1] for it in results)} words: the same by a path and out of a pipe')


if __name__ == '__main__':
    main()
