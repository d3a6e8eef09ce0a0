"""Images for one rule each, with the rows, written by hand, of what remains of them: path, number, ID, the verdict on the data
fork and on the resource fork, with bars between. `directory` is the line that says so, if it isn't block 2; `folders` are
paths below the payload that have to be there, `absent` those that mustn't be."""
from dataclasses import dataclass, field
from typing import Callable, Iterator, Optional

from remains.blocks import BLOCK
from remains.laid import ROOT, Laid, bits, file, folder, header_node, leaf, map_node, overflow, thread, three

ROOTS_ROW = '|0|2|-|-'


@dataclass
class Case:
    name: str
    image: bytes
    rows: list[str]
    directory: str = 'directory 2'
    folders: list[str] = field(default_factory=list)
    absent: list[str] = field(default_factory=list)
    limit: Optional[int] = None
    status: Optional[int] = None
    mac_paths: Optional[list[str]] = None


CASES: list[Callable[[], Iterator[Case]]] = []


def case(function):
    CASES.append(function)
    return function


def all_cases() -> Iterator[Case]:
    for function in CASES:
        yield from function()


# Names, each with its plain text and its host name, by hand; the characters are those of Python's codec mac_roman.
NAMES = [
    (b'a/b', 'a/b', 'a=2Fb'), (b'.x', '.x', '=2Ex'), (b'x.', 'x.', 'x=2E'), (b'..', '..', '=2E=2E'), (b' ', ' ', '=20'),
    (b'50% =\\', '50% =\\5c', '50=25 =3D=5C'), (b'\x8e\x0d\x7f', '\u00e9\\0d\\7f', '\u00e9=0D=7F'), (b'con', 'con', '=63on'), (b'Aux.c', 'Aux.c', '=41ux.c'),
    (b'nul.', 'nul.', '=6Eul=2E'), (b'com1', 'com1', '=63om1'), (b'LPT9.x.y', 'LPT9.x.y', '=4CPT9.x.y'), (b'com0', 'com0', 'com0'), (b'com10', 'com10', 'com10'),
    (b'cons', 'cons', 'cons'), (b'x.con', 'x.con', 'x.con'), (b'con ', 'con ', 'con=20'), (b'a b.c', 'a b.c', 'a b.c'), (b'\x00\x1f', '\\00\\1f', '=00=1F'),
    (b':*?"<>|', ':*?"<>|', '=3A=2A=3F=22=3C=3E=7C'), (b'\x80\xca\xdb\xf0\xff', '\u00c4\u00a0\u20ac\uf8ff\u02c7', '\u00c4\u00a0\u20ac\uf8ff\u02c7'),
    (b'\xa5\xc6\xde', '\u2022\u2206\ufb01', '\u2022\u2206\ufb01'),
]
# What that codec gives for the bytes from $80 to $FF.
HIGH = ('\u00c4\u00c5\u00c7\u00c9\u00d1\u00d6\u00dc\u00e1\u00e0\u00e2\u00e4\u00e3\u00e5\u00e7\u00e9\u00e8\u00ea\u00eb\u00ed\u00ec\u00ee\u00ef\u00f1\u00f3\u00f2\u00f4\u00f6\u00f5\u00fa\u00f9\u00fb\u00fc'
        '\u2020\u00b0\u00a2\u00a3\u00a7\u2022\u00b6\u00df\u00ae\u00a9\u2122\u00b4\u00a8\u2260\u00c6\u00d8\u221e\u00b1\u2264\u2265\u00a5\u00b5\u2202\u2211\u220f\u03c0\u222b\u00aa\u00ba\u03a9\u00e6\u00f8'
        '\u00bf\u00a1\u00ac\u221a\u0192\u2248\u2206\u00ab\u00bb\u2026\u00a0\u00c0\u00c3\u00d5\u0152\u0153\u2013\u2014\u201c\u201d\u2018\u2019\u00f7\u25ca\u00ff\u0178\u2044\u20ac\u2039\u203a\ufb01\ufb02'
        '\u2021\u00b7\u201a\u201e\u2030\u00c2\u00ca\u00c1\u00cb\u00c8\u00cd\u00ce\u00cf\u00cc\u00d3\u00d4\uf8ff\u00d2\u00da\u00db\u00d9\u0131\u02c6\u02dc\u00af\u02d8\u02d9\u02da\u00b8\u02dd\u02db\u02c7')


def names_by_hand() -> Case:
    """Files of these names, and of each high byte."""
    high = [(bytes(range(0x80 + at, min(0x80 + at + 31, 0x100))), HIGH[at:at + 31], HIGH[at:at + 31]) for at in range(0, 128, 31)]
    names = NAMES + high
    image = Laid(catalog_nodes=14).catalog(*(file(2, name, 16 + n) for n, (name, _, _) in enumerate(names)))
    rows = [f'{host}|{n}|{15 + n}|whole|whole' for n, (_, _, host) in enumerate(names, 1)]
    return Case('names by hand, and each high byte', image.image(), [ROOTS_ROW, *rows], mac_paths=['D', *(f'D:{plain}' for _, plain, _ in names)])


# ---- the directory

@case
def where_the_directory_is():
    laid = Laid().catalog(file(2, b'f', 16))
    rows = [ROOTS_ROW, 'f|1|16|whole|whole']
    yield Case('a directory among other blocks', laid.image(at=[40]), rows, 'directory 40', status=0)
    yield Case('directories among other blocks: the last one', laid.image(at=[40, 31]), rows, 'directory 40')
    other = Laid().catalog(file(2, b'f', 16))
    other.put(40 * BLOCK, other.directory())
    other.extents_of_trees[37] = [(20, 1)]
    other.put(50 * BLOCK, other.directory())
    yield Case('a directory whose catalog begins nowhere is behind one whose catalog does', bytes(other.content), rows, 'directory 40')
    none = Laid()
    none.put(4 * BLOCK, bytes(8 * BLOCK))
    none.block(20, leaf([file(2, b'f', 16)]))
    yield Case('neither tree begins', none.image(), ['=old/f|0|16|whole|whole'], 'directory 2 unsure', status=3)
    yield Case('neither tree begins: block 2, then the one before the last, then from the last on', none.image(at=[])[:2 * BLOCK] + bytes(BLOCK)
               + none.image()[3 * BLOCK:], ['=old/f|0|16|whole|whole'], 'directory 62 unsure')


@case
def which_of_both():
    """Block 2 and the one before the last, with trees that begin or not."""
    rows = [ROOTS_ROW, 'f|1|16|whole|whole']

    def laid(two, alternate):
        image = Laid().catalog(file(2, b'f', 16))
        for block, (has_extents, has_catalog) in ((2, two), (62, alternate)):
            content = bytearray(image.directory())
            if not has_extents:
                content[134:146] = three([(30, 2)])
            if not has_catalog:
                content[150:162] = three([(30, 6)])
            image.put(block * BLOCK, bytes(content))
        return bytes(image.content)

    both, catalog, extents, none = (True, True), (False, True), (True, False), (False, False)
    for two, alternate, number in ((both, both, 2), (catalog, both, 62), (extents, both, 62), (catalog, catalog, 2), (extents, catalog, 62), (none, both, 62)):
        yield Case(f'block 2 has {two}, the other {alternate}', laid(two, alternate), rows, f'directory {number}')
    old = [ROOTS_ROW, '=old/f|1|16|whole|whole']
    yield Case('the extents tree alone begins, in block 2', laid(extents, extents), old, 'directory 2')
    yield Case('the extents tree alone begins, in the other', laid(none, extents), old, 'directory 2 unsure')
    yield Case('an extent of no blocks is none', skipped_extent(), rows)
    for at, value in ((0, b'BE'), (18, b'\0\0'), (20, b'\0\0\0\0'), (20, b'\0\0\2\1'), (20, b'\0\0\1\0')):
        image = bytearray(Laid().catalog(file(2, b'f', 16)).image())
        image[2 * BLOCK + at:2 * BLOCK + at + len(value)] = value
        yield Case(f'block 2 with {value.hex()} at {at} will not do', bytes(image), rows, 'directory 62')


@case
def small_images():
    """Images of three blocks and a few more: the block before the last may be block 1 or block 2."""
    def laid(blocks, at, more=0):
        image = Laid(blocks=64)
        return bytes(at * BLOCK) + image.directory() + bytes((blocks - at - 1) * BLOCK + more)

    for blocks, at, more in ((3, 0, 0), (3, 1, 0), (3, 2, 0), (3, 2, 511), (4, 2, 0), (4, 3, 0), (5, 0, 0), (5, 4, 1)):
        yield Case(f'{blocks} blocks and {more} bytes, the directory in block {at}', laid(blocks, at, more), [], f'directory {at} unsure', status=3)
    both = bytearray(laid(3, 1))
    both[2 * BLOCK:] = both[BLOCK:2 * BLOCK]
    yield Case('three blocks with two directories', bytes(both), [], 'directory 2 unsure')
    tail = Laid().catalog(file(2, b'f', 16))
    yield Case('a directory before the last whole block', tail.image(at=[62]) + bytes(511), [ROOTS_ROW, 'f|1|16|whole|whole'], 'directory 62')
    yield Case('a directory before a whole block more', tail.image(at=[62]) + bytes(512), [ROOTS_ROW, 'f|1|16|whole|whole'], 'directory 62')
    moved = Laid().catalog(file(2, b'f', 16, (5, [(0, 1)])))
    moved.fields[28] = (2, 0)
    # the catalog's six blocks are those from the directory on, of which the last is its leaf
    yield Case('allocation blocks from the first block on', moved.image(), [ROOTS_ROW, 'f|1|16|shared|whole'], 'directory 2 unsure', status=3)
    far = Laid().catalog(file(2, b'f', 16, (5, [(0, 1)])))
    far.fields[28] = (2, 65_535)
    yield Case('allocation blocks behind the image', far.image(), [ROOTS_ROW, '=old/f|1|16|missing 5|whole'], 'directory 2 unsure', status=3)


def skipped_extent():
    image = bytearray(Laid().catalog(file(2, b'f', 16)).image())
    for block in (2, 62):
        image[block * BLOCK + 150:block * BLOCK + 162] = three([(30, 0), (2, 6)])
    return bytes(image)


# ---- nodes and records

@case
def which_nodes_are_in_use():
    """A catalog with a leaf that its map does not mark, by several header nodes."""
    own = [folder(1, b'D', ROOT), thread(ROOT, 1, b'D'), file(2, b'f', 16)]
    stale = [file(2, b'g', 17)]
    record = lambda last, length=106: (bytes(14) + last.to_bytes(4, 'big')).ljust(length, b'\0')

    def laid(header):
        image = Laid(catalog_nodes=20)
        image.node(37, 0, header)
        image.node(37, 1, leaf(own))
        image.node(37, 12, leaf(stale))
        return image

    apart = [ROOTS_ROW, 'f|1|16|whole|whole', '=old/g|2|17|whole|whole']
    equal = [ROOTS_ROW, 'f|1|16|whole|whole', 'g|2|17|whole|whole']
    usual = [record(1), bytes(128), bits([0, 1])]
    yield Case('a leaf that is not marked', laid(header_node(usual)).image(), apart)
    yield Case('a first record of 18 bytes', laid(header_node([record(1, 18), b'', bits([0, 1])])).image(), apart)
    yield Case('a first record of 17 bytes', laid(header_node([record(1, 18)[:17], b'', bits([0, 1])])).image(), equal)
    yield Case('two records', laid(header_node(usual[:1] + usual[2:])).image(), equal)
    yield Case('four records', laid(header_node(usual + [b''])).image(), equal)
    yield Case('a map that does not mark its own node', laid(header_node([record(1), b'', bits([1, 12])])).image(), equal)
    yield Case('a map that does not mark the last leaf', laid(header_node([record(2), b'', bits([0, 1])])).image(), equal)
    yield Case('a last leaf behind the end of the map', laid(header_node([record(8), b'', bits([0, 1])])).image(), equal)
    no_header = laid(header_node(usual))
    no_header.node(37, 0, map_node(usual))
    yield Case('a first node that is a map node', no_header.image(), equal)

    # bits 0 to 7 in the header node, the next ones in map nodes
    def mapped(*nodes):
        image = laid(header_node([record(1), b'', bits([0, 1])], forward=nodes[0][0]))
        for number, content in nodes:
            image.node(37, number, content)
        return image.image()

    yield Case('a map node that marks a leaf', mapped((5, map_node([bits([4])]))), equal)
    yield Case('a map node that leads to itself', mapped((5, map_node([bits([1])], 5))), apart)
    yield Case('two map nodes in a ring, the second marks', mapped((5, map_node([b''], 6)), (6, map_node([bits([4])], 5))), equal)
    yield Case('a map node of no record ends the map', mapped((5, map_node([], 6)), (6, map_node([bits([4])]))), apart)
    yield Case('a leaf in a chain of map nodes ends it', mapped((5, leaf([b'\xff\xff'], 6)), (6, map_node([bits([4])]))), apart)
    yield Case('a map node that leads to the header node', mapped((5, map_node([bits([4])], 0))), equal)


@case
def which_leaves_are_read():
    """Leaves in the order of numbers, those in use before the others; only of height 1, and only such as decode."""
    image = Laid(catalog_nodes=10).catalog(file(2, b'f', 16)).damaged()
    image.node(37, 3, leaf([file(2, b'c', 20)]))
    image.node(37, 2, leaf([file(2, b'b', 21)]))
    image.node(37, 4, leaf([file(2, b'd', 22)], height=2))
    broken = bytearray(leaf([file(2, b'e', 23)]))
    broken[510:512] = b'\0\15'
    image.node(37, 5, bytes(broken))
    image.node(37, 6, leaf([file(2, b'x', 16), file(2, b'y', 24), b'\1\2', file(2, b'z', 25)]))
    rows = [ROOTS_ROW, 'f|1|16|whole|whole', '=old/b|2|21|whole|whole', '=old/c|3|20|whole|whole', '=old/y|4|24|whole|whole', '=old/z|5|25|whole|whole']
    yield Case('leaves that are not in use, by their numbers', image.image(), rows, status=3)
    sound = Laid(catalog_nodes=10).catalog(file(2, b'f', 16))
    sound.node(37, 3, leaf([file(2, b'c', 20)]))
    yield Case('a catalog that passes gives those of its last level alone', sound.image(), rows[:2], status=0)


@case
def records_of_any_form():
    """Records whose key or body is not as it should be are passed over; names may have any bytes."""
    odd = [file(2, b'a', 16, length=8), file(2, b'b', 17, length=37), file(2, b'c', 18, length=38), file(2, b'dd', 19, length=7),
           b'\5\0\0\0\0\2' + file(2, b'', 20)[6:], file(2, b'e', 21)[:-1], file(2, b'e', 22) + b'\0\0']
    image = Laid(catalog_nodes=10).catalog(*odd[:3], file(2, b'ok', 23)).damaged()
    image.node(37, 3, leaf(odd[3:]))
    yield Case('keys and bodies of other lengths', image.image(), [ROOTS_ROW, 'a|1|16|whole|whole', 'b|2|17|whole|whole', 'ok|3|23|whole|whole'])
    kinds = bytearray(file(2, b'k', 16))
    kinds[8] = 3
    swapped = bytearray(folder(2, b's', 17))
    swapped[8] = 2
    image = Laid().catalog(bytes(kinds), bytes(swapped), file(2, b'ok', 18)).damaged()
    yield Case('bodies of another kind than their length', image.image(), [ROOTS_ROW, 'ok|1|18|whole|whole'])
    named = [file(2, name, 16 + n) for n, name in enumerate((b'\r', b'a:b', b'.x', b'x.', b'\x8e', b'CON', b'50% =\\', b'/' * 31))]
    image = Laid(catalog_nodes=10).catalog(*named)
    texts = ['=0D', 'a=3Ab', '=2Ex', 'x=2E', '\u00e9', '=43ON', '50=25 =3D=5C', '=2F' * 31]
    yield Case('names of any bytes', image.image(), [ROOTS_ROW, *(f'{text}|{n}|{15 + n}|whole|whole' for n, text in enumerate(texts, 1))])
    yield names_by_hand()
    image = Laid(catalog_nodes=6).catalog(file(2, b'', 16), folder(2, b'', 17), file(17, b'f', 18))
    yield Case('items without a name are none', image.image(), [ROOTS_ROW, '=lost/17/f|1|18|whole|whole'])


@case
def other_blocks():
    """Blocks that are no node of the catalog are looked at only where nodes are lost, or give nothing."""
    stale = leaf([file(2, b'g', 17), thread(18, 2, b'T')])
    rows = [ROOTS_ROW, 'f|1|16|whole|whole']

    def laid(size=None):
        image = Laid().catalog(file(2, b'f', 16)).damaged()
        image.block(30, stale)
        image.block(31, leaf([file(2, b'h', 19), b'\1\2']))
        image.block(32, leaf([file(2, b'i', 20)], height=2))
        image.block(33, leaf([file(2, b'f', 16)]))
        image.block(34, leaf([]))
        if size:
            image.fields[146] = (4, size)
        return image

    yield Case('a catalog that has its nodes', laid().image(), rows)
    yield Case('a catalog larger than its nodes', laid(6 * BLOCK + 1).image(), [*rows, '=old/g|2|17|whole|whole'], folders=['T'])
    lost = laid()
    lost.node(37, 0, bytes(3 * BLOCK))
    yield Case('a catalog without a record', lost.image(), ['=old/g|0|17|whole|whole', '=old/f|1|16|whole|whole'], folders=['T'])
    low = laid(7 * BLOCK)
    low.put(3 * BLOCK, leaf([file(2, b'j', 21)]))
    low.put(BLOCK, leaf([file(2, b'k', 22)]))
    yield Case('block 3 is looked at, and none before it', low.image(), [*rows, '=old/j|2|21|whole|whole', '=old/g|3|17|whole|whole'])
    last = laid(7 * BLOCK)
    last.put(63 * BLOCK, leaf([file(2, b'z', 30)]))
    both = [*rows, '=old/g|2|17|whole|whole', '=old/z|3|30|whole|whole']
    yield Case('the last block', last.image(), both)
    yield Case('the last block, which is cut', last.image()[:-1], both[:3])
    roots = laid()
    roots.node(37, 0, bytes(6 * BLOCK))
    roots.block(40, leaf([folder(1, b'D', ROOT), thread(ROOT, 1, b'D')]))
    yield Case('a root in another block', roots.image(), ['=old/g|0|17|whole|whole', '=old/f|1|16|whole|whole', '|2|2|-|-'], absent=['=old/D', '._', '=lost'])


@case
def the_catalogs_blocks():
    """Extents of the catalog that name a block again, or go on in the extents tree, or beyond the volume."""
    records = [file(2, bytes([97 + n]) * 20, 16 + n) for n in range(8)]
    names = [f'{chr(97 + n) * 20}|{n + 1}|{16 + n}|whole|whole' for n in range(8)]
    again = Laid().catalog(*records)
    again.extents_of_trees[37] = [(2, 3), (2, 3), (5, 3)]
    # nodes 3 to 5 are missing, and the last leaf is node 6, which is not marked
    yield Case('blocks of the catalog that come again', again.image(), [ROOTS_ROW, *names[:5], *(f'=old/{it}' for it in names[5:])], status=3)
    on = Laid().catalog(*records)
    on.extents_of_trees[37] = [(2, 1), (3, 1), (4, 1)]
    on.leaves(7, [overflow(4, 0, 3, [(5, 1), (6, 1), (7, 1)])])
    yield Case('a catalog that goes on in the extents tree', on.image(), [ROOTS_ROW, *names], status=0)
    on.leaves(7, [overflow(4, 0, 3, [(0, 0), (5, 1)]), overflow(4, 0, 4, [(6, 2)])])
    yield Case('a catalog that goes on by two records', on.image(), [ROOTS_ROW, *names], status=0)
    on.leaves(7, [overflow(4, 0, 3, [(5, 1)]), overflow(4, 0, 4, [(70, 0)]), overflow(4, 0xFF, 4, [(6, 2)])])
    yield Case('a record of no block ends the catalog', on.image(), [ROOTS_ROW, *names], status=3)
    # the last leaf is no node of the catalog, but another block
    on.leaves(7, [overflow(4, 0, 3, [(70, 0)]), overflow(4, 0, 4, [(6, 2)])])
    yield Case('a record of no block ends the catalog before its last leaf', on.image(), [ROOTS_ROW, *names[:5], *(f'=old/{it}' for it in names[5:])], status=3)
    on.leaves(7, [overflow(4, 0, 3, [(5, 1)]), overflow(4, 0, 4, [(5, 1)]), overflow(4, 0, 5, [(6, 1)])])
    yield Case('a chain of the catalog that names a block again', on.image(), [ROOTS_ROW, *names], status=3)
    beyond = Laid().catalog(*records)
    beyond.extents_of_trees[37] = [(2, 6), (70, 3)]
    yield Case('extents beyond the volume', beyond.image(), [ROOTS_ROW, *names], status=3)
    image = bytearray(Laid().catalog(*records).image())
    image[2 * BLOCK + 18:2 * BLOCK + 20] = b'\0\5'
    yield Case('blocks beyond the volume\'s last', bytes(image), [ROOTS_ROW, *names[:5], *(f'=old/{it}' for it in names[5:])], status=3)


# ---- items and places

@case
def items_that_come_again():
    twice = Laid(catalog_nodes=8).catalog(file(2, b'f', 16), file(2, b'f', 16), file(2, b'f', 16, modified=1), file(2, b'f', 17), file(2, b'g', 16))
    yield Case('equal records are one item, and others of its number or name are not', twice.image(),
               [ROOTS_ROW, 'f|1|16|whole|whole', 'f=r2|2|16|whole|whole', 'f=r3|3|17|whole|whole', 'g|4|16|whole|whole'])
    old = Laid(catalog_nodes=8).catalog(file(2, b'f', 16), file(19, b'x', 23)).damaged()
    old.node(37, 4, leaf([file(2, b'o', 16), folder(2, b'F', 19), file(19, b'y', 20)]))
    old.node(37, 5, leaf([file(2, b'p', 20), file(2, b'F', 21)]))
    yield Case('old items whose number is taken', old.image(),
               [ROOTS_ROW, 'f|1|16|whole|whole', 'F=r3/x|2|23|whole|whole', '=old/F=r3|3|19|-|-', '=old/F=r3/y|4|20|whole|whole', '=old/F=r5|5|21|whole|whole'],
               folders=['F=r3', '=old/F=r3'], absent=['._F=r3'])


@case
def names_but_for_case():
    names = [b'a', b'A', b'\x8e', b'\x83', b'Ab', b'aB', b'AB', b'con', b'CON']
    image = Laid(catalog_nodes=8).catalog(*(file(2, it, 16 + n) for n, it in enumerate(names)))
    texts = ['a', 'A=r2', '\u00e9', '\u00c9', 'Ab', 'aB=r6', 'AB=r7', '=63on', '=43ON']
    yield Case('names that differ in case alone', image.image(), [ROOTS_ROW, *(f'{it}|{n}|{15 + n}|whole|whole' for n, it in enumerate(texts, 1))])
    image = Laid(catalog_nodes=8).catalog(folder(2, b'x', 16), folder(2, b'X', 17), file(16, b'f', 18), file(17, b'F', 19), file(17, b'f', 20))
    yield Case('folders whose names differ in case alone', image.image(),
               [ROOTS_ROW, 'x|1|16|-|-', 'X=r2|2|17|-|-', 'x/f|3|18|whole|whole', 'X=r2/F|4|19|whole|whole', 'X=r2/f=r5|5|20|whole|whole'])


@case
def roots_and_low_numbers():
    image = Laid(catalog_nodes=8).catalog(folder(1, b'd', ROOT), folder(16, b'q', ROOT), file(2, b'f', 16))
    yield Case('folders of number 2 behind the root', image.image(), [ROOTS_ROW, '=lost/1/d=r1|1|2|-|-', '=lost/16/q|2|2|-|-', 'f|3|16|whole|whole'])
    image = Laid(catalog_nodes=8)
    image.name = b'F'
    image.catalog(folder(2, b'one', 1), file(1, b'f', 16), folder(2, b'zero', 0), file(0, b'g', 17))
    yield Case('folders of numbers 0 and 1', image.image(),
               [ROOTS_ROW, 'one|1|1|-|-', 'one/f=r2|2|16|whole|whole', 'zero|3|0|-|-', 'zero/g|4|17|whole|whole'])
    image = Laid(catalog_nodes=8).damaged()
    image.leaves(37, [file(2, b'f', 16), file(16, b'x', 17), file(1, b'y', 18)])
    yield Case('no root, and a file in a file', image.image(), ['f|0|16|whole|whole', '=lost/16/x|1|17|whole|whole', '=lost/1/y|2|18|whole|whole'])
    image = Laid(catalog_nodes=8)
    image.leaves(37, [file(1, b'r', ROOT), folder(1, b's', ROOT)])
    yield Case('a file of number 2', image.image(), ['=lost/1/r|0|2|whole|whole', '|1|2|-|-'])


@case
def named_folders():
    records = [thread(30, 2, b'T'), thread(30, 2, b'later'), thread(31, 2, b''), thread(31, 30, b'U'), thread(32, 2, b'W', kind=4), thread(33, 2, b'x', told=32),
               thread(34, 2, b'V', own_name=b'n'), file(30, b'f', 16), file(32, b'g', 17), file(33, b'h', 18), file(34, b'i', 19), file(2, b't', 20),
               folder(2, b'known', 35), thread(35, 2, b'other'), thread(36, 99, b'far'), file(36, b'j', 21), thread(2, 5, b'root'), thread(20, 2, b'file')]
    image = Laid(catalog_nodes=12).catalog(*records)
    yield Case('folders that threads alone name', image.image(),
               [ROOTS_ROW, 'T=t30/f|1|16|whole|whole', '=lost/32/g|2|17|whole|whole', '=lost/33/h|3|18|whole|whole', '=lost/34/i|4|19|whole|whole',
                't|5|20|whole|whole', 'known|6|35|-|-', '=lost/99/far/j|7|21|whole|whole'],
               folders=['T=t30', 'T=t30/U', 'file', '=lost/99/far'], absent=['T=t30/._U', '._T=t30', 'other', 'later', 'root', '=lost/99/._far'])
    ring = Laid(catalog_nodes=8).catalog(thread(30, 31, b'a'), thread(31, 30, b'b'), file(31, b'f', 16), thread(32, 32, b'self'))
    yield Case('folders that threads name, in a ring', ring.image(), [ROOTS_ROW, '=lost/30/b/f|1|16|whole|whole'],
               folders=['=lost/31/a', '=lost/30/b', '=lost/32/self'])


@case
def chains_without_end():
    image = Laid(catalog_nodes=12).catalog(folder(20, b's', 20), file(20, b'f', 16), folder(20, b't', 21), folder(21, b'u', 22), folder(22, b'u', 21),
                                           file(21, b'g', 17), folder(2, b'out', 23), folder(23, b'in', 20))
    yield Case('a folder in itself', image.image(),
               [ROOTS_ROW, '=lost/20/s|1|20|-|-', '=lost/20/s/f|2|16|whole|whole', '=lost/20/t|3|21|-|-', '=lost/21/u|4|22|-|-',
                '=lost/21/u/u|5|21|-|-', '=lost/20/t/g|6|17|whole|whole', 'out|7|23|-|-', 'out/in|8|20|-|-'])


@case
def long_paths():
    """25 folders in one another: the path of the last has 799 bytes and one for each letter behind ASCII."""
    for letters, is_lost in ((1, False), (2, True)):
        names = [b'\x8e' * letters + b'x' * (31 - letters)] + [b'%031d' % n for n in range(1, 26)]
        texts = ['\u00e9' * letters + 'x' * (31 - letters)] + [f'{n:031}' for n in range(1, 26)]
        records = [folder(2 if n == 0 else 100 + n - 1, name, 100 + n) for n, name in enumerate(names)]
        image = Laid(blocks=128, catalog_nodes=60).catalog(*records, file(124, b'f', 16), file(125, b'g', 17))
        paths = ['/'.join(texts[:n]) for n in range(1, 27)]
        if is_lost:
            paths[24] = f'=lost/123/{texts[24]}'
            paths[25] = f'{paths[24]}/{texts[25]}'
        else:
            paths[25] = f'=lost/124/{texts[25]}'
        rows = [f'{path}|{n}|{99 + n}|-|-' for n, path in enumerate(paths, 1)]
        yield Case(f'a path of {799 + letters} bytes', image.image(), [ROOTS_ROW, *rows, f'{paths[24]}/f|27|16|whole|whole', f'{paths[25]}/g|28|17|whole|whole'])


@case
def below_old():
    """What lies in an old folder, and old items in one that is in use."""
    image = Laid(catalog_nodes=12).catalog(folder(2, b'in', 20), file(30, b'f', 16), folder(30, b'sub', 31), file(31, b'g', 17)).damaged()
    image.node(37, 6, leaf([folder(2, b'was', 30), file(20, b'h', 18), folder(20, b'IN', 21)]))
    image.node(37, 7, leaf([file(21, b'i', 19), file(77, b'j', 22)]))
    yield Case('old folders and what lies in them', image.image(),
               [ROOTS_ROW, 'in|1|20|-|-', 'was/f|2|16|whole|whole', 'was/sub|3|31|-|-', 'was/sub/g|4|17|whole|whole', '=old/was|5|30|-|-',
                '=old/in/h|6|18|whole|whole', '=old/in/IN|7|21|-|-', '=old/in/IN/i|8|19|whole|whole', '=old/=lost/77/j|9|22|whole|whole'],
               folders=['was', '=old/was', '=old/in'], absent=['._was', '=old/._in'])


@case
def texts_of_tables():
    """What stands in the table and in bag-info.txt: dates, types, names with commas, and the name of the volume."""
    files = [file(2, b'a,b', 16, finder=b'a,"b\r\x8e\\\x7f' + bytes(range(24)), flags=0x81, modified=2_082_844_799),
             file(2, b'c', 17, finder=b'TEXTttxt', modified=2_082_844_800, flags=0x80), file(2, b'd', 18, modified=4_294_967_295), file(2, b'e', 19, modified=1),
             folder(2, b'f,g', 20, finder=b'\xff' * 32, modified=5_097_600)]
    rows = [ROOTS_ROW, 'a,b|1|16|whole|whole', 'c|2|17|whole|whole', 'd|3|18|whole|whole', 'e|4|19|whole|whole', 'f,g|5|20|-|-']
    for name, length in ((b'A\\ b\x8e\r', None), (b'', None), (b'x' * 27, None), (b'y' * 27, 255), (b'z', 0)):
        image = Laid(catalog_nodes=8).catalog(*files)
        image.name = name
        content = bytearray(image.image())
        if length is not None:
            content[2 * BLOCK + 36] = length
        yield Case(f'a volume of the name {name!r} with the length {length}', bytes(content), rows)


@case
def records_at_odd_places():
    image = Laid().catalog(file(2, b'f', 16)).damaged()
    image.node(37, 1, leaf([b'\1\2\3', folder(1, b'D', ROOT), b'', b'\xff', file(2, b'f', 16), thread(30, 2, b'T')]))
    yield Case('records that begin at odd places', image.image(), [ROOTS_ROW, 'f|1|16|whole|whole'], folders=['T'])


@case
def folders_by_old_threads():
    """Threads of old leaves name folders, too; what an old folder holds lies where it would lie without `=old`."""
    image = Laid(catalog_nodes=8).catalog(file(30, b'f', 16), thread(31, 2, b'same'), thread(32, 2, b'SAME')).damaged()
    image.node(37, 5, leaf([folder(2, b'was', 40), thread(30, 40, b'T'), thread(31, 2, b'again'), thread(33, 30, b'U')]))
    yield Case('folders that old threads name', image.image(), [ROOTS_ROW, 'was/T/f|1|16|whole|whole', '=old/was|2|40|-|-'],
               folders=['was/T', 'was/T/U', 'same', 'SAME=t32'], absent=['again', '=old/was/T', '._was'])
    deep = [thread(100 + n, 101 + n, b'%031d' % n) for n in range(30)] + [thread(130, 2, b'%031d' % 30)]
    image = Laid(blocks=128, catalog_nodes=60).catalog(*deep, file(100, b'f', 16))
    paths = '/'.join(f'{n:031}' for n in range(30, 5, -1))
    rest = '/'.join(f'{n:031}' for n in range(5, -1, -1))
    yield Case('folders that threads name, too deep in one another', image.image(), [ROOTS_ROW, f'=lost/106/{rest}/f|1|16|whole|whole'],
               folders=[paths, f'=lost/106/{rest}'])


# ---- forks

@case
def blocks_of_forks():
    """Volumes of 64 blocks have 58 allocation blocks; 8 of them are the trees'."""
    def one(what, row, *files, extents=(), **how):
        image = Laid(catalog_nodes=how.pop('nodes', 6)).catalog(*files)
        if extents:
            image.leaves(7, list(extents))
        rows = [row] if isinstance(row, str) else row
        return Case(what, image.image(), [ROOTS_ROW, *rows], **how)

    yield one('blocks enough', 'f|1|16|whole|whole', file(2, b'f', 16, (1024, [(10, 1), (12, 1)])), status=0)
    yield one('a byte more than its blocks', 'f|1|16|cut 1024|whole', file(2, b'f', 16, (1025, [(10, 1), (12, 1)])), status=3)
    yield one('no blocks', 'f|1|16|cut 0|cut 0', file(2, b'f', 16, (1, []), (4294967295, [])))
    yield one('a block beyond the volume', 'f|1|16|missing 512|whole', file(2, b'f', 16, (1024, [(10, 1), (58, 1)])))
    yield one('a part of a block beyond the volume', 'f|1|16|missing 488|whole', file(2, b'f', 16, (1000, [(10, 1), (58, 1)])))
    yield one('all that may be told', 'f|1|16|cut 1536,missing 512,shared|whole', file(2, b'f', 16, (5000, [(57, 2), (57, 1)])))
    yield one('a block twice beyond the volume is not shared', 'f|1|16|missing 1024|whole', file(2, b'f', 16, (1024, [(60, 1), (60, 1)])))
    yield one('a block twice', 'f|1|16|shared|whole', file(2, b'f', 16, (1024, [(10, 1), (10, 1)])))
    yield one('a block in both forks', 'f|1|16|shared|shared', file(2, b'f', 16, (5, [(10, 1)]), (5, [(10, 1)])))
    yield one('a block of two files', ['f|1|16|shared|whole', 'g|2|17|whole|shared'], file(2, b'f', 16, (513, [(10, 2)])), file(2, b'g', 17, (0, []), (1, [(11, 1)])))
    yield one('a block that holds no byte of a file', ['f|1|16|whole|whole', 'g|2|17|whole|whole'], file(2, b'f', 16, (512, [(10, 2)])), file(2, b'g', 17, (1, [(11, 1)])))
    yield one('a block of the catalog', 'f|1|16|shared|whole', file(2, b'f', 16, (1, [(7, 1)])))
    yield one('a block of the extents tree', 'f|1|16|whole|shared', file(2, b'f', 16, (0, []), (1, [(1, 1)])))
    yield one('an extent that wraps round the last number', 'f|1|16|missing 2560|whole', file(2, b'f', 16, (2560, [(65535, 10)])))
    small = Laid().catalog(file(2, b'f', 16, (1, [(7, 1)])), file(2, b'g', 17, (1, [(1, 1)])))
    small.fields[130], small.fields[146] = (4, BLOCK), (4, 5 * BLOCK)
    yield Case('blocks of the trees beyond their sizes', small.image(), [ROOTS_ROW, 'f|1|16|whole|whole', 'g|2|17|whole|whole'])
    small.fields[130], small.fields[146] = (4, BLOCK + 1), (4, 5 * BLOCK + 1)
    yield Case('blocks of the trees with a byte of their sizes', small.image(), [ROOTS_ROW, 'f|1|16|shared|whole', 'g|2|17|shared|whole'])
    large = Laid(blocks=63, factor=2, extents_nodes=2, catalog_nodes=8).catalog(file(2, b'f', 16, (3000, [(20, 3)])), file(2, b'g', 17, (3000, [(26, 3)])))
    large.fields[18] = (2, 40)
    yield Case('blocks of 1,024 bytes', large.image(), [ROOTS_ROW, 'f|1|16|whole|whole', 'g|2|17|whole|whole'])
    yield Case('blocks of 1,024 bytes, of which one is cut', large.image()[:-1536], [ROOTS_ROW, 'f|1|16|whole|whole', 'g|2|17|missing 952|whole'])
    yield Case('blocks of 1,024 bytes, of which one is cut by a byte', large.image()[:-513], [ROOTS_ROW, 'f|1|16|whole|whole', 'g|2|17|missing 952|whole'])
    yield Case('blocks of 1,024 bytes, none of which is cut', large.image()[:-512], [ROOTS_ROW, 'f|1|16|whole|whole', 'g|2|17|whole|whole'])


@case
def forks_that_go_on():
    long = file(2, b'f', 16, (5 * BLOCK, [(10, 1), (12, 1), (14, 1)]))

    def one(what, row, *records, data=long):
        image = Laid().catalog(data)
        image.leaves(7, list(records))
        return Case(what, image.image(), [ROOTS_ROW, row])

    yield one('one record more', 'f|1|16|whole|whole', overflow(16, 0, 3, [(16, 2)]))
    yield one('two records more', 'f|1|16|whole|whole', overflow(16, 0, 3, [(0, 0), (16, 1)]), overflow(16, 0, 4, [(17, 1)]))
    yield one('a chain that is cut', 'f|1|16|cut 2048|whole', overflow(16, 0, 3, [(16, 1)]), overflow(16, 0, 5, [(17, 1)]))
    yield one('a record of another fork', 'f|1|16|cut 1536|whole', overflow(16, 0xFF, 3, [(16, 2)]))
    yield one('a record of another file', 'f|1|16|cut 1536|whole', overflow(17, 0, 3, [(16, 2)]))
    yield one('a record that is not wanted', 'f|1|16|whole|whole', overflow(16, 0, 3, [(16, 9)]), overflow(16, 0, 12, [(10, 1)]))
    yield one('a record of no block before one', 'f|1|16|cut 1536|whole', overflow(16, 0, 3, [(16, 0)]), overflow(16, 0, 3, [(16, 2)]))
    yield one('the first of two records', 'f|1|16|cut 2048|whole', overflow(16, 0, 3, [(16, 1)]), overflow(16, 0, 3, [(16, 2)]))
    yield one('a record whose block is another one\'s', 'f|1|16|shared|whole', overflow(16, 0, 3, [(16, 1), (10, 1)]))
    yield one('three records that all go on', 'f|1|16|whole|whole', overflow(16, 0, 0, [(10, 1)]), overflow(16, 0, 1, [(12, 1)]), overflow(16, 0, 2, [(14, 1), (20, 2)]),
              data=file(2, b'f', 16, (5 * BLOCK, [])))
    yield one('a resource fork that goes on', 'f|1|16|whole|whole', overflow(16, 0xFF, 3, [(16, 2)]),
              data=file(2, b'f', 16, (0, []), (5 * BLOCK, [(10, 1), (12, 1), (14, 1)])))
    stale = Laid(extents_nodes=4).catalog(long)
    stale.header(7)
    stale.node(7, 2, leaf([overflow(16, 0, 3, [(16, 2)])]))
    stale.content[stale.node_place(7, 0) + 14 + 9] = 1
    yield Case('a record of a node that is not in use', stale.image(), [ROOTS_ROW, 'f|1|16|whole|whole'])
    stale.content[stale.node_place(7, 0) + 14 + 9] = 0
    yield Case('a record of a node that is not in use, of a tree that passes', stale.image(), [ROOTS_ROW, 'f|1|16|cut 1536|whole'])


@case
def old_forks():
    image = Laid(catalog_nodes=8).catalog(file(2, b'f', 16, (5, [(20, 1)]))).damaged()
    image.node(37, 4, leaf([file(2, b'g', 17, (5, [(20, 1)])), file(2, b'h', 18, (5, [(21, 1)])), file(2, b'i', 19, (5, [(21, 1)]))]))
    yield Case('forks of old files', image.image(),
               [ROOTS_ROW, 'f|1|16|whole|whole', '=old/g|2|17|shared|whole', '=old/h|3|18|shared|whole', '=old/i|4|19|shared|whole'], status=3)


@case
def limits():
    files = [file(2, b'a', 16, (100, [(20, 1)]), (50, [(21, 1)])), file(2, b'b', 17, (10, [(22, 1)])), file(2, b'c', 18, (0, []))]
    image = Laid().catalog(*files).image()

    def one(limit, *verdicts):
        return Case(f'at most {limit} bytes', image, [ROOTS_ROW, *(f'{name}|{n}|{15 + n}|{verdict}' for n, (name, verdict) in enumerate(zip('abc', verdicts), 1))], limit=limit)

    yield one(160, 'whole|whole', 'whole|whole', 'whole|whole')
    yield one(159, 'whole|whole', 'left|whole', 'whole|whole')
    yield one(150, 'whole|whole', 'left|whole', 'whole|whole')
    yield one(149, 'whole|left', 'whole|whole', 'whole|whole')
    yield one(99, 'left|whole', 'whole|whole', 'whole|whole')
    yield one(60, 'left|whole', 'whole|whole', 'whole|whole')
    yield one(59, 'left|whole', 'left|whole', 'whole|whole')
    yield one(49, 'left|left', 'whole|whole', 'whole|whole')
    yield one(0, 'left|left', 'left|whole', 'whole|whole')
    yield one(2 ** 64 - 1, 'whole|whole', 'whole|whole', 'whole|whole')
    shared = Laid().catalog(file(2, b'a', 16, (100, [(20, 1)])), file(2, b'b', 17, (10, [(20, 1)]))).image()
    yield Case('a fork that is left owns no block', shared, [ROOTS_ROW, 'a|1|16|left|whole', 'b|2|17|whole|whole'], limit=10)
    whole = 4 * len(image)
    for more, verdict in ((0, 'whole'), (1, 'left')):
        length = whole // 2 + more
        image2 = Laid().catalog(file(2, b'a', 16, (whole // 2, [(60, 400)])), file(2, b'b', 17, (length, [(60, 400)]))).image()
        yield Case(f'four times the image and {more} bytes', image2, [ROOTS_ROW, f'a|1|16|missing {whole // 2}|whole',
                                                                    f'b|2|17|{"left" if more else f"missing {length}"}|whole'])
