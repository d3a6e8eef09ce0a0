"""Images that claim much: each is small compared with what its numbers say."""
import struct
from typing import Iterator

import hostile_images
from remains.blocks import BLOCK
from remains.laid import Laid, file, folder, leaf, overflow, packed, thread


def full_leaves(image: Laid, records: list[bytes]) -> Laid:
    """Lays a catalog of these records in leaves from node 1 on, all of which are in use since the header node is lost."""
    for n, row in enumerate(packed(records), 1):
        image.node(37, n, leaf(row))
    image.node(37, 0, bytes(BLOCK))
    return image


def claims_of_all(count: int = 1_500) -> bytes:
    """Files that each claim all blocks, and more bytes than there can be."""
    nodes = count // 4 + 4
    records = [file(2, b'%x' % n, 16 + n, (4_294_967_295, [(0, 65_535)] * 3), (60_000, [(0, 65_535), (9, 65_535), (1, 65_535)])) for n in range(count)]
    return full_leaves(Laid(blocks=nodes + 64, catalog_nodes=nodes), records).image()


def shared_chain(files: int = 2_000, chain: int = 20_000, blocks: int = 4_000) -> bytes:
    """Files of one number, so that all go on by one chain in the extents tree: each wants more than it has."""
    records = [overflow(16, 0, 1 + n, [(50 + n % 100, 1)]) for n in range(chain)]
    rows = packed(records)
    extents_nodes, catalog_nodes = len(rows) + 1, files // 3 + 8
    image = Laid(blocks=extents_nodes + catalog_nodes + blocks, extents_nodes=extents_nodes, catalog_nodes=catalog_nodes)
    for n, row in enumerate(rows, 1):
        image.node(7, n, leaf(row))
    image.node(7, 0, bytes(BLOCK))
    return full_leaves(image, [file(2, b'%x' % n, 16, (4_294_967_295 - n, [(60, 1)])) for n in range(files)]).image()


def deep_folders(count: int = 3_000) -> bytes:
    """Folders in one another by names whose host names are as long as may be: paths end at 800 bytes and begin anew."""
    records = [folder(2 if n == 0 else 99 + n, b'/' * 31, 100 + n) for n in range(count)]
    nodes = count // 3 + 8
    return full_leaves(Laid(blocks=nodes + 64, catalog_nodes=nodes), records).image()


def large_ring(count: int = 3_000) -> bytes:
    """Folders in a ring, and as many that lead to it."""
    records = [folder(100 + (n + 1) % count, b'r%x' % n, 100 + n) for n in range(count)] + [folder(100 + n, b's%x' % n, 100 + count + n) for n in range(count)]
    nodes = count // 2 + 8
    return full_leaves(Laid(blocks=nodes + 64, catalog_nodes=nodes), records).image()


def many_threads(count: int = 4_000) -> bytes:
    """Folders that threads alone name, in one another from the last to the first."""
    records = [thread(100 + n, 101 + n, b't' * 31) for n in range(count)]
    nodes = count // 5 + 8
    return full_leaves(Laid(blocks=nodes + 64, catalog_nodes=nodes), records).image()


def equal_names(count: int = 3_000) -> bytes:
    """Files of one folder whose names are equal but for the case of letters."""
    def name(n):
        return bytes(it - 32 if n >> place & 1 else it for place, it in enumerate(b'abcdefghijkl'))
    nodes = count // 3 + 8
    return full_leaves(Laid(blocks=nodes + 64, catalog_nodes=nodes), [file(2, name(n), 100 + n) for n in range(count)]).image()


def most_text(blocks: int = 600) -> bytes:
    """As many items to a block as have room, each in a folder whose path is as long as may be."""
    folders = [folder(2 if n == 0 else 99 + n, b'"' * 31, 100 + n) for n in range(8)]
    rows = [[folder(107, bytes([n // 64 + 60, n % 64 + 60])[:1], 1_000 + n * 6 + it) for it in range(6)] for n in range(blocks)]
    image = Laid(blocks=blocks + 80, catalog_nodes=blocks + 8)
    image.node(37, 0, bytes(BLOCK))
    first = packed(folders)
    for n, row in enumerate(first + rows, 1):
        image.node(37, n, leaf(row))
    return image.image()


def stale_everywhere(blocks: int = 1_000) -> bytes:
    """Leaves in all blocks of the volume, and no tree."""
    image = Laid(blocks=blocks + 8)
    image.fields[146] = (4, BLOCK * blocks)
    for n in range(blocks):
        image.block(n, leaf([file(2 + n % 3, b'%x' % (n * 4 + it), 16 + n * 4 + it, (700, [(n, 2)])) for it in range(3)]))
    return image.image()


def catalog_of_all(blocks: int = 2_000) -> bytes:
    """A catalog whose extents name all blocks again and again, by the extents tree too."""
    image = Laid(blocks=blocks).catalog(file(2, b'f', 16, (900, [(20, 2)])))
    count = image.fields[18][1]
    image.extents_of_trees[37] = [(2, count - 2), (0, count), (0, 65_535)]
    first = sum(it for _, it in image.extents_of_trees[37])
    image.fields[146] = (4, 4_294_967_295)
    image.leaves(7, [overflow(4, 0, first % 65_536, [(0, 65_535)] * 3), overflow(4, 0, 0, [(0, 1)])])
    return image.image()


def chain_of_the_catalog(blocks: int = 16_000) -> bytes:
    """A catalog that goes on by one block in each record of the extents tree, in falling order, and then by all again."""
    records = [overflow(4, 0, 1 + n, [(blocks - 300 - n, 1)]) for n in range(blocks - 600)]
    records += [overflow(4, 0, blocks - 599 + n * 3, [(n, 1)] * 3) for n in range(200)]
    rows = packed(records)
    image = Laid(blocks=blocks, extents_nodes=len(rows) + 1, catalog_nodes=6)
    image.catalog(file(2, b'f', 16))
    image.extents_of_trees[37] = [(len(rows) + 1, 1)]
    for n, row in enumerate(rows, 1):
        image.node(7, n, leaf(row))
    image.node(7, 0, bytes(BLOCK))
    return image.image()


def huge_blocks() -> bytes:
    """Allocation blocks of nearly 4 GB."""
    image = Laid().catalog(file(2, b'f', 16, (100_000, [(3, 1)]), (4_294_967_295, [(0, 65_535)])))
    image.fields[20] = (4, 0xFFFFFE00)
    return image.image()


def wide_map() -> bytes:
    """Header nodes that tell of as many nodes as a number can."""
    image = Laid().catalog(file(2, b'f', 16))
    for tree in (7, 37):
        place = image.node_place(tree, 0) + 14 + 22
        image.content[place:place + 8] = struct.pack('>II', 4_294_967_295, 4_294_967_290)
    image.fields[130], image.fields[146] = (4, 4_294_967_295), (4, 4_294_967_295)
    return image.image()


def all_bombs(is_large: bool) -> Iterator[tuple[str, bytes]]:
    """Each of them with what it is, as large as it was made for or some eight times smaller."""
    def sized(make, *sizes):
        return make() if is_large else make(*(it // 8 for it in sizes))

    yield 'files that each claim all blocks', sized(claims_of_all, 1_500)
    yield 'a chain that many files share', sized(shared_chain, 2_000, 20_000, 4_000)
    yield 'folders deep in one another', sized(deep_folders, 3_000)
    yield 'a ring of folders', sized(large_ring, 3_000)
    yield 'folders that threads alone name', sized(many_threads, 4_000)
    yield 'names that differ in case alone', sized(equal_names, 3_000)
    yield 'the most text of a block', sized(most_text, 600)
    yield 'old leaves in all blocks', sized(stale_everywhere, 1_000)
    yield 'a catalog of all blocks', sized(catalog_of_all, 2_000)
    yield 'a catalog that goes on and on', sized(chain_of_the_catalog, 16_000)
    yield 'blocks of 4 GB', huge_blocks()
    yield 'node maps of all numbers', wide_map()
    if is_large:
        yield 'a file in 60,000 extents of one block', bytes(hostile_images.many_extents(False))
        yield 'a file in 60,000 extents', bytes(hostile_images.many_extents(True))
