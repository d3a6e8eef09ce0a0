"""What calls leave as it was: all except some fields of the master directory block, the bits of blocks that were added or freed, the
nodes of both trees that were added, freed or written, and blocks of forks where calls wrote some. Index keys of the catalog that are exact
stay so."""
from driver.image import BLOCK, Image, Tree, changed_blocks
from driver.wanted import ensure

# The fields of the master directory block that calls change: drLsMod, drNmFls, drNxtCNID, drFreeBks, drNmRtDirs, drFilCnt, drDirCnt.
COUNTS = ((6, 4), (12, 2), (30, 4), (34, 2), (82, 2), (84, 4), (88, 4))
# The fields of a header node that calls change: bthDepth, bthRoot, bthNRecs, bthFNode, bthLNode, bthFree.
HEADER = ((14, 2), (16, 4), (20, 4), (24, 4), (28, 4), (40, 4))


def beside(block: bytes, fields) -> bytes:
    """A block with zeros in these fields."""
    bare = bytearray(block)
    for at, width in fields:
        bare[at:at + width] = bytes(width)
    return bytes(bare)


def map_frame(tree: Tree) -> list[bytes]:
    """The header node and the map nodes of a tree without what calls change: numbers of the header record, and the bits of nodes."""
    frame = [tree.map_bits[tree.count // 8 + 1:]]
    for number in tree.map_nodes:
        node, record = tree.node(number), 0 if number else 2
        first, end = node.places[record], node.places[record + 1]
        frame.append(beside(node.content, ((first, end - first), *(() if number else HEADER))))
    return frame


def bitmap_after(old: Image, new: Image) -> bytes:
    """The bitmap of the old image without the blocks of its files, and with those of the new one's. Where it hasn't changed, no file is looked
    for: `check` then tells more unowned blocks, if one is gone that had some."""
    if new.bitmap == old.bitmap:
        return old.bitmap
    bits = bytearray(old.bitmap)
    for block in (it for blocks in old.file_blocks.values() for it in blocks):
        bits[block // 8] &= ~(0x80 >> block % 8)
    for block in (it for blocks in new.file_blocks.values() for it in blocks):
        bits[block // 8] |= 0x80 >> block % 8
    return bytes(bits)


def ensure_nodes_kept(what: str, old: Tree, new: Tree, changed: set[int]) -> None:
    """A difference where a node changed that is no header, map or level node, or where the map says other than came and left."""
    ensure(old.blocks == new.blocks and old.count == new.count, f'{what} has other nodes')
    ensure(old.map_nodes == new.map_nodes, f'{what} has other map nodes')
    ensure(map_frame(old) == map_frame(new), f'the header node or a map node of {what} beside its numbers and its bits')
    came, left = new.level_nodes - old.level_nodes, old.level_nodes - new.level_nodes
    ensure(new.marked_nodes == (old.marked_nodes | came) - left, f'the node map of {what}')
    ensure(not came & old.marked_nodes, f'a node of {what} that came was in use')
    ensure(new.free == old.free - len(came) + len(left), f'the number of free nodes of {what}')
    written = set(old.map_nodes) | new.level_nodes | left
    ensure(changed <= written, f'the nodes {sorted(changed - written)} of {what} are changed')
    ensure(all(new.node(it).content == bytes(BLOCK) for it in left), f'a node that left {what} has bytes')


def ensure_kept(old: Image, new: Image, wrote: bool = False) -> list[int]:
    """A difference where anything that calls leave is otherwise. Where some wrote forks, which blocks of these they wrote is not looked at.
    The numbers of the blocks that are changed."""
    changed = changed_blocks(old.content, new.content)
    if not changed:
        return changed
    ensure(len(old.content) == len(new.content), 'the image has another length')
    ensure(beside(old.block(2), COUNTS) == beside(new.block(2), COUNTS), 'the master directory block beside its counts')
    ensure(new.bitmap == bitmap_after(old, new), 'the bitmap')
    others = set(changed) - {2} - set(old.bitmap_blocks)
    for what, tree, tree_after in (('the extents tree', old.extents_tree, new.extents_tree), ('the catalog', old.catalog, new.catalog)):
        numbers = {block: number for number, block in enumerate(tree.blocks[:tree.count])}
        ensure_nodes_kept(what, tree, tree_after, {numbers[it] for it in others & numbers.keys()})
        others -= numbers.keys()
    area = range(old.allocation_start, old.allocation_start + old.block_count * old.factor) if wrote else ()
    others = {it for it in others if it not in area}
    ensure(not others, f'the blocks {sorted(others)[:9]} are changed')
    ensure(new.catalog.is_exact or not old.catalog.is_exact, 'an index key of the catalog is not the first one of its node any more')
    return changed
