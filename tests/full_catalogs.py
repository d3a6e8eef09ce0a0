#!/usr/bin/env python3
"""Fills catalogs of 2 to 60 nodes with files and with folders until no node is left, and empties them again: at the end each has
its free nodes again. Follows 300 files into a catalog and out of it again, five at a time. And makes a folder with as many children
as a folder may have, which takes no more, in a catalog with eleven map nodes. And fills and empties one of two map nodes, as `new` makes
it. By hfs_tool as each compiler builds it, next to
hfs_plain; the image is saved and mounted again when it is full, and when it is empty. At the end it prints how many calls there
were, or what differs.

tests/full_catalogs.py [--most NODES] [--whole] [--kept FOLDER]
"""
import argparse
import sys
import time
from copy import copy
from pathlib import Path
from typing import Callable, Optional

from driver.calls import Call, Room
from driver.disk import Bench, Disk, State, finished, opened_bench
from driver.image import BLOCK
from driver.programs import found_programs
from driver.wanted import ensure

# An order: a number below 65,537 for each turn below that, another one for each; and whether items go the other way round.
ORDERS: dict[str, tuple[Callable[[int], int], bool]] = {
    'rising': (lambda turn: turn, False),
    'falling': (lambda turn: 65_536 - turn, False),
    'drawn': (lambda turn: turn * 24_001 % 65_537, False),
    'drawn, and turned round': (lambda turn: turn * 24_001 % 65_537, True),
}
DRAWN = ORDERS['drawn'][0]
# How many nodes the catalogs have that are filled in each order.
NARROW = 20
# The most children of a folder, and the ID of the folder that has them.
MOST, CROWD = 65_535, 16
# The block where the catalog of the wide volume begins, behind the boot blocks, the master directory block, 16 blocks of the
# bitmap and one of the extents tree; its nodes, and its map nodes.
CATALOG, WIDE_NODES, MAP_NODES = 20, 45_055, range(2, 13)
ZEROS = '0' * 64
# The nodes of a new catalog with two map nodes, files that have room in it, and the first node whose bit stands in the second.
MAPPED_NODES, MAPPED_FILES, SECOND_MAP = 6_101, 15_600, 2_048 + 3_936
# How many nodes a catalog has at least that has three levels when it is full: more leaves than an index node has room for.
HIGH = 30
# The files that are followed, and how many come or go before all is looked at.
FOLLOWED, TOGETHER = 300, 5
# The first node of the wide volume whose bit stands in the third map node: the header node has 2,048 bits, a map node 3,952 there.
THIRD_MAP = 2_048 + 2 * 3_952


def name_of(number: int) -> str:
    return f'{number:05}'


def few(nodes: int, word: str) -> Optional[int]:
    """How many items fill a catalog of few nodes, by hand.

    Three files have room in the one leaf beside the root's records. A file needs two free nodes; the fourth takes two, for another
    leaf and for a root over both, and then a file needs three. A folder needs five; the third takes two likewise, and then a folder
    needs seven."""
    if word == 'create':
        return 0 if nodes <= 3 else 4 if nodes <= 6 else None
    return 0 if nodes <= 6 else 3 if nodes <= 10 else None


def ensure_new(disk: Disk, nodes: int) -> None:
    """A difference where the catalog isn't that of a new volume: all nodes but the header node and one leaf are free."""
    catalog = disk.image.catalog
    ensure(catalog.room == Room(nodes - 2, 1) and catalog.records == 2, f'{catalog.room} and {catalog.records} records')


def fill_and_empty(disk: Disk, nodes: int, word: str, order: str) -> int:
    """Fills the catalog of a new volume, and empties it again. Tells how many items it held."""
    number_of, is_turned = ORDERS[order]
    ensure_new(disk, nodes)
    names = [name_of(number_of(turn)) for turn in range(4 * nodes + 4)]
    answers = disk.make([Call.of(word, 2, name) for name in names], 1)
    count = sum(answer.is_done for answer in answers)
    ensure([it.told for it in answers[:count]] == [f'0\tid {16 + it}' for it in range(count)], 'the IDs of the items')
    ensure(all(it.wanting for it in answers[count:]) and count < len(names), f'the catalog is not full with {count} items')
    ensure(nodes < HIGH or disk.image.catalog.depth >= 3, 'the full catalog has fewer than three levels')
    by_hand = few(nodes, word)
    ensure(by_hand in (None, count), f'{count} items fill {nodes} nodes, and not {by_hand}')
    going = names[:count][::-1] if is_turned else names[:count]
    answers = disk.make([Call.of('delete', 2, name) for name in going], 2)
    ensure(all(it.told == '0\t-' for it in answers), 'an item is not deleted')
    ensure_new(disk, nodes)
    return count


def orders_of(nodes: int, is_whole: bool) -> list[str]:
    """The orders in which a catalog is filled: all, or of a wide one two, others than those of the next wider one."""
    orders = list(ORDERS)
    return orders if is_whole or nodes <= NARROW else orders[nodes % 2::2]


def fill_all(bench: Bench, most: int, is_whole: bool) -> None:
    """Fills and empties each catalog, with files and with folders."""
    items = 0
    for nodes in range(2, most + 1):
        new = Disk(bench, bench.new_volume(128, nodes, 1))
        for word in ('create', 'mkdir'):
            for order in orders_of(nodes, is_whole):
                items += fill_and_empty(copy(new), nodes, word, order)
                bench.counts.lists += 1
    print(f'catalogs of 2 to {most} nodes filled with files, and with folders, and emptied: {items} items', flush=True)


def follow(bench: Bench) -> None:
    """Files come in the order of their names, and go from the least name upwards, and once more from the greatest downwards."""
    disk, names = Disk(bench, bench.new_volume(400, 200, 1)), [f'f{it:03}' for it in range(1, FOLLOWED + 1)]
    for going in (names, names[::-1]):
        answers = disk.make_in_parts([Call.of('create', 2, name) for name in names], TOGETHER, 1)
        ensure(all(it.is_done for it in answers) and disk.image.catalog.records == FOLLOWED + 2, 'a file does not come')
        answers = disk.make_in_parts([Call.of('delete', 2, name) for name in going], TOGETHER, 2)
        ensure(all(it.told == '0\t-' for it in answers), 'a file does not go')
        ensure_new(disk, 200)
    bench.counts.lists += 1
    print(f'{FOLLOWED} files followed into a catalog and out of it again, twice', flush=True)


def fill_mapped(bench: Bench) -> None:
    """Puts files into a new catalog with map nodes until nodes of the last map node are taken, and empties it again."""
    disk = Disk(bench, bench.new_volume(20_000, MAPPED_NODES, 1))
    ensure(disk.image.catalog.count == MAPPED_NODES, 'the catalog has other nodes')
    ensure_new(disk, MAPPED_NODES - 2)
    names = [name_of(DRAWN(turn)) for turn in range(MAPPED_FILES)]
    answers = disk.make([Call.of('create', 2, name) for name in names], 1, beside_plain=False)
    ensure([it.told for it in answers] == [f'0\tid {16 + it}' for it in range(MAPPED_FILES)], 'a file gets no ID, or another')
    ensure(max(disk.image.catalog.level_nodes) >= SECOND_MAP, 'no node of the second map node is taken')
    ensure_items(disk.state, [item_line(2, 1, 'D'), *(item_line(16 + turn, 2, name) for turn, name in enumerate(names))])
    answers = disk.make([Call.of('delete', 2, name) for name in names], 2, beside_plain=False)
    ensure(all(it.told == '0\t-' for it in answers), 'a file is not deleted')
    ensure_new(disk, MAPPED_NODES - 2)
    bench.counts.lists += 1
    print(f'a new catalog of {MAPPED_NODES} nodes, two of them map nodes, filled with {MAPPED_FILES} files, and emptied', flush=True)


def put(image: bytearray, block: int, at: int, digits: str) -> None:
    there = block * BLOCK + at
    content = bytes.fromhex(digits)
    image[there:there + len(content)] = content


def wide_volume(bench: Bench) -> bytes:
    """A new volume whose catalog has 45,055 nodes, of which 13 are not free: the header node, a leaf, and the map nodes. The extents
    tree has the first of 65,514 allocation blocks, the catalog those behind it, and 20,458 are free."""
    image = bytearray(bench.new_volume(65_535, 2, 1))
    put(image, 2, 34, '4fea')
    put(image, 2, 146, '015ffe000001afff')
    put(image, CATALOG, 0, '00000002')
    put(image, CATALOG, 36, '0000afff0000aff2')
    put(image, CATALOG, 248, 'fff8')
    for block in range(3, 14):
        put(image, block, 0, 'ff' * BLOCK)
    for node in MAP_NODES:
        following = node + 1 if node + 1 in MAP_NODES else 0
        put(image, CATALOG + node, 0, f'{following:08x}000000000200' + '0001')
        put(image, CATALOG + node, 508, '01fc000e')
    return bytes(image)


def item_line(number: int, parent: int, name: str) -> tuple[str, str, str]:
    """Of an item's line what is known by hand: its ID, its folder's, and its name."""
    return str(number), str(parent), name


def ensure_items(state: State, wanted: list[tuple[str, str, str]]) -> None:
    found = [(fields[0], fields[1], fields[-1]) for fields in (item.split('\t') for item in state.items)]
    ensure(found == wanted, f'the volume has other items than the {len(wanted)} by hand')


def ensure_crowded(disk: Disk) -> None:
    """Nothing comes into the folder any more, and what is in it can be renamed. One of the children goes, and another item comes for
    it; so the folder is full again. Then that goes."""
    first, following = name_of(DRAWN(0)), name_of(DRAWN(MOST))
    calls = [
        (Call.of('dirinfo', CROWD), f'0\tinfo d {CROWD} 2 1 1 0 0 0 {MOST} 0 {ZEROS} crowd'),
        (Call.of('create', CROWD, following), '-33\t-'),
        (Call.of('mkdir', CROWD, following), '-33\t-'),
        (Call.of('create', CROWD, first), '-48\t-'),
        (Call.of('move', 2, 'other', CROWD), '-33\t-'),
        (Call.of('rename', CROWD, first, following), '0\t-'),
        (Call.of('rename', CROWD, following, first), '0\t-'),
        (Call.of('delete', CROWD, first), '0\t-'),
        (Call.of('move', 2, 'other', CROWD), '0\t-'),
        (Call.of('create', CROWD, following), '-33\t-'),
        (Call.of('delete', CROWD, 'other'), '0\t-'),
    ]
    answers = disk.make([call for call, _ in calls], 1)
    for answer, (call, told) in zip(answers, calls):
        ensure(answer.told == told, f'{call} is answered {answer.told!r}, wanted {told!r}')


def crowd_folder(bench: Bench) -> None:
    """Fills a folder, and empties it again. The answers and the items are known by hand; hfs_plain, which takes long for so many
    calls, reads the saved volumes, and makes the calls on the full folder."""
    disk = Disk(bench, wide_volume(bench))
    ensure(disk.image.catalog.count == WIDE_NODES, 'the catalog has other nodes')
    names = [name_of(DRAWN(turn)) for turn in range(MOST)]
    calls = [Call.of('mkdir', 2, 'crowd'), Call.of('create', 2, 'other'), *(Call.of('create', CROWD, name) for name in names)]
    answers = disk.make(calls, 1, beside_plain=False)
    ensure([it.told for it in answers] == [f'0\tid {CROWD + it}' for it in range(MOST + 2)], 'a child gets no ID, or another')
    ensure(max(disk.image.catalog.level_nodes) >= THIRD_MAP, 'no node of the third map node is taken')
    children = [item_line(CROWD + 2 + turn, CROWD, name) for turn, name in enumerate(names)]
    ensure_items(disk.state, [item_line(2, 1, 'D'), item_line(CROWD, 2, 'crowd'), item_line(CROWD + 1, 2, 'other'), *children])
    ensure_crowded(disk)
    calls = [*(Call.of('delete', CROWD, name) for name in names[1:]), Call.of('delete', 2, 'crowd')]
    answers = disk.make(calls, 1, beside_plain=False)
    ensure(all(it.told == '0\t-' for it in answers), 'a child is not deleted')
    ensure_items(disk.state, [item_line(2, 1, 'D')])
    ensure(disk.image.catalog.room == Room(45_042, 1), f'the catalog has {disk.image.catalog.room}')
    bench.counts.lists += 1
    print(f'a folder with {MOST} files, and no more, and emptied', flush=True)


def main() -> None:
    words = argparse.ArgumentParser(description='Fills catalogs and a folder.')
    words.add_argument('--most', type=int, default=60, help='how many nodes the widest of the filled catalogs has')
    words.add_argument('--whole', action='store_true', help='fill wide catalogs in each of the four orders, too, and not in two')
    words.add_argument('--kept', type=Path, default=Path('full_catalogs.kept'), help='where the files of what differs are kept')
    given = words.parse_args()
    started = time.monotonic()
    with opened_bench(found_programs(), given.kept) as bench:
        fill_all(bench, given.most, given.whole)
        follow(bench)
        fill_mapped(bench)
        crowd_folder(bench)
        finished('full catalogs', bench, started)


if __name__ == '__main__':
    sys.exit(main())
