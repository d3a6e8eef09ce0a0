#!/usr/bin/env python3
"""Writes volumes on which `check` has as much to do as is known, for measure/worst_times.sh; most are not sound.

python3 worst_volumes.py KIND COUNT MEGABYTES FILE

KIND is one of the names in WORST, or of those of slow_volumes.py.
"""
import os
import struct
import sys

sys.path.insert(0, os.path.join(os.path.dirname(os.path.abspath(__file__)), '..', 'tests'))

import slow_volumes
from slow_volumes import CATALOG_FILE, FIRST_FREE, NODE, ROOT, Volume


def overlapped_files(volume, count):
    """Files each of which owns nearly all blocks, three times."""
    every = [(n, min(21000, volume.blocks - 2)) for n in range(3)]
    for k in range(count):
        volume.items.append((ROOT, 'D%07d' % k, FIRST_FREE + k, False, 1, every, 63000 * volume.block * NODE))


def overlapped_records(volume, count):
    """Files in six extents each, all of them over one another, so with a record of the extents tree for each."""
    every = [(n, 10000) for n in range(3)]
    for k in range(count):
        volume.items.append((ROOT, 'D%07d' % k, FIRST_FREE + k, False, 1, every, 60000 * volume.block * NODE))
        volume.overflow.append((0, FIRST_FREE + k, 30000, every))


def overlapped_blocks(volume, count):
    """One file in as many records of the extents tree, all extents on one block."""
    at = volume.take(1)
    volume.items.append((ROOT, 'BIG', FIRST_FREE, False, 1, [(at, 1)] * 3, 3 * volume.block * NODE))
    start = 3
    for k in range(count):
        volume.overflow.append((0, FIRST_FREE, start, [(at, 1)] * 3))
        start += 3


def overlapped_bad_blocks(volume, count):
    """Records of the bad blocks, each of which owns nearly all blocks."""
    every = [(n, volume.blocks - 2) for n in range(3)]
    for k in range(count):
        volume.overflow.append((k % 2 * 255, 5, k // 2, every))


def orphan_records(volume, count):
    """Records of the extents tree for files that go on otherwise: only the last is nobody's."""
    for k in range(count):
        volume.file(ROOT, 'D%07d' % k, FIRST_FREE + k, 4 * volume.block * NODE, slow_volumes.one_block_each)
    volume.overflow.append((0, FIRST_FREE + count, 3, [(0, 1)]))


def ring(volume, count):
    """A ring of folders: each in the one before it, and the first in the last."""
    for k in range(count):
        volume.items.append((FIRST_FREE + (k - 1) % count, 'D%07d' % k, FIRST_FREE + k, True, 0, [], 0))


def ring_behind(volume, count):
    """Folders in one another, and behind them a ring of two, which is found at the end."""
    slow_volumes.deep(volume, count)
    for k in (0, 1):
        volume.items.append((FIRST_FREE + count + 1 - k, 'R%d' % k, FIRST_FREE + count + k, True, 0, [], 0))


def one_number(volume, count):
    """Files whose IDs are different but for the last two."""
    slow_volumes.flat(volume, count, list(range(FIRST_FREE, FIRST_FREE + count - 1)) + [FIRST_FREE + count - 2])


def map_chain(volume, count):
    """A plain catalog in a file of many nodes, all the others of which are map nodes in one chain."""
    slow_volumes.plain(volume, 1000)
    volume.map_nodes = count


def map_ring(volume, count):
    """The same, and the last map node leads to the first."""
    map_chain(volume, count)
    volume.map_ring = True


def falling_records(volume, count):
    """A catalog whose leaf records fall, under index keys that are the least of their children."""
    slow_volumes.plain(volume, count)
    volume.falls = True


class WorstVolume(Volume):
    """A volume with a catalog that may have map nodes of no use, or records that fall."""
    map_nodes, map_ring, falls = 0, False, False

    def catalog_records(self):
        records = super().catalog_records()
        return records[::-1] if self.falls else records

    def tree_file(self, tree, extents, least=0):
        if self.map_nodes and least:
            tree = MapChain(tree, self.map_nodes, self.map_ring)
        super().tree_file(tree, extents, least)


class MapChain:
    """A tree with map nodes behind its nodes, each marked in the map."""

    def __init__(self, tree, count, is_ring):
        self.tree, self.count, self.is_ring = tree, count, is_ring
        self.used = tree.used + count

    def nodes(self, total):
        out = self.tree.nodes(total)
        first, last = self.tree.used, min(self.tree.used + self.count, total) - 1
        bits = bytearray(2048 // 8 + (last - first + 1) * 494)
        for n in range(last + 1):
            bits[n // 8] |= 0x80 >> n % 8
        out[0] = struct.pack('>I', first) + out[0][4:248] + bytes(bits[:256]) + out[0][504:]
        out[0] = out[0][:36] + struct.pack('>II', total, total - last - 1) + out[0][44:]
        for k, n in enumerate(range(first, last + 1)):
            part = bytes(bits[256 + 494 * k:256 + 494 * (k + 1)])
            forward = n + 1 if n < last else (first if self.is_ring else 0)
            out[n] = self.tree.node(forward, 0, 2, 0, [part])
        return out


WORST = {make.__name__: make for make in [
    overlapped_files, overlapped_records, overlapped_blocks, overlapped_bad_blocks, orphan_records, ring, ring_behind, one_number, map_chain, map_ring,
    falling_records]}


def main():
    kind, count, megabytes, path = sys.argv[1:]
    volume = WorstVolume(int(megabytes))
    {**slow_volumes.KINDS, **WORST}[kind](volume, int(count))
    if volume.map_nodes:
        volume.catalog_room = -(-(volume.map_nodes + 2000) // volume.block)
    volume.write(path)


main()
