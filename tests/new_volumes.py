#!/usr/bin/env python3
"""New volumes compared with bytes by hand, written from the format of a volume: small ones whole, and of others the bytes of their names,
moments, sizes and trees. And plans that are refused, each for its first fault, and those at the edge of
what is accepted.

tests/new_volumes.py      runs $HFS_TOOL, or the program as it is built in crates/hfs_tool/out
"""
import resource
import signal
import subprocess
import sys
import tempfile
from pathlib import Path

from driver.programs import built, ended
from driver.wanted import Difference, ensure

TOOL = str(built('hfs_tool'))
BLOCK = 512
# A map node behind the header node, and none behind it: links, kind, height and number of records, no node in use, and the offsets.
LAST_MAP = '00000000' '00000000' '02' '00' '0001' '0000' + '00' * 494 + '01fa' '000e'
# Names, blocks, nodes of the catalog and of the extents tree, and the first fault, or none.
PLANS = [
    ('n' * 28, 64, 6, 2, 'bad name'), ('n' * 27, 64, 6, 2, ''), ('', 64, 6, 2, 'bad name'), ('a:b', 64, 6, 2, 'bad name'), ('a`b', 64, 6, 2, 'bad name'),
    ('a\x1fb', 64, 6, 2, 'bad name'), ('D', 7, 2, 1, 'bad size'), ('D', 8, 2, 1, 'no room'), ('D', 9, 2, 1, ''), ('D', 4_194_305, 2, 1, 'bad size'),
    ('D', 64, 1, 2, 'bad node count'), ('D', 64, 2, 2, ''), ('D', 64, 6, 0, 'bad node count'), ('D', 64, 6, 1, ''), ('D', 9_000, 2_048, 1, ''),
    ('D', 9_000, 2_049, 1, ''), ('D', 9_000, 2, 2_048, ''), ('D', 9_000, 2, 2_049, ''), ('D', 131_072, 2_046, 2_046, ''), ('D', 131_072, 2_047, 1, ''),
    ('D', 131_072, 2, 4_294_967_295, 'no room'), ('D', 131_072, 4_294_967_295, 1, 'no room'), ('D', 131_072, 4_294_967_295, 4_294_967_295, 'no room'),
    ('D', 64, 56, 2, ''), ('D', 64, 57, 2, 'no room'), ('D', 9_000, 8_991, 1, ''), ('D', 9_000, 8_992, 1, 'no room'), ('D', 9_000, 2, 8_990, ''),
    ('D', 9_000, 2, 8_991, 'no room'), ('D', 64, 1, 4_294_967_295, 'bad node count'),
    ('', 7, 2, 1, 'bad name'), ('D', 7, 2, 0, 'bad size'),
]


def made(path, name, blocks, nodes, extents, *words):
    """The status of `new`, and what it prints."""
    path.unlink(missing_ok=True)
    status, printed, said = ended(TOOL, ['new', path, name, blocks, nodes, extents, *words])
    ensure(not said, f'new writes to standard error: {said[:200]!r}')
    return status, printed.decode()


class Laid:
    """An image of zeros into which bytes are laid."""

    def __init__(self, blocks):
        self.content = bytearray(BLOCK * blocks)

    def lay(self, block, at, *digits):
        """Hexadecimal digits from a place of a block on."""
        content = bytes.fromhex(''.join(digits))
        self.content[BLOCK * block + at:BLOCK * block + at + len(content)] = content


def small(nodes, bitmap):
    """A volume D of 64 blocks with two nodes of the extents tree, in the blocks 4 and 5, and so many of the catalog from block 6 on."""
    laid = Laid(64)
    for block in (2, 62):
        laid.lay(block, 0, '4244')
        # drAtrb, drVBMSt, drNmAlBlks, drAlBlkSiz, drClpSiz, drAlBlSt, drNxtCNID, drFreeBks, drVN
        laid.lay(block, 10, '0100', '0000', '0003', '0000', '003a', '00000200', '00000800', '0004', '00000010', f'{56 - nodes:04x}', '0144')
        # drXTClpSiz, drCTClpSiz; drXTFlSize, drXTExtRec; drCTFlSize, drCTExtRec
        laid.lay(block, 74, '00000400', f'{512 * nodes:08x}')
        laid.lay(block, 130, '00000400', '00000002', '0000000000000000', f'{512 * nodes:08x}', f'0002{nodes:04x}')
    laid.lay(3, 0, bitmap)
    for block, key_length, count, free, used in ((4, 7, 2, 1, '80'), (6, 37, nodes, nodes - 2, 'c0')):
        laid.lay(block, 8, '01000003')
        # the size of a node, the length of a key, and the numbers of nodes and of free ones
        laid.lay(block, 32, '0200', f'{key_length:04x}{count:08x}{free:08x}')
        laid.lay(block, 248, used)
        laid.lay(block, 504, '01f800f80078000e')
    # depth, root, records, first leaf and last leaf
    laid.lay(6, 14, '0001', '00000001', '00000002', '00000001', '00000001')
    # the leaf: the root's record and its thread
    laid.lay(7, 8, 'ff010002', '0000', '07000000000101', '44', '01000000000000000002')
    laid.lay(7, 92, '06000000000200', '00', '0300')
    laid.lay(7, 110, '00000001', '0144')
    laid.lay(7, 506, '0092005c000e')
    return bytes(laid.content)


def whole_volumes(path):
    rows = [(4, 'fc'), (6, 'ff'), (7, 'ff80'), (40, 'ffffffffffc0')]
    for nodes, bitmap in rows:
        ensure(made(path, 'D', 64, nodes, 2) == (0, ''), f'a new volume of {nodes} nodes')
        content, wanted = path.read_bytes(), small(nodes, bitmap)
        at = next((n for n, pair in enumerate(zip(content, wanted)) if pair[0] != pair[1]), None)
        ensure(len(content) == len(wanted) and at is None, f'a new volume of {nodes} nodes has {len(content)} bytes, and another one at {at}')
    return len(rows)


def pieces(path):
    """Of some volumes their lengths, and bytes from places of blocks on."""
    disk = '04' + b'Disk'.hex()
    rows = [
        # names and moments: drCrDate, drLsMod and drAtrb; drVN; the root's key and record, its thread's
        (('Disk', 64, 2, 1, '--now', str(0x01020304)), 32_768,
         [(2, 2, '01020304010203040100'), (62, 36, disk + '00'), (6, 14, '0a0000000001' + disk + '000100'), (6, 34, '000201020304010203040102030400'),
          (6, 96, '06000000000200000300'), (6, 114, '00000001' + disk + '00')]),
        # the most blocks of 512 bytes: drNmAlBlks, drAlBlkSiz, drClpSiz, drAlBlSt; drFreeBks of the alternate; the bitmap; the catalog's numbers
        (('D', 65_535, 3, 1), 33_553_920, [(2, 18, 'ffea0000020000000800' + '0013'), (65_533, 34, 'ffe6'), (3, 0, 'f000'), (20, 32, '020000250000000300000001')]),
        # an allocation block has one block more for each 65,536: here five, of which each tree has one
        (('D', 262_144, 2, 1), 134_217_728, [(2, 18, 'ccc900000a0000002800' + '0010'), (2, 130, '00000a0000000001'), (2, 146, '00000a0000010001')]),
        # one block more than the first: blocks of 1,024 bytes, and so trees of two and of four nodes
        (('D', 65_536, 3, 1), 33_554_432,
         [(2, 18, '7ff90000040000001000' + '000b'), (65_534, 34, '7ff6'), (2, 130, '0000040000000001'), (2, 146, '0000080000010002'), (3, 0, 'e000'),
          (11, 32, '020000070000000200000001'), (13, 32, '020000250000000400000002'), (14, 8, 'ff010002')]),
        # the most nodes without a map node, and with one: the header node's link, the numbers, the map; of map nodes their links and kind, and the offsets
        (('D', 20_000, 5_984, 2_048), 10_240_000,
         [(8, 0, '000000000000000001000003'), (8, 32, '0200' '0007' '00000800' '000007ff'), (8, 248, '8000'), (9, 0, '00' * BLOCK),
          (2_056, 0, '000000010000000001000003'), (2_056, 14, '0001' + '00000002' * 4), (2_056, 32, '0200' '0025' '00001760' '0000175d'),
          (2_056, 248, 'e000'), (2_057, 0, LAST_MAP), (2_058, 8, 'ff010002'), (2_059, 0, '00' * BLOCK)]),
        # one node more in each, so one map node and two
        (('D', 20_000, 5_985, 2_049), 10_240_000,
         [(8, 0, '000000010000000001000003'), (8, 32, '0200' '0007' '00000801' '000007ff'), (8, 248, 'c000'), (9, 0, LAST_MAP), (10, 0, '00' * BLOCK),
          (2_057, 0, '000000010000000001000003'), (2_057, 14, '0001' '00000003' '00000002' '00000003' '00000003'),
          (2_057, 32, '0200' '0025' '00001761' '0000175d'), (2_057, 248, 'f000'), (2_058, 0, '00000002' + LAST_MAP[8:]),
          (2_059, 0, '00000000' '00000001' + LAST_MAP[16:]), (2_060, 8, 'ff010002'), (2_060, 506, '0092005c000e'), (2_061, 0, '00' * BLOCK)]),
        # trees as large as hformat of hfsutils 3.2.6 makes them on 2 gigabytes, which has 8 map nodes in each and the leaf in node 9
        (('D', 70_000, 32_704, 32_704), 35_840_000,
         [(12, 0, '000000010000000001000003'), (12, 32, '0200000700007fc000007fb7'), (12, 248, 'ff8000'), (13, 0, '00000002' + LAST_MAP[8:]),
          (18, 0, '000000070000000502000001'), (20, 0, '000000000000000702000001'), (32_716, 0, '000000010000000001000003'),
          (32_716, 14, '00010000000900000002' '0000000900000009'), (32_716, 32, '0200002500007fc000007fb6'), (32_716, 248, 'ffc000'), (32_725, 8, 'ff010002')]),
    ]
    for plan, size, bytes_there in rows:
        ensure(made(path, *plan) == (0, ''), f'a new volume of {plan}')
        content = path.read_bytes()
        ensure(len(content) == size, f'a new volume of {plan} has {len(content)} bytes')
        for block, at, digits in bytes_there:
            found = content[BLOCK * block + at:BLOCK * block + at + len(digits) // 2].hex()
            ensure(found == digits, f'a new volume of {plan} has {found} in block {block} at {at}')
    return len(rows)


def narrow(most_memory, most_bytes):
    """Less memory, and files of no more bytes, for a program that is to begin; a write that would make a longer file fails."""
    resource.setrlimit(resource.RLIMIT_AS, (most_memory, most_memory))
    resource.setrlimit(resource.RLIMIT_FSIZE, (most_bytes, most_bytes))
    signal.signal(signal.SIGXFSZ, signal.SIG_IGN)


def in_little_memory(path):
    """A volume is made in less memory than it has bytes. The largest plan is taken, too: what it ends for is the length of its file."""
    for blocks, nodes, most_bytes, ends in ((262_144, 20_000, 1 << 30, (0, '')), (4_194_304, 4_000_000, 1 << 20, (4, f'cannot write {path}\n'))):
        path.unlink(missing_ok=True)
        words = [TOOL, 'new', path, 'D', str(blocks), str(nodes), '1']
        ran = subprocess.run(words, stdin=subprocess.DEVNULL, capture_output=True, timeout=600, restore_signals=False,
                             preexec_fn=lambda most_bytes=most_bytes: narrow(100 << 20, most_bytes))
        ensure((ran.returncode, ran.stdout.decode()) == ends, f'a volume of {blocks} blocks in little memory: {ran}')
        ensure(path.exists() == (not ends[0]), f'a file of {blocks} blocks')


def plans(path):
    for *plan, fault in PLANS:
        wanted = (2, f'{fault}\n') if fault else (0, '')
        found = made(path, *plan)
        ensure(found == wanted, f'a new volume of {plan}: {found} in place of {wanted}')
        ensure(path.exists() == (not fault), f'a file of {plan}')
    return len(PLANS)


def main():
    with tempfile.TemporaryDirectory() as folder:
        path = Path(folder) / 'new.img'
        try:
            count = whole_volumes(path) + pieces(path)
            in_little_memory(path)
            refused = plans(path)
        except Difference as differs:
            print(f'new volumes: {differs}')
            return 1
    print(f'{count} new volumes and {refused} plans: as written')
    return 0


if __name__ == '__main__':
    sys.exit(main())
