#!/usr/bin/env python3
"""Tests that `volumes` finds the volumes in files of each kind, and that with `--volume N` each
word answers what it answers on the bytes that are cut out of the file: rows by hand, real volumes
wrapped in each way, headers and maps with bytes changed at random, a file of 5 GB, and, if they
are installed, files by parted, genisoimage and hfsutils. Each file is read by its path and from a
pipe. What lies in a file is found here again, without any of the project's code.

tests/volumes.py [SEED]      runs $HFS_TOOL, or the program as it is built in crates/hfs_tool/out
"""
import gzip
import hashlib
import os
import random
import shutil
import struct
import subprocess
import sys
import tempfile

from driver.programs import built, ended

P6 = '8a87ab0d0aabcd89bc3175134dae1fbd9e84c136bc25c294375b54fecd06434f'
HERE = os.path.dirname(os.path.abspath(__file__))
TOOL = str(built('hfs_tool'))
VOLUMES = os.path.join(HERE, 'volumes')


# ---- what lies in a file

def number(data, at, width):
    return int.from_bytes(data[at:at + width], 'big')


def holds_volume(data):
    return len(data) >= 1536 and data[1024:1026] == b'BD'


def turned_sum(data):
    total = 0
    for (word,) in struct.iter_unpack('>H', data):
        total = (total + word) & 0xFFFFFFFF
        total = (total >> 1) | ((total & 1) << 31)
    return total


def disk_copy(data, start, length):
    """Where the data of the disk copy in this range lies."""
    if length < 84 or not 1 <= data[start] <= 63 or data[start + 82:start + 84] != b'\1\0':
        return None
    size = number(data, start + 64, 4)
    if size % 2 or size < 1536 or 84 + size > length:
        return None
    return start + 84, size, number(data, start + 72, 4)


def fork_of(data):
    if len(data) < 128 or data[0] or not 1 <= data[1] <= 63 or data[74] or data[82]:
        return None
    start = 128 + (number(data, 120, 2) + 127) // 128 * 128
    size = number(data, 83, 4)
    return (start, size) if start + size <= len(data) else None


def partitions(data):
    block = next((block for block in (512, 2048) if data[block:block + 2] == b'PM'), None)
    if block is None:
        return
    count = min(number(data, block + 4, 4), 63) if len(data) >= 2 * block else 0
    for n in range(1, count + 1):
        entry = data[n * block:(n + 1) * block]
        if len(entry) < block or entry[:2] != b'PM':
            return
        if entry[48:80].split(b'\0')[0].lower() == b'apple_hfs':
            start, size = number(entry, 8, 4) * block, number(entry, 12, 4) * block
            yield start, max(0, min(size, len(data) - start))


SYNC = b'\0' + bytes([255] * 10) + b'\0'


def data_start(sector):
    """Where the user data of a raw sector begins, if it has any."""
    if sector[:12] != SYNC:
        return None
    if sector[15] == 1:
        return 16
    return 24 if sector[15] == 2 and not sector[18] & 0x20 else None


def content(data):
    """The bytes that are looked into, and of raw sectors how many of them have no user data."""
    if not data or len(data) % 2352 or data_start(data[:24]) is None:
        return data, None
    parts, others = [], 0
    for at in range(0, len(data), 2352):
        start = data_start(data[at:at + 24])
        parts.append(bytes(2048) if start is None else data[at + start:at + start + 2048])
        others += start is None
    return b''.join(parts), others


def found(data):
    """(how, first byte, bytes, sum that is told) of each volume."""
    data, others = content(data)
    if others is not None:
        whole = [('raw 2352 bare', 0, len(data), None)] if holds_volume(data) else []
        return list({item[1:3]: item for item in reversed(whole + [('raw 2352 partition', *part, None) for part in partitions(data)])}.values())[::-1]
    all_found = []
    if holds_volume(data):
        all_found.append(('bare', 0, len(data), None))
    fork = fork_of(data)
    if fork:
        inner = disk_copy(data, *fork)
        if inner:
            all_found.append(('disk copy', *inner))
        elif holds_volume(data[fork[0]:sum(fork)]):
            all_found.append(('macbinary', *fork, None))
    copy = disk_copy(data, 0, len(data))
    if copy:
        all_found.append(('disk copy', *copy))
    all_found += [('partition', *part, None) for part in partitions(data)]
    seen, once = set(), []
    for item in all_found:
        if item[1:3] not in seen:
            seen.add(item[1:3])
            once.append(item)
    return once


def plain_text(raw):
    return ''.join(f'\\{byte:02x}' if byte < 0x20 or byte in (0x7F, 0x5C) else bytes([byte]).decode('mac_roman') for byte in raw).encode()


def lines(data):
    told = b''
    body, others = content(data)
    for k, (how, start, size, wanted) in enumerate(found(data), 1):
        volume = body[start:start + size]
        is_volume = holds_volume(volume)
        name = plain_text(volume[1061:1061 + min(27, volume[1060])]) if is_volume else b''
        told += f'{k}\t{how}\t{start}\t{size}\t'.encode() + name
        if wanted is not None:
            told += b'\tsum ' + (b'right' if turned_sum(volume) == wanted else b'wrong')
        told += (b'' if is_volume else b'\tno volume') + (f'\tother mode {others}'.encode() if others else b'') + b'\n'
    return (0, told) if told else (2, b'no HFS volume\n')


# ---- wrapping

def entry(count, first, blocks, kind, block=512):
    return (b'PM\0\0' + struct.pack('>III', count, first, blocks) + bytes(32) + kind.ljust(32, b'\0')).ljust(block, b'\0')


def in_map(volume, block, kind=b'Apple_HFS', behind=b''):
    """A disk with a driver descriptor, three entries and the volume from block 64 on."""
    blocks = -(-len(volume) // block)
    head = b'ER'.ljust(block, b'\0') + entry(3, 1, 3, b'Apple_partition_map', block) + entry(3, 4, 60, b'Apple_Driver', block) \
        + entry(3, 64, blocks, kind, block)
    return head.ljust(64 * block, b'\0') + volume.ljust(blocks * block, b'\0') + behind


def in_disk_copy(volume, total=None):
    volume = volume + bytes(len(volume) % 2)
    total = turned_sum(volume) if total is None else total
    return b'\4disk'.ljust(64, b'\0') + struct.pack('>II', len(volume), 0) + struct.pack('>I', total) + bytes(4) + b'\3\x22\1\0' + volume


def in_macbinary(fork, second=b'', resource=b''):
    head = bytearray(128)
    head[1:3] = b'\1f'
    head[83:87] = len(fork).to_bytes(4, 'big')
    head[87:91] = len(resource).to_bytes(4, 'big')
    head[120:122] = len(second).to_bytes(2, 'big')
    fill = lambda part: part + bytes(-len(part) % 128)
    return bytes(head) + fill(second) + fill(fork) + fill(resource)


def in_sectors(data, mode=1, others=()):
    """The data in raw sectors of a mode, of which those with the numbers of `others` are audio, filled up to whole sectors."""
    out = []
    for n, at in enumerate(range(0, len(data), 2048)):
        part = data[at:at + 2048].ljust(2048, b'\0')
        minute, second, frame = (n + 150) // 4500, (n + 150) // 75 % 60, (n + 150) % 75
        head = SYNC + bytes(int(f'{k:02}', 16) for k in (minute % 100, second, frame)) + bytes([mode])
        if n in others:
            out.append(bytes((7 * k + n) % 251 + 1 for k in range(2352)))
        elif mode == 1:
            out.append((head + part).ljust(2352, b'\x11'))
        else:
            out.append((head + b'\0\0\x08\0' * 2 + part).ljust(2352, b'\x22'))
    return b''.join(out)


WRAPPINGS = [
    ('bare', lambda volume: volume),
    ('in a map of 512', lambda volume: in_map(volume, 512)),
    ('in a map of 2,048', lambda volume: in_map(volume, 2048, b'aPPLE_hfs', b'more')),
    ('in a disk copy', in_disk_copy),
    ('in a disk copy with another sum', lambda volume: in_disk_copy(volume, 1)),
    ('in MacBinary', lambda volume: in_macbinary(volume, resource=volume)),
    ('in MacBinary with a second header', lambda volume: in_macbinary(volume, b'second')),
    ('in a disk copy in MacBinary', lambda volume: in_macbinary(in_disk_copy(volume), resource=b'RES')),
    ('in a map of 512 in raw sectors of mode 1', lambda volume: in_sectors(in_map(volume, 512))),
    ('in a map of 2,048 in raw sectors of mode 2', lambda volume: in_sectors(in_map(volume, 2048), 2)),
]


# ---- what the program tells

def told(words, given=None, errors=False):
    status, printed, said = ended(TOOL, words, given)
    if said and not errors:
        fail(f'{words} writes {said[:200]}')
    return status, printed


def fail(what):
    print(f'volumes differ: {what}')
    sys.exit(1)


def wants(what, answer, wanted):
    if answer != wanted:
        fail(f'{what}: {answer[0]} {answer[1][:300]}, and not {wanted[0]} {wanted[1][:300]}')


class Folder:
    def __init__(self, path):
        self.path = path

    def file(self, name, data):
        path = os.path.join(self.path, name)
        with open(path, 'wb') as out:
            out.write(data)
        return path

    def lists(self, what, data, wanted=None):
        """Wants these lines of a file, by its path and out of a pipe."""
        wanted = lines(data) if wanted is None else wanted
        wants(what, told(['volumes', self.file('looked', data)]), wanted)
        wants(f'{what}, piped', told(['volumes', '/dev/stdin'], data), wanted)


def words_on(image):
    """Words that are asked of a volume, each as what stands before and behind the image: of it, of each folder of the root, and of its files."""
    asked = [(['info'], []), (['check'], []), (['ls'], []), (['ls'], ['99999']), (['cat'], ['2', 'no such file'])]
    status, text = told(['ls', image])
    folders, files = [b'2'], []
    while folders and status == 0 and len(files) < 12:
        folder = folders.pop(0)
        for line in told(['ls', image, folder.decode()])[1].splitlines():
            kind, item, _, _, name = line.split(b'\t', 4)
            if kind == b'folder':
                folders.append(item)
                asked.append((['ls'], [item.decode()]))
            else:
                files.append((folder, name))
    for folder, name in files:
        place = [folder.decode(), os.fsdecode(name)]
        asked += [(['cat'], place), (['cat'], place + ['--resource']), (['cat'], place + ['--macbinary'])]
    return asked


def same_on_cut(folder, what, data):
    """Wants that each word tells of each volume in the file what it tells of the bytes that are cut out."""
    for k, (how, start, size, _) in enumerate(found(data), 1):
        path, cut = folder.file('file', data), folder.file('cut', content(data)[0][start:start + size])
        for before, behind in words_on(cut):
            wanted = told([*before, cut, *behind])
            wants(f'{what}: {before} {behind}', told([*before, path, *behind, '--volume', str(k)]), wanted)
            if before != ['info']:
                wants(f'{what}: {before} {behind}, piped', told([*before, '/dev/stdin', *behind, '--volume', str(k)], data), wanted)
    path = folder.file('file', data)
    for words in (['info', path], ['check', path], ['ls', path], ['cat', path, '2', 'f']):
        for n in (len(found(data)) + 1, 2 ** 32 - 1):
            wants(f'{what}: {words[0]}', told([*words, '--volume', str(n)]), (2, f'no volume {n}\n'.encode()))
        wants(f'{what}: {words[0]} as it is', told([*words, '--volume', '0']), told([words[0], '/dev/stdin', *words[2:]], data))


# ---- rows by hand

def rows(folder, p6):
    volume_lines = lambda *told_lines: (0, b''.join(line + b'\n' for line in told_lines))
    none = (2, b'no HFS volume\n')
    disk = b''.ljust(512, b'\0') + entry(3, 1, 3, b'Apple_partition_map') + entry(3, 4, 64, b'Apple_HFS') + entry(3, 68, 9, b'apple_hfs') + p6 + bytes(1536)
    folder.lists('a map', disk, volume_lines(b'1\tpartition\t2048\t32768\tD', b'2\tpartition\t34816\t1536\t\tno volume'))
    path = folder.file('disk', disk)
    wants('a partition without a volume', told(['check', path, '--volume', '2']), (2, b'refused not an HFS volume (-57)\n'))
    wants('ls of it', told(['ls', path, '--volume', '2']), (2, b'not an HFS volume (-57)\n'))
    wants('a third', told(['check', path, '--volume', '3']), (2, b'no volume 3\n'))
    wants('volume 0', told(['ls', path, '--volume', '0']), (2, b'not an HFS volume (-57)\n'))
    wants('the only volume', told(['ls', path]), told(['ls', folder.file('p6', p6)]))
    other = bytearray(disk)
    other[1536:1538] = b'PN'
    folder.lists('a block that is no entry', bytes(other), volume_lines(b'1\tpartition\t2048\t32768\tD'))
    large = bytes(2048) + entry(2, 1, 2, b'Apple_partition_map', 2048) + entry(2, 4, 16, b'Apple_HFS', 2048) + bytes(2048) + p6
    folder.lists('a map of 2,048', large, volume_lines(b'1\tpartition\t8192\t32768\tD'))
    copy = b'\1D' + bytes(62) + bytes.fromhex('00008000 00000000 e9841951 00000000 03220100') + p6
    folder.lists('a disk copy', copy, volume_lines(b'1\tdisk copy\t84\t32768\tD\tsum right'))
    folder.lists('a disk copy with another sum', copy.replace(bytes.fromhex('e9841951'), bytes.fromhex('e9841950')),
                 volume_lines(b'1\tdisk copy\t84\t32768\tD\tsum wrong'))
    folder.lists('a disk copy of an odd length', copy[:64] + bytes.fromhex('00007fff') + copy[68:], none)
    head = bytes.fromhex('000166' + '00' * 62 + '5445585474747874' + '4100' + '010203040506' + '0100' + '00008054' + '00000000'
                         + 'b492f400' + 'ffffffff' + '0000' + '01' + '00' * 20 + '8181' + '5897' + '0000')
    folder.lists('a disk copy in MacBinary', head + copy + bytes(44), volume_lines(b'1\tdisk copy\t212\t32768\tD\tsum right'))
    folder.lists('a bare volume', p6, volume_lines(b'1\tbare\t0\t32768\tD'))
    if turned_sum(b'\0\1') != 0x80000000 or turned_sum(b'\0\1\0\2') != 0x40000001:
        fail('the sum')


def edges(folder, p6):
    """Each rule at its edge."""
    cases = [('nothing', b''), ('one byte', b'P'), ('1,535 bytes', p6[:1535]), ('1,536 bytes', p6[:1536]), ('a map alone', (bytes(512) + entry(1, 2, 1, b'Apple_HFS'))),
             ('half an entry', (bytes(512) + entry(1, 2, 1, b'Apple_HFS'))[:900]), ('no entries', bytes(512) + entry(0, 3, 64, b'Apple_HFS') + bytes(512) + p6)]
    map_of = lambda *entries: b''.ljust(512, b'\0') + b''.join(entries)
    many = lambda count: map_of(*(entry(count, 70 + n, 1, b'Apple_HFS') for n in range(count))).ljust(512 * 70, b'\0') + bytes(512 * 80)
    cases += [(f'{count} entries', many(count)) for count in (62, 63, 64, 69)]
    cases += [('more entries told than there are', map_of(entry(9, 3, 64, b'Apple_HFS')) + bytes(512) + p6),
              ('a partition that is cut', map_of(entry(1, 2, 99, b'Apple_HFS')) + p6), ('a partition behind the end', map_of(entry(1, 66, 3, b'Apple_HFS')) + p6),
              ('a partition far behind it', map_of(entry(1, 0xFFFFFFFF, 0xFFFFFFFF, b'Apple_HFS')) + p6),
              ('the same range twice', map_of(entry(2, 3, 64, b'Apple_HFS'), entry(2, 3, 64, b'Apple_HFS')) + p6),
              ('another type', map_of(entry(1, 2, 64, b'Apple_HFSX')) + p6), ('a longer type', map_of(entry(1, 2, 64, b'Apple_HFS\1')) + p6),
              ('a type with bytes behind its zero', map_of(entry(1, 2, 64, b'Apple_HFS\0x')) + p6), ('a shorter type', map_of(entry(1, 2, 64, b'Apple_HF')) + p6),
              ('both kinds of blocks', bytes(512) + entry(1, 9, 64, b'Apple_HFS') + bytes(1024) + entry(1, 2, 16, b'Apple_HFS', 2048) + p6)]
    whole = bytearray(p6)
    whole[512:1024] = entry(1, 0, 64, b'Apple_HFS')
    cases.append(('the whole file as a partition', bytes(whole)))
    named = bytearray(p6)
    named[1060:1088] = bytes([27]) + bytes([0x8E, 0x0D, 0x7F, 0x5C, 0x80, 0xDB, 0xF0, 0xFF, 0x20, 0x2E]) + b'abcdefghijklmnopq'
    cases.append(('a name of other characters', bytes(named)))
    named[1060] = 255
    cases.append(('a name with a length of 255', bytes(named)))
    named[1060] = 0
    cases.append(('no name', bytes(named)))
    second = lambda length: in_macbinary(p6, bytes(length))
    cases += [(f'a second header of {length}', second(length)) for length in (1, 127, 128, 129, 384)]
    # a fork that begins at 512, where a partition begins, too
    both = bytearray(in_macbinary(p6.ljust(33280, b'\0'), bytes(384)))
    both[512:1024] = entry(1, 1, 65, b'Apple_HFS')
    cases.append(('a fork that is a partition', bytes(both)))
    cases += [('a fork that is cut', in_macbinary(p6)[:-1]), ('a fork that ends with the file', in_macbinary(p6)[:128 + len(p6)])]
    cases += [(f'a header with {value} at {at}', bytes(changed(in_macbinary(p6), at, value))) for at, value in ((0, 1), (1, 0), (1, 63), (1, 64), (74, 1), (82, 1))]
    cases += [(f'a disk copy with {value} at {at}', bytes(changed(in_disk_copy(p6), at, value))) for at, value in ((0, 0), (0, 63), (0, 64), (82, 0), (83, 1))]
    cases += [('a disk copy that is cut', in_disk_copy(p6)[:-1]), ('a disk copy with more behind it', in_disk_copy(p6) + b'tags'),
              ('a disk copy of 1,534 bytes', in_disk_copy(p6[:1534])), ('a disk copy of 1,536 bytes', in_disk_copy(p6[:1536])),
              ('a disk copy without a volume', in_disk_copy(bytes(range(256)) * 80)), ('such a one in MacBinary', in_macbinary(in_disk_copy(bytes(range(256)) * 80))),
              ('a fork without a volume', in_macbinary(bytes(4000)))]
    for what, data in cases:
        folder.lists(what, data)


def raw(folder, p6):
    """Raw sectors: rows by hand, each rule at its edge, and what is written nowhere."""
    one = lambda text: (0, text + b'\n')
    none = (2, b'no HFS volume\n')
    folder.lists('mode 1', in_sectors(p6), one(b'1\traw 2352 bare\t0\t32768\tD'))
    folder.lists('mode 2 and form 1', in_sectors(p6, 2), one(b'1\traw 2352 bare\t0\t32768\tD'))
    folder.lists('audio behind the volume', in_sectors(p6 + bytes(3 * 2048), 1, (16, 17, 18)), one(b'1\traw 2352 bare\t0\t38912\tD\tother mode 3'))
    folder.lists('audio within it', in_sectors(p6, 1, (5,)), one(b'1\traw 2352 bare\t0\t32768\tD\tother mode 1'))
    folder.lists('a map of 512', in_sectors(in_map(p6, 512)), one(b'1\traw 2352 partition\t32768\t32768\tD'))
    folder.lists('a map of 2,048, with audio', in_sectors(in_map(p6, 2048, behind=bytes(2048)), 1, (80,)),
                 one(b'1\traw 2352 partition\t131072\t32768\tD\tother mode 1'))
    folder.lists('cut in a sector', in_sectors(p6)[:-1], none)
    folder.lists('cut behind a sector', in_sectors(p6)[:-2352], one(b'1\traw 2352 bare\t0\t30720\tD'))
    folder.lists('a byte more', in_sectors(p6) + b'\0', none)
    folder.lists('audio first', in_sectors(p6, 1, (0,)), none)
    folder.lists('no pattern, and a length of 147 sectors of 16', p6.ljust(2352 * 16, b'\0'), one(b'1\tbare\t0\t37632\tD'))
    for at in (*range(12), 15):
        for value in (0, 1, 2, 3, 254, 255):
            data = bytes(changed(in_sectors(p6), at, value))
            folder.lists(f'{value} at {at}', data)
            data = bytes(changed(in_sectors(p6), 2352 * 3 + at, value))
            folder.lists(f'{value} at {at} of the fourth sector', data)
    for value in (0x20, 0x28, 0xDF, 0xFF):
        folder.lists(f'a subheader of {value}', bytes(changed(in_sectors(p6, 2), 18, value)))
        folder.lists(f'a subheader of {value} further on', bytes(changed(in_sectors(p6, 2), 2352 * 9 + 18, value)))
    folder.lists('a disk copy in raw sectors', in_sectors(in_disk_copy(p6)), none)
    image, out = folder.file('raw.bin', in_sectors(p6)), os.path.join(folder.path, 'written')
    for words in (['repair', image, out], ['run', image, folder.file('script', b''), '--out', out]):
        wants(f'{words[0]} of raw sectors', told(words), (2, b'not written here\n'))
        if os.path.exists(out):
            fail(f'{words[0]} of raw sectors has written')
    wants('repair of them, piped', told(['repair', '/dev/stdin', out], in_sectors(p6)), (2, b'not written here\n'))
    bag = os.path.join(folder.path, 'rawbag')
    wants('take of raw sectors', told(['take', folder.file('raw.bin', in_sectors(p6 + bytes(2048), 1, (16,))), bag])[:1], (0,))
    with open(os.path.join(bag, 'bag-info.txt'), 'rb') as file:
        info = file.read()
    digest = hashlib.sha256(p6 + bytes(2048)).hexdigest().encode()
    for wanted in (b'Source-Volume: 1 raw 2352 bare 0 34816 D other mode 1\n', b'Source-Volume-Bytes: 34816\n', b'Source-Volume-SHA256: ' + digest + b'\n'):
        if wanted not in info:
            fail(f'a bag of raw sectors has no {wanted}, but {info}')
    shutil.rmtree(bag)


def changed(data, at, value):
    data = bytearray(data)
    data[at] = value
    return data


def by_chance(folder, p6, seed, count):
    """Headers and maps with bytes changed by chance."""
    chance = random.Random(seed)
    kinds = [wrap(p6) for _, wrap in WRAPPINGS] + [in_map(p6, 512)[:512] + b''.join(entry(5, chance.randrange(8, 40), 64, b'Apple_HFS') for _ in range(5)) + p6]
    for n in range(count):
        data = bytearray(chance.choice(kinds))
        for _ in range(chance.randrange(1, 5)):
            at = chance.choice([chance.randrange(132), chance.randrange(24) + 2352 * chance.randrange(9), 512 + chance.randrange(80), 1024 + chance.randrange(80), 2048 + chance.randrange(80), 4096 + chance.randrange(80)])
            data[at] = chance.choice([0, 1, 2, 63, 64, 80, 255, chance.randrange(256)])
        data = bytes(data[:chance.choice([len(data), len(data), chance.randrange(len(data) + 1)])])
        wants(f'seed {seed}, file {n}', told(['volumes', folder.file('chance', data)]), lines(data))


def large(folder, p6):
    """A file of 5 GB, with a partition behind 4 GB and one larger than a volume may be."""
    path = os.path.join(folder.path, 'large')
    with open(path, 'wb') as out:
        out.write(bytes(512) + entry(2, 9_000_000, 64, b'Apple_HFS') + entry(2, 9_000_000, 0xFFFFFFFF, b'Apple_HFS'))
        out.seek(9_000_000 * 512)
        out.write(p6)
        out.truncate(9_000_000 * 512 + 2 ** 31 + 512)
    rest = 2 ** 31 + 512
    wants('a large file', told(['volumes', path]),
          (0, f'1\tpartition\t{9_000_000 * 512}\t32768\tD\n2\tpartition\t{9_000_000 * 512}\t{rest}\tD\n'.encode()))
    wants('its first volume', told(['check', path, '--volume', '1']), told(['check', folder.file('p6', p6)]))
    wants('its second', told(['check', path, '--volume', '2']), (2, b'refused image too large\n'))
    os.unlink(path)


def faults(folder, p6):
    wants('a folder', told(['volumes', folder.path]), (4, f'cannot read {folder.path}\n'.encode()))
    wants('a volume of a folder', told(['ls', folder.path, '--volume', '1']), (4, f'cannot read {folder.path}\n'.encode()))
    missing = os.path.join(folder.path, 'missing')
    wants('no file', told(['volumes', missing]), (4, f'cannot read {missing}\n'.encode()))
    wants('a volume of no file', told(['check', missing, '--volume', '1']), (4, f'cannot read {missing}\n'.encode()))
    wants('no bytes', told(['volumes', '/dev/null']), (2, b'no HFS volume\n'))
    for words in (['repair', folder.file('p6', p6), 'out', '--volume', 'x'], ['run', folder.file('p6', p6), 'script', '--volume', '-1'], ['volumes'],
                  ['ls', folder.file('p6', p6), '--volume', '-1'], ['ls', folder.file('p6', p6), '--volume', 'x'],
                  *([word, folder.file('p6', p6), *behind, '--volume', n] for n in ('4294967296', '18446744073709551615', '18446744073709551616')
                    for word, behind in (('ls', []), ('info', []), ('extract', ['out']), ('take', ['bag']), ('rescue', ['--list'])))):
        if subprocess.run([TOOL, *words], stdin=subprocess.DEVNULL, capture_output=True).returncode != 1:
            fail(f'{words} are not refused')


# ---- which volume is taken without a number

def same_as(folder, what, path, wanted):
    """Wants that each word answers of a file what it answers of these bytes."""
    # A page has its file's name, so both files have one.
    os.makedirs(os.path.join(folder.path, 'same'), exist_ok=True)
    cut = os.path.join(folder.path, 'same', os.path.basename(path))
    with open(cut, 'wb') as file:
        file.write(wanted)
    for words in (['check'], ['ls'], ['items'], ['page'], ['items', '--format', 'json']):
        wants(f'{what}: {words}', told([words[0], path, *words[1:]]), told([words[0], cut, *words[1:]]))
    for behind in (['2', 'f'], ['2', 'f', '--macbinary'], ['--path', ':f'], ['--path', ':f', '--macbinary']):
        wants(f'{what}: cat {behind}', told(['cat', path, *behind]), told(['cat', cut, *behind]))
    wants(f'{what}: ls by a path', told(['ls', path, '--path', ':']), told(['ls', cut, '--path', ':']))


def refused(folder, what, path, count, words):
    """Wants that these words take none of so many volumes, and write nothing."""
    for before, behind in words:
        wants(f'{what}: {before}', told([before, path, *behind]), (2, f'{count} volumes lie inside; name one by --volume\n'.encode()))
    for name in ('bag', 'bag.0.new'):
        if os.path.exists(os.path.join(folder.path, name)):
            fail(f'{what}: {name} was made')


def chosen(folder, p6):
    """Without a number: a bare volume as it is, else the only one inside, else none."""
    with gzip.open(os.path.join(VOLUMES, 'small', 'one-file.img.gz')) as file:
        laid = file.read()
    bag = os.path.join(folder.path, 'bag')
    reads = [('check', []), ('ls', []), ('items', []), ('page', []), ('cat', ['2', 'f']), ('cat', ['2', 'f', '--macbinary']), ('cat', ['--path', ':f']),
             ('ls', ['--path', ':']), ('take', [bag]), ('take', [bag, '--no-digest'])]
    rescues = [('rescue', [bag]), ('rescue', ['--list'])]
    map_of = lambda *parts: b''.ljust(512, b'\0') + b''.join(entry(len(parts), 8 + sum(len(part) for part in parts[:n]) // 512, len(parts[n]) // 512, b'Apple_HFS')
                                                           for n in range(len(parts))).ljust(7 * 512, b'\0') + b''.join(parts)
    empty = bytes(2048)
    one = folder.file('one', map_of(empty, laid))
    same_as(folder, 'one volume of two ranges', one, laid)
    refused(folder, 'rescue of two ranges', one, 2, rescues)
    for number in ('0', '2'):
        raw = folder.file('raw', map_of(empty, laid) if number == '0' else laid)
        status, text = told(['rescue', one, '--list', '--volume', number])
        wants(f'rescue of range {number}', (status, text), told(['rescue', '/dev/stdin', '--list'], open(raw, 'rb').read()))
    two = folder.file('two', map_of(laid, p6))
    refused(folder, 'two volumes', two, 2, reads + rescues)
    three = folder.file('three', map_of(laid, p6, empty, laid))
    refused(folder, 'three volumes', three, 3, reads)
    refused(folder, 'three volumes and a range', three, 4, rescues)
    for words in (['check'], ['ls']):
        answer = (2, b'refused not an HFS volume (-57)\n' if words == ['check'] else b'not an HFS volume (-57)\n')
        wants(f'{words} as it is', told([*words, two, '--volume', '0']), answer)
        wants(f'{words} of a pipe', told([*words, '/dev/stdin'], map_of(laid, p6)), answer)
        wants(f'{words} of a pipe with one volume', told([*words, '/dev/stdin'], map_of(laid)), answer)
    # Such a file is refused, and items shows what rescue finds in it: a row for each of its lines but the seven behind them.
    for words, given in (([two, '--volume', '0'], None), (['/dev/stdin'], map_of(laid, p6)), (['/dev/stdin'], map_of(laid))):
        (status, rows), (ended, lines) = told(['items', *words], given, errors=True), told(['rescue', words[0], '--list', *words[1:]], given)
        wants(f'items {words} as it is', (status, b'%d rows' % rows.count(b'\n')), (ended, b'%d rows' % (lines.count(b'\n') - 7)))
    for data in (map_of(laid, p6), map_of(laid)):
        wants('info never chooses', told(['info', folder.file('raw', data)]), (2, b'not an HFS volume (-57)\n'))
    for what, wrap in WRAPPINGS:
        same_as(folder, what, folder.file('wrapped', wrap(laid)), laid)
        wants(f'rescue {what}', told(['rescue', folder.file('wrapped', wrap(laid)), '--list'], errors=True)[:2], told(['rescue', folder.file('raw', laid), '--list']))
    both = bytearray(laid)
    both[512:1024] = entry(1, 8, 56, b'Apple_HFS')
    same_as(folder, 'a bare volume with a map', folder.file('both', bytes(both)), bytes(both))
    wants('its range', told(['volumes', folder.file('both', bytes(both))])[1].splitlines()[1:], [b'2\tpartition\t4096\t28672\t\tno volume'])
    none = folder.file('none', map_of(empty))
    wants('a range without a volume', told(['ls', none]), (2, b'not an HFS volume (-57)\n'))
    wants('check of it', told(['check', none]), (2, b'refused not an HFS volume (-57)\n'))
    # the only range is what rescue looks at, and not the file around it
    lost = bytearray(laid)
    lost[1024:1536] = bytes(512)
    wants('rescue of the only range', told(['rescue', folder.file('lost', map_of(bytes(lost))), '--list']), told(['rescue', folder.file('cut', bytes(lost)), '--list']))


# ---- other programs

def by_parted(folder, p6):
    """Wants of a map by parted the places that parted tells of it."""
    path = folder.file('parted', bytes(4 << 20))
    run = lambda *words: subprocess.run(['parted', '-s', path, *words], check=True, capture_output=True).stdout.decode()
    run('mklabel', 'mac')
    run('mkpart', 'first', 'hfs', '100s', '2000s')
    run('mkpart', 'second', 'hfs', '2048s', '4095s')
    places = []
    for line in run('-m', 'unit', 'B', 'print').splitlines():
        fields = line.split(':')
        if len(fields) > 5 and fields[5] in ('first', 'second'):
            places.append((int(fields[1][:-1]), int(fields[3][:-1])))
    if len(places) != 2:
        fail('parted tells of other partitions')
    with open(path, 'r+b') as out:
        out.seek(places[1][0])
        out.write(p6)
    wants('a map by parted', told(['volumes', path]), (0, b''.join(
        f'{n}\tpartition\t{start}\t{size}\t'.encode() + ending for n, (start, size), ending in zip((1, 2), places, (b'\tno volume\n', b'D\n')))))
    same_on_cut(folder, 'a map by parted', open(path, 'rb').read())


def by_genisoimage(folder):
    """Wants of a compact disc's image by genisoimage the partition that its map tells of."""
    tree = os.path.join(folder.path, 'tree')
    os.makedirs(os.path.join(tree, 'inner'))
    for name in ('one', 'inner/two'):
        with open(os.path.join(tree, name), 'w') as out:
            out.write(name * 100)
    path = os.path.join(folder.path, 'disc.iso')
    subprocess.run(['genisoimage', '-quiet', '-hfs', '-part', '-V', 'Disc', '-o', path, tree], check=True, capture_output=True)
    data = open(path, 'rb').read()
    if not any(how == 'partition' for how, *_ in found(data)):
        fail('genisoimage has made no partition')
    folder.lists('a disc by genisoimage', data)
    same_on_cut(folder, 'a disc by genisoimage', data)
    for mode in (1, 2):
        sectors = in_sectors(data + bytes(3 * 2048), mode, range(len(data) // 2048, len(data) // 2048 + 3))
        if not any(how == 'raw 2352 partition' for how, *_ in found(sectors)):
            fail('a disc by genisoimage has no partition in raw sectors')
        folder.lists(f'a disc by genisoimage in raw sectors of mode {mode}', sectors)
        same_on_cut(folder, f'a disc by genisoimage in raw sectors of mode {mode}', sectors)


def by_hfsutils(folder, p6):
    """Wants of a MacBinary file by hcopy that the disk's image in it is found."""
    disk = folder.file('carrier', bytes(1 << 20))
    env = {**os.environ, 'HOME': folder.path}
    run = lambda *words: subprocess.run(words, check=True, capture_output=True, env=env, cwd=folder.path)
    run('hformat', '-l', 'Carrier', disk)
    run('hmount', disk)
    for name, data in (('floppy', p6), ('copy', in_disk_copy(p6))):
        folder.file(name, data)
        run('hcopy', '-r', name, ':' + name)
        run('hcopy', '-m', ':' + name, name + '.bin')
        folder.lists(f'{name} by hcopy -m', open(os.path.join(folder.path, name + '.bin'), 'rb').read())
        same_on_cut(folder, f'{name} by hcopy -m', open(os.path.join(folder.path, name + '.bin'), 'rb').read())
    run('humount')


def main():
    seed = int(sys.argv[1]) if len(sys.argv) > 1 else 1
    skipped = []
    with tempfile.TemporaryDirectory() as path:
        folder = Folder(path)
        made = os.path.join(path, 'p6.img')
        wants('new', told(['new', made, 'D', '64', '6', '2']), (0, b''))
        p6 = open(made, 'rb').read()
        if hashlib.sha256(p6).hexdigest() != P6:
            fail('the small volume')
        rows(folder, p6)
        edges(folder, p6)
        raw(folder, p6)
        chosen(folder, p6)
        faults(folder, p6)
        by_chance(folder, p6, seed, 300)
        large(folder, p6)
        real = sorted(name for name in os.listdir(VOLUMES) if name.endswith('.img'))
        for name in real:
            volume = open(os.path.join(VOLUMES, name), 'rb').read()
            for what, wrap in WRAPPINGS:
                data = wrap(volume)
                folder.lists(f'{name} {what}', data)
                same_on_cut(folder, f'{name} {what}', data)
        for program, look in (('parted', lambda: by_parted(folder, p6)), ('genisoimage', lambda: by_genisoimage(folder)),
                              ('hcopy', lambda: by_hfsutils(folder, p6))):
            if shutil.which(program):
                look()
            else:
                skipped.append(program)
    print('volumes agree' + (f', skipped: {" ".join(skipped)}' if skipped else ''))


if __name__ == '__main__':
    main()
