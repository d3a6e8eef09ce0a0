#!/usr/bin/env python3
"""What tests/encodings.sh compares with, made here from the layouts, without any of the project's code.

python3 encodings.py volume FILE      a volume of 1 MB with one file, `f`, which is locked and has both forks and Finder bytes
python3 encodings.py bare FILE        the same with a data fork alone, and zeros in place of Finder bytes and dates
python3 encodings.py macbinary FILE   the MacBinary file of `f`
python3 encodings.py double FILE      the AppleDouble file of `f`
python3 encodings.py same A B         checks that two MacBinary files differ at most in location, folder, lock and check
"""
import struct
import sys

import slow_volumes

FINDER = bytes.fromhex('5445585474747874410101020304050610' + '1112131415161718191a1b1c1d1e1f')
CREATED, MODIFIED = 3_029_529_600, 4_294_967_295
DATA = bytes(n % 251 for n in range(2000))
RESOURCE = b'RES'
# location and folder, the lock, the check
MAY_DIFFER = {*range(75, 82), 124, 125}


def lay(path, is_bare):
    volume = slow_volumes.Volume(1)
    blocks = volume.file(slow_volumes.ROOT, 'f', slow_volumes.FIRST_FREE, len(DATA))
    first = blocks[0][0]
    for n in range(0, len(DATA), 512):
        volume.bytes_at[first + n // 512] = DATA[n:n + 512]
    place = volume.take(1)
    volume.bytes_at[place] = RESOURCE
    volume.write(path)
    image = bytearray(open(path, 'rb').read())
    key = slow_volumes.catalog_key(slow_volumes.ROOT, 'f')
    at = image.index(key + b'\2\0') + len(key)
    if is_bare:
        # the block of the resource fork is then marked and nobody's
        image[at + 44:at + 56] = bytes(12)
    else:
        image[at + 2] = 1
        image[at + 4:at + 20] = FINDER[:16]
        image[at + 36:at + 44] = struct.pack('>II', len(RESOURCE), 512)
        image[at + 44:at + 56] = struct.pack('>III', CREATED, MODIFIED, 1)
        image[at + 56:at + 72] = FINDER[16:]
        image[at + 86:at + 90] = struct.pack('>HH', place, 1)
    open(path, 'wb').write(image)


def filled(fork):
    return fork + bytes(-len(fork) % 128)


def macbinary():
    """The header is written out here as it must be, its check too."""
    header = bytes.fromhex('000166' + '00' * 62 + '5445585474747874' + '4100' + '010203040506' + '0100' + '000007d0' + '00000003'
                           + 'b492f400' + 'ffffffff' + '0000' + '01' + '00' * 20 + '8181' + '5897' + '0000')
    return header + filled(DATA) + filled(RESOURCE)


def apple_double():
    return bytes.fromhex('00051607' + '00020000' + '00' * 16 + '0002' + '00000009' + '00000032' + '00000020' + '00000002' + '00000052'
                         + '00000003') + FINDER + RESOURCE


def same(a, b):
    a, b = open(a, 'rb').read(), open(b, 'rb').read()
    differ = [n for n in range(max(len(a), len(b))) if a[n:n + 1] != b[n:n + 1] and n not in MAY_DIFFER]
    if differ:
        sys.exit('they differ at %d' % differ[0])


def main():
    what, path = sys.argv[1], sys.argv[2]
    if what == 'same':
        same(path, sys.argv[3])
    elif what in ('volume', 'bare'):
        lay(path, what == 'bare')
    else:
        open(path, 'wb').write({'macbinary': macbinary, 'double': apple_double}[what]())


main()
