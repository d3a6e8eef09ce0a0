#!/usr/bin/env python3
"""Tests that `run` answers and writes the same of an image by its path, of which it reads what it needs, and from a pipe, which it loads whole.
Of each real volume and of volumes made here, among them one with forks in 60,000 extents: scripts of one worker, whose answers depend on no other, that read
forks of each file in pieces, at its place and after renames, moves and deletions, make what they deleted anew, and write forks; scripts of a viewer; and, many times
over, a viewer next to a worker that deletes the file, who is answered the whole fork or -43. Of an image in a sparse file, that it stays sparse.

python3 runs.py TOOL VOLUMES        VOLUMES has real volumes, as *.img
"""
import concurrent.futures
import os
import random
import subprocess
import sys
import tempfile

from driver.programs import ended

HERE = os.path.dirname(os.path.abspath(__file__))
# The kinds of volumes that tests/slow_volumes.py lays: how many items or extents each gets, and how many megabytes.
LAID = [('plain', 60, 1), ('cut_catalog', 100, 1), ('cut_catalog_shuffled', 300, 1), ('cut_files', 100, 4), ('cut_file_empty', 60, 4)]
# One fork in so many extents.
MANY_EXTENTS = ('cut_file', 60_000, 30)
# The most bytes that one line reads.
MOST = 65_536


def items_of(tool, path, folder=2, most=40):
    """Files and folders of a volume whose names can stand in a script, each as its kind, ID, lengths, folder and name."""
    found = []
    for line in ended(tool, ['ls', path, str(folder)])[1].split(b'\n'):
        fields = line.split(b'\t')
        if len(fields) != 5 or len(found) >= most:
            continue
        kind, number, first, second, name = fields
        if b'\\' in name:
            continue
        found.append((kind.decode(), int(number), int(first), int(second), folder, name))
        if kind == b'd':
            found += items_of(tool, path, int(number), most // 4)
    return found


def line(*fields):
    return b'\t'.join(field if isinstance(field, bytes) else str(field).encode() for field in fields) + b'\n'


def reads(who, folder, name, length, fork):
    """Lines that read a fork in pieces, and some beside its end."""
    for offset in range(0, min(length, 4 * MOST), MOST):
        yield line(who, 'read', folder, name, fork, offset, MOST)
    yield line(who, 'read', folder, name, fork, max(length - 100, 0), 200)
    yield line(who, 'read', folder, name, fork, length, 10)
    yield line(who, 'read', folder, name, fork, 3, 65_537)


def both(who, item, folder, name):
    _, _, data, resource, _, _ = item
    yield from reads(who, folder, name, data, 'data')
    yield from reads(who, folder, name, resource, 'res')


def scripts_on(items, chosen):
    """Scripts of one caller on these items, each by its name."""
    files = [item for item in items if item[0] == 'f']
    folders = [2] + [item[1] for item in items if item[0] == 'd']
    chosen.shuffle(files)
    some = files[:12]
    yield 'nothing', b''
    yield 'a list', line(1, 'list', 2) + line('v1', 'list', 2)
    yield 'no file', line(1, 'read', 2, 'no such file', 'data', 0, 10) + line(1, 'read', 99, 'x', 'res', 0, 10) + line(1, 'read', 2, '', 'data', 0, 1)
    for who in (1, 'v1'):
        yield f'reads of {who}', b''.join(part for item in some for part in both(who, item, item[4], item[5]))
    upper = [part for item in some for part in both(1, item, item[4], item[5].upper())]
    yield 'reads by names in capitals', b''.join(upper)
    parts = []
    for number, item in enumerate(some):
        name, new, other = item[5], b'new %d' % number, chosen.choice(folders)
        parts += [line(1, 'unlock', item[4], name), line(1, 'rename', item[4], name, new), *both(1, item, item[4], new), *both(1, item, item[4], name),
                  line(1, 'move', item[4], new, other), *both(1, item, other, new), line(1, 'rename', other, new, name), *both(1, item, other, name)]
    yield 'renames and moves', b''.join(parts)
    parts = []
    for item in some:
        place = (item[4], item[5])
        parts += [line(1, 'unlock', *place), line(1, 'read', *place, 'data', 0, 100), line(1, 'delete', *place), line(1, 'read', *place, 'data', 0, 100),
                  line(1, 'create', *place), line(1, 'read', *place, 'data', 0, 100), line(1, 'read', *place, 'res', 0, 100)]
    yield 'deleted and made anew', b''.join(parts)
    # a folder is moved with its file, which is named by a place that it has only then
    parts = [line(1, 'mkdir', 2, 'of this script'), line(1, 'mkdir', 2, 'of this script too')]
    for item in items:
        if item[0] == 'd':
            inside = [it for it in some if it[4] == item[1]]
            parts += [line(1, 'move', item[4], item[5], 2), *(part for it in inside for part in both(1, it, item[1], it[5]))]
    yield 'folders that move', b''.join(parts)
    # files change places: each gets the name of the next, so that a line reads another file than stood there
    parts = [line(1, 'rename', item[4], item[5], b'x%d' % number) for number, item in enumerate(some)]
    for number, item in enumerate(some):
        target = some[(number + 1) % len(some)]
        parts += [line(1, 'move', item[4], b'x%d' % number, target[4]), line(1, 'rename', target[4], b'x%d' % number, target[5]),
                  *both(1, item, target[4], target[5])]
    yield 'files that change places', b''.join(parts)
    # forks that are written, also behind their ends and under another name, and blocks that go from one file to another
    parts = []
    for number, item in enumerate(some):
        place, length = (item[4], item[5]), item[2]
        new = (item[4], b'new %d' % number)
        parts += [line(1, 'unlock', *place), line(1, 'write', *place, 'data', max(length - 7, 0), '61' * 600), line(1, 'seteof', *place, 'res', item[3] + 1500),
                  line(1, 'rename', *place, new[1]), line(1, 'write', *new, 'res', item[3], '62' * 9), line(1, 'write', *new, 'data', length + 9999, ''),
                  line(1, 'seteof', *new, 'data', length // 2), line(1, 'seteof', *new, 'data', length + 100), *both(1, item, *new)]
    yield 'forks that are written', b''.join(parts)
    parts = []
    for number, item in enumerate(some):
        place = (item[4], item[5])
        parts += [line(1, 'unlock', *place), line(1, 'seteof', *place, 'data', 0), line(1, 'seteof', *place, 'res', 0), line(1, 'create', 2, b'n%d' % number),
                  line(1, 'seteof', 2, b'n%d' % number, 'data', 4000), line(1, 'write', 2, b'n%d' % number, 'data', 2000, '63' * 700),
                  *reads(1, 2, b'n%d' % number, 4000, 'data')]
    yield 'blocks of other files', b''.join(parts)
    yield 'changes alone', b''.join(line(1, 'create', 2, b'made %d' % k) for k in range(30)) + b''.join(line(1, 'delete', 2, b'made %d' % k) for k in range(9))


def same(tool, path, image, script, work):
    """What differs of a script by the image's path and out of a pipe, or None."""
    out, text = os.path.join(work, 'out'), os.path.join(work, 'script')
    with open(text, 'wb') as file:
        file.write(script)
    results = []
    for given, source in ((None, path), (image, '/dev/stdin')):
        for words in (['run', source, text, '--now', '3000000000'], ['run', source, text, '--now', '3000000000', '--out', out]):
            if os.path.exists(out):
                os.remove(out)
            run = ended(tool, words, given)
            written = open(out, 'rb').read() if os.path.exists(out) else None
            results.append((run[0], run[1].replace(path.encode(), b'/dev/stdin'), run[2], written))
    if open(path, 'rb').read() != image:
        return 'the image is not as it was'
    for here, there in zip(results[:2], results[2:]):
        if here != there:
            return f'ends with {here[0]} and {there[0]}' if here[0] != there[0] else 'answers or writes another thing'
    return None


def over_itself(tool, path, image, script, work):
    """What differs where the image itself is written, or None."""
    out, copy, text = (os.path.join(work, name) for name in ('out', 'itself', 'script'))
    for name, content in ((copy, image), (text, script), (out, image)):
        with open(name, 'wb') as file:
            file.write(content)
    there = ended(tool, ['run', path, text, '--out', out])
    itself = ended(tool, ['run', copy, text, '--out', copy])
    if there != itself or open(out, 'rb').read() != open(copy, 'rb').read():
        return 'over itself another thing is answered or written'
    return None


def beside_a_deletion(tool, path, items, work):
    """What a viewer is answered beside a worker that deletes the file it reads: its whole fork, or -43; what is wrong, or None."""
    files = [item for item in items if item[0] == 'f' and 0 < item[2] <= MOST]
    if not files:
        return None
    item = files[0]
    place, text = (item[4], item[5]), os.path.join(work, 'script')
    with open(text, 'wb') as file:
        file.write(line(1, 'read', *place, 'data', 0, MOST))
    whole = ended(tool, ['run', '/dev/stdin', text], open(path, 'rb').read())[1].split(b'\t', 2)[2]
    with open(text, 'wb') as file:
        file.write(line(1, 'unlock', *place) + line(1, 'delete', *place) + b''.join(line('v1', 'read', *place, 'data', 0, MOST) for _ in range(60)))
    seen = set()
    for _ in range(15):
        status, printed, _ = ended(tool, ['run', path, text])
        # a line that gives bytes is followed by those, up to the next answer
        answers = printed.split(b'v1\t')[1:]
        for answer in answers:
            reply = answer.split(b'\t', 1)[1]
            if reply not in (whole, b'-43\t-\n'):
                return f'a viewer beside a deletion is answered {reply[:60]!r}'
            seen.add(reply[:4])
        if status != 0 or len(answers) != 60:
            return f'a viewer beside a deletion: it ends with {status} and {len(answers)} answers'
    return None


def is_sparse(tool, path, image, work):
    """Of an image in a sparse file, what is wrong where a run writes it, or None."""
    sparse, out, text = (os.path.join(work, name) for name in ('sparse', 'sparse.out', 'script'))
    with open(sparse, 'wb') as file:
        file.write(image)
        file.truncate(len(image) + 300_000_000)
    with open(text, 'wb') as file:
        file.write(line(1, 'create', 2, 'a file of this script'))
    status, printed, _ = ended(tool, ['run', sparse, text, '--out', out])
    if status != 0:
        return None if b'check' in printed or b'image' in printed else f'a sparse image ends with {status}'
    if os.path.getsize(out) != len(image) + 300_000_000:
        return 'a sparse image gets another length'
    if os.stat(out).st_blocks * 512 > 2 * len(image) + 4_000_000:
        return f'a sparse image takes {os.stat(out).st_blocks * 512} bytes'
    os.remove(sparse)
    os.remove(out)
    return None


def tried(tool, name, base):
    """How many scripts were run on a volume, and the first that differs, or None."""
    with tempfile.TemporaryDirectory() as work:
        path = os.path.join(work, 'image')
        with open(path, 'wb') as file:
            file.write(base)
        items = items_of(tool, path)
        count = 0
        for what, script in scripts_on(items, random.Random(7)):
            count += 1
            fault = same(tool, path, base, script, work) or over_itself(tool, path, base, script, work)
            if fault:
                return count, f'{name}, {what}: {fault}'
        longer = base + bytes(range(256)) + b'behind the last block'
        with open(path, 'wb') as file:
            file.write(longer)
        fault = same(tool, path, longer, dict(scripts_on(items, random.Random(7)))['renames and moves'], work)
        if fault:
            return count, f'{name} with bytes behind its last block: {fault}'
        with open(path, 'wb') as file:
            file.write(base)
        for how in (beside_a_deletion(tool, path, items, work), is_sparse(tool, path, base, work)):
            if how:
                return count, f'{name}: {how}'
    return count, None


def with_noise(image):
    """The image with other bytes in place of the zeros of its allocation blocks, so that a fork that wasn't read is another one."""
    number = lambda at, width: int.from_bytes(image[1024 + at:1024 + at + width], 'big')
    start, end = number(28, 2) * 512, number(28, 2) * 512 + number(18, 2) * number(20, 4)
    laid, zeros, noise = bytearray(image), bytes(512), random.Random(11).randbytes(1 << 20)
    for at in range(start, end, 512):
        if laid[at:at + 512] == zeros:
            laid[at:at + 512] = noise[at // 7 % (len(noise) - 512):][:512]
    return bytes(laid)


def volumes_to_try(volumes, work):
    """The volumes of this folder, and volumes that are laid here, each by its name."""
    for name in sorted(os.listdir(volumes)):
        if name.endswith('.img'):
            with open(os.path.join(volumes, name), 'rb') as file:
                yield name, file.read()
    path = os.path.join(work, 'laid')
    for kind, count, megabytes in [*LAID, MANY_EXTENTS]:
        subprocess.run([sys.executable, os.path.join(HERE, 'slow_volumes.py'), kind, str(count), str(megabytes), path], check=True, stdout=subprocess.DEVNULL)
        with open(path, 'rb') as file:
            yield f'{kind} {count}', with_noise(file.read())


def main():
    tool, volumes = sys.argv[1:]
    with tempfile.TemporaryDirectory() as work:
        bases = list(volumes_to_try(volumes, work))
    with concurrent.futures.ProcessPoolExecutor(os.cpu_count()) as pool:
        results = list(pool.map(tried, [tool] * len(bases), *zip(*bases)))
    for _, fault in results:
        if fault:
            sys.exit(fault)
    print(f'{len(bases)} volumes, {sum(it[0] for it in results)} scripts: the same by a path and out of a pipe')


if __name__ == '__main__':
    main()
