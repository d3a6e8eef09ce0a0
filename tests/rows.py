#!/usr/bin/env python3
"""Rows as text, as hfs_collect's word `rows` prints them: lines by hand; for the images of tests/collect.py
the same rows as the database that `collect` makes of them, in each format and by each table alone; images
that can't be read, also in the middle; memory that is refused; runs that are killed; devices that are full.

tests/rows.py [--kills N] [--seed N] [--only PART]    runs $HFS_COLLECT and $HFS_TOOL, or the programs as they are built

It prints what was compared; at a difference it says which and ends with status 1. What needs a C compiler
is left out if there is none, and named.
"""
import argparse
import json
import os
import random
import resource
import shutil
import signal
import subprocess
import tempfile
import time

import collect
from collect import COLLECT, P6, VOLUMES, counts_of, held, named_volume, refusing_library, small_volume
from driver.wanted import ensure, ensure_same
from rescue import small_volume as small_file

IMAGE = 'path bytes sha256 program'.split()
VOLUME = 'number how first_byte bytes name created modified backup blocks block_bytes free_blocks verdict'.split()
KEYS = ['image_path', 'image_sha256']
COLUMNS = {'image': IMAGE, 'volume': KEYS + VOLUME, 'item': KEYS + ['volume_number'] + collect.ITEM_COLUMNS}
END = KEYS + ['whole']


def run(place, *words, **how):
    """The status of `rows`, and the bytes that it prints and writes to standard error."""
    how = {'stdin': subprocess.DEVNULL, 'timeout': 600, 'cwd': place.folder, **how}
    ran = subprocess.run([COLLECT, 'rows', *map(str, words)], stdout=subprocess.PIPE, stderr=subprocess.PIPE, **how)
    return ran.returncode, ran.stdout, ran.stderr


def done(place, *words, errors='', **how):
    """What `rows` prints, which ends with status 0; on standard error this."""
    status, text, told = run(place, *words, **how)
    ensure(status == 0 and told.decode() == errors, f'rows {words} ends with {status}: {told[-300:]!r}')
    return text


def wrong_sums(rows):
    """What is told of those images of these rows in which the sum of a disk copy is wrong."""
    return ''.join(f'{image[0]}: the sum of the disk copy is wrong\n' for image, volumes in rows if any('sum wrong' in row[1] for row, _ in volumes))


# ---- reading the text

def objects(text):
    """The objects of JSON Lines, each as the list of its members in their order."""
    ensure(text == b'' or text.endswith(b'\n'), 'the last line has no end')
    rows = []
    for line in text.decode('utf-8').split('\n')[:-1]:
        rows.append(json.loads(line, object_pairs_hook=list))
        ensure(json.dumps(dict(rows[-1]), separators=(',', ':'), ensure_ascii=False) == line, f'a line that is written otherwise: {line!r}')
    return rows


def fields(text):
    """The rows of a text in CSV: a field between quotation marks is a text, a bare one a number, an empty one nothing."""
    rows, row, at = [], [], 0
    while at < len(text):
        if text[at] == '"':
            value, end = '', at + 1
            while True:
                close = text.index('"', end)
                value += text[end:close]
                if text[close + 1] != '"':
                    break
                value, end = value + '"', close + 2
            at = close + 1
        else:
            end = min(text.index(',', at) if ',' in text[at:] else len(text), text.index('\r\n', at))
            value, at = text[at:end], end
            value = int(value) if value else None
        row.append(value)
        if text[at] == ',':
            at += 1
            if text[at:at + 2] == '\r\n':
                row.append(None)
        if text[at:at + 2] == '\r\n':
            rows.append(tuple(row))
            row, at = [], at + 2
    ensure(not row, 'the last line has no end')
    return rows


def whole_images(text):
    """The rows of each image whose end says that it is whole, by its path: its row, and its volumes with their items."""
    images, path = {}, None
    for members in objects(text):
        table, row = members[0][1], dict(members[1:])
        ensure(members[0][0] == 'table' and [name for name, _ in members[1:]] == COLUMNS.get(table, END), f'the members of a line: {members}')
        if table == 'image':
            ensure(path is None, f'{row["path"]} stands among the rows of {path}')
            path, image, volumes = row['path'], tuple(row.values()), []
            continue
        ensure((row['image_path'], row['image_sha256']) == (path, image[2]), f'a key of another image: {row}')
        if table == 'volume':
            volumes.append((tuple(row[name] for name in VOLUME), []))
        elif table == 'item':
            ensure(row['volume_number'] == volumes[-1][0][0], f'a key of another volume: {row}')
            volumes[-1][1].append(tuple(row[name] for name in collect.ITEM_COLUMNS))
        else:
            ensure(row['whole'] in (0, 1), f'an end: {row}')
            if row['whole']:
                images[path] = (image, volumes)
            path = None
    ensure(path is None, f'{path} has no end')
    return images


def lists_of(images):
    """The rows of images by their tables, with their keys."""
    tables = {'image': [], 'volume': [], 'item': []}
    for image, volumes in images:
        key = (image[0], image[2])
        tables['image'].append(image)
        for volume, items in volumes:
            tables['volume'].append(key + volume)
            tables['item'] += [key + volume[:1] + item for item in items]
    return tables


def compare(place, rows):
    """Wants these rows of these images, in each format."""
    for has_digests in (True, False):
        some = [it for it in rows if (it[0][2] is not None) == has_digests]
        names = [it[0][0] for it in some]
        if not names:
            continue
        words = [*([] if has_digests else ['--no-digest']), '--', *names]
        errors = wrong_sums(some)
        found = whole_images(done(place, *words, errors=errors))
        ensure(list(found) == names, f'rows of the images {list(found)}')
        for it in some:
            ensure(found[it[0][0]][0] == it[0], f'the row of {it[0][0]}: {found[it[0][0]][0]} in place of {it[0]}')
            ensure_same([row for row, _ in found[it[0][0]][1]], [row for row, _ in it[1]], f'the volumes of {it[0][0]}')
            for n, ((_, items), (_, wanted)) in enumerate(zip(found[it[0][0]][1], it[1]), 1):
                ensure_same(items, wanted, f'the items of volume {n} of {it[0][0]}')
        tables = lists_of(some)
        for table in tables if len(names) <= 100 else ['item']:
            wanted = tables[table]
            text = done(place, '--table', table, *words, errors=errors)
            ensure([[name for name, _ in row] for row in objects(text)] == [COLUMNS[table]] * len(wanted), f'the members of {table}')
            ensure_same([tuple(value for _, value in row) for row in objects(text)], wanted, f'the table {table} in JSON')
            text = done(place, '--table', table, '--format', 'csv', *words, errors=errors).decode('utf-8')
            head, _, behind = text.partition('\r\n')
            ensure(head == ','.join(COLUMNS[table]), f'the head of {table}: {head!r}')
            ensure_same(fields(behind), wanted, f'the table {table} in CSV')
            place.counts['rows'] += 2 * len(wanted)
        place.counts['rows'] += sum(1 + len(volumes) + sum(len(items) for _, items in volumes) for _, volumes in some)


# ---- the parts

def worked_example(place):
    """A new volume, line by line, by hand."""
    small_volume(place)
    zeros = '0' * 64
    key = f'"image_path":"p6.img","image_sha256":"{P6}"'
    image = f'"path":"p6.img","bytes":32768,"sha256":"{P6}","program":"hfs_collect 1.0.0"'
    volume = f'{key},"number":1,"how":"bare","first_byte":0,"bytes":32768,"name":"D","created":null,"modified":null,"backup":null,"blocks":58,"block_bytes":512,"free_blocks":50,"verdict":"sound"'
    item = (f'{key},"volume_number":1,"number":0,"path":"D","bag_path":"","kind":"folder","cnid":2,"parent":1,"type":null,"creator":null,"flags":"0000","locked":null,"file_id":null,'
            f'"created":null,"modified":null,"backup":null,"items":0,"data_bytes":null,"resource_bytes":null,"finder":"{zeros}","data_sha256":null,"resource_sha256":null,'
            '"data_verdict":null,"resource_verdict":null')
    wanted = ''.join(f'{{"table":"{table}",{row}}}\n' for table, row in (('image', image), ('volume', volume), ('item', item), ('end', f'{key},"whole":1')))
    found = done(place, 'p6.img').decode()
    ensure(found == wanted, f'rows of p6.img: {found!r}')
    for table, row in (('image', image), ('volume', volume), ('item', item)):
        ensure(done(place, 'p6.img', '--table', table).decode() == f'{{{row}}}\n', f'the table {table}')
    texts = {'image': f'"p6.img",32768,"{P6}","hfs_collect 1.0.0"', 'volume': f'"p6.img","{P6}",1,"bare",0,32768,"D",,,,58,512,50,"sound"',
             'item': f'"p6.img","{P6}",1,0,"D","","folder",2,1,,,"0000",,,,,,0,,,"{zeros}",,,,'}
    for table, row in texts.items():
        text = done(place, '--format', 'csv', '--table', table, 'p6.img').decode()
        ensure(text == ','.join(COLUMNS[table]) + '\r\n' + row + '\r\n', f'{table} in CSV: {text!r}')
    ensure(done(place, 'p6.img', '--no-digest').decode() == wanted.replace(f'"{P6}"', 'null'), 'rows without digests')
    ensure(done(place, 'p6.img', 'p6.img').decode() == wanted * 2, 'an image twice')
    ensure(place.names() == ['p6.img'], f'rows leave {place.names()}')


def beside_collect(place, part):
    """The images of a part of tests/collect.py: behind each comparison of a database with what it is to have, the same rows as text."""
    collect.beside(place, part, lambda where, wanted, name: compare(where, [held(where, name)[rows[0][0]] for rows in wanted]))


def damaged_images(place):
    """The damaged images of tests/collect.py, which looks itself at what a database has of them."""
    names = list(collect.damaged_images(place)[0])
    for database, words in (('c.db', []), ('n.db', ['--no-digest'])):
        place.done('collect', database, *names, *words)
        found = held(place, database)
        compare(place, [found[name] for name in names])


def refused_words(place):
    small_volume(place)
    for words in ([], ['--format', 'csv', 'p6.img'], ['p6.img', '--format', 'csv'], ['p6.img', '--table', 'end'], ['p6.img', '--format', 'json'], ['--no-digest'], ['--table', 'item'],
                  ['p6.img', '--compare'], ['p6.img', '--volume', '1'], ['p6.img', '--table', 'item', '--table', 'image']):
        status, text, told = run(place, *words)
        ensure(status == 1 and text and not told, f'rows {words} ends with {status}')
    ensure('--table' in done(place, '--help').decode(), 'the help')
    ensure(place.names() == ['p6.img'], f'refused words leave {place.names()}')
    # A database that is called so is given by another path of it; an image may be called so.
    place.file('rows', (place.folder / 'p6.img').read_bytes())
    place.wants(0, 'rows\tvolumes 1\trefused 0\tfiles 0\tdamaged 0\n', 'collect', './c.db', 'rows')
    place.wants(0, 'p6.img\tvolumes 1\trefused 0\tfiles 0\tdamaged 0\n', 'collect', './rows.db', 'p6.img')
    ensure(len(objects(done(place, 'rows'))) == 4, 'an image that is called rows')


def unread_images(place, library):
    """Images that can't be read: a line on standard error, the next one comes; behind rows that went out an end that isn't whole."""
    small_volume(place)
    good = done(place, 'p6.img')
    (place.folder / 'folder').mkdir()
    for name in ('none.img', 'folder', ''):
        told = f'cannot read {name}\n'.encode()
        for words, wanted in ((['--', name, 'p6.img'], good), (['--', 'p6.img', name, 'p6.img'], good * 2), (['--', name], b'')):
            found = run(place, *words)
            ensure(found == (4, wanted, told), f'rows of {words}: {found}')
    # Out of a pipe the same rows, but for the path.
    with open(place.folder / 'p6.img', 'rb') as image:
        with subprocess.Popen(['cat'], stdin=image, stdout=subprocess.PIPE) as pipe:
            found = run(place, '/dev/stdin', 'p6.img', stdin=pipe.stdout)
    ensure(found == (0, good.replace(b'"p6.img"', b'"/dev/stdin"') + good, b''), f'rows of a pipe: {found}')
    if not library:
        return
    floppy = small_file('OneFile')
    place.file('one.img', floppy)
    whole = done(place, 'one.img')
    inode = os.stat(place.folder / 'one.img').st_ino
    for block in (0, 2, 6, 14, 20, len(floppy) // 512 - 1):
        how = {'env': {**os.environ, 'LD_PRELOAD': str(library), 'REFUSED_FILE': str(inode), 'REFUSED_BLOCK': str(block)}}
        # With digests the whole image is read before its own row comes.
        found = run(place, 'one.img', 'p6.img', **how)
        ensure(found == (4, good, b'cannot read one.img\n'), f'a read of block {block} that fails: {found}')
    bare = done(place, 'one.img', '--no-digest').splitlines(keepends=True)
    ends = set()
    for block in range(len(floppy) // 512):
        how = {'env': {**os.environ, 'LD_PRELOAD': str(library), 'REFUSED_FILE': str(inode), 'REFUSED_BLOCK': str(block)}}
        status, text, told = run(place, 'one.img', 'p6.img', '--no-digest', **how)
        lines = text.splitlines(keepends=True)
        ensure(lines[-4:] == done(place, 'p6.img', '--no-digest').splitlines(keepends=True), f'the image behind a read that fails, block {block}')
        lines = lines[:-4]
        if status == 0:
            ensure(lines == bare and not told, f'block {block} is not read, and the rows are others')
            continue
        ensure((status, told) == (4, b'cannot read one.img\n'), f'a read that fails, block {block}: {status}, {told!r}')
        if lines:
            ensure(lines[:-1] == bare[:len(lines) - 1] and lines[-1] == bare[-1].replace(b'"whole":1', b'"whole":0'), f'a read that fails, block {block}: {lines}')
            ensure(whole_images(b''.join(lines)) == {}, 'a half read image is told to be whole')
        ends.add(len(lines))
    # Its own row, of its name and length, goes out before its blocks are read, and all of a volume comes when its table is known.
    ensure(ends == {2}, f'reads that fail leave {ends} lines')
    ensure(done(place, 'one.img') == whole, 'the image as it was')


def refused_memory(place, library, step):
    """Each so many-th call that asks for memory is refused: what went out is a beginning of the rows, or all of them."""
    image = 'hfsutils-800k.img'
    shutil.copyfile(VOLUMES / image, place.folder / image)
    whole = done(place, image)
    call, refused, fine = 1, 0, 0
    while fine < 3:
        how = {'env': {**os.environ, 'LD_PRELOAD': str(library), 'REFUSED_CALL': str(call)}}
        found = run(place, image, **how)
        if found == (0, whole, b''):
            fine += 1
        else:
            fine = 0
            refused += 1
            status, text, told = found
            if (status, text) not in ((1, b'the words are not text\n'), (5, b'out of memory\n')):
                ensure((status, told) == (5, b'out of memory\n'), f'call {call} for memory refused: {status}, {told!r}')
                lines = text.splitlines(keepends=True)
                ends = [line for line in lines if line.startswith(b'{"table":"end"')]
                ensure(whole.startswith(b''.join(line for line in lines if line not in ends)) and all(b'"whole":0' in line for line in ends), f'call {call} for memory refused: {text!r}')
        call += step
    return refused


def killed(place, count, seed):
    """Runs that are killed: each image that has an end has all its rows."""
    chance = random.Random(seed)
    names = []
    for n in range(12):
        named_volume(place, f'{n:02}.img', f'Disk {n}', [f'create\t2\tfile {k}' for k in range(20 + n)], nodes=30)
        names.append(f'{n:02}.img')
    began = time.time()
    wanted = whole_images(done(place, *names))
    length = time.time() - began
    seen = 0
    for _ in range(count):
        with open(place.folder / 'rows.jsonl', 'wb') as out:
            ran = subprocess.Popen([COLLECT, 'rows', *names], cwd=place.folder, stdout=out, stdin=subprocess.DEVNULL)
            time.sleep(chance.uniform(0, length))
            ran.send_signal(signal.SIGKILL)
            ran.wait()
        text = (place.folder / 'rows.jsonl').read_bytes()
        ends = text.rfind(b'{"table":"end"')
        cut = text.find(b'\n', ends) + 1 if ends >= 0 else 0
        found = whole_images(text[:cut])
        ensure(list(found) == names[:len(found)] and all(found[name] == wanted[name] for name in found), 'a run that was killed')
        seen += len(found)
    return seen


def limited(count):
    """Before the program: files may have so many bytes, and what writes more is told."""
    signal.signal(signal.SIGXFSZ, signal.SIG_IGN)
    resource.setrlimit(resource.RLIMIT_FSIZE, (count, count))


def full_output(place):
    small_volume(place)
    for words in (['p6.img'], ['p6.img', '--table', 'item', '--format', 'csv']):
        with open('/dev/full', 'wb') as full:
            ran = subprocess.run([COLLECT, 'rows', *words], stdout=full, stderr=subprocess.PIPE, cwd=place.folder, timeout=600)
        ensure((ran.returncode, ran.stderr) == (4, b''), f'rows on a full device ends with {ran.returncode}: {ran.stderr!r}')
    # A reader that goes.
    named_volume(place, 'big.img', 'Big', [f'create\t2\t{"n" * 20}{n:04}' for n in range(300)], blocks=600, nodes=260)
    ran = subprocess.Popen([COLLECT, 'rows', *['big.img'] * 20], stdout=subprocess.PIPE, stderr=subprocess.PIPE, cwd=place.folder)
    ran.stdout.read(100)
    ran.stdout.close()
    told = ran.stderr.read()
    ensure((ran.wait(timeout=600), told) in ((4, b''), (-signal.SIGPIPE, b'')), f'a reader that goes: {ran.returncode}, {told!r}')
    # A file that may have so many bytes: what went out is a beginning of the rows, to the byte.
    for words in (['big.img', 'p6.img'], ['--table', 'item', '--format', 'csv', 'big.img']):
        whole = done(place, *words)
        for limit in (0, 1, 1000, 65_535, 65_536, 66_000, 100_000, len(whole) - 1, len(whole)):
            with open(place.folder / 'out', 'wb') as out:
                ran = subprocess.run([COLLECT, 'rows', *words], stdout=out, stderr=subprocess.PIPE, cwd=place.folder, timeout=600, preexec_fn=lambda: limited(limit))
            found = (place.folder / 'out').read_bytes()
            ensure((ran.returncode, found, ran.stderr) == (0 if limit >= len(whole) else 4, whole[:limit], b''), f'a file of {limit} bytes: {ran.returncode}, {len(found)} bytes')


def many_volumes(place):
    """Memory stays that of one volume's rows, however many there are."""
    small_volume(place)
    named_volume(place, 'big.img', 'Big', [f'create\t2\t{"n" * 20}{n:04}' for n in range(300)], blocks=600, nodes=260)

    def peak(*words):
        ran = subprocess.run(['/usr/bin/env', 'python3', '-c', 'import resource, subprocess, sys; subprocess.run(sys.argv[1:], stdout=subprocess.DEVNULL, check=True); '
                              'print(resource.getrusage(resource.RUSAGE_CHILDREN).ru_maxrss)', COLLECT, 'rows', *words], cwd=place.folder, capture_output=True, text=True, timeout=600, check=True)
        return int(ran.stdout)
    one, many = peak('big.img'), peak(*['big.img'] * 40)
    ensure(many < one + 1024, f'40 images take {many} KB, one takes {one} KB')
    return one, many


def main():
    parser = argparse.ArgumentParser(description=__doc__, formatter_class=argparse.RawDescriptionHelpFormatter)
    parser.add_argument('--kills', type=int, default=20, help='how many runs are killed')
    parser.add_argument('--seed', type=int, default=1)
    parser.add_argument('--memory-step', type=int, default=7, help='each so many-th call for memory is refused')
    parser.add_argument('--only', help='only the part of this name')
    words = parser.parse_args()
    left_out, told = [], []
    with tempfile.TemporaryDirectory() as top:
        os.chmod(top, 0o755)
        library = refusing_library(top, left_out)
        parts = [('worked_example', worked_example), ('refused_words', refused_words), ('full_output', full_output)]
        parts += [(part.__name__, lambda place, part=part: beside_collect(place, part))
                  for part in (collect.worked_example, collect.cut_dumps, collect.raw_sectors, collect.rows_beside_words, collect.odd_paths)]
        parts[3] = ('worked_example_beside_collect', parts[3][1])
        parts.append(('damaged_images', damaged_images))
        parts.append(('unread_images', lambda place: unread_images(place, library)))
        parts.append(('many_volumes', lambda place: told.append('{} KB for one image, {} KB for 40'.format(*many_volumes(place)))))
        if library:
            parts.append(('refused_memory', lambda place: told.append(f'{refused_memory(place, library, words.memory_step)} calls for memory refused')))
        parts.append(('killed', lambda place: told.append(f'{killed(place, words.kills, words.seed)} whole images of {words.kills} runs that were killed')))
        counts = counts_of(parts, top, words.only, 'rows differ')
    print(f"rows agree: {counts['rows']} rows beside {counts['databases']} databases; {'; '.join(told)}")
    if left_out:
        print(f'left out: {", ".join(left_out)}')


if __name__ == '__main__':
    main()
