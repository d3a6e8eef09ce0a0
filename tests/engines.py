#!/usr/bin/env python3
"""The rows of `hfs_collect rows` in engines that exist: the statements of the manual's chapter "Many disks",
as they are there, on the images of tests/collect.py. PostgreSQL (a cluster of the test's own on a
socket, by runuser -u postgres) loads JSON Lines and CSV, SQLite loads CSV; what each then has is compared with
the database that `collect` makes of the same images, row by row, and so is the answer to each question.
Then several runs at once by `xargs -P`, and images that aren't whole.

tests/engines.py [--rows N]     runs $HFS_COLLECT and $HFS_TOOL, or the programs as they are built

It is no part of the gate: where there is no server, or no sqlite3, it says `skipped`. --rows N also loads a
table of N items into PostgreSQL, and prints how long that takes.
"""
import argparse
import json
import os
import re
import shutil
import sqlite3
import subprocess
import sys
import tempfile
import time
from collections import Counter
from pathlib import Path

import collect
import rows
from collect import COLLECT, Place, held, named_volume, small_volume
from driver.wanted import Difference, ensure, ensure_same
from rows import COLUMNS, done, lists_of, whole_images

MANUAL = Path(__file__).resolve().parent.parent / 'docs' / 'MANUAL.md'
BINARIES = Path('/usr/lib/postgresql/15/bin')
ORDER = {'image': ['path'], 'volume': ['image_path', 'number'], 'item': ['image_path', 'volume_number', 'number']}


def chapter():
    """The statements of the manual, by their first lines, and the questions that it asks the database of `collect`."""
    text = MANUAL.read_text('utf-8')
    text = text[text.index('\n## Many disks\n'):]
    text = text[:text.index('\n## ', 4)]
    blocks = {head: body for head, body in re.findall(r'```sql\n-- (.*?)\n(.*?)```', text, re.S)}
    asked = [re.sub(r'\n>\s+', ' ', it) for it in re.findall(r'\$ sqlite3 disks\.db "(SELECT.*?)"\n', text, re.S)]
    questions = [it.strip() for it in blocks['questions'].split(';') if it.strip()]
    ensure(len(questions) == len(asked) == 8, f'{len(questions)} questions beside {len(asked)}')
    return blocks, questions, asked


class Cluster:
    """A server of the test's own, on a socket in a folder that postgres owns."""

    def __init__(self, folder):
        self.folder = Path(folder)
        self.log = self.folder / 'log'
        shutil.chown(folder, 'postgres', 'postgres')
        self.as_postgres(BINARIES / 'initdb', '-D', self.folder / 'data', '--no-locale', '--encoding=UTF8', '--auth=trust')
        self.as_postgres(BINARIES / 'pg_ctl', '-D', self.folder / 'data', '-l', self.log, '-w', '-o', f"-k {self.folder} -c listen_addresses=''", 'start')
        self.count = 0

    def as_postgres(self, *words):
        ran = subprocess.run(['runuser', '-u', 'postgres', '--', *map(str, words)], stdout=subprocess.PIPE, stderr=subprocess.STDOUT, text=True, timeout=300, cwd='/')
        ensure(ran.returncode == 0, f'{words[0]} ends with {ran.returncode}: {ran.stdout[-500:]}')

    def stop(self):
        self.as_postgres(BINARIES / 'pg_ctl', '-D', self.folder / 'data', '-m', 'immediate', '-w', 'stop')

    def run(self, text, folder, name):
        """What psql prints of a text, run in a folder."""
        ran = subprocess.run(['psql', '-X', '-q', '-A', '-t', '-v', 'ON_ERROR_STOP=1', '-h', str(self.folder), '-U', 'postgres', '-d', name, '-f', '-'], input=text, capture_output=True,
                             text=True, cwd=folder, timeout=600)
        ensure(ran.returncode == 0 and not ran.stderr, f'psql ends with {ran.returncode}: {ran.stderr[-600:]}')
        return ran.stdout

    def new(self):
        """A new database."""
        self.count += 1
        self.run(f'CREATE DATABASE d{self.count};', '/', 'postgres')
        return f'd{self.count}'


def objects_of(text):
    return [tuple(json.loads(line).values()) for line in text.splitlines()]


def sorted_rows(wanted):
    return {table: sorted(wanted[table], key=lambda row: [it.encode() if isinstance(it, str) else it for it in (row[COLUMNS[table].index(name)] for name in ORDER[table])]) for table in wanted}


def told(answer):
    """The rows of an answer, in any order, as they are printed."""
    return Counter(tuple('' if it is None else str(it) for it in row) for row in answer)


class Engines:
    def __init__(self, cluster):
        self.cluster = cluster
        self.blocks, self.questions, self.asked = chapter()
        self.counts = Counter()

    def in_postgres(self, name, wanted, what):
        """Wants these rows in a database of PostgreSQL."""
        for table, some in sorted_rows(wanted).items():
            order = ', '.join(ORDER[table])
            found = objects_of(self.cluster.run(f'SELECT row_to_json(it) FROM (SELECT * FROM {table} ORDER BY {order}) AS it;', '/', name))
            ensure_same(found, some, f'{what}, the table {table}')
            self.counts['rows'] += len(some)

    def in_sqlite(self, path, wanted, what):
        database = sqlite3.connect(path)
        for table, some in sorted_rows(wanted).items():
            ensure_same(database.execute(f'SELECT * FROM {table} ORDER BY {", ".join(ORDER[table])}').fetchall(), some, f'{what}, the table {table}')
            self.counts['rows'] += len(some)
        database.close()

    def ask(self, place, name, loaded, collected, image):
        """Wants the same answers of PostgreSQL, of SQLite with the same tables, and of the database of `collect`."""
        theirs, ours = sqlite3.connect(loaded), collect.opened(collected)
        for question, asked in zip(self.questions, self.asked):
            question, asked = (re.sub(r' LIMIT \d+', '', it).replace('images/m0.img', image.replace("'", "''")) for it in (question, asked))
            wanted = told(ours.execute(asked).fetchall())
            found = told(objects_of(self.cluster.run(f'SELECT row_to_json(it) FROM ({question}) AS it;', '/', name)))
            ensure(found == wanted, f'PostgreSQL answers {question!r} with {found - wanted} more and {wanted - found} less')
            found = told(theirs.execute(question.replace('extract(year FROM modified)', 'substr(modified, 1, 4)')).fetchall())
            ensure(found == wanted, f'SQLite answers {question!r} with {found - wanted} more and {wanted - found} less')
            self.counts['answers'] += 2
        theirs.close()
        ours.close()

    def compare(self, place, wanted, collected):
        """Wants the rows of these images in each engine."""
        names = [it[0][0] for it in wanted]
        words = [*([] if wanted[0][0][2] is not None else ['--no-digest']), '--', *names]
        lists, errors = lists_of(wanted), rows.wrong_sums(wanted)
        with tempfile.TemporaryDirectory() as folder:
            os.chmod(folder, 0o755)
            (Path(folder) / 'rows.jsonl').write_bytes(done(place, *words, errors=errors))
            for table in COLUMNS:
                (Path(folder) / f'{table}.csv').write_bytes(done(place, '--format', 'csv', '--table', table, *words, errors=errors))
            name = self.cluster.new()
            self.cluster.run(self.blocks['tables'], '/', name)
            for _ in range(2):
                self.cluster.run(self.blocks['PostgreSQL, from rows.jsonl'], folder, name)
                self.in_postgres(name, lists, 'PostgreSQL by JSON Lines')
            other = self.cluster.new()
            self.cluster.run(self.blocks['tables'] + self.blocks['PostgreSQL, from CSV'].replace('/data/', f'{folder}/'), '/', other)
            self.in_postgres(other, lists, 'PostgreSQL by CSV')
            loaded = Path(folder) / 'loaded.db'
            ran = subprocess.run(['sqlite3', '-bail', loaded], input=self.blocks['tables'] + self.blocks['SQLite, from CSV'], capture_output=True, text=True, cwd=folder, timeout=600)
            ensure((ran.returncode, ran.stdout, ran.stderr) == (0, '', ''), f'sqlite3 ends with {ran.returncode}: {ran.stderr[-500:]}')
            self.in_sqlite(loaded, lists, 'SQLite by CSV')
            self.ask(place, name, loaded, collected, names[0])
        self.counts['loads'] += 4


# ---- the parts

def beside_collect(engines, place, part):
    """The images of a part of tests/collect.py, where all of them have digests or none."""
    def load(where, wanted, name):
        found = held(where, name)
        if len({row[0][2] is None for row in wanted}) == 1:
            engines.compare(where, [found[row[0][0]] for row in wanted], where.folder / name)
    collect.beside(place, part, load)


def hostile_names(place):
    """Paths and names that a format may take for its own signs."""
    names = ['comma, and "marks".img', 'line\n\\.\nfeed.img', '\\.', 'NULL', '\\N', "it's {\"table\":\"end\"}.img", 'tab\t\x01\x02.img', ' blanks ', '﻿é😀.img', 'a\rb', '-- ; DROP TABLE item;', '#']
    calls = ['mkdir\t2\t""', 'create\t2\tA,"b', 'create\t2\t,', 'create\t2\t"', 'create\t2\t\\\\.', 'create\t2\tLF\\0a', 'create\t2\tCR\\0d', 'create\t2\tNULL', 'create\t2\t\\\\N', 'create\t2\t1',
             "create\t2\t'; --", 'create\t2\t{}', 'create\t2\t ', 'create\t2\tzero\\00']
    for name in names:
        named_volume(place, 'one.img', 'a "q", \\', calls)
        os.replace(place.folder / 'one.img', place.folder / name)
    for database, words in (('c.db', []), ('n.db', ['--no-digest'])):
        place.done('collect', database, *words, '--', *names)
        collect.holds(place, [held(place, database)[name] for name in names], database)


def side_by_side(engines, place):
    """Runs by xargs, each into a file of its own, beside one run."""
    names = []
    for n in range(40):
        named_volume(place, f'{n:02}.img', f'Disk {n}', [f'create\t2\tfile {k}' for k in range(10 + n % 10)], nodes=30)
        names.append(f'{n:02}.img')
    place.file('gone', b'')
    wanted = whole_images(done(place, *names))
    ran = subprocess.run('printf "%s\\0" *.img none.img | xargs -0 -n 3 -P "$(nproc)" sh -c \'"$0" rows "$@" > "rows.$$.jsonl"\' ' + COLLECT, shell=True, cwd=place.folder, capture_output=True, text=True)
    ensure((ran.returncode, ran.stderr) == (123, 'cannot read none.img\n'), f'xargs ends with {ran.returncode}: {ran.stderr}')
    found, files = {}, sorted(place.folder.glob('rows.*.jsonl'))
    ensure(len(files) == 14, f'{len(files)} files')
    for path in files:
        some = whole_images(path.read_bytes())
        ensure(not set(some) & set(found), 'an image in two files')
        found.update(some)
    ensure(found == wanted, 'rows of runs side by side')


def damaged_images(engines, place):
    """The damaged images of tests/collect.py."""
    names = list(collect.damaged_images(place)[0])
    place.done('collect', 'c.db', *names)
    found = held(place)
    engines.compare(place, [found[name] for name in names], place.folder / 'c.db')


def half_read(engines, place):
    """Images that aren't whole don't come, and an image that comes again has its new rows alone."""
    for name in ('a.img', 'b.img'):
        small_volume(place, name)
    lines = done(place, 'a.img', 'b.img').splitlines(keepends=True)
    name = engines.cluster.new()
    engines.cluster.run(engines.blocks['tables'], '/', name)

    def load(text):
        place.file('rows.jsonl', text)
        engines.cluster.run(engines.blocks['PostgreSQL, from rows.jsonl'], place.folder, name)
    half = b''.join(lines[:6]) + lines[-1].replace(b'"whole":1', b'"whole":0')
    load(half)
    engines.in_postgres(name, lists_of(whole_images(half).values()), 'an image that is half read')
    ensure(list(whole_images(half)) == ['a.img'], 'the images that are whole')
    load(b''.join(lines[4:]))
    engines.in_postgres(name, lists_of(whole_images(b''.join(lines)).values()), 'an image that is whole then')
    named_volume(place, 'a.img', 'New', ['create\t2\tmore'])
    again = done(place, 'a.img')
    load(again)
    engines.in_postgres(name, lists_of([*whole_images(again).values(), *whole_images(b''.join(lines[4:])).values()]), 'an image that came again')
    # A killed run: its last line is cut, and its last image has no end.
    load(b''.join(lines[4:]))
    cut = again + lines[4] + lines[5]
    load(cut)
    engines.in_postgres(name, lists_of([*whole_images(again).values(), *whole_images(b''.join(lines[4:])).values()]), 'a run that was killed')


def many_rows(engines, folder, count):
    """How long PostgreSQL takes for so many items, by JSON Lines and by CSV."""
    each = 1000
    key = lambda n: f'images/{n:06}.img'
    digest = f'{"ab" * 32}'
    own = ['Disk:Folder:A file with a usual name', 'Folder/A file with a usual name', 'file', 17, 2, 'TEXT', 'ttxt', '0100', 0, 0, '1994-05-01T12:00:00', '1994-05-01T12:00:00', None, None, 1200, 300,
           '00' * 32, digest, digest, 'whole', 'whole']
    volume = [1, 'bare', 0, 819200, 'Disk', '1994-05-01T12:00:00', '1994-05-01T12:00:00', None, 1594, 512, 10, 'sound']
    field = lambda it: '' if it is None else str(it) if isinstance(it, int) else '"' + it.replace('"', '""') + '"'
    with open(folder / 'rows.jsonl', 'w') as lines, open(folder / 'image.csv', 'w') as images, open(folder / 'volume.csv', 'w') as volumes, open(folder / 'item.csv', 'w') as items:
        files = {'image': images, 'volume': volumes, 'item': items}
        for table, out in files.items():
            out.write(','.join(COLUMNS[table]) + '\r\n')

        def put(table, row):
            lines.write(json.dumps({'table': table, **dict(zip(COLUMNS.get(table, rows.END), row))}, separators=(',', ':')) + '\n')
            if table in files:
                files[table].write(','.join(map(field, row)) + '\r\n')
        for n in range(count // each):
            put('image', [key(n), 819200, digest, collect.PROGRAM])
            put('volume', [key(n), digest, *volume])
            for k in range(each):
                put('item', [key(n), digest, 1, k, *own])
            put('end', [key(n), digest, 1])
    for what, text in (('JSON Lines', engines.blocks['PostgreSQL, from rows.jsonl']), ('CSV', engines.blocks['PostgreSQL, from CSV'].replace('/data/', f'{folder}/'))):
        name = engines.cluster.new()
        engines.cluster.run(engines.blocks['tables'], '/', name)
        began = time.time()
        engines.cluster.run(text, folder, name)
        print(f'PostgreSQL takes {count} items by {what} in {time.time() - began:.1f} s')
        ensure(engines.cluster.run('SELECT count(*) FROM item', '/', name) == f'{count // each * each}\n', f'items by {what}')


def main():
    parser = argparse.ArgumentParser(description=__doc__, formatter_class=argparse.RawDescriptionHelpFormatter)
    parser.add_argument('--rows', type=int, default=0, help='also load so many items')
    words = parser.parse_args()
    missing = [it for it in (BINARIES / 'initdb', BINARIES / 'pg_ctl') if not it.exists()] + [it for it in ('psql', 'runuser', 'sqlite3', 'xargs') if not shutil.which(it)]
    if missing or os.geteuid() != 0:
        print(f'skipped: {", ".join(map(str, missing)) or "another user than root"}')
        return
    with tempfile.TemporaryDirectory() as top:
        os.chmod(top, 0o755)
        for name in ('cluster', 'images'):
            (Path(top) / name).mkdir()
        try:
            cluster = Cluster(Path(top) / 'cluster')
        except Difference as differs:
            print(f'skipped: no server: {differs}')
            return
        try:
            engines = Engines(cluster)
            parts = [('hostile_names', lambda place: beside_collect(engines, place, hostile_names)), ('side_by_side', lambda place: side_by_side(engines, place)),
                     ('half_read', lambda place: half_read(engines, place)), ('damaged_images', lambda place: damaged_images(engines, place))]
            parts += [(part.__name__, lambda place, part=part: beside_collect(engines, place, part))
                      for part in (collect.cut_dumps, collect.rows_beside_words, collect.odd_paths)]
            for name, part in parts:
                folder = Path(top) / 'images' / name
                folder.mkdir()
                os.chmod(folder, 0o755)
                try:
                    part(Place(folder))
                except Difference as differs:
                    sys.exit(f'engines differ, {name}: {differs}')
                shutil.rmtree(folder)
            if words.rows:
                folder = Path(top) / 'images' / 'many'
                folder.mkdir()
                os.chmod(folder, 0o755)
                many_rows(engines, folder, words.rows)
        finally:
            cluster.stop()
    print(f"engines agree: {engines.counts['loads']} loads, {engines.counts['rows']} rows, {engines.counts['answers']} answers")


if __name__ == '__main__':
    main()
