#!/usr/bin/env python3
"""How long `hfs_collect` takes to open a database, and what of it goes by the rules of its tables: databases of N items
by Python's sqlite3, with the tables of a collection, and the same rows in tables without some of the rules (which the
program refuses once it has opened the file). A line for each: its bytes, seconds of processor time, and memory; next to
them what sqlite3 takes for its own checks.

measure/opening.py [--rows N]..    runs $HFS_COLLECT, or the program as it is built
"""
import argparse
import os
import re
import resource
import sqlite3
import subprocess
import sys
import tempfile
import time
from pathlib import Path

sys.path.insert(0, str(Path(__file__).resolve().parent.parent / 'tests'))
from driver.programs import built  # noqa: E402

COLLECT = str(built('hfs_collect'))
EACH = 1000
TABLES = [
    'CREATE TABLE image (id INTEGER PRIMARY KEY, path TEXT NOT NULL UNIQUE, bytes INTEGER NOT NULL, sha256 TEXT, program TEXT NOT NULL)',
    'CREATE TABLE volume (id INTEGER PRIMARY KEY, image INTEGER NOT NULL REFERENCES image (id) ON DELETE CASCADE, number INTEGER NOT NULL, how TEXT NOT NULL, '
    'first_byte INTEGER NOT NULL, bytes INTEGER NOT NULL, name TEXT, created TEXT, modified TEXT, backup TEXT, blocks INTEGER, block_bytes INTEGER, '
    'free_blocks INTEGER, verdict TEXT NOT NULL, UNIQUE (image, number))',
    'CREATE TABLE item (id INTEGER PRIMARY KEY, volume INTEGER NOT NULL REFERENCES volume (id) ON DELETE CASCADE, number INTEGER NOT NULL, path TEXT, '
    'bag_path TEXT NOT NULL, kind TEXT NOT NULL, cnid INTEGER NOT NULL, parent INTEGER NOT NULL, type TEXT, creator TEXT, flags TEXT NOT NULL, locked INTEGER, '
    'file_id INTEGER, created TEXT, modified TEXT, backup TEXT, items INTEGER, data_bytes INTEGER, resource_bytes INTEGER, finder TEXT NOT NULL, '
    'data_sha256 TEXT, resource_sha256 TEXT, data_verdict TEXT, resource_verdict TEXT, UNIQUE (volume, number))',
    'CREATE INDEX item_data ON item (data_sha256)',
    'CREATE INDEX item_resource ON item (resource_sha256)',
]
REFERENCES = (r' REFERENCES \w+ \(id\) ON DELETE CASCADE', '')
UNIQUE = (r', UNIQUE \(\w+, number\)', '')
NOT_NULL = (r' NOT NULL', '')
CHANGES = {'as a collection': [], 'without REFERENCES': [REFERENCES], 'without UNIQUE': [UNIQUE], 'without either': [REFERENCES, UNIQUE],
           'without either, and no index': [REFERENCES, UNIQUE, (r'CREATE INDEX.*', 'SELECT 1')],
           'nor NOT NULL': [REFERENCES, UNIQUE, (r'CREATE INDEX.*', 'SELECT 1'), NOT_NULL]}


def fill(path, count, changes):
    database = sqlite3.connect(path)
    for text in TABLES:
        for old, new in changes:
            text = re.sub(old, new, text)
        database.execute(text)
    own = 'A file with a usual name'
    for n in range(count // EACH):
        database.execute('INSERT INTO image VALUES (?, ?, 819200, ?, ?)', (n + 1, f'images/{n:06}.img', f'{n:064x}', 'hfs_collect 1.0.0'))
        database.execute("INSERT INTO volume VALUES (?, ?, 1, 'bare', 0, 819200, 'Disk', '1994-05-01T12:00:00', '1994-05-01T12:00:00', NULL, 1594, 512, 10, 'sound')", (n + 1, n + 1))
        database.executemany('INSERT INTO item VALUES (?, ?, ?, ?, ?, ?, ?, ?, ?, ?, ?, ?, ?, ?, ?, ?, ?, ?, ?, ?, ?, ?, ?, ?)', (
            (n * EACH + k + 1, n + 1, k, f'Disk:Folder:{own} {k}', f'Folder/{own} {k}', 'file', 16 + k, 2, 'TEXT', 'ttxt', '0100', 0, 0, '1994-05-01T12:00:00', '1994-05-01T12:00:00',
             None, None, 1200 + k, 300, '00' * 32, f'{n * EACH + k:064x}', f'{k:064x}', 'whole', 'whole') for k in range(EACH)))
    database.commit()
    database.close()


def took(words):
    """Seconds on the clock, seconds of processor time and kilobytes of a run."""
    code = ('import os, resource, subprocess, sys, time; began = time.time(); ran = subprocess.run(sys.argv[1:], stdout=subprocess.DEVNULL); used = resource.getrusage(resource.RUSAGE_CHILDREN); '
            'print(ran.returncode, time.time() - began, used.ru_utime + used.ru_stime, used.ru_maxrss)')
    status, clock, processor, memory = subprocess.run([sys.executable, '-c', code, *map(str, words)], capture_output=True, text=True, check=True).stdout.split()
    return int(status), float(clock), float(processor), int(memory)


def main():
    parser = argparse.ArgumentParser(description=__doc__, formatter_class=argparse.RawDescriptionHelpFormatter)
    parser.add_argument('--rows', type=int, action='append', help='how many items')
    parser.add_argument('--only', help='only the tables of this name')
    words = parser.parse_args()
    with tempfile.TemporaryDirectory() as folder:
        image = Path(folder) / 'x.img'
        image.write_bytes(bytes(1000))
        for count in words.rows or [100_000]:
            for name, changes in CHANGES.items():
                if words.only and name != words.only:
                    continue
                path = Path(folder) / 'c.db'
                path.unlink(missing_ok=True)
                fill(path, count, changes)
                status, clock, processor, memory = took([COLLECT, path, '--compare', image])
                wanted = 4 if changes else 0
                if status != wanted:
                    sys.exit(f'{name}: status {status}')
                print(f'{count} items, {name}: {os.path.getsize(path) / 1e6:.0f} MB, {processor:.1f} s of processor time, {clock:.1f} s on the clock, {memory / 1024:.0f} MB', flush=True)
                if not changes:
                    for check in ('quick_check', 'integrity_check', 'foreign_key_check'):
                        _, clock, processor, memory = took(['sqlite3', path, f'PRAGMA {check}'])
                        print(f'    PRAGMA {check}: {processor:.1f} s of processor time, {memory / 1024:.0f} MB', flush=True)


if __name__ == '__main__':
    main()
