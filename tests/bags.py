#!/usr/bin/env python3
"""A reader of bags, written from RFC 8493 alone.

tests/bags.py FOLDER      checks that FOLDER is a whole bag of version 1.0 whose manifests are of SHA-256

It prints how many files the payload has, and their bytes; if something is wrong it says what, and
ends with status 1.
"""
import hashlib
import re
import sys
from pathlib import Path

ENTRY = re.compile('([0-9a-fA-F]{64})[ \t]+([^\r\n]+)')


class NoBag(Exception):
    """What isn't as it is to be."""


def ensure(holds, what):
    if not holds:
        raise NoBag(what)


def lines_of(path):
    """The lines of a tag file, which may end in CR, LF or CR LF."""
    return re.split('\r\n|\r|\n', path.read_bytes().decode('utf-8'))


def manifest(path):
    """The digests of a manifest by their paths; %0A, %0D and %25 stand for these characters."""
    digests = {}
    for line in lines_of(path):
        if line:
            found = ENTRY.fullmatch(line)
            ensure(found, f'{path.name} has the line {line!r}')
            name = re.sub('%(0A|0D|25)', lambda it: chr(int(it[1], 16)), found[2], flags=re.I)
            ensure(name not in digests, f'{path.name} names {name} twice')
            ensure(not name.startswith(('/', '~')) and '..' not in name.split('/'), f'{path.name} leads out by {name}')
            digests[name] = found[1].lower()
    return digests


def digest(path):
    sums = hashlib.sha256()
    with open(path, 'rb') as file:
        while piece := file.read(1 << 20):
            sums.update(piece)
    return sums.hexdigest()


def files_below(folder):
    """The paths of all files below a folder, and no links."""
    paths = set()
    for path in folder.rglob('*'):
        ensure(not path.is_symlink(), f'{path} is a link')
        ensure(path.is_dir() or path.is_file(), f'{path} is neither file nor folder')
        if path.is_file():
            paths.add(path)
    return paths


def tags_of(path):
    """The labels and values of bag-info.txt; a line that begins with a space goes on."""
    tags = []
    for line in lines_of(path):
        if line[:1] in (' ', '\t') and tags:
            tags[-1] = (tags[-1][0], f'{tags[-1][1]} {line.strip()}')
        elif line:
            label, colon, value = line.partition(':')
            ensure(colon and value[:1] in (' ', '\t') and label == label.strip(), f'bag-info.txt has the line {line!r}')
            tags.append((label, value[1:]))
    return tags


def read_bag(bag):
    """The files and bytes of the payload of a whole bag, and its tags."""
    bag = Path(bag)
    ensure(lines_of(bag / 'bagit.txt')[:2] == ['BagIt-Version: 1.0', 'Tag-File-Character-Encoding: UTF-8'], 'bagit.txt')
    ensure((bag / 'data').is_dir(), 'there is no data')
    payload = {str(path.relative_to(bag)): path for path in files_below(bag / 'data')}
    told = manifest(bag / 'manifest-sha256.txt')
    ensure(set(told) == set(payload), f'the manifest differs from the payload by {sorted(set(told) ^ set(payload))[:3]}')
    tag_files = {str(path.relative_to(bag)) for path in files_below(bag)} - set(payload)
    tag_sums = manifest(bag / 'tagmanifest-sha256.txt')
    ensure(set(tag_sums) == tag_files - {'tagmanifest-sha256.txt'}, f'the tag manifest has {sorted(tag_sums)} of {sorted(tag_files)}')
    for name, wanted in (told | tag_sums).items():
        ensure(digest(bag / name) == wanted, f'the digest of {name}')
    tags = tags_of(bag / 'bag-info.txt')
    size = sum(path.stat().st_size for path in payload.values())
    oxum = [value for label, value in tags if label == 'Payload-Oxum']
    ensure(oxum == [f'{size}.{len(payload)}'], f'Payload-Oxum is {oxum}')
    return len(payload), size, tags


def main():
    try:
        files, size, _ = read_bag(sys.argv[1])
    except (NoBag, OSError, UnicodeDecodeError) as wrong:
        print(f'no whole bag: {wrong}')
        return 1
    print(f'{files} files, {size} bytes')
    return 0


if __name__ == '__main__':
    sys.exit(main())
