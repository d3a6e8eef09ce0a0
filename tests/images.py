#!/usr/bin/env python3
"""Runs the words of the program on small volumes with bytes laid over them, as volumes/images.txt
says, and compares what they print with what it says. Each image is read by its path and from
a pipe, a script without a line is run on it, and it is repaired: what is refused for another fault
than a count stays as it was. `info` prints the heads of volumes/heads.txt. Then each byte of some
blocks is changed, and an image is cut at many places, and `check` prints the same both ways; and
viewers and workers read all of each volume, and are answered the same.

tests/images.py      runs $HFS_TOOL, or the program as it is built in crates/hfs_tool/out
"""
import gzip
import sys
import tempfile
from concurrent.futures import ThreadPoolExecutor
from pathlib import Path

from driver.programs import built, ended
from driver.wanted import Difference, ensure

HERE = Path(__file__).resolve().parent
TOOL = str(built('hfs_tool'))
BLOCK = 512
SMALL = {'OneFile': 'one-file', 'TwoFiles': 'two-files', 'TwoLevels': 'two-levels', 'FileThread': 'file-thread', 'Folder': 'folder'}
# The fork of the file in OneFile and TwoFiles.
FORK = bytes(k % 251 for k in range(2000))
# The names with which items are asked for: of some that there are, in either case, of none, and what is no name.
NAMES = ['f', 'F', 'g', 'd', 'q', 'a:b', '']


def told(words, given=None):
    """The status of the words, and what they print."""
    status, printed, errors = ended(TOOL, words, given, seconds=60)
    ensure(not errors, f'{words} writes to standard error: {errors!r}')
    return status, printed


def want(words, status, printed, given=None):
    found = told(words, given)
    if found != (status, printed):
        raise Difference(f'{words} ends with {found[0]} and prints {found[1]!r}')


def want_both_ways(word, path, behind, status, printed):
    """Wants this of a word on an image by its path, and out of a pipe."""
    want([word, str(path), *behind], status, printed)
    want([word, '/dev/stdin', *behind], status, printed, path.read_bytes())


def text_of(lines):
    return ''.join(line + '\n' for line in lines).encode('ascii')


def edited(image, edits):
    """The image with these edits, which commas part."""
    image = bytearray(image)
    for words in (edit.split() for edit in edits.split(',') if edit.strip()):
        if words[0] == 'cut':
            del image[int(words[1]):]
        elif words[0] == 'longer':
            image.extend(bytes(int(words[1]) - len(image)))
        else:
            at = BLOCK * int(words[0]) + int(words[1])
            content = FORK[int(words[3]):int(words[4])] if words[2] == 'fork' else bytes.fromhex(words[2])
            image[at:at + len(content)] = content
    return bytes(image)


def may_be_count(fault):
    """Whether a fault may be that of a count which a repair mends: the trees' counts have the place
    0 as other faults of a header node have, and the count of free blocks the number of blocks, 58
    or more."""
    words = fault.split(' ')
    if words[0] != 'check':
        return False
    number, place = int(words[1][1:]), int(words[3])
    return number in (9, 10) or (number <= 4 and place == 0) or (number == 12 and place >= 58)


class Cases:
    """The cases of a text: the volumes that they begin with, and how many tests and images there
    were."""

    def __init__(self, volumes, folder):
        self.volumes = volumes
        self.path = folder / 'case.img'
        self.script = folder / 'empty'
        self.script.write_bytes(b'')
        self.tests, self.images = [], 0

    def check(self, image, lines):
        """What `check` tells, both ways; then an empty script is run, and the image is repaired."""
        status, printed = told(['check', str(self.path)])
        is_sound = lines[0] == 'sound'
        wanted = text_of(lines if is_sound else ['refused ' + lines[0]])
        if status != (0 if is_sound else 2) or (not printed.startswith(wanted) if lines == ['sound'] else printed != wanted):
            raise Difference(f'check ends with {status} and prints {printed!r}')
        want(['check', '/dev/stdin'], status, printed, image)
        want(['run', str(self.path), str(self.script)], status, b'' if is_sound else text_of(lines))
        self.check_repair(image, lines[0])

    def check_repair(self, image, fault):
        """A repair ends as it must behind such a check: without a fix; refused for the same fault
        with the bytes as they were; or, where that may be a count, with a fix or refused for
        another."""
        status, printed = told(['repair', str(self.path), str(self.path)])
        is_kept = self.path.read_bytes() == image
        if fault == 'sound':
            is_right = (status, printed) == (0, b'sound\n') and is_kept
        elif status == 2:
            is_right = is_kept and (may_be_count(fault) or printed == text_of(['refused ' + fault]))
        else:
            is_right = status == 0 and may_be_count(fault) and printed.startswith(b'fixed ') and printed.endswith(b'\nsound\n')
        if not is_right:
            raise Difference(f'repair ends with {status} and prints {printed!r}')

    def repair(self, name, image, lines):
        """What `repair` tells; a volume that is repaired is the one that it was laid over, and one
        that is refused is as it was."""
        is_sound = lines[-1] == 'sound'
        want(['repair', str(self.path), str(self.path)], 0 if is_sound else 2, text_of(lines))
        if self.path.read_bytes() != (self.volumes[name] if is_sound else image):
            raise Difference('other bytes behind the repair')

    def info(self, line):
        """The line of the volume's name that `info` prints."""
        status, printed = told(['info', str(self.path)])
        if status != 0 or line.encode('ascii') not in printed.split(b'\n'):
            raise Difference(f'info ends with {status} and prints {printed!r}')

    def run(self, text):
        """Does what a line says."""
        about, edits, behind = (part.strip(' ') for part in text.split(';', 2))
        *words, name = about.split(' ')
        image = edited(self.volumes[name], edits)
        lines = behind.split(' | ') if behind else []
        self.path.write_bytes(image)
        self.images += 1
        if not words:
            self.check(image, lines)
        elif words[0] == 'repair':
            self.repair(name, image, lines)
        elif words[0] == 'info':
            self.info(lines[0])
        else:
            printed = FORK if lines == ['fork'] else text_of(lines)
            want_both_ways(words[0], self.path, words[1:], 3 if lines and lines[0].startswith('code') else 0, printed)

    def line(self, text):
        word, _, behind = text.partition(' ')
        if word == 'test':
            self.tests.append(behind)
        elif word == 'volume':
            about, edits = behind.split(';')
            name, base = about.split(' ')
            self.volumes[name] = edited(self.volumes[base], edits)
        else:
            self.run(text)


def run_cases(volumes, folder):
    """Runs the lines of images.txt."""
    cases = Cases(dict(volumes), folder)
    for number, line in enumerate((HERE / 'volumes' / 'images.txt').read_text('ascii').splitlines(), 1):
        if line and not line.startswith('#'):
            try:
                cases.line(line)
            except Difference as difference:
                raise Difference(f'images.txt, line {number}, {cases.tests[-1]}: {difference}') from None
    return f'{cases.images} images in {len(cases.tests)} tests'


def heads():
    """The heads of heads.txt: name, bytes, and the lines that are told."""
    for part in (HERE / 'volumes' / 'heads.txt').read_text('ascii').split('\nhead ')[1:]:
        name, *lines = part.rstrip('\n').split('\n')
        image = bytearray(1536)
        for at, digits in (line.split(' ')[1:] for line in lines if line.startswith('at ')):
            content = bytes.fromhex(digits)
            image[int(at):int(at) + len(content)] = content
        yield name, bytes(image), [line for line in lines if not line.startswith('at ')]


def run_heads(folder):
    """What `info` prints of each head by its path and out of a pipe."""
    path, count = folder / 'head.img', 0
    for name, image, lines in heads():
        path.write_bytes(image)
        try:
            want_both_ways('info', path, [], 0 if len(lines) > 1 else 2, text_of(lines))
        except Difference as difference:
            raise Difference(f'the head {name}: {difference}') from None
        count += 1
    return f'{count} heads'


def changed_images(volumes):
    """TwoLevels with each byte of blocks 2 to 6 turned over once, and Folder cut at every 128
    bytes, down to three blocks."""
    image = volumes['TwoLevels']
    for at in range(2 * BLOCK, 7 * BLOCK):
        yield image[:at] + bytes([255 - image[at]]) + image[at + 1:]
    for cut in range(243):
        yield volumes['Folder'][:32767 - 128 * cut]


def is_checked_alike(path, image):
    """Whether `check` tells the same of an image by its path, of which it reads what it needs, and
    out of a pipe."""
    path.write_bytes(image)
    return told(['check', str(path)]) == told(['check', '/dev/stdin'], image)


def run_changed(volumes, folder):
    """Wants all changed images to be checked alike both ways, two at a time."""
    images = list(changed_images(volumes))

    def every_other(first):
        path = folder / f'changed-{first}.img'
        for number in range(first, len(images), 2):
            if not is_checked_alike(path, images[number]):
                raise Difference(f'changed image {number} is checked otherwise out of a pipe')

    with ThreadPoolExecutor(2) as pool:
        list(pool.map(every_other, [0, 1]))
    return f'{len(images)} changed images both ways'


def reading_calls():
    """Every call that viewers may make, for the IDs below 20, and for each name."""
    for folder in range(20):
        yield from (f'dirinfo\t{folder}', f'list\t{folder}')
        yield from (f'indexed\t{folder}\t{index}' for index in range(4))
        for name in NAMES:
            yield f'info\t{folder}\t{name}'
            yield from (f'read\t{folder}\t{name}\t{fork}\t{offset}\t65536' for fork in ('data', 'res') for offset in (0, 1234))


def replies_to(who, path, script, calls):
    """What a caller is answered to calls that read. An answer's first fields are who asked and the
    number of the call, and further lines begin with a tab."""
    script.write_text(''.join(f'{who}\t{call}\n' for call in calls), 'ascii')
    status, printed = told(['run', str(path), str(script)])
    if status != 0:
        raise Difference(f'run ends with {status}')
    return [reply.split('\t', 1)[1] for reply in ('\n' + printed.decode('latin-1')).split(f'\n{who}\t')[1:]]


def run_readers(volumes, folder):
    """Wants a viewer to be answered as a worker is by every call that reads."""
    path, script, calls, count = folder / 'read.img', folder / 'script', list(reading_calls()), 0
    for name, image in volumes.items():
        if image:
            path.write_bytes(image)
            answered = [replies_to(who, path, script, calls) for who in ('1', 'v1')]
            for call, reply, other in zip(calls, *answered, strict=True):
                if reply.rstrip('\n') != other.rstrip('\n'):
                    raise Difference(f'{call} of {name} is answered {reply!r} to a worker, and {other!r} to a viewer')
            count += len(calls)
    return f'{count} replies to viewers'


def main():
    if not Path(TOOL).is_file():
        print(f'{TOOL} is not built')
        return 1
    with tempfile.TemporaryDirectory() as name:
        folder = Path(name)
        volumes = {small: gzip.decompress((HERE / 'volumes' / 'small' / f'{file}.img.gz').read_bytes()) for small, file in SMALL.items()}
        try:
            want(['new', str(folder / 'new.img'), 'D', '64', '6', '2'], 0, b'')
            volumes |= {'New': (folder / 'new.img').read_bytes(), 'Nothing': b''}
            parts = [run_cases(volumes, folder), run_heads(folder), run_changed(volumes, folder), run_readers(volumes, folder)]
        except Difference as difference:
            print(difference)
            return 1
    print(', '.join(parts) + ': all as written')
    return 0


if __name__ == '__main__':
    sys.exit(main())
