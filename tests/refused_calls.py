#!/usr/bin/env python3
"""Refuses each allocation of hfs_tool in turn, counting upwards until a run meets no refusal, by a
library that comes before malloc (tests/refused_memory.sh makes it, and calls this). The calls of
volumes/refused.txt are run by an image's path, and from a pipe with a viewer next to them, who
reads what they read; then a script with two workers and a viewer, whose answers are known by hand;
new volumes, reports, lists, forks, repairs, volumes that are changed where they lie and that are extracted, and what is put, both ways, and made.

If the program reports a lack of memory, nothing else was printed, nothing was written, and no file
is left; otherwise it prints and writes what it does without a refusal; or a caller's lines from one
on are unanswered, and what is written is, byte for byte, what the worker's first calls leave. It
prints how many allocations were refused, or what was wrong.

python3 refused_calls.py TOOL LIBRARY
"""
import gzip
import os
import struct
import subprocess
import sys
import tempfile
from concurrent.futures import ProcessPoolExecutor
from dataclasses import dataclass
from pathlib import Path

from driver.wanted import Difference

VOLUMES = Path(__file__).resolve().parent / 'volumes'
NOW = 7
# Seconds from the clock of the Macintosh to that of Unix.
UNIX = 2_082_844_800
# The descriptor on which the library tells that it refused.
TOLD = 3
READING = ('dirinfo', 'info', 'indexed', 'list', 'read')
# A folder that is not there, for which a viewer asks, whatever the worker does.
ASKED = ('v1\tdirinfo\t99\n', ['-120'])
# Two workers and a viewer. The first worker makes a file and locks it, the second finds no file with an ID, and the viewer lists
# a folder that nobody changes.
SCRIPT = '1\tcreate\t2\ta\n1\tlock\t2\ta\n2\tresolve\t99\nv1\tlist\t16\n'
ANSWERS = ('1\t1\t0\tid 18\n1\t2\t0\t-\n2\t1\t-1300\t-\nv1\t1\t0\tlist 1\n'
           f'\tf 17 16 0 0 0 0 0 0 0 {"0" * 64} f\n')


@dataclass
class Counts:
    """How many allocations were refused, and how many runs answered a part."""
    refused: int = 0
    parts: int = 0

    def add(self, other):
        self.refused += other.refused
        self.parts += other.parts


@dataclass
class Ran:
    status: int
    printed: bytes
    errors: bytes
    written: bytes | None
    is_refused: bool

    @property
    def ending(self):
        return self.status, self.printed, self.errors, self.written


class Trial:
    """A folder with an image, and the program, of which an allocation may be refused."""

    def __init__(self, tool, library, folder):
        self.tool, self.library, self.folder = tool, library, Path(folder)
        self.file, self.counts = self.folder / 'file', Counts()

    def lay(self, name, content):
        path = self.folder / name
        path.write_bytes(content)
        return path

    def run(self, words, given=None, old=None, refuse=0):
        """A run of the words, with these bytes in FILE before it, where the allocation of that number is refused."""
        self.file.unlink(missing_ok=True)
        if old is not None:
            self.file.write_bytes(old)
        how = {'REFUSE': str(refuse), 'LD_PRELOAD': self.library} if refuse else {}
        fed = {'input': given} if given is not None else {'stdin': subprocess.DEVNULL}
        os.ftruncate(TOLD, 0)
        ran = subprocess.run([self.tool, *map(str, words)], stdout=subprocess.PIPE, stderr=subprocess.PIPE, timeout=600, pass_fds=[TOLD],
                             env={'PATH': os.defpath, **how}, **fed)
        written = self.file.read_bytes() if self.file.exists() else None
        beside = [it for it in os.listdir(self.folder) if it.startswith('file.')]
        if beside:
            raise Difference(f'{words}, allocation {refuse}: {beside} is left')
        return Ran(ran.returncode, ran.stdout, ran.stderr, written, os.fstat(TOLD).st_size > 0)

    def is_told(self, ran, old):
        """Whether want of memory is told, also for the words, for the name of a file beside FILE and for the list of a folder, and nothing was done."""
        told = [(5, b'out of memory\n'), (4, f'cannot write {self.file}\n'.encode()), (1, b'the words are not text\n'),
                *((4, f'cannot read {self.folder / it}\n'.encode()) for it in ('tree', 'bag', 'bag/data'))]
        return (ran.status, ran.printed) in told and not ran.errors and ran.written == old

    def refuse_each(self, words, wanted, given=None, old=None, is_part=lambda ran: False):
        """Refuses each allocation of a run that ends as wanted where none is."""
        refuse = 0
        while True:
            refuse += 1
            ran = self.run(words, given, old, refuse)
            if ran.ending != wanted and not self.is_told(ran, old):
                if not is_part(ran):
                    raise Difference(f'{words}, allocation {refuse}: {ran.status}, prints {ran.printed[:300]!r}, tells {ran.errors[:300]!r}')
                self.counts.parts += 1
            if not ran.is_refused:
                break
        if ran.ending != wanted:
            raise Difference(f'{words} without a refusal: {ran.status}, prints {ran.printed[:300]!r}')
        self.counts.refused += refuse - 1


def small(name):
    return gzip.decompress((VOLUMES / 'small' / f'{name}.img.gz').read_bytes())


def named(trial, name):
    """The image of a small volume by its name."""
    if name == 'new':
        if trial.run(['new', trial.file, 'D', 64, 12, 2]).status != 0:
            raise Difference('no new volume')
        return trial.file.read_bytes()
    if name != 'full':
        return small(name)
    image = bytearray(small('folder'))
    image[6 * 512 + 40:6 * 512 + 44], image[6 * 512 + 248] = bytes(4), 0xfc
    return bytes(image)


def answers_of(text):
    """The answers by caller, each with its further lines."""
    found = {}
    for line in text.decode('latin-1').split('\n')[:-1]:
        if line.startswith('\t'):
            found[who][-1] += '\n' + line
        else:
            who = line.split('\t')[0]
            found.setdefault(who, []).append(line)
    return found


def answered(found, wanted):
    """How many of a caller's lines are answered, and as wanted; none where others are not unanswered."""
    count = next((at for at, line in enumerate(found) if line.endswith('\tnone\t-')), len(found))
    behind = ['\t'.join((*line.split('\t')[:2], 'none', '-')) for line in wanted[count:]]
    return count if found == wanted[:count] + behind else None


def part_of(wanted, files):
    """Whether each caller's lines are answered up to one, and the file is what so many calls of the first worker leave."""
    callers = answers_of(wanted)

    def is_part(ran):
        found = answers_of(ran.printed)
        if ran.status != 5 or ran.errors or found.keys() != callers.keys():
            return False
        counts = {who: answered(found[who], callers[who]) for who in callers}
        is_whole = all(counts[who] == len(callers[who]) for who in callers)
        return None not in counts.values() and not is_whole and ran.written == files[counts.get('1', 0)]

    return is_part


def files_behind(trial, image, lines):
    """What is written behind no call, behind the first, and so on."""
    files = []
    for count in range(len(lines) + 1):
        ran = trial.run(['run', image, trial.lay('script', ''.join(lines[:count]).encode('latin-1')), '--now', NOW, '--out', trial.file])
        files.append(ran.written)
    return files


def run_calls(trial, line):
    """The calls of a line, by the image's path, and out of a pipe with a viewer beside them."""
    _title, volume, *calls = line.split(';')
    content = named(trial, volume)
    image = trial.lay('image', content)
    codes, texts = zip(*(call.split(' ', 1) for call in calls))
    lines, reading = [f'1\t{text}\n' for text in texts], texts[0].split('\t')[0] in READING
    files = files_behind(trial, image, lines)
    viewed = (''.join(f'v1\t{text}\n' for text in texts), list(codes)) if reading else ASKED
    for given, source, (beside, more) in ((None, image, ('', [])), (content, '/dev/stdin', viewed)):
        words = ['run', source, trial.lay('script', (''.join(lines) + beside).encode('latin-1')), '--now', NOW, '--out', trial.file]
        whole = trial.run(words, given)
        found = [answer.split('\t')[2] for who in answers_of(whole.printed).values() for answer in who]
        if found != [*codes, *more] or whole.written != files[-1]:
            raise Difference(f'{line}: the codes {found}')
        wanted = (0, whole.printed, b'', files[-1])
        trial.refuse_each(words, wanted, given, b'old\n', part_of(whole.printed, files))


def run_script(trial, _line):
    """Two workers and a viewer."""
    content = small('folder')
    image, wanted = trial.lay('image', content), ANSWERS.encode()
    files = files_behind(trial, image, SCRIPT.splitlines(True)[:2])
    for given, source in ((None, image), (content, '/dev/stdin')):
        words = ['run', source, trial.lay('script', SCRIPT.encode()), '--now', NOW, '--out', trial.file]
        trial.refuse_each(words, (0, wanted, b'', files[2]), given, b'old\n', part_of(wanted, files))


def read_forks(trial, _line):
    """Calls that read forks between others that move their file, with a viewer beside them."""
    content = (VOLUMES / 'hfsutils-800k.img').read_bytes()
    lines = ['1\tcreate\t2\tNew\n', '1\tread\t17\ts3\tdata\t0\t1500\n', '1\trename\t17\ts3\tOther\n', '1\tread\t17\tOther\tdata\t5\t1500\n']
    image = trial.lay('image', content)
    files = files_behind(trial, image, lines)
    words = ['run', image, trial.lay('script', ''.join([*lines, 'v1\tread\t19\tm2\tdata\t0\t30000\n']).encode()), '--now', NOW, '--out', trial.file]
    whole = trial.run(words)
    trial.refuse_each(words, (0, whole.printed, b'', files[4]), None, b'old\n', part_of(whole.printed, files))


def tell(trial, _line):
    """New volumes, reports, lists and forks, both ways."""
    content = small('one-file')
    image = trial.lay('image', content)
    fork = bytes(k % 251 for k in range(2000))
    new = named(trial, 'new')
    trial.refuse_each(['new', trial.file, 'D', 64, 12, 2], (0, b'', b'', new), None, b'old\n')
    report = b'sound\nfiles 1\nfolders 0\nfree 46\nalternate same\nunowned 0\n'
    for given, source in ((None, image), (content, '/dev/stdin')):
        trial.refuse_each(['check', source], (0, report, b'', None), given)
        trial.refuse_each(['ls', source], (0, b'f\t16\t2000\t0\tf\n', b'', None), given)
        trial.refuse_each(['cat', source, 2, 'f'], (0, fork, b'', None), given)


def repair(trial, _line):
    """An image whose count of files is wrong, and one with another fault beside that, both ways."""
    content = (VOLUMES / 'hfsutils-800k.img').read_bytes()
    count = int.from_bytes(content[1108:1112], 'big')
    wrong = content[:1108] + (count + 1).to_bytes(4, 'big') + content[1112:]
    image = trial.lay('image', wrong)
    for given, source in ((None, image), (wrong, '/dev/stdin')):
        fixed = f'fixed drFilCnt {count + 1} {count}\nsound\n'.encode()
        trial.refuse_each(['repair', source, trial.file], (0, fixed, b'', content), given, b'old\n')
    # a thread that has another name
    refused = bytearray(small('folder'))
    refused[7 * 512 + 26:7 * 512 + 28], refused[7 * 512 + 115] = b'\0\3', ord('E')
    image = trial.lay('image', bytes(refused))
    for given, source in ((None, image), (bytes(refused), '/dev/stdin')):
        trial.refuse_each(['repair', source, trial.file], (2, b'refused check C8 at 1\n', b'', b'old\n'), given, b'old\n')


def in_map(content):
    """A disk with a map of one partition, which holds this."""
    return (bytes(512) + b'PM\0\0' + struct.pack('>III', 1, 2, len(content) // 512) + bytes(32) + b'Apple_HFS').ljust(1024, b'\0') + content


def inside(trial, _line):
    """A volume in a map that is repaired where it lies, and one on which a script is run, both ways; and no volume of that number."""
    content = (VOLUMES / 'hfsutils-800k.img').read_bytes()
    count = int.from_bytes(content[1108:1112], 'big')
    wrong = in_map(content[:1108] + (count + 1).to_bytes(4, 'big') + content[1112:]) + b'behind'
    image = trial.lay('wrong', wrong)
    fixed = (0, f'fixed drFilCnt {count + 1} {count}\nsound\n'.encode(), b'', in_map(content) + b'behind')
    for given, source in ((None, image), (wrong, '/dev/stdin')):
        trial.refuse_each(['repair', source, trial.file, '--volume', 1], fixed, given, b'old\n')
        trial.refuse_each(['repair', source, trial.file, '--volume', 2], (2, b'no volume 2\n', b'', b'old\n'), given, b'old\n')
    content = small('folder')
    files = [in_map(file) for file in files_behind(trial, trial.lay('alone', content), SCRIPT.splitlines(True)[:2])]
    image, wanted = trial.lay('image', in_map(content)), ANSWERS.encode()
    for given, source in ((None, image), (in_map(content), '/dev/stdin')):
        words = ['run', source, trial.lay('script', SCRIPT.encode()), '--now', NOW, '--out', trial.file, '--volume', 1]
        trial.refuse_each(words, (0, wanted, b'', files[2]), given, b'old\n', part_of(wanted, files))


def extract(trial, _line):
    """The only volume in a map, a bare one out of a pipe, and a name that is taken."""
    content = small('one-file')
    image = trial.lay('image', in_map(content))
    wanted = (0, f'extracted\nbytes {len(content)}\n'.encode(), b'', content)
    trial.refuse_each(['extract', image, trial.file], wanted)
    trial.refuse_each(['extract', '/dev/stdin', trial.file], wanted, content)
    trial.refuse_each(['extract', image, trial.file], (4, f'{trial.file} is there already\n'.encode(), b'', b'old\n'), None, b'old\n')


def lay_tree(trial):
    """A folder with a file of both forks."""
    tree = trial.folder / 'tree'
    head = bytes.fromhex('000516070002000000000000000000000000000000000000000200000009000000320000002000000002000000520000000354455854') + bytes(28)
    tree.mkdir()
    for path, what in ((tree / 'g', b'x' * 600), (tree / '._g', head + b'RES')):
        path.write_bytes(what)
    for path in (tree / 'g', tree):
        os.utime(path, (0, 0))
    return tree


def put(trial, _line):
    """A folder with a file of both forks that is put on a volume, both ways, as the calls of a script make it; and one that can't be put."""
    content, tree = named(trial, 'new'), lay_tree(trial)
    facts = f'{UNIX}\t{UNIX}\t0'
    lines = ['1\tmkdir\t2\ttree\n', '1\tcreate\t16\tg\n', f'1\twrite\t16\tg\tdata\t0\t{"78" * 600}\n', '1\twrite\t16\tg\tres\t0\t524553\n',
             f'1\tsetinfo\t16\tg\t{facts}\t54455854{"00" * 28}\n', f'1\tsetinfo\t2\ttree\t{facts}\t{"00" * 32}\n']
    image = trial.lay('image', content)
    saved = files_behind(trial, image, lines)[-1]
    free = int.from_bytes(saved[1058:1060], 'big')
    wanted = (0, f'put\nfiles 1\nfolders 1\nbytes 603\nfree {free}\n'.encode(), b'', saved)
    for given, source in ((None, image), (content, '/dev/stdin')):
        trial.refuse_each(['put', source, tree, '--now', NOW, '--out', trial.file], wanted, given, b'old\n')
    (tree / 'x:y').touch()
    trial.refuse_each(['put', image, tree, '--out', trial.file], (3, f'cannot put {tree}/x:y: name\n'.encode(), b'', b'old\n'), None, b'old\n')


def make(trial, _line):
    """A volume of a folder with a file of both forks, as `new` and the calls of a script make it; a bag that tells its name; and what can't be put."""
    tree, facts = lay_tree(trial), f'{UNIX}\t{UNIX}\t0'
    # the catalog of 5 nodes suffices; 6 blocks are around it and 8 nodes, and the forks have 3
    image = trial.lay('image', trial.run(['new', trial.file, 'tree', 222, 5, 8, '--now', NOW]).written)
    lines = ['1\tcreate\t2\tg\n', f'1\twrite\t2\tg\tdata\t0\t{"78" * 600}\n', '1\twrite\t2\tg\tres\t0\t524553\n', f'1\tsetinfo\t2\tg\t{facts}\t54455854{"00" * 28}\n']
    saved = files_behind(trial, image, lines)[-1]
    told = b'made\nfiles 1\nfolders 0\nbytes 603\nfree 200\n'
    trial.refuse_each(['make', trial.file, tree, '--now', NOW], (0, told, b'', saved), None, b'old\n')
    bag = trial.folder / 'bag'
    bag.mkdir()
    tree.rename(bag / 'data')
    for name, text in (('bagit.txt', ''), ('bag-info.txt', 'External-Identifier: tree\n')):
        (bag / name).write_text(text)
    trial.refuse_each(['make', trial.file, bag, '--now', NOW], (0, told, b'', saved), None, b'old\n')
    (bag / 'data' / 'x:y').touch()
    trial.refuse_each(['make', trial.file, bag], (3, f'cannot put {bag}/data/x:y: name\n'.encode(), b'', b'old\n'), None, b'old\n')
    trial.refuse_each(['make', trial.file, bag, '--rename', '--size', '1'], (2, b'bad size\n', b'', b'old\n'), None, b'old\n')


def attempt(job):
    """What is counted of one trial, in a folder of its own."""
    tool, library, part, line = job
    with tempfile.TemporaryDirectory() as folder, tempfile.TemporaryFile(buffering=0) as told:
        os.dup2(told.fileno(), TOLD)
        trial = Trial(tool, library, folder)
        part(trial, line)
        return trial.counts


def main(tool, library):
    lines = [it for it in (VOLUMES / 'refused.txt').read_text().splitlines() if not it.startswith('#')]
    jobs = [(tool, library, run_calls, line) for line in lines] + [(tool, library, part, '') for part in (run_script, read_forks, tell, repair, inside, extract, put, make)]
    counts = Counts()
    # the descriptor is taken before the pool takes any
    os.dup2(os.open(os.devnull, os.O_RDWR), TOLD)
    try:
        with ProcessPoolExecutor(min(4, os.cpu_count() or 1)) as pool:
            for found in pool.map(attempt, jobs):
                counts.add(found)
    except Difference as differs:
        sys.exit(f'refused calls: {differs}')
    print(f'{counts.refused} allocations of hfs_tool refused in turn: {counts.parts} runs answered a part, the others all or none')


if __name__ == '__main__':
    if len(sys.argv) != 3:
        sys.exit(__doc__)
    main(*sys.argv[1:])
