#!/usr/bin/env python3
"""What is printed of five volumes that other programs made, compared with what those programs print.

tests/real_volumes.py [--kept FOLDER]

tests/volumes has the images, and of the three that are sound the lists that libhfs made of them: a
line for each item, folder by folder from the root on. It is `d` for a folder, `f` for a file or `F`
for a locked one, the ID, the parent, the valence or the length of the data fork, the length of the
resource fork, the check sums of both forks, type and creator, the moments of creation, change and
backup in Unix time, and the name, with tabs between. A folder has `-` for what only a file has, and
a backslash in a name is written as its code.

What is compared: the report of `check`; the bytes of each record and of each fork, read here by the
layout of the format, with the lists; the answer to each call that reads, of each ID and each item,
forks piece by piece to their ends, by each build of hfs_tool, by its viewers (whose answers are made
of rows) and by hfs_plain, with those bytes; the lines of `ls` for each folder and the bytes of `cat`
for each fork. It prints how many of each there were. At a difference it ends with 1 and
leaves the image and the script of it.
"""
import argparse
from dataclasses import dataclass, field
from pathlib import Path

from catalog_records import Catalog, Record
from driver.calls import read_answers, script_of
from driver.disk import Bench, opened_bench
from driver.programs import REAL_VOLUMES, Program, found_programs
from driver.wanted import ensure
from told import first_difference, name_of, questions

# Seconds from the clock of the Macintosh to that of Unix.
UNIX = 2_082_844_800
# The offset basis with which libhfs's lists were made.
BASIS, PRIME = 0x14650FB0739D0383, 0x100000001B3
VIEWERS = ('v1', 'v2')


def image_of(name: str) -> Path:
    return REAL_VOLUMES / f'{name}.img'


@dataclass(frozen=True)
class Known:
    """What hfsutils and libhfs show of a volume, and the depth of its catalog with its free
    nodes."""
    name: str
    files: int
    folders: int
    free: int
    alternate: str
    unowned: int
    depth: int
    free_nodes: int

    @property
    def report(self) -> str:
        return (f'sound\nfiles {self.files}\nfolders {self.folders}\nfree {self.free}\nalternate {self.alternate}\n'
                f'unowned {self.unowned}\n')


SOUND = [Known('hfsutils-800k', 7, 4, 1499, 'same', 0, 2, 6),
         Known('hfsutils-1440k-names', 195, 113, 2698, 'same', 0, 4, 12),
         Known('genisoimage-locked', 51, 3, 0, 'missing', 278, 3, 62)]
# The volumes with a name that is refused, with the place of the first record that has one.
REFUSED = {'refused-macroman': 2, 'refused-icon': 4}


@dataclass
class Counts:
    reports: int = 0
    items: int = 0
    forks: int = 0
    fork_bytes: int = 0
    answers: int = 0
    lists: int = 0


@dataclass(frozen=True)
class Listed:
    """A line of a list that libhfs made."""
    kind: str
    id: int
    parent: int
    counts: tuple[str, ...]
    sums: tuple[str, ...]
    type_and_creator: str
    moments: tuple[int, ...]
    name: str

    @classmethod
    def of(cls, line: str) -> 'Listed':
        kind, number, parent, first, second, data, resource, types, *moments, name = line.split('\t')
        return cls(kind, int(number), int(parent), (first, second), (data, resource), types, tuple(map(int, moments)),
                   name.replace('\\5c', '\\'))

    @property
    def ls_line(self) -> str:
        """The line of `ls`."""
        first, second = self.counts
        return f"{self.kind.lower()}\t{self.id}\t{first}\t{second if self.kind != 'd' else 0}\t{self.name}\n"


def sum_of(content: bytes) -> str:
    """The check sum of a fork in the lists: FNV-1a with 64 bits."""
    found = BASIS
    for byte in content:
        found = (found ^ byte) * PRIME & 0xFFFF_FFFF_FFFF_FFFF
    return f'{found:016x}'


def listed_of(catalog: Catalog, item: Record) -> Listed:
    """The line that the bytes of an item's record and of its forks make."""
    moments = tuple(it - UNIX for it in item.dates)
    if item.is_folder:
        return Listed('d', item.id, item.parent, (str(item.valence), '-'), ('-', '-'), '-', moments, name_of(item))
    data, resource = catalog.forks(item)
    types = f'{item.finder[:4].hex()}/{item.finder[4:8].hex()}'
    kind = 'F' if item.is_locked else 'f'
    return Listed(kind, item.id, item.parent, tuple(map(str, item.lengths)), (sum_of(data), sum_of(resource)), types, moments, name_of(item))


@dataclass
class Comparison:
    """The programs on a bench, and what was compared."""
    bench: Bench
    counts: Counts = field(default_factory=Counts)

    @property
    def tools(self) -> tuple[Program, ...]:
        return self.bench.programs.tools

    def reports(self, name: str, text: str, status: int) -> None:
        """Wants of `check` this text and status, by each build."""
        for tool in self.tools:
            told = tool.run('check', image_of(name))
            ensure((told.status, told.text) == (status, text), f'{tool.name} check {name}: {told}')
            self.counts.reports += 1

    def list_of(self, name: str, catalog: Catalog) -> list[Listed]:
        """The list that libhfs made of a volume, with which the bytes of its records agree."""
        listed = [Listed.of(it) for it in (REAL_VOLUMES / f'{name}.list').read_text(encoding='ascii').splitlines()]
        walked = catalog.walked()
        ensure(len(listed) == len(walked), f'{name} has {len(walked)} items, and its list {len(listed)}')
        for line, item in zip(listed, walked):
            found = listed_of(catalog, item)
            ensure(found == line, f'{name}: the bytes tell {found}, and the list {line}')
        self.counts.items += len(walked)
        return listed

    def answers(self, name: str, catalog: Catalog) -> None:
        """Each call that reads, by a worker and by viewers of each build, and by the
        definitions."""
        asked = questions(catalog)
        viewed = [(call, told) for call, told in asked if call.word != 'resolve']
        calls, viewer_calls = ([call for call, _ in it] for it in (asked, viewed))
        script = self.bench.lay('script', script_of(calls) + ''.join(script_of(viewer_calls, it) for it in VIEWERS))
        wanted = asked + viewed * len(VIEWERS)
        for tool in self.tools:
            told = [it.told for it in read_answers(self.bench.text(tool, 'run', image_of(name), script))]
            self.compare(tool, name, wanted, told)
        plain = self.bench.plain(image_of(name), self.bench.lay('plain_script', script_of(calls)), 0)[0]
        self.compare(self.bench.programs.plain, name, asked, [it.told for it in plain])

    def compare(self, program: Program, name: str, asked: list, told: list[str]) -> None:
        ensure(len(asked) == len(told), f'{program.name} gives {len(told)} answers to {len(asked)} calls on {name}')
        what = first_difference(asked, told)
        ensure(not what, f'{program.name} on {name}: {what}')
        self.counts.answers += len(told)

    def words(self, name: str, catalog: Catalog, listed: list[Listed]) -> None:
        """The lines of `ls` for each folder, and the bytes of `cat` for each fork."""
        for folder in (2, *(it.id for it in listed if it.kind == 'd')):
            wanted = ''.join(it.ls_line for it in listed if it.parent == folder)
            for tool in self.tools:
                ensure(tool.text('ls', image_of(name), folder) == wanted, f'{tool.name} ls {name} {folder}')
                self.counts.lists += 1
        for file in catalog.files:
            for option, content in zip(((), ('--resource', )), catalog.forks(file)):
                found = self.bench.programs.tool.text('cat', *option, '--', image_of(name), file.parent, name_of(file))
                ensure(found == content.decode('latin-1'), f'cat of {name}: {file.parent} {name_of(file)} {option}')
                self.counts.forks += 1
                self.counts.fork_bytes += len(content)

    def volume(self, known: Known) -> None:
        """Compares all of a sound volume."""
        content = image_of(known.name).read_bytes()
        self.bench.lay('image', content)
        catalog = Catalog(content)
        self.reports(known.name, known.report, 0)
        room = catalog.image.catalog.room
        ensure((room.depth, room.free) == (known.depth, known.free_nodes), f'the catalog of {known.name} has {room}')
        listed = self.list_of(known.name, catalog)
        self.answers(known.name, catalog)
        self.words(known.name, catalog, listed)
        ensure(image_of(known.name).read_bytes() == content, f'{known.name} was written')

    def all(self) -> None:
        for name, place in REFUSED.items():
            self.reports(name, f'refused check C7 at {place}\n', 2)
        for known in SOUND:
            self.volume(known)


def main() -> None:
    parser = argparse.ArgumentParser(description=__doc__.split('\n')[0])
    parser.add_argument('--kept', type=Path, default=Path('real_volumes.kept'), help='the folder in which the files of a difference are left')
    words = parser.parse_args()
    with opened_bench(found_programs(), words.kept) as bench:
        comparison = Comparison(bench)
        comparison.all()
    counts = comparison.counts
    print(f'real volumes agree: {counts.reports} reports, {counts.items} items as libhfs lists them, {counts.answers} answers, '
          f'{counts.lists} listings, {counts.forks} forks of {counts.fork_bytes} bytes')


if __name__ == '__main__':
    main()
