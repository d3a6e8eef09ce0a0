#!/usr/bin/env python3
"""Runs the lists of calls of tests/volumes/lists, whose answers and bytes were written by hand. Each is made twice on its volume:
with as few runs of the programs as it allows, and with the image saved, checked and mounted again after each call; by hfs_tool as
each compiler builds it, and by hfs_plain. The calls that read after the last change are asked by a viewer too. At the end it prints
how many there were, or the first that differs.

tests/call_lists.py [--kept FOLDER] [FILE..]      runs all files, or these; what differs is kept in FOLDER

A line begins with a word, and an empty line says nothing:

    # TEXT                       what is tried
    volume BLOCKS NODES [MORE]   begins a list, on a new volume D with so many blocks and catalog nodes, and two extents nodes, or so many
    volume NAME                  the same, on the volume of tests/volumes/small
    lay BLOCK PLACE DIGITS       lays bytes into the image, from that place of the block on
    longer                       lays the bytes 0 to 99 after the image
    now MOMENT                   the moment of the calls that follow; at first it is 0
    call WORD FIELDS             a call, as a script has it
    gives TEXT                   a line of its answer: the code and the value, or what the following lines have
    changed COUNT                so many blocks differ from the image before the calls
    blocks NUMBER..              the blocks of these numbers differ from the image before the calls, and no others
    check TEXT                   what `check` prints, with a bar and spaces between its lines
    bytes PLACE DIGITS           the image's bytes from that place on
    kept PLACE OLD COUNT         so many bytes are those that were at OLD before the calls
    expect BLOCK PLACE DIGITS    as lay, for the expected image
    exact                        the image is the expected one
"""
import argparse
import gzip
import sys
import time
from dataclasses import dataclass, field
from pathlib import Path
from typing import Optional

from driver.calls import Call, read_answers, script_of
from driver.disk import Bench, Disk, finished, opened_bench
from driver.image import BLOCK, MDB, changed_blocks
from driver.programs import ROOT, found_programs
from driver.wanted import Difference, ensure

VOLUMES = ROOT / 'tests' / 'volumes'
FILE_COUNT = MDB + 84
# The calls that a viewer answers.
VIEWED = ('dirinfo', 'info', 'indexed', 'list', 'read')


@dataclass
class Expected:
    """A call, and the lines of its answer."""
    call: Call
    lines: list[str] = field(default_factory=list)


def laid(content: bytes, at: int, digits: str) -> bytes:
    """An image with these bytes from a place on."""
    put = bytes.fromhex(digits)
    ensure(at + len(put) <= len(content), 'the bytes lie outside the image')
    return content[:at] + put + content[at + len(put):]


def small_volume(name: str) -> bytes:
    return gzip.decompress((VOLUMES / 'small' / f'{name}.img.gz').read_bytes())


class CallList:
    """A list: its image before the calls, the image that is wanted, and the volumes on which the calls are made."""

    def __init__(self, bench: Bench, words: list[str]):
        self.bench, self.now = bench, 0
        self.waiting: list[Expected] = []
        self.lay(bench.new_volume(*map(int, words)) if len(words) > 1 else small_volume(words[0]))

    def lay(self, content: bytes) -> None:
        """Takes another image as the one on which further calls are made."""
        self.content = self.before = self.wanted = content
        self.once: Optional[Disk] = None
        self.again: Optional[Disk] = None

    def open(self) -> None:
        """Mounts the image twice, once after its count of files was made one too high and mended."""
        if self.once is None:
            self.once = Disk(self.bench, self.content)
            self.again = Disk(self.bench, self.mended())

    def mended(self) -> bytes:
        """The image with its count of files one too high, as repair mends it: byte for byte what it was."""
        count = int.from_bytes(self.content[FILE_COUNT:FILE_COUNT + 4], 'big')
        wrong = self.bench.lay('miscounted', laid(self.content, FILE_COUNT, f'{count + 1:08x}'))
        for program in self.bench.programs.tools:
            text = self.bench.text(program, 'repair', wrong, self.bench.folder / 'mended')
            ensure(text == f'fixed drFilCnt {count + 1} {count}\nsound\n', f'repair prints {text!r}')
            ensure((self.bench.folder / 'mended').read_bytes() == self.content, 'mended the image has other bytes')
        return self.content

    def flush(self) -> None:
        """Makes the calls that wait, and looks at their answers and images."""
        if not self.waiting:
            return
        self.open()
        calls = [it.call for it in self.waiting]
        answers = self.once.make(calls, self.now)
        for expected, answer in zip(self.waiting, answers):
            wanted = '\n'.join(expected.lines)
            ensure(answer.told == wanted, f'{expected.call} is answered {answer.told!r}, wanted {wanted!r}')
        again = self.make_again(calls)
        ensure(again == [it.told for it in answers], 'saved and mounted again the volume answers otherwise')
        ensure(self.once.image.content == self.again.image.content, 'saved and mounted again the volume has other bytes')
        self.content = self.once.image.content
        self.ask_viewer()
        self.waiting = []

    def make_again(self, calls: list[Call]) -> list[str]:
        """Makes calls on the volume that is saved, checked and mounted again behind each of them."""
        return [it.told for it in self.again.make_in_parts(calls, 1, self.now)]

    def ask_viewer(self) -> None:
        """A viewer of the saved image answers the calls that read behind the last change as they were answered."""
        behind = max((at for at, it in enumerate(self.waiting, 1) if not it.call.is_reading), default=0)
        asked = [it for it in self.waiting[behind:] if it.call.word in VIEWED]
        if not asked:
            return
        image, script = self.bench.lay('viewed', self.content), self.bench.lay('viewing', script_of((it.call for it in asked), 'v1'))
        for program in self.bench.programs.tools:
            answers = read_answers(self.bench.text(program, 'run', image, script))
            ensure([it.told for it in answers] == ['\n'.join(it.lines) for it in asked], 'a viewer is answered otherwise')

    def take(self, word: str, rest: str) -> None:
        """Does what a line says."""
        if word == 'call':
            name, *fields = rest.split('\t')
            self.waiting.append(Expected(Call(name, tuple(fields))))
        elif word == 'gives':
            self.waiting[-1].lines.append(rest)
        elif word == 'expect':
            block, place, digits = rest.split(' ')
            self.wanted = laid(self.wanted, int(block) * BLOCK + int(place), digits)
        else:
            self.flush()
            self.take_behind_calls(word, rest.split(' '))

    def take_behind_calls(self, word: str, words: list[str]) -> None:
        """Does what a line says once the calls before it are made."""
        if word == 'now':
            self.now = int(words[0])
        elif word == 'lay':
            self.lay(laid(self.content, int(words[0]) * BLOCK + int(words[1]), words[2]))
        elif word == 'longer':
            self.lay(self.content + bytes(range(100)))
        else:
            self.compare(word, words)

    def compare(self, word: str, words: list[str]) -> None:
        """A difference where the image isn't what a line says."""
        content = self.content
        if word == 'changed':
            count = len(changed_blocks(self.before, content))
            ensure(count == int(words[0]), f'{count} blocks are changed')
        elif word == 'blocks':
            numbers = sorted(changed_blocks(self.before, content))
            ensure(numbers == list(map(int, words)), f'the blocks {numbers} are changed')
        elif word == 'check':
            image = self.bench.lay('checked', content)
            lines = ' '.join(words).split(' | ')
            for program in self.bench.programs.tools:
                text = self.bench.text(program, 'check', image)
                ensure(text == ''.join(line + '\n' for line in lines), f'check prints {text!r}')
        elif word == 'bytes':
            wanted = bytes.fromhex(words[1])
            found = content[int(words[0]):][:len(wanted)]
            ensure(found == wanted, f'the image has {found.hex()}')
        elif word == 'kept':
            at, old, count = map(int, words)
            ensure(content[at:at + count] == self.before[old:old + count], 'the image has other bytes')
        elif word == 'exact':
            ensure(content == self.wanted, f'the blocks {changed_blocks(content, self.wanted)} differ')
        else:
            raise SystemExit(f'no such word: {word}')


def run_file(bench: Bench, path: Path) -> str:
    """Runs the lists of a file. Tells how many there are."""
    lists, calls, current = 0, 0, None
    for number, line in enumerate(path.read_text(encoding='latin-1').split('\n'), 1):
        word, _, rest = line.partition(' ')
        if word in ('', '#'):
            continue
        try:
            if word == 'volume':
                if current:
                    current.flush()
                current, lists = CallList(bench, rest.split(' ')), lists + 1
            else:
                current.take(word, rest)
        except Difference as difference:
            raise Difference(f'{path.name} line {number}: {difference}') from None
        calls += word == 'call'
    current.flush()
    bench.counts.lists += lists
    return f'{path.name}: {lists} lists, {calls} calls, answered as expected'


def main() -> None:
    words = argparse.ArgumentParser(description='Runs the lists of calls that were written by hand.')
    words.add_argument('files', nargs='*', type=Path, help='files of lists, in place of those of tests/volumes/lists')
    words.add_argument('--kept', type=Path, default=Path('call_lists.kept'), help='where the files of what differs are kept')
    given = words.parse_args()
    started = time.monotonic()
    with opened_bench(found_programs(), given.kept) as bench:
        for path in given.files or sorted((VOLUMES / 'lists').glob('*.txt')):
            print(run_file(bench, path), flush=True)
        finished('lists by hand', bench, started)


if __name__ == '__main__':
    sys.exit(main())
