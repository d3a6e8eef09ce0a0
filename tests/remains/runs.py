"""Runs of the program on an image, each compared with what the model says of the same bytes."""
import os
import shutil
import subprocess
from contextlib import contextmanager
from dataclasses import dataclass, field, replace
from pathlib import Path
from typing import Optional

from driver.programs import built, ended
from driver.wanted import Difference, ensure
from remains.bag import Remains, Rescued, Source, info_lines

HERE = Path(__file__).resolve().parents[1]
TOOL = str(built('hfs_tool'))
# Seconds from the clock of the Macintosh to that of Unix.
UNIX = 2_082_844_800
# How many seconds a run may take: far more than any does.
PATIENCE = float(os.environ.get('RESCUE_PATIENCE') or 60)
PIPE = '/dev/stdin'
# The most items and bytes of text for a block of an image.
MOST_ITEMS, MOST_TEXT = 6, 30_000


def told(*words, given: Optional[bytes] = None, cwd=None, errors: str = '') -> tuple[int, bytes]:
    """The status of the words, and what they print. A run that ends by a signal, runs on or writes anything else to standard error differs."""
    try:
        status, printed, said = ended(TOOL, words, given, PATIENCE, cwd=cwd)
    except subprocess.TimeoutExpired:
        raise Difference(f'{words} runs on') from None
    ensure(status >= 0, f'{words} ends by the signal {-status}')
    ensure(said == errors.encode(), f'{words} writes to standard error: {said[:300]!r}')
    return status, printed


def found_in(folder: Path) -> dict[str, Optional[bytes]]:
    """What lies in a folder: the bytes of files, and None for folders."""
    found: dict[str, Optional[bytes]] = {}
    for above, folders, files in os.walk(os.fsencode(folder)):
        inside = os.path.relpath(above, os.fsencode(folder))
        for name in folders + files:
            path = os.path.normpath(os.path.join(inside, name))
            full = os.path.join(above, name)
            ensure(not os.path.islink(full), f'{path!r} is a link')
            if name in folders:
                found[path.decode()] = None
            else:
                with open(full, 'rb') as file:
                    found[path.decode()] = file.read()
    return found


def first_difference(found: dict[str, Optional[bytes]], wanted: dict[str, Optional[bytes]]) -> str:
    """What differs between two folders, or '' where nothing does."""
    for path in sorted(found.keys() | wanted.keys()):
        if path not in found:
            return f'{path!r} is not there'
        if path not in wanted:
            return f'{path!r} is there'
        one, other = found[path], wanted[path]
        if one is None or other is None:
            if one is not other:
                return f'{path!r} is a {"folder" if one is None else "file"}'
        elif one != other:
            place = next((it for it, (left, right) in enumerate(zip(one, other)) if left != right), min(len(one), len(other)))
            return f'{path!r} has {one[place:place + 60]!r} at {place} in place of {other[place:place + 60]!r}, {len(one)} bytes of {len(other)}'
    return ''


@dataclass
class Counts:
    """What was run, and what came of it."""
    images: int = 0
    runs: int = 0
    bags: int = 0
    files: int = 0
    folders: int = 0
    bytes: int = 0
    damaged: int = 0
    refused: int = 0
    sound: int = 0
    changed: int = 0
    failed: int = 0
    # Of the images that claim much the one that took most of the time that it may take.
    slowest: tuple[float, str] = (0, '')
    skipped: list[str] = field(default_factory=list)

    def __str__(self) -> str:
        left_out = f'; left out: {", ".join(self.skipped)}' if self.skipped else ''
        slowest = f'; of those that claim much the slowest is {self.slowest[1]}' if self.slowest[1] else ''
        return (f'{self.images} images ({self.refused} without a directory), {self.runs} runs, {self.bags} bags of {self.files} files, {self.folders} folders '
                f'and {self.bytes} bytes, {self.damaged} files told damaged; {self.sound} sound images as take has them, {self.changed} images changed by chance, {self.failed} steps that failed'
                f'{slowest}{left_out}')


class Bench:
    """A folder in which images are tried, one at a time."""

    def __init__(self, folder: Path, kept: Optional[Path] = None):
        self.folder, self.counts = folder, Counts()
        self.number = 0
        # Where an image that differs is kept, if the next ones are to be tried then.
        self.kept, self.differences = kept, 0

    def told(self, *words, **how) -> tuple[int, bytes]:
        self.counts.runs += 1
        return told(*words, **how)

    def checked(self, image: Path, *volume) -> str:
        """What `check` prints of an image."""
        return self.told('check', image, *volume)[1].decode()

    def attempt(self, content: bytes, what: str, bags: str = 'fp', lists: str = 'fp', limit: Optional[int] = None, has_digest: bool = True) -> Rescued:
        """Wants of the program what the model tells of an image: its list, and its bag, each by its path (`f`), out of a pipe (`p`)
        or both. Gives what the model tells."""
        content = bytes(content)
        self.number += 1
        image = self.folder / f'image-{self.number}'
        image.write_bytes(content)
        source, remains = Source(self.checked(image), image.name, None, has_digest), Remains(content, limit)
        wanted = remains.rescued(source)
        self.ensure_bounds(content, wanted, what)
        with self.watching(image):
            self.compare(image, content, remains, source, bags, lists, [] if limit is None else ['--limit', limit], what)
        remove(self.folder / f'bag-{self.number}')
        image.unlink()
        self.counts.images += 1
        self.counts.refused += wanted.status == 2
        return wanted

    @contextmanager
    def watching(self, image: Path):
        """Tells of a difference and keeps the image, where the next ones are to be tried all the same."""
        try:
            yield
        except Difference as differs:
            if self.kept is None:
                raise
            self.differences += 1
            print(differs, flush=True)
            self.kept.mkdir(exist_ok=True)
            shutil.copy(image, self.kept)

    def compare(self, image: Path, content: bytes, remains: Remains, source: Source, bags: str, lists: str, words: list, what: str) -> None:
        before, wanted = image.stat(), remains.rescued(source)
        for way in lists:
            self.want_list(self.source(image, content, way), words, wanted, what)
        words = words + ([] if source.has_digest else ['--no-digest'])
        for way in bags:
            bag = self.folder / f'bag-{self.number}'
            self.want_bag(self.source(image, content, way), bag, words, wanted if way == 'f' else remains.rescued(replace(source, name='stdin')), what)
        after = image.stat()
        ensure(image.read_bytes() == content and (before.st_mtime_ns, before.st_ino) == (after.st_mtime_ns, after.st_ino), f'{what}: the image is changed')

    @staticmethod
    def source(image: Path, content: bytes, way: str) -> tuple:
        """The word for an image, and what is given to the run."""
        return (image, None) if way == 'f' else (PIPE, content)

    def keep(self, folder: Path) -> None:
        """Keeps the image that was tried last."""
        image = self.folder / f'image-{self.number}'
        if image.exists():
            folder.mkdir(exist_ok=True)
            shutil.copy(image, folder)

    def want_list(self, source: tuple, words: list, wanted: Rescued, what: str) -> None:
        found = self.told('rescue', source[0], '--list', *words, given=source[1])
        same_text(found, (wanted.status, wanted.listed.encode()), f'{what}, --list')

    def want_bag(self, source: tuple, bag: Path, words: list, wanted: Rescued, what: str) -> None:
        beside = set(self.folder.iterdir())
        found = self.told('rescue', source[0], bag, *words, given=source[1])
        same_text(found, (wanted.status, wanted.printed.encode()), what)
        ensure(set(self.folder.iterdir()) == beside | ({bag} if wanted.status != 2 else set()), f'{what}: something lies beside the bag, or no bag is there')
        if wanted.status != 2:
            self.compare_bag(bag, wanted, what)
            remove(bag)

    def compare_bag(self, bag: Path, wanted: Rescued, what: str) -> None:
        """The bag holds what is to be written and no more; files have their dates."""
        found = found_in(bag)
        difference = first_difference(found, {it.path: it.content for it in wanted.written})
        ensure(not difference, f'{what}: {difference}')
        for it in wanted.written:
            if it.content is not None:
                self.counts.files += 1
                self.counts.bytes += len(it.content)
                if it.modified >= UNIX:
                    seconds = int(os.stat(os.path.join(bag, it.path)).st_mtime)
                    ensure(seconds == it.modified - UNIX, f'{what}: the time of {it.path!r} is {seconds}')
        self.counts.bags += 1
        self.counts.folders += sum(it.content is None for it in wanted.written)
        self.counts.damaged += int(wanted.printed.rsplit(' ', 1)[1])

    def ensure_bounds(self, content: bytes, wanted: Rescued, what: str) -> None:
        """The model itself keeps to what is promised of any image: no path twice, in any case, and texts within their bounds."""
        blocks = max(1, len(content) // 512)
        paths = [it.path for it in wanted.written]
        ensure(len(paths) == len({fold(it) for it in paths}), f'{what}: two paths are one')
        ensure(all('..' not in it.split('/') and not it.startswith('/') and len(it.encode()) < 1_100 for it in paths), f'{what}: a path leads out')
        texts = sum(len(it.content) for it in wanted.written if it.content is not None and not it.path.startswith('data/'))
        ensure(texts <= MOST_TEXT * blocks, f'{what}: {texts} bytes of text for {blocks} blocks')
        ensure(wanted.lines.count('\n') <= MOST_ITEMS * blocks, f'{what}: {wanted.lines.count(chr(10))} items for {blocks} blocks')


def fold(path: str) -> str:
    """A path without the case of ASCII letters."""
    return ''.join(it.lower() if it.isascii() else it for it in path)


def remove(folder: Path) -> None:
    subprocess.run(['rm', '-rf', str(folder)], check=True)


def same_text(found: tuple[int, bytes], wanted: tuple[int, bytes], what: str) -> None:
    """The status and the lines are those that are wanted."""
    if found == wanted:
        return
    lines, wanted_lines = found[1].split(b'\n'), wanted[1].split(b'\n')
    for number, (one, other) in enumerate(zip(lines, wanted_lines), 1):
        ensure(one == other, f'{what}: ends with {found[0]} in place of {wanted[0]}, line {number}: {one[:300]!r} in place of {other[:300]!r}')
    raise Difference(f'{what}: ends with {found[0]} in place of {wanted[0]}, and prints {len(lines)} lines in place of {len(wanted_lines)}')


def ensure_info(content: bytes) -> None:
    """The fields of a directory are those that `info` prints of them."""
    status, text = told('info', PIPE, given=bytes(1024) + content)
    ensure((status, text) == (0, info_lines(content).encode()), f'info of a directory: {text!r}')
