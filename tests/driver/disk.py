"""Lists of calls on a volume's image: made by hfs_tool as each compiler builds it and by hfs_plain, whose answers and volumes are
compared, with all that was saved looked at."""
import shutil
import tempfile
import time
from contextlib import contextmanager
from dataclasses import dataclass
from pathlib import Path
from typing import Iterator, Optional, Sequence

from driver.calls import Answer, Call, Room, read_answers, script_of
from driver.image import Image
from driver.keeping import ensure_kept
from driver.programs import Program, Programs
from driver.wanted import Difference, ensure

# The calls that may give nodes back when they are done. All others leave as many free nodes or fewer, and as many levels or more.
GIVES_NODES = ('delete', 'dropid', 'move', 'rename')


@dataclass(frozen=True)
class State:
    """A volume as hfs_plain prints it: a line for the volume, and a line for each item, in the order of IDs."""
    volume: str
    items: tuple[str, ...]

    @property
    def next_id(self) -> int:
        return int(self.volume.split()[1])

    @property
    def text(self) -> str:
        return '\n'.join((self.volume, *self.items))

    def count(self, kind: str) -> int:
        return sum(it.split('\t', 3)[2] == kind for it in self.items)


def read_plain(text: str) -> tuple[list[Answer], State]:
    """The answers and the volume that hfs_plain prints."""
    lines = text.split('\n')[:-1]
    at = next((it for it, line in enumerate(lines) if line.startswith('volume')), None)
    if at is None:
        raise Difference('hfs_plain prints no volume')
    return read_answers(''.join(line + '\n' for line in lines[:at])), State(lines[at], tuple(lines[at + 1:]))


@dataclass
class Counts:
    """What was tried."""
    lists: int = 0
    calls: int = 0
    wanting: int = 0
    images: int = 0
    runs: int = 0

    def __str__(self) -> str:
        return (f'{self.lists} lists, {self.calls} calls ({self.wanting} met want of nodes), {self.images} saved images compared, '
                f'{self.runs} runs of programs')


def difference_of(name: str, told: str, other: str, wanted: str) -> str:
    """What is said where two texts differ: their first lines that do."""
    for number, (line, expected) in enumerate(zip(told.split('\n'), wanted.split('\n')), 1):
        if line != expected:
            return f'line {number} of {name} is {line!r}, of {other} {expected!r}'
    return f'{name} prints {told.count(chr(10))} lines, {other} {wanted.count(chr(10))}'


class Bench:
    """The programs, a folder for the files that they read and write, and what was counted."""

    def __init__(self, programs: Programs, folder: Path, kept: Path):
        self.programs, self.folder, self.kept, self.counts = programs, folder, kept, Counts()

    def lay(self, name: str, content) -> Path:
        """Writes a file: bytes, or a text with a character for each byte."""
        path = self.folder / name
        path.write_bytes(content if isinstance(content, bytes) else content.encode('latin-1'))
        return path

    def text(self, program: Program, *words) -> str:
        self.counts.runs += 1
        return program.text(*words)

    def new_volume(self, blocks: int, nodes: int, extents_nodes: int = 2, name: str = 'D', now: int = 0) -> bytes:
        """The image of a new volume."""
        path = self.folder / 'new'
        self.text(self.programs.tool, 'new', path, '--now', now, '--', name, blocks, nodes, extents_nodes)
        return path.read_bytes()

    def run(self, program: Program, image: Path, script: Path, now: int, saved: Path) -> str:
        """The answers of hfs_tool to a script, whose volume it saves."""
        saved.unlink(missing_ok=True)
        return self.text(program, 'run', image, script, '--now', now, '--out', saved)

    def plain(self, image: Path, script: Path, now: int) -> tuple[list[Answer], State]:
        """What hfs_plain answers to a script, and the volume that it leaves."""
        return read_plain(self.text(self.programs.plain, image, script, '--now', now))

    def state_of(self, image: Path) -> State:
        """The volume of an image."""
        return self.plain(image, self.lay('nothing', ''), 0)[1]

    def report_of(self, image: Path) -> dict[str, str]:
        """What check tells of an image, which it finds sound."""
        lines = self.text(self.programs.tool, 'check', image).split('\n')[:-1]
        ensure(lines[0] == 'sound', f'check says {lines[0]}')
        return dict(line.split(' ') for line in lines[1:])

    def keep(self, what: str) -> None:
        """Keeps the files of what differs, and says what it was, and how it is seen again."""
        shutil.rmtree(self.kept, ignore_errors=True)
        shutil.copytree(self.folder, self.kept)
        now = self.folder / 'now'
        moment = now.read_text().strip() if now.exists() else '0'
        again = f'hfs_tool run image script --now {moment} --out saved\nhfs_plain image plain_script --now {moment}\n'
        (self.kept / 'what').write_text(f'{what}\n{again}', encoding='utf-8', errors='replace')


@contextmanager
def opened_bench(programs: Programs, kept: Path) -> Iterator[Bench]:
    """A bench, whose folder lies in memory where there is such a place. At a difference its files are kept in another folder."""
    memory = Path('/dev/shm')
    with tempfile.TemporaryDirectory(dir=memory if memory.is_dir() else None) as folder:
        bench = Bench(programs, Path(folder), kept)
        try:
            yield bench
        except Difference as difference:
            bench.keep(str(difference))
            raise SystemExit(f'{difference}\nwhat the programs read and wrote then is in {kept}') from None


@dataclass
class Known:
    """What is known of a catalog's room before a call: exactly, or at least so many free nodes and at most that depth."""
    room: Room
    is_exact: bool

    def pass_done(self, call: Call) -> None:
        """Goes on behind a call that is done."""
        need = call.need(self.room.depth)
        if need:
            self.room = Room(max(0, self.room.free - need), self.room.depth + 1)
        self.is_exact = self.is_exact and not need and call.word not in GIVES_NODES


def is_enough(room: Room, call: Call) -> bool:
    """Whether a catalog with this room has the reserve of a call."""
    return room.free >= call.need(room.depth)


def last_done(calls: Sequence[Call], answers: list[Answer], words=None) -> int:
    """The place of the last call that is done and changes something, of these words where they are given; -1 without one."""
    places = [at for at, (call, answer) in enumerate(zip(calls, answers))
              if answer.is_done and not call.is_reading and (words is None or call.word in words)]
    return places[-1] if places else -1


class Disk:
    """A volume's image as lists of calls leave it."""

    def __init__(self, bench: Bench, content: bytes):
        self.bench = bench
        self.image = Image(content)
        path = bench.lay('image', content)
        self.state, self.report = bench.state_of(path), bench.report_of(path)

    def make(self, calls: Sequence[Call], now: int = 0, beside_plain: bool = True) -> list[Answer]:
        """Makes calls by each program, at this moment. The image is then the one that was saved. Where hfs_plain is not to make
        them, since they are many, it reads the saved image alone."""
        bench = self.bench
        image, script = bench.lay('image', self.image.content), bench.lay('script', script_of(calls))
        bench.lay('now', f'{now}\n')
        answers = self.run_both(image, script, now, calls)
        saved = Image((bench.folder / 'saved').read_bytes())
        self.ensure_room(calls, answers, now, saved.catalog.room)
        self.take(calls, answers, saved, self.run_plain(image, calls, answers, now) if beside_plain else None)
        bench.counts.calls += len(calls)
        return answers

    def run_both(self, image: Path, script: Path, now: int, calls: Sequence[Call]) -> list[Answer]:
        """The answers of hfs_tool, of which each build answers and saves alike."""
        bench, saved = self.bench, self.bench.folder / 'saved'
        first, *others = bench.programs.tools
        text = bench.run(first, image, script, now, saved)
        bench.lay('answers', text)
        for program in others:
            other = bench.run(program, image, script, now, bench.folder / 'saved_by_rattle')
            ensure(other == text, difference_of(program.name, other, first.name, text))
            ensure((bench.folder / 'saved_by_rattle').read_bytes() == saved.read_bytes(), f'{program.name} saves another image')
            bench.counts.images += 1
        answers = read_answers(text)
        numbers = [('1', str(it)) for it in range(1, len(calls) + 1)]
        ensure([(it.who, it.number) for it in answers] == numbers, 'the answers have other callers or numbers')
        return answers

    def room_before(self, calls: Sequence[Call], count: int, now: int) -> Room:
        """The catalog's room behind the first calls, by the image that is saved then."""
        bench = self.bench
        part = bench.lay('part', script_of(calls[:count]))
        bench.run(bench.programs.tool, bench.folder / 'image', part, now, bench.folder / 'saved_part')
        return Image((bench.folder / 'saved_part').read_bytes()).catalog.room

    def ensure_room(self, calls: Sequence[Call], answers: list[Answer], now: int, end: Room) -> None:
        """A difference where a call that is answered -34 had its reserve, or tells another room than there was, or one that is
        done had less than its reserve. After all calls there is the room `end`, which tells much of the room before them."""
        last_change, last_giving = last_done(calls, answers), last_done(calls, answers, GIVES_NODES)
        known = Known(self.image.catalog.room, True)
        for at, (call, answer) in enumerate(zip(calls, answers)):
            if call.is_writing:
                continue
            wanting = answer.wanting
            if at > last_change:
                known = Known(end, True)
            had_end = not known.is_exact and at > last_giving and is_enough(end, call)
            if not known.is_exact and (wanting or answer.is_done and not is_enough(known.room, call) and not had_end):
                known = Known(self.room_before(calls, at, now), True)
            if wanting:
                self.bench.counts.wanting += 1
                ensure(wanting == known.room, f'call {at + 1} tells {wanting}, and there was {known.room}')
                ensure(not is_enough(known.room, call), f'call {at + 1} is answered -34 with {known.room}')
            elif answer.is_done:
                ensure(had_end or is_enough(known.room, call), f'call {at + 1} is done with {known.room}')
                known.pass_done(call)

    def run_plain(self, image: Path, calls: Sequence[Call], answers: list[Answer], now: int) -> State:
        """The volume that hfs_plain makes of the image by the calls that met no want of nodes, each of which it answers alike."""
        pairs = [(call, answer) for call, answer in zip(calls, answers) if not answer.is_wanting]
        script = self.bench.lay('plain_script', script_of(call for call, _ in pairs))
        plain, state = self.bench.plain(image, script, now)
        ensure(len(plain) == len(pairs), f'hfs_plain answers {len(plain)} of {len(pairs)} calls')
        for number, (answer, (call, told)) in enumerate(zip(plain, pairs), 1):
            ensure(answer.number == str(number), f'hfs_plain gives call {number} the number {answer.number}')
            ensure(answer.told == told.told, f'{call} is answered {told.told!r}, by hfs_plain {answer.told!r}')
        return state

    def take(self, calls: Sequence[Call], answers: list[Answer], image: Image, state: Optional[State]) -> None:
        """Takes the saved image, when it is as it must be: it holds this volume, is sound, and keeps what calls keep."""
        saved = self.bench.folder / 'saved'
        done = [call for call, answer in zip(calls, answers) if answer.is_done]
        changed = ensure_kept(self.image, image, any(call.is_writing for call in done))
        is_changing = any(not call.is_reading for call in done)
        ensure(is_changing or not changed, f'calls that change nothing change {len(changed)} blocks')
        found = self.bench.state_of(saved)
        ensure(state in (None, found), state and difference_of('the saved volume', found.text, 'hfs_plain', state.text))
        self.ensure_report(self.bench.report_of(saved), image, found)
        self.image, self.state = image, found
        self.bench.counts.images += 1

    def ensure_report(self, report: dict[str, str], image: Image, state: State) -> None:
        """A difference where check counts otherwise than hfs_plain, or where other blocks are unowned than before."""
        bits = int.from_bytes(image.bitmap, 'big') >> 8 * len(image.bitmap) - image.block_count
        free = image.block_count - bin(bits).count('1')
        wanted = {'files': str(state.count('f')), 'folders': str(state.count('d') - 1), 'free': str(free),
                  'alternate': self.report['alternate'], 'unowned': self.report['unowned']}
        ensure(report == wanted, f'check tells {report}, wanted {wanted}')

    def make_in_parts(self, calls: Sequence[Call], size: int, now: int = 0) -> list[Answer]:
        """Makes calls, so many at a time: the image is saved and mounted again in between."""
        return [answer for at in range(0, len(calls), size) for answer in self.make(calls[at:at + size], now)]

    def expect(self, call: Call, told: str, now: int = 0) -> None:
        """Makes a call that is answered so: its code, a tab and the value."""
        answer = self.make([call], now)[0]
        ensure(answer.told == told, f'{call} is answered {answer.told!r}, wanted {told!r}')


def finished(what: str, bench: Bench, started: Optional[float] = None) -> None:
    """Prints what was tried, in one line."""
    spent = '' if started is None else f' in {time.monotonic() - started:.0f} s'
    names = ' and '.join(program.name for program in bench.programs.tools)
    print(f'{what}: {bench.counts}, by {names} beside {bench.programs.plain.name}: all alike{spent}', flush=True)
