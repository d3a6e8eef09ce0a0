"""Many small images, each tried by a few runs of programs, by as many processes as there are
processors."""
import os
import shutil
import signal
import tempfile
from dataclasses import dataclass, field, fields
from multiprocessing import Pool
from pathlib import Path
from typing import Iterable, Optional, Protocol, Sequence

from driver.calls import Answer, Call, read_answers, script_of
from driver.disk import Bench, State, read_plain
from driver.programs import Program, Programs
from driver.wanted import Difference, ensure

# The processor seconds that a word may take of a small image, and how long it is waited for where
# others work too.
LIMIT, PATIENCE = 2.0, 600.0
NOW = 77
# Of so many images one is looked at more closely.
CLOSER = 8
# How many images a process of the pool tries before it tells of them.
CHUNK = 64


class Job(Protocol):
    """An image that is tried."""

    def content(self) -> bytes:
        """Its bytes."""

    def wanted(self) -> Optional[str]:
        """The line of its fault, which is empty where it is sound, or None where that is not known."""

    def base(self) -> Optional[bytes]:
        """The sound volume of which it is with one byte changed, if it is so made."""


@dataclass(frozen=True)
class Calls:
    """The calls that are made on each image: all of them by a worker, and those that viewers make."""
    every: Sequence[Call]
    viewed: Sequence[Call]


@dataclass
class Counts:
    """What was tried."""
    images: int = 0
    taken: int = 0
    answers: int = 0
    compared: int = 0
    saved: int = 0
    runs: int = 0
    seconds: float = 0.0

    def add(self, other: 'Counts') -> None:
        for it in fields(self):
            setattr(self, it.name, getattr(self, it.name) + getattr(other, it.name))


@dataclass(frozen=True)
class Ended:
    """How a program ended, and what it printed."""
    status: int
    text: str


class Overdue(Exception):
    """A program was waited for too long."""


def overdue(*_given) -> None:
    raise Overdue


@dataclass
class Bed:
    """A folder of one process of the pool, with the image that is tried; and what was counted."""
    programs: Programs
    calls: Calls
    folder: Path
    counts: Counts = field(default_factory=Counts)
    # What each build answers and saves of a volume that is changed.
    of_bases: dict[tuple[bytes, str], tuple[str, bytes]] = field(default_factory=dict)

    def lay(self, name: str, content) -> Path:
        path = self.folder / name
        path.write_bytes(content if isinstance(content, bytes) else content.encode('latin-1'))
        return path

    def run(self, program: Program, *words) -> Ended:
        """Runs a program, which may take so much processor time."""
        printed, writing = self.folder / 'printed', os.O_WRONLY | os.O_CREAT
        actions = [(os.POSIX_SPAWN_OPEN, 0, '/dev/null', os.O_RDONLY, 0),
                   (os.POSIX_SPAWN_OPEN, 1, printed, writing | os.O_TRUNC, 0o600),
                   (os.POSIX_SPAWN_OPEN, 2, self.folder / 'errors', writing | os.O_APPEND, 0o600)]
        number = os.posix_spawn(program.path, [program.path, *map(str, words)], {}, file_actions=actions)
        status = self.wait(number, f'{program.name} {words[0]}')
        self.counts.runs += 1
        return Ended(status, printed.read_bytes().decode('latin-1'))

    def wait(self, number: int, what: str) -> int:
        """The status with which a process ends, which no signal ends."""
        signal.setitimer(signal.ITIMER_REAL, PATIENCE)
        try:
            _, status, usage = os.wait4(number, 0)
        except Overdue:
            os.kill(number, signal.SIGKILL)
            os.wait4(number, 0)
            raise Difference(f'{what} does not end') from None
        finally:
            signal.setitimer(signal.ITIMER_REAL, 0)
        ensure(not os.WIFSIGNALED(status), f'{what} ends by the signal {os.WTERMSIG(status)}')
        spent = usage.ru_utime + usage.ru_stime
        self.counts.seconds += spent
        ensure(spent <= LIMIT, f'{what} takes {spent:.1f} s')
        return os.WEXITSTATUS(status)

    def run_calls(self, tool: Program, image: Path, name: str = 'saved') -> tuple[Ended, Optional[bytes]]:
        """The answers to all calls, and the image that is saved behind them, if one is."""
        saved = self.folder / name
        saved.unlink(missing_ok=True)
        ran = self.run(tool, 'run', image, self.folder / 'script', '--now', NOW, '--out', saved)
        return ran, saved.read_bytes() if saved.exists() else None

    def attempt(self, number: int, job: Job) -> None:
        """Runs the words on an image. Its number says which build does so, and how closely it is
        looked at."""
        tool = self.programs.tools[number % len(self.programs.tools)]
        content, wanted, is_close = job.content(), job.wanted(), number % CLOSER == 0
        image = self.lay('image', content)
        self.counts.images += 1
        checked = self.run(tool, 'check', image)
        ran, saved = self.run_calls(tool, image)
        if checked.status == 0:
            ensure(checked.text.startswith('sound\n') and ran.status == 0 and saved is not None, f'check says sound, and run ends with {ran}')
            ensure(not wanted, f'check says sound, where {wanted!r} is wanted')
            self.ensure_taken(tool, job, (ran.text, saved), is_close)
            return
        ensure(checked.status == 2 and checked.text.startswith('refused '), f'check ends with {checked}')
        fault = checked.text.removeprefix('refused ')
        ensure(wanted is None or fault == wanted, f'check says {fault!r}, where {wanted!r} is wanted')
        ensure(ran == Ended(2, fault) and saved is None, f'check says {fault!r}, and run ends with {ran}')
        for words in [('ls', image), ('cat', image, 2, 'f')] if is_close else []:
            told = self.run(tool, *words)
            ensure(told == Ended(2, fault), f'check says {fault!r}, and {words[0]} ends with {told}')

    def is_unseen(self, tool: Program, job: Job, told: tuple[str, bytes]) -> bool:
        """Whether no call sees what is changed: each is answered as on the volume that was changed,
        and what is saved is otherwise in at most that one byte, which stays as it was changed."""
        base = job.base()
        if base is None:
            return False
        if (base, tool.name) not in self.of_bases:
            ran, saved = self.run_calls(tool, self.lay('base', base), 'saved base')
            self.of_bases[base, tool.name] = (ran.text, saved)
        text, saved = self.of_bases[base, tool.name]
        content = job.content()
        place = next(at for at, (a, b) in enumerate(zip(base, content)) if a != b)
        changed = saved[:place] + content[place:place + 1] + saved[place + 1:]
        return told[0] == text and told[1] in (saved, changed)

    def ensure_taken(self, tool: Program, job: Job, told: tuple[str, bytes], is_close: bool) -> None:
        """An image that is taken: each call is answered as hfs_plain answers it, and the saved image
        is sound. Where no call sees what was changed, that is so of the volume that was changed, and
        it is tried of some."""
        self.counts.taken += 1
        self.counts.answers += len(self.calls.every)
        if not is_close and self.is_unseen(tool, job, told):
            return
        answers = read_answers(told[0])
        ensure(len(answers) == len(self.calls.every), f'run gives {len(answers)} answers')
        state = self.plain_state(answers)
        checked = self.run(tool, 'check', self.folder / 'saved')
        ensure(checked.status == 0 and checked.text.startswith('sound\n'), f'check of the saved image says {checked.text!r}')
        self.counts.saved += 1
        if is_close:
            self.look_closer(told, state)

    def plain_state(self, answers: list[Answer]) -> State:
        """The volume that hfs_plain makes of the image, by the calls that met no want of nodes, each
        of which it answers alike."""
        kept = [at for at, answer in enumerate(answers) if not answer.wanting]
        script = self.lay('plain_script', script_of(self.calls.every[at] for at in kept))
        told = self.run(self.programs.plain, self.folder / 'image', script, '--now', NOW)
        ensure(told.status == 0, f'hfs_plain ends with {told.status}')
        plain, state = read_plain(told.text)
        ensure(len(plain) == len(kept), f'hfs_plain gives {len(plain)} answers to {len(kept)} calls')
        for at, answer in zip(kept, plain):
            ensure(answer.told == answers[at].told, f'{self.calls.every[at]} is answered {answers[at].told!r}, by hfs_plain {answer.told!r}')
        self.counts.compared += len(plain)
        return state

    def look_closer(self, told: tuple[str, bytes], state: State) -> None:
        """Each build answers and saves alike, the saved image holds the volume of hfs_plain, and
        viewers answer as a worker does."""
        image = self.folder / 'image'
        for tool in self.programs.tools:
            ran, saved = self.run_calls(tool, image, 'saved too')
            ensure((ran.text, saved) == told, f'{tool.name} answers or saves otherwise')
        held = self.run(self.programs.plain, self.folder / 'saved', self.folder / 'nothing')
        ensure(read_plain(held.text)[1] == state, 'the saved image holds another volume')
        viewed = read_answers(self.run(tool, 'run', image, self.folder / 'viewed').text)
        count = len(self.calls.viewed)
        ensure(len(viewed) == 2 * count, 'a viewer stops')
        for call, worker, viewer in zip(self.calls.viewed, viewed, viewed[count:]):
            ensure(worker.told == viewer.told, f'{call} is answered {worker.told!r}, and to a viewer {viewer.told!r}')
        self.counts.answers += 2 * count
        for words, statuses in ((('ls', image), (0, )), (('cat', image, 16, 'f'), (0, 3))):
            status = self.run(tool, *words).status
            ensure(status in statuses, f'{words[0]} of a sound volume ends with {status}')


BED: list[Bed] = []


def open_bed(programs: Programs, calls: Calls, folder: str) -> None:
    """Begins a process of the pool."""
    signal.signal(signal.SIGALRM, overdue)
    bed = Bed(programs, calls, Path(tempfile.mkdtemp(dir=folder)))
    bed.lay('script', script_of(calls.every))
    bed.lay('viewed', script_of(calls.viewed) + script_of(calls.viewed, 'v1'))
    bed.lay('now', f'{NOW}\n')
    bed.lay('nothing', '')
    BED.append(bed)


def attempt_all(jobs: list[tuple[int, Job]]) -> tuple[Counts, Optional[str], Path]:
    """Tries images one after the other, up to the first difference: what was counted, what differs,
    and where its files lie."""
    bed = BED[0]
    bed.counts = Counts()
    for number, job in jobs:
        try:
            bed.attempt(number, job)
        except Difference as difference:
            return bed.counts, f'{job}: {difference}', bed.folder
    said = (bed.folder / 'errors').read_text(errors='replace')
    return bed.counts, f'a program writes to standard error: {said[:300]}' if said else None, bed.folder


def attempt_by_pool(bench: Bench, calls: Calls, jobs: Iterable[Job]) -> Counts:
    """Tries images by as many processes as there are processors."""
    counts, numbered = Counts(), list(enumerate(jobs))
    chunks = [numbered[at:at + CHUNK] for at in range(0, len(numbered), CHUNK)]
    with tempfile.TemporaryDirectory(dir=bench.folder.parent) as beds, Pool(os.cpu_count(), open_bed, (bench.programs, calls, beds)) as pool:
        for counted, what, folder in pool.imap_unordered(attempt_all, chunks):
            counts.add(counted)
            if what:
                shutil.copytree(folder, bench.folder, dirs_exist_ok=True)
                raise Difference(what)
    return counts
