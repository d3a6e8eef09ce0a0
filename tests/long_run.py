#!/usr/bin/env python3
"""Runs scripts of eight workers with 1,000 random calls each, which write forks, too, and of four viewers, by hfs_tool as each compiler builds it. Each worker
works in a folder of its own, which viewers look into. Which worker is first is not fixed, but the IDs of what they create show in
which order they did; so all calls are put into an order that gives these IDs, in which hfs_plain must answer each as it was answered,
and make the volume that was saved. Each viewer must be answered as after some of the calls, and after no fewer than before. At the end
it prints how many calls there were, or what differs.

tests/long_run.py [--calls N] [--views N] [--rounds N] [--seed WORD] [--kept FOLDER]
"""
import argparse
import random
import sys
import time
from collections import defaultdict
from dataclasses import dataclass
from pathlib import Path

from driver.calls import Answer, Call, read_answers, script_of
from driver.disk import Bench, Disk, State, difference_of, finished, opened_bench
from driver.drawing import drawn_of
from driver.image import Image
from driver.keeping import ensure_kept
from driver.programs import Program, found_programs
from driver.wanted import ensure

WORKERS, VIEWERS = range(1, 9), ('v1', 'v2', 'v3', 'v4')
# The folders and files that each worker's folder begins with.
FOLDERS, FILES = 'ABCDEFGH', 'rstuvwxyz'
NAMES = 'abcdefghijklmnopqrstuvwxyz'
WORDS = {
    'create': 5, 'mkdir': 2, 'delete': 3, 'rename': 2, 'move': 2, 'newid': 2, 'dropid': 1, 'resolve': 1, 'lock': 1, 'unlock': 1,
    'setfinfo': 1, 'setinfo': 1, 'dirinfo': 1, 'info': 1, 'indexed': 1, 'list': 1, 'read': 2, 'seteof': 2, 'write': 3,
}
VIEWS = {'list': 3, 'dirinfo': 1, 'info': 2, 'indexed': 1}


def top_of(worker: int) -> int:
    """The ID of the folder that is a worker's own."""
    return 15 + worker


def setting_up() -> list[Call]:
    """The calls that make each worker's folder, with folders and files in it."""
    calls = [Call.of('mkdir', 2, f'of {worker}') for worker in WORKERS]
    for worker in WORKERS:
        calls += [Call.of('mkdir', top_of(worker), name) for name in FOLDERS]
        calls += [Call.of('create', top_of(worker), name) for name in FILES]
    return calls


@dataclass
class Place:
    """What lies in a worker's folder: the IDs of folders, itself among them, and those of files."""
    folders: list[str]
    files: list[str]


def places_of(state: State) -> dict[int, Place]:
    """What lies in the folder of each worker."""
    fields = {it[0]: it for it in (item.split('\t') for item in state.items)}
    owner = {str(top_of(worker)): worker for worker in WORKERS}
    places = {worker: Place([str(top_of(worker))], []) for worker in WORKERS}
    for number, item in fields.items():
        chain = [number]
        while chain[-1] in fields and chain[-1] not in owner:
            chain.append(fields[chain[-1]][1])
        worker = owner.get(chain[-1])
        if worker and len(chain) > 1:
            (places[worker].folders if item[2] == 'd' else places[worker].files).append(number)
    return places


def drawn_call(draw: random.Random, place: Place) -> Call:
    """A call in a worker's folder."""
    word, folder, name = drawn_of(draw, WORDS), draw.choice(place.folders), draw.choice(NAMES)
    if word in ('dropid', 'resolve'):
        return Call.of(word, draw.choice(place.files or ['2']))
    if word in ('dirinfo', 'list'):
        return Call.of(word, folder)
    if word == 'indexed':
        return Call.of(word, folder, draw.randrange(4))
    more = {'rename': [draw.choice(NAMES)], 'move': [draw.choice(place.folders)], 'setfinfo': ['07' * 16],
            'setinfo': [1, 2, 3, '0a' * 32], 'read': ['data', 0, draw.choice((0, 1, 700))], 'seteof': ['data', draw.choice((0, 1, 513, 1100))],
            'write': ['data', draw.choice((0, 0, 1, 500)), f'{draw.randrange(256):02x}' * draw.choice((0, 1, 30, 700))]}
    return Call.of(word, folder, name, *more.get(word, []))


def drawn_view(draw: random.Random) -> Call:
    """A call of a viewer, on the folder of a worker."""
    word, folder = drawn_of(draw, VIEWS), top_of(draw.choice(WORKERS))
    more = {'info': [draw.choice(NAMES + FOLDERS)], 'indexed': [1 + draw.randrange(6)]}
    return Call.of(word, folder, *more.get(word, []))


@dataclass
class Lines:
    """A script: the calls of each caller, in order, and the order of their lines."""
    calls: dict[str, list[Call]]
    order: list[str]

    @classmethod
    def drawn(cls, draw: random.Random, state: State, calls: int, views: int) -> 'Lines':
        places = places_of(state)
        parts = {str(worker): [drawn_call(draw, places[worker]) for _ in range(calls)] for worker in WORKERS}
        parts.update({viewer: [drawn_view(draw) for _ in range(views)] for viewer in VIEWERS})
        order = [who for who, made in parts.items() for _ in made]
        draw.shuffle(order)
        return cls(parts, order)

    @property
    def text(self) -> str:
        following = {who: iter(calls) for who, calls in self.calls.items()}
        return ''.join(next(following[who]).line(who) for who in self.order)

    def answers(self, text: str) -> dict[str, list[Answer]]:
        """The answers to each caller. A difference where they have other callers or numbers than the lines."""
        answers, found = read_answers(text), defaultdict(list)
        ensure([it.who for it in answers] == self.order, 'the answers have other callers')
        for answer in answers:
            found[answer.who].append(answer)
            ensure(answer.number == str(len(found[answer.who])), f'an answer to {answer.who} has the number {answer.number}')
        return found


@dataclass(frozen=True)
class Made:
    """A call of a worker, and its answer."""
    worker: int
    call: Call
    answer: Answer

    @property
    def is_change(self) -> bool:
        return self.answer.is_done and not self.call.is_reading

    @property
    def new_id(self) -> int:
        """The ID of what the call created, or 0."""
        is_new = self.answer.is_done and self.call.word in ('create', 'mkdir')
        return int(self.answer.value.removeprefix('id ')) if is_new else 0


def ordered(lines: Lines, answers: dict[str, list[Answer]], first_id: int) -> list[Made]:
    """All workers' calls in an order in which each worker's are in its own, and what is created gets its IDs."""
    waiting = {it: [Made(it, *pair) for pair in zip(lines.calls[str(it)], answers[str(it)])][::-1] for it in WORKERS}
    makers = {made.new_id: made.worker for row in waiting.values() for made in row if made.new_id}
    ensure(sorted(makers) == list(range(first_id, first_id + len(makers))), 'the IDs are not those that follow, each once')
    journal: list[Made] = []
    for number in sorted(makers):
        row = waiting[makers[number]]
        ensure(any(made.new_id == number for made in row), f'worker {makers[number]} got the ID {number} before a lower one')
        while not journal or journal[-1].new_id != number:
            journal.append(row.pop())
    return journal + [made for row in waiting.values() for made in row[::-1]]


@dataclass(frozen=True)
class Sight:
    """What the folder of a worker shows between two of its calls: the answer to dirinfo, and the items of its list."""
    folder: str
    items: tuple[str, ...]

    def told(self, call: Call) -> str:
        """The answer to a viewer's call."""
        if call.word == 'dirinfo':
            return self.folder
        if call.word == 'list':
            return '\n\t'.join((f'0\tlist {len(self.items)}', *self.items))
        if call.word == 'indexed':
            at = int(call.fields[1])
            return f'0\tinfo {self.items[at - 1]}' if at <= len(self.items) else '-43\t-'
        named = [item for item in self.items if item.split(' ', 11)[11].upper() == call.fields[1].upper()]
        return f'0\tinfo {named[0]}' if named else '-43\t-'


def sight_calls(worker: int) -> list[Call]:
    return [Call.of('dirinfo', top_of(worker)), Call.of('list', top_of(worker))]


def ensure_journal(bench: Bench, image: Path, journal: list[Made], now: int) -> tuple[State, dict[int, list[Sight]]]:
    """The volume that hfs_plain makes of these calls, each of which it answers alike, and what each worker's folder shows at first
    and after each of its changes."""
    calls = [call for worker in WORKERS for call in sight_calls(worker)]
    for made in journal:
        calls += [made.call] + (sight_calls(made.worker) if made.is_change else [])
    answers, state = bench.plain(image, bench.lay('plain_script', script_of(calls)), now)
    following = iter(answers)
    sights = {worker: [next_sight(following)] for worker in WORKERS}
    for made in journal:
        told = next(following).told
        ensure(told == made.answer.told, f'{made.call} of {made.worker} is answered {made.answer.told!r}, by hfs_plain {told!r}')
        if made.is_change:
            sights[made.worker].append(next_sight(following))
    return state, sights


def next_sight(answers) -> Sight:
    folder, listed = next(answers), next(answers)
    return Sight(folder.told, tuple(listed.value.split('\n\t')[1:]))


def ensure_views(calls: list[Call], answers: list[Answer], sights: dict[int, list[Sight]]) -> int:
    """A difference where a viewer is not answered as after some of a worker's calls, and no fewer than before. How many answers are
    neither of the volume as it was nor of the last one."""
    least, between = dict.fromkeys(WORKERS, 0), 0
    for call, answer in zip(calls, answers):
        worker = int(call.fields[0]) - 15
        row = sights[worker]
        at = next((it for it in range(least[worker], len(row)) if row[it].told(call) == answer.told), None)
        ensure(at is not None, f'{call} of a viewer is answered {answer.told!r}')
        least[worker] = at
        between += answer.told not in (row[0].told(call), row[-1].told(call))
    return between


def run_round(disk: Disk, program: Program, lines: Lines, now: int) -> tuple[Image, State, int]:
    """Runs a script. The volume that is saved, when it is as it must be, and how many answers to viewers are from in between."""
    bench = disk.bench
    image, script = bench.lay('image', disk.image.content), bench.lay('script', lines.text)
    bench.lay('now', f'{now}\n')
    text = bench.run(program, image, script, now, bench.folder / 'saved')
    bench.lay('answers', text)
    answers = lines.answers(text)
    state, sights = ensure_journal(bench, image, ordered(lines, answers, disk.state.next_id), now)
    saved = Image((bench.folder / 'saved').read_bytes())
    found = bench.state_of(bench.folder / 'saved')
    ensure(found == state, difference_of('the saved volume', found.text, 'hfs_plain', state.text))
    ensure_kept(disk.image, saved, True)
    disk.ensure_report(bench.report_of(bench.folder / 'saved'), saved, state)
    between = sum(ensure_views(lines.calls[viewer], answers[viewer], sights) for viewer in VIEWERS)
    bench.counts.images += 1
    bench.counts.lists += 1
    bench.counts.calls += len(lines.order)
    return saved, state, between


def run_rounds(bench: Bench, given) -> None:
    """Runs the scripts, each on the volume that the one before it left."""
    disk = Disk(bench, bench.new_volume(4096, 2048, 100))
    answers = disk.make(setting_up(), 1)
    ensure(all(answer.is_done for answer in answers), 'a folder or a file does not come')
    between = 0
    for number in range(given.rounds):
        draw = random.Random(f'{given.seed} {number}')
        lines = Lines.drawn(draw, disk.state, given.calls // given.rounds, given.views // given.rounds)
        rounds = [run_round(disk, program, lines, 2 + number) for program in bench.programs.tools]
        disk.image, disk.state, _ = rounds[0]
        between += sum(it[2] for it in rounds)
    print(f'{len(WORKERS)} workers made {given.calls} calls each, and hfs_plain answers each alike in an order that gives their IDs')
    print(f'{len(VIEWERS)} viewers made {given.views} calls each, of which {between} were answered between the first change and the last',
          flush=True)


def main() -> None:
    words = argparse.ArgumentParser(description='Runs scripts of eight workers and four viewers.')
    words.add_argument('--calls', type=int, default=1000, help='how many calls each worker makes')
    words.add_argument('--views', type=int, default=1000, help='how many calls each viewer makes')
    words.add_argument('--rounds', type=int, default=4, help='in how many scripts, one after the other')
    words.add_argument('--seed', default='1', help='what the calls are drawn by')
    words.add_argument('--kept', type=Path, default=Path('long_run.kept'), help='where the files of what differs are kept')
    given = words.parse_args()
    started = time.monotonic()
    with opened_bench(found_programs(), given.kept) as bench:
        run_rounds(bench, given)
        finished('the long run', bench, started)


if __name__ == '__main__':
    sys.exit(main())
