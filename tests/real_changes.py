#!/usr/bin/env python3
"""Calls that change, on three volumes of other programs, by each build of hfs_tool next to hfs_plain.

tests/real_changes.py [--kept FOLDER]                    tries all that follows
tests/real_changes.py leave set|unlock|story IMAGE OUT   writes the image that some calls leave

All items are dated and given Finder bytes, all files locked and unlocked; all files are deleted, in
five orders, and what is left is compared, and then the folders; a story of items that are made, renamed, moved, given IDs and deleted; the catalog is filled up to -34 and emptied again; viewers read next to a worker that changes,
and each of their answers is that of the volume at some moment, none before that of an earlier
answer. Where a volume is locked by hardware, and where its catalog has no room for a folder, nothing
is changed. After each list of calls the volume is saved and mounted again, the definitions hold the
same items, and each byte that calls keep is as it was (tests/driver). What each call is to be
answered is written here. It prints what it counted. At a difference it ends with 1 and leaves
the files of it.
"""
import argparse
import time
from dataclasses import dataclass, replace
from pathlib import Path
from random import Random
from typing import Callable, Iterator, Sequence

from catalog_records import DATES, FLAGS, FOLDER, LOCKED, Catalog, Record
from driver.calls import Call, Room, read_answers, script_of
from driver.disk import Bench, Disk, difference_of, finished, opened_bench
from driver.image import BLOCK, MDB, Image, changed_blocks, extents_at, number_at
from driver.programs import found_programs
from driver.wanted import ensure
from real_volumes import SOUND, image_of
from told import Item, Question, item_of, name_of, refused

# The moment of each change, 1 January 2002.
NOW = 3_092_688_000
ROOT = 2
DONE = '0\t-'
# The volume with no room for a folder in its catalog, with its free nodes and levels; and the one
# that is locked, by hardware and by software.
NARROW, NARROW_ROOM = 'hfsutils-800k', 'full 6 2'
LOCKED_NAME = 'genisoimage-locked'
# Where drAtrb stands, and what it is without the two locks.
ATTRIBUTES, UNLOCKED = MDB + 10, b'\1\0'
# On how many items each call is made alone, to see how many blocks it changes, and how many those
# may be.
ALONE, MOST_BLOCKS = 20, 2
# How many nodes the catalogs get more that have too few for items to be renamed and moved.
ROOM = 400
# How many files are deleted from one comparison of all that is left to the next.
STEP = 25
HOME = 'Made by calls'
MADE = [f'made {it}' for it in range(1, 6)]
MOVED = [f'Moved {it}' for it in range(1, 4)]


def unlocked(content: bytes) -> bytes:
    """A volume without its locks."""
    return content[:ATTRIBUTES] + UNLOCKED + content[ATTRIBUTES + 2:]


def items_of(content: bytes) -> list[Item]:
    """All items of a volume but the root, folder by folder."""
    catalog = Catalog(content)
    return [item_of(catalog, it) for it in catalog.walked()]


def make_all(disk: Disk, asked: Sequence[Question], size: int = 0) -> None:
    """Makes calls that are to be answered so; with a size, the volume is saved and mounted again
    behind each so many."""
    calls = [call for call, _ in asked]
    answers = disk.make_in_parts(calls, size, NOW) if size else disk.make(calls, NOW)
    for (call, wanted), answer in zip(asked, answers, strict=True):
        ensure(answer.told == wanted, f'{call} is answered {answer.told!r}, wanted {wanted!r}')


# ---- all items set

def settings_of(item: Item) -> Item:
    """An item with dates and Finder bytes that no other gets: the dates are its ID before, behind
    and without a moment of 1999, and Finder byte k is the ID and k, mod 251."""
    finder = bytes((item.id + it) % 251 for it in range(32))
    return replace(item, created=3_000_000_000 - item.id, modified=3_000_000_000 + item.id, backup=item.id, finder=finder)


def set_info(item: Item, to: Item) -> Call:
    """The call that gives an item the dates and Finder bytes of another."""
    return Call.of('setinfo', item.parent, item.name, to.created, to.modified, to.backup, to.finder.hex())


def setting_steps(item: Item) -> Iterator[tuple[Call, str, Item]]:
    """The calls that set an item, what each is answered, and what the item is told as behind it."""
    def call(word: str, *fields) -> Call:
        return Call.of(word, item.parent, item.name, *fields)

    final = settings_of(item)
    if item.is_folder:
        yield call('setfinfo', '07' * 16), refused(-43), item
        yield call('lock'), refused(-43), item
        yield set_info(item, final), DONE, final
        return
    free = replace(item, is_locked=False)
    half = replace(free, finder=b'\xff' * 16 + free.finder[16:])
    whole = replace(final, is_locked=False)
    locked = replace(whole, is_locked=True)
    yield call('unlock'), DONE, free
    yield call('setfinfo', 'ff' * 16), DONE, half
    yield set_info(item, final), DONE, whole
    yield call('lock'), DONE, locked
    yield call('setfinfo', '07' * 16), refused(-45), locked
    yield set_info(item, item), refused(-45), locked


def setting(items: list[Item]) -> tuple[list[Question], list[Item]]:
    """The calls that set all items, with a look at the item behind each call; and the items as they
    are then."""
    asked, after = [], []
    for item in items:
        told = item
        for call, wanted, told in setting_steps(item):
            asked += [(call, wanted), (Call.of('info', item.parent, item.name), told.info)]
        after.append(told)
    return asked, after


def unlocking(items: list[Item]) -> tuple[list[Question], list[Item]]:
    """The calls that unlock all files, and the items as they are then."""
    after = [it if it.is_folder else replace(it, is_locked=False) for it in items]
    asked = [(Call.of(word, it.parent, it.name), told) for it in after if not it.is_folder for word, told in (('unlock', DONE), ('info', it.info))]
    return asked, after


def set_places(record: Record) -> set[int]:
    """The bytes of an item's record that the calls above set, and of a file those of its lock."""
    dates = set(range(DATES[record.kind], DATES[record.kind] + 12))
    return dates | (set(range(22, 54)) if record.kind == FOLDER else {FLAGS, *range(4, 20), *range(56, 72)})


def ensure_set(before: Catalog, after: Catalog) -> None:
    """A difference where anything of the catalog is otherwise but what calls set: each record
    stands where it stood, in the same node."""
    old, new = before.image.catalog, after.image.catalog
    ensure(old.level_nodes == new.level_nodes and old.room == new.room, 'other nodes are in use')
    for number in old.level_nodes:
        first, second = old.node(number), new.node(number)
        ensure(first.content[:12] == second.content[:12], f'the descriptor of node {number}')
        ensure(first.is_leaf or first.content == second.content, f'the index node {number}')
        ensure([len(it) for it in first.records] == [len(it) for it in second.records], f'the records of node {number}')
    for record, found in zip(before.records, after.records, strict=True):
        places = set_places(record) if record.is_item else set()
        ensure((record.parent, record.name) == (found.parent, found.name), 'another key')
        differing = {at for at, (a, b) in enumerate(zip(record.body, found.body, strict=True)) if a != b}
        if record.kind != FOLDER and FLAGS in differing:
            ensure(record.body[FLAGS] ^ found.body[FLAGS] == LOCKED, 'another flag')
        ensure(differing <= places, f'the bytes {sorted(differing - places)} of {record}')


def set_each(bench: Bench, content: bytes, items: list[Item]) -> int:
    """Makes each call on the first items alone, and gives the most blocks that one changes."""
    image, most = bench.lay('image', content), 0
    for item in items[:ALONE]:
        for call, wanted, _ in setting_steps(item):
            answer = bench.run(bench.programs.tool, image, bench.lay('script', call.line()), NOW, bench.folder / 'saved')
            ensure(read_answers(answer)[0].told == wanted, f'{call} alone is answered {answer!r}')
            before, after = image.read_bytes(), (bench.folder / 'saved').read_bytes()
            most = max(most, len(changed_blocks(before, after)))
            image = bench.lay('image', after)
    ensure(most <= MOST_BLOCKS, f'{most} blocks are changed by one call')
    return most


def set_and_unlock(bench: Bench, content: bytes) -> tuple[int, int]:
    """Sets and unlocks all items of a volume with 100 bytes behind its last block; how many there
    are, and the most blocks that a call changes."""
    given = content + bytes(it % 251 for it in range(100))
    disk, before = Disk(bench, given), Catalog(given)
    items, report = items_of(given), disk.report
    for steps in (setting, unlocking):
        asked, items_after = steps(items_of(disk.image.content))
        make_all(disk, asked)
        found = items_of(disk.image.content)
        ensure(found == items_after, difference_of('the volume', '\n'.join(it.text for it in found), 'the calls', '\n'.join(it.text for it in items_after)))
        ensure(bench.report_of(bench.folder / 'saved') == report, 'another report')
        ensure_set(before, Catalog(disk.image.content))
    ensure(disk.image.content[-100:] == given[-100:], 'the bytes behind the last block')
    return len(items), set_each(bench, given, items)


# ---- what is refused

def refuse_all(bench: Bench, content: bytes) -> int:
    """Tries to set all items of a volume that is locked by hardware; how many there are."""
    items = items_of(content)
    asked = []
    for item in items:
        for word, *fields in (('setfinfo', '05' * 16), ('setinfo', 1, 2, 3, '04' * 32), ('lock', ), ('unlock', )):
            asked.append((Call.of(word, item.parent, item.name, *fields), refused(-44)))
    for word, *fields in (('create', ROOT, 'n'), ('mkdir', ROOT, 'n'), ('delete', ROOT, 'n'), ('rename', ROOT, 'n', 'm'), ('move', ROOT, 'n', 9),
                          ('newid', ROOT, 'n'), ('dropid', 9)):
        asked.append((Call.of(word, *fields), refused(-44)))
    disk = Disk(bench, content)
    make_all(disk, asked)
    ensure(disk.image.content == content, 'another image')
    return len(items)


def refuse_folder(bench: Bench, content: bytes) -> None:
    """No folder is made where the catalog has too few free nodes."""
    disk = Disk(bench, content)
    make_all(disk, [(Call.of('mkdir', ROOT, HOME), f'-34\t{NARROW_ROOM}')])
    ensure(disk.image.content == content, 'another image')


# ---- all files deleted

def deleting(file: Item) -> Iterator[Question]:
    """The calls that delete a file; a locked one is refused first, and then unlocked."""
    place = (file.parent, file.name)
    if file.is_locked:
        yield Call.of('delete', *place), refused(-45)
        yield Call.of('unlock', *place), DONE
    yield Call.of('delete', *place), DONE
    yield Call.of('info', *place), refused(-43)


def is_kept(before: Record, after: Record) -> bool:
    """Whether two records have the same bytes, but for a folder's valence and the date of its last
    change."""
    counted = {4, 5, 14, 15, 16, 17} if before.kind == FOLDER else set()
    return len(before.body) == len(after.body) and all(a == b or at in counted for at, (a, b) in enumerate(zip(before.body, after.body)))


def ensure_left(before: Catalog, after: Catalog, gone: set[int]) -> None:
    """A difference where another record is gone than those of these files, or where anything of
    what is left has changed but the number and the date of folders."""
    left = [it for it in before.records if it.id not in gone]
    ensure([(it.parent, it.name) for it in left] == [(it.parent, it.name) for it in after.records], 'other records are left')
    for record, found in zip(left, after.records):
        ensure(is_kept(record, found), f'kept bytes of {record}')
    for file in after.files:
        ensure(after.forks(file) == before.forks(before.by_id[file.id]), f'a fork of {file}')


def drawn(seed: int) -> Callable[[int], int]:
    """Which of so many files goes next, by numbers that are drawn from this one on."""
    numbers = Random(seed)
    return lambda count: numbers.randrange(count)


# The orders in which all files are deleted: which of so many goes next.
DELETIONS: dict[str, Callable[[int], int]] = {
    'from the last on': lambda count: count - 1,
    'from the first on': lambda count: 0,
    'from the middle outwards': lambda count: count // 2,
    'as drawn': drawn(1),
    'as drawn once more': drawn(2),
}


def delete_all(bench: Bench, content: bytes, next_of: Callable[[int], int]) -> dict[str, str]:
    """Deletes all files of a volume in an order, and gives the report on what is left; then all
    folders."""
    disk, before = Disk(bench, content), Catalog(content)
    files = [it for it in items_of(content) if not it.is_folder]
    gone: set[int] = set()
    while files:
        count = len(files) % STEP or STEP
        going = [files.pop(next_of(len(files))) for _ in range(count)]
        make_all(disk, [asked for file in going for asked in deleting(file)])
        gone |= {it.id for it in going}
        ensure_left(before, Catalog(disk.image.content), gone)
    image = disk.image
    trees = sum(len(it.blocks) for it in (image.catalog, image.extents_tree)) // image.factor
    wanted = {'files': '0', 'folders': disk.report['folders'], 'free': str(image.block_count - trees - int(disk.report['unowned'])),
              'alternate': disk.report['alternate'], 'unowned': disk.report['unowned']}
    told = bench.report_of(bench.folder / 'saved')
    ensure(told == wanted, f'check tells {told}, wanted {wanted}')
    make_all(disk, [(Call.of('delete', it.parent, it.name), DONE) for it in reversed(items_of(disk.image.content))])
    ensure([it.id for it in Catalog(disk.image.content).items] == [], 'an item is left')
    nodes = disk.image.catalog
    ensure(nodes.room == Room(nodes.count - len(nodes.map_nodes) - 1, 1), f'the empty catalog has {nodes.room}')
    return told


# ---- all items renamed, moved and given IDs

def with_room(content: bytes, nodes: int) -> bytes:
    """A volume whose catalog has so many free nodes more, in the first free blocks that lie behind one another."""
    image, laid = Image(content), bytearray(content)
    count = -(-nodes // image.factor)
    bits = ''.join(f'{it:08b}' for it in image.bitmap)[:image.block_count]
    first = bits.index('0' * count)
    for block in range(first, first + count):
        laid[image.bitmap_start * BLOCK + block // 8] |= 0x80 >> block % 8
    header = image.catalog.blocks[0] * BLOCK
    more = count * image.factor
    # drFreeBks, drCTFlSize, bthNNodes and bthFree
    for at, width, change in ((MDB + 34, 2, -count), (MDB + 146, 4, more * BLOCK), (header + 36, 4, more), (header + 40, 4, more)):
        laid[at:at + width] = (number_at(content, at, width) + change).to_bytes(width, 'big')
    taken = len(extents_at(content, MDB + 150))
    laid[MDB + 150 + 4 * taken:MDB + 154 + 4 * taken] = first.to_bytes(2, 'big') + count.to_bytes(2, 'big')
    return bytes(laid)


def about(item: Item, home: int) -> Iterator[Question]:
    """The calls that rename and move an item, give it an ID where it is a file, and undo all that."""
    dir, name, new = item.parent, item.name, f'item {item.id} of {item.parent}'
    yield Call.of('rename', dir, name, new), DONE
    yield Call.of('rename', dir, new, new.upper()), DONE
    yield Call.of('info', dir, name), refused(-43)
    yield Call.of('move', dir, new, home), DONE
    yield Call.of('move', dir, new, home), refused(-43)
    yield Call.of('info', home, new), replace(item, parent=home, name=new.upper()).info
    if item.is_folder:
        yield Call.of('move', home, new, item.id), refused(-122)
        yield Call.of('newid', home, new), refused(-1302)
    else:
        yield Call.of('newid', home, new), f'0\tid {item.id}'
        yield Call.of('resolve', item.id), f'0\tplace {home} {new.upper()}'
        yield Call.of('dropid', item.id), DONE
        yield Call.of('resolve', item.id), refused(-1300)
    yield Call.of('rename', home, new, name), DONE
    yield Call.of('move', home, name, dir), DONE


def undated(items: list[Item]) -> list[Item]:
    """Items without the date of change of folders."""
    return [replace(it, modified=0) if it.is_folder else it for it in items]


def move_about(bench: Bench, content: bytes) -> int:
    """Renames and moves each item of a volume and back again; how many there are. A locked file is not renamed."""
    catalog = Catalog(content)
    items = items_of(content)
    home = catalog.image.next_id
    disk = Disk(bench, content)
    make_all(disk, [(Call.of('mkdir', ROOT, HOME), f'0\tid {home}')])
    free = [it for it in items if not it.is_locked]
    make_all(disk, [asked for item in free for asked in about(item, home)], 150)
    make_all(disk, [(Call.of('delete', ROOT, HOME), DONE)])
    ensure(undated(items_of(disk.image.content)) == undated(items), 'other items are behind it')
    after = Catalog(disk.image.content)
    for file in catalog.files:
        ensure(after.forks(after.by_id[file.id]) == catalog.forks(file), f'a fork of {file}')
    return len(free)


# ---- a story

@dataclass(frozen=True)
class Story:
    """What a story has made."""
    home: int
    first: int
    files: int
    folders: int
    content: bytes


def made_home(home: int) -> list[Question]:
    """The story's folder, which can't be deleted or put into itself once it has files."""
    return [(Call.of('mkdir', ROOT, HOME), f'0\tid {home}'), (Call.of('create', home, 'made first'), f'0\tid {home + 1}'),
            (Call.of('delete', ROOT, HOME), refused(-47)), (Call.of('move', ROOT, HOME, home), refused(-122)),
            (Call.of('delete', home, 'made first'), DONE)]


def made_files(home: int) -> list[Question]:
    """The files that it makes in its folder, none of them twice."""
    first = home + 2
    made = [(Call.of('create', home, name), f'0\tid {first + at}') for at, name in enumerate(MADE)]
    return [*made, (Call.of('create', home, MADE[0]), refused(-48))]


def moved_file(file: Item, name: str, home: int) -> list[Question]:
    """A file gets a new name, moves, and gets an ID, by which it is found then, and which it gets
    once."""
    return [(Call.of('rename', file.parent, file.name, name), DONE), (Call.of('move', file.parent, name, home), DONE),
            (Call.of('info', file.parent, name), refused(-43)), (Call.of('newid', home, name), f'0\tid {file.id}'),
            (Call.of('newid', home, name), refused(-1301)), (Call.of('resolve', file.id), f'0\tplace {home} {name}')]


def undone(file: Item, home: int) -> list[Question]:
    """The first file's ID is taken away, the third of those that were made is deleted, and the
    second gets its name in capitals."""
    return [(Call.of('dropid', file.id), DONE), (Call.of('resolve', file.id), refused(-1300)), (Call.of('delete', home, MADE[2]), DONE),
            (Call.of('rename', home, MADE[1], MADE[1].upper()), DONE)]


def behind_story(item: Item, moved: list[Item], home: int) -> Item:
    """What a file is told as behind the story: one that moves stands in the story's folder under
    its new name, and each but the first has an ID."""
    for place, (file, name) in enumerate(zip(moved, MOVED)):
        if file.id == item.id:
            return replace(item, parent=home, name=name, has_id=place > 0)
    return item


def tell_story(bench: Bench, content: bytes) -> Story:
    """Tells the story on a volume, and compares what it has made with the volume before."""
    before, items = Catalog(content), items_of(content)
    moved = [it for it in items if not it.is_folder and not it.is_locked][:len(MOVED)]
    ensure(len(moved) == len(MOVED), 'there are too few files')
    home = before.image.next_id
    asked = made_home(home) + made_files(home)
    for file, name in zip(moved, MOVED):
        asked += moved_file(file, name, home)
    disk = Disk(bench, content)
    make_all(disk, asked + undone(moved[0], home), 7)
    after = Catalog(disk.image.content)
    for item in items:
        if not item.is_folder:
            found = after.by_id[item.id]
            ensure(item_of(after, found) == behind_story(item, moved, home), f'{item} is told as {item_of(after, found)}')
            ensure(after.forks(found) == before.forks(before.by_id[item.id]), f'a fork of {item}')
    told = bench.report_of(bench.folder / 'saved')
    ensure(told['unowned'] == disk.report['unowned'], 'other stray blocks')
    names = [name_of(it) for it in after.children(home)]
    ensure(names == ['made 1', 'MADE 2', 'made 4', 'made 5', *MOVED], f'the story has made {names}')
    return Story(home, home + 2, int(told['files']), int(told['folders']), disk.image.content)


# ---- a catalog that is filled

def fill_and_empty(bench: Bench, content: bytes) -> int:
    """Makes files in the root of a volume up to -34, and deletes them again; how many there
    were."""
    disk, items = Disk(bench, content), items_of(content)
    count = 0
    while True:
        names = [f'filling {it:04}' for it in range(count, count + 20)]
        answers = disk.make([Call.of('create', ROOT, it) for it in names], NOW)
        count += sum(it.is_done for it in answers)
        if any(it.wanting for it in answers):
            break
    make_all(disk, [(Call.of('delete', ROOT, f'filling {it:04}'), DONE) for it in reversed(range(count))])
    ensure(items_of(disk.image.content) == items, 'another volume behind it')
    return count


# ---- viewers beside a worker

def watched_changes(items: list[Item], next_id: int) -> list[Call]:
    """Changes that viewers see: a folder comes, with files; others are renamed, moved, locked and
    dated."""
    file = next(it for it in items if not it.is_folder and not it.is_locked)
    calls = [Call.of('mkdir', ROOT, HOME)]
    for at, name in enumerate(MADE):
        calls += [Call.of('create', next_id, name), Call.of('lock', next_id, name), Call.of('unlock', next_id, name),
                  Call.of('rename', next_id, name, f'{name} anew'), Call.of('setfinfo', next_id, f'{name} anew', f'{at:02x}' * 16)]
    calls += [Call.of('move', file.parent, file.name, next_id), Call.of('move', next_id, file.name, file.parent)] * 3
    return calls + [Call.of('delete', next_id, f'{name} anew') for name in MADE] + [Call.of('delete', ROOT, HOME)]


def ensure_watched(answers: list[str], asked: list[int], states: list[list[str]], who: str) -> None:
    """A difference where a viewer's answers are not those of the volume at moments of which none
    comes before an earlier one."""
    moment = 0
    for told, question in zip(answers, asked, strict=True):
        later = next((it for it in range(moment, len(states)) if states[it][question] == told), None)
        ensure(later is not None, f'{who} is told {told[:200]!r} from moment {moment} on')
        moment = later


def watch(bench: Bench, content: bytes, viewers: int = 4, rounds: int = 60) -> int:
    """Lets viewers read beside a worker that changes; how many answers they got."""
    next_id = Catalog(content).image.next_id
    changes = watched_changes(items_of(content), next_id)
    questions = [Call.of('list', ROOT), Call.of('list', next_id), Call.of('dirinfo', ROOT), Call.of('indexed', next_id, 2), Call.of('info', next_id, MADE[0])]
    image = bench.lay('image', content)
    script = [it for change in [None, *changes] for it in ([change] if change else []) + questions]
    plain = [it.told for it in bench.plain(image, bench.lay('plain_script', script_of(script)), NOW)[0]]
    states = [plain[:len(questions)]]
    for at in range(len(questions), len(plain), len(questions) + 1):
        states.append(plain[at + 1:at + 1 + len(questions)])
    asked = [it % len(questions) for it in range(rounds)]
    names = [f'v{it}' for it in range(1, viewers + 1)]
    lines = ''.join(questions[it].line(name) for it in asked for name in names)
    changes_text = bench.lay('script', script_of(changes) + lines)
    for tool in bench.programs.tools:
        answers = read_answers(bench.run(tool, image, changes_text, NOW, bench.folder / 'saved'))
        worked = [it.told for it in answers if it.who == '1']
        ensure(worked == plain[len(questions)::len(questions) + 1], 'the worker is answered otherwise beside viewers')
        for name in names:
            ensure_watched([it.told for it in answers if it.who == name], asked, states, name)
    return len(bench.programs.tools) * viewers * rounds


# ---- all of it

def try_volume(bench: Bench, name: str, content: bytes) -> None:
    """Changes a volume that is not locked."""
    count, most = set_and_unlock(bench, content)
    print(f'{name}: {count} items set, at most {most} blocks by a call')
    told = [delete_all(bench, content, next_of) for next_of in DELETIONS.values()]
    ensure(all(it == told[0] for it in told), 'in another order other blocks are left')
    print(f"{name}: all files deleted in {len(told)} orders, folders {told[0]['folders']}, free {told[0]['free']}, unowned {told[0]['unowned']}")
    roomy = with_room(content, ROOM) if name != LOCKED_NAME else content
    print(f'{name}: {move_about(bench, roomy)} items renamed, moved and given IDs, and all that undone')
    filled = fill_and_empty(bench, content)
    print(f'{name}: {filled} files made up to -34 and deleted')
    if name == NARROW:
        return
    story = tell_story(bench, content)
    print(f'{name}: files made in {story.home} from {story.first} on, files {story.files}, folders {story.folders}')
    print(f'{name}: {watch(bench, content)} answers to viewers beside a worker')


def try_all(bench: Bench) -> None:
    for known in SOUND:
        content = image_of(known.name).read_bytes()
        bench.counts.lists += 1
        if known.name == NARROW:
            refuse_folder(bench, content)
            print(f'{known.name}: no folder made with {NARROW_ROOM}')
        if known.name == LOCKED_NAME:
            print(f'{known.name}: {refuse_all(bench, content)} items refused')
            content = unlocked(content)
        try_volume(bench, known.name, content)


# ---- images for other programs

def set_items(bench: Bench, content: bytes) -> bytes:
    """Each item dated, a locked file too, and each file typed and locked."""
    asked = []
    for item in items_of(content):
        # Created on 3 February 2001 at 04:05:06, changed on 31 December 1999 at 23:59:59, backed up
        # on 29 February 2000 at 12:00:00.
        dated = replace(item, created=3_064_017_906, modified=3_029_529_599, backup=3_034_670_400, finder=bytes(32))
        place = (item.parent, item.name)
        typed = [(Call.of('setfinfo', *place, b'TypeMade'.hex() + '00' * 8), DONE), (Call.of('lock', *place), DONE)]
        asked += [(set_info(item, dated), DONE)] if item.is_folder else [(Call.of('unlock', *place), DONE), (set_info(item, dated), DONE), *typed]
    disk = Disk(bench, content)
    make_all(disk, asked)
    return disk.image.content


def unlock_files(bench: Bench, content: bytes) -> bytes:
    """Each file unlocked."""
    disk = Disk(bench, content)
    make_all(disk, unlocking(items_of(content))[0])
    return disk.image.content


LEFT = {'set': set_items, 'unlock': unlock_files, 'story': lambda bench, content: tell_story(bench, content).content}


def main() -> None:
    parser = argparse.ArgumentParser(description=__doc__.split('\n')[0])
    parser.add_argument('--kept', type=Path, default=Path('real_changes.kept'), help='the folder in which the files of a difference are left')
    words = parser.add_subparsers(dest='word')
    leave = words.add_parser('leave', help='writes the image that some calls leave')
    leave.add_argument('calls', choices=LEFT)
    leave.add_argument('image', type=Path)
    leave.add_argument('out', type=Path)
    given = parser.parse_args()
    started = time.monotonic()
    with opened_bench(found_programs(), given.kept) as bench:
        if given.word == 'leave':
            given.out.write_bytes(LEFT[given.calls](bench, given.image.read_bytes()))
        else:
            try_all(bench)
            finished('changes of real volumes', bench, started)


if __name__ == '__main__':
    main()
