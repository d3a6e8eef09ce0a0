"""A volume's forks as calls leave them, written from docs/CALLS.md and docs/FORMATS.md alone: which blocks are added and freed, where
extents are, and each byte of each block. It shares no code with the program, and knows the calls that make files, and those that write."""
from dataclasses import dataclass, field
from typing import Optional

from driver.calls import Call
from driver.image import BLOCK, Image, Tree, number_at
from driver.wanted import ensure

# The codes of a volume's locks, of which the first that is set counts: bits 7 and 15 of drAtrb.
LOCKS = ((0x0080, -44), (0x8000, -46))
MOST_BYTES, LONGEST, TOO_MANY = 65_536, (1 << 31) - 1, 1 << 32
FORKS = ('data', 'res')
# A record of the extents tree in which a leaf has room for so many.
LEAF_RECORDS = 22

Extent = tuple[int, int]


@dataclass
class Fork:
    """A fork: its length, and its extents by their places, the three of the file's record first."""
    length: int
    physical: int
    places: list[Extent]

    @property
    def blocks(self) -> list[int]:
        return [first + it for first, count in self.places for it in range(count)]

    def records(self) -> dict[int, list[Extent]]:
        """The extents behind the first three, by threes under the number of blocks before them."""
        found, before = {}, sum(count for _, count in self.places[:3])
        for at in range(3, len(self.places), 3):
            found[before] = self.places[at:at + 3]
            before += sum(count for _, count in self.places[at:at + 3])
        return found

    def last(self) -> int:
        """The place of the last extent that has blocks, or -1."""
        return next((at for at in reversed(range(len(self.places))) if self.places[at][1]), -1)

    def add(self, first: int, count: int) -> None:
        """Blocks come behind the last one."""
        at = self.last()
        if at >= 0 and sum(self.places[at]) == first:
            self.places[at] = (self.places[at][0], self.places[at][1] + count)
            return
        if at + 1 == len(self.places):
            self.places += [(0, 0)] * 3
        self.places[at + 1] = (first, count)

    def cut(self, count: int) -> None:
        """So many blocks stay."""
        left = count
        for at, (first, had) in enumerate(self.places):
            stay = min(had, left)
            left -= stay
            if stay < had:
                self.places[at] = (first, stay) if stay else (0, 0)
        while len(self.places) > 3 and not any(count for _, count in self.places[-3:]):
            del self.places[-3:]


@dataclass
class Item:
    """A file, or a folder, which has no forks."""
    number: int
    locked: bool = False
    modified: int = 0
    forks: dict[str, Fork] = field(default_factory=dict)


def extent_record(content: bytes, at: int) -> list[Extent]:
    return [(number_at(content, it, 2), number_at(content, it + 2, 2)) for it in range(at, at + 12, 4)]


def need_of(count: int, tree: Tree) -> int:
    """The free nodes of an extents tree that so many new records need."""
    if count == 0:
        return 0
    if tree.depth <= 1 and tree.records + count <= LEAF_RECORDS:
        return 1 - tree.depth
    return TOO_MANY if tree.depth + count > 16 else count * tree.depth + count * (count + 1) // 2


def upper(name: str) -> str:
    return ''.join(chr(ord(it) - 32) if 'a' <= it <= 'z' else it for it in name)


def is_name(name: str) -> bool:
    return 1 <= len(name) <= 31 and all(' ' <= it <= '~' and it not in ':`' for it in name)


class Forks:
    """A volume's items, its free blocks, and the bytes of its allocation blocks."""

    def __init__(self, content: bytes):
        image = Image(content)
        self.content, self.size = bytearray(content), image.factor * BLOCK
        self.start, self.count = image.allocation_start * BLOCK, image.block_count
        self.used = [bool(image.bitmap[it // 8] & 0x80 >> it % 8) for it in range(self.count)]
        self.attributes, self.next_id = image.field(10, 2), image.next_id
        self.items: dict[tuple[int, str], Item] = {}
        more = {}
        for key, body in image.extents_tree.entries():
            more.setdefault((number_at(key, 2, 4), FORKS[key[1] == 0xFF]), []).append(extent_record(body, 0))
        for key, body in image.catalog.entries():
            if body[0] in (1, 2):
                self.items[number_at(key, 2, 4), upper(key[7:7 + key[6]].decode('latin-1'))] = self.item(body, more)

    @staticmethod
    def item(body: bytes, more) -> Item:
        """An item by the body of its record."""
        if body[0] == 1:
            return Item(number_at(body, 6, 4))
        number, item = number_at(body, 20, 4), Item(number_at(body, 20, 4), bool(body[2] & 1), number_at(body, 48, 4))
        for name, at, extents in (('data', 26, 74), ('res', 36, 86)):
            places = extent_record(body, extents) + [it for three in more.get((number, name), []) for it in three]
            item.forks[name] = Fork(number_at(body, at, 4), number_at(body, at + 4, 4), places)
        return item

    # What is asked of the volume.

    @property
    def free(self) -> int:
        return self.count - sum(self.used)

    def free_runs(self) -> list[Extent]:
        """The runs of free blocks, each as long as can be."""
        runs, at = [], 0
        while at < self.count:
            first = at
            while at < self.count and not self.used[at]:
                at += 1
            if at > first:
                runs.append((first, at - first))
            at += 1
        return runs

    def bytes_of(self, fork: Fork) -> bytes:
        places = (self.start + it * self.size for it in fork.blocks)
        return b''.join(self.content[at:at + self.size] for at in places)[:fork.length]

    def lay(self, fork: Fork, at: int, content: bytes) -> None:
        """Lays bytes over those of a fork's blocks."""
        blocks = fork.blocks
        while content:
            place, within = at // self.size, at % self.size
            part = content[:self.size - within]
            begin = self.start + blocks[place] * self.size + within
            self.content[begin:begin + len(part)] = part
            at, content = at + len(part), content[len(part):]

    # The calls.

    def make(self, call: Call, tree: Tree, now: int) -> str:
        """Makes a call, when the extents tree is this one. Its answer; of reading calls, `read` alone is known."""
        word, fields = call.word, call.fields
        if word in ('seteof', 'write'):
            return self.write(word, fields, tree, now)
        if word == 'read':
            return self.read(fields)
        return self.change(word, fields, now)

    def code_of(self, folder: int, name: str) -> Optional[int]:
        """The code of a place that no item has, or None where one has it."""
        if not is_name(name):
            return -37
        if folder != 2 and not any(item.number == folder and not item.forks for item in self.items.values()):
            return -120
        return None if (folder, upper(name)) in self.items else -43

    def read(self, fields) -> str:
        folder, name, fork, offset, count = int(fields[0]), fields[1], fields[2], int(fields[3]), int(fields[4])
        if count > MOST_BYTES:
            return '-50\t-'
        code = self.code_of(folder, name)
        item = self.items.get((folder, upper(name)))
        if code or not item.forks:
            return f'{code or -43}\t-'
        content = self.bytes_of(item.forks[fork])
        digits = content[offset:offset + count].hex()
        return f'{0 if offset + count <= len(content) else -39}\tbytes{digits and " " + digits}'

    def change(self, word: str, fields, now: int) -> str:
        """Calls that make and drop items, and lock files."""
        folder, name = int(fields[0]), fields[1]
        code = self.lock_code() or self.code_of(folder, name)
        place = folder, upper(name)
        if word in ('create', 'mkdir'):
            if code != -43:
                return f'{code or -48}\t-'
            forks = {it: Fork(0, 0, [(0, 0)] * 3) for it in FORKS} if word == 'create' else {}
            self.items[place] = Item(self.next_id, False, now, forks)
            self.next_id += 1
            return f'0\tid {self.next_id - 1}'
        if code:
            return f'{code}\t-'
        return self.delete(place) if word == 'delete' else self.set_lock(self.items[place], word == 'lock')

    def delete(self, place: tuple[int, str]) -> str:
        item = self.items[place]
        if any(folder == item.number for folder, _ in self.items):
            return '-47\t-'
        if item.locked:
            return '-45\t-'
        for fork in item.forks.values():
            self.mark(fork.blocks, False)
        del self.items[place]
        return '0\t-'

    @staticmethod
    def set_lock(item: Item, locked: bool) -> str:
        if not item.forks:
            return '-43\t-'
        item.locked = locked
        return '0\t-'

    def lock_code(self) -> Optional[int]:
        return next((code for bit, code in LOCKS if self.attributes & bit), None)

    def mark(self, blocks, used: bool) -> None:
        for it in blocks:
            self.used[it] = used

    def write(self, word: str, fields, tree: Tree, now: int) -> str:
        folder, name, fork, at = int(fields[0]), fields[1], fields[2], int(fields[3])
        content = bytes.fromhex(fields[4]) if word == 'write' else b''
        if len(content) > MOST_BYTES or at + len(content) > LONGEST:
            return '-50\t-'
        code = self.lock_code() or self.code_of(folder, name)
        item = self.items.get((folder, upper(name)))
        if code or not item.forks:
            return f'{code or -43}\t-'
        if item.locked:
            return '-45\t-'
        found = item.forks[fork]
        if word == 'write' and at > found.length:
            return '-39\t-'
        length = at if word == 'seteof' else max(found.length, at + len(content))
        wanting = self.resize(found, length, tree)
        if wanting:
            return wanting
        self.lay(found, at, content)
        item.modified = now
        return '0\t-'

    def resize(self, fork: Fork, length: int, tree: Tree) -> Optional[str]:
        """Gives a fork another length. What is wanting, and then nothing is done."""
        wanted, had = -(-length // self.size), len(fork.blocks)
        if wanted > had:
            if self.free < wanted - had:
                return f'-34\troom {self.free} {wanted - had}'
            after = Fork(0, 0, list(fork.places))
            used = list(self.used)
            for first, count in self.chosen(fork, wanted - had):
                after.add(first, count)
            come = len(after.records().keys() - fork.records().keys())
            if tree.free < need_of(come, tree):
                self.used = used
                return f'-34\tfull {tree.free} {tree.depth}'
            fork.places = after.places
            for block in fork.blocks[had:]:
                self.content[self.start + block * self.size:self.start + (block + 1) * self.size] = bytes(self.size)
        else:
            self.mark(fork.blocks[wanted:], False)
            fork.cut(wanted)
        kept = min(length, min(wanted, had) * self.size)
        if kept > fork.length:
            self.lay(fork, fork.length, bytes(kept - fork.length))
        fork.length, fork.physical = length, wanted * self.size
        return None

    def chosen(self, fork: Fork, count: int) -> list[Extent]:
        """The runs of blocks that come to a fork, which are marked."""
        pieces = []
        blocks = fork.blocks
        at = blocks[-1] + 1 if blocks else self.count
        first = at
        while at < self.count and at - first < count and not self.used[at]:
            at += 1
        if at > first:
            pieces.append((first, at - first))
            self.mark(range(first, at), True)
        rest, runs = count - (at - first), self.free_runs()
        whole = next((it for it in runs if it[1] >= rest), None)
        for begin, length in [whole] if whole else sorted(runs, key=lambda it: (-it[1], it[0])):
            taken = min(length, rest)
            if taken:
                pieces.append((begin, taken))
                self.mark(range(begin, begin + taken), True)
            rest -= taken
        return pieces

    # The volume beside an image.

    def ensure(self, image: Image) -> None:
        """A difference where an image has other forks, other blocks of these, or other bytes."""
        other = Forks(image.content)
        ensure(other.items.keys() == self.items.keys(), 'the volume has other items')
        for place, item in self.items.items():
            found = other.items[place]
            ensure((found.number, found.locked) == (item.number, item.locked), f'{place} is another item')
            for name, fork in item.forks.items():
                ensure(found.forks[name] == fork, f'{place} {name} is {found.forks[name]}, wanted {fork}')
                ensure(found.modified == item.modified or not item.modified, f'{place} is modified at {found.modified}')
            for name, fork in item.forks.items():
                records = {before: three for before, three in fork.records().items()}
                ensure(self.overflow(image, item.number, name) == records, f'{place} {name} has other records of extents')
        ensure(other.used == self.used, 'other blocks are marked')
        ensure(image.free_blocks == self.free, f'drFreeBks is {image.free_blocks}, and {self.free} blocks are free')
        trees = set(image.extents_tree.blocks) | set(image.catalog.blocks)
        area = range(self.start // BLOCK, self.start // BLOCK + self.count * self.size // BLOCK)
        for block in area:
            if block not in trees:
                ensure(image.block(block) == self.content[block * BLOCK:(block + 1) * BLOCK], f'block {block} has other bytes')

    @staticmethod
    def overflow(image: Image, number: int, fork: str) -> dict[int, list[Extent]]:
        return {number_at(key, 6, 2): extent_record(body, 0) for key, body in image.extents_tree.entries()
                if number_at(key, 2, 4) == number and FORKS[key[1] == 0xFF] == fork}
