"""Random disks: new volumes filled with folders and files of all names, dates, Finder bytes, forks and locks. The same seed gives the same."""
import random
from dataclasses import dataclass, field

from driver.calls import Call, folded
from driver.image import BLOCK, number_at
from driver.putting import ROOT

# Characters of item names, and names that mean something to a host, to a bag or to other systems.
LETTERS = ''.join(chr(it) for it in range(32, 127) if chr(it) not in ':`')
MARKED = ('.', '..', '.DS_Store', '._a', '._', '=41', '=2F', '=', 'a=3D', 'CON', 'nul.txt', 'LPT1', 'data', 'bagit.txt', 'items.csv', 'a.', 'a ', ' a', ' ', '~', '/',
          'x/y', '\\', '\\5c', 'a\\b', '"', 'a,b', "it's", '-n', '--name', '*', '?', '<b>', '&amp;', '|', 'A', 'a', 'README', 'Read Me', 'n' * 31, '~' * 31, '/' * 31)
LENGTHS = (0, 0, 0, 1, 2, 511, 512, 513, 1_000, 4_096, 9_000, 30_000)
ITEMS = (0, 1, 2, 5, 15, 30, 60, 120)
EXTENTS_NODES = 8
# The first ID that an item gets.
FIRST_ID = 16


@dataclass
class Filling:
    """A drawn disk: its name, and the calls that fill a new volume."""
    draw: random.Random
    name: str = ''
    calls: list[Call] = field(default_factory=list)
    bytes: int = 0
    taken: set = field(default_factory=set)
    folders: list[int] = field(default_factory=lambda: [ROOT])
    next_id: int = FIRST_ID

    @classmethod
    def drawn(cls, seed) -> 'Filling':
        draw = random.Random(seed)
        filling = cls(draw, draw.choice(('Disk', 'D', 'n' * 27, '=2F', 'a/b', '.D', cls.letters(draw, 27))))
        for _ in range(draw.choice(ITEMS)):
            filling.add()
        return filling

    @staticmethod
    def letters(draw: random.Random, most: int) -> str:
        return ''.join(draw.choice(LETTERS) for _ in range(draw.randint(1, most)))

    def place(self) -> tuple[int, str]:
        """A folder, and a name that nothing in it has."""
        while True:
            folder = self.draw.choice(self.folders)
            name = self.draw.choice(MARKED) if self.draw.random() < 0.3 else self.letters(self.draw, 31)
            if (folder, folded(name)) not in self.taken:
                return folder, name

    def call(self, word: str, *fields) -> None:
        self.calls.append(Call.of(word, *fields))

    def add(self) -> None:
        """Adds a folder or a file; now and then a file that goes again, so that its ID and its blocks are free."""
        folder, name = self.place()
        goes = self.draw.random() < 0.1
        self.next_id += 1
        if self.draw.random() < 0.25:
            self.call('mkdir', folder, name)
            self.folders.append(self.next_id - 1)
        else:
            self.call('create', folder, name)
            self.write(folder, name)
            if goes:
                self.call('delete', folder, name)
                return
        self.taken.add((folder, folded(name)))
        self.tell(folder, name, self.folders[-1] == self.next_id - 1)

    def write(self, folder: int, name: str) -> None:
        """Writes both forks, each in two parts or one."""
        for fork in self.draw.sample(('data', 'res'), 2):
            length = self.draw.choice(LENGTHS)
            content, part = self.draw.randbytes(length), self.draw.randint(0, length)
            self.bytes += length
            for at, piece in ((0, content[:part]), (part, content[part:])):
                if piece:
                    self.call('write', folder, name, fork, at, piece.hex())

    def tell(self, folder: int, name: str, is_folder: bool) -> None:
        """Sets dates, the Finder's bytes, a lock and a thread of an item, or some of them."""
        draw = self.draw
        if draw.random() < 0.8:
            dates = (draw.choice((0, 1, 1 << 31, (1 << 32) - 1, draw.randrange(1 << 32))) for _ in range(3))
            self.call('setinfo', folder, name, *dates, draw.choice((bytes(32), draw.randbytes(32), b'TEXTttxt' + bytes(24))).hex())
        if not is_folder and draw.random() < 0.2:
            self.call('newid', folder, name)
        if not is_folder and draw.random() < 0.2:
            self.call('lock', folder, name)

    @property
    def blocks(self) -> int:
        """How many blocks of 512 bytes a volume has that holds it, also in larger allocation blocks."""
        return 400 + 2 * self.nodes + self.bytes // BLOCK + 16 * len(self.calls)

    @property
    def nodes(self) -> int:
        return 40 + 8 * (len(self.calls) // 8)


def volume_name(image: bytes) -> str:
    """The name of a volume, a character for each byte."""
    at = 2 * BLOCK + 36
    return image[at + 1:at + 1 + number_at(image, at, 1)].decode('latin-1')
