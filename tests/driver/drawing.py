"""Random calls: the same seed gives the same."""
import random
from typing import Sequence

from driver.calls import Call
from driver.disk import State

# What stands before the letter of a drawn name, and how often.
STEMS = {
    'item ': 6, 'ITEM ': 3, 'A Name Of Thirty Bytes In All ': 4, 'a name of twenty-nine bytes.. ': 1, 'x:y': 1,
    'this name is longer than any that an item may have': 1,
}
LETTERS = 'abcdefghijkl'
# How often each word is drawn.
WORDS = {
    'create': 4, 'mkdir': 3, 'delete': 3, 'move': 7, 'rename': 4, 'lock': 1, 'unlock': 1, 'newid': 3, 'dropid': 1, 'resolve': 1,
    'setfinfo': 1, 'setinfo': 1, 'dirinfo': 1, 'info': 1, 'indexed': 1, 'list': 1, 'read': 1, 'seteof': 1, 'write': 2,
}
ROOT_ID, NO_ID = 2, 99_999


def drawn_of(draw: random.Random, weights: dict[str, int]) -> str:
    return draw.choices(list(weights), list(weights.values()))[0]


class Drawing:
    """Draws calls on a volume, of which it knows the items as they were when it was last told of them."""

    def __init__(self, draw: random.Random, state: State):
        self.draw = draw
        self.tell(state)

    def tell(self, state: State) -> None:
        """Takes these items as those of the volume."""
        self.next_id = state.next_id
        fields = [item.split('\t') for item in state.items]
        self.folders = [it[0] for it in fields if it[2] == 'd']
        self.files = [it[0] for it in fields if it[2] == 'f']
        self.places = [(it[1], it[-1]) for it in fields]

    def given(self) -> int:
        """An ID that was given lately, or the next."""
        return self.next_id - self.draw.randrange(min(12, max(1, self.next_id - 15)))

    def folder(self) -> str:
        """The ID of the root, of a folder, or one that no folder has."""
        kind = self.draw.randrange(8)
        if kind < 3:
            return str(ROOT_ID)
        if kind == 3:
            return str(NO_ID)
        return self.draw.choice(self.folders) if kind < 6 else str(self.given())

    def name(self) -> str:
        """A name, most of a few that come again and again; now and then one that no item may have."""
        return drawn_of(self.draw, STEMS) + self.draw.choice(LETTERS)

    def in_other_case(self, name: str) -> str:
        """A name as it is, or in the other case."""
        return self.draw.choice((name, name, name.upper(), name.lower()))

    def place(self) -> tuple[str, str]:
        """A folder and a name: those of an item, or others."""
        if self.draw.random() < 0.5:
            return self.folder(), self.name()
        folder, name = self.draw.choice(self.places)
        return folder, self.in_other_case(name)

    def file_id(self) -> str:
        """The ID of a file, of the root, or another one."""
        kind = self.draw.randrange(8)
        if kind == 0:
            return str(ROOT_ID)
        return self.draw.choice(self.files) if self.files and kind < 5 else str(self.given())

    def digits(self, count: int) -> str:
        """So many hexadecimal digits, of either case."""
        return self.draw.choice('0123456789abcdefABCDEF') * count

    def moment(self) -> int:
        return self.draw.choice((0, 1, 1 << 31, (1 << 32) - 1, self.draw.randrange(1 << 32)))

    def more_fields(self, word: str, name: str) -> list:
        """The fields of a word behind its folder and its name."""
        draw = self.draw
        if word == 'rename':
            return [name.upper() if draw.randrange(3) == 0 else self.name()]
        if word == 'move':
            return [self.folder()]
        if word == 'setfinfo':
            return [self.digits(32)]
        if word == 'setinfo':
            return [self.moment(), self.moment(), self.moment(), self.digits(64)]
        if word == 'read':
            return [draw.choice(('data', 'res')), draw.choice((0, 0, 1, 511, 1000, 70_000)), draw.choice((0, 1, 600, 65_536, 65_537))]
        if word == 'seteof':
            return [draw.choice(('data', 'res')), draw.choice((0, 1, 512, 700, 1600, 1 << 31, draw.randrange(1 << 15)))]
        if word == 'write':
            offset = draw.choice((0, 0, 0, 1, 500, 700, (1 << 31) - 1))
            return [draw.choice(('data', 'res')), offset, f'{draw.randrange(256):02x}' * draw.choice((0, 1, 13, 520, 20_000))]
        return []

    def call(self) -> Call:
        word = drawn_of(self.draw, WORDS)
        if word in ('dropid', 'resolve'):
            return Call.of(word, self.file_id())
        folder, name = self.place()
        if word in ('dirinfo', 'list'):
            return Call.of(word, folder)
        if word == 'indexed':
            return Call.of(word, folder, self.draw.randrange(5))
        return Call.of(word, folder, name, *self.more_fields(word, name))

    def calls(self, count: int) -> list[Call]:
        return [self.call() for _ in range(count)]


def parts(draw: random.Random, count: int, sizes: Sequence[int]) -> list[int]:
    """Sizes of these whose sum is the count; the last may be another."""
    taken: list[int] = []
    while sum(taken) < count:
        taken.append(min(draw.choice(sizes), count - sum(taken)))
    return taken
