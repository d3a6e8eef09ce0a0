"""Calls as scripts have them, and their answers (docs/SCRIPTS.md)."""
from dataclasses import dataclass
from typing import Optional

DISK_FULL = -34
FOLDER_FULL = -33
# The calls that write a fork.
WRITING = ('seteof', 'write')
# More nodes than any tree has.
TOO_MANY = 1 << 32


@dataclass(frozen=True)
class Room:
    """The free nodes of a catalog tree, and its depth in levels."""
    free: int
    depth: int


def folded(name: str) -> str:
    """A name as names are compared: the letters a to z as A to Z."""
    return ''.join(chr(ord(it) - 32) if 'a' <= it <= 'z' else it for it in name)


def one_record(depth: int) -> int:
    """The free nodes for a record that comes: one for each level, and one for a root."""
    return TOO_MANY if depth >= 16 else depth + 1


def two_records(depth: int) -> int:
    """The free nodes for a folder and its thread."""
    return TOO_MANY if depth >= 15 else 2 * depth + 3


@dataclass(frozen=True)
class Call:
    """A call: its word, and its fields as they stand in a script."""
    word: str
    fields: tuple[str, ...]

    @classmethod
    def of(cls, word: str, *fields) -> 'Call':
        return cls(word, tuple(map(str, fields)))

    def line(self, who='1') -> str:
        """The line of a script in which this caller makes the call."""
        return '\t'.join((str(who), self.word, *self.fields)) + '\n'

    @property
    def is_reading(self) -> bool:
        return self.word in ('dirinfo', 'info', 'indexed', 'list', 'read', 'resolve')

    @property
    def is_writing(self) -> bool:
        """Whether it writes a fork. Such a call needs no node of the catalog."""
        return self.word in WRITING

    def need(self, depth: int) -> int:
        """The free nodes that the call needs in a catalog of this depth: its reserve (docs/CALLS.md)."""
        if self.word == 'mkdir':
            return two_records(depth)
        if self.word in ('create', 'move', 'newid'):
            return one_record(depth)
        if self.word == 'rename' and folded(self.fields[1]) != folded(self.fields[2]):
            return one_record(depth)
        return 0


def script_of(calls, who='1') -> str:
    """The script in which one caller makes these calls."""
    return ''.join(call.line(who) for call in calls)


@dataclass(frozen=True)
class Answer:
    """The answer to a call: who called, the number of the call among the caller's, the code, and the value's lines."""
    who: str
    number: str
    code: str
    value: str

    @property
    def told(self) -> str:
        """The code and the value, which don't rest on who called."""
        return f'{self.code}\t{self.value}'

    @property
    def is_done(self) -> bool:
        return self.code == '0'

    @property
    def is_wanting(self) -> bool:
        """Whether it tells of want of nodes, or of blocks."""
        return self.code == str(DISK_FULL)

    @property
    def wanting(self) -> Optional[Room]:
        """The room that the answer tells, where it tells of want of the catalog's nodes."""
        if not self.is_wanting:
            return None
        word, free, depth = self.value.split(' ')
        if word != 'full':
            raise ValueError(f'the value of an answer with the code -34 is {self.value}')
        return Room(int(free), int(depth))


def read_answers(text: str) -> list[Answer]:
    """The answers that a text has. A line that begins with a tab goes on with the answer before it."""
    answers = []
    for line in text.split('\n')[:-1]:
        if line.startswith('\t'):
            last = answers[-1]
            answers[-1] = Answer(last.who, last.number, last.code, last.value + '\n' + line)
        else:
            answers.append(Answer(*line.split('\t', 3)))
    return answers
