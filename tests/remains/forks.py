"""The bytes that remain of each fork, and what is printed of them."""
from dataclasses import dataclass, field
from typing import Iterator, Optional

from remains.blocks import Directory
from remains.places import FORKS, Item
from remains.trees import Trees


@dataclass
class Fork:
    """A fork that was looked for: its bytes, or None where it is left, and the verdict on it."""
    content: Optional[bytes]
    verdict: str = ''
    # The allocation blocks that are there and hold bytes of it.
    blocks: list[int] = field(default_factory=list)
    notes: list[str] = field(default_factory=list)

    @property
    def bytes(self) -> bytes:
        return self.content or b''


def blocks_for(size: int, directory: Directory) -> int:
    return -(-size // directory.size)


def blocks_in(extents, count: int) -> Iterator[int]:
    """The first blocks of some extents."""
    for first, length in extents:
        yield from range(first, first + min(length, count))
        count -= min(length, count)


class Forks:
    """The forks of all items, taken in their order up to a limit of bytes."""

    def __init__(self, trees: Trees, items: list[Item], limit: int):
        self.trees, self.directory = trees, trees.directory
        self.found: dict[int, tuple[Fork, Fork]] = {}
        self.left, self.limit = limit, limit
        for it in items:
            if not it.is_folder:
                self.found[it.number] = tuple(self.taken(it, place) for place in (0, 1))
        self.tell_shared(items)

    def taken(self, item: Item, place: int) -> Fork:
        """One fork of a file: data, then resource."""
        length, first = item.length[place], item.extents[place]
        own = sum(count for _, count in first)
        wanted = blocks_for(length, self.directory)
        count = own if own >= wanted else self.trees.overflow.end(item.id, FORKS[place], own)
        size = min(length, count * self.directory.size)
        if size > self.left:
            return Fork(None, 'left')
        self.left -= size
        return self.read(self.trees.overflow.all_extents(item.id, FORKS[place], first, wanted), length, size)

    def read(self, extents, length: int, size: int) -> Fork:
        """The bytes of the first blocks: zeros for those that aren't there."""
        image, block_size, fork, pieces = self.directory.image, self.directory.size, Fork(b''), []
        missing, to_come = 0, size
        for block in blocks_in(extents, blocks_for(size, self.directory)):
            place, count = self.directory.place(block), min(to_come, block_size)
            to_come -= count
            if place is None:
                missing += count
                pieces.append(bytes(count))
            else:
                fork.blocks.append(block)
                pieces.append(image[place:place + count])
        fork.content = b''.join(pieces)
        if size < length:
            fork.notes.append(f'cut {size}')
        if missing:
            fork.notes.append(f'missing {missing}')
        return fork

    def tell_shared(self, items: list[Item]) -> None:
        """Tells of each fork whether it has one of its blocks with another, of those that count for it."""
        in_use = self.owned_by_trees()
        every = dict(in_use)
        for it in items:
            for fork in self.found.get(it.number, ()):
                for block in fork.blocks:
                    every[block] = every.get(block, 0) + 1
                    if not it.record.is_old:
                        in_use[block] = in_use.get(block, 0) + 1
        for it in items:
            owners = every if it.record.is_old else in_use
            for fork in self.found.get(it.number, ()):
                if any(owners[block] > 1 for block in fork.blocks):
                    fork.notes.append('shared')
                fork.verdict = fork.verdict or ','.join(fork.notes) or 'whole'

    def owned_by_trees(self) -> dict[int, int]:
        """The blocks of both trees' files, as far as the sizes in the directory go."""
        owners: dict[int, int] = {}
        for tree in (self.trees.extents, self.trees.catalog):
            for block in tree.file.blocks[:blocks_for(tree.size, self.directory)]:
                owners[block] = owners.get(block, 0) + 1
        return owners
