"""What is expected of a program, and the difference if it does something else."""
import os
import tempfile


class Difference(Exception):
    """What a program does is not what another program or a hand says."""


def agrees_in_a_folder(word: str, run) -> bool:
    """Whether what is run in a new folder finds no difference; else that is printed, of this word."""
    with tempfile.TemporaryDirectory() as folder:
        os.chdir(folder)
        try:
            run()
        except Difference as differs:
            print(f'{word} differs: {differs}')
            return False
        finally:
            os.chdir('/')
    return True


def ensure(holds: bool, what: str) -> None:
    if not holds:
        raise Difference(what)


def ensure_same(found, wanted, what: str) -> None:
    """A difference where two lists aren't the same, with the first row that isn't."""
    for n, (one, other) in enumerate(zip(found, wanted)):
        ensure(one == other, f'{what}, row {n}: {one!r} in place of {other!r}')
    ensure(len(found) == len(wanted), f'{what}: {len(found)} rows in place of {len(wanted)}')
