"""The programs: where they are, and what they print of which words."""
import os
import pty
import subprocess
from dataclasses import dataclass
from pathlib import Path

from driver.wanted import Difference

ROOT = Path(__file__).resolve().parents[2]
# Volumes of other programs.
REAL_VOLUMES = ROOT / 'tests' / 'volumes'
# How many seconds a program may take, also where others work beside it, if nothing else is said.
SECONDS = 600
# No program looks at its environment.
ENVIRONMENT = {'PATH': os.defpath}
# Runs the words behind it, and prints how they end, and their most memory. The memory of what begins a program counts as its own, so it is little.
MEASURED = '''
import os, sys
_, status, used = os.wait4(os.posix_spawn(sys.argv[1], sys.argv[1:], os.environ), 0)
print(status, used.ru_maxrss)
'''


def ended(program, words, given=None, seconds=SECONDS, **how) -> tuple[int, bytes, bytes]:
    """How a run of a program with these words ends, what it prints, and what it writes to standard error. On standard input it is given these
    bytes, or nothing."""
    fed = {'input': given} if given is not None else {'stdin': subprocess.DEVNULL}
    words = (it if isinstance(it, bytes) else str(it) for it in words)
    ran = subprocess.run([program, *words], stdout=subprocess.PIPE, stderr=subprocess.PIPE, timeout=seconds, **fed, **how)
    return ran.returncode, ran.stdout, ran.stderr


def ended_at_terminal(program, words, **how) -> tuple[int, bytes, bytes]:
    """The same where standard error is a terminal."""
    terminal, line = pty.openpty()
    run = subprocess.Popen([program, *map(str, words)], stdin=subprocess.DEVNULL, stdout=subprocess.PIPE, stderr=line, **how)
    os.close(line)
    printed, said = run.stdout.read(), b''
    try:
        while part := os.read(terminal, 4096):
            said += part
    except OSError:
        # The program has ended, and with it the terminal's other side.
        pass
    os.close(terminal)
    return run.wait(), printed, said


@dataclass(frozen=True)
class Ran:
    """How a program ended, and what it wrote to standard output: a character for each byte."""
    status: int
    text: str


@dataclass(frozen=True)
class Program:
    """A program that was built, with a name that tells how."""
    name: str
    path: Path

    def run(self, *words, given=None, seconds=SECONDS) -> Ran:
        """Runs the program with these words, and these bytes on standard input."""
        try:
            status, printed, errors = ended(self.path, words, given, seconds, close_fds=False, env=ENVIRONMENT)
        except subprocess.TimeoutExpired:
            raise Difference(f"{self.name} takes more than {seconds} s of '{' '.join(map(str, words))}'") from None
        if errors:
            raise Difference(f'{self.name} writes to standard error: {errors[:400]!r}')
        return Ran(status, printed.decode('latin-1'))

    def text(self, *words) -> str:
        """What the program prints of these words, which it takes."""
        ran = self.run(*words)
        if ran.status != 0:
            raise Difference(f"{self.name} ends with {ran.status} of '{' '.join(map(str, words))}': {ran.text[:200]}")
        return ran.text


@dataclass(frozen=True)
class Programs:
    """hfs_tool as LLVM builds it, and then as Rattle's own compiler does, where it does; and hfs_plain."""
    tools: tuple[Program, ...]
    plain: Program

    @property
    def tool(self) -> Program:
        """hfs_tool as its users have it."""
        return self.tools[0]


def built(crate: str) -> Path:
    """A program as LLVM builds it, or the one that HFS_TOOL, HFS_COLLECT or HFS_PLAIN names; it is proved and built first where it isn't there,
    or a source of it is newer."""
    found = subprocess.run(['bash', ROOT / 'tests' / 'common.sh', crate], stdin=subprocess.DEVNULL, stdout=subprocess.PIPE, text=True)
    if found.returncode != 0:
        raise SystemExit(f'{crate} is not built')
    return Path(found.stdout.rstrip('\n'))


def found_programs() -> Programs:
    """The programs of this repository, or those that HFS_TOOL, HFS_TOOL_BY_RATTLE and HFS_PLAIN name."""
    llvm = built('hfs_tool')
    own = Path(os.environ.get('HFS_TOOL_BY_RATTLE') or llvm.with_name(llvm.name + '.by-rattle'))
    tools = [Program('hfs_tool', llvm)]
    if own.exists():
        tools.append(Program('hfs_tool by Rattle', own))
    return Programs(tuple(tools), Program('hfs_plain', built('hfs_plain')))
