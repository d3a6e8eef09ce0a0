#!/usr/bin/env python3
"""Tries wrong bodies: edits of functions' bodies, crates/CRATE/wrong-bodies/NAME.edit, each of which the prover must refuse.

tests/wrong_bodies.py CRATE|CRATE/NAME..    those of these crates, or these; with neither, and with no option, all
tests/wrong_bodies.py --since COMMIT        those of the crates whose files differ from COMMIT
tests/wrong_bodies.py --look ..             proves nothing, and says in a second which of them name a text that isn't there once
tests/wrong_bodies.py --types ..            proves nothing, and says in some seconds a crate which of them don't compile
tests/wrong_bodies.py --gate                what .ci/run tries: HEADLINE, every fiftieth by name from the commit's hash on, and then, as
                                            far as ten minutes of processor time go, those of which no result is kept, of the crates
                                            that changed last first

Edits of different functions are made in one copy of their crate, and the prover is asked for these functions in one check, over the
libraries that `rt ci` or scripts/build_libraries.py left in this checkout. A body is refused if the prover has an error or a
missing proof of the function itself; that a function calls one that isn't proved says nothing, so bodies that call one another are
tried apart. A check that is killed or meets a limit of the prover refuses nothing, and fails. An edit of a constant is asked of the
functions that name it, an edit of a definition of the whole crate.

What was tried is kept in ${XDG_CACHE_HOME:-$HOME/.cache}/foyersage, by the kit, the edit, the crate's files and the libraries that it
uses as they were built; nothing is kept where that folder can't be written. --anew tries all again. RT_JOBS says how many checks run
at once. The last line is 'wrong bodies: N passed, M failed'; the status is 1 if one failed, 2 if none could be tried.
"""
import argparse
import functools
import hashlib
import json
import os
import re
import shutil
import subprocess
import sys
import tempfile
import threading
import time
from concurrent.futures import ThreadPoolExecutor
from dataclasses import dataclass, field
from pathlib import Path

ROOT = Path(__file__).resolve().parent.parent
KIT = Path('/opt/rattle')
# The wrong bodies of what the project promises first, and two or three of each word that stands on it; each is tried by each gate.
HEADLINE = [
    'hfs_volume/saved_without_its_changes',
    'hfs_volume/the_counts_are_left_stale',
    'hfs_volume/every_image_is_refused',
    'hfs_volume/refusal_with_another_image',
    'hfs_call_patches/an_id_is_given_twice',
    'hfs_call_patches/overflow_records_are_forgotten',
    'hfs_call_patches/a_move_forgets_a_valence',
    'hfs_call_patches/kept_bytes_are_dropped',
    'hfs_shared/another_call_is_applied',
    'hfs_shared/a_reply_is_invented',
    'hfs_shared/an_entry_is_dropped',
    'hfs_shared/some_of_what_waits_is_shown',
    'hfs_shared/no_free_nodes_are_told',
    'hfs_runs/a_call_of_its_own_behind_the_lines',
    'hfs_runs/another_volume_is_run',
    'hfs_runs/codes_are_not_compared',
    'hfs_volume/sum_left_as_it_was',
    'hfs_word_take/nothing_written_and_told_as_made',
    'hfs_word_take/digest_of_another_range',
    'hfs_word_rescue/a_rescue_that_writes_nothing',
    'hfs_word_rescue/a_list_that_prints_nothing',
    'hfs_word_rescue/refused_image_shown_as_sound',
    'hfs_word_collect/refused_volume_left_out',
    'hfs_word_collect/end_before_the_rows',
    'hfs_word_collect/collected_image_told_as_unread',
    'hfs_word_collect/readable_image_told_as_missing',
    'hfs_database/unknown_image_told_as_unread',
    'hfs_console/each_given_number_is_refused',
    'hfs_page/a_row_that_comes_twice',
    'hfs_page/a_legend_that_ends_another_element',
]
SHARE = 50
# Seconds of processor time after which --gate begins no further check of what is only due.
SPENT = 600
# A copy with more would be checked for minutes, and little is known until then.
MOST_IN_A_COPY = 4
# Seconds on the clock after which a check is killed.
PATIENCE = 1_800

FUNCTION = re.compile(r'^( *)(?:pub(?:\([a-z]+\))? )?(?:final )?(?:const )?(?:unsafe )?fn (\w+)', re.M)
# What stands between angle brackets, with such brackets in it three deep.
ANGLES = r'<(?:->|[^<>]|<(?:->|[^<>]|<(?:->|[^<>]|<[^<>]*>)*>)*>)*>'
IMPL = re.compile(rf'^impl(?:{ANGLES})? (?:(?:\w+::)*(\w+)(?:(?=<(?:(?:\w+::)*([A-Z]\w*))?){ANGLES})?\s+for )?(\w+)', re.M)
CONSTANT = re.compile(r'^ *(?:pub(?:\([a-z]+\))? )?(?:const|static) (\w+)', re.M)
ANSWER = re.compile(r'^fn (\S+): (proved|not proved|no proof)(?:[:;] (.*))?$', re.M)
CALLS = re.compile(r'it calls `[^`]*`(?:, `[^`]*`)*(?: and `[^`]*`)?, which (?:is|are) not proved')
# What is said of a proof file where an edit took away a name that it has: that says nothing of the contract.
LOST_NAME = re.compile(r'has no field|is not in scope|has no `|was not admitted')
# The prover's own words for its limits.
LIMIT = re.compile(r'antt ran out of (stack|the (steps|memory) that the check of one declaration may (take|use))'
                   r'|(outgrew the memory limit|stopped at the step limit) \(')


@dataclass(frozen=True)
class Edit:
    """A wrong body: a file of crates/CRATE/wrong-bodies, and what it changes as file, old text, new text."""
    crate: str
    name: str
    changes: tuple = field(compare=False)

    def __str__(self):
        return f'{self.crate}/{self.name}'

    @staticmethod
    def read(crate, path):
        changes, file, old = [], None, None
        for line in path.read_text('utf-8').split('\n'):
            word, _, rest = line.partition(': ')
            if word == 'file':
                file = rest
            elif word == 'old':
                old = rest
            elif line.startswith('new:'):
                changes.append((file, old, line[4:].lstrip()))
        return Edit(crate, path.stem, tuple(changes))

    def lacks(self):
        """Why the edit can't be laid into its crate, if it can't."""
        texts = {}
        for file, old, new in self.changes:
            text = texts.get(file) or source(self.crate, file)
            if text.count(old) != 1 or old == new:
                return f'the text is in {file} {text.count(old)} times, and must stand once and be changed: {old}'
            texts[file] = text.replace(old, new)
        return None

    def lay(self, folder):
        for file, old, new in self.changes:
            path = folder / file
            path.write_text(path.read_text('utf-8').replace(old, new), 'utf-8')

    @functools.cached_property
    def functions(self):
        """The paths of the functions that the prover is asked for, or none of them for the whole crate."""
        found = set()
        for file, old, _ in self.changes:
            if not file.startswith('src/'):
                return frozenset()
            found |= functions_at(self.crate, file, source(self.crate, file).index(old))
        return frozenset(found)


@functools.lru_cache(None)
def source(crate, file):
    return (ROOT / 'crates' / crate / file).read_text('utf-8')


def module_of(file):
    """The path of the module that a source file of a crate is."""
    return [it for it in Path(file).with_suffix('').parts[1:] if it not in ('lib', 'main', 'mod')]


@functools.lru_cache(None)
def files_of(crate):
    folder = ROOT / 'crates' / crate
    return [str(it.relative_to(folder)) for it in sorted((folder / 'src').rglob('*.rt'))]


def home_of(crate, kind, module):
    """The module in which a type stands: by it the prover calls the type's own methods, whichever module their impl stands in."""
    begun = re.compile(rf'^ *(?:pub(?:\([a-z]+\))? )?(?:struct|enum) {kind}\b', re.M)
    homes = [module_of(it) for it in files_of(crate) if begun.search(source(crate, it))]
    return module if module in homes or not homes else homes[0]


def parts_of(text, head):
    """The names in the arguments of the type that an impl of its own methods is of, if these are more than parameters of the impl: the
    prover's name for such a type has them all, and the module is that of the impl."""
    arguments = re.match(ANGLES, text[head.end():])
    if not arguments:
        return []
    names = re.findall(r"(?<!['\w])\w+", arguments[0])
    declared = re.findall(r'\w+', text[head.start():head.start(3)])
    return names if set(names) - set(declared) else []


@functools.lru_cache(None)
def functions_in(crate, file):
    """The functions of a source file: path, name, and the places at which each begins and ends."""
    text, found = source(crate, file), []
    for at in FUNCTION.finditer(text):
        indent, name = at.groups()
        module, path = module_of(file), name
        if indent:
            heads = list(IMPL.finditer(text, 0, at.start()))
            if not heads:
                continue
            trait, argument, kind = heads[-1].groups()
            # An argument that is a parameter of the impl itself isn't in the name.
            if argument and re.search(rf'[<,]\s*{argument}\b', text[heads[-1].start():heads[-1].start(1)]):
                argument = None
            parts = [] if trait else parts_of(text, heads[-1])
            path = f'{"+".join([kind, *parts])}{trait or ""}{argument or ""}::{name}'
            module = module if trait or parts else home_of(crate, kind, module)
        closed = re.compile(rf'^{indent}}}', re.M).search(text, at.end())
        end = closed.end() if closed else len(text)
        found.append(('::'.join([crate, *module, path]), name, at.start(), end))
    return found


def functions_at(crate, file, place):
    """The function that a place of a source file is in, or where it is in a constant the functions that name that."""
    around = {path for path, _, start, end in functions_in(crate, file) if start <= place < end}
    if around:
        return around
    text = source(crate, file)
    begun = list(CONSTANT.finditer(text, 0, text.find('\n', place)))
    if not begun or ';\n' in text[begun[-1].start():place]:
        return set()
    name = re.compile(rf'\b{begun[-1][1]}\b')
    return {path for it in files_of(crate) for path, _, start, end in functions_in(crate, it) if name.search(source(crate, it), start, end)}


@functools.lru_cache(None)
def text_of(crate, path):
    return next(source(crate, it)[start:end] for it in files_of(crate) for each, _, start, end in functions_in(crate, it) if each == path)


def are_apart(one, other):
    """Whether two edits of a crate may lie in one copy: they edit different functions, none of which names one of the other's."""
    if not one.functions or not other.functions or one.functions & other.functions:
        return False
    for edit, beside in ((one, other), (other, one)):
        names = '|'.join(path.rpartition('::')[2] for path in beside.functions)
        if any(re.search(rf'\b({names})\b', text_of(edit.crate, path)) for path in edit.functions):
            return False
    return True


def in_batches(edits):
    """The edits in lists that each lie in one copy of a crate."""
    batches = []
    for edit in edits:
        fit = (it for it in batches if it[0].crate == edit.crate and len(it) < MOST_IN_A_COPY and all(are_apart(edit, other) for other in it))
        batch = next(fit, None)
        if batch is None:
            batches.append(batch := [])
        batch.append(edit)
    return batches


def that_fit(edits):
    """The edits in lists whose texts lie in one copy of a crate: no edit changes a line that another one looks for."""
    batches = []
    for edit in edits:
        for batch, texts in batches:
            if batch[0].crate == edit.crate and laid_over(edit, texts):
                batch.append(edit)
                break
        else:
            batches.append(([edit], {}))
            laid_over(edit, batches[-1][1])
    return [batch for batch, _ in batches]


def laid_over(edit, texts):
    """Lays an edit into the texts of a copy, by file, and says whether each text that it looks for still stood there once."""
    new = dict(texts)
    for file, old, text in edit.changes:
        there = new.get(file) or source(edit.crate, file)
        if there.count(old) != 1 or texts and not file.startswith('src/'):
            return False
        new[file] = there.replace(old, text)
    texts.update(new)
    return True


@functools.lru_cache(None)
def libraries_of():
    """The libraries of this repository that each crate uses, as crates.txt has them."""
    found = {}
    for line in (ROOT / 'crates.txt').read_text('utf-8').split('\n'):
        head, colon, rest = line.partition(':')
        if colon and not line.startswith('#'):
            found[head.split()[0]] = rest.split()
    return {name: [it for it in used if it in found] for name, used in found.items()}


@functools.lru_cache(None)
def line_of(crate):
    return next(it for it in (ROOT / 'crates.txt').read_text('utf-8').split('\n') if re.match(rf'{crate}[ :]', it))


@functools.lru_cache(None)
def sum_of_crate(crate):
    """A sum of the kit, of the crate's files, and of each library that it uses as it was built; None where one isn't."""
    whole = hashlib.sha256((KIT / 'KIT-ID').read_bytes() + line_of(crate).encode())
    for part in ('src', 'specs', 'proofs'):
        for path in sorted((ROOT / 'crates' / crate / part).rglob('*')):
            if path.is_file():
                whole.update(repr((str(path.relative_to(ROOT)), path.read_bytes())).encode())
    for library in libraries_of()[crate]:
        built = ROOT / 'crates' / library / 'out' / 'rlib' / f'{library}.rlib' / 'format'
        if not built.is_file():
            return None
        whole.update(built.read_bytes())
    return whole.hexdigest()


class Kept:
    """What was tried before: of each key whether the body was refused, and what the prover said. Only refusals are kept."""

    def __init__(self, is_anew):
        cache = Path(os.environ.get('XDG_CACHE_HOME') or Path.home() / '.cache')
        self.folder, self.is_anew = cache / 'foyersage' / 'wrong-bodies', is_anew

    def path(self, edit):
        return self.folder / hashlib.sha256(repr((sum_of_crate(edit.crate), str(edit), edit.changes)).encode()).hexdigest()

    def said(self, edit):
        try:
            return None if self.is_anew else json.loads(self.path(edit).read_text('utf-8'))['said']
        except (OSError, ValueError, KeyError):
            return None

    def keep(self, edit, said):
        try:
            self.folder.mkdir(parents=True, exist_ok=True)
            new = self.folder / f'new-{os.getpid()}-{threading.get_ident()}'
            new.write_text(json.dumps({'edit': str(edit), 'said': said}), 'utf-8')
            new.rename(self.path(edit))
        except OSError:
            pass


def copied(crate, folder):
    """A copy of the crate, with the other crates beside it as links."""
    (folder / 'crates').mkdir()
    shutil.copytree(ROOT / 'scripts', folder / 'scripts')
    shutil.copy(ROOT / 'crates.txt', folder)
    for other in (ROOT / 'crates').iterdir():
        if other.name != crate:
            (folder / 'crates' / other.name).symlink_to(other)
    shutil.copytree(ROOT / 'crates' / crate, folder / 'crates' / crate, ignore=shutil.ignore_patterns('out'))
    return folder / 'crates' / crate


class Run:
    """The checks of one run of this script: what each edit came to, and the processor time that all took."""

    def __init__(self, kept):
        self.kept, self.seconds, self.printing = kept, 0.0, threading.Lock()
        self.passed, self.failed = [], []
        self.most, self.untried = None, 0

    def is_spent(self):
        """Whether the processor time is spent after which nothing more is begun."""
        return self.most is not None and self.seconds >= self.most

    def check(self, batch):
        """Asks the prover about a copy of the crate with these edits; gives its status and what it said."""
        with tempfile.TemporaryDirectory(prefix='wrong-bodies-') as folder:
            place = copied(batch[0].crate, Path(folder))
            for edit in batch:
                edit.lay(place)
            functions = sorted(set().union(*(it.functions for it in batch)))
            words = [str(Path(folder) / 'scripts' / 'check_one.sh'), batch[0].crate, *(it for name in functions for it in ('--only', name))]
            with tempfile.TemporaryFile('w+', errors='replace') as said:
                ran = subprocess.Popen(words, stdin=subprocess.DEVNULL, stdout=said, stderr=subprocess.STDOUT)
                clock = threading.Timer(PATIENCE, ran.kill)
                clock.start()
                _, status, used = os.wait4(ran.pid, 0)
                clock.cancel()
                ran.returncode = os.waitstatus_to_exitcode(status)
                said.seek(0)
                with self.printing:
                    self.seconds += used.ru_utime + used.ru_stime
                return ran.returncode, said.read()

    def refusals(self, edit, said):
        """What the prover said against the functions of an edit, or against any where the whole crate was asked for."""
        for path, answer, why in ANSWER.findall(said):
            own = [it for it in re.split(r'; (?=`?search|it calls|expected)', CALLS.sub('', why)) if it.strip(' ;')]
            if answer != 'proved' and (answer == 'not proved' or own) and (path in edit.functions or not edit.functions):
                yield f'{path}: {answer}{": " if own else ""}{"; ".join(own)}'
        for path in edit.functions:
            folder = './proofs/' + '/'.join(path.split('::')[1:]) + '/'
            for line in said.split('\n'):
                if line.startswith(folder) and ': error' in line and not LOST_NAME.search(line):
                    yield f'{path}: {line}'

    @staticmethod
    def only_refusal(said):
        """What the prover said against any function of a copy with one edit alone, if it came to the proofs."""
        lines = said.split('\n')
        if any(re.search(r'\berror\[[\w-]+\]', it) for it in lines) or not any(it.startswith(('only=', 'logic=not-proved')) for it in lines):
            return None
        told = [it for it in lines if it.startswith('./proofs/') and ': error' in it and not LOST_NAME.search(it)]
        told += [it for it in lines if re.match(r'fn \S+: (not proved|no proof)', it)]
        return told[0] if told else None

    def try_batch(self, batch):
        """Tries a batch, and alone each of its edits of which the batch says nothing."""
        status, said = self.check(batch)
        is_told = status == 1 and not LIMIT.search(said)
        left = []
        for edit in batch:
            refusal = next(self.refusals(edit, said), None) if is_told else None
            if is_told and not refusal and batch == [edit]:
                refusal = self.only_refusal(said)
            if refusal:
                self.kept.keep(edit, refusal[:200])
                self.tell(edit, True, refusal)
            elif len(batch) > 1:
                left.append(edit)
            else:
                self.tell(edit, False, self.why(status, said))
        for edit in left:
            if self.is_spent():
                self.untried += 1
            else:
                self.try_batch([edit])

    @staticmethod
    def why(status, said):
        limit = LIMIT.search(said)
        if status == 0:
            return 'NOT REFUSED: it is still proved'
        if limit:
            return f'NOT REFUSED: {limit[0]}'
        errors = [it for it in said.split('\n') if re.search(r'\berror\b|has no function', it)]
        return f'NOT TRIED: its check ended with status {status}: {(errors or said.split(chr(10)))[0][:200]}'

    def type_errors(self, edits):
        """What the compiler says of these edits of a crate, all laid into one copy and none proved: by edit, the first error of it."""
        with tempfile.TemporaryDirectory(prefix='wrong-bodies-') as folder:
            place, lines = copied(edits[0].crate, Path(folder)), {}
            for edit in edits:
                for file, old, _ in edit.changes:
                    text = source(edit.crate, file)
                    lines[file, text.count('\n', 0, max(text.find(old), 0)) + 1] = edit
                edit.lay(place)
            words = [str(Path(folder) / 'scripts' / 'check_one.sh'), edits[0].crate, '--only', '']
            ran = subprocess.run(words, stdin=subprocess.DEVNULL, stdout=subprocess.PIPE, stderr=subprocess.STDOUT, text=True, errors='replace')
        if ran.stdout.rstrip().split('\n')[-1].startswith('only='):
            return {}
        found = {}
        for file, line, said in re.findall(r'^(\S+?):(\d+):\d+: error\S* (.*)$', ran.stdout, re.M):
            near = [(abs(int(line) - at), str(edit), edit) for (it, at), edit in lines.items() if it == file]
            if near:
                found.setdefault(min(near)[2], f'{file}:{line}: {said}')
        said = (re.findall(r'.*error.*', ran.stdout) or ran.stdout.rstrip().split('\n'))[0][:200]
        return found or dict.fromkeys(edits, said)

    def try_types(self, edits):
        """Tells which edits don't compile. Those that an error names are asked of alone, and so is each where an error names none."""
        found = self.type_errors(edits)
        left = [it for it in edits if it not in found]
        if len(edits) == 1 and found:
            self.tell(edits[0], False, f'DOES NOT COMPILE: {found[edits[0]]}')
        elif not found:
            self.passed += edits
        else:
            for some in [*([it] for it in found), left]:
                if some:
                    self.try_types(some)

    def tell(self, edit, is_refused, said):
        with self.printing:
            (self.passed if is_refused else self.failed).append(edit)
            print(f'{edit}: {"refused: " if is_refused else ""}{said[:240]}', flush=True)

    def try_all(self, edits, lanes, most=None):
        """Tries those of which nothing is kept, until `most` seconds of processor time are spent where it is given."""
        left = []
        for edit in edits:
            said = self.kept.said(edit)
            if said:
                self.passed.append(edit)
            else:
                left.append(edit)
        self.most = None if most is None else self.seconds + most

        def one(batch):
            if self.is_spent():
                self.untried += len(batch)
            else:
                self.try_batch(batch)

        with ThreadPoolExecutor(lanes) as pool:
            list(pool.map(one, in_batches(left)))
        return len(edits) - len(left)


def git(*words):
    return subprocess.run(['git', '-C', str(ROOT), *words], stdout=subprocess.PIPE, stderr=subprocess.DEVNULL, text=True).stdout.strip()


@functools.lru_cache(None)
def changed_at(crate):
    """When a commit last changed a file of the crate."""
    return int(git('log', '-1', '--format=%ct', '--', f'crates/{crate}') or 0)


def for_the_gate(edits):
    """What every gate tries, and what it tries as far as time goes, of the crates that changed last first."""
    lost = set(HEADLINE) - {str(it) for it in edits}
    if lost:
        sys.exit(f'wrong_bodies: not there: {" ".join(sorted(lost))}')
    begin = int(git('rev-parse', 'HEAD') or '0', 16) % SHARE
    always = [it for it in edits if str(it) in HEADLINE] + [it for it in edits[begin::SHARE] if str(it) not in HEADLINE]
    due = [it for it in edits if it not in always]
    return always, sorted(due, key=lambda it: (-changed_at(it.crate), it.crate, it.name))


def chosen(every, names, commit):
    if commit:
        changed = git('diff', '--name-only', commit, '--', 'crates') + '\n' + git('ls-files', '--others', '--exclude-standard', '--', 'crates')
        names = names + sorted({it.split('/')[1] for it in changed.split('\n') if it.count('/') > 1})
        return [it for it in every if it.crate in names or str(it) in names]
    unknown = [it for it in names if not any(it in (edit.crate, str(edit)) for edit in every)]
    if unknown:
        sys.exit(f'wrong_bodies: no crate with wrong bodies and none of them: {" ".join(unknown)}')
    return [it for it in every if not names or it.crate in names or str(it) in names]


def main():
    parser = argparse.ArgumentParser(description=__doc__, formatter_class=argparse.RawDescriptionHelpFormatter)
    parser.add_argument('names', nargs='*')
    for option in ('--gate', '--look', '--types', '--anew'):
        parser.add_argument(option, action='store_true')
    parser.add_argument('--since')
    words = parser.parse_args()
    every = sorted((Edit.read(it.parts[-3], it) for it in ROOT.glob('crates/*/wrong-bodies/*.edit')), key=str)
    wanted = every if words.gate else chosen(every, words.names, words.since)
    lost = [(it, it.lacks()) for it in wanted]
    lost = [(edit, why) for edit, why in lost if why]
    for edit, why in lost:
        print(f'{edit}: NOT TRIED: {why}')
    if words.look:
        print(f'wrong bodies: {len(wanted) - len(lost)} passed, {len(lost)} failed')
        return int(bool(lost))
    wanted = [it for it in wanted if it not in dict(lost)]
    unbuilt = sorted({it.crate for it in wanted if sum_of_crate(it.crate) is None})
    if unbuilt and not words.gate:
        sys.stdout.flush()
        script = [sys.executable, str(ROOT / 'scripts' / 'build_libraries.py'), '--below', lanes_here(), '1', *unbuilt]
        if subprocess.run(script).returncode:
            return 2
        sum_of_crate.cache_clear()
    elif unbuilt:
        print(f'wrong_bodies: libraries are not built, run rt ci first: {" ".join(unbuilt)}')
        return 2
    run, lanes, began = Run(Kept(words.anew)), int(lanes_here()), time.time()
    if words.types:
        with ThreadPoolExecutor(lanes) as pool:
            list(pool.map(run.try_types, that_fit(wanted)))
        print(f'wrong bodies: {len(run.passed)} passed, {len(run.failed) + len(lost)} failed')
        return int(bool(run.failed or lost))
    always, due = for_the_gate(wanted) if words.gate else (wanted, [])
    known = run.try_all(always, lanes)
    of_due = run.try_all(due, lanes, SPENT)
    print(f'{len(run.passed) + len(run.failed) - known - of_due} tried in {time.time() - began:.0f} s, '
          f'{run.seconds:.0f} s of processor time; {known + of_due} are kept from before; {run.untried} were not tried')
    print(f'wrong bodies: {len(run.passed)} passed, {len(run.failed) + len(lost)} failed')
    return int(bool(run.failed or lost))


def lanes_here():
    return subprocess.run([ROOT / 'scripts' / 'lanes.sh'], stdout=subprocess.PIPE, text=True).stdout.strip()


if __name__ == '__main__':
    sys.exit(main())
