#!/usr/bin/env python3
"""Tests whether the documents say what is there, and prints each place where they don't:

- each crate of the program has a README, and one row in docs/CRATES.md, which has no other; the picture in docs/ARCHITECTURE.md is what crates.txt
  says;
- each word of this project that is in a contract's definitions has its entry in the glossary;
- each file that the documents name is there, and each heading that a link leads to; a page that begins with a list of its headings lists all of them;
- each row of docs/PROMISES.md names a contract that is there: a function, a method of its type, a type, a law or a clause, of a crate that its section
  names; each clause is one of a contract that the row names; and all its other names are there, too: types of any crate and their methods, definitions
  of specs/ and their fields;
- so is each test that a row of it names;
- no line of README.md, CONTRIBUTING.md, docs/ and tests/README.md is longer than 100 columns, except the rows of tables;
- README.md, docs/ARCHITECTURE.md and docs/TIMES.md stay short.
"""
import collections
import functools
import pathlib
import re
import subprocess
import sys

from statements import modules_of

ROOT = pathlib.Path(__file__).resolve().parent.parent
PAGES = [ROOT / "README.md", ROOT / "CONTRIBUTING.md", *sorted((ROOT / "docs").glob("*.md")), ROOT / "tests/README.md", *sorted(ROOT.glob("crates/*/README.md"))]
SHORT = {"README.md": 90, "docs/ARCHITECTURE.md": 300, "docs/TIMES.md": 110}
NARROW = [ROOT / "README.md", ROOT / "CONTRIBUTING.md", *sorted((ROOT / "docs").glob("*.md")), ROOT / "tests/README.md"]
HOUSE_WORDS = (
    "absorb agrees base beside book came choice claimed content covers desk entry exact fault frame front gate "
    "gathered headline journal kept laid lawful legal level mark needed offspring opening outcome overflow owed owned "
    "pair pass patch place published raised rekeyed room row run seat session shaped shown sits sound source spot "
    "stamp step stray swap table told turn turned viewer want way went wide within worker"
).split()


def chain():
    lines = (ROOT / "crates.txt").read_text().split("# Tests")[0].splitlines()
    return [re.split(r"[ :]", line)[0] for line in lines if line and not line.startswith("#")]


def crates_without_a_page():
    rows = re.findall(r"^\| \[`(\w+)`\]\(\.\./crates/\1/README\.md\) \|", (ROOT / "docs/CRATES.md").read_text(), re.M)
    for crate in chain():
        if not (ROOT / "crates" / crate / "README.md").is_file():
            yield f"crates/{crate} has no README.md"
        if rows.count(crate) != 1:
            yield f"docs/CRATES.md has {rows.count(crate)} rows of {crate}, and is to have one, as others have it"
    for crate in sorted(set(rows) - set(chain())):
        yield f"docs/CRATES.md has a row of {crate}, which is no crate of the programs"
    if subprocess.run([sys.executable, ROOT / "scripts/layers.py", "--check"], stdout=subprocess.DEVNULL).returncode:
        yield "the picture in docs/ARCHITECTURE.md is not what crates.txt says: scripts/layers.py --write"


def words_without_an_entry():
    page = (ROOT / "docs/ARCHITECTURE.md").read_text()
    heads = re.findall(r"^\| ([a-z ,]+) \|", page[page.index("## Glossary") :], re.M)
    known = {word for head in heads for word in re.split(r", ?", head)}
    for word in HOUSE_WORDS:
        if word not in known:
            yield f"the glossary in docs/ARCHITECTURE.md has no entry for '{word}'"


def files():
    told = subprocess.run(["git", "ls-files", "-co", "--exclude-standard"], cwd=ROOT, capture_output=True, text=True, check=True)
    return [f"/{it}" for it in told.stdout.splitlines()]


def is_there(name, every, page):
    """Whether a file has this name, or lies somewhere in the crate that the name begins with. In a crate's page its own
    files are meant."""
    if page.parent.parent.name == "crates" and name.startswith(("src/", "specs/", "proofs/")):
        return f"/{page.parent.relative_to(ROOT)}/{name}" in every
    while name.startswith("../"):
        name = name.removeprefix("../")
    crate, _, rest = name.partition("/")
    return any(it.endswith(f"/{crate}/{rest}".rstrip("/")) or rest and it.startswith(f"/crates/{crate}/") and it.endswith(f"/{rest}") for it in every)


def files_that_are_gone():
    named = re.compile(r"`((?:[\w.-]+/)*[\w-]+\.(?:rt|antt|sh|py|md|c|1|txt|edit))`|\]\(([\w./-]+)(?:#[\w-]+)?\)")
    every = files()
    for page in PAGES:
        for number, line in enumerate(page.read_text().splitlines(), 1):
            for match in named.finditer(line):
                name = match[1] or match[2]
                if not is_there(name, every, page):
                    yield f"{page.relative_to(ROOT)}:{number}: there is no {name}"


def anchor(heading):
    """What a link to a heading ends with."""
    return re.sub(r"[^\w\- ]", "", heading.replace("`", "").strip().lower()).replace(" ", "-")


def headings(page):
    text = re.sub(r"```.*?```", "", page.read_text(), flags=re.S)
    return {anchor(it) for it in re.findall(r"^#+ (.*)$", text, re.M)}


def links_that_lead_nowhere():
    for page in PAGES:
        for name, heading in re.findall(r"\]\(([\w./-]*)#([\w-]+)\)", page.read_text()):
            if heading not in headings((page.parent / name).resolve() if name else page):
                yield f"{page.relative_to(ROOT)}: there is no heading {name}#{heading}"


def headings_not_listed():
    """Headings that the list at the top of their page lacks, where it begins with a numbered one."""
    for page in PAGES:
        top, *parts = page.read_text().split("\n## ")
        listed = re.findall(r"\]\(#([\w-]+)\)", top)
        for part in parts if "\n1. [" in top else []:
            if anchor(part.split("\n")[0]) not in listed:
                yield f"{page.relative_to(ROOT)}: its list has no {part.splitlines()[0]}"


# What a source declares in a line: a function, or a type or another item; a variant; a clause of a contract, or a ghost of a trait; and where a block
# with methods or variants begins.
DECLARES = re.compile(r"\s*(?:pub(?:\([^)]*\))? )?(?:const )?(fn|struct|enum|trait|type|const) (\w+)")
VARIANT = re.compile(r"\s+([A-Z]\w*)(?:[,({]| \{|$)")
CLAUSE = re.compile(r"\bensures (\w+) \{|^\s*ghost (\w+):")
BLOCK = re.compile(r"(\s*)(?:pub(?:\([^)]*\))? )?(impl|trait|enum)\b(.*)")
# Names of Rust's own libraries that promises speak of.
OF_RUST = {"Display", "Wait"}


def names_in_source(text):
    """What a source declares: contracts (functions, methods with their types, and types), other names (clauses, ghosts of traits, variants), and the
    clauses of each contract; those of a type or a trait are those of its methods."""
    contracts, others, clauses = set(), set(), collections.defaultdict(set)
    block, owners, is_open, function = None, "", False, ""
    for line in text.split("\n"):
        if block is None and (begins := BLOCK.match(line)):
            block, owners, is_open = begins, "", False
        if declares := DECLARES.match(line):
            function = declares[2]
            contracts.add(function)
            if block and declares[1] == "fn":
                contracts |= {f"{owner}::{function}" for owner in re.findall(r"\w+", owners)}
        elif block and is_open and block[2] == "enum" and (variant := VARIANT.match(line)):
            others.add(variant[1])
        for clause in {it for found in CLAUSE.findall(line) for it in found if it}:
            others.add(clause)
            for owner in [function, *re.findall(r"\w+", owners if block else "")]:
                clauses[owner].add(clause)
                clauses[f"{owner}::{function}"].add(clause)
        if block and not is_open:
            owners += line
            is_open = line.rstrip().endswith("{")
        elif block and line.rstrip() == block[1] + "}":
            block = None
    return contracts, others, clauses


@functools.cache
def names_by_crate():
    """The contracts of each crate, its clauses and variants, what all specs/ define, with the fields of records, and the clauses of each contract. A law
    that is proved in parts, as `creation_is_free-key`, has its own name, too."""
    contracts, others, defined, clauses = collections.defaultdict(set), collections.defaultdict(set), set(), collections.defaultdict(set)
    for path in ROOT.glob("crates/*/src/**/*.rt"):
        crate = path.relative_to(ROOT).parts[1]
        found = names_in_source(path.read_text())
        contracts[crate] |= found[0]
        others[crate] |= found[1]
        for contract, names in found[2].items():
            clauses[contract] |= names
    for (crate, module), (items, _) in modules_of("proofs").items():
        if "." not in module:
            contracts[crate] |= {part for name in items for part in (name, name.split("-")[0])}
    for items, _ in modules_of("specs").values():
        defined |= items.keys() | {field for lines in items.values() for field in re.findall(r"^ +(?:pub )?(\w+) :", "\n".join(lines), re.M)}
    return contracts, others, defined, clauses


def promised_rows():
    """Each row of docs/PROMISES.md: the number of its line, whether a contract carries it or a test tries it, that cell, and the crates that its section
    names."""
    crates = {it.name for it in (ROOT / "crates").iterdir()}
    rows, named, is_tried = [], set(), False
    for number, line in enumerate((ROOT / "docs/PROMISES.md").read_text().split("\n"), 1):
        if line.startswith("## "):
            named = set()
        named |= crates & set(re.findall(r"`(\w+)`", line))
        if line.startswith("| Promise |"):
            is_tried = line.endswith("| Tried by |")
        elif line.startswith("| "):
            rows.append((number, is_tried, line.rstrip(" |").rsplit(" | ", 1)[-1], named))
    return rows


def names_of(cell):
    """The names in a cell, but for paths; where one stands for several, as `Table::{list, read}`, each of them."""
    for name in re.findall(r"`([^`]+)`", cell):
        several = re.fullmatch(r"(\w+)::\{(.*)\}", name)
        if several:
            yield from (f"{several[1]}::{it.strip()}" for it in several[2].split(","))
        elif "/" not in name:
            yield name


def clauses_in(cell):
    """What a cell calls clauses of the contracts that it names: `ok` and `short` of "clauses `ok`, `short`", but none of "clause `kept` of each"."""
    for found in re.findall(r"\bclauses? ((?:`\w+`(?:, (?=`)| and )?)+)(?! of each)", cell):
        yield from re.findall(r"\w+", found.replace(" and ", " "))


def promises_without_a_contract():
    contracts, others, defined, clauses = names_by_crate()
    every = set().union(*contracts.values())
    beside = defined | OF_RUST | {it for it in every if it[0].isupper()} | contracts.keys()
    for number, is_tried, cell, crates in promised_rows():
        names = [it for it in names_of(cell) if "." not in it]
        if is_tried:
            continue
        here = set().union(*(contracts[it] | others[it] for it in crates))
        for name in names:
            if name not in here and name not in beside:
                yield f"docs/PROMISES.md:{number}: " + (f"{name} is of no crate that this section names" if name in every else f"there is no {name}")
        for clause in clauses_in(cell):
            if not any(clause in clauses[it] for it in names):
                yield f"docs/PROMISES.md:{number}: no contract of this row has a clause {clause}"
        if not here & set(names):
            yield f"docs/PROMISES.md:{number}: no contract is named"


def tests_that_are_gone():
    """Functions of tests that docs/PROMISES.md names, with `..` for any letters, and that stand neither in tests/ nor in a crate of tests. (Files are
    looked for as in every page.)"""
    folders = [ROOT / "tests", *ROOT.glob("crates/*_tests/src"), ROOT / "crates/hfs_refused_memory/src"]
    text = "\n".join(path.read_text() for folder in folders for path in folder.rglob("*") if path.suffix in (".py", ".rt", ".txt"))
    known = set(re.findall(r"\w+", text)) | {it.name for it in (ROOT / "crates").iterdir()} | names_by_crate()[2]
    for number, is_tried, cell, _ in promised_rows():
        for name in names_of(cell) if is_tried else []:
            pattern = re.compile(r"\w*".join(name.split("..")))
            if re.fullmatch(r"\w*(\.\.)?\w*", name) and not any(map(pattern.fullmatch, known)):
                yield f"docs/PROMISES.md:{number}: there is no test {name}"


def lines_that_are_long():
    for page in NARROW:
        for number, line in enumerate(page.read_text().splitlines(), 1):
            if len(line) > 100 and not line.startswith("|"):
                yield f"{page.relative_to(ROOT)}:{number}: {len(line)} columns"


def pages_that_are_long():
    for name, most in SHORT.items():
        count = len((ROOT / name).read_text().splitlines())
        if count > most:
            yield f"{name} has {count} lines, and is to have {most} at most"


def main():
    found = [
        *crates_without_a_page(),
        *words_without_an_entry(),
        *files_that_are_gone(),
        *links_that_lead_nowhere(),
        *headings_not_listed(),
        *promises_without_a_contract(),
        *tests_that_are_gone(),
        *lines_that_are_long(),
        *pages_that_are_long(),
    ]
    print("\n".join(found) or f"the documents agree: {len(PAGES)} pages, {len(chain())} crates")
    return 1 if found else 0


if __name__ == "__main__":
    sys.exit(main())
