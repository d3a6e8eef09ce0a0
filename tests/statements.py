#!/usr/bin/env python3
"""Tests what is stated and where. Every item of specs/ is reached by a clause of the sources, since specs/ holds what a reader must
believe and lemmas are in proofs/. And a lemma of proofs/ should be there once.

tests/statements.py [--twice]: prints each item that no clause reaches, with --twice also each lemma that is in two files under one
name with one statement, and last how many there are of each; its status is 1 if an item is not reached. It proves nothing and takes
seconds.
"""
import collections
import pathlib
import re
import sys

ROOT = pathlib.Path(__file__).resolve().parent.parent
# An item's first line, without what stands before its name: a signature, or a record's or data type's head.
HEAD = re.compile(r"^(?:(?:abbrev|unfoldable|opaque|pub|record|data|ruleset|step)\s+)*([^\s:(){},]+)\s*(?:[({].*)?:\s")
IMPORT = re.compile(r"use\s+Rattle\.(\w+)\.(specs|proofs)\.([\w.]+?)(?:\.\{([^}]*)\})?(?:\s+as\s+(\S+?))?;?\s*$")
TOKEN = re.compile(r"[^\s(){},;]+")


def items_of(text):
    """The items of a file, each by its name with its lines; what stands before the first is left out."""
    items, name = {}, None
    for line in text.split("\n"):
        if line.startswith(("use ", "pub use ", "open ", "--")) or not line.strip():
            continue
        if not line[0].isspace():
            head = HEAD.match(line)
            if head and head[1] != name:
                name = head[1]
        if name:
            items.setdefault(name, []).append(line)
    return items


class Imports:
    """What the use lines of a file bring: words and prefixes, each with where it comes from."""

    def __init__(self, lines, folders=("specs",)):
        self.words, self.prefixes, self.folders = {}, {}, folders
        for line in lines:
            found = IMPORT.search(line.strip())
            if not found or found[2] not in self.folders:
                continue
            crate, _, module, names, alias = found.groups()
            if names is None:
                self.prefixes[alias or module.split(".")[-1]] = (crate, module)
            for part in (names or "").split(","):
                old, _, new = part.strip().partition(" as ")
                if old:
                    self.words[(new or old).strip()] = (crate, module, old.strip())

    def reached_by(self, token):
        """The items that a token may name, one within a module that it begins with included."""
        head, _, rest = token.partition(".")
        found = [self.words[it] for it in {token, head} if it in self.words]
        if rest and head in self.prefixes:
            found.append((*self.prefixes[head], rest.split(".")[0]))
        return found


def with_operators(names):
    """Names, and for each operator, such as ◌or◌, the words that stand between what it takes."""
    return {**{part: it for it in names if "◌" in it for part in it.split("◌") if part}, **{it: it for it in names}}


def modules_of(folder):
    """The files of specs/ or proofs/ of each crate: crate and module with items and imports."""
    found = {}
    for path in sorted(ROOT.glob(f"crates/*/{folder}/**/*.antt")):
        crate, module = path.relative_to(ROOT).parts[1], ".".join(path.relative_to(ROOT).with_suffix("").parts[3:])
        if module == "Lib" or module.startswith("declared"):
            continue
        text = path.read_text(encoding="utf-8")
        uses = [it for it in text.split("\n") if it.startswith(("use ", "pub use "))]
        found[crate, module] = items_of(text), Imports(uses, ("specs",) if folder == "specs" else ("specs", "proofs"))
    return found


def named_by_clauses():
    """What the sources import for their clauses."""
    for path in sorted(ROOT.glob("crates/*/src/**/*.rt")):
        text = path.read_text(encoding="utf-8")
        imports = Imports(re.sub(r"\s+", " ", it) for it in re.findall(r"ghost use [^;]*;", text))
        yield from imports.words.values()
        for alias in imports.prefixes:
            for name in re.findall(r"(?<![\w.])" + re.escape(alias) + r"\.([^\s(){},;]+)", text):
                yield (*imports.prefixes[alias], name.split(".")[0])


def unreached(modules):
    """The items of specs/ that no clause reaches, by crate, module and name."""
    reached, todo = set(), list(named_by_clauses())
    while todo:
        crate, module, name = todo.pop()
        items, imports = modules.get((crate, module), ({}, None))
        if name not in items or (crate, module, name) in reached:
            continue
        reached.add((crate, module, name))
        own, brought = with_operators(items), with_operators(imports.words)
        for token in set(TOKEN.findall("\n".join(items[name]))):
            todo += [(crate, module, own[it]) for it in {token, token.split(".")[0]} if it in own]
            todo += imports.reached_by(brought.get(token, token))
    return [(*key, name) for key, (items, _) in modules.items() for name in items if (*key, name) not in reached]


def statement_of(name, lines):
    """An item's statement, without line breaks: its signature up to the first line of its body."""
    said = [lines[0].split(" : ", 1)[-1]]
    for line in lines[1:]:
        if not line[0].isspace():
            break
        said.append(line)
    return " ".join(" ".join(said).split())


# What a definition gives: a type, or one of data, by a single word.
GIVES_DATA = re.compile(r"(?:^|→ )(?:Type 0|[^\s→≡]+)$")


def twice(modules):
    """The lemmas that stand in several files under one name with one statement, with those files. Each word of a statement stands for
    where it comes from, or for its text, since two crates may give one name to two things. Beside the answers of one function, in a folder of its own,
    stands what they alone use, and a definition is no lemma."""
    found = collections.defaultdict(set)
    for (crate, module), (items, imports) in modules.items():
        if "." in module:
            continue
        for name, lines in items.items():
            statement = statement_of(name, lines)
            if GIVES_DATA.search(statement):
                continue
            homes = {}
            for token in set(TOKEN.findall(statement)) - {name}:
                home = imports.words.get(token, ("",))
                homes[token] = home if home[0].startswith("hfs_") else tuple(items.get(token, ()))
            found[name, statement, tuple(sorted(homes.items()))].add(f"{crate}/proofs/{module}")
    return {key[:2]: sorted(files) for key, files in found.items() if len(files) > 1}


def main():
    specs, proofs = modules_of("specs"), modules_of("proofs")
    lost, copies = unreached(specs), twice(proofs)
    for crate, module, name in lost:
        print(f"crates/{crate}/specs/{module.replace('.', '/')}.antt: no clause reaches {name}")
    if "--twice" in sys.argv:
        for (name, statement), files in copies.items():
            print(f"{name} : {statement} stands in {', '.join(files)}")
    count = sum(len(items) for items, _ in specs.values()), sum(len(items) for items, _ in proofs.values())
    print(f"{count[0]} items of specs/: {len(lost)} reached by no clause; {count[1]} items of proofs/: {len(copies)} stand twice")
    return int(bool(lost))


if __name__ == "__main__":
    sys.exit(main())
