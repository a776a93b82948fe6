#!/usr/bin/env python3
"""Tell the unused imports of the Rattle files, and the definitions and laws that nothing cites.

    unused.py          tell them; status 1 where there are some
    unused.py --fix    remove the unused imports in place (then run `rt fmt` in the crates), and tell the rest

An import is used where its name stands in the file, outside the imports; `pub use` passes a name
on and is always used. A definition, law, type or ruleset of specs/ or proofs/ is cited where
something that is itself cited names it. That begins with what the code's contracts name, what
proves each function (the `f_spec` of its Proof.antt, the answers of its Answers.antt and
Invariants.antt), the names in backticks in docs/READING.md, and the names in tools/unused.txt,
which has a reason for each.
"""

from __future__ import annotations

import argparse
import re
from dataclasses import dataclass
from functools import cached_property
from pathlib import Path
from typing import AbstractSet as Set
from typing import Iterator

import files
import source
from source import Declaration, Import, Item, Reference

ROOT = Path(__file__).resolve().parent.parent
READING = "docs/READING.md"
LIST = "tools/unused.txt"
PARTS = ("src", "specs", "proofs")  # of a crate; its out/ has copies of these
Path_ = tuple[str, ...]  # of a module or a name, from its library down


@dataclass(frozen=True)
class Finding:
    """Something unused, and where it stands."""

    path: str
    row: int
    what: str

    def __str__(self) -> str:
        return f"{self.path}:{self.row}: {self.what}"


class File:
    """A file under crates/ and what was read of it."""

    def __init__(self, root: Path, path: Path) -> None:
        self.path = path
        self.name = path.relative_to(root).as_posix()
        self.text = files.read_bytes(str(path)).decode("utf-8")
        self.code = path.suffix == ".rt"
        self.imports = source.imports(self.text, self.code)

    @cached_property
    def declared(self) -> list[Declaration]:
        return [] if self.code else source.declarations(self.text)

    @cached_property
    def by_key(self) -> dict[str, list[Declaration]]:
        """The declarations, by what a use of them writes."""
        found: dict[str, list[Declaration]] = {}
        for one in self.declared:
            for name in (one.name, *one.also):
                for key in source.keys(name):
                    found.setdefault(key, []).append(one)
        return found

    @cached_property
    def brought(self) -> dict[str, list[Item]]:
        """What the imports bring, by what a use of it writes; of code the names of antt alone."""
        found: dict[str, list[Item]] = {}
        for one in self.imports:
            for item in one.items if one.ghost or not self.code else ():
                for key in source.keys(item.name):
                    found.setdefault(key, []).append(item)
        return found

    @cached_property
    def used(self) -> tuple[set[str], set[str]]:
        """The keys that the file uses outside its imports: of antt, and of code."""
        if self.code:
            code = source.code_of(self.text)
            return {key for one in code.contracts for key in source.keys(one.name)}, code.words
        rest = self.text
        for one in self.imports:
            rest = rest[: one.start] + " " * (one.end - one.start) + rest[one.end :]
        names = {one.name for one in source.references(source.tokens(rest))}
        names |= {item.path[0] for one in self.imports for item in one.items}
        return {key for name in names for key in source.keys(name)}, set()

    def is_used(self, one: Import, item: Item) -> bool:
        antt, code = self.used
        if one.public:
            return True
        if self.code and not one.ghost:
            return item.name in code
        return all(key in antt for key in source.keys(item.name))

    def answers(self) -> Iterator[Declaration]:
        """Of a function's proof, what answers a goal: it is declared as `goal.` and its own name."""
        for one in self.declared:
            for item in (item for brought in self.imports for item in brought.items):
                goals = Reference(item.name, (one.name,))
                if item.path[-1] in ("Goals", "Given") and goals in one.uses:
                    yield one

    def row(self, at: int) -> int:
        return self.text.count("\n", 0, at) + 1

    def unused_imports(self) -> Iterator[Finding]:
        for one in self.imports:
            for item in one.items:
                if not self.is_used(one, item):
                    yield Finding(self.name, self.row(one.start), f"unused import {item.name}")

    def without_unused(self) -> str:
        """The text without its unused imports, and without a `use` of which nothing is left."""
        text, at = "", 0
        for one in self.imports:
            kept = [item for item in one.items if self.is_used(one, item)]
            text += self.text[at : one.start]
            at = one.end
            if len(kept) == len(one.items):
                text += self.text[one.start : one.end]
            elif kept:
                end = self.text[one.start : one.end].rpartition("}")[2]
                text += one.before + ", ".join(item.written for item in kept) + "}" + end
        return text + self.text[at:]


class Tree:
    """The Rattle files of a repository."""

    def __init__(self, root: Path) -> None:
        self.root = root
        parts = [path for part in PARTS for path in root.glob(f"crates/*/{part}/**/*")]
        found = [path for path in parts if path.suffix in (".antt", ".rt")]
        self.files = [File(root, path) for path in sorted(found)]
        self.by_name = {file.name: file for file in self.files}

    def module(self, path: Path_) -> File | None:
        """The file of a module, as `Rattle.c.specs.F` or `Rattle.c.proofs.m.F`."""
        if len(path) < 4 or path[0] != "Rattle":
            return None
        return self.by_name.get(f"crates/{'/'.join(map(source.bare, path[1:]))}.antt")

    def exported(self, path: Path_, seen: frozenset[Path_] = frozenset()) -> Iterator[Declaration]:
        """What a path from a library to a name stands for.

        The name may be passed on by a `pub use`, or stand behind its type.
        """
        if path in seen or len(path) < 2:
            return
        seen |= {path}
        file = self.module(path[:-1])
        if file is None:
            yield from self.exported(path[:-1], seen)
            return
        for key in source.keys(path[-1]):
            yield from file.by_key.get(key, [])
            for item in file.brought.get(key, []):
                yield from self.exported(item.path, seen)

    def resolved(self, file: File, use: Reference) -> Iterator[Declaration]:
        """The declarations that a name in a file may stand for."""
        for key in source.keys(use.name):
            yield from file.by_key.get(key, [])
            for item in file.brought.get(key, []):
                yield from self.exported(item.path)
                for k in range(len(use.members)):
                    yield from self.exported(item.path + use.members[: k + 1])
        for k in range(len(use.members)):
            yield from self.exported((use.name, *use.members[: k + 1]))
        for item in file.brought.get("*", []):
            below = "/".join(item.path[:-1])
            child = self.by_name.get(f"{file.name.removesuffix('.antt')}/{below}.antt")
            for key in source.keys(use.name) if child and item.path[-1] == "*" else ():
                yield from child.by_key.get(key, [])

    def cited(
        self, roots: list[Declaration], meant: list[Declaration]
    ) -> tuple[set[int], set[int]]:
        """What is cited, in one step or more, by identity: with those meant to be, and without."""
        home = {id(one): file for file in self.files for one in file.declared}
        named = {id(one) for one in roots}
        todo = roots + meant
        seen: set[int] = set()
        while todo:
            one = todo.pop()
            if id(one) not in seen:
                seen.add(id(one))
                file = home[id(one)]
                others = [other for use in one.uses for other in self.resolved(file, use)]
                named |= {id(other) for other in others if other is not one}
                todo += others
        return seen, named

    def contract_names(self) -> Iterator[Declaration]:
        """What the contracts of the code name, and the proofs of its functions."""
        for file in self.files:
            if file.code:
                for use in source.code_of(file.text).contracts:
                    yield from self.resolved(file, use)
            elif file.path.name == "Proof.antt":
                yield from (one for one in file.declared if one.name.endswith("_spec"))
            elif file.path.name in ("Answers.antt", "Invariants.antt"):
                yield from file.answers()

    def named(self, names: Set[str]) -> Iterator[Declaration]:
        for file in self.files:
            for one in file.declared:
                if names & {one.name, *one.also}:
                    yield one

    def uncited(self, read: set[str], listed: dict[str, int]) -> Iterator[Finding]:
        """The declarations that nothing cites, and the names that don't belong in the list."""
        roots = [*self.contract_names(), *self.named(read)]
        meant = list(self.named(listed.keys()))
        live, named = self.cited(roots, meant)
        for file in self.files:
            for one in file.declared:
                if id(one) not in live:
                    yield Finding(file.name, file.row(one.start), f"nothing cites {one.name}")
        needed = {name for one in meant if id(one) not in named for name in (one.name, *one.also)}
        for name, row in listed.items():
            if name not in needed:
                yield Finding(LIST, row, f"{name} is cited, or declared nowhere; don't list it")


def text_at(root: Path, name: str) -> str:
    """The text of a file of the repository; of one that isn't there, none."""
    path = root / name
    return path.read_text(encoding="utf-8") if path.exists() else ""


def names_read(root: Path) -> set[str]:
    """The names in backticks in docs/READING.md."""
    quoted = re.findall(r"`([^`\n]+)`", text_at(root, READING))
    return {token.text for part in quoted for token in source.tokens(part)}


def names_listed(root: Path) -> dict[str, int]:
    """The names of tools/unused.txt, each with its row: a name, a colon and a reason in each."""
    listed = {}
    for number, row in enumerate(text_at(root, LIST).splitlines(), start=1):
        if not row.strip() or row.startswith("#"):
            continue
        name, _, reason = row.partition(": ")
        if not reason.strip():
            raise files.Failure(f"{LIST}:{number}: expected NAME: REASON")
        listed[name.strip()] = number
    return listed


def findings(root: Path = ROOT) -> list[Finding]:
    """All that is unused in a repository."""
    tree = Tree(root)
    unused = [one for file in tree.files for one in file.unused_imports()]
    return unused + list(tree.uncited(names_read(root), names_listed(root)))


def fix(root: Path = ROOT) -> int:
    """Remove the unused imports; how many there were."""
    count = 0
    for file in Tree(root).files:
        unused = len(list(file.unused_imports()))
        if unused:
            files.write_bytes(str(file.path), file.without_unused().encode("utf-8"))
        count += unused
    return count


def main() -> int:
    parser = argparse.ArgumentParser(description="Tell unused imports and uncited names.")
    parser.add_argument("--fix", action="store_true", help="remove the unused imports in place")
    parser.add_argument("--root", type=Path, default=ROOT, help="another repository")
    options = parser.parse_args()
    if options.fix:
        print(f"{fix(options.root)} unused imports removed")
    found = findings(options.root)
    for one in found:
        print(one)
    print(f"{len(found)} unused imports and names" if found else "nothing is unused")
    return 1 if found else 0


if __name__ == "__main__":
    files.run(main)
