"""docs/READING.md cites only what is there.

What stands in backticks is told apart by its look and its column: an edit (the column Must-fail, or
behind the word "edit"), a file or folder, a test, a heading of what `figures` prints, or a name of
a definition, law, field, function or type. A name behind *File* must be one of that file in specs/.
Texts of more than one word are looked at in the columns of tests alone: elsewhere they are code or
what a program prints. So are plain words outside tables.
"""

import re
import unittest
from dataclasses import dataclass
from pathlib import Path

import helpers

import source
import tryedits
import unused

ROOT = Path(helpers.TOOLS).parent
QUOTED = re.compile(r"`([^`\n]+)`")
EDITS = ("Must-fail", "Edit", "Edits")
TESTS = ("Test", "Run by `figures`", "Test of the exact program")
FILE = re.compile(r"(?!.*\.\.)(?:[\w.-]+/)+[\w.-]*|[\w-]+\.(?:antt|py|rt|md)")
KEPT = {"requires", "ensures"}  # words of the language


@dataclass(frozen=True)
class Citation:
    """Something in backticks: its row, its column's head, and the words before it in the cell."""

    row: int
    column: str
    before: str
    text: str

    def __str__(self):
        return f"docs/READING.md:{self.row}: `{self.text}`"


def citations(text):
    """All that a text cites, with the columns of its tables."""
    columns = []
    for number, row in enumerate(text.splitlines(), start=1):
        if not row.startswith("|"):
            columns = []
            cells = [row]
        else:
            cells = [cell.strip() for cell in re.split(r"(?<!\\)\|", row)[1:-1]]
            columns = columns or cells
        for place, cell in enumerate(cells):
            column = columns[place] if place < len(columns) else ""
            for found in QUOTED.finditer(cell):
                yield Citation(number, column, cell[: found.start()], found[1])


class Things:
    """What there is in a repository that may be cited."""

    def __init__(self, root):
        self.folder = root
        self.crates = tryedits.crates(root)
        self.edits = {(one.crate, one.name) for one in tryedits.edits_of(root, gate=True)}
        code = [path.read_text(encoding="utf-8") for path in root.glob("crates/*/src/**/*.rt")]
        tests = [*root.glob("tools/tests/*.py"), *root.glob("tests/*.py")]
        python = "".join(path.read_text(encoding="utf-8") for path in tests)
        self.tests = set(re.findall(r"^ +def (test_\w+)", python, re.M))
        self.classes = set(re.findall(r"^class (\w+)", python, re.M))
        figures = (root / "crates/figures/stdout").read_text(encoding="utf-8")
        self.headings = set(re.findall(r"^\S.*$", figures, re.M))
        self.names = {*KEPT, *self.crates, *self.classes}
        self.names |= {path.name for path in root.glob("crates/*/std*")}
        self.specs = {}
        for path in (one for part in unused.PARTS for one in root.glob(f"crates/*/{part}/**/*.antt")):
            text = path.read_text(encoding="utf-8")
            declared = {name for one in source.declarations(text) for name in (one.name, *one.also)}
            declared |= set(re.findall(r"^ +(?:pub )?([^\s:]+) :", text, re.M))
            if path.parent.name == "specs":
                self.specs.setdefault(path.stem, set()).update(declared)
            self.names |= declared
            self.names |= {item.path[-1] for one in source.imports(text) for item in one.items}
        for text in code:
            self.names |= set(re.findall(r"\b(?:fn|struct|enum|const|mod) (\w+)", text))
            self.names |= set(re.findall(r"^ +(?:pub )?([A-Za-z]\w*)[,:({]", text, re.M))
        self.names |= {path.stem for path in root.glob("examples/*.model")}
        self.names |= {path.name for path in root.glob("crates/*/proofs/**/*") if path.is_dir()}

    def has_edit(self, one):
        """An edit of the crate named last before it in its part of the cell, or of any crate."""
        named = re.findall(r"\b[a-z]+\b", QUOTED.sub("", one.before.rpartition(";")[2]))
        crates = [word for word in named if word in self.crates][-1:] or self.crates
        return any((crate, one.text) in self.edits for crate in crates)

    def has_file(self, text):
        """A path from the top, from crates/ or from a crate; a file alone anywhere in a crate."""
        places = (text, f"crates/{text}", f"crates/*/{text}", f"tools/tests/{text}")
        alone = () if "/" in text else (f"crates/*/specs/**/{text}", f"crates/*/proofs/**/{text}")
        return any(any(self.folder.glob(place.rstrip("/"))) for place in (*places, *alone))

    def has_name(self, text):
        """A name, or names with a field or member behind them: `Accurate .bounds`, `a::b`."""
        return all(part in self.names for part in re.split(r" \.|::", text.removeprefix(".")))

    def is_elsewhere(self, one):
        """Whether a name behind *File* is none of that file. Parentheses stand apart."""
        before = re.sub(r"\([^()]*\)", "", one.before.rpartition(";")[2]).rpartition("(")[2]
        named = re.findall(r"\*([A-Z]\w*)\*", before)
        return named and one.text not in self.specs.get(named[-1], ())

    def lacks(self, one):
        """Whether what is cited is not there."""
        text = one.text
        if one.column == "Definition" and self.is_elsewhere(one):
            return True
        if one.column in EDITS and not one.before.endswith("those of "):
            return not self.has_edit(one)
        if FILE.fullmatch(text):
            return not self.has_file(text)
        if re.fullmatch(r"test_\w+", text):
            return text not in self.tests
        if one.column in TESTS and text in self.headings:
            return False
        if not one.column and re.fullmatch(r"[\W\d]*[a-z]*|.*\.\..*", text):
            return False
        if re.fullmatch(r"\S+(?: \.\S+)?", text):
            return not self.has_name(text) and not ("_" in text and self.has_edit(one))
        return one.column in TESTS


def missing(root, text):
    """What a text cites that is not there."""
    things = Things(root)
    return [str(one) for one in citations(text) if things.lacks(one)]


class Reading(unittest.TestCase):
    maxDiff = None

    def test_all_that_is_cited_is_there(self):
        text = (ROOT / "docs" / "READING.md").read_text(encoding="utf-8")
        self.assertEqual(missing(ROOT, text), [])


TEXT = """Words such as `any` and `a.. b`, the file `Sums.antt` and `Gone.antt`; the law `gone-law`.

| Sentence | Definition | Proof | Must-fail | Test |
|---|---|---|---|---|
| 1 | `Set .count`, `.gone`, `sets::of_box` | `proofs/sets`, `proofs/gone` | | `test_one`, `test_two` |
| 2 | `gone` | `support-le`, `Sums.antt` `gone-le` | `gone_edit`; those of `a` | `case 4`, `case 5` |
| 3 | *Sums*: `support` (by `count`), `support-le`; `count` | | `no_sum`; b `no_sum` | |
"""

FILES = {
    "crates.txt": "a:\nb: a\n",
    "crates/a/specs/Sums.antt": "support : ℕ\nsupport = 1\n",
    "crates/a/proofs/sets/of_box/Proof.antt": "support-le : support ≡ 1\nsupport-le = refl\n",
    "crates/a/src/lib.rt": "pub struct Set {\n    count: usize,\n}\nmod sets;\n",
    "crates/figures/stdout": "case 4\n 0 r 1\n",
    "crates/a/must-fail/no_sum.edit": "",
    "tests/program.py": "class Tests:\n    def test_one(self):\n        pass\n",
}


class Missing(helpers.FolderTest):
    def test_what_is_not_there_is_told(self):
        for name, text in FILES.items():
            self.write(name, text)
        told = [one.rpartition(": ")[2].strip("`") for one in missing(self.folder, TEXT)]
        expected = ["Gone.antt", "gone-law", ".gone", "proofs/gone", "test_two", "gone", "gone-le"]
        self.assertEqual(told, expected + ["gone_edit", "case 5", "support-le", "no_sum"])


if __name__ == "__main__":
    unittest.main()
