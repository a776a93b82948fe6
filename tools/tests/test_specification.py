"""Clauses of docs/SPECIFICATION.md: each has a row in docs/READING.md, and all cited are there.

A clause is cited by its heading and its number, also in a row of several: `Sets 5`, `Sets 2, 5 and
7`, `Accuracy 2 to 7`. Definitions, public functions, edits and decisions cite theirs.
"""

import os
import re
import unittest
from pathlib import Path

import helpers

import tryedits

ROOT = Path(helpers.TOOLS).parent
TEXTS = (".antt", ".c", ".edit", ".h", ".md", ".model", ".py", ".rs", ".rt", ".toml", ".txt")
OTHERS = ("run", "report", ".ci/run", "bench/run", "c/test", "edits/try", "crates/figures/args")
CLAUSE = re.compile(r"^(?:\| )?\*\*([A-Z][A-Za-z ]*?) (\d+)(?:\.|\*\*)", re.M)
NUMBERS = r"\d+(?: to \d+)?(?:(?:,|,? and|,? or) \d+(?: to \d+)?)*(?!\d)"
THE_DOCUMENTS = re.compile(r"\b[Dd]ocuments? 0?\d\d?\b|\b[Dd]emand \d")
# Decisions about proofs, tools and the gate, which settle nothing that the specification says.
WITHOUT_CLAUSE = {"Tools, texts and listings", "Layers, proofs and the gate"}


def clauses(text):
    """The clauses that a specification has, in its order, as pairs of heading and number."""
    return [(heading, int(number)) for heading, number in CLAUSE.findall(text)]


def cited(text, headings):
    """The clauses that a text cites."""
    names = "|".join(sorted(headings, key=len, reverse=True))
    joined = re.sub(r"\n *(?://[/!]?|--|#|\*)? *", " ", text)
    for heading, numbers in re.findall(rf"\b({names}) ({NUMBERS})", joined):
        for first, last in re.findall(r"(\d+)(?: to (\d+))?", numbers):
            yield from ((heading, number) for number in range(int(first), int(last or first) + 1))


def texts(root):
    """The texts of a repository that are written by hand, with their names."""
    for folder, below, names in os.walk(root):
        below[:] = sorted({*below} - {".git", "target", "out"})
        for path in (Path(folder, name) for name in sorted(names)):
            name = path.relative_to(root).as_posix()
            if path.is_file() and (path.suffix in TEXTS or name in OTHERS):
                yield name, path.read_text(encoding="utf-8")


def first_cells(text):
    """The first cell of each row of a text's tables."""
    return re.findall(r"^\| *([^|]*?) *\|", text, re.M)


def sections(text, mark):
    """A text's sections below headings of this mark: the heading, and what stands below it."""
    parts = re.split(rf"^{mark} (.*)\n", text, flags=re.M)
    return list(zip(parts[1::2], parts[2::2]))


class Clauses(unittest.TestCase):
    maxDiff = None

    def setUp(self):
        self.text = (ROOT / "docs/SPECIFICATION.md").read_text(encoding="utf-8")
        self.clauses = clauses(self.text)
        self.headings = {heading for heading, _ in self.clauses}

    def cited(self, text):
        return set(cited(text, self.headings))

    def test_each_clause_has_one_number(self):
        self.assertGreater(len(self.clauses), 120)
        self.assertEqual(len(set(self.clauses)), len(self.clauses))
        for heading in self.headings:
            numbers = [number for one, number in self.clauses if one == heading]
            self.assertEqual(numbers, sorted(numbers), heading)

    def test_each_clause_stands_below_its_heading(self):
        for heading, content in sections(self.text, "##"):
            self.assertLessEqual({one for one, _ in clauses(content)}, {heading})

    def test_each_clause_has_a_row_in_the_reading(self):
        reading = (ROOT / "docs/READING.md").read_text(encoding="utf-8")
        rows = set().union(*(self.cited(cell) for cell in first_cells(reading)))
        self.assertEqual([one for one in self.clauses if one not in rows], [])

    def test_the_documents_lead_to_every_clause(self):
        self.assertIn("From the documents to the clauses", self.text)
        table = self.text.partition("## From the documents to the clauses")[2]
        found = self.cited(table)
        self.assertEqual([one for one in self.clauses if one not in found], [])

    def test_all_that_is_cited_is_there(self):
        wrong = []
        for name, text in texts(ROOT):
            wrong += [f"{name}: {one}" for one in self.cited(text) - set(self.clauses)]
        self.assertEqual(wrong, [])

    def test_no_other_file_cites_the_documents(self):
        wrong = []
        for name, text in texts(ROOT):
            if name not in ("docs/SPECIFICATION.md", "tools/tests/test_specification.py"):
                wrong += [f"{name}: {found[0]}" for found in THE_DOCUMENTS.finditer(text)]
        self.assertEqual(wrong, [])

    def test_definitions_cite_their_clauses(self):
        for path in sorted(ROOT.glob("crates/*/specs/*.antt")):
            if path.stem != "Lib" and not path.stem.endswith("Inner"):
                with self.subTest(path.relative_to(ROOT).as_posix()):
                    self.assertTrue(self.cited(path.read_text(encoding="utf-8")))

    def test_public_functions_cite_their_clauses(self):
        tests = {"cells", "envelope", "figures", "readings"}  # programs, and what only they use
        found = 0
        for path in sorted(ROOT.glob("crates/*/src/**/*.rt")):
            if path.relative_to(ROOT).parts[1] in tests:
                continue
            for comment, name in public_functions(path.read_text(encoding="utf-8")):
                found += 1
                with self.subTest(f"{path.relative_to(ROOT).as_posix()}: {name}"):
                    self.assertTrue(self.cited(comment))
        self.assertGreater(found, 40)

    def test_edits_cite_the_clauses_that_they_break(self):
        for one in tryedits.edits_of(ROOT, gate=True):
            with self.subTest(f"{one.crate}/{one.name}"):
                comment = one.path.read_text(encoding="utf-8").partition("\nfile:")[0]
                self.assertTrue(self.cited(comment))

    def test_decisions_cite_the_clauses_that_they_settle(self):
        text = (ROOT / "docs/DECISIONS.md").read_text(encoding="utf-8")
        for section, content in sections(text, "##"):
            for decision, told in sections(content, "###"):
                if section not in WITHOUT_CLAUSE:
                    with self.subTest(decision):
                        self.assertTrue(self.cited(told))


def public_functions(code):
    """The public functions of a file of Rattle, each with the comment above it."""
    form = r"((?:^//.*\n)*)(?:^#\[.*\]\n)?^pub (?:extern \"C\" )?fn (\w+)"
    return [(found[1], found[2]) for found in re.finditer(form, code, re.M)]


SAMPLE = """## Sets

**Sets 1. One.** Words.

**Sets 3. Three.** By C interface 2.

## C interface

| **C interface 2** | a row |
"""


class Copies(unittest.TestCase):
    """Numbers of the specification that other texts repeat because their readers look there."""

    DEFAULT_STEPS = {
        "docs/SPECIFICATION.md": r"Steps of 0 in the head stand for (\d+)\.",
        "README.md": r"\b0 stands for (\d+)\b",
        "examples/README.md": r"says 0, which stands for (\d+)\.",
        "examples/receipt.model": r"says 0, which stands for (\d+) steps",
        "crates/reader/specs/Models.antt": r"^usual_steps = (\d+)$",
        "c/pepperscarp.h": r"^#define PEPPERSCARP_STEPS_DEFAULT (\d+)$",
        "rust/src/lib.rs": r"^pub const DEFAULT_STEPS: usize = (\d+);$",
        "rust/support/src/specification.rs": r"if steps == 0 \{ (\d+) \} else .* // File 4$",
        "tools/layout.py": r"^DEFAULT_STEPS = (\d+)\b",
    }

    def test_the_default_of_the_steps_is_told_alike(self):
        found = {
            name: re.findall(form, (ROOT / name).read_text(encoding="utf-8"), re.M)
            for name, form in self.DEFAULT_STEPS.items()
        }
        said = found["docs/SPECIFICATION.md"]
        self.assertEqual(said, ["120"])
        self.assertEqual(found, dict.fromkeys(found, said))


class Finding(unittest.TestCase):
    def test_clauses_are_found_in_texts_and_tables(self):
        self.assertEqual(clauses(SAMPLE), [("Sets", 1), ("Sets", 3), ("C interface", 2)])

    def test_citations_are_found_alone_in_lists_and_in_ranges(self):
        text = "Sets 2, 5 and 7 or\n-- Sets 9 to 11; C interface 2: 3 rows. Subsets 4, Sets\n// 12."
        found = list(cited(text, {"Sets", "C interface"}))
        sets = [number for heading, number in found if heading == "Sets"]
        self.assertEqual(sets, [2, 5, 7, 9, 10, 11, 12])
        self.assertEqual([one for one in found if one[0] != "Sets"], [("C interface", 2)])

    def test_functions_are_found_with_and_without_a_comment(self):
        code = "// Sets 1. A.\npub fn a() {\n\n// b\n#[no_mangle]\npub extern \"C\" fn b(\n"
        code += "\npub fn c("
        found = public_functions(code)
        self.assertEqual(found, [("// Sets 1. A.\n", "a"), ("// b\n", "b"), ("", "c")])

    def test_the_documents_are_found_by_number(self):
        for text in ("Document 01 says", "of documents 02", "demand 3"):
            self.assertTrue(THE_DOCUMENTS.search(text), text)
        self.assertFalse(THE_DOCUMENTS.search("the document, and a demand of 3"))


if __name__ == "__main__":
    unittest.main()
