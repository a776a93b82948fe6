"""Edits fit their files, and what the prover said of one is read as it should be."""

import os
import unittest

import helpers

import files
import tryedits
from tryedits import Edit, Result

# What the prover says, from the crate's folder.
DIFFERS = (
    "./proofs/sets/fraction/Proof.antt:72:10: error: `returns-4`: as printed, the two types first"
    " differ where one has `fraction c.args.x` (expected), and the other has `cond` (found)\n"
    "  computed as far as they go, the two types differ only where one has `0` (expected) and the"
    " other has `1` (found)\n"
    "./proofs/sets/fraction/Proof.antt:74:5: error: 1 declaration that depends on `returns-4`,"
    " which was rejected, was not checked: fraction_spec\n"
    "fn c::sets::fraction: not proved\n"
)

NEED = "module `Rattle.c.proofs.f.Tie` has no `Need-returns-then-x-eq0` that can be named from here"
NEED += " (did you mean `Need-returns-then-x-ne0`?)"
NO_NEED = f"./proofs/f/Proof.antt:34:11: error: `returns`: `tie.Need-returns-then-x-eq0`: {NEED}\n"

FIELD = "record `Rattle.c.proofs.f.Lts.Else-x-ne0` has no field `if-x-eq0` (nearest: .if-x-ne0)"
NO_FIELD = f"./proofs/f/Proof.antt:38:69: error: `returns-2`: {FIELD}\n"

NO_NAME = "specs/Tests.antt:13:22: error: `between`: `lt_z` is not in scope: add it\n"

FOLLOWS = "1 declaration that depends on `returns`, which was rejected, was not checked: f_spec"
FOLLOWS = f"./proofs/f/Proof.antt:74:5: error: {FOLLOWS}\n"

ENSURES = "it is not proved that what the function ensures holds when it returns (`returns-then-a-b`)"
SEARCHED = f"""fn c::is_between: proved
note: src/lib.rt:24:1: {ENSURES}
note: to see how far a `search` got, write `search rules` in place of that hole in the function's file
fn c::larger: no proof: expected answers in ./proofs/larger/Answers.antt
"""

LAW = "./proofs/Laws.antt:53:72: error: `between-small`: `omega`: the goal does not follow\n"
ANSWER = "./proofs/sets/f/Answers.antt:9:3: error: `loop-i-preserved`: `omega`: the goal does not follow\n"


class Reasons(unittest.TestCase):
    def test_types_that_differ(self):
        expected = "sets::fraction `returns-4`: 0 expected, 1 found"
        self.assertEqual(tryedits.why(DIFFERS), (True, expected))

    def test_a_need_a_field_or_a_name_that_is_not_there_is_no_fact(self):
        for log in (NO_NEED, NO_FIELD, NO_NAME):
            self.assertFalse(tryedits.why(log)[0], log)
        self.assertEqual(tryedits.why(NO_FIELD)[1], f"f `returns-2`: {FIELD}")

    def test_only_the_first_error_counts(self):
        self.assertTrue(tryedits.why(LAW + NO_NEED)[0])
        self.assertFalse(tryedits.why(NO_NEED + LAW)[0])

    def test_a_function_without_a_proof_file(self):
        self.assertEqual(tryedits.why(SEARCHED), (True, f"src/lib.rt:24: {ENSURES}"))

    def test_what_only_follows_is_not_told(self):
        self.assertEqual(tryedits.why(FOLLOWS + SEARCHED), (True, f"src/lib.rt:24: {ENSURES}"))
        self.assertEqual(tryedits.why(FOLLOWS + DIFFERS), tryedits.why(DIFFERS))
        fact, told = tryedits.why(FOLLOWS)
        self.assertFalse(fact)
        self.assertIn("f_spec", told)

    def test_a_law(self):
        expected = "proofs/Laws.antt:53 `between-small`: `omega`: the goal does not follow"
        self.assertEqual(tryedits.why(LAW), (True, expected))

    def test_an_answer(self):
        expected = "sets::f `loop-i-preserved`: `omega`: the goal does not follow"
        self.assertEqual(tryedits.why(ANSWER), (True, expected))

    def test_nothing_said(self):
        self.assertFalse(tryedits.why("logic=not-proved\n")[0])

    def test_long_texts_are_cut(self):
        log = LAW.replace("the goal", 100 * "a b " + "the goal")
        self.assertLess(len(tryedits.why(log)[1]), 250)


class TwoCrates(helpers.FolderTest):
    """Tests in a tree of two crates."""

    def setUp(self):
        super().setUp()
        self.write("crates.txt", "# from the bottom up\nb: # first\na: b\n")
        self.write("crates/a/src/lib.rt", "one two\ntwo three\n")
        self.write("crates/a/must-fail/gate.edit", "file: src/lib.rt\nold: one two\nnew: two two\n")


class Trees(TwoCrates):
    def edit(self, text):
        self.write("edits/a/e.edit", text)
        return Edit("a", "e", self.folder / "edits/a/e.edit")

    def names(self, gate=False, words=()):
        edits = tryedits.edits_of(self.folder, gate)
        return [str(edit) for edit in tryedits.chosen(edits, list(words))]

    def test_which_edits(self):
        self.write("edits/a/z.edit", "")
        self.write("edits/a/y.edit", "")
        self.write("edits/b/x.edit", "")
        self.assertEqual(self.names(), ["b/x", "a/y", "a/z"])
        self.assertEqual(self.names(gate=True), ["b/x", "a/gate", "a/y", "a/z"])
        self.assertEqual(self.names(words=["a"]), ["a/y", "a/z"])
        self.assertEqual(self.names(words=["a/z", "b"]), ["b/x", "a/z"])
        for wrong in ("c", "a/x", "a/gate"):
            with self.assertRaisesRegex(files.Failure, f"{wrong}: there is no such edit"):
                self.names(words=[wrong])

    def test_a_static_library_is_a_crate(self):
        self.write("crates.txt", "b: # first\na staticlib: b\n")
        self.write("edits/a/z.edit", "")
        self.assertEqual(self.names(words=["a"]), ["a/z"])

    def test_an_edit_of_no_crate_or_of_a_name_that_is_taken(self):
        self.write("edits/a/gate.edit", "")
        self.names()
        with self.assertRaisesRegex(files.Failure, "a/gate: there are two"):
            self.names(gate=True)
        self.write("edits/c/x.edit", "")
        with self.assertRaisesRegex(files.Failure, "edits/c/x.edit: crates.txt lists no"):
            self.names()

    def test_fits(self):
        fit = "# why\nfile: src/lib.rt\nold: one\nnew: two\n"
        path = self.folder / "crates/a/src/lib.rt"
        expected = {path: "two two\ntwo three\n"}
        self.assertEqual(tryedits.applied(self.folder, self.edit(fit)), expected)
        both = fit + "old: three\nnew:\n"
        expected = {path: "two two\ntwo \n"}
        self.assertEqual(tryedits.applied(self.folder, self.edit(both)), expected)

    def test_misfits(self):
        twice, none = (f"its `old:` stands {count} times in src/lib.rt" for count in (2, 0))
        wrong = {
            "file: src/lib.rt\nold: two\nnew: one\n": twice,
            "file: src/lib.rt\nold: four\nnew: one\n": none,
            "file: src/lib.rt\nnew: one\n": none,
            "file: src/main.rt\nold: one\nnew: two\n": "its crate has no file src/main.rt",
            "file: ../../crates.txt\nold: one\nnew: b\n": "its crate has no file ../../crates.txt",
            "file: src/lib.rt\nold: one\n": "it has no `old:` and `new:`",
            "file: src/lib.rt\nold: one\nnew: x\nold: one\nnew: a\n": none,
        }
        for text, reason in wrong.items():
            found = tryedits.misfits(self.folder, [self.edit(text)])
            self.assertEqual(found, [f"a/e: {reason}"], text)

    def test_results(self):
        names = ("good", "shape", "follows", "limit", "silent", "kept", "bad", "unread", "killed", "lost")
        edits = [Edit("a", name, self.folder / name) for name in names]
        only = "only because a proof file names what the edit took away, so this says little: keep the names"
        limit = "only by a limit of the prover, which gave no verdict, so this says less of the contract"
        rows = [
            "rt: a: begins with what a check kept in /some/crates/a",
            "fn a::f: proved",
            f"rt: must-fail a/good.edit: refused, as it must be: {LAW}",
            f"rt: must-fail a/shape.edit: refused, as it must be ({only}): {NO_NEED}",
            f"rt: must-fail a/follows.edit: refused, as it must be: {FOLLOWS}",
            f"rt: must-fail a/limit.edit: refused, as it must be ({limit}): {LAW}",
            "rt: must-fail a/silent.edit: refused, as it must be",
            "rt: must-fail a/kept.edit: NOT REFUSED: the crate is still proved with this edit (one that"
            " means the same as before cannot be refused: remove it)",
            "rt: must-fail a/bad.edit: BAD EDIT: an 'old:' text is in src/lib.rt 0 times, and not once",
            "rt: must-fail a/unread.edit: BAD EDIT: it did not reach the prover; the first lines of what it said:",
            "error[mismatched-types]: src/lib.rt:4:1: expected a `u8`",
            "rt: must-fail a/killed.edit: NOT TRIED: its check was killed, most likely for memory",
        ]
        found = list(tryedits.results(rows, edits))
        expected = [
            ("good", "refused"),
            ("shape", "NO FACT"),
            ("follows", "NO FACT"),
            ("limit", "NO FACT"),
            ("silent", "NO FACT"),
            ("kept", "NOT REFUSED"),
            ("bad", "BAD EDIT"),
            ("unread", "BAD EDIT"),
            ("killed", "NOT TRIED"),
            ("lost", "NOT TRIED"),
        ]
        self.assertEqual([(one.edit.name, one.verdict) for one in found], expected)
        whys = [one.why for one in found]
        self.assertEqual(whys[0], tryedits.why(LAW)[1])
        self.assertIn(NEED[:40], whys[1])
        self.assertTrue(whys[3].endswith(" (only by a limit of the prover)"), whys[3])
        self.assertEqual(whys[5:7], ["", "an 'old:' text is in src/lib.rt 0 times, and not once"])
        self.assertIn("the first lines of what it said: error[mismatched-types]", whys[7])

    def test_what_a_check_said_of_an_edit(self):
        for status, said, verdict in (
            (0, "logic=proved functions=1\n", "NOT REFUSED"),
            (1, LAW + "logic=not-proved\n", "refused"),
            (1, NO_NEED + "logic=not-proved\n", "NO FACT"),
            (1, "error[mismatched-types]: src/lib.rt:4:1\n", "BAD EDIT"),
            (2, "rt: there is no crate\n", "BAD EDIT"),
            (3, LAW, "NO FACT"),
        ):
            with self.subTest(said):
                self.assertEqual(tryedits.verdict_of(status, said)[0], verdict)

    def test_a_row_of_the_table(self):
        result = Result(Edit("a", "e", self.folder), "refused", "why", "7")
        self.assertEqual(tryedits.told(result).split(), ["a", "e", "refused", "7", "why"])


# Refuses a crate in which `two two` stands, and can't read one in which `four` stands.
RT = """#!/bin/sh
law="./proofs/Laws.antt:53:72: error: \\`law\\`: it does not follow"
if [ "$1" = check ]; then
    if grep -q four src/lib.rt; then echo "error[syntax]: src/lib.rt:1:1: bad"; exit 1; fi
    if grep -q 'two two' src/lib.rt; then echo "fn a::f: not proved"; echo "$law"; echo logic=not-proved; exit 1; fi
    exit 0
fi
[ "$1 $2" = 'must-fail a' ] || exit 2
for edit in crates/a/must-fail/*.edit; do
    echo "rt: must-fail a/$(basename "$edit"): refused, as it must be: $law"
done
"""


class Trying(TwoCrates):
    """The whole way, with a stand-in for `rt`."""

    def setUp(self):
        super().setUp()
        self.write("bin/rt", RT).chmod(0o755)
        path = os.environ["PATH"]
        self.addCleanup(os.environ.__setitem__, "PATH", path)
        os.environ["PATH"] = f"{self.folder}/bin:{path}"
        change = "file: src/lib.rt\nold: one\nnew: "
        for name, new in (("wrong", "two"), ("same", "one"), ("unread", "four")):
            self.write(f"edits/a/{name}.edit", change + new + "\n")
        self.write("edits/a/misfit.edit", "file: src/lib.rt\nold: five\nnew: six\n")
        self.write("crates/a/out/incremental/some", "kept")
        self.write("HANDLES", "Handles allowed: none.\n")
        self.copy = self.folder / "copy"
        self.copy.mkdir()
        tryedits.copied(self.folder, self.copy)

    def verdicts(self, fast):
        edits = tryedits.edits_of(self.folder, gate=False)
        found = tryedits.tried_over(self.folder, self.copy, "a", edits, fast)
        return {one.edit.name: one.verdict for one in found}

    def test_the_copy(self):
        """`rt` itself takes what it kept in this tree: nothing of out/ is copied."""
        for name in ("must-fail", "out"):
            self.assertFalse((self.copy / "crates/a" / name).exists())
        for name in ("crates.txt", "HANDLES", "crates/a/src/lib.rt"):
            self.assertEqual((self.copy / name).read_bytes(), (self.folder / name).read_bytes())

    def test_fast(self):
        expected = {"wrong": "refused", "same": "NOT REFUSED"}
        expected |= {"unread": "BAD EDIT", "misfit": "BAD EDIT"}
        self.assertEqual(self.verdicts(fast=True), expected)
        for tree in (self.folder, self.copy):
            text = (tree / "crates/a/src/lib.rt").read_text(encoding="utf-8")
            self.assertEqual(text, "one two\ntwo three\n")
        log = (self.folder / "target/edits/a/wrong.log").read_text(encoding="utf-8")
        self.assertIn("\n./proofs/Laws.antt:53:72: error: `law`", log)

    def test_a_crate_that_is_not_proved(self):
        (self.copy / "crates/a/src/lib.rt").write_text("two two\n", encoding="utf-8")
        for fast in (True, False):
            self.assertEqual(set(self.verdicts(fast).values()), {"NOT TRIED"})
        edits = tryedits.edits_of(self.folder, gate=False)
        (first, *_) = tryedits.tried_over(self.folder, self.copy, "a", edits, fast=False)
        why = "a itself is not proved: proofs/Laws.antt:53 `law`: it does not follow"
        self.assertEqual(first.why, why)

    def test_whole(self):
        self.assertEqual(set(self.verdicts(fast=False).values()), {"refused"})
        self.assertFalse((self.copy / "crates/a/must-fail").exists())


class Repository(unittest.TestCase):
    def test_every_edit_fits_its_file(self):
        edits = tryedits.edits_of(tryedits.ROOT, gate=True)
        self.assertGreater(len(edits), 30)
        self.assertEqual(tryedits.misfits(tryedits.ROOT, edits), [])

    def test_no_rattle_file_stands_beside_the_crates(self):
        beside = (tryedits.ROOT / "edits").rglob("*")
        self.assertEqual([path for path in beside if path.suffix in (".rt", ".antt")], [])


if __name__ == "__main__":
    unittest.main()
