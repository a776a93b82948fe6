"""Unused imports and names that nothing cites are told, and nothing that is used."""

import unittest

import helpers

import files
import source
import unused

SPECS = """-- A comment on nat_abs is no use of it.
use Rattle.std.specs.Prelude.{ℕ, ◌+◌, ◌*◌}
use lib.IntN.{nat_abs}

abbrev pub double : ℕ → ℕ
double n = n + n

pub record Pair (n : ℕ) : Type 0 where
  pub more : n ≤ double n

pub more-of : (n : ℕ) → Pair n → n ≤ double n
more-of n p = (record { nat_abs = p.nat_abs }).more
"""

LAWS = """use mathlib.Core.Path.{◌≡◌, refl, sym, ap as again}
use Prim.Native.Nat.{ℕ}
use Rattle.c.specs.Numbers.{double, Pair}
use Rattle.c.proofs.f.Tie as tie
use Rattle.c.proofs.g.Tie as other

pub double-one : double 1 ≡ 2
unfolding double
double-one = refl

double-two : double 2 ≡ 4
double-two = again double (left 2)

left : ℕ → ℕ
left n = (tie.spec n).sym

pub data Sign : Type 0 where
  Plus : Sign
  ◌minus◌ : Sign → Sign → Sign

module _ (a : ℕ) where
  pub alone : Sign → ℕ
  alone Plus = a
  alone (s minus t) = alone s
"""

PROOF = """use Rattle.c.proofs.Laws.{double-one}
use Rattle.c.proofs.f.Tie as tie

returns : tie.Need-returns
returns c = double-one

pub f_spec : {M : Type 1} → statement M
f_spec = tie.close (tie.spec returns)
"""

CODE = """use crate::text::put;
use crate::text::{word, number as digits};
use stepping::Spare;
pub use crate::text::end;
ghost use Rattle.std.specs.Prelude.{◌≡◌};
ghost use Rattle.c.specs.Numbers.{double, Pair};

// put is no use.
fn f(word: u8) -> Stepped
    ensures paired { (put : ℕ) → Pair put }
{
    let x = b"digits";
    y.put();
    Stepped::Spare(word, 'x')
}
"""


class Trees(helpers.FolderTest):
    def setUp(self):
        super().setUp()
        self.write("crates/c/specs/Numbers.antt", SPECS)
        self.write("crates/c/proofs/Laws.antt", LAWS)
        self.write("crates/c/proofs/f/Proof.antt", PROOF)
        self.write("crates/c/src/lib.rt", CODE)

    def found(self, name):
        """What is told of a file: (row, words)."""
        return [(one.row, one.what) for one in unused.findings(self.folder) if one.path == name]

    def imports_of(self, name):
        return [what.split()[-1] for row, what in self.found(name) if "import" in what]

    def uncited(self):
        told = [one.what for one in unused.findings(self.folder)]
        return {what.split()[-1] for what in told if "nothing cites" in what}

    def test_imports_of_specs(self):
        """A field or label that is spelled like the import is no use of it."""
        self.assertEqual(self.imports_of("crates/c/specs/Numbers.antt"), ["◌*◌", "nat_abs"])

    def test_imports_of_proofs(self):
        """`sym` stands only as a field; `Pair` and `other` nowhere; `again` is a name by `as`."""
        self.assertEqual(self.imports_of("crates/c/proofs/Laws.antt"), ["sym", "Pair", "other"])
        self.assertEqual(self.imports_of("crates/c/proofs/f/Proof.antt"), [])

    def test_imports_of_code(self):
        """What is behind `::` or a dot, in quotes or comments is no use; `pub use` passes on."""
        rows = [
            (1, "unused import put"),
            (2, "unused import digits"),
            (3, "unused import Spare"),
            (5, "unused import ◌≡◌"),
            (6, "unused import double"),
        ]
        self.assertEqual(self.found("crates/c/src/lib.rt"), rows)

    def test_nothing_cites(self):
        """`double-two` cites `left`, but nothing cites `double-two`."""
        self.assertEqual(self.uncited(), {"double-two", "left", "Sign", "alone", "more-of"})

    def test_rows(self):
        self.assertIn((11, "nothing cites double-two"), self.found("crates/c/proofs/Laws.antt"))

    def test_named_in_reading(self):
        self.write("docs/READING.md", "The law is `double-two`, and left is no name here.\n")
        self.assertEqual(self.uncited(), {"Sign", "alone", "more-of"})

    def test_constructor_cites_its_type(self):
        self.write("docs/READING.md", "`Plus`\n")
        self.assertEqual(self.uncited(), {"double-two", "left", "alone", "more-of"})

    def test_listed(self):
        self.write("tools/unused.txt", "# why\nalone: read by users\n")
        self.assertEqual(self.uncited(), {"double-two", "left", "more-of"})
        self.assertEqual(self.found("tools/unused.txt"), [])

    def test_listed_without_need(self):
        self.write("tools/unused.txt", "double-one: cited by a proof\nnobody: declared nowhere\n")
        self.assertEqual([row for row, what in self.found("tools/unused.txt")], [1, 2])

    def test_listed_without_reason(self):
        self.write("tools/unused.txt", "alone\n")
        with self.assertRaisesRegex(files.Failure, "tools/unused.txt:1: expected NAME: REASON"):
            unused.findings(self.folder)

    def test_by_whole_path_and_passed_on(self):
        """A law counts as cited by its path, and through a module that passes it on."""
        passed = "pub use Rattle.c.proofs.Laws.{double-two}\n"
        self.write("crates/c/proofs/Basics.antt", passed)
        more = "\n\npub g_spec : X\ng_spec = Rattle.c.proofs.Laws.alone Basics.double-two\n"
        self.write("crates/c/proofs/g/Proof.antt", "use Rattle.c.proofs.Basics" + more)
        self.assertEqual(self.uncited(), {"more-of"})

    def test_by_an_answer(self):
        """What answers a goal of a function cites; a helper beside it, as public as it is, doesn't."""
        for name, goals in (("Answers", "Goals"), ("Invariants", "Given")):
            text = f"use Rattle.c.proofs.Laws.{{double-two, alone}}\nuse Rattle.c.proofs.g.{goals} as goal\n"
            text += "\nabbrev pub returns : goal.returns\nreturns c = double-two\n"
            text += "\npub idle : goal.other\nidle = alone\n"
            path = self.write(f"crates/c/proofs/g/{name}.antt", text)
            self.assertEqual(self.uncited(), {"idle", "Sign", "alone", "more-of"})
            path.unlink()
        self.write("crates/c/proofs/Answers.antt", "returns : double-two\nreturns = double-two\n")
        self.assertIn("returns", self.uncited())

    def test_every_clause_of_code(self):
        """Clauses with a name, starred ones and ghost items cite; names in their heads don't."""
        head = "ghost use Rattle.c.proofs.Laws.{double-two, left, alone, Sign};\n\n"
        clauses = "requires* { left 1 } ensures alone { double-two }", "ghost Sign: { left double-two }"
        for clause in clauses:
            self.write("crates/c/src/more.rt", head + f"fn g() {clause} {{}}\n")
            self.assertEqual(self.imports_of("crates/c/src/more.rt"), ["alone", "Sign"])
            self.assertEqual(self.uncited(), {"Sign", "alone", "more-of"})

    def test_copies_in_out_are_not_read(self):
        self.write("crates/c/out/rlib/specs/Numbers.antt", "idle : ℕ\nidle = 0\n")
        self.assertNotIn("idle", self.uncited())

    def test_by_a_glob(self):
        below = "pub low : ℕ\nlow = 0\n\npub idle : ℕ\nidle = 0\n"
        self.write("crates/c/proofs/Laws/Below.antt", below)
        laws = "use Below.*\n" + LAWS.replace("double-one = refl", "double-one = refl low")
        self.write("crates/c/proofs/Laws.antt", laws)
        self.assertEqual(self.imports_of("crates/c/proofs/Laws.antt"), ["sym", "Pair", "other"])
        self.assertIn("idle", self.uncited())
        self.assertNotIn("low", self.uncited())

    def test_fix(self):
        self.assertEqual(unused.fix(self.folder), 10)
        self.assertEqual([one for one in unused.findings(self.folder) if "import" in one.what], [])
        code = (self.folder / "crates/c/src/lib.rt").read_text(encoding="utf-8")
        start = "use crate::text::{word};\npub use crate::text::end;\n"
        start += "ghost use Rattle.c.specs.Numbers.{Pair};\n\n// put"
        self.assertTrue(code.startswith(start), code)
        laws = (self.folder / "crates/c/proofs/Laws.antt").read_text(encoding="utf-8")
        start = "use mathlib.Core.Path.{◌≡◌, refl, ap as again}\nuse Prim.Native.Nat.{ℕ}\n"
        start += "use Rattle.c.specs.Numbers.{double}\n"
        start += "use Rattle.c.proofs.f.Tie as tie\n\npub double-one"
        self.assertTrue(laws.startswith(start), laws)
        self.assertEqual(laws.partition("\n\n")[2], LAWS.partition("\n\n")[2])
        self.assertEqual(unused.fix(self.folder), 0)

    def test_status(self):
        out, _, status = helpers.run_tool("unused.py", "--root", self.folder)
        self.assertEqual(status, 1)
        self.assertIn("crates/c/src/lib.rt:1: unused import put\n", out.decode())
        self.write("tools/unused.txt", "more-of: meant for users\n")
        for name in ("proofs/Laws.antt", "proofs/f/Proof.antt"):
            (self.folder / "crates/c" / name).unlink()
        out, _, status = helpers.run_tool("unused.py", "--fix", "--root", self.folder)
        self.assertEqual((out.decode().splitlines()[-1], status), ("nothing is unused", 0))


class Texts(unittest.TestCase):
    def names(self, text):
        return [one.name for one in source.references(source.tokens(text))]

    def test_labels_and_fields_are_no_uses(self):
        text = "record { first = a; second = b .first; } {third = c} d.fourth (e f).first"
        self.assertEqual(self.names(text), ["record", "=", "a", "=", "b", "=", "c", "d", "e", "f"])

    def test_escaped_names(self):
        self.assertEqual(self.names("«in» «a_b» x"), ["in", "a_b", "x"])
        self.assertEqual(source.keys("a_b"), ["a_b"])

    def test_operators(self):
        self.assertEqual(source.keys("◌+ℤ◌"), ["+ℤ"])
        self.assertEqual(source.keys("if◌then◌else◌"), ["if", "then", "else"])
        self.assertEqual(source.keys("◌"), ["◌"])

    def test_comments_and_quoted_texts(self):
        self.assertEqual(self.names('a -- b\n{- c\n d -} e "f \\" g" h--i'), ["a", "e", "h--i"])

    def test_members(self):
        found = list(source.references(source.tokens("tie.After.spec (c .x)")))
        self.assertEqual(found, [source.Reference("tie", ("After", "spec")), source.Reference("c")])

    def test_mutual(self):
        text = "abbrev mutual\n  pub up : ℕ → ℕ\n  up n = dn n\n\n"
        text += "  pub dn : ℕ → ℕ\n  dn n = one n\n"
        found = {one.name: {use.name for use in one.uses} for one in source.declarations(text)}
        self.assertEqual(set(found), {"up", "dn"})
        self.assertIn("dn", found["up"])
        self.assertNotIn("one", found["up"])

    def test_clauses_of_operators(self):
        text = "◌⊕◌ : ℕ → ℕ → ℕ\nz : ℕ\na ⊕ b = sum a b\nz = 0\n"
        found = {one.name: {use.name for use in one.uses} for one in source.declarations(text)}
        self.assertIn("sum", found["◌⊕◌"])
        self.assertNotIn("sum", found["z"])


if __name__ == "__main__":
    unittest.main()
