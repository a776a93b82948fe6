"""The rows of digests, and what is made of the answers of a program; from outside in `tests`."""

import hashlib
import signal
import unittest
from unittest import mock

from helpers import FolderTest, single

import canonical
import exact
import files
import inputs
import pack
import programs
from inputs import REFUSED, Failed, Input
from layout import encode

signal.signal(signal.SIGINT, signal.default_int_handler)  # as it was before `canonical` was loaded
# SHA-256 of "abc" and of nothing, as FIPS 180-4 has them.
ABC = b"ba7816bf8f01cfea414140de5dae2223b00361a396177a9cb410ff61f20015ad"
NOTHING = b"e3b0c44298fc1c149afbf4c8996fb92427ae41e4649b934ca495991b7852b855"
TEXT = "coordinates 1\nsteps 3\nrow 0.5\ninitial box\nlower 0\nupper 1\ndirection d 1\n"


class Rows(unittest.TestCase):
    def test_a_row_is_that_of_sha256sum(self):
        for word, expected in (
            ("a.bin", ABC + b"  a.bin\n"),
            ("-", ABC + b"  -\n"),
            (" a  b\t", ABC + b"   a  b\t\n"),
            ("gr\u00fcn\udcff", ABC + b"  gr\xc3\xbcn\xff\n"),
            ("a\\b", b"\\" + ABC + b"  a\\\\b\n"),
            ("a\nb", b"\\" + ABC + b"  a\\nb\n"),
            ("a\rb", b"\\" + ABC + b"  a\\rb\n"),
            ("\\n\n", b"\\" + ABC + b"  \\\\n\\n\n"),
        ):
            with self.subTest(word):
                self.assertEqual(canonical.row(b"abc", word), expected)

    def test_rows_stand_in_the_order_of_the_models(self):
        made = [("b", b"abc"), ("a", b""), ("c", b"abc"), ("a", b"")]
        told = canonical.digests(made, same=False).splitlines(keepends=True)
        nothing = NOTHING + b"  a\n"
        self.assertEqual(told, [ABC + b"  b\n", nothing, ABC + b"  c\n", nothing])

    def test_the_same_models_stand_together(self):
        made = [("b", b"abc"), ("a", b""), ("c", b"abc"), ("d", b"x"), ("a", b"")]
        x = hashlib.sha256(b"x").hexdigest().encode()
        told = canonical.digests(made, same=True).split(b"\n\n")
        self.assertEqual(told, [
            ABC + b"  b\n" + ABC + b"  c", NOTHING + b"  a\n" + NOTHING + b"  a", x + b"  d\n"])

    def test_of_no_model_there_is_no_row(self):
        self.assertEqual([canonical.digests([], same) for same in (False, True)], [b"", b""])


class Loss(FolderTest):
    """Which files are not replaced."""

    def setUp(self):
        super().setUp()
        self.file = str(self.write("file", ""))

    def is_refused(self, to, digest, given=()):
        try:
            canonical.refuse_loss(given, to, digest)
        except files.AccessFailure:
            return True
        return False

    def test_what_no_packed_model_and_what_no_row_replaces(self):
        for name, data, by_model, by_rows in (
            ("a", b"", False, False), ("a.model", b"", False, False), ("a.bin", b"", False, False),
            ("a", b"\1", False, True), ("a.model", b"\1", False, True), ("a.bin", b"\1", False, True),
            ("a", b"0", True, False), ("a.model", b"0", True, True), ("a.bin", b"0", True, True),
            ("model", b"0", True, False), ("a.bin.txt", b"0", True, False), ("a", b"\0\1", True, False),
        ):
            path = self.write(name, "")
            path.write_bytes(data)
            with self.subTest(f"{name} {data}"):
                self.assertEqual(self.is_refused(str(path), False), by_model)
                self.assertEqual(self.is_refused(str(path), True), by_rows)

    def test_what_is_no_plain_file_and_what_is_open_is_written_to(self):
        missing = str(self.folder / "missing.model")
        self.write("open.model", "x")
        with open(self.folder / "open.model", "ab") as opened:
            for path in (missing, str(self.folder), "/dev/null", f"/dev/fd/{opened.fileno()}"):
                for digest in (False, True):
                    self.assertFalse(self.is_refused(path, digest), path)

    def test_every_given_file_counts(self):
        word = str(self.folder / "." / "file")
        text = Input(word, b"", pack.parse(TEXT))
        for one, by_model in ((Input(word, b""), False), (text, True),
                              (inputs.unread("some", word, "can't be read"), True)):
            self.assertEqual(self.is_refused(self.file, False, [one]), by_model)
            self.assertTrue(self.is_refused(self.file, True, [one]))
        none = Failed("", "is no model", "", REFUSED)
        other = inputs.unread("some", str(self.folder), "can't be read")
        self.assertFalse(self.is_refused(self.file, True, [none, other]))


class Answers(unittest.TestCase):
    """What comes of a program's output."""

    MODEL = single(32_768, (0, 3), (0, 0), 1, 120)
    WRITTEN = exact.canonical(MODEL)
    DATA = encode(MODEL, stated_steps=0)  # with an input box of zeros
    CUT = DATA[:-1]

    def answer(self, data, out, err=b""):
        with mock.patch.object(programs, "output_of", return_value=(out, err)) as called:
            told = canonical.canonical_of(Input("some.bin", data))
        called.assert_called_once_with("canonical", data)
        return told

    def test_the_bytes_of_the_same_model_are_taken(self):
        self.assertNotEqual(self.DATA, self.WRITTEN)
        for out in (self.WRITTEN, self.DATA):
            self.assertEqual(self.answer(self.DATA, out), out)

    def test_a_refusal_is_told_in_words(self):
        told = self.answer(self.CUT, b"", b"refused 1 at %d\n" % len(self.CUT))
        self.assertIsInstance(told, Failed)
        self.assertEqual(told.status, REFUSED)
        self.assertRegex(told.message, rf"^some.bin: refused 1 at {len(self.CUT)}: the file ends ")

    def test_every_other_answer_is_a_failure(self):
        other = exact.canonical(single(32_768, (0, 4), (0, 0), 1, 120))
        refused = b"refused 1 at %d\n" % len(self.CUT)
        for data, out, err in (
            (self.DATA, b"", b""),
            (self.CUT, b"", b""),
            (self.DATA, self.WRITTEN[:-1], b""),
            (self.DATA, self.WRITTEN + b"\xff", b""),
            (self.DATA, b"refused 1 at 4\n", b""),
            (self.DATA, other, b""),
            (self.DATA, self.WRITTEN, b"canonical: standard output: No space left on device\n"),
            (self.DATA, b"", b"canonical: standard output: No space left on device\n"),
            (self.DATA, self.WRITTEN, refused),
            (self.DATA, b"", refused),
            (self.CUT, self.WRITTEN, b""),
            (self.CUT, self.CUT, b""),
            (self.CUT, self.WRITTEN, refused),
            (self.CUT, b"", refused.replace(b"1 at", b"2 at")),
            (self.CUT, b"", refused + refused),
            (self.CUT, b"", exact.listing(self.DATA).encode()),
            (self.CUT, b"", b"\xff"),
        ):
            with self.subTest(out=out, err=err), self.assertRaises(files.AccessFailure):
                self.answer(data, out, err)


if __name__ == "__main__":
    unittest.main()
