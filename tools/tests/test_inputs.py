"""Models from files and folders, and what is told of those without an answer."""

import os
import unittest

from helpers import FolderTest

import inputs
import pack
from inputs import NOT_RUN, REFUSED, Failed, Input
from listings import Refusal

MODEL = "coordinates 1\nsteps 3\nrow 0.5\ninitial box\nlower 0\nupper 1\ndirection d {}\n"
TEXT, OTHER = MODEL.format(1), MODEL.format(2)


class Inputs(FolderTest):
    """Files and folders."""

    def models(self, *words, **how):
        return inputs.models_of("some", [*map(str, words)], **how)

    def names(self, *words, **how):
        return [one.name for one in self.models(*words, **how)]

    def pack(self, name, text):
        path = self.folder / name
        path.write_bytes(pack.parse(text).data)
        return path

    def test_a_folder_has_its_models_in_order(self):
        for name in ("b.model", "sub/c.model", ".hidden.model", ".git/d.model", "x.txt"):
            self.write(name, TEXT)
        self.pack("a.bin", OTHER)
        os.mkfifo(self.folder / "pipe.model")
        expected = [str(self.folder / name) for name in ("a.bin", "b.model", "sub/c.model")]
        self.assertEqual(self.names(self.folder), expected)

    def test_a_packed_copy_of_a_text_is_left_out(self):
        text = self.write("a.model", TEXT)
        copy, other = self.pack("a.bin", TEXT), self.pack("b.bin", TEXT)
        self.assertEqual(self.names(self.folder), [str(text), str(other)])
        self.pack("a.bin", OTHER)
        self.assertEqual(len(self.names(self.folder)), 3)
        self.assertEqual(self.names(copy), [str(copy)])

    def test_a_packed_copy_is_taken_where_copies_are(self):
        expected = [self.write("a.model", TEXT), self.pack("a.bin", TEXT), self.pack("b.bin", TEXT)]
        found = self.names(self.folder, copies=True)
        self.assertEqual(found, sorted(map(str, expected)))

    def test_a_file_keeps_the_word_that_names_it(self):
        path = os.fsencode(self.folder) + b"/line\nfeed\xff.model"
        with open(path, "w") as file:
            file.write(TEXT)
        for word in (path, os.fsencode(self.folder)):
            (one,) = self.models(os.fsdecode(word))
            self.assertEqual(os.fsencode(one.word), path)
            self.assertTrue(one.name.endswith("/line\\nfeed\\udcff.model"), one.name)

    def test_what_can_t_be_read(self):
        (self.folder / "empty").mkdir()
        for word, said, status in (
            (self.folder / "none", "is not there", NOT_RUN),
            (self.folder / "empty", "is a folder without a model (*.model or *.bin)", NOT_RUN),
            ("", "is no model", NOT_RUN),
            (self.write("wrong.model", "steps 3\n"), "the text has 1 mistake", REFUSED),
            (self.write("long.model", "#" * inputs.MOST), "is too long: of a text less", NOT_RUN),
        ):
            with self.subTest(said):
                (one,) = self.models(word)
                self.assertIsInstance(one, Failed)
                self.assertTrue(one.said.startswith(said), one.said)
                self.assertEqual(one.status, status)
                start = "some: " if status == NOT_RUN else f"{word}:1: "
                self.assertTrue(one.message.startswith(start), one.message)

    def test_each_file_keeps_its_word_whatever_is_read_of_it(self):
        names = ("cut.bin", "empty.model", "gone.model", "long.model", "right.model", "wrong.model")
        paths = [str(self.folder / name) for name in names]
        for name, text in zip(names, ("\1", "", None, "#" * inputs.MOST, TEXT, "steps 3\n")):
            if text is None:
                (self.folder / name).symlink_to("nothing")
            else:
                self.write(name, text)
        for words in (paths, [self.folder]):
            self.assertEqual([one.word for one in self.models(*words)], paths)
        self.assertEqual(self.models("")[0].word, None)

    def test_names_are_told_in_one_row(self):
        self.assertEqual(inputs.shown("a\nb\udcffä"), "a\\nb\\udcffä")
        self.assertEqual(inputs.shown("-"), "standard input")

    def test_a_folder_that_can_t_be_read_is_told(self):
        self.write("a.model", TEXT)
        self.write("sub/b.model", TEXT)
        before = os.scandir

        def scandir(path):
            if str(path).endswith("sub"):
                raise PermissionError(13, "no", str(path))
            return before(path)

        self.addCleanup(setattr, os, "scandir", before)
        os.scandir = scandir
        one, other = self.models(self.folder)
        self.assertIsInstance(one, Input)
        self.assertEqual((other.status, other.said), (NOT_RUN, "is a folder that can't be read"))


class Refused(unittest.TestCase):
    def test_a_refused_model_is_told_in_words(self):
        data = pack.parse(TEXT).data[:-1]
        told = inputs.refused("some", Input("a\nb", data), Refusal(1, len(data)))
        self.assertEqual((told.status, told.said), (REFUSED, f"refused 1 at {len(data)}"))
        self.assertTrue(told.message.startswith(f"a\\nb: refused 1 at {len(data)}: the file ends"))

    def test_an_empty_file_is_told_as_such(self):
        told = inputs.refused("some", Input("-", b""), Refusal(1, 0))
        self.assertEqual(told.message, "some: standard input is empty")


if __name__ == "__main__":
    unittest.main()
