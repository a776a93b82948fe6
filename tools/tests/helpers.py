"""What the tests share: the way to the tools, small models, small trees and running a tool."""

import os
import subprocess
import sys
import tempfile
import unittest
from pathlib import Path

TOOLS = os.path.dirname(os.path.dirname(os.path.abspath(__file__)))
sys.path.insert(0, TOOLS)

from layout import BOX, Model, Set  # noqa: E402


def box(*sides):
    """The box with these lower and upper numbers, one pair for each coordinate."""
    return Set(BOX, tuple(zip(*sides)))


def single(entry, initial, input_, direction, steps, guards=(), drift=0):
    """A model of one coordinate, as most of the specification's figures are."""
    levels = tuple((0, level) for level in guards)
    sets = box(initial), box(input_)
    return Model(1, steps, ((entry,),), *sets, ((direction,),), levels, (drift,))


# Two error terms that are 1 at the last step: of two coordinates, of both sets, of two inputs.
HALVED_ONCE = (
    Model(2, 2, ((32, 0), (0, 32)), box((1, 1), (0, 1)), box((0, 0), (0, 0)), ((-3, -3),), ()),
    Model(2, 3, ((32, 65_536), (0, 0)), box((0, 0), (1, 1)), box((0, 1), (0, 0)), ((-3, 0),), ()),
    Model(2, 4, ((3, 0), (0, 2_048)), box((0, 0), (1, 1)), box((0, 1), (0, 0)), ((-1, -1),), ()),
)
# At step 2 |r| is at the growth limit, and e is 1, half of which is counted as 1.
BEYOND_BY_HALF = Model(2, 2, ((131_072, 0), (1, -131_071)), box((0, 0), (0, 0)),
                       box((0, 0), (0, 0)), ((256, 1),), ())


class FolderTest(unittest.TestCase):
    """Tests in a folder of their own."""

    def setUp(self):
        folder = tempfile.TemporaryDirectory()
        self.addCleanup(folder.cleanup)
        self.folder = Path(folder.name)

    def write(self, name, text):
        path = self.folder / name
        path.parent.mkdir(parents=True, exist_ok=True)
        path.write_text(text, encoding="utf-8")
        return path


def run_tool(name, *arguments, stdin=b"", cwd=None):
    """Run a tool; what it wrote to standard output and to standard error, and its status."""
    command = [sys.executable, os.path.join(TOOLS, name), *map(str, arguments)]
    done = subprocess.run(command, input=stdin, capture_output=True, timeout=60, cwd=cwd)
    return done.stdout, done.stderr.decode(), done.returncode
