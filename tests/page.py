#!/usr/bin/env python3
"""Test the page of `./report --html` in a real browser, headless Chromium.

    page.py [--pictures FOLDER]

With --pictures each page is also left there as a picture and as it prints, for whoever wants to
look at them. The tests fail where there is no browser, and where target/bin/envelope isn't built.
"""

from __future__ import annotations

import argparse
import collections
import json
import re
import struct
import subprocess
import sys
import tempfile
import unittest
import zlib
from decimal import Decimal
from pathlib import Path

ROOT = Path(__file__).resolve().parent.parent
EXAMPLES = ROOT / "examples"
TIME_LIMIT = 60  # seconds for one report
sys.path.insert(0, str(ROOT / "tests"))

from browser import Browser  # noqa: E402
from claims import REACHED_SIGNS  # noqa: E402

WIDTHS = (1600, 1280, 700, 400)
VERDICT_COLOURS = {"HIT": (0xB0, 0x00, 0x20), "CLEAR": (0x17, 0x69, 0x2B)}
# Texts, and where each stands.
PLACED = """[...document.querySelectorAll(%s)].map(node => {
  const box = node.getBoundingClientRect(), own = node.closest("svg").getBoundingClientRect();
  return {words: node.textContent, box: [box.left, box.top, box.right, box.bottom],
          own: [own.left, own.top, own.right, own.bottom]};
})"""
# The rows of all tables, as the cells are read.
ROWS = """[...document.querySelectorAll("tr")].map(
  row => [...row.children].map(cell => cell.innerText.trim()))"""
HARD = """\
coordinates a_rather_long_name_of_a_coordinate b
time 0.123456789 milliseconds
unit a_rather_long_name_of_a_coordinate nanofarads 1000000000
steps 200
row ~0.9999 0
row 0 ~-0.9
initial vertices
  vertex 1048576 -1048576
  vertex -1048576 0
direction highest_of_all_the_directions_there_are 1 0
direction lowest_of_all_the_directions_there_are -1 0
direction mixed -999 1000
guard mixed 9223372036854775807 the_largest_level_that_there_is
guard mixed -9223372036854775808 the_least_level_that_there_is
"""
FOLDER = Path()
PICTURES: Path | None = None
SHOWN: Browser


def made(name: str, *words: str | Path) -> Path:
    """The page that `./report` writes, and beside it what it printed."""
    path = FOLDER / f"{name}.html"
    done = subprocess.run([ROOT / "report", "--html", path, *words], capture_output=True, cwd=ROOT,
                          timeout=TIME_LIMIT)
    assert done.returncode in (0, 1, 3) and path.exists(), done
    path.with_suffix(".text").write_bytes(done.stdout)
    return path


def setUpModule() -> None:
    global FOLDER, SHOWN
    folder = tempfile.TemporaryDirectory()
    unittest.addModuleCleanup(folder.cleanup)
    FOLDER = Path(folder.name)
    SHOWN = unittest.enterModuleContext(Browser())
    (FOLDER / "hard.model").write_text(HARD, encoding="utf-8")
    (FOLDER / "<b>&.bin").write_bytes((EXAMPLES / "verdicts.bin").read_bytes()[:-1])
    sixteen = "".join(f"guard highest_of_all_the_directions_there_are {10**6 + i} name_{i}\n"
                      for i in range(16))
    (FOLDER / "many.model").write_text(HARD[: HARD.index("guard")] + sixteen, encoding="utf-8")
    made("rail", "examples/rail.model")
    made("head", "examples/head.model")
    made("all", "examples", FOLDER / "<b>&.bin")
    made("against", "examples/summer.model", "--against", "examples/receipt.model")
    made("hard", FOLDER / "hard.model")
    made("many", FOLDER / "many.model")
    for page in pages() if PICTURES is not None else ():
        SHOWN.open(page)
        (PICTURES / f"{page.stem}.png").write_bytes(SHOWN.picture())
        (PICTURES / f"{page.stem}.pdf").write_bytes(SHOWN.printed())


def pages() -> list[Path]:
    return sorted(FOLDER.glob("*.html"))


def pixels(png: bytes) -> collections.Counter[tuple[int, int, int]]:
    """How often a picture of 8 bits a colour has each of its colours."""
    width, height, depth, kind = struct.unpack(">IIBB", png[16:26])
    assert depth == 8 and kind in (2, 6), (depth, kind)
    parts, at = b"", 8
    while at < len(png):
        length, name = struct.unpack(">I4s", png[at : at + 8])
        parts += png[at + 8 : at + 8 + length] if name == b"IDAT" else b""
        at += 12 + length
    data, size = zlib.decompress(parts), 3 if kind == 2 else 4
    stride = width * size
    above, found = bytearray(stride), collections.Counter()
    for row in range(height):
        start = row * (stride + 1)
        line = unfiltered(data[start], bytearray(data[start + 1 : start + 1 + stride]), above, size)
        found.update(zip(line[0::size], line[1::size], line[2::size]))
        above = line
    return found


def unfiltered(how: int, line: bytearray, above: bytearray, size: int) -> bytearray:
    """A row of a PNG from its filtered bytes and the row above it."""
    for i in range(len(line)) if how else ():
        left = line[i - size] if i >= size else 0
        corner = above[i - size] if i >= size else 0
        up = above[i]
        if how == 4:
            guess = left + up - corner
            near = min((left, up, corner), key=lambda one: abs(guess - one))
        else:
            near = {1: left, 2: up, 3: (left + up) // 2}[how]
        line[i] = (line[i] + near) & 0xFF
    return line


def overlap(one: list[float], other: list[float]) -> bool:
    """Whether two boxes share more than a seam."""
    return all(one[i] + 1 < other[i + 2] and other[i] + 1 < one[i + 2] for i in (0, 1))


def cells_of(text: str) -> list[list[str]]:
    """The rows of the tables of a text, which has two blanks or more between cells."""
    return [re.split(r" {2,}", row.strip()) for row in text.splitlines() if "  " in row.strip()]


class Pages(unittest.TestCase):
    def test_nothing_else_is_loaded_and_nothing_is_complained_of(self) -> None:
        for page in pages():
            with self.subTest(page.name):
                SHOWN.open(page)
                self.assertEqual(SHOWN.loaded(), [page.as_uri()])
                self.assertEqual(SHOWN.complaints(), [])
                self.assertEqual(SHOWN.run("document.compatMode"), "CSS1Compat")
                self.assertEqual(SHOWN.run("document.characterSet"), "UTF-8")

    def test_it_fits_every_width(self) -> None:
        for page in pages():
            for width in WIDTHS:
                with self.subTest(page.name, width=width):
                    SHOWN.open(page, width)
                    self.assertLessEqual(SHOWN.run("document.documentElement.scrollWidth"), width)

    def test_the_tables_have_the_rows_of_the_text(self) -> None:
        for page in pages():
            with self.subTest(page.name):
                SHOWN.open(page)
                shown = [[cell for cell in row if cell] for row in SHOWN.run(ROWS)]
                rows = cells_of(page.with_suffix(".text").read_text(encoding="utf-8"))
                self.assertGreater(len(rows), 3)
                for row in rows:
                    if not row[0].startswith(("was:", "is:")):
                        self.assertIn(row, shown)

    def test_texts_of_the_charts_are_inside_and_apart(self) -> None:
        for page in pages():
            with self.subTest(page.name):
                SHOWN.open(page)
                placed = SHOWN.run(PLACED % json.dumps("svg text"))
                self.assertGreater(len(placed), 20)
                by_picture = collections.defaultdict(list)
                for one in placed:
                    left, top, right, bottom = one["box"]
                    own = one["own"]
                    inside = (own[0] <= left + 1 and own[1] <= top + 1
                              and right - 1 <= own[2] and bottom - 1 <= own[3])
                    self.assertTrue(inside, one)
                    by_picture[tuple(own)].append(one)
                for texts in by_picture.values():
                    for place, one in enumerate(texts):
                        for other in texts[place + 1 :]:
                            self.assertFalse(overlap(one["box"], other["box"]), (one, other))

    def test_charts_are_seen_whole(self) -> None:
        for page, count in (("rail", 3), ("head", 4)):  # a legend, and a panel or a tube each
            SHOWN.open(FOLDER / f"{page}.html")
            sizes = SHOWN.run("[...document.querySelectorAll('figure svg')].map("
                              "one => one.getBoundingClientRect().width)")
            self.assertEqual(len(sizes), count)
            self.assertGreater(min(sizes), 600)

    def test_the_picture_shows_the_verdicts_in_their_colours(self) -> None:
        SHOWN.open(FOLDER / "rail.html", 1000)
        found = pixels(SHOWN.picture())
        self.assertEqual(found.most_common(1)[0][0], (255, 255, 255))
        for word, colour in VERDICT_COLOURS.items():
            self.assertGreater(found[colour], 100, word)
        SHOWN.open(Path("/dev/null"))
        self.assertEqual(len(pixels(SHOWN.picture())), 1)

    def test_links_lead_to_the_models(self) -> None:
        SHOWN.open(FOLDER / "all.html")
        links = SHOWN.run("[...document.querySelectorAll('table a')].map("
                          "one => [one.textContent, document.querySelector("
                          "one.getAttribute('href') + ' h2').textContent])")
        self.assertEqual(len(links), len(list(EXAMPLES.glob("*.model"))))
        for shown, heading in links:
            self.assertEqual(shown, heading)

    def test_names_are_shown_as_they_are(self) -> None:
        SHOWN.open(FOLDER / "all.html")
        shown = SHOWN.run("document.body.innerText")
        self.assertRegex(shown, r"<b>&\.bin\s+refused 1 at 185")
        self.assertIn("# The supply rail of the print head (24 V nominal), one step", shown)

    def test_the_model_is_told_by_its_digest(self) -> None:
        SHOWN.open(FOLDER / "rail.html")
        shown = SHOWN.run("document.body.innerText")
        for file in ("rail.model", "rail.bin"):
            done = subprocess.run(["sha256sum", EXAMPLES / file], capture_output=True, check=True)
            self.assertIn(done.stdout.split()[0].decode(), shown)
        shown_text = SHOWN.run("document.querySelector('pre').textContent")
        self.assertEqual(shown_text, (EXAMPLES / "rail.model").read_text(encoding="utf-8"))

    def test_the_examples_are_the_pages_that_are_made(self) -> None:
        for name in ("rail", "head"):
            for made_, kept in ((".html", ".html"), (".text", ".report")):
                found = (FOLDER / f"{name}{made_}").read_bytes()
                self.assertEqual(found, (EXAMPLES / f"{name}{kept}").read_bytes(), name)


PEAK = re.compile(r"(peak|lowest) (-?[\d,.]+)(?: (\S+))? at step (\d+)")
GUARD = re.compile(rf"(.+): ([{REACHED_SIGNS}]) (\S+)(?: (?!\()(\S+))?(?: \(off scale\))? "
                   r"(HIT|UNKNOWN|CLEAR|GROWTH|REACHED as written)(?: (\d+))?(?:, by ([\d,.]+)(?: \S+)?)?")


def number(text: str) -> Decimal:
    return Decimal(text.replace(",", ""))


class Charts(unittest.TestCase):
    """What the charts tell is what the JSON tells."""

    def figures(self, *words: str | Path) -> tuple[list[str], list[dict], list[dict]]:
        """The texts of a page's charts, whole, and the directions and guards of its model."""
        made("figures", *words)
        done = subprocess.run([ROOT / "report", "--json", *words], capture_output=True, cwd=ROOT,
                              timeout=TIME_LIMIT)
        (model,) = json.loads(done.stdout, parse_float=Decimal, parse_int=Decimal)["models"]
        SHOWN.open(FOLDER / "figures.html")
        told = SHOWN.run("""[...document.querySelectorAll("svg text")].map(node => {
          const whole = node.querySelector("title");
          return whole ? whole.textContent : node.textContent; })""")
        return told, model["directions"], model["guards"]

    def models(self) -> list[Path]:
        written = FOLDER / "written.model"
        written.write_text(
            "coordinates value\nsteps 256\nrow ~0.9999\ninitial box\nlower 0\nupper 0\ninput box\n"
            "lower 0\nupper 3700\ndirection d 1\nguard d 934900 between\nguard d 960000 above\n"
        )
        return [*sorted(EXAMPLES.glob("*.model")), FOLDER / "hard.model", FOLDER / "many.model", written]

    def test_peaks_and_slacks(self) -> None:
        seen = 0
        for model in self.models():
            told, directions, _ = self.figures(model)
            swept = [one for one in directions if one["peak"] is not None]
            expected = collections.Counter((abs(one["peak"]["bound"]), one["peak"]["step"]) for one in swept)
            found = [match for words in told if (match := PEAK.match(words))]
            with self.subTest(model.name):
                shown = collections.Counter((abs(number(m[2])), Decimal(m[4])) for m in found)
                self.assertEqual(shown, expected)
                slacks = {max(one["slacks"]) for one in swept}
                for words in told:
                    if words.startswith("slack up to "):
                        self.assertIn(number(words.split()[3]), slacks)
            seen += len(found)
        self.assertGreater(seen, 25)

    def test_levels_verdicts_and_margins(self) -> None:
        seen = collections.Counter()
        for model in self.models():
            told, _, guards = self.figures(model)
            by_name = {one["name"] or f"guard {one['number']}": one for one in guards}
            found = [match for words in told if (match := GUARD.fullmatch(words))]
            with self.subTest(model.name):
                self.assertEqual(sorted(m[1] for m in found), sorted(by_name))
                for name, side, level, _, word, step, margin in (m.groups() for m in found):
                    one = by_name[name]
                    turned = REACHED_SIGNS.index(side) == 1
                    self.assertEqual(number(level), -one["level"] if turned else one["level"])
                    as_written = one["verdict"] == "CLEAR" and not one["clear"]
                    self.assertEqual(word, "REACHED as written" if as_written else one["verdict"])
                    certain = {"CLEAR": one["margin_least"], "HIT": -(one["margin_most"] or 0)}
                    self.assertEqual(margin and number(margin), certain.get(word), name)
                    self.assertEqual(step and Decimal(step), None if as_written else one["step"])
                    seen[word] += 1
                    seen["CLEAR, by 0"] += word == "CLEAR" and certain[word] == 0
        self.assertLessEqual({"HIT", "CLEAR", "GROWTH", "REACHED as written"}, set(seen))
        self.assertGreater(seen["CLEAR, by 0"], 0)


class Printed(unittest.TestCase):
    def test_it_prints_on_a4(self) -> None:
        for page, least, most in (("rail", 2, 6), ("head", 2, 6), ("all", 12, 45)):
            with self.subTest(page):
                SHOWN.open(FOLDER / f"{page}.html")
                told = SHOWN.printed()
                sizes = re.findall(rb"/MediaBox \[0 0 ([\d.]+) ([\d.]+)\]", told)
                found = {(round(float(x)), round(float(y))) for x, y in sizes}
                self.assertEqual(found, {(595, 842)})
                count = len(re.findall(rb"/Type /Page\b", told))
                self.assertTrue(least <= count <= most, count)

    def test_nothing_is_cut_at_the_margin(self) -> None:
        """Laid out for paper of A4 without its margins, nothing is wider than it."""
        width = round((210 - 2 * 14) / 25.4 * 96)
        for page in pages():
            with self.subTest(page.name):
                SHOWN.open(page, width)
                SHOWN.ask("Emulation.setEmulatedMedia", media="print")
                wider = SHOWN.run(
                    "[...document.querySelectorAll('svg, pre, p, h1, h2, h3, td, th')].filter("
                    f"one => one.getBoundingClientRect().right > {width} + 1).length")
                SHOWN.ask("Emulation.setEmulatedMedia", media="")
                self.assertEqual(wider, 0)


if __name__ == "__main__":
    parser = argparse.ArgumentParser(description="Test the page in a browser.")
    parser.add_argument("--pictures", type=Path, help="a folder for pictures and prints")
    options, rest = parser.parse_known_args()
    PICTURES = options.pictures
    unittest.main(argv=[sys.argv[0], *rest])
