"""Charts: well-formed pictures with everything inside and nothing overlapping, and clear refusals.

The boxes of the texts are computed here from their attributes with the widths of `svg`, which are
upper bounds; that they are is tested with the widths of two common fonts.
"""

import dataclasses
import itertools
import re
import unittest
import xml.etree.ElementTree as ElementTree
from fractions import Fraction

from helpers import FolderTest, run_tool

import answers
import chart
import exact
import examples
import pack
import svg
import textform
from listings import Growth, Sweep

NS = "{http://www.w3.org/2000/svg}"
TEXT = """\
coordinates a
steps 3
row 0.5
initial box
  lower 0
  upper 0
input box
  lower 0
  upper 1
direction most 2
direction least -1
guard most 2
guard most 3
guard most 9000000000000000000
guard most -9000000000000000000
guard least 1
guard most 4
guard least 0
"""
GROWING = """\
coordinates x
steps 20
row 2
initial vertices
  vertex 1
input vertices
  vertex 0
direction x 1
guard x 7
"""


LONG = "temperature_of_the_elements_above_that_of_the_glaze_and_sink"  # 60 characters
WIDE = "W" * 12  # as long as a unit can be
LARGE = 10**6


def drawn(text, with_model=True, title="title"):
    source = pack.parse(text)
    return chart.draw_listing(exact.listing_of(source.model), title, source if with_model else None)


def multiplied(text, factor):
    """The directions of a text, swept with all entries and levels times a factor; the text read."""
    source = pack.parse(text)
    model = dataclasses.replace(
        source.model,
        directions=tuple(tuple(factor * entry for entry in d) for d in source.model.directions),
        guards=tuple((d, factor * level) for d, level in source.model.guards),
    )
    listing = exact.listing_of(model)
    return answers.directions_of(listing, source, [factor] * len(model.directions)), source


def drawn_multiplied(text, factor):
    directions, source = multiplied(text, factor)
    return chart.draw(
        directions, source.coordinates, source.model.steps, "title", source.time)


def model(*statements, names=("a",), entry="1", steps=60, reach=1, input_reach=0):
    """The text of a model whose coordinates all keep `entry` of themselves."""
    rows = (" ".join(entry if i == j else "0" for j in names) for i in names)
    sets = ((which, " ".join([str(size)] * len(names)), " ".join([str(-size)] * len(names)))
            for which, size in (("initial", reach), ("input", input_reach)))
    return "\n".join([
        f"coordinates {' '.join(names)}", f"steps {steps}", *(f"row {row}" for row in rows),
        *(f"{which} box\nlower {low}\nupper {high}" for which, high, low in sets), *statements,
    ])


def guards(*levels):
    return ["direction d 1", *(f"guard d {level}" for level in levels)]


def tube(*statements, **more):
    """A model of the highest and the lowest of a coordinate."""
    return model("direction high 1", "direction low -1", *statements, **more)


def named(directions, names, levels, unit=""):
    """Guards of these names and levels on the directions in turn, and these directions' unit."""
    turns = zip(itertools.cycle(directions), levels, names)
    return [*(f"guard {direction} {level} {name}" for direction, level, name in turns),
            *(f"unit {direction} {unit}" for direction in directions if unit)]


SIX = tuple(f"{LONG[:-1]}{i}" for i in range(6))
# Models whose numbers and names ask for much room.
HARD = {
    "ticks of eight digits": model("direction d -20", reach=LARGE),
    "ticks of many digits close together": model(
        "direction d 1000", reach=1_048_576, input_reach=1, entry="~0.999999", steps=1),
    "bounds of thirteen digits": model(
        "direction d 1000 1000 1000 1000 1000 1000", "unit d °C 1000", names=SIX, reach=LARGE,
        input_reach=LARGE, steps=256),
    "slacks of eight digits": re.sub(
        "(lower|upper) .*", r"\1 1000000 1000000",
        (examples.FOLDER / "roller.model").read_text(encoding="utf-8")),
    "levels of 19 digits": model(*guards(-(2**63), 2**63 - 1, 1 - 2**63)),
    "sixteen guards": model(*guards(*range(-8, 8))),
    "sixteen guards with long levels": model(
        *guards(*range(-(2**63), -(2**63) + 5), *range(-3, 3), *range(2**63 - 5, 2**63))),
    "sixteen guards with units": model(
        *guards(*range(-(10**11), -(10**11) + 8), *range(10**11, 10**11 + 8)), "unit d °C 65536"),
    "sixteen guards refused for growth": model(
        *guards(*range(-(2**63), -(2**63) + 16)), "direction e 1", entry="2"),
    "names of sixty characters": model(f"direction {LONG} 1", names=SIX[:1]),
    "wide letters": model(f"direction {'W' * 60} -1", names=("m" * 60,)),
    "six coordinates with large factors": model(
        f"direction {LONG} 1000 -999 998 -997 996 -995", "direction e 1 0 0 0 0 0", names=SIX),
    "six long names refused for growth": model(
        f"direction {LONG} 1 1 1 1 1 1", "direction e 1 0 0 0 0 0", names=SIX, entry="2"),
    "a long unit": model("direction d 1", f"unit d {WIDE} 1000000000", "guard d 1"),
    "a long time": model("direction d 1", f"time 0.{'123456789' * 4} {WIDE}", steps=47),
    "times of many digits": model("direction d 1", "time 1234.56789 ms", steps=240),
    "a long title": model("direction d 1"),
    "a tube with sixteen guards": tube(*(f"guard high {i}" for i in range(-4, 4)),
                                       *(f"guard low {i}" for i in range(-4, 4))),
    "a tube with sixteen guards at one place": tube(*["guard high 1"] * 8, *["guard low 1"] * 8),
    "a tube with sixteen long names and levels": tube(*named(
        ("high", "low"), [f"{'W' * 58}{i:02}" for i in range(10, 26)],
        [*range(-(2**63), -(2**63) + 4), *range(-4, 4), *range(2**63 - 4, 2**63)],
        f"{WIDE} 65536")),
    "a tube with a long unit, time and name": model(
        f"direction {LONG} 1", f"direction {LONG[1:]} -1", f"unit {LONG} {WIDE} 999999999",
        f"unit {LONG[1:]} {WIDE} 999999999", f"time 0.{'123456789' * 4} {WIDE}", names=SIX[:1],
        reach=LARGE, input_reach=LARGE),
    "a tube of one step": tube("guard high 1", "guard low 1", steps=1),
    "a tube whose bounds are all equal": tube("unit high V 3", "unit low V 3", "guard high 0"),
    "a tube of large numbers": tube(reach=LARGE, input_reach=LARGE, steps=256),
}
LONG_TITLE = "/".join([LONG] * 5)


def shown(node):
    """The words of a text."""
    return "".join(words for words, _ in parts_of(node))


def words_of(picture):
    return [shown(node) for node in ElementTree.fromstring(picture).iter(NS + "text")]


def peak_nodes(root):
    """The diamonds: polygons of four corners."""
    nodes = root.iter(NS + "polygon")
    return [node for node in nodes if len(node.get("points").split()) == 4]


def titles_of(picture):
    return {node.text for node in ElementTree.fromstring(picture).iter(NS + "title")}


def parts_of(node):
    """The words that a text shows, each with whether they are bold."""
    bold = node.get("font-weight") == "bold"
    yield node.text or "", bold
    for child in node:
        if child.tag == NS + "tspan":
            yield child.text, bold or child.get("font-weight") == "bold"
        yield child.tail or "", bold


def text_box(node):
    """Left, top, right and bottom of a text."""
    size = float(node.get("font-size"))
    wide = sum(svg.width(words, size, bold) for words, bold in parts_of(node))
    x, y = float(node.get("x")), float(node.get("y"))
    left = x - {"start": 0, "middle": wide / 2, "end": wide}[node.get("text-anchor", "start")]
    top, bottom = y - 0.93 * size, y + 0.24 * size
    if node.get("transform") is None:
        return left, top, left + wide, bottom
    place = r"translate\(([\d.]+) ([\d.]+)\) rotate\(-90\)"
    at_x, at_y = map(float, re.fullmatch(place, node.get("transform")).groups())
    return at_x + top, at_y - left - wide, at_x + bottom, at_y - left


def shape_box(node):
    """Left, top, right and bottom of a rectangle, polyline or polygon."""
    if node.tag == NS + "rect":
        x, y, wide, high = (float(node.get(name, 0)) for name in ("x", "y", "width", "height"))
        return x, y, x + wide, y + high
    xs, ys = zip(*(map(float, pair.split(",")) for pair in node.get("points").split()))
    return min(xs), min(ys), max(xs), max(ys)


def leader_boxes(root):
    """The boxes of all pieces of lines."""
    for node in root.iter(NS + "polyline"):
        points = [tuple(map(float, pair.split(","))) for pair in node.get("points").split()]
        for (x1, y1), (x2, y2) in itertools.pairwise(points):
            yield min(x1, x2), min(y1, y2), max(x1, x2), max(y1, y2)
    for node in root.iter(NS + "line"):
        x1, y1, x2, y2 = (float(node.get(name)) for name in ("x1", "y1", "x2", "y2"))
        yield min(x1, x2), min(y1, y2), max(x1, x2), max(y1, y2)


def overlap(one, other):
    return all(one[i] < other[i + 2] and other[i] < one[i + 2] for i in (0, 1))


def inside(one, other):
    return all(other[i] <= one[i] and one[i + 2] <= other[i + 2] for i in (0, 1))


class Chart(unittest.TestCase):
    def test_texts(self):
        words = words_of(drawn(TEXT))
        # The bounds of `most` are 0, 2, 3, 4 and those without slack 0, 2, 3, 3.
        for expected in (
            "title", "1 coordinate, steps 0 to 3", "most = 2 a", "least = -a",
            "guard 0: > 2 HIT 2, by 1", "guard 1: > 3 UNKNOWN 3", "guard 4: > 1 CLEAR, by 1",
            "guard 5: > 4 CLEAR, by 0", "guard 6: > 0 CLEAR, by 0",
            "spare 9", "counts", "step", "peak 4 at step 3", "peak 0 at step 0",
            "guard 2: > 9,000,000,000,000,000,000 (off scale) CLEAR, by 8,999,999,999,999,999,996",
            "guard 3: > -9,000,000,000,000,000,000 (off scale) HIT 0, by 9,000,000,000,000,000,003",
        ):
            self.assertIn(expected, words)

    def test_without_model(self):
        words = words_of(drawn(TEXT, with_model=False))
        self.assertLessEqual({"direction 0", "direction 1", "spare 9", "counts"}, set(words))
        self.assertEqual([word for word in words if "level" in word], [])
        self.assertIn("guard 0 HIT 2; guard 1 UNKNOWN 3; guard 2 CLEAR; guard 3 HIT 0", words)

    def test_growth(self):
        words = words_of(drawn(GROWING))
        self.assertIn("refused for growth at step 11", words)
        self.assertIn("guard 0: > 7 GROWTH 11", words)

    def test_names_are_escaped(self):
        source = pack.parse(TEXT)
        listing = exact.listing_of(source.model)
        self.assertIn("a<b & c", words_of(chart.draw_listing(listing, "a<b & c", source)))

    def test_marks_stand_at_their_steps(self):
        picture = ElementTree.fromstring(drawn(TEXT))
        marks = [node for node in picture.iter(NS + "circle") if node.get("r") == "5"]
        places = {float(node.get("cx")) for node in marks if float(node.get("cy")) > 106}
        # HIT 2 and UNKNOWN 3 of three steps; levels off the scale have no mark.
        self.assertEqual(places, {chart.LEFT + 400.0, chart.LEFT + 600.0})

    def test_all_is_inside(self):
        for text in (TEXT, GROWING, *HARD.values()):
            self.check_inside(ElementTree.fromstring(drawn(text)))

    def check_inside(self, picture):
        width, height = int(picture.get("width")), int(picture.get("height"))
        for node in picture.iter():
            for name, limit in (("x", width), ("x1", width), ("cx", width), ("y", height),
                                ("y1", height), ("y2", height), ("cy", height)):
                place = float(node.get(name, 0))
                self.assertTrue(0 <= place <= limit, (node.tag, name, place))
            for pair in node.get("points", "").split():
                x, y = map(float, pair.split(","))
                self.assertTrue(0 <= x <= width and 0 <= y <= height, pair)
        tags = {node.tag.removeprefix(NS) for node in picture.iter()}
        self.assertFalse(tags & {"script", "style", "image", "foreignObject"})

    def test_labels_are_apart(self):
        moved = svg.spread([10, 10, 11, 200, 201, 203], 0, 210, 16)
        gaps = [b - a for a, b in zip(moved, moved[1:])]
        self.assertTrue(all(gap >= 16 for gap in gaps), moved)
        self.assertTrue(0 <= moved[0] and moved[-1] <= 210)

    def test_ticks(self):
        self.assertEqual(svg.ticks(0, 256, 12), list(range(0, 257, 50)))
        self.assertEqual(svg.ticks(Fraction(-1, 2), Fraction(5, 2), 6, 1), [0, 1, 2])
        self.assertEqual(svg.ticks(0, 1, 12, 1), [0, 1])
        thousands = [-24_000, -23_000, -22_000, -21_000]
        self.assertEqual(svg.ticks(-24_100, -20_900, 4), thousands)

    def test_ticks_are_round_decimals(self):
        for low, high, expected in (
            (Fraction(-1, 2), Fraction(5, 2), "-0.5 0.0 0.5 1.0 1.5 2.0 2.5"),
            (Fraction(1, 3), Fraction(2, 5), "0.34 0.36 0.38 0.40"),
            (Fraction(24_000_001, 1000), Fraction(24_000_003, 1000),
             "24,000.0010 24,000.0015 24,000.0020 24,000.0025 24,000.0030"),
            (Fraction(-9_999, 10), Fraction(10**7), "0 2,000,000 4,000,000 6,000,000 8,000,000 "
             "10,000,000"),
        ):
            self.assertEqual(chart.numbers(svg.ticks(low, high, 6)), expected.split())

    def test_ticks_lie_within_and_are_few(self):
        ends = [Fraction(i * 37 % 101, 1 + i % 9) * Fraction(10) ** (i % 13 - 6) for i in range(99)]
        for low, high in itertools.pairwise(ends):
            low, high = min(low, high), max(low, high) + Fraction(1, 10**7)
            found = svg.ticks(low, high, 6)
            steps = {b - a for a, b in itertools.pairwise(found)}
            self.assertTrue(low <= found[0] and found[-1] <= high and 2 <= len(found) <= 7, found)
            self.assertEqual(len(steps), 1)
            self.assertIn(float(f"{float(steps.pop()):e}".partition("e")[0]), (1, 2, 5))

    def test_expression(self):
        names = ("a", "b", "c")
        self.assertEqual(answers.expression((1, -2, 0), names), "a - 2 b")
        self.assertEqual(answers.expression((-1, 0, 3), names), "-a + 3 c")


class Layout(unittest.TestCase):
    """No text overlaps another, leaves the picture or crosses a frame, whatever it says."""

    def check(self, picture):
        root = ElementTree.fromstring(picture)
        self.assertGreater(len(list(root.iter(NS + "rect"))), 1)
        self.check_texts(root)

    def check_texts(self, root):
        whole, *frames = map(shape_box, root.iter(NS + "rect"))
        self.assertEqual(whole[2:], (float(root.get("width")), float(root.get("height"))))
        boxes = [(shown(node), text_box(node)) for node in root.iter(NS + "text")]
        for words, box in boxes:
            self.assertTrue(inside(box, whole), (words, box, whole))
            for frame in frames:
                self.assertTrue(not overlap(box, frame) or inside(box, frame), (words, box, frame))
        for (words, box), (others, other) in itertools.combinations(boxes, 2):
            self.assertFalse(overlap(box, other), (words, box, others, other))

    def check_marks(self, picture):
        """Leaders and marks right of the plots touch no text, and no leader a mark."""
        root = ElementTree.fromstring(picture)
        right = max(shape_box(frame)[2] for frame in list(root.iter(NS + "rect"))[1:])
        shapes = [shape_box(node) for node in root.iter(NS + "polygon")]
        marks = [box for box in shapes if box[0] > right]
        leaders = [box for box in leader_boxes(root) if box[2] > right]
        texts = [text_box(node) for node in root.iter(NS + "text")]
        for box, text in itertools.product(marks + leaders, texts):
            self.assertFalse(box[0] > right and overlap(box, text), (box, text))
        peaks = [shape_box(node) for node in peak_nodes(root)]
        for box, text in itertools.product(peaks, texts):
            self.assertFalse(overlap(box, text), (box, text))
        for mark, other in itertools.product(marks, marks + leaders):
            self.assertFalse(mark is not other and overlap(mark, other), (mark, other))

    def test_hard_cases(self):
        for name, text in HARD.items():
            with self.subTest(name):
                picture = drawn(text, title=LONG_TITLE if name == "a long title" else "title")
                self.check(picture)
                self.check_marks(picture)

    def test_hard_cases_multiplied(self):
        """Factors of 1,000, or as large as the entries and the levels allow."""
        for name, text in HARD.items():
            source = pack.parse(text)
            largest = max(abs(entry) for d in source.model.directions for entry in d)
            level = max([1, *(abs(level) for _, level in source.model.guards)])
            factor = min(1000 // largest, 2**63 // level)
            with self.subTest(name, factor=factor):
                picture = drawn_multiplied(text, factor)
                self.check(picture)
                self.check_marks(picture)

    def test_panels_by_themselves(self):
        for name in HARD:
            directions, source = multiplied(HARD[name], 1)
            groups = chart.panels(directions)
            with self.subTest(name):
                pictures = chart.draw_panels(groups, source.coordinates, source.time)
                for picture, group in zip(pictures, groups, strict=True):
                    self.check(picture)
                    self.check_marks(picture)
                    (picture,) = chart.draw_panels([group], source.coordinates, source.time)
                    self.check(picture)

    def test_legend_by_itself(self):
        for with_levels in (True, False):
            self.check_texts(ElementTree.fromstring(chart.draw_legend(with_levels)))

    def test_hard_cases_without_model(self):
        for name, text in HARD.items():
            with self.subTest(name):
                self.check(drawn(text, with_model=False))

    def test_examples(self):
        for path in sorted(examples.FOLDER.glob("*.svg")):
            with self.subTest(path.name):
                picture = path.read_text(encoding="utf-8")
                self.check(picture)
                self.check_marks(picture)

    def test_hard_cases_are_hard(self):
        """They have the digits and guards that their names tell."""
        def listed(name):
            return exact.listing_of(pack.parse(HARD[name]).model)

        bounds = listed("bounds of thirteen digits").directions[0].bounds
        self.assertGreaterEqual(max(bounds), 10**12)
        slacks = listed("slacks of eight digits").directions[0].slacks
        self.assertGreaterEqual(max(slacks), 10**7)
        self.assertEqual((len(LONG), len(WIDE)), (60, textform.LONGEST_UNIT))
        for name in ("sixteen guards with long levels", "sixteen guards refused for growth"):
            self.assertEqual(len(listed(name).guards), 16)
        for name, tick in (("ticks of eight digits", "20,000,000"),
                           ("ticks of many digits close together", "1,048,576,200")):
            self.assertIn(tick, words_of(drawn(HARD[name])))

    def test_long_levels_are_told_whole(self):
        words = words_of(drawn(HARD["sixteen guards with long levels"]))
        for expected in (
            "guard 0: > -9,223,372,036,854,775,808 (off scale) HIT 0, by 9,223,372,036,854,775,809",
            "guard 15: > 9,223,372,036,854,775,807 (off scale) CLEAR, by 9,223,372,036,854,775,806",
        ):
            self.assertIn(expected, words)

    def test_what_is_cut_is_told_whole(self):
        picture = drawn(HARD["six coordinates with large factors"], title=LONG_TITLE)
        terms = " ".join(f"{sign} {1000 - i} {name}"
                         for i, (sign, name) in enumerate(zip("+-+-+-", SIX))).removeprefix("+ ")
        self.assertLessEqual({LONG_TITLE, f"{LONG} = {terms}"}, titles_of(picture))
        self.assertTrue(any(words.endswith("…") for words in words_of(picture)))
        self.assertIn(WIDE, words_of(drawn(HARD["a long unit"])))
        self.assertIn(f"step, and time in {WIDE}", words_of(drawn(HARD["a long time"])))
        name = "W" * 58 + "10"
        level = f"140,737,488,355,328 {WIDE}"
        long_names = drawn(HARD["a tube with sixteen long names and levels"])
        told = f"{name}: > -{level} (off scale) HIT 0, by 140,737,488,355,328.0000152 {WIDE}"
        self.assertIn(told, titles_of(long_names))
        self.assertFalse([words for words in words_of(long_names) if name in words])

    def test_short_texts_are_not_cut(self):
        for text in (TEXT, GROWING, tube("guard high 1 most", "guard low 2 least", "time 1 ms")):
            self.assertEqual(titles_of(drawn(text)), set())
        for path in examples.FOLDER.glob("*.svg"):
            self.assertEqual(titles_of(path.read_text(encoding="utf-8")), set())

    def test_left_margin_grows_only_with_need(self):
        def left(text):
            frames = list(ElementTree.fromstring(drawn(text)).iter(NS + "rect"))
            return float(frames[1].get("x"))

        self.assertEqual(left(TEXT), chart.LEFT)
        self.assertGreater(left(HARD["bounds of thirteen digits"]), chart.LEFT)

    def test_wrapped(self):
        room = svg.width("three four")
        self.assertEqual(svg.wrapped("one two", room, 3), ["one two"])
        self.assertEqual(svg.wrapped("three four five", room, 3), ["three four", "five"])
        self.assertEqual(svg.wrapped("three_four_five", room, 3), ["three_", "four_five"])
        self.assertEqual("".join(svg.wrapped("abc" * 8, room, 9)), "abc" * 8)
        self.assertEqual(svg.wrapped("three four three four five", room, 2)[1][-1], "…")

    def test_widths_are_upper_bounds(self):
        """Regular and bold characters, in thousandths of the font size."""
        dejavu = {"0": (636, 696), ",": (318, 380), "-": (361, 415), "m": (974, 1042),
                  "W": (989, 1103), "i": (278, 343), "f": (352, 435), "=": (838, 838),
                  "°": (500, 500), "…": (1000, 1000), "ä": (613, 675), "µ": (636, 736)}
        helvetica = {"0": (556, 556), "J": (500, 556), "_": (556, 556), "@": (1015, 975),
                     "S": (667, 667), "R": (722, 722), "?": (556, 611), "P": (667, 667)}
        for character, (regular, bold) in (*dejavu.items(), *helvetica.items()):
            with self.subTest(character):
                self.assertGreaterEqual(svg.width(character, 1000), regular)
                self.assertGreaterEqual(svg.width(character, 1000, bold=True), bold)


class Units(unittest.TestCase):
    """The unit of a direction and the time of a step stand on the axes."""

    def words(self, *statements, steps=3):
        return words_of(drawn(model("direction d 1", *statements, steps=steps)))

    def test_unit_of_one_count(self):
        words = self.words("unit d mV", "guard d 0")
        self.assertLessEqual({"mV", "1", "guard 0: > 0 mV HIT 0, by 1 mV"}, set(words))
        self.assertNotIn("counts", words)

    def test_unit_of_more_counts(self):
        words = self.words("unit d °C 16", "guard d -1", "guard d 2", "guard d 3200")
        for expected in (
            "guard 0: > -0.0625 °C (off scale) HIT 0, by 0.1250 °C",
            "guard 1: > 0.125 °C CLEAR, by 0.0625 °C",
            "guard 2: > 200 °C (off scale) CLEAR, by 199.9375 °C",
            "peak 0.0625 °C at step 0", "°C", "0.06", "0.08", "0.10", "0.12",
        ):
            self.assertIn(expected, words)
        self.assertNotIn("counts", words)

    def test_levels_are_told_exactly(self):
        words = self.words("unit d °C 65536", "guard d 65537", "direction e 1", "unit e V 3",
                           "guard e -1000")
        told = "guard 0: > 1.0000152587890625 °C (off scale) CLEAR, by 1.0000000 °C"
        self.assertIn(told, words)
        self.assertIn("guard 1: > -1,000/3 V (off scale) HIT 0, by 333.666 V", words)

    def test_peak_and_slack_have_the_same_decimals(self):
        """What is told for a slack is the distance of the ends as told, and not less."""
        upper = direction([0, Fraction(22914507, 930)], Fraction(21, 930), factor=930,
                          unit=("mV", 1))
        lower = direction([0, Fraction(-20009009, 930)], Fraction(23, 930), factor=930,
                          unit=("mV", 1), entries=(-1,))
        words = set(Plot(upper, lower).words)
        self.assertLessEqual({"peak 24,639.255 mV at step 1", "slack up to 0.023 mV"}, words)
        self.assertLessEqual({"lowest 0.000 mV at step 0", "slack up to 0.026 mV"}, words)

    def test_a_direction_with_a_unit_of_its_own(self):
        """Its heading has the coordinates only where the text tells how they make up its unit."""
        for statements, heading in (
            (("direction d 100", "unit a V", "unit d V 100"), "d = a"),
            (("unit a V 2", "direction d 100", "unit d V"), "d = 200 a"),
            (("direction d 100", "unit d V 100"), "d"),
            (("direction d -1", "unit d V 100"), "d = -a"),
            (("direction d 100",), "d = 100 a"),
        ):
            # A coordinate's unit stands above the directions.
            ordered = sorted(statements, key=lambda row: not row.startswith("unit a"))
            self.assertIn(heading, words_of(drawn(model(*ordered))))

    def test_what_only_the_matrix_as_written_reaches(self):
        written = answers.Written(10, (100, 1105, 12100))  # 100, 110.5, 121
        one = direction([100, 110, 120], levels=(120, 121, 130))
        one = dataclasses.replace(one, written=written)
        plot = Plot(one)
        self.assertIn("guard 0: > 120 REACHED as written", plot.words)
        self.assertIn("guard 1: > 121 CLEAR, by 1", plot.words)
        self.assertIn("guard 2: > 130 CLEAR, by 10", plot.words)
        picture = chart.draw([one], ("a",), 2, "title")
        self.assertLessEqual({"as written", "guard level, REACHED as written"},
                             set(words_of(picture)))
        self.assertIn('stroke-dasharray="1 2"', picture)
        plain = chart.draw([direction([100, 110, 120], levels=(121,))], ("a",), 2, "title")
        self.assertFalse({"as written", "guard level, REACHED as written"} & set(words_of(plain)))

    def test_unit_of_the_coordinates(self):
        words = words_of(drawn(model("direction d 1 -1", "unit a mV 10", "unit b mV 10",
                                     "guard d 30", names=("a", "b"))))
        self.assertIn("peak 0.2 mV at step 0", words)

    def test_each_direction_has_its_own(self):
        words = self.words("direction e 1", "unit e mA")
        self.assertEqual([word for word in words if word in ("counts", "mA")], ["counts", "mA"])

    def test_time(self):
        words = self.words("time 1.250 ms")
        self.assertIn("step, and time in ms", words)
        self.assertNotIn("step", words)
        first = words.index("peak 1 at step 0 (0 ms)") + 1
        self.assertEqual(words[first : first + 8], "0 0 1 1.25 2 2.5 3 3.75".split())

    def test_wide_times_stand_at_fewer_steps(self):
        words = words_of(drawn(HARD["times of many digits"]))
        self.assertIn("123,456.789", words)
        self.assertNotIn("20", words)

    def test_time_and_no_unit(self):
        self.assertIn("counts", self.words("time 2 s"))

    def test_packed_model_has_neither(self):
        source = pack.read_source(pack.parse(model("direction d 1", "unit d mV", "time 2 s")).data)
        words = words_of(chart.draw_listing(exact.listing_of(source.model), "title", source))
        self.assertLessEqual({"counts", "step"}, set(words))

    def test_examples(self):
        for name, expected in (
            ("rail", {"mV", "mA", "step, and time in ms", "highest, lowest: rail",
                      "peak 24,650 mV at step 56 (70 ms)",
                      "lowest 21,504 mV at step 58 (72.5 ms)",
                      "limit: > 25,200 mV CLEAR, by 550 mV",
                      "resets: < 21,000 mV CLEAR, by 504 mV"}),
            ("head", {"°C", "step, and time in ms", "312.5",
                      "limit: > 280 °C CLEAR, by 23.875 °C"}),
            ("budget", {"mV", "°C", "counts"}),
        ):
            picture = (examples.FOLDER / f"{name}.svg").read_text(encoding="utf-8")
            self.assertLessEqual(expected, set(words_of(picture)))


def direction(bounds, slack=0, levels=(), entries=(1,), factor=1, unit=None, name="d"):
    """A direction with these bounds and guards, in counts, whose slack is the same at each step."""
    scaled = tuple(int(factor * bound) for bound in bounds)
    swept = Sweep(9, scaled, (int(factor * slack),) * len(scaled))
    said = [exact.verdict(swept, factor * level) for level in levels]
    told = tuple(answers.Guard(i, None, level, each) for i, (level, each) in
                 enumerate(zip(levels, said)))
    return answers.Direction(0, name, entries, swept, factor, unit, told)


class Plot:
    """A panel drawn by itself: its parts, and where a value is by the numbers of its axis."""

    def __init__(self, *group, time=None):
        self.root = ElementTree.fromstring(chart.draw_panels([group], ("a", "b"), time)[0])
        self.words = [shown(node) for node in self.root.iter(NS + "text")]
        _, self.frame, self.strip = map(shape_box, self.root.iter(NS + "rect"))
        self.steps = len(group[0].bounds) - 1

    def x(self, step):
        return self.frame[0] + (self.frame[2] - self.frame[0]) * step / self.steps

    def axis(self, frame):
        """The numbers left of a frame, each with the value that it tells and its place."""
        for node in self.root.iter(NS + "text"):
            y = float(node.get("y")) - 4
            if node.get("text-anchor") == "end" and frame[1] <= y <= frame[3]:
                yield shown(node), Fraction(shown(node).replace(",", "")), y

    def scale(self, frame):
        """From values to places beside a frame, by the first and the last of its numbers."""
        numbers = list(self.axis(frame))
        (_, low, start), (_, high, end) = numbers[0], numbers[-1]
        return lambda value: start + float((value - low) / (high - low)) * (end - start)

    @property
    def y(self):
        return self.scale(self.frame)

    def inside(self, nodes):
        return [node for node in nodes if self.frame[1] <= shape_box(node)[1] <= self.frame[3]]

    def lines(self, stroke):
        """The points of the lines in the plot that have this width and these dashes."""
        found = [node for node in self.inside(self.root.iter(NS + "polyline"))
                 if (node.get("stroke-width"), node.get("stroke-dasharray")) == stroke]
        return [[tuple(map(float, pair.split(","))) for pair in node.get("points").split()]
                for node in found]

    def peaks(self):
        boxes = map(shape_box, self.inside(peak_nodes(self.root)))
        found = [box for box in boxes if box[2] - box[0] == 2 * chart.DIAMOND]
        return [((box[0] + box[2]) / 2, (box[1] + box[3]) / 2) for box in found]

    def across(self):
        """The places of guard levels."""
        return [float(node.get("y1")) for node in self.root.iter(NS + "line")
                if node.get("stroke-width") == "1.5"]

    def arrows(self):
        """The vertical lines in ink that are no ticks: x, start and end."""
        found = [[float(node.get(name)) for name in ("x1", "y1", "y2")]
                 for node in self.root.iter(NS + "line")
                 if node.get("x1") == node.get("x2") and node.get("stroke-width") == "1"
                 and node.get("stroke") == chart.INK]
        return found


BOUND, LOWER = ("2.2", None), ("1.5", "5 3")


class PlotTest(unittest.TestCase):
    def near(self, found, expected):
        """Places are the same but for rounding to a tenth of a pixel."""
        self.assertEqual(len(found), len(expected), (found, expected))
        for one, other in zip(found, expected):
            self.assertAlmostEqual(one, other, delta=0.3)

    def at(self, plot, points, values):
        """A line goes through these values, step by step."""
        self.near([x for x, _ in points], [plot.x(step) for step in range(len(values))])
        self.near([y for _, y in points], [plot.y(value) for value in values])


class Tubes(PlotTest):
    """The highest and the lowest of the same share a panel."""

    def groups(self, *statements, **more):
        directions, _ = multiplied(model(*statements, names=("a", "b"), **more), 1)
        return [" ".join(each.name for each in group) for group in chart.panels(directions)]

    def test_pairs(self):
        for statements, expected in (
            (("direction high 1 0", "direction low -1 0"), ["high low"]),
            (("direction low -1 0", "direction high 1 0"), ["high low"]),
            (("direction low 0 -3", "direction high 0 3"), ["high low"]),
            (("direction low -2 1", "direction high 2 -1"), ["high low"]),
            (("direction high 2 0", "direction low -1 0", "unit high V 32", "unit low V 16"),
             ["high low"]),
            (("direction high 1 0", "direction low -1 0", "unit a mV 4"), ["high low"]),
        ):
            self.assertEqual(self.groups(*statements), expected)

    def test_no_pairs(self):
        for statements in (
            ("direction high 1 0", "direction low 0 -1"),
            ("direction high 1 0", "direction low 1 0"),
            ("direction high 1 0", "direction low -2 0"),
            ("direction high 1 1", "direction low -1 1"),
            ("direction high 1 0", "direction low -1 0", "unit high mV"),
            ("direction high 1 0", "direction low -1 0", "unit high mV", "unit low V"),
            ("direction high 1 0", "direction low -1 0", "unit high V 1000", "unit low V 100"),
            ("direction high 2 0", "direction low -1 0", "unit high V", "unit low V"),
        ):
            self.assertEqual(self.groups(*statements), ["high", "low"])

    def test_each_pairs_with_the_first_that_it_can(self):
        one, other = "direction {} 1 0".format, "direction {} -1 0".format
        for statements, expected in (
            ((one("a1"), other("b1"), other("b2")), ["a1 b1", "b2"]),
            ((other("b1"), one("a1"), one("a2")), ["a1 b1", "a2"]),
            ((one("a1"), one("a2"), other("b1"), other("b2")), ["a1 b1", "a2 b2"]),
            (("direction c 0 1", other("b1"), "direction d 1 1", one("a1")), ["c", "a1 b1", "d"]),
        ):
            self.assertEqual(self.groups(*statements), expected)

    def test_refused_for_growth(self):
        self.assertEqual(
            self.groups("direction high 1 0", "direction low -1 0", entry="2", steps=20),
            ["high", "low"])
        grown = dataclasses.replace(direction([1, 2], name="high"), swept=Growth(3))
        low = direction([1, 2], entries=(-1,), name="low")
        self.assertEqual(chart.panels([grown, low]), [(grown,), (low,)])

    def test_none_without_model(self):
        words = words_of(drawn(tube(), with_model=False))
        self.assertLessEqual({"direction 0", "direction 1"}, set(words))

    def test_heading(self):
        for statements, expected in (
            (("direction low -1 0", "direction high 1 0"), "high, low: a"),
            (("direction low -1 2", "direction high 1 -2"), "high, low: a - 2 b"),
            # The values are those of `2 a`, also where they have no unit.
            (("direction low -2 0", "direction high 2 0"), "high, low: 2 a"),
        ):
            self.assertIn(expected, words_of(drawn(model(*statements, names=("a", "b")))))

    def test_curves(self):
        upper = direction([30, 40, 36, 44], slack=3)
        lower = direction([-10, -8, 4, -2], slack=2, entries=(-1,))
        plot = Plot(upper, lower)
        bounds, lows = plot.lines(BOUND), plot.lines(LOWER)
        self.assertEqual((len(bounds), len(lows)), (2, 2))
        self.at(plot, bounds[0], [30, 40, 36, 44])
        self.at(plot, lows[0], [27, 37, 33, 41])
        self.at(plot, bounds[1], [10, 8, -4, 2])
        self.at(plot, lows[1], [12, 10, -2, 4])
        fills = [node for node in plot.root.iter(NS + "polygon") if node.get("fill") == chart.TUBE]
        self.near(shape_box(fills[0]), (plot.x(0), plot.y(44), plot.x(3), plot.y(-4)))

    def test_slacks_have_two_strokes(self):
        plot = Plot(direction([30, 40], slack=3), direction([-10, -8], slack=2, entries=(-1,)))
        strip, found = plot.scale(plot.strip), {}
        for node in plot.root.iter(NS + "polyline"):
            if node.get("stroke-width") == "1.2":
                found[node.get("stroke-dasharray")] = shape_box(node)[1]
        self.assertAlmostEqual(found[None], strip(3), delta=0.2)
        self.assertAlmostEqual(found["5 3"], strip(2), delta=0.2)
        self.assertLessEqual({"slack up to 3", "slack up to 2"}, set(plot.words))

    def test_figures_are_in_the_unit_of_both(self):
        upper = direction([64, 128], entries=(2,), unit=("V", 32))
        lower = direction([-16, -8], entries=(-1,), unit=("V", 16), levels=(0,))
        plot = Plot(upper, lower)
        self.at(plot, plot.lines(BOUND)[0], [2, 4])
        self.at(plot, plot.lines(BOUND)[1], [1, Fraction(1, 2)])
        self.assertLessEqual({"V", "peak 4 V at step 1", "lowest 0.5 V at step 1",
                              "guard 0: < 0 V CLEAR, by 0.5 V"}, set(plot.words))

    def test_guards_of_both_sides(self):
        upper = direction([30, 40, 36], slack=1, levels=(36, 50))
        lower = direction([-10, -8, -9], slack=1, levels=(-10, -9, -8, 2), entries=(-1,))
        plot = Plot(upper, lower)
        self.near(plot.across(), [plot.y(level) for level in (50, 36, 10, 9, 8, -2)])
        for expected in ("guard 0: > 36 HIT 1, by 3", "guard 1: > 50 CLEAR, by 10",
                         "guard 0: < 10 HIT 1, by 1", "guard 1: < 9 UNKNOWN 1",
                         "guard 2: < 8 CLEAR, by 0", "guard 3: < -2 CLEAR, by 10"):
            self.assertIn(expected, plot.words)
        marks = [(float(node.get("cx")), float(node.get("cy")))
                 for node in plot.root.iter(NS + "circle") if node.get("r") == "5"]
        self.assertEqual({x for x, _ in marks}, {plot.x(1)})
        self.near([y for _, y in marks], [plot.y(level) for level in (36, 10, 9)])

    def test_spare_and_factor(self):
        one, other = direction([1, 2]), direction([1, 2], entries=(-1,))
        self.assertIn("spare 9", Plot(one, other).words)
        sharp = dataclasses.replace(other, swept=Sweep(8, (1, 2), (0, 0)))
        self.assertIn("spare 9, spare 8", Plot(one, sharp).words)
        self.assertIn("factor 1,000, spare 9", Plot(direction([1, 2], factor=1000), other).words)


class Peaks(PlotTest):
    """The largest bound is marked and told, and how far levels are from it."""

    def test_mark(self):
        plot = Plot(direction([3, 70, 60, 70, 5], slack=2), time=(Fraction("1.25"), "ms"))
        self.near(plot.peaks()[0], (plot.x(1), plot.y(70)))
        self.assertIn("peak 70 at step 1 (1.25 ms)", plot.words)

    def test_marks_of_a_tube(self):
        plot = Plot(direction([30, 40, 36]), direction([-10, -12, -8], entries=(-1,)))
        (upper, lower) = plot.peaks()
        self.near(upper, (plot.x(1), plot.y(40)))
        self.near(lower, (plot.x(2), plot.y(8)))
        self.assertLessEqual({"peak 40 at step 1", "lowest 8 at step 2"}, set(plot.words))

    def test_all_bounds_equal(self):
        for steps in (1, 5):
            plot = Plot(direction([7] * (steps + 1)))
            self.near([x for x, _ in plot.peaks()], [plot.x(0)])
            self.assertIn("peak 7 at step 0", plot.words)
            self.assertIn("7", [number for number, _, _ in plot.axis(plot.frame)])

    def test_rounded_outward(self):
        third = ("V", 3)
        upper = direction([100, 1000], unit=third)
        lower = direction([-100, -1000], unit=third, entries=(-1,))
        words = Plot(upper, lower).words
        self.assertLessEqual({"peak 333.334 V at step 1", "lowest 33.333 V at step 0"}, set(words))
        below = direction([100, 1000], unit=third, entries=(-1,))
        self.assertIn("lowest -333.334 V at step 1", Plot(upper, below).words)

    def test_margins_are_rounded_down(self):
        """The largest value lies between 998/3 and 1000/3."""
        levels = (800, 997, 998, 999, 1000, 1001, 1100)
        words = Plot(direction([100, 1000], slack=2, levels=levels, unit=("V", 3))).words
        for expected in (
            "guard 0: > 800/3 V HIT 1, by 66.00 V", "guard 1: > 997/3 V HIT 1, by 0.33 V",
            "guard 2: > 998/3 V UNKNOWN 1", "guard 3: > 333 V UNKNOWN 1",
            "guard 4: > 1,000/3 V CLEAR, by 0.00 V", "guard 5: > 1,001/3 V CLEAR, by 0.33 V",
            "guard 6: > 1,100/3 V CLEAR, by 33.33 V",
        ):
            self.assertIn(expected, words)

    def test_a_peak_below_a_level_is_told_below_it(self):
        """Also where it is so near that rounding to fewer places would put it there."""
        bounds = [0, Fraction("24649.991")]
        words = Plot(direction(bounds, levels=(24650,), factor=1000, unit=("mV", 1))).words
        self.assertIn("guard 0: > 24,650 mV CLEAR, by 0.009 mV", words)
        self.assertIn("peak 24,649.991 mV at step 1", words)

    def test_arrow(self):
        for levels, end in (
            ((100,), 100), ((60,), 60), ((100, 60), 60), ((90, 40), 90), ((130, 40), 40),
            ((69, 40), 40), ((69, 110), 110),  # a nearer one that is HIT lies at the mark
            ((10**6, 40), 40), ((10**6, 130), 130),  # off the scale
        ):
            with self.subTest(levels):
                plot = Plot(direction([3, 70, 50], levels=levels))
                (x, start, stop), = plot.arrows()
                way = 1 if end < 70 else -1
                self.near((x, start, stop),
                          (plot.x(1), plot.y(70) + way * chart.DIAMOND, plot.y(end)))

    def test_arrow_is_as_long_as_the_margin(self):
        """Where the slack can be seen, the bound is too high for a level that is HIT."""
        plot = Plot(direction([3, 70, 50], 20, (40, 110)))
        self.assertLessEqual({"guard 0: > 40 HIT 1, by 10", "guard 1: > 110 CLEAR, by 40"},
                             set(plot.words))
        (_, _, stop), = plot.arrows()
        self.near([stop], [plot.y(110)])

    def test_heads_of_the_arrow(self):
        """They point outward and end where the arrow does, however short that is."""
        for level in (76, 80, 130):
            plot = Plot(direction([3, 70, 50], levels=(level,)))
            (x, start, stop), = plot.arrows()
            heads = [node.get("points").split() for node in plot.root.iter(NS + "polygon")
                     if len(node.get("points").split()) == 3]
            corners = [[tuple(map(float, pair.split(","))) for pair in head] for head in heads]
            self.assertEqual([head[1] for head in corners], [(x, start), (x, stop)])
            self.assertTrue(stop <= corners[1][0][1] <= corners[0][0][1] <= start)

    def test_no_arrow(self):
        for slack, *levels in ((0,), (0, 70), (0, 71), (0, 10**6), (20, 40), (60, 40)):
            self.assertEqual(Plot(direction([3, 70, 50], slack, levels)).arrows(), [])

    def test_no_arrow_is_longer_than_the_smallest_margin(self):
        """One to the next level would be, where a CLEAR level is at the mark."""
        for slack, *levels in ((0, 71, 110), (0, 110, 71), (0, 71, 40), (20, 71, 110),
                               (0, 70, 110), (0, 70, 40), (0, 70, 69, 110), (20, 70, 110)):
            with self.subTest(slack, levels=levels):
                plot = Plot(direction([3, 70, 50], slack, levels))
                (peak,) = (y for _, y in plot.peaks())
                at_mark = [y for y in plot.across() if abs(y - peak) < chart.DIAMOND]
                self.assertTrue(at_mark)
                self.assertEqual(plot.arrows(), [])
        text = (examples.FOLDER / "verdicts.model").read_text(encoding="utf-8")
        plot = Plot(*multiplied(text, 1)[0])
        self.assertLessEqual({"guard 1: > 2 CLEAR, by 0", "guard 2: > 3 CLEAR, by 1"},
                             set(plot.words))
        self.assertEqual(plot.arrows(), [])

    def test_a_level_at_the_peak(self):
        """It is clear by 0: its line goes through the mark of the peak, and it has no arrow."""
        for slack, levels in ((0, (70,)), (20, (70,)), (20, (70, 110))):
            with self.subTest(slack, levels=levels):
                plot = Plot(direction([3, 70, 50], slack, levels))
                self.assertIn("guard 0: > 70 CLEAR, by 0", plot.words)
                self.near(plot.across()[-1:], [y for _, y in plot.peaks()])
                self.assertEqual(plot.arrows(), [])
                circles = [node.get("r") for node in plot.root.iter(NS + "circle")]
                self.assertNotIn("5", circles)
        lower = direction([-10, -20], levels=(-10, 20), entries=(-1,))
        plot = Plot(direction([60, 70], levels=(70,)), lower)
        self.assertLessEqual({"guard 0: > 70 CLEAR, by 0", "guard 0: < 10 CLEAR, by 0"},
                             set(plot.words))
        self.near(plot.across(), [*(y for _, y in plot.peaks()), plot.y(-20)])
        self.assertEqual(plot.arrows(), [])

    def test_a_margin_of_0_has_the_decimals_of_the_direction(self):
        bounds = [Fraction("0.001"), 24, Fraction("23.999")]
        words = Plot(direction(bounds, Fraction("0.002"), (24,), factor=1000, unit=("V", 1))).words
        self.assertLessEqual({"guard 0: > 24 V CLEAR, by 0.000 V", "peak 24.000 V at step 1"},
                             set(words))

    def test_arrows_of_a_tube(self):
        upper = direction([60, 70], levels=(100,))
        lower = direction([-10, -20], levels=(10,), entries=(-1,))
        plot = Plot(upper, lower)
        (x, start, end), (low_x, low_start, low_end) = plot.arrows()
        self.near((x, start, end), (plot.x(1), plot.y(70) - chart.DIAMOND, plot.y(100)))
        self.near((low_x, low_start, low_end),
                  (plot.x(0), plot.y(10) + chart.DIAMOND, plot.y(-10)))

    def test_long_times_are_cut(self):
        time = (Fraction(1, 7), WIDE)
        plot = Plot(direction([1, 2]), direction([1, 2], entries=(-1,)), time=time)
        self.assertIn(f"peak 2 at step 1 (1/7 {WIDE})", plot.words)
        picture = drawn(HARD["a tube with a long unit, time and name"])
        self.assertTrue([words for words in titles_of(picture) if words.startswith("peak ")])


class Multiplied(PlotTest):
    """Bounds of a multiplied direction, whose slacks are tiny."""

    def test_figures(self):
        bounds = [Fraction("0.001"), Fraction("24.3"), Fraction("24.299")]
        plot = Plot(direction(bounds, Fraction("0.002"), (24, 30), factor=1000, unit=("V", 1)))
        self.at(plot, plot.lines(BOUND)[0], bounds)
        self.at(plot, plot.lines(LOWER)[0], [bound - Fraction("0.002") for bound in bounds])
        self.near(plot.across(), [plot.y(30), plot.y(24)])
        self.assertEqual([number for number, _, _ in plot.axis(plot.strip)], ["0", "0.002"])
        self.assertIn("factor 1,000", plot.words)
        self.assertFalse([words for words in plot.words if "spare" in words])
        self.assertIn("peak 24.300 V at step 1", plot.words)
        self.assertIn("guard 0: > 24 V HIT 1, by 0.298 V", plot.words)

    def test_slacks_are_rounded_up(self):
        for factor, counts, slack, expected in (
            (1000, 3, 7, "2.4"), (1000, 16, 1, "0.063"), (8, 1, Fraction(13, 8), "1.7"),
            (1000, 1_000_000_000, Fraction(1, 1000), "0.000000000001"), (1, 1, 12345, "12,345"),
            (1, 1, 0, "0"),
        ):
            plot = Plot(direction([9, 20000], slack, factor=factor, unit=("V", counts)))
            self.assertEqual([number for number, _, _ in plot.axis(plot.strip)][-1], expected)

    def test_less_than_a_count(self):
        """The axis shows one count at the least."""
        for bounds in ([Fraction("0.5")] * 3, [Fraction("0.5"), Fraction("0.6"), Fraction("0.55")]):
            plot = Plot(direction(bounds, Fraction("0.001"), factor=1000))
            self.at(plot, plot.lines(BOUND)[0], bounds)
            numbers = [number for number, _, _ in plot.axis(plot.frame)]
            self.assertLessEqual({"0.2", "0.4", "0.6", "0.8"}, set(numbers))
            self.assertAlmostEqual(plot.y(0) - plot.y(1), chart.PLOT_HEIGHT, delta=0.3)

    def test_same_as_plain(self):
        """What is told of a model is the same but for the slack, which is smaller."""
        text = tube("guard high 5 most", "guard low 7 least", "unit a mV", steps=8, entry="0.5",
                    input_reach=3)
        plain, sharp = words_of(drawn(text)), words_of(drawn_multiplied(text, 100))
        self.assertIn("high, low: a", plain)
        self.assertIn("high, low: a", sharp)
        self.assertIn("least: < -7 mV CLEAR, by 1 mV", plain)
        self.assertIn("least: < -7 mV CLEAR, by 1.01 mV", sharp)


class Command(FolderTest):
    def setUp(self):
        super().setUp()
        self.write("good.model", TEXT)
        self.write("good.listing", exact.listing(pack.parse(TEXT).data))

    def test_chart(self):
        out = self.folder / "out.svg"
        arguments = self.folder / "good.listing", "--model", self.folder / "good.model", "-o", out
        self.assertEqual(run_tool("chart.py", *arguments), (b"", "", 0))
        self.assertEqual(out.read_text(), drawn(TEXT).replace(">title<", ">good<"))

    def test_packed_model(self):
        packed = self.folder / "good.bin"
        packed.write_bytes(pack.parse(TEXT).data)
        out, _, status = run_tool("chart.py", self.folder / "good.listing", "--model", packed)
        self.assertEqual(status, 0)
        self.assertIn("d0 = 2 x0", words_of(out))

    def test_bad_input(self):
        good = self.folder / "good.listing"
        other = self.write("other.model", TEXT.replace("guard least 1", "guard least -1"))
        longer = self.write("longer.model", TEXT.replace("steps 3", "steps 4"))
        listing = good.read_text()
        self.assertIn("\nguard 0 HIT 2\n", listing)
        older, wrong = (self.write(f"{step}.listing", listing.replace("0 HIT 2", f"0 HIT {step}"))
                        for step in (1, 3))
        raised = self.write("raised.model", TEXT.replace("guard most 2", "guard most 3"))
        lower = ("is from before version 0.8.0, or of levels one count lower, and must be made"
                 " again: ")
        for arguments, message in (
            ((self.folder / "none",), "no such file"),
            ((self.folder,), "is a directory"),
            ((self.write("empty", ""),), "the file is empty"),
            ((self.write("refused", "refused 6 at 55\n"),), "nothing to draw: refused 6 at 55"),
            ((self.folder / "good.model",), "good.model:1: expected 'model N K'"),
            ((good, "--model", other), "says CLEAR of guard 4, whose level -1 makes it HIT 0"),
            ((good, "--model", longer), "is not of this model"),
            ((wrong, "--model", self.folder / "good.model"),
             "is not of this model: it says HIT 3 of guard 0, whose level 2 makes it HIT 2"),
            ((older, "--model", self.folder / "good.model"),
             f"{lower}it says HIT 1 of guard 0, whose level 2 makes it HIT 2"),
            ((good, "--model", raised),
             f"{lower}it says HIT 2 of guard 0, whose level 3 makes it UNKNOWN 3"),
            ((good, "--model", good), "good.listing:1: unknown word 'model'"),
        ):
            with self.subTest(message):
                out, said, status = run_tool("chart.py", *arguments)
                unread = message in ("no such file", "is a directory")
                self.assertEqual((out, status), (b"", 3 if unread else 1))
                self.assertIn(message, said)


if __name__ == "__main__":
    unittest.main()
