"""Verdicts 1, when a level is reached, is said in one place of each implementation."""

import ast
import operator
import re
import unittest
from pathlib import Path
from unittest import mock

from helpers import TOOLS, single

import answers
import exact
from listings import CLEAR, HIT, UNKNOWN, Verdict

ROOT = Path(TOOLS).parent
PYTHON = sorted(file for folder in ("tools", "tools/reporting", "tests")
                for file in (ROOT / folder).glob("*.py"))
ORDERS = ast.Lt, ast.LtE, ast.Gt, ast.GtE
SIGN = re.compile(r"[≤≥]|(?:^|\s)[<>](?:\s|$)")


def is_level(node):
    """Whether this is a level, or one with a sign, a factor or a term."""
    if isinstance(node, (ast.BinOp, ast.UnaryOp)):
        return any(map(is_level, ast.iter_child_nodes(node)))
    if isinstance(node, ast.Call):
        return is_level(node.func)
    return "level" in (getattr(node, "id", None), getattr(node, "attr", None))


def compares_a_level(node):
    return (isinstance(node, ast.Compare) and any(isinstance(order, ORDERS) for order in node.ops)
            and any(map(is_level, (node.left, *node.comparators))))


def tells_a_sign(node):
    """Whether this is a text with a sign between two values: ≤, ≥, or < or > between blanks."""
    if isinstance(node, ast.JoinedStr):  # the values that are put into it stand for themselves
        parts = [part.value if isinstance(part, ast.Constant) else "x" for part in node.values]
    else:
        parts = [node.value] if isinstance(node, ast.Constant) else []
    return bool(SIGN.search("".join(map(str, parts))))


def nodes_of(tree):
    """The nodes of a tree but for docstrings and the parts of texts that values are put into."""
    left_out = {id(node.value) for node in ast.walk(tree) if isinstance(node, ast.Expr)}
    left_out |= {id(part) for node in ast.walk(tree) if isinstance(node, ast.JoinedStr)
                 for part in node.values if isinstance(part, ast.Constant)}
    return (node for node in ast.walk(tree) if id(node) not in left_out)


def places(found):
    """File and function of each node that is found so."""
    for path in PYTHON:
        tree = ast.parse(path.read_text(encoding="utf-8"))
        functions = [node for node in ast.walk(tree) if isinstance(node, ast.FunctionDef)]
        inside = {id(node): one.name for one in functions for node in ast.walk(one)}
        for node in filter(found, nodes_of(tree)):
            yield path.relative_to(ROOT).as_posix(), inside.get(id(node), "")


class Reached(unittest.TestCase):
    def test_each_side_compares_with_a_level_in_one_function(self):
        # The last has the old rule too, since it tests what tells the difference.
        sides = {(file, "reaches") for file in ("tools/exact.py", "tools/answers.py",
                                                "tests/claims.py", "tests/changed.py")}
        # These ask where a level is on the value axis.
        drawn = {("tools/chart.py", name) for name in ("span", "label", "guard_parts")}
        self.assertEqual(set(places(compares_a_level)), sides | drawn)

    def test_rust_compares_with_a_level_in_one_row(self):
        files = [file for folder in ("rust", "bench") for file in (ROOT / folder).rglob("*.rs")
                 if "target" not in file.relative_to(ROOT).parts]
        rows = [row for file in files for row in file.read_text(encoding="utf-8").splitlines()
                if re.search(r"[<>]=? \*?level\b|\blevel [<>]=? ", row)]
        self.assertEqual(len(rows), 1, rows)

    def test_the_signs_of_a_level_and_of_a_bound_are_told_by_a_function_each(self):
        found = {place for place in places(tells_a_sign) if place[0].startswith("tools/")}
        signs = {("tools/answers.py", "reached_sign"), ("tools/reporting/words.py", "bound_sign")}
        others = {
            ("tools/svg.py", ""),  # widths of characters
            ("tools/models.py", "_put"),  # the order of bytes
            ("tools/canonical.py", ""), ("tools/canonical.py", "options_of"),  # > FILE
        }
        self.assertLessEqual(signs, found)
        self.assertLessEqual(found, signs | others)

    def test_a_sign_is_seen(self):
        """And not a tag, an arrow or a comparison."""
        for row, seen in (
            ('f"{name} < {level}"', True), ('f"{name} > {level} mV"', True), ('"≥"', True),
            ('" < ".join(words)', True), ('f"{name} ≤ {level}"', True), ('">"', True),
            ('f"<{tag}>{content}</{tag}>"', False), ('"<b>reached</b>"', False), ('"->"', False),
            ("value > level", False), ('f"{value > level}"', False),
        ):
            with self.subTest(row):
                found = any(map(tells_a_sign, nodes_of(ast.parse(f"told = {row}"))))
                self.assertEqual(found, seen)

    def test_a_level_is_reached_only_above_it(self):
        self.assertEqual((answers.reached_sign(turned=False), answers.reached_sign(turned=True)),
                         (">", "<"))
        self.assertEqual(
            answers.REACHED_MEANS, "A level is reached only where the value is above it; the level"
            " of a lowest value, only where the value is below it.")
        for reaches in (exact.reaches, answers.reaches):
            self.assertEqual([reaches(value, 5) for value in (4, 5, 6)], [False, False, True])
            self.assertEqual([reaches(value, -5) for value in (-6, -5, -4)], [False, False, True])

    def test_changing_the_function_changes_all_answers(self):
        """Of the first model the slack is 0; of the second bounds are 0, 1, 2, 2, slacks 0 to 1."""
        without_slack = single(65_536, (0, 5), (0, 0), 1, 1, (4, 5, 6))
        with_slack = single(32_768, (0, 0), (0, 1), 1, 3, (0, 1, 2, 3))
        written = answers.Written(10, (5, 50))
        hit, clear = Verdict(HIT, 0), Verdict(CLEAR)
        for reaches, first, second, steps in (
            (operator.ge, (hit, hit, clear),
             (hit, Verdict(HIT, 1), Verdict(UNKNOWN, 2), clear), [0, 0, None]),
            (operator.gt, (hit, clear, clear),
             (Verdict(HIT, 1), Verdict(UNKNOWN, 2), clear, clear), [0, None, None]),
        ):
            with (mock.patch.object(exact, "reaches", reaches),
                  mock.patch.object(answers, "reaches", reaches)):
                for model, expected in ((without_slack, first), (with_slack, second)):
                    told = exact.listing_of(model)
                    self.assertEqual(told.guards, expected)
                    exact.check_accuracy(model, told)
                self.assertEqual([written.reached(level) for level in (4, 5, 6)], steps)


if __name__ == "__main__":
    unittest.main()
