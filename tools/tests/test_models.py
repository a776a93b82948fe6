"""The random files: always the same, of every sort, and able to tell a wrong program."""

import collections
import itertools
import math
import random
import struct
import types
import unittest
from dataclasses import replace
from fractions import Fraction

from helpers import BEYOND_BY_HALF, HALVED_ONCE, single

import exact
import listings
import models
import refusal
from layout import (
    BODY_LENGTHS, BOX, ENTRY_KINDS, FITTED, GROWTH_LIMIT, MAX_LEVEL, MAX_REACH, MIN_LEVEL,
    READ_LIMIT, VERTICES, ZONOTOPE, beyond, encode, entry_places, fitted_rows_of, offsets, pattern,
    zero_box, states_drift, states_input,
)
from listings import Growth, Listing, Refusal

SEED, COUNT = 1, 1_500

NEAREST = "(total + MATRIX_UNIT // 2) // MATRIX_UNIT"
HALF_OF_T = "up(dot(e, initial_reach) + entered_errors, 2)"
SCALED = "nearest(MATRIX_UNIT * value)"
TIE = "(rest == Fraction(1, 2) and below % 2 == 1)"
WITHIN = "value is not None and abs(value) <= MAX_FACTOR"
ENTERING = "support(input_, r) + dot(drift, r)"
OWN = "all(abs(entry) <= MAX_REACH for entry in drift)"
SUM = "max(entering_reach(so_far, drift)) <= MAX_REACH"
GENERATORS = "sum(abs(dot(generator, r)) for generator in generators)"
LARGEST = "max(dot(vertex, r) for vertex in set_.points)"
ZEROS = "self.require(all(entry == 0 for entry in beyond), 16)"
ROW_ZEROS = "file.require_zeros(all_six[n:])"
POINT, DRIFT, ENTRIES = ("points.append(_vector(file, n))", "drift = _vector(file, n)",
                         "entries = _vector(file, n)")
UNTESTED = "_numbers(file.body())[:n]"  # the first n numbers of a body, whatever comes behind them
LATE = "file.require_zeros(_numbers(file.data[file.start + 1 : file.at])[n:])"
# Whether what is there of the next record, a point, drift or direction, has rubbish beyond n.
EARLY = ("(kind == 5 or kind & 0xF0 in (0x10, 0x20, 0x30)) and"
         " any(self.data[self.at + 1 + 4 * self.data[1] : self.at + 25])")
WHOLE = f"self.at + 25 <= len(self.data) and {EARLY}"

ABOVE, HIT_RULE, UNKNOWN_RULE = ("value > level", "reaches(bound - slack, level)",
                                 "reaches(bound, level)")


def signed(value):
    """The text of a number as 64 bits with a sign hold it."""
    return f"(({value} + 2**63) % 2**64 - 2**63)"


# A wrong answer's name, the text of `exact` that is changed, and what it becomes.
EDITS = (
    ("matrix_not_transposed", "list(zip(*model.matrix))", "list(model.matrix)"),
    ("rounded_toward_zero", NEAREST, "int(Fraction(total, MATRIX_UNIT))"),
    ("rounded_down", NEAREST, "total // MATRIX_UNIT"),
    ("half_added_and_rounded_toward_zero", NEAREST,
     "int(Fraction(total + MATRIX_UNIT // 2, MATRIX_UNIT))"),
    ("half_goes_down", NEAREST, "-((MATRIX_UNIT // 2 - total) // MATRIX_UNIT)"),
    ("half_goes_to_even", NEAREST, "round(Fraction(total, MATRIX_UNIT))"),
    ("half_goes_away_from_zero", NEAREST,
     "(total + MATRIX_UNIT // 2 - (total < 0)) // MATRIX_UNIT"),
    ("fraction_left_out", " + (1 if raw_bound % DIRECTION_UNIT else 0)", ""),
    ("remainder_left_out", " + (1 if total % MATRIX_UNIT else 0)", ""),
    ("remainder_in_whole_units", "1 if total % MATRIX_UNIT", "2 if total % MATRIX_UNIT"),
    ("growth_without_e", "if largest > GROWTH_LIMIT", "if max(map(abs, r)) > GROWTH_LIMIT"),
    ("growth_with_whole_e", "if largest > GROWTH_LIMIT",
     "if max(abs(x) + y for x, y in zip(r, e)) > GROWTH_LIMIT"),
    ("growth_at_limit", "largest > GROWTH_LIMIT", "largest >= GROWTH_LIMIT"),
    ("spare_without_e", "2**h * largest", "2**h * max(abs(x) for r, _ in steps for x in r)"),
    ("spare_with_whole_e", "2**h * largest",
     "2**h * max(abs(x) + y for r, e in steps for x, y in zip(r, e))"),
    ("spare_with_half_of_e_rounded_down", "2**h * largest",
     "2**h * max(abs(x) + y // 2 for r, e in steps for x, y in zip(r, e))"),
    ("spare_below_limit", "largest <= GROWTH_LIMIT", "largest < GROWTH_LIMIT"),
    ("sum_without_e", "abs(x) + up(y, 2)", "abs(x)"),
    ("sum_with_whole_e", "abs(x) + up(y, 2)", "abs(x) + y"),
    ("sum_with_half_of_e_rounded_down", "abs(x) + up(y, 2)", "abs(x) + y // 2"),
    ("e_rounded_down", "up(dot(magnitude, e), MATRIX_UNIT)", "dot(magnitude, e) // MATRIX_UNIT"),
    ("half_of_t_rounded_down", HALF_OF_T, "(dot(e, initial_reach) + entered_errors) // 2"),
    ("whole_t_in_bound", "entered + half", "entered + dot(e, initial_reach) + entered_errors"),
    ("slack_not_doubled", "2 * half", "half"),
    ("slack_of_twice_t", "2 * half", "4 * half"),
    ("bound_rounded_down", "up(raw_bound, DIRECTION_UNIT)", "raw_bound // DIRECTION_UNIT"),
    ("input_error_lost", "entered_errors += dot(e, entered_reach)", "pass"),
    ("lower_corner_taken", "high if x > 0 else low", "low if x > 0 else high"),
    ("generator_signed", "abs(dot(generator, r))", "dot(generator, r)"),
    ("first_generator_signed", GENERATORS,
     "dot(generators[0], r) + sum(abs(dot(generator, r)) for generator in generators[1:])"),
    ("last_generator_left_out", GENERATORS, f"{GENERATORS[:-1]}[:-1])"),
    ("magnitude_of_the_sum", GENERATORS, "abs(sum(dot(generator, r) for generator in generators))"),
    ("first_generator_as_start", "dot(centre, r) +", "dot(generators[0], r) +"),
    ("centre_by_magnitude", "dot(centre, r) +", "abs(dot(centre, r)) +"),
    ("least_vertex", "return max(dot(vertex", "return min(dot(vertex"),
    ("last_vertex_alone", LARGEST, "dot(set_.points[-1], r)"),
    ("first_vertex_left_out", LARGEST, f"{LARGEST[:-1]}[1:] or set_.points)"),
    ("last_vertex_left_out", LARGEST, f"{LARGEST[:-1]}[:-1] or set_.points)"),
    ("largest_from_zero", LARGEST, f"max(0, {LARGEST})"),
    ("largest_magnitude", LARGEST, "max(abs(dot(vertex, r)) for vertex in set_.points)"),
    ("level_itself_reached", ABOVE, "value >= level"),
    ("only_hit_above_level", UNKNOWN_RULE, "bound >= level"),
    ("only_unknown_above_level", HIT_RULE, "bound - slack >= level"),
    ("hit_two_above_level", HIT_RULE, "reaches(bound - slack - 1, level)"),
    ("unknown_two_above_level", UNKNOWN_RULE, "reaches(bound - 1, level)"),
    ("hit_from_bound", HIT_RULE, "reaches(bound, level)"),
    ("reached_at_the_level_from_0_on", ABOVE, "value > level or value == level >= 0"),
    ("reached_at_the_level_below_0", ABOVE, "value > level or value == level < 0"),
    ("lowest_level_wrapped", ABOVE, f"value >= {signed('level - 1')} + 2"),
    ("highest_level_wrapped", ABOVE, f"value >= {signed('level + 1')}"),
    ("difference_wrapped", ABOVE, f"{signed('level - value')} < 0"),
    ("body_before_order", "if kind not in allowed:",
     "if self.at + BODY_LENGTHS[kind] >= len(self.data):\n"
     "            raise _Refused(1, self.at)\n"
     "        if kind not in allowed:"),
    ("offset_of_body", "self.start, self.at = self.at", "self.start, self.at = self.at + 1"),
    ("zero_steps_kept", "DEFAULT_STEPS if stated_steps == 0 else stated_steps", "stated_steps"),
    ("old_default", "DEFAULT_STEPS if stated_steps == 0", "60 if stated_steps == 0"),
    ("default_for_one_step", "if stated_steps == 0 else", "if stated_steps <= 1 else"),
    ("row_number_untested", "file.require(body[0] == number, 5)", "pass"),
    ("row_number_of_fitted_rows_untested", "file.require(body[0] == number, 5)",
     "file.require(kind == FITTED or body[0] == number, 5)"),
    ("no_fitted_rows", "file.kind({ROW, FITTED})", "file.kind({ROW})"),
    ("fitted_row_first_alone", "file.kind({ROW, FITTED})",
     "file.kind({ROW, FITTED} if number == 0 else {ROW})"),
    ("fitted_tie_goes_up", TIE, "rest == Fraction(1, 2)"),
    ("fitted_tie_goes_down", TIE, "False"),
    ("fitted_tie_goes_away_from_zero", TIE, "(rest == Fraction(1, 2) and below >= 0)"),
    ("fitted_tie_goes_toward_zero", TIE, "(rest == Fraction(1, 2) and below < 0)"),
    ("fitted_tie_goes_to_odd", TIE, "(rest == Fraction(1, 2) and below % 2 == 0)"),
    ("fitted_last_bits_lost", "rest > Fraction(1, 2)", "rest > Fraction(2**35 + 1, 2**36)"),
    ("fitted_entry_rounded_down", SCALED, "math.floor(MATRIX_UNIT * value)"),
    ("fitted_entry_rounded_toward_zero", SCALED, "int(MATRIX_UNIT * value)"),
    ("fitted_entry_not_scaled", SCALED, "nearest(value)"),
    ("fitted_sign_lost", "(-1) ** sign * significand", "significand"),
    ("fitted_leading_one_lost", "else 2**52 + fraction", "else fraction"),
    ("fitted_exponent_off_by_one", "- 1075)", "- 1074)"),
    ("fitted_big_endian", '8 * i + 8], "little")', '8 * i + 8], "big")'),
    ("fitted_entries_as_one_another", "data[8 * i : 8 * i + 8]", "data[4 * i : 4 * i + 8]"),
    ("fitted_2_refused", WITHIN, "value is not None and abs(value) < MAX_FACTOR"),
    ("fitted_minus_2_refused", WITHIN, "value is not None and -MAX_FACTOR < value <= MAX_FACTOR"),
    ("fitted_limit_of_the_rounded_entry", WITHIN,
     "value is not None and abs(fitted_entry(value)) <= MAX_ENTRY"),
    ("fitted_no_number_as_zero", "if exponent == 0x7FF:\n        return None",
     "if exponent == 0x7FF:\n        return Fraction(0)"),
    ("fitted_entries_refused_by_5", "for value in values), 15)", "for value in values), 5)"),
    ("reach_of_one_point", "Set(form, tuple(points))\n", "Set(form, (points[-1],))\n"),
    ("corners_crossed", "in_reach and in_order", "in_reach"),
    ("big_endian", 'int.from_bytes(data, "little", signed=True)',
     'int.from_bytes(data, "big", signed=True)'),
    ("bytes_after_end_ignored", "if file.at < len(file.data)", "if False"),
    ("zero_direction", "in_limits and any(entries)", "in_limits"),
    ("guard_on_no_direction", "body[0] < len(directions)", "True"),
    ("entry_limit_off_by_one", "<= MAX_ENTRY", "<= MAX_ENTRY + 1"),
    ("reach_limit_off_by_one", "max(reach(so_far, n)) <= MAX_REACH",
     "max(reach(so_far, n)) <= MAX_REACH + 1"),
    ("direction_limit_off_by_one", "<= MAX_DIRECTION_ENTRY", "<= MAX_DIRECTION_ENTRY + 1"),
    ("steps_limit_off_by_one", "stated_steps <= MAX_STEPS", "stated_steps <= MAX_STEPS + 1"),
    ("no_drift", "file.kind({DRIFT, INITIAL", "file.kind({INITIAL"),
    ("drift_lost", ENTERING, "support(input_, r)"),
    ("drift_turned_round", ENTERING, "support(input_, r) - dot(drift, r)"),
    ("drift_by_magnitude", ENTERING, "support(input_, r) + abs(dot(drift, r))"),
    ("drift_in_place_of_the_input", ENTERING,
     "dot(drift, r) if any(drift) else support(input_, r)"),
    ("drift_reach_lost", "map(add, reach(input_, len(drift)), map(abs, drift))",
     "reach(input_, len(drift))"),
    ("drift_reach_signed", "map(abs, drift)", "drift"),
    ("reach_of_the_moved_set", "reach(input_, len(drift)), map(abs, drift)",
     "reach(Set(input_.form, tuple(tuple(map(add, p, drift)) if p is input_.points[0] or"
     " input_.form != ZONOTOPE else p for p in input_.points)), len(drift)), [0] * 6"),
    ("drift_at_the_start", "entered = entered_errors = 0",
     "entered, entered_errors = dot(model.drift, steps[0][0]), 0"),
    ("drift_reach_of_the_initial_set", "initial_reach = reach(model.initial, model.n)",
     "initial_reach = entering_reach(model.initial, model.drift)"),
    ("drift_limit_off_by_one", OWN, OWN.replace("<=", "<= 1 +")),
    ("drift_at_its_limit_refused", OWN, OWN.replace("<=", "<")),
    ("drift_limit_of_one_sign", OWN, OWN.replace("abs(entry)", "entry")),
    ("drift_limit_untested", f"file.require({OWN}, 17)", "pass"),
    ("drift_refused_by_6", f"{OWN}, 17", f"{OWN}, 6"),
    ("sum_limit_off_by_one", SUM, SUM.replace("<=", "<= 1 +")),
    ("sum_at_its_limit_refused", SUM, SUM.replace("<=", "<")),
    ("sum_untested", f"file.require({SUM}, 17)", "pass"),
    ("sum_refused_by_6", f"{SUM}, 17", f"{SUM}, 6"),
    ("sum_of_one_point", SUM, SUM.replace("so_far", "Set(form, (points[-1],))")),
    ("sum_of_the_first_coordinate_alone", SUM, "entering_reach(so_far, drift)[0] <= MAX_REACH"),
    ("sum_of_the_whole_set_alone", SUM, f"len(points) < MIN_POINTS[form] or {SUM}"),
    ("sum_of_the_initial_set", "file, INITIAL, (0,) * n", "file, INITIAL, drift"),
    ("sum_before_6", "file.require(in_reach and in_order, 6)",
     f"file.require({SUM}, 17)\n        file.require(in_reach and in_order, 6)"),
    ("sum_before_crossed_corners", "file.require(in_reach and in_order, 6)",
     f"file.require(in_reach, 6)\n        file.require({SUM}, 17)\n"
     "        file.require(in_order, 6)"),
    ("second_drift", "drift = _read_drift(file, n)\n",
     "drift = _read_drift(file, n)\n"
     "    if file.data[file.at : file.at + 1] == b'\\x05':\n"
     "        drift = _read_drift(file, n)\n"),
    ("beyond_n_ignored", ZEROS, "pass"),
    ("beyond_n_next_column_alone", "for entry in beyond)", "for entry in beyond[:1])"),
    ("beyond_n_next_column_forgotten", "for entry in beyond)", "for entry in beyond[1:])"),
    ("beyond_n_last_column_forgotten", "for entry in beyond)", "for entry in beyond[:-1])"),
    ("beyond_n_last_column_alone", "for entry in beyond)", "for entry in beyond[-1:])"),
    ("beyond_n_two_columns_needed", ZEROS,
     "self.require(sum(entry != 0 for entry in beyond) < 2, 16)"),
    ("beyond_n_below_zero_passes", "all(entry == 0", "all(entry is not None and entry <= 0"),
    ("beyond_n_above_zero_passes", "all(entry == 0", "all(entry is not None and entry >= 0"),
    ("beyond_n_1_passes", "all(entry == 0", "all(entry in (0, 1)"),
    ("beyond_n_no_number_passes", "all(entry == 0", "all(entry is None or entry == 0"),
    ("beyond_n_tiny_passes", "all(entry == 0",
     "all(entry is not None and fitted_entry(Fraction(entry)) == 0"),
    ("beyond_n_low_bytes_alone", ZEROS,
     "self.require(all(isinstance(x, int) and x % 2**16 == 0 or x == 0 for x in beyond), 16)"),
    ("beyond_n_refused_by_5", "in beyond), 16)", "in beyond), 5)"),
    ("beyond_n_at_the_body", ZEROS,
     "if not all(entry == 0 for entry in beyond):\n            raise _Refused(16, self.start + 1)"),
    ("negative_zero_refused", ROW_ZEROS,
     f"{ROW_ZEROS}\n    file.require(kind == ROW or not any(body[1 + 8 * n :]), 16)"),
    ("negative_zero_refused_in_the_last_column", ROW_ZEROS,
     f"{ROW_ZEROS}\n    file.require(kind == ROW or n == 6 or body[-1] == 0, 16)"),
    ("beyond_n_of_scaled_rows_forgotten", ROW_ZEROS, f"if kind == FITTED:\n        {ROW_ZEROS}"),
    ("beyond_n_of_fitted_rows_forgotten", ROW_ZEROS, f"if kind == ROW:\n        {ROW_ZEROS}"),
    ("beyond_n_of_the_first_row_alone", ROW_ZEROS, f"if number == 0:\n        {ROW_ZEROS}"),
    ("beyond_n_of_fitted_rows_in_four_bytes", ROW_ZEROS,
     "file.require_zeros(_numbers(body[1:])[n:])"),
    ("beyond_n_of_fitted_rows_low_halves", ROW_ZEROS,
     "file.require_zeros(all_six[n:] if kind == ROW else [_signed(body[1 + 8 * i : 5 + 8 * i])"
     " for i in range(n, 6)])"),
    ("beyond_n_of_fitted_rows_high_halves", ROW_ZEROS,
     "file.require_zeros(all_six[n:] if kind == ROW else [_signed(body[5 + 8 * i : 9 + 8 * i])"
     " % 2**31 for i in range(n, 6)])"),
    ("row_number_before_beyond_n", ROW_ZEROS,
     f"file.require(body[0] == number, 0 + 5)\n    {ROW_ZEROS}"),
    ("scaled_row_number_before_beyond_n", ROW_ZEROS,
     f"file.require(kind == FITTED or body[0] == number, 0 + 5)\n    {ROW_ZEROS}"),
    ("fitted_row_number_before_beyond_n", ROW_ZEROS,
     f"file.require(kind == ROW or body[0] == number, 0 + 5)\n    {ROW_ZEROS}"),
    ("entries_of_a_scaled_row_before_beyond_n", ROW_ZEROS,
     f"file.require(kind == FITTED or all(abs(x) < 131_073 for x in all_six[:n]), 5)\n"
     f"    {ROW_ZEROS}"),
    ("entries_of_a_fitted_row_before_beyond_n", ROW_ZEROS,
     f"file.require(kind == ROW or all(x is not None and abs(x) <= 2 for x in all_six[:n]), 15)\n"
     f"    {ROW_ZEROS}"),
    ("beyond_n_of_the_drift_forgotten", DRIFT, f"drift = {UNTESTED}"),
    ("beyond_n_of_directions_forgotten", ENTRIES, f"entries = {UNTESTED}"),
    ("beyond_n_of_the_first_direction_alone", ENTRIES,
     f"entries = {UNTESTED} if directions else _vector(file, n)"),
    ("beyond_n_of_points_forgotten", POINT, f"points.append({UNTESTED})"),
    ("beyond_n_of_the_first_point_alone", POINT,
     f"points.append({UNTESTED} if points else _vector(file, n))"),
    ("beyond_n_of_the_initial_set_forgotten", POINT,
     f"points.append({UNTESTED} if part == INITIAL else _vector(file, n))"),
    ("beyond_n_of_the_input_set_forgotten", POINT,
     f"points.append({UNTESTED} if part == INPUT else _vector(file, n))"),
    *((f"beyond_n_of_{kind:02X}_forgotten", POINT,
       f"points.append({UNTESTED} if file.data[file.at] == {kind} else _vector(file, n))")
      for kind in (*range(0x10, 0x15), *range(0x20, 0x25))),
    ("beyond_n_before_order", "if kind not in allowed:",
     f"if {WHOLE}:\n            raise _Refused(16, self.at)\n        if kind not in allowed:"),
    ("beyond_n_before_count", "if kind in full:",
     f"if {WHOLE}:\n            raise _Refused(16, self.at)\n        if kind in full:"),
    ("beyond_n_before_the_whole_body", "if kind in full:\n            raise _Refused(9, self.at)",
     "if kind in full:\n            raise _Refused(9, self.at)\n"
     f"        if {EARLY}:\n            raise _Refused(16, self.at)"),
    ("ninth_generator", "len(points) == MAX_POINTS[form]", "len(points) == MAX_POINTS[form] + 1"),
    ("seventeenth_direction", "len(directions) == MAX_DIRECTIONS", "len(directions) == 17"),
    ("seventeenth_guard", "len(guards) == MAX_GUARDS", "len(guards) == 17"),
    ("input_set_needed", "INPUT + VERTEX, DIRECTION}", "INPUT + VERTEX}"),
    *((f"input_set_needed_after_{form}", "allowed |= later",
       f"allowed |= later - ({{DIRECTION}} if (part, form) == (INITIAL, {form!r}) else set())")
      for form in (BOX, ZONOTOPE, VERTICES)),
    ("input_left_blank", "input_ = zero_box(n)", "input_ = Set(BOX, ())"),
    ("initial_set_as_input", "input_ = zero_box(n)", "input_ = initial"),
    *((f"direction_after_{kind:02X}_alone", "            allowed |= later\n",
       f"            allowed |= later\n"
       f"        elif file.data[file.start] == {kind}:\n"
       f"            allowed |= {{DIRECTION}}\n")
      for kind in (0x10, 0x12, 0x20, 0x22)),
)
# The same with several changes.
LARGER_EDITS = (
    ("fitted_entries_before_the_number", (
        ("file.require(body[0] == number, 5)",
         "file.require(kind == FITTED or body[0] == number, 5)"),
        ("return tuple(map(fitted_entry, values))",
         "file.require(body[0] == number, 5)\n    return tuple(map(fitted_entry, values))"),
    )),
    *((f"beyond_n_of_{what}", ((taken, taken.replace("_vector(file, n)", UNTESTED)),
                               (test, f"{test}\n{indent}{LATE}")))
      for what, taken, test, indent in (
          ("points_after_6", POINT, "file.require(in_reach and in_order, 6)", " " * 8),
          ("points_after_17", POINT, f"file.require({SUM}, 17)", " " * 8),
          ("directions_after_7", ENTRIES, "file.require(in_limits and any(entries), 7)", " " * 8),
          ("the_drift_after_17", DRIFT, f"file.require({OWN}, 17)", " " * 4),
      )),
    ("old_recurrence", (
        (NEAREST, "total // MATRIX_UNIT"),
        ("abs(x) + up(y, 2)", "abs(x) + y"),
        (HALF_OF_T, "dot(e, initial_reach) + entered_errors"),
    )),
    ("guard_or_end_behind_the_initial_set", (
        ("INPUT + VERTEX, DIRECTION}", "INPUT + VERTEX, DIRECTION, GUARD, END}"),
        ("if file.kind(later) == DIRECTION:", "if file.kind(later) in (DIRECTION, GUARD, END):"),
        ("allowed = {DIRECTION}\n", "allowed = {DIRECTION, GUARD, END}\n"),
    )),
    ("input_set_behind_the_directions", (
        ("allowed = {DIRECTION, GUARD, END}\n", "allowed = {DIRECTION, GUARD, END} | later\n"),
        ("    guards: list[tuple[int, int]] = []\n",
         "    if file.data[file.at] & 0xF0 == INPUT:\n"
         "        input_ = _read_set(file, INPUT, drift, {GUARD, END})\n"
         "    guards: list[tuple[int, int]] = []\n"),
    )),
)
# The same with a model that shows it, where a random file seldom or never does.
SHOWN = (
    ("coordinates_halved_apart", HALF_OF_T,
     "sum(up(x * y, 2) for x, y in zip(e, initial_reach)) + up(entered_errors, 2)", HALVED_ONCE[0]),
    ("sets_halved_apart", HALF_OF_T, "up(dot(e, initial_reach), 2) + up(entered_errors, 2)",
     HALVED_ONCE[1]),
    ("steps_halved_apart", "entered_errors += dot(e, entered_reach)",
     "entered_errors += 2 * up(dot(e, entered_reach), 2)", HALVED_ONCE[2]),
    ("growth_with_half_of_e_rounded_down", "if largest > GROWTH_LIMIT",
     "if max(abs(x) + y // 2 for x, y in zip(r, e)) > GROWTH_LIMIT", BEYOND_BY_HALF),
)


def edited(*changes):
    """The exact program with texts in it changed, each of which must stand there once."""
    with open(exact.__file__, encoding="utf-8") as file:
        source = file.read()
    for old, new in changes:
        assert source.count(old) == 1, f"{old!r} stands {source.count(old)} times"
        source = source.replace(old, new)
    module = types.ModuleType("edited")
    exec(compile(source, "edited", "exec"), module.__dict__)
    return module


def differs(program, data, listing):
    try:
        return program.listing(data) != listing
    except Exception:  # an edited program may break down; that is seen as well
        return True


class Strength(unittest.TestCase):
    """Each wrong program gives another listing for one of the files."""

    @classmethod
    def setUpClass(cls):
        cls.files = list(models.stream(SEED, COUNT))
        cls.listings = [exact.listing(data) for data in cls.files]

    def differs(self, program, index):
        return differs(program, self.files[index], self.listings[index])

    def test_edits(self):
        edits = [(name, [(old, new)]) for name, old, new in EDITS]
        for name, changes in (*edits, *LARGER_EDITS):
            with self.subTest(name):
                program = edited(*changes)
                found = any(self.differs(program, index) for index in range(COUNT))
                self.assertTrue(found, f"no file of {COUNT} shows {name}")

    def test_edits_with_a_model(self):
        for name, old, new, model in SHOWN:
            with self.subTest(name):
                data = encode(model)
                self.assertTrue(differs(edited((old, new)), data, exact.listing(data)))

    def test_levels_stand_where_a_verdict_changes(self):
        """Guards stand at the largest bound and bound - slack, and one count to both sides of each.

        They do so also where the slack makes six different places of these, at those of the peak
        and of other steps, and at both ends of 64 bits.
        """
        seen = collections.Counter()
        for data, listing in zip(self.files, self.listings):
            told, model = listings.parse(listing), exact.read_model(data)
            for number, level in model.guards if isinstance(told, Listing) else ():
                if not isinstance(told.directions[number], Growth):
                    seen.update(places_of(level, told.directions[number]))
        largest, others = ("bound", "low", "low of the peak"), ("bound elsewhere", "low elsewhere")
        for distance in (-1, 0, 1):
            for what in itertools.product(largest, (False, True)):
                self.assertGreater(seen[*what, distance], 40, (what, distance))
            for what in others:
                self.assertGreater(seen[what, distance], 100, (what, distance))
            self.assertGreater(seen["low not of the peak", True, distance], 5, distance)
        for end in (MIN_LEVEL, MAX_LEVEL):
            self.assertGreater(seen[end], 40, end)

    def test_a_slack_of_t_is_the_same(self):
        """T in place of two halves of it, rounded up: no odd T is a multiple of 1,048,576."""
        program = edited(("2 * half", "dot(e, initial_reach) + entered_errors"))
        self.assertFalse(any(self.differs(program, index) for index in range(500)))

    def test_no_edit(self):
        program = edited(("slow, plain", "plain, slow"))
        self.assertFalse(any(self.differs(program, index) for index in range(200)))


class Stream(unittest.TestCase):
    def test_same_again(self):
        self.assertEqual(list(models.stream(5, 40)), list(models.stream(5, 40)))
        self.assertNotEqual(list(models.stream(5, 40)), list(models.stream(6, 40)))
        self.assertEqual(models.file_of(5, 39), list(models.stream(5, 40))[-1])

    def test_every_sort(self):
        files = list(models.stream(SEED, 1_000))
        replies = [exact.read_model(data) for data in files]
        accepted = [reply for reply in replies if not isinstance(reply, Refusal)]
        refused = {reply.number for reply in replies if isinstance(reply, Refusal)}
        self.assertEqual(refused, {*range(1, 11), 15, 16, 17})
        forms = {(model.initial.form, model.input.form) for model in accepted}
        self.assertEqual(forms, set(itertools.product((BOX, ZONOTOPE, VERTICES), repeat=2)))
        self.assertEqual({model.n for model in accepted}, set(range(1, 7)))
        self.assertLessEqual({1, 120, 256}, {model.steps for model in accepted})
        self.assertTrue(any(len(data) > READ_LIMIT for data in files))
        words = {said.word for model in accepted for said in exact.listing_of(model).guards}
        self.assertEqual(words, {"HIT", "UNKNOWN", "CLEAR", "GROWTH"})

    def test_no_input(self):
        """About one in eight of the accepted models, with every form and n; few state it."""
        files = list(models.stream(SEED, 3_000))
        replies = [(states_input(data), exact.read_model(data)) for data in files]
        accepted = [(stated, model) for stated, model in replies if not isinstance(model, Refusal)]
        zero = [stated for stated, model in accepted if model.input == zero_box(model.n)]
        without = [model for stated, model in accepted if not stated]
        self.assertTrue(0.1 < len(zero) / len(accepted) < 0.16, (len(zero), len(accepted)))
        self.assertTrue(0.7 < len(without) / len(zero) < 0.9, (len(without), len(zero)))
        self.assertEqual({model.initial.form for model in without}, {BOX, ZONOTOPE, VERTICES})
        self.assertEqual({model.n for model in without}, set(range(1, 7)))
        refused = {
            reply.number for stated, reply in replies if isinstance(reply, Refusal) and not stated
        }
        self.assertEqual(refused, {*range(1, 11), 15, 16, 17})

    def test_fitted_rows(self):
        """Models with and without them and with both sorts; entries of every sort; 5 before 15."""
        seen = collections.Counter()
        for data in models.stream(SEED, 2_000):
            model = exact.read_model(data)
            if isinstance(model, Refusal):
                if model.number in (5, 15):
                    seen[model.number, has_no_entry(data[model.offset :], n=data[1])] += 1
                continue
            rows = fitted_rows_of(data, model.n)
            seen["all" if len(rows) == model.n else "some" if rows else "none"] += 1
            seen.update(itertools.chain(*(map(sort_of, patterns) for patterns in rows.values())))
        for what in ("none", "some", "all", "zero", "zero, -", "tiny", "tiny, -", "tie",
                     "tie, -", "one bit from a tie", "one bit from a tie, -", "2", "2, -"):
            self.assertGreater(seen[what], 10, (what, seen))
        for number, wrong in ((15, True), (5, True), (5, False)):
            self.assertGreater(seen[number, wrong], 5, seen)

    def test_drift(self):
        """About half of the models have one, of each sort; 17 and 6 come at each kind of point."""
        seen = collections.Counter()
        accepted = 0
        for data in models.stream(SEED, 3_000):
            model = exact.read_model(data)
            if isinstance(model, Refusal):
                seen[model.number, data[model.offset] if model.offset < len(data) else None] += 1
                # Of a point that 6 refuses, the sum is beyond its limit too.
                seen["6 before 17"] += model.number == 6 and sum_passed(data, model.offset)
                continue
            accepted += 1
            stated, zero = states_drift(data), not any(model.drift)
            seen["stated" if stated else "not stated"] += 1
            seen["zero, stated"] += stated and zero
            seen["without input"] += not zero and not states_input(data)
            reach = exact.entering_reach(model.input, model.drift)
            seen["sum at its limit"] += any(
                x == MAX_REACH and y for x, y in zip(reach, model.drift)
            )
            seen["both signs"] += min(model.drift) < 0 < max(model.drift)
        self.assertTrue(0.4 < seen["stated"] / accepted < 0.65, seen)
        for what in ("zero, stated", "without input", "sum at its limit", "both signs"):
            self.assertGreater(seen[what] / accepted, 0.02, (what, seen))
        for kind in (0x05, *range(0x20, 0x25)):
            self.assertGreater(seen[17, kind], 3, (hex(kind), seen))
        self.assertGreater(seen[3, 0x05], 10, seen)
        self.assertGreater(seen["6 before 17"], 10, seen)

    def test_zeros_beyond_n(self):
        """Accepted fitted rows hold either zero there, often one sort alone and often both."""
        seen = collections.Counter()
        for data in models.stream(SEED, 1_000):
            model = exact.read_model(data)
            if not isinstance(model, Refusal):
                for at in (at for at in offsets(data) if data[at] == FITTED):
                    zeros = set(struct.unpack_from("<6Q", data, at + 2)[model.n :])
                    seen[frozenset(zeros)] += 1
        for zeros in ({0}, {models.SIGN}, {0, models.SIGN}):
            self.assertGreater(seen[frozenset(zeros)], 50, seen)

    def test_rubbish_beyond_n(self):
        """Some percent of the files, in each kind and column, and beside every other fault."""
        seen = collections.Counter()
        for data in models.stream(SEED, 3_000):
            read = exact.read_model(data)
            if not isinstance(read, Refusal) or len(data) < 4:
                continue
            n, record = data[1], data[read.offset :]
            if read.number != 16:
                whole = record and len(record) > BODY_LENGTHS.get(record[0], 0)
                seen["whole", read.number] += bool(whole and beyond(record, n))
                cut = read.number == 1 and record and entry_places(record[0])[n:]
                seen["cut"] += bool(cut and any(record[cut[0] :]))
                continue
            seen[16] += 1
            rubbish = beyond(record, n)
            seen[record[0]] += 1
            seen["next"] += n in rubbish
            seen["next alone"] += list(rubbish) == [n]
            seen["last alone"] += n < 5 and list(rubbish) == [5]
            seen["several"] += len(rubbish) > 1
            seen["all"] += 1 < len(rubbish) == 6 - n
            seen["n", n] += 1
            entries = rubbish.values()
            seen["1"] += record[0] != FITTED and set(entries) <= {1, -1}
            seen["tiny"] += record[0] == FITTED and any(x % models.SIGN < 2**52 for x in entries)
            seen["no number"] += record[0] == FITTED and any(map(no_entry, entries))
            # What the record would be refused by without it.
            size = entry_places(record[0]).step * (6 - n)
            end = read.offset + 1 + BODY_LENGTHS[record[0]]
            other = exact.read_model(data[: end - size] + bytes(size) + data[end:])
            if isinstance(other, Refusal) and other.offset == read.offset:
                seen["in place of", other.number, record[0]] += 1
                seen["in place of", other.number] += 1
        self.assertTrue(0.05 < seen[16] / 3_000 < 0.12, seen)
        for what in (*ENTRY_KINDS, "next", "next alone", "last alone", "several", "all", "1",
                     "tiny", "no number", "cut", ("whole", 3), ("whole", 9),
                     *(("n", n) for n in range(1, 6)),
                     *(("in place of", number) for number in (5, 6, 7, 15, 17)),
                     ("in place of", 5, 0x02), ("in place of", 5, 0x03), ("in place of", 17, 0x05)):
            self.assertGreater(seen[what], 2, (what, seen))
        for number in (4, 5, 6, 7, 8, 15, 17):
            self.assertEqual(seen["whole", number], 0, seen)

    def test_patterns_that_become_an_entry(self):
        rng = random.Random(6)
        for entry in (0, 1, -1, 2, -2, 131_072, -131_072, 131_071, -131_071, 9_999, -65_536) * 200:
            bits = models.becoming(rng, entry)
            self.assertEqual(exact.fitted_entry(exact.binary64(bits)), entry, hex(bits))
            self.assertFalse(no_entry(bits))
        for bits in models.NO_ENTRIES.values():
            self.assertTrue(no_entry(bits) and no_entry(bits | models.SIGN))

    def test_halves(self):
        """Some of a hundred models round a half, of both signs; in many a T is odd."""
        seen = collections.Counter()
        accepted = 0
        for data in models.stream(SEED, 1_000):
            model = exact.read_model(data)
            if isinstance(model, Refusal):
                continue
            accepted += 1
            seen.update(halves_of(model))
        for what, share in (("above 0", 0.02), ("below 0", 0.02), ("odd T", 0.3)):
            self.assertGreater(seen[what] / accepted, share, seen)


def places_of(level, swept):
    """How far a level is above each bound and bound - slack, the largest and others, and itself.

    Of the largest, and of those of the peak, also whether their slack tells one count beside them
    apart.
    """
    lows = [bound - slack for bound, slack in zip(swept.bounds, swept.slacks)]
    peak = swept.bounds.index(max(swept.bounds))
    apart, apart_there = max(swept.bounds) - max(lows) > 2, swept.slacks[peak] > 2
    yield "bound", apart, level - max(swept.bounds)
    yield "low", apart, level - max(lows)
    yield "low of the peak", apart_there, level - lows[peak]
    yield "low not of the peak", max(lows) > lows[peak], level - max(lows)
    for name, values in (("bound", swept.bounds), ("low", lows)):
        others = {level - value for value in values} - {level - max(values), level - values[peak]}
        yield from ((f"{name} elsewhere", distance) for distance in others)
    yield level


def sum_passed(data, offset):
    """Whether the input points up to an offset, and the one there, pass the limit with a drift."""
    place = refusal.Place(data, offset)
    drifts = [place.vector(body) for body in place.bodies(0x05)]
    if not drifts or place.kind & 0xF0 != 0x20:
        return False
    return max(exact.entering_reach(place.set_so_far(), drifts[0])) > MAX_REACH


def no_entry(bits):
    """Whether 64 bits are no fitted entry."""
    value = exact.binary64(bits)
    return value is None or abs(value) > 2


def has_no_entry(record, n):
    """Whether a record is a fitted row, and one of its first n entries is none."""
    return record[0] == FITTED and any(map(no_entry, struct.unpack_from(f"<{n}Q", record, 2)))


def sort_of(bits):
    """What is special about the pattern of a fitted entry, with its sign."""
    value = abs(exact.binary64(bits)) * 65_536
    tie, unit = math.floor(value) + Fraction(1, 2), bits & models.SIGN
    near = abs(bits - unit - pattern(float(tie / 65_536))) <= 1
    sorts = {
        "zero": value == 0, "tiny": 0 < value < Fraction(1, 2**40), "tie": value == tie,
        "one bit from a tie": near and value != tie, "2": value == 131_072,
    }
    sign = ", -" if unit else ""
    return next((what + sign for what, so in sorts.items() if so), "other")


def halves_of(model):
    """Whether the sweeps of a model round halves above and below 0, and halve an odd T."""
    found = set()
    columns = list(zip(*model.matrix))
    initial = exact.reach(model.initial, model.n)
    entering = exact.entering_reach(model.input, model.drift)
    for direction in model.directions:
        if isinstance(exact.sweep(model, direction), Growth):
            continue
        errors = 0  # those of what enters
        for r, e in itertools.islice(exact.working(model, direction), model.steps):
            totals = [exact.dot(column, r) for column in columns]
            halves = [total for total in totals if total % 65_536 == 32_768]
            found |= {"above 0" if total > 0 else "below 0" for total in halves}
            found |= {"odd T"} if (exact.dot(e, initial) + errors) % 2 else set()
            errors += exact.dot(e, entering)
    return found


def room(growth_sum):
    """One more than the spare figure of this sum, and 0 where it is growth."""
    return sum(2**h * growth_sum <= GROWTH_LIMIT for h in range(11))


class Calm(unittest.TestCase):
    """Calm models of every sort, and models that are not calm by one unit or by their columns."""

    COUNT = 1_500

    @classmethod
    def setUpClass(cls):
        rng = random.Random(11)
        cls.calm, cls.almost, cls.rows = (
            [make(rng) for _ in range(cls.COUNT)]
            for make in (models.calm_model, models.almost_calm_model, models.calm_rows_model)
        )

    def test_same_again(self):
        rng = random.Random(11)
        self.assertEqual(self.calm[:50], [models.calm_model(rng) for _ in range(50)])

    def test_all_are_accepted(self):
        for model in (*self.calm, *self.almost, *self.rows):
            self.assertEqual(exact.read_model(encode(model)), model)

    def test_calm_models_are_calm(self):
        for model in self.calm:
            self.assertLessEqual(max(exact.column_sums(model)), 65_536)

    def test_every_sort(self):
        """In all models: n, K, forms, counts, drifts and reaches."""
        for made in (self.calm, self.almost, self.rows):
            forms = {(model.initial.form, model.input.form) for model in made}
            self.assertEqual(forms, set(itertools.product((BOX, ZONOTOPE, VERTICES), repeat=2)))
            ns = {model.n for model in made}
            self.assertEqual(ns, set(range(2 if made is self.rows else 1, 7)))
            self.assertEqual({model.steps for model in made}, set(models.CALM_STEPS))
            self.assertLessEqual({1, 2, 3, 16}, {len(model.directions) for model in made})
            seen = collections.Counter()
            for model in made:
                first = exact.reach(model.initial, model.n)
                entering = exact.entering_reach(model.input, model.drift)
                seen.update({
                    "drift": any(model.drift), "drift above 0": max(model.drift) > 0,
                    "drift below 0": min(model.drift) < 0, "no first": not any(first),
                    "none enters": not any(entering), "input alone": not any(model.drift),
                    "drift alone": any(entering) and model.input == zero_box(model.n),
                    "first at the limit": max(first) == MAX_REACH,
                    "all first at the limit": min(first) == MAX_REACH,
                    "entering at the limit": max(entering) == MAX_REACH,
                    "all entering at the limit": min(entering) == MAX_REACH,
                })
            self.assertGreater(min(seen.values()), 20, seen)
            self.assertTrue(0.3 < seen["drift"] / self.COUNT < 0.6, seen)

    def test_columns(self):
        """Many sum to 65,536, and many to a little less; rows may sum to much more."""
        seen = collections.Counter()
        for model in self.calm:
            sums = exact.column_sums(model)
            nonzero = [entry for entries in model.matrix for entry in entries if entry]
            seen.update({
                "full": max(sums) == 65_536, "all full": min(sums) == 65_536,
                "one full": model.n > 1 and sums.count(65_536) == 1,
                "one less": min(sums) == 65_535, "little less": 65_000 < min(sums) < 65_535,
                "much less": min(sums) < 60_000, "zero": min(sums) == 0,
                "both signs": min(nonzero, default=0) < 0 < max(nonzero, default=0),
                "all above 0": min(nonzero, default=0) > 0,
                "all below 0": max(nonzero, default=0) < 0,
                "odd": all(entry % 2 for entries in model.matrix for entry in entries),
                "shuffled": len(nonzero) == model.n > 1 and set(map(abs, nonzero)) == {65_536}
                and all(map(any, model.matrix)),
                "rows not calm": max(sum(map(abs, entries)) for entries in model.matrix) > 65_536,
                "one row": max(sum(map(abs, entries)) for entries in model.matrix) == 6 * 65_536,
                "full by both signs": any(
                    sum(map(abs, column)) == 65_536 and min(column) < 0 < max(column)
                    for column in zip(*model.matrix)
                ),
            })
        for what, count in seen.items():
            self.assertGreater(count, 10, (what, seen))
        self.assertGreater(seen["full"], 0.4 * self.COUNT, seen)
        self.assertGreater(seen["all full"], 0.25 * self.COUNT, seen)

    def test_steps_that_round(self):
        """In many models every step from the second on rounds in each coordinate."""
        rounded = collections.Counter()
        for model in self.calm[:600]:
            for direction in model.directions[:1]:
                *_, (_, e) = itertools.islice(exact.working(model, direction), model.steps + 1)
                self.assertLessEqual(max(e), max(model.steps - 1, 0))
                rounded["some", model.steps] += max(e) == model.steps - 1
                rounded["all", model.steps] += min(e) == model.steps - 1
        for steps in models.CALM_STEPS[1:]:
            self.assertGreater(rounded["all", steps], 2, rounded)

    def test_slacks_at_their_limit(self):
        """Also at limits that are large."""
        seen = collections.Counter()
        for model in self.calm:
            slacks = exact.sweep(model, model.directions[0]).slacks
            limits = [exact.slack_limit(model, step) for step in range(model.steps + 1)]
            near = [limit for slack, limit in zip(slacks, limits) if slack == limit]
            seen.update({least: max(near, default=0) >= least for least in (3, 10, 100)})
            seen["far"] += limits[-1] > 10_000
        self.assertTrue(seen[3] > 100 and seen[10] > 30 and seen[100] > 0, seen)
        self.assertGreater(seen["far"], 20)

    def test_one_column_has_one_unit_too_many(self):
        seen = collections.Counter()
        for model in self.almost:
            sums = exact.column_sums(model)
            [wrong] = [j for j, total in enumerate(sums) if total > 65_536]
            self.assertEqual(sums[wrong], 65_537)
            self.assertFalse(exact.calm(model))
            seen[model.n, wrong] += 1
            column = [entries[wrong] for entries in model.matrix]
            seen["sum calm"] += abs(sum(column)) <= 65_536
            seen["rows calm"] += max(sum(map(abs, entries)) for entries in model.matrix) <= 65_536
            seen["each needed"] += model.n > 1 and all(column)
            for p, entry in enumerate(column):
                seen["1 in row", p] += abs(entry) == 65_537
        places = [(n, j) for n in range(1, 7) for j in range(n)]
        for what in (*places, "sum calm", "rows calm", "each needed"):
            self.assertGreater(seen[what], 10, (what, seen))

    def test_rows_that_are_calm(self):
        for model in self.rows:
            self.assertLessEqual(max(sum(map(abs, entries)) for entries in model.matrix), 65_536)
            self.assertFalse(exact.calm(model))

    def test_calm_matrices_of_all_models(self):
        """Those of `random_model` are calm but by chance: 65,536 / n is rounded up below 0."""
        rng = random.Random(12)
        for n in range(1, 7):
            most = n * -(-65_536 // n)
            self.assertLessEqual(most, 65_540)
            for _ in range(300):
                matrix = models._matrix(rng, n, "calm")
                self.assertLessEqual(max(sum(map(abs, column)) for column in zip(*matrix)), 65_536)

    def test_files(self):
        """A saved file has the same model, or the default steps; some rows are fitted."""
        rng = random.Random(13)
        seen = collections.Counter()
        for model in self.calm[:300]:
            data = models.saved(rng, model)
            read = exact.read_model(data)
            if read.steps != model.steps:
                self.assertEqual(data[2:4], b"\0\0")
                seen["default"] += 1
            self.assertEqual(read, replace(model, steps=read.steps))
            seen["fitted"] += bool(fitted_rows_of(data, model.n))
        self.assertGreater(seen["default"], 3)
        self.assertTrue(100 < seen["fitted"] < 200, seen)


class Edges(unittest.TestCase):
    def test_edges(self):
        """Each tells the growth sum from another, by growth at its step or by the spare figure."""
        seen = set()
        for edge in models.EDGES:
            entry, d, step = edge
            model = single(entry, (0, 0), (0, 0), d, step)
            *_, ((r,), (e,)) = itertools.islice(exact.working(model, (d,)), step + 1)
            right = room(r + (e + 1) // 2)
            told = exact.sweep(model, (d,))
            self.assertEqual(told if right == 0 else told.spare + 1, right or Growth(step), edge)
            others = {"no e": room(r), "whole e": room(r + e), "rounded down": room(r + e // 2)}
            differing = {what: other for what, other in others.items() if other != right}
            self.assertTrue(differing, edge)
            seen |= {(what, min(other, right) == 0) for what, other in differing.items()}
        self.assertEqual(seen, {
            ("no e", True), ("no e", False), ("whole e", True), ("whole e", False),
            ("rounded down", False),  # of one coordinate, none tells it by growth
        })


if __name__ == "__main__":
    unittest.main()
