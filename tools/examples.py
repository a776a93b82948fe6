#!/usr/bin/env python3
"""Check that the examples are what their texts give, or make them again.

    examples.py            tell which packed files, listings, charts and reports are out of date
    examples.py --write    make them again from the texts

Listings and reports are made by the exact program's replies, and not by those of the proved one.
"""

from __future__ import annotations

import argparse
from pathlib import Path

import chart
import exact
import files
import listings
import pack
from listings import Listing, Refusal
from reporting import page, reports, terminal

FOLDER = Path(__file__).resolve().parent.parent / "examples"
MADE = (".bin", ".listing", ".svg")
REPORTED = ("head", "rail")  # those with a report, as a text and as a page
REPORTS = (".report", ".html")


def reply(data: bytes, name: str) -> Listing | Refusal:
    """What the exact program says of a file."""
    return listings.parse(exact.listing(data), name)


def reports_of(text_path: Path) -> dict[Path, bytes]:
    """The report of a text, made as from the folder above the examples."""
    data, name = files.read_bytes(str(text_path)), f"{text_path.parent.name}/{text_path.name}"
    given = reports.Input(name, data, pack.read_text(data, name))
    report = reports.report_of(given, reply=reply)
    contents = terminal.whole(report), page.page([report])
    return {
        text_path.with_suffix(suffix): made.encode("utf-8")
        for suffix, made in zip(REPORTS, contents)
    }


def made_from(text_path: Path) -> dict[Path, bytes]:
    """What belongs to a text: its packed file, that file's listing and the listing's chart."""
    data = files.read_bytes(str(text_path))
    source = pack.parse(files.text_of(data, text_path.name), text_path.name)
    listing = exact.listing(source.data)
    picture = chart.draw_listing(exact.listing_of(source.model), text_path.stem, source)
    contents = (source.data, listing.encode("ascii"), picture.encode("utf-8"))
    return {text_path.with_suffix(suffix): made for suffix, made in zip(MADE, contents)}


def expected(folder: Path = FOLDER) -> dict[Path, bytes]:
    """All files that the texts of a folder give."""
    made: dict[Path, bytes] = {}
    for text_path in sorted(folder.glob("*.model")):
        made |= made_from(text_path)
        made |= reports_of(text_path) if text_path.stem in REPORTED else {}
    return made


def stale(folder: Path = FOLDER) -> list[str]:
    """The names that are missing, out of date or of no text."""
    made = expected(folder)
    there = {path for suffix in MADE + REPORTS for path in folder.glob("*" + suffix)}
    wrong = there - made.keys()
    wrong |= {path for path, data in made.items() if path not in there or path.read_bytes() != data}
    return sorted(path.name for path in wrong)


def main() -> None:
    parser = argparse.ArgumentParser(description="Check the examples, or make them again.")
    parser.add_argument("--write", action="store_true", help="make them again")
    options = parser.parse_args()
    if options.write:
        for path, data in expected().items():
            files.write_bytes(str(path), data)
    names = stale()
    if names:
        raise files.Failure(f"out of date: {', '.join(names)}")
    print(f"{len(list(FOLDER.glob('*.model')))} examples, all up to date")


if __name__ == "__main__":
    files.run(main)
