"""A report as one page of HTML that can be handed over: it needs no other file, and prints."""

from __future__ import annotations

import re
from html import escape
from typing import Iterable, Sequence

import chart
import pack
import programs
from answers import REACHED_MEANS
from inputs import Failed
from listings import CLEAR, GROWTH, HIT, UNKNOWN, Growth

from . import tables, words
from .changes import Changes
from .reports import Report, Result
from .tables import Table

STYLE = """
:root { color-scheme: light; }
body { margin: 0 auto; max-width: 72rem; padding: 1.5rem; background: #fff; color: #111;
  font: 15px/1.45 "Helvetica Neue", Arial, "Liberation Sans", "DejaVu Sans", sans-serif; }
h1 { font-size: 1.7rem; margin: 0 0 .2rem; overflow-wrap: anywhere; }
h2 { font-size: 1.25rem; margin: 2rem 0 .5rem; border-bottom: 1px solid #888;
  overflow-wrap: anywhere; }
h3 { font-size: 1.05rem; margin: 1.4rem 0 .4rem; }
p, ul { margin: .4rem 0; max-width: 60rem; }
.lead { color: #444; }
.scroll { overflow-x: auto; }
table { border-collapse: collapse; margin: .3rem 0 .8rem; font-variant-numeric: tabular-nums; }
th, td { padding: .22rem .7rem .22rem 0; text-align: left; vertical-align: top;
  border-bottom: 1px solid #ddd; }
th { border-bottom: 2px solid #444; font-weight: 600; }
td.right, th.right { text-align: right; }
.HIT, .REACHED { color: #b00020; font-weight: 700; }
.UNKNOWN, .GROWTH { color: #7a4f00; font-weight: 700; }
.CLEAR { color: #17692b; font-weight: 700; }
.warning { border-left: 5px solid #b00020; background: #fdf0f1; padding: .5rem .8rem; }
.failed { border-left: 5px solid #b00020; padding: .2rem .8rem; white-space: pre-wrap; }
figure { margin: .6rem 0 1.2rem; }
svg { max-width: 100%; height: auto; }
pre { background: #f5f5f5; border: 1px solid #ddd; padding: .8rem; overflow-x: auto;
  font: 12.5px/1.4 "DejaVu Sans Mono", Menlo, Consolas, monospace; }
code { font-family: "DejaVu Sans Mono", Menlo, Consolas, monospace; font-size: .88em;
  overflow-wrap: anywhere; }
dt { font-weight: 600; margin-top: .4rem; }
dd { margin: 0 0 .2rem; }
@page { size: A4; margin: 14mm; }
@media print {
  body { max-width: none; padding: 0; font-size: 9.5pt; }
  section.model + section.model { break-before: page; }
  h2, h3 { break-after: avoid; }
  figure, table, .warning { break-inside: avoid; }
  figure.legend { break-after: avoid; }
  .scroll, pre { overflow: visible; }
  pre { white-space: pre-wrap; font-size: 8pt; }
  table { font-size: 8.5pt; }
  th, td { overflow-wrap: anywhere; }
}
"""

PROVED = (
    "For every model that the program <code>envelope</code> accepts, every direction that growth"
    " doesn't refuse and every step: no run passes the bound, and some run comes within the slack"
    " of it.",
    "Of a guard: <b>CLEAR</b>, no run reaches its level at any step of the model; <b>HIT</b>, some"
    " run reaches it at the step named, which is the first for which that is certain;"
    " <b>UNKNOWN</b>, the exact largest value at the step named differs from the level by the slack"
    f" there at most. {REACHED_MEANS}",
    "Bounds, slacks and verdicts here are the program's, for each direction and its levels times"
    " the factor that is told. Multiplying leaves the runs as they are; a bound of the multiplied"
    " direction, divided by the factor, bounds the direction itself.",
)
TESTED = (
    "Packing the text, multiplying, dividing by the factor and by the counts of a unit, rounding"
    " and this layout are by tools that are tested and not proved. Bounds are rounded up, what a"
    " run comes to is rounded down, and slacks and margins follow, so that each figure told here"
    " follows from a proved one.",
    "Values as written are those of the matrix before its entries were rounded to multiples of"
    " 1/65,536. They are exact fractions, told rounded up, and not proved.",
)
ASSUMED = (
    "The model fits the printer: its sets hold every start and every input, and its matrix, as"
    " stored, moves the state. Nothing is said of what happens between two steps, or after the"
    " last.",
    "The checker of the toolchain, the compiler, the processor, and that the program's input and"
    " output calls move the bytes.",
)


def badge(content: str) -> str:
    """A cell's words, with its verdict marked."""
    marked = escape(content)
    if content == words.NOT_AS_WRITTEN:
        return f'<span class="REACHED">{marked}</span>'
    whole = rf"^({HIT}|{UNKNOWN}|{CLEAR}|{GROWTH})\b"
    return re.sub(whole, r'<span class="\1">\1</span>', marked)


def table_of(table: Table, links: Sequence[str | None] = ()) -> str:
    """A table; `links` leads from the first cell of each row to a place on the page."""
    if not table.rows:
        return ""

    def row(tag: str, cells: Sequence[str]) -> str:
        found = ""
        for place, cell in enumerate(cells):
            side = ' class="right"' if place in table.right else ""
            found += f"<{tag}{side}>{cell}</{tag}>"
        return f"<tr>{found}</tr>"

    rows = [[badge(cell) for cell in cells] for cells in table.rows]
    for cells, link in zip(rows, links):
        if link is not None:
            cells[0] = f'<a href="#{link}">{cells[0]}</a>'
    head = row("th", [escape(cell) for cell in table.heads])
    body = "\n".join(row("td", cells) for cells in rows)
    return (
        f'<div class="scroll"><table>\n<thead>{head}</thead>\n<tbody>\n{body}\n</tbody>\n'
        "</table></div>"
    )


def bullets(items: Iterable[str]) -> str:
    return "<ul>\n" + "\n".join(f"<li>{item}</li>" for item in items) + "\n</ul>"


def counts(report: Report) -> str:
    """How many guards have which verdict, marked."""
    return re.sub(
        r"(HIT|REACHED AS WRITTEN|GROWTH|UNKNOWN|CLEAR)",
        lambda word: f'<span class="{word[0].split()[0]}">{word[0]}</span>',
        words.verdict_counts(report),
    )


def proved_rows(report: Report) -> Table:
    """The whole numbers that the program gave at the peak, for whoever repeats the run."""
    rows = []
    for one in report.ordered:
        direction = one.direction
        entries = " ".join(str(direction.factor * entry) for entry in direction.entries)
        if isinstance(direction.swept, Growth):
            told = f"growth {direction.swept.step}"
        else:
            step = direction.peak
            told = f"{step} {direction.swept.bounds[step]} {direction.swept.slacks[step]}"
        rows.append([direction.name, str(direction.factor), entries, told])
    return Table(("direction", "factor", "entries times factor", "row of the listing"), rows, (1,))


def facts(report: Report) -> str:
    """What the report was made from."""
    found = [("Model file", escape(report.name)), ("SHA-256", f"<code>{report.sha256}</code>")]
    if not report.packed:
        found.append(("SHA-256 of the packed file", f"<code>{report.packed_sha256}</code>"))
    found.append(("Program", f"Pepperscarp {escape(programs.version())}"))
    rows = "\n".join(f"<dt>{name}</dt><dd>{told}</dd>" for name, told in found)
    return f"<dl>\n{rows}\n</dl>"


def pictures(report: Report) -> str:
    """A legend, and a picture for each direction, or for the highest and lowest of the same."""
    groups = chart.panels([one.direction for one in report.ordered])
    drawn = chart.draw_panels(groups, report.source.coordinates, report.source.time)
    legend = chart.draw_legend(bool(report.guards), report.directions).strip()
    figures = "\n".join(f"<figure>{picture.strip()}</figure>" for picture in drawn)
    return f'<figure class="legend">{legend}</figure>\n{figures}'


def section(report: Report, anchor: str) -> str:
    """Everything about one model."""
    warning = words.warning(report)
    parts = [
        f'<section class="model" id="{anchor}">',
        f"<h2>{escape(report.name)}</h2>",
        f'<p class="lead">{escape(words.size(report))}: {counts(report)}</p>',
        f'<p class="warning"><b>Warning:</b> {escape(warning)}.</p>' if warning else "",
        "<h3>Guards, the most urgent first</h3>" if report.guards else "",
        table_of(tables.guards(report)),
        "<h3>Largest bounds</h3>",
        table_of(tables.directions(report)),
        "<h3>The matrix as written</h3>" if report.rounded else "",
        table_of(tables.written(report)),
        bullets(map(escape, pack.notes(report.source))) if pack.notes(report.source) else "",
        "<h3>Charts</h3>",
        pictures(report),
        "<h3>Model</h3>",
        facts(report),
        "<p>To repeat a figure, multiply a direction's entries and its guards' levels by the factor"
        " and run <code>./run</code>: the listing has this row.</p>",
        table_of(proved_rows(report)),
        f"<pre>{escape(report.text)}</pre>",
        "</section>",
    ]
    return "\n".join(part for part in parts if part)


def compared(found: Changes) -> str:
    """What changed from the old model to the new one."""
    rows = [
        f"<h2>{escape(found.new.name)} against {escape(found.old.name)}</h2>",
        f"<p>Was: {escape(words.size(found.old))}: {counts(found.old)}<br>"
        f"Is: {escape(words.size(found.new))}: {counts(found.new)}</p>",
        table_of(tables.changed_guards(found)),
        table_of(tables.changed_directions(found)),
    ]
    return "\n".join(rows)


def page(results: Sequence[Result], found: Changes | None = None) -> str:
    """The whole page."""
    if found is not None:
        results = [found.new, found.old]
    reports = [result for result in results if isinstance(result, Report)]
    anchors = {id(report): f"model-{place}" for place, report in enumerate(reports)}
    links = [anchors.get(id(result)) for result in tables.urgent_first(results)]
    failed = [result for result in results if isinstance(result, Failed)]
    title = "Pepperscarp report"
    parts = [
        f"<h1>{title}</h1>",
        f'<p class="lead">{" ".join(map(escape, words.RESTS_ON))}</p>',
        compared(found) if found is not None else "",
        table_of(tables.models(results), links) if len(results) > 1 and found is None else "",
        *(f'<p class="failed">{escape(one.message)}</p>' for one in failed),
        *(section(report, anchors[id(report)]) for report in reports),
        "<h2>What is proved</h2>",
        bullets(PROVED),
        "<h2>What is tested</h2>",
        bullets(TESTED),
        "<h2>What is assumed</h2>",
        bullets(ASSUMED),
    ]
    if len(results) == 1:
        title = f"{title}: {escape(results[0].name)}"
    body = "\n".join(part for part in parts if part)
    return (
        '<!DOCTYPE html>\n<html lang="en">\n<head>\n<meta charset="utf-8">\n'
        '<meta name="viewport" content="width=device-width, initial-scale=1">\n'
        f"<title>{title}</title>\n<style>{STYLE}</style>\n</head>\n<body>\n{body}\n"
        "</body>\n</html>\n"
    )
