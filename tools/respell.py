"""Turns the names of definitions and lemmas to today's spelling: words in snake case, facts, types and modules in camel case.

usage: python3 tools/respell.py        at the top of the repository, once, after the kit's port.py

It renames in the files of crates/ (specs, proofs, clauses in src, must-fail edits), in edits/, in tools/unused.txt and between the
backticks of the documents. A name is turned part by part, where a part that begins with a small letter has a capital inside:
`floorDiv` becomes `floor_div`, `ceilDivℕ-near` becomes `ceil_div_ℕ-near`. Names of the code have no such part, and stay. What proves
a function f is called f_spec. Two names that would fall together stop the script before it writes.
"""

from __future__ import annotations

import re
import sys
from pathlib import Path

PART = re.compile(r"(?<![A-Za-z0-9_ℕℤ'])[a-z][A-Za-z0-9_ℕℤ]*[A-Zℕℤ][A-Za-z0-9_ℕℤ']*")
# The library's own new word for a part that stands in names of ours.
LIBRARY = {"getD": "get_or"}
# Constructors of `BodyLength`, where they are declared or imported: `unknown` is one of `Record`.
LENGTHS = {"Bytes": "body_bytes", "Unknown": "body_unknown"}
KINDS = re.compile(r"^use Rattle\.records\.specs\.Kinds\.\{[^}]*\b(Bytes|Unknown)\b", re.MULTILINE)
EXPORT = re.compile(r"^pub ([a-z0-9-]+-spec) :", re.MULTILINE)


def snake(part: str) -> str:
    """A part of a name in snake case."""
    if part in LIBRARY:
        return LIBRARY[part]
    spaced = re.sub(r"(?<=[a-z0-9'])(?=[A-Zℕℤ])", "_", part)
    return re.sub("[A-Z]", lambda m: m.group().lower(), spaced)


def sources(root: Path) -> list[Path]:
    """The files of crates/ and edits/."""
    found = [p for top in ("crates", "edits") for p in sorted((root / top).rglob("*")) if p.suffix in (".antt", ".rt", ".edit")]
    return [p for p in found if "out" not in p.relative_to(root).parts]


def main() -> int:
    root = Path(__file__).resolve().parent.parent
    texts = {path: path.read_text(encoding="utf-8") for path in sources(root)}
    parts = {part for text in texts.values() for part in PART.findall(text)}
    new = {part: snake(part) for part in sorted(parts) if snake(part) != part}
    if len(set(new.values())) < len(new):
        print("respell: two names fall together", file=sys.stderr)
        return 1

    def turned(text: str) -> str:
        return PART.sub(lambda m: new.get(m.group(), m.group()), text)

    for path, text in texts.items():
        out = turned(text)
        if path.name == "Kinds.antt" and "records/specs" in path.as_posix() or KINDS.search(text):
            out = re.sub(r"(?<![\w.-])(Bytes|Unknown)(?![\w-])", lambda m: LENGTHS[m.group()], out)
        if path.name == "Proof.antt":
            for name in EXPORT.findall(out):
                # `name` stands for the function whose folder this is, or for a cycle of calls.
                out = re.sub(rf"(?<![\w-]){re.escape(name)}(?![\w-])", path.parent.name + "_spec", out)
        if out != text:
            path.write_text(out, encoding="utf-8")
    for path in [root / "README.md", root / "tools/unused.txt", *sorted((root / "docs").glob("*.md"))]:
        if path.name == "CHANGES.md":
            continue  # its notes keep the names of their time
        text = path.read_text(encoding="utf-8")
        out = turned(text) if path.suffix == ".txt" else re.sub(r"`[^`\n]+`", lambda m: turned(m.group()), text)
        if out != text:
            path.write_text(out, encoding="utf-8")
    print(f"respell: {len(new)} parts of names")
    return 0


if __name__ == "__main__":
    sys.exit(main())
