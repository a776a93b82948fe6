"""Reading `.antt` and `.rt` files as text: their tokens, imports and declarations.

In order: tokens; imports; the declarations of an `.antt` file; the parts of an `.rt` file.
Nothing is elaborated: a name is what it is spelled like, and a local variable that is spelled like
an imported name counts as that name.
"""

from __future__ import annotations

import re
from dataclasses import dataclass, field
from typing import Iterator

DELIMITERS = "(){}.;,@"
TOKEN = re.compile(
    r"""(?P<skip>\s+ | --[^\n]* | \{-.*?-\} | "(?:\\.|[^"\\])*")
      | (?P<escaped>«[^»]*»)
      | (?P<delimiter>[(){}.;,@])
      | (?P<name>[^\s(){}.;,@"«»]+)""",
    re.VERBOSE | re.DOTALL,
)
PLAIN = re.compile(r"«([^\s(){}.;,@«»]+)»")


@dataclass(frozen=True)
class Token:
    """A name or a delimiter, and whether it is right behind a dot: a field, or behind a path."""

    text: str
    start: int
    end: int
    member: bool


def bare(word: str) -> str:
    """A name without the marks that keep it apart from a word of the language: `«x»` is `x`."""
    return PLAIN.sub(r"\1", word) if word.startswith("«") else word


def tokens(text: str, start: int = 0) -> list[Token]:
    """The names and delimiters of an antt text; comments and quoted texts are left out."""
    found: list[Token] = []
    for match in TOKEN.finditer(text):
        if match.lastgroup == "skip":
            continue
        before = found[-1] if found else None
        at = match.start() + start
        behind_dot = before is not None and before.text == "." and before.end == at
        word = bare(match.group())
        found.append(Token(word, at, match.end() + start, behind_dot and word not in DELIMITERS))
    return found


PLACE = "◌"  # of an operand, in the name of an operator


def keys(name: str) -> list[str]:
    """What a use of the name writes: an operator's parts (`+` for `◌+◌`), or the name itself."""
    return [part for part in name.split(PLACE) if part] or [name]


@dataclass(frozen=True)
class Reference:
    """A name as it is written, with the members behind it: `tie.spec` is `tie` and `spec`."""

    name: str
    members: tuple[str, ...] = ()


def references(found: list[Token]) -> Iterator[Reference]:
    """The names that a text uses. Fields (`.x`) and labels (`{x = ..}`, `; x = ..`) are none."""
    for i, token in enumerate(found):
        if token.member or token.text in DELIMITERS:
            continue
        before = found[i - 1].text if i else ""
        after = found[i + 1].text if i + 1 < len(found) else ""
        if after == "=" and before in ("{", ";"):
            continue
        yield Reference(token.text, members_behind(found, i))


def members_behind(found: list[Token], i: int) -> tuple[str, ...]:
    """The members written tight behind a name: `a.b.c` has `b` and `c`, and `a .b` none."""
    members = []
    while i + 2 < len(found) and found[i + 1].start == found[i].end and found[i + 2].member:
        i += 2
        members.append(found[i].text)
    return tuple(members)


# ---- imports


@dataclass(frozen=True)
class Item:
    """A name of an import: as it is written, where it comes from, and as the file calls it."""

    written: str
    path: tuple[str, ...]
    name: str


@dataclass(frozen=True)
class Import:
    """A `use`: its items, or the one module or item that it brings whole."""

    start: int
    end: int
    before: str  # up to the items
    items: tuple[Item, ...]
    public: bool
    ghost: bool


USE = re.compile(
    r"^(?P<marks>(?:(?:unfoldable|pub(?:\([a-z]+\))?|ghost) )*)use (?P<path>[^\s{;]+)"
    r"(?:(?P<open>\{)(?P<items>[^}]*)\}| as (?P<alias>[^\s;]+))?[ \t]*;?[ \t]*(?:\n|\Z)",
    re.MULTILINE,
)


def imports(text: str, code: bool = False) -> list[Import]:
    """The imports of an `.antt` file, or of an `.rt` file (`code`), where `ghost use` is antt's."""
    found = []
    for match in USE.finditer(text):
        ghost = "ghost" in match["marks"]
        separator = "::" if code and not ghost else "."
        path = tuple(part for part in match["path"].split(separator) if part)
        if match["open"]:
            parts = [part.strip() for part in match["items"].split(",")]
            items = tuple(item_of(part, path, separator) for part in parts if part)
        else:
            items = (Item(match["path"], path, match["alias"] or path[-1]),)
        before = text[match.start() : match.start("items") if match["open"] else match.end()]
        # What a glob brings isn't written out, so it counts as used.
        public = "pub" in match["marks"] or path[-1] == "*"
        found.append(Import(match.start(), match.end(), before, items, public, ghost))
    return found


def item_of(written: str, path: tuple[str, ...], separator: str) -> Item:
    """The item that a part between commas brings: `a`, `a as b` or `N.a`."""
    name, _, alias = written.partition(" as ")
    below = tuple(name.strip().split(separator)) if name.strip(".") else (name,)
    return Item(written, path + below, bare(alias.strip() or below[-1]))


# ---- the declarations of an .antt file


@dataclass
class Declaration:
    """A definition, law, type or ruleset: its name, those of its constructors, and what it uses."""

    name: str
    start: int
    also: list[str] = field(default_factory=list)
    uses: set[Reference] = field(default_factory=set)


MARKS = ("unfoldable", "abbrev", "axiom", "pub")
HEADER = ("use", "mod", "infix", "infixl", "infixr")


def declarations(text: str) -> list[Declaration]:
    """What a file declares at its top level and in its `module _` and `mutual` blocks."""
    found: dict[str, Declaration] = {}
    read_block(blanked(text), 0, set(), found)
    return list(found.values())


def blanked(text: str) -> str:
    """The text with spaces for its comments and quoted texts, so that every place stays."""

    def blank(match: re.Match[str]) -> str:
        return re.sub(r"\S", " ", match.group()) if match.lastgroup == "skip" else match.group()

    return TOKEN.sub(blank, text)


def blocks(text: str, start: int) -> Iterator[tuple[int, str]]:
    """The parts of a block: each begins at its column, and the rest of a part is indented more."""
    column = None
    at, part = start, ""
    for row in text.splitlines(keepends=True):
        indent = len(row) - len(row.lstrip(" "))
        if row.strip():
            column = indent if column is None else column
            if indent <= column and part.strip():
                yield at, part
                at, part = at + len(part), ""
        part += row
    if part.strip():
        yield at, part


def read_block(
    text: str, start: int, context: set[Reference], found: dict[str, Declaration]
) -> None:
    """Add a block's declarations; each uses the parameters of the `module _` around it."""
    current: Declaration | None = None
    for at, part in blocks(text, start):
        words = tokens(part, at)
        marks = 0
        while marks < len(words) and words[marks].text in MARKS:
            marks += 1
        first = words[marks].text
        if first in HEADER:
            continue
        if first in ("module", "mutual"):
            inner = re.search(r"\b(?:where|mutual)[ \t]*\n", part)
            if inner:
                header = set(references(tokens(part[: inner.start()], at)))
                read_block(part[inner.end() :], at + inner.end(), context | header, found)
            current = None
            continue
        if first in ("data", "record", "ruleset"):
            name = words[marks + 1].text
            current = found.setdefault(name, Declaration(name, at))
            if first == "data":
                current.also += constructors(part)
        elif is_signature(words[marks:]):
            current = found.setdefault(first, Declaration(first, words[marks].start))
        elif first != "unfolding":
            current = owner(words, found) or current
        if current is not None:
            current.uses |= context | set(references(words))


def is_signature(words: list[Token]) -> bool:
    """A name and a colon, with the universe levels in braces between them."""
    rest = [word.text for word in words[1:]]
    if rest[:1] == ["{"] and "}" in rest:
        rest = rest[rest.index("}") + 1 :]
    return rest[:1] == [":"]


def constructors(part: str) -> list[str]:
    """The constructors of a `data`: the names of its indented signatures."""
    return re.findall(r"^ +(\S+) :", part, re.MULTILINE)


def owner(words: list[Token], found: dict[str, Declaration]) -> Declaration | None:
    """The declaration that a clause belongs to: its first name, or the operator before `=`."""
    if words[0].text in found:
        return found[words[0].text]
    operators = {key: one for name, one in found.items() if PLACE in name for key in keys(name)}
    for word in words:
        if word.text == "=":
            return None
        if word.text in operators and not word.member:
            return operators[word.text]
    return None


# ---- the parts of an .rt file

CODE = re.compile(
    r"""(?P<skip>//[^\n]* | b?"(?:\\.|[^"\\])*" | b?'(?:\\.[^']*|[^'\\])')
      | (?P<contract>\b(?:(?:requires|ensures)\b\*?\s*\w*|ghost\b[^;{}]*)\s*\{)
      | (?P<word>(?:(?:\.|::)\s*)?[A-Za-z_][A-Za-z0-9_]*)""",
    re.VERBOSE,
)


@dataclass(frozen=True)
class Code:
    """What an `.rt` file uses: the words of its code, not fields or behind `::`; its contracts."""

    words: set[str]
    contracts: set[Reference]


def code_of(text: str) -> Code:
    """What an `.rt` file uses below its imports."""
    for one in imports(text, code=True):
        text = text[: one.start] + " " * (one.end - one.start) + text[one.end :]
    words: set[str] = set()
    contracts: set[Reference] = set()
    at = 0
    while match := CODE.search(text, at):
        at = match.end()
        if match.lastgroup == "contract":
            end = closing(text, at)
            contracts |= set(references(tokens(text[at:end])))
            at = end
        elif match.lastgroup == "word" and match.group()[0] not in ".:":
            words.add(match.group())
    return Code(words, contracts)


def closing(text: str, at: int) -> int:
    """Where the brace that was opened before `at` is closed."""
    depth = 1
    for k in range(at, len(text)):
        depth += {"{": 1, "}": -1}.get(text[k], 0)
        if depth == 0:
            return k
    return len(text)
