"""Makes manual pages from Markdown, with pandoc: the sections of a text, and the page's text for man.

Tables of a manual page must be narrow. A table of three columns or more with a single wide one becomes lines. In any
other table each row becomes a term, the first cell, followed by the other cells.
"""
import json
import re
import subprocess
import textwrap
from collections.abc import Iterable, Sequence
from typing import Any, TypeAlias

# A block or an inline, as pandoc has it in JSON: `t` is its kind, and what `c` has goes by the kind. And a cell of a table.
Block: TypeAlias = dict[str, Any]
Inline: TypeAlias = dict[str, Any]
Cell: TypeAlias = list[Inline]

# How wide a table is that stands as lines, within the indentation of a manual page, and its widest column at least.
WIDTH, LEAST = 68, 24
# What stands behind each page in a text of several.
PART = '.\\" end of a page'


def pandoc(given: str, *words: str) -> str:
    done = subprocess.run(["pandoc", *words], input=given, capture_output=True, text=True, check=True)
    return done.stdout


def parsed(text: str) -> list[Block]:
    """The blocks of a Markdown text, without its pictures: a terminal has none."""
    return [block for block in json.loads(pandoc(text, "-f", "gfm", "-t", "json"))["blocks"] if not is_picture(block)]


def is_picture(block: Block) -> bool:
    """Whether a block is a picture alone."""
    return block["t"] == "Para" and [one["t"] for one in block["c"]] == ["Image"]


def content_of(value: Block) -> Any:
    """What a block or an inline has, if it has something."""
    return value.get("c")


def plain(value: Block | list[Block]) -> str:
    """The text of blocks or inlines."""
    if isinstance(value, list):
        return "".join(plain(one) for one in value)
    kind, content = value["t"], content_of(value)
    if kind in ("Space", "SoftBreak", "LineBreak"):
        return " "
    if kind == "Str":
        return str(content)
    if kind == "Code":
        return str(content[1])
    if kind in ("Plain", "Para", "Strong", "Emph"):
        return plain(content)
    return plain(content[1]) if kind == "Link" else ""


def sections(blocks: Iterable[Block], level: int) -> list[tuple[str, list[Block]]]:
    """The parts of a text by its headings of this level: their titles, each with its blocks. What stands before the
    first has an empty title."""
    found: list[tuple[str, list[Block]]] = [("", [])]
    for block in blocks:
        if block["t"] == "Header" and block["c"][0] == level:
            found.append((plain(block["c"][2]), []))
        else:
            found[-1][1].append(block)
    return found


def cells(row: Sequence[Any]) -> list[Cell]:
    return [[inline for block in cell[4] for inline in block["c"]] for cell in row[1]]


def table(block: Block) -> tuple[list[Cell], list[list[Cell]]]:
    """The heading of a table and its rows, each cell a list of inlines."""
    _, _, _, head, bodies, _ = block["c"]
    return cells(head[1][0]), [cells(row) for body in bodies for row in body[3]]


def words(text: str) -> list[Inline]:
    """Inlines of these words."""
    found: list[Inline] = []
    for word in text.split():
        found += [{"t": "Str", "c": word}, {"t": "Space"}]
    return found[:-1]


def as_lines(heading: Sequence[Cell], rows: Sequence[Sequence[Cell]]) -> Block | None:
    """The table as lines, with its widest column cut into as many as it takes; `None` where it has only two columns, or
    where the others leave that one too little."""
    texts = [[plain(cell) for cell in row] for row in (heading, *rows)]
    widths = [max(len(row[place]) for row in texts) for place in range(len(heading))]
    widest = widths.index(max(widths))
    left = WIDTH - sum(widths) + widths[widest] - 2 * (len(widths) - 1)
    if len(widths) < 3 or left < min(widths[widest], LEAST):
        return None
    widths[widest] = min(left, widths[widest])
    texts.insert(1, ["-" * width for width in widths])
    lines = []
    for row in texts:
        parts = textwrap.wrap(row[widest], widths[widest]) or [""]
        for place, part in enumerate(parts):
            cells = [part if column == widest else text if place == 0 else "" for column, text in enumerate(row)]
            lines.append("  ".join(cell.ljust(width) for cell, width in zip(cells, widths)).rstrip())
    return {"t": "CodeBlock", "c": [["", [], []], "\n".join(line for line in lines if line)]}


def as_terms(heading: Sequence[Cell], rows: Sequence[Sequence[Cell]]) -> Block:
    """The table as a list of terms."""
    items = []
    for term, *others in rows:
        said: list[list[Block]] = [[{"t": "Plain", "c": told(others[0])}]] if others else []
        for title, cell in zip(heading[2:], others[1:]):
            if cell:
                name: list[Inline] = [{"t": "Emph", "c": told(title)}, {"t": "Str", "c": ":"}, {"t": "Space"}]
                said[-1].append({"t": "Para", "c": name + told(cell)})
        items.append([told(term) or words("(nothing)"), said])
    return {"t": "DefinitionList", "c": items}


def told(inlines: Iterable[Inline]) -> list[Inline]:
    """Inlines as a manual page has them: code in bold, and of a link its text."""
    found: list[Inline] = []
    for inline in inlines:
        kind, content = inline["t"], content_of(inline)
        if kind == "Code":
            found.append({"t": "Strong", "c": words(content[1])})
        elif kind == "Link":
            found += told(content[1])
        elif kind in ("Strong", "Emph"):
            found.append({"t": kind, "c": told(content)})
        elif kind != "RawInline":
            found.append(inline)
    return found


def for_man(blocks: Iterable[Block], above: int) -> list[Block]:
    """Blocks as a manual page has them, with the headings so many levels higher."""
    found: list[Block] = []
    for block in blocks:
        kind, content = block["t"], content_of(block)
        if kind == "Table":
            heading, rows = table(block)
            found.append(as_lines(heading, rows) or as_terms(heading, rows))
        elif kind in ("Para", "Plain"):
            found.append({"t": kind, "c": told(content)})
        elif kind == "Header":
            found.append({"t": kind, "c": [max(content[0] - above, 1), content[1], told(content[2])]})
        elif kind == "BulletList":
            found.append({"t": kind, "c": [for_man(item, above) for item in content]})
        elif kind == "OrderedList":
            found.append({"t": kind, "c": [content[0], [for_man(item, above) for item in content[1]]]})
        elif kind == "BlockQuote":
            found.append({"t": kind, "c": for_man(content, above)})
        elif kind != "RawBlock":
            found.append(block)
    return found


def marked(text: str) -> list[Inline]:
    """Inlines of a text with words in **bold** and in *italics*."""
    found: list[Inline] = []
    for bold, italic, rest in re.findall(r"\*\*(.+?)\*\*|\*(.+?)\*|([^*]+)", text):
        kind, content = ("Strong", bold) if bold else ("Emph", italic) if italic else (None, rest)
        if kind:
            found.append({"t": kind, "c": words(content)})
        else:
            spaces = [{"t": "Space"}]
            found += spaces * content.startswith(" ") + words(content) + spaces * content[1:].endswith(" ")
    return found


def paragraph(inlines: list[Inline]) -> Block:
    return {"t": "Para", "c": inlines}


def definitions(pairs: Iterable[tuple[list[Inline], list[Inline]]]) -> list[Block]:
    """A list of terms, each with what is said of it: pairs of inlines."""
    items = [[term, [[{"t": "Plain", "c": said}]]] for term, said in pairs]
    return [{"t": "DefinitionList", "c": items}] if items else []


def literal(text: str) -> list[Block]:
    """Lines that stay as they are."""
    return [{"t": "CodeBlock", "c": [["", [], []], text.rstrip("\n")]}]


def section(title: str, blocks: Sequence[Block]) -> list[Block]:
    """A section of a manual page."""
    return [{"t": "Header", "c": [1, ["", [], []], words(title)]}, *blocks] if blocks else []


def written(pages: Iterable[Iterable[Block]]) -> list[str]:
    """What man reads of pages, each a list of blocks that are as a manual page has them."""
    blocks: list[Block] = []
    for page in pages:
        blocks += [*page, {"t": "RawBlock", "c": ["man", PART]}]
    whole = {"pandoc-api-version": [1, 22, 1], "meta": {}, "blocks": blocks}
    text = pandoc(json.dumps(whole), "-f", "json", "-t", "man")
    # pandoc sets code in a font that terminals haven't, and begins a paragraph that a heading begins already.
    text = re.sub(r"^\\f\[C\]\n|\\f\[(?:C|V)\]|^\\f\[R\]\n", "", text, flags=re.M)
    text = re.sub(r"^(\.S[HS] .*\n)\.PP\n", r"\1", text, flags=re.M)
    # What is typed has minus signs, and no hyphens.
    text = re.sub(r"^\.nf\n.*?^\.fi\n|\\f\[B\].*?\\f\[", lambda typed: re.sub(r"(?<!\\)-", r"\\-", typed[0]), text,
                  flags=re.M | re.S)
    return [part.lstrip("\n") for part in text.split(PART)[:-1]]


def head(name: str, number: int, day: str, source: str, about: str) -> str:
    """The beginning of a manual page: its name, its section, its day, what it belongs to, and what it is about."""
    title, line = name.upper().replace("-", r"\-"), f"{roff(name)} \\- {roff(about)}"
    # What stands on one line here may be long: it goes on behind an escaped end of a line.
    line = "\\\n".join(textwrap.wrap(line, 76, drop_whitespace=False, break_long_words=False, break_on_hyphens=False))
    return f'.TH {title} {number} {day} "{source}" "{source.split()[0]}"\n.nh\n.ad l\n.SH NAME\n{line}\n'


def roff(text: str) -> str:
    """A text within a line of a manual page."""
    return text.replace("\\", r"\e").replace("-", r"\-").replace("'", r"\(aq")
