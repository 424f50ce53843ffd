"""The lines of the regions about frames: their kinds, lengths and fields, and what a history has of touches."""
import collections.abc
import pathlib

import fact_code
import fact_frames
from fact_frames import Act, Kind
from fact_regions import Region
from fact_specs import Field
from fact_words import HEADER, LUA, PAGE, ROWS, SOURCE, WIRE, Words, filled, quoted, words_of

# A number's letter of the module struct, by its size.
LETTERS = {1: "b", 2: "h", 4: "i", 8: "q"}


def type_of(field: Field) -> str:
    """A field with its type, as docs/reference/PROTOCOL.md has it."""
    if not field.is_number:
        return f"{field.name} of {field.size} bytes"
    return f"{field.name} `{'i' if field.is_signed else 'u'}{8 * field.size}`"


def form_of(kind: Kind) -> str:
    """The form of a body, for the module struct."""
    letters = [LETTERS[one.size] if one.is_number else f"{one.size}s" for one in kind.fields]
    return ">B" + "".join(letter if one.is_signed or not one.is_number else letter.upper()
                          for one, letter in zip(kind.fields, letters))


def in_columns(rows: list[list[str]]) -> list[str]:
    """Rows of cells, the cells of each column of one width."""
    widths = [max(len(row[column]) for row in rows) for column in range(len(rows[0]))]
    return ["  ".join(cell.ljust(width) for cell, width in zip(row, widths)).rstrip() for row in rows]


def table(name: str, items: collections.abc.Iterable[str]) -> list[str]:
    """A dictionary of Python."""
    return [f"{name} = {{", *filled(items, 4), "}"]


class Frames:
    """The regions of the kinds of frames."""

    def __init__(self, top: pathlib.Path, limits: dict[str, int], acts: list[Act]) -> None:
        self.kinds = fact_frames.kinds(top)
        # The verdicts that open a barrier: those that accept a touch in or out.
        opening = {name for act in acts if act.word in ("in", "out") for name in act.accepted}
        self.opening = [one.code for one in fact_code.verdicts(top) if one.name in opening]
        self.limits = limits
        self.words: Words = words_of(top, "kind", limits, [kind.name for kind in self.kinds])
        self.lengths: Words = words_of(top, "length", limits, [kind.length_name for kind in self.kinds])
        self.asked = [kind for kind in self.kinds if not kind.is_answer()]
        self.answers = [kind for kind in self.kinds if kind.is_answer()]

    def said(self, kind: Kind) -> str:
        """The name of a kind in words."""
        return self.words.get(kind.name, {}).get("name", kind.name.lower().replace("_", " "))

    def page(self) -> tuple[str, ...]:
        rows: list[str] = []
        before: tuple[Field, ...] | None = None
        for kind in self.kinds:
            sender = self.words.get(kind.name, {}).get("from", "server" if kind.is_answer() else "gate")
            body = "the same fields" if kind.fields == before else ", ".join(["kind", *map(type_of, kind.fields)])
            rows.append(f"| `{kind.number:02x}` {self.said(kind)} | {sender} | {body} | {kind.length} |")
            before = kind.fields
        return "", "| Kind | From | Body | Length of the body |", "|---|---|---|---|", *rows, ""

    def offsets(self) -> tuple[str, ...]:
        """The fields of the answers, each with its place in the frame."""
        most = max(len(kind.fields) for kind in self.answers)
        rows: list[list[str]] = []
        for kind in self.answers:
            row, at = [f"{self.said(kind)} ", "0 length", f"2 kind {kind.number:02x}"], 3
            for field in kind.fields:
                row.append(f"{at} {field.name}")
                at += field.size
            rows.append([*row, *[""] * (most - len(kind.fields)), f"  {at} bytes"])
        return "", "```", *in_columns(rows), "```", ""

    def c_name(self, kind: Kind) -> str:
        return self.said(kind).upper().replace(" ", "_").replace("-", "_")

    def header(self) -> tuple[str, ...]:
        touches = [kind for kind in self.kinds if kind.variant]
        return tuple(f"    BOVTRILA_{self.c_name(kind)} = {kind.number}{'' if kind is touches[-1] else ','}" for kind in touches)

    def sizes(self, kinds: list[Kind]) -> tuple[str, ...]:
        """The lengths of bodies in C, each once."""
        names = {self.lengths.get(kind.length_name, {}).get("c", kind.length_name): kind.length for kind in kinds}
        return filled((f"{name}_SIZE = {length}" for name, length in names.items()), 4)

    def source(self) -> tuple[str, ...]:
        others = filled((f"KIND_{kind.name} = 0x{kind.number:02x}" for kind in self.kinds if not kind.variant), 4)
        return (*others, "    /* Bodies, without the two bytes of their length. */", *self.sizes(self.asked),
                *self.sizes(self.answers), "    /* From this verdict on a touch is refused. */",
                f"    FIRST_REFUSAL = {self.limits['FIRST_REFUSAL']},")

    def limits_in_header(self) -> tuple[str, ...]:
        most = 2 + max(kind.length for kind in self.asked)
        rows = [[f"#define BOVTRILA_CAPACITY_LIMIT {self.limits['HISTORY_LIMIT']}u", "/* touches of one file, 64 bytes each */"],
                [f"#define BOVTRILA_FRAME_SIZE {most}u", "/* the most bytes of a request's frame */"]]
        return tuple(f"{name.ljust(40)} {comment}" for name, comment in rows)

    def by_number(self, texts: collections.abc.Iterable[str], form: str = "[0x{:02x}] = {}") -> list[str]:
        return [form.format(kind.number, text) for kind, text in zip(self.kinds, texts, strict=True)]

    def lua_fields(self) -> tuple[str, ...]:
        rows = (", ".join(f'{{ "{field.name}", {field.size} }}' for field in kind.fields) for kind in self.kinds)
        return tuple(f"    {row}," for row in self.by_number(f"{{ {row} }}" for row in rows))

    def wire(self) -> tuple[str, ...]:
        names = {kind.number: f"0x{kind.number:02x}: {quoted(self.said(kind))}" for kind in self.kinds}
        fields = (quoted(" ".join(field.name for field in kind.fields)) for kind in self.kinds)
        return tuple(["# What each kind of request and of answer is called, and the fields and the form (struct) of its body.",
                      *table("KINDS", (names[kind.number] for kind in self.asked)),
                      *table("ANSWER_KINDS", (names[kind.number] for kind in self.answers)),
                      *table("FIELDS", self.by_number(fields, "0x{:02x}: {}")),
                      *table("FORMS", self.by_number((quoted(form_of(kind)) for kind in self.kinds), "0x{:02x}: {}"))])

    def regions(self) -> list[Region]:
        first = self.limits["FIRST_REFUSAL"]
        names = (quoted(self.said(kind).capitalize()) for kind in self.kinds)
        return [
            Region(PAGE, "frames", self.page()),
            Region(PAGE, "answers", self.offsets()),
            Region(HEADER, "kinds", self.header()),
            Region(HEADER, "limits", self.limits_in_header()),
            Region(SOURCE, "frames", self.source()),
            Region(SOURCE, "limits", (f"    CARDS_LIMIT = {self.limits['CARDS_LIMIT']}",)),
            Region(LUA, "kinds", filled(self.by_number(names), 4)),
            Region(LUA, "lengths", filled(self.by_number(str(kind.length) for kind in self.kinds), 4)),
            Region(LUA, "fields", self.lua_fields()),
            Region(LUA, "limits", (f"local FIRST_REFUSAL = {first}",)),
            Region(WIRE, "frames", self.wire()),
            Region(WIRE, "limits", (f"FIRST_REFUSAL = {first}",)),
            Region(WIRE, "opening", (f"OPENING = ({', '.join(map(str, self.opening))})",)),
        ]


def verdicts_of(acts: list[Act], names: str) -> list[str]:
    """The verdicts of each act, as tuples of Python."""
    rows = ((act.word, getattr(act, names)) for act in acts)
    return [f"{quoted(word)}: ({', '.join(map(quoted, row))}{',' if len(row) == 1 else ''})" for word, row in rows]


def history(acts: list[Act]) -> list[Region]:
    """The region about the rows of a history."""
    return [Region(ROWS, "acts", tuple([
        "# Whether the fields card, station and pence are filled, by act.",
        *table("FILLED", (f"{quoted(act.word)}: {act.filled}" for act in acts)),
        "# The verdicts of FARES.md by act: those that accept it, and those that refuse it.",
        *table("ACCEPTED", verdicts_of(acts, "accepted")),
        *table("REFUSED", verdicts_of(acts, "refused"))]))]


def regions(top: pathlib.Path, limits: dict[str, int]) -> list[Region]:
    """The regions about frames of a tree."""
    acts = fact_frames.acts(top)
    return Frames(top, limits, acts).regions() + history(acts)
