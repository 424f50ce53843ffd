"""The facts that are compared and not generated: where the code has each, and where else it is written. The program's version
is read in the file VERSION instead."""
import collections.abc
import dataclasses
import pathlib

import fact_frames
import fact_regions
import fact_texts
from fact_code import SHARED, Wrong
from fact_places import Pair, Place, braces

LUA = "clients/wireshark/bovtrila.lua"
HEADER = "clients/c/bovtrila_gate.h"
SOURCE = "clients/c/bovtrila_gate.c"
IN_PYTHON = r'(?P<code>\d+): "(?P<name>\w+)"'
# The options whose limit is the command line's alone, with what the help says before it.
OPTIONS = [("connections", "before it ends,"), ("idle", "for this many seconds,"), ("report", "at this interval in.seconds,")]
ACTS = ("in", "out", "top-up", "issue", "revision")
HAPROXY = "packaging/haproxy/bovtrila.cfg"
OPERATING = "docs/operate/OPERATING.md"
# The limits of HAProxy that have a row of their own, and those of a certificate in a sentence, with what is counted.
LIMITS = "SLOTS|CONNECTIONS|NEW|BYTES|HANDSHAKE|SILENT|OLD"
OF_A_CERTIFICATE = (("CONNECTIONS", "connections"), ("NEW", "new connections"), ("BYTES", "bytes"))
# The timers of a server, with what a sentence says before and behind the time.
TIMERS = (("copies", "^Each night at ", "the timer runs `bovtrila-keep-copies`"), ("next-journal", "Each day at ", "by this machine's clock"))


@dataclasses.dataclass
class Read:
    """A fact that is read of several places of the code: what they are, and how its pairs are read."""
    files: str
    all: collections.abc.Callable[[pathlib.Path], list[Pair]]


def numbers_of(is_answer: bool) -> collections.abc.Callable[[pathlib.Path], list[Pair]]:
    """How the numbers of the kinds of requests or of answers are read."""
    return lambda top: [(kind.number, None) for kind in fact_frames.kinds(top) if kind.is_answer() == is_answer]


def verdicts_of(word: str) -> collections.abc.Callable[[pathlib.Path], list[Pair]]:
    """How the verdicts of an act are read."""
    return lambda top: [(None, name) for act in fact_frames.acts(top) if act.word == word for name in act.accepted + act.refused]


# Each fact: where the code has it, and where else it is written.
FACTS: dict[str, tuple[Place | Read, list[Place]]] = {
    "verdicts": (
        Place("crates/oyster_account/src/verdict.rt", r"(?:Acceptance|Refusal)::(?P<name>\w+) => (?P<code>\d+),"), [
            Place("crates/oyster_account/src/verdict.rt", r'(?P<code>\d+) => Some\("(?P<name>\w+)"\)'),
            Place("tools/bovtrila/model.py", IN_PYTHON, *braces("VERDICTS =")),
            Place("network/schema.sql", r"'(?P<name>\w+)'", r"CREATE TYPE verdict AS ENUM", r";"),
        ]),
    "kinds of requests": (
        Read("the definitions of frames", numbers_of(is_answer=False)), [
            Place("tools/bovtrila/codec.py", r"(?P<code>\d+)", r"^ENTER, LEAVE, .* = ", r"$"),
        ]),
    "kinds of answers": (
        Read("the definitions of frames", numbers_of(is_answer=True)), [
            Place("tools/bovtrila/codec.py", r"0x(?P<hex>\w+)", r"^REPLY, .* = ", r"$"),
        ]),
    "lengths of requests": (
        Place("crates/gate_session/src/frame.rt", r"const \w+_LENGTH: usize = (?P<code>\d+);"), [
            Place("docs/reference/PROTOCOL.md", r"(?P<code>\d+)", r"^\| the second is not ", r" \|"),
        ]),
    "acts of a history": (
        Read("the definitions of a history's rows", lambda top: [(None, act.word) for act in fact_frames.acts(top)]), [
            Place("tools/bovtrila/codec.py", r'"(?P<name>[\w-]+)"', *braces("ACTS =")),
            Place("network/schema.sql", r"'(?P<name>[\w-]+)'", r"CREATE TYPE act AS ENUM", r";"),
        ]),
    **{f"verdicts of act {word}": (
        Read("the definitions of verdicts", verdicts_of(word)), [
            Place("network/schema.sql", r"'(?P<name>\w+)'", rf"WHEN '{word}' THEN verdict IN", r"\)"),
        ]) for word in ACTS},
    "touches that the library for gates sends": (
        Place(HEADER, r"BOVTRILA_(?P<name>\w+) = \d+", r"^enum bovtrila_kind \{", r"^\};"), [
            Place(SOURCE, r"case BOVTRILA_(?P<name>\w+):", r"^static size_t body_size\(", r"^\}"),
            Place(SOURCE, r"BOVTRILA_(?P<name>\w+)", r"^static void write_touch\(", r"^\}", some=True),
        ]),
    "fields that the dissector shows": (
        Place(LUA, r'\{ "(?P<name>\w+)", \d+ \}', r"^local FIELDS = \{", r"^\}"), [
            Place(LUA, r"^ {4}(?P<name>\w+) = ProtoField", r"^local fields = \{", r"^\}", more=True),
        ]),
    "the most touches of a history": (
        Place(SHARED, r"const HISTORY_LIMIT: u32 = (?P<code>[\d_]+);"), [
            Place("crates/command_line/src/commands/gates.rt", r"journal has room for, from 1 to (?P<code>\d+)"),
            Place("crates/command_line/src/commands/audits.rt",
                  r"(?:another capacity; N from 1|first N touches, from 0|N from 0) to (?P<code>\d+)"),
            Place("docs/reference/COMMANDS.md", r"new journal has room for, 1 to (?P<code>\d+)"),
            Place("docs/reference/JOURNAL.md", r"capacity, in touches, 1 to (?P<code>[\d,]+)"),
            Place("docs/reference/GATE_LIBRARY.md", r"how many touches the gate may ask in its life, 1 to (?P<code>[\d,]+)"),
            Place("docs/reference/FARES.md", r"A history has at most (?P<code>[\d,]+)"),
            Place("scripts/tests/clients.py", r"1 <= capacity <= (?P<code>[\d_]+)"),
        ]),
    "the most open slots that crashes leave": (
        Place("crates/tap_journal/src/alone.rt", r"const BEHIND_LIMIT: u32 = (?P<code>\d+);"), [
            Place("tools/bovtrila/network/commands.py", r"^BEHIND = (?P<code>\d+)$"),
            Place("scripts/tests/test_audit.py", r"^BEHIND = (?P<code>\d+)$"),
        ]),
    "the most cards of a station": (
        Place(SHARED, r"const CARDS_LIMIT: u32 = (?P<code>[\d_]+);"), [
            Place("crates/command_line/src/commands/*.rt",
                  r"(?:number of cards|the card|this card|was made with)[,;] (?:N )?from 1 to (?P<code>\d+)"),
            Place("docs/reference/JOURNAL.md", r"number of cards, 1 to (?P<code>[\d,]+)"),
            Place("docs/reference/PROTOCOL.md", r"A server has at most (?P<code>[\d,]+) cards"),
            Place("docs/operate/NETWORK.md", r"A server has at most (?P<code>[\d,]+) cards"),
            Place("scripts/tests/clients.py", r"1 <= cards <= (?P<code>[\d_]+)"),
        ]),
    "the bytes of a digest": (
        Place("crates/station_limits/src/digest.rt", r"const DIGEST_SIZE: usize = (?P<code>\d+);"), [
            Place(SOURCE, r"DIGEST_SIZE = (?P<code>\d+)$"),
        ]),
    "the most lines of a server": (
        Place(SHARED, r"const LINES_LIMIT: u32 = (?P<code>\d+);"), [
            Place("crates/command_line/src/commands/gates.rt", r"served at once, from 1 to (?P<code>\d+)"),
            Place("docs/reference/COMMANDS.md", r"served at once, 1 to (?P<code>\d+)"),
        ]),
    "the most bytes of a certificate's name": (
        Place(SHARED, r"const CERTIFICATE_NAME_LIMIT: usize = (?P<code>\d+);"), [
            Place("crates/proxy_header/src/fault.rt", r"longer than (?P<code>\d+) bytes"),
            Place("crates/table_check/src/standing.rt", r"a text of 1 to (?P<code>\d+) bytes"),
        ]),
    "the most bytes of a station's name": (
        Place("crates/fare_table/src/key.rt", r"const LONGEST_NAME: usize = (?P<code>\d+);"), [
            Place("crates/table_check/src/standing.rt", r"a text of 1 to (?P<code>\d+) bytes"),
        ]),
    "how often a file is opened whose path is given to another file": (
        Place("crates/tap_disk/src/file.rt", r"const OPENINGS: u32 = (?P<code>\d+);"), [
            Place("docs/operate/DISK.md", r"and all of this again, at most (?P<code>\d+) times"),
            Place("scripts/tests/test_take_over.py", r"^OPENINGS, PASSED = (?P<code>\d+),"),
        ]),
    "Linux's number of ENFILE": (
        Place("crates/tcp_line/src/shortage.rt", r"const ENFILE: i32 = (?P<code>\d+);"), [
            Place("crates/console/src/refusal.rt", r"const ENFILE: i32 = (?P<code>\d+);"),
        ]),
    **{f"the limit of --{option}": (
        Place("crates/command_line/src/arguments.rt", rf"const {option.upper()}_LIMIT: u32 = (?P<code>[\d_]+);"), [
            Place("crates/command_line/src/commands/gates.rt", rf"(?s:{told}.from 1.to (?P<code>\d+))"),
            Place("docs/reference/COMMANDS.md", rf"^\| `--{option} [A-Z]+` .*?, 1 to (?P<code>\d+)"),
        ]) for option, told in OPTIONS},
    "the most pence of a top-up": (
        Place("crates/oyster_account/src/refusal.rt", r"const TOP_UP_LIMIT: u32 = (?P<code>[\d_]+);"), [
            Place("docs/reference/FARES.md", r"the amount is 0 or above (?P<code>[\d,]+)"),
        ]),
    "the most tables of a station": (
        Place("crates/fare_schedule/src/schedule.rt", r"const TABLE_LIMIT: usize = (?P<code>\d+);"), [
            Place("docs/reference/TABLE.md", r"`5 TooMany` \| (?P<code>\d+) tables are there"),
            Place("tools/bovtrila/model.py", r"^MOST_TABLES = (?P<code>\d+)"),
        ]),
    "the most bytes of a door": (
        Place("crates/door_file/src/door.rt", r"const MOST_BYTES: usize = (?P<code>[\d_]+);"), [
            Place("docs/reference/DOOR.md", r"document of at most (?P<code>[\d,]+) bytes"),
        ]),
    "the limits of HAProxy": (
        Place(HAPROXY, rf"^ +setenv (?P<name>{LIMITS}) (?P<code>\d+)s?$"), [
            Place(OPERATING, r"^\| `(?P<name>[A-Z]+)` \| (?P<code>\d+)s? \|"),
        ]),
    **{f"the limits of HAProxy {first} and {second}": (
        Place(HAPROXY, rf"^ +setenv (?:{first}|{second}) (?P<code>\d+)s?$"), [
            Place(OPERATING, r"(?P<code>\d+)", rf"^\| `{first}`, `{second}` \| ", r" \|"),
        ]) for first, second in (("WAITING", "WAIT"), ("ADDRESS_CONNECTIONS", "ADDRESS_NEW"))},
    **{f"the most {counted} of a certificate": (
        Place(HAPROXY, rf"^ +setenv {name} (?P<code>\d+)$"), [
            Place("docs/reference/PROTOCOL.md", rf"(?P<code>[\d,]+) {counted} (?:at once|in 10 seconds|of requests a second)",
                  r"^HAProxy allows each certificate", r"unless the operator"),
            Place(OPERATING, rf"at most (?P<code>[\d,]+) {counted} (?:a second )?for each certificate", some=True),
        ]) for name, counted in OF_A_CERTIFICATE},
    **{f"the time of bovtrila-{name}.timer": (
        Place(f"packaging/bovtrila-{name}.timer", r"^OnCalendar=\*-\*-\* (?P<code>[\d:]+)$"), [
            Place(f"packaging/bovtrila-{name}@.timer", r"^OnCalendar=\*-\*-\* (?P<code>[\d:]+)$"),
            Place(OPERATING, rf"{before}(?P<code>[\d:]+) {behind}"),
        ]) for name, before, behind in TIMERS},
    "the program's version": (
        Place("VERSION", r"\A(?P<name>\d+\.\d+\.\d+)\n\Z"), [
            Place("crates/program_options/src/version.rt", r'^pub const VERSION: &str = "(?P<name>[\d.]+)$'),
            Place("crates/command_tests/src/tests/of_command_line.rt", r'"bovtrila (?P<name>[\d.]+)\\nproved'),
            Place("crates/gate_send/stdout", r"\Agate_send (?P<name>[\d.]+)$"),
            Place("docs/reference/VERSIONS.md", r"^Today's program is version \*\*(?P<name>[\d.]+)\*\*"),
            Place("docs/reference/VERSIONS.md", r"` (?P<name>[\d.]+)", r"^\| File ", r"$"),
            Place("CHANGELOG.md", r"^## (?P<name>[\d.]+)", "", r"^New:|^Changed:|^Corrected:"),
            Place("README.md", r"^Version (?P<name>[\d.]+) "),
            Place("tools/pyproject.toml", r'^version = "(?P<name>[\d.]+)"$'),
        ]),
    "the journal's version": (
        Place("crates/tap_journal/src/layout.rt", r"const VERSION: u8 = b'(?P<code>\d)';"), [
            Place("docs/reference/VERSIONS.md", r"^\| journal .*? \| (?P<code>\d), `OYSTERJ"),
            Place("docs/reference/VERSIONS.md", r"^\| a gate's file .*? \| (?P<code>\d), "),
            Place("docs/reference/VERSIONS.md", r"^\| journal `OYSTERJ(?P<code>\d)` \| yes"),
            Place("tools/bovtrila/layout.py", r'^VERSION = b"OYSTERJ(?P<code>\d)"$'),
            Place("clients/c/bovtrila_gate.c", r"VERSION = '(?P<code>\d)'"),
        ]),
    "the version of the library for gates": (
        Place("clients/c/bovtrila_gate.h", r'^#define BOVTRILA_VERSION "(?P<name>[\d.]+)"$'), [
            Place("docs/reference/VERSIONS.md", r"^\| library for gates .*? \| (?P<name>[\d.]+), ABI"),
        ]),
    **{f"the {part} number of the library for gates": (
        Place(HEADER, rf"^#define BOVTRILA_VERSION_{part.upper()} (?P<code>\d+)$"), [
            Place(HEADER, rf'^#define BOVTRILA_VERSION "(?:\d+\.){{{place}}}(?P<code>\d+)[."]'),
        ]) for place, part in enumerate(("major", "minor", "patch"))},
    "the ABI of the library for gates": (
        Place("clients/c/Makefile", r"^SONAME = (?P<name>\S+)$"), [
            Place("docs/reference/VERSIONS.md", r"^\| library for gates .*?, ABI `(?P<name>[^`]+)`"),
        ]),
}


def region_faults(top: pathlib.Path) -> collections.abc.Iterator[tuple[str, list[str]]]:
    """For each file with regions that scripts/dev/facts writes, its name, and what scripts/dev/facts would change there."""
    try:
        for file, (old, new) in fact_regions.texts(top, fact_texts.regions(top)).items():
            said = fact_regions.difference(file, old, new).splitlines()
            yield f"regions: {file}", ["run scripts/dev/facts, which changes:", *said] if said else []
    except Wrong as wrong:
        yield "regions", [str(wrong)]


def faults(top: pathlib.Path) -> collections.abc.Iterator[tuple[str, list[str]]]:
    """For each fact in each place, its name, and what is wrong there, or nothing."""
    yield from region_faults(top)
    for fact, (origin, places) in FACTS.items():
        try:
            said = set(origin.all(top))
        except Wrong as wrong:
            yield f"{fact}: {origin.files}", [str(wrong)]
            continue
        if not said:
            yield f"{fact}: {origin.files}", ["nothing found"]
        for place in places:
            found = list(place.parts(top))
            if not found:
                yield f"{fact}: {place.files}", ["nothing found"]
            for file, text in found:
                yield f"{fact}: {file}", list(differences(said, origin.files, place, text))


def differences(said: set[Pair], origin: str, place: Place, text: str) -> collections.abc.Iterator[str]:
    """What differs between the pairs of the origin and those of a place's text."""
    has_code, has_name = "(?P<code>" in place.row or "(?P<hex>" in place.row, "(?P<name>" in place.row
    wanted = {(code if has_code else None, name if has_name else None) for code, name in said}
    found = set(place.read(text))
    if not place.some:
        yield from (f"lacks {in_words(pair)}" for pair in sorted(wanted - found, key=str))
    if not place.more:
        yield from (f"has {in_words(pair)}, which {origin} hasn't" for pair in sorted(found - wanted, key=str))


def in_words(pair: Pair) -> str:
    return " ".join(str(each) for each in pair if each is not None)
