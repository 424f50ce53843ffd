"""The tables of pages whose first columns come from the code, and whose last ones are written by hand in the page."""
import pathlib
import re

import fact_code
import fact_door
import fact_faults
import fact_frames
import fact_keys
import script_help
from fact_code import Wrong, text_of
from fact_regions import Region

import program

TABLE, DOOR, LINES, COMMANDS, FARES = (f"docs/reference/{name}.md" for name in ("TABLE", "DOOR", "FAULTS", "COMMANDS", "FARES"))
STAMP = "crates/money_time/src/stamp.rt"
# The tables of faults: the page and the region, the program, and the words after `fault` of the lines that the table has.
FAULTS = {(TABLE, "faults"): ("bovtrila", ("table",)),
          (LINES, "faults of files"): ("bovtrila", ("file", "supply", "station")),
          (LINES, "faults of a journal"): ("bovtrila", ("journal", "behind")),
          (LINES, "faults of a migration"): ("bovtrila", ("migrate",)),
          (LINES, "faults of an audit"): ("bovtrila", ("header", "seal", "gate", "card", "place", "balance")),
          (LINES, "faults of a run"): ("bovtrila", ("listen", "close", "run")),
          (LINES, "faults of a gate"): ("gate_send", ("file", "gate-file", "line", "clock", "ask", "answer", "tries", "enquiry"))}
# Lines of gate_send that the other program prints too, for the same reason.
SHARED = ("run",)
# Lines whose table is made by fact_door.py.
OF_A_DOOR = ("bovtrila", "door")


def of_keys(top: pathlib.Path) -> Region:
    """The keys of a fare table."""
    ranges = fact_keys.ranges(top)
    rows = (" | ".join([f"`{key.text}`", ranges[key.text][0], "yes" if key.is_required else "no", ranges[key.text][1]])
            for key in fact_keys.keys(top))
    return Region(TABLE, "keys", ("Key | Type | Required | Range | Means", *rows), by_hand=1)


def of_door(top: pathlib.Path) -> list[Region]:
    """The keys of a door's file, the kinds of request, and the lines of its faults."""
    rows = (f"`{key}` | {shape} | {limits}" for key, shape, limits in fact_door.keys(top))
    return [Region(DOOR, "keys of a door", ("Key | Type | Range | If it is left out | Means", *rows), by_hand=2),
            Region(DOOR, "kinds of requests of a door", ("Kind | Allows", *(f"`{word}`" for word in fact_door.kinds(top))), by_hand=1),
            Region(DOOR, "faults of a door", ("Line | Cause | What to do", *(f"`{line}`" for line in fact_door.faults(top))), by_hand=2)]


def of_faults(top: pathlib.Path) -> list[Region]:
    """The lines of faults. Each is in a table."""
    lines = {program: fact_faults.faults(top, program) for program in fact_faults.PROGRAMS}
    listed = {(program, word) for program, words in FAULTS.values() for word in words}
    listed |= {OF_A_DOOR, *(("gate_send", word) for word in SHARED)}
    for of, line in ((of, line) for of, own in lines.items() for line in own):
        if (of, line.split()[1]) not in listed:
            raise Wrong(f"no table has the line '{line}' of {of}; add it to FAULTS in scripts/dev/fact_page_texts.py")
    supply = fact_faults.lines(fact_faults.displayed(top), "SupplyFault")
    return [Region(TABLE, "faults of revised tables", ("Fault | Is printed if", *(f"`{text}`" for text in supply)), by_hand=1)] + [
        Region(file, name, ("Line | Cause | What to do",
                            *(f"`{line}`" for line in lines[program] if line.split()[1] in words)), by_hand=2)
        for (file, name), (program, words) in FAULTS.items()]


def of_fares(top: pathlib.Path) -> list[Region]:
    """The verdicts with the acts that get them, the hours of the fare day and of the windows, and the kinds of caps."""
    acts, verdicts = fact_frames.acts(top), {True: ["Code | Accepted as | Act | For"], False: ["Code | Refusal | Acts | If"]}
    for one in fact_code.verdicts(top):
        of_acts = ", ".join(act.word for act in acts if one.name in act.accepted + act.refused)
        verdicts[one.accepts].append(f"{one.code} | {one.name} | {of_acts}")
    minutes = {name: int(minute) for name, minute in re.findall(r"const (\w+): u16 = (\d+);", text_of(top, STAMP))}
    clock = {name: f"{minute // 60:02}:{minute % 60:02}" for name, minute in minutes.items()}
    hours = [f"{name.removesuffix('_START').replace('_', ' ').capitalize()} | {clock[name]} | "
             f"{clock.get(name.replace('_START', '_END'), clock[name])}" for name in clock if name.endswith("_START")]
    if len(hours) < 3:
        raise Wrong(f"{STAMP}: no constants NAME_START and NAME_END are there; scripts/dev/fact_page_texts.py has to be changed "
                    "with the code")
    known = fact_keys.constants(text_of(top, fact_keys.KEY))
    caps = (f"`{known[name].strip(chr(34))}`" for name in ("ANYTIME", "OFF_PEAK"))
    return [Region(FARES, "refusals", tuple(verdicts[False]), by_hand=1), Region(FARES, "acceptances", tuple(verdicts[True]), by_hand=1),
            Region(FARES, "hours", ("Part of the day | From | Until before | On", *hours), by_hand=1),
            Region(FARES, "kinds of caps", ("Kind of cap | Covers", *caps), by_hand=1)]


def unbuilt(top: pathlib.Path) -> list[str]:
    """The programs that aren't built of the tree's code."""
    return [name for name in ("tap_server", "gate_send") if not (top / "crates" / name / "out" / name).is_file()
            or top == program.TOP and not program.is_built(name)]


def of_commands(top: pathlib.Path) -> list[Region]:
    """The options and the statuses of each command, by its --help. They stay as they are where a program isn't built."""
    if unbuilt(top):
        marked = re.findall(r"^<!-- generated: (.*) -->$", text_of(top, COMMANDS), re.M)
        return [Region(COMMANDS, name, None) for name in marked]
    found = []
    helps = script_help.of(top / "crates/tap_server/out/tap_server").acts
    for name, said in {**helps, "gate_send": script_help.of(top / "crates/gate_send/out/gate_send")}.items():
        typed = [item.term for item in said.options if script_help.names(item)[-1] not in ("--help", "--version")]
        words = [" ".join(script_help.values(item)) for item in said.words]
        rows = (f"`{re.sub('[<>]', '', term)}`" for term in [*typed, *words])
        found += [Region(COMMANDS, f"options of {name}", ("Option | Means", *rows), by_hand=1),
                  Region(COMMANDS, f"statuses of {name}", ("Status | Means", *said.statuses), by_hand=1)]
    return found


def regions(top: pathlib.Path) -> list[Region]:
    """The regions of pages that are written in part by hand."""
    return [of_keys(top), *of_door(top), *of_faults(top), *of_commands(top), *of_fares(top)]
