# SPDX-License-Identifier: Apache-2.0
"""All that is known of a server, and its lines on the screen: for bovtrila-status and for the page of bovtrila-exporter."""
import datetime
import math
import pathlib
import shutil
import subprocess
from collections.abc import Mapping
from typing import Any, NamedTuple

from bovtrila import condition, copies, proxied, serving, settings, wire
from bovtrila.journal_view import Journal, Tables, pace, revised, told, utc
from bovtrila.wire import Wrong

# How far a moment may lie ahead of the clock before it is told.
AHEAD = 2 * 86_400
# The year from which on the screen doesn't say when a journal is full.
FAR = "2100"


class Target(NamedTuple):
    """A server: its unit of systemd and the folder of its copies, where these are known, its address, and the files of its
    journal and its tables; what is wrong with the settings that name them; the header with which a connection to it begins;
    and whether it has a door."""

    unit: str | None
    address: wire.Address
    journal: str | None
    tables: tuple[str, ...]
    copies: pathlib.Path | None
    wrong: str | None = None
    header: bytes = b""
    has_door: bool = False


# What is known of a server, by the names of --json.
Found = dict[str, Any]


def target_of(name: str | None, config: pathlib.Path, folder: pathlib.Path) -> Target:
    """The server of a file of words. Where a line of it is wrong, it is the server that the other lines name."""
    known, wrong = settings.known_of(config)
    if wrong is not None and not known["listen"]:
        raise Wrong(wrong)
    unit = None if config != serving.config_of(None, name) else f"bovtrila@{name}" if name else "bovtrila"
    journal = str(folder / known["journal"][0]) if known["journal"] else None
    # Without the first table the others have no clock.
    tables = [*known["table"][:1], *known["revised"]] if known["table"] else []
    return Target(unit, serving.reached_at(known["listen"][0]), journal, tuple(str(folder / table) for table in tables),
                  folder / "copies", wrong, proxied.WITHOUT if known["proxy"] else b"", bool(known["door"]))


def nothing(now: float) -> Found:
    """What is known before anything was asked."""
    return {"at": utc(now), "server": None, "address": None, "up": False, "why": None, "answers": False, "halted": None,
            "answer_milliseconds": None, "touches": None, "notes": []}


def ask(target: Target, timeout: float, cards: set[int] | None, found: Found) -> None:
    """Asks the server, and each of these cards whether it is inside."""
    found["cards_inside"] = None
    try:
        with wire.Connection(target.address, timeout, header=target.header) as line:
            front, found["halted"], took = condition.ask(line, target.has_door)
            found["answers"], found["answer_milliseconds"] = front is not None, round(1000 * took, 2)
            found["touches"] = front
            if cards is not None:
                found["cards_inside"] = condition.count_inside(line, cards)
    except TimeoutError:
        found["why"] = f"no answer within {timeout:g} s: all its lines are taken, or it hangs"
    except (OSError, Wrong) as error:
        found["why"] = str(getattr(error, "strerror", None) or error)


def unit_of(name: str | None) -> dict[str, Any] | None:
    """How systemd has a unit: its state, since when, and how often it was started again since somebody started it."""
    if name is None or not shutil.which("systemctl"):
        return None
    done = subprocess.run(["systemctl", "show", "--timestamp=unix", name, "--property=ActiveState",
                           "--property=NRestarts", "--property=StateChangeTimestamp"], capture_output=True, text=True)
    said = dict(line.partition("=")[::2] for line in done.stdout.splitlines())
    if done.returncode or "ActiveState" not in said:
        return None
    since = said.get("StateChangeTimestamp", "").removeprefix("@")
    return {"name": name, "state": said["ActiveState"], "since": utc(int(since)) if since.isdecimal() else None,
            "restarts": int(said.get("NRestarts") or 0)}


def look(target: Target, timeout: float, journal: Journal | None, tables: Tables, now: float) -> Found:
    """All that is known of a server now, by its names."""
    host, port = target.address
    found: Found = {**nothing(now), "server": target.unit, "address": f"{f'[{host}]' if ':' in host else host}:{port}"}
    if journal is not None:
        journal.read()
    ask(target, timeout, None if journal is None else journal.entered, found)
    found["unit"] = unit_of(target.unit)
    complete(target, journal, tables, now, found)
    return found


def complete(target: Target, journal: Journal | None, tables: Tables, now: float, found: Found) -> None:
    """Adds what the files tell to the server's answers, and whether the server takes new touches."""
    if target.wrong is not None:
        found["notes"].append(f"{target.wrong}. The running server still has its earlier settings; correct this before it "
                              "is started again")
    if target.copies is not None:
        ages = copies.ages(target.copies, target.journal)
        found["copy_age_seconds"], found["seal_age_seconds"] = (None if math.isinf(age) else round(age) for age in ages)
        remote = target.copies.parent / copies.REMOTE
        if remote.is_dir():
            age = copies.sent_age(remote, target.journal)
            found["remote_copy_age_seconds"] = None if math.isinf(age) else round(age)
        refused = last_refused(target.copies, target.journal)
        if refused is not None:
            found["notes"].append(f"the last copy was refused: {refused} (FAULTS.md, 'Faults of a copy')")
    if journal is not None:
        # A seal that is made meanwhile may have touches that come after the journal was read.
        sealed = None if target.copies is None else last_seal(target.copies, journal.path)
        read(journal, tables, now, found)
        if sealed is not None and sealed.touches > journal.touches:
            found["notes"].append(f"the last seal covers {sealed.touches} touches, the journal has {journal.touches}: "
                                  "touches are lost (OPERATING.md, 'A journal from a copy')")
    if found["answers"]:
        found["why"] = condition.hindrance(found)
    found["up"] = found["answers"] and found["why"] is None


def last_refused(folder: pathlib.Path, journal: str | None) -> pathlib.Path | None:
    """The newest copy of a journal that was refused, where no good one was made since."""
    try:
        good = max((moment for moment, path in copies.kept(folder) if journal is None or copies.is_named(path, journal)),
                   default=0)
        return next((path for moment, path in reversed(copies.kept(folder, copies.REFUSED)) if moment > good and (
            journal is None or copies.is_named(path.name.removesuffix(copies.REFUSED), journal))), None)
    except OSError:
        return None


def last_seal(folder: pathlib.Path, journal: str | pathlib.Path) -> copies.Seal | None:
    """The last seal of a journal in the folder of its copies, where there is one that can be read."""
    try:
        return next((seal for seal in reversed(copies.seals(folder)) if copies.is_named(seal.copy, journal)), None)
    except Wrong:
        return None


def read(journal: Journal, tables: Tables, now: float, found: Found) -> None:
    """What the journal tells."""
    journal.read()
    shown = found["touches"]
    if shown is not None and journal.touches < shown:
        found["notes"].append(f"the journal has {journal.touches} touches, and the server {shown}: it's another's "
                              "journal")
    found["touches"] = journal.touches if shown is None else shown
    found.update(capacity=journal.capacity, cards=journal.cards, room=journal.capacity - journal.touches)
    free, missing = condition.disk_of(journal.path, journal.whole_size())
    found.update(disk_free_bytes=free, journal_missing_bytes=missing)
    pace(journal, now, found)
    found["last"] = told(journal.last) if journal.last else None
    found["gates"] = [told(body) for _, body in sorted(journal.gates.items())]
    if journal.latest and journal.newest is not None and journal.newest > now + AHEAD:
        ahead = told(journal.latest)
        found["notes"].append(f"a clock is ahead: gate {ahead['gate']}, number {ahead['number']}, {ahead['moment']}")
    if found["room"] * 10 <= journal.capacity:
        found["notes"].append("nine tenths of the journal are used: plan the next one (OPERATING.md, 'A full journal')")
    if condition.BLOCK <= free < missing:
        found["notes"].append("the disk has less room than the journal needs: make room, or the server halts "
                              "(OPERATING.md, 'Room on the disk')")
    revised(journal, tables, now, found)


def span(seconds: float) -> str:
    """A span of time in words."""
    for size, word in ((86_400, "days"), (3600, "hours"), (60, "minutes")):
        if seconds >= 2 * size:
            return f"{seconds / size:.0f} {word}"
    return f"{seconds:.0f} seconds"


def ago(text: str, now: float) -> str:
    """How long before now a moment was, in words."""
    seconds = now - datetime.datetime.fromisoformat(text.replace("Z", "+00:00")).timestamp()
    return f"{span(abs(seconds))} {'ago' if seconds >= 0 else 'ahead'}"


def size(count: int) -> str:
    """A number of bytes in words."""
    for unit, name in ((10**9, "GB"), (10**6, "MB"), (10**3, "kB")):
        if count >= unit:
            return f"{count / unit:.1f} {name}"
    return f"{count} bytes"


def named(table: Mapping[str, Any]) -> str:
    first = f", from {table['from']}" if table["from"] else ", the first"
    return f"{table['file'] or 'a table'} ({table['digest'][:16]}..{first})"


def touch_in_words(touch: Mapping[str, Any], now: float) -> str:
    return f"{touch['kind']}, {touch['moment']}, {ago(touch['moment'], now)}"


def screen(found: Found, now: float) -> list[str]:
    """The lines that people read."""
    return [f"{name:<11} {text}".rstrip() for name, text in screen_rows(found, now)]


def screen_rows(found: Found, now: float) -> list[tuple[str, str]]:
    """What these lines say, each with its name."""
    at = f" at {found['address']}" if found["server"] and found["address"] else found["address"] or ""
    up = f"yes, answered in {found['answer_milliseconds']:g} ms" if found["up"] else \
        f"{'not known' if found['up'] is None else 'NO'}: {found['why']}"
    rows = [("time", found["at"]), ("server", f"{found['server'] or ''}{at}"), ("up", up)]
    unit = found.get("unit")
    if unit:
        since = f" since {unit['since']}" if unit["since"] else ""
        rows.append(("unit", f"{unit['state']}{since}; restarts {unit['restarts']}"))
    if found["touches"] is not None:
        rows.append(("touches", f"{found['touches']:,}"))
    if "room" in found:
        rows += journal_rows(found, now)
    elif found["answers"]:
        rows.append(("room", "not known without --journal FILE"))
    return [*rows, *(("note", note) for note in found["notes"])]


def journal_rows(found: Found, now: float) -> list[tuple[str, str]]:
    """What is shown of a journal."""
    used = 100 * (found["capacity"] - found["room"]) / found["capacity"]
    rows = [("room", f"{found['room']:,} of {found['capacity']:,} ({used:.1f} % used)"), ("full", full(found)),
            ("disk", disk(found))]
    if "copy_age_seconds" in found:
        rows.append(("copy", copied(found)))
    inside = "not known" if found["cards_inside"] is None else f"{found['cards_inside']:,}"
    rows.append(("inside", f"{inside} of {found['cards']:,} cards"))
    last = found["last"]
    rows.append(("last touch", touch_in_words(last, now) if last else "none"))
    if last:
        rows.append(("", ", ".join(f"{name} {value}" for name, value in last.items() if name not in ("kind", "moment"))))
    rows += [(f"gate {touch['gate']}", f"number {touch['number']}, {touch_in_words(touch, now)}")
             for touch in found["gates"]]
    return [*rows, ("table", named(found["table"])), *(("next table", named(table)) for table in found["next"])]


def disk(found: Found) -> str:
    """How much room the disk has, and how much the journal still needs of it."""
    free, missing = found["disk_free_bytes"], found["journal_missing_bytes"]
    return f"{size(free)} free; the journal " + (f"needs {size(missing)} more" if missing else "has its whole size")


def copied(found: Found) -> str:
    """How old the newest copy and the newest seal are, in words, and the newest copy on another computer, where copies
    are sent to one."""
    shown = (("", "copy"), ("seal ", "seal"), ("on another computer ", "remote_copy"))
    ages = [(name, found[f"{key}_age_seconds"]) for name, key in shown if f"{key}_age_seconds" in found]
    return "; ".join(name + (f"{span(age)} old" if age is not None else "none") for name, age in ages)


def full(found: Found) -> str:
    """When the journal is full, in words."""
    if found["room"] == 0:
        return "now"
    if found["newest"] is None:
        return "not known: no touch yet"
    if found["touches_a_day"] is None:
        return f"not known: no touch in the last 7 days, the newest is from {found['newest'][:10]}"
    is_soon = found["full_on"] is not None and found["full_on"] < FAR
    when = f"in {found['days_until_full']:,.0f} days, on {found['full_on']}" if is_soon else f"not before {FAR}"
    pace = found["touches_a_day"]
    return f"{when}, at {f'{pace:,.0f}' if pace >= 10 else f'{pace:g}'} touches a day (the last 7 days)"
