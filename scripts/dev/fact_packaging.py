"""Reads in packaging/ what pages have of it: the settings of units, the addresses, and when the timers of a network start."""
import pathlib
import re

from fact_code import Wrong, text_of
from fact_regions import Region

PAGE = "docs/operate/OPERATING.md"
NETWORK_PAGE = "docs/operate/NETWORK.md"
EXPORTER = "tools/bovtrila/commands/exporter.py"
# Where each address is set, and how it is read there.
ADDRESSES = {"packaging/serve.conf": r"^listen = (.+)$", "packaging/stunnel/bovtrila.conf": r"^accept = :::(\d+)$",
             "packaging/haproxy/bovtrila.cfg": r"^    setenv LISTEN .*:::(\d+)$",
             "packaging/stunnel/gate.conf": r"^accept = (.+)$", EXPORTER: r'^PLACE = \("(.+)", (\d+)\)$'}


def settings(top: pathlib.Path, unit: str) -> dict[str, str]:
    """The settings of a unit by their names."""
    return dict(re.findall(r"^(\w+)=(.*)$", text_of(top, f"packaging/{unit}"), re.M))


def unit_row(own: dict[str, str]) -> str:
    """What a unit does if its program ends, its open files, and the modes of the folder and the files that it makes."""
    ends = "runs again by its timer"
    if "Restart" in own:
        ends = f"`Restart={own['Restart']}` after {own['RestartSec']} s"
        ends += f", at most {own['StartLimitBurst']} times in {own['StartLimitIntervalSec']} s" if "StartLimitBurst" in own else ""
        ends += f", not after status {own['RestartPreventExitStatus']}" if "RestartPreventExitStatus" in own else ""
        ends += f"; {own['SuccessExitStatus']} is no failure" if "SuccessExitStatus" in own else ""
    modes = [own["StateDirectoryMode"]] if "StateDirectoryMode" in own else []
    return " | ".join([own.get("User", "root"), ends, own.get("LimitNOFILE", ""), ", ".join([*modes, f"0{0o666 & ~int(own['UMask'], 8):o}"])])


def units(top: pathlib.Path) -> Region:
    """The units. Those of several servers have a row with that of one server, where their settings are the same."""
    by_row: dict[str, list[str]] = {}
    for file in sorted(top.glob("packaging/*.service")):
        try:
            by_row.setdefault(f"{file.stem.removesuffix('@')} | {unit_row(settings(top, file.name))}", []).append(file.name)
        except KeyError as key:
            raise Wrong(f"packaging/{file.name}: no setting {key}; add it") from None
    rows = (f"{', '.join(f'`{name}`' for name in names)} | {row.partition(' | ')[2]}" for row, names in by_row.items())
    heading = "Unit | Runs as | If its program ends | Open files | Modes of folder and files | Does"
    return Region(PAGE, "units", (heading, *rows), by_hand=1)


def addresses(top: pathlib.Path) -> Region:
    """The addresses that settings and scripts have, until somebody changes them."""
    rows = []
    for file, form in ADDRESSES.items():
        found = re.search(form, text_of(top, file), re.M)
        if not found:
            raise Wrong(f"{file}: no address is there; scripts/dev/fact_packaging.py has to be changed with it")
        name = "bovtrila-exporter" if file == EXPORTER else file.rpartition("/")[2]
        rows.append(f"`{name}` | {':'.join(found.groups())}")
    return Region(PAGE, "addresses", ("Set in | Address or port | Listens there", *rows), by_hand=1)


def network_timers(top: pathlib.Path) -> Region:
    """The timers of a network, in the order in which they start."""
    rows = []
    for file in top.glob("packaging/network/*.timer"):
        found = re.search(r"^OnCalendar=\*-\*-\* (\d\d:\d\d)$", file.read_text(), re.M)
        if not found:
            raise Wrong(f"packaging/network/{file.name}: no time of each day is there; scripts/dev/fact_packaging.py has to be changed with it")
        rows.append((found[1], file.stem))
    return Region(NETWORK_PAGE, "timers of a network", ("Timer | At | Does", *(f"`{name}` | {time}" for time, name in sorted(rows))), by_hand=1)


def regions(top: pathlib.Path) -> list[Region]:
    """The regions of both pages."""
    return [units(top), addresses(top), network_timers(top)]
