# SPDX-License-Identifier: Apache-2.0
"""The page of bovtrila-day-report: tiles at the head, then charts, with their rows folded up below each."""
import collections
import datetime
import tomllib
import zoneinfo
from collections.abc import Iterable

from bovtrila.day_charts import COLOURS, SECOND, Pence, bars_chart, clock, money_chart, shown, touches_chart
from bovtrila.day_tally import MAXIMA, QUARTERS, REASONS, REFUSALS, WEEK, Report, Sums, Tally, days_before
from bovtrila.history_rows import Row, Wrong
from bovtrila.report_page import Cell, Page, Section, Table, Tile, folded, plural, several, words

# How many rows a long table shows.
SHOWN = 100
# A number at the head of a page, or ?, what it is, what belongs to it, and the number of the same weekday before.
Figure = tuple[Cell, str, str, int | None]


def figures(tally: Tally) -> list[tuple[str, int]]:
    """The numbers of a tally, as the page of a network has them too."""
    (cards, refused), (paid, charged) = tally.cards(), tally.money()
    sums = [tally.maxima_of(verdict) for verdict in MAXIMA]
    return [("Touches of cards", cards), ("of these accepted", cards - refused), ("and refused", refused),
            ("Cards with an accepted touch", len(tally.touches_by_card)), ("Paid in", Pence(paid)),
            ("Charged", Pence(charged)), ("Journeys found to cost a maximum", sum(each[0] for each in sums)),
            ("Cards inside at the end", len(tally.inside)),
            ("Entry charges that these hold", Pence(sum(tally.inside.values())))]


def silent_tile(report: Report) -> Figure:
    """The tile of the silent gates, which aren't known if the file has no earlier touch."""
    if not report.has_week():
        return "?", "silent gates", "the file has no touch of the week before", None
    gates = [f"gate {gate}" for gate, _ in report.silent()]
    said = ", ".join(gates) or "each gate of the week before had a touch"
    return len(gates), "silent gate" + plural(len(gates)), said, None


def glance(report: Report) -> list[Figure]:
    """The numbers at the head of a page: of each a number, what it is, what belongs to it, and the number of the same
    weekday before, where the file has touches of that day."""
    tally, before = report.tally, report.before
    (cards, refused), (paid, charged), maxima = tally.cards(), tally.money(), report.maxima()
    week: list[int | None] = [None] * 5
    if report.day and before is not None and before.touches_by_day:
        earlier = report.maxima(days_before(report.day, WEEK))
        week = [before.cards()[0], *map(Pence, reversed(before.money())), before.cards()[1], len(earlier)]
    held = Pence(sum(tally.inside.values()))
    counted = f"{several(len(tally.touches_by_card), 'card')}, {several(report.gates(), 'gate')}"
    return [(cards, f"touch{plural(cards, 'es')} of cards", counted, week[0]),
            (Pence(charged), "charged", "less what was given back", week[1]),
            (Pence(paid), "paid in", "", week[2]),
            (refused, "refused", f"{100 * refused / cards:.1f} % of the touches" if cards else "", week[3]),
            (len(maxima), "maximum charge" + plural(len(maxima)), str(Pence(sum(each.pence for each in maxima))), week[4]),
            (len(tally.inside), f"card{plural(len(tally.inside))} inside at the end",
             f"hold {held}" if tally.inside else "", None),
            silent_tile(report)]


def compared(number: Cell, before: int | None, day: str) -> str:
    """How a number differs from that of the same weekday before, in words."""
    if before is None:
        return ""
    if not int(before):
        return f"{day}: {before}"
    share = 100 * (int(number) - int(before)) / int(before)
    return f"{day}: {words(before)} ({share:+.0f} %)"


def tiles(report: Report) -> list[Tile]:
    """The tiles at the head of a page."""
    day = f"{datetime.date.fromisoformat(days_before(report.day, WEEK)):%a %d %b}" if report.day else ""
    return [Tile(words(number), name, [line for line in (more, compared(number, before, day)) if line])
            for number, name, more, before in glance(report)]


def below_the_first(count: int, place: str) -> str:
    """What stands below a table of so many rows of which it shows the first, if there are more."""
    return f"The first {SHOWN} stand here, and {count - SHOWN:,} more are in the {place}." if count > SHOWN else ""


def touches_section(tally: Tally) -> Section:
    """Touches by act, quarter by quarter."""
    rows, behind = list[tuple[Cell, ...]](), list[tuple[Cell, ...]]()
    for place in range(QUARTERS):
        all_of = [counts[place] for counts in tally.touches.values()]
        again = [counts[place] for counts in tally.second.values()]
        first = [count - later for count, later in zip(all_of, again)]
        rows += [(clock(place), *first)] if any(first) else []
        behind += [(clock(place) + SECOND, *again)] if any(again) else []
        if place + 1 == QUARTERS or clock(place + 1).endswith(":00"):
            rows, behind = rows + behind, []
    days = "" if len(tally.days()) == 1 else f" The {len(tally.days()):,} fare days are added up."
    went = (" The clock went back: of an hour that it showed twice the second stands in rows of its own, and in the "
            "chart with the first.") if any(map(any, tally.second.values())) else ""
    return Section(
        "Touches per quarter of an hour",
        f"Accepted and refused ones, by the clock of {tally.zone.key}. A fare day begins at {clock(0)}.{days}{went}",
        touches_chart(tally), folded(["From", *COLOURS], rows, columns=3))


def refusals_section(tally: Tally) -> Section:
    """Refusals by verdict."""
    rows = [(name, REFUSALS[name], count) for name, count in tally.refused().items() if count]
    if not rows:
        return Section("Refusals by verdict", "No touch was refused.")
    chart = bars_chart("refusals", [(name, count) for name, _, count in rows], "#D55E00", lambda count: f"{count:,}")
    return Section("Refusals by verdict", "A refused touch changes no balance.", chart,
                   folded(["Verdict", "Means", "Touches"], rows))


def money_section(tally: Tally) -> Section:
    """Money by the hour, or by the day where there are several."""
    rows, paid, charged = list[tuple[Cell, ...]](), 0, 0
    if len(tally.days()) == 1:
        parts: dict[int, Sums] = collections.defaultdict(lambda: (0, 0))
        for place in sorted(tally.by_quarter):
            (paid_before, charged_before), (paid_in, taken) = parts[place // 4], tally.by_quarter[place]
            parts[place // 4] = paid_before + paid_in, charged_before + taken
        named = [(shown(3600 * hour, tally.zone, "%a %H:%M"), pair) for hour, pair in parts.items()]
    else:
        named = sorted(tally.by_day.items())
    for name, pair in named:
        paid, charged = paid + pair[0], charged + pair[1]
        if any(pair):
            rows.append((name, *map(Pence, (*pair, paid, charged))))
    first = "Hour from" if len(tally.days()) == 1 else "Fare day"
    heads = [first, "Paid in", "Charged", "Paid in so far", "Charged so far"]
    return Section(
        "Money paid in and charged",
        "Charged is what touches in and out took, less what they gave back. A touch in takes an entry charge, and "
        "the touch out gives back what is over the fare, so the line may fall.",
        money_chart(tally), folded(heads, rows))


def cards_section(tally: Tally) -> Section:
    """The cards that were charged most."""
    most = tally.most_charged()
    if not most:
        return Section("Cards that were charged most", "No card was charged.")
    bars = [(f"card {card}", pair[1]) for card, pair in most]
    chart = bars_chart("cards", bars, COLOURS["in"], lambda pence: str(Pence(pence)))
    rows = [(str(card), Pence(pair[1]), Pence(pair[0]), tally.touches_by_card[card]) for card, pair in most]
    cut = tally.cut_off()
    more = (f" {cut[0]:,} cards were charged {Pence(most[-1][1][1])}: of these the {cut[1]} with the lowest numbers "
            "stand here.") if cut else ""
    return Section("Cards that were charged most", f"The ten highest, less what was given back.{more}", chart,
                   folded(["Card", "Charged", "Paid in", "Accepted touches"], rows))


class Stations:
    """The names of stations, by a fare table."""

    def __init__(self, names: Iterable[tuple[int, str]] = ()) -> None:
        self.names = dict(names)

    def named(self, number: int | str) -> str:
        name = self.names.get(int(number))
        return f"{name} ({number})" if name else f"station {number}"

    def where(self, row: Row, zone: zoneinfo.ZoneInfo) -> str:
        """When and where a touch in or out was, by the clock of the zone."""
        return f"{shown(row.moment, zone, '%Y-%m-%d %H:%M:%S')}, {self.named(row.station)}"


def stations_of(path: str) -> Stations:
    """The names of the stations of a fare table."""
    try:
        with open(path, "rb") as file:
            return Stations((row["id"], row["name"]) for row in tomllib.load(file)["station"])
    except OSError as error:
        raise Wrong(f"{path}: {error.strerror}; name a fare table that can be read") from None
    except (ValueError, KeyError, TypeError) as error:
        raise Wrong(f"{path}: this is no fare table ({error}); bovtrila check says more") from None


def charges_section(report: Report, stations: Stations) -> Section:
    """The maxima that the day's touches were charged, by their reasons (FARES.md, "Entry charge",
    "Incomplete")."""
    found, zone = report.maxima(), report.tally.zone
    sums: dict[tuple[str, str], list[int]] = collections.defaultdict(lambda: [0, 0])
    for each in found:
        for place, number in enumerate((1, each.pence)):
            sums[each.told.verdict, each.touch.act][place] += number
    summed = [(f"touch {act}: {REASONS[verdict, act]}", count, Pence(pence))
              for (verdict, act), (count, pence) in sorted(sums.items())]
    rows = [(str(each.touch.card), each.touch.act, stations.where(each.touch, zone),
             REASONS[each.told.verdict, each.touch.act],
             "itself" if each.told is each.touch else stations.where(each.told, zone), str(each.told.place),
             Pence(each.pence)) for each in found[:SHOWN]]
    heads = ["Card", "Touch", "When and where", "Reason", "Shown by", "At place", "Charged"]
    lost = (f" The touches in of {report.lost:,} journeys aren't in the file: what these were charged isn't in these "
            "sums.") if report.lost else ""
    return Section(
        "Maximum charges",
        ("A touch in takes a maximum as its entry charge, and keeps it unless a touch out ends its leg in time. A "
         "touch out that ends no leg is charged a maximum too. Each is listed on the day of the charged touch, even if "
         "only a later touch showed that it was a maximum." if found else "No touch was charged a maximum, as far as "
         "the file tells.") + lost, "",
        [Table(["Reason", "Touches", "Charged"], summed), *folded(heads, rows)] if found else [],
        below_the_first(len(found), "file"))


def becomes(row: Row | None, zone: zoneinfo.ZoneInfo, stations: Stations) -> str:
    """What became of a touch in that was open at the end of a day, by the card's next touch."""
    if row is None:
        return "the file has no later touch of this card"
    if row.verdict == "Exited":
        return f"out in time, {stations.where(row, zone)}"
    if row.verdict == "ExitedLate":
        return f"out too late, a maximum: {stations.where(row, zone)}"
    return f"left open, a maximum: in {stations.where(row, zone)}"


def open_section(report: Report, stations: Stations) -> Section:
    """The cards that were inside at the end."""
    zone = report.tally.zone
    found = report.open()
    if not found:
        return Section("Inside at the end", "No card was inside.")
    rows = [(str(row.card), stations.where(row, zone), Pence(-row.change), becomes(after, zone, stations))
            for row, after in found[:SHOWN]]
    return Section(
        "Inside at the end", "Each of these cards has a touch in of the day without a touch out on it, and holds its "
        "entry charge. What becomes of it, its next touch tells.", "",
        folded(["Card", "Touch in", "Entry charge", "Then"], rows), below_the_first(len(found), "file"))


def silent_section(report: Report) -> list[Section]:
    """The gates that had a touch in the week before, and none on the day, if there are any."""
    zone = report.tally.zone
    rows = [(str(gate), shown(row.moment, zone, "%a %Y-%m-%d %H:%M:%S"), str(row.number))
            for gate, row in report.silent()]
    return [Section("Silent gates", "These had a touch in the seven days before, and none on the day.", "",
                    [Table(["Gate", "Last touch", "Number"], rows)])] if rows else []


def revisions_section(tally: Tally) -> Section:
    """The revisions of the day."""
    rows = [(str(row.place), row.day, row.station, row.verdict) for row in tally.revisions]
    return Section("Revisions of the fares", "They are of no card, and stand under the day from which they count.", "",
                   folded(["Place", "Counts from", "Digest of the table", "Verdict"], rows))


def sections(report: Report, stations: Stations) -> list[Section]:
    """The parts of a page below its tiles."""
    tally, parts = report.tally, []
    if tally.touches_by_day:
        parts += [touches_section(tally), money_section(tally), refusals_section(tally),
                  charges_section(report, stations), open_section(report, stations), *silent_section(report),
                  cards_section(tally)]
    else:
        parts += silent_section(report)
    return [*parts, revisions_section(tally)] if tally.revisions else parts


def notes(report: Report) -> list[str]:
    """What a page says below its tiles about touches that the file lacks, or that have another fare day."""
    tally, day, said = report.tally, report.day, []
    if not tally.touches_by_day:
        said.append(f"No touch of a card bears {'the fare day ' + day if day else 'any day: the file has none'}.")
    elif day and report.before is not None and not report.before.touches_by_day:
        said.append(f"The file has no touch of {days_before(day, WEEK)}, the same weekday before.")
    if tally.strange:
        said.append(f"{tally.strange:,} touches bear another fare day than the clock of {tally.zone.key} gives. So the "
                    "fare table has another zone: name it by --zone.")
    return said


def page(report: Report, digest: str, name: str, stations: Stations) -> str:
    """The whole page."""
    tally = report.tally
    days = [report.day] if report.day else tally.days()
    when = f"{days[0]} to {days[-1]}" if len(days) > 1 else f"{datetime.date.fromisoformat(days[0]):%A} {days[0]}" \
        if days else "no day"
    footer = f"Rows on this page: {tally.rows:,}. The file {name} has the SHA-256 digest {digest}."
    return Page(f"Station report: {when}", sections(report, stations), name, notes=notes(report), footer=footer,
                tiles=tiles(report) if tally.touches_by_day else []).html()
