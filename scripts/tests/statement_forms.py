"""A statement of scripts/tests/statement_model.py in the three formats of `bovtrila statement` (docs/reference/COMMANDS.md,
"statement"): its text, its rows of CSV, and what its JSON has."""
import datetime
import time
from collections.abc import Iterator
from typing import Any

from bovtrila import model
from bovtrila.model import Day, Moment, Pence, Tap
from statement_model import DayRow, Incomplete, Journey, Reason, Refused, Statement, TopUp

HEADING = "kind,day,pence,low,high,detail,station,moment,to,ended,covered"
SENTENCES: dict[Reason, str] = {
    "Open": "touched in at {}, and no touch in or out followed",
    "EnteredOver": "touched in at {}, and the next touch was another touch in",
    "NotLeftInTime": "touched in at {}, and touched out after the time limit",
    "Late": "touched out at {} after the time limit",
    "Unstarted": "touched out at {} without a touch in",
}


def date(day: Day) -> str:
    return str(datetime.date(1970, 1, 1) + datetime.timedelta(days=day))


def utc(moment: Moment) -> str:
    return datetime.datetime.fromtimestamp(moment, datetime.timezone.utc).strftime("%Y-%m-%dT%H:%M:%SZ")


def clock(moment: Moment) -> str:
    """The clock of a moment in the zone of the model's tables."""
    return time.strftime("%H:%M", time.localtime(moment))


def local(moment: Moment) -> str:
    """The date and the clock of a moment in that zone."""
    return time.strftime("%Y-%m-%d %H:%M", time.localtime(moment))


def below(day: Day, tap: Tap) -> str:
    """The clock of a touch below a fare day, and how many dates later it is, if it is later."""
    at = datetime.date(*time.localtime(tap.stamp.moment)[:3])
    later = (at - datetime.date(1970, 1, 1)).days - day
    return clock(tap.stamp.moment) + (f" (+{later})" if later else "")


def pounds(pence: Pence) -> str:
    """An amount at the beginning of a line."""
    return f"{'-' if pence < 0 else ''}{abs(pence) // 100}.{abs(pence) % 100:02}".rjust(10)


def band(is_off_peak: bool) -> str:
    return "off-peak" if is_off_peak else "peak"


class Forms:
    """The formats of statements by one schedule."""

    def __init__(self, schedule: model.Schedule) -> None:
        self.schedule = schedule

    def name(self, day: Day, station: int) -> str | None:
        """A station's name in the table in force on a fare day, if the table has the station."""
        rows = self.schedule.on(day).table["station"]
        return next((row["name"] for row in rows if row["id"] == station), None)

    def at(self, tap: Tap) -> str:
        return self.name(tap.stamp.day, tap.station) or f"station {tap.station}"

    # ---- text

    def text(self, found: Statement) -> str:
        lines = [f"card {found.card}"]
        if found.before is not None and found.first is not None:
            lines += [f"before {date(found.first)}", *self.sums(*found.before)]
        for row in found.days:
            lines += ["", *self.day_lines(row)]
        if found.top_ups:
            lines += ["", "top-ups", *(f"{pounds(row.pence)}  {local(row.moment)}" for row in found.top_ups)]
        if found.refused:
            lines += ["", "refused", *map(self.refused_line, found.refused)]
        lines += ["", *self.sums(found.paid_in, found.charged), f"{pounds(found.balance)}  balance"]
        return "".join(f"{line}\n" for line in lines)

    def sums(self, paid_in: Pence, charged: Pence) -> list[str]:
        return [f"{pounds(paid_in)}  paid in", f"{pounds(charged)}  charged"]

    def day_lines(self, row: DayRow) -> Iterator[str]:
        yield date(row.day)
        yield from map(self.journey_line, row.journeys)
        yield f"{pounds(row.fares)}  fares"
        if row.cap:
            yield (f"{pounds(row.cap['price'])}  daily cap of zones {row.cap['lo']} to {row.cap['hi']}, {row.cap['kind']}")
        else:
            yield "            no daily cap"
        yield f"{pounds(row.charge)}  journeys"
        for each in row.incomplete:
            yield (f"{pounds(each.pence)}  {below(row.day, each.tap)}  maximum: "
                   f"{SENTENCES[each.reason].format(self.at(each.tap))}")
        yield f"{pounds(row.charge + row.missing)}  charged for {date(row.day)}"

    def journey_line(self, row: Journey) -> str:
        start, finish, fare = row.taps[0], row.taps[-1], row.fare
        return (f"{pounds(fare.pence)}  {below(start.stamp.day, start)} to {below(start.stamp.day, finish)}  "
                f"zones {fare.low} to {fare.high}  {band(fare.off_peak)}{', capped' if row.is_covered else ''}: "
                f"{self.at(start)} to {self.at(finish)}")

    def refused_line(self, row: Refused) -> str:
        act = "issue" if row.act == "issue" else f"touch {row.act}"
        if row.station is not None:
            act += f" at {self.name(row.day, row.station) or f'station {row.station}'}"
        if row.pence is not None:
            act = f"top-up of {pounds(row.pence).strip()}"
        return f"            {local(row.moment)}  {row.verdict}: {act}"

    # ---- CSV

    def csv(self, found: Statement) -> str:
        rows = [HEADING]
        if found.before is not None:
            rows += [self.row("paid_in_before", pence=found.before[0]), self.row("charged_before", pence=found.before[1])]
        for day in found.days:
            rows += self.day_csv(day)
        rows += [self.row("top_up", day=date(row.day), pence=row.pence, moment=utc(row.moment)) for row in found.top_ups]
        rows += [self.row("refused", day=date(row.day), pence=row.pence, detail=row.verdict, station=row.station,
                          moment=utc(row.moment)) for row in found.refused]
        rows += [self.row(name, pence=pence) for name, pence in (
            ("paid_in", found.paid_in), ("charged", found.charged), ("balance", found.balance))]
        return "".join(f"{row}\r\n" for row in rows)

    def row(self, kind: str, **fields: str | int | None) -> str:
        """A row of CSV: of its kind, and of the heading's fields that are not empty."""
        assert set(fields) <= set(HEADING.split(","))
        return ",".join("" if value is None else str(value) for value in (
            kind, *(fields.get(name) for name in HEADING.split(",")[1:])))

    def day_csv(self, row: DayRow) -> Iterator[str]:
        day = date(row.day)
        for taps, fare, is_covered in row.journeys:
            yield self.row("journey", day=day, pence=fare.pence, low=fare.low, high=fare.high, detail=band(fare.off_peak),
                           station=taps[0].station, moment=utc(taps[0].stamp.moment), to=taps[-1].station,
                           ended=utc(taps[-1].stamp.moment), covered="yes" if is_covered else "no")
        yield self.row("fares", day=day, pence=row.fares)
        if row.cap:
            yield self.row("cap", day=day, pence=row.cap["price"], low=row.cap["lo"], high=row.cap["hi"],
                           detail=row.cap["kind"])
        yield self.row("journeys", day=day, pence=row.charge)
        for tap, reason, pence in row.incomplete:
            yield self.row("touch", day=day, pence=pence, detail=reason, station=tap.station, moment=utc(tap.stamp.moment))
        yield self.row("charge", day=day, pence=row.charge + row.missing)

    # ---- JSON

    def json(self, found: Statement) -> dict[str, Any]:
        before = found.before and {"paid_in": found.before[0], "charged": found.before[1]}
        return {"card": found.card, "from": None if found.first is None else date(found.first),
                "to": None if found.last is None else date(found.last), "before": before,
                "days": [*map(self.day_json, found.days)], "top_ups": [*map(self.top_up_json, found.top_ups)],
                "refused": [*map(self.refused_json, found.refused)], "paid_in": found.paid_in, "charged": found.charged,
                "balance": found.balance}

    def day_json(self, row: DayRow) -> dict[str, Any]:
        cap = row.cap and {"pence": row.cap["price"], "low": row.cap["lo"], "high": row.cap["hi"],
                           "off_peak": row.cap["kind"] == "off-peak"}
        return {"day": date(row.day), "journeys": [self.journey_json(each) for each in row.journeys], "fares": row.fares,
                "cap": cap, "charge_for_journeys": row.charge, "touches": [self.touch_json(each) for each in row.incomplete],
                "charge": row.charge + row.missing}

    def journey_json(self, row: Journey) -> dict[str, Any]:
        return {"pence": row.fare.pence, "low": row.fare.low, "high": row.fare.high, "off_peak": row.fare.off_peak,
                "covered": row.is_covered, "from": self.at_json(row.taps[0]), "to": self.at_json(row.taps[-1])}

    def at_json(self, tap: Tap) -> dict[str, Any]:
        return {"station": tap.station, "name": self.name(tap.stamp.day, tap.station), "moment": utc(tap.stamp.moment),
                "time": clock(tap.stamp.moment)}

    def touch_json(self, row: Incomplete) -> dict[str, Any]:
        return {"pence": row.pence, "reason": row.reason, "at": self.at_json(row.tap)}

    def top_up_json(self, row: TopUp) -> dict[str, Any]:
        return {"day": date(row.day), "pence": row.pence, "moment": utc(row.moment)}

    def refused_json(self, row: Refused) -> dict[str, Any]:
        return {"day": date(row.day), "moment": utc(row.moment), "verdict": row.verdict, "act": row.act,
                "station": row.station, "pence": row.pence}
