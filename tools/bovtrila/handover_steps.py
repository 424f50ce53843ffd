# SPDX-License-Identifier: Apache-2.0
"""The steps of bovtrila-next-journal, from an old journal to the one that follows it, and the way back where one fails."""
import argparse
import contextlib
import datetime
import json
import os
import pathlib
import shlex
import subprocess
import time
from collections.abc import Callable, Iterator, Sequence

from bovtrila import due, handover, layout, old_server, places, serving, settings, table_file, wire
from bovtrila.wire import Wrong


def told(text: str) -> None:
    print(text, flush=True)


def wrong_in_words(error: BaseException, folder: pathlib.Path) -> str:
    """A fault in one line."""
    said = f"{error.filename or folder}: {error.strerror or error}" if isinstance(error, OSError) else str(error)
    return "; ".join(line.strip() for line in said.splitlines() if line.strip())


class Handover:
    """The steps, from an old journal to the one that follows it."""

    def __init__(self, asked: argparse.Namespace, folder: pathlib.Path) -> None:
        self.asked, self.program = asked, serving.program(asked.program)
        self.owner = serving.Owner(asked.user)
        self.folder: pathlib.Path = asked.folder
        self.old = self.folder / asked.old
        self.work = handover.Work(folder, self.owner)
        if not self.old.is_file():
            raise Wrong(f"{self.old}: no such file; name the journal by its name in {self.folder}")
        with open(self.old, "rb") as file:
            header = file.read(layout.HEADER)
        if len(header) < layout.HEADER or header[1:9] != layout.VERSION:
            raise Wrong(f"{self.old}: this is no journal of today's format")
        self.plan = self.work.plan(self.chosen(*(int.from_bytes(header[at:at + 4], "big") for at in (9, 13))))
        self.new, self.before = self.folder / self.plan["new"], settings.Words(shlex.split(self.plan["words"]))
        self.server = old_server.OldServer(asked, self.work, self.old, self.before)
        self.is_unattended, self.is_placing = asked.when_above is not None, False

    def chosen(self, capacity: int, cards: int) -> due.Plan:
        """What was asked for, which a later run goes on with."""
        asked, words = self.asked, settings.words_of(self.asked.config)
        now = datetime.datetime.now(datetime.timezone.utc)
        new = asked.journal or due.name_after(self.folder, self.old, now)
        capacity = asked.capacity or (1_000_000 if asked.when_above is None else capacity)
        if not self.work.has("plan.json") and self.folder / words["journal"] != self.old:
            raise Wrong(f"{asked.config} names {words['journal']}, and not {asked.old}")
        if new == asked.old:
            raise Wrong(f"the new journal can't have the name {new}: that is the old one's")
        if asked.cards and asked.cards < cards:
            raise Wrong(f"--cards {asked.cards} is below the {cards} of {asked.old}")
        if not self.work.has("plan.json") and (self.folder / new).exists():
            raise Wrong(f"{self.folder / new} is there already: name another by --journal")
        return {"old": asked.old, "capacity": capacity, "cards": asked.cards or cards, "table": asked.table,
                "gate": asked.gate, "first": asked.first, "journal": asked.journal,
                "unattended": asked.when_above is not None, "moment": f"{now:%Y-%m-%dT%H:%M:%SZ}", "new": new,
                "words": str(words)}

    def verified(self, journal: pathlib.Path, *more: str) -> dict[str, str]:
        """What `verify` says of the old journal, or of its copy, by its lines' names."""
        words = [self.program, "verify", "--journal", journal, "--table", self.before["table"], *more,
                 *self.before.revised]
        status, out, err = serving.run(words, cwd=self.folder)
        found = dict(line.partition(" ")[::2] for line in out.splitlines())
        if status == 3:
            raise Wrong(f"{self.old} has {found['behind']} open slots behind its end: FAULTS.md, \"Notes\"")
        if status or "sound" not in found:
            raise Wrong(f"{journal}: {err.strip() or out.strip()}")
        return found

    # The steps, in their order.

    def gates(self) -> str:
        """Sees that no touch comes. Unattended, what follows is worked out meanwhile, so that gates wait for less."""
        if not self.is_unattended:
            return self.server.look()
        self.server.now()
        limit = time.monotonic() + self.asked.within
        while True:
            touches = self.foresee()
            said = self.server.wait_for_quiet(limit)
            if self.server.front == touches:
                return said
            self.server.check_time(limit)

    def stop(self) -> str:
        self.server.stop()
        if not self.work.has("seal"):
            handover.copy(self.old, self.work / "old.journal", self.owner)
            self.work.write("seal", "sealed " + self.verified(self.work / "old.journal", "--seal")["sealed"] + "\n")
        return self.sealed()

    def balances(self, journal: pathlib.Path | None = None) -> str:
        """Writes down what each card holds, and which table counts."""
        journal = journal or self.work / "old.journal"
        if not self.work.has("old.csv", "tables.json"):
            words = ["--table", self.before["table"], "--journal", journal, *self.before.revised]
            status, out, err = serving.run([self.program, "balances", *words], cwd=self.folder)
            if status or not err.endswith("balanced\n"):
                raise Wrong(f"balances: {err.strip()}")
            handover.check_printed(err, out)
            self.work.write("old.csv", out)
            self.work.write("tables.json", json.dumps(self.tables(words)) + "\n")
        self.found: handover.Tables = json.loads(self.work.read("tables.json"))
        self.held = handover.balances_of(self.work.read("old.csv"))
        return (f"{len(self.held)} cards hold {sum(pence for pence, _ in self.held.values())} pence; the fare table is "
                f"{self.found['now']}, its balance limit {self.found['limit']}")

    def tables(self, words: Sequence[object]) -> handover.Tables:
        """Which table counts at the moment of the requests, by the history."""
        moment = int(datetime.datetime.fromisoformat(self.plan["moment"].replace("Z", "+00:00")).timestamp())
        named = [(name, self.folder / name) for name in self.before.tables()]
        with subprocess.Popen([self.program, "history", *map(str, words)], cwd=self.folder, text=True,
                              stdout=subprocess.PIPE) as history:
            assert history.stdout  # it is a pipe
            found = handover.tables_of(history.stdout, named, moment)
        if history.returncode:
            raise Wrong(f"history ended with status {history.returncode}")
        if self.plan["table"]:
            found["now"] = self.plan["table"]
            found["limit"] = table_file.read(self.folder / self.plan["table"]).table["balance_limit"]
        return found

    def requests(self) -> str:
        if not self.work.has("lines", "left"):
            words = [places.command("carry-over"), self.work / "old.csv", "--moment", self.plan["moment"], "--limit",
                     self.found["limit"], "--gate", self.plan["gate"], "--first", self.plan["first"]]
            status, out, err = serving.run(words)
            if status:
                raise Wrong(err.strip())
            self.work.write("lines", out)
            self.work.write("left", err)
        self.lines = [bytes.fromhex(line) for line in self.work.read("lines").split()]
        self.sums = handover.sums_of(self.work.read("left"))
        # A person sends revisions that are to come again, and an unattended run does so by itself.
        self.again = [handover.revision(self.folder / name, day, self.plan["gate"]) for name, day in self.found["later"]
                      if self.plan["unattended"]]
        handover.check_sums(self.held, self.sums)
        self.sent, capacity = len(self.lines) + len(self.again), self.plan["capacity"]
        if self.sent >= capacity:
            raise Wrong(f"{self.sent} requests leave no room in a journal of {capacity} touches: remove "
                        f"{self.work.folder}, and begin again with a higher --capacity")
        if self.is_unattended and 100 * self.sent >= self.asked.when_above * capacity:
            raise Wrong(f"{self.sent} requests fill a journal of {capacity} touches to {self.asked.when_above} % or more, "
                        "so each run would begin another one: name a higher --capacity")
        return f"{len(self.lines)} requests carry {self.sums['carried']} pence"

    def foresee(self) -> int | None:
        """Does steps 3 and 4 while the old server runs, and finds what would hinder a later one: for how many touches.
        They are done again if a touch comes meanwhile."""
        for name in ("old.csv", "tables.json", "lines", "left"):
            (self.work / name).unlink(missing_ok=True)
        system = os.statvfs(self.folder)
        free, needed = system.f_bavail * system.f_frsize, self.new_size() + self.old.stat().st_size
        if free < needed:
            raise Wrong(f"{self.folder}: {free} bytes are free, and the new journal and a copy of the old one need "
                        f"{needed}: make room. Nothing was changed")
        touches = int(self.verified(self.old)["touches"])
        self.balances(self.old)
        self.requests()
        return touches if old_server.touches_of(self.old)[0] == touches else None

    def new_size(self) -> int:
        return layout.HEADER + layout.SLOT * self.plan["capacity"] + 1

    def following(self) -> settings.Words:
        """The words of the server from now on."""
        words = self.before.copy()
        words.options.update({"--table": self.found["now"], "--journal": self.plan["new"],
                              "--cards": str(self.plan["cards"]), "--capacity": str(self.plan["capacity"])})
        words.revised = list(dict.fromkeys(name for name, _ in self.found["later"] if name != self.found["now"]))
        return words

    @contextlib.contextmanager
    def served(self) -> Iterator[serving.Started]:
        """A server of the new journal on a port that no gate knows. A journal whose making was cut short is made
        anew."""
        words = self.following()
        words.options.update({"--journal": str(self.work / "new.journal"), "--listen": "127.0.0.1:0", "--lines": "1"})
        # The journal is to be made, nothing is to be waited for, and no rule of the door is for this script.
        words.flags = []
        words.options.pop("--door", None)
        begin = [self.program, "serve", *words.arguments()]
        try:
            server = serving.Started(begin, cwd=self.folder, **self.owner.start)
        except Wrong as wrong:
            if "fault journal 3 " not in str(wrong):
                raise
            (self.work / "new.journal").unlink()
            server = serving.Started(begin, cwd=self.folder, **self.owner.start)
        with server:
            yield server

    def make(self) -> str:
        if not self.work.has("answers"):
            with self.served():
                pass
        plan = self.plan
        return f"its first table is {self.found['now']}, for {plan['cards']} cards and {plan['capacity']} touches"

    def send(self) -> str:
        """Sends the requests. One that was sent before has its first answer."""
        if not self.work.has("answers"):
            with self.served() as server, wire.Connection(server.address, self.asked.patience) as line:
                answers = list(handover.answered(line, [*self.lines, *self.again]))
            self.work.write("answers", "".join(answers))
        return f"each of the {self.sent} requests was answered as it has to be"

    def compare(self) -> str:
        if not self.work.has("compared"):
            words = ["--table", self.found["now"], "--journal", self.work / "new.journal", *self.following().revised]
            status, out, err = serving.run([self.program, "balances", *words], cwd=self.folder)
            if status or not err.endswith("balanced\n"):
                raise Wrong(f"balances of the new journal: {err.strip()}")
            handover.check_printed(err, out)
            self.work.write("new.csv", out)
            new = handover.balances_of(out)
            wrong = list(handover.differences(self.held, new, self.found["limit"]))
            total = sum(pence for pence, _ in new.values())
            if wrong or total != self.sums["carried"]:
                raise Wrong(f"the new journal isn't as it has to be, {len(wrong)} cards: {'; '.join(wrong[:5])}. Its "
                            f"sum is {total}, and {self.sums['carried']} was carried. The new journal wasn't used: look at "
                            f"{self.work.folder}")
            self.work.write("compared", f"cards {len(new)}\nbalance {total}\n")
        return f"each of {len(self.held)} cards holds what was carried: {self.sums['carried']} pence"

    def start(self) -> str:
        """Lets the server's settings name the new journal, and starts it."""
        words, self.is_placing = self.following(), True
        if not self.new.exists():
            with open(self.work / "new.journal", "r+b") as file:
                os.posix_fallocate(file.fileno(), 0, self.new_size())
                os.fsync(file.fileno())
            os.replace(self.work / "new.journal", self.new)
            serving.sync(self.folder)
        if not self.is_switched():
            serving.write(self.asked.config, settings.written(words, settings.text_of(self.asked.config)))
        if not self.asked.start and not serving.has_server(self.new):
            return f"start the server now, by the settings in {self.asked.config}"
        wrong = old_server.start(self.asked, self.new, words)
        if wrong:
            raise Wrong(f"{wrong}: start it by the settings in {self.asked.config}, and give the same command again")
        # It has answered once; gates that connect again may take all its slots meanwhile.
        fronts = (serving.front_of(words) for _ in range(3))
        front = next((front for front in fronts if front is not None), 0)
        if front < self.sent:
            raise Wrong(f"the server at {words['listen']} has {front} touches, and {self.sent} were sent: is it another's?")
        return f"the server at {words['listen']} has {front} touches"

    STEPS: Sequence[tuple[str, Callable[["Handover"], str]]] = (
        ("the gates", gates), ("the old server", stop), ("the balances", balances), ("the requests", requests),
        ("the new journal", make), ("sending", send), ("comparing", compare), ("the server", start))

    def is_switched(self) -> bool:
        """Whether the server's settings name the new journal."""
        return self.folder / settings.words_of(self.asked.config)["journal"] == self.new

    def run(self) -> None:
        """Does each step that isn't done yet. If one fails, the old server runs again."""
        try:
            self.go_on()
        except BaseException as error:
            said = self.put_back()
            if said and isinstance(error, (Wrong, OSError)):
                raise Wrong(f"{wrong_in_words(error, self.folder)}; {said}") from None
            raise
        self.server.forget()

    def put_back(self) -> str:
        """Lets the old server run again, if this run or an earlier one has stopped it: what was done, in words. By hand
        nothing is stopped or started here."""
        if not (self.asked.stop and self.asked.start):
            return ""
        old_server.ENDING.ignore()
        try:
            if self.is_switched():
                return self.server.take_back(self.new, self.sent) if self.is_placing else ""
            return self.server.back() if self.server.is_stopped() else ""
        except (Wrong, OSError) as error:
            return f"and no server was started again, by this: {wrong_in_words(error, self.folder)}: start it by hand"

    def go_on(self) -> None:
        """Does each step that isn't done yet, and checks those that are. Once the server's settings name the new journal,
        it may run and have touches of gates: then the old one is no server's any more."""
        was_switched = self.is_switched()
        for number, (name, step) in enumerate(self.STEPS, 1):
            told(f"step {number} of 8, {name} ..")
            if was_switched and number == 1:
                told("          the server's settings name the new journal already")
            elif was_switched and number == 2:
                told(f"          {self.sealed()}")
            else:
                told(f"          {step(self)}")
        self.work.write("page", handover.page(self))
        told("\n" + self.work.read("page").rstrip("\n"))

    def sending(self, table: str, day: str) -> str:
        """The command that sends a revision to the new journal."""
        words = ["bovtrila-new-fares", str(self.folder / table), "--from", day]
        if self.asked.name:
            words += ["--name", self.asked.name]
        if self.folder != serving.folder_of(None, self.asked.name):
            words += ["--folder", str(self.folder)]
        if self.asked.config != serving.config_of(None, self.asked.name):
            words += ["--config", str(self.asked.config)]
        return shlex.join(words)

    def sealed(self) -> str:
        """Sees that the old journal is still the one that was sealed, and gives the touches of its seal."""
        seal = self.work.read("seal").split()
        found = self.verified(self.old, "--sealed", *seal[1:])
        if found["touches"] != seal[1]:
            raise Wrong(f"{self.old} has {found['touches']} touches, and {seal[1]} were copied: a server was started "
                        f"with it since. Remove {self.work.folder} and {self.new}, and begin again")
        return f"{self.old.name} has {seal[1]} touches; its copy is {self.work / 'old.journal'}"

    def rehearse(self) -> None:
        """Says what each step would do, by reading alone."""
        touches, balances = self.verified(self.old)["touches"], self.balances(self.old)
        requests = self.requests()
        would = [f"see that no touch comes for {self.asked.watch} s; now it has {touches} touches",
                 f"run '{self.asked.stop}', copy {self.old.stat().st_size} bytes to after-{self.old.name}, and seal it",
                 f"write down the balances: now {balances}", f"make the requests: now {requests}",
                 f"make {self.plan['new']} for {self.plan['cards']} cards and {self.plan['capacity']} touches",
                 "send the requests to it, by a server on a free port of 127.0.0.1", "compare each card's balance",
                 f"give {self.plan['new']} its {self.new_size()} bytes, write the settings {self.following()} to "
                 f"{self.asked.config}, and run '{self.asked.start}'"]
        for number, (text, (name, _)) in enumerate(zip(would, self.STEPS), 1):
            told(f"step {number} of 8, {name}: would {text}")
        told("\nNot carried, as things stand:")
        for line in handover.not_carried(self.held, self.found["limit"], self.found, self.sending):
            told(line)
        told("\nNothing was changed.")
