# SPDX-License-Identifier: Apache-2.0
"""Replaces a journal that is full, or nearly, with a new one: the steps of "A full journal" in OPERATING.md.

OLD is the journal's name in the folder of a server that is set up as OPERATING.md says. First every gate needs
all its answers, must take no new touches, and must be ready for its next start (PROTOCOL.md, "A new journal"):
--settled confirms this. Each step reports what it does, and is checked. If a step fails, the old server is started
again, and the status is 1. If a run is cut off at any step, by a loss of power too, run the same command again: it
continues there.

    1  the gates: no touch may come any more, if the old server still answers
    2  the old server is stopped, and its journal is copied and sealed
    3  the balance of each card is written down, and which fare table is in force
    4  the requests that give each card its old balance are made
    5  the new journal is made, by a server that no gate can reach
    6  the requests are sent to that server; each has its one right answer
    7  the balances and their sums in the new journal are compared with those in the old one
    8  the server's settings name the new journal, with its whole size on the disk, and the server is started. If it
       doesn't answer, the settings are put back, unless the new journal has touches of gates already

The last lines are a page about what was transferred, what wasn't, and why. The folder after-OLD beside the journal
contains all files: the page, the copy of OLD with its seal, old.csv, lines, left, answers and new.csv. Store this
folder with the old journal, which stays.

With --dry-run the script changes nothing, and reports what it would do; the old server may continue.

With --when-above the script runs unattended, as by bovtrila-next-journal.timer. OLD is the journal in the settings. If
it is filled less than that, one line reports how full it is, nothing is changed, and the status is 0. Otherwise
nobody confirms that the gates have their answers:
  - the script needs a server that answers. While that runs, it does steps 3 and 4, and finds what would hinder a step;
  - it waits until no touch has come for --watch seconds, at most --within seconds, while the server continues to answer
    gates that repeat. If a touch comes while the server is being stopped, it starts that server again, and fails;
  - revisions of fares whose day is still to come are sent to the new journal too;
  - the new journal has the capacity of the old one. A run that was cut off is finished or begun anew by the next one.
A failure is one line on standard error. The file next-journal.failed in the server's folder has it until a run succeeds.

    bovtrila-next-journal station.journal --dry-run
    bovtrila-next-journal station.journal --settled
    bovtrila-next-journal station.journal --settled --journal station-2.journal --capacity 500000 --cards 2000
    bovtrila-next-journal alder.journal --name alder-1 --settled
    bovtrila-next-journal --when-above 90%
"""
import argparse
import pathlib
import tempfile

from bovtrila import due, handover, handover_steps, old_server, serving
from bovtrila.wire import Wrong

# How many seconds without a touch an unattended change waits for. A gate without an answer reaches the server within
# 40 seconds: it waits up to 30 seconds, and with two addresses up to 4 for each.
ALONE = 130


def options() -> argparse.Namespace:
    parser = argparse.ArgumentParser(description=__doc__, formatter_class=argparse.RawTextHelpFormatter)
    parser.add_argument("old", metavar="OLD", nargs="?",
                        help="the old journal, by its name in the server's folder; not with --when-above")
    how = parser.add_mutually_exclusive_group(required=True)
    how.add_argument("--settled", action="store_true",
                     help="confirm that each gate has all its answers, sends no new touch, and is ready for\n"
                          "its next start")
    how.add_argument("--when-above", metavar="PERCENT", type=due.percent,
                     help="run unattended, if the journal of the settings is filled to PERCENT, 1 to 99, or more")
    how.add_argument("--dry-run", action="store_true", help="change nothing, and report what would be done")
    parser.add_argument("--journal", metavar="NEW", help="the new journal's name (OLD's with the date)")
    parser.add_argument("--table", metavar="FILE",
                        help="its first fare table, in the server's folder (the one in force)")
    parser.add_argument("--cards", metavar="N", type=serving.whole(1, 100_000), help="how many cards it has (as OLD)")
    parser.add_argument("--capacity", metavar="N", type=serving.whole(1, 1_000_000),
                        help="its capacity (1000000; with --when-above as OLD)")
    parser.add_argument("--gate", metavar="N", type=serving.whole(0, 65_535), default=65_535,
                        help="the gate number of the requests (65535)")
    parser.add_argument("--first", metavar="N", type=serving.whole(0, 2**32 - 1), default=100_000,
                        help="the number of the first request (100000)")
    parser.add_argument("--name", metavar="NAME", help="the server's name, if it is one of several")
    parser.add_argument("--folder", metavar="FOLDER", help="the server's folder (/var/lib/bovtrila)")
    parser.add_argument("--config", metavar="FILE", help="the server's settings (/etc/bovtrila/serve.conf)")
    parser.add_argument("--user", help="the server's user, if root starts this (bovtrila)")
    parser.add_argument("--stop", metavar="COMMAND", help="stops the old server; '' if you stop it by hand")
    parser.add_argument("--start", metavar="COMMAND", help="starts the server; '' if you start it by hand")
    parser.add_argument("--watch", metavar="SECONDS", type=serving.whole(0, 3600),
                        help=f"how long no touch may come before the old server is stopped (5; {ALONE} with --when-above)")
    parser.add_argument("--within", metavar="SECONDS", type=serving.whole(0, 86_400), default=3600,
                        help="how long --when-above waits for such a time (3600)")
    parser.add_argument("--patience", metavar="SECONDS", type=serving.whole(1, 3600), default=60,
                        help="how long a server may take to end, or to answer (60)")
    parser.add_argument("--program", metavar="FILE", help="the program, if the script doesn't find it")
    return completed(parser, parser.parse_args())


def completed(parser: argparse.ArgumentParser, asked: argparse.Namespace) -> argparse.Namespace:
    """The options, with what follows from others."""
    if (asked.old is None) != (asked.when_above is not None):
        parser.error("name OLD with --settled or --dry-run, and not with --when-above, which reads the settings")
    for name in (asked.old, asked.journal):
        if name is not None and not due.NAME.fullmatch(name):
            parser.error(f"'{name}' is no file's name: letters, digits, '.', '+', '-' and '_'")
    unit = f"bovtrila@{asked.name}" if asked.name else "bovtrila"
    asked.watch = asked.watch if asked.watch is not None else 5 if asked.when_above is None else ALONE
    asked.stop = f"systemctl stop {unit}" if asked.stop is None else asked.stop
    asked.start = f"systemctl start {unit}" if asked.start is None else asked.start
    asked.folder = serving.folder_of(asked.folder, asked.name)
    asked.config = serving.config_of(asked.config, asked.name)
    return asked


def change(asked: argparse.Namespace) -> None:
    """Carries the station to its new journal, or goes on with that."""
    old_server.ENDING.watch()
    with handover.at_work(asked.folder / f"after-{asked.old}", serving.Owner(asked.user)) as folder:
        due.clear(asked, folder)
        handover_steps.Handover(asked, folder).run()


def main() -> None:
    asked = options()
    try:
        if asked.dry_run:
            with tempfile.TemporaryDirectory(prefix="next-journal-") as folder:
                handover_steps.Handover(asked, pathlib.Path(folder)).rehearse()
        else:
            if asked.when_above is None or due.is_due(asked):
                change(asked)
            due.forget_failure(asked.folder)
    except (Wrong, OSError) as error:
        said = handover_steps.wrong_in_words(error, asked.folder)
        if asked.when_above is not None:
            due.note_failure(asked.folder, said)
        serving.fail(f"next-journal: {said}")
