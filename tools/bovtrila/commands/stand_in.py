# SPDX-License-Identifier: Apache-2.0
"""Answers a gate as a server would, by a script, and reports whether the gate did what PROTOCOL.md requires.

Each line of SCRIPT (- is standard input) is for one request, in the order in which the requests come, over any
connection; # begins a comment. Only whole requests count.

    answer                         the answer by the rules, with /usr/share/bovtrila/docs/example.toml, 10 cards and
                                   no history, and with the tables of --revision: a touch in is refused until the
                                   script has an issue of its card
    reply VERDICT CHANGE BALANCE   this reply, with the touch's gate and number
    holding STATE BALANCE FRONT    this enquiry answer
    fault CODE                     this fault. After fault 1 stand-in closes the connection
    silence                        nothing; the connection stays
    close                          nothing; stand-in closes the connection
    another ANSWER                 an answer as above, but to the touch with the next higher number
    cut N ANSWER                   the first N bytes of such an answer; then stand-in closes the connection
    late SECONDS ANSWER            such an answer after so many seconds
    bytes HEX                      these bytes
    rest STEP                      one of these for this request and all later ones

A touch that had its reply gets the same one again, and uses up no line. When the last line is used, stand-in ends
once nothing has come for --linger seconds. Therefore --linger has to be longer than any pause of the gate and of its
rig: otherwise stand-in may end before the gate sends a touch again. If a line is left, or a gate was started again and
has sent no touch since, it ends once nothing has come for --patience seconds. It sends late answers before it ends.

For each touch it reports whether the gate sent it again until it was settled, always with the same bytes, and never
under a new number. These answers settle a touch:

    its reply
    fault 2, 5, 6 or 7 to its last send
    fault 1 to its last send and to an earlier one

The gate has to send the touch again after anything else: after no answer, another fault, an enquiry answer, and an
answer with another gate or number. An answer counts if all its bytes were sent, also by `cut` or `bytes`, and whatever
follows them. It doesn't count if the gate closed the connection before it was sent. A gate that has only ended its own
half of the connection still reads.

With --barrier FILE stand-in also reads lines from FILE: a named pipe, to which several programs may write in turn, or -
for standard input. The gate, or its test rig, writes them:

    GATE NUMBER                    the barrier was opened for this touch
    given-up GATE NUMBER           the gate has stored that it gave this touch up
    start GATE                     the gate was started again

The lines 'start GATE' and 'given-up GATE NUMBER' are for gates that have one touch on the way.

In this test each passenger stays until the reply. The barrier has to open for a reply to a touch in or out with a
verdict of 1 to 6, or with a code below 20 that has no meaning yet. It may open or not for 7 to 9, which no server
returns to such a touch, and must not open for anything else.

A gate may give a touch up if the last send got fault 2, 5, 6 or 7. After the line 'given-up GATE NUMBER' it must not
send this touch again, also after a start, and the barrier must not open for it.

The rig writes 'start GATE' after the gate has stopped. stand-in prints 'started GATE' on standard error, and only
then the rig starts the gate. From then on the barrier must not open for a touch of this gate that came before the
line. A reply to such a touch doesn't have to open the barrier if it came after the line. Nor does the reply to the
last such touch, since the gate may have stopped before it could open. If the first touch after the line is a new one,
the barrier may stay closed: the gate may have stored this touch before its start, and then must not open. stand-in
can't see when a touch was stored, and reports no opening for it. If the reply accepts a touch in or out from before
the line, and the barrier was never opened for it, the gate accepts no other touch in or out of the same card until 30
seconds after the moment of that touch.

The last line is 'N passed, M failed': N touches without a fault, and M lines that begin with 'failed'. A touch can have
several of these, and a line of the script that wasn't used has one. The status is 1 if something failed.

    printf 'silence\\nfault 3\\ncut 7 answer\\nanswer\\n' > script.txt
    bovtrila-stand-in 127.0.0.1:4016 script.txt
    mkfifo opened && bovtrila-stand-in 127.0.0.1:4016 script.txt --barrier opened &
    bovtrila-gate 127.0.0.1:4016 requests.txt --timeout 1 --repeat --barrier opened
    echo start 7 > opened
"""
import argparse
import os
import select
import signal
import socket
import stat
import sys
import threading
import time
from collections.abc import Callable, Iterable
from typing import TextIO

from bovtrila import codec, model, places, stand_in_script, table_file, wire
from bovtrila.stand_in_judge import Judge, own_answer
from bovtrila.wire import Wrong

# How long stand-in waits for the reset of a connection that the gate may have closed, in milliseconds.
RESET = 500


def station_of(revised: Iterable[str]) -> model.Station:
    """The station of the rules, which was given these files of fare tables beside the example's."""
    supplied = [table_file.read(path) for path in revised]
    try:
        return model.Station(table_file.read(places.EXAMPLE), 10, supplied=supplied)
    except ValueError as error:
        raise Wrong(str(error)) from None


def serve(connection: socket.socket, judge: Judge) -> None:
    """Answers the requests of a connection by the script, until it ends."""
    with connection:
        connection.setsockopt(socket.IPPROTO_TCP, socket.TCP_NODELAY, 1)
        held = b""
        while True:
            data = connection.recv(4096)
            held += data
            if not data:
                return
            while len(held) > 2 and len(held) >= 2 + wire.number_at(held, 0, 2):
                request, held = held[: 2 + wire.number_at(held, 0, 2)], held[2 + wire.number_at(held, 0, 2) :]
                if not wire.is_request(request):
                    connection.sendall(codec.fault(codec.BAD_FRAME))
                    return judge.loose.append(f"bytes came that are no request: {request.hex()}")
                if not answer(connection, judge, request):
                    return


def answer(connection: socket.socket, judge: Judge, request: bytes) -> bool:
    """Answers a request: whether the connection goes on."""
    step, made, send = judge.next(request)
    if step is None:
        connection.sendall(made)
        return True
    pause(step.late)
    if made and shows(connection, select.POLLRDHUP):
        judge.doubt(1)
        judge.answered(request, send, made if reaches(connection, made) else b"")
        judge.doubt(-1)
    else:
        # It is noted first: the gate may open its barrier before a later line is reached.
        judge.answered(request, send, made)
        connection.sendall(made)
    own = own_answer(request, made)
    return step.cut is None and step.kind != "close" and not (own and wire.is_fault(own, codec.BAD_FRAME))


def pause(seconds: float) -> None:
    """What passes before a late answer."""
    time.sleep(seconds)


def shows(connection: socket.socket, event: int, milliseconds: int = 0) -> bool:
    """Whether a connection shows this event within this time, or that it is reset."""
    events = select.poll()
    events.register(connection, event)
    return bool(events.poll(milliseconds))


def reaches(connection: socket.socket, made: bytes) -> bool:
    """Sends an answer to a gate that has ended its half of the connection, or both halves: whether the gate may read it.
    After an end of both a reset comes back."""
    try:
        connection.sendall(made)
    except OSError:
        return False
    return not shows(connection, 0, RESET)


def quietly(run: Callable[..., None], *words: object) -> None:
    """Runs it on a thread, where a connection that is lost says nothing."""
    def make() -> None:
        try:
            run(*words)
        except OSError:
            pass
    threading.Thread(target=make, daemon=True).start()


def take(listening: socket.socket, judge: Judge) -> None:
    while True:
        connection, _ = listening.accept()
        quietly(serve, connection, judge)


def barrier(path: str) -> TextIO:
    """The file with the barrier's lines. A named pipe is opened for writing too: otherwise it would end for its reader once
    nobody writes to it, and a gate that is started again opens it anew."""
    try:
        if path != "-" and not stat.S_ISFIFO(os.stat(path).st_mode):
            raise Wrong(f"{path}: this is no named pipe; name one that 'mkfifo FILE' has made, or - for standard input")
        file = 0 if path == "-" else os.open(path, os.O_RDWR)
        return open(file, encoding="ascii", errors="backslashreplace")
    except FileNotFoundError as error:
        raise Wrong(f"{path}: {error.strerror}; make a named pipe with 'mkfifo {path}'") from None
    except OSError as error:
        said = f"{path}: {error.strerror}"
        raise Wrong(f"{said}; name a pipe that can be read and written; 'mkfifo FILE' makes one") from None


def watch(lines: TextIO, judge: Judge) -> None:
    with lines:
        for line in lines:
            judge.hear(line)


def parser() -> argparse.ArgumentParser:
    parser = argparse.ArgumentParser(description=__doc__, formatter_class=argparse.RawTextHelpFormatter)
    parser.add_argument("listen", type=wire.address, help="HOST:PORT for the gate; port 0 means a free one")
    parser.add_argument("script", help="the script's file, or - for standard input")
    parser.add_argument("--barrier", metavar="FILE",
                        help="the named pipe with the barrier's openings, the touches that\n"
                        "were given up and the gate's starts, or - for standard input")
    parser.add_argument("--revision", metavar="FILE", action="append", default=[],
                        help="a fare table to which a touch may revise")
    parser.add_argument("--linger", type=float, default=1, metavar="SECONDS",
                        help="the wait after the last line; longer than any pause of the\n"
                        "gate and of its rig (1)")
    parser.add_argument("--patience", type=float, default=60, metavar="SECONDS",
                        help="the wait for a request, while a line is left; longer than\n"
                        "any such pause, too (60)")
    return parser


def main() -> int:
    reader = parser()
    asked = reader.parse_args()
    if asked.script == asked.barrier == "-":
        reader.error("SCRIPT and --barrier can't both be standard input")
    signal.signal(signal.SIGTERM, signal.default_int_handler)
    try:
        judge = Judge(stand_in_script.steps(asked.script), station_of(asked.revision))
        lines = barrier(asked.barrier) if asked.barrier is not None else None
        listening, said = wire.listener(asked.listen)
    except Wrong as wrong:
        sys.exit(f"stand-in: {wrong}")
    try:
        print(f"listening {said}", file=sys.stderr, flush=True)
        quietly(take, listening, judge)
        if lines is not None:
            quietly(watch, lines, judge)
        while not judge.is_over(asked.linger, asked.patience):
            time.sleep(0.02)
    except KeyboardInterrupt:
        pass
    return judge.end(lines is not None)
