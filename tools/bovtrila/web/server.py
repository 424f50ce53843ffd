# SPDX-License-Identifier: Apache-2.0
"""Serves pages over HTTP, with limits: GET and HEAD alone, so many requests at once, and so many seconds and bytes each."""
import http.server
import io
import ipaddress
import re
import socket
import threading
import time
import traceback
import urllib.parse
from collections.abc import Callable, Mapping
from typing import Any, NamedTuple

from bovtrila import wire

# How many requests are answered at once, how many seconds a request's head or an answer may take, and the bytes of a head.
MOST, SECONDS, HEAD = 64, 10, 8192
METHODS = ("GET", "HEAD")
TARGET = re.compile(r"/[!-~]{0,200}")
TEXT = "text/plain; charset=utf-8"
# What a browser may do with an answer: show it with the style sheet of this server, and send its form here.
HEADERS = {
    "Content-Security-Policy": "default-src 'none'; style-src 'self'; form-action 'self'; base-uri 'none'; "
                               "frame-ancestors 'none'",
    "X-Content-Type-Options": "nosniff", "X-Frame-Options": "DENY", "Referrer-Policy": "no-referrer",
    "Cross-Origin-Resource-Policy": "same-origin", "Cache-Control": "no-store",
}


class Answer(NamedTuple):
    """An answer to a request."""

    status: int
    kind: str
    body: bytes
    headers: Mapping[str, str] = {}


# What answers a path with its query.
Answers = Callable[[str, str], Answer]


def refusal(status: int, text: str, **headers: str) -> Answer:
    """An answer that refuses a request, in plain text."""
    return Answer(status, TEXT, f"{text}\n".encode(), headers)


class Refused(Exception):
    """A request that is refused."""

    def __init__(self, answer: Answer) -> None:
        super().__init__(answer.status)
        self.answer = answer


def head_of(connection: socket.socket) -> bytes:
    """The head of a request, up to its empty line."""
    until, head = time.monotonic() + SECONDS, b""
    while b"\r\n\r\n" not in head and b"\n\n" not in head:
        connection.settimeout(max(0.001, until - time.monotonic()))
        more = connection.recv(HEAD)
        if not more or time.monotonic() > until:
            raise ConnectionError("no whole request came")
        head += more
        if len(head) > HEAD:
            raise Refused(refusal(431, "the request's head is too long"))
    connection.settimeout(SECONDS)
    return head


def is_safe_name(host: str, names: frozenset[str]) -> bool:
    """Whether the name by which a browser asks is one of these, or an address: a page elsewhere can lead a name of its own
    to this machine, but no address."""
    name = host.rpartition(":")[0] if re.search(r":[0-9]+$", host) else host
    if name.lower() in names:
        return True
    try:
        ipaddress.ip_address(name.strip("[]"))
    except ValueError:
        return False
    return True


class Handler(http.server.BaseHTTPRequestHandler):
    """Answers one request, and closes the connection."""

    server: "Web"
    server_version, sys_version = "bovtrila", ""

    def handle_one_request(self) -> None:
        self.close_connection = True
        self.command, self.requestline, self.request_version = "", "", "HTTP/1.0"
        try:
            self.rfile = io.BytesIO(head_of(self.connection))
            self.raw_requestline = self.rfile.readline(HEAD)
            if self.parse_request():
                self.close_connection = True
                self.reply(self.safe_answer())
        except Refused as refused:
            self.reply(refused.answer)
        except (OSError, ValueError):
            # One that hangs up, or reads nothing.
            pass

    def safe_answer(self) -> Answer:
        """The answer to a request whose head is read, also if the program has an error."""
        try:
            return self.answer()
        except Refused:
            raise
        except Exception:
            traceback.print_exc()
            return refusal(500, "this program has an error, which its log describes")

    def answer(self) -> Answer:
        """The answer to a request whose head is read."""
        if self.request_version == "HTTP/0.9":
            self.request_version = "HTTP/1.0"
            return refusal(400, "the request has no version of HTTP")
        if self.command not in METHODS:
            return refusal(405, "only GET and HEAD are answered", Allow=", ".join(METHODS))
        if "Transfer-Encoding" in self.headers or self.headers.get_all("Content-Length", ["0"]) != ["0"]:
            return refusal(400, "a request has no content here")
        if not TARGET.fullmatch(self.path):
            return refusal(400, "this is no path of this server")
        path, _, query = self.path.partition("?")
        hosts: list[str] = self.headers.get_all("Host", [])
        if len(hosts) > 1 or not all(is_safe_name(host, self.server.names) for host in hosts):
            if path not in self.server.for_any_name:
                return refusal(421, "the page isn't served under this name: add the name by --host")
        return self.server.answers(path, query)

    def send_error(self, code: int, message: str | None = None, explain: str | None = None) -> None:
        if self.request_version == "HTTP/0.9":
            self.request_version = "HTTP/1.0"
        self.reply(refusal(400 if code in (414, 431, 501, 505) else code, "the request can't be read"))

    def reply(self, answer: Answer) -> None:
        """Sends an answer."""
        self.send_response(answer.status)
        self.send_header("Content-Type", answer.kind)
        self.send_header("Content-Length", str(len(answer.body)))
        self.send_header("Connection", "close")
        for name, value in {**HEADERS, **answer.headers}.items():
            self.send_header(name, value)
        self.end_headers()
        if self.command != "HEAD":
            self.wfile.write(answer.body)

    def log_message(self, *_: object) -> None:
        pass


class Web(http.server.ThreadingHTTPServer):
    """Listens at an address of either family. The paths `for_any_name` are also answered for other names of this machine."""

    def __init__(self, where: tuple[str, int], answers: Answers, names: frozenset[str] = frozenset(),
                 for_any_name: tuple[str, ...] = ()) -> None:
        made, self.said = wire.listener(where)
        self.answers, self.names, self.for_any_name = answers, names | {"localhost"}, for_any_name
        self.free = threading.BoundedSemaphore(MOST)
        super().__init__(where, Handler, bind_and_activate=False)
        self.socket.close()
        self.socket = made

    def process_request(self, request: Any, client_address: Any) -> None:
        # Others wait in the system's queue.
        self.free.acquire()
        try:
            super().process_request(request, client_address)
        except BaseException:
            self.free.release()
            raise

    def process_request_thread(self, request: Any, client_address: Any) -> None:
        try:
            super().process_request_thread(request, client_address)
        finally:
            self.free.release()

    def handle_error(self, *_: object) -> None:
        """One that hangs up is nothing to report."""


def number_of(query: str) -> int | None:
    """The card's number that a query asks for, or `None` for none. A query of another form is refused."""
    if not query:
        return None
    try:
        pairs = urllib.parse.parse_qsl(query, keep_blank_values=True, strict_parsing=True, max_num_fields=1, errors="strict")
    except ValueError:
        pairs = []
    if len(pairs) != 1 or pairs[0][0] != "number" or not re.fullmatch("[0-9]{1,10}", pairs[0][1].strip(), re.ASCII):
        raise Refused(refusal(400, "a card's number has one to ten digits"))
    return int(pairs[0][1])
