"""The limits of tools/bovtrila/web/server.py: what it refuses, and what hostile requests can't do."""
import socket
import threading
import time
import unittest
import unittest.mock

from bovtrila.web import server as web_server
from bovtrila.web.server import Answer
from harness import TIME


class Requests(unittest.TestCase):
    """A server of one page and one path for other names, with short limits."""

    def setUp(self) -> None:
        self.asked: list[tuple[str, str]] = []
        self.gate = threading.Event()
        self.gate.set()
        for name, value in (("SECONDS", 1), ("MOST", 4)):
            patch = unittest.mock.patch.object(web_server, name, value)
            patch.start()
            self.addCleanup(patch.stop)
        self.web = web_server.Web(("127.0.0.1", 0), self.answer, frozenset({"station.example"}), ("/metrics",))
        thread = threading.Thread(target=self.web.serve_forever, args=(0.01,), daemon=True)
        thread.start()
        self.addCleanup(self.web.server_close)
        self.addCleanup(self.web.shutdown)

    def answer(self, path: str, query: str) -> Answer:
        self.asked.append((path, query))
        self.gate.wait(TIME)
        if path == "/error":
            raise KeyError("secret")
        return Answer(200, "text/html", b"<p>page</p>") if path in ("/", "/metrics") else web_server.refusal(404, "none")

    def connect(self) -> socket.socket:
        line = socket.create_connection(self.web.socket.getsockname(), TIME)
        self.addCleanup(line.close)
        return line

    def sent(self, request: bytes, line: socket.socket | None = None) -> bytes:
        """What is answered to these bytes, until the server closes the connection."""
        line = line or self.connect()
        line.sendall(request)
        answer = b""
        while more := line.recv(65536):
            answer += more
        return answer

    def status(self, request: bytes) -> int | None:
        answer = self.sent(request)
        return int(answer.split()[1]) if answer else None

    def test_get_and_head_are_answered(self) -> None:
        head, _, body = self.sent(b"GET / HTTP/1.1\r\nHost: 127.0.0.1\r\n\r\n").partition(b"\r\n\r\n")
        self.assertEqual((head.split(b"\r\n")[0], body), (b"HTTP/1.0 200 OK", b"<p>page</p>"))
        only, _, body = self.sent(b"HEAD / HTTP/1.1\r\nHost: 127.0.0.1\r\n\r\n").partition(b"\r\n\r\n")
        self.assertEqual(body, b"")
        self.assertEqual([line for line in only.split(b"\r\n") if not line.startswith(b"Date")],
                         [line for line in head.split(b"\r\n") if not line.startswith(b"Date")])
        self.assertEqual(self.asked, [("/", ""), ("/", "")])

    def test_each_answer_tells_browsers_what_they_may_do(self) -> None:
        for path in (b"/", b"/none"):
            head = self.sent(b"GET " + path + b" HTTP/1.1\r\n\r\n").partition(b"\r\n\r\n")[0].decode()
            for name, value in web_server.HEADERS.items():
                self.assertIn(f"{name}: {value}", head)
        policy = dict(part.split(" ", 1) for part in web_server.HEADERS["Content-Security-Policy"].split("; "))
        self.assertEqual((policy["default-src"], policy["frame-ancestors"], policy["base-uri"]), ("'none'",) * 3)
        self.assertNotIn("unsafe", " ".join(policy.values()))
        self.assertNotIn("script-src", policy)

    def test_other_methods_are_refused(self) -> None:
        for method in (b"POST", b"PUT", b"DELETE", b"PATCH", b"OPTIONS", b"TRACE", b"CONNECT", b"get", b"BREW"):
            answer = self.sent(method + b" / HTTP/1.1\r\nHost: 127.0.0.1\r\n\r\n")
            self.assertIn(b" 405 ", answer.split(b"\r\n")[0] + b" ", method)
            self.assertIn(b"\r\nAllow: GET, HEAD\r\n", answer)
        self.assertEqual(self.asked, [])

    def test_strange_requests_are_refused(self) -> None:
        for request in (b"GET / HTTP/1.1\r\nContent-Length: 5\r\n\r\nabcde",
                        b"GET / HTTP/1.1\r\nContent-Length: 0\r\nContent-Length: 5\r\n\r\n",
                        b"GET / HTTP/1.1\r\nTransfer-Encoding: chunked\r\n\r\n0\r\n\r\n",
                        b"GET http://127.0.0.1/ HTTP/1.1\r\n\r\n", b"GET /\xff HTTP/1.1\r\n\r\n",
                        b"GET /a\0b HTTP/1.1\r\n\r\n", b"GET /" + b"a" * 300 + b" HTTP/1.1\r\n\r\n",
                        b"GET * HTTP/1.1\r\n\r\n", b"GET /\r\n\r\n", b"GET / HTTP/9.9\r\n\r\n", b"GET / / HTTP/1.1\r\n\r\n",
                        b"GET / NONSENSE\r\n\r\n", b"POST /\r\n\r\n",
                        b"GET / HTTP/1.1\r\n" + b"".join(b"A%d: b\r\n" % count for count in range(120)) + b"\r\n"):
            self.assertEqual(self.status(request), 400, request)
        self.assertEqual(self.status(b"GET / HTTP/1.1\r\nA: " + b"b" * 9000 + b"\r\n\r\n"), 431)
        self.assertEqual(self.status(b"GET /../../etc/passwd HTTP/1.1\r\n\r\n"), 404)
        self.assertEqual(self.status(b"GET /%2e%2e/etc/passwd HTTP/1.1\r\n\r\n"), 404)
        # What came as a path was never a file's name.
        self.assertEqual(self.asked, [("/../../etc/passwd", ""), ("/%2e%2e/etc/passwd", "")])

    def test_a_name_that_leads_here_from_elsewhere_is_refused(self) -> None:
        """A page of another site can lead its own name to this machine, and would read what is here."""
        for host, status in ((b"127.0.0.1", 200), (b"127.0.0.1:9814", 200), (b"localhost:9814", 200), (b"[::1]:9814", 200),
                             (b"STATION.example", 200), (b"evil.example", 421), (b"127.0.0.1.evil.example:9814", 421),
                             (b"localhost.evil.example", 421), (b"", 421), (b"evil.example:127.0.0.1", 421)):
            self.assertEqual(self.status(b"GET / HTTP/1.1\r\nHost: " + host + b"\r\n\r\n"), status, host)
        self.assertEqual(self.status(b"GET / HTTP/1.1\r\nHost: 127.0.0.1\r\nHost: 127.0.0.1\r\n\r\n"), 421)
        # Prometheus may ask by any name.
        self.assertEqual(self.status(b"GET /metrics HTTP/1.1\r\nHost: machine:9814\r\n\r\n"), 200)

    def test_an_error_of_the_program_is_answered_and_not_shown(self) -> None:
        with unittest.mock.patch("traceback.print_exc") as log:
            answer = self.sent(b"GET /error HTTP/1.1\r\n\r\n")
        self.assertEqual((answer.split()[1], b"secret" in answer, log.call_count), (b"500", False, 1))

    def test_a_slow_request_is_let_go_though_bytes_come(self) -> None:
        line, begun = self.connect(), time.monotonic()
        try:
            for byte in b"GET / HTTP/1.1\r\nA: " + b"b" * 1000:
                line.sendall(bytes([byte]))
                time.sleep(0.05)
        except OSError:
            pass
        self.assertLess(time.monotonic() - begun, 10)
        self.assertEqual(self.asked, [])

    def test_those_who_hang_up_or_read_nothing_hurt_nobody(self) -> None:
        for request in (b"", b"GET /", b"\0\r\n\r\n"):
            self.connect().sendall(request)
        lines = [self.connect() for _ in range(3)]
        self.assertEqual(self.status(b"GET / HTTP/1.1\r\n\r\n"), 200)
        self.assertEqual(len(lines), 3)

    def test_so_many_are_answered_at_once_and_others_wait(self) -> None:
        self.gate.clear()
        lines = [self.connect() for _ in range(7)]
        for line in lines:
            line.sendall(b"GET / HTTP/1.1\r\n\r\n")
        limit = time.monotonic() + TIME
        while len(self.asked) < 4 and time.monotonic() < limit:
            time.sleep(0.01)
        time.sleep(0.1)
        self.assertEqual(len(self.asked), 4)
        self.gate.set()
        self.assertEqual([self.sent(b"", line).split()[1] for line in lines], [b"200"] * 7)


class CardNumbers(unittest.TestCase):
    """What a query for a card may be."""

    def test_a_number_has_one_to_ten_digits(self) -> None:
        for query, number in (("", None), ("number=7", 7), ("number=0007", 7), ("number=+7+", 7),
                              ("number=4294967295", 4294967295)):
            self.assertEqual(web_server.number_of(query), number)
        for query in ("number=", "number=-1", "number=1.5", "number=12345678901", "number=7&number=8", "number=7&other=1",
                      "other=7", "number", "=7", "number=--table", "number=7;ls", "number=$(ls)", "number=%00",
                      "number=7%0a8", "number=%ff", "number=%D9%A7", "number=<script>", "&", "&&&&&&&&", "number=1e3",
                      "number=0x7"):
            with self.subTest(query), self.assertRaises(web_server.Refused) as refused:
                web_server.number_of(query)
            self.assertEqual(refused.exception.answer.status, 400)
