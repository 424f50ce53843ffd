"""The page of bovtrila-exporter in a real browser: what it shows there, and pictures of a screen, a phone and a print."""
import os
import pathlib
import shutil
import struct
import subprocess

import page_stand_ins
import paged
from bovtrila.web import server as web_server
from harness import TIME

# The eight bytes by which a picture in PNG begins, and the beginning of its header.
PNG = b"\x89PNG\r\n\x1a\n\0\0\0\rIHDR"


def browse(folder: pathlib.Path, url: str, *words: str) -> str:
    """What the browser prints of a page."""
    command = ["chromium", "--headless", "--no-sandbox", "--disable-gpu", "--hide-scrollbars",
               f"--user-data-dir={folder}/profile"]
    done = subprocess.run([*command, *words, url], capture_output=True, text=True, timeout=TIME,
                          env={**os.environ, "HOME": str(folder)})
    if done.returncode:
        raise AssertionError(done.stderr)
    return done.stdout


class Browser(page_stand_ins.Running):
    """The pages of a running exporter."""

    def setUp(self) -> None:
        if shutil.which("chromium") is None:
            self.skipTest("the page in a browser: chromium isn't installed")
        super().setUp()
        self.exporter = self.export()
        self.url = "http://%s:%d" % self.exporter.address

    def test_the_browser_has_the_page_that_was_sent(self) -> None:
        sent, shown = self.exporter.whole(), paged.Page(browse(self.folder, f"{self.url}/", "--dump-dom"))
        for name in ("quarter-rows", "refusals", "maxima", "figures"):
            self.assertEqual(shown.tables.get(name), sent.tables.get(name), name)
        # Early in the day not every gate has a touch.
        gates = [row[0] for row in sent.tables["gate-rows"]]
        self.assertEqual([row[0] for row in shown.tables["gate-rows"]], gates)
        self.assertLessEqual(set(gates), {"Gate", *map(str, range(1, 8))})
        self.assertFalse(shown.kinds & {"script", "iframe", "object", "embed", "img"})

    def test_the_touches_of_a_card_are_opened(self) -> None:
        sent, shown = (paged.Page(text) for text in (self.exporter.ask("/touches?number=7")[1],
                                                     browse(self.folder, f"{self.url}/touches?number=7", "--dump-dom")))
        self.assertEqual((shown.tables["touches"], shown.texts["balance"]), (sent.tables["touches"], sent.texts["balance"]))
        self.assertGreater(len(shown.tables["touches"]), 2)

    def test_pictures_are_made(self) -> None:
        for name, width, path in (("screen", 960, "/"), ("phone", 500, "/"), ("card", 960, "/card?number=7"),
                                  ("touches", 960, "/touches?number=7")):
            file = self.folder / f"{name}.png"
            browse(self.folder, self.url + path, f"--window-size={width},1400", f"--screenshot={file}")
            content = file.read_bytes()
            self.assertEqual((content[:16], struct.unpack(">II", content[16:24])), (PNG, (width, 1400)))
            # A page without its style, or an error, is a picture of few colours that takes few bytes.
            self.assertGreater(len(content), 10_000, name)

    def test_the_page_is_printed(self) -> None:
        for path in ("/", "/card?number=7", "/touches?number=7"):
            file = self.folder / "page.pdf"
            browse(self.folder, self.url + path, f"--print-to-pdf={file}")
            self.assertEqual(file.read_bytes()[:5], b"%PDF-")

    def test_a_script_would_not_run(self) -> None:
        """A page with two scripts: the browser runs them without the policy of the answers, and neither with it."""
        policy = web_server.HEADERS["Content-Security-Policy"].partition("; frame")[0]
        file = self.folder / "hostile.html"
        scripts = ("<p id=told>untouched</p><script>document.getElementById('told').textContent = 'run'</script>"
                   "<img src=x onerror=\"document.getElementById('told').textContent = 'run'\">")
        for head, told in (("", "run"), (f'<meta http-equiv="Content-Security-Policy" content="{policy}">', "untouched")):
            file.write_text(head + scripts)
            self.assertEqual(paged.Page(browse(self.folder, f"file://{file}", "--dump-dom")).texts["told"], told)
