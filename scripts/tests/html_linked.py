"""The pages of the package as HTML: each link, picture and stylesheet leads to something there, and nothing to the
network."""
import html.parser
import pathlib
import shutil
import subprocess
import tempfile
import unittest
from collections.abc import Iterator

import installed
from harness import TOP

SCRIPT = TOP / "scripts" / "dev" / "html-pages"
PAGES = "usr/share/doc/bovtrila/"


class Links(html.parser.HTMLParser):
    """What a page links to, and what can be linked to in it."""

    def __init__(self, path: pathlib.Path) -> None:
        super().__init__()
        self.found: list[str] = []
        self.anchors: set[str | None] = set()
        self.alone: list[str | None] = []
        self.feed(path.read_text())

    def handle_starttag(self, tag: str, attributes: list[tuple[str, str | None]]) -> None:
        of = dict(attributes)
        self.anchors.add(of.get("id"))
        self.found += [of[name] or "" for name in ("href", "src") if name in of]
        if tag == "img" and not of.get("alt"):
            self.alone.append(of["src"])


def faults(folder: pathlib.Path) -> Iterator[str]:
    """The links of a folder's pages that lead nowhere, and pictures without a description."""
    read = {path: Links(path) for path in folder.glob("*.html")}
    for path, links in read.items():
        yield from (f"{path.name}: {source} has no description" for source in links.alone)
        for link in links.found:
            name, _, part = link.partition("#")
            to = (path.parent / name).resolve() if name else path
            if ":" in name or not to.is_file():
                if not link.startswith("https://"):
                    yield f"{path.name}: {link} isn't there"
            elif part and part not in read[to].anchors:
                yield f"{path.name}: {link}: no such heading"


def laid_out(tree: pathlib.Path) -> pathlib.Path:
    """Puts the pages and pictures of the package into a tree, as scripts/package does: their folder."""
    for file, place in installed.rows():
        if place.startswith(PAGES):
            to, change = tree / place, installed.change_of(file)
            to.parent.mkdir(parents=True, exist_ok=True)
            to.write_text(change(file.read_text(), installed.STATION)) if change else shutil.copy(file, to)
    return tree / PAGES


def make(folder: pathlib.Path) -> subprocess.CompletedProcess[str]:
    return subprocess.run([SCRIPT, folder, folder / "html"], capture_output=True, text=True)


class Html(unittest.TestCase):
    room: tempfile.TemporaryDirectory[str]
    pages: pathlib.Path
    made: subprocess.CompletedProcess[str]

    @classmethod
    def setUpClass(cls) -> None:
        if not shutil.which("pandoc"):
            raise unittest.SkipTest("pages in HTML are made by pandoc: not installed")
        cls.room = tempfile.TemporaryDirectory(prefix="html-pages-")
        cls.addClassCleanup(cls.room.cleanup)
        cls.pages = laid_out(pathlib.Path(cls.room.name))
        cls.made = make(cls.pages)

    def test_each_page_and_the_index_are_made(self) -> None:
        self.assertEqual((self.made.returncode, self.made.stdout + self.made.stderr), (0, ""))
        self.assertEqual({path.name for path in (self.pages / "html").iterdir()},
                         {"index.html", "style.css", *(path.with_suffix(".html").name for path in self.pages.glob("*.md"))})

    def test_each_link_leads_somewhere(self) -> None:
        self.assertEqual(list(faults(self.pages / "html")), [])
        links = {path.name: Links(path).found for path in (self.pages / "html").glob("*.html")}
        # The index names all pages, a citation is a link to its section, and pages show their pictures.
        self.assertLessEqual({name for name in links if name != "index.html"}, set(links["index.html"]))
        self.assertIn("OPERATING.html#the-state-of-a-running-server", links["START.html"])
        self.assertIn("../pictures/lost-answer.svg", links["START.html"])
        self.assertGreater(links["OPERATING.html"].count("#new-fares"), 1)

    def test_what_leads_nowhere_is_seen(self) -> None:
        with tempfile.TemporaryDirectory() as name:
            folder = pathlib.Path(name)
            (folder / "ONE.html").write_text('<h1 id="one"><a href="#two"></a><a href="TWO.html"></a>'
                                             '<img src="ONE.html" alt="">')
            self.assertEqual(set(faults(folder)), {"ONE.html: #two: no such heading", "ONE.html: TWO.html isn't there",
                                                   "ONE.html: ONE.html has no description"})
            (folder / "ONE.md").write_text('# One\n\nAs ONE.md, "Two", says.\n')
            done = make(folder)
            self.assertEqual((done.returncode, done.stderr),
                             (1, f"html-pages: {folder}/ONE.md: ONE.md has no section \"Two\"\n"))
