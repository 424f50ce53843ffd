"""The pictures of docs/pictures/: each is the one of its text, and a page shows it with the description of that text. The
picture that scripts/dev/page-picture makes has no text: scripts/tests/test_watched_pages.py checks it."""
import pathlib
import re
import shutil
import subprocess
import tempfile
import unittest

from harness import TOP

SCRIPT, FOLDER = TOP / "scripts" / "dev" / "pictures", TOP / "docs" / "pictures"
SHOWN = re.compile(r"^!\[(?P<alt>[^\]]*)\]\((?P<path>[^)]*)\)$", re.M)


def check(tree: str | pathlib.Path = TOP) -> tuple[int, str]:
    """Status and output of a look over the pictures of a tree."""
    done = subprocess.run([SCRIPT, "--check", "--tree", tree], capture_output=True, text=True)
    return done.returncode, done.stdout + done.stderr


class Pictures(unittest.TestCase):
    def test_each_is_the_one_of_its_text(self) -> None:
        self.assertEqual(check(), (0, ""))
        self.assertEqual({file.stem for file in FOLDER.glob("*.svg")}, {file.stem for file in FOLDER.glob("*.txt")})

    def test_each_is_shown_with_its_description(self) -> None:
        found: dict[pathlib.Path, set[str]] = {}
        for page in (TOP / "README.md", *(TOP / "docs").glob("*/*.md")):
            for match in SHOWN.finditer(page.read_text()):
                if match["path"].endswith(".svg"):
                    found.setdefault((page.parent / match["path"]).resolve(), set()).add(match["alt"])
        told = {file.with_suffix(".svg"): {re.findall(r"^alt: (.*)$", file.read_text(), re.M)[0]}
                for file in FOLDER.glob("*.txt")}
        self.assertEqual(found, told)

    def test_a_text_that_was_changed_or_is_wrong_is_seen(self) -> None:
        for old, new, said in (
                ("number 3\n", "number 4\n",
                 "docs/pictures/lost-answer.svg\npictures: these aren't the ones of their texts"),
                ("1 > 2: touch", "1 to 2: touch", "lost-answer.txt: '1 to 2: touch in, number 3' is no line of a sequence"),
                ("form: sequence", "form: series", "lost-answer.txt: 'series' is no form of a picture; choose sequence, ")):
            with self.subTest(new), tempfile.TemporaryDirectory() as tree:
                folder = pathlib.Path(tree, "docs", "pictures")
                folder.mkdir(parents=True)
                shutil.copy(FOLDER / "lost-answer.svg", folder)
                text = (FOLDER / "lost-answer.txt").read_text()
                self.assertIn(old, text)
                (folder / "lost-answer.txt").write_text(text.replace(old, new, 1))
                status, output = check(tree)
                self.assertEqual(status, 1)
                self.assertIn(said, output)
