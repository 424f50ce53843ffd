"""What pages cite where they are installed: other pages, their sections, and files. What isn't installed has to be named as
one of the sources."""
import pathlib
import re
from collections.abc import Callable, Collection, Iterable, Iterator, Mapping

import installed

DOC = "usr/share/doc/"
NAME = re.compile(r"(?<![\w/])[A-Z_]+\.md\b")
PLACE = re.compile(r"/usr/share/bovtrila/[\w./-]*\w")


def pages() -> dict[str, str]:
    """The texts of the installed pages, by their names."""
    return {file.name: installed.page(file.read_text(), package) for package in installed.LISTS
            for file, place in installed.rows(package) if place.startswith(DOC) and file.suffix == ".md"}


def is_of_sources(text: str, path: str) -> bool:
    """Whether a text says where it first names a path that it is one of the sources, and it is."""
    first = re.search(rf"(?<![\w/.]){re.escape(path)}/?(?![\w/])[^`\n]*?`? of the\s+sources", text)
    return bool(first) and ((installed.TOP / path).exists() or any((installed.TOP / "docs").glob(f"*/{path}")))


def faults(name: str, texts: Mapping[str, str], cited: re.Pattern[str], own: re.Pattern[str],
           sections: Callable[[re.Match[str]], Iterable[str]], headings: Callable[[str], Collection[str]]) -> Iterator[str]:
    """What a page cites that isn't there, by what reads a citation, one of the page itself, its sections, and the headings of
    a text."""
    text, places = texts[name], [f"/{place}" for package in installed.LISTS for _, place in installed.rows(package)]
    for page in sorted(set(NAME.findall(text)) - texts.keys()):
        if not is_of_sources(text, page):
            yield f"no page {page} is installed"
    for match in cited.finditer(re.sub(NAME, r"docs/\g<0>", text)):
        page = pathlib.Path(match["page"]).name
        for title in sections(match) if page in texts else ():
            if title not in headings(texts[page]):
                yield f'{page} has no section "{title}" where it is installed'
    for match in own.finditer(re.sub("^```.*?^```$", "", text, flags=re.M | re.S)):
        yield from (f'no section "{title}" here' for title in sections(match) if title not in headings(text))
    for match in installed.NAMED.finditer(text):
        path = (match["code"] or match["bare"] or "").rstrip("/")
        if path and not is_of_sources(text, path):
            yield f"no {path} is installed"
    for place in PLACE.findall(text):
        if not any(one == place or one.startswith(f"{place}/") for one in places):
            yield f"no package has {place}"
