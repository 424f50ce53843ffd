"""Draws boxes, lines and words as SVG: black, grey and white, in one width that a phone shows without scrolling."""
import html
import textwrap
from collections.abc import Sequence

WIDTH, SIZE, LINE = 380, 12, 15
# How wide a letter is at most on average, as a part of its size, in the fonts that a reader may have.
LETTER = 0.6
FONT = "DejaVu Sans, Verdana, Arial, sans-serif"
GREY = "#e6e6e6"


def number(value: float) -> str:
    """A coordinate, with a digit after its point where it needs one."""
    return f"{value:.1f}".removesuffix(".0")


def lines_of(text: str, width: float, size: int = SIZE) -> list[str]:
    """A text in lines that are so wide at most."""
    return textwrap.wrap(text, max(4, int(width / (LETTER * size))), break_long_words=False, break_on_hyphens=False) or [""]


class Drawing:
    """Elements, those of the background first."""

    def __init__(self) -> None:
        self.behind: list[str] = []
        self.front: list[str] = []

    def words(self, x: float, y: float, text: str, anchor: str = "middle", is_bold: bool = False, size: int = SIZE) -> None:
        """A line of words on the line y."""
        weight = ' font-weight="bold"' if is_bold else ""
        self.front.append(f'<text x="{number(x)}" y="{number(y)}" text-anchor="{anchor}" font-size="{size}"{weight}>'
                          f"{html.escape(text, quote=False)}</text>")

    def block(self, x: float, y: float, lines: Sequence[str], anchor: str = "middle", is_bold: bool = False,
              size: int = SIZE) -> float:
        """Lines of words below y; the place below them."""
        for place, text in enumerate(lines):
            self.words(x, y + (place + 1) * (size + 3) - 4, text, anchor, is_bold, size)
        return y + len(lines) * (size + 3)

    def box(self, x: float, y: float, width: float, height: float, fill: str = "#fff", is_dashed: bool = False) -> None:
        dashes = ' stroke-dasharray="4 3"' if is_dashed else ""
        self.front.append(f'<rect x="{number(x)}" y="{number(y)}" width="{number(width)}" height="{number(height)}" '
                          f'fill="{fill}" stroke="#000"{dashes}/>')

    def filled(self, x: float, y: float, width: float, text: str, fill: str = "#fff", is_bold: bool = False,
               least: float = 0) -> float:
        """A box with words in it; the place below it."""
        lines = lines_of(text, width - 10)
        height = max(least, len(lines) * LINE + 8)
        self.box(x, y, width, height, fill)
        self.block(x + width / 2, y + (height - len(lines) * LINE) / 2, lines, is_bold=is_bold)
        return y + height

    def line(self, x: float, y: float, to_x: float, to_y: float, is_dashed: bool = False, is_behind: bool = False) -> None:
        dashes = ' stroke-dasharray="4 3"' if is_dashed else ""
        (self.behind if is_behind else self.front).append(
            f'<line x1="{number(x)}" y1="{number(y)}" x2="{number(to_x)}" y2="{number(to_y)}" stroke="#000"{dashes}/>')

    def arrow(self, x: float, y: float, to_x: float, to_y: float, is_dashed: bool = False) -> None:
        """A line with a head, which is level or upright."""
        self.line(x, y, to_x, to_y, is_dashed)
        along, across = (to_x > x) - (to_x < x), (to_y > y) - (to_y < y)
        back = to_x - 8 * along, to_y - 8 * across
        points = [(to_x, to_y), (back[0] + 4 * across, back[1] + 4 * along), (back[0] - 4 * across, back[1] - 4 * along)]
        self.front.append('<polygon points="' + " ".join(f"{number(a)},{number(b)}" for a, b in points) + '"/>')

    def cross(self, x: float, y: float) -> None:
        """The end of something that gets lost."""
        self.line(x - 5, y - 5, x + 5, y + 5)
        self.line(x - 5, y + 5, x + 5, y - 5)

    def clear(self, x: float, y: float, width: float, height: float) -> None:
        """White below words that cross a line."""
        self.front.append(f'<rect x="{number(x)}" y="{number(y)}" width="{number(width)}" height="{number(height)}" fill="#fff"/>')

    def svg(self, height: float, title: str, alt: str) -> str:
        """The picture, half as large again as its coordinates."""
        inner = "\n".join([*self.behind, *self.front])
        return (f'<svg xmlns="http://www.w3.org/2000/svg" viewBox="0 0 {WIDTH} {number(height)}" width="{WIDTH * 3 // 2}" '
                f'height="{number(height * 1.5)}" role="img" font-family="{FONT}">\n<title>{html.escape(title)}</title>\n'
                f'<desc>{html.escape(alt)}</desc>\n<rect width="100%" height="100%" fill="#fff"/>\n{inner}\n</svg>\n')
