"""SVG texts: a canvas, and colours that differ for all kinds of colour vision."""

from __future__ import annotations

from dataclasses import dataclass, field
from xml.sax.saxutils import escape, quoteattr

# A palette of eight colours that differ for all kinds of colour vision, and in grey by their lightness.
BLACK, GREY, PALE = "#1a1a1a", "#8c8c8c", "#e8e8e8"
BLUE, SKY, GREEN, YELLOW = "#0072b2", "#56b4e9", "#009e73", "#f0e442"
ORANGE, RED, PURPLE = "#e69f00", "#d55e00", "#cc79a7"
WHITE = "#ffffff"

FONT = "font-family:'DejaVu Sans','Helvetica',sans-serif"
# The widths of letters in the first of these fonts, relative to its size; the others are no wider.
LETTER = 0.62
WIDTHS = {**dict.fromkeys("ijl|'", 0.3), **dict.fromkeys("fIt.,:;()[]/ -", 0.4), **dict.fromkeys("mwMW", 0.97),
          **dict.fromkeys("ABCDGHNOQRUVXYZ=+<>", 0.76)}


def text_width(text: str, size: float) -> float:
    """Estimates the width of a text; the fonts differ."""
    return sum(WIDTHS.get(letter, LETTER) for letter in text) * size


def fitted(text: str, size: float, room: float) -> list[str]:
    """Splits a text between words into lines that fit into some room, and a word that is too long between letters."""
    lines: list[str] = []
    for word in text.split(" "):
        if lines and text_width(f"{lines[-1]} {word}", size) <= room:
            lines[-1] += f" {word}"
        else:
            lines += pieces(word, size, room)
    return lines


def pieces(word: str, size: float, room: float) -> list[str]:
    """Splits a word between letters into pieces that fit into some room, with a letter at least in each."""
    found = [""]
    for letter in word:
        if found[-1] and text_width(found[-1] + letter, size) > room:
            found.append("")
        found[-1] += letter
    return found


# The room at the edges of a drawing.
EDGE = 12


@dataclass
class Canvas:
    """A drawing to which elements are added. Coordinates are in pixels."""

    parts: list[str] = field(default_factory=list)
    definitions: list[str] = field(default_factory=list)
    width: float = 0
    height: float = 0

    def reach(self, x: float, y: float) -> None:
        self.width, self.height = max(self.width, x), max(self.height, y)

    def add(self, tag: str, title: str = "", inner: str = "", /, **attributes: object) -> None:
        """Adds an element; a title is shown under the pointer."""
        written = attributes_text(attributes)
        body = (f"<title>{escape(title)}</title>" if title else "") + escape(inner)
        self.parts.append(f"<{tag}{written}>{body}</{tag}>" if body else f"<{tag}{written}/>")

    def box(self, x: float, y: float, wide: float, high: float, fill: str, title: str = "", **more: object) -> None:
        self.reach(x + wide, y + high)
        self.add("rect", title, x=x, y=y, width=wide, height=high, fill=fill, **more)

    def group(self, **attributes: object) -> None:
        """Begins a group, whose elements share attributes; `end_group` ends it."""
        written = attributes_text(attributes)
        self.parts.append(f"<g{written}>")

    def end_group(self) -> None:
        self.parts.append("</g>")

    def line(self, x: float, y: float, to_x: float, to_y: float, stroke: str, title: str = "", **more: object) -> None:
        self.reach(max(x, to_x), max(y, to_y))
        self.add("line", title, x1=x, y1=y, x2=to_x, y2=to_y, stroke=stroke, **more)

    def words(
        self, x: float, y: float, text: str, size: float = 11, fill: str = BLACK, title: str = "", **more: object
    ) -> None:
        anchor = more.get("text_anchor", "start")
        self.reach(x + (text_width(text, size) if anchor == "start" else 0), y + 3)
        self.add("text", title, text, x=x, y=y, font_size=size, fill=fill, **more)

    def grouped_words(self, x: float, y: float, text: str, **more: object) -> None:
        """Adds words with the size and the colour of the group around them."""
        self.add("text", "", text, x=x, y=y, **more)

    def lines(
        self, x: float, y: float, text: str, room: float, size: float = 11, fill: str = BLACK, weight: str = "normal"
    ) -> float:
        """Adds a text in lines that fit into some room, and returns their height."""
        written = fitted(text, size, room)
        more = {} if weight == "normal" else {"font_weight": weight}
        for number, line in enumerate(written):
            self.words(x, y + number * (size + 3), line, size, fill, **more)
        return len(written) * (size + 3)

    def shape(self, path: str, fill: str, title: str = "", **more: object) -> None:
        self.add("path", title, d=path, fill=fill, **more)

    def stripes(self, name: str, background: str, foreground: str, step: int = 6) -> str:
        """Adds a fill of stripes, so that a state differs by more than its colour."""
        ground = f'<rect width="{step}" height="{step}" fill="{background}"/>'
        inner = f'{ground}<path d="M0,0 L0,{step}" stroke="{foreground}" stroke-width="2"/>'
        self.definitions.append(
            f'<pattern id="{name}" width="{step}" height="{step}" patternUnits="userSpaceOnUse" '
            f'patternTransform="rotate(45)">{inner}</pattern>'
        )
        return f"url(#{name})"

    def text(self, title: str, scale: float = 1.0) -> str:
        """Returns the whole drawing; the scale applies to all of it, including letters."""
        wide, high = shown(self.width + EDGE), shown(self.height + EDGE)
        sizes = [shown((side + EDGE) * scale) for side in (self.width, self.height)]
        size = f'width="{sizes[0]}" height="{sizes[1]}" viewBox="0 0 {wide} {high}"'
        head = f'<svg xmlns="http://www.w3.org/2000/svg" {size} style="{FONT}">'
        ground = f'<rect width="{wide}" height="{high}" fill="{WHITE}"/>'
        definitions = f"<defs>{''.join(self.definitions)}</defs>" if self.definitions else ""
        return "\n".join([head, f"<title>{escape(title)}</title>", definitions, ground, *self.parts, "</svg>"]) + "\n"


def attributes_text(attributes: dict[str, object]) -> str:
    """Formats attributes as SVG does."""
    return "".join(f" {name.replace('_', '-')}={quoteattr(shown(value))}" for name, value in attributes.items())


def shown(value: object) -> str:
    """Formats a number with at most one decimal, or a text."""
    if isinstance(value, float):
        return f"{value:.1f}".rstrip("0").rstrip(".")
    return str(value)


def diamond(x: float, y: float, r: float) -> str:
    corners = [(x, y - r), (x + r, y), (x, y + r), (x - r, y)]
    return "M" + " L".join(f"{shown(at)},{shown(down)}" for at, down in corners) + " Z"


def triangle(x: float, y: float, r: float) -> str:
    """Returns a triangle that points down."""
    return f"M{shown(x - r)},{shown(y - r)} L{shown(x + r)},{shown(y - r)} L{shown(x)},{shown(y + r)} Z"


def cross(x: float, y: float, r: float) -> str:
    left, right, top, low = shown(x - r), shown(x + r), shown(y - r), shown(y + r)
    return f"M{left},{top} L{right},{low} M{left},{low} L{right},{top}"
