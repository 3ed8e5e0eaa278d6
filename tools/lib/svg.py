"""Writes pictures in SVG: one file with nothing outside of it, that every browser opens."""
from xml.sax.saxutils import escape, quoteattr

from lib.measure import cells, visible

# A letter of 12 pixels in a font whose letters are all as wide, with some room for fonts that are wider.
SIZE, LETTER = 12, 7.4
FONT = "ui-monospace, 'DejaVu Sans Mono', Menlo, Consolas, monospace"
INK, FAINT, ALARM = "#1b1f24", "#6e7781", "#b3261e"


def width_of(text, size=SIZE):
    return cells(visible(text)) * LETTER * size / SIZE


def number(value):
    return f"{value:.1f}".removesuffix(".0")


def attributes(values):
    """A keyword's underscore at the end goes, others are hyphens; None is left out."""
    named = ((key.rstrip("_").replace("_", "-"), value) for key, value in values.items() if value is not None)
    return "".join(f" {key}={quoteattr(number(value) if isinstance(value, float) else str(value))}" for key, value in named)


class Picture:
    """Elements in the order in which they are drawn."""

    def __init__(self):
        self.elements = []

    def add(self, name, content="", title=None, **values):
        tip = f"<title>{escape(visible(title))}</title>" if title else ""
        body = f"{tip}{content}"
        self.elements.append(f"<{name}{attributes(values)}{f'>{body}</{name}>' if body else '/>'}")

    def line(self, start, end, stroke=INK, **values):
        self.add("line", x1=float(start[0]), y1=float(start[1]), x2=float(end[0]), y2=float(end[1]), stroke=stroke, **values)

    def box(self, corner, size, **values):
        self.add("rect", x=float(corner[0]), y=float(corner[1]), width=float(size[0]), height=float(size[1]), **values)

    def dot(self, centre, radius, **values):
        self.add("circle", cx=float(centre[0]), cy=float(centre[1]), r=float(radius), **values)

    def cross(self, centre, stroke=ALARM):
        for slope in (5, -5):
            self.line((centre[0] - 5, centre[1] - slope), (centre[0] + 5, centre[1] + slope), stroke, stroke_width=2)

    def text(self, place, text, anchor="middle", halo=True, **values):
        """A text with a rim in the ground's colour, so that it can be read over lines."""
        rim = {"stroke": "white", "stroke_width": 4, "stroke_linejoin": "round", "paint_order": "stroke"} if halo else {}
        self.add("text", escape(visible(text)), x=float(place[0]), y=float(place[1]), text_anchor=anchor, **{"fill": INK, **rim, **values})

    def head(self, tip, towards, fill=INK):
        """The head of an arrow that comes from the point `towards`."""
        away = (towards[0] - tip[0], towards[1] - tip[1])
        length = (away[0] ** 2 + away[1] ** 2) ** 0.5 or 1.0
        along = (away[0] / length * 9, away[1] / length * 9)
        aside = (-along[1] * 0.42, along[0] * 0.42)
        corners = [tip, (tip[0] + along[0] + aside[0], tip[1] + along[1] + aside[1]), (tip[0] + along[0] - aside[0], tip[1] + along[1] - aside[1])]
        self.add("polygon", points=" ".join(f"{number(x)},{number(y)}" for x, y in corners), fill=fill)

    def document(self, width, height, title):
        head = (
            f'<svg xmlns="http://www.w3.org/2000/svg" width="{number(float(width))}" height="{number(float(height))}" '
            f'viewBox="0 0 {number(float(width))} {number(float(height))}" role="img" font-family="{FONT}" font-size="{SIZE}">'
        )
        lines = [head, f"<title>{escape(visible(title))}</title>", '<rect width="100%" height="100%" fill="white"/>', *self.elements, "</svg>"]
        return "\n".join(lines) + "\n"
