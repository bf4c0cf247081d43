# SPDX-License-Identifier: Apache-2.0 OR MIT
"""Pictures as SVG, written from shapes: the same shapes give the same bytes."""

from html import escape

FONT = "font-family=\"DejaVu Sans, Verdana, sans-serif\""


def number(value):
    """A coordinate, in as few digits as say it to a tenth."""
    return f"{value:.1f}".removesuffix(".0")


class Picture:
    """Shapes on a white ground, in the order in which they were added; lengths are pixels, from the upper left."""

    def __init__(self, width, height, title):
        self.width, self.height, self.title, self.shapes = width, height, title, []

    def box(self, x, y, width, height, fill, stroke="none", round_by=0, note=None):
        about = f"<title>{escape(note)}</title>" if note else ""
        self.shapes.append(
            f'<rect x="{number(x)}" y="{number(y)}" width="{number(width)}" height="{number(height)}" '
            f'rx="{number(round_by)}" fill="{fill}" stroke="{stroke}">{about}</rect>')

    def line(self, points, stroke, width=1, dashes=""):
        way = " ".join(f"{number(x)},{number(y)}" for x, y in points)
        dashed = f' stroke-dasharray="{dashes}"' if dashes else ""
        self.shapes.append(f'<polyline points="{way}" fill="none" stroke="{stroke}" '
                           f'stroke-width="{number(width)}"{dashed}/>')

    def arrow(self, points, stroke="#555555", width=1.2, dashes="", both=False):
        """A way that ends in a head, and begins in one where it leads both ways."""
        self.line(points, stroke, width, dashes)
        ways = [points[-2:], points[1::-1]] if both else [points[-2:]]
        for (x0, y0), (x, y) in ways:
            long = ((x - x0) ** 2 + (y - y0) ** 2) ** 0.5
            along, across = (x - x0) / long, (y - y0) / long
            corners = [(x, y)]
            corners += [(x - 8 * along + side * across, y - 8 * across - side * along) for side in (3.5, -3.5)]
            self.shapes.append(f'<polygon points="{" ".join(f"{number(a)},{number(b)}" for a, b in corners)}" '
                               f'fill="{stroke}"/>')

    def node(self, x, y, width, height, lines, fill, stroke="#333333"):
        """A box with lines of text in its middle, of which the first is the larger one."""
        self.box(x, y, width, height, fill, stroke, 6)
        first = y + height / 2 + 4 - 7 * (len(lines) - 1)
        for place, words in enumerate(lines):
            self.text(x + width / 2, first + 14 * place, words, 12 if place == 0 else 10, "middle")

    def text(self, x, y, words, size=12, anchor="start", fill="#222222", bold=False):
        weight = ' font-weight="bold"' if bold else ""
        self.shapes.append(f'<text x="{number(x)}" y="{number(y)}" font-size="{number(size)}" text-anchor="{anchor}" '
                           f'fill="{fill}"{weight}>{escape(words)}</text>')

    def bytes(self):
        head = (f'<svg xmlns="http://www.w3.org/2000/svg" width="{number(self.width)}" height="{number(self.height)}" '
                f'viewBox="0 0 {number(self.width)} {number(self.height)}" {FONT}>')
        ground = f'<rect width="{number(self.width)}" height="{number(self.height)}" fill="#ffffff"/>'
        return "\n".join([head, f"<title>{escape(self.title)}</title>", ground, *self.shapes, "</svg>", ""]).encode()
