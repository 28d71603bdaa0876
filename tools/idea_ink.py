"""A small sheet to draw on: the drawings of docs/IDEA.md are made of these strokes."""
import math
from html import escape

INK, PALE, GREY = "#1a1a1a", "#f2f2f2", "#6b6b6b"
GREEN, BLUE, RED = "#00785a", "#0072b2", "#b5121b"
MINT, SKY = "#d9efe8", "#d6e8f4"  # green and blue as a ground
DISC = 13  # the radius of a unit


def shown(number):
    """A coordinate with at most one digit after the point."""
    return f"{number:.1f}".rstrip("0").rstrip(".") if number else "0"


def toward(a, b, by):
    """The point so far from a in the direction of b."""
    far = math.dist(a, b) or 1
    return a[0] + (b[0] - a[0]) * by / far, a[1] + (b[1] - a[1]) * by / far


class Sheet:
    def __init__(self, title, wide, high):
        self.title, self.wide, self.high, self.parts = title, wide, high, []

    def put(self, part):
        self.parts.append(part)

    def path(self, points, color=INK, wide=2, dash=False):
        steps = " ".join(f"{'L' if i else 'M'}{shown(x)} {shown(y)}" for i, (x, y) in enumerate(points))
        self.stroke(steps, color, wide, dash)

    def stroke(self, steps, color, wide, dash):
        dashed = ' stroke-dasharray="5 4"' if dash else ""
        self.put(f'<path d="{steps}" fill="none" stroke="{color}" stroke-width="{wide}"{dashed}/>')

    def head(self, tip, back, color):
        """An arrow's head at the tip, seen from the point back."""
        x, y = toward(tip, back, 9)
        dx, dy = (y - tip[1]) * 0.45, (tip[0] - x) * 0.45
        corners = " ".join(f"{shown(a)},{shown(b)}" for a, b in [tip, (x + dx, y + dy), (x - dx, y - dy)])
        self.put(f'<polygon points="{corners}" fill="{color}"/>')

    def line(self, a, b, color=INK, wide=2, dash=False):
        self.path([a, b], color, wide, dash)

    def arrow(self, a, b, color=INK, wide=2, dash=False, room=0):
        """From a to b, so much short of both."""
        a, b = toward(a, b, room), toward(b, a, room)
        self.path([a, toward(b, a, 6)], color, wide, dash)
        self.head(b, a, color)

    def bow(self, a, b, lift, color=INK, wide=2, dash=False, arrow=False, room=0):
        """A curve from a to b, raised in its middle."""
        middle = ((a[0] + b[0]) / 2, (a[1] + b[1]) / 2 - 2 * lift)
        a, b = toward(a, middle, room), toward(b, middle, room)
        end = toward(b, middle, 6) if arrow else b
        points = [shown(v) for p in (a, middle, end) for v in p]
        self.stroke("M{} {} Q{} {} {} {}".format(*points), color, wide, dash)
        if arrow:
            self.head(b, middle, color)

    def text(self, x, y, words, size=13, anchor="middle", color=INK, bold=False):
        weight = ' font-weight="bold"' if bold else ""
        place = f'x="{shown(x)}" y="{shown(y)}" font-size="{size}" text-anchor="{anchor}"'
        self.put(f'<text {place} fill="{color}"{weight}>{escape(words)}</text>')

    def unit(self, at, label, fill="white", color=INK, wide=2):
        place = f'cx="{shown(at[0])}" cy="{shown(at[1])}"'
        self.put(f'<circle {place} r="{DISC}" fill="{fill}" stroke="{color}" stroke-width="{wide}"/>')
        self.text(at[0], at[1] + 4.5, label, 12)

    def box(self, x, y, wide, high, lines, fill="white", color=INK, dash=False, size=13):
        dashed = ' stroke-dasharray="6 4"' if dash else ""
        place = f'x="{shown(x)}" y="{shown(y)}" width="{shown(wide)}" height="{shown(high)}"'
        self.put(f'<rect {place} rx="5" fill="{fill}" stroke="{color}" stroke-width="2"{dashed}/>')
        for i, words in enumerate(lines):
            below = (i - (len(lines) - 1) / 2) * (size + 4)
            self.text(x + wide / 2, y + high / 2 + below + size * 0.35, words, size, bold=i == 0 and len(lines) > 1)

    def svg(self):
        size = f'viewBox="0 0 {self.wide} {self.high}" width="{self.wide}" height="{self.high}"'
        opened = f'<svg xmlns="http://www.w3.org/2000/svg" {size} font-family="DejaVu Sans, Arial, sans-serif">'
        paper = f'<rect width="{self.wide}" height="{self.high}" fill="white"/>'
        return "\n".join([opened, f"<title>{escape(self.title)}</title>", paper, *self.parts, "</svg>"]) + "\n"
