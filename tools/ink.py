"""Colours, lines and marks of the drawings, and the page that they must fit.

Every meaning is told twice, by colour and by shape, so that a print in grey tells it as well: weak places are dark
and either dashed or filled, links that back each other up are paler and unbroken, and sets of them that meet differ
in their line.
"""
import unicodedata
from collections import namedtuple
from html import escape

WEAK = "#b5121b"  # dark in grey print
INK = "#1a1a1a"
PALE = "#6b6b6b"
# Okabe and Ito's colours for every eye, without those too dark or too pale beside WEAK and white
COLORS = ["#009e73", "#56b4e9", "#cc79a7", "#e69f00"]
CURED = "#00694d"  # what spares cure, and the spares
DASH = "9 6"  # a lone link
CURED_DASH = "18 4"  # a link that is lone no more
SPARE_DASH = "3 4"  # what a spare is heard by
DOTS = "2 5"  # a unit that hears nobody

Line = namedtuple("Line", "color wide core")  # core: the width of the white in the middle of a double line, or 0
LINES = [(3.0, 0), (6.0, 2.4), (1.6, 0)]  # plain, double, thin
LONE_WIDE = 5.0

RADIUS = 15  # of a unit
RING = 20  # of the ring around a single point, its line included
CLEAR = 23  # no link comes nearer to a stranger's centre
FONT = 15  # of every digit
DIGIT = 0.72  # the height of a digit in its font size

# a sheet of A4 without its margins, and as many units of the drawing as leave its digits legible
SHEET = 190.0, 277.0  # mm
LEGIBLE = 1.8  # mm
PAGE = 1080, 1570
NATURAL = 25.4 / 96  # mm of a unit of the drawing where there is room


def letters(i):
    """A to Z, then AA, AB, …"""
    return (letters(i // 26 - 1) if i >= 26 else "") + chr(ord("A") + i % 26)


def scale_on_sheet(wide, high):
    """How many mm a unit of the drawing has where it is printed on a sheet, upright or across."""
    upright = min(SHEET[0] / wide, SHEET[1] / high)
    across = min(SHEET[1] / wide, SHEET[0] / high)
    return min(NATURAL, max(upright, across))


def opened(left, top, wide, high, title):
    scale = scale_on_sheet(wide, high)
    return [
        f'<svg xmlns="http://www.w3.org/2000/svg" viewBox="{left:.0f} {top:.0f} {wide:.0f} {high:.0f}" '
        f'width="{wide * scale:.1f}mm" height="{high * scale:.1f}mm" '
        f'font-family="DejaVu Sans, Arial, sans-serif" font-size="{FONT}">',
        f"<title>{escape(title)}</title>",
        f'<rect class="paper" x="{left:.0f}" y="{top:.0f}" width="{wide:.0f}" height="{high:.0f}" fill="white"/>',
    ]


def path(d, color, wide, dash=None, more=""):
    dashed = f' stroke-dasharray="{dash}"' if dash else ""
    return f'<path d="{d}" fill="none" stroke="{color}" stroke-width="{wide:g}"{dashed}{more}/>'


def straight(x1, y1, x2, y2):
    return f"M{x1:.1f} {y1:.1f} L{x2:.1f} {y2:.1f}"


def styled(d, line):
    """A path of a set of links that back each other up."""
    core = path(d, "white", line.core) if line.core else ""
    return path(d, line.color, line.wide) + core


def lone(d):
    """The path of a lone link: dashed and dark."""
    return path(d, WEAK, LONE_WIDE, DASH)


def under(d):
    """White beneath a lone link, which parts it from what it crosses."""
    return path(d, "white", LONE_WIDE + 4, None, ' class="under"')


def bold(d):
    """Beneath a link that a ring holds: dark on both sides of its line."""
    return path(d, INK, 13, None, ' class="bold"')


def cured(d):
    """The path of a link that is lone no more."""
    return path(d, CURED, 3.5, CURED_DASH)


def spare_line(d):
    """The path of a link to a spare, or of one that is proposed."""
    return path(d, CURED, 3, SPARE_DASH)


def spare_mark(x, y, said):
    """A spare: a square, where units are round."""
    side = RADIUS + 1
    frame = f'x="{x - side:.1f}" y="{y - side:.1f}" width="{2 * side}" height="{2 * side}" rx="3"'
    word = text(x, y + FONT * DIGIT / 2, said, 'text-anchor="middle" fill="white" font-weight="bold"')
    return f'<rect {frame} fill="{CURED}" stroke="white" stroke-width="2"/>{word}'


def disc(x, y, said, kind):
    """A unit: plain, single, cured or deaf."""
    size = FONT if len(str(said)) < 3 else FONT - 0.5
    if kind == "single":
        marks = (
            f'<circle cx="{x:.1f}" cy="{y:.1f}" r="{RING - 1.25}" fill="white" stroke="{WEAK}" stroke-width="2.5"/>'
            f'<circle cx="{x:.1f}" cy="{y:.1f}" r="{RADIUS}" fill="{WEAK}"/>'
        )
        look = 'fill="white" font-weight="bold"'
    elif kind == "cured":
        marks = (
            f'<circle cx="{x:.1f}" cy="{y:.1f}" r="{RING - 1}" fill="white" stroke="{CURED}" stroke-width="2"/>'
            f'<circle cx="{x:.1f}" cy="{y:.1f}" r="{RADIUS}" fill="white" stroke="{CURED}" stroke-width="2"/>'
        )
        look = f'fill="{INK}"'
    elif kind == "deaf":
        marks = (
            f'<circle cx="{x:.1f}" cy="{y:.1f}" r="{RADIUS}" fill="#e4e4e4" stroke="{INK}" stroke-width="3" '
            f'stroke-dasharray="{DOTS}"/>'
        )
        look = f'fill="{INK}"' + (' font-weight="bold"' if len(str(said)) < 3 else "")
    else:
        marks = f'<circle cx="{x:.1f}" cy="{y:.1f}" r="{RADIUS}" fill="white" stroke="{INK}" stroke-width="1.5"/>'
        look = f'fill="{INK}"'
    return marks + text(x, y + size * DIGIT / 2, said, f'font-size="{size:g}" text-anchor="middle" {look}')


def text(x, y, said, look=""):
    return f'<text x="{x:.1f}" y="{y:.1f}" {look}>{escape(str(said), quote=False)}</text>'


HALO = 'stroke="white" stroke-width="4" stroke-linejoin="round" paint-order="stroke"'


# the widths of DejaVu Sans in thousandths of its size, which few fonts exceed
WIDTHS = {
    " ": 318, "!": 401, '"': 460, "#": 838, "'": 275, "(": 390, ")": 390, "*": 500, "+": 838, ",": 318, "-": 361,
    ".": 318, "/": 337, ":": 337, ";": 337, "=": 838, "@": 1000, "a": 613, "b": 635, "c": 550, "d": 635, "e": 615,
    "f": 352, "g": 635, "h": 634, "i": 278, "j": 278, "k": 579, "l": 278, "m": 974, "n": 634, "o": 612, "p": 635,
    "q": 635, "r": 411, "s": 521, "t": 392, "u": 634, "v": 592, "w": 818, "x": 592, "y": 592, "z": 525, "A": 684,
    "B": 686, "C": 698, "D": 770, "E": 632, "F": 575, "G": 775, "H": 752, "I": 295, "J": 295, "K": 656, "L": 557,
    "M": 863, "N": 748, "O": 787, "P": 603, "Q": 787, "R": 695, "S": 635, "T": 611, "U": 732, "V": 684, "W": 989,
    "X": 685, "Y": 611, "Z": 685, "ß": 630, "…": 1000, "\u00a0": 318,
}


def width_of(said, size=FONT, bold=False):
    """About as wide as a text is, rather more than less: letters with marks are as wide as those without."""
    wide = 0
    for c in said:
        plain = unicodedata.normalize("NFD", c)[:1] or c
        broad = 1100 if unicodedata.east_asian_width(c) in "WF" else 800 if c.isupper() else 660
        wide += WIDTHS.get(plain, 636 if c.isdigit() else broad)
    return wide / 1000 * size * (1.13 if bold else 1.02)


def wrapped(said, wide, size=FONT, bold=False):
    """The lines of a text no wider than this; a word that is too wide is cut."""
    lines = [""]
    for word in said.split(" "):
        while True:
            longer = f"{lines[-1]} {word}".strip()
            if width_of(longer, size, bold) <= wide:
                lines[-1] = longer
                break
            if lines[-1]:
                lines.append("")
                continue
            cut = max(1, int(len(word) * wide / width_of(word, size, bold)))
            lines[-1], word = word[:cut], word[cut:]
            lines.append("")
            if not word:
                break
    return [line for line in lines if line] or [""]
