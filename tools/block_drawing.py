"""The block tree drawn as an outline: a box for each set of links that back each other up, single points between the
boxes, lone links dashed.

What hangs on a single point stands to its right and below; the heaviest branch goes on straight down, so that a long
site fills columns rather than leaving the page to the right.
"""
from ink import DASH, FONT, INK, PAGE, WEAK, escape, opened, path, straight, text, width_of, wrapped
from blocks import Forest, Point
from captions import deaf_units, footer, header, linked_groups
from legend import Rows, name_rows, spare_rows
from losses import counted, listed

LINE = 19  # from one line of text to the next
PAD = 6  # around the text of a box
GAP = 9  # between rows
PILL = 11  # half the height of a single point
STEP = 17  # from a single point to what hangs on it
INDENT = 20  # from a box to the single points below it
NARROW = 90  # no text is set narrower
EDGE = 16
HEADED = 160  # about as high as the lines over and under a tree


def pill_width(v):
    return 12 + 0.64 * FONT * len(str(v)) * 1.1


def pill(x, y, v):
    """A single point, its left end at x."""
    w = pill_width(v)
    return (
        f'<rect x="{x:.1f}" y="{y - PILL:.1f}" width="{w:.1f}" height="{2 * PILL}" rx="{PILL}" fill="{WEAK}"/>'
        + text(x + w / 2, y + FONT * 0.36, v, 'text-anchor="middle" fill="white" font-weight="bold"')
    )


def runs(units, marked):
    """The words for units in short ranges, those that are marked apart: pairs of a word and whether it is marked."""
    words = []
    plain = []

    def close():
        if plain:
            words.extend((word, False) for word in listed(plain).split(", "))
            plain.clear()

    for v in units:
        if v in marked:
            close()
            words.append((str(v), True))
        else:
            if plain and v != plain[-1] + 1:
                close()
            plain.append(v)
    close()
    return [(word + ("," if i < len(words) - 1 else ""), weak) for i, (word, weak) in enumerate(words)]


def along(units, marked):
    """The words for units in a row: 3 - 4 - … - 43, where four or more count up or down."""
    words = []
    i = 0
    while i < len(units):
        k = i
        step = units[i + 1] - units[i] if i + 1 < len(units) else 0
        if step in (1, -1):
            while k + 1 < len(units) and units[k + 1] - units[k] == step and (units[k] in marked or k == i) and (
                units[k + 1] in marked or k + 2 == len(units)
            ):
                k += 1
        if k - i >= 4:
            words += [units[i], units[i + 1], "…", units[k]]
        else:
            k = i
            words.append(units[i])
        i = k + 1
    said = [
        (str(word) + (" -" if n < len(words) - 1 else ""), word in marked or word == "…")
        for n, word in enumerate(words)
    ]
    return said


def words_of(node, losses):
    """What stands in a box."""
    singles = losses.unit_parts
    if node.kind == "set":
        head = f"{len(node.units)} units, {len(node.links)} links:" if len(node.units) > 6 else ""
        return [(head, False)] * bool(head) + runs(node.units, singles)
    if node.kind == "ends":
        head = f"{len(node.units)} units on one lone link each:" if len(node.units) > 6 else ""
        return [(head, False)] * bool(head) + runs(node.units, singles)
    if node.kind == "chain":
        head = f"chain of {len(node.links)} lone links:" if len(node.links) > 1 else "lone link:"
        return [(head, False)] + along(node.units, singles)
    out = []
    for k, tail in enumerate(node.units):
        said = along(tail, singles)
        if k < len(node.units) - 1:
            said[-1] = (said[-1][0] + ";", said[-1][1])
        out += said
    return [("chain:" if len(node.units) == 1 else "chains:", False)] + out


def together(words, wide):
    """The words in bunches that are not parted by the end of a line: a short stretch of a chain."""
    bunch, taken = [], 0.0
    for said, weak in words:
        bunch.append((said, weak))
        taken += width_of(said + " ", FONT, weak)
        if not said.endswith(" -") or taken > wide / 3:
            yield bunch, taken
            bunch, taken = [], 0.0
    if bunch:
        yield bunch, taken


def set_in_lines(words, wide):
    """The words in lines no wider than this."""
    words = [
        (part, weak) for said, weak in words for part in (said.split(" ") if width_of(said) > wide / 2 else [said])
    ]
    lines, room = [[]], wide
    for bunch, taken in together(words, wide):
        if lines[-1] and taken > room:
            lines.append([])
            room = wide
        lines[-1] += bunch
        room -= taken
    return lines


def spaced(numbers):
    return " ".join(map(str, numbers))


class Narrow(Exception):
    """A column is too narrow for what must stand in it."""


class Outline:
    """Rows of boxes and single points in one tall column of a width, to be cut into columns."""

    def __init__(self, losses, wide):
        self.losses = losses
        self.wide = wide
        self.rows = []  # (top, bottom, drawn) of each row
        self.trunks = []  # upright lines: (x, y1, y2, color, wide, dash)
        self.bottom = 0.0
        forest = Forest(losses)
        parts = linked_groups(losses)
        sizes = [len(part) for part in parts]
        for k, part in enumerate(parts):
            alike = sizes.count(len(part))
            if len(losses.groups) > 1 and sizes.index(len(part)) == k:
                self.heading(
                    f"{alike} groups of {len(part)} units each" if alike > 1 else f"group of {len(part)} units"
                )
            elif alike > 1 and len(part) > 2:
                self.rule()
            root = next(root for root in forest.roots if self.holds(root, part))
            if isinstance(root, Point):
                self.point(root, 0, self.opened(2 * PILL))
            else:
                self.node(root, 0)
        deaf = deaf_units(losses)
        if deaf:
            self.heading("hears nobody" if len(deaf) == 1 else "hear nobody")
            self.box(0, self.opened(2 * PILL), [(word, False) for word, _ in runs(deaf, ())], "deaf", deaf, [])

    def holds(self, root, part):
        if isinstance(root, Point):
            return root.unit in part
        first = root.units[0]
        return (first[0] if isinstance(first, list) else first) in part

    def opened(self, high):
        """A new row, and its middle."""
        top = self.bottom + GAP
        self.rows.append([top, top + high, []])
        self.bottom = top + high
        return top + high / 2

    def grown(self, bottom):
        self.rows[-1][1] = self.bottom = max(self.bottom, bottom)

    def put(self, drawn):
        self.rows[-1][2].append(drawn)

    def heading(self, said):
        y = self.opened(30)
        self.put(text(0, y + 9, said, f'font-weight="bold" fill="{WEAK}" font-size="{FONT + 1}"'))
        self.put(path(straight(0, y - 12, self.wide, y - 12), WEAK, 2))

    def rule(self):
        y = self.opened(2)
        self.put(path(straight(0, y, self.wide, y), WEAK, 1))

    def box(self, x, y, words, kind, units, links):
        """A box whose first line stands at y; the row grows with it."""
        room = self.wide - x - 2 * PAD - 3
        if room < NARROW:
            raise Narrow
        lines = set_in_lines(words, room)
        w = max(sum(width_of(said + " ", FONT, weak) for said, weak in line) for line in lines) + 2 * PAD
        top, high = y - PILL, 2 * PILL + LINE * (len(lines) - 1)
        look = {
            "set": f'stroke="{INK}" stroke-width="2.2"',
            "deaf": f'stroke="{WEAK}" stroke-width="3" stroke-dasharray="2 4"',
        }
        frame = look.get(kind, f'stroke="{WEAK}" stroke-width="2.2" stroke-dasharray="{DASH}"')
        said = []
        for k, line in enumerate(lines):
            spans = " ".join(
                f'<tspan font-weight="bold" fill="{WEAK}">{escape(word)}</tspan>' if weak else escape(word)
                for word, weak in line
            )
            said.append(f'<text x="{x + PAD:.1f}" y="{y + FONT * 0.36 + LINE * k:.1f}" fill="{INK}">{spans}</text>')
        flat = [v for u in units for v in (u if isinstance(u, list) else [u])]
        self.grown(top + high)
        self.put(
            f'<g class="box {kind}" data-units="{spaced(sorted(set(flat)))}" data-links="{spaced(links)}">'
            f'<rect x="{x:.1f}" y="{top:.1f}" width="{w:.1f}" height="{high:.1f}" rx="{3 if kind == "set" else 8}" '
            f'fill="white" {frame}/>'
            f'{"".join(said)}</g>'
        )
        return top + high

    def level(self, x1, x2, y, dashed, link=None):
        """A line across from a single point, or to one."""
        data = f' class="lone link" data-link="{link}"' if link is not None else ""
        ink = path(straight(x1, y, x2, y), WEAK, 3.5, "6 4") if dashed else path(straight(x1, y, x2, y), INK, 2.2)
        self.put(f"<g{data}>{ink}</g>")

    def trunk(self, x, y1, y2, dashed, color=INK):
        self.trunks.append((x, y1, y2, WEAK if dashed else color, 3.5 if dashed else 2.2, "6 4" if dashed else None))

    def node(self, node, x):
        """A node in a new row of its own, as the root of a group."""
        bottom = self.box(x, self.opened(2 * PILL), words_of(node, self.losses), node.kind, node.units, node.links)
        self.points(node, x, x, bottom)

    def points(self, node, x, heavy_x, bottom):
        """The single points of a box that ends at bottom, each with what hangs on it; the last stands at heavy_x if
        more follows there."""
        dashed = node.kind != "set"
        for point in node.points:
            heavy = heavy_x is not None and point is node.points[-1] and any(n.points for n in point.nodes)
            if heavy:
                gap = self.bottom
                y = self.opened(2 * PILL)
                to = heavy_x + 10
                self.trunk(x + 10, bottom, gap + (GAP / 2 if to != x + 10 else GAP), dashed)
                if to != x + 10:
                    ink = f"M{x + 10:.1f} {gap + GAP / 2:.1f} L{to:.1f} {gap + GAP / 2:.1f} L{to:.1f} {y - PILL:.1f}"
                    self.put(path(ink, WEAK if dashed else INK, 3.5 if dashed else 2.2, "6 4" if dashed else None))
                self.point(point, heavy_x, y)
            else:
                y = self.opened(2 * PILL)
                self.trunk(x + 10, bottom, y, dashed)
                self.level(x + 10, x + INDENT, y, dashed)
                self.point(point, x + INDENT, y)

    def point(self, point, x, y):
        """A single point in the row that is open, and what hangs on it."""
        w = pill_width(point.unit)
        if x + w > self.wide:
            raise Narrow
        right = x + w + STEP
        last = y
        rows = []
        for k, node in enumerate(point.nodes):
            final = k == len(point.nodes) - 1
            if final and k > 0 and node.kind == "link":
                y2 = self.opened(2 * PILL)
                self.trunk(x + 10, last, y2 - PILL, True)
                self.put(f'<g class="lone link" data-link="{node.links[0]}"></g>')
                self.point(node.points[0], x, y2)
                break
            at = y if k == 0 else self.opened(2 * PILL)
            self.level(
                x + w if k == 0 else x + 10,
                right,
                at,
                node.kind != "set",
                node.links[0] if node.kind == "link" else None,
            )
            rows.append(at)
            if node.kind == "link":
                self.point(node.points[0], right, at)
                last = at if k else last
            else:
                bottom = self.box(right, at, words_of(node, self.losses), node.kind, node.units, node.links)
                last = at if k else last
                self.points(node, right, x if final else None, bottom)
        if len(rows) > 1:
            self.trunk(x + 10, y, rows[-1], False, WEAK)
        top = next(row for row in self.rows if row[0] <= y <= row[1])
        top[2].append(
            f'<g class="single unit" data-unit="{point.unit}"><title>unit {point.unit}: single '
            f'point</title>{pill(x, y, point.unit)}</g>'
        )


def cut(outline, high):
    """The rows in columns no higher than this: the top of each column in the outline, or None where a row is higher."""
    tops = [0.0]
    for top, bottom, _ in outline.rows:
        if bottom - (top - GAP) > high:
            return None
        if bottom - tops[-1] > high:
            tops.append(top - GAP / 2)
    return tops


def evened(outline, k, most):
    """Columns about as high as each other."""
    high = outline.bottom / k
    while high < most:
        tops = cut(outline, high)
        if tops and len(tops) <= k:
            return tops
        high += 20
    return cut(outline, most)


def columns(outline, tops, room):
    """The outline's drawing, its columns side by side, each so far from the next; and the height of the highest."""
    ends = tops[1:] + [outline.bottom + 1]
    out = []
    for k, (top, end) in enumerate(zip(tops, ends)):
        out.append(f'<g transform="translate({EDGE + k * room:.1f} {-top:.1f})">')
        for x, y1, y2, color, wide, dash in outline.trunks:
            a, b = max(y1, top), min(y2, end)
            if a < b:
                out.append(path(straight(x, a, x, b), color, wide, dash))
        for row in outline.rows:
            if top <= row[0] < end:
                out += row[2]
        out.append("</g>")
    return out, max(end - top for top, end in zip(tops, ends))


def fitted(losses, high):
    """The outline on a page with so much height left, its columns, and how much larger than a page it is drawn."""
    for large in (1, 1.05, 1.1, 1.2, 1.3, 1.45, 1.6, 1.8, 2, 2.3, 2.6, 3):
        for k in 1, 2, 3, 4, 5:
            room = (large * PAGE[0] - EDGE) / k
            try:
                outline = Outline(losses, room - EDGE)
            except Narrow:
                break
            most = large * PAGE[1] - high
            tops = cut(outline, most)
            if tops and len(tops) <= k:
                return outline, evened(outline, k, most), room, large
    raise AssertionError("a site of 256 units fits three pages")


def legend(losses, wide, found=None):
    """What the marks of the tree mean, and the spares that are proposed."""
    rows = []

    def row(sample, said):
        rows.append((sample, 26, wrapped(said, wide - 100)))

    def box(radius, color, stroke):
        frame = f'x="-20" y="-9" width="40" height="18" rx="{radius}" fill="white"'
        return f'<rect {frame} stroke="{color}" {stroke}/>'

    if losses.unit_parts:
        sample = pill(-14, 0, 0).replace(">0</text>", "></text>")
        row(sample, "single point: its loss parts what hangs on it from the rest; in boxes, bold")
    if losses.link_parts:
        sample = path(straight(-22, 0, 22, 0), WEAK, 3.5, "6 4")
        row(sample, "lone link; in a dashed box, units on one lone link each, or a chain of lone links")
    if losses.backed():
        sample = box(3, INK, 'stroke-width="2.2"')
        row(sample, "units whose links back each other up: any one of these links may fail")
    if deaf_units(losses):
        sample = box(8, WEAK, 'stroke-width="3" stroke-dasharray="2 4"')
        row(sample, f"hears nobody: {counted(len(deaf_units(losses)), 'unit')}")
    proposed = Rows(wide)
    spare_rows(proposed, found)
    return rows + proposed.rows


def named(losses, names):
    """The names of the units at weak places."""
    weak = set(losses.unit_parts) | set(deaf_units(losses)) | {
        v for j in losses.link_parts for v in losses.site.links[j]
    }
    return {v: names[v] for v in sorted(weak) if v in names} if names else {}


def largeness(losses):
    """How many times larger than a page the block tree is."""
    return fitted(losses, HEADED)[3]


def svg_of(losses, names=None, bare=False, found=None, proved=True):
    """The block tree of a site; bare, without the lines over it."""
    names = named(losses, names)
    for large in (1, 1.5, 2.2):
        wide = large * PAGE[0]
        head, top = header(losses, 0, 0, wide, proved)
        _, foot = footer(legend(losses, wide, found), 0, 0)
        _, foot = name_rows(names, 0, foot, wide)
        if foot - top < 0.6 * PAGE[1] * large:
            break
    outline, tops, room, large = fitted(losses, foot - top + 20)
    wide = large * PAGE[0]
    drawn, high = columns(outline, tops, room)
    head, top = header(losses, 0, 0, wide, proved) if not bare else ([], 0)
    feet, bottom = footer(legend(losses, wide, found), 0, high + 14)
    told, bottom = name_rows(names, 0, bottom, wide)
    title = f"{losses.site.units} units, {len(losses.site.links)} links: the block tree"
    return "\n".join(opened(0, top, wide, bottom - top, title) + head + drawn + feet + told + ["</svg>"]) + "\n"
