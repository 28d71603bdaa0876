"""Where words stand in a drawing: names beside their units and numbers beside their links, none over another.

Room is kept as boxes and discs that are taken. A name stands in full, in one line or several; where it finds no
room, it goes to the legend, under its unit's number.
"""
import math

import routes
from ink import FONT, RING, width_of

BESIDE = 10  # a number stands so far off its link
SHARES = 0.5, 0.44, 0.56, 0.38, 0.62, 0.31, 0.69, 0.24, 0.76  # of a link, where its number may stand
LINE = 17  # from one line of a name to the next
CELL = 48  # of the grid that what is taken is looked up in
COVERED = 5  # a name covers no more of links than so many points of them, 5 units apart
PAD = 3  # around words
CLEARLY = 7  # a name is by so much nearer to its own unit than to any other


class Room:
    """What is taken on a page: discs of units, boxes of words, and the links, which words may cover a little."""

    def __init__(self, places, ways, edges, frames=()):
        self.edges = edges
        self.discs, self.points, self.boxes = {}, {}, {}
        for x, y in places.values():
            self.enter(self.discs, (x - RING, y - RING, x + RING, y + RING), (x, y))
        lines = [p for way in ways for p in routes.sampled(way)]
        for x, y, w, h in frames:
            corners = (x, y), (x + w, y), (x + w, y + h), (x, y + h), (x, y)
            lines += [p for a, b in zip(corners, corners[1:]) for p in routes.sampled([a, b])] * 3
        for x, y in lines:
            self.points.setdefault((int(x // CELL), int(y // CELL)), []).append((x, y))

    def cells(self, box):
        left, top, right, bottom = (int(k // CELL) for k in box)
        return [(i, k) for i in range(left, right + 1) for k in range(top, bottom + 1)]

    def enter(self, grid, box, what):
        for cell in self.cells(box):
            grid.setdefault(cell, []).append(what)

    def within(self, table, box):
        return [what for cell in self.cells(box) for what in table.get(cell, ())]

    def free(self, box):
        left, top, right, bottom = box
        if left < self.edges[0] or top < self.edges[1] or right > self.edges[2] or bottom > self.edges[3]:
            return False
        for x, y in self.within(self.discs, box):
            if math.hypot(x - min(max(x, left), right), y - min(max(y, top), bottom)) < RING + 1:
                return False
        return not any(
            left < other[2] and other[0] < right and top < other[3] and other[1] < bottom
            for other in self.within(self.boxes, box)
        )

    def nearest(self, box, x, y):
        """Whether a box is clearly nearer to a unit's place than to any other's."""
        left, top, right, bottom = box

        def far(px, py):
            return math.hypot(px - min(max(px, left), right), py - min(max(py, top), bottom))

        own = far(x, y) + CLEARLY
        wide = left - own, top - own, right + own, bottom + own
        return all((px, py) == (x, y) or far(px, py) > own for px, py in self.within(self.discs, wide))

    def covered(self, box):
        """How many points of links a box would cover."""
        left, top, right, bottom = box
        return sum(left < x < right and top < y < bottom for x, y in self.within(self.points, box))

    def take(self, box):
        self.enter(self.boxes, box, box)


# ---- the numbers of links


def beside(points, share, side, w, off):
    """The middle of a word of a width beside a route."""
    k = min(len(points) - 2, max(1, round(share * (len(points) - 1)))) if len(points) > 2 else 0
    (ax, ay), (bx, by) = points[max(0, k - 1)], points[min(len(points) - 1, k + 1)]
    length = math.hypot(bx - ax, by - ay) or 1
    nx, ny = (by - ay) / length, (ax - bx) / length
    if ny > 0 or (ny == 0 and nx > 0):
        nx, ny = -nx, -ny
    off += abs(nx) * (w / 2 - 5)
    return points[k][0] + side * off * nx, points[k][1] + side * off * ny


def number_box(x, y, w):
    return x - w / 2, y - 7.5, x + w / 2, y + 7.5


def number_place(room, route, said, must, bold=False):
    """A place beside a route; where there is none free, the middle if it must be, else None."""
    points = routes.sampled(route)
    w = width_of(said, FONT, bold) + 2
    for off in (BESIDE, BESIDE + 7, BESIDE + 14, BESIDE + 22) if must else (BESIDE,):
        for share in SHARES:
            for side in 1, -1:
                at = beside(points, share, side, w, off)
                if room.free(number_box(*at, w)):
                    room.take(number_box(*at, w))
                    return at
    if not must:
        return None
    at = beside(points, 0.5, 1, w, BESIDE)
    room.take(number_box(*at, w))
    return at


# ---- the names of units


def in_lines(said, count):
    """A name in so many lines, broken at spaces, as narrow as that can be; None where it has too few words."""
    words = said.split(" ")
    if len(words) < count:
        return None
    if count == 1:
        return [said]
    best = None
    for k in range(1, len(words) - count + 2):
        rest = in_lines(" ".join(words[k:]), count - 1)
        lines = [" ".join(words[:k]), *rest]
        wide = max(map(width_of, lines))
        if best is None or wide < best[0]:
            best = wide, lines
    return best[1]


def around(x, y, w, h):
    """The places of a box beside a unit, the better first: its middle, and where its lines are anchored."""
    off, near = RING + 3, RING * 0.75
    yield x, y + off + h / 2, "middle"
    yield x + off + w / 2, y, "start"
    yield x - off - w / 2, y, "end"
    yield x, y - off - h / 2, "middle"
    for dy in near + h / 2, -near - h / 2:
        yield x + near + w / 2, y + dy, "start"
        yield x - near - w / 2, y + dy, "end"
    for dx in w / 2 - RING, RING - w / 2:
        yield x + dx, y + off + h / 2, "middle"
        yield x + dx, y - off - h / 2, "middle"


def name_place(room, x, y, said):
    """The lines of a name beside a unit, where the first stands and how they are anchored; None where there is no
    room."""
    best = None
    for count in 1, 2, 3, 4:
        lines = in_lines(said, count)
        if lines is None:
            break
        w, h = max(map(width_of, lines)) + 2 * PAD, LINE * len(lines)
        for rank, (cx, cy, anchor) in enumerate(around(x, y, w, h)):
            box = cx - w / 2, cy - h / 2, cx + w / 2, cy + h / 2
            if not room.free(box) or not room.nearest(box, x, y):
                continue
            covered = room.covered(box)
            cost = covered, count if w > 90 else 1, rank
            if covered <= COVERED and (best is None or cost < best[0]):
                at = {"middle": cx, "start": box[0] + PAD, "end": box[2] - PAD}[anchor]
                best = cost, lines, (at, box[1] + 12.5), anchor, box
        if best and best[0][0] == 0:
            break
    if best is None:
        return None
    room.take(best[4])
    return best[1:4]
