"""Where the units of a site stand on the page. The same site always gives the same page.

A group is laid out by springs, or, where its links are too many for that, on a rim across which they bend. Groups
stand in frames of their own, and so do, together, the units that hear nobody.
"""
import itertools
import math
from collections import namedtuple

from ink import CLEAR, FONT, PAGE

LINK = 84  # the length that a link strives for
APART = 62  # two units stand no nearer than this, so that a link finds its way between them
ON_RIM = 51, 84  # from one unit on a rim to the next, at least, and where there is room
WIDEST = 486  # the radius of a rim that fills the page
DENSE = 2.6  # from so many links a unit on, a group stands on a rim
MARGIN = 34  # around the units of a group
HEADING = 30  # over them, in a frame
NAMES = 22  # and more at the sides and below, where units have names
HEADED = 12 * FONT  # a frame is no narrower
LEAST = 560  # a page is no narrower
GAP = 18  # between frames
ROOM = PAGE[0] - 2 * GAP, 1190  # what the units of a site may fill on one page
ROOMY = 140  # up to so many units

# frames are (x, y, wide, high, units), rims (x, y, radius, angle from unit to unit) by unit
Layout = namedtuple("Layout", "places wide high frames deaf rims")


def distances(near, part):
    """The number of links between each two units of a group."""
    found = {}
    for start in part:
        far = {start: 0}
        queue = [start]
        for v in queue:
            for w, _ in near[v]:
                if w not in far:
                    far[w] = far[v] + 1
                    queue.append(w)
        found[start] = far
    return found


def shuffled(items, seed):
    """A fixed order without a pattern."""
    for i in range(len(items) - 1, 0, -1):
        seed = (seed * 1103515245 + 12345) % 2**31
        j = (seed >> 8) % (i + 1)
        items[i], items[j] = items[j], items[i]


def springs(near, part):
    """Each pair of units is a spring as long as the way between them; pair by pair is moved to its length, by ever
    less."""
    at = {v: [math.cos(2.4 * i) * (i + 1) ** 0.5, math.sin(2.4 * i) * (i + 1) ** 0.5] for i, v in enumerate(part)}
    if len(part) == 1:
        return at
    far = distances(near, part)
    # a long chain would leave the page: its springs are shortened, the longest the most, and it winds
    longest = max(max(ways.values()) for ways in far.values())
    power = min(1, math.log(1.5 * len(part) ** 0.5 + 8) / math.log(max(2, longest)))
    pairs = [(v, w, far[v][w] ** power) for v in part for w in part if v < w]
    longest = longest**power
    turns = 60 if len(part) <= 100 else 30
    for turn in range(turns):
        shuffled(pairs, turn + 1)
        give = longest**2 * (0.02 / longest**2) ** (turn / (turns - 1))
        for v, w, d in pairs:
            a, b = at[v], at[w]
            x, y = a[0] - b[0], a[1] - b[1]
            length = math.hypot(x, y) or 1e-9
            move = min(1.0, give / d**2) * (length - d) / (2 * length)
            a[0] -= move * x
            a[1] -= move * y
            b[0] += move * x
            b[1] += move * y
    return at


def turned(at):
    """The longest way across lies flat, the least unit to the left."""
    n = len(at)
    cx, cy = (sum(p[i] for p in at.values()) / n for i in (0, 1))
    xx = sum((p[0] - cx) ** 2 for p in at.values())
    yy = sum((p[1] - cy) ** 2 for p in at.values())
    xy = sum((p[0] - cx) * (p[1] - cy) for p in at.values())
    angle = math.atan2(2 * xy, xx - yy) / 2
    c, s = math.cos(angle), math.sin(angle)
    flat = {v: [c * (p[0] - cx) + s * (p[1] - cy), c * (p[1] - cy) - s * (p[0] - cx)] for v, p in at.items()}
    first = flat[min(flat)]
    sx, sy = (-1 if first[0] > 0 else 1), (-1 if first[1] > 0 else 1)
    return {v: [sx * p[0], sy * p[1]] for v, p in flat.items()}


def spread(at, room):
    """Units pushed apart, within the room, until none stands on another."""
    units = sorted(at)
    for _ in range(200):
        moved = False
        units.sort(key=lambda v: at[v][0])
        for i, v in enumerate(units):
            p = at[v]
            for k in range(i + 1, len(units)):
                q = at[units[k]]
                x, y = p[0] - q[0], p[1] - q[1]
                if x < -2 * APART:
                    break
                if not (-APART < x < APART and -APART < y < APART):
                    continue
                length = math.hypot(x, y)
                if length >= APART:
                    continue
                if length < 1e-6:
                    x, y, length = 1.0, 0.37, 1.07
                push = (APART + 1 - length) / (2 * length)
                p[0] += push * x
                p[1] += push * y
                q[0] -= push * x
                q[1] -= push * y
                moved = True
        if not moved:
            break
        within(at, room)
    return at


def within(at, room):
    for p in at.values():
        p[0] = min(max(p[0], 0.0), room[0])
        p[1] = min(max(p[1], 0.0), room[1])


def shoved(at, links, room):
    """Units moved off the links that they are no end of, and these off them."""
    wanted = CLEAR + 5
    for _ in range(40):
        moved = False
        for a, b in links:
            p, q = at[a], at[b]
            x, y = q[0] - p[0], q[1] - p[1]
            length = x * x + y * y
            if length < 1:
                continue
            left, right = (p[0], q[0]) if p[0] < q[0] else (q[0], p[0])
            top, bottom = (p[1], q[1]) if p[1] < q[1] else (q[1], p[1])
            for v, r in at.items():
                if v == a or v == b or not (left - wanted <= r[0] <= right + wanted):
                    continue
                if not top - wanted <= r[1] <= bottom + wanted:
                    continue
                t = ((r[0] - p[0]) * x + (r[1] - p[1]) * y) / length
                if not 0 < t < 1:
                    continue
                dx, dy = r[0] - p[0] - t * x, r[1] - p[1] - t * y
                off = math.hypot(dx, dy)
                if off >= wanted:
                    continue
                if off < 1e-6:
                    dx, dy, off = -y, x, length**0.5
                push = (wanted + 2 - (off if off < wanted else 0)) / (2 * math.hypot(dx, dy))
                r[0] += push * dx
                r[1] += push * dy
                for end, share in (p, 1 - t), (q, t):
                    end[0] -= push * share * dx
                    end[1] -= push * share * dy
                moved = True
        if not moved:
            break
        within(at, room)
        spread(at, room)
    return at


def scale_of(at):
    """Crowded groups are drawn larger, so that few units have to be pushed apart."""
    near = sorted(min((math.dist(p, q) for w, q in at.items() if w != v), default=1) for v, p in at.items())
    return min(2.5 * LINK, max(LINK, 1.1 * APART / (near[len(near) // 10] or 1)))


def size_of(at):
    return tuple(max(p[i] for p in at.values()) - min(p[i] for p in at.values()) for i in (0, 1)) if at else (0, 0)


def sprung(at, scale, room, links):
    """The springs' places in a room, with no unit on another, nor on a link."""
    wide, high = size_of(at)
    sx, sy = (min(scale, side / size) if size else scale for side, size in zip(room, (wide, high)))
    left, top = (min(p[i] for p in at.values()) for i in (0, 1))
    at = {v: [sx * (p[0] - left), sy * (p[1] - top)] for v, p in at.items()}
    return shoved(spread(at, room), links, room)


def across(near, order):
    """How far the links lead around a rim in all."""
    place = {v: i for i, v in enumerate(order)}
    return sum(
        min((place[v] - place[w]) % len(order), (place[w] - place[v]) % len(order)) for v in order for w, _ in near[v]
    )


def walked(near, part):
    """The units in the order of a walk that goes on to a neighbour while there is a new one, those with few links
    first."""
    order, seen = [], set()
    for start in sorted(part, key=lambda v: (len(near[v]), v)):
        ahead = [start]
        while ahead:
            v = ahead.pop()
            if v not in seen:
                seen.add(v)
                order.append(v)
                ahead += sorted((w for w, _ in near[v] if w not in seen), key=lambda w: (-len(near[w]), -w))
    return order


def hub_of(near, part):
    """The one unit that most of its group hears directly, if there is one."""
    wanted = max(8, 0.6 * (len(part) - 1))
    hubs = [v for v in part if len(near[v]) >= wanted]
    return hubs[0] if len(hubs) == 1 else None


def with_trees(near, order):
    """The order of units with each tree of lone links that hangs on one of them beside it."""
    left = {v: len(links) for v, links in near.items()}
    ahead = [v for v in order if left[v] == 1]
    for v in ahead:
        left[v] = 0
        for w, _ in near[v]:
            left[w] -= 1
            if left[w] == 1:
                ahead.append(w)
    out, seen = [], set()
    for start in [v for v in order if left[v] > 0] + order:
        stack = [start]
        while stack:
            v = stack.pop()
            if v not in seen:
                seen.add(v)
                out.append(v)
                stack += [w for w, _ in near[v] if left[w] <= 0]
    return out


def on_rim(near, part, hub, room=WIDEST):
    """The units in a circle around the hub, if there is one, no tighter than the room for its radius asks."""
    near = {v: [(w, j) for w, j in near[v] if w != hub] for v in part if v != hub}
    orders = [with_trees(near, first) for first in (sorted(near), walked(near, near))]
    # by number where that leads the links hardly farther around
    order = orders[0] if across(near, orders[0]) <= 1.15 * across(near, orders[1]) else orders[1]
    tight, wide = (apart * len(order) / (2 * math.pi) for apart in ON_RIM)
    radius = max(80.0, tight, min(wide, room))
    turn = 2 * math.pi / len(order)
    at = {v: [-radius * math.cos(turn * i), -radius * math.sin(turn * i)] for i, v in enumerate(order)}
    if hub is not None:
        at[hub] = [0.0, 0.0]
    return at, radius


class Group:
    """A group before it has its place on the page."""

    def __init__(self, near, part):
        self.units = part
        self.links = sorted({(min(v, w), max(v, w)) for v in part for w, _ in near[v]})
        self.radius = 0
        self.centre = 0.0, 0.0
        on_a_rim, hub = rimmed(near, part)
        if on_a_rim:
            self.at, self.radius = on_rim(near, part, hub)
            self.turn = 2 * math.pi / (len(part) - (hub is not None))
            self.rim = [v for v in part if v != hub]
        else:
            self.flat = turned(springs(near, part))
            self.scale = scale_of(self.flat)

    def sized(self, share, most):
        """The room that the group takes at a share of its scale, and at most."""
        if self.radius:
            self.size = size_of(self.at)
            return
        self.share = share
        scale = self.scale * share
        self.springs = self.flat
        wide, high = size_of(self.springs)
        if scale * wide > most[0] and wide > high and most[1] > most[0]:
            self.springs = {v: [p[1], p[0]] for v, p in self.flat.items()}
            wide, high = high, wide
        least = APART * max(1, len(self.units) ** 0.5 - 1) if len(self.units) > 3 else 0
        self.size = tuple(min(most[i], max(scale * side, least)) for i, side in enumerate((wide, high)))

    def settled(self):
        """The units' places, from the first corner on."""
        if not self.radius:
            self.at = sprung(self.springs, self.scale * self.share, self.size, self.links)
        left, top = (min(p[i] for p in self.at.values()) for i in (0, 1))
        self.centre = -left, -top
        return {v: (p[0] - left, p[1] - top) for v, p in self.at.items()}


def rows_of(sizes, limit):
    """Each size its corner, in rows no wider than a limit; and the width and height of all."""
    corners = []
    x = y = tall = wide = 0
    for w, h in sizes:
        if x and x + w > limit:
            x, y, tall = 0, y + tall + GAP, 0
        corners.append((x, y))
        x, tall, wide = x + w + GAP, max(tall, h), max(wide, x + w)
    return corners, wide, y + tall


def packed(sizes, above, around, framed, room):
    """The frames of groups of these sizes: their corners, their sizes, and the width and height of all."""
    sizes = [(max(w + 2 * around, HEADED if framed else 0), h + above + around) for w, h in sizes]
    area = sum((w + GAP) * (h + GAP) for w, h in sizes)
    limit = min(room[0], max([1.2 * area**0.5] + [w for w, _ in sizes]))
    corners, wide, high = min((rows_of(sizes, side) for side in (limit, room[0])), key=lambda rows: rows[2] > room[1])
    return corners, sizes, wide, high


def grid_of(units, limit):
    """Units that hear nobody, side by side."""
    step = APART + 4
    row = max(1, min(len(units), int((limit - 2 * MARGIN) / step) + 1))
    return {v: [step * (i % row), step * (i // row)] for i, v in enumerate(units)}


def margin(groups, named):
    """Around the units of a group; a frame has room for names."""
    return MARGIN + (NAMES if named and len(groups) > 1 else 0)


def crossings(places, links):
    """How many pairs of links cross, were they all straight."""
    lines = []
    for a, b in links:
        (ax, ay), (bx, by) = places[a], places[b]
        lines.append((min(ax, bx), max(ax, bx), ax, ay, bx, by, a, b))
    lines.sort()
    found = 0
    for i, (_, right, ax, ay, bx, by, a, b) in enumerate(lines):
        for left, _, cx, cy, dx, dy, c, d in itertools.islice(lines, i + 1, None):
            if left > right:
                break
            if a in (c, d) or b in (c, d):
                continue
            of_c, of_d = ((bx - ax) * (y - ay) - (by - ay) * (x - ax) for x, y in ((cx, cy), (dx, dy)))
            of_a, of_b = ((dx - cx) * (y - cy) - (dy - cy) * (x - cx) for x, y in ((ax, ay), (bx, by)))
            found += of_c * of_d < 0 and of_a * of_b < 0
    return found


def rimmed(near, part):
    """Whether a group stands on a rim, and its hub if it has one."""
    hub = hub_of(near, part)
    links = sum(len(near[v]) for v in part) / 2
    return hub is not None or (len(part) > 4 and links > DENSE * len(part)), hub


def largeness(near, groups):
    """How many times larger than a page a layout must be for its digits."""
    units = sum(len(part) for part in groups)
    widest = max(len(part) * ON_RIM[0] / math.pi if rimmed(near, part)[0] else 0 for part in groups)
    return max(1.0, (units / ROOMY) ** 0.5, widest / ROOM[0])


def laid_out(near, groups, named=False):
    """The layout of a site from its first corner on."""
    units = sum(len(part) for part in groups)
    large = max(1.0, (units / ROOMY) ** 0.5)
    room = [large * side for side in ROOM]
    alone = sorted(part[0] for part in groups if len(part) == 1) if len(groups) > 1 else []
    parts = sorted((part for part in groups if len(groups) == 1 or len(part) > 1), key=lambda part: (-len(part), part))
    found = [Group(near, part) for part in parts]
    framed = len(groups) > 1
    around = margin(groups, named)
    above = MARGIN + HEADING if framed else MARGIN
    most = room[0] - 2 * around, room[1] - above - around
    grid = grid_of(alone, room[0])
    if alone:
        most = most[0], most[1] - size_of(grid)[1] - above - around - GAP
    for share in 1, 0.9, 0.8, 0.7, 0.6, 0.5, 0.4, 0.3:
        for group in found:
            group.sized(share, most)
        corners, sizes, wide, high = packed(
            [group.size for group in found] + [size_of(grid)] * bool(alone), above, around, framed, room
        )
        if high <= room[1]:
            break
    boxes = [group.settled() for group in found] + [grid] * bool(alone)
    corners, sizes, wide, high = packed([size_of(at) for at in boxes], above, around, framed, room)
    places, frames, rims = {}, [], {}
    beside = max(0, (LEAST - wide) / 2)
    for k, ((x, y), at, size) in enumerate(zip(corners, boxes, sizes)):
        x += beside
        left = x + (size[0] - size_of(at)[0]) / 2
        for v, p in at.items():
            places[v] = (left + p[0], y + above + p[1])
        if k < len(found) and found[k].radius:
            cx, cy = found[k].centre
            rims.update({v: (left + cx, y + above + cy, found[k].radius, found[k].turn) for v in found[k].rim})
        frames.append((x, y, *size, sorted(at)))
    deaf = frames.pop() if alone else None
    return Layout(places, wide + 2 * beside, high, frames if framed else [], deaf, rims)


def kept(old, near, groups, named=False):
    """The layout of a site where each unit of an old layout stands as before; new units stand near those that they
    hear."""
    places = {v: p for v, p in old.places.items() if v < len(near)}
    rims = {v: rim for v, rim in old.rims.items() if v < len(near)}
    fresh = [v for v in range(len(near)) if v not in places]
    while fresh:
        v = max(fresh, key=lambda v: (sum(w in places for w, _ in near[v]), -v))
        fresh.remove(v)
        heard = [places[w] for w, _ in near[v] if w in places]
        if heard:
            start = tuple(sum(p[i] for p in heard) / len(heard) for i in (0, 1))
        else:
            start = 0.0, old.high + APART
        places[v] = free_place(start, places, rims)
    parts = [part for part in groups if len(part) > 1]
    boxes = [frame_around(places, part, margin(groups, named)) for part in parts] if len(groups) > 1 else []
    apart = all(not overlapping(a, b) for i, a in enumerate(boxes) for b in boxes[:i])
    strangers = any(inside(places[v], box) for box in boxes for v in places if v not in box[4])
    return Layout(places, old.wide, old.high, boxes if apart and not strangers else [], None, rims)


def free_place(start, places, rims):
    """The nearest place to start that is no nearer to any unit than two units stand, and on no rim's inside."""
    discs = {rim[:3] for rim in rims.values()}
    for k in range(4000):
        x = start[0] + 4.5 * k**0.5 * math.cos(2.4 * k)
        y = start[1] + 4.5 * k**0.5 * math.sin(2.4 * k)
        if all(math.hypot(x - cx, y - cy) > r + APART for cx, cy, r in discs) and all(
            math.hypot(x - px, y - py) >= APART for px, py in places.values()
        ):
            return x, y
    return max(p[0] for p in places.values()) + APART, start[1]


def frame_around(places, part, around):
    xs, ys = [places[v][0] for v in part], [places[v][1] for v in part]
    left, top = min(xs) - around, min(ys) - MARGIN - HEADING
    return left, top, max(max(xs) + around - left, HEADED), max(ys) + around - top, sorted(part)


def overlapping(a, b):
    return a[0] < b[0] + b[2] and b[0] < a[0] + a[2] and a[1] < b[1] + b[3] and b[1] < a[1] + a[3]


def inside(p, box):
    return box[0] < p[0] < box[0] + box[2] and box[1] < p[1] < box[1] + box[3]
