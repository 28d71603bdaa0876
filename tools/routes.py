"""How the links run from unit to unit: straight, or bent where a unit that is no end of theirs would stand in the
way.

A route is a list of points: two for a straight line, three for a bow (two ends and, in the middle, what the line is
drawn towards), more for a line with corners.
"""
import heapq
import math

from ink import CLEAR

BOWS = [side * share for share in (0.12, 0.2, 0.3, 0.42, 0.56, 0.72, 0.9) for side in (1, -1)]
LEAVES = math.radians(52)  # a bow on a rim leaves it no flatter than this


def sampled(route, apart=5.0):
    """Points along a route, no more than about so far apart."""
    if len(route) == 3:
        (ax, ay), (cx, cy), (bx, by) = route
        n = max(8, int((math.hypot(cx - ax, cy - ay) + math.hypot(bx - cx, by - cy)) / apart) + 1)
        out = []
        for i in range(n + 1):
            t = i / n
            u = 1 - t
            k, m, o = u * u, 2 * u * t, t * t
            out.append((k * ax + m * cx + o * bx, k * ay + m * cy + o * by))
        return out
    out = [route[0]]
    for (ax, ay), (bx, by) in zip(route, route[1:]):
        n = max(1, int(math.hypot(bx - ax, by - ay) / apart) + 1)
        out += [(ax + (bx - ax) * i / n, ay + (by - ay) * i / n) for i in range(1, n + 1)]
    return out


def clearance(route, strangers):
    """How near a route comes to the nearest of these points; a straight line exactly, a bow by samples."""
    best = math.inf
    points = sampled(route, 9.0) if len(route) == 3 else route
    for (ax, ay), (bx, by) in zip(points, points[1:]):
        x, y = bx - ax, by - ay
        length = x * x + y * y or 1e-9
        for px, py in strangers:
            t = ((px - ax) * x + (py - ay) * y) / length
            t = 0.0 if t < 0 else 1.0 if t > 1 else t
            dx, dy = px - ax - t * x, py - ay - t * y
            d = dx * dx + dy * dy
            if d < best:
                best = d
    return best**0.5


def bow(p, q, share):
    """A bow whose height over the straight line is half a share of its length."""
    x, y = q[0] - p[0], q[1] - p[1]
    return [p, ((p[0] + q[0]) / 2 - share * y, (p[1] + q[1]) / 2 + share * x), q]


def rim_bow(p, q, rim):
    """A bow across a rim, steep enough to leave the units beside its ends alone."""
    cx, cy, radius, turn = rim
    a, b = math.atan2(p[1] - cy, p[0] - cx), math.atan2(q[1] - cy, q[0] - cx)
    half = abs((b - a + math.pi) % (2 * math.pi) - math.pi) / 2
    if half < 0.75 * turn or half >= LEAVES:
        return [p, q]
    mx, my = (p[0] + q[0]) / 2 - cx, (p[1] + q[1]) / 2 - cy
    far = radius * math.cos(LEAVES) / math.cos(LEAVES - half) / math.hypot(mx, my)
    return [p, (cx + far * mx, cy + far * my), q]


def cornered(p, q, strangers, step, spare):
    """The shortest way on a grid of a step that keeps clear of all strangers and a little more, without its needless
    corners; None where there is none."""
    everyone = strangers + [p, q]
    left, top = (min(s[i] for s in everyone) - 3 * CLEAR for i in (0, 1))
    columns, rows = (
        int((max(s[i] for s in everyone) + 3 * CLEAR - edge) / step) + 1 for i, edge in enumerate((left, top))
    )
    shut = set()
    width = CLEAR + spare
    for x, y in strangers:
        for i in range(int((x - width - left) / step), int((x + width - left) / step) + 2):
            for k in range(int((y - width - top) / step), int((y + width - top) / step) + 2):
                if (left + i * step - x) ** 2 + (top + k * step - y) ** 2 < width * width:
                    shut.add((i, k))
    start = round((p[0] - left) / step), round((p[1] - top) / step)
    goal = round((q[0] - left) / step), round((q[1] - top) / step)
    came, cost = {start: None}, {start: 0.0}
    heap = [(0.0, start)]
    while heap:
        _, at = heapq.heappop(heap)
        if at == goal:
            break
        for i in -1, 0, 1:
            for k in -1, 0, 1:
                to = at[0] + i, at[1] + k
                if to in shut or not (0 <= to[0] <= columns and 0 <= to[1] <= rows):
                    continue
                price = cost[at] + (i * i + k * k) ** 0.5
                if price < cost.get(to, math.inf) - 1e-9:
                    cost[to], came[to] = price, at
                    heapq.heappush(heap, (price + math.dist(to, goal), to))
    if goal not in came:
        return None
    way, at = [], goal
    while at:
        way.append((left + at[0] * step, top + at[1] * step))
        at = came[at]
    way = [p] + way[::-1][1:-1] + [q]
    kept = [p]
    i = 0
    while i < len(way) - 1:
        k = next(k for k in range(len(way) - 1, i, -1) if k == i + 1 or clearance([way[i], way[k]], strangers) >= CLEAR)
        kept.append(way[k])
        i = k
    return kept


def route_of(p, q, strangers):
    """The straightest way that keeps clear of all strangers."""
    reach = math.dist(p, q) * 0.5 + CLEAR
    mx, my = (p[0] + q[0]) / 2, (p[1] + q[1]) / 2
    near = [s for s in strangers if math.hypot(s[0] - mx, s[1] - my) < reach]
    if clearance([p, q], near) >= CLEAR:
        return [p, q]
    wide = [s for s in strangers if math.hypot(s[0] - mx, s[1] - my) < 1.6 * reach]
    for share in BOWS:
        tried = bow(p, q, share)
        if clearance(tried, wide) >= CLEAR:
            return tried
    way = cornered(p, q, strangers, 9, 2) or cornered(p, q, strangers, 4, 0.3)
    if not way:
        return [p, q]
    # three points would be a bow
    return way if len(way) != 3 else [way[0], way[1], way[1], way[2]]


def routed(places, links, rims):
    """The route of each link; rims tell the circle that a unit stands on."""
    routes = []
    inner = [p for v, p in places.items() if v not in rims]
    for a, b in links:
        if a in rims and rims[a] == rims.get(b):
            route = rim_bow(places[a], places[b], rims[a])
            if clearance(route, inner) >= CLEAR:
                routes.append(route)
                continue
        routes.append(route_of(places[a], places[b], [p for v, p in places.items() if v != a and v != b]))
    return routes


def drawn(route):
    """The path of a route."""
    x, y = route[0]
    said = f"M{x:.1f} {y:.1f}"
    if len(route) == 3:
        (cx, cy), (x, y) = route[1:]
        return f"{said} Q{cx:.1f} {cy:.1f} {x:.1f} {y:.1f}"
    return said + "".join(f" L{x:.1f} {y:.1f}" for x, y in route[1:])
