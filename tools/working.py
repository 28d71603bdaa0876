"""The questions of document 02 worked out from the table alone: what the proved program's answers are held to, and what
is told where it is not built.

A question that is refused raises a Fault with the refusal's number.
"""
from losses import Losses, neighbours_of, part_numbers, parts
from replay import Replay
from survey_text import LINK_WITH_LEVEL, LOWEST_LEVEL, MAX_LINKS, PLAIN_LINK, REFUSALS, Fault, Site

MAX_PAIRS = 256
ALWAYS, PERHAPS, NEVER = "always", "perhaps", "never"


def refused(number, why=None):
    return Fault(why or REFUSALS[number], number)


# ---- rings (T-04)


def has_ring(losses, i, j):
    """Whether some ring holds both links: they have one label, and no lone link has a ring."""
    return losses.labels[i] == losses.labels[j] and i not in losses.link_parts


def ring_fault(site, i, j, units):
    """Why a walk is no ring that holds both links and starts with the first; None where it is one."""
    steps = [frozenset((units[k], units[(k + 1) % len(units)])) for k in range(len(units))]
    links = set(map(frozenset, site.links))
    if len(units) < 3 or len(set(units)) != len(units):
        return "it has fewer than three different units"
    for step in steps:
        if step not in links:
            return f"no link joins its units {min(step)} and {max(step)}"
    for k in i, j:
        if frozenset(site.links[k]) not in steps:
            return f"it does not hold link {k}"
    if set(units[:2]) != set(site.links[i]):
        return f"it does not start with the ends of link {i}"
    return None


def ring_of(site, i, j):
    """The units of a ring that holds both links, the ends of the first in front; none where there is no ring."""
    a, b = site.links[i]
    if i == j:
        way = flow_ways(site, {i}, [b], [a])
        return [a, *way[0][:-1]] if way else []
    ways = flow_ways(site, {i, j}, [a, b], list(site.links[j]))
    return [a, *ways[1], *reversed(ways[0][1:])] if ways else []


def flow_ways(site, avoided, starts, ends):
    """Ways with no unit in common, one from each start, each to another end, along links that are not avoided: a flow
    through units that each take one. None where there are fewer."""
    room = {}  # what may still flow from a place to another: a unit has a way in, (v, 0), and a way out, (v, 1)

    def arc(x, y):
        room.setdefault(x, {})[y] = 1
        room.setdefault(y, {}).setdefault(x, 0)

    for v in range(site.units):
        arc((v, 0), (v, 1))
    for k, (u, v) in enumerate(site.links):
        if k not in avoided:
            arc((u, 1), (v, 0))
            arc((v, 1), (u, 0))
    for v in starts:
        arc("start", (v, 0))
    for v in ends:
        arc((v, 1), "end")
    for _ in starts:
        before, ahead = {"start": None}, ["start"]
        for x in ahead:
            for y, more in room[x].items():
                if more and y not in before:
                    before[y] = x
                    ahead.append(y)
        if "end" not in before:
            return None
        y = "end"
        while before[y] is not None:
            room[before[y]][y] -= 1
            room[y][before[y]] += 1
            y = before[y]
    return [followed(room, v) for v in starts]


def followed(room, start):
    """The units that the flow passes from a start on."""
    way = [start]
    while room[way[-1], 1].get("end") != 0:
        way.append(next(y[0] for y in room[way[-1], 1] if y[1] == 0 and y[0] != way[-1] and room[y][way[-1], 1]))
    return way


# ---- lifting order (T-07)


def order_of(site, pairs):
    """The units as they are lifted: backwards from unit 0, each time the least that may stand next."""
    if len(pairs) > MAX_PAIRS or any(max(pair) >= site.units for pair in pairs):
        raise refused(19)
    near = neighbours_of(site)
    later = [{b for a, b in pairs if a == v} for v in range(site.units)]
    standing = set()

    def may_stand(v):
        return later[v] <= standing and (v == 0 if not standing else any(w in standing for w, _ in near[v]))

    found = []
    while len(found) < site.units:
        v = next((v for v in range(site.units) if v not in standing and may_stand(v)), None)
        if v is None:
            raise refused(20)
        standing.add(v)
        found.append(v)
    return found[::-1]


def order_fault(site, pairs, order):
    """Why an order does not keep what it must; None where it does."""
    if sorted(order) != list(range(site.units)):
        return "it does not have each unit once"
    turn = {v: k for k, v in enumerate(order)}
    for a, b in pairs:
        if turn[a] >= turn[b]:
            return f"it has not unit {a} before unit {b}"
    near = neighbours_of(site)
    standing = set()
    for v in reversed(order):
        standing.add(v)
        if v != 0 and not any(w in standing for w, _ in near[v]):
            return f"unit {v} stands without a way to unit 0"
    return None if order[-1:] == [0] else "unit 0 is not the last"


def in_the_way(site, pairs):
    """Why no order exists: the units that no link joins with unit 0's group, and the pairs that cannot be kept."""
    apart = [part for part in parts(neighbours_of(site)) if 0 not in part]
    kept = []
    for pair in pairs:
        try:
            order_of(site, kept + [pair])
            kept.append(pair)
        except Fault:
            pass
    return [v for part in apart for v in part], [pair for pair in pairs if pair not in kept]


# ---- doubtful links (T-08)


def without(site, positions):
    """A table without some of its links, and the positions that the others had."""
    left = [j for j in range(len(site.links)) if j not in positions]
    kinds = site.kinds and [site.kinds[j] for j in left]
    return Site(site.units, [site.links[j] for j in left], [site.levels[j] for j in left], kinds), left


def verdict_of(losses, i, j, marks):
    """Whether a ring holds both links in each setting of the doubtful ones, in some, or in none. Rings only come with
    more links, so the setting without all doubtful links tells of each."""
    if not has_ring(losses, i, j):
        return NEVER
    if i in marks or j in marks:
        return PERHAPS
    sure, left = without(losses.site, set(marks))
    at = {k: position for position, k in enumerate(left)}
    return ALWAYS if has_ring(Losses(sure), at[i], at[j]) else PERHAPS


class Doubts:
    """What is weak in each setting of the doubtful links, in some, or in none."""

    def __init__(self, losses, marks):
        site, self.losses, self.marks = losses.site, losses, sorted(marks)
        self.sure = Losses(without(site, set(marks))[0])
        whole, sure = neighbours_of(site), neighbours_of(self.sure.site)
        self.units = {v: self.unit(v, whole, sure) for v in range(site.units)}
        group = part_numbers(parts(sure))
        self.links = {}
        for j, (a, b) in enumerate(site.links):
            apart = group[a] != group[b]
            if j not in marks:
                of = part_numbers(parts([[(w, 0) for w, _ in near if {w, v} != {a, b}] for v, near in enumerate(sure)]))
                apart = of[a] != of[b]
            self.links[j] = ALWAYS if j in losses.link_parts else PERHAPS if apart else NEVER

    def witness(self, v):
        """Two links of a unit whose other ends are apart without it, where all other doubtful links are gone."""
        of = part_numbers(parts(neighbours_of(self.sure.site), lost_unit=v))
        ends = {of[a + b - v]: j for j, (a, b) in enumerate(self.losses.site.links) if v in (a, b)}
        return sorted(ends.values())[:2]

    @staticmethod
    def unit(v, whole, sure):
        """A unit is a single point where two of its neighbours are apart without it. The fewest are apart where no
        doubtful link fails but its own; the most where all fail but those to two neighbours."""
        most = part_numbers(parts(whole, lost_unit=v))
        if len({most[w] for w, _ in sure[v]}) > 1:
            return ALWAYS
        fewest = part_numbers(parts(sure, lost_unit=v))
        return PERHAPS if len({fewest[w] for w, _ in whole[v]}) > 1 else NEVER


# ---- one-way links (T-11)


def reached(near, kept):
    """For each unit the units that it reaches along kept links, itself included."""
    found = []
    for v in range(len(near)):
        seen, ahead = {v}, [v]
        for u in ahead:
            for w in near[u]:
                if w not in seen and (u, w) in kept:
                    seen.add(w)
                    ahead.append(w)
        found.append(seen)
    return found


def one_way_of(site):
    """The least number in the strongly connected group of each unit, and the passes of the min-label method: forward,
    the least unit that reaches a unit; backward, the least of those that are their own forward label and that it
    reaches. Where the two are one, that is its number; links between units that differ in one of them are removed."""
    if len(set(site.links)) < len(site.links):
        raise refused(9, "an ordered pair of units is there twice")
    numbers, passes, kept = [None] * site.units, 0, set(site.links)
    near = [[] for _ in range(site.units)]
    for a, b in site.links:
        near[a].append(b)
    while None in numbers:
        passes += 1
        reach = reached(near, kept)
        forward = [min(u for u in range(site.units) if v in reach[u]) for v in range(site.units)]
        sources = {v for v in range(site.units) if forward[v] == v}
        backward = [min(reach[v] & sources, default=None) for v in range(site.units)]
        for v in range(site.units):
            if numbers[v] is None and forward[v] == backward[v]:
                numbers[v] = forward[v]
        kept = {(a, b) for a, b in kept if (forward[a], backward[a]) == (forward[b], backward[b])}
    return numbers, passes


# ---- live table (T-09)


def changed_table(site, changes):
    """A table with links added at the end and withdrawn by their units, one change after the other; a refusal tells
    which change it is of."""
    links, levels = list(site.links), list(site.levels)
    kinds = list(site.kinds or [LINK_WITH_LEVEL] * len(links))
    for k, (kind, a, b, level) in enumerate(changes, 1):
        number = change_refused(site.units, links, kind, a, b, level)
        if number:
            fault = refused(number)
            fault.change = k
            raise fault
        if kind == "add":
            links.append((a, b))
            levels.append(LOWEST_LEVEL if level is None else level)
            kinds.append(PLAIN_LINK if level is None else LINK_WITH_LEVEL)
        else:
            at = [frozenset(pair) for pair in links].index(frozenset((a, b)))
            del links[at], levels[at], kinds[at]
    return Site(site.units, links, levels, kinds)


def change_refused(units, links, kind, a, b, level):
    """The number of a change's refusal, 0 where it is none."""
    joined = frozenset((a, b)) in map(frozenset, links)
    if kind == "add":
        if len(links) >= MAX_LINKS:
            return 6
        if level is not None and not LOWEST_LEVEL <= level <= 0:
            return 16
    if max(a, b) >= units:
        return 7
    if a == b:
        return 8
    if kind == "add":
        return 9 if joined else 0
    return 0 if joined else 21


# ---- several sites (T-12)


def ticks_of(sites):
    """The seat that each tick serves and how it stands then: the next unfinished one, going round."""
    ahead = [list(Replay(Losses(site)).statuses())[1:] if site else [] for site in sites]
    last = -1
    while any(ahead):
        last = next(seat % len(ahead) for seat in range(last + 1, last + 1 + len(ahead)) if ahead[seat % len(ahead)])
        status = ahead[last].pop(0)
        yield last, status.stage, status.countdown
