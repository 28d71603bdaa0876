"""A survey replayed by document 01's rules: how it stands after each round and what it reports, from a table and the
parents of its tree alone. A report from elsewhere is held to it, and the answers that are told by rounds."""
from collections import namedtuple

from losses import named, neighbours_of, part_numbers
from survey_text import ABSENT, LOWEST_LEVEL, LinkLine, Report, UnitLine

STAGES = (
    "colour", "tree", "tour", "first ranking", "marks", "second ranking", "least and greatest", "joins", "classes",
    "labels", "finished"
)
FINISHED = 11

# how a survey stands: after the load, and after each round
Status = namedtuple("Status", "stage countdown rounds requests")


def lg(x):
    """The least k with 2 to the power k at least x."""
    return max(x - 1, 0).bit_length()


def ceilings(units):
    """The most rounds of each stage."""
    ranking = lg(2 * units - 2) + 1
    return [max(2, units), units + 1, 2, ranking, 2, ranking, 1 + lg(units), 1, max(2, units - 1), 2]


def own_parents(site, groups):
    """The survey's own tree: of the neighbours visited in the round before, the one with the highest level, then the
    least."""
    near = neighbours_of(site)
    parents = [ABSENT] * site.units
    visited = {group[0] for group in groups}
    before = set(visited)
    while before:
        found = {}
        for v in range(site.units):
            heard = [(-site.levels[j], w) for w, j in near[v] if w in before]
            if v not in visited and heard:
                found[v] = min(heard)[1]
        for v, parent in found.items():
            parents[v] = parent
        visited |= found.keys()
        before = set(found)
    return parents


def without_levels(site):
    """The table as a set of the years before levels has it."""
    return site._replace(levels=[LOWEST_LEVEL] * len(site.links), kinds=None)


def plan_faults(site, groups, parents, names=None):
    """Why a drawn tree does not fit the table: refusal 18, unit by unit."""
    linked = {frozenset(pair) for pair in site.links}
    group = part_numbers(groups)
    for v, parent in enumerate(parents):
        least, drawn = groups[group[v]][0], f"unit {named(parent, names)}"
        if v == least:
            if parent != ABSENT:
                yield v, f"is the lowest of its group and so has no parent, but {drawn} is drawn as one"
        elif parent == ABSENT:
            yield v, f"has no parent, but the lowest unit of its group is {named(least, names)}"
        elif frozenset((v, parent)) not in linked:
            yield v, f"has {drawn} as parent, but no link joins the two"
        else:
            seen = {v}
            while parent < len(parents) and parent != least and parent not in seen:
                seen.add(parent)
                parent = parents[parent]
            if parent in seen:
                yield v, f"is drawn in a circle: its parents never lead to unit {named(least, names)}"


def toured(parents, groups):
    """Places, depths and descendants by the tour of each group, and the units in the order of their places. The
    parents lead to the least unit of each group."""
    children = [[] for _ in parents]
    for v, parent in enumerate(parents):
        if parent != ABSENT:
            children[parent].append(v)
    place, depth, descendants, order = [0] * len(parents), [0] * len(parents), [1] * len(parents), []
    for group in groups:
        ahead = [group[0]]
        while ahead:
            v = ahead.pop()
            place[v] = len(order)
            order.append(v)
            # the tour goes on cyclically from the parent, by numbers
            parent = -1 if parents[v] == ABSENT else parents[v]
            for w in sorted(children[v], key=lambda w: (w < parent, w), reverse=True):
                depth[w] = depth[v] + 1
                ahead.append(w)
    for v in reversed(order):
        if parents[v] != ABSENT:
            descendants[parents[v]] += descendants[v]
    return place, depth, descendants, order


def requests_of(groups):
    """The requests of each round of a ranking, by the sizes of the groups."""
    lists = [2 * size - 2 for size in groups if size > 1]
    return [sum(max(0, size - 2**i) for size in lists) for i in range(lg(max(lists, default=0)))] + [0]


class Replay:
    """A table surveyed along a tree: its own, or one drawn by the planner, which must fit the table."""

    def __init__(self, losses, parents=None):
        self.losses, self.site = losses, losses.site
        self.drawn = parents is not None
        self.parents = list(parents) if self.drawn else own_parents(self.site, losses.groups)
        self.place, self.depth, self.descendants, self.order = toured(self.parents, losses.groups)
        self.rounds, self.requests = self.counted()

    def is_above(self, u, v):
        """Whether u is v or one of its ancestors."""
        return self.place[u] <= self.place[v] < self.place[u] + self.descendants[u]

    def joins(self):
        """The pairs of tree links, by their lower units, that share a ring."""
        off = [(u, v) for u, v in self.site.links if self.parents[u] != v and self.parents[v] != u]
        least, greatest = self.place[:], self.place[:]
        for u, v in off + [(v, u) for u, v in off]:
            least[u] = min(least[u], self.place[v])
            greatest[u] = max(greatest[u], self.place[v])
        for v in reversed(self.order):
            p = self.parents[v]
            if p != ABSENT:
                least[p], greatest[p] = min(least[p], least[v]), max(greatest[p], greatest[v])
        found = [(u, v) for u, v in off if not self.is_above(u, v) and not self.is_above(v, u)]
        for u, p in enumerate(self.parents):
            if p != ABSENT and self.parents[p] != ABSENT:
                if least[u] < self.place[p] or greatest[u] >= self.place[p] + self.descendants[p]:
                    found.append((u, p))
        return found

    def counted(self):
        """The rounds of each stage, and the requests of each round of a ranking."""
        units = self.site.units
        requests = requests_of(map(len, self.losses.groups))
        tree = 1 if self.drawn else max(self.depth) + 2
        named = [v for v in range(units) if self.parents[v] != ABSENT]
        spread = rounds_to_spread(range(units), self.site.links), rounds_to_spread(named, self.joins())
        ranking = len(requests)
        return [spread[0], tree, 2, ranking, 2, ranking, 1 + lg(units), 1, spread[1], 2], requests

    def statuses(self):
        """How the survey stands after the load and after each round."""
        most = ceilings(self.site.units)
        made = requests = 0
        for stage, rounds in enumerate(self.rounds, 1):
            later = sum(most[stage:])
            for i in range(rounds):
                yield Status(stage, most[stage - 1] - i + later, made, requests)
                made += 1
                requests += self.requests[i] if stage in (4, 6) else 0
        yield Status(FINISHED, 0, made, requests)

    def report(self):
        losses = self.losses
        group = part_numbers(losses.groups)
        units = [
            UnitLine(losses.groups[group[v]][0], self.parents[v], self.place[v], v in losses.unit_parts)
            for v in range(self.site.units)
        ]
        links = [LinkLine(label, j in losses.link_parts) for j, label in enumerate(losses.labels)]
        return Report(sum(self.rounds), 2 * sum(self.requests), units, links)


def rounds_to_spread(numbers, pairs):
    """The rounds in which least numbers spread along pairs, with the one that changes nothing; the first always
    counts."""
    near = {v: [v] for v in numbers}
    for a, b in pairs:
        near[a].append(b)
        near[b].append(a)
    value = {v: min(near[v]) for v in near}
    rounds = 1
    while True:
        rounds += 1
        after = {v: min(value[w] for w in near[v]) for v in near}
        if after == value:
            return rounds
        value = after

