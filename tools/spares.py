"""Where spares go: the pairs of units that cure the most weak places, and the fewest links that cure all.

A spare repeater that two units of a group hear does for the weak places what a link between the two does. The best pair
is found by walking the block tree from each unit; the fewest links by joining leaves of the tree, pair by pair, so that
each link brings the known bound down by one (Eswaran and Tarjan 1976; Hsu and Ramachandran 1993).
"""
import itertools

from joins import NOTHING
from losses import neighbours_of


def hops_of(site):
    """The links between each two units of a group."""
    near = neighbours_of(site)
    found = []
    for start in range(site.units):
        far = {start: 0}
        ahead = [start]
        for v in ahead:
            for w, _ in near[v]:
                if w not in far:
                    far[w] = far[v] + 1
                    ahead.append(w)
        found.append(far)
    return found


def best_pair(tree, far, allowed):
    """The two units that cure the most, then relieve the most, then are nearest; None where no pair does anything."""
    behind = tree.behind()
    best = None
    for u in range(len(far)):
        for v, gain in tree.gains(u, behind):
            if u < v < len(far) and gain > NOTHING and (best is None or gain >= best[0]) and allowed(u, v):
                key = gain, -far[u].get(v, len(far)), -u, -v
                if best is None or key > best:
                    best = key
    return best and (-best[2], -best[3])


def joining_pair(tree, far, allowed):
    """Two units of different groups, the largest groups first and leaves of their block trees before others; None where
    no pair is allowed."""
    parts = sorted(([v for v in part if v < len(far)] for part in tree.pieces()), key=lambda part: (-len(part), part))
    points = set(tree.points())
    inner = {v for units in tree.units.values() if len(units & points) != 1 for v in units} | points
    for part in parts:
        part.sort(key=lambda v: (v in inner, v in points, v))
    for one, other in itertools.combinations(parts, 2):
        for u, v in itertools.product(one, other):
            if allowed(u, v):
                return min(u, v), max(u, v)
    return None


def third(tree, spare, far, allowed):
    """The unit that should hear the spare too: the one that then cures the most; None where none cures more."""
    found = [(gain, -v) for v, gain in tree.gains(spare, tree.behind()) if v < len(far) and gain.cured and allowed(v)]
    return -max(found)[1] if found else None


def one_by_one(tree, far, most, allowed, spare):
    """Up to so many pairs, each the best beside those before it; what joins groups comes before all else."""
    tree = tree.copy()
    found = []
    while len(found) < most:
        pair = (joining_pair(tree, far, allowed) if len(tree.pieces()) > 1 else None) or best_pair(tree, far, allowed)
        if pair is None:
            break
        if spare:
            tree.spare(pair)
        else:
            tree.join(*pair)
        found.append(pair)
    return found


# ---- the fewest links


def bound_of(tree, pieces=None):
    """No fewer links make the site whole and cure all: each leaf of a block tree needs one end, a piece without
    single points two; and as many links as the most pieces that the loss of one unit leaves, less one. A site of one
    block needs none."""
    pieces = tree.pieces() if pieces is None else pieces
    points = set(tree.points())
    whole = sum(not points & set(part) for part in pieces)
    if len(pieces) == whole == 1:
        return 0
    leaves = sum(len(units & points) == 1 for units in tree.units.values())
    most = max((len(tree.at[v]) for v in points), default=1)
    return max(most + len(pieces) - 2, (leaves + 1) // 2 + whole)


def bound_after(tree, u, v):
    """The bound after a link between two units of a site in one piece, by the nodes on its way."""
    blocks, passed = tree.way(u, v)
    points = set(tree.points())
    hanging = sum(len(tree.at[w]) > 2 for w in passed)
    hanging += sum(len(tree.units[b] & points) for b in blocks) - 2 * len(passed)
    left = points - {w for w in passed if len(tree.at[w]) == 2}
    if not left:
        return 0
    leaves = sum(len(tree.units[b] & points) == 1 for b in tree.units if b not in blocks) + (hanging == 1)
    most = max(len(tree.at[w]) - (w in passed) for w in left)
    return max(most - 1, (leaves + 1) // 2)


class Plan:
    """The links of a plan that cures all, found one after another."""

    def __init__(self, tree, far):
        self.tree, self.far = tree.copy(), far
        self.fewest = bound_of(tree)
        self.links = []
        if len(tree.at) - len(tree.left_out) < 3:
            return
        while True:
            pieces = self.tree.pieces()
            bound = bound_of(self.tree, pieces)
            if not bound:
                break
            leaves = self.leaves()
            pair = self.across(pieces, leaves) if len(pieces) > 1 else self.within(bound, leaves)
            self.links.append(pair)
            self.tree.join(*pair)

    def end(self, block, point):
        """The unit of a leaf that is nearest to its single point."""
        units = self.tree.units[block] - {point}
        return min(units, key=lambda v: (self.far[point].get(v, 0) if point < len(self.far) else 0, v))

    def leaves(self):
        """The leaves of the tree by the unit to be joined there."""
        points = set(self.tree.points())
        found = {}
        for b, units in self.tree.units.items():
            at = units & points
            if len(at) == 1:
                found[self.end(b, *at)] = b
        return found

    def across(self, pieces, leaves):
        """A link between the two largest pieces, from leaf to leaf."""
        pieces.sort(key=lambda part: (-len(part), min(part)))
        return tuple(sorted(min(leaves.keys() & set(part) or part) for part in pieces[:2]))

    def within(self, bound, leaves):
        """A link between two leaves that brings the bound down: the one that cures the most if it does, else the
        first."""
        every = itertools.combinations(sorted(leaves), 2)
        for u, v in itertools.chain(self.widest(leaves), self.balanced(bound, leaves), every):
            if bound_after(self.tree, u, v) < bound:
                return u, v
        raise AssertionError("two leaves bring the bound down")

    def widest(self, leaves):
        """The leaves with the most weak places between them."""
        behind = self.tree.behind()
        v = min(leaves)
        for _ in range(2):
            u, v = v, max((gain, -w) for w, gain in self.tree.gains(v, behind) if w in leaves)[1] * -1
        yield min(u, v), max(u, v)

    def balanced(self, bound, leaves):
        """Pairs of leaves from different branches of the middle, the fullest branches first, and those behind
        crowded single points before the others."""
        middle = self.middle(bound, leaves)
        branches = {}
        of, crowd = {middle: None}, {middle: 0}
        for w, before, over in self.tree.walk(middle):
            if before is None:
                continue
            of[w] = over if before == middle else of[before]
            crowd[w] = crowd[before] + (len(self.tree.at[w]) - 1 == bound) + (len(self.tree.at[w]) > 2) / 1000
            if w in leaves:
                branches.setdefault(of[w], []).append(w)
        ordered = sorted(branches.values(), key=len, reverse=True)
        for part in ordered:
            part.sort(key=lambda w: -crowd[w])
        for one, other in itertools.combinations(ordered, 2):
            yield from itertools.product(one, other)

    def middle(self, bound, leaves):
        """A single point that every further link must pass, else the unit whose fullest branch has the fewest
        leaves."""
        points = self.tree.points()
        most = max(points, key=lambda v: len(self.tree.at[v]))
        if len(self.tree.at[most]) - 1 == bound:
            return most
        steps = list(self.tree.walk(points[0]))
        below = {w: int(w in leaves) for w, _, _ in steps}
        for w, before, _ in reversed(steps[1:]):
            below[before] += below[w]
        branches = {}
        for w, before, over in steps[1:]:
            branches[before, over] = branches.get((before, over), 0) + below[w]
            branches[w, over] = len(leaves) - below[w]
        return min(points, key=lambda v: (max(branches[v, b] for b in self.tree.at[v]), v))
