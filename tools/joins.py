"""The block trees of a site to which links are added, and what each further link would do.

A node is a block (units whose links back each other up, or the two ends of a lone link) or a single point, which
touches several blocks. A link between two units makes one block of all that lie on the way between them: lone links
on it are cured, and single points with nothing else hanging on them.
"""
from collections import namedtuple

from blocks import blocks_of

# what a link does to the weak places on its way: how many it cures, by how many units their losses cut off fewer, and
# how many it touches at all
Gain = namedtuple("Gain", "cured relief touched")
NOTHING = Gain(0, 0, 0)


class Tree:
    """Blocks by number with their units, those that are lone links, and the blocks at each unit; some units may be
    left out."""

    def __init__(self, losses, left_out=()):
        found = blocks_of(losses)
        self.units = {b: set(block.units) for b, block in enumerate(found)}
        self.lone = {b for b, block in enumerate(found) if len(block.links) == 1}
        self.at = [set() for _ in range(losses.site.units)]
        for b, units in self.units.items():
            for v in units:
                self.at[v].add(b)
        self.fresh = len(found)  # the number of the next block
        self.left_out = frozenset(left_out)

    def copy(self):
        other = object.__new__(Tree)
        other.left_out = self.left_out
        other.units = {b: set(units) for b, units in self.units.items()}
        other.lone, other.at, other.fresh = set(self.lone), [set(blocks) for blocks in self.at], self.fresh
        return other

    def points(self):
        """The single points."""
        return [v for v, blocks in enumerate(self.at) if len(blocks) > 1]

    def weak(self):
        """The number of weak places."""
        return len(self.points()) + len(self.lone)

    def pieces(self):
        """The groups of units, each in the order of a walk over its tree."""
        found, seen = [], set(self.left_out)
        for start in range(len(self.at)):
            if start not in seen:
                part = [w for w, _, _ in self.walk(start)]
                seen.update(part)
                found.append(part)
        return found

    def walk(self, start):
        """Each unit of a group after the unit and over the block that one comes to it by."""
        yield start, None, None
        ahead, passed = [start], set()
        for v in ahead:
            for b in sorted(self.at[v] - passed):
                passed.add(b)
                for w in sorted(self.units[b]):
                    if w != v:
                        ahead.append(w)
                        yield w, v, b

    def way(self, u, v):
        """The blocks on the way between two units and the single points among them; None where the two are apart."""
        came = {}
        for w, before, over in self.walk(u):
            came[w] = before, over
            if w == v:
                break
        if v not in came:
            return None
        blocks, points = [], []
        while v != u:
            v, over = came[v]
            blocks.append(over)
            points.append(v)
        return blocks, points[:-1]

    def join(self, u, v):
        """A link between two units."""
        blocks = set((self.way(u, v) or ([], []))[0])
        merged = {u, v}.union(*(self.units.pop(b) for b in blocks))
        self.lone -= blocks
        for w in merged:
            self.at[w] -= blocks
            self.at[w].add(self.fresh)
        self.units[self.fresh] = merged
        if not blocks:
            self.lone.add(self.fresh)
        self.fresh += 1

    def spare(self, heard_by):
        """A new unit that these hear, and its number."""
        self.at.append(set())
        for v in heard_by:
            self.join(v, len(self.at) - 1)
        return len(self.at) - 1

    def behind(self):
        """For each unit and each block at it, how many units lie behind that block; for each unit, behind the
        fullest."""
        found = {}
        for part in self.pieces():
            steps = list(self.walk(part[0]))
            below = dict.fromkeys(part, 1)
            for w, before, over in reversed(steps[1:]):
                below[before] += below[w]
            for w, before, over in steps[1:]:
                found[w, over] = len(part) - below[w]
                found[before, over] = found.get((before, over), 0) + below[w]
        for v, blocks in enumerate(self.at):
            found[v] = max((found[v, b] for b in blocks), default=0)
        return found

    def gains(self, u, behind):
        """Each other unit of u's group, and what a link from u to it would do."""
        ahead = [(u, None, NOTHING)]
        for v, came, so_far in ahead:
            for b in self.at[v]:
                if b == came:
                    continue
                gain = so_far if came is None else added(so_far, self.passing(v, came, b, behind))
                if b in self.lone:
                    (w,) = self.units[b] - {v}
                    gain = added(gain, self.doubling(v, w, b, behind))
                for w in self.units[b]:
                    if w != v:
                        ahead.append((w, b, gain))
                        yield w, gain

    def passing(self, v, one, other, behind):
        """What it does to a single point that two of its blocks become one."""
        relief = max(0, behind[v, one] + behind[v, other] - behind[v])
        return Gain(int(len(self.at[v]) == 2), relief, 1)

    def doubling(self, v, w, b, behind):
        """What it does to a lone link that it gets a way round."""
        return Gain(1, min(behind[v, b], behind[w, b]), 1)


def added(a, b):
    return Gain(a[0] + b[0], a[1] + b[1], a[2] + b[2])
