"""The block tree of a site: its sets of links that back each other up, its lone links, and the single points between
them.

Lone links that only lead on are told in one breath: units on one lone link each, and chains of lone links.
"""
from collections import namedtuple

Block = namedtuple("Block", "links units")  # the links of one label and the units that they touch, both ascending
Point = namedtuple("Point", "unit nodes")  # a single point and what hangs on it, the heaviest last
# what hangs on a single point, or the root of a group; kind is
#   set     links that back each other up: `units` are those that they touch
#   link    one lone link to a single point that more hangs on: `units` are its two ends
#   chain   lone links in a row from one single point to the next, or a whole group: `units` along it, both ends in
#   ends    units on one lone link each: `units` are these
#   tails   chains of lone links that lead to an end: `units` are lists along them, the single point first
Node = namedtuple("Node", "kind units links points weight")


def blocks_of(losses):
    """The blocks by their label."""
    links, units = {}, {}
    for j, label in enumerate(losses.labels):
        links.setdefault(label, []).append(j)
        units.setdefault(label, set()).update(losses.site.links[j])
    return [Block(links[label], sorted(units[label])) for label in sorted(links)]


def weight_of(nodes):
    return sum(node.weight for node in nodes)


class Forest:
    """The block trees of the groups of two units and more."""

    def __init__(self, losses):
        self.losses = losses
        self.blocks = blocks_of(losses)
        self.at = [[] for _ in range(losses.site.units)]  # the blocks that touch each unit
        for b, block in enumerate(self.blocks):
            for v in block.units:
                self.at[v].append(b)
        self.roots = [self.root(part) for part in losses.groups if len(part) > 1]

    def lone(self, b):
        return len(self.blocks[b].links) == 1

    def other(self, b, v):
        a, c = self.blocks[b].units
        return c if v == a else a

    def root(self, part):
        """The largest set, or else the unit that most lone links meet at, or else the chain from its lesser end."""
        found = sorted({b for v in part for b in self.at[v]})
        sets = [b for b in found if not self.lone(b)]
        if sets:
            largest = max(sets, key=lambda b: (len(self.blocks[b].units), -b))
            return self.set_node(largest, None)
        hub = max(part, key=lambda v: (len(self.at[v]), -v))
        if len(self.at[hub]) > 2:
            return Point(hub, self.hanging(hub, None))
        start = min(v for v in part if len(self.at[v]) == 1)
        units, links = self.along(start, self.at[start][0])
        return Node("chain", [start] + units, links, [], len(part))

    def along(self, v, b):
        """From v over the lone link b and on, as long as nothing else is there: the units after v, and the links."""
        units, links = [], []
        while True:
            v = self.other(b, v)
            units.append(v)
            links += self.blocks[b].links
            onward = [c for c in self.at[v] if c != b]
            if len(onward) != 1 or not self.lone(onward[0]):
                return units, links
            b = onward[0]

    def set_node(self, b, came):
        block = self.blocks[b]
        points = [Point(w, self.hanging(w, b)) for w in block.units if w != came and len(self.at[w]) > 1]
        heaviest = max((weight_of(p.nodes) for p in points), default=0)
        points.sort(key=lambda p: (weight_of(p.nodes) == heaviest, p.unit))
        weight = len(block.units) + sum(weight_of(p.nodes) for p in points)
        return Node("set", block.units, block.links, points, weight)

    def hanging(self, v, came):
        """What hangs on v beside the block that one came from."""
        ends, end_links, tails, tail_links, nodes = [], [], [], [], []
        for b in self.at[v]:
            if b == came:
                continue
            if not self.lone(b):
                nodes.append(self.set_node(b, v))
                continue
            units, links = self.along(v, b)
            last = units[-1]
            if len(self.at[last]) == 1:
                if len(units) == 1:
                    ends += units
                    end_links += links
                else:
                    tails.append([v] + units)
                    tail_links += links
                continue
            over = next(c for c in self.at[last] if self.blocks[c].links == [links[-1]])
            point = Point(last, self.hanging(last, over))
            kind = "link" if len(units) == 1 else "chain"
            nodes.append(Node(kind, [v] + units, links, [point], len(units) + weight_of(point.nodes)))
        nodes.sort(key=lambda node: (node.weight, node.units))
        if tails:
            nodes.insert(0, Node("tails", tails, tail_links, [], sum(len(tail) - 1 for tail in tails)))
        if ends:
            nodes.insert(0, Node("ends", sorted(ends), end_links, [], len(ends)))
        return nodes
