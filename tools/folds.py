"""Weak places told in one breath: the units and links of a chain, and units that hang on one unit by a lone link
each."""
from collections import namedtuple

CHAIN = 3  # from so many lone links in a row on they are a chain
ENDS = 4  # from so many units on one lone link each on, at one unit, they are told together

# several weak places: the units and links told, in their order, what hub they hang on (None for a chain), and the
# places
Fold = namedtuple("Fold", "units links hub places")


def most_cut(told):
    """How many units the worst of these places cuts off."""
    return max(place.cut for place in told.places) if isinstance(told, Fold) else told.cut


def lone_links_at(site, lone):
    """The lone links at each unit, by their positions."""
    at = {}
    for j in lone:
        for v in site.links[j]:
            at.setdefault(v, []).append(j)
    return at


class Folding:
    """The weak places of a site, those of chains and of ends put together."""

    def __init__(self, losses, places):
        self.site = losses.site
        self.points = {place.number: place for place in places if place.ends is None}
        self.links = {place.number: place for place in places if place.ends is not None}
        labels = [set() for _ in range(self.site.units)]
        for label, pair in zip(losses.labels, self.site.links):
            for v in pair:
                labels[v].add(label)
        self.blocks = [len(found) for found in labels]
        self.at = lone_links_at(self.site, self.links)
        self.told = set()  # the places that are put together
        self.folds = [*self.chains(), *self.ends()]

    def other(self, j, v):
        a, b = self.site.links[j]
        return b if v == a else a

    def on(self, v, j):
        """The lone link that leads on from v behind link j, if nothing else is there."""
        links = self.at[v]
        if len(links) == 2 == self.blocks[v]:
            return links[0] if links[1] == j else links[1]
        return None

    def run(self, v, j):
        """From v over link j and on: the links, and the units behind v."""
        links, units, first = [j], [self.other(j, v)], v
        while (j := self.on(units[-1], links[-1])) is not None and units[-1] != first:
            links.append(j)
            units.append(self.other(j, units[-1]))
        return links, units

    def chains(self):
        """The chains of lone links; a unit at an end counts if nothing else hangs on it."""
        for j in sorted(self.links):
            if j in self.told:
                continue
            a, b = self.site.links[j]
            back, before = self.run(b, j)
            links, units = self.run(before[-1], back[-1])
            if len(links) < CHAIN:
                continue
            units = [before[-1]] + units
            if units[0] > units[-1]:
                units, links = units[::-1], links[::-1]
            self.told.update(links)
            weak = [v for v in units if v in self.points and self.blocks[v] == 2]
            self.told.update(("unit", v) for v in weak)
            yield Fold(weak, links, None, [self.points[v] for v in weak] + [self.links[k] for k in links])

    def ends(self):
        """Units on one lone link each to one unit."""
        hubs = {}
        for j in sorted(set(self.links) - self.told):
            for v in self.site.links[j]:
                if self.blocks[v] == 1:
                    hubs.setdefault(self.other(j, v), []).append((v, j))
        for hub, ends in hubs.items():
            if len(ends) >= ENDS:
                links = [j for _, j in ends]
                self.told.update(links)
                yield Fold(sorted(v for v, _ in ends), links, hub, [self.links[j] for j in links])

    def in_order(self):
        """Folds and single places, the worst first."""
        alone = [place for v, place in self.points.items() if ("unit", v) not in self.told]
        alone += [place for j, place in self.links.items() if j not in self.told]
        return sorted([*self.folds, *alone], key=self.rank)

    def rank(self, told):
        if isinstance(told, Fold):
            return -most_cut(told), 2, min(told.links)
        return -told.cut, int(told.ends is not None), told.number
