"""Spares and plans that are proposed: each is put in the table and surveyed before it is told."""
import functools
from collections import namedtuple

from joins import Tree
from spares import Plan, bound_of, hops_of, one_by_one, third
from survey_text import LOWEST_LEVEL, MAX_LINKS, MAX_UNITS, Site

# a spare or link: the units that it joins, the losses of the table with it and all before it, and the unit that should
# hear a spare too with the losses then, or None
Step = namedtuple("Step", "heard_by losses too")
# links that cure all or, within limits, what they can; the fewest that any plan needs; and the losses of the table with
# them, None where it has no room for them
Remedy = namedtuple("Remedy", "links fewest losses")
# what is proposed for a site: whether spares (else links, for want of room for more units), the steps, the remedy of
# the groups, and, where units hear nobody, that of the whole site; whether limits are known
Proposals = namedtuple("Proposals", "losses spares steps remedy whole left_out limited")


def with_spare(site, heard_by):
    """A table with one more unit at its end, which these hear."""
    return with_links(site._replace(units=site.units + 1), [(v, site.units) for v in heard_by])


def with_links(site, links):
    """A table with more links at its end, which have no level."""
    levels = site.levels + [LOWEST_LEVEL] * len(links)
    return Site(site.units, site.links + list(links), levels)


class Proposer:
    def __init__(self, losses, limits, survey):
        self.losses, self.site, self.limits, self.survey = losses, losses.site, limits, survey
        self.alone = tuple(losses.alone())
        self.linked = {(min(pair), max(pair)) for pair in self.site.links}
        self.spares = self.site.units < MAX_UNITS and len(self.site.links) + 2 <= MAX_LINKS
        self.far = hops_of(self.site)
        if limits.positions:
            known = limits.positions
            self.far = [{v: limits.far(u, v) for v in known} if u in known else {} for u in range(self.site.units)]

    def allowed(self, u, v):
        if self.spares:
            return self.limits.spare(u, v)
        return (min(u, v), max(u, v)) not in self.linked and self.limits.link(u, v)

    def room(self):
        """For so many spares or links the table has room."""
        links = MAX_LINKS - len(self.site.links)
        return min(MAX_UNITS - self.site.units, links // 2) if self.spares else links

    @functools.cache
    def plan(self, left_out):
        """The fewest links that cure all, whichever units they join."""
        return Plan(Tree(self.losses, left_out), self.far).links

    def pairs(self, tree, most):
        """The plan that cures all where it is no longer than wanted, else the best one by one."""
        if not self.limits.known() and 0 < len(self.plan(self.alone)) <= most:
            return self.plan(self.alone)
        return one_by_one(tree, self.far, most, self.allowed, self.spares)

    def steps(self, most):
        tree = Tree(self.losses, self.alone)
        site = self.site
        for pair in self.pairs(tree, min(most, self.room())):
            if not self.spares:
                site = with_links(site, [pair])
                yield Step(pair, self.survey(site), None)
                continue
            before, site = site, with_spare(site, pair)
            spare = tree.spare(pair)
            too = third(tree, spare, self.far, lambda w: all(self.limits.spare(w, v) for v in pair))
            if too is not None and len(site.links) < MAX_LINKS:
                too = too, self.survey(with_spare(before, (*pair, too)))
            yield Step(pair, self.survey(site), too)

    def remedy(self, left_out):
        """The fewest links that cure all, units that are left out aside."""
        tree = Tree(self.losses, left_out)
        fewest = bound_of(tree)
        if not self.limits.known():
            links = self.plan(left_out)
        else:
            links = pruned(tree, one_by_one(tree, self.far, MAX_LINKS, self.allowed, False))
        fits = links and len(self.site.links) + len(links) <= MAX_LINKS and not self.linked & set(links)
        return Remedy(links, fewest, self.survey(with_links(self.site, links)) if fits else None)


def pruned(tree, links):
    """The links without those that are not needed beside the others."""

    def left(links):
        tried = tree.copy()
        for pair in links:
            tried.join(*pair)
        return tried.weak(), len(tried.pieces())

    wanted = left(links)
    for pair in links[:-1]:
        fewer = [other for other in links if other != pair]
        if left(fewer) == wanted:
            links = fewer
    return links


def proposed(losses, most, limits, survey):
    """What is proposed for a site: up to so many spares, and the fewest links that cure all."""
    proposer = Proposer(losses, limits, survey)
    steps = list(proposer.steps(most))
    whole = proposer.remedy(()) if proposer.alone and not limits.known() else None
    remedy = proposer.remedy(proposer.alone)
    return Proposals(losses, proposer.spares, steps, remedy, whole, list(proposer.alone), limits.known())
