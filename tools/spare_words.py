"""Where spares go, in words: the units that must hear each, what it cures and what stays, and the fewest links for
all."""
from losses import changes, counted, named, units_of
from words import LISTED, held_names, in_short

PLAN = 24  # so many links of a plan are told one by one


def weak_left(losses):
    """no weak place left, or 3 weak places left, and pieces that are"""
    weak = len(losses.unit_parts) + len(losses.link_parts)
    said = f"{counted(weak, 'weak place')} left" if weak else "no weak place left"
    groups = len(losses.pieces())
    return said + (f", {groups} groups apart" if groups > 1 else "")


def both(units, names):
    return " and ".join(named(v, names) for v in units)


def how_many(by):
    """5 of 6 weak places, or all 52"""
    if by.remaining:
        return f"{len(by.cured)} of {len(by.cured) + len(by.remaining)} weak places"
    return f"all {len(by.cured)} weak places" if len(by.cured) > 1 else "the one weak place"


class Told:
    """The lines for what is proposed."""

    def __init__(self, found, names, proved):
        first, many = found.losses.site.units, len(found.steps) if found.spares else 0
        spares = {first + k: f"spare {k + 1}" for k in range(many)}
        self.found, self.names = found, held_names({**(names or {}), **spares})
        self.again = "surveyed again" if proved else "worked out again, not by the proved program"
        self.thing = "spare" if found.spares else "link"
        self.weak = len(found.losses.weak())

    def lines(self):
        found = self.found
        if not found.steps:
            yield from self.nothing()
        elif found.spares:
            yield "where spares go, each heard by two units and the best beside those before it:"
        else:
            yield "where links go, for the table has no room for a spare; each the best beside those before it:"
        before = found.losses
        for k, step in enumerate(found.steps, 1):
            yield from self.step(k, step, before)
            before = step.losses
        if found.left_out:
            does = "hears nobody and is" if len(found.left_out) == 1 else "hear nobody and are"
            yield f"{units_of(found.left_out, self.names)} {does} left out of these"
        yield from self.remedies()

    def nothing(self):
        if self.weak or len(self.found.losses.pieces()) > 1:
            limits = "within the limits " if self.found.limited else ""
            yield f"where spares go: {limits}no pair of units cures anything"
        elif self.found.left_out and not self.found.losses.site.links:
            yield "where spares go: no unit hears another yet: switch them on first"
        else:
            yield "no spare is needed: no weak place"

    def step(self, k, step, before):
        by = changes(before, step.losses)
        joined = len(before.pieces()) - len(step.losses.pieces())
        does = [f"joins {joined + 1} groups"] if joined else []
        if by.cured:
            does.append(f"cures {how_many(by)}: {in_short(by.cured, self.names, LISTED)}")
        elif not joined:
            does.append("cures no weak place alone, but lets the next one")
        heard = "heard by" if self.found.spares else "between"
        yield f"{self.thing} {k}, {heard} units {both(step.heard_by, self.names)}: {'; '.join(does)}"
        if by.remaining or by.new:
            stays = [now for _, now in by.remaining]
            said = [f"what stays: {in_short(stays, self.names, LISTED)}"] if stays else []
            said += [f"new: {in_short(by.new, self.names, LISTED)}"] if by.new else []
            yield "  " + "; ".join(said)
        yield f"  {self.again}: {weak_left(step.losses)}"
        if step.too:
            unit, losses = step.too
            yield f"  heard by unit {named(unit, self.names)} too ({self.again}): {weak_left(losses)}"

    def remedies(self):
        """The fewest links, and a plan of as many."""
        found = self.found
        if not self.weak and len(found.losses.groups) == 1:
            return
        if found.losses.site.units == 2 or [len(part) for part in found.losses.pieces()] == [2]:
            yield "two units have but one link, which stays lone: only a spare that both hear cures it"
        elif self.weak or len(found.losses.pieces()) > 1:
            apart = len(found.losses.pieces()) > 1
            yield from self.remedy(found.remedy, "join the groups and cure all" if apart else "cure all")
        if found.whole and found.losses.site.units > 2:
            units = units_of(found.left_out, self.names)
            yield from self.remedy(found.whole, f"cure all and join {units} too")

    def remedy(self, remedy, does):
        links = [f"{u}-{v}" for u, v in remedy.links]
        told = ", ".join(links[:PLAN]) + (f" and {len(links) - PLAN} more" if len(links) > PLAN else "")
        fewest = f"the fewest links or spares that could {does}: {remedy.fewest}"
        if not links:
            yield f"{fewest}; within the limits none helps" if self.found.limited else fewest
            return
        if remedy.losses is None:
            yield f"{fewest}; a plan of {len(links)}: {told} (not surveyed: the table has no room for them)"
            return
        more = len(links) - remedy.fewest
        weak = len(remedy.losses.weak())
        if weak or len(remedy.losses.pieces()) > 1:
            plan = f"within the limits none does: {len(links)} leave some"
        else:
            plan = "a plan of as many" if not more else f"a plan within the limits has {more} more"
        yield f"{fewest}; {plan}: {told}; {self.again}: {weak_left(remedy.losses)}"


def spare_words(found, names, proved):
    """The lines of a proposal; `proved` where the proved program surveyed it."""
    return list(Told(found, names, proved).lines())
