"""The foreman's list: the weak places of a surveyed site in words and in working order, and first of all what stands
apart."""
import re
import textwrap

from folds import Fold, Folding, most_cut
from losses import changes, counted, listed, named, parted, summed, units_of

WIDE = 110  # a line is broken past so many characters
WORST = 40  # so many weak places and chains are told one by one
LISTED = 12  # units that a loss cuts off are told by no more words than about this
SETS = 8  # so many sets of links that back each other up are told one by one
ALTERED = 12  # so many links are told one by one where they came or went, or were cured
LOUD = "!! "
UNPROVED = (
    f"{LOUD}not by the proved program, which is not built here (README.md): "
    "each unit and link was taken away once instead"
)
HELD = "\u00a0"  # a space at which no line is broken


def wrapped(line):
    """A line broken at spaces, but not within a name or before it, nor within a range; what follows begins below the
    words of the first."""
    loud, lead = re.match(r"(!! )?( *\d+  (?=\S)| *)", line).groups("")
    deeper = loud + " " * (len(lead) or 2)
    line = re.sub(r"(\d) \(", rf"\1{HELD}(", line)
    line = re.sub(r"([\d)]) to (\d)", rf"\1{HELD}to{HELD}\2", line)
    line = re.sub(r"\b(units?|links?|and) (?=\d)", rf"\1{HELD}", line)
    filled = textwrap.fill(line, WIDE, subsequent_indent=deeper, break_long_words=False, break_on_hyphens=False)
    return filled.replace(HELD, " ")


def place_name(place, names):
    """unit 2 (gate) is a single point, or link 3 (2-3: gate, unit 3) is lone"""
    if place.ends is None:
        return f"unit {named(place.number, names)} is a single point"
    return f"{link_name(place.number, place.ends, names)} is lone"


def link_name(position, ends, names):
    """link 3 (2-3: gate, unit 3)"""
    a, b = ends
    said = f"{a}-{b}"
    if a in names or b in names:
        said += ": " + ", ".join(names.get(v, f"unit {v}") for v in (a, b))
    return f"link {position} ({said})"


def listed_links(positions, site, names):
    """link 3 (2-3), link 4 (3-4: gate, unit 4); past a few, by their units alone"""
    if len(positions) <= ALTERED:
        return ", ".join(link_name(j, site.links[j], names) for j in positions)
    return links_of(["{}-{}".format(*site.links[j]) for j in positions])


def links_of(links):
    """link 2-3, or links 2-3, 5-6"""
    return f"link{'' if len(links) == 1 else 's'} {', '.join(links)}"


def in_short(places, names, most=None):
    """units 2 (gate), 5; links 2-3, 5-6; many links are counted, and units past the most words where given"""
    units = [place.number for place in places if place.ends is None]
    links = [f"{a}-{b}" for a, b in sorted(place.ends for place in places if place.ends)]
    said = [units_of(units, names, most)] if units else []
    if links:
        said.append(links_of(links) if len(links) <= ALTERED else counted(len(links), "link"))
    return "; ".join(said)


def fold_name(fold, names):
    """units 11 to 24 in one chain: each of 14 units and 13 links is weak"""
    links = counted(len(fold.links), "link")
    if fold.hub is not None:
        return (
            f"{units_of(fold.units, names)}, each on one lone link to unit {named(fold.hub, names)}: each of {links} "
            "is weak"
        )
    return f"{in_row(fold.units, names)} in one chain: each of {counted(len(fold.units), 'unit')} and {links} is weak"


def in_row(units, names):
    """Units in their order along a chain: as numbers in a row where they count up, else by both ends."""
    if list(units) == list(range(units[0], units[0] + len(units))):
        return units_of(units, names)
    if len(units) <= 5:
        return f"units {', '.join(named(v, names) for v in units)}"
    return f"the units from {named(units[0], names)} over {named(units[1], names)} to {named(units[-1], names)}"


def span(fold):
    """What the losses of a fold cut off."""
    least, most = min(place.cut for place in fold.places), most_cut(fold)
    return counted(most, "unit") if least == most else f"{least} to {most} units"


def weak_list(places, names, losses, full, was=None):
    """A line a place or a chain: how many units it cuts off, which it is, what its loss does; `was` has what places
    were before. All of them where that is wanted, else the worst, and how many there are more."""
    before = {id(place): f" (before: {old.cut})" for place, old in zip(places, was or ()) if old.cut != place.cut}
    told = places if full else Folding(losses, places).in_order()
    wide = max((len(str(most_cut(place))) for place in told), default=1)
    shown = told if full or len(told) <= WORST + 1 else told[:WORST]
    for place in shown:
        if isinstance(place, Fold):
            yield f"  {most_cut(place):>{wide}}  {fold_name(place, names)}: a loss cuts off {span(place)}"
        else:
            loss = parted(place.parts, names, None if full else LISTED)
            yield f"  {place.cut:>{wide}}  {place_name(place, names)}: its loss {loss}{before.get(id(place), '')}"
    if len(shown) < len(told):
        left = sum(len(place.places) if isinstance(place, Fold) else 1 for place in told[WORST:])
        yield (
            f"  and {left} more, each cutting off {counted(most_cut(told[WORST]), 'unit')} or fewer; --full tells them "
            "all"
        )


def apart(losses, names):
    """Loud: the units that hear nobody, and the groups that no link joins."""
    alone, pieces = losses.alone(), losses.pieces()
    if alone:
        yield (
            f"{LOUD}{counted(len(alone), 'unit')} hear{'s' if len(alone) == 1 else ''} nobody: {listed(alone, names)}: "
            "switched on?"
        )
    if len(pieces) > 1:
        yield (
            f"{LOUD}the {'other ' if alone else ''}{sum(map(len, pieces))} units are in {len(pieces)} groups that no "
            "link joins:"
        )
        for part in pieces:
            yield f"{LOUD}  {len(part)} units: {listed(part, names)}"


def headline(losses):
    size = f"{counted(losses.site.units, 'unit')}, {counted(len(losses.site.links), 'link')}"
    return f"{size}: {counted(len(losses.unit_parts), 'single point')}, {counted(len(losses.link_parts), 'lone link')}"


def weak_places(losses, names, full):
    """The weak places of a site that is compared with none."""
    places = losses.weak()
    if places:
        yield "weak places, the worst first; in front the number of units cut off:"
        yield from weak_list(places, names, losses, full)
    elif losses.site.links:
        whose = "all others" if len(losses.groups) == 1 else "all others of its group"
        yield f"no weak place: any one unit or link may fail, and {whose} still reach each other"


def altered(before, now, names):
    """What came and went between two tables: units at the end, links wherever they stand."""
    if now.units > before.units:
        yield f"{units_of(range(before.units, now.units), names)} came"
    if now.units < before.units:
        yield f"{units_of(range(now.units, before.units))} went"
    old, new = ({frozenset(pair): f"{pair[0]}-{pair[1]}" for pair in site.links} for site in (before, now))
    came, went = [new[pair] for pair in new if pair not in old], [old[pair] for pair in old if pair not in new]
    for links, told in (came, "came"), (went, "went"):
        if links:
            more = f" and {len(links) - ALTERED} more" if len(links) > ALTERED else ""
            yield f"{links_of(links[:ALTERED])}{more} {told}"


def compared(losses, names, before, names_before, full):
    """The weak places beside those of an earlier table of the site."""
    yield "since the earlier table: " + (
        "; ".join(altered(before.site, losses.site, names)) or "the same units and links"
    )
    other = [v for v in names if v in names_before and names[v] != names_before[v]]
    if other:
        yield f"{LOUD}{units_of(other, names)} had another name there: units are compared by their numbers"
    if len(before.groups) != len(losses.groups):
        yield f"groups that no link joins: {len(before.groups)} before, {len(losses.groups)} now"
    by = changes(before, losses)
    told = [(by.lost, "lost")] if by.lost else []
    told += [(by.cured, "cured"), (by.new, "new"), (by.remaining, "remaining")]
    yield "weak places: " + ", ".join(f"{len(places)} {said}" for places, said in told)
    if by.lost:
        yield f"{LOUD}lost, for what hung together by it is apart now: {in_short(by.lost, names_before)}"
    if by.cured:
        yield f"cured: {in_short(by.cured, names_before)}"
    if by.new:
        yield "new, the worst first; in front the number of units cut off:"
        yield from weak_list(by.new, names, losses, full)
    if by.remaining:
        yield "remaining, the worst first; in front the number of units cut off:"
        was = [old for old, _ in by.remaining]
        yield from weak_list([place for _, place in by.remaining], names, losses, full, was)


def backed(losses, names, full):
    """What backs each other up, in short: links of one label are all the links among the units that they touch."""
    sets = [(links, sorted({v for j in links for v in losses.site.links[j]})) for links in losses.backed()]
    sets.sort(key=lambda each: (-len(each[0]), each[1]))
    shown = sets if full or len(sets) <= SETS + 1 else sets[:SETS]
    for links, units in shown:
        yield f"the {len(links)} links among {units_of(units, names)} back each other up"
    if len(sets) > len(shown):
        most, least = len(sets[SETS][0]), len(sets[-1][0])
        yield (
            f"and {len(sets) - SETS} sets more do, of {most if most == least else f'{least} to {most}'} links each; "
            "--full tells them all"
        )


def held_names(names):
    """Names in which no line is broken."""
    return {v: name.replace(" ", HELD) for v, name in (names or {}).items()}


def words(losses, report, names=None, full=False, before=None, names_before=None, tree=""):
    """The lines of the list; `before` has the losses of an earlier table of the site, `report` is None where the proved
    program was not run; `tree` tells which tree the survey went along where it is not its own."""
    names, names_before = held_names(names), held_names(names_before)
    if report is None:
        yield UNPROVED
    yield from apart(losses, names)
    yield headline(losses)
    if before is None:
        yield from weak_places(losses, names, full)
    else:
        yield from compared(losses, names, before, names_before, full)
    yield from backed(losses, names, full)
    if report is not None:
        took = f"{counted(report.rounds, 'round')} and {counted(report.requests, 'ranking request')}"
        yield f"the survey took {took}{f', along {tree}' if tree else ''}"
    units, groups = counted(losses.site.units, "unit"), counted(len(losses.groups), "group")
    yield f"by parts, for the planner: {summed(losses.touched())}, the {units} less {groups}"
