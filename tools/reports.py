"""What a report can be of: beside its table, the survey that it was made by; alone, whether any survey makes it."""
from losses import Losses, counted, units_of
from replay import Replay, ceilings, lg, plan_faults, requests_of, toured, without_levels
from survey_text import ABSENT, Site

MANY = 12  # so many units are told one by one

OWN = "the survey's own tree"
PLAIN = "the tree of a set that takes no levels"
DRAWN = "a tree drawn by the planner"


def parents_of(report):
    return [line.parent for line in report.units]


def parent_name(parent):
    return "none" if parent == ABSENT else str(parent)


# ---- beside its table


def surveys_of(losses, parents):
    """The surveys of a table that a report with these parents can be of, the likeliest first: the survey's own, that of
    a set of the years before levels, and one along a drawn tree, where these parents are one."""
    yield OWN, Replay(losses)
    yield PLAIN, Replay(Losses(without_levels(losses.site)))
    if not list(plan_faults(losses.site, losses.groups, parents)):
        yield DRAWN, Replay(losses, parents)


def along(losses, report):
    """Which tree a report was made along, and what it says otherwise than a survey along that tree. The links of the
    table bear out the rest of it."""
    found = []
    for tree, replay in surveys_of(losses, parents_of(report)):
        if replay.report() == report:
            return tree, []
        found.append((tree, replay))
    same = [each for each in found if each[1].parents == parents_of(report)]
    tree, replay = (same or found)[0]
    return tree, list(unlike(report, replay))


def unlike(report, replay):
    """What a report says otherwise than a survey."""
    right, units = replay.report(), len(report.units)
    if report.rounds != right.rounds:
        most = sum(ceilings(units))
        more = f" ({counted(units, 'unit')} take {most} at the most)" if report.rounds > most else ""
        yield f"the report says {counted(report.rounds, 'round')}, but the survey takes {right.rounds}{more}"
    if report.requests != right.requests:
        yield f"the report says {counted(report.requests, 'ranking request')}, but the survey makes {right.requests}"
    for v, (line, its) in enumerate(zip(report.units, right.units)):
        if line.parent != its.parent:
            said = parent_name(line.parent), parent_name(its.parent)
            yield f"the report gives unit {v} the parent {said[0]}, but the survey gives it {said[1]}"
        if line.place != its.place:
            yield f"the report gives unit {v} the place {line.place}, but the survey gives it {its.place}"


# ---- alone


def impossible(report):
    """What no survey of any table reports."""
    groups = groups_of(report)
    if groups is None:
        yield "its colours are not those of groups: each is the least unit of its own"
        return
    units, parents = len(report.units), parents_of(report)
    least, most = rounds_between(units, groups)
    if not least <= report.rounds <= most:
        sizes = f"{counted(units, 'unit')} in {counted(len(groups), 'group')}"
        yield f"it has {counted(report.rounds, 'round')}, but {sizes} take {least} to {most}"
    requests = 2 * sum(requests_of(map(len, groups)))
    if report.requests != requests:
        yield f"it has {counted(report.requests, 'ranking request')}, but groups of these sizes make {requests}"
    ways = [(v, parent) for v, parent in enumerate(parents) if parent != ABSENT]
    wrong = [f"unit {v} {why}" for v, why in plan_faults(Site(units, ways, []), groups, parents)]
    yield from wrong
    if not wrong:
        place = toured(parents, groups)[0]
        other = [v for v, line in enumerate(report.units) if line.place != place[v]]
        if other:
            yield f"the tour of its tree gives {units_of(other, None, MANY)} another place"
    yield from impossible_links([line.label for line in report.links], [line.lone for line in report.links], len(ways))


def impossible_links(labels, lone, tree):
    if len(labels) < tree:
        yield f"its parents go along {counted(tree, 'link')}, but it has {len(labels)}"
    wrong = [j for j, label in enumerate(labels) if label > j or labels[label] != label]
    if wrong:
        yield f"link {wrong[0]} has the label {labels[wrong[0]]}, which is no first link of a set"
        return
    for label in sorted(set(labels)):
        size = labels.count(label)
        if size == 2:
            yield f"two links have the label {label}, but a ring has three or more"
        if any(lone[j] != (size == 1) for j in range(len(labels)) if labels[j] == label):
            yield f"link {label} is {'not lone' if size == 1 else 'lone'}, but its label has {counted(size, 'link')}"


def groups_of(report):
    """The groups by the colours of a report; None where the colours are none of groups."""
    groups = {}
    for v, line in enumerate(report.units):
        groups.setdefault(line.color, []).append(v)
    if any(color != group[0] for color, group in groups.items()):
        return None
    return [groups[color] for color in sorted(groups)]


def rounds_between(units, groups):
    """The fewest and the most rounds of a survey of such groups: its rankings are as long as the largest group wants,
    and what spreads may end early."""
    most = ceilings(units)
    most[3] = most[5] = lg(2 * max(map(len, groups)) - 2) + 1
    least = most[:]
    least[0], least[1], least[8] = 2, 1, 2
    return sum(least), sum(most)
