"""What the loss of a unit or of a link does to a site: by flooding what is left, never from a report."""
from collections import namedtuple

from survey_text import ABSENT

ROW = 5  # numbers in a row are told by no more words than this

# a single point (its unit as number, no ends) or a lone link (its position and ends), the parts that its loss leaves of
# its group, the smallest first, and how many units it cuts off: all but those of the largest part
Weak = namedtuple("Weak", "number ends parts cut")

# the weak places of an earlier table that are none now: cured, or lost where those that hung together by it are apart
# now; then the new ones, and the remaining ones, each beside what it was
Changes = namedtuple("Changes", "cured lost new remaining")


def neighbours_of(site):
    """For each unit the pairs of a neighbour and the link's position."""
    near = [[] for _ in range(site.units)]
    for j, (a, b) in enumerate(site.links):
        near[a].append((b, j))
        near[b].append((a, j))
    return near


def parts(near, lost_unit=None, lost_link=None):
    """The groups of units that are still linked up, each ascending, by their least unit."""
    found = []
    seen = {lost_unit}
    for start in range(len(near)):
        if start in seen:
            continue
        seen.add(start)
        part = [start]
        for v in part:
            for w, j in near[v]:
                if w not in seen and j != lost_link:
                    seen.add(w)
                    part.append(w)
        found.append(sorted(part))
    return found


def part_numbers(found):
    return {v: k for k, part in enumerate(found) for v in part}


class Losses:
    """Every unit and every link taken away once."""

    def __init__(self, site):
        self.site = site
        near = neighbours_of(site)
        self.groups = parts(near)
        group = part_numbers(self.groups)
        self.unit_parts = {}  # unit: the parts of its group after its loss, where they are more than one
        self.link_parts = {}  # position: the two parts of its group after its loss, where it parts them
        block = list(range(len(site.links)))

        def least(j):
            while block[j] != j:
                j = block[j]
            return j

        for v in range(site.units):
            left = parts(near, lost_unit=v)
            of = part_numbers(left)
            of_group = [part for part in left if group[part[0]] == group[v]]
            if len(of_group) > 1:
                self.unit_parts[v] = of_group
            # two links at v lie on a ring exactly when their other ends are linked up without v
            first = {}
            for w, j in near[v]:
                i = least(first.setdefault(of[w], j))
                j = least(j)
                block[max(i, j)] = min(i, j)
        self.labels = [least(j) for j in range(len(site.links))]
        for j, (a, b) in enumerate(site.links):
            left = parts(near, lost_link=j)
            of = part_numbers(left)
            if of[a] != of[b]:
                self.link_parts[j] = [left[k] for k in sorted({of[a], of[b]})]

    def backed(self):
        """The links of each label that has more than one."""
        sets = {}
        for j, label in enumerate(self.labels):
            sets.setdefault(label, []).append(j)
        return [links for links in sets.values() if len(links) > 1]

    def alone(self):
        """The units that hear nobody; a site of one unit has none."""
        return [part[0] for part in self.groups if len(part) == 1 and self.site.units > 1]

    def pieces(self):
        """The groups of more than one unit, the largest first."""
        return sorted((part for part in self.groups if len(part) > 1), key=lambda part: (-len(part), part))

    def weak(self):
        """The weak places in working order: by the number of units cut off, the most first; then single points
        before lone links."""
        found = [weak_place(v, None, left) for v, left in self.unit_parts.items()]
        found += [weak_place(j, self.site.links[j], left) for j, left in self.link_parts.items()]
        return sorted(found, key=lambda place: (-place.cut, place.ends is not None, place.number))

    def touched(self):
        """For each label, ascending, the units that its links touch, less one."""
        units = {}
        for label, pair in zip(self.labels, self.site.links):
            units.setdefault(label, set()).update(pair)
        return [len(units[label]) - 1 for label in sorted(units)]


def weak_place(number, ends, left):
    left = sorted(left, key=lambda part: (len(part), part))
    return Weak(number, ends, left, sum(map(len, left[:-1])))


def key_of(place):
    """The same weak place in two tables: a unit by its number, a link by its two units, for its position may have
    moved."""
    return place.number if place.ends is None else frozenset(place.ends)


def changes(before, now):
    """What became of the weak places, each list in working order."""
    was, found = ({key_of(place): place for place in losses.weak()} for losses in (before, now))
    near = neighbours_of(before.site)
    group = part_numbers(now.groups)
    cured, lost = [], []
    for key, place in was.items():
        if key not in found:
            held = place.ends or [w for w, _ in near[place.number]]
            (cured if len({group[v] for v in held if v in group}) < 2 else lost).append(place)
    new = [place for key, place in found.items() if key not in was]
    return Changes(cured, lost, new, [(was[key], place) for key, place in found.items() if key in was])


def contradictions(losses, report):
    """Where a report of as many units and links says something else than the links of the file."""
    site = losses.site
    group = part_numbers(losses.groups)
    linked = {frozenset(pair) for pair in site.links}
    for v, line in enumerate(report.units):
        if line.single != (v in losses.unit_parts):
            told, found = ("is", "parts nothing") if line.single else ("is not", "parts its group")
            yield f"the report says that unit {v} {told} a single point, but its loss {found}"
        least = losses.groups[group[v]][0]
        if line.color != least:
            yield f"the report gives unit {v} the colour {line.color}, but the least unit linked up with it is {least}"
        if (line.parent == ABSENT) != (v == least):
            yield (
                f"the report says that unit {v} has {'no' if line.parent == ABSENT else 'a'} parent, but the least "
                f"unit of its group is {least}"
            )
        elif line.parent != ABSENT and frozenset((v, line.parent)) not in linked:
            yield f"the report gives unit {v} the parent {line.parent}, but no link joins the two"
    if sorted(line.place for line in report.units) != list(range(site.units)):
        yield "the places in the report are not the numbers from 0 on, each once"
    for j, line in enumerate(report.links):
        name = f"link {j} ({site.links[j][0]}-{site.links[j][1]})"
        if line.lone != (j in losses.link_parts):
            told, found = ("is", "parts nothing") if line.lone else ("is not", "parts its group")
            yield f"the report says that {name} {told} lone, but its loss {found}"
        if line.label != losses.labels[j]:
            yield (
                f"the report gives {name} the label {line.label}, but the first link that backs it up, or itself, is "
                f"{losses.labels[j]}"
            )


# ---- in words


def named(v, names=None):
    """3, or 3 (head N3)"""
    return f"{v} ({names[v]})" if names and v in names else str(v)


def listed(numbers, names=None, most=None):
    """3, 5 to 9, 12: four or more in a row are shortened, but those with a name stand alone, 3, 5 (gate), 6 to 9,
    unless that takes many words: then 0 (gate) to 12 (relay). Past the most words, where given, the rest is counted."""
    runs = []
    for k in sorted(numbers):
        if runs and k == runs[-1][1] + 1:
            runs[-1][1] = k
        else:
            runs.append([k, k])
    words, left = [], len(numbers)
    for a, b in runs:
        if most and len(words) >= most:
            return ", ".join(words) + f" and {left} more"
        told = told_apart(a, b, names or {})
        words += told if len(told) <= ROW else [f"{named(a, names)} to {named(b, names)}"]
        left -= b - a + 1
    return ", ".join(words)


def told_apart(a, b, names):
    """The words for the numbers from a to b, where each that has a name stands alone."""
    words, start = [], a
    for k in range(a, b + 2):
        if k > b or k in names:
            words += [f"{start} to {k - 1}"] if k - start > 3 else [str(v) for v in range(start, k)]
            words += [named(k, names)] if k <= b else []
            start = k + 1
    return words


def units_of(numbers, names=None, most=None):
    """unit 3, or units 3, 5 to 9"""
    return f"unit{'' if len(numbers) == 1 else 's'} {listed(numbers, names, most)}"


def counted(k, thing):
    return f"{k} {thing}" if k == 1 else f"{k or 'no'} {thing}s"


def summed(numbers):
    """2 + 1 + 1 = 4; past a few, equal ones are counted: 1 × 12 + 30 × 1 = 42"""
    terms = [str(k) for k in numbers]
    if len(numbers) > 6:
        terms = [f"{numbers.count(k)} × {k}" for k in sorted(set(numbers), reverse=True)]
    return f"{' + '.join(terms)} = {sum(numbers)}" if len(numbers) > 1 else str(sum(numbers))


def parted(left, names=None, most=None):
    """What a loss does: the smaller parts are named, the largest is counted."""
    left = sorted(left, key=lambda part: (len(part), part))
    others = counted(len(left[-1]), "other")
    if len(left) == 2:
        return f"cuts off {units_of(left[0], names, most)} from {others}"
    single = [part[0] for part in left if len(part) == 1]
    if len(single) == len(left):
        return f"leaves {len(left)} parts: {units_of(single, names, most)}, each alone"
    said = [units_of(single, names, most) + (", each alone" if len(single) > 1 else "")] if single else []
    said += [units_of(part, names, most) for part in left[:-1] if len(part) > 1]
    return f"leaves {len(left)} parts: " + "; ".join(said + [others])
