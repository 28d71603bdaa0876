"""Units, links, pairs, changes and drawn trees as people say them: by number, by name, or by both ends."""
import re

from losses import named, units_of
from plain_text import DASHES, short
from survey_text import ABSENT, LOWEST_LEVEL, Fault

REMARK = re.compile(r"(?:^|\s)#(?:\s|$)|^#")
BEFORE = re.compile(r"\s+before\s+", re.IGNORECASE)


def plain(said):
    return " ".join(said.split()).casefold()


class Names:
    """The units and links of a site, found by what is said."""

    def __init__(self, site, names=None):
        self.site, self.names = site, names or {}
        self.known = {}
        for v, name in sorted(self.names.items()):
            self.known.setdefault(plain(name), []).append(v)
        self.position = {frozenset(pair): j for j, pair in enumerate(site.links)}

    def unit(self, said):
        """A unit by its number or its name."""
        said = said.strip()
        if re.fullmatch(r"\d{1,9}", said, re.ASCII):
            if int(said) >= self.site.units:
                raise Fault(f"there is no unit {said}: the units are 0 to {self.site.units - 1}", 13)
            return int(said)
        found = self.known.get(plain(said), [])
        if len(found) > 1:
            raise Fault(f"{units_of(found)} are both called {said}: give the number")
        if not found:
            raise Fault(f"no unit is called {short(said)}: give a number or a name of the table")
        return found[0]

    def two(self, said, parted_at):
        """Two units, parted wherever both sides are units; the words between them may stand in a name too."""
        faults = []
        for match in parted_at.finditer(said):
            try:
                return self.unit(said[: match.start()]), self.unit(said[match.end() :])
            except Fault as fault:
                faults.append(fault)
        raise faults[0] if faults else Fault("")

    def ends(self, said):
        """The two units of a link that may or may not be there."""
        dashed = said.translate(DASHES)
        if not re.search(r"\S\s*-\s*\S", dashed):
            raise Fault(f"{short(said)} is no link: a link is two units, like 3-4")
        return self.two(dashed, re.compile("-"))

    def link(self, said):
        """The position of a link, by its units or as it is."""
        if re.fullmatch(r"\s*\d{1,9}\s*", said, re.ASCII):
            if int(said) >= len(self.site.links):
                last = f"the links are 0 to {len(self.site.links) - 1}" if self.site.links else "the table has none"
                raise Fault(f"there is no link {said.strip()}: {last}", 13)
            return int(said)
        a, b = self.ends(said)
        if frozenset((a, b)) not in self.position:
            raise Fault(f"no link joins units {named(a, self.names)} and {named(b, self.names)}", 13)
        return self.position[frozenset((a, b))]

    def pair(self, said):
        """This unit before that one."""
        if not BEFORE.search(said):
            raise Fault(f"{short(said)} is no pair: it is like '7 before 8'")
        return self.two(said, BEFORE)

    def pairs(self, words):
        """Pairs, each a word of its own or parted by commas."""
        return [self.pair(said) for word in words for said in word.split(",") if said.strip()]

    def change(self, kind, words):
        """Links to be added, each with a level behind it or none, or to be withdrawn."""
        found = []
        for said in words:
            level = re.fullmatch(r"[-\u2212]?\d{1,9}", said)
            if level and kind == "add" and found and found[-1][3] is None:
                found[-1] = (*found[-1][:3], int(said.replace("\u2212", "-")))
            else:
                found.append((kind, *self.ends(said), None))
        return found

    def path(self, said):
        """The units of a relay path, from the lowest unit of a group outwards."""
        dashed = said.translate(DASHES)
        parts = re.split(r"\s+-+>?\s+|\s*>\s*", dashed)
        if len(parts) == 1:
            parts = dashed.split("-")
        return [self.unit(part) for part in parts]


def level_or_none(level):
    """What a link that was not measured is stored with."""
    return LOWEST_LEVEL if level is None else level


def parents_of(data, names):
    """The parents of a drawn tree from its text: relay paths, one a line, each from the lowest unit of its group
    outwards."""
    parents, lines = [ABSENT] * names.site.units, {}
    try:
        text = data.decode("utf-8-sig")
    except UnicodeDecodeError:
        raise Fault("a character is not in UTF-8: save the file as plain text in UTF-8") from None
    for number, line in enumerate(text.splitlines(), 1):
        line = REMARK.split(line)[0].strip()
        if not line:
            continue
        try:
            path = names.path(line)
            if len(path) < 2:
                raise Fault(f"{short(line)} is no relay path: it is like 0-2-3, from unit to unit")
            for parent, v in zip(path, path[1:]):
                if parents[v] not in (ABSENT, parent):
                    both = named(v, names.names), named(parents[v], names.names)
                    raise Fault(f"unit {both[0]} hangs on unit {both[1]} already, in line {lines[v]}")
                parents[v], lines[v] = parent, number
        except Fault as fault:
            raise Fault(f"line {number}: {fault}") from None
    return parents
