"""A site as plain text, for whoever writes one by hand; read into a Site and what else stands there, and written
from these.

    # the bridge, night shift
    units 5
    0-1
    1-2 -63
    3 = head N3
    3 @ 120 4
    reach 250

`units` and their number stand first. Then a line for each link: its two units, and where it was measured its level
in dBm. A link without a level becomes a line of kind 02 in the survey file, one with a level a line of kind 03, -127
too: so a link of kind 03 that has the lowest level is told from one that has none, and a survey file comes back from
its text byte for byte. A unit's number, `=` and a name name it; `@` and one or two numbers give its place in metres,
along the road and across; `reach` is how far two units hear each other. Empty lines don't count, nor does what
stands behind `#`; in a line with a name, `#` begins a remark only between spaces. Links have their positions by
their order.
"""
import re
from collections import namedtuple

from survey_text import LINK_WITH_LEVEL, LOWEST_LEVEL, MAX_LINKS, MAX_UNITS, PLAIN_LINK, Fault, Site, kinds_of

# what a text holds: the table, names and places by unit, and the reach in metres or None
Text = namedtuple("Text", "site names places reach")

MAX_NAME = 40
MAX_BYTES = 1 << 20
MAX_METRES = 1_000_000
# what keyboards and word processors put for a hyphen or a minus
DASHES = str.maketrans(dict.fromkeys("\u2010\u2011\u2012\u2013\u2014\u2015\u2212\ufe58\ufe63\uff0d", "-"))

UNITS = re.compile(r"units\s*[:=]?\s*(\d+)", re.IGNORECASE | re.ASCII)
LINK = re.compile(r"(\d+)\s*-\s*(\d+)(?:\s+(\S.*))?", re.ASCII)
LEVEL = re.compile(r"(-?)\s*(\d+)(?:\s*dbm)?", re.IGNORECASE | re.ASCII)
NAME = re.compile(r"(\d+)\s*=\s*(.*)", re.ASCII)
NUMBER = r"(-?\d{1,9}(?:\.\d{1,9})?)"
PLACE = re.compile(rf"(\d+)\s*@\s*{NUMBER}(?:[\s,]+{NUMBER})?(?:\s*m)?", re.IGNORECASE | re.ASCII)
REACH = re.compile(rf"reach\s*[:=]?\s*{NUMBER}(?:\s*m)?", re.IGNORECASE | re.ASCII)
# a line as in plain text: those of a survey file have digits alone; a hyphen may have been put as a dash
DASH = rb"\xe2\x80[\x90-\x95]|\xe2\x88\x92|\xef\xb9[\x98\xa3]|\xef\xbc\x8d"
BEGINNING = re.compile(rb"(?mi)^(?:\xef\xbb\xbf)?[ \t]*(#|units\b|\d+[ \t]*(=|@|-|" + DASH + rb"))")
SHAPES = "a line is a link like 0-1 or 0-1 -63, a name like 3 = head N3, or a place like 3 @ 120 4"


def is_text(data):
    """Whether a file is plain text, and no survey file."""
    return BEGINNING.search(data.replace(b"\r", b"\n")) is not None


def number_of(digits):
    """A number past all that a site can have is as wrong as any other, and may have any number of digits."""
    digits = digits.lstrip("0")
    return int(digits or "0") if len(digits) <= 9 else 10**9


def short(said):
    """What stands in a line, quoted."""
    return f"'{said}'" if len(said) <= 40 else f"'{said[:40]}...'"


def without_remark(line):
    """A line without its remark. In a name `#` may stand, so there a remark is one between spaces; where that could be
    meant as part of the name, it is a fault."""
    line = " ".join(line.split())
    if not (match := NAME.fullmatch(line)):
        return line.split("#")[0].strip()
    if re.fullmatch(r'".*"', match[2]):
        return line
    if re.match(r"# |#$", match[2]):
        return line[: match.start(2)].strip()
    name, mark, remark = match[2].partition(" # ")
    if mark and re.match(r"\d", remark):
        raise Fault(
            f'is {short("# " + remark)} part of the name? Then write {match[1]} = "{match[2]}"; '
            "if it is a remark, give it a line of its own"
        )
    return f"{match[1]} = {name.removesuffix(' #')}"


class Reader:
    """The site so far; each line adds to it or is a fault."""

    def __init__(self, one_way=False):
        self.units = self.reach = None
        self.one_way = one_way  # links from the first unit to the second: one each way is no repetition
        self.links, self.levels, self.kinds, self.names, self.places = [], [], [], {}, {}
        self.joined = {}  # two units, the lesser first unless links are one-way: the line that links them

    def unit(self, digits):
        v = number_of(digits)
        if v >= self.units:
            last = f"the units are 0 to {self.units - 1}" if self.units > 1 else "the only unit is 0"
            raise Fault(f"there is no unit {digits[:9]}: {last}")
        return v

    def take(self, number, line):
        said = line.translate(DASHES)
        if self.units is None or re.match(r"units\b", said, re.IGNORECASE):
            self.take_units(line, UNITS.fullmatch(said))
        elif match := NAME.fullmatch(line):
            self.take_name(match)
        elif re.match(r"\d+\s*-\s*\d+\s*-\s*\d+\s*-", said, re.ASCII) or re.fullmatch(r"\d+-\d+-\d+", said, re.ASCII):
            raise Fault(f"{short(line)}: a link has two units, like 0-1, and its level stands behind a space: 0-1 -63")
        elif match := LINK.fullmatch(said):
            self.take_link(number, match)
        elif match := PLACE.fullmatch(said):
            self.take_place(match)
        elif re.match(r"reach\b", said, re.IGNORECASE):
            self.take_reach(line, REACH.fullmatch(said))
        elif re.fullmatch(r"\d+[\s,;:/]+\d+.*", said, re.ASCII):
            raise Fault(f"{short(line)} is not understood: a link is written with a dash, like 0-1 or 0-1 -63")
        else:
            raise Fault(f"{short(line)} is not understood: {SHAPES}")

    def take_units(self, line, match):
        if self.units is not None:
            raise Fault("the number of units was given before")
        if not match:
            raise Fault(f"the number of units should stand first, like: units 5 (here stands {short(line)})")
        units = number_of(match[1])
        if not 1 <= units <= MAX_UNITS:
            raise Fault(f"a site has 1 to {MAX_UNITS} units, not {match[1][:9]}")
        self.units = units

    def take_link(self, number, match):
        a, b = self.unit(match[1]), self.unit(match[2])
        if a == b:
            raise Fault(f"the link joins unit {a} to itself")
        first = self.joined.setdefault((a, b) if self.one_way else (min(a, b), max(a, b)), number)
        if first != number:
            raise Fault(f"units {a} and {b} have a link already, in line {first}")
        if len(self.links) == MAX_LINKS:
            raise Fault(f"this is link {MAX_LINKS + 1:,}: a site has at most {MAX_LINKS:,}")
        self.links.append((a, b))
        self.kinds.append(LINK_WITH_LEVEL if match[3] else PLAIN_LINK)
        self.levels.append(self.level(match[3]) if match[3] else LOWEST_LEVEL)

    def level(self, said):
        match = LEVEL.fullmatch(said)
        if not match:
            raise Fault(f"{short(said)} is no level: it is a number of dBm, {LOWEST_LEVEL} to 0")
        level = -number_of(match[2]) if match[1] else number_of(match[2])
        if not LOWEST_LEVEL <= level <= 0:
            meant = f" (is -{level} meant?)" if 0 < level <= -LOWEST_LEVEL else ""
            raise Fault(f"{short(said)} is no level: it is {LOWEST_LEVEL} to 0 dBm{meant}")
        return level

    def take_name(self, match):
        v, name = self.unit(match[1]), re.sub(r'^"(.*)"$', r"\1", match[2]).strip()
        if not name:
            raise Fault(f"the name of unit {v} is missing")
        if v in self.names:
            raise Fault(f"unit {v} has a name already: {self.names[v]}")
        if len(name) > MAX_NAME:
            raise Fault(f"the name of unit {v} has {len(name)} characters, more than {MAX_NAME}")
        self.names[v] = name

    def metres(self, said):
        if abs(float(said)) > MAX_METRES:
            raise Fault(f"{said} metres is too far: {MAX_METRES:,} at most")
        return float(said)

    def take_place(self, match):
        v = self.unit(match[1])
        if v in self.places:
            raise Fault(f"unit {v} has a place already")
        self.places[v] = self.metres(match[2]), self.metres(match[3] or "0")

    def take_reach(self, line, match):
        if not match or float(match[1]) <= 0:
            raise Fault(f"{short(line)} is not understood: the reach is a number of metres, like: reach 250")
        if self.reach is not None:
            raise Fault("the reach was given before")
        self.reach = self.metres(match[1])


def decoded(data):
    """The characters of a text."""
    try:
        return data.decode("utf-8-sig").replace("\r\n", "\n").replace("\r", "\n")
    except UnicodeDecodeError as error:
        line = data.count(b"\n", 0, error.start) + 1
        raise Fault(f"line {line}: a character is not in UTF-8: save the file as plain text in UTF-8") from None


def read_all(data, one_way=False):
    """All that a text holds."""
    reader = Reader(one_way)
    for number, line in enumerate(decoded(data).split("\n"), 1):
        try:
            line = without_remark(line)
            if not line.isprintable():
                raise Fault("a character is none that can be printed")
            if line:
                reader.take(number, line)
        except Fault as fault:
            raise Fault(f"line {number}: {fault}") from None
    if reader.units is None:
        raise Fault("the number of units is missing: the first line is like: units 5")
    site = Site(reader.units, reader.links, reader.levels, reader.kinds)
    return Text(site, reader.names, reader.places, reader.reach)


def read_text(data):
    """The site, and the name of each unit that has one."""
    return read_all(data)[:2]


def same_names(names):
    """The units of each name that several have, whether in large letters or small."""
    found = {}
    for v, name in sorted(names.items()):
        found.setdefault(name.casefold(), []).append(v)
    return [units for units in found.values() if len(units) > 1]


def written(metres):
    return f"{metres:.9f}".rstrip("0").rstrip(".")


def write_text(site, names=None, places=None, reach=None):
    """The plain text of a site."""
    lines = [f"units {site.units}"]
    for kind, (a, b), level in zip(kinds_of(site), site.links, site.levels):
        lines.append(f"{a}-{b} {level}" if kind == LINK_WITH_LEVEL else f"{a}-{b}")
    for v, name in sorted((names or {}).items()):
        quoted = "#" in name or name.startswith('"')
        lines.append(f'{v} = "{name}"' if quoted else f"{v} = {name}")
    lines += [f"{v} @ {written(x)} {written(y)}" for v, (x, y) in sorted((places or {}).items())]
    lines += [f"reach {written(reach)}"] if reach is not None else []
    return ("\n".join(lines) + "\n").encode("utf-8")
