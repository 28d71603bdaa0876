"""Survey files and reports as text: one frame a line, checked before anything is believed.

A line has two upper-case hexadecimal digits for each byte and ends with a line feed. It begins with its kind and ends
with a check byte, which brings the sum of all bytes to 0 in eight bits. A number has two bytes, high byte first; a flag
has one; a level has one, in two's complement.
"""
from collections import namedtuple

# a count, a list of pairs of units, the level of each link in dBm, and the kind of each link's line; without kinds, a
# link of the lowest level counts as one of kind 02
Site = namedtuple("Site", "units links levels kinds", defaults=(None,))
Report = namedtuple("Report", "rounds requests units links")
UnitLine = namedtuple("UnitLine", "color parent place single")
LinkLine = namedtuple("LinkLine", "label lone")

ABSENT = 0xFFFF
MAX_INPUT = 65535
MAX_UNITS = 256
MAX_LINKS = 1024
LOWEST_LEVEL = -127  # what a link of kind 02 is read as, which has no level

# bytes in a frame of each kind, the kind and the check byte included
FILE_KINDS = {0x01: 4, 0x02: 6, 0x03: 7, 0x0F: 4}
PLAIN_LINK, LINK_WITH_LEVEL = LINK_KINDS = 0x02, 0x03
REPORT_KINDS = {0x11: 6, 0x12: 11, 0x13: 7, 0x1E: 3, 0x1F: 6}

REFUSALS = {
    1: "a line is faulty (empty, no line feed, a wrong character, kind, length or sum), or the input is longer than "
    "65,535 bytes",
    2: "the lines are not one 01 line, then 02 and 03 lines, then one 0F line",
    3: "the number of links in the 0F line is not the number of 02 and 03 lines",
    4: "the unit count is not 1 to 256",
    5: "the table of links has an odd number of words",
    6: "the table has more than 1,024 links",
    7: "a link has an end that is no unit of the site",
    8: "a link has the same unit at both ends",
    9: "two units are linked twice",
    10: "the state is not one that the survey made",
    11: "a round was wanted of a finished survey",
    12: "an answer was wanted before the survey was finished",
    13: "a unit or link that does not exist was asked for",
    14: "the output has too little room",
    15: "the levels are not as many as the links",
    16: "a link has a level below -127 or above 0",
    17: "the parents of a drawn tree are not as many as the units",
    18: "a drawn tree leaves the links, runs in a circle, or does not lead to the lowest unit of its group",
    19: "there are more than 256 pairs or an odd number of words, or a pair names a unit that does not exist",
    20: "no lifting order exists: a pair cuts a standing unit off, or no order can keep them all",
    21: "no link joins the two units whose link was to be withdrawn",
    22: "a unit has no link; perhaps it was not switched on",
    23: "the seat is none of 0 to 7",
}


class Fault(Exception):
    """What is wrong with a text, in plain words; `number` is the refusal that the survey gives for it, if it has
    one."""

    def __init__(self, words, number=None):
        super().__init__(words)
        self.number = number


def frame_of(line, kinds):
    """The bytes of one line, without its line feed."""
    if not line:
        raise Fault("the line is empty")
    if line.endswith(b"\r"):
        raise Fault("the line ends in a carriage return; lines end in a line feed alone")
    for c in line:
        if c not in b"0123456789ABCDEF":
            raise Fault(f"the character {chr(c)!r} is no upper-case hexadecimal digit")
    if len(line) % 2:
        raise Fault("the number of digits is odd")
    frame = bytes.fromhex(line.decode("ascii"))
    if frame[0] not in kinds:
        raise Fault(f"the kind {frame[0]:02X} does not belong in this text")
    if len(frame) != kinds[frame[0]]:
        raise Fault(f"a line of kind {frame[0]:02X} has {2 * kinds[frame[0]]} digits, this one has {len(line)}")
    if sum(frame) % 256:
        right = -sum(frame[:-1]) % 256
        raise Fault(
            f"the check byte is {frame[-1]:02X}, but the other bytes ask for {right:02X}: something in the line was "
            "changed"
        )
    return frame


def frames_of(data, kinds):
    lines = data.split(b"\n")
    unended = lines.pop()
    frames = []
    for number, line in enumerate(lines, 1):
        try:
            frames.append(frame_of(line, kinds))
        except Fault as fault:
            raise Fault(f"line {number}: {fault}", 1) from None
    if unended:
        raise Fault(f"line {len(lines) + 1}: the line lacks its line feed", 1)
    return frames


def word(frame, at):
    return frame[at] * 256 + frame[at + 1]


def level_of(frame):
    """The level in a link's frame."""
    if frame[0] == PLAIN_LINK:
        return LOWEST_LEVEL
    return frame[5] - 256 if frame[5] >= 128 else frame[5]


def flag(frame, at, line):
    if frame[at] > 1:
        raise Fault(f"line {line}: the flag is {frame[at]:02X}, it should be 00 or 01")
    return frame[at] == 1


def read_site(data, one_way=False):
    """The units, links and levels of a survey file. Faults come in the order in which the survey program looks for
    them. Where links are one-way, only the same ordered pair twice is a repetition."""
    if len(data) > MAX_INPUT:
        raise Fault(f"the file has {len(data)} bytes, more than 65,535", 1)
    frames = frames_of(data, FILE_KINDS)
    if not frames:
        raise Fault("the file is empty", 2)
    for number, frame in enumerate(frames, 1):
        wanted = (0x01,) if number == 1 else (0x0F,) if number == len(frames) else LINK_KINDS
        if frame[0] not in wanted:
            kinds = " or ".join(f"{kind:02X}" for kind in wanted)
            raise Fault(f"line {number}: a line of kind {kinds} should stand here, not {frame[0]:02X}", 2)
    if len(frames) == 1:
        raise Fault("the last line, of kind 0F, is missing", 2)
    units = word(frames[0], 1)
    links = [(word(frame, 1), word(frame, 3)) for frame in frames[1:-1]]
    levels = [level_of(frame) for frame in frames[1:-1]]
    kinds = [frame[0] for frame in frames[1:-1]]
    if word(frames[-1], 1) != len(links):
        raise Fault(f"line {len(frames)}: it counts {word(frames[-1], 1)} links, but the file has {len(links)}", 3)
    if len(links) > MAX_LINKS:
        raise Fault(f"the file has {len(links)} links, more than 1,024", 6)
    for j, level in enumerate(levels):
        if not LOWEST_LEVEL <= level <= 0:
            raise Fault(f"line {j + 2}: link {j} has the level {level}, it should be {LOWEST_LEVEL} to 0", 16)
    if not 1 <= units <= MAX_UNITS:
        raise Fault(f"line 1: the unit count is {units}, it should be 1 to 256", 4)
    for j, (a, b) in enumerate(links):
        if max(a, b) >= units:
            raise Fault(f"line {j + 2}: link {j} ({a}-{b}) names a unit past the last one, {units - 1}", 7)
    for j, (a, b) in enumerate(links):
        if a == b:
            raise Fault(f"line {j + 2}: link {j} joins unit {a} to itself", 8)
    first = {}
    for j, (a, b) in enumerate(links):
        i = first.setdefault((a, b) if one_way else (min(a, b), max(a, b)), j)
        if i != j:
            raise Fault(f"line {j + 2}: link {j} ({a}-{b}) joins the same two units as link {i}", 9)
    return Site(units, links, levels, kinds)


def line_of(*body):
    """The line of a frame: its bytes, then the one that makes their sum wrap to 0."""
    return bytes([*body, -sum(body) % 256]).hex().upper().encode("ascii") + b"\n"


def kinds_of(site):
    """The kind of each link's line."""
    if site.kinds is not None:
        return site.kinds
    return [PLAIN_LINK if level == LOWEST_LEVEL else LINK_WITH_LEVEL for level in site.levels]


def write_site(site):
    """The survey file of a site: kind 03 for the links that have a level, kind 02 for those that have none."""
    lines = [line_of(0x01, *divmod(site.units, 256))]
    for kind, (a, b), level in zip(kinds_of(site), site.links, site.levels):
        lines.append(
            line_of(kind, *divmod(a, 256), *divmod(b, 256), *([level % 256] if kind == LINK_WITH_LEVEL else []))
        )
    return b"".join(lines) + line_of(0x0F, *divmod(len(site.links), 256))


def read_report(data):
    """A report, or the number of the refusal that stands in its place."""
    frames = frames_of(data, REPORT_KINDS)
    if not frames:
        raise Fault("the report is empty")
    if frames[0][0] == 0x1E:
        if len(frames) > 1:
            raise Fault("line 2: nothing should follow the 1E line of a refusal")
        if frames[0][1] not in REFUSALS:
            raise Fault(f"line 1: there is no refusal {frames[0][1]}")
        return frames[0][1]
    if frames[0][0] != 0x11:
        raise Fault(f"line 1: a line of kind 11 should stand here, not {frames[0][0]:02X}")
    units, links = [], []
    for number, frame in enumerate(frames[1:-1], 2):
        if frame[0] == 0x12 and not links:
            if word(frame, 1) != len(units):
                raise Fault(f"line {number}: unit {len(units)} should stand here, not {word(frame, 1)}")
            units.append(UnitLine(word(frame, 3), word(frame, 5), word(frame, 7), flag(frame, 9, number)))
        elif frame[0] == 0x13:
            if word(frame, 1) != len(links):
                raise Fault(f"line {number}: link {len(links)} should stand here, not {word(frame, 1)}")
            links.append(LinkLine(word(frame, 3), flag(frame, 5, number)))
        else:
            raise Fault(f"line {number}: a line of kind {frame[0]:02X} should not stand here")
    if len(frames) < 2 or frames[-1][0] != 0x1F:
        raise Fault("the last line, of kind 1F, is missing")
    for at, what, found in (1, "single points", [u.single for u in units]), (3, "lone links", [k.lone for k in links]):
        if word(frames[-1], at) != sum(found):
            raise Fault(
                f"line {len(frames)}: it counts {word(frames[-1], at)} {what}, but the lines before mark {sum(found)}"
            )
    return Report(word(frames[0], 1), word(frames[0], 3), units, links)
