"""Which two units a spare or a link may join: pairs that the foreman names, or units near enough to each other.

Positions are in metres, along the road and across. Two units hear each other within the reach; where none is given,
it is the length of the longest link of the table. A spare between two units reaches twice as far.
"""
import math
import os
import re

from plain_text import DASHES, MAX_BYTES, number_of, short
from survey_text import Fault

PAIR = re.compile(r"(\d+)\s*-\s*(\d+)", re.ASCII)
PAIRS = re.compile(r"\s*\d+\s*-\s*\d+([\s,;]+\d+\s*-\s*\d+)*\s*", re.ASCII)


class Limits:
    """Whether two units may be joined, by a link or by a spare between them."""

    def __init__(self, pairs=None, positions=None, reach=None):
        self.pairs, self.positions, self.reach = pairs, positions or {}, reach

    def known(self):
        return self.pairs is not None or bool(self.positions)

    def far(self, u, v):
        return math.dist(self.positions[u], self.positions[v])

    def within(self, u, v, reach):
        if self.pairs is not None:
            return (min(u, v), max(u, v)) in self.pairs
        if not self.positions:
            return True
        return u in self.positions and v in self.positions and self.far(u, v) <= reach

    def link(self, u, v):
        return self.within(u, v, self.reach)

    def spare(self, u, v):
        return self.within(u, v, self.positions and 2 * self.reach)


def pairs_in(said, units):
    """The pairs in a text: 0-7, 3-9; what stands behind # does not count."""
    found = set()
    for number, line in enumerate(said.translate(DASHES).split("\n"), 1):
        line = line.split("#")[0].strip()
        if not line:
            continue
        if not PAIRS.fullmatch(line):
            raise Fault(f"line {number}: {short(line)} is not understood: pairs of units are written like 0-7, 3-9")
        for match in PAIR.finditer(line):
            u, v = number_of(match[1]), number_of(match[2])
            if max(u, v) >= units:
                raise Fault(f"line {number}: there is no unit {max(u, v)}: the units are 0 to {units - 1}")
            if u == v:
                raise Fault(f"line {number}: {match[0]} is no pair: both are unit {u}")
            found.add((min(u, v), max(u, v)))
    return found


def near_pairs(given, units):
    """The pairs of --near: given as they are, or the path of a file that has them."""
    if PAIRS.fullmatch(given.translate(DASHES)):
        said, where = given, "--near"
    else:
        try:
            with open(given, "rb") as file:
                said, where = file.read(MAX_BYTES).decode("utf-8-sig"), given
        except OSError as error:
            more = "" if os.path.exists(given) else " (pairs of units are written like 0-7,3-9)"
            raise Fault(f"--near: {given}: cannot be read: {error.strerror}{more}") from None
        except UnicodeDecodeError:
            raise Fault(f"{given}: a character is not in UTF-8: save the file as plain text in UTF-8") from None
    try:
        return pairs_in(said, units)
    except Fault as fault:
        raise Fault(f"{where}: {fault}") from None


def limits_of(site, near, positions, reach):
    """The limits of a site: what --near says, else positions where the table has some."""
    if near is not None:
        return Limits(pairs=near_pairs(near, site.units))
    if not positions:
        return Limits()
    if reach is None:
        known = [pair for pair in site.links if pair[0] in positions and pair[1] in positions]
        reach = max((math.dist(positions[u], positions[v]) for u, v in known), default=0)
    return Limits(positions=positions, reach=reach)
