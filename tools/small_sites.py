#!/usr/bin/env python3
"""What the program small_sites must print (T-13): python3 tools/small_sites.py > crates/small_sites/stdout

Every set of links among 1 to 5 units has a line. Its single points are found by removing one unit after another: the
unit is one where two others that had a route have none without it. Nothing of the product is used.
"""
from itertools import combinations

MOST = 5
KIND = 0x22


def sites():
    """Each site as its unit count, its number and its links, in the order of the listing."""
    for units in range(1, MOST + 1):
        pairs = list(combinations(range(units), 2))
        for number in range(2 ** len(pairs)):
            yield units, number, [pair for bit, pair in enumerate(pairs) if number >> bit & 1]


def reached(start, links):
    """The units that some route leads to."""
    found, ahead = {start}, [start]
    while ahead:
        unit = ahead.pop()
        for pair in links:
            if unit in pair:
                other = pair[0] + pair[1] - unit
                if other not in found:
                    found.add(other)
                    ahead.append(other)
    return found


def is_single(unit, units, links):
    left = [pair for pair in links if unit not in pair]
    others = [u for u in range(units) if u != unit]
    return any(b in reached(a, links) and b not in reached(a, left) for a, b in combinations(others, 2))


def line(units, number, links):
    mask = sum(1 << unit for unit in range(units) if is_single(unit, units, links))
    body = [KIND, units >> 8, units & 255, number >> 8, number & 255, mask]
    return "".join(f"{byte:02X}" for byte in body + [-sum(body) % 256])


def lines():
    return [line(*site) for site in sites()]


if __name__ == "__main__":
    print("\n".join(lines()))
