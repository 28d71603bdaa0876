#!/usr/bin/env python3
"""What check_removal must print: python3 tools/removal_counts.py > crates/check_removal/stdout

Draws the tables that check_removal reads, writes them to its data, and counts single points, lone links and labels in
ways of its own: rings are listed one by one on the small tables, and on all tables two links go together until the
removal of a unit parts them."""

from itertools import combinations, permutations
from pathlib import Path

SHAPES, TURNS = 20, 20
PARTS_IN_EACH_WAY, PATH_AND_ACROSS, TREE_AND_ACROSS, FEW, MANY, DENSE, NO_LINKS, FULL, FULL_IN_RUNS = range(11, 20)

# ---- the tables


def mixed(x):
    return ((x ^ (x >> 15)) % 2147483647) * 48271 % 2147483647


def below(seed, i, count):
    return mixed(mixed(mixed(seed) + i)) % count if count else 0


def add(links, a, b):
    if a is not None and len(links) < 1024:
        links.append((a, b))


def part(shape, links, seed, start, to):
    for v in range(start, to):
        at = v - start
        if at == 0 or shape > 7:
            continue
        one = {2: start, 3: v - 1 - below(seed, v, at), 4: v - 1 if at % 2 else None, 5: start}.get(shape, v - 1)
        two = {
            4: v - 2 if at >= 2 else None,
            5: v - 1 if at >= 2 else None,
            6: v - 3 if at % 3 == 0 else None,
            7: v - 3 if at % 4 == 3 else None,
        }.get(shape)
        last = v + 1 == to
        three = {1: start if last and at >= 2 else None, 5: start + 1 if last and at >= 3 else None}.get(shape)
        for other in one, two, three:
            add(links, other, v)


def row(shape, links, seed, units):
    at = 0
    while at < units:
        in_parts = 8 <= shape <= PARTS_IN_EACH_WAY
        to = min(units, at + 1 + below(seed, at, 13)) if in_parts else units
        way = shape - 8 if in_parts else 0
        if way == 3:
            way = below(seed ^ 1, at, 3)
        if way == 1 and at:
            add(links, below(seed ^ 2, at, at), at)
        start = at - 1 if way == 2 and at else at
        base = {PATH_AND_ACROSS: 0, FULL_IN_RUNS: 0, TREE_AND_ACROSS: 3, FULL: 1}.get(shape, shape)
        part(below(seed ^ 4, at, 9) if in_parts else base, links, seed ^ 8, start, to)
        at = to


def across(shape, links, seed, units):
    few = {PATH_AND_ACROSS: 2, TREE_AND_ACROSS: 8, FEW: units}
    tries = {**few, MANY: 400, DENSE: 1200, FULL: 2000, FULL_IN_RUNS: 4000}
    there = {frozenset(link) for link in links}
    for i in range(tries.get(shape, 0)):
        a, b = below(seed, i, units), below(seed ^ 1, i, units)
        if shape == FULL_IN_RUNS:
            b = a // 16 * 16 + b % 16
        if a != b and frozenset((a, b)) not in there and len(links) < 1024:
            add(links, a, b)
            there.add(frozenset((a, b)))


def shuffled(links, seed, units):
    factor = (257, 263, 269, 271, 277, 281, 283, 293)[below(seed, 1, 8)]
    shift = below(seed, 2, units)
    for i in range(len(links)):
        choice = below(seed ^ 1, i, 65535)
        a, b = ((v * factor + shift) % units for v in links[i])
        j = choice // 2 % (i + 1)
        links[i] = links[j]
        links[j] = (b, a) if choice % 2 else (a, b)


def large(shape, turn):
    seed = shape * 65536 + turn * 16 + 16
    most = 60 if shape == DENSE else 256
    if turn == 0 or shape >= FULL:
        units = most
    else:
        units = max(6, below(seed, 0, 46 if turn % 4 else most))
    links = []
    row(shape, links, seed, units)
    across(shape, links, seed ^ 2, units)
    shuffled(links, seed, units)
    return units, links


def small(units):
    pairs = list(combinations(range(units), 2))
    for number in range(1 << len(pairs)):
        yield units, [pair for i, pair in enumerate(pairs) if number >> i & 1]


# ---- the counts


def flooded(near, start, removed):
    """What is linked up with start when the units of another set are removed, as a set of bits."""
    reached = todo = 1 << start
    while todo:
        unit = todo & -todo
        todo ^= unit
        new = near[unit.bit_length() - 1] & ~reached & ~removed
        reached |= new
        todo |= new
    return reached


def groups(near, x):
    """The group of each unit without unit x."""
    found = [0] * len(near)
    for v in range(len(near)):
        if v != x and not found[v]:
            group = flooded(near, v, 1 << x)
            for u in range(v, len(near)):
                if group >> u & 1:
                    found[u] = group
    return found


def counted(units, links):
    near = [0] * units
    for a, b in links:
        near[a] |= 1 << b
        near[b] |= 1 << a
    classes = [0] * len(links)
    singles = 0
    for x in range(units):
        group = groups(near, x)
        singles += len({group[v] for v in range(units) if near[x] >> v & 1}) > 1
        keys = [(c, group[b if a == x else a]) for c, (a, b) in zip(classes, links)]
        numbers = {key: i for i, key in enumerate(keys)}
        classes = [numbers[key] for key in keys]
    lones = 0
    for a, b in links:
        near[a] ^= 1 << b
        near[b] ^= 1 << a
        lones += not flooded(near, a, 0) >> b & 1
        near[a] ^= 1 << b
        near[b] ^= 1 << a
    return singles, lones, len(set(classes))


def counted_by_rings(units, links):
    """The same from the definitions: every ring is listed, and every pair of units looked at."""
    linked = {frozenset(link) for link in links}
    rings = []
    for size in range(3, units + 1):
        for ring in permutations(range(units), size):
            held = {frozenset((ring[i - 1], ring[i])) for i in range(size)}
            if held <= linked:
                rings.append(held)

    def together(link, other):
        return other == link or any({frozenset(link), frozenset(other)} <= ring for ring in rings)

    labels = {min(j for j, other in enumerate(links) if together(link, other)) for link in links}
    lones = sum(not any(frozenset(link) in ring for ring in rings) for link in links)

    def linked_up(a, b, without):
        reached = {a}
        for _ in range(units):
            reached |= {v for link in linked if link & reached and without not in link for v in link}
        return b in reached

    def single(x):
        others = combinations([v for v in range(units) if v != x], 2)
        return any(linked_up(a, b, None) and not linked_up(a, b, x) for a, b in others)

    singles = sum(map(single, range(units)))
    return singles, lones, len(labels)


def stream(tables):
    """How many tables there are, and each: the unit count, how many links it has, each link with its ends in the high
    and the low byte."""
    lines = [[len(tables)]]
    for units, links in tables:
        lines += [units], [len(links), *(256 * a + b for a, b in links)]
    return "".join(" ".join(map(str, line)) + "\n" for line in lines)


def main():
    crate = Path(__file__).parent.parent / "crates/check_removal"
    args = (crate / "args").read_text().splitlines()
    files, names = args[::2], args[1::2]
    kinds = [list(small(units)) for units in range(1, 6)]
    for tables in kinds:
        for table in tables:
            assert counted(*table) == counted_by_rings(*table), table
    kinds += [[large(shape, turn) for turn in range(TURNS)] for shape in range(SHAPES)]
    assert len(kinds) == len(names)
    print("tables, units, links, single points, lone links, labels, differences:")
    totals = [0] * 7
    for file, name, tables in zip(files, names, kinds):
        (crate / "data" / file).write_text(stream(tables))
        found = [counted(*table) for table in tables]
        units, links = sum(units for units, _ in tables), sum(len(links) for _, links in tables)
        counts = [len(tables), units, links, *map(sum, zip(*found)), 0]
        totals = [a + b for a, b in zip(totals, counts)]
        print(*counts, name)
    print(*totals, "in all")


main()
