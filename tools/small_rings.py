#!/usr/bin/env python3
"""Every small site with all its rings, for the check programs of T-04 and T-08.

    small_rings.py rings DIR      streams for check_rings: every table of 2 to 5 units, every two positions
    small_rings.py doubtful DIR   streams for check_doubtful: every table of 2 to 4 units, all marks, every two
                                  positions

A table has every set of links in which each unit has one; the order of its links and of their ends is drawn from a
fixed seed. All rings are listed by trying every sequence of units, all settings by trying every set of doubtful links.
Writes NAME.in, and NAME.out with the lines that must be printed. Nothing of the product is used.
"""
import itertools
import os
import random
import sys

LIMIT = 60000  # bytes of a stream


def sites(most):
    """Every table of 2 to `most` units, as (unit count, links)."""
    draw = random.Random(4)
    for n in range(2, most + 1):
        pairs = list(itertools.combinations(range(n), 2))
        for chosen in range(1, 2 ** len(pairs)):
            links = [pair for i, pair in enumerate(pairs) if chosen >> i & 1]
            if {u for pair in links for u in pair} != set(range(n)):
                continue
            links = [pair if draw.random() < 0.5 else pair[::-1] for pair in links]
            draw.shuffle(links)
            yield n, links


def rings(n, links):
    """Every ring, as the set of the positions of its links: three or more different units, each linked to the next."""
    position = {frozenset(pair): j for j, pair in enumerate(links)}
    found = set()
    for size in range(3, n + 1):
        for way in itertools.permutations(range(n), size):
            steps = [frozenset((way[k], way[(k + 1) % size])) for k in range(size)]
            if all(step in position for step in steps):
                found.add(frozenset(position[step] for step in steps))
    return found


def ringed(all_rings, present, i, j):
    """Some ring of the links that are present holds both."""
    return any(i in ring and j in ring and ring <= present for ring in all_rings)


def table(n, links):
    words = [u for pair in links for u in pair]
    return f"{n}\n{len(words)} {' '.join(map(str, words))}\n{len(links)}{' -50' * len(links)}\n65535\n"


def shown():
    for n, links in sites(5):
        every, m = rings(n, links), len(links)
        asked = [(i, j) for i in range(m) for j in range(m)]
        case = table(n, links) + f"{len(asked)}\n" + ''.join(f"{i} {j} {n + (i + j) % 2}\n" for i, j in asked)
        yield case, ' '.join(str(int(ringed(every, set(range(m)), i, j))) for i, j in asked) + '\n'


def doubted():
    for n, links in sites(4):
        every, m = rings(n, links), len(links)
        asked = [(i, j) for i in range(m) for j in range(m)]
        for chosen in range(2 ** m):
            doubtful = [k for k in range(m) if chosen >> k & 1]
            marks = [(0 if k not in doubtful else 1 + 254 * (k % 2)) for k in range(m)]
            settings = [
                set(range(m)) - set(gone)
                for r in range(len(doubtful) + 1)
                for gone in itertools.combinations(doubtful, r)
            ]
            verdicts = []
            for i, j in asked:
                held = [ringed(every, setting, i, j) for setting in settings]
                verdicts.append(2 if all(held) else 1 if any(held) else 0)
            case = table(n, links) + f"{m} {' '.join(map(str, marks))}\n{len(asked)}\n"
            case += ''.join(f"{i} {j}\n" for i, j in asked)
            yield case, ' '.join(map(str, verdicts)) + '\n'


def write(cases, folder):
    streams, size = [[]], 0
    for case in cases:
        if LIMIT < size + len(case[0]):
            streams.append([])
            size = 0
        streams[-1].append(case)
        size += len(case[0])
    for k, stream in enumerate(streams):
        name = os.path.join(folder, f"small_{k:03d}")
        with open(name + '.in', 'w') as f:
            f.write(f"{len(stream)}\n" + ''.join(case for case, _ in stream))
        with open(name + '.out', 'w') as f:
            f.write(''.join(line for _, line in stream))


if __name__ == '__main__':
    write({'rings': shown, 'doubtful': doubted}[sys.argv[1]](), sys.argv[2])
