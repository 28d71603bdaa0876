"""A stand-in for the program link_ask, for tests alone: it tries every ring, order and setting, so it is for small
sites. LINK_ASK_LIES makes it lie about one question, to see whether that is found out.

    link_ask QUESTION WORDS...
"""
import itertools
import os
import sys

from losses import Losses
from replay import Replay, plan_faults
from survey_text import ABSENT, REFUSALS, Fault, line_of, read_site, write_site
from testing import report_of

LIE = os.environ.get("LINK_ASK_LIES", "")


class Refusal(Exception):
    def __init__(self, number, of=""):
        super().__init__(f"{of}refused {number}: {REFUSALS[number]}")


def rings(links, first):
    """Every ring through a link, as units, its ends in front."""
    near = {}
    for a, b in links:
        near.setdefault(a, []).append(b)
        near.setdefault(b, []).append(a)
    a, b = links[first]

    def further(walk):
        for w in near[walk[-1]]:
            if w == a and len(walk) > 2:
                yield walk
            elif w not in walk:
                yield from further(walk + [w])

    return further([a, b])


def held(walk):
    return {frozenset((walk[k - 1], walk[k])) for k in range(len(walk))}


def ring(links, i, j):
    found = (walk for walk in rings(links, i) if frozenset(links[j]) in held(walk))
    return next(found, None)


def ask_ring(site, i, j):
    i, j = int(i), int(j)
    if max(i, j) >= len(site.links):
        raise Refusal(13)
    which = f"link {i}" if i == j else f"links {i} and {j}"
    walk = ring(site.links, i, j)
    if LIE == "ring" and walk:
        walk = walk[::-1]
    if LIE == "no ring" or not walk:
        return [f"no ring holds {which}"]
    return [f"a ring of {len(walk)} units holds {which}", *(f"unit {v}" for v in walk)]


def ask_lift(site, *words):
    pairs = [(int(a), int(b)) for a, b in zip(words[::2], words[1::2])]
    if len(pairs) > 256 or any(max(pair) >= site.units for pair in pairs):
        raise Refusal(19)
    links = set(map(frozenset, site.links))

    def orders(standing):
        """Every order, backwards: those that keep what they must so far, the least first."""
        if len(standing) == site.units:
            yield standing
        for v in range(site.units):
            joined = any(frozenset((v, w)) in links for w in standing)
            if v not in standing and (joined or (not standing and v == 0)):
                if all(b in standing for a, b in pairs if a == v):
                    yield from orders(standing + [v])

    found = next(orders([]), None)
    if not found:
        raise Refusal(20)
    found = found[:-2] + found[:-3:-1] if LIE == "lift" else found
    return [f"lift unit {v}" for v in reversed(found)]


def ask_doubtful(site, *words):
    i, j, *marks = map(int, words)
    if max(i, j, *marks) >= len(site.links):
        raise Refusal(13)
    found = set()
    for gone in itertools.product((False, True), repeat=len(marks)):
        away = {mark for mark, is_gone in zip(marks, gone) if is_gone}
        left = [k for k in range(len(site.links)) if k not in away]
        there = i in left and j in left
        found.add(there and bool(ring([site.links[k] for k in left], left.index(i), left.index(j))))
    verdict = "perhaps" if len(found) > 1 else "always" if True in found else "never"
    return ["never" if LIE == "doubtful" else verdict]


def ask_one_way(site):
    units = range(site.units)
    reach = {(v, v) for v in units} | set(site.links)
    for w, u, v in itertools.product(units, repeat=3):
        if (u, w) in reach and (w, v) in reach:
            reach.add((u, v))
    groups = [min(u for u in units if (u, v) in reach and (v, u) in reach) for v in units]
    # passes: labels are handed on link by link, until none changes
    links, numbers, passes = list(site.links), {}, 0
    while len(numbers) < site.units:
        passes += 1
        forward = handed_on(dict.fromkeys(units) | {v: v for v in units}, links)
        backward = handed_on({v: v if forward[v] == v else ABSENT for v in units}, [(b, a) for a, b in links])
        numbers |= {v: forward[v] for v in units if forward[v] == backward[v]}
        links = [(a, b) for a, b in links if (forward[a], backward[a]) == (forward[b], backward[b])]
    passes += LIE == "one-way"
    return [*(f"unit {v} group {group}" for v, group in enumerate(groups)), f"passes {passes}"]


def handed_on(label, links):
    changed = True
    while changed:
        changed = False
        for a, b in links:
            if label[a] < label[b]:
                label[b], changed = label[a], True
    return label


def ask_plan(site, *words):
    parents = [ABSENT if word == "none" else int(word) for word in words]
    if len(parents) != site.units:
        raise Refusal(17)
    losses = Losses(site)
    if list(plan_faults(site, losses.groups, parents)):
        raise Refusal(18)
    if losses.alone():
        raise Refusal(22)
    report = Replay(losses, parents).report()
    return report_of(report._replace(rounds=report.rounds + (LIE == "plan"))).decode().split()


def ask_change(site, *words):
    links = [(a, b, level) for (a, b), level in zip(site.links, site.levels)]
    words, change = list(words), 0
    while words:
        change += 1
        kind, a, b = words.pop(0), int(words.pop(0)), int(words.pop(0))
        there = [link for link in links if {a, b} == set(link[:2])]
        if kind == "add":
            level = int(words.pop(0))
            number = 6 if len(links) == 1024 else 16 if not -127 <= level <= 0 else 0
            number = number or (7 if max(a, b) >= site.units else 8 if a == b else 9 if there else 0)
            links.append((a, b, level))
        else:
            number = 7 if max(a, b) >= site.units else 8 if a == b else 0 if there else 21
            links = [link for link in links if link not in there]
        if number:
            raise Refusal(number, f"change {change} ")
    if {v for a, b, _ in links for v in (a, b)} != set(range(site.units)) and site.units > 1:
        raise Refusal(22)
    links = links[1:] if LIE == "change" else links
    changed = site._replace(links=[link[:2] for link in links], levels=[link[2] for link in links])
    return write_site(changed._replace(kinds=[3] * len(links))).decode().split()


def ask_lines(site):
    lines = []
    for status in Replay(Losses(site)).statuses():
        short = status.stage, *divmod(status.countdown + (LIE == "lines"), 256)
        lines.append(line_of(0x20, *short))
        lines.append(line_of(0x21, *short, *divmod(status.rounds, 256), *divmod(status.requests, 256)))
    return [line.decode().strip() for line in lines]


def ask_seats(*paths):
    left = []
    for path in paths:
        with open(path, "rb") as file:
            left.append([(s.stage, s.countdown) for s in Replay(Losses(read_site(file.read()))).statuses()][1:])
    lines, seat = [], 0
    while any(left):
        if left[seat]:
            stage, countdown = left[seat].pop(0)
            told = 7 - seat if LIE == "seats" else seat
            lines.append(f"tick {len(lines) + 1} seat {told} stage {stage} countdown {countdown}")
        seat = (seat + 1) % len(left)
    return lines


QUESTIONS = {
    "ring": ask_ring, "lift": ask_lift, "doubtful": ask_doubtful, "one-way": ask_one_way, "plan": ask_plan,
    "lines": ask_lines
}


def main(question, *words):
    try:
        if question == "seats":
            lines = ask_seats(*words)
        else:
            site = read_site(sys.stdin.buffer.read(), one_way=question == "one-way")
            work = QUESTIONS.get(question)
            lines = work(site, *words) if work else ask_change(site, question, *words)
    except Refusal as refusal:
        print(refusal)
        return 1
    except Fault as fault:
        print(f"refused {fault.number}: {REFUSALS[fault.number]}")
        return 1
    print("\n".join(lines))
    return 0


if __name__ == "__main__":
    sys.exit(main(*sys.argv[1:]))
