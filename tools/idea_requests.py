"""The drawings of docs/IDEA.md that show what is believed, leaps, the requests of document 02 and the two faces."""
import math

from idea_ink import BLUE, GREEN, GREY, INK, MINT, PALE, RED, Sheet


def believed():
    """What must be read and believed, and what is proved of it."""
    sheet = Sheet("What is believed, and what follows", 640, 226)
    sheet.box(12, 62, 120, 56, ["papers", "01 and 02"], PALE, RED, dash=True)
    sheet.box(226, 62, 150, 56, ["definitions", "step, answers"])
    sheet.box(470, 20, 158, 48, ["code by value"], "white", BLUE)
    sheet.box(470, 112, 158, 48, ["code on words, for C"], "white", BLUE)
    truth = ["rings, bridges, cut vertices", "what the finished labels say"]
    sheet.box(196, 168, 210, 46, truth, "white", GREEN, size=12)
    sheet.box(12, 168, 150, 46, ["logic, compiler,", "machine"], PALE, RED, dash=True, size=12)
    sheet.arrow((132, 90), (226, 90), RED, 2.5, True)
    sheet.text(180, 80, "read", 12, color=RED)
    sheet.arrow((470, 44), (376, 82), BLUE)
    sheet.arrow((470, 136), (376, 100), BLUE)
    sheet.text(424, 48, "equals", 12, color=BLUE)
    sheet.text(424, 142, "equals", 12, color=BLUE)
    sheet.arrow((301, 118), (301, 168), GREEN)
    sheet.text(311, 148, "come to", 12, "start", GREEN)
    sheet.text(549, 196, "dashed: believed", 12, color=RED)
    sheet.text(549, 212, "solid: proved", 12, color=INK)
    return sheet


def leap():
    """Values and waits on a path before and after a round of the least value."""
    sheet = Sheet("A value and a wait for each unit stay right after a round", 640, 176)
    values = [4, 2, 0, 5, 3, 6]
    final = min(values)
    waits = [abs(i - values.index(final)) for i in range(len(values))]
    for row in range(2):
        y = 46 + 78 * row
        sheet.text(14, y - 2, "before a round" if row == 0 else "after it", 13, "start", bold=True)
        sheet.text(14, y + 30, "rounds to wait", 12, "start", GREY)
        for i in range(len(values) - 1):
            sheet.line((160 + 62 * i, y), (160 + 62 * (i + 1), y))
        for i, (value, wait) in enumerate(zip(values, waits)):
            sheet.unit((160 + 62 * i, y), str(value), MINT if wait == 0 else "white")
            sheet.text(160 + 62 * i, y + 30, str(wait), 13, color=RED if wait else GREY)
        near = [values[max(i - 1, 0) : i + 2] for i in range(len(values))]
        values, waits = [min(some) for some in near], [max(wait - 1, 0) for wait in waits]
    for i, words in enumerate(["all end with 0;", "a wait is one more", "than a neighbour's"]):
        sheet.text(512, 66 + 18 * i, words, 12, "start")
    return sheet


def ears():
    """An order with an ear put in, and the ring that two walks along it give."""
    sheet = Sheet("An order of units, an ear put in, and a ring through two links", 640, 300)
    names, xs = ["a", "u", "x", "v", "y", "b"], [60, 150, 240, 400, 490, 580]
    at = dict(zip(names, [(x, 96) for x in xs]))
    links = [("a", "u", 0), ("u", "x", 0), ("x", "v", 0), ("v", "y", 0), ("y", "b", 0), ("a", "b", 38)]
    links += [("u", "v", 20)]
    for one, two, lift in links:
        sheet.bow(at[one], at[two], lift, INK, 2)
    ear = [(285, 150), (340, 150)]
    sheet.path([at["x"], *ear, at["y"]], RED, 2.5, True)
    for name, place in at.items():
        sheet.unit(place, name, PALE if name in "ab" else "white")
    for name, place in zip("pq", ear):
        sheet.unit(place, name, "white", RED)
    sheet.text(20, 150, "an ear: x, p, q, y", 12.5, "start", RED)
    said = "an order from a to b: each unit between has a linked one before it and one after it"
    sheet.text(20, 20, said, 12.5, "start")
    names = ["a", "u", "x", "p", "q", "v", "y", "b"]
    at = dict(zip(names, [(60 + 520 / 7 * i, 258) for i in range(8)]))
    links = [("a", "u", 0), ("u", "x", 0), ("x", "v", 22), ("v", "y", 0), ("y", "b", 0), ("a", "b", 40), ("u", "v", 30),
             ("x", "p", 0), ("p", "q", 0), ("q", "y", -22)]
    ring = {("a", "b"), ("p", "q"), ("q", "y"), ("y", "b"), ("x", "p"), ("u", "x"), ("a", "u")}
    for one, two, lift in sorted(links, key=lambda link: link[:2] in ring):
        bold = (one, two) in ring
        sheet.bow(at[one], at[two], lift, GREEN if bold else INK, 5 if bold else 2)
    for name, place in at.items():
        sheet.unit(place, name, PALE if name in "ab" else "white", RED if name in "pq" else INK)
    said = "the ear stands right after x; the ring through (a, b) and (p, q): up from q to b, down from p to a"
    sheet.text(20, 192, said, 12.5, "start")
    return sheet


def labels(units, links, start, forward):
    """Least labels handed on over the links, each from where it starts."""
    value = dict(start)
    for _ in units:
        for a, b in links:
            giver, taker = (a, b) if forward else (b, a)
            value[taker] = min(value[taker], value[giver])
    return value


def passes():
    """The passes of the min-label method on five units."""
    sheet = Sheet("The passes of the min-label method", 640, 214)
    units, links = range(5), [(0, 1), (1, 2), (2, 0), (2, 3), (3, 4), (4, 3)]
    shape = {0: (50, 60), 1: (50, 140), 2: (120, 100), 3: (190, 100), 4: (265, 100)}
    number, none = {}, 99
    for turn in range(2):
        f = labels(units, links, {v: v for v in units}, True)
        b = labels(units, links, {v: v if f[v] == v else none for v in units}, False)
        at = {v: (x + 330 * turn, y) for v, (x, y) in shape.items()}
        sheet.text(150 + 330 * turn, 22, f"pass {turn + 1}", 14, bold=True)
        for one, two in links:
            lift = {(3, 4): 10, (4, 3): -10}.get((one, two), 0)
            sheet.bow(at[one], at[two], lift, INK, 2, arrow=True, room=14)
        for v in units:
            marked = v not in number and f[v] == b[v]
            said = f"{f[v]}, {'none' if b[v] == none else b[v]}"
            done = v in number
            sheet.unit(at[v], str(v), MINT if marked else PALE if done else "white", GREY if done else INK)
            if not done:
                below = 30 if v != 0 else -20
                sheet.text(at[v][0], at[v][1] + below, said, 12, color=GREEN if marked else GREY)
        number.update({v: f[v] for v in units if v not in number and f[v] == b[v]})
        links = [(u, v) for u, v in links if f[u] == f[v] and b[u] == b[v] and f[u] != b[u]]
        if turn == 0:
            sheet.line((320, 40), (320, 170), GREY, 1)
    said = "beside a unit: the least that reaches it, the least leader that it reaches; equal: its number"
    sheet.text(320, 200, said, 12.5)
    return sheet


def seats():
    """Eight seats in a circle, and how far each that waits is from its turn."""
    sheet = Sheet("Eight seats and the turn", 560, 236)
    last, waiting = 2, {4, 7, 1}
    for i in range(8):
        angle = math.radians(90 - 45 * i)
        x, y = 130 + 84 * math.cos(angle), 118 - 84 * math.sin(angle)
        color, wide = (RED, 4) if i == last else (INK, 2)
        sheet.unit((x, y), str(i), MINT if i in waiting else PALE, color, wide)
    sheet.text(130, 114, "last", 12, color=RED)
    sheet.text(130, 130, f"served: {last}", 12, color=RED)
    sheet.text(270, 60, "seat that waits", 12, "start", bold=True)
    sheet.text(400, 60, "seats before it", 12, "start", bold=True)
    after, far = min(((i - last - 1) % 8, i) for i in waiting)[1], {i: (i - last - 1) % 8 for i in waiting}
    for row, i in enumerate(sorted(waiting, key=far.get)):
        sheet.text(300, 88 + 26 * row, str(i))
        left = (i - after - 1) % 8
        said = f"{far[i]}, so it is served" if i == after else f"{far[i]}, then {left}"
        sheet.text(430, 88 + 26 * row, said, 13, "start")
    sheet.text(270, 186, "A tick that serves another seat brings a waiting", 12, "start")
    sheet.text(270, 203, "one nearer by at least 1: 7 at most at first, so", 12, "start")
    sheet.text(270, 220, "its round comes within 8 ticks.", 12, "start")
    return sheet


def faces():
    """Both faces over one step."""
    sheet = Sheet("Two faces over one machine", 600, 250)
    for x, mark in ((110, ""), (400, "'")):
        sheet.box(x, 14, 110, 42, ["Survey" + mark], "white", BLUE)
        sheet.box(x, 104, 110, 42, ["State" + mark])
        sheet.box(x, 194, 110, 42, ["words" + mark], "white", BLUE)
        sheet.arrow((x + 55, 56), (x + 55, 104), GREY)
        sheet.arrow((x + 55, 194), (x + 55, 146), GREY)
        sheet.text(x + (40 if not mark else 70), 84, "of", 13, "end" if not mark else "start", GREY)
        sheet.text(x + (40 if not mark else 70), 174, "state_of", 13, "end" if not mark else "start", GREY)
    for y, words, color in ((35, "round, by value", BLUE), (125, "step", INK), (215, "round, on words", BLUE)):
        sheet.arrow((220, y), (400, y), color, 2.5)
        sheet.text(310, y - 9, words, 13, color=color)
    sheet.text(310, 84, "a contract: both ways are equal", 12, color=GREEN)
    sheet.text(310, 174, "a contract: both ways are equal", 12, color=GREEN)
    return sheet
