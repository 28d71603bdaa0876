"""The drawings of docs/IDEA.md that show stages 3 to 8. What is shown as a figure is computed here."""
import math

from idea_ink import BLUE, GREEN, GREY, INK, MINT, PALE, RED, SKY, Sheet

# document 01's case G: the parent of each unit, unit 0 the root
PARENTS = {0: None, 3: 0, 1: 3, 2: 1, 4: 1}


def preorder(parents):
    """The units in the order of the tour: round each, its tree neighbours cyclically after its parent."""
    order = []

    def enter(v):
        order.append(v)
        children = sorted(c for c, p in parents.items() if p == v)
        above = parents[v] if parents[v] is not None else -1
        for c in [c for c in children if c > above] + [c for c in children if c < above]:
            enter(c)

    enter(0)
    return order


def depth(parents, v):
    return 0 if parents[v] is None else 1 + depth(parents, parents[v])


def size(parents, v):
    return 1 + sum(size(parents, c) for c, p in parents.items() if p == v)


def tour():
    """The tour of case G, each arc with its rank, and the numbers that give the ranks."""
    sheet = Sheet("The tour of a tree of five units, each arc with its rank", 620, 250)
    at = {0: (140, 28), 3: (140, 88), 1: (140, 148), 4: (70, 212), 2: (210, 212)}
    order = preorder(PARENTS)
    ranks = {}
    for v in order[1:]:
        into = 2 * order.index(v) - depth(PARENTS, v)
        ranks[v] = (into, into + 2 * size(PARENTS, v) - 1)
    for v, (into, out) in ranks.items():
        (x, y), (px, py) = at[v], at[PARENTS[v]]
        side = 9 if x == px else 8
        for rank, a, b, left in ((into, (px, py), (x, y), -side), (out, (x, y), (px, py), side)):
            sheet.arrow((a[0] + left, a[1]), (b[0] + left, b[1]), BLUE if rank == into else GREY, 2, room=15)
            beside = 24 if x == px else 20
            mx, my = (a[0] + b[0]) / 2, (a[1] + b[1]) / 2
            sheet.text(mx + math.copysign(beside, left), my + 5, str(rank), 13, color=BLUE if rank == into else GREY)
    for v, place in at.items():
        sheet.unit(place, str(v))
    columns = [300, 368, 436, 504, 572]
    for x, words in zip(columns, ["unit", "depth", "place", "size", "arcs in, out"]):
        sheet.text(x, 36, words, 12, bold=True)
    for i, v in enumerate(order):
        y = 66 + 30 * i
        arcs = "{}, {}".format(*ranks[v]) if v in ranks else "none"
        row = [v, depth(PARENTS, v), order.index(v), size(PARENTS, v), arcs]
        for x, words in zip(columns, row):
            sheet.text(x, y, str(words))
    sheet.text(436, 224, "arc in: 2 × place − depth", 12, color=BLUE)
    sheet.text(436, 242, "arc out: that + 2 × size − 1", 12, color=GREY)
    return sheet


def doubling():
    """A list of five objects (case H): jumps and sums after each round."""
    sheet = Sheet("List ranking by doubling of five objects", 620, 300)
    jumps, sums = [None, 0, 1, 2, 3], [1] * 5
    for k in range(4):
        asking = sum(j is not None for j in jumps)
        y = 52 + 74 * k
        said = "at first" if k == 0 else f"after {k} round{'s' * (k > 1)}"
        sheet.text(20, y + 5, said, 13, "start", bold=True)
        for a, j in enumerate(jumps):
            x = 170 + 70 * a
            if j is not None:
                sheet.bow((x, y), (170 + 70 * j, y), 10 + 5 * (a - j), BLUE, 2, arrow=True, room=15)
        for a, total in enumerate(sums):
            sheet.unit((170 + 70 * a, y), str(total), PALE if jumps[a] is None else "white")
        sheet.text(520, y + 5, f"{asking} request{'s' * (asking != 1)}", 13, "start")
        sums = [s if j is None else s + sums[j] for s, j in zip(sums, jumps)]
        jumps = [j if j is None else jumps[j] for j in jumps]
    return sheet


def segments():
    """An interval of places taken in by little and big, while segments double."""
    first, last, places = 3, 13, 16
    sheet = Sheet("The places 3 to 13 taken in by segments that double", 620, 214)
    little, big, taken = first, last, {last: "start"}
    left, wide = 130, 28
    for q in range(places):
        sheet.text(left + wide * (q + 0.5), 22, str(q), 11, color=GREY)
    for row in range(4):
        y = 34 + 44 * row
        fresh = {last} if row == 0 else set()
        if row:
            i = row - 1
            moves = little < big and little % 2 ** (i + 1) != 0, little < big and big % 2 ** (i + 1) != 0
            if moves[0]:
                fresh |= set(range(little, little + 2**i))
            if moves[1]:
                fresh |= set(range(big - 2**i, big))
            little, big = little + 2**i * moves[0], big - 2**i * moves[1]
        sheet.text(12, y + 18, "first round" if row == 0 else f"segments of {2 ** (row - 1)}", 13, "start")
        for q in range(places):
            fill = GREEN if q in fresh else "#b9ddd2" if q in taken else "white" if first <= q <= last else PALE
            place = f'x="{left + wide * q}" y="{y}" width="{wide}" height="26"'
            sheet.put(f'<rect {place} fill="{fill}" stroke="{GREY}" stroke-width="1"/>')
        taken.update(dict.fromkeys(fresh, "taken"))
        for x, words in ((little, "little"), (big, "big")):
            at = left + wide * x
            sheet.line((at, y - 3), (at, y + 29), RED, 3)
            if little != big or words == "little":
                sheet.text(at, y + 40, words if little != big else "little = big", 11, color=RED)
    return sheet


def joins():
    """The three cases of the auxiliary graph."""
    sheet = Sheet("The three cases: which tree links are joined", 640, 236)
    for x, words in ((100, "case 1"), (320, "case 2"), (540, "case 3")):
        sheet.text(x, 20, words, 14, bold=True)

    def tree(lines, marked, units, off):
        for a, b in lines:
            bold = (a, b) in marked
            sheet.line(units[a], units[b], GREEN if bold else INK, 5 if bold else 2)
        alone = len(marked) == 1
        sheet.line(units[off[0]], units[off[1]], GREEN if alone else RED, 5 if alone else 2.5, True)
        for name, place in units.items():
            sheet.unit(place, name)

    tree([("r", "p"), ("p", "u"), ("r", "v")], {("p", "u")},
         {"r": (100, 46), "p": (60, 100), "u": (60, 160), "v": (150, 120)}, ("u", "v"))
    tree([("r", "p"), ("p", "u"), ("r", "q"), ("q", "v")], {("p", "u"), ("q", "v")},
         {"r": (320, 46), "p": (275, 100), "u": (275, 160), "q": (365, 100), "v": (365, 160)}, ("u", "v"))
    tree([("r", "g"), ("g", "p"), ("p", "u"), ("u", "y"), ("r", "x")], {("g", "p"), ("p", "u")},
         {"r": (560, 46), "g": (515, 76), "p": (515, 118), "u": (515, 160), "y": (515, 202), "x": (610, 110)},
         ("y", "x"))
    sheet.text(100, 206, "the link (u, v) has", 12)
    sheet.text(100, 222, "the class of u", 12)
    sheet.text(320, 206, "u and v are joined", 12)
    sheet.text(320, 222, "across (u, v)", 12)
    sheet.text(588, 180, "u joins p:", 12)
    sheet.text(588, 196, "x is not", 12)
    sheet.text(588, 212, "below p", 12)
    return sheet


def round_about(center, radius, angles):
    turns = [math.radians(t) for t in angles]
    return [(center[0] + radius * math.cos(t), center[1] - radius * math.sin(t)) for t in turns]


def splice():
    """Two rings with a common link, and the ring through the other two."""
    sheet = Sheet("Two rings spliced into one", 600, 240)
    left = round_about((190, 112), 82, [45, 90, 135, 180, 225, 270, 315])
    right = round_about((306, 112), 82, [90, 45, 0, -45, -90])
    t, s = left[0], left[-1]
    middle = [(248, 88), (248, 136)]
    sheet.path([t, *left[1:]], GREEN, 5)
    sheet.path([t, *right, s], GREEN, 5)
    sheet.path([t, *middle, s], INK, 2)
    for place in left + right + middle:
        sheet.unit(place, "")
    sheet.unit(t, "t", "white", GREEN, 3)
    sheet.unit(s, "s", "white", GREEN, 3)

    def named(a, b, words, dx, dy):
        sheet.text((a[0] + b[0]) / 2 + dx, (a[1] + b[1]) / 2 + dy, words, 15, bold=True)

    named(left[3], left[4], "e", -12, 8)
    named(middle[0], middle[1], "f", -14, 5)
    named(right[2], right[3], "g", 14, 8)
    sheet.text(150, 222, "R holds e and f", 13)
    sheet.text(340, 222, "Q holds f and g", 13)
    for i, words in enumerate(["from g both ways along Q", "to the first units on R:", "s and t. This ear and the",
                               "arc of R that has e make", "a ring with e and g."]):
        sheet.text(424, 70 + 20 * i, words, 12.5, "start")
    return sheet


def sides():
    """The classes of all units as seen from one unit."""
    sheet = Sheet("The classes of the other units, seen from b", 640, 280)
    b = (250, 118)
    below = [((90, 176), BLUE, "t"), ((190, 176), BLUE, "s"), ((370, 176), GREEN, "w")]
    cloud = f'fill="{MINT}" stroke="{GREEN}" stroke-width="2"'
    sheet.put(f'<ellipse cx="250" cy="46" rx="150" ry="30" {cloud}/>')
    sheet.text(250, 40, "beside b: not below it", 12)
    sheet.text(250, 57, "class of b", 12, color=GREEN, bold=True)
    sheet.line(b, (250, 77), GREEN, 4)
    for (x, y), color, name in below:
        sheet.line(b, (x, y), color, 4)
        pale = SKY if color == BLUE else MINT
        corners = f"{x},{y} {x - 46},{y + 84} {x + 46},{y + 84}"
        sheet.put(f'<polygon points="{corners}" fill="{pale}" stroke="{color}" stroke-width="2"/>')
    for (x, y), color, name in below:
        sheet.text(x, y + 76, f"class of {name}", 11.5, color=color, bold=True)
        sheet.unit((x, y), name)
    sheet.unit(b, "b", PALE)
    sheet.line((104, 226), (176, 226), RED, 3, True)
    sheet.line((396, 236), (392, 54), RED, 3, True)
    for place in ((104, 226), (176, 226), (396, 236), (392, 54)):
        sheet.put(f'<circle cx="{place[0]}" cy="{place[1]}" r="5" fill="{INK}"/>')
    notes = ["A link that does not touch b", "joins units of one class:", "",
             "below t and below s: case 2, and", "case 3 all the way up to t and s;", "",
             "from below w to beside b: case 3."]
    for i, words in enumerate(notes):
        sheet.text(430, 118 + 20 * i, words, 12, "start")
    return sheet
