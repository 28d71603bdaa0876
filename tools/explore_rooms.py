"""The rooms of the house, and their dependencies as a drawing.

A crate's room is the first word of its name. Where a room would have to stand both below and above another, it is drawn
in parts, each as large as it can be, so that every line of the drawing goes upwards.
"""
import re
from html import escape

WIDE, HIGH, GAP, RISE, LANE = 126, 44, 16, 92, 22


def room_of(crate):
    return re.sub(r"\d+", "", crate.split("_")[0])


def reaches(edges, start, goal):
    """Whether a way leads from one part to another."""
    seen, ahead = set(), [start]
    while ahead:
        part = ahead.pop()
        if part == goal:
            return True
        if part not in seen:
            seen.add(part)
            ahead += edges.get(part, ())
    return False


def ordered(needs):
    """The crates so that each comes after those that it stands on."""
    found = {}

    def visit(crate):
        if crate not in found:
            for other in needs[crate]:
                visit(other)
            found[crate] = None

    for crate in needs:
        visit(crate)
    return list(found)


def parts(needs):
    """The part that each crate is drawn in, (room, number), and what the parts stand on."""
    home, count, edges = {}, {}, {}
    for crate in ordered(needs):
        room = room_of(crate)
        part = (room, count.setdefault(room, 1))
        below = {home[other] for other in needs[crate]} - {part}
        if any(reaches(edges, other, part) for other in below):
            count[room] += 1
            part = (room, count[room])
            below = {home[other] for other in needs[crate]}
        home[crate] = part
        edges.setdefault(part, set()).update(below)
    return home, edges


def levels(edges):
    found = {}

    def level(part):
        if part not in found:
            found[part] = 1 + max((level(other) for other in edges[part]), default=-1)
        return found[part]

    for part in edges:
        level(part)
    return found


def direct(edges):
    """The lines that no longer way stands for."""
    for part, below in edges.items():
        for other in below:
            if not any(reaches(edges, between, other) for between in below - {other}):
                yield part, other


def waypoints(edges, level):
    """Each line as the row of its points, one in each level that it passes, and which points are next to which."""
    lines = {}
    for part, other in sorted(direct(edges)):
        between = [(part, other, i) for i in range(level[other] + 1, level[part])]
        lines[part, other] = [other, *between, part]
    near = {}
    for points in lines.values():
        for one, two in zip(points, points[1:]):
            near.setdefault(one, []).append(two)
            near.setdefault(two, []).append(one)
    return lines, near


def width(point):
    return WIDE + GAP if len(point) == 2 else LANE


def laid(row, wide):
    """The middles of the points of a row, side by side in the middle of the sheet."""
    x = (wide - sum(map(width, row))) / 2
    for point in row:
        yield point, x + width(point) / 2
        x += width(point)


def arranged(edges, level):
    """The place of each part and of each point that a line passes: rows by level, neighbours near each other."""
    lines, near = waypoints(edges, level)
    rows = [[] for _ in range(max(level.values()) + 1)]
    for part in edges:
        rows[level[part]].append(part)
    for point in near:
        if len(point) == 3:
            rows[point[2]].append(point)
    wide = max(sum(map(width, row)) for row in rows) + GAP
    x = {point: at for row in rows for point, at in laid(row, wide)}
    for _ in range(12):
        for row in rows + rows[::-1]:
            row.sort(key=lambda p: (sum(x[q] for q in near.get(p, [p])) / len(near.get(p, [p])), str(p)))
            x.update(laid(row, wide))
    high = len(rows) * RISE
    place = {point: (x[point], high - (i + 0.5) * RISE) for i, row in enumerate(rows) for point in row}
    return place, lines, wide, high


def curve(points, place):
    """A line up through its points, upright between the boxes of a row."""
    steps = []
    for one, two in zip(points, points[1:]):
        (x, y), (a, b) = place[one], place[two]
        y, b = y - HIGH / 2, b + HIGH / 2
        middle = (y + b) / 2
        steps.append(f"{'L' if steps else 'M'}{x:.0f} {y:.0f}")
        steps.append(f"C{x:.0f} {middle:.0f} {a:.0f} {middle:.0f} {a:.0f} {b:.0f}")
    return "".join(steps)


def common(crates):
    """The words that the names of all crates begin with."""
    words = [re.sub(r"\d+", "", crate).split("_") for crate in crates]
    shared = [same[0] for same in zip(*words)]
    kept = next((i for i, same in enumerate(zip(*words)) if len(set(same)) > 1), len(shared))
    return "_".join(shared[:kept])


def box(part, crates, at):
    x, y = at
    said = f"{len(crates)} crate{'s' * (len(crates) != 1)}"
    title = crates[0] if len(crates) == 1 else common(crates)
    frame = f'x="{x - WIDE / 2:.0f}" y="{y - HIGH / 2:.0f}" width="{WIDE}" height="{HIGH}" rx="6"'
    return (f'<a href="#room/{name(part)}" data-room="{name(part)}"><title>{escape(", ".join(crates))}</title>'
            f'<rect {frame} fill="white" stroke="#1a1a1a" stroke-width="2"/>'
            f'<text x="{x:.0f}" y="{y - 2:.0f}" text-anchor="middle" font-weight="bold">{title}</text>'
            f'<text x="{x:.0f}" y="{y + 15:.0f}" text-anchor="middle" font-size="12">{said}</text></a>')


def drawing(needs):
    """The drawing as SVG, each room a link to its list of crates; and these lists."""
    home, edges = parts(needs)
    place, lines, wide, high = arranged(edges, levels(edges))
    crates = {part: [c for c in needs if home[c] == part] for part in edges}
    size = f'viewBox="0 0 {wide:.0f} {high:.0f}" style="min-width:{wide * 0.6:.0f}px;max-width:{wide:.0f}px"'
    drawn = [f'<svg {size} role="img" font-size="14"><title>The rooms, each above those that it stands on</title>']
    for (part, other), points in lines.items():
        ends = f'data-from="{name(part)}" data-to="{name(other)}"'
        drawn.append(f'<path d="{curve(points, place)}" fill="none" stroke="#777" stroke-width="1.5" {ends}/>')
    drawn += [box(part, crates[part], place[part]) for part in edges]
    return "\n".join(drawn + ["</svg>"]), {name(part): some for part, some in crates.items()}


def name(part):
    return part[0] if part[1] == 1 else f"{part[0]}.{part[1]}"
