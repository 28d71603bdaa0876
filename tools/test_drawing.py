"""Tests of the drawings, on all survey files of the repository and on made road sites: python3 tools/test_drawing.py

What a drawing shows is read back from its text and measured here anew. With LINK_SURVEY_ALL set, every large site is
drawn in full, else one of each kind of the repository.
"""
import functools
import glob
import math
import os
import random
import re
import unittest
import xml.etree.ElementTree as ElementTree

import block_drawing
import blocks
import drawing
import ink
import routes
from answers import Marks
from limits import Limits
from losses import Losses
from plain_text import read_text
from proposals import proposed
from survey_text import Fault, Site, read_site

ROOT = os.path.dirname(os.path.dirname(os.path.abspath(__file__)))
VECTORS = os.path.join(ROOT, "crates", "check_vectors", "data")
SVG = "{http://www.w3.org/2000/svg}"
SHEET = 190, 277  # mm, A4 without its margins
ROADS = 200


def contents(path):
    with open(path, "rb") as file:
        return file.read()


@functools.cache
def losses_of(units, links):
    return Losses(Site(units, list(links), [-127] * len(links)))


def made(units, links):
    """The losses of a site; links may stand several times."""
    once = dict.fromkeys((min(pair), max(pair)) for pair in links)
    return losses_of(units, tuple(once))


@functools.cache
def repository_sites():
    """Every survey file of the repository that is accepted, each site once: name, units, links."""
    found = {}
    for path in sorted(
        glob.glob(os.path.join(ROOT, "crates", "*", "data", "*")) + glob.glob(os.path.join(ROOT, "examples", "*.txt"))
    ):
        try:
            site = read_site(contents(path))
        except Fault:
            continue
        found.setdefault((site.units, tuple(site.links)), os.path.basename(path))
    return sorted((name, *site) for site, name in found.items())


def road_site(seed):
    """Roads with links to the next unit and the next but one, side roads, rings, and some links across."""
    pick = random.Random(seed)
    units = pick.randint(5, 60)
    names = list(range(units))
    if pick.random() < 0.3:
        pick.shuffle(names)
    roads, links = [], []
    while sum(map(len, roads)) < units:
        start = sum(map(len, roads))
        road = list(range(start, min(units, start + pick.randint(3, 25))))
        kind = pick.choice(["chain", "both", "both", "some", "ring"])
        for i, v in enumerate(road):
            if i + 1 < len(road) and pick.random() < 0.97:
                links.append((v, road[i + 1]))
            if i + 2 < len(road) and (kind == "both" or kind == "some" and pick.random() < 0.5):
                links.append((v, road[i + 2]))
        if kind == "ring" and len(road) > 2:
            links.append((road[0], road[-1]))
        if roads and pick.random() < 0.9:
            links += [(pick.choice(road[:2]), pick.choice(pick.choice(roads))) for _ in range(pick.choice([1, 1, 2]))]
        roads.append(road)
    links += [pick.sample(range(units), 2) for _ in range(pick.choice([0, 0, 1, 2, units // 10]))]
    return made(units, [(names[a], names[b]) for a, b in links])


@functools.cache
def small_drawings():
    """(name, losses, drawing) of every site of up to 60 units, those of the repository and the made ones."""
    sites = [(name, losses_of(units, links)) for name, units, links in repository_sites() if units <= 60]
    sites += [(f"road {seed}", road_site(seed)) for seed in range(ROADS)]
    return [(name, losses, ElementTree.fromstring(drawing.svg_of(losses))) for name, losses in sites]


# ---- reading a drawing


def classed(root, kind):
    """The groups whose class ends in this, in their order."""
    return [g for g in root.iter(SVG + "g") if (g.get("class") or "").split(" ")[-1:] == [kind]]


def circles(root):
    """Centre and radius of each unit, its ring and the line around it included."""
    found = {}
    for g in classed(root, "unit"):
        rounds = g.findall(SVG + "circle")
        radius = max(float(c.get("r")) + float(c.get("stroke-width", 0)) / 2 for c in rounds)
        found[int(g.get("data-unit"))] = (float(rounds[0].get("cx")), float(rounds[0].get("cy")), radius)
    return found


def points_of(d, apart=4.0):
    """Points along a path of straight lines and bows, close together."""
    points = []
    for letter, body in re.findall(r"([MLQ])([^MLQ]*)", d):
        n = [float(k) for k in body.split()]
        if letter == "M":
            points.append((n[0], n[1]))
            continue
        (ax, ay), (bx, by) = points[-1], n[-2:]
        cx, cy = n[:2] if letter == "Q" else ((ax + bx) / 2, (ay + by) / 2)
        steps = int((math.hypot(cx - ax, cy - ay) + math.hypot(bx - cx, by - cy)) / apart) + 1
        for i in range(1, steps + 1):
            t = i / steps
            points.append((
                (1 - t) ** 2 * ax + 2 * t * (1 - t) * cx + t * t * bx,
                (1 - t) ** 2 * ay + 2 * t * (1 - t) * cy + t * t * by,
            ))
    return points


def link_paths(root):
    """The path of each link and half its width."""
    found = {}
    for g in classed(root, "link"):
        for path in g.findall(SVG + "path"):
            if path.get("class") != "hit":
                wide = max(found.get(int(g.get("data-link")), ("", 0))[1], float(path.get("stroke-width")) / 2)
                found[int(g.get("data-link"))] = (path.get("d"), wide)
    return found


def lies(losses, root):
    """Where a link touches the circle of a unit that is no end of it, or fails to join its ends."""
    units = circles(root)
    cell = 50.0
    grid = {}
    for v, (x, y, _) in units.items():
        for i in -1, 0, 1:
            for k in -1, 0, 1:
                grid.setdefault((int(x // cell) + i, int(y // cell) + k), []).append(v)
    paths = link_paths(root)
    for j, (a, b) in enumerate(losses.site.links):
        d, half = paths[j]
        points = points_of(d)
        for v, (x, y) in (a, points[0]), (b, points[-1]):
            if math.hypot(units[v][0] - x, units[v][1] - y) > 0.2:
                yield f"link {j} does not end at {v}"
        for x, y in points:
            for v in grid.get((int(x // cell), int(y // cell)), ()):
                if v != a and v != b and math.hypot(units[v][0] - x, units[v][1] - y) < units[v][2] + half:
                    yield f"link {j} ({a}-{b}) passes unit {v} at {math.hypot(units[v][0] - x, units[v][1] - y):.1f}"
                    break


def view(root):
    return [float(k) for k in root.get("viewBox").split()]


def digit_heights(root):
    """The heights in mm of all digits of a drawing that is printed as large as a sheet of A4 allows, upright or
    across."""
    _, _, wide, high = view(root)
    mm = max(min(SHEET[0] / wide, SHEET[1] / high), min(SHEET[1] / wide, SHEET[0] / high))
    sizes = {
        float(text.get("font-size") or root.get("font-size"))
        for text in root.iter(SVG + "text")
        if re.search(r"\d", "".join(text.itertext()))
    }
    return [size * 0.72 * mm for size in sizes]


def on_each(drawings):
    """A test of each of these drawings."""

    def of(test):
        @functools.wraps(test)
        def run(self):
            for name, losses, root in drawings():
                with self.subTest(name):
                    test(self, losses, root)

        return run

    return of


class Small(unittest.TestCase):
    """Sites of up to 60 units."""

    def test_there_are_sites(self):
        self.assertGreater(len(small_drawings()), ROADS + 90)
        self.assertGreater(sum(losses.site.units > 50 for _, losses, _ in small_drawings()), 20)

    @on_each(small_drawings)
    def test_no_link_through_a_stranger(self, losses, root):
        self.assertEqual(list(lies(losses, root)), [])

    @on_each(small_drawings)
    def test_units_stand_apart_and_on_the_page(self, losses, root):
        left, top, wide, high = view(root)
        units = list(circles(root).values())
        self.assertEqual(len(units), losses.site.units)
        for i, (x, y, r) in enumerate(units):
            self.assertTrue(left + r < x < left + wide - r and top + r < y < top + high - r)
            for px, py, pr in units[:i]:
                self.assertGreater(math.hypot(x - px, y - py), r + pr + 4)

    @on_each(small_drawings)
    def test_digits_are_legible(self, _, root):
        self.assertGreaterEqual(min(digit_heights(root)), 1.8)

    @on_each(small_drawings)
    def test_a_sheet_holds_it(self, _, root):
        size = sorted(float(root.get(side).removesuffix("mm")) for side in ("width", "height"))
        self.assertTrue(size[0] <= 190.1 and size[1] <= 277.1, size)

    @on_each(small_drawings)
    def test_weak_places_are_marked_and_drawn_last(self, losses, root):
        kinds = [g.get("class") for g in root.iter(SVG + "g") if g.get("data-unit") or g.get("data-link")]
        self.assertEqual(kinds.count("single unit"), len(losses.unit_parts))
        self.assertEqual(kinds.count("lone link"), len(losses.link_parts))
        self.assertEqual(kinds.count("link"), len(losses.site.links) - len(losses.link_parts))
        self.assertEqual(
            {int(g.get("data-unit")) for g in classed(root, "unit") if "single" in g.get("class")},
            set(losses.unit_parts),
        )
        order = {"link": 0, "lone link": 1, "unit": 2, "deaf unit": 2, "single unit": 3}
        self.assertEqual([order[k] for k in kinds], sorted(order[k] for k in kinds))
        for g in classed(root, "link"):
            dashed = any(path.get("stroke-dasharray") for path in g.findall(SVG + "path"))
            self.assertEqual(dashed, int(g.get("data-link")) in losses.link_parts)

    @on_each(small_drawings)
    def test_pieces_are_loud(self, losses, root):
        deaf = [part[0] for part in losses.groups if len(part) == 1] if losses.site.units > 1 else []
        groups = [part for part in losses.groups if len(part) > 1]
        said = " ".join("".join(g.itertext()) for g in classed(root, "pieces"))
        self.assertEqual("NOBODY" in said, bool(deaf))
        self.assertEqual(f"{len(groups)} SEPARATE GROUPS" in said, len(groups) > 1)
        self.assertEqual(
            {int(g.get("data-unit")) for g in classed(root, "unit") if "deaf" in g.get("class")}, set(deaf)
        )
        units = circles(root)
        frames = []
        for g in classed(root, "group") + classed(root, "deaf"):
            box = g.find(SVG + "rect")
            x, y, w, h = (float(box.get(k)) for k in ("x", "y", "width", "height"))
            frames.append(
                sorted(v for v, (ux, uy, r) in units.items() if x + r < ux < x + w - r and y + r < uy < y + h - r)
            )
        wanted = groups + [sorted(deaf)] * bool(deaf) if len(losses.groups) > 1 else []
        self.assertEqual(sorted(frames), sorted(wanted))

    def test_sets_that_meet_differ(self):
        """In their line, whatever their colour, as long as there are lines enough."""
        met = 0
        for _, losses, root in small_drawings():
            looks, touching = {}, {}
            for g in classed(root, "link"):
                j = int(g.get("data-link"))
                if j not in losses.link_parts:
                    looks[losses.labels[j]] = tuple(
                        p.get("stroke-width") for p in g.findall(SVG + "path") if not p.get("class")
                    )
                    for v in losses.site.links[j]:
                        touching.setdefault(v, set()).add(losses.labels[j])
            for labels in touching.values():
                if 1 < len(labels) <= 3:
                    met += 1
                    self.assertEqual(len({looks[label] for label in labels}), len(labels))
        self.assertGreater(met, 50)

    @on_each(small_drawings)
    def test_numbers_of_links(self, losses, root):
        """Every lone link has its number; those of other links stand where they cover neither a unit nor each other."""
        written = {int(text.get("data-of")): text for text in root.iter(SVG + "text") if text.get("data-of")}
        self.assertTrue(set(losses.link_parts) <= set(written))
        for j, text in written.items():
            self.assertEqual(text.text.split()[0], str(j))
        places = [
            (float(t.get("x")), float(t.get("y")), len(t.text))
            for j, t in written.items()
            if j not in losses.link_parts
        ]
        for i, (x, y, n) in enumerate(places):
            for px, py, pn in places[:i]:
                self.assertTrue(abs(x - px) > 3.5 * (n + pn) or abs(y - py) > 11)
            for ux, uy, r in circles(root).values():
                self.assertGreater(math.hypot(ux - x, uy - y + 5), 15)

    def test_the_same_each_time(self):
        for seed in range(0, ROADS, 20):
            losses = road_site(seed)
            again = Losses(losses.site)
            self.assertEqual(drawing.svg_of(losses), drawing.svg_of(again))


class Reports(unittest.TestCase):
    def test_marks_of_the_survey(self):
        """The marks of the drawing are those of the stored report."""
        for path in sorted(glob.glob(os.path.join(VECTORS, "?????_v_*.in"))):
            site = read_site(contents(path))
            if site.units > 60:
                continue
            with self.subTest(os.path.basename(path)):
                report = contents(path[:-3] + ".out").split()
                singles = {int(line[2:6], 16) for line in report if line.startswith(b"12") and line[18:20] == b"01"}
                lones = {int(line[2:6], 16) for line in report if line.startswith(b"13") and line[10:12] == b"01"}
                root = ElementTree.fromstring(drawing.svg_of(losses_of(site.units, tuple(site.links))))
                self.assertEqual(
                    {int(g.get("data-unit")) for g in classed(root, "unit") if "single" in g.get("class")}, singles
                )
                self.assertEqual(
                    {int(g.get("data-link")) for g in classed(root, "link") if "lone" in g.get("class")}, lones
                )

    def test_levels_and_names(self):
        losses = Losses(Site(4, [(0, 1), (1, 2), (0, 2), (2, 3)], [-61, -127, 0, -127]))
        svg = drawing.svg_of(losses, {3: "head <N3>"})
        for title in "0 (0-1), -61 dBm: backed up", "1 (1-2): backed up", "2 (0-2), 0 dBm: backed up", "3 (2-3): lone":
            self.assertIn(f"<title>link {title}</title>", svg)
        self.assertIn("<title>unit 3 (head &lt;N3&gt;): no single point</title>", svg)
        self.assertIn("head <N3>", "".join(ElementTree.fromstring(svg).itertext()))

    def test_pictures_in_the_documents(self):
        for case in "case-b", "case-e":
            losses = Losses(read_site(contents(os.path.join(ROOT, "examples", case + ".txt"))))
            kept = contents(os.path.join(ROOT, "docs", "img", case + ".svg")).decode()
            self.assertEqual(drawing.svg_of(losses), kept)
        site, names = read_text(contents(os.path.join(ROOT, "examples", "road.txt")))
        losses = Losses(site)
        kept = contents(os.path.join(ROOT, "docs", "img", "road-spare.svg")).decode()
        self.assertEqual(drawing.svg_of(losses, names, found=proposed(losses, 1, Limits(), Losses)), kept)
        site, names = read_text(contents(os.path.join(ROOT, "examples", "road-spare.txt")))
        kept = contents(os.path.join(ROOT, "docs", "img", "road-ring.svg")).decode()
        marks = Marks([0, 1, 2, 3, 4, 7, 8, 9], [7, 8, 9, 6, 5, 4, 3, 2, 1, 0])
        self.assertEqual(drawing.svg_of(Losses(site), names, marks=marks), kept)


# ---- colours


def channels(color):
    return [int(color[i : i + 2], 16) / 255 for i in (1, 3, 5)]


def grey(color):
    return sum(k * c for k, c in zip((0.299, 0.587, 0.114), channels(color)))


def seen_by(color, matrix):
    """A colour as an eye without one kind of cone sees it (Machado, Oliveira and Fernandes, 2009)."""
    linear = [c / 12.92 if c <= 0.04045 else ((c + 0.055) / 1.055) ** 2.4 for c in channels(color)]
    return [min(1, max(0, sum(k * c for k, c in zip(row, linear)))) for row in matrix]


def lab(linear):
    x, y, z = (
        sum(k * c for k, c in zip(row, linear)) / white
        for row, white in zip(
            ((0.4124, 0.3576, 0.1805), (0.2126, 0.7152, 0.0722), (0.0193, 0.1192, 0.9505)), (0.9505, 1.0, 1.089))
    )
    fx, fy, fz = (k ** (1 / 3) if k > 0.008856 else 7.787 * k + 16 / 116 for k in (x, y, z))
    return 116 * fy - 16, 500 * (fx - fy), 200 * (fy - fz)


EYES = {
    "all cones": ((1, 0, 0), (0, 1, 0), (0, 0, 1)),
    "no red": ((0.152286, 1.052583, -0.204868), (0.114503, 0.786281, 0.099216), (-0.003882, -0.048116, 1.051998)),
    "no green": ((0.367322, 0.860646, -0.227968), (0.280085, 0.672501, 0.047413), (-0.011820, 0.042940, 0.968881)),
    "no blue": ((1.255528, -0.076749, -0.178779), (-0.078411, 0.930809, 0.147602), (0.004733, 0.691367, 0.303900)),
}


class Palette(unittest.TestCase):
    def test_every_eye(self):
        shown = [ink.WEAK, *ink.COLORS, "#ffffff"]
        for eye, matrix in EYES.items():
            for i, a in enumerate(shown):
                for b in shown[:i]:
                    with self.subTest(f"{eye}: {a} {b}"):
                        self.assertGreater(math.dist(lab(seen_by(a, matrix)), lab(seen_by(b, matrix))), 13)

    def test_grey_print(self):
        """Weak is darker than backed up, and all is darker than paper; what grey cannot tell, the line tells."""
        self.assertLess(grey(ink.WEAK), 0.3)
        for color in ink.COLORS:
            self.assertGreater(grey(color), grey(ink.WEAK) + 0.12)
            self.assertLess(grey(color), 0.75)
        self.assertEqual(len(set(ink.LINES)), len(ink.LINES))
        for i, (wide, core) in enumerate(ink.LINES):
            for other, core2 in ink.LINES[:i]:
                self.assertTrue(abs(wide - other) >= 1 and (bool(core) != bool(core2) or abs(wide - other) >= 1.3))
        self.assertTrue(ink.DASH)
        self.assertNotEqual(ink.DASH, ink.DOTS)

    def test_kinds_of_units_differ_in_grey(self):
        looks = []
        for kind in "plain", "single", "deaf":
            rounds = re.findall(r'<circle[^>]* r="([\d.]+)" fill="(\w+|#\w+)"', ink.disc(0, 0, 1, kind))
            dotted = "stroke-dasharray" in ink.disc(0, 0, 1, kind)
            looks.append((len(rounds), rounds[-1][1], dotted))
        self.assertEqual(len(set(looks)), 3)
        fills = [grey("#ffffff" if fill == "white" else fill) for _, fill, _ in looks]
        self.assertGreater(fills[0] - fills[1], 0.6)


# ---- units keep their places


class Before(unittest.TestCase):
    def changed(self, seed):
        """A road site, and the same with spares, new links and one link gone."""
        pick = random.Random(seed)
        old = road_site(seed)
        units, links = old.site.units, list(old.site.links)
        if links:
            links.pop(pick.randrange(len(links)))
        spares = pick.randint(0, 3)
        for v in range(units, units + spares):
            links += [(v, w) for w in pick.sample(range(units), min(units, pick.randint(1, 4)))]
        links += [pick.sample(range(units), 2) for _ in range(3)]
        return old, made(units + spares, links)

    def test_places_kept(self):
        for seed in range(40):
            old, new = self.changed(seed)
            with self.subTest(seed):
                first, second = (
                    ElementTree.fromstring(svg)
                    for svg in (drawing.svg_of(old), drawing.svg_of(new, before=old, full=True))
                )
                places, kept = circles(first), circles(second)
                self.assertEqual({v: p[:2] for v, p in places.items()}, {v: kept[v][:2] for v in places})
                self.assertEqual(list(lies(new, second)), [])
                self.assertEqual(len(kept), new.site.units)
                for v, (x, y, r) in kept.items():
                    left, top, wide, high = view(second)
                    self.assertTrue(left + r < x < left + wide - r and top + r < y < top + high - r)

    def test_spares_beside_a_rim(self):
        """Dense sites and stars, whose units stand in a circle, with a spare outside that hears units all around,
        the hub too."""
        pick = random.Random(2)
        for units in 12, 30, 59:
            dense = [(a, b) for a in range(units) for b in range(a) if pick.random() < 6 / units + 0.2]
            for links in dense, [(0, v) for v in range(1, units)], [(0, v) for v in range(1, units)] + [
                (v, v + 1) for v in range(1, units - 1)
            ]:
                old = made(units, links)
                new = made(units + 1, links + [(units, v) for v in (0, 1, units // 4, units // 2, units - 2)])
                with self.subTest((units, len(links))):
                    first, second = (
                        ElementTree.fromstring(svg) for svg in (drawing.svg_of(old), drawing.svg_of(new, before=old))
                    )
                    places, kept = circles(first), circles(second)
                    self.assertEqual({v: p[:2] for v, p in places.items()}, {v: kept[v][:2] for v in places})
                    self.assertEqual(list(lies(new, second)), [])

    def test_a_group_that_fell_apart_is_told(self):
        old = made(12, [(i, i + 1) for i in range(11)])
        new = made(12, [(i, i + 1) for i in range(11) if i not in (3, 10)])
        root = ElementTree.fromstring(drawing.svg_of(new, before=old))
        said = "".join(root.itertext())
        self.assertIn("2 SEPARATE GROUPS", said)
        self.assertIn("1 UNIT HEARS NOBODY: 11", said)


# ---- the block tree


def special_sites():
    """Sites of many weak places."""
    pick = random.Random(8)
    yield "triangles in a row", made(
        255, [e for i in range(0, 254, 2) for e in ((i, i + 1), (i + 1, i + 2), (i, i + 2))]
    )
    yield "triangles at a point", made(255, [e for i in range(1, 255, 2) for e in ((0, i), (i, i + 1), (0, i + 1))])
    yield "star", made(256, [(0, i) for i in range(1, 256)])
    yield "path", made(256, [(i, i + 1) for i in range(255)])
    yield "legs of two", made(255, [e for i in range(1, 255, 2) for e in ((0, i), (i, i + 1))])
    yield "comb", made(256, [(i, i + 1) for i in range(127)] + [(i, 128 + i) for i in range(128)])
    yield "halving", made(255, [((i - 1) // 2, i) for i in range(1, 255)])
    yield "unlinked", made(256, [])
    yield "pairs", made(256, [(i, i + 1) for i in range(0, 256, 2)])
    yield "grown at random", made(256, [(i, pick.randrange(i)) for i in range(1, 256)])
    yield "a long road", made(
        256,
        [(i, pick.randrange(max(0, i - 6), i)) for i in range(1, 250)]
        + [(pick.randrange(i), i) for i in range(5, 200, 9)],
    )
    roads = [(i, i + 1) for i in range(100)] + [(i, i + 2) for i in range(20, 60)] + [
        (200 + i, 201 + i) for i in range(20)
    ]
    yield "pieces", made(230, roads + [(pick.randrange(100), 100 + i) for i in range(60)])


@functools.cache
def large_drawings():
    sites = [(name, losses_of(units, links)) for name, units, links in repository_sites() if units > 60]
    sites += special_sites()
    return [(name, losses, ElementTree.fromstring(block_drawing.svg_of(losses))) for name, losses in sites]


def numbers_in(said):
    """The units that words tell: 3, 5 to 9, 12."""
    found = []
    for a, b in re.findall(r"(\d+)(?: to (\d+))?", said):
        found += range(int(a), int(b or a) + 1)
    return found


def chain_in(said):
    """The units along a chain: 3 - 4 - … - 43."""
    units = []
    for word in said.split(" - "):
        if word == "…":
            units.append(None)
            continue
        v = int(word)
        if units and units[-1] is None:
            units.pop()
            step = 1 if v > units[-1] else -1
            units += range(units[-1] + step, v, step)
        units.append(v)
    return units


def words_in(box):
    return " ".join(" ".join("".join(text.itertext()).split()) for text in box.findall(SVG + "text"))


class Blocks(unittest.TestCase):
    """Sites of more than 60 units."""

    def boxes(self, root, kind):
        return [g for g in root.iter(SVG + "g") if g.get("class") == f"box {kind}"]

    @on_each(large_drawings)
    def test_a_page_holds_it_and_its_digits_are_legible(self, _, root):
        self.assertGreaterEqual(min(digit_heights(root)), 1.8)

    @on_each(large_drawings)
    def test_every_set_is_a_box(self, losses, root):
        shown = []
        for g in self.boxes(root, "set"):
            said = words_in(g)
            head = re.match(r"(\d+) units, (\d+) links: ", said)
            units = numbers_in(said[head.end() :] if head else said)
            links = [int(j) for j in g.get("data-links").split()]
            if head:
                self.assertEqual((int(head[1]), int(head[2])), (len(units), len(links)))
            self.assertEqual(units, sorted({v for j in links for v in losses.site.links[j]}))
            shown.append(links)
        self.assertEqual(sorted(shown), sorted(losses.backed()))

    @on_each(large_drawings)
    def test_every_single_point_and_lone_link_is_shown(self, losses, root):
        links = losses.site.links
        singles = {int(g.get("data-unit")) for g in classed(root, "unit")}
        shown = [int(g.get("data-link")) for g in root.iter(SVG + "g") if g.get("data-link")]
        for g in self.boxes(root, "ends"):
            of = [int(j) for j in g.get("data-links").split()]
            units = numbers_in(words_in(g).split(": ")[-1])
            hubs = set.intersection(*(set(links[j]) for j in of)) - set(units)
            self.assertEqual(sorted(v for j in of for v in links[j] if v not in hubs), units)
            shown += of
        for g in self.boxes(root, "chain") + self.boxes(root, "tails"):
            of = [int(j) for j in g.get("data-links").split()]
            walks = [chain_in(walk) for walk in words_in(g).split(": ", 1)[1].split("; ")]
            walked = sorted(tuple(sorted(pair)) for walk in walks for pair in zip(walk, walk[1:]))
            self.assertEqual(walked, sorted(tuple(sorted(links[j])) for j in of))
            singles |= {v for walk in walks for v in walk} & {v for walk in walks for v in walk[1:-1]}
            shown += of
        self.assertEqual(sorted(shown), sorted(losses.link_parts))
        self.assertEqual(singles, set(losses.unit_parts))

    @on_each(large_drawings)
    def test_nobody_is_left_out(self, losses, root):
        shown = {
            v
            for g in root.iter(SVG + "g")
            if (g.get("class") or "").startswith("box")
            for v in map(int, g.get("data-units").split())
        }
        shown |= {int(g.get("data-unit")) for g in classed(root, "unit")}
        self.assertEqual(shown, set(range(losses.site.units)))
        deaf = [part[0] for part in losses.groups if len(part) == 1]
        self.assertEqual([v for g in self.boxes(root, "deaf") for v in numbers_in(words_in(g))], deaf)

    @on_each(large_drawings)
    def test_weak_is_dashed_or_dark(self, _, root):
        for g in root.iter(SVG + "g"):
            if (g.get("class") or "").startswith("box"):
                self.assertEqual(g.find(SVG + "rect").get("stroke-dasharray") is None, g.get("class") == "box set")
        for g in classed(root, "unit"):
            self.assertEqual(g.find(SVG + "rect").get("fill"), ink.WEAK)

    @on_each(large_drawings)
    def test_nothing_covers_anything(self, _, root):
        """Boxes and single points lie apart and on the page, and no line leads through one."""
        left, top, wide, high = view(root)
        for column in root.findall(SVG + "g[@transform]"):
            if column.get("class"):
                continue
            x0, y0 = (float(k) for k in re.findall(r"-?[\d.]+", column.get("transform")))
            rects = []
            for g in column.iter(SVG + "g"):
                if (g.get("class") or "").startswith("box") or g.get("data-unit"):
                    rects.append(tuple(float(g.find(SVG + "rect").get(k)) for k in ("x", "y", "width", "height")))
            for x, y, w, h in rects:
                self.assertTrue(
                    left <= x + x0 and x + w + x0 <= left + wide and top <= y + y0 and y + h + y0 <= top + high
                )
            rects.sort(key=lambda r: r[1])
            for i, (x, y, w, h) in enumerate(rects):
                for px, py, pw, ph in rects[i + 1 :]:
                    if py >= y + h:
                        break
                    self.assertTrue(px >= x + w or x >= px + pw)
            for path in column.iter(SVG + "path"):
                n = [float(k) for k in re.findall(r"-?[\d.]+", path.get("d"))]
                for ax, ay, bx, by in zip(n[::2], n[1::2], n[2::2], n[3::2]):
                    for x, y, w, h in rects:
                        through = min(ax, bx) < x + w - 3 and max(ax, bx) > x + 3 and min(ay, by) < y + h - 3 and max(
                            ay, by
                        ) > y + 3
                        inside = x - 1 <= min(ax, bx) and max(ax, bx) <= x + w + 1
                        # a line may begin or end under a single point, which covers its end
                        ends = any(x <= ex <= x + w and y <= ey <= y + h for ex, ey in ((ax, ay), (bx, by)))
                        self.assertFalse(through and not ends, (path.get("d"), (x, y, w, h), inside))

    @on_each(large_drawings)
    def test_pieces_come_first(self, losses, root):
        said = " ".join("".join(g.itertext()) for g in classed(root, "pieces"))
        self.assertEqual("NOBODY" in said, any(len(part) == 1 for part in losses.groups))
        self.assertEqual("SEPARATE GROUPS" in said, sum(len(part) > 1 for part in losses.groups) > 1)


def town(units, seed):
    """Streets between crossings that stand in rows, some of them missing."""
    pick = random.Random(seed)
    rows = [(v, v + 1) for v in range(units - 1) if v % 16 < 15 and pick.random() < 0.75]
    return made(units, rows + [(v, v + 16) for v in range(units - 16) if pick.random() < 0.75])


def rings_in_a_row(units):
    """Rings of six units, each joined to the next by a lone link: as a block tree, a staircase."""
    links = []
    for start in range(0, units - 5, 6):
        links += [(start + k, start + (k + 1) % 6) for k in range(6)] + [(start + 3, start + 6)] * (
            start + 6 < units - 5
        )
    return made(units - units % 6, links)


class Kinds(unittest.TestCase):
    """Every unit and link is drawn where that is legible, else the block tree."""

    def test_what_is_legible(self):
        pick = random.Random(4)
        crossed = [pick.sample(range(100), 2) for _ in range(230)]
        star = [(0, v) for v in range(1, 200)]
        for name, losses, full in [
            ("town of 120", town(120, 1), True),
            ("rings", rings_in_a_row(240), True),
            ("links that cross", made(100, crossed), False),
            ("star", made(200, star), False),
        ]:
            with self.subTest(name):
                root = ElementTree.fromstring(drawing.svg_of(losses))
                heights = digit_heights(root)
                if full:
                    self.assertEqual(len(circles(root)), losses.site.units)
                    self.assertEqual(list(lies(losses, root)), [])
                else:
                    kinds = {g.get("class") for g in root.iter(SVG + "g")}
                    self.assertTrue(kinds & {"box set", "box ends"})
                self.assertGreaterEqual(min(heights), 1.8 if not full or losses.site.units <= 140 else 1.3)


class Large(unittest.TestCase):
    """The full drawing on request."""

    def test_no_link_through_a_stranger(self):
        every = os.environ.get("LINK_SURVEY_ALL")
        kinds = {}
        for name, losses, _ in large_drawings():
            kind = re.sub(r"^\w*?_v_|\.in$", "", name)
            if every or kind != name:
                kinds.setdefault(name if every else kind, (name, losses))
        self.assertGreater(len(kinds), 8)
        for name, losses in kinds.values():
            with self.subTest(name):
                root = ElementTree.fromstring(drawing.svg_of(losses, full=True))
                self.assertEqual(list(lies(losses, root)), [])
                self.assertEqual(len(circles(root)), losses.site.units)


class Ways(unittest.TestCase):
    """Links among units that do not move."""

    def test_every_way_keeps_clear(self):
        pick = random.Random(3)
        bent = cornered = 0
        for _ in range(60):
            places = {}
            while len(places) < 25:
                p = pick.uniform(0, 500), pick.uniform(0, 500)
                if all(math.dist(p, q) >= 62 for q in places.values()):
                    places[len(places)] = p
            links = [pick.sample(range(25), 2) for _ in range(12)]
            for (a, b), way in zip(links, routes.routed(places, links, {})):
                points = points_of(routes.drawn(way))
                nearest = min(math.dist(p, q) for v, q in places.items() if v not in (a, b) for p in points)
                self.assertGreaterEqual(nearest, ink.CLEAR - 0.5)
                bent += len(way) == 3
                cornered += len(way) > 3
        self.assertTrue(bent > 50 and cornered > 10, (bent, cornered))


class Trees(unittest.TestCase):
    def test_blocks(self):
        """Case B: a ring and a chain end."""
        losses = made(4, [(0, 1), (1, 2), (0, 2), (2, 3)])
        self.assertEqual(blocks.blocks_of(losses), [blocks.Block([0, 1, 2], [0, 1, 2]), blocks.Block([3], [2, 3])])
        root = blocks.Forest(losses).roots[0]
        self.assertEqual((root.kind, root.units, [p.unit for p in root.points]), ("set", [0, 1, 2], [2]))
        self.assertEqual([(n.kind, n.units) for n in root.points[0].nodes], [("ends", [3])])


if __name__ == "__main__":
    unittest.main()
