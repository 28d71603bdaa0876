"""Tests of the words in drawings: python3 tools/test_names.py

On dozens of named roads every name is read back from the drawing and measured here anew, by the widths of its
letters in DejaVu Sans: it stands in full, on the page, beside its own unit, and over no other name, number or unit.
"""
import functools
import math
import random
import re
import unittest
import xml.etree.ElementTree as ElementTree

import block_drawing
import drawing
from limits import Limits
from losses import Losses
from proposals import proposed
from test_drawing import SVG, circles, classed, digit_heights, lies, made, road_site, view

ROADS = 40
KINDS = [
    "Verstärker Brücke Nord", "Verstärker Brücke Süd", "Verstärker Brücke Mitte", "Ampel Hauptstraße Ost", "Kopf N{}",
    "Baustellenausfahrt Lkw {}", "repeater {}", "head S{}", "Übergang Schule Görlitzer Straße", "lorry exit", "Tor {}",
    "Fußgängerüberweg Rathausplatz {}", "Zufahrt #2 - West", "Straßenbahnhaltestelle Österreichring {}",
    "side road {}", "WWWWWWWWWWWWWWWW {}",
]
# thousandths of the font's size
NARROW, BROAD = set("fijltIJ .,:;-'()r/"), set("mwMWOQGDHNU#Ö@")


def wide(said, size=15):
    """At least as much as a text takes in a common font: narrow letters two fifths, broad ones seven tenths to one."""
    each = [0.27 if c in NARROW else 0.74 if c in BROAD else 0.52 for c in said]
    return size * sum(each)


def named_road(seed):
    pick = random.Random(seed)
    losses = road_site(seed)
    names = {v: pick.choice(KINDS).format(v) for v in range(losses.site.units) if pick.random() < 0.95}
    return losses, names


@functools.cache
def drawings():
    """(name, losses, names, drawing) of named roads, some with spares that are proposed, and one of a site before."""
    found = []
    for seed in range(ROADS):
        losses, names = named_road(seed)
        spares = proposed(losses, 2, Limits(), Losses) if seed % 4 == 0 else None
        found.append(
            (f"road {seed}", losses, names, ElementTree.fromstring(drawing.svg_of(losses, names, found=spares)))
        )
    return found


def lines_of(group):
    """The lines of a name within a group: text, left, right, top and bottom."""
    out = []
    for text in group.findall(SVG + "text"):
        if text.get("class") != "name":
            continue
        w, x, y = wide(text.text), float(text.get("x")), float(text.get("y"))
        left = {"middle": x - w / 2, "end": x - w}.get(text.get("text-anchor"), x)
        out.append((text.text, left, left + w, y - 11, y + 3))
    return out


def box_of(lines):
    return min(k[1] for k in lines), max(k[2] for k in lines), min(k[3] for k in lines), max(k[4] for k in lines)


def over(a, b):
    return a[0] < b[1] and b[0] < a[1] and a[2] < b[3] and b[2] < a[3]


def beside_units(root):
    """The box of each name that stands beside its unit, and its words."""
    found = {}
    for g in classed(root, "unit"):
        lines = lines_of(g)
        if lines:
            found[int(g.get("data-unit"))] = box_of(lines), " ".join(line[0] for line in lines)
    return found


def in_legend(root):
    return {int(g.get("data-name")): lines_of(g) for g in classed(root, "listed")}


def far(box, x, y):
    return math.hypot(x - min(max(x, box[0]), box[1]), y - min(max(y, box[2]), box[3]))


class Names(unittest.TestCase):
    def each(self):
        for name, losses, names, root in drawings():
            with self.subTest(name):
                yield losses, names, root

    def test_every_name_stands_in_full(self):
        """Beside its unit or under its number in the legend, once, and most beside."""
        beside_all = told = 0
        for _, names, root in self.each():
            beside, listed = beside_units(root), in_legend(root)
            self.assertEqual(beside.keys() | listed.keys(), names.keys())
            self.assertFalse(beside.keys() & listed.keys())
            for v, (_, said) in beside.items():
                self.assertEqual(said, names[v])
            for v, lines in listed.items():
                self.assertEqual([line[0] for line in lines], [names[v]])
            self.assertNotIn("…", "".join(root.itertext()))
            beside_all, told = beside_all + len(beside), told + len(names)
        self.assertGreater(told, 1000)
        self.assertGreater(beside_all, 0.6 * told)

    def test_none_passes_the_edge(self):
        for _, _, root in self.each():
            left, top, width, high = view(root)
            boxes = [box for box, _ in beside_units(root).values()] + [
                box_of(lines) for lines in in_legend(root).values()
            ]
            for x1, x2, y1, y2 in boxes:
                self.assertTrue(left <= x1 and x2 <= left + width and top <= y1 and y2 <= top + high)

    def test_none_over_another(self):
        for _, _, root in self.each():
            boxes = [box for box, _ in beside_units(root).values()] + [
                box_of(lines) for lines in in_legend(root).values()
            ]
            for i, box in enumerate(boxes):
                for other in boxes[:i]:
                    self.assertFalse(over(box, other))

    def test_none_over_a_number_or_a_unit(self):
        for _, _, root in self.each():
            units = circles(root)
            numbers = []
            for text in root.iter(SVG + "text"):
                if text.get("data-of"):
                    x, y, w = float(text.get("x")), float(text.get("y")), 8 * len(text.text)
                    numbers.append((x - w / 2, x + w / 2, y - 10, y + 1))
            for v, (box, _) in beside_units(root).items():
                for number in numbers:
                    self.assertFalse(over(box, number))
                for x, y, r in units.values():
                    self.assertGreater(far(box, x, y), r - 2)

    def test_each_is_nearest_to_its_own_unit(self):
        for _, _, root in self.each():
            units = circles(root)
            for v, (box, _) in beside_units(root).items():
                own = far(box, *units[v][:2])
                self.assertLess(own, 40)
                for w, (x, y, _) in units.items():
                    self.assertTrue(w == v or far(box, x, y) > own)

    def test_legible(self):
        for losses, _, root in self.each():
            self.assertGreaterEqual(min(digit_heights(root)), 1.5)
            self.assertEqual([lie for lie in lies(losses, root)] if not classed(root, "spare") else [], [])

    def test_in_the_block_tree(self):
        """The names of weak units, in full and in columns."""
        losses = made(80, [(v, v + 1) for v in range(79)])
        names = {v: KINDS[v % len(KINDS)].format(v) for v in range(80)}
        root = ElementTree.fromstring(block_drawing.svg_of(losses, names))
        listed = in_legend(root)
        self.assertEqual({v: lines[0][0] for v, lines in listed.items()}, names)
        boxes = [box_of(lines) for lines in listed.values()]
        for i, box in enumerate(boxes):
            self.assertFalse(any(over(box, other) for other in boxes[:i]))


class Spares(unittest.TestCase):
    def test_spares_are_drawn(self):
        """Each spare is a square with its number, with a line to each unit that hears it; what it cures is marked."""
        for seed in range(12):
            losses = road_site(seed)
            found = proposed(losses, 2, Limits(), Losses)
            after = found.steps[-1].losses if found.steps else losses
            root = ElementTree.fromstring(drawing.svg_of(losses, found=found))
            said = ["".join(g.find(SVG + "text").itertext()) for g in classed(root, "spare")]
            self.assertEqual(said, [f"S{k + 1}" for k in range(len(found.steps))])
            self.assertEqual(len(classed(root, "line")), 2 * len(found.steps))
            marked = {
                kind: {int(g.get("data-unit")) for g in classed(root, "unit") if kind in g.get("class")}
                for kind in ("single", "cured")
            }
            self.assertEqual(marked["single"], {v for v in after.unit_parts if v < losses.site.units})
            self.assertEqual(marked["cured"], set(losses.unit_parts) - set(after.unit_parts))
            links = {int(g.get("data-link")) for g in classed(root, "link") if "cured" in g.get("class")}
            self.assertEqual(links, set(losses.link_parts) - set(after.link_parts))
            told = " ".join("".join(g.itertext()) for g in classed(root, "legend"))
            for k, step in enumerate(found.steps, 1):
                self.assertIn(f"spare {k}, heard by units {step.heard_by[0]} and {step.heard_by[1]}: ", told)

    def test_not_by_the_proved_program(self):
        losses = road_site(3)
        for svg in drawing.svg_of(losses, proved=False), block_drawing.svg_of(losses, proved=False):
            self.assertRegex("".join(ElementTree.fromstring(svg).itertext()), "NOT BY THE PROVED PROGRAM")
        self.assertFalse(re.search("(?i)proved", drawing.svg_of(losses)))


if __name__ == "__main__":
    unittest.main()
