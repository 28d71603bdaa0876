"""Tests of what is written for other programs, read back: python3 tools/test_export.py"""
import csv
import io
import json
import re
import shutil
import subprocess
import unittest

import export
from files import Given
from losses import Losses
from plain_text import read_all
from survey_text import ABSENT, LOWEST_LEVEL, Site, read_report, read_site
from testing import Door, contents, example, valid, weak_by_removal

NAMED = (
    'units 5\n0-1\n1-2 -63\n0-2 -127\n2-3 0\n0 = head "N1", left\n1 = "a \\ b # c"\n2 = Br\u00fccke; 2\n3 = =1+1\n'
    "3 @ 120.5 -4\n0 @ 0\nreach 250\n"
).encode()


def sites():
    """Tables with their reports, and what plain text tells beside them."""
    for name, file, report in valid():
        yield name, Given(name, file), read_report(report)
    text = read_all(NAMED)
    yield "named", Given("named", b"", text.names, text.places, text.reach), None


def site_of(given):
    return read_site(given.data) if given.data else read_all(NAMED).site


def rebuilt(units, links):
    """The table of links that are read back, with their levels, None for none."""
    levels = [LOWEST_LEVEL if level is None else level for _, level in links]
    return Site(units, [pair for pair, _ in links], levels, [2 if level is None else 3 for _, level in links])


class ReadBack(unittest.TestCase):
    """Each form of each vector: the table is the one that was given, the marks those of the report, or of removal."""

    def each(self):
        for name, given, report in sites():
            site = site_of(given)
            with self.subTest(name):
                weak = weak_by_removal(site.units, site.links) if site.units < 60 else None
                yield site, given, report, Losses(site), weak

    def marks(self, site, report, weak, single, lone):
        """Single points and lone links as they must be."""
        if report:
            self.assertEqual(single, {v for v, unit in enumerate(report.units) if unit.single})
            self.assertEqual(lone, {j for j, link in enumerate(report.links) if link.lone})
        if weak is not None:
            self.assertEqual(single, {lost for lost in weak if isinstance(lost, int)})
            self.assertEqual(lone, {j for j, link in enumerate(site.links) if frozenset(link) in weak})

    def test_json(self):
        for site, given, report, losses, weak in self.each():
            told = json.loads(export.json_of(losses, report, given, "program"))
            self.assertEqual((told["form"], told["by"], told["reach"]), ("link survey 1", "program", given.reach))
            units, links = told["units"], told["links"]
            self.assertEqual([unit["unit"] for unit in units], list(range(site.units)))
            self.assertEqual([link["link"] for link in links], list(range(len(site.links))))
            self.assertEqual(rebuilt(len(units), [(tuple(link["ends"]), link["level"]) for link in links]), site)
            self.assertEqual({unit["unit"]: unit["name"] for unit in units if unit["name"]}, given.names)
            places = {unit["unit"]: tuple(unit["metres"]) for unit in units if unit["metres"] is not None}
            self.assertEqual(places, given.places)
            single = {unit["unit"] for unit in units if unit["single_point"]}
            self.marks(site, report, weak, single, {link["link"] for link in links if link["lone"]})
            if report:
                self.assertEqual(told["survey"]["rounds"], report.rounds)
                self.assertEqual(told["survey"]["requests"], report.requests)
                for unit, line in zip(units, report.units):
                    parent = None if line.parent == ABSENT else line.parent
                    self.assertEqual((unit["group"], unit["parent"], unit["place"]), (line.color, parent, line.place))
                self.assertEqual([link["label"] for link in links], [line.label for line in report.links])
                self.assertEqual(len(told["groups"]), len({line.color for line in report.units}))
            places = told["weak_places"]
            found = [each["unit"] if "unit" in each else frozenset(site.links[each["link"]]) for each in places]
            for each, lost in zip(places, found if weak is not None else ()):
                self.assertEqual(set(map(frozenset, each["parts"])), weak[lost])
                self.assertEqual(each["cuts_off"], sum(sorted(map(len, weak[lost]))[:-1]))
            self.assertEqual(len(found), len(set(found)))
            self.assertEqual(len(found), len(losses.unit_parts) + len(losses.link_parts))

    def test_csv(self):
        for site, given, report, losses, weak in self.each():
            data = export.csv_of(losses, report, given).encode("utf-8")
            rows = list(csv.DictReader(io.StringIO(data.decode("utf-8-sig"), newline="")))
            units, links = ([row for row in rows if row["what"] == what] for what in ("unit", "link"))
            self.assertEqual(rows, units + links)
            self.assertEqual([int(row["number"]) for row in units], list(range(site.units)))
            self.assertEqual([int(row["number"]) for row in links], list(range(len(site.links))))
            ends = [(int(row["first"]), int(row["second"])) for row in links]
            levels = [int(row["level"]) if row["level"] else None for row in links]
            self.assertEqual(rebuilt(len(units), list(zip(ends, levels))), site)
            self.assertEqual({int(row["number"]): row["name"] for row in units if row["name"]}, given.names)
            places = {int(row["number"]): (float(row["along"]), float(row["across"])) for row in units if row["along"]}
            self.assertEqual(places, given.places)
            single = {int(row["number"]) for row in units if row["weak"] == "single point"}
            self.marks(site, report, weak, single, {int(row["number"]) for row in links if row["weak"] == "lone"})
            if report:
                self.assertEqual([int(row["label"]) for row in links], [line.label for line in report.links])
                parents = [int(row["parent"] or ABSENT) for row in units]
                self.assertEqual(parents, [line.parent for line in report.units])
                self.assertEqual([int(row["place"]) for row in units], [line.place for line in report.units])

    def test_dot(self):
        for site, given, report, losses, weak in self.each():
            text = export.dot_of(losses, report, given)
            value = r'"((?:[^"\\]|\\.)*)"'
            nodes = re.findall(r"(?m)^  (\d+) \[(.*)\];$", text)
            edges = re.findall(r"(?m)^  (\d+) -- (\d+) \[(.*)\];$", text)
            self.assertEqual(text.count("\n"), 4 + len(nodes) + len(edges))
            looks = [dict(re.findall(rf"(\w+)={value}(?:, |$)", look)) for *_, look in nodes + edges]
            self.assertEqual([int(v) for v, _ in nodes], list(range(site.units)))
            levels = []
            for j, look in enumerate(looks[len(nodes):]):
                position, _, level = look["label"].partition(" ")
                self.assertEqual((look["id"], int(position)), (f"link{j}", j))
                levels.append(int(level.removesuffix(" dBm")) if level else None)
            ends = [(int(a), int(b)) for a, b, _ in edges]
            self.assertEqual(rebuilt(len(nodes), list(zip(ends, levels))), site)
            names = {}
            for v, look in enumerate(looks[:len(nodes)]):
                number, line_feed, name = look["label"].partition("\\n")
                self.assertEqual(int(number), v)
                if line_feed:
                    names[v] = re.sub(r"\\(.)", r"\1", name)
            self.assertEqual(names, given.names)
            single = {v for v, look in enumerate(looks[:len(nodes)]) if look.get("style") == "filled"}
            lone = {j for j, look in enumerate(looks[len(nodes):]) if look.get("style") == "dashed"}
            self.marks(site, report, weak, single, lone)

    @unittest.skipUnless(shutil.which("dot"), "no Graphviz here: apt-get install graphviz")
    def test_graphviz(self):
        for _, given, report, losses, _ in self.each():
            text = export.dot_of(losses, report, given)
            done = subprocess.run(["dot", "-Tcanon"], input=text.encode(), capture_output=True, check=False)
            self.assertEqual((done.returncode, done.stderr), (0, b""))


class Written(Door):
    CASE = example("case-b.txt"), "--report", example("case-b.report.txt")

    def test_files(self):
        paths = [self.at(name) for name in ("a.json", "a.csv", "a.dot")]
        code, said, told = self.run_door(*self.CASE, "--json", paths[0], "--csv", paths[1], "--dot", paths[2])
        self.assertEqual((code, said, told), self.run_door(*self.CASE))
        self.assertEqual(json.loads(contents(paths[0]))["by"], "report")
        self.assertTrue(contents(paths[1]).startswith(b"\xef\xbb\xbfwhat,number,"))
        self.assertTrue(contents(paths[2]).startswith(b"graph site {\n"))

    def test_standard_output(self):
        words = self.run_door(*self.CASE)[1]
        for form in "--json", "--csv", "--dot":
            code, said, told = self.run_door(*self.CASE, form, "-")
            self.assertEqual((code, told), (1, words))
            self.assertTrue(said)
        self.fails(self.run_door(*self.CASE, "--json", "-", "--csv", "-"), "only one - can be standard output")

    def test_no_input_is_overwritten(self):
        site = self.at("site.txt", contents(example("case-b.txt")))
        self.fails(self.run_door(site, "--json", site), "it would be overwritten")


if __name__ == "__main__":
    unittest.main()
